//! Typed rules as trees: random ones, the rule that each one says, and its spelling.
//!
//! The rule is put together from the tree and not read from the text, so a reader of the
//! text can be held against it.

use crate::letters::{in_another_case, Letters};
use crate::logs::different_labels;
use crate::random::Random;
use reference::rule::{
    Node, Rule, AND, BEFORE, HAS_LABEL, INCLUDES, MAX_NESTED, MAX_NODES, MAX_RULE_LABELS, NOT, OVERLAPS, SAME, SOME,
};

pub type Name = Vec<u8>;
pub type Label = Vec<u8>;

/// What is typed. A pair has the kind of its node: before, overlaps, includes or same.
#[derive(Clone, PartialEq, Eq, Debug)]
pub enum Typed {
    Or(Box<Typed>, Box<Typed>),
    And(Box<Typed>, Box<Typed>),
    Not(Box<Typed>),
    Exist(Vec<Name>, Box<Typed>),
    Has(Name, Label),
    Pair(u8, Name, Name),
}

pub fn or(first: Typed, second: Typed) -> Typed {
    Typed::Or(Box::new(first), Box::new(second))
}

pub fn and(first: Typed, second: Typed) -> Typed {
    Typed::And(Box::new(first), Box::new(second))
}

pub fn not(child: Typed) -> Typed {
    Typed::Not(Box::new(child))
}

pub fn exist(names: Vec<Name>, child: Typed) -> Typed {
    Typed::Exist(names, Box::new(child))
}

impl Typed {
    /// How many nodes its table has.
    pub fn node_count(&self) -> usize {
        match self {
            Typed::Or(first, second) => 4 + first.node_count() + second.node_count(),
            Typed::And(first, second) => 1 + first.node_count() + second.node_count(),
            Typed::Not(child) => 1 + child.node_count(),
            Typed::Exist(names, child) => names.len() + child.node_count(),
            Typed::Has(..) | Typed::Pair(..) => 1,
        }
    }

    /// Whether it has more nodes or more different labels than a rule file can hold. Labels that
    /// differ only in case are one.
    pub fn is_too_large(&self) -> bool {
        let mut labels = Vec::new();
        self.add_labels(&mut labels);
        labels.sort();
        labels.dedup();
        self.node_count() > MAX_NODES || labels.len() > MAX_RULE_LABELS
    }

    fn add_labels(&self, labels: &mut Vec<Label>) {
        match self {
            Typed::Or(first, second) | Typed::And(first, second) => {
                first.add_labels(labels);
                second.add_labels(labels);
            }
            Typed::Not(child) | Typed::Exist(_, child) => child.add_labels(labels),
            Typed::Has(_, label) => labels.push(label.to_ascii_uppercase()),
            Typed::Pair(..) => {}
        }
    }

    /// The rule that it says, with labels in capitals. Every name is bound, and all counts are in their ranges.
    pub fn rule(&self) -> Rule {
        let mut rule = Rule { labels: Vec::new(), nodes: Vec::new() };
        self.add_to(&mut rule, &mut Vec::new());
        rule
    }

    /// Adds its nodes and labels; answers the number of its last node.
    fn add_to(&self, rule: &mut Rule, bound: &mut Vec<Name>) -> u8 {
        match self {
            Typed::Or(first, second) => {
                let first = first.add_to(rule, bound);
                let not_first = add_node(rule, NOT, first, 0);
                let second = second.add_to(rule, bound);
                let not_second = add_node(rule, NOT, second, 0);
                let neither = add_node(rule, AND, not_first, not_second);
                add_node(rule, NOT, neither, 0)
            }
            Typed::And(first, second) => {
                let first = first.add_to(rule, bound);
                let second = second.add_to(rule, bound);
                add_node(rule, AND, first, second)
            }
            Typed::Not(child) => {
                let child = child.add_to(rule, bound);
                add_node(rule, NOT, child, 0)
            }
            Typed::Exist(names, child) => {
                let outside = bound.len();
                bound.extend(names.iter().cloned());
                let mut last = child.add_to(rule, bound);
                for level in (outside..bound.len()).rev() {
                    last = add_node(rule, SOME, level as u8, last);
                }
                bound.truncate(outside);
                last
            }
            Typed::Has(name, label) => {
                let capitals = label.to_ascii_uppercase();
                let listed = rule.labels.iter().position(|other| *other == capitals);
                let place = listed.unwrap_or(rule.labels.len());
                if listed.is_none() {
                    rule.labels.push(capitals);
                }
                add_node(rule, HAS_LABEL, level(name, bound), place as u8)
            }
            Typed::Pair(kind, a, b) => add_node(rule, *kind, level(a, bound), level(b, bound)),
        }
    }

    /// Its signs in turn. Brackets stand where they are needed, and in so many of a hundred
    /// other places.
    pub fn signs(&self, random: &mut Random, brackets: usize) -> Vec<Vec<u8>> {
        let mut signs = Vec::new();
        self.add_signs(random, brackets, 1, true, &mut signs);
        signs
    }

    /// Adds the signs of an operand of something that binds less closely than `level`: 1 for
    /// a whole rule, 2 beside "or", 3 beside "and" or after "not". An "exist" needs no bracket
    /// only where nothing follows it.
    fn add_signs(&self, random: &mut Random, brackets: usize, level: u8, is_last: bool, signs: &mut Vec<Vec<u8>>) {
        let has_level = match self {
            Typed::Or(..) => level <= 1,
            Typed::And(..) => level <= 2,
            Typed::Exist(..) => is_last,
            _ => true,
        };
        if !has_level || random.chance(brackets, 100) {
            add_words(signs, "(");
            self.add_signs(random, brackets.min(70), 1, true, signs);
            add_words(signs, ")");
            return;
        }
        match self {
            Typed::Or(first, second) => {
                first.add_signs(random, brackets, 1, false, signs);
                add_words(signs, "|");
                second.add_signs(random, brackets, 2, is_last, signs);
            }
            Typed::And(first, second) => {
                first.add_signs(random, brackets, 2, false, signs);
                add_words(signs, "&");
                second.add_signs(random, brackets, 3, is_last, signs);
            }
            Typed::Not(child) => {
                add_words(signs, "!");
                child.add_signs(random, brackets, 3, is_last, signs);
            }
            Typed::Exist(names, child) => {
                add_words(signs, "exist");
                for (place, name) in names.iter().enumerate() {
                    if place > 0 {
                        add_words(signs, ",");
                    }
                    signs.push(name.clone());
                }
                add_words(signs, ".");
                child.add_signs(random, brackets, 1, true, signs);
            }
            Typed::Has(name, label) => {
                signs.push(name.clone());
                add_words(signs, "(");
                signs.push([b"'", label.as_slice(), b"'"].concat());
                add_words(signs, ")");
            }
            Typed::Pair(SAME, a, b) => {
                add_words(signs, "same (");
                signs.push(a.clone());
                add_words(signs, ",");
                signs.push(b.clone());
                add_words(signs, ")");
            }
            Typed::Pair(kind, a, b) => {
                signs.push(a.clone());
                add_words(signs, relation_sign(*kind));
                signs.push(b.clone());
            }
        }
    }
}

fn add_node(rule: &mut Rule, kind: u8, a: u8, b: u8) -> u8 {
    rule.nodes.push(Node { kind, a, b });
    rule.nodes.len() as u8 - 1
}

fn level(name: &Name, bound: &[Name]) -> u8 {
    bound.iter().rposition(|other| other == name).expect("a bound name") as u8
}

/// Adds signs that are written here with spaces between them.
fn add_words(signs: &mut Vec<Vec<u8>>, words: &str) {
    signs.extend(words.split(' ').map(|word| word.as_bytes().to_vec()));
}

fn relation_sign(kind: u8) -> &'static str {
    match kind {
        BEFORE => "<",
        OVERLAPS => "o",
        _ => "i",
    }
}

/// How many spaces and LFs stand between signs.
#[derive(Clone, Copy)]
pub enum Spacing {
    /// Only where a name would swallow what follows.
    None,
    /// One space everywhere.
    One,
    /// None to two, now and then many.
    Any,
}

/// The text of the signs.
pub fn joined(random: &mut Random, signs: &[Vec<u8>], spacing: Spacing) -> Vec<u8> {
    let mut text = Vec::new();
    add_gap(random, spacing, &mut text);
    for (place, sign) in signs.iter().enumerate() {
        let length = text.len();
        if place > 0 {
            add_gap(random, spacing, &mut text);
            let is_name = signs[place - 1].first().is_some_and(u8::is_ascii_uppercase);
            if is_name && text.len() == length && sign.first().is_some_and(u8::is_ascii_alphanumeric) {
                text.push(*random.pick(b" \n"));
            }
        }
        text.extend(sign);
    }
    add_gap(random, spacing, &mut text);
    text
}

fn add_gap(random: &mut Random, spacing: Spacing, text: &mut Vec<u8>) {
    let length = match spacing {
        Spacing::None => 0,
        Spacing::One => 1,
        Spacing::Any if random.chance(1, 40) => random.below(60),
        Spacing::Any => random.below(3),
    };
    for _ in 0..length {
        text.push(if matches!(spacing, Spacing::One) { b' ' } else { *random.pick(b"  \n") });
    }
}

/// What a random rule is made from.
pub struct Stock {
    /// Whether names are single letters.
    short_names: bool,
    labels: Vec<Label>,
    /// How the labels are written.
    letters: Letters,
    /// How many names may be bound one inside another.
    depth: usize,
}

impl Stock {
    pub fn any(random: &mut Random) -> Stock {
        let count = *random.pick(&[0, 1, 2, 2, 3, 5, 10, 16]);
        let depth = *random.pick(&[1, 2, 3, 4, MAX_NESTED]);
        let labels = different_labels(random, count);
        Stock { short_names: random.chance(1, 3), labels, letters: Letters::any(random), depth }
    }

    /// A rule of at most so many nodes, two at least.
    pub fn rule(&self, random: &mut Random, most: usize) -> Typed {
        self.tree(random, &mut Vec::new(), most)
    }

    /// A part of at most so many nodes inside these bindings. With nothing bound yet it needs
    /// two nodes.
    fn tree(&self, random: &mut Random, bound: &mut Vec<Name>, most: usize) -> Typed {
        let least = if bound.is_empty() { 2 } else { 1 };
        if most > 2 * least + 4 && random.chance(1, 5) {
            let part = random.between(least, most - 4 - least);
            return or(self.tree(random, bound, part), self.tree(random, bound, most - 4 - part));
        }
        if most > 2 * least && random.chance(2, 5) {
            let part = random.between(least, most - 1 - least);
            return and(self.tree(random, bound, part), self.tree(random, bound, most - 1 - part));
        }
        if most > least && random.chance(1, 3) {
            return not(self.tree(random, bound, most - 1));
        }
        let room = (self.depth - bound.len()).min(most - 1);
        if room > 0 && (bound.is_empty() || random.chance(1, 2)) {
            let outside = bound.len();
            for _ in 0..random.between(1, room) {
                let name = self.new_name(random, bound);
                bound.push(name);
            }
            let names = bound[outside..].to_vec();
            let child = self.tree(random, bound, most - names.len());
            bound.truncate(outside);
            return exist(names, child);
        }
        self.atom(random, bound)
    }

    /// A name to bind, now and then one that is bound already, or such a one in another case.
    fn new_name(&self, random: &mut Random, bound: &[Name]) -> Name {
        if !bound.is_empty() && random.chance(1, 6) {
            return random.pick(bound).clone();
        }
        if !bound.is_empty() && random.chance(1, 6) {
            let name = random.pick(bound);
            return name_in_another_case(random, name);
        }
        if self.short_names {
            vec![*random.pick(b"ABCDXO")]
        } else {
            any_name(random)
        }
    }

    fn atom(&self, random: &mut Random, bound: &[Name]) -> Typed {
        let a = random.pick(bound).clone();
        if !self.labels.is_empty() && random.chance(2, 5) {
            let label = random.pick(&self.labels);
            return Typed::Has(a, self.letters.write(random, label));
        }
        Typed::Pair(*random.pick(&[BEFORE, OVERLAPS, INCLUDES, SAME]), a, random.pick(bound).clone())
    }
}

/// A name of 1 to 8 bytes. Some look like other signs.
pub fn any_name(random: &mut Random) -> Name {
    let known: [&[u8]; 8] = [b"A", b"Z", b"Exist", b"Same", b"AoB", b"OiO", b"A1", b"B2"];
    if random.chance(1, 5) {
        return random.pick(&known).to_vec();
    }
    let length = random.between(1, 8);
    name_of(random, length)
}

/// The name with one letter or more in the other case, where it has one behind its capital. It is another name.
pub fn name_in_another_case(random: &mut Random, name: &[u8]) -> Name {
    [&name[..1], &in_another_case(random, &name[1..])].concat()
}

/// A name of so many bytes.
pub fn name_of(random: &mut Random, length: usize) -> Name {
    let mut name = vec![random.between(b'A'.into(), b'Z'.into()) as u8];
    while name.len() < length {
        name.push(*random.pick(b"AZaz09oiexsm"));
    }
    name
}
