//! Texts of typed rules and rule files to be written out, with lent buffers: well-formed
//! ones, ones at each limit, ones with a fault or two, and damaged ones.

use crate::letters::{in_another_case, Letters, BESIDE_LETTERS};
use crate::logs::different_labels;
use crate::random::Random;
use crate::typed::{
    and, any_name, exist, joined, name_in_another_case, name_of, not, or, Label, Name, Spacing, Stock, Typed,
};
use crate::{lent_buffer, rule_file, rules, some_labels};
use reference::rule::{BEFORE, LONGEST_FILE, MAX_NODES, OVERLAPS, SAME};
use reference::typed::LONGEST_TEXT;
use reference::Refusal;

/// The order in which a text's refusals are met.
pub const ORDER: [Refusal; 6] = [20, 25, 4, 5, 9, 10];

/// The input of the reader.
#[derive(Clone, PartialEq, Eq, Debug)]
pub struct TextCase {
    pub seed: u64,
    /// What the text is meant to be; for messages.
    pub kind: &'static str,
    pub text: Vec<u8>,
    /// The lent buffer.
    pub rule: Vec<u8>,
    /// The file or the refusal, where it is known without reading the text.
    pub known: Option<Result<Vec<u8>, Refusal>>,
    /// The faults that were put in, in the order in which they stand.
    pub faults: Vec<Refusal>,
}

/// The input of the writer.
#[derive(Clone, PartialEq, Eq, Debug)]
pub struct RuleCase {
    pub seed: u64,
    pub rule: Vec<u8>,
    /// The lent buffer.
    pub text: Vec<u8>,
}

/// A text, and what is known of it.
struct Text {
    kind: &'static str,
    bytes: Vec<u8>,
    known: Option<Result<Vec<u8>, Refusal>>,
    faults: Vec<Refusal>,
}

impl Text {
    fn known(kind: &'static str, bytes: Vec<u8>, known: Result<Vec<u8>, Refusal>) -> Text {
        Text { kind, bytes, known: Some(known), faults: Vec::new() }
    }

    fn unknown(kind: &'static str, bytes: Vec<u8>) -> Text {
        Text { kind, bytes, known: None, faults: Vec::new() }
    }

    /// The spelling of a tree, and its file or this refusal.
    fn of(random: &mut Random, kind: &'static str, tree: &Typed, refusal: Option<Refusal>) -> Text {
        let bytes = spelled(random, tree);
        let refusal = if bytes.len() > LONGEST_TEXT { Some(25) } else { refusal };
        let known = refusal.map_or_else(|| Ok(tree.rule().to_bytes()), Err);
        Text::known(kind, bytes, known)
    }
}

/// The reader's case of this seed.
pub fn text_case(seed: u64) -> TextCase {
    let random = &mut Random::new(seed);
    let Text { kind, bytes, mut known, faults } = match random.below(100) {
        0..=37 => well_formed(random),
        38..=54 => at_a_limit(random),
        55..=59 => with_faults(random, 1),
        60..=69 => with_faults(random, 2),
        70..=93 => damaged(random),
        94..=97 => soup(random),
        _ => deep(random),
    };
    let mut rule = lent_buffer(random, LONGEST_FILE);
    if faults.contains(&20) {
        rule.truncate(*random.pick(&[0, 1, 13, LONGEST_FILE - 1]));
    } else if !faults.is_empty() && rule.len() < LONGEST_FILE {
        rule.resize(LONGEST_FILE, 0);
    }
    if rule.len() < LONGEST_FILE {
        known = Some(Err(20));
    }
    TextCase { seed, kind, text: bytes, rule, known, faults }
}

/// The writer's case of this seed.
pub fn rule_case(seed: u64) -> RuleCase {
    let random = &mut Random::new(seed);
    let labels = some_labels(random);
    let depth = random.between(1, 4);
    let rule = match random.below(20) {
        0 => rules::longest_rule(random),
        1 => longest_written(random).rule(),
        2 => any_tree(random, MAX_NODES).rule(),
        _ => rules::legal_rule(random, labels, depth),
    };
    RuleCase { seed, rule: rule_file(random, &rule), text: lent_buffer(random, LONGEST_TEXT) }
}

/// The rule with the longest text: as many "has label" with the longest labels as 64 nodes
/// can hold.
fn longest_written(random: &mut Random) -> Typed {
    let mut atoms: Vec<Typed> =
        (0..32).map(|number| Typed::Has(b"A".to_vec(), format!("{:L>24}", number % 16).into_bytes())).collect();
    // Any two neighbours are joined, until one is left.
    while atoms.len() > 1 {
        let at = random.below(atoms.len() - 1);
        let second = atoms.remove(at + 1);
        atoms[at] = and(atoms[at].clone(), second);
    }
    exist(vec![b"A".to_vec()], atoms.remove(0))
}

/// A random rule of at most so many nodes.
fn any_tree(random: &mut Random, most: usize) -> Typed {
    Stock::any(random).rule(random, most)
}

/// A random rule of some size.
fn some_tree(random: &mut Random) -> Typed {
    let most = *random.pick(&[2, 3, 5, 8, 12, 20, 40, MAX_NODES]);
    any_tree(random, most)
}

fn signs_of(random: &mut Random, tree: &Typed) -> Vec<Vec<u8>> {
    let brackets = *random.pick(&[0, 0, 5, 20, 60]);
    tree.signs(random, brackets)
}

/// The signs as a text of at most 4,096 bytes.
fn spaced(random: &mut Random, signs: &[Vec<u8>]) -> Vec<u8> {
    let spacing = *random.pick(&[Spacing::None, Spacing::One, Spacing::Any, Spacing::Any]);
    let text = joined(random, signs, spacing);
    if text.len() <= LONGEST_TEXT {
        text
    } else {
        joined(random, signs, Spacing::None)
    }
}

fn spelled(random: &mut Random, tree: &Typed) -> Vec<u8> {
    let signs = signs_of(random, tree);
    spaced(random, &signs)
}

fn well_formed(random: &mut Random) -> Text {
    let tree = some_tree(random);
    Text::of(random, "well-formed", &tree, None)
}

/// One of the limits, at it or just past it.
fn at_a_limit(random: &mut Random) -> Text {
    match random.below(7) {
        0 => bytes_at_the_limit(random),
        1 => {
            let count = *random.pick(&[63, 64, 64, 65, 65, 66]);
            let tree = tree_of_nodes(random, count);
            Text::of(random, "63 to 66 nodes", &tree, (count > 64).then_some(4))
        }
        2 => {
            let count = *random.pick(&[15, 16, 16, 17, 17, 18]);
            let tree = tree_of_labels(random, count);
            Text::of(random, "15 to 18 labels", &tree, (count > 16).then_some(4))
        }
        3 => {
            let count = *random.pick(&[3, 4, 4, 5, 5, 6]);
            let tree = tree_of_nested(random, count);
            Text::of(random, "3 to 6 nested names", &tree, (count > 4).then_some(10))
        }
        4 => {
            let length = *random.pick(&[7, 8, 8, 9, 9, 10]);
            let name = name_of(random, length);
            let tree = exist(vec![name.clone()], Typed::Pair(OVERLAPS, name.clone(), name));
            Text::of(random, "names of 7 to 10 bytes", &tree, (length > 8).then_some(25))
        }
        5 => {
            let tree = tree_of_counts_past_a_byte(random);
            Text::of(random, "counts past 255", &tree, Some(4))
        }
        _ => {
            let length = *random.pick(&[0, 0, 1, 23, 24, 24, 25, 25, 26]);
            let label = (0..length).map(|_| *random.pick(b"AZaz09_")).collect();
            let parts = vec![has_label(random, label), some_tree(random)];
            let tree = chain(random, parts);
            let is_label = (1..=24).contains(&length);
            let refusal = if tree.is_too_large() { Some(4) } else { (!is_label).then_some(5) };
            Text::of(random, "labels of 0 to 26 bytes", &tree, refusal)
        }
    }
}

/// A text of about 4,096 bytes, most of them spaces and LFs in one place.
fn bytes_at_the_limit(random: &mut Random) -> Text {
    let tree = some_tree(random);
    let mut signs = signs_of(random, &tree);
    let place = random.below(signs.len() + 1);
    signs.insert(place, b" ".to_vec());
    let length = *random.pick(&[4095, 4096, 4096, 4097, 4097, 4098, 5000]);
    let missing = length - joined(random, &signs, Spacing::None).len();
    signs[place].extend((0..missing).map(|_| *random.pick(b" \n")));
    let text = joined(random, &signs, Spacing::None);
    let known = if length > LONGEST_TEXT { Err(25) } else { Ok(tree.rule().to_bytes()) };
    Text::known("4,095 to 5,000 bytes", text, known)
}

/// A rule of exactly so many nodes.
fn tree_of_nodes(random: &mut Random, count: usize) -> Typed {
    let most = random.between(2, MAX_NODES);
    let mut tree = any_tree(random, most);
    while tree.node_count() < count {
        let missing = count - tree.node_count();
        tree = match random.below(3) {
            0 if missing >= 6 => or(tree, some_atom(random)),
            1 if missing >= 3 => and(some_atom(random), tree),
            _ => not(tree),
        };
    }
    tree
}

/// A rule with so many nodes or labels that their count modulo 256 is small, or nearly so.
fn tree_of_counts_past_a_byte(random: &mut Random) -> Typed {
    let name: Name = b"A".to_vec();
    if random.chance(1, 2) {
        let count = random.between(255, 275);
        let letters = Letters::any(random);
        let label = |number: usize| letters.write(random, format!("L{number}").as_bytes());
        let atoms: Vec<Typed> = (0..count).map(label).map(|label| Typed::Has(name.clone(), label)).collect();
        return exist(vec![name.clone()], atoms.into_iter().reduce(and).expect("some labels"));
    }
    let count = random.between(255, 322);
    let mut tree = exist(vec![name.clone()], Typed::Pair(OVERLAPS, name.clone(), name));
    while tree.node_count() < count {
        tree = if count - tree.node_count() >= 3 && random.chance(1, 3) {
            and(some_atom(random), tree)
        } else {
            not(tree)
        };
    }
    tree
}

/// Two nodes: a name, and it before itself.
fn some_atom(random: &mut Random) -> Typed {
    let name = any_name(random);
    exist(vec![name.clone()], Typed::Pair(BEFORE, name.clone(), name))
}

fn has_label(random: &mut Random, label: Label) -> Typed {
    let name = any_name(random);
    exist(vec![name.clone()], Typed::Has(name, label))
}

/// A rule of exactly so many different labels, some of them more than once, in the same
/// letters or in others. Where they are too many, some may be bad.
fn tree_of_labels(random: &mut Random, count: usize) -> Typed {
    let letters = Letters::any(random);
    let mut labels: Vec<Label> = different_labels(random, count);
    labels.iter_mut().for_each(|label| *label = letters.write(random, label));
    if count > 16 && random.chance(1, 2) {
        let place = random.below(count);
        labels[place] = bad_label(random);
    }
    for _ in 0..random.below(6) {
        let again = random.pick(&labels).clone();
        labels.push(if random.chance(1, 3) { again } else { in_another_case(random, &again) });
    }
    let name = any_name(random);
    let atoms = labels.into_iter().map(|label| Typed::Has(name.clone(), label));
    let all = atoms.reduce(|all, one| if random.chance(1, 2) { and(all, one) } else { and(one, all) });
    exist(vec![name], all.expect("some labels"))
}

/// A label of a wrong length or with a wrong byte, which is no quote.
fn bad_label(random: &mut Random) -> Label {
    match random.below(5) {
        0 => Vec::new(),
        1 => {
            let length = random.between(25, 40);
            Letters::any(random).write(random, &vec![b'A'; length])
        }
        _ => {
            let beside = [*random.pick(BESIDE_LETTERS)];
            let others: [&[u8]; 7] = [b" ", b"\n", b"-", b"(", b"\0", b"\xc3\xa4", b"exist B . B<B"];
            let end = if random.chance(1, 2) { &beside } else { *random.pick(&others) };
            [*random.pick(&[&b"A"[..], b"a"]), end].concat()
        }
    }
}

/// A rule of exactly so many names one inside another, with other parts between them.
fn tree_of_nested(random: &mut Random, count: usize) -> Typed {
    let names: Vec<Name> = (0..count).map(|_| any_name(random)).collect();
    let mut tree = Typed::Pair(SAME, random.pick(&names).clone(), random.pick(&names).clone());
    let mut rest = names.as_slice();
    while !rest.is_empty() {
        let (outer, inner) = rest.split_at(rest.len() - random.between(1, rest.len()));
        tree = exist(inner.to_vec(), tree);
        rest = outer;
        tree = match random.below(4) {
            0 => not(tree),
            1 => and(tree, some_atom_within(random, rest)),
            2 => or(some_atom_within(random, rest), tree),
            _ => tree,
        };
    }
    tree
}

/// An atom of the bound names, or of its own where there are none.
fn some_atom_within(random: &mut Random, bound: &[Name]) -> Typed {
    if bound.is_empty() {
        return some_atom(random);
    }
    Typed::Pair(BEFORE, random.pick(bound).clone(), random.pick(bound).clone())
}

/// The parts in their order, joined by "and" or "or", now and then under "not".
fn chain(random: &mut Random, parts: Vec<Typed>) -> Typed {
    let all = parts.into_iter().reduce(|all, one| match random.below(4) {
        0 => or(all, one),
        1 => and(not(all), one),
        _ => and(all, one),
    });
    all.expect("some parts")
}

/// A part with the fault of this number, 4, 5, 9 or 10.
fn faulty_part(random: &mut Random, number: Refusal) -> Typed {
    match number {
        4 if random.chance(1, 2) => {
            let count = random.between(65, 75);
            tree_of_nodes(random, count)
        }
        4 => {
            let count = random.between(17, 20);
            tree_of_labels(random, count)
        }
        5 => {
            let label = bad_label(random);
            has_label(random, label)
        }
        9 if random.chance(1, 3) => Typed::Has(any_name(random), b"TEST".to_vec()),
        9 => {
            let (name, mut free) = (any_name(random), any_name(random));
            if random.chance(1, 3) {
                free = name_in_another_case(random, &name);
            }
            while free == name {
                free = any_name(random);
            }
            let [a, b] = if random.chance(1, 2) { [name.clone(), free] } else { [free, name.clone()] };
            exist(vec![name], Typed::Pair(*random.pick(&[BEFORE, OVERLAPS, SAME]), a, b))
        }
        _ => {
            let count = random.between(5, 6);
            tree_of_nested(random, count)
        }
    }
}

/// A small rule with so many different faults. The first of them in the order is met.
fn with_faults(random: &mut Random, count: usize) -> Text {
    let mut faults: Vec<Refusal> = Vec::new();
    while faults.len() < count {
        let number = *random.pick(&ORDER);
        if !faults.contains(&number) {
            faults.push(number);
        }
    }
    let of_the_tree = faults.iter().copied().filter(|number| ![20, 25].contains(number));
    let mut parts: Vec<Typed> = of_the_tree.map(|number| faulty_part(random, number)).collect();
    if parts.is_empty() || random.chance(1, 2) {
        let place = random.below(parts.len() + 1);
        parts.insert(place, any_tree(random, 8));
    }
    let tree = chain(random, parts);
    let mut signs = signs_of(random, &tree);
    if faults.contains(&25) {
        // It stands before or behind all others.
        let place = if faults[0] == 25 { 0 } else { signs.len() };
        signs.insert(place, wrong_sign(random));
    }
    let first = ORDER.into_iter().find(|number| faults.contains(number)).expect("a fault");
    Text {
        kind: if count == 1 { "one fault" } else { "two faults" },
        bytes: spaced(random, &signs),
        known: Some(Err(first)),
        faults,
    }
}

/// A sign that no rule has, one bracket too many, or more spaces than a text can hold.
fn wrong_sign(random: &mut Random) -> Vec<u8> {
    let signs: [&[u8]; 18] = [
        b"\t", b"\r", b"\0", b"\x80", b"\"", b"=", b"_", b";", b"(", b")", b"#", b"-", b">", b"+", b"'", b"()", b"[",
        b"&|",
    ];
    if random.chance(1, 5) {
        vec![b' '; LONGEST_TEXT + 1]
    } else {
        random.pick(&signs).to_vec()
    }
}

/// A sound text with some bytes or signs wrong, removed, doubled or in another order; cut;
/// or followed by another.
fn damaged(random: &mut Random) -> Text {
    let tree = some_tree(random);
    let mut signs = signs_of(random, &tree);
    if random.chance(1, 3) {
        damage_signs(random, &mut signs);
        return Text::unknown("damaged signs", spaced(random, &signs));
    }
    let mut text = spaced(random, &signs);
    if random.chance(1, 6) {
        let join: [&[u8]; 5] = [b"", b" ", b"\n", b"&", b"|"];
        text.extend(*random.pick(&join));
        let other = some_tree(random);
        text.extend(spelled(random, &other));
        return Text::unknown("two texts joined", text);
    }
    for _ in 0..*random.pick(&[1, 1, 1, 2, 3]) {
        damage_bytes(random, &mut text);
    }
    Text::unknown("damaged bytes", text)
}

fn damage_bytes(random: &mut Random, text: &mut Vec<u8>) {
    if text.is_empty() {
        return;
    }
    let at = random.below(text.len());
    match random.below(8) {
        0 => text[at] = random.byte(),
        1..=2 => text[at] = any_text_byte(random),
        3 => {
            text.remove(at);
        }
        4 => text.insert(at, text[at]),
        5 => text.insert(at, any_text_byte(random)),
        6 if random.chance(1, 2) => text.truncate(at),
        6 => {
            text.drain(..at);
        }
        _ => {
            let other = random.below(text.len());
            text.swap(at, other);
        }
    }
}

/// A byte that some sign has, or that is easily taken for one.
fn any_text_byte(random: &mut Random) -> u8 {
    *random.pick(b"exist same ABCDXYZabz019oi!&|<()',.'_\n\n\t\r\0>=m@[`{\xe1\xff")
}

fn damage_signs(random: &mut Random, signs: &mut Vec<Vec<u8>>) {
    for _ in 0..random.between(1, 2) {
        let at = random.below(signs.len());
        match random.below(5) {
            0 if signs.len() > 1 => {
                signs.remove(at);
            }
            1 => signs.insert(at, signs[at].clone()),
            2 => {
                let other = random.below(signs.len());
                signs.swap(at, other);
            }
            3 => signs[at] = any_sign(random),
            _ => signs.insert(at, any_sign(random)),
        }
    }
}

fn any_sign(random: &mut Random) -> Vec<u8> {
    let signs: [&[u8]; 19] = [
        b"exist", b"same", b"A", b"B", b"A1", b"'TEST'", b"'tesT'", b"''", b"'a-'", b"<", b"o", b"i", b"!", b"&", b"|",
        b"(", b")", b",", b".",
    ];
    random.pick(&signs).to_vec()
}

/// Signs or bytes at random, behind the front of a rule half of the time.
fn soup(random: &mut Random) -> Text {
    let front: [&[u8]; 4] = [b"", b"", b"exist A,B.", b"!exist A . ("];
    let mut text = random.pick(&front).to_vec();
    if random.chance(1, 2) {
        let signs: Vec<Vec<u8>> = (0..random.below(14)).map(|_| any_sign(random)).collect();
        text.extend(spaced(random, &signs));
        return Text::unknown("random signs", text);
    }
    let length = *random.pick(&[0, 1, 2, 4, 10, 40, 200, 4096, 4097]);
    text.extend((0..length).map(|_| any_text_byte(random)));
    Text::unknown("random bytes", text)
}

/// A rule inside many brackets, "not"s or names, up to the longest text; now and then one
/// bracket is missing or too many, or there is no rule.
fn deep(random: &mut Random) -> Text {
    let (opening, closing): (&[u8], &[u8]) = *random.pick(&[
        (&b"("[..], &b")"[..]),
        (b"!", b""),
        (b"!(", b")"),
        (b"( ", b"\n)"),
        (b"exist A.", b""),
        (b"exist A.(", b")"),
        (b"exist A.A<A&", b""),
        (b"exist A.A<A|(", b")"),
    ]);
    let middles = ["exist A.A<A", "exist A.A<A", "exist A,B.A('TEST')|A oB", "A<A", ""];
    let middle = random.pick(&middles).as_bytes();
    let most = (LONGEST_TEXT - middle.len()) / (opening.len() + closing.len());
    let any = random.below(most);
    let times = *random.pick(&[most, most, most + 1, any, 61, 62, 63, 3, 4, 5]);
    let closings = match random.below(6) {
        0 => times.saturating_sub(1),
        1 => times + 1,
        _ => times,
    };
    Text::unknown("deep", [opening.repeat(times), middle.to_vec(), closing.repeat(closings)].concat())
}
