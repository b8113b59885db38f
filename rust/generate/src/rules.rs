//! Rule files: legal ones, and ones with a fault of each number 1 to 10.

use crate::letters::{in_another_case, Letters, BESIDE_LETTERS};
use crate::random::Random;
use reference::rule::{Node, Rule, AND, BEFORE, HAS_LABEL, INCLUDES, MAX_NODES, NOT, OVERLAPS, SAME, SOME};

/// A rule as a tree; labels by their place in the file's list.
#[derive(Clone)]
pub(crate) enum Tree {
    And(Box<Tree>, Box<Tree>),
    Not(Box<Tree>),
    Some(u8, Box<Tree>),
    Atom(Node),
}

/// A legal rule. At most `depth` (1 to 4) "some" nodes lie one inside another.
pub fn legal_rule(random: &mut Random, labels: Vec<Vec<u8>>, depth: usize) -> Rule {
    let tree = if random.chance(1, 2) && !labels.is_empty() && depth >= 2 {
        known_tree(random, labels.len(), depth)
    } else {
        let budget = *random.pick(&[2, 3, 5, 8, 8, 12, 20, 40, 64]);
        random_rule(random, labels.len(), depth, budget)
    };
    Rule { labels, nodes: nodes_of(random, &tree) }
}

/// The rule with a "not" above it, where there is room for one more node.
pub fn negated(mut rule: Rule) -> Rule {
    if rule.nodes.len() < MAX_NODES {
        let a = rule.nodes.len() as u8 - 1;
        rule.nodes.push(Node { kind: NOT, a, b: 0 });
    }
    rule
}

/// A legal rule with as many labels and nodes as a file can hold: 599 bytes.
pub fn longest_rule(random: &mut Random) -> Rule {
    let letters = Letters::any(random);
    let label = |n: usize| format!("{:_>24}", format!("L{n}")).into_bytes();
    let labels: Vec<Vec<u8>> = (0..16).map(|n| letters.write(random, &label(n))).collect();
    let mut tree = Tree::Atom(atom(random, &[0], labels.len()));
    while size(&tree) < 63 {
        let room = 63 - size(&tree);
        tree = if room >= 2 && random.chance(2, 3) {
            let atom = Tree::Atom(atom(random, &[0], labels.len()));
            if random.chance(1, 2) { and(tree, atom) } else { and(atom, tree) }
        } else {
            not(tree)
        };
    }
    Rule { labels, nodes: nodes_of(random, &some(0, tree)) }
}

pub(crate) fn and(first: Tree, second: Tree) -> Tree {
    Tree::And(Box::new(first), Box::new(second))
}

pub(crate) fn not(child: Tree) -> Tree {
    Tree::Not(Box::new(child))
}

pub(crate) fn or(first: Tree, second: Tree) -> Tree {
    not(and(not(first), not(second)))
}

pub(crate) fn some(variable: u8, child: Tree) -> Tree {
    Tree::Some(variable, Box::new(child))
}

pub(crate) fn leaf(kind: u8, a: u8, b: u8) -> Tree {
    Tree::Atom(Node { kind, a, b })
}

pub(crate) fn size(tree: &Tree) -> usize {
    match tree {
        Tree::And(first, second) => 1 + size(first) + size(second),
        Tree::Not(child) | Tree::Some(_, child) => 1 + size(child),
        Tree::Atom(_) => 1,
    }
}

/// Rules whose verdict changes with the log: the paper's own kind.
fn known_tree(random: &mut Random, label_count: usize, depth: usize) -> Tree {
    let label = |random: &mut Random| random.below(label_count) as u8;
    let (first, second) = (label(random), label(random));
    let pair = *random.pick(&[BEFORE, OVERLAPS, INCLUDES]);
    let tree = match random.below(if depth >= 4 { 9 } else if depth == 3 { 8 } else { 5 }) {
        // some A some B: A has a label, B has a label, and A is in the relation to B.
        0 => some(0, some(1, and(and(leaf(HAS_LABEL, 0, first), leaf(HAS_LABEL, 1, second)), leaf(pair, 0, 1)))),
        // some A some B: A is in the relation to B, and they are the same.
        1 => some(0, some(1, and(leaf(pair, 0, 1), leaf(SAME, 0, 1)))),
        // some A with a label, and no B in the relation to it.
        2 => some(2, and(leaf(HAS_LABEL, 2, first), not(some(3, leaf(pair, 2, 3))))),
        // some A that is the same as no other B.
        3 => some(1, not(some(0, and(leaf(SAME, 0, 1), or(leaf(pair, 0, 1), leaf(pair, 1, 0)))))),
        // The same variable bound again.
        4 => some(0, and(leaf(HAS_LABEL, 0, first), some(0, leaf(HAS_LABEL, 0, second)))),
        // Double nesting and its like.
        5 => some(0, some(1, some(2, and(leaf(pair, 0, 1), leaf(pair, 1, 2))))),
        // Adjacent runs with one label.
        6 => some(
            0,
            some(
                1,
                and(
                    and(leaf(BEFORE, 0, 1), not(some(2, and(leaf(BEFORE, 0, 2), leaf(BEFORE, 2, 1))))),
                    and(leaf(HAS_LABEL, 0, first), leaf(HAS_LABEL, 1, first)),
                ),
            ),
        ),
        // Three runs that overlap in a row.
        7 => some(0, some(1, some(2, and(and(leaf(OVERLAPS, 0, 1), leaf(OVERLAPS, 1, 2)), leaf(OVERLAPS, 0, 2))))),
        // Between two runs, a third, and no fourth.
        _ => some(
            0,
            some(
                1,
                some(
                    2,
                    and(
                        and(and(leaf(HAS_LABEL, 0, first), leaf(BEFORE, 0, 1)), leaf(BEFORE, 1, 2)),
                        not(some(3, and(leaf(SAME, 0, 3), and(leaf(BEFORE, 0, 3), leaf(BEFORE, 3, 2))))),
                    ),
                ),
            ),
        ),
    };
    if random.chance(2, 3) { not(tree) } else { tree }
}

/// A random rule of at most `budget` nodes (at least two).
fn random_rule(random: &mut Random, label_count: usize, depth: usize, budget: usize) -> Tree {
    let mut budget = budget;
    random_tree(random, label_count, &mut Vec::new(), depth, &mut budget)
}

/// A random tree whose variables are bound by the "some" nodes around it. Takes its
/// nodes from the budget. With nothing bound yet it needs two nodes at least.
pub(crate) fn random_tree(
    random: &mut Random,
    label_count: usize,
    bound: &mut Vec<u8>,
    depth: usize,
    budget: &mut usize,
) -> Tree {
    let least = if bound.is_empty() { 2 } else { 1 };
    let is_deep = bound.len() >= depth;
    if *budget <= least {
        *budget = budget.saturating_sub(least);
        if !bound.is_empty() {
            return Tree::Atom(atom(random, bound, label_count));
        }
        let variable = random.below(4) as u8;
        return some(variable, Tree::Atom(atom(random, &[variable], label_count)));
    }
    match random.below(10) {
        0..=2 if *budget > 2 * least => {
            *budget -= 1;
            // Each side gets a part, so that both fit.
            let mut part = random.between(least, *budget - least);
            *budget -= part;
            let first = random_tree(random, label_count, bound, depth, &mut part);
            *budget += part;
            let second = random_tree(random, label_count, bound, depth, budget);
            and(first, second)
        }
        3..=4 => {
            *budget -= 1;
            not(random_tree(random, label_count, bound, depth, budget))
        }
        5..=8 if !is_deep => {
            *budget -= 1;
            let variable = random.below(4) as u8;
            bound.push(variable);
            let child = random_tree(random, label_count, bound, depth, budget);
            bound.pop();
            some(variable, child)
        }
        _ if !bound.is_empty() => {
            *budget -= 1;
            Tree::Atom(atom(random, bound, label_count))
        }
        _ => random_tree(random, label_count, bound, depth, budget),
    }
}

pub(crate) fn atom(random: &mut Random, bound: &[u8], label_count: usize) -> Node {
    let kind = *random.pick(&[HAS_LABEL, HAS_LABEL, BEFORE, OVERLAPS, INCLUDES, SAME]);
    let a = *random.pick(bound);
    if kind == HAS_LABEL && label_count > 0 {
        return Node { kind, a, b: random.below(label_count) as u8 };
    }
    let kind = if kind == HAS_LABEL { SAME } else { kind };
    Node { kind, a, b: *random.pick(bound) }
}

/// The nodes of the tree in a random order in which every child comes earlier.
pub(crate) fn nodes_of(random: &mut Random, tree: &Tree) -> Vec<Node> {
    // First in the plain order, with children by their numbers in it.
    let mut plain: Vec<(Node, Vec<usize>)> = Vec::new();
    fn list(tree: &Tree, plain: &mut Vec<(Node, Vec<usize>)>) -> usize {
        let entry = match tree {
            Tree::And(first, second) => {
                let children = vec![list(first, plain), list(second, plain)];
                (Node { kind: AND, a: 0, b: 0 }, children)
            }
            Tree::Not(child) => (Node { kind: NOT, a: 0, b: 0 }, vec![list(child, plain)]),
            Tree::Some(variable, child) => (Node { kind: SOME, a: *variable, b: 0 }, vec![list(child, plain)]),
            Tree::Atom(node) => (*node, vec![]),
        };
        plain.push(entry);
        plain.len() - 1
    }
    list(tree, &mut plain);
    let in_plain_order = random.chance(1, 3);
    let mut number_of: Vec<Option<u8>> = vec![None; plain.len()];
    let mut nodes: Vec<Node> = Vec::new();
    while nodes.len() < plain.len() {
        let ready: Vec<usize> = (0..plain.len())
            .filter(|at| number_of[*at].is_none() && plain[*at].1.iter().all(|child| number_of[*child].is_some()))
            .collect();
        let at = if in_plain_order { ready[0] } else { *random.pick(&ready) };
        let (mut node, children) = plain[at].clone();
        let child = |index: usize| number_of[children[index]].expect("a child that came earlier");
        match node.kind {
            AND => (node.a, node.b) = (child(0), child(1)),
            NOT => node.a = child(0),
            SOME => node.b = child(0),
            _ => {}
        }
        number_of[at] = Some(nodes.len() as u8);
        nodes.push(node);
    }
    nodes
}

/// A file with the fault of this number (1 to 10) put into a legal rule. The fault
/// may show under another number, where an earlier part is spoiled with it.
pub fn damaged_file(random: &mut Random, rule: &Rule, number: u8) -> Vec<u8> {
    let mut file = rule.to_bytes();
    let labels_at = 6;
    let nodes_at = file.len() - 3 * rule.nodes.len();
    match number {
        1 => {
            file.truncate(random.below(file.len()));
        }
        2 => file[random.below(3)] = random.byte(),
        3 => {
            let (low, high) = *random.pick(&[(0, 0), (2, 0), (0, 1), (1, 1), (1, 2), (255, 255)]);
            (file[3], file[4]) = (low, high);
        }
        4 => {
            let (at, count) = if random.chance(1, 2) {
                (5, *random.pick(&[17, 17, 18, 32, 255]))
            } else {
                (nodes_at - 1, *random.pick(&[0, 0, 65, 65, 66, 255]))
            };
            file[at] = count;
            // The file may end right after the count.
            if random.chance(1, 3) {
                file.truncate(at + 1);
            }
        }
        5 if rule.labels.is_empty() => {
            let wrong = *random.pick(BESIDE_LETTERS);
            let beside = [2, b'a', wrong];
            // The last ones are two that differ only in case.
            let lists: [&[u8]; 6] = [b"\x00", b"\x19", b"\x02A-", &beside, b"\x01A\x01a", b"\x03x_1\x03X_1"];
            let place = random.below(lists.len());
            file[5] = if place < 4 { 1 } else { 2 };
            file.splice(labels_at..labels_at, lists[place].to_vec());
        }
        5 => match random.below(4) {
            0 => {
                file[labels_at] = *random.pick(&[0, 25, 26, 64, 255]);
                // The file may end right after the length byte.
                if random.chance(1, 3) {
                    file.truncate(labels_at + 1);
                }
            }
            1 => {
                let wrong = if random.chance(1, 2) { BESIDE_LETTERS } else { b"- \n\0'" };
                file[labels_at + 1] = *random.pick(wrong);
            }
            2 if rule.labels.len() < 16 => {
                let again = random.pick(&rule.labels).clone();
                file = listed_again(random, rule, again);
            }
            _ => {
                // A wrong byte in the last label.
                file[nodes_at - 2] = *random.pick(b"`{ \0\xfa\xff");
            }
        },
        6 => {
            let number = random.below(rule.nodes.len());
            let at = nodes_at + 3 * number;
            match random.below(4) {
                0 => file[at] = *random.pick(&[0, 9, 10, 128, 255]),
                1 => file[at + 1] = *random.pick(&[number as u8, number as u8 + 1, 64, 255]).max(&4),
                2 => file[at + 2] = *random.pick(&[number as u8, number as u8 + 1, 64, 255]).max(&16),
                _ => {
                    // A field that is just out of its range.
                    match rule.nodes[number].kind {
                        AND => file[at + 1 + random.below(2)] = number as u8,
                        NOT if random.chance(1, 2) => file[at + 2] = 1,
                        NOT => file[at + 1] = number as u8,
                        SOME if random.chance(1, 2) => file[at + 1] = 4,
                        SOME => file[at + 2] = number as u8,
                        HAS_LABEL if random.chance(1, 2) => file[at + 2] = rule.labels.len() as u8,
                        HAS_LABEL => file[at + 1] = 4,
                        _ => file[at + 1 + random.below(2)] = 4,
                    }
                }
            }
            // The file may end right after the node.
            if random.chance(1, 4) {
                file.truncate(at + 3);
            }
        }
        7 => {
            let length = *random.pick(&[1, 1, 2, 3, 60]);
            file.extend(random.bytes(length));
        }
        8 => {
            let number = random.below(rule.nodes.len());
            let at = nodes_at + 3 * number;
            let earlier = random.below(number.max(1)) as u8;
            match rule.nodes[number].kind {
                AND => file[at + 1 + random.below(2)] = earlier,
                // A "not" becomes an "and": one node is named twice, and each is named.
                NOT if random.chance(1, 2) => {
                    file[at] = AND;
                    file[at + 2] = if random.chance(1, 2) { file[at + 1] } else { earlier };
                }
                NOT => file[at + 1] = earlier,
                SOME => file[at + 2] = earlier,
                _ if rule.nodes.len() == 64 => {}
                _ => {
                    // One more node at the end: the root before it is named twice or never.
                    let last = file[nodes_at - 1] - 1;
                    file.extend(random.pick(&[[AND, last, last], [BEFORE, 0, 0]]));
                    file[nodes_at - 1] += 1;
                }
            }
        }
        9 => change_a_variable(random, rule, &mut file[nodes_at..]),
        _ => {
            // More "some" nodes on top; perhaps an unbound variable under them.
            let variable = random.below(4) as u8;
            let more = random.between(1, 6);
            for _ in 0..more.min(64 - rule.nodes.len()) {
                let last = file[nodes_at - 1] - 1;
                file.extend([SOME, variable, last]);
                file[nodes_at - 1] += 1;
            }
            if random.chance(1, 3) {
                change_a_variable(random, rule, &mut file[nodes_at..]);
            }
        }
    }
    file
}

/// The file with one of its labels listed again in another case; the file as it is where it has no label, or no room
/// for one more.
pub fn listed_in_another_case(random: &mut Random, rule: &Rule) -> Vec<u8> {
    if rule.labels.is_empty() || rule.labels.len() == 16 {
        return rule.to_bytes();
    }
    let again = random.pick(&rule.labels);
    let again = in_another_case(random, again);
    listed_again(random, rule, again)
}

/// The file with this label in its list, at the front or as the last.
fn listed_again(random: &mut Random, rule: &Rule, again: Vec<u8>) -> Vec<u8> {
    let mut file = rule.to_bytes();
    let at = if random.chance(1, 2) { 6 } else { file.len() - 3 * rule.nodes.len() - 1 };
    file[5] += 1;
    let again = [vec![again.len() as u8], again].concat();
    let after = at + again.len();
    file.splice(at..at, again);
    // The file may end right after the label that is listed again.
    if random.chance(1, 3) {
        file.truncate(after);
    }
    file
}

/// Another variable in a "some" or in an atom of the table.
fn change_a_variable(random: &mut Random, rule: &Rule, table: &mut [u8]) {
    let number = random.below(rule.nodes.len());
    let at = 3 * number;
    match rule.nodes[number].kind {
        AND | NOT | SOME => {
            let somes: Vec<usize> = (0..rule.nodes.len()).filter(|other| rule.nodes[*other].kind == SOME).collect();
            table[3 * random.pick(&somes) + 1] = random.below(4) as u8;
        }
        HAS_LABEL => table[at + 1] = random.below(4) as u8,
        _ => table[at + 1 + random.below(2)] = random.below(4) as u8,
    }
}
