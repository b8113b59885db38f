//! The worst rules that have slips: "not" over a chain of four "some" over a large part.
//!
//! No slip of theirs passes, but for one rule, where the last of all does; and nothing tells so before the innermost
//! run is chosen, as in `rules::worst`.

use crate::logs::LAST;
use crate::rules::{Case, NodeList};
use generate::random::Random;
use reference::rule::{BEFORE, HAS_LABEL, INCLUDES, MAX_NODES, OVERLAPS, SAME};

/// The rules worked out by hand.
pub fn worst() -> Vec<Case> {
    vec![
        nots("56 nots", &[0, 1, 2, 3], |list| list.never(0, 3)),
        nots("56 nots, A and B not named", &[0, 1, 2, 3], |list| list.never(2, 3)),
        nots("56 nots, D alone named", &[0, 1, 2, 3], |list| list.never(3, 3)),
        nots("56 nots, A four times", &[0, 0, 0, 0], |list| list.never(0, 0)),
        nots("56 nots, A and B twice", &[0, 1, 0, 1], |list| list.never(0, 1)),
        nots("54 nots of all", &[0, 1, 2, 3], |list| {
            let overlaps = list.node(OVERLAPS, 1, 2);
            let pair = list.never(0, 3);
            list.and(overlaps, pair)
        }),
        nots("46 nots of a label's two ways", &[0, 1, 2, 3], |list| either_way_alone(list, 0, 3)),
        nots("chain of 11", &[0, 1, 2, 3], |list| list.one_of(11)),
        last_of_all(),
    ]
}

/// The rule of a chain of these variables over a part, under as many "not"s as there is room for, two by two.
fn nots(name: &str, variables: &[usize], part: impl Fn(&mut NodeList) -> usize) -> Case {
    let mut list = NodeList::with_labels(&[LAST]);
    let part = part(&mut list);
    let room = MAX_NODES - variables.len() - 1 - (part + 1);
    let nots = list.nots(room / 2 * 2, part);
    rule(list, name, variables, nots)
}

fn rule(mut list: NodeList, name: &str, variables: &[usize], part: usize) -> Case {
    let some = list.some(variables, part);
    list.not(some);
    list.case(&format!("worst slips: {name}"))
}

/// Either of two parts: four nodes beside theirs.
fn either(list: &mut NodeList, first: usize, second: usize) -> usize {
    let [first, second] = [list.not(first), list.not(second)];
    let neither = list.and(first, second);
    list.not(neither)
}

/// That x is the same as y, or y as x, and not both, which is never so: 12 nodes.
fn either_way_alone(list: &mut NodeList, x: usize, y: usize) -> usize {
    let [first, second] = [(x, y), (y, x)].map(|(x, y)| {
        let one = list.node(SAME, x, y);
        let other = list.node(SAME, y, x);
        let not = list.not(other);
        list.and(one, not)
    });
    either(list, first, second)
}

/// One of nine pairs, or all four runs are the last: with LAST on the last run alone, the last slip of all passes.
fn last_of_all() -> Case {
    let mut list = NodeList::with_labels(&[LAST]);
    let chain = list.one_of(9);
    let last = (1..4).fold(list.node(HAS_LABEL, 0, 0), |all, variable| {
        let one = list.node(HAS_LABEL, variable, 0);
        list.and(all, one)
    });
    let part = either(&mut list, chain, last);
    rule(list, "the last of all", &[0, 1, 2, 3], part)
}

/// A random rule that no slip passes, with a part of up to 59 nodes.
pub fn searched(seed: u64) -> Case {
    let random = &mut Random::new(seed);
    let mut variables = [0, 1, 2, 3];
    for last in (1..4).rev() {
        variables.swap(last, random.below(last + 1));
    }
    if random.chance(1, 6) {
        variables[random.below(4)] = variables[random.below(4)];
    }
    let mut maker = Maker { random, list: NodeList::with_labels(&[LAST]), variables };
    let room = MAX_NODES - 5;
    let room = if maker.random.chance(2, 3) { room } else { maker.random.between(3, room) };
    let part = maker.never(room);
    rule(maker.list, &format!("searched, {seed}"), &variables, part)
}

/// A part that is being made.
struct Maker<'a> {
    random: &'a mut Random,
    list: NodeList,
    /// The variables of the chain.
    variables: [usize; 4],
}

impl Maker<'_> {
    /// A part that is never true, of at most so many nodes: a pair, either of two such parts, or one with an atom
    /// beside it or "not"s above it.
    fn never(&mut self, nodes: usize) -> usize {
        match self.random.below(6) {
            0..=2 if nodes >= 10 => {
                let part = self.random.between(3, nodes - 7);
                let first = self.never(part);
                let second = self.never(nodes - 4 - part);
                either(&mut self.list, first, second)
            }
            3 if nodes >= 5 => {
                let part = self.never(nodes - 2);
                self.list.nots(2, part)
            }
            4 if nodes >= 5 => {
                let part = self.never(nodes - 2);
                let atom = self.atom();
                if self.random.chance(1, 2) { self.list.and(atom, part) } else { self.list.and(part, atom) }
            }
            _ if nodes >= 20 => self.never(nodes),
            _ => self.pair(),
        }
    }

    /// Two relations that never both hold: 3 nodes.
    fn pair(&mut self) -> usize {
        let [x, y] = [self.variable(), self.variable()];
        let kinds = [BEFORE, OVERLAPS, INCLUDES];
        let first = self.random.below(3);
        let (second, back) = match self.random.below(3) {
            // The same relation the other way.
            0 => (first, true),
            other => ((first + other) % 3, false),
        };
        let one = self.list.node(kinds[first], x, y);
        let other = if back { self.list.node(kinds[second], y, x) } else { self.list.node(kinds[second], x, y) };
        self.list.and(one, other)
    }

    fn atom(&mut self) -> usize {
        let kind = *self.random.pick(&[BEFORE, OVERLAPS, INCLUDES, SAME]);
        let [x, y] = [self.variable(), self.variable()];
        self.list.node(kind, x, y)
    }

    fn variable(&mut self) -> usize {
        *self.random.pick(&self.variables)
    }
}
