//! Random rules with "some" nodes one inside another, for the tests.

use crate::rules::NodeList;
use generate::random::Random;
use reference::rule::{Rule, AND, BEFORE, HAS_LABEL, INCLUDES, NOT, OVERLAPS, SAME, SOME};

/// A rule that is being made.
struct Maker<'a> {
    random: &'a mut Random,
    list: NodeList,
    /// How many labels the rule names.
    labels: usize,
}

/// A rule with so many "some" one inside another (2 to 4) that names these labels. The variables come in any order; now and then
/// one is bound twice.
pub fn deep_rule(random: &mut Random, labels: &[&str], nested: usize) -> Vec<u8> {
    let mut variables = [0, 1, 2, 3];
    for last in (1..4).rev() {
        variables.swap(last, random.below(last + 1));
    }
    if random.chance(1, 8) {
        variables[random.below(nested)] = variables[random.below(nested)];
    }
    let mut maker = Maker { random, list: NodeList::with_labels(labels), labels: labels.len() };
    maker.some(&variables[..nested], 0);
    maker.list.file()
}

impl Maker<'_> {
    /// "some" for the variable at this place. Its body is the next "some" or, for the last variable, a formula without one. Beside
    /// it may stand another part: a second innermost "some" beside the first, or an atom.
    fn some(&mut self, variables: &[usize], place: usize) -> usize {
        let bound = &variables[..=place];
        let mut body = if place + 1 == variables.len() {
            let atoms = self.random.between(1, 3);
            self.formula(bound, atoms)
        } else {
            self.some(variables, place + 1)
        };
        if place + 2 == variables.len() && self.random.chance(1, 4) {
            let second = self.some(variables, place + 1);
            body = self.joined(body, second);
        } else if self.random.chance(1, 3) {
            let part = self.formula(bound, 1);
            body = self.joined(part, body);
        }
        if self.random.chance(1, 2) {
            body = self.list.not(body);
        }
        self.list.some(&[variables[place]], body)
    }

    /// A formula without "some" over the bound variables, of so many atoms.
    fn formula(&mut self, bound: &[usize], atoms: usize) -> usize {
        if atoms > 1 {
            let part = self.random.between(1, atoms - 1);
            let first = self.formula(bound, part);
            let second = self.formula(bound, atoms - part);
            return self.joined(first, second);
        }
        let atom = self.atom(bound);
        if self.random.chance(1, 3) { self.list.not(atom) } else { atom }
    }

    /// An atom; every second one is sure to name the variable bound last.
    fn atom(&mut self, bound: &[usize]) -> usize {
        let any = *self.random.pick(bound);
        let x = if self.random.chance(1, 2) { bound[bound.len() - 1] } else { any };
        let y = *self.random.pick(bound);
        let [first, second] = if self.random.chance(1, 2) { [x, y] } else { [y, x] };
        match *self.random.pick(&[HAS_LABEL, HAS_LABEL, SAME, BEFORE, OVERLAPS, INCLUDES]) {
            HAS_LABEL => self.list.node(HAS_LABEL, x, self.random.below(self.labels)),
            relation => self.list.node(relation, first, second),
        }
    }

    /// Both, or one of the two by way of "not"; in either order.
    fn joined(&mut self, first: usize, second: usize) -> usize {
        let [a, b] = if self.random.chance(1, 2) { [first, second] } else { [second, first] };
        if self.random.chance(1, 2) {
            return self.list.and(a, b);
        }
        let [not_a, not_b] = [self.list.not(a), self.list.not(b)];
        let neither = self.list.and(not_a, not_b);
        self.list.not(neither)
    }
}

/// Whether a "some" stands over a "not" with one more "some" inside and none in that. Nothing then tells beforehand that a run
/// cannot serve, so with nine runs and more the proved check judges the two together by its matrix, if the search comes there.
pub fn has_open_pair(rule: &Rule) -> bool {
    let mut height = vec![0; rule.nodes.len()];
    let mut has_one = false;
    for (number, node) in rule.nodes.iter().enumerate() {
        let (a, b) = (usize::from(node.a), usize::from(node.b));
        height[number] = match node.kind {
            AND => height[a].max(height[b]),
            NOT => height[a],
            SOME => height[b] + 1,
            _ => 0,
        };
        has_one |= node.kind == SOME && height[b] == 1 && rule.nodes[b].kind == NOT;
    }
    has_one
}
