//! Reading a rule file: refusals 1 to 10, in the paper's order.
//!
//! "then the rule from its front, each part (mark, version, count, length byte,
//! label bytes, node) first for 1 and then for its own fault, then 7, 8, 9, 10,
//! each over the whole table"

use crate::formula::Formula;
use crate::label::{is_label, place_in};
use crate::{Refusal, LABEL_LIMIT};

pub const AND: u8 = 1;
pub const NOT: u8 = 2;
pub const SOME: u8 = 3;
pub const HAS_LABEL: u8 = 4;
pub const BEFORE: u8 = 5;
pub const OVERLAPS: u8 = 6;
pub const INCLUDES: u8 = 7;
pub const SAME: u8 = 8;

/// "label count 0 to 16", "node count 1 to 64", "Variables are 0 to 3".
pub const MAX_RULE_LABELS: usize = 16;
pub const MAX_NODES: usize = 64;
const LAST_VARIABLE: u8 = 3;

/// "At most four "some" nodes lie one inside another."
pub const MAX_NESTED: usize = 4;

/// "The longest file has 599 bytes".
pub const LONGEST_FILE: usize = 599;

/// "nodes of three bytes: kind, a, b"
#[derive(Clone, Copy, PartialEq, Eq, Debug)]
pub struct Node {
    pub kind: u8,
    pub a: u8,
    pub b: u8,
}

/// What a rule file that is not refused says. Its labels are as they were written.
#[derive(Clone, PartialEq, Eq, Debug)]
pub struct Rule {
    pub labels: Vec<Vec<u8>>,
    pub nodes: Vec<Node>,
}

impl Rule {
    /// The formula of the root, "by descending into children".
    pub fn formula(&self) -> Formula {
        self.formula_at(self.nodes.len() - 1)
    }

    /// The formula of the node with this number.
    pub fn formula_at(&self, number: usize) -> Formula {
        let Node { kind, a, b } = self.nodes[number];
        let (a, b) = (usize::from(a), usize::from(b));
        let child = |number| Box::new(self.formula_at(number));
        match kind {
            AND => Formula::And(child(a), child(b)),
            NOT => Formula::Not(child(a)),
            SOME => Formula::Some(a, child(b)),
            HAS_LABEL => Formula::HasLabel(a, self.labels[b].clone()),
            BEFORE => Formula::Before(a, b),
            OVERLAPS => Formula::Overlaps(a, b),
            INCLUDES => Formula::Includes(a, b),
            SAME => Formula::Same(a, b),
            _ => unreachable!("a node of another kind is refused with 6"),
        }
    }

    /// The file: "the mark `RUL`; version, 16 bits, low byte first, equal to 1;
    /// label count; each label as a length byte and its bytes; node count; nodes".
    pub fn to_bytes(&self) -> Vec<u8> {
        let mut file = b"RUL\x01\x00".to_vec();
        file.push(self.labels.len() as u8);
        for label in &self.labels {
            file.push(label.len() as u8);
            file.extend(label);
        }
        file.push(self.nodes.len() as u8);
        for node in &self.nodes {
            file.extend([node.kind, node.a, node.b]);
        }
        file
    }
}

/// The bytes of the file that are still to be read.
struct Rest<'a>(&'a [u8]);

impl<'a> Rest<'a> {
    /// The next part. "1 the file ends before the next part is whole".
    fn part(&mut self, length: usize) -> Result<&'a [u8], Refusal> {
        if self.0.len() < length {
            return Err(1);
        }
        let (part, rest) = self.0.split_at(length);
        self.0 = rest;
        Ok(part)
    }

    fn byte(&mut self) -> Result<u8, Refusal> {
        Ok(self.part(1)?[0])
    }
}

/// The rule in the file, or its refusal.
pub fn read_rule(file: &[u8]) -> Result<Rule, Refusal> {
    let mut rest = Rest(file);
    if rest.part(3)? != b"RUL" {
        return Err(2);
    }
    if rest.part(2)? != [1, 0] {
        return Err(3);
    }
    let label_count = usize::from(rest.byte()?);
    if label_count > MAX_RULE_LABELS {
        return Err(4);
    }
    let mut labels: Vec<Vec<u8>> = Vec::new();
    for _ in 0..label_count {
        let length = usize::from(rest.byte()?);
        if !(1..=LABEL_LIMIT).contains(&length) {
            return Err(5);
        }
        let label = rest.part(length)?.to_vec();
        // "listed twice" belongs to the bytes of the second one; "5 does for two labels in a
        // rule file's list that differ only in case".
        if !is_label(&label) || place_in(&labels, &label).is_some() {
            return Err(5);
        }
        labels.push(label);
    }
    let node_count = usize::from(rest.byte()?);
    if !(1..=MAX_NODES).contains(&node_count) {
        return Err(4);
    }
    let mut nodes: Vec<Node> = Vec::new();
    for number in 0..node_count {
        let part = rest.part(3)?;
        let node = Node { kind: part[0], a: part[1], b: part[2] };
        if !is_node(node, number, label_count) {
            return Err(6);
        }
        nodes.push(node);
    }
    if !rest.0.is_empty() {
        return Err(7);
    }
    if has_node_not_named_once(&nodes) {
        return Err(8);
    }
    if has_unbound_variable(&nodes) {
        return Err(9);
    }
    if has_five_nested(&nodes) {
        return Err(10);
    }
    Ok(Rule { labels, nodes })
}

/// Whether the kind and both fields are in range: "A child is the number of an
/// earlier node. Variables are 0 to 3." And "b not 0 under "not"" is outside.
fn is_node(node: Node, number: usize, label_count: usize) -> bool {
    let is_child = |field: u8| usize::from(field) < number;
    let is_variable = |field: u8| field <= LAST_VARIABLE;
    match node.kind {
        AND => is_child(node.a) && is_child(node.b),
        NOT => is_child(node.a) && node.b == 0,
        SOME => is_variable(node.a) && is_child(node.b),
        HAS_LABEL => is_variable(node.a) && usize::from(node.b) < label_count,
        BEFORE | OVERLAPS | INCLUDES | SAME => is_variable(node.a) && is_variable(node.b),
        _ => false,
    }
}

/// The fields of the node that name a child.
fn children(node: Node) -> Vec<usize> {
    match node.kind {
        AND => vec![usize::from(node.a), usize::from(node.b)],
        NOT => vec![usize::from(node.a)],
        SOME => vec![usize::from(node.b)],
        _ => vec![],
    }
}

/// The variables that the node uses. The variable of a "some" is bound, not used.
fn used_variables(node: Node) -> Vec<u8> {
    match node.kind {
        HAS_LABEL => vec![node.a],
        BEFORE | OVERLAPS | INCLUDES | SAME => vec![node.a, node.b],
        _ => vec![],
    }
}

/// 8: "The last node is the root; every other node is named by exactly one field
/// of one later node."
fn has_node_not_named_once(nodes: &[Node]) -> bool {
    let named: Vec<usize> = nodes.iter().flat_map(|node| children(*node)).collect();
    (0..nodes.len() - 1).any(|number| named.iter().filter(|name| **name == number).count() != 1)
}

/// The nodes around this one, innermost first. Asked only of a table that passed 8.
fn nodes_around(nodes: &[Node], number: usize) -> Vec<usize> {
    let mut around = Vec::new();
    let mut inner = number;
    while let Some(outer) = (0..nodes.len()).find(|outer| children(nodes[*outer]).contains(&inner)) {
        around.push(outer);
        inner = outer;
    }
    around
}

/// 9: "Every variable used stands inside a "some" that binds it".
fn has_unbound_variable(nodes: &[Node]) -> bool {
    (0..nodes.len()).any(|number| {
        let around = nodes_around(nodes, number);
        let is_bound =
            |variable: u8| around.iter().any(|outer| nodes[*outer].kind == SOME && nodes[*outer].a == variable);
        used_variables(nodes[number]).into_iter().any(|variable| !is_bound(variable))
    })
}

/// 10: "five "some" nodes nested".
fn has_five_nested(nodes: &[Node]) -> bool {
    (0..nodes.len()).any(|number| {
        let around = nodes_around(nodes, number);
        let nested = around.iter().filter(|outer| nodes[**outer].kind == SOME).count();
        nodes[number].kind == SOME && nested >= MAX_NESTED
    })
}

#[cfg(test)]
mod tests {
    use super::*;

    fn file(labels: &[&str], nodes: &[[u8; 3]]) -> Vec<u8> {
        let labels = labels.iter().map(|label| label.as_bytes().to_vec()).collect();
        let nodes = nodes.iter().map(|&[kind, a, b]| Node { kind, a, b }).collect();
        Rule { labels, nodes }.to_bytes()
    }

    fn p1() -> Vec<u8> {
        file(
            &["EVENING", "TEST"],
            &[[4, 0, 0], [4, 1, 1], [1, 0, 1], [7, 0, 1], [1, 2, 3], [3, 1, 4], [3, 0, 5], [2, 6, 0]],
        )
    }

    /// some 0: before 0 0. The smallest legal rule.
    const SMALL: [[u8; 3]; 2] = [[5, 0, 0], [3, 0, 0]];

    fn refusal(file: &[u8]) -> u8 {
        read_rule(file).err().unwrap_or(0)
    }

    #[test]
    fn the_rule_of_p1_has_44_bytes_and_is_taken() {
        assert_eq!(p1().len(), 44);
        assert_eq!(refusal(&p1()), 0);
        assert_eq!(read_rule(&p1()).unwrap().to_bytes(), p1());
    }

    #[test]
    fn the_smallest_file_has_13_bytes() {
        assert_eq!(file(&[], &SMALL).len(), 13);
        assert_eq!(refusal(&file(&[], &SMALL)), 0);
        // A rule of one node is 6 or 9.
        for kind in 0..=255 {
            for a in 0..=4 {
                assert!([6, 9].contains(&refusal(&file(&["A"], &[[kind, a, 0]]))));
            }
        }
    }

    /// 16 labels of 24 bytes and 64 nodes.
    fn longest() -> Vec<u8> {
        let labels: Vec<String> = (0..16).map(|n| format!("{n:02}").repeat(12)).collect();
        let labels: Vec<&str> = labels.iter().map(String::as_str).collect();
        let mut nodes = SMALL.to_vec();
        nodes.extend((1..63).map(|child| [2, child, 0]));
        file(&labels, &nodes)
    }

    #[test]
    fn the_longest_file_has_599_bytes() {
        assert_eq!(longest().len(), LONGEST_FILE);
        assert_eq!(refusal(&longest()), 0);
        let mut longer = longest();
        longer.push(0);
        assert_eq!(refusal(&longer), 7);
    }

    #[test]
    fn every_shorter_beginning_of_a_legal_file_is_refused_with_1() {
        for whole in [p1(), file(&[], &SMALL), longest()] {
            for length in 0..whole.len() {
                assert_eq!(refusal(&whole[..length]), 1, "{length}");
            }
        }
    }

    #[test]
    fn mark_and_version() {
        assert_eq!(refusal(b"XY"), 1);
        assert_eq!(refusal(b"XYZ"), 2);
        assert_eq!(refusal(b"rul\x01\x00"), 2);
        assert_eq!(refusal(b"RUL\x02"), 1);
        assert_eq!(refusal(b"RUL\x02\x00"), 3);
        assert_eq!(refusal(b"RUL\x00\x00"), 3);
        assert_eq!(refusal(b"RUL\x00\x01"), 3);
        assert_eq!(refusal(b"RUL\x01\x01"), 3);
        assert_eq!(refusal(b"RUL\x01\x02"), 3);
        assert_eq!(refusal(b"RUL\x01\x00"), 1);
    }

    #[test]
    fn a_count_is_judged_before_what_it_counts() {
        assert_eq!(refusal(b"RUL\x01\x00\x11"), 4);
        assert_eq!(refusal(b"RUL\x01\x00\xff"), 4);
        assert_eq!(refusal(b"RUL\x01\x00\x10"), 1);
        assert_eq!(refusal(b"RUL\x01\x00\x00"), 1);
        assert_eq!(refusal(b"RUL\x01\x00\x00\x00"), 4);
        assert_eq!(refusal(b"RUL\x01\x00\x00\x41"), 4);
        assert_eq!(refusal(b"RUL\x01\x00\x00\x40"), 1);
    }

    #[test]
    fn labels_of_a_file() {
        assert_eq!(refusal(b"RUL\x01\x00\x01\x00"), 5);
        assert_eq!(refusal(b"RUL\x01\x00\x01\x19"), 5);
        assert_eq!(refusal(b"RUL\x01\x00\x01\x18"), 1);
        assert_eq!(refusal(b"RUL\x01\x00\x01\x02-"), 1);
        assert_eq!(refusal(b"RUL\x01\x00\x01\x02-b"), 5);
        assert_eq!(refusal(b"RUL\x01\x00\x03\x01A\x01A"), 5);
        assert_eq!(refusal(b"RUL\x01\x00\x03\x01A\x01B"), 1);
        assert_eq!(refusal(&file(&["A", "AA", "B"], &SMALL)), 0);
        assert_eq!(refusal(&file(&["A", "AA", "A"], &SMALL)), 5);
    }

    #[test]
    fn labels_of_a_file_in_either_case() {
        // Each may be written in small letters, and the file's own bytes stay.
        assert_eq!(refusal(b"RUL\x01\x00\x01\x02ab"), 1);
        for labels in [&["a"][..], &["test", "Evening"], &["z", "Z_", "zZ"], &[&"z".repeat(24)]] {
            let file = file(labels, &SMALL);
            assert_eq!(read_rule(&file).unwrap().to_bytes(), file, "{labels:?}");
        }
        // "5 does for two labels in a rule file's list that differ only in case", met where the second stands.
        for labels in [&["A", "a"][..], &["a", "A"], &["A", "B", "a"], &["Test", "tEST", "-"], &["a", "b", "B", ""]] {
            assert_eq!(refusal(&file(labels, &SMALL)), 5, "{labels:?}");
        }
        assert_eq!(refusal(b"RUL\x01\x00\x03\x01A\x01"), 1);
        assert_eq!(refusal(b"RUL\x01\x00\x03\x01A\x01a"), 5);
        assert_eq!(refusal(b"RUL\x01\x00\x03\x01A\x01b"), 1);
        for byte in b"@[`{\xc1\xda\xe1\xfa" {
            assert_eq!(refusal(&[b"RUL\x01\x00\x01\x03t", &[*byte][..], b"T"].concat()), 5, "{byte}");
        }
    }

    #[test]
    fn a_node_is_one_part_of_three_bytes() {
        assert_eq!(refusal(b"RUL\x01\x00\x00\x02\x09"), 1);
        assert_eq!(refusal(b"RUL\x01\x00\x00\x02\x09\x00"), 1);
        assert_eq!(refusal(b"RUL\x01\x00\x00\x02\x09\x00\x00"), 6);
    }

    #[test]
    fn kinds_and_fields_outside_their_range() {
        // Node 2 after two legal ones, which it may name.
        let with = |node| refusal(&file(&["A"], &[[5, 0, 0], [5, 0, 0], node]));
        for node in [
            [0, 0, 0], [9, 0, 0], [255, 0, 0], [1, 2, 0], [1, 0, 2], [1, 3, 0], [2, 2, 0], [2, 0, 1], [3, 4, 0], [3, 0, 2],
            [4, 4, 0], [4, 0, 1], [5, 4, 0], [5, 0, 4], [6, 4, 0], [6, 0, 4], [7, 4, 0], [7, 0, 4], [8, 4, 0], [8, 0, 4],
        ] {
            assert_eq!(with(node), 6, "{node:?}");
        }
        for node in [[1, 0, 1], [2, 0, 0], [3, 3, 1], [4, 3, 0], [5, 3, 3], [6, 3, 3], [7, 3, 3], [8, 3, 3]] {
            assert_ne!(with(node), 6, "{node:?}");
        }
        assert_eq!(refusal(&file(&[], &[[4, 0, 0], [3, 0, 0]])), 6);
    }

    #[test]
    fn a_node_not_named_exactly_once() {
        // "and" naming one child twice.
        assert_eq!(refusal(&file(&[], &[[5, 0, 0], [1, 0, 0], [3, 0, 1]])), 8);
        // A node named by none.
        assert_eq!(refusal(&file(&[], &[[5, 0, 0], [5, 0, 0], [3, 0, 1]])), 8);
        // One child of two nodes.
        assert_eq!(refusal(&file(&[], &[[5, 0, 0], [2, 0, 0], [1, 0, 1], [3, 0, 2]])), 8);
    }

    #[test]
    fn every_variable_used_stands_inside_a_some_that_binds_it() {
        assert_eq!(refusal(&file(&[], &[[5, 0, 1], [3, 0, 0]])), 9);
        assert_eq!(refusal(&file(&[], &[[5, 1, 0], [3, 0, 0]])), 9);
        assert_eq!(refusal(&file(&["A"], &[[4, 1, 0], [3, 0, 0]])), 9);
        assert_eq!(refusal(&file(&[], &[[8, 0, 1], [3, 1, 0]])), 9);
        // A "some" beside the use does not bind it.
        assert_eq!(refusal(&file(&[], &[[5, 0, 0], [3, 0, 0], [5, 0, 0], [1, 1, 2]])), 9);
        // A "some" whose variable is not used is legal.
        assert_eq!(refusal(&file(&[], &[[5, 0, 0], [3, 1, 0], [3, 0, 1]])), 0);
        // The variable bound again inside is legal here.
        assert_eq!(refusal(&file(&[], &[[5, 0, 0], [3, 0, 0], [3, 0, 1]])), 0);
    }

    #[test]
    fn four_nested_some_are_taken_and_five_are_not() {
        let nested = |count: u8| {
            let mut nodes = vec![[5, 0, 0]];
            for level in 0..count {
                nodes.push([3, level % 4, nodes.len() as u8 - 1]);
                nodes.push([2, nodes.len() as u8 - 1, 0]);
            }
            refusal(&file(&[], &nodes))
        };
        assert_eq!([nested(1), nested(4), nested(5), nested(6), nested(12)], [0, 0, 10, 10, 10]);
        // Side by side they are not nested.
        let mut nodes = vec![[5, 0, 0], [3, 0, 0]];
        for _ in 0..5 {
            let last = nodes.len() as u8 - 1;
            nodes.extend([[5, 0, 0], [3, 0, last + 1], [1, last, last + 2]]);
        }
        assert_eq!(refusal(&file(&[], &nodes)), 0);
    }

    #[test]
    fn six_before_seven_before_eight_before_nine_before_ten() {
        let five: Vec<[u8; 3]> = vec![[5, 0, 0], [3, 0, 0], [3, 0, 1], [3, 0, 2], [3, 0, 3], [3, 0, 4]];
        assert_eq!(refusal(&file(&[], &five)), 10);
        let mut unbound = five.clone();
        unbound[0] = [5, 0, 1];
        assert_eq!(refusal(&file(&[], &unbound)), 9);
        // A 9 at node 0 does not come before an 8 at a later node.
        let mut not_named = unbound.clone();
        not_named.insert(1, [5, 0, 0]);
        assert_eq!(refusal(&file(&[], &not_named)), 8);
        let mut more = file(&[], &not_named);
        more.push(7);
        assert_eq!(refusal(&more), 7);
        let mut kind = not_named.clone();
        kind.push([9, 0, 0]);
        let mut more = file(&[], &kind);
        more.push(7);
        assert_eq!(refusal(&more), 6);
        // A wrong node comes before a missing one.
        let length = file(&[], &kind).len();
        let mut cut = file(&[], &kind);
        cut[6] += 1;
        assert_eq!(refusal(&cut[..length]), 6);
    }
}
