//! The rules that are measured.

use crate::logs::LAST;
use reference::rule::{read_rule, Node, Rule, AND, HAS_LABEL, INCLUDES, NOT, OVERLAPS, SAME, SOME};
use std::fs;
use std::path::Path;

/// A rule: what it is called in the table, its file, and how many "some" nodes lie one inside another at most.
pub struct Case {
    pub name: String,
    pub file: Vec<u8>,
    pub nested: usize,
}

impl Case {
    /// The labels that the rule names.
    pub fn labels(&self) -> Vec<String> {
        let rule = read_rule(&self.file).expect("a legal rule");
        rule.labels.into_iter().map(|label| String::from_utf8(label).expect("letters, digits and _")).collect()
    }
}

/// A rule of the lessons.
fn lesson(name: String, folder: String, nested: usize) -> Case {
    let examples = Path::new(env!("CARGO_MANIFEST_DIR")).join("../../examples");
    let file = fs::read(examples.join(folder).join("rule.rul")).expect("a rule of the examples");
    Case { name, file, nested }
}

/// A property of 000, figure 1 (1 to 4).
pub fn figure_1(property: usize) -> Case {
    let nested = [3, 2, 4, 3][property - 1];
    lesson(format!("figure 1, property {property}"), format!("rover_{property}_kept"), nested)
}

/// A property of 000, section 3 (1 to 4).
pub fn section_3(property: usize) -> Case {
    let nested = [2, 3, 3, 3][property - 1];
    lesson(format!("section 3, property {property}"), format!("property_{property}_kept"), nested)
}

/// A rule whose nodes are being listed. Each method adds nodes and answers the number of the last.
pub struct NodeList(Rule);

impl NodeList {
    /// A list for a rule that names these labels.
    pub fn with_labels(labels: &[&str]) -> NodeList {
        NodeList(Rule { labels: labels.iter().map(|label| label.as_bytes().to_vec()).collect(), nodes: Vec::new() })
    }

    fn new() -> NodeList {
        NodeList::with_labels(&[])
    }

    pub fn node(&mut self, kind: u8, a: usize, b: usize) -> usize {
        self.0.nodes.push(Node { kind, a: a as u8, b: b as u8 });
        self.0.nodes.len() - 1
    }

    pub fn and(&mut self, first: usize, second: usize) -> usize {
        self.node(AND, first, second)
    }

    pub fn not(&mut self, child: usize) -> usize {
        self.node(NOT, child, 0)
    }

    /// Two relations of the same runs that never both hold. Each holds of many runs, so neither alone settles anything.
    pub fn never(&mut self, x: usize, y: usize) -> usize {
        let overlaps = self.node(OVERLAPS, x, y);
        let includes = self.node(INCLUDES, x, y);
        self.and(overlaps, includes)
    }

    /// One of the first `length` pairs of `never`: "not" of an "and" of "not"s, five nodes a pair.
    pub fn one_of(&mut self, length: usize) -> usize {
        let mut none = None;
        for (x, y) in &PAIRS[..length] {
            let pair = self.never(*x, *y);
            let not = self.not(pair);
            none = Some(none.map_or(not, |earlier| self.and(earlier, not)));
        }
        self.not(none.expect("at least one pair"))
    }

    /// So many times "not".
    pub fn nots(&mut self, count: usize, child: usize) -> usize {
        (0..count).fold(child, |child, _| self.not(child))
    }

    /// "some" for each of these variables, the last one innermost.
    pub fn some(&mut self, variables: &[usize], child: usize) -> usize {
        variables.iter().rev().fold(child, |child, variable| self.node(SOME, *variable, child))
    }

    /// The rule file.
    pub fn file(&self) -> Vec<u8> {
        let file = self.0.to_bytes();
        assert!(read_rule(&file).is_ok(), "a legal rule");
        file
    }

    pub fn case(&self, name: &str) -> Case {
        Case { name: name.into(), file: self.file(), nested: 4 }
    }
}

/// The smallest legal rule: some A, same A A. A log with it costs reading and the fixed cost of judging: finding the finish
/// order, filling the table of rows and writing the verdict bytes.
pub fn two_nodes() -> Case {
    let mut list = NodeList::new();
    let same = list.node(SAME, 0, 0);
    list.some(&[0], same);
    Case { nested: 1, ..list.case("two nodes") }
}

/// All pairs of different variables. Those with D come at the front and at the back, so that the chain stays open until all
/// four are bound.
const PAIRS: [(usize, usize); 12] =
    [(0, 3), (3, 1), (2, 3), (0, 1), (1, 0), (1, 2), (2, 1), (0, 2), (2, 0), (3, 2), (1, 3), (3, 0)];

/// The worst rules found. None is ever true, and no conjunct tells so before the innermost variable is bound: a pair that never
/// holds stands under "not" or inside a "some", so a run that is bound further out settles nothing. Both relations occur in
/// every kind of log. The limit is 64 nodes.
pub fn worst() -> Vec<Case> {
    vec![worst_nots(), worst_nots_of_all(), worst_chain(), worst_inner_chain()]
}

/// exist A, B, C, D . 56 times "not" of a pair of A and D: 63 nodes. One "not" more would make it true. B and C are not named,
/// so the sets of the published algorithm stay small.
fn worst_nots() -> Case {
    let mut list = NodeList::new();
    let pair = list.never(0, 3);
    let nots = list.nots(56, pair);
    list.some(&[0, 1, 2, 3], nots);
    list.case("worst: 56 nots")
}

/// The same with all four variables named: 54 times "not" of B overlaps C and a pair of A and D, 63 nodes.
fn worst_nots_of_all() -> Case {
    let mut list = NodeList::new();
    let overlaps = list.node(OVERLAPS, 1, 2);
    let pair = list.never(0, 3);
    let both = list.and(overlaps, pair);
    let nots = list.nots(54, both);
    list.some(&[0, 1, 2, 3], nots);
    list.case("worst: 54 nots of all")
}

/// exist A, B, C, D . one of twelve pairs, which together name every two variables both ways: 64 nodes.
fn worst_chain() -> Case {
    let mut list = NodeList::new();
    let chain = list.one_of(12);
    list.some(&[0, 1, 2, 3], chain);
    list.case("worst: chain")
}

/// exist A, B, C . (!exist D . one of ten pairs) & exist D . a pair of A and D, under four "not"s: 64 nodes. The first part is
/// true whatever A, B and C are, so without the second the search would end at once. The second is never true; it has a "some"
/// of its own, so that it cannot be settled before the first.
fn worst_inner_chain() -> Case {
    let mut list = NodeList::new();
    let chain = list.one_of(10);
    let some = list.some(&[3], chain);
    let none = list.not(some);
    let pair = list.never(0, 3);
    let nots = list.nots(4, pair);
    let never = list.some(&[3], nots);
    let both = list.and(none, never);
    list.some(&[0, 1, 2], both);
    list.case("worst: inner chain")
}

/// No run has the label LAST: three nodes. The rule fails once a run with that label has finished.
pub fn no_last() -> Case {
    let mut list = NodeList::with_labels(&[LAST]);
    let last = list.node(HAS_LABEL, 0, 0);
    let some_last = list.some(&[0], last);
    list.not(some_last);
    list.case("no LAST")
}

/// No A, B, C, D are as in `worst_nots`, with 52 times "not", and no run has the label LAST: 64 nodes. The first part
/// is always true and takes long. The rule fails once a run with that label has finished.
pub fn worst_nots_and_no_last() -> Case {
    let mut list = NodeList::with_labels(&[LAST]);
    let pair = list.never(0, 3);
    let nots = list.nots(52, pair);
    let some = list.some(&[0, 1, 2, 3], nots);
    let none = list.not(some);
    let last = list.node(HAS_LABEL, 0, 0);
    let some_last = list.some(&[0], last);
    let none_last = list.not(some_last);
    list.and(none, none_last);
    list.case("worst: 52 nots and no LAST")
}

/// The same first part, and some run is the same as itself: 63 nodes. Where all runs have labels, the rule fails with
/// line 1 and holds once a run has finished.
pub fn worst_nots_and_some_run() -> Case {
    let mut list = NodeList::with_labels(&[]);
    let pair = list.never(0, 3);
    let nots = list.nots(52, pair);
    let some = list.some(&[0, 1, 2, 3], nots);
    let none = list.not(some);
    let same = list.node(SAME, 0, 0);
    let some_run = list.some(&[0], same);
    list.and(none, some_run);
    list.case("worst: 52 nots and some run")
}
