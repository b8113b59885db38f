//! The published algorithm (000, section 4): the update table (table 1) after every line, then the set of satisfying
//! assignments of every subformula. Dense bit sets stand in place of decision diagrams.
//!
//! Two points are settled here:
//! - The completed pairs and the data are kept by the order of finishing, so the sets of step 2 range over the finished runs
//!   alone and are enlarged by one run with each end line. The paper's complement is taken in the universe of all enumerations,
//!   and its projection does not look at the closed runs; over finished runs alone both are as its section 3 means them.
//! - A begin line changes no set that step 2 reads, so it takes step 1 only and keeps the verdict.

mod dense;
mod update;

use crate::trace::{Line, Trace};
use dense::{Set, Universe};
use reference::rule::{Node, Rule, AND, BEFORE, HAS_LABEL, INCLUDES, NOT, OVERLAPS, SAME, SOME};
use update::{Completed, Table};

/// The verdict of every line.
pub fn verdicts(rule: &Rule, trace: &Trace) -> Vec<bool> {
    let mut table = Table::new();
    let mut monitor = Monitor {
        nodes: &rule.nodes,
        labels: trace.numbers_of(rule),
        completed: Completed::new(trace.label_count()),
        universe: Universe::default(),
    };
    let mut verdict = monitor.verdict();
    let mut verdicts = Vec::with_capacity(trace.lines.len());
    for line in &trace.lines {
        match *line {
            Line::Begin { run, label } => table.begin(run, label),
            Line::End { run } => {
                table.end(run, &mut monitor.completed);
                verdict = monitor.verdict();
            }
        }
        verdicts.push(verdict);
    }
    verdicts
}

/// Step 2: the sets of the subformulas.
struct Monitor<'a> {
    nodes: &'a [Node],
    /// The number that each label of the rule has in the log.
    labels: Vec<u8>,
    completed: Completed,
    universe: Universe,
}

impl Monitor<'_> {
    /// Whether the set of the whole rule, which has no free variable, holds the empty assignment.
    fn verdict(&mut self) -> bool {
        self.universe.enlarge_to(self.completed.runs);
        let root = self.set_of(self.nodes.len() - 1);
        let verdict = root.words[0] & 1 == 1;
        self.universe.give(root);
        verdict
    }

    /// The set of a subformula, from those of its parts.
    fn set_of(&mut self, node: usize) -> Set {
        let Node { kind, a, b } = self.nodes[node];
        let (a, b) = (usize::from(a), usize::from(b));
        match kind {
            // conj(B, C)
            AND => {
                let first = self.set_of(a);
                let second = self.set_of(b);
                self.universe.conjunction(first, second)
            }
            // comp(B)
            NOT => {
                let mut set = self.set_of(a);
                self.universe.complement(&mut set);
                set
            }
            // project(B, A)
            SOME => {
                let set = self.set_of(b);
                self.universe.project(set, a)
            }
            // project(restrict(d, rename(XD, X ← A)), D)
            HAS_LABEL => {
                let runs = self.completed.data.get(usize::from(self.labels[b])).copied().unwrap_or(0);
                self.universe.rows(1 << a, |_| runs)
            }
            _ => self.atom(kind, a, b),
        }
    }

    /// rename(XXYY, X ← A, Y ← B) and its like; project(conj(rename(XD, X ← A), rename(XD, X ← B)), D).
    fn atom(&mut self, kind: u8, a: usize, b: usize) -> Set {
        let Completed { before, overlaps, includes, data, label, .. } = &self.completed;
        let free = 1 << a | 1 << b;
        let pairs = match kind {
            SAME if a == b => return self.universe.rows(free, |_| data.iter().fold(0, |all, runs| all | runs)),
            SAME => return self.universe.rows(free, |run| data[usize::from(label[run])]),
            BEFORE => before,
            OVERLAPS => overlaps,
            INCLUDES => includes,
            _ => unreachable!("a rule that has been read has no other kind"),
        };
        // No run has one of the three to itself.
        if a == b {
            return self.universe.rows(free, |_| 0);
        }
        let rows = if a < b { &pairs.by_first } else { &pairs.by_second };
        self.universe.rows(free, |run| rows[run])
    }
}
