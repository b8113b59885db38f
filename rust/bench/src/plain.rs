//! The plain evaluator: after every line, recursion over the rule's nodes with a loop over the finished runs for each "some".
//!
//! Nothing clever: the positions of the runs lie in a table, a relation compares them, bindings are passed by value.

use crate::logs::MAX_RUNS;
use crate::trace::{Line, Trace};
use reference::rule::{Node, Rule, AND, BEFORE, HAS_LABEL, INCLUDES, NOT, OVERLAPS, SAME, SOME};

/// The run that each variable stands for.
type Binding = [u8; 4];

struct Plain<'a> {
    nodes: &'a [Node],
    /// The number that each label of the rule has in the log.
    labels: Vec<u8>,
    start: [u16; MAX_RUNS],
    finish: [u16; MAX_RUNS],
    label: [u8; MAX_RUNS],
    /// The finished runs, in the order in which they finished.
    finished: Vec<u8>,
}

/// The verdict of every line.
pub fn verdicts(rule: &Rule, trace: &Trace) -> Vec<bool> {
    let mut plain = Plain {
        nodes: &rule.nodes,
        labels: trace.numbers_of(rule),
        start: [0; MAX_RUNS],
        finish: [0; MAX_RUNS],
        label: [0; MAX_RUNS],
        finished: Vec::with_capacity(MAX_RUNS),
    };
    let root = rule.nodes.len() as u8 - 1;
    let mut verdicts = Vec::with_capacity(trace.lines.len());
    for (line, position) in trace.lines.iter().zip(1..) {
        plain.take(*line, position);
        verdicts.push(plain.holds(root, [0; 4]));
    }
    verdicts
}

impl Plain<'_> {
    fn take(&mut self, line: Line, position: u16) {
        match line {
            Line::Begin { run, label } => {
                self.start[run] = position;
                self.label[run] = label;
            }
            Line::End { run } => {
                self.finish[run] = position;
                self.finished.push(run as u8);
            }
        }
    }

    /// Whether the node is true under the binding, clause by clause as the logic defines it.
    fn holds(&self, node: u8, binding: Binding) -> bool {
        let Node { kind, a, b } = self.nodes[usize::from(node)];
        let run = |variable: u8| usize::from(binding[usize::from(variable)]);
        let start = |variable| self.start[run(variable)];
        let finish = |variable| self.finish[run(variable)];
        let label = |variable| self.label[run(variable)];
        match kind {
            AND => self.holds(a, binding) && self.holds(b, binding),
            NOT => !self.holds(a, binding),
            SOME => self.finished.iter().any(|run| {
                let mut inner = binding;
                inner[usize::from(a)] = *run;
                self.holds(b, inner)
            }),
            HAS_LABEL => label(a) == self.labels[usize::from(b)],
            BEFORE => finish(a) < start(b),
            OVERLAPS => start(a) < start(b) && start(b) < finish(a) && finish(a) < finish(b),
            INCLUDES => start(a) < start(b) && finish(b) < finish(a),
            SAME => label(a) != 0 && label(a) == label(b),
            _ => unreachable!("a rule that has been read has no other kind"),
        }
    }
}
