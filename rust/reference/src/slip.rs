//! Slips: the runs that break a rule.
//!
//! "For a rule that is "not" over a chain of one to four "some" over a part without
//! "some", add a slip: run numbers, one for each "some", outermost first."

use crate::formula::{satisfies, FinishedRun, Formula, Variable};
use crate::record::{finished_run, Record};
use crate::rule::{Rule, NOT, SOME};
use crate::MAX_RUNS;

/// The most runs of a slip: at most four "some" nodes lie one inside another.
pub const MAX_SLIP: usize = 4;

/// A rule of the form: the variables of the chain, outermost first, and the inner part.
#[derive(Clone, PartialEq, Eq, Debug)]
pub struct Form {
    pub variables: Vec<Variable>,
    pub part: Formula,
}

/// The chain and the inner part of a rule; none if it has another form.
pub fn form_of(rule: &Rule) -> Option<Form> {
    let root = rule.nodes.last()?;
    if root.kind != NOT {
        return None;
    }
    let mut variables = Vec::new();
    let mut inner = usize::from(root.a);
    while rule.nodes[inner].kind == SOME {
        variables.push(usize::from(rule.nodes[inner].a));
        inner = usize::from(rule.nodes[inner].b);
    }
    // All nodes are one tree, so a "some" that is not of the chain stands in the part.
    let somes = rule.nodes.iter().filter(|node| node.kind == SOME).count();
    let is_of_the_form = (1..=MAX_SLIP).contains(&variables.len()) && somes == variables.len();
    is_of_the_form.then(|| Form { variables, part: rule.formula_at(inner) })
}

/// Whether "the inner part is true of" these finished runs, one for each "some". Where
/// two bind the same variable, "the innermost binds".
pub fn passes(form: &Form, runs: &[FinishedRun]) -> bool {
    let mut binding = [None; 4];
    for (place, variable) in form.variables.iter().enumerate() {
        binding[*variable] = Some(place);
    }
    satisfies(&form.part, runs, binding)
}

/// The first slip that passes: all are tried in order, and nothing is left out.
pub fn first_slip_of(form: &Form, record: &Record) -> Option<Vec<u8>> {
    let finished: Vec<(u8, FinishedRun)> = (0..MAX_RUNS)
        .filter_map(|number| Some((number as u8, finished_run(record, number as u64)?)))
        .collect();
    first_from(form, &finished, &mut Vec::new(), &mut Vec::new())
}

/// The first that begins with these runs, of which both the numbers and the runs are given.
fn first_from<'a>(
    form: &Form,
    finished: &[(u8, FinishedRun<'a>)],
    numbers: &mut Vec<u8>,
    runs: &mut Vec<FinishedRun<'a>>,
) -> Option<Vec<u8>> {
    if runs.len() == form.variables.len() {
        return passes(form, runs).then(|| numbers.clone());
    }
    for (number, run) in finished {
        numbers.push(*number);
        runs.push(run.clone());
        let found = first_from(form, finished, numbers, runs);
        if found.is_some() {
            return found;
        }
        numbers.pop();
        runs.pop();
    }
    None
}

#[cfg(test)]
mod tests {
    use super::*;
    use crate::record::record_of;
    use crate::rule::read_rule;
    use crate::trace::accepted_lines;
    use crate::typed::rule_file;

    fn form(text: &str) -> Option<Form> {
        form_of(&read_rule(&rule_file(text.as_bytes()).unwrap()).unwrap())
    }

    fn first(text: &str, log: &str) -> Option<Vec<u8>> {
        let (accepted, refusal) = accepted_lines(log.as_bytes());
        assert_eq!(refusal, None);
        first_slip_of(&form(text).unwrap(), &record_of(&accepted))
    }

    #[test]
    fn the_form_is_a_not_directly_over_one_to_four_some_and_none_below() {
        for (text, runs) in [
            ("!exist A . A < A", Some(1)),
            ("!exist A, B . A < B", Some(2)),
            ("!exist A . exist B . !A < B", Some(2)),
            ("!exist A, B, C, D . A < D", Some(4)),
            ("!exist A, A, A, A . A < A", Some(4)),
            ("!exist A . !A < A", Some(1)),
            ("exist A . A < A", None),
            ("!!exist A . A < A", None),
            ("!!!exist A . A < A", None),
            ("!exist A . !exist B . A < B", None),
            ("!exist A . A < A & exist B . A < B", None),
            ("!exist A . exist B . A < B & !exist C . A < C", None),
            ("!((exist A . A < A) & exist A . A < A)", None),
            ("(!exist A . A < A) & !exist A . A < A", None),
        ] {
            assert_eq!(form(text).map(|form| form.variables.len()), runs, "{text}");
        }
        assert_eq!(form("!exist A, B, A . A < B").unwrap().variables, [0, 1, 2]);
    }

    #[test]
    fn p1_has_runs_0_and_1() {
        let rule = "!exist A, B . A('EVENING') & B('TEST') & A i B";
        assert_eq!(first(rule, "B 7 EVENING\nB 9 TEST\nE 9\nE 7\n"), Some(vec![0, 1]));
        assert_eq!(first(rule, "B 7 EVENING\nB 9 TEST\nE 9\n"), None);
        assert_eq!(first(rule, ""), None);
    }

    #[test]
    fn the_first_slip_is_the_first_by_run_numbers_outermost_compared_first() {
        // Runs 0 to 3 one after another, run 4 open, run 5 inside it.
        let log = "B 1 A\nE 1\nB 2 B\nE 2\nB 3 A\nE 3\nB 4 B\nE 4\nB 5\nB 6 B\nE 6\n";
        assert_eq!(first("!exist A, B . A < B", log), Some(vec![0, 1]));
        assert_eq!(first("!exist B, A . A < B", log), Some(vec![1, 0]));
        assert_eq!(first("!exist A, B . A('B') & B('A')", log), Some(vec![1, 0]));
        assert_eq!(first("!exist A, B . A('B') & B('A') & A < B", log), Some(vec![1, 2]));
        assert_eq!(first("!exist A, B, C, D . A < B & B < C & C < D & same(B, D)", log), Some(vec![0, 1, 2, 3]));
        assert_eq!(first("!exist A, B, C . A < B & B < C & same(B, C)", log), Some(vec![0, 1, 3]));
        assert_eq!(first("!exist A, B . A < B & same(A, B) & !A('A')", log), Some(vec![1, 3]));
        // The open run is in no slip, and the one behind it keeps its number.
        assert_eq!(first("!exist A . !A('A') & !A('B')", log), None);
        assert_eq!(first("!exist A, B, C, D . A < B & B < C & C < D & D('B') & C('B')", log), Some(vec![0, 1, 3, 5]));
    }

    #[test]
    fn where_two_some_bind_a_variable_the_slip_has_a_run_for_each() {
        let log = "B 1 A\nE 1\nB 2 B\nE 2\nB 3 A\nE 3\n";
        let again = |variables: &[u8], node: [u8; 3]| {
            let mut nodes = vec![node];
            for variable in variables.iter().rev() {
                nodes.push([SOME, *variable, nodes.len() as u8 - 1]);
            }
            nodes.push([NOT, nodes.len() as u8 - 1, 0]);
            let mut file = b"RUL\x01\x00\x01\x01B".to_vec();
            file.push(nodes.len() as u8);
            file.extend(nodes.concat());
            let (accepted, _) = accepted_lines(log.as_bytes());
            first_slip_of(&form_of(&read_rule(&file).unwrap()).unwrap(), &record_of(&accepted))
        };
        // The outer run is any; the inner one has label B.
        assert_eq!(again(&[0, 0], [4, 0, 0]), Some(vec![0, 1]));
        assert_eq!(again(&[2, 1, 2, 2], [4, 2, 0]), Some(vec![0, 0, 0, 1]));
        // Variable 0 is the third run, variable 1 the second.
        assert_eq!(again(&[0, 1, 0], [5, 0, 1]), Some(vec![0, 1, 0]));
        assert_eq!(again(&[0, 1, 0], [5, 1, 0]), Some(vec![0, 0, 1]));
    }

    /// The slips of so many runs below a number, in order.
    fn all_slips(length: usize, below: u8) -> Vec<Vec<u8>> {
        let longer = |slips: Vec<Vec<u8>>, _| {
            slips.iter().flat_map(|slip| (0..below).map(move |run| [slip.as_slice(), &[run]].concat())).collect()
        };
        (0..length).fold(vec![Vec::new()], longer)
    }

    #[test]
    fn the_rule_is_false_exactly_if_some_slip_passes_and_the_first_is_found() {
        let log = "B 1 A\nB 2 B\nE 1\nB 3 A\nB 4\nE 4\nB 5 B\nE 3\nE 2\nB 6 A\nE 6\n";
        let (mut none, mut some) = (0, 0);
        for text in [
            "!exist A . A('B')",
            "!exist A . A('C')",
            "!exist A, B . A o B & B('B')",
            "!exist A, B . A i B & same(A, B)",
            "!exist A, B . A i B & !same(A, B) | B i A",
            "!exist A, B, C . A o B & B i C & A < C",
            "!exist A, B, C . A < B & B < C & same(A, C)",
            "!exist A, B, C, D . A < B & C i B & !same(A, D) & !D < A & !A < D",
            "!exist A, B, C, D . A o B & C o D & same(A, D) & same(B, C)",
        ] {
            let form = form(text).unwrap();
            let formula = read_rule(&rule_file(text.as_bytes()).unwrap()).unwrap().formula();
            let (accepted, _) = accepted_lines(log.as_bytes());
            for lines in 0..=accepted.len() {
                let record = record_of(&accepted[..lines]);
                let passing = |slip: &Vec<u8>| {
                    let runs: Option<Vec<FinishedRun>> =
                        slip.iter().map(|number| finished_run(&record, (*number).into())).collect();
                    runs.is_some_and(|runs| passes(&form, &runs))
                };
                let expected = all_slips(form.variables.len(), 7).into_iter().find(passing);
                assert_eq!(first_slip_of(&form, &record), expected, "{text}, {lines} lines");
                let finished = crate::calls::finished_runs(&accepted[..lines]);
                assert_eq!(crate::formula::is_true(&formula, &finished), expected.is_none(), "{text}, {lines} lines");
                if expected.is_some() { some += 1 } else { none += 1 }
            }
        }
        assert!(none >= 15 && some >= 15, "{none} {some}");
    }
}
