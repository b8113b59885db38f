//! The interval logic (000, section 3) and its meaning over finished runs.

use crate::label::are_one;

/// A variable, 0 to 3.
pub type Variable = usize;

/// A rule as a formula. "has label" holds the label's bytes as they were written, so no
/// numbering of labels takes part in what a rule means.
#[derive(Clone, PartialEq, Eq, Debug)]
pub enum Formula {
    And(Box<Formula>, Box<Formula>),
    Not(Box<Formula>),
    Some(Variable, Box<Formula>),
    HasLabel(Variable, Vec<u8>),
    Before(Variable, Variable),
    Overlaps(Variable, Variable),
    Includes(Variable, Variable),
    Same(Variable, Variable),
}

/// A finished run: its start and finish as line numbers, and its label if it has one.
#[derive(Clone, PartialEq, Eq, Debug)]
pub struct FinishedRun<'a> {
    pub start: u64,
    pub finish: u64,
    pub label: Option<&'a [u8]>,
}

/// Which finished run each variable stands for.
pub type Binding = [Option<usize>; 4];

/// Whether the rule is true of these finished runs.
pub fn is_true(rule: &Formula, runs: &[FinishedRun]) -> bool {
    satisfies(rule, runs, [None; 4])
}

/// Satisfaction, clause by clause as under "Meaning".
pub fn satisfies(formula: &Formula, runs: &[FinishedRun], binding: Binding) -> bool {
    // Every variable used is bound: a rule file with another one is refused with 9.
    let run = |variable: Variable| &runs[binding[variable].expect("a bound variable")];
    match formula {
        Formula::And(first, second) => {
            satisfies(first, runs, binding) && satisfies(second, runs, binding)
        }
        Formula::Not(child) => !satisfies(child, runs, binding),
        // "some" ranges over finished runs; with none it is false.
        Formula::Some(variable, child) => (0..runs.len()).any(|number| {
            let mut inner = binding;
            inner[*variable] = Some(number);
            satisfies(child, runs, inner)
        }),
        // has label: the run has that label.
        Formula::HasLabel(variable, label) => run(*variable).label.is_some_and(|of_run| are_one(of_run, label)),
        Formula::Before(a, b) => before(run(*a), run(*b)),
        Formula::Overlaps(a, b) => overlaps(run(*a), run(*b)),
        Formula::Includes(a, b) => includes(run(*a), run(*b)),
        // same: some label belongs to both.
        Formula::Same(a, b) => match (run(*a).label, run(*b).label) {
            (Some(first), Some(second)) => are_one(first, second),
            _ => false,
        },
    }
}

/// before: finish of a < start of b.
pub fn before(a: &FinishedRun, b: &FinishedRun) -> bool {
    a.finish < b.start
}

/// overlaps: start a < start b < finish a < finish b.
pub fn overlaps(a: &FinishedRun, b: &FinishedRun) -> bool {
    a.start < b.start && b.start < a.finish && a.finish < b.finish
}

/// includes: start a < start b < finish b < finish a.
pub fn includes(a: &FinishedRun, b: &FinishedRun) -> bool {
    a.start < b.start && b.start < b.finish && b.finish < a.finish
}

#[cfg(test)]
mod tests {
    use super::*;
    use Formula::*;

    fn some(variable: Variable, child: Formula) -> Formula {
        Some(variable, Box::new(child))
    }

    fn not(child: Formula) -> Formula {
        Not(Box::new(child))
    }

    fn run(start: u64, finish: u64, label: &'static str) -> FinishedRun<'static> {
        let label = (!label.is_empty()).then_some(label.as_bytes());
        FinishedRun { start, finish, label }
    }

    #[test]
    fn with_no_finished_run_some_is_false() {
        let anything = not(And(Box::new(Before(0, 0)), Box::new(not(Before(0, 0)))));
        assert!(!is_true(&some(0, anything.clone()), &[]));
        assert!(is_true(&not(some(0, anything.clone())), &[]));
        assert!(is_true(&some(0, anything), &[run(1, 2, "")]));
    }

    #[test]
    fn a_run_has_none_of_the_three_to_itself() {
        for atom in [Before(0, 0), Overlaps(0, 0), Includes(0, 0)] {
            assert!(!is_true(&some(0, atom), &[run(1, 2, "A"), run(3, 4, "A")]));
        }
    }

    #[test]
    fn two_different_runs_have_exactly_one_of_the_six() {
        for [a, b, c, d] in [[1, 2, 3, 4], [1, 3, 2, 4], [1, 4, 2, 3]] {
            let (x, y) = (run(a, b, ""), run(c, d, ""));
            let found: Vec<bool> = [before, overlaps, includes]
                .iter()
                .flat_map(|relation| [relation(&x, &y), relation(&y, &x)])
                .collect();
            assert_eq!(found.iter().filter(|&&holds| holds).count(), 1);
        }
    }

    #[test]
    fn a_missing_label_matches_nothing_not_even_itself() {
        let same_as_itself = some(0, Same(0, 0));
        assert!(!is_true(&same_as_itself, &[run(1, 2, "")]));
        assert!(is_true(&same_as_itself, &[run(1, 2, "A")]));
        let two_the_same = some(0, some(1, And(Box::new(Before(0, 1)), Box::new(Same(0, 1)))));
        assert!(!is_true(&two_the_same, &[run(1, 2, ""), run(3, 4, "")]));
        assert!(!is_true(&two_the_same, &[run(1, 2, "A"), run(3, 4, "")]));
        assert!(!is_true(&two_the_same, &[run(1, 2, "A"), run(3, 4, "B")]));
        assert!(is_true(&two_the_same, &[run(1, 2, "A"), run(3, 4, "A")]));
    }

    #[test]
    fn a_label_never_seen_makes_has_label_false() {
        let rule = some(0, HasLabel(0, b"TEST".to_vec()));
        assert!(!is_true(&rule, &[run(1, 2, ""), run(3, 4, "EVENING")]));
        assert!(is_true(&rule, &[run(1, 2, ""), run(3, 4, "TEST")]));
    }

    #[test]
    fn labels_are_looked_up_in_either_case() {
        for label in ["TEST", "test", "Test", "tEST"] {
            let rule = some(0, HasLabel(0, label.as_bytes().to_vec()));
            for written in ["TEST", "test", "teST"] {
                assert!(is_true(&rule, &[run(1, 2, written)]), "{label} {written}");
            }
            assert!(!is_true(&rule, &[run(1, 2, "TESTS"), run(3, 4, "TES"), run(5, 6, "")]));
        }
        let two_the_same = some(0, some(1, And(Box::new(Before(0, 1)), Box::new(Same(0, 1)))));
        assert!(is_true(&two_the_same, &[run(1, 2, "a_1"), run(3, 4, "A_1")]));
        assert!(!is_true(&two_the_same, &[run(1, 2, "a_1"), run(3, 4, "A_2"), run(5, 6, "")]));
    }

    #[test]
    fn the_innermost_some_binds() {
        // some 0: has 0 A, and some 0: has 0 B. The second 0 is another run.
        let rule = some(
            0,
            And(Box::new(HasLabel(0, b"A".to_vec())), Box::new(some(0, HasLabel(0, b"B".to_vec())))),
        );
        assert!(is_true(&rule, &[run(1, 2, "A"), run(3, 4, "B")]));
        assert!(!is_true(&rule, &[run(1, 2, "A")]));
    }
}
