//! The cases for slips reach every refusal and every kind of rule and slip, and the
//! reference agrees with itself on them.

use generate::slips::{slip_case, SlipCase};
use reference::calls::{finished_runs, first_slip, slip_passes};
use reference::formula::is_true;
use reference::record::{lines_of, record_of};
use reference::rule::read_rule;
use reference::slip::{form_of, MAX_SLIP};
use reference::trace::accepted_lines;
use std::collections::BTreeMap;

const CASES: u64 = 8000;

#[test]
fn a_seed_always_gives_the_same_case() {
    for seed in 0..50 {
        assert_eq!(slip_case(seed), slip_case(seed));
    }
    assert_ne!(slip_case(1), slip_case(2));
}

/// The number of runs of the rule's slips, where it is of the form.
fn length_of(case: &SlipCase) -> Option<usize> {
    let rule = read_rule(&case.rule).ok()?;
    form_of(&rule).map(|form| form.variables.len())
}

#[test]
fn every_refusal_and_every_kind_is_reached() {
    let mut found: BTreeMap<Result<usize, u8>, u64> = BTreeMap::new();
    let mut passed: BTreeMap<Result<bool, u8>, u64> = BTreeMap::new();
    let mut kinds: BTreeMap<(&str, Option<u8>), u64> = BTreeMap::new();
    let mut slips: BTreeMap<(&str, Result<bool, u8>), u64> = BTreeMap::new();
    let (mut twice, mut full, mut not_at_once, mut behind_open) = (0, 0, 0, 0);
    for seed in 0..CASES {
        let case = slip_case(seed);
        let mut buffer = case.buffer.clone();
        let first = first_slip(&case.rule, &case.record, &mut buffer);
        let passes = slip_passes(&case.rule, &case.record, &case.slip);
        *found.entry(first).or_default() += 1;
        *passed.entry(passes).or_default() += 1;
        *kinds.entry((case.kind, first.err())).or_default() += 1;
        *slips.entry((case.slip_kind, passes)).or_default() += 1;
        if let (Ok(runs), Ok(rule)) = (first, read_rule(&case.rule)) {
            let mut variables = form_of(&rule).unwrap().variables;
            let count = variables.len();
            variables.sort();
            variables.dedup();
            twice += u64::from(variables.len() < count);
            let finished = case.record.runs.iter().filter(|run| run.end != 0).count();
            full += u64::from(finished >= 100);
            not_at_once += u64::from(runs > 1 && buffer[..runs].iter().any(|run| *run != 0));
            let open = case.record.runs.iter().position(|run| run.id != 0 && run.end == 0).unwrap_or(128);
            behind_open += u64::from(buffer[..runs].iter().any(|run| usize::from(*run) > open));
        }
    }
    println!("found {found:?}\npassed {passed:?}\nkinds {kinds:?}\nslips {slips:?}");
    println!("{twice} bind twice, {full} full, {not_at_once} not at once, {behind_open} behind an open run");
    let answers: Vec<Result<usize, u8>> = found.keys().copied().collect();
    let refusals = [1, 2, 3, 4, 5, 6, 7, 8, 9, 10, 20, 21, 26].map(Err).to_vec();
    assert_eq!(answers, [(0..=MAX_SLIP).map(Ok).collect(), refusals].concat());
    let answers: Vec<Result<bool, u8>> = passed.keys().copied().collect();
    let refusals = [1, 2, 3, 4, 5, 6, 7, 8, 9, 10, 21, 22, 26].map(Err).to_vec();
    assert_eq!(answers, [vec![Ok(false), Ok(true)], refusals].concat());
    // None of them by a lucky case only.
    assert!(found.values().chain(passed.values()).all(|times| *times >= 10));
    let near = ["no not", "two nots", "three nots", "some in the part", "not some in the part", "broken chain"];
    for kind in near.into_iter().chain(["two chains", "and of two"]) {
        assert!(kinds[&(kind, Some(26))] >= 30, "{kind}");
        assert!(!kinds.contains_key(&(kind, None)) || kinds[&(kind, None)] < 10, "{kind}");
    }
    assert!(kinds[&("chain of five", Some(10))] >= 30 && !kinds.contains_key(&("chain of five", Some(26))));
    assert!(kinds[&("of the form", None)] >= CASES / 3);
    for (kind, answer) in [
        ("ours", Ok(true)),
        ("ours with another run", Ok(true)),
        ("ours with another run", Ok(false)),
        ("another's", Ok(true)),
        ("another's", Ok(false)),
        ("a run that is not finished", Err(22)),
        ("any number of runs", Err(22)),
        ("any bytes", Err(22)),
    ] {
        assert!(slips[&(kind, answer)] >= 50, "{kind}, {answer:?}");
    }
    assert!(twice >= 200 && full >= 100 && not_at_once >= 500 && behind_open >= 50);
}

/// The log is that of the record, where this is not damaged; and the rule fails on it
/// exactly if a slip passes. The first one passes.
#[test]
fn a_rule_fails_exactly_if_a_slip_passes() {
    let (mut fails, mut holds, mut damaged) = (0, 0, 0);
    for seed in 0..CASES {
        let case = slip_case(seed);
        let (accepted, refusal) = accepted_lines(&case.log);
        assert_eq!(refusal, None);
        if record_of(&accepted) != case.record {
            damaged += u64::from(lines_of(&case.record).is_none());
            continue;
        }
        let Some(length) = length_of(&case) else {
            continue;
        };
        let formula = read_rule(&case.rule).unwrap().formula();
        let verdict = is_true(&formula, &finished_runs(&accepted));
        let mut slip = [0xA5; MAX_SLIP];
        let runs = first_slip(&case.rule, &case.record, &mut slip).unwrap();
        assert_eq!(runs, if verdict { 0 } else { length }, "seed {seed}");
        assert_eq!(slip[runs..], [0xA5; MAX_SLIP][runs..], "seed {seed}");
        if !verdict {
            assert_eq!(slip_passes(&case.rule, &case.record, &slip[..runs]), Ok(true), "seed {seed}");
        }
        if verdict { holds += 1 } else { fails += 1 }
    }
    println!("{fails} fail, {holds} hold, {damaged} damaged");
    assert!(fails >= 500 && holds >= 500 && damaged >= 200);
}
