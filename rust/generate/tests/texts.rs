//! The texts reach every refusal in every order, and the reference reads and writes them as their makers meant them.

use generate::case;
use generate::texts::{rule_case, text_case, TextCase, ORDER};
use reference::calls::{rule_from_text, text_from_rule};
use reference::formula::Formula;
use reference::report::report;
use reference::rule::read_rule;
use reference::typed::{rule_file, rule_text};
use reference::{Layout, Mode};
use std::collections::BTreeMap;

const CASES: u64 = 20_000;

/// No text is longer: 31 ands of 3 bytes, 32 "has label" of 29 and one "some" of 10.
const LONGEST_WRITTEN: usize = 1031;

fn described(case: &TextCase) -> String {
    format!("seed {} ({}): {}", case.seed, case.kind, case.text.escape_ascii())
}

#[test]
fn a_seed_always_gives_the_same_text() {
    for seed in 0..200 {
        assert_eq!(text_case(seed), text_case(seed));
        assert_eq!(rule_case(seed), rule_case(seed));
    }
    assert_ne!(text_case(1), text_case(2));
}

#[test]
fn texts_are_read_as_they_are_meant() {
    let mut answered: BTreeMap<u8, u64> = BTreeMap::new();
    let mut kinds: BTreeMap<&str, u64> = BTreeMap::new();
    let mut orders: BTreeMap<Vec<u8>, u64> = BTreeMap::new();
    let mut damaged: BTreeMap<u8, u64> = BTreeMap::new();
    let mut known = 0;
    for seed in 0..CASES {
        let case = text_case(seed);
        let mut rule = case.rule.clone();
        let answer = rule_from_text(&case.text, &mut rule);
        let refusal = answer.err().unwrap_or(0);
        if let Some(expected) = &case.known {
            let found = answer.map(|length| rule[..length].to_vec());
            assert!(found == *expected, "{found:?}, not {expected:?}: {}", described(&case));
            known += 1;
        } else {
            *damaged.entry(refusal).or_default() += 1;
        }
        // A refused call changes nothing, and no byte past the file changes.
        let written = answer.unwrap_or(0);
        assert!(rule[written..] == case.rule[written..], "{}", described(&case));
        if answer.is_ok() {
            assert!(read_rule(&rule[..written]).is_ok(), "{}", described(&case));
        }
        *answered.entry(refusal).or_default() += 1;
        *kinds.entry(case.kind).or_default() += 1;
        if case.faults.len() == 2 {
            *orders.entry(case.faults).or_default() += 1;
        }
    }
    println!("{CASES} texts, {known} known: {answered:?}\nwhere not known {damaged:?}\n{kinds:?}\n{orders:?}");
    // Zero stands for the texts that are taken.
    assert_eq!(answered.keys().copied().collect::<Vec<u8>>(), [0, 4, 5, 9, 10, 20, 25]);
    assert!(answered[&0] >= CASES / 3 && answered.values().all(|count| *count >= CASES / 50));
    assert!([0, 4, 5, 9, 10, 25].iter().all(|number| damaged[number] >= 20));
    assert!(kinds.len() == 16 && kinds.values().all(|count| *count >= 200));
    // Each two of the six numbers, in both orders.
    assert!(orders.len() == ORDER.len() * (ORDER.len() - 1) && orders.values().all(|count| *count >= 20));
}

/// The formula with each variable the level of the "some" that binds it.
fn by_level(formula: &Formula, bound: &mut Vec<usize>) -> Formula {
    let level = |variable: &usize| bound.iter().rposition(|other| other == variable).unwrap();
    match formula {
        Formula::And(first, second) => {
            Formula::And(Box::new(by_level(first, bound)), Box::new(by_level(second, bound)))
        }
        Formula::Not(child) => Formula::Not(Box::new(by_level(child, bound))),
        Formula::Some(variable, child) => {
            bound.push(*variable);
            let child = by_level(child, bound);
            bound.pop();
            Formula::Some(bound.len(), Box::new(child))
        }
        Formula::HasLabel(variable, label) => Formula::HasLabel(level(variable), label.clone()),
        Formula::Before(a, b) => Formula::Before(level(a), level(b)),
        Formula::Overlaps(a, b) => Formula::Overlaps(level(a), level(b)),
        Formula::Includes(a, b) => Formula::Includes(level(a), level(b)),
        Formula::Same(a, b) => Formula::Same(level(a), level(b)),
    }
}

#[test]
fn a_written_text_is_read_as_the_same_rule() {
    let mut answered: BTreeMap<u8, u64> = BTreeMap::new();
    let (mut longest, mut renamed) = (0, 0);
    for seed in 0..CASES {
        let case = rule_case(seed);
        let mut text = case.text.clone();
        let answer = text_from_rule(&case.rule, &mut text);
        *answered.entry(answer.err().unwrap_or(0)).or_default() += 1;
        let written = answer.unwrap_or(0);
        assert!(text[written..] == case.text[written..], "seed {seed}");
        if answer.is_err() {
            continue;
        }
        // The text has the labels in capitals.
        let mut rule = read_rule(&case.rule).unwrap();
        rule.labels.iter_mut().for_each(|label| label.make_ascii_uppercase());
        let formula = rule.formula();
        let again = rule_file(&text[..written]).unwrap();
        let read = read_rule(&again).unwrap().formula();
        assert!(read == by_level(&formula, &mut Vec::new()), "seed {seed}");
        assert!(rule_text(&again).unwrap() == text[..written], "seed {seed}");
        assert!(!text[..written].contains(&b'|'), "seed {seed}");
        longest = longest.max(written);
        renamed += u64::from(read != formula);
    }
    println!("{CASES} rule files: {answered:?}; the longest text has {longest} bytes; {renamed} have other variables");
    assert_eq!(answered.keys().copied().collect::<Vec<u8>>(), [0, 1, 2, 3, 4, 5, 6, 7, 8, 9, 10, 20]);
    assert!(answered[&0] >= CASES / 2 && answered.values().all(|count| *count >= 100));
    assert!(longest == LONGEST_WRITTEN && renamed >= 1000);
}

#[test]
fn a_written_text_has_the_same_verdicts() {
    let (mut rules, mut lines) = (0, 0);
    for seed in 0..2_000 {
        let case = case(Layout::Square, seed);
        if let Ok(text) = rule_text(&case.rule) {
            let expected = report(Mode::Full, &case.rule, &case.log);
            let again = rule_file(&text).unwrap();
            assert!(report(Mode::Full, &again, &case.log) == expected, "seed {seed}: {}", text.escape_ascii());
            rules += 1;
            lines += expected.split(|byte| *byte == b'\n').count();
        }
    }
    println!("{rules} rules over {lines} lines");
    assert!(rules >= 1000 && lines >= 10_000);
}
