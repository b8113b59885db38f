//! Labels are written in letters of either case in logs, rule files, typed rules and records, often enough and in every
//! way that counts.

use generate::letters::{differ_only_in_case, in_another_case, Letters, BESIDE_LETTERS, LETTERS};
use generate::random::Random;
use generate::records::{make_small, Small, SMALLS};
use generate::slips::slip_case;
use generate::texts::{rule_case, text_case};
use generate::{case, rule_refusal, Case};
use reference::calls::{check_line, finished_runs, relation_between, slip_passes};
use reference::formula::{is_true, FinishedRun, Formula};
use reference::line::{read_line, Event};
use reference::record::{lines_of, record_of, Record};
use reference::rule::read_rule;
use reference::trace::{accepted_lines, judge_line, labels_of};
use reference::typed::{rule_file, rule_text};
use reference::{Layout, MAX_LABELS};
use std::collections::{BTreeMap, BTreeSet};

const CASES: u64 = 4000;

fn case_of(seed: u64) -> Case {
    case(Layout::Square, seed)
}

/// The labels of begin lines, as they are written.
fn written(accepted: &[Event]) -> Vec<&[u8]> {
    let label = |event| if let &Event::Begin { ref label, .. } = event { label.as_deref() } else { None };
    accepted.iter().filter_map(label).collect()
}

fn has_small(label: &[u8]) -> bool {
    label.iter().any(u8::is_ascii_lowercase)
}

fn has_capital(label: &[u8]) -> bool {
    label.iter().any(u8::is_ascii_uppercase)
}

/// How the labels with letters are written: with capitals alone, with small letters alone, or with both.
fn letters_of(labels: &[&[u8]]) -> Option<Letters> {
    match (has_small(&labels.concat()), has_capital(&labels.concat())) {
        (false, false) => None,
        (false, true) => Some(Letters::Capitals),
        (true, false) => Some(Letters::Small),
        (true, true) => Some(Letters::Mixed),
    }
}

/// How many labels these would be if the case of a letter counted.
fn count_of_spellings(labels: &[&[u8]]) -> usize {
    labels.iter().collect::<BTreeSet<_>>().len()
}

/// The bytes of a label as other bytes, in which every two that differ in case alone differ in a digit too.
fn told_apart(label: &[u8]) -> Vec<u8> {
    label.iter().flat_map(|byte| format!("{byte:02X}").into_bytes()).collect()
}

/// The formula in which the case of a letter counts.
fn formula_told_apart(formula: &Formula) -> Formula {
    match formula {
        Formula::And(first, second) => {
            Formula::And(Box::new(formula_told_apart(first)), Box::new(formula_told_apart(second)))
        }
        Formula::Not(child) => Formula::Not(Box::new(formula_told_apart(child))),
        Formula::Some(variable, child) => Formula::Some(*variable, Box::new(formula_told_apart(child))),
        Formula::HasLabel(variable, label) => Formula::HasLabel(*variable, told_apart(label)),
        other => other.clone(),
    }
}

/// Whether the rule would have another verdict with some of these lines if the case of a letter counted.
fn depends_on_case(formula: &Formula, accepted: &[Event]) -> bool {
    let apart = formula_told_apart(formula);
    (1..=accepted.len()).any(|lines| {
        let runs = finished_runs(&accepted[..lines]);
        let labels: Vec<Option<Vec<u8>>> = runs.iter().map(|run| run.label.map(told_apart)).collect();
        let with = |(run, label): (&FinishedRun, &'_ Option<Vec<u8>>)| (run.start, run.finish, label.clone());
        let others: Vec<_> = runs.iter().zip(&labels).map(with).collect();
        let others: Vec<FinishedRun> = others
            .iter()
            .map(|(start, finish, label)| FinishedRun { start: *start, finish: *finish, label: label.as_deref() })
            .collect();
        is_true(formula, &runs) != is_true(&apart, &others)
    })
}

#[test]
fn a_label_is_written_in_letters_of_either_case() {
    let random = &mut Random::new(1);
    assert_eq!(Letters::Capitals.write(random, b"Test_09"), b"TEST_09");
    assert_eq!(Letters::Small.write(random, b"Test_09"), b"test_09");
    let mixed: BTreeSet<Vec<u8>> = (0..200).map(|_| Letters::Mixed.write(random, b"aB_1")).collect();
    assert_eq!(mixed.into_iter().collect::<Vec<_>>(), [b"AB_1", b"Ab_1", b"aB_1", b"ab_1"]);
    for label in [&b"TEST"[..], b"test", b"A", b"z_1", b"AAAAAAAAAAAAAAAAAAAAAAAA"] {
        for _ in 0..50 {
            assert!(differ_only_in_case(label, &in_another_case(random, label)));
        }
    }
    assert_eq!(in_another_case(random, b"_09"), b"_09");
    assert!(!differ_only_in_case(b"A", b"A") && !differ_only_in_case(b"A", b"AA") && !differ_only_in_case(b"@", b"`"));
    // None of these is a byte of a label, and all that stand beside the letters are among them.
    assert!(!BESIDE_LETTERS.iter().any(|byte| byte.is_ascii_alphanumeric() || *byte == b'_'));
    assert!(b"@[`{\xe1".iter().all(|byte| BESIDE_LETTERS.contains(byte)));
}

/// Logs in capitals, in small letters and in both; in which a label is written in several ways; in which there would be
/// more than 64 labels if the case of a letter counted; and in which a verdict depends on it.
#[test]
fn logs_are_written_in_letters_of_either_case() {
    let mut logs: BTreeMap<Letters, u64> = BTreeMap::new();
    let mut kinds: BTreeMap<&str, u64> = BTreeMap::new();
    let (mut several, mut past_64, mut full, mut depend, mut refused_19) = (0, 0, 0, 0, 0);
    for seed in 0..CASES {
        let case = case_of(seed);
        let (accepted, refusal) = accepted_lines(&case.log);
        let labels = written(&accepted);
        if let Some(letters) = letters_of(&labels) {
            *logs.entry(letters).or_default() += 1;
        }
        let (spellings, different) = (count_of_spellings(&labels), labels_of(&accepted).len());
        several += u64::from(spellings > different);
        past_64 += u64::from(spellings > MAX_LABELS);
        full += u64::from(spellings > MAX_LABELS && different == MAX_LABELS);
        refused_19 += u64::from(refusal == Some(19) && spellings > MAX_LABELS);
        if spellings > different {
            *kinds.entry(case.kind).or_default() += 1;
        }
        // The slow ones are left out: there are enough.
        if let (true, Ok(rule)) = (accepted.len() <= 60, read_rule(&case.rule)) {
            depend += u64::from(depends_on_case(&rule.formula(), &accepted));
        }
    }
    println!("{logs:?}; {several} with a label in several ways {kinds:?}");
    println!("{past_64} of more than 64 spellings, {full} of 64 labels, {refused_19} refused with 19; {depend} depend");
    assert_eq!(logs.keys().copied().collect::<Vec<_>>(), LETTERS);
    assert!(logs.values().all(|count| *count >= CASES / 10));
    assert!(several >= CASES / 5 && past_64 >= 30 && full >= 30 && refused_19 >= 10 && depend >= CASES / 20);
    for kind in ["short", "short with a fault", "middling", "middling with a fault", "labels with one first place"] {
        assert!(kinds[kind] >= 40, "{kind}");
    }
    for kind in ["128 runs", "64 labels", "few ids"] {
        assert!(kinds[kind] >= 40, "{kind}");
    }
}

/// What a line is that is refused for its letters: `b` or `e` in place of `B` or `E`, or a byte beside the letters.
#[test]
fn lines_with_a_label_in_another_case_and_lines_that_are_refused_for_their_letters_are_reached() {
    let (mut known, mut new, mut taken_small, mut small_form, mut long, mut small_19) = (0, 0, 0, 0, 0, 0);
    let mut beside: BTreeMap<u8, u64> = BTreeMap::new();
    for seed in 0..2 * CASES {
        let case = case_of(seed);
        let (accepted, _) = accepted_lines(&case.log);
        let before: usize = case.log.split_inclusive(|byte| *byte == b'\n').take(accepted.len()).map(<[u8]>::len).sum();
        let refused = case.log[before..].split_inclusive(|byte| *byte == b'\n').next();
        let of_record = lines_of(&case.record).unwrap_or_default();
        for (accepted, line) in [(&accepted, refused), (&of_record, Some(&case.line[..]))] {
            let Some(line) = line else {
                continue;
            };
            let answer = judge_line(accepted, line);
            let label = line.strip_suffix(b"\n").and_then(|line| line.splitn(3, |byte| *byte == b' ').nth(2));
            match answer {
                Ok(Event::Begin { label: Some(label), .. }) => {
                    taken_small += u64::from(has_small(&label));
                    let same = labels_of(accepted).into_iter().find(|other| other.eq_ignore_ascii_case(&label));
                    let spellings = written(accepted);
                    known += u64::from(same.is_some() && !spellings.contains(&label.as_slice()));
                    new += u64::from(same.is_none() && has_small(&label));
                }
                Err(11) => {
                    // With a capital in its place the line has the form.
                    let is_small = line.first().is_some_and(u8::is_ascii_lowercase);
                    let in_capitals = line.to_ascii_uppercase();
                    small_form += u64::from(is_small && read_line(&in_capitals).is_ok());
                }
                Err(13) => {
                    let label = label.expect("a label that is refused");
                    let is_wrong = |byte: &&u8| !byte.is_ascii_alphanumeric() && **byte != b'_';
                    let wrong: Vec<&u8> = label.iter().filter(is_wrong).collect();
                    if let ([byte], true) = (&wrong[..], label.len() <= 24) {
                        *beside.entry(**byte).or_default() += 1;
                    }
                    long += u64::from(wrong.is_empty() && has_small(label));
                }
                Err(19) => small_19 += u64::from(label.is_some_and(has_small)),
                _ => {}
            }
        }
    }
    println!("{taken_small} with small letters taken, {known} of them new spellings of a label, {new} new labels");
    println!("{small_form} with b or e, {long} too long in small letters, {small_19} refused with 19; {beside:?}");
    assert!(taken_small >= 500 && known >= 200 && new >= 100 && small_form >= 50 && long >= 50 && small_19 >= 10);
    assert!(BESIDE_LETTERS.iter().all(|byte| beside[byte] >= 4));
}

/// The labels in the list of a rule file, as far as it goes.
fn listed(file: &[u8]) -> Vec<&[u8]> {
    let mut labels = Vec::new();
    let mut rest = file.get(6..).unwrap_or_default();
    while let [length, after @ ..] = rest {
        let length = usize::from(*length);
        if labels.len() == usize::from(file[5]) || length > after.len() {
            break;
        }
        labels.push(&after[..length]);
        rest = &after[length..];
    }
    labels
}

/// What a rule file's list meets for its letters.
#[derive(Default, Debug)]
struct Lists {
    taken: BTreeMap<Letters, u64>,
    /// Refused for two labels that differ only in case, and would be taken, or refused for something else, if the case
    /// of a letter counted; the second label is the last of the file in some.
    twice: u64,
    twice_at_the_end: u64,
    beside: u64,
}

impl Lists {
    fn add(&mut self, file: &[u8]) {
        let labels = listed(file);
        match read_rule(file) {
            Ok(_) => {
                if let Some(letters) = letters_of(&labels) {
                    *self.taken.entry(letters).or_default() += 1;
                }
            }
            Err(5) => {
                let is_good = |label: &&[u8]| reference::label::is_label(label);
                let good = labels.iter().take_while(|label| is_good(label)).count();
                let again = (0..good).find(|place| {
                    labels[..*place].iter().any(|other| other.eq_ignore_ascii_case(labels[*place]))
                });
                if let Some(place) = again {
                    let is_in_case = !labels[..place].contains(&labels[place]);
                    self.twice += u64::from(is_in_case);
                    self.twice_at_the_end += u64::from(is_in_case && file.ends_with(labels[place]));
                } else if let Some(bad) = labels.get(good) {
                    let wrong: Vec<&u8> = bad.iter().filter(|byte| BESIDE_LETTERS.contains(byte)).collect();
                    self.beside += u64::from(wrong.len() == 1);
                }
            }
            Err(_) => {}
        }
    }
}

/// Of the checks, of the writer of texts, and of slips.
#[test]
fn lists_of_rule_files_are_written_in_letters_of_either_case() {
    let (mut checked, mut to_write, mut with_slips) = (Lists::default(), Lists::default(), Lists::default());
    for seed in 0..2 * CASES {
        checked.add(&case_of(seed).rule);
        to_write.add(&rule_case(seed).rule);
        with_slips.add(&slip_case(seed).rule);
    }
    for lists in [checked, to_write, with_slips] {
        println!("{lists:?}");
        assert_eq!(lists.taken.keys().copied().collect::<Vec<_>>(), LETTERS);
        assert!(lists.taken.values().all(|count| *count >= CASES / 10));
        assert!(lists.twice >= 50 && lists.twice_at_the_end >= 5 && lists.beside >= 20);
    }
}

/// In every way, on the records of logs: no lines leave them, and all calls on a record say so.
#[test]
fn no_lines_leave_a_record_with_a_small_letter() {
    let mut made: BTreeMap<Small, u64> = BTreeMap::new();
    let rule = rule_file(b"!exist A . A('TEST')").unwrap();
    for (seed, way) in (0..600).flat_map(|seed| SMALLS.map(|way| (seed, way))) {
        let random = &mut Random::new(seed);
        let (accepted, _) = accepted_lines(&case_of(seed).log);
        let sound = record_of(&accepted);
        let mut record = sound.clone();
        if !make_small(random, &mut record, way) {
            assert_eq!(record, sound);
            continue;
        }
        let is_small = record.labels.iter().any(|label| has_small(&label.bytes));
        assert_eq!(is_small, way != Small::Place, "seed {seed}");
        assert_eq!(lines_of(&record).is_some(), record == sound, "seed {seed}, {way:?}");
        if record != sound {
            let mut work = reference::record::pair_bytes(Layout::Half, &record);
            assert_eq!(check_line(Layout::Half, &rule, &record, &mut work, b"B 1\n").verdict, Err(21));
            assert_eq!((relation_between(&record, 0, 1), slip_passes(&rule, &record, &[0])), (Err(21), Err(21)));
            *made.entry(way).or_default() += 1;
        }
    }
    println!("{made:?}");
    assert!(SMALLS.iter().all(|way| made[way] >= 100));
}

/// Whether the labels have small letters, and whether the places are those of the capitals.
fn small_in(record: &Record, sound: &Record) -> Option<&'static str> {
    let is_small = record.labels.iter().any(|label| has_small(&label.bytes));
    match (is_small, record.places == sound.places) {
        (false, true) => None,
        (false, false) => (record.labels == sound.labels).then_some("places"),
        (true, true) => Some("labels"),
        (true, false) => Some("labels and places"),
    }
}

#[test]
fn records_with_small_letters_are_reached() {
    let mut found: BTreeMap<&str, u64> = BTreeMap::new();
    let (mut refused, mut of_slips) = (0, 0);
    for seed in 0..2 * CASES {
        let case = case_of(seed);
        let (accepted, _) = accepted_lines(&case.log);
        let sound = record_of(&accepted[..accepted.len().min(case.record.lines as usize)]);
        if let Some(kind) = small_in(&case.record, &sound) {
            *found.entry(kind).or_default() += 1;
            if kind != "places" {
                assert_eq!(lines_of(&case.record), None, "seed {seed}");
                let mut work = case.work.clone();
                let verdict = check_line(Layout::Square, &case.rule, &case.record, &mut work, &case.line).verdict;
                refused += u64::from(verdict == Err(21));
                assert!(rule_refusal(&case).is_some() || verdict == Err(21) || verdict == Err(20), "seed {seed}");
            }
        }
        let slip = slip_case(seed);
        of_slips += u64::from(slip.record.labels.iter().any(|label| has_small(&label.bytes)));
    }
    println!("{found:?}, {refused} refused with 21; {of_slips} of slips");
    assert_eq!(found.keys().copied().collect::<Vec<_>>(), ["labels", "labels and places", "places"]);
    assert!(found.values().all(|count| *count >= 20) && refused >= 60 && of_slips >= 60);
}

/// The labels between quotes in a text, whose quotes come in twos.
fn quoted(text: &[u8]) -> Vec<&[u8]> {
    text.split(|byte| *byte == b'\'').skip(1).step_by(2).collect()
}

#[test]
fn texts_are_written_in_letters_of_either_case() {
    let mut taken: BTreeMap<Letters, u64> = BTreeMap::new();
    let (mut several, mut past_16, mut small_4, mut beside, mut long) = (0, 0, 0, 0, 0);
    for seed in 0..2 * CASES {
        let case = text_case(seed);
        let labels = quoted(&case.text);
        match rule_file(&case.text) {
            Ok(file) => {
                let Some(letters) = letters_of(&labels) else {
                    continue;
                };
                *taken.entry(letters).or_default() += 1;
                let spellings = count_of_spellings(&labels);
                several += u64::from(spellings > read_rule(&file).unwrap().labels.len());
                past_16 += u64::from(spellings > 16);
                assert!(!has_small(&listed(&file).concat()), "seed {seed}");
            }
            Err(4) => small_4 += u64::from(has_small(&labels.concat()) && count_of_spellings(&labels) > 16),
            Err(5) => {
                let has_beside = |label: &[u8]| label.iter().any(|byte| BESIDE_LETTERS.contains(byte));
                beside += u64::from(labels.iter().any(|label| label.len() <= 24 && has_beside(label)));
                long += u64::from(labels.iter().any(|label| label.len() > 24 && has_small(label)));
            }
            Err(_) => {}
        }
    }
    println!("taken {taken:?}, {several} with a label in several ways, {past_16} with more than 16 of them");
    println!("{small_4} with too many labels, {beside} with a byte beside the letters, {long} with too long a label");
    assert_eq!(taken.keys().copied().collect::<Vec<_>>(), LETTERS);
    assert!(taken.values().all(|count| *count >= CASES / 20));
    assert!(several >= 200 && past_16 >= 40 && small_4 >= 50 && beside >= 50 && long >= 50);
}

/// Whether the text has two names that differ only in case. Labels, words and signs are no names.
fn has_names_in_two_cases(text: &[u8]) -> bool {
    let outside: Vec<&[u8]> = text.split(|byte| *byte == b'\'').step_by(2).collect();
    let words = outside.iter().flat_map(|piece| piece.split(|byte| !byte.is_ascii_alphanumeric()));
    let names: BTreeSet<&[u8]> = words.filter(|word| word.first().is_some_and(u8::is_ascii_uppercase)).collect();
    names.iter().any(|name| names.iter().any(|other| differ_only_in_case(name, other)))
}

/// They stay two names: texts are taken in which both are bound, and refused with 9 where one is not.
#[test]
fn names_that_differ_only_in_case_are_reached() {
    let (mut taken, mut unbound) = (0, 0);
    for seed in 0..2 * CASES {
        let case = text_case(seed);
        if has_names_in_two_cases(&case.text) {
            match rule_file(&case.text) {
                Ok(_) => taken += 1,
                Err(9) => unbound += 1,
                Err(_) => {}
            }
        }
    }
    println!("{taken} taken, {unbound} refused with 9");
    assert!(taken >= 100 && unbound >= 20);
}

/// The texts of rule files have capitals alone between their quotes, and many a file has small letters.
#[test]
fn texts_that_are_written_have_capitals() {
    let mut from_small = 0;
    for seed in 0..2 * CASES {
        let rule = rule_case(seed).rule;
        if let Ok(text) = rule_text(&rule) {
            assert!(!quoted(&text).iter().any(|label| has_small(label)), "seed {seed}");
            from_small += u64::from(listed(&rule).iter().any(|label| has_small(label)) && text.contains(&b'\''));
        }
    }
    println!("{from_small} from small letters");
    assert!(from_small >= CASES / 4);
}
