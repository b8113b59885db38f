//! Labels in letters of either case: in logs, rule files and typed rules they are looked up as their capitals, and in
//! records and in rules that are written out they stand in capitals.
//!
//! The library and the reference agree on generated cases in which small letters stand. And by itself, whatever letters
//! the labels of a log, a rule file or a typed rule are written in: the library answers the same and leaves the same
//! bytes.

mod common;
#[path = "common/layouts.rs"]
mod layouts;
#[path = "common/program.rs"]
mod program;

use common::{bytes_of, first_seed};
use generate::letters::{Letters, BESIDE_LETTERS};
use generate::random::Random;
use generate::records::{make_small, SMALLS};
use generate::slips::{slip_case, SlipCase};
use generate::texts::{rule_case, text_case};
use generate::{case, Case};
use layouts::{of_library, with_guard};
use program::{arguments, empty_folder, printed_by, program};
use reference::calls as by_reference;
use reference::record::{pair_bytes, record_of, Record};
use reference::report::report;
use reference::trace::{accepted_lines, labels_of};
use reference::Layout;
use scene_log::{
    check_line, check_line_tallied, check_log, check_log_record, first_slip, fnv1a, relate, rule_file, rule_from_text,
    rule_text, slip_passes, text_from_rule, Check, LogRefused, Mode, Refusal, Relation, Tally, Verdict, RECORD_BYTES,
    RULE_BYTES, RULE_TEXT_BYTES, SLIP_BYTES, TEXT_BYTES, VERDICT_BYTES,
};
use std::collections::BTreeMap;
use std::fs;
use std::thread;

/// Generated cases in which small letters stand: logs and lines, each in both layouts, the logs in both modes; texts
/// and rule files; rules with slips.
const LOGS: u64 = 20_000;
const LINES: u64 = 20_000;
const TEXTS: u64 = 20_000;
const RULES: u64 = 20_000;
const SLIPS: u64 = 8_000;

/// Generated cases that are written in other letters.
const WRITTEN: u64 = 12_000;

/// How many threads share the logs and the lines.
const THREADS: u64 = 2;

/// The seeds of these cases are others than those of the other tests.
fn seeds() -> impl Iterator<Item = u64> {
    first_seed() + 10_000_000..
}

/// Each thread has its part of the seeds; what all have found, by its name.
fn in_threads(find: impl Fn(u64) -> BTreeMap<String, u64> + Sync) -> BTreeMap<String, u64> {
    let mut all = BTreeMap::new();
    thread::scope(|scope| {
        let find = &find;
        let parts: Vec<_> = (0..THREADS).map(|part| scope.spawn(move || find(part))).collect();
        for found in parts.into_iter().flat_map(|part| part.join().unwrap()) {
            *all.entry(found.0).or_default() += found.1;
        }
    });
    all
}

fn part_of_seeds(part: u64) -> impl Iterator<Item = u64> {
    seeds().filter(move |seed| seed % THREADS == part)
}

fn has_small(bytes: &[u8]) -> bool {
    bytes.iter().any(u8::is_ascii_lowercase)
}

// ---- where the labels stand

/// The log, with all that stands behind the second space of a line written in these letters. Behind it nothing but a
/// label has a place.
fn log_in(random: &mut Random, letters: Letters, log: &[u8]) -> Vec<u8> {
    let mut written = Vec::new();
    for line in log.split_inclusive(|byte| *byte == b'\n') {
        let mut spaces = line.iter().enumerate().filter(|(_, byte)| **byte == b' ').map(|(at, _)| at);
        let front = spaces.nth(1).map_or(line.len(), |at| at + 1);
        written.extend(&line[..front]);
        written.extend(letters.write(random, &line[front..]));
    }
    written
}

/// Where each label in the list of a rule file stands, as far as the list goes.
fn places_in(file: &[u8]) -> Vec<std::ops::Range<usize>> {
    let mut places = Vec::new();
    if !file.starts_with(b"RUL\x01\x00") || file.len() < 6 {
        return places;
    }
    let mut at = 6;
    while places.len() < usize::from(file[5].min(16)) && at < file.len() && (1..=24).contains(&file[at]) {
        let end = at + 1 + usize::from(file[at]);
        places.push(at + 1..end.min(file.len()));
        at = end;
    }
    places
}

fn rule_in(random: &mut Random, letters: Letters, file: &[u8]) -> Vec<u8> {
    let mut written = file.to_vec();
    for place in places_in(file) {
        let label = letters.write(random, &file[place.clone()]);
        written[place].copy_from_slice(&label);
    }
    written
}

/// The text, with all that stands between quotes written in these letters.
fn text_in(random: &mut Random, letters: Letters, text: &[u8]) -> Vec<u8> {
    let pieces: Vec<&[u8]> = text.split(|byte| *byte == b'\'').collect();
    let write = |(number, piece): (usize, &&[u8])| match number % 2 {
        1 => letters.write(random, piece),
        _ => piece.to_vec(),
    };
    pieces.iter().enumerate().map(write).collect::<Vec<_>>().join(&b'\'')
}

fn has_small_in_list(file: &[u8]) -> bool {
    places_in(file).into_iter().any(|place| has_small(&file[place]))
}

fn has_small_in_log(log: &[u8]) -> bool {
    log_in(&mut Random::new(0), Letters::Capitals, log) != log
}

fn has_small_in_record(record: &Record) -> bool {
    record.labels.iter().any(|label| has_small(&label.bytes))
}

// ---- whole logs

/// What the calls on a whole log answer, and what they leave.
#[derive(PartialEq, Debug)]
struct LogLeft {
    answer: Result<u16, (u8, u16)>,
    record: Vec<u8>,
    work: Vec<u8>,
    verdicts: Vec<u8>,
    report: Vec<u8>,
}

const UNUSED: u8 = 0xA5;

fn left_by_library(layout: Layout, mode: Mode, rule: &[u8], log: &[u8]) -> LogLeft {
    let (mut record, mut verdicts) = (vec![UNUSED; RECORD_BYTES], vec![UNUSED; VERDICT_BYTES]);
    let area = vec![UNUSED; layout.size()];
    let layout = of_library(layout);
    let numbers = |refused: LogRefused| (refused.refusal.number(), refused.line);
    let (answer, work) = with_guard(&area, |work| {
        check_log_record(layout, mode, rule, log, &mut record, work, &mut verdicts).map_err(numbers)
    });
    // The other two calls leave the same.
    let mut other_verdicts = vec![UNUSED; VERDICT_BYTES];
    let (other, other_work) = with_guard(&area, |work| {
        check_log(layout, mode, rule, log, work, &mut other_verdicts).map_err(numbers)
    });
    assert!((other, &other_work, &other_verdicts) == (answer, &work, &verdicts), "log {}", log.escape_ascii());
    let mut report = vec![UNUSED; TEXT_BYTES];
    let (length, other_work) = with_guard(&area, |work| {
        other_verdicts.fill(UNUSED);
        scene_log::report(layout, mode, rule, log, work, &mut other_verdicts, &mut report).unwrap()
    });
    assert!((&other_work, &other_verdicts) == (&work, &verdicts), "log {}", log.escape_ascii());
    assert!(report[length..].iter().all(|byte| *byte == UNUSED));
    report.truncate(length);
    LogLeft { answer, record, work, verdicts, report }
}

/// By the reference, in both layouts: their work areas differ, and nothing else.
fn left_by_reference(mode: Mode, rule: &[u8], log: &[u8]) -> [LogLeft; 2] {
    let mode = if mode == Mode::Full { reference::Mode::Full } else { reference::Mode::FirstFailure };
    let (mut area, mut verdicts) = (vec![UNUSED; Layout::Square.size()], vec![UNUSED; VERDICT_BYTES]);
    let answer = by_reference::check_log(Layout::Square, mode, rule, log, &mut area, &mut verdicts);
    let is_read = !matches!(answer.refusal, Some((_, 0)));
    let report = report(mode, rule, log);
    Layout::ALL.map(|layout| LogLeft {
        answer: answer.refusal.map_or(Ok(answer.record.lines as u16), |(number, line)| Err((number, line as u16))),
        record: if is_read { bytes_of(&answer.record) } else { vec![UNUSED; RECORD_BYTES] },
        work: match (layout, is_read) {
            (Layout::Square, _) => area.clone(),
            (Layout::Half, true) => pair_bytes(layout, &answer.record),
            (Layout::Half, false) => vec![UNUSED; layout.size()],
        },
        verdicts: verdicts.clone(),
        report: report.clone(),
    })
}

/// The cases whose log or whose rule has a small letter in a label.
#[test]
fn library_and_reference_agree_on_logs_with_small_letters() {
    let found = in_threads(|part| {
        let mut found: BTreeMap<String, u64> = BTreeMap::new();
        let mut logs = 0;
        for seed in part_of_seeds(part) {
            let Case { rule, log, kind, .. } = case(Layout::Square, seed);
            let small = (has_small_in_list(&rule), has_small_in_log(&log));
            if small == (false, false) {
                continue;
            }
            for mode in Mode::ALL {
                let expected = left_by_reference(mode, &rule, &log);
                for (layout, expected) in Layout::ALL.into_iter().zip(expected) {
                    let left = left_by_library(layout, mode, &rule, &log);
                    let message = || format!("seed {seed} ({kind}), {layout:?}, {mode:?}, log {}", log.escape_ascii());
                    assert_eq!(left.answer, expected.answer, "{}", message());
                    assert!(left == expected, "{}", message());
                    assert!(!has_small(&left.record[900..2500]), "{}", message());
                    let number = left.answer.err().map_or(0, |(number, _)| number);
                    *found.entry(format!("{mode:?} {number}")).or_default() += 1;
                }
            }
            let place = match small {
                (true, true) => "small in both",
                (true, false) => "small in rule",
                _ => "small in log",
            };
            *found.entry(place.into()).or_default() += 1;
            logs += 1;
            if logs == LOGS / THREADS {
                break;
            }
        }
        found
    });
    println!("{LOGS} logs in both layouts and modes: {found:?}");
    for letters in ["small in rule", "small in log", "small in both"] {
        assert!(found[letters] >= LOGS / 10, "{letters}");
    }
    for mode in Mode::ALL {
        let numbers = [0, 5, 11, 12, 13, 15, 16, 17, 18, 19];
        assert!(numbers.iter().all(|number| found[&format!("{mode:?} {number}")] >= 30), "{mode:?}");
    }
}

/// The whole log and the rule in three kinds of letters: answer and line, record, work area, verdicts and report stay.
#[test]
fn a_log_or_a_rule_in_other_letters_changes_nothing() {
    let (mut logs, mut read, mut differently) = (0, 0, 0);
    for seed in seeds().take(WRITTEN as usize) {
        let layout = if seed % 2 == 0 { Layout::Square } else { Layout::Half };
        let Case { rule, log, .. } = case(layout, seed);
        let random = &mut Random::new(!seed);
        for mode in Mode::ALL {
            let expected = left_by_library(layout, mode, &rule, &log);
            for letters in [Letters::Capitals, Letters::Small, Letters::Mixed] {
                let (other_rule, other_log) = (rule_in(random, letters, &rule), log_in(random, letters, &log));
                for (rule, log) in [(&rule, &other_log), (&other_rule, &log), (&other_rule, &other_log)] {
                    let left = left_by_library(layout, mode, rule, log);
                    let message = || format!("seed {seed}, {mode:?}, log {}", log.escape_ascii());
                    assert_eq!(left.answer, expected.answer, "{}", message());
                    assert!(left == expected, "{}", message());
                }
                differently += u64::from(other_rule != rule || other_log != log);
            }
            read += u64::from(!matches!(expected.answer, Err((_, 0))));
            logs += 1;
        }
    }
    println!("{logs} logs in three kinds of letters, {read} read, {differently} times other bytes");
    assert!(read >= logs / 2 && differently >= 2 * logs);
}

// ---- one line

/// The bytes of the record and the work area that a call on one line is lent.
struct Lent {
    record: Vec<u8>,
    work: Vec<u8>,
}

fn line_by_library(layout: Layout, rule: &[u8], lent: &Lent, line: &[u8]) -> (Result<bool, u8>, Lent) {
    let mut record = lent.record.clone();
    let (answer, work) = with_guard(&lent.work, |work| {
        let answer = check_line(of_library(layout), rule, &mut record, work, line);
        answer.map(Verdict::holds).map_err(Refusal::number)
    });
    (answer, Lent { record, work })
}

/// Lines, rules and records of which at least one has a small letter in a label; and the relation of the case's runs.
#[test]
fn library_and_reference_agree_on_lines_with_small_letters() {
    let found = in_threads(|part| {
        let mut found: BTreeMap<String, u64> = BTreeMap::new();
        let mut lines = 0;
        for seed in part_of_seeds(part) {
            let Case { rule, mut record, line, runs, work, .. } = case(Layout::Square, seed);
            let random = &mut Random::new(!seed);
            if random.chance(1, 12) {
                let way = *random.pick(&SMALLS);
                make_small(random, &mut record, way);
            }
            let small = (has_small_in_log(&line), has_small_in_list(&rule), has_small_in_record(&record));
            if small == (false, false, false) {
                continue;
            }
            for (layout, work) in [(Layout::Square, work), (Layout::Half, case(Layout::Half, seed).work)] {
                let lent = Lent { record: bytes_of(&record), work };
                let mut expected_work = lent.work.clone();
                let expected = by_reference::check_line(layout, &rule, &record, &mut expected_work, &line);
                let (answer, left) = line_by_library(layout, &rule, &lent, &line);
                let message = || format!("seed {seed}, {layout:?}, line {}", line.escape_ascii());
                assert_eq!(answer, expected.verdict, "{}", message());
                assert!(left.record == bytes_of(&expected.record) && left.work == expected_work, "{}", message());
                let kind = answer.map_or_else(|number| number.to_string(), |_| "taken".into());
                *found.entry(kind).or_default() += 1;
            }
            let answer = relate(&bytes_of(&record), runs.0 as u32, runs.1 as u32);
            let expected = by_reference::relation_between(&record, runs.0, runs.1);
            assert_eq!(answer.map(Relation::number).map_err(Refusal::number), expected, "seed {seed}");
            *found.entry("small in line".into()).or_default() += u64::from(small.0);
            *found.entry("small in record".into()).or_default() += u64::from(small.2);
            lines += 1;
            if lines == LINES / THREADS {
                break;
            }
        }
        found
    });
    println!("{LINES} lines in both layouts: {found:?}");
    assert!(found["small in line"] >= LINES / 5 && found["small in record"] >= LINES / 50);
    for number in [5, 11, 12, 13, 15, 16, 17, 18, 19, 21] {
        assert!(found[&number.to_string()] >= 50, "{number}");
    }
    assert!(found["taken"] >= LINES / 2);
}

/// The line and the rule in three kinds of letters, with a tally and without: answer, record, work area and tally stay.
#[test]
fn a_line_in_other_letters_changes_nothing() {
    let (mut taken, mut refused, mut differently) = (0, 0, 0);
    for seed in seeds().take(WRITTEN as usize) {
        let layout = if seed % 2 == 0 { Layout::Half } else { Layout::Square };
        let Case { rule, record, line, work, .. } = case(layout, seed);
        let random = &mut Random::new(!seed);
        let lent = Lent { record: bytes_of(&record), work };
        let (expected, left) = line_by_library(layout, &rule, &lent, &line);
        let tallied = |rule: &[u8], line: &[u8]| {
            let counts = by_reference::counts_of(&reference::record::lines_of(&record).unwrap_or_default());
            let mut tally = Tally {
                lines: counts.lines as u32,
                begun: counts.begun as u32,
                finished: counts.finished as u32,
                open: counts.open as u32,
                failing: 0,
            };
            let (mut bytes, mut work) = (lent.record.clone(), lent.work.clone());
            let answer = check_line_tallied(of_library(layout), rule, &mut bytes, &mut tally, &mut work, line);
            (answer, bytes, work, tally)
        };
        let expected_tally = tallied(&rule, &line);
        for letters in [Letters::Capitals, Letters::Small, Letters::Mixed] {
            let (other_rule, other_line) = (rule_in(random, letters, &rule), log_in(random, letters, &line));
            let (answer, other) = line_by_library(layout, &other_rule, &lent, &other_line);
            let message = || format!("seed {seed}, {layout:?}, line {}", other_line.escape_ascii());
            assert_eq!(answer, expected, "{}", message());
            assert!(other.record == left.record && other.work == left.work, "{}", message());
            assert!(tallied(&other_rule, &other_line) == expected_tally, "{}", message());
            differently += u64::from(other_line != line);
        }
        if expected.is_ok() { taken += 1 } else { refused += 1 }
    }
    println!("{taken} lines taken, {refused} refused, {differently} times other bytes");
    assert!(taken >= WRITTEN / 4 && refused >= WRITTEN / 4 && differently >= WRITTEN / 2);
}

// ---- typed rules

/// What a call answers that writes to a buffer, and what it leaves there.
fn written_by(length: usize, call: impl FnOnce(&mut [u8]) -> Result<usize, u8>) -> (Result<usize, u8>, Vec<u8>) {
    let mut buffer = vec![UNUSED; length];
    (call(&mut buffer), buffer)
}

/// The rule file of a text.
fn file_by_library(text: &[u8]) -> (Result<usize, u8>, Vec<u8>) {
    written_by(RULE_BYTES, |rule| rule_from_text(text, rule).map_err(Refusal::number))
}

/// The text of a rule file.
fn text_by_library(rule: &[u8]) -> (Result<usize, u8>, Vec<u8>) {
    written_by(RULE_TEXT_BYTES, |text| text_from_rule(rule, text).map_err(Refusal::number))
}

#[test]
fn library_and_reference_agree_on_texts_with_small_letters() {
    let mut answered: BTreeMap<u8, u64> = BTreeMap::new();
    let capitals = |text: &[u8]| text_in(&mut Random::new(0), Letters::Capitals, text);
    let cases = seeds().map(|seed| (seed, text_case(seed).text)).filter(|(_, text)| capitals(text) != *text);
    for (seed, text) in cases.take(TEXTS as usize) {
        let expected = written_by(RULE_BYTES, |rule| by_reference::rule_from_text(&text, rule));
        let found = file_by_library(&text);
        assert_eq!(found.0, expected.0, "seed {seed}: {}", text.escape_ascii());
        assert!(found == expected, "seed {seed}: {}", text.escape_ascii());
        if let Ok(length) = found.0 {
            let file = &found.1[..length];
            assert!(!has_small_in_list(file), "seed {seed}: {}", text.escape_ascii());
        }
        *answered.entry(found.0.err().unwrap_or(0)).or_default() += 1;
    }
    println!("{TEXTS} texts with small letters in labels, 0 for those taken: {answered:?}");
    assert_eq!(answered.keys().copied().collect::<Vec<u8>>(), [0, 4, 5, 9, 10, 25]);
    assert!(answered[&0] >= TEXTS / 4 && answered.values().all(|count| *count >= TEXTS / 200));
}

#[test]
fn library_and_reference_agree_on_the_texts_of_rule_files_with_small_letters() {
    let mut answered: BTreeMap<u8, u64> = BTreeMap::new();
    let cases = seeds().map(|seed| (seed, rule_case(seed).rule)).filter(|(_, rule)| has_small_in_list(rule));
    for (seed, rule) in cases.take(RULES as usize) {
        let expected = written_by(RULE_TEXT_BYTES, |text| by_reference::text_from_rule(&rule, text));
        let found = text_by_library(&rule);
        assert_eq!(found.0, expected.0, "seed {seed}: {}", rule.escape_ascii());
        assert!(found == expected, "seed {seed}: {}", rule.escape_ascii());
        if let Ok(length) = found.0 {
            let capitals = text_in(&mut Random::new(0), Letters::Capitals, &found.1[..length]);
            assert!(capitals == found.1[..length], "seed {seed}: {}", capitals.escape_ascii());
        }
        *answered.entry(found.0.err().unwrap_or(0)).or_default() += 1;
    }
    println!("{RULES} rule files with small letters in their lists, 0 for those written: {answered:?}");
    // A file whose mark or version is wrong has no list here.
    assert_eq!(answered.keys().copied().collect::<Vec<u8>>(), [0, 1, 4, 5, 6, 7, 8, 9, 10]);
    assert!(answered[&0] >= RULES / 2 && answered[&5] >= RULES / 100);
}

/// The refusal, the bytes of the rule file, the bytes of its text.
#[test]
fn a_typed_rule_or_a_rule_file_in_other_letters_is_written_the_same() {
    let (mut files, mut texts, mut differently) = (0, 0, 0);
    for seed in seeds().take(WRITTEN as usize) {
        let random = &mut Random::new(!seed);
        let (text, rule) = (text_case(seed).text, rule_case(seed).rule);
        let (file, written) = (file_by_library(&text), text_by_library(&rule));
        for letters in [Letters::Capitals, Letters::Small, Letters::Mixed] {
            let (other_text, other_rule) = (text_in(random, letters, &text), rule_in(random, letters, &rule));
            assert!(file_by_library(&other_text) == file, "seed {seed}: {}", other_text.escape_ascii());
            assert!(text_by_library(&other_rule) == written, "seed {seed}: {}", other_rule.escape_ascii());
            differently += u64::from(other_text != text) + u64::from(other_rule != rule);
        }
        files += u64::from(file.0.is_ok());
        texts += u64::from(written.0.is_ok());
    }
    println!("{files} files and {texts} texts in three kinds of letters, {differently} times other bytes");
    assert!(files >= WRITTEN / 3 && texts >= WRITTEN / 2 && differently >= WRITTEN);
}

// ---- slips

#[test]
fn library_and_reference_agree_on_the_slips_of_rules_with_small_letters() {
    let mut answered: BTreeMap<(Result<usize, u8>, Result<bool, u8>), u64> = BTreeMap::new();
    let (mut found, mut differently) = (0, 0);
    let is_small = |case: &SlipCase| has_small_in_list(&case.rule) || has_small_in_record(&case.record);
    for case in seeds().map(slip_case).filter(is_small) {
        let (rule, record, seed) = (&case.rule, bytes_of(&case.record), case.seed);
        let expected = written_by(SLIP_BYTES, |slip| by_reference::first_slip(rule, &case.record, slip));
        let first = |rule: &[u8]| {
            written_by(SLIP_BYTES, |slip| {
                scene_log::write_first_slip(rule, &record, slip).map_err(Refusal::number)
            })
        };
        assert!(first(rule) == expected, "seed {seed}");
        let expected_passes = by_reference::slip_passes(rule, &case.record, &case.slip);
        let passes = |rule: &[u8]| slip_passes(rule, &record, &case.slip).map_err(Refusal::number);
        assert_eq!(passes(rule), expected_passes, "seed {seed}");
        // The same for the rule in other letters.
        let other = rule_in(&mut Random::new(!seed), Letters::Mixed, rule);
        assert!(first(&other) == expected && passes(&other) == expected_passes, "seed {seed}");
        differently += u64::from(other != *rule);
        *answered.entry((expected.0, expected_passes)).or_default() += 1;
        found += 1;
        if found == SLIPS {
            break;
        }
    }
    println!("{SLIPS} rules: {answered:?}, {differently} times other bytes");
    let count = |wanted: &dyn Fn(Result<usize, u8>) -> bool| -> u64 {
        answered.iter().filter(|((first, _), _)| wanted(*first)).map(|(_, count)| count).sum()
    };
    assert!(count(&|first| first == Err(21)) >= 50 && count(&|first| first == Err(5)) >= 20);
    assert!(count(&|first| matches!(first, Ok(1..))) >= SLIPS / 10 && count(&|first| first == Ok(0)) >= SLIPS / 10);
    assert!(differently >= SLIPS / 2);
}

// ---- worked out by hand

/// Some run has the label that stands first in the list.
fn has_first(list: &[u8], count: u8) -> Vec<u8> {
    [b"RUL\x01\x00", &[count][..], list, b"\x02\x04\x00\x00\x03\x00\x00"].concat()
}

/// Some run is before one with the same label.
fn same_again() -> Vec<u8> {
    rule_file("exist A, B . A < B & same(A,B)").unwrap()
}

/// The record's numbers of runs and labels, the label of each run, and the labels.
fn labels_in(record: &[u8]) -> ([u8; 2], Vec<u8>, Vec<String>) {
    let of_runs = (0..usize::from(record[2])).map(|run| record[4 + 7 * run + 6]).collect();
    let label = |number: usize| {
        let entry = &record[900 + 25 * number..];
        String::from_utf8(entry[1..1 + usize::from(entry[0])].to_vec()).unwrap()
    };
    ([record[2], record[3]], of_runs, (0..usize::from(record[3])).map(label).collect())
}

/// In either layout and line by line: EVENING has place 15 and evening would have 47; A has 76 and a would have 44.
#[test]
fn one_label_has_one_number_however_it_is_written() {
    assert_eq!([&b"EVENING"[..], b"evening", b"A", b"a"].map(|label| fnv1a(label) % 128), [15, 47, 76, 44]);
    let log = b"B 1 Evening\nB 2 EVENING\nB 3 a\nE 1\nB 4 evening\nB 5 A\nB 6\n";
    for (layout, mode) in scene_log::Layout::ALL.into_iter().flat_map(|layout| Mode::ALL.map(|mode| (layout, mode))) {
        let rule = rule_file("!exist A . A('OTHER')").unwrap();
        let (check, lines) = Check::after_with(layout, mode, &rule, log);
        assert_eq!(lines, Ok(7));
        let (counts, of_runs, labels) = labels_in(&*check.record);
        assert_eq!((counts, of_runs, labels), ([6, 2], vec![1, 1, 2, 1, 2, 0], vec!["EVENING".into(), "A".into()]));
        let taken: Vec<usize> = (0..128).filter(|place| check.record[2500 + place] != 0).collect();
        assert_eq!((taken, check.record[2515], check.record[2576]), (vec![15, 76], 1, 2));
        let mut one_by_one = Check::with_layout(layout);
        for line in log.split_inclusive(|byte| *byte == b'\n') {
            assert_eq!(one_by_one.line(&rule, line), Ok(Verdict::Holds));
        }
        assert!(one_by_one == check);
    }
    for names in [["Test", "TEST", "test"], ["test", "Test", "TEST"], ["TEST", "test", "tEsT"]] {
        let log: String = (1..).zip(names).map(|(id, name)| format!("B {id} {name}\n")).collect();
        let (check, lines) = Check::after_with_mode(Mode::Full, &same_again(), log.as_bytes());
        assert_eq!((lines, labels_in(&*check.record)), (Ok(3), ([3, 1], vec![1, 1, 1], vec!["TEST".into()])));
    }
}

/// "has label" and "same", with the rule and the lines in any letters.
#[test]
fn verdicts_compare_labels_up_to_case() {
    let verdicts = |rule: &[u8], log: &str| {
        let mut bytes = [7; VERDICT_BYTES];
        let mut work = vec![0; Layout::Half.size()];
        let (layout, mode) = (scene_log::Layout::Half, Mode::Full);
        let lines = check_log(layout, mode, rule, log.as_bytes(), &mut work, &mut bytes).unwrap();
        bytes[..usize::from(lines)].to_vec()
    };
    for list in [&b"\x04TEST"[..], b"\x04test", b"\x04Test"] {
        for written in ["TEST", "test", "tesT"] {
            assert_eq!(verdicts(&has_first(list, 1), &format!("B 1 {written}\nE 1\n")), [0, 1]);
        }
        for other in ["TES", "TESTS", "test_", "_test", "TEST1", "TE_T"] {
            assert_eq!(verdicts(&has_first(list, 1), &format!("B 1 {other}\nE 1\nB 2\nE 2\n")), [0, 0, 0, 0]);
        }
    }
    assert_eq!(verdicts(&same_again(), "B 1 a_9z\nE 1\nB 2 A_9Z\nE 2\n"), [0, 0, 0, 1]);
    assert_eq!(verdicts(&same_again(), "B 1 a_9z\nE 1\nB 2 A_9Y\nE 2\n"), [0, 0, 0, 0]);
    assert_eq!(verdicts(&same_again(), "B 1\nE 1\nB 2\nE 2\n"), [0, 0, 0, 0]);
    // A slip has the runs that a rule in other letters has.
    let rule = rule_file("!exist A, B . A('evening') & B('Test') & A i B").unwrap();
    let (check, _) = Check::after(&rule, b"B 7 eVENING\nB 9 tEST\nE 9\nE 7\n");
    assert_eq!(check.first_slip(&rule).unwrap().unwrap().runs(), [0, 1]);
    assert_eq!(first_slip(&has_first(b"\x01a", 1), &*check.record), Err(Refusal::RuleNoSlips));
}

/// Every call that takes a rule file refuses it with this number, and takes it where there is none.
fn hold_rule(rule: &[u8], number: Option<u8>) {
    let message = || format!("rule {}", rule.escape_ascii());
    let (check, lines) = Check::after_with_mode(Mode::Full, &same_again(), b"B 1 A\nE 1\n");
    assert_eq!(lines, Ok(2));
    for layout in Layout::ALL {
        for mode in Mode::ALL {
            let left = left_by_library(layout, mode, rule, b"");
            assert_eq!(left.answer.err(), number.map(|number| (number, 0)), "{}", message());
            let printed = number.map_or("T 0 0 0 0 0\n".into(), |number| format!("0 R{number}\n"));
            assert_eq!(left.report, printed.as_bytes(), "{}", message());
        }
        let mut lines = Check::after_with(of_library(layout), Mode::Full, &same_again(), b"B 1 A\nE 1\n").0;
        assert_eq!(lines.clone().line(rule, b"B 2\n").err().map(Refusal::number), number, "{}", message());
        let mut tally = Tally { lines: 2, begun: 1, finished: 1, open: 0, failing: 0 };
        let tallied = lines.line_tallied(rule, &mut tally, b"B 2\n");
        assert_eq!(tallied.err().map(Refusal::number), number, "{}", message());
    }
    assert_eq!(text_by_library(rule).0.err(), number, "{}", message());
    // A rule that is taken is none with slips here.
    let slips = Some(number.unwrap_or(26));
    assert_eq!(first_slip(rule, &*check.record).err().map(Refusal::number), slips, "{}", message());
    assert_eq!(slip_passes(rule, &*check.record, &[0]).err().map(Refusal::number), slips, "{}", message());
}

/// "5 does for two labels in a rule file's list that differ only in case", met where the second stands.
#[test]
fn a_list_with_one_label_in_two_cases_is_refused_with_5() {
    for (list, count, number) in [
        (&b"\x01A\x01a"[..], 2, Some(5)),
        (b"\x01a\x01A", 2, Some(5)),
        (b"\x01a\x01a", 2, Some(5)),
        (b"\x01A\x01B\x01a", 3, Some(5)),
        (b"\x01B\x01A\x01a", 3, Some(5)),
        (b"\x04Test\x04TEST", 2, Some(5)),
        (b"\x04t_9Z\x04T_9z", 2, Some(5)),
        (b"\x01A\x01b", 2, None),
        (b"\x01a\x02aa\x02aB", 3, None),
        (b"\x01a\x01_\x010", 3, None),
        (b"\x04Test\x04TESU\x05TESTS\x03tes", 4, None),
    ] {
        hold_rule(&has_first(list, count), number);
    }
    // The file ends before the second label, inside it, and right behind it; and what follows is not looked at.
    let file = has_first(b"\x02Ab\x02aB", 2);
    for (length, number) in [(9, 1), (10, 1), (11, 1), (12, 5), (13, 5), (file.len(), 5)] {
        hold_rule(&file[..length], Some(number));
    }
    let more = |list: &[u8], count: u8| [&has_first(list, count)[..], b"\x09"].concat();
    hold_rule(&more(b"\x01A\x01a", 2), Some(5));
    hold_rule(&more(b"\x01A\x01a", 3), Some(5));
    hold_rule(&more(b"\x01A\x01b", 2), Some(7));
    hold_rule(&has_first(b"\x01A\x01a\x19", 3), Some(5));
    hold_rule(&has_first(b"\x01A\x19\x01a", 3), Some(5));
    // 16 labels, of which the last is the first in the other case.
    let labels = |last: &str| -> Vec<u8> {
        let names = (0..15).map(|number| format!("L{number}")).chain([last.into()]);
        names.flat_map(|name| [&[name.len() as u8], name.as_bytes()].concat()).collect()
    };
    hold_rule(&has_first(&labels("l15"), 16), None);
    hold_rule(&has_first(&labels("l0"), 16), Some(5));
    hold_rule(&has_first(&labels("l14"), 16), Some(5));
}

/// A rule file's own bytes are not rewritten, and the calls take it as it is: it comes back in capitals from the text.
#[test]
fn a_rule_file_keeps_its_letters_and_its_text_has_capitals() {
    let small = b"RUL\x01\x00\x02\x07evening\x04Test\
        \x08\x04\x00\x00\x04\x01\x01\x01\x00\x01\x07\x00\x01\x01\x02\x03\x03\x01\x04\x03\x00\x05\x02\x06\x00";
    let text = rule_text(small).unwrap();
    assert_eq!(text, "!(exist A.(exist B.((A('EVENING')&B('TEST'))&A i B)))");
    let again = rule_file(&text).unwrap();
    assert_eq!(again, small.to_ascii_uppercase());
    assert_eq!(rule_text(&again).unwrap(), text);
    let log = |evening: &str, test: &str| format!("B 7 {evening}\nB 9 {test}\nE 9\nE 7\n");
    for (rule, log) in [(&small[..], log("EVENING", "TEST")), (&again, log("evening", "test"))] {
        for mode in Mode::ALL {
            let left = left_by_library(Layout::Square, mode, rule, log.as_bytes());
            assert_eq!(left.report, b"1 H\n2 H\n3 H\n4 F\nT 4 2 2 0 1\n");
        }
    }
}

/// P1's record with one letter of a label small, in every place; with a whole label small, and with the place that it
/// would have then: 21 from all calls on a record, and nothing is written.
#[test]
fn a_record_with_a_small_letter_is_refused_with_21() {
    let rule = rule_file("!exist A, B . A('evening') & B('test') & A i B").unwrap();
    for layout in scene_log::Layout::ALL {
        let (check, lines) = Check::after_with(layout, Mode::Full, &rule, b"B 7 evening\nB 9 Test\nE 9\nE 7\n");
        assert_eq!((lines, check.relate(0, 1)), (Ok(4), Ok(Relation::Includes)));
        let hold = |record: &[u8; RECORD_BYTES], is_left: bool| {
            let mut given = Check { record: Box::new(*record), ..check.clone() };
            let before = given.clone();
            let expected = (!is_left).then_some(Refusal::NoRecord);
            assert_eq!(given.clone().line(&rule, b"B 5 test\n").err(), expected);
            assert_eq!(given.relate(0, 1).err(), expected);
            assert_eq!(given.first_slip(&rule).err(), expected);
            assert_eq!(given.slip_passes(&rule, &[0, 1]).err(), expected);
            if !is_left {
                let mut tally = Tally { lines: 4, begun: 2, finished: 2, open: 0, failing: 1 };
                assert_eq!(given.line_tallied(&rule, &mut tally, b"B 5 test\n"), Err(Refusal::NoRecord));
                // 21 comes before what the line meets.
                assert_eq!(given.line(&rule, b"X\n"), Err(Refusal::NoRecord));
                assert!(given == before && tally.lines == 4);
            }
        };
        hold(&check.record, true);
        assert_eq!((&check.record[900..908], &check.record[925..930]), (&b"\x07EVENING"[..], &b"\x04TEST"[..]));
        for at in (901..908).chain(926..930) {
            let mut record = *check.record;
            record[at] += 32;
            hold(&record, false);
        }
        let mut record = *check.record;
        record[901..908].make_ascii_lowercase();
        hold(&record, false);
        record.swap(2515, 2547);
        assert_eq!(record[2547], 1);
        hold(&record, false);
        record[901..908].make_ascii_uppercase();
        hold(&record, false);
        record.swap(2515, 2547);
        hold(&record, true);
    }
    // Two labels that differ only in case, at the places that they would have.
    let (check, _) = Check::after_with_mode(Mode::Full, &rule, b"B 1 A\nB 2 B\nE 1\nE 2\n");
    let mut record = *check.record;
    assert_eq!((record[926], record[2576]), (b'B', 1));
    assert!(relate(&record, 0, 1).is_ok());
    record[2500..].iter_mut().for_each(|place| *place = if *place == 2 { 0 } else { *place });
    (record[926], record[2544]) = (b'a', 2);
    assert_eq!(relate(&record, 0, 1), Err(Refusal::NoRecord));
}

/// In a typed rule they are one label, and the file has capitals.
#[test]
fn one_label_of_a_typed_rule_in_several_cases() {
    let expected = b"RUL\x01\x00\x01\x04TEST\x04\x04\x00\x00\x04\x00\x00\x01\x00\x01\x03\x00\x02";
    for (one, other) in [("Test", "TEST"), ("TEST", "Test"), ("test", "tEST"), ("test", "test")] {
        assert_eq!(rule_file(format!("exist A . A('{one}') & A('{other}')")).unwrap(), expected);
    }
    let atoms = |labels: &[String]| {
        let atoms: Vec<String> = labels.iter().map(|label| format!("A('{label}')")).collect();
        format!("exist A . {}", atoms.join("&"))
    };
    let refusal = |text: String| rule_file(text).err().map_or(0, Refusal::number);
    let names = |count: usize| -> Vec<String> { (0..count).map(|number| format!("L{number}")).collect() };
    // 17 labels of which two differ only in case, wherever the two stand; 18 of which two do; 32, each twice.
    for place in 0..16 {
        let mut labels = names(16);
        labels.push(format!("l{place}"));
        assert_eq!(refusal(atoms(&labels)), 0, "{place}");
        assert_eq!(rule_file(atoms(&labels)).unwrap()[5], 16);
        labels.push("NEW".into());
        assert_eq!(refusal(atoms(&labels)), 4, "{place}");
    }
    assert_eq!(refusal(atoms(&names(17))), 4);
    let twice: Vec<String> = names(16).into_iter().flat_map(|name| [name.to_ascii_lowercase(), name]).collect();
    assert_eq!(refusal(atoms(&twice)), 0);
    assert_eq!(rule_file(atoms(&twice)).unwrap()[..9], *b"RUL\x01\x00\x10\x02L0");
    // Names and words are as they were.
    for (text, number) in [
        ("exist Ab, AB . Ab < AB", 0),
        ("exist Ab . AB < Ab", 9),
        ("exist Ab . Ab('x')", 0),
        ("exist a . a('X')", 25),
        ("Exist A . A < A", 25),
        ("EXIST A . A < A", 25),
        ("exist A . Same(A,A)", 25),
        ("exist A . SAME(A,A)", 25),
        ("exist A . A O A", 25),
        ("exist A . A I A", 25),
        ("exist A . A('x-')", 5),
        ("exist A . A('')", 5),
    ] {
        assert_eq!(refusal(text.into()), number, "{text}");
    }
}

/// 24 bytes are taken and 25 are not, in capitals, in small letters and in both.
#[test]
fn the_length_of_a_label_is_counted_in_either_case() {
    for letter in ["Z", "z", "zZ"] {
        let label = |length: usize| letter.repeat(length)[..length].to_string();
        let line = |length: usize| Check::start().line(&same_again(), format!("B 5 {}\n", label(length)).as_bytes());
        assert_eq!((line(24), line(25)), (Ok(Verdict::Fails), Err(Refusal::LineLabel)));
        let list = |length: usize| [&[length as u8], label(length).as_bytes()].concat();
        hold_rule(&has_first(&list(24), 1), None);
        hold_rule(&has_first(&list(25), 1), Some(5));
        let typed = |length: usize| rule_file(format!("exist A . A('{}')", label(length)));
        assert_eq!((typed(24).unwrap()[7..31].to_vec(), typed(25)), (vec![b'Z'; 24], Err(Refusal::RuleLabel)));
    }
    let (check, _) = Check::after_with_mode(Mode::Full, &same_again(), format!("B 5 {}\n", "z".repeat(24)).as_bytes());
    assert_eq!(check.record[900..925], [&[24], &[b'Z'; 24][..]].concat());
}

/// 64 labels, each in two cases, fill a record; a 65th is refused however it is written.
#[test]
fn labels_in_two_cases_count_once_for_the_limit_of_64() {
    let both: String = (0..64).map(|run| format!("B {} x{run}\nB {} X{run}\n", run + 1, run + 65)).collect();
    let (check, lines) = Check::after_with_mode(Mode::Full, &same_again(), both.as_bytes());
    assert_eq!((lines, check.record[2], check.record[3]), (Ok(128), 128, 64));
    let begins: String = (0..64).map(|run| format!("B {} x{run}\n", run + 1)).collect();
    let refused = |refusal: Refusal| Err(LogRefused { refusal, line: 65 });
    for (label, answer) in [
        ("X0", Ok(65)),
        ("x63", Ok(65)),
        ("NEW", refused(Refusal::TooManyLabels)),
        ("new", refused(Refusal::TooManyLabels)),
    ] {
        let log = format!("{begins}B 70 {label}\n");
        assert_eq!(Check::after_with_mode(Mode::Full, &same_again(), log.as_bytes()).1, answer, "{label}");
    }
}

/// `B` and `E` are no labels, and no id is read in other letters.
#[test]
fn b_and_e_of_a_line_stay_capitals() {
    let mut check = Check::start();
    assert!(check.line(&same_again(), b"B 1 x\n").is_ok());
    for line in ["b 2 X\n", "b 2 x\n", "b 2\n", "e 1\n", "E 1 x\n", "e 1 x\n", "B x\n", "E x\n"] {
        assert_eq!(check.line(&same_again(), line.as_bytes()), Err(Refusal::LineForm), "{line}");
    }
    assert!(check.line(&same_again(), b"B 2 b\n").is_ok() && check.line(&same_again(), b"B 3 E\n").is_ok());
    assert_eq!(labels_in(&*check.record).2, ["X", "B", "E"]);
}

/// The capital of a letter, by its place in the alphabet; none for a byte that no label has.
fn capital(byte: u8) -> Option<u8> {
    let place = b"abcdefghijklmnopqrstuvwxyz".iter().position(|letter| *letter == byte);
    let capitals = b"ABCDEFGHIJKLMNOPQRSTUVWXYZ";
    let is_other = capitals.contains(&byte) || b"0123456789_".contains(&byte);
    place.map(|place| capitals[place]).or(is_other.then_some(byte))
}

/// Every two bytes as the labels of two lines, of a rule file's list and of a typed rule.
#[test]
fn every_two_bytes_as_labels() {
    let some = rule_file("exist A . A < A").unwrap();
    let (mut one_label, mut two_labels, mut refused) = (0, 0, 0);
    for (x, y) in (0..=255).flat_map(|x| (0..=255).map(move |y| (x, y))) {
        let capitals = [x, y].map(capital);
        let is_bad = capitals.contains(&None);
        let are_one = !is_bad && capitals[0] == capitals[1];
        // In a log a LF ends the line with nothing behind its second space.
        let log = [b"B 1 ", &[x][..], b"\nB 2 ", &[y], b"\n"].concat();
        let (check, lines) = Check::after_with_mode(Mode::Full, &some, &log);
        let number = |byte: u8| if byte == b'\n' { 11 } else { 13 };
        let expected = match capitals {
            [None, _] => Err((number(x), 1)),
            [_, None] => Err((number(y), 2)),
            _ => Ok(2),
        };
        assert_eq!(lines.map_err(|refused| (refused.refusal.number(), refused.line)), expected, "{x} {y}");
        if !is_bad {
            let labels = if are_one { &capitals[..1] } else { &capitals[..] };
            let labels: Vec<String> = labels.iter().flatten().map(|byte| char::from(*byte).into()).collect();
            let of_runs = vec![1, if are_one { 1 } else { 2 }];
            assert_eq!(labels_in(&*check.record), ([2, labels.len() as u8], of_runs, labels), "{x} {y}");
            assert!(labels_in(&*check.record).2.iter().zip(1..).all(|(label, number)| {
                // With two labels the second may have to go on to the next place.
                let place = fnv1a(label.as_bytes()) as usize % 128;
                [place, (place + 1) % 128].iter().any(|place| check.record[2500 + place] == number)
            }));
        }
        let file = has_first(&[1, x, 1, y], 2);
        let answer = text_by_library(&file);
        assert_eq!(answer.0.err(), (is_bad || are_one).then_some(5), "{x} {y}");
        let text = [b"exist A.A('", &[x][..], b"')&A('", &[y], b"')"].concat();
        let (answer, file) = file_by_library(&text);
        match answer {
            Ok(_) => {
                let [one, other] = capitals.map(Option::unwrap);
                let list = if are_one { vec![1, 1, one] } else { vec![2, 1, one, 1, other] };
                assert!(file[5..].starts_with(&list), "{x} {y}");
            }
            // A quote ends a label.
            Err(number) => assert_eq!(number, if [x, y].contains(&b'\'') { 25 } else { 5 }, "{x} {y}"),
        }
        assert_eq!(answer.is_ok(), !is_bad, "{x} {y}");
        if is_bad { refused += 1 } else if are_one { one_label += 1 } else { two_labels += 1 }
    }
    // 63 bytes, of which 52 are a letter in two cases.
    assert_eq!((one_label, two_labels, refused), (52 * 2 + 11, 63 * 63 - 115, 65536 - 63 * 63));
    assert!(BESIDE_LETTERS.iter().all(|byte| capital(*byte).is_none()));
}

/// A record with any byte in place of a letter: lines leave it exactly if it is a byte of capitals, and the places are
/// those of its hash.
#[test]
fn every_byte_in_a_label_of_a_record() {
    let some = rule_file("exist A . A < A").unwrap();
    let (check, _) = Check::after_with_mode(Mode::Full, &some, b"B 1 tEST\nB 2\nE 1\nE 2\n");
    let mut left = 0;
    for (at, byte) in (0..4).flat_map(|at| (0..=255).map(move |byte| (at, byte))) {
        let mut record = *check.record;
        record[901 + at] = byte;
        record[2500..].fill(0);
        record[2500 + fnv1a(&record[901..905]) as usize % 128] = 1;
        let is_left = byte.is_ascii_uppercase() || byte.is_ascii_digit() || byte == b'_';
        assert_eq!(relate(&record, 0, 1).err(), (!is_left).then_some(Refusal::NoRecord), "{at} {byte}");
        left += u64::from(is_left);
    }
    assert_eq!(left, 4 * 37);
}

/// The hash of bytes is that of these bytes; it is a label whose capitals are hashed.
#[test]
fn the_hash_call_takes_bytes_as_they_are() {
    for (bytes, hash) in [(&b"a"[..], 0xe40c292c), (b"A", 0xc40bf6cc), (b"foobar", 0xbf9cf968)] {
        assert_eq!(fnv1a(bytes), hash);
    }
}

/// The program on P1 in any letters, on a list with one label in two cases, and on lines that are refused.
#[test]
fn the_program_looks_labels_up_in_either_case() {
    let folder = empty_folder("letter_case");
    let printed = |rule: &[u8], log: &[u8]| {
        fs::write(folder.join("rule.rul"), rule).unwrap();
        let words = &arguments(reference::Mode::Full)[0];
        String::from_utf8(printed_by(program(&folder, words), log, 100)).unwrap()
    };
    let p1 = rule_file("!exist A, B . A('EVENING') & B('TEST') & A i B").unwrap();
    for letters in [Letters::Capitals, Letters::Small, Letters::Mixed] {
        let random = &mut Random::new(1);
        let rule = rule_in(random, letters, &p1);
        let log = log_in(random, letters, b"B 7 EVENING\nB 9 TEST\nE 9\nE 7\n");
        for rule in [&p1, &rule] {
            assert_eq!(printed(rule, &log), "1 H\n2 H\n3 H\n4 F\nT 4 2 2 0 1\n");
        }
    }
    assert_eq!(printed(&has_first(b"\x01A\x01a", 2), b"B 1\n"), "0 R5\n");
    assert_eq!(printed(&p1, b"B 1 x\nb 2 X\n"), "1 H\n2 R11\nT 1 1 0 1 0\n");
    assert_eq!(printed(&p1, b"B 1 x\nB 2 x-\n"), "1 H\n2 R13\nT 1 1 0 1 0\n");
    fs::remove_dir_all(&folder).unwrap();
}

/// What is written in other letters here is all that the reference takes for a label, and no more.
#[test]
fn labels_are_found_where_they_stand() {
    let random = &mut Random::new(1);
    let log = b"B 1 Test\nE 1\nb 2 x y\nB be\n\nB  E e\nE 1";
    assert_eq!(log_in(random, Letters::Capitals, log), b"B 1 TEST\nE 1\nb 2 X Y\nB be\n\nB  E E\nE 1");
    let file = b"RUL\x01\x00\x02\x01a\x02Bc\x02abcdef";
    assert_eq!(rule_in(random, Letters::Small, file), b"RUL\x01\x00\x02\x01a\x02bc\x02abcdef");
    assert_eq!(rule_in(random, Letters::Capitals, file), b"RUL\x01\x00\x02\x01A\x02BC\x02abcdef");
    assert_eq!(rule_in(random, Letters::Capitals, &file[..10]), b"RUL\x01\x00\x02\x01A\x02B");
    assert_eq!(text_in(random, Letters::Capitals, b"exist A.A('aB') & Ab('c"), b"exist A.A('AB') & Ab('C");
    let (mut labels, mut written) = (0, 0);
    for seed in seeds().take(2_000) {
        let log = case(Layout::Square, seed).log;
        let (accepted, refusal) = accepted_lines(&log);
        let small = log_in(random, Letters::Small, &log);
        let (other, other_refusal) = accepted_lines(&small);
        assert_eq!((record_of(&other), other_refusal), (record_of(&accepted), refusal), "seed {seed}");
        labels += labels_of(&accepted).len();
        written += usize::from(small != log);
        assert!(labels_of(&other).iter().all(|label| !label.iter().any(u8::is_ascii_uppercase)), "seed {seed}");
    }
    assert!(labels >= 2_000 && written >= 500);
}
