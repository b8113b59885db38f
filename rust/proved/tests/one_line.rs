//! The calls on a record in bytes agree with the reference: one line, with a tally too, the start of a record, a whole log, the
//! relation of two runs. Each case of a call that is lent a work area is made in both layouts.
//!
//! The bytes of a record are put together in `common`, from their form as `include/scene_log.h` has it.

mod common;
#[path = "common/damage.rs"]
mod damage;
#[path = "common/layouts.rs"]
mod layouts;

use common::{bytes_of, first_seed};
use damage::{lent_record, Damage};
use generate::areas::Fault;
use generate::random::Random;
use generate::{case, Case};
use layouts::{of_library, with_guard};
use reference::calls::{check_line, check_line_with_tally, check_log, relation_between, start_record};
use reference::calls::{LineAnswer, LogAnswer, Tally};
use reference::record::{first_place, record_of, Record};
use reference::trace::accepted_lines;
use reference::{Layout, Mode};
use scene_log::{Check, LogRefused, Refusal, Relation, Verdict, RECORD_BYTES};
use std::collections::{BTreeMap, BTreeSet};
use std::fs;
use std::path::Path;

/// Single-line cases, as many more with a tally, and logs that are read line by line; each in both layouts.
const CASES: u64 = 20_000;
const LOGS: u64 = 800;

/// The lengths of work areas about the sizes of both layouts.
const LENGTHS: [usize; 6] = [8127, 8128, 8131, 16383, 16384, 16387];

/// Each of so many seeds, from the first on, in either layout.
fn in_both(seeds: u64) -> impl Iterator<Item = (u64, Layout)> {
    (first_seed()..first_seed() + seeds).flat_map(|seed| Layout::ALL.map(|layout| (seed, layout)))
}

/// What a call answers, and what it leaves in its buffers.
#[derive(PartialEq, Debug)]
struct Left<A> {
    answer: A,
    record: Vec<u8>,
    work: Vec<u8>,
}

/// What the reference makes of the line. A record whose counts are wrong is one that no lines leave: the reference is asked
/// with a line count that no lines leave, so that 21 stands in the order of the refusals.
fn line_by_reference(
    case: &Case,
    bytes: &[u8],
    damage: Damage,
    ask: impl FnOnce(&Record, &mut [u8]) -> LineAnswer,
) -> Left<Result<bool, u8>> {
    let unchanged = |answer| Left { answer, record: bytes.to_vec(), work: case.work.clone() };
    if damage == Damage::Short {
        return unchanged(Err(20));
    }
    let mut handed_in = case.record.clone();
    if damage == Damage::Count {
        handed_in.lines = 60_000;
    }
    let mut work = case.work.clone();
    let answer = ask(&handed_in, &mut work);
    if answer.verdict.is_err() {
        assert!(work == case.work);
        return unchanged(answer.verdict);
    }
    let record = [bytes_of(&answer.record), bytes[RECORD_BYTES..].to_vec()].concat();
    Left { answer: answer.verdict, record, work }
}

/// A verdict or a refusal as the reference has it.
fn numbered(answer: Result<Verdict, Refusal>) -> Result<bool, u8> {
    answer.map(Verdict::holds).map_err(Refusal::number)
}

fn line_by_library(case: &Case, bytes: &[u8]) -> Left<Result<bool, u8>> {
    let mut record = bytes.to_vec();
    let layout = of_library(case.layout);
    let (answer, work) = with_guard(&case.work, |work| {
        numbered(scene_log::check_line(layout, &case.rule, &mut record, work, &case.line))
    });
    Left { answer, record, work }
}

/// The numbers that a line is refused with, without a tally.
const REFUSALS: [u8; 20] = [1, 2, 3, 4, 5, 6, 7, 8, 9, 10, 11, 12, 13, 15, 16, 17, 18, 19, 20, 21];

/// How often each answer came, by layout.
type Answered = BTreeMap<(Layout, Result<bool, u8>), u64>;

/// In both layouts these are the refusals that came, and either verdict came so often.
fn hold_answers(answered: &Answered, refusals: &[u8], verdicts: u64) {
    for layout in Layout::ALL {
        let met = answered.keys().filter(|(of, _)| *of == layout).filter_map(|(_, answer)| answer.err());
        assert_eq!(met.collect::<Vec<u8>>(), refusals, "{layout:?}");
        assert!(answered[&(layout, Ok(true))] >= verdicts && answered[&(layout, Ok(false))] >= verdicts, "{layout:?}");
    }
}

#[test]
fn library_and_reference_agree_on_single_lines() {
    let mut answered = Answered::new();
    let mut lengths: BTreeSet<(Layout, usize, bool)> = BTreeSet::new();
    let mut faults: BTreeMap<(Layout, Fault), u64> = BTreeMap::new();
    let mut counts_refused = 0;
    for (seed, layout) in in_both(CASES) {
        let case = case(layout, seed);
        let (bytes, damage) = lent_record(&mut Random::new(!seed), &case.record);
        let ask = |record: &Record, work: &mut [u8]| check_line(layout, &case.rule, record, work, &case.line);
        let expected = line_by_reference(&case, &bytes, damage, ask);
        let rule: String = case.rule.iter().map(|byte| format!("{byte:02x}")).collect();
        assert!(
            line_by_library(&case, &bytes) == expected,
            "seed {seed}, {layout:?}, {:?}, {damage:?}, expected {:?}\nrule {rule}\nline {}",
            case.fault,
            expected.answer,
            case.line.escape_ascii()
        );
        counts_refused += u64::from(damage == Damage::Count && expected.answer == Err(21));
        if LENGTHS.contains(&case.work.len()) && damage != Damage::Short {
            lengths.insert((layout, case.work.len(), expected.answer == Err(20)));
        }
        if damage == Damage::None && matches!(expected.answer, Err(20 | 21)) {
            *faults.entry((layout, case.fault)).or_default() += 1;
        }
        *answered.entry((layout, expected.answer)).or_default() += 1;
    }
    println!("{CASES} single lines in both layouts: {answered:?}, {counts_refused} refused for a count alone");
    println!("refused with 20 or 21: {faults:?}");
    hold_answers(&answered, &REFUSALS, 500);
    assert!(counts_refused >= 200);
    // Each length is too short for a layout or long enough, in all cases that lend it.
    let least = |layout: Layout| if layout == Layout::Square { 16384 } else { 8128 };
    let of_layout = |layout: Layout| LENGTHS.map(|length| (layout, length, length < least(layout)));
    assert_eq!(lengths.into_iter().collect::<Vec<_>>(), Layout::ALL.map(of_layout).concat());
    let wrong = [Fault::Byte, Fault::Layout, Fault::Short];
    assert!(Layout::ALL.iter().all(|layout| wrong.iter().all(|fault| faults[&(*layout, *fault)] >= 100)));
}

/// The same counts in 32 bits.
fn counts_of(tally: Tally) -> scene_log::Tally {
    let count = |number: u64| u32::try_from(number).expect("a number of 32 bits");
    scene_log::Tally {
        lines: count(tally.lines),
        begun: count(tally.begun),
        finished: count(tally.finished),
        open: count(tally.open),
        failing: count(tally.failing),
    }
}

#[test]
fn library_and_reference_agree_on_single_lines_with_a_tally() {
    let mut answered = Answered::new();
    for (seed, layout) in in_both(CASES).map(|(seed, layout)| (seed + CASES, layout)) {
        let case = case(layout, seed);
        let (bytes, damage) = lent_record(&mut Random::new(!seed), &case.record);
        let mut tally_left = case.tally;
        let ask = |record: &Record, work: &mut [u8]| {
            check_line_with_tally(layout, &case.rule, record, work, &mut tally_left, &case.line)
        };
        let expected = line_by_reference(&case, &bytes, damage, ask);
        let (mut record, mut tally) = (bytes.clone(), counts_of(case.tally));
        let (answer, work) = with_guard(&case.work, |work| {
            scene_log::check_line_tallied(of_library(layout), &case.rule, &mut record, &mut tally, work, &case.line)
        });
        let message = format!("seed {seed}, {layout:?}, {:?}, {damage:?}", case.fault);
        assert!(Left { answer: numbered(answer), record, work } == expected, "{message}");
        assert_eq!(tally, counts_of(tally_left), "{message}");
        assert!(answer.is_ok() || tally == counts_of(case.tally), "{message}");
        *answered.entry((layout, expected.answer)).or_default() += 1;
    }
    println!("{CASES} single lines with a tally in both layouts: {answered:?}");
    hold_answers(&answered, &[&REFUSALS[..], &[24]].concat(), 300);
    assert!(Layout::ALL.iter().all(|layout| answered[&(*layout, Err(24))] >= 100));
}

/// The whole-log call that also leaves the record, in full: the record of the lines taken, or a buffer as it was where
/// no line is read.
#[test]
fn library_and_reference_agree_on_the_record_of_a_log() {
    let (mut refused, mut unread, mut whole) = (0, 0, 0);
    for (seed, layout) in in_both(LOGS) {
        let case = case(layout, seed);
        let random = &mut Random::new(!seed);
        let length = *random.pick(&[0, RECORD_BYTES - 1, RECORD_BYTES, RECORD_BYTES, RECORD_BYTES, RECORD_BYTES + 9]);
        let before = random.bytes(length);
        let (mut work, mut verdicts) = (case.log_work.clone(), case.verdicts.clone());
        let (mut expected, mut expected_record) = (Err((20, 0)), before.clone());
        if length >= RECORD_BYTES {
            let (rule, log) = (&case.rule, &case.log);
            let LogAnswer { record, refusal } = check_log(layout, Mode::Full, rule, log, &mut work, &mut verdicts);
            expected = refusal.map_or(Ok(record.lines), Err);
            if !matches!(expected, Err((_, 0))) {
                expected_record[..RECORD_BYTES].copy_from_slice(&bytes_of(&record));
            }
        }
        let (mut record_left, mut verdicts_left) = (before, case.verdicts);
        let (answer, work_left) = with_guard(&case.log_work, |work| {
            let (layout, mode) = (of_library(layout), scene_log::Mode::Full);
            let (rule, log) = (&case.rule, &case.log);
            scene_log::check_log_record(layout, mode, rule, log, &mut record_left, work, &mut verdicts_left)
        });
        let numbers = |refused: LogRefused| (refused.refusal.number(), u64::from(refused.line));
        assert_eq!(answer.map(u64::from).map_err(numbers), expected, "seed {seed}, {layout:?}");
        let left = (record_left, work_left, verdicts_left);
        assert!(left == (expected_record, work, verdicts), "seed {seed}, {layout:?}");
        match expected {
            Ok(_) => whole += 1,
            Err((_, 0)) => unread += 1,
            Err(_) => refused += 1,
        }
    }
    println!("{LOGS} logs with their record in both layouts: {whole} whole, {refused} refused, {unread} not read");
    assert!(whole >= 100 && refused >= 100 && unread >= 200);
}

#[test]
fn library_and_reference_agree_on_the_start_of_a_record() {
    let mut refused = BTreeSet::new();
    let mut lengths = BTreeSet::new();
    for (seed, layout) in in_both(LOGS) {
        let case = case(layout, seed);
        let random = &mut Random::new(!seed);
        let length = *random.pick(&[0, 1, RECORD_BYTES - 1, RECORD_BYTES, RECORD_BYTES, RECORD_BYTES, RECORD_BYTES + 9]);
        let before = random.bytes(length);
        let mut expected = Left { answer: Err(20), record: before.clone(), work: case.start_work.clone() };
        if length >= RECORD_BYTES {
            if let Ok(record) = start_record(layout, &mut expected.work) {
                expected.answer = Ok(());
                expected.record[..RECORD_BYTES].copy_from_slice(&bytes_of(&record));
            }
        }
        let mut record = before;
        let (answer, work) = with_guard(&case.start_work, |work| {
            scene_log::start(of_library(layout), &mut record, work).map_err(Refusal::number)
        });
        let short = (record.len() < RECORD_BYTES, work.len() < of_library(layout).work_bytes());
        lengths.insert((layout, work.len()));
        assert!(Left { answer, record, work } == expected, "seed {seed}, {layout:?}");
        refused.insert((layout, short, answer));
    }
    let short = [((false, false), Ok(())), ((false, true), Err(20)), ((true, false), Err(20)), ((true, true), Err(20))];
    let expected = Layout::ALL.map(|layout| short.map(|(short, answer)| (layout, short, answer))).concat();
    assert_eq!(refused.into_iter().collect::<Vec<_>>(), expected);
    assert!(Layout::ALL.iter().all(|layout| LENGTHS.iter().all(|length| lengths.contains(&(*layout, *length)))));
}

#[test]
fn library_and_reference_agree_on_the_relation_of_two_runs() {
    let mut answered: BTreeMap<Result<u8, u8>, u64> = BTreeMap::new();
    for seed in first_seed()..first_seed() + CASES {
        let case = case(Layout::Square, seed);
        let random = &mut Random::new(!seed);
        let (bytes, damage) = lent_record(random, &case.record);
        // Numbers that are the run's own in their low bits, and above 255 as a whole.
        let far = *random.pick(&[256, 512, 65536, 1 << 31]);
        let number = |run: u64| u32::try_from(run).unwrap();
        let (a, b) = (number(case.runs.0), number(case.runs.1));
        for (first, second) in [(a, b), (a + far, b), (a, b + far), (a + far, b + far), (u32::MAX, u32::MAX)] {
            let expected = match damage {
                Damage::Short => Err(20),
                Damage::Count => Err(21),
                Damage::None => relation_between(&case.record, first.into(), second.into()),
            };
            let answer = scene_log::relate(&bytes, first, second).map(Relation::number).map_err(Refusal::number);
            assert_eq!(answer, expected, "seed {seed}, {damage:?}, runs {first}, {second}");
            *answered.entry(expected).or_default() += 1;
        }
    }
    println!("relations of two runs: {answered:?}");
    let answers: Vec<Result<u8, u8>> = answered.into_keys().collect();
    let relations = [1, 2, 4, 8, 16, 32].map(Ok);
    let refusals = [20, 21, 22, 23].map(Err);
    assert_eq!(answers, [relations.to_vec(), refusals.to_vec()].concat());
}

/// The whole-log call in full is the repeated single-line call: the same verdicts, the same refusal at the same line,
/// the same work area, and the record that the reference has.
#[test]
fn a_log_line_by_line_is_the_log_at_once() {
    let (mut logs, mut refused, mut lines, mut longest) = (0, 0, 0, 0);
    for (seed, layout) in in_both(LOGS) {
        let case = case(layout, seed);
        let layout = of_library(layout);
        let (mut work, mut verdicts) = (vec![7; layout.work_bytes()], vec![7; 256]);
        let mode = scene_log::Mode::Full;
        let whole = scene_log::check_log(layout, mode, &case.rule, &case.log, &mut work, &mut verdicts);
        if matches!(whole, Err(LogRefused { line: 0, .. })) {
            continue;
        }
        let mut check = Check::with_layout(layout);
        let mut taken = Vec::new();
        let mut refusal = None;
        for line in case.log.split_inclusive(|byte| *byte == b'\n') {
            match check.line(&case.rule, line) {
                Ok(verdict) => taken.push(u8::from(verdict.holds())),
                Err(met) => {
                    refusal = Some(met);
                    break;
                }
            }
        }
        let read = whole.unwrap_or_else(LogRefused::lines);
        assert_eq!((taken.len(), refusal), (read.into(), whole.err().map(|refused| refused.refusal)), "seed {seed}");
        assert!(taken == verdicts[..taken.len()] && verdicts[taken.len()..].iter().all(|byte| *byte == 7), "seed {seed}");
        assert!(check.work[..] == work[..], "seed {seed}");
        let (accepted, _) = accepted_lines(&case.log);
        assert!(check.record[..] == bytes_of(&record_of(&accepted))[..], "seed {seed}");
        logs += 1;
        refused += u64::from(refusal.is_some());
        lines += taken.len();
        longest = longest.max(taken.len());
    }
    println!("{logs} logs line by line, {refused} refused at a line, {lines} lines taken, {longest} at most");
    assert!(logs >= 1_000 && refused >= 200 && logs - refused >= 200 && longest == 256);
}

/// P1, worked out by hand: verdicts, pair byte, record, relations.
#[test]
fn p1_line_by_line() {
    // The byte of runs 0 and 1 is the second of the square area, at 128 × 0 + 1, and the first of the half one.
    p1_line_by_line_in(scene_log::Layout::Square, 1);
    p1_line_by_line_in(scene_log::Layout::Half, 0);
}

fn p1_line_by_line_in(layout: scene_log::Layout, place: usize) {
    let folder = Path::new(env!("CARGO_MANIFEST_DIR")).join("../../examples/p1");
    let rule = fs::read(folder.join("rule.rul")).unwrap();
    let mut check = Check::with_layout(layout);
    assert!(check.record.iter().chain(check.work.iter()).all(|byte| *byte == 0));
    assert_eq!(check.relate(0, 1), Err(Refusal::NoFinishedRun));
    let lines = [("B 7 EVENING\n", true, 0), ("B 9 TEST\n", true, 1), ("E 9\n", true, 4), ("E 7\n", false, 7)];
    for (line, holds, pair_byte) in lines {
        assert_eq!(numbered(check.line(&rule, line.as_bytes())), Ok(holds), "{line}");
        assert_eq!(check.work[place], pair_byte, "{line}");
        assert!((0..check.work.len()).all(|at| at == place || check.work[at] == 0), "{line}");
    }
    let mut record = [0; RECORD_BYTES];
    record[..4].copy_from_slice(&[4, 0, 2, 2]);
    record[4..11].copy_from_slice(&[7, 0, 1, 0, 4, 0, 1]);
    record[11..18].copy_from_slice(&[9, 0, 2, 0, 3, 0, 2]);
    record[900..908].copy_from_slice(b"\x07EVENING");
    record[925..930].copy_from_slice(b"\x04TEST");
    record[2500 + first_place(b"EVENING")] = 1;
    record[2500 + first_place(b"TEST")] = 2;
    assert!(*check.record == record);
    // Run 0 includes run 1.
    assert_eq!((check.relate(0, 1), check.relate(1, 0)), (Ok(Relation::Includes), Ok(Relation::During)));
    assert_eq!((check.relate(0, 0), check.relate(0, 2)), (Err(Refusal::SameRun), Err(Refusal::NoFinishedRun)));
    for (first, second) in [(256, 1), (0, 257), (256, 256)] {
        assert_eq!(check.relate(first, second), Err(Refusal::NoFinishedRun), "{first} {second}");
    }
    // A refused line changes nothing: no open run of its id, an id above the range, a line without LF.
    let before = check.clone();
    for (line, number) in [("E 7\n", 17), ("E 8\n", 16), ("B 65536\n", 12), ("B 8", 11), ("B 8 x-\n", 13)] {
        assert_eq!(numbered(check.line(&rule, line.as_bytes())), Err(number), "{line}");
    }
    // A label in small letters is no other one: run 2 has label 1.
    let mut taken = check.clone();
    assert_eq!(numbered(taken.line(&rule, b"B 8 evening\n")), Ok(false));
    assert_eq!(taken.record[..4], [5, 0, 3, 2]);
    assert_eq!(taken.record[18..25], [8, 0, 5, 0, 0, 0, 1]);
    assert!(taken.record[900..] == check.record[900..]);
    assert_eq!(check.line(b"RUX", b"B 8\n"), Err(Refusal::RuleMark));
    assert!(check == before);
    // One pair byte is changed, and no lines leave what is handed in. The relation is that of the record alone.
    check.work[place] = 6;
    assert_eq!((check.line(&rule, b"B 8\n"), check.relate(0, 1)), (Err(Refusal::NoRecord), Ok(Relation::Includes)));
    check.work[place] = 7;
    assert!(check == before);
    // Both runs have id 7 and are open at a time, and 21 comes before 22.
    check.record[11] = 7;
    assert_eq!(check.line(&rule, b"B 8\n"), Err(Refusal::NoRecord));
    assert_eq!((check.relate(0, 1), check.relate(300, 1)), (Err(Refusal::NoRecord), Err(Refusal::NoRecord)));
    check.record[11] = 9;
    assert!(check == before);
    // Id 7 begins again, as run 2.
    assert_eq!(numbered(check.line(&rule, b"B 7\n")), Ok(false));
    record[..4].copy_from_slice(&[5, 0, 3, 2]);
    record[18..25].copy_from_slice(&[7, 0, 5, 0, 0, 0, 0]);
    assert!(*check.record == record);
    assert_eq!((numbered(check.line(&rule, b"B 7\n")), numbered(check.line(&rule, b"E 9\n"))), (Err(15), Err(17)));
    assert!(*check.record == record);
    // Run 0, of the same id, is before it.
    assert_eq!(numbered(check.line(&rule, b"E 7\n")), Ok(false));
    assert_eq!((check.relate(0, 2), check.relate(2, 0)), (Ok(Relation::Before), Ok(Relation::After)));
}
