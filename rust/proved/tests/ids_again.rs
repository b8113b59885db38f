//! Ids that are used again: the library agrees with the reference on generated logs that do so and on every short log
//! of two ids, and with what this test follows by itself, a run at a time, on these and on long ones. All of it in both
//! layouts of a work area.

mod common;
#[path = "common/layouts.rs"]
mod layouts;

use common::{bytes_of, first_seed};
use generate::logs::{any_log, next_line};
use generate::random::Random;
use layouts::{of_library, with_guard};
use reference::calls as by_reference;
use reference::line::Event;
use reference::record::{lines_of, pair_bytes, record_of, RunEntry};
use reference::relation::logs_of_three_runs;
use reference::trace::accepted_lines;
use reference::{Layout, Mode};
use scene_log::{check_line, check_log_record, relate, Check, LogRefused, Refusal, Relation, Verdict};
use scene_log::{RECORD_BYTES, VERDICT_BYTES};
use std::collections::{BTreeMap, BTreeSet};
use std::thread;

/// Generated logs that begin an id again, each in both layouts, and how many threads share them.
const LOGS: u64 = 20_000;
const THREADS: u64 = 2;

/// The longest of the short logs.
const LINES: usize = 6;

/// How many long logs are followed, and the lines of each; a log has 256 at most that are taken.
const LONG_LOGS: u64 = 2_000;
const LONG: usize = 300;

/// Some run is before another. In a log of one id this is so once two runs have finished.
const RULE: &[u8] = b"RUL\x01\x00\x00\x03\x05\x00\x01\x03\x01\x00\x03\x00\x01";

/// What the whole-log call leaves in full: lines or refusal and its line, record, work area, verdicts.
#[derive(PartialEq)]
struct Left {
    answer: Result<u16, (u8, u16)>,
    record: Vec<u8>,
    work: Vec<u8>,
    verdicts: Vec<u8>,
}

fn left_by_library(layout: Layout, log: &[u8]) -> Left {
    let (mut record, mut verdicts) = (vec![7; RECORD_BYTES], vec![7; VERDICT_BYTES]);
    let (answer, work) = with_guard(&vec![7; layout.size()], |work| {
        check_log_record(of_library(layout), scene_log::Mode::Full, RULE, log, &mut record, work, &mut verdicts)
    });
    let number = |refused: LogRefused| (refused.refusal.number(), refused.line);
    Left { answer: answer.map_err(number), record, work, verdicts }
}

fn left_by_reference(layout: Layout, log: &[u8]) -> Left {
    let (mut work, mut verdicts) = (vec![7; layout.size()], vec![7; VERDICT_BYTES]);
    let answer = by_reference::check_log(layout, Mode::Full, RULE, log, &mut work, &mut verdicts);
    let lines = answer.record.lines as u16;
    let answered = answer.refusal.map_or(Ok(lines), |(number, line)| Err((number, line as u16)));
    Left { answer: answered, record: bytes_of(&answer.record), work, verdicts }
}

/// Both on the same log: the same answer, the same bytes.
fn agreed(layout: Layout, log: &[u8]) -> Left {
    let (found, expected) = (left_by_library(layout, log), left_by_reference(layout, log));
    let (answer, other) = (found.answer, expected.answer);
    assert!(found == expected, "{layout:?}: {answer:?} and {other:?}, or other bytes, on log {}", log.escape_ascii());
    found
}

/// Whether these lines begin an id again.
fn use_an_id_again(accepted: &[Event]) -> bool {
    let begins = accepted.iter().filter(|event| matches!(event, Event::Begin { .. }));
    let ids: BTreeSet<u64> = begins.clone().map(Event::id).collect();
    ids.len() < begins.count()
}

/// What was seen: what whole logs meet, and what one line more meets.
#[derive(Default)]
struct Seen {
    logs: BTreeMap<Option<u8>, u64>,
    lines: BTreeMap<Result<bool, u8>, u64>,
}

/// Holds both against each other on a log, and on one line more after its lines or some of them, on the record in
/// bytes.
fn compare(random: &mut Random, log: &[u8], accepted: &[Event], seen: &mut Seen) {
    let lines = if random.chance(1, 2) { accepted.len() } else { random.below(accepted.len() + 1) };
    let line = next_line(random, &accepted[..lines], &[]);
    let before = record_of(&accepted[..lines]);
    for layout in Layout::ALL {
        let left = agreed(layout, log);
        *seen.logs.entry(left.answer.err().map(|(number, _)| number)).or_default() += 1;

        let (mut record, mut expected_work) = (bytes_of(&before), pair_bytes(layout, &before));
        let (met, work) = with_guard(&expected_work, |work| {
            let met = check_line(of_library(layout), RULE, &mut record, work, &line);
            met.map(Verdict::holds).map_err(Refusal::number)
        });
        let expected = by_reference::check_line(layout, RULE, &before, &mut expected_work, &line);
        let message = || format!("{layout:?}, line {}, {lines} of log {}", line.escape_ascii(), log.escape_ascii());
        assert_eq!(met, expected.verdict, "{}", message());
        assert!(record == bytes_of(&expected.record) && work == expected_work, "{}", message());
        *seen.lines.entry(met).or_default() += 1;
    }
}

/// The reference is slow on long logs: of those with more than 100 lines one in eight is read.
fn compare_logs(part: u64) -> Seen {
    let mut seen = Seen::default();
    let mut logs = 0;
    for number in 0.. {
        let random = &mut Random::new(first_seed() + part + THREADS * number);
        let log = any_log(random, &[]).bytes;
        let (accepted, _) = accepted_lines(&log);
        if use_an_id_again(&accepted) && (accepted.len() <= 100 || number % 8 == 0) {
            compare(random, &log, &accepted, &mut seen);
            logs += 1;
        }
        if logs == LOGS / THREADS {
            break;
        }
    }
    seen
}

#[test]
fn library_and_reference_agree_on_generated_logs_that_use_an_id_again() {
    let mut all = Seen::default();
    thread::scope(|scope| {
        let parts: Vec<_> = (0..THREADS).map(|part| scope.spawn(move || compare_logs(part))).collect();
        for part in parts {
            let seen = part.join().unwrap();
            seen.logs.into_iter().for_each(|(met, count)| *all.logs.entry(met).or_default() += count);
            seen.lines.into_iter().for_each(|(met, count)| *all.lines.entry(met).or_default() += count);
        }
    });
    println!("whole logs: {:?}\na line more: {:?}", all.logs, all.lines);
    assert_eq!((all.logs.values().sum::<u64>(), all.lines.values().sum::<u64>()), (2 * LOGS, 2 * LOGS));
    let refusals = [11, 12, 13, 15, 16, 17, 18, 19];
    assert!(refusals.iter().all(|number| all.logs[&Some(*number)] >= 40 && all.lines[&Err(*number)] >= 40));
    assert!(all.logs[&None] >= 10_000 && all.lines[&Ok(true)] >= 2_000 && all.lines[&Ok(false)] >= 2_000);
}

/// A line: whether it begins a run, and its id.
type Line = (bool, u16);

fn bytes(lines: &[Line]) -> Vec<u8> {
    lines.iter().flat_map(|(begins, id)| format!("{} {id}\n", if *begins { "B" } else { "E" }).into_bytes()).collect()
}

/// All logs of up to six lines, each the begin or the end line of one of two ids.
fn short_logs() -> impl Iterator<Item = Vec<Line>> {
    let line = |number: usize| (number & 1 == 0, (number >> 1 & 1) as u16 + 1);
    let of_length = move |lines: usize| {
        (0..1_usize << (2 * lines)).map(move |log| (0..lines).map(|place| line(log >> (2 * place))).collect())
    };
    (0..=LINES).flat_map(of_length)
}

#[test]
fn library_and_reference_agree_on_all_short_logs_of_two_ids() {
    let mut answered: BTreeMap<Option<u8>, u64> = BTreeMap::new();
    for (lines, layout) in short_logs().flat_map(|lines| Layout::ALL.map(|layout| (lines.clone(), layout))) {
        let log = bytes(&lines);
        let left = agreed(layout, &log);
        let refusal = left.answer.err().map(|(number, _)| number);
        // The same line by line, and a refused line changes nothing.
        let mut check = Check::with_layout(of_library(layout));
        let met = lines.iter().find_map(|line| check.line(RULE, &bytes(&[*line])).err());
        assert_eq!(met.map(Refusal::number), refusal, "log {}", log.escape_ascii());
        assert!(check.record[..] == left.record && check.work[..] == left.work, "log {}", log.escape_ascii());
        *answered.entry(refusal).or_default() += 1;
    }
    println!("{answered:?}");
    // Each line has either id, and the lines before it settle whether it begins or ends: 2 ways a line. Two layouts.
    assert_eq!(answered[&None], 2 * (0..=LINES).map(|lines| 1 << lines).sum::<u64>());
    assert_eq!(answered.values().sum::<u64>(), 2 * (0..=LINES).map(|lines| 1 << (2 * lines)).sum::<u64>());
    assert_eq!(answered.into_keys().collect::<Vec<_>>(), [None, Some(15), Some(16), Some(17)]);
}

/// A run as it is followed here: its id, its begin line and its end line, 0 while it is open.
type Run = [u16; 3];

/// The runs of the lines before the first refused one, and its refusal and number. The open run of each id is known,
/// and an end line closes that.
fn followed(lines: &[Line]) -> (Vec<Run>, Option<(u8, u16)>) {
    let mut runs: Vec<Run> = Vec::new();
    let mut open: BTreeMap<u16, usize> = BTreeMap::new();
    let mut begun: BTreeSet<u16> = BTreeSet::new();
    for ((begins, id), line) in lines.iter().zip(1..) {
        match (begins, open.get(id)) {
            (true, Some(_)) => return (runs, Some((15, line))),
            (true, None) if runs.len() == 128 => return (runs, Some((18, line))),
            (true, None) => {
                open.insert(*id, runs.len());
                begun.insert(*id);
                runs.push([*id, line, 0]);
            }
            (false, Some(run)) => {
                runs[*run][2] = line;
                open.remove(id);
            }
            (false, None) => return (runs, Some((if begun.contains(id) { 17 } else { 16 }, line))),
        }
    }
    (runs, None)
}

/// The pair byte of two runs, the first of which begins first.
fn pair_byte([_, _, end]: Run, [_, other_begin, other_end]: Run) -> u8 {
    match (end, other_end) {
        (0, 0) => 1,
        (0, _) => 4,
        (_, 0) if end < other_begin => 2,
        (_, 0) => 3,
        _ if end < other_begin => 5,
        _ if end < other_end => 6,
        _ => 7,
    }
}

/// The area of these runs: by rows of 128 bytes, or all pairs one after another, by the number of their second run.
fn area_of(layout: Layout, runs: &[Run]) -> Vec<u8> {
    let byte = |first: usize, second: usize| match (runs.get(first), runs.get(second)) {
        (Some(run), Some(other)) if first < second => pair_byte(*run, *other),
        _ => 0,
    };
    match layout {
        Layout::Square => (0..128).flat_map(|first| (0..128).map(move |second| byte(first, second))).collect(),
        Layout::Half => (0..128).flat_map(|second| (0..second).map(move |first| byte(first, second))).collect(),
    }
}

/// The library against what is followed here, in both layouts.
fn hold_against_followed(lines: &[Line]) -> (Vec<Run>, Option<(u8, u16)>) {
    let (runs, refusal) = followed(lines);
    for layout in Layout::ALL {
        hold_against(layout, lines, &runs, refusal);
    }
    (runs, refusal)
}

/// Answer, number of runs, their entries in the record, and all pair bytes.
fn hold_against(layout: Layout, lines: &[Line], runs: &[Run], refusal: Option<(u8, u16)>) {
    let log = bytes(lines);
    let left = left_by_library(layout, &log);
    assert_eq!(left.answer, refusal.map_or(Ok(lines.len() as u16), Err), "log {}", log.escape_ascii());
    // Three numbers, low byte first, and no label.
    let entry = |run: &Run| [&run.map(u16::to_le_bytes).concat()[..], &[0]].concat();
    let mut entries: Vec<u8> = runs.iter().flat_map(entry).collect();
    entries.resize(7 * 128, 0);
    assert_eq!(left.record[2], runs.len() as u8, "log {}", log.escape_ascii());
    assert!(left.record[4..900] == entries, "log {}", log.escape_ascii());
    assert!(left.work == area_of(layout, runs), "pair bytes, {layout:?}, log {}", log.escape_ascii());
}

#[test]
fn an_end_line_closes_the_open_run_of_its_id_in_every_short_log() {
    let mut again = 0;
    for lines in short_logs() {
        let (runs, _) = hold_against_followed(&lines);
        again += u64::from((1..=2).any(|id| runs.iter().filter(|run| run[0] == id).count() > 1));
    }
    // A count apart from library and reference.
    assert_eq!(again, 356);
}

/// Long logs of one to five ids, of which nearly every line fits those before it.
#[test]
fn an_end_line_closes_the_open_run_of_its_id_in_long_logs() {
    let mut answered: BTreeMap<Option<u8>, u64> = BTreeMap::new();
    let (mut full, mut most_of_one) = (0, 0);
    for seed in first_seed()..first_seed() + LONG_LOGS {
        let random = &mut Random::new(seed);
        let ids = random.between(1, 5);
        let wrong = *random.pick(&[0, 1, 4]);
        let mut open = [false; 6];
        let mut lines = Vec::new();
        for _ in 0..LONG {
            let id = random.between(1, ids);
            let begins = open[id] == random.chance(wrong, 200);
            open[id] = begins;
            lines.push((begins, id as u16));
        }
        let (runs, refusal) = hold_against_followed(&lines);
        *answered.entry(refusal.map(|(number, _)| number)).or_default() += 1;
        full += u64::from(runs.len() == 128);
        let of_one = (1..=5).map(|id| runs.iter().filter(|run| run[0] == id).count()).max().unwrap_or(0);
        most_of_one = most_of_one.max(of_one);
    }
    println!("{LONG_LOGS} long logs: {answered:?}, {full} full, {most_of_one} runs of one id at most");
    assert_eq!(answered.into_keys().collect::<Vec<_>>(), [15, 16, 17, 18].map(Some));
    assert!(full >= 400 && most_of_one == 128);
}

/// Every record of up to three runs whose ids are any of three: lines leave it exactly if, of each two runs with one
/// id, the first has finished before the second begins.
#[test]
fn two_runs_share_an_id_in_a_record_exactly_if_one_has_finished_before_the_other_begins() {
    let in_order = |log: &String| log.find("B 1") < log.find("B 2") && log.find("B 2") < log.find("B 3");
    let logs: Vec<String> = logs_of_three_runs().into_iter().filter(in_order).collect();
    let shapes: BTreeSet<Vec<&str>> = logs
        .iter()
        .flat_map(|log| (0..=6).map(|lines| log.split_inclusive('\n').take(lines).collect()))
        .collect();
    let (mut left, mut refused) = (0, 0);
    for shape in &shapes {
        let (accepted, _) = accepted_lines(shape.concat().as_bytes());
        let mut record = record_of(&accepted);
        let runs = record.runs.iter().filter(|run| run.id != 0).count();
        for choice in 0..3_u64.pow(runs as u32) {
            for run in 0..runs {
                record.runs[run].id = choice / 3_u64.pow(run as u32) % 3 + 1;
            }
            let used = &record.runs[..runs];
            let are_apart = |first: &RunEntry, second: &RunEntry| first.end != 0 && first.end < second.begin;
            let is_left = used.iter().enumerate().all(|(place, first)| {
                used[place + 1..].iter().all(|second| first.id != second.id || are_apart(first, second))
            });
            assert_eq!(lines_of(&record).is_some(), is_left, "{used:?}");
            // There is no run 200.
            let expected = if is_left { Refusal::NoFinishedRun } else { Refusal::NoRecord };
            assert_eq!(relate(&bytes_of(&record), 0, 200), Err(expected), "{used:?}");
            for layout in Layout::ALL {
                let (mut bytes, mut work) = (bytes_of(&record), pair_bytes(layout, &record));
                let taken = check_line(of_library(layout), RULE, &mut bytes, &mut work, b"B 9\n").err();
                assert_eq!(taken, (!is_left).then_some(Refusal::NoRecord), "{layout:?}, {used:?}");
            }
            if is_left { left += 1 } else { refused += 1 }
        }
    }
    // A count apart from library and reference: shapes, records that lines leave, others.
    assert_eq!((shapes.len(), left, refused), (47, 487, 582));
}

/// Worked out by hand: ids 1 and 2 are used twice each, and the lines of one come between those of the other.
#[test]
fn a_log_of_two_ids_line_by_line() {
    // Runs 0 and 1, 0 and 2, 0 and 3; 1 and 2, 1 and 3; 2 and 3.
    a_log_of_two_ids_line_by_line_in(scene_log::Layout::Square, [1, 2, 3, 130, 131, 259]);
    a_log_of_two_ids_line_by_line_in(scene_log::Layout::Half, [0, 1, 3, 2, 4, 5]);
}

fn a_log_of_two_ids_line_by_line_in(layout: scene_log::Layout, places: [usize; 6]) {
    let mut check = Check::with_layout(layout);
    for (line, answer) in [
        ("E 1\n", Err(16)),
        ("B 1\n", Ok(false)),
        ("B 1\n", Err(15)),
        ("B 2 A\n", Ok(false)),
        ("E 1\n", Ok(false)),
        ("E 1\n", Err(17)),
        ("B 1 A\n", Ok(false)),
        ("B 1\n", Err(15)),
        ("B 2\n", Err(15)),
        ("E 3\n", Err(16)),
        ("E 2\n", Ok(false)),
        ("B 2\n", Ok(false)),
        // The first run of id 1 is before the second.
        ("E 1\n", Ok(true)),
        ("E 1\n", Err(17)),
    ] {
        let met = check.line(RULE, line.as_bytes()).map(Verdict::holds).map_err(Refusal::number);
        assert_eq!(met, answer, "{line}");
    }
    let mut record = [0; RECORD_BYTES];
    record[..4].copy_from_slice(&[7, 0, 4, 1]);
    record[4..11].copy_from_slice(&[1, 0, 1, 0, 3, 0, 0]);
    record[11..18].copy_from_slice(&[2, 0, 2, 0, 5, 0, 1]);
    record[18..25].copy_from_slice(&[1, 0, 4, 0, 7, 0, 1]);
    record[25..32].copy_from_slice(&[2, 0, 6, 0, 0, 0, 0]);
    record[900..902].copy_from_slice(b"\x01A");
    // The hash of A is 0xc40bf6cc.
    record[2500 + 0xcc % 128] = 1;
    assert!(*check.record == record);
    for (place, byte) in check.work.iter().enumerate() {
        let pair = places.iter().position(|at| *at == place);
        assert_eq!(*byte, pair.map_or(0, |pair| [6, 5, 2, 6, 2, 3][pair]), "pair byte {place}, {layout:?}");
    }
    use Relation::{After, Before, OverlappedBy, Overlaps};
    let relations = [(0, 1, Overlaps), (1, 0, OverlappedBy), (0, 2, Before), (2, 0, After), (1, 2, Overlaps)];
    for (first, second, relation) in relations {
        assert_eq!(check.relate(first, second), Ok(relation), "{first} {second}");
    }
    assert_eq!((check.relate(0, 3), check.relate(2, 2)), (Err(Refusal::NoFinishedRun), Err(Refusal::SameRun)));
}

/// After 128 runs a begin line is refused with 18, but with 15 while a run of its id is open; 19 comes after both.
#[test]
fn runs_of_one_id_at_the_edges() {
    let of_one_id = |runs: usize, labels: usize| -> String {
        let label = |run: usize| if run < labels { format!(" L{run}") } else { String::new() };
        (0..runs).map(|run| format!("B 1{}\nE 1\n", label(run))).collect()
    };
    for (log, answer) in [
        (of_one_id(128, 0), Ok(256)),
        (of_one_id(128, 0) + "B 1\n", Err((18, 257))),
        (of_one_id(128, 64) + "B 1 NEW\n", Err((18, 257))),
        (of_one_id(128, 0) + "B 2\n", Err((18, 257))),
        (of_one_id(128, 0) + "E 1\n", Err((17, 257))),
        (of_one_id(128, 0) + "E 2\n", Err((16, 257))),
        (of_one_id(127, 64) + "B 1\n", Ok(255)),
        (of_one_id(127, 64) + "B 1\nB 1 NEW\n", Err((15, 256))),
        (of_one_id(127, 64) + "B 1\nB 2 NEW\n", Err((18, 256))),
        (of_one_id(64, 64) + "B 1 NEW\n", Err((19, 129))),
        (of_one_id(64, 64) + "B 1 L63\nB 1 NEW\n", Err((15, 130))),
    ] {
        for layout in Layout::ALL {
            assert_eq!(left_by_library(layout, log.as_bytes()).answer, answer, "{}", log.escape_default());
        }
    }
}
