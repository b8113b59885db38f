//! The two layouts of a work area: the same answers in either, the same bytes at their pairs, which place is whose, what
//! an area of the other layout meets, the lengths, and numbers that name no layout.
//!
//! The calls are made as C has them, with the number of a layout; whole logs are read in full. What is expected is
//! worked out here, a pair at a time; the reference has a part in the generated cases alone.

mod common;

use common::{bytes_of, first_seed};
use generate::areas::Fault;
use generate::random::Random;
use generate::{case, Case};
use scene_log::{Check, Layout, Mode, Refusal, RECORD_BYTES, TEXT_BYTES, VERDICT_BYTES};
use std::collections::{BTreeMap, BTreeSet};

/// Generated cases, of which those with a sound work area are made in both layouts.
const CASES: u64 = 20_000;

/// Full logs that are read line by line in both layouts.
const FULL_LOGS: u64 = 12;

/// The bytes of a work area in either layout.
const SQUARE: usize = 16384;
const HALF: usize = 8128;

/// The number of the full mode.
const FULL: u32 = 1;

/// Some run is before another.
const RULE: &[u8] = b"RUL\x01\x00\x00\x03\x05\x00\x01\x03\x01\x00\x03\x00\x01";

/// The answer that refuses with this number, at line 0 where the call reads a whole log.
const fn refused(number: u32) -> u32 {
    number << 16
}

extern "C" {
    fn scene_log_report(
        layout: u32,
        mode: u32,
        rule: *const u8,
        rule_length: usize,
        log: *const u8,
        log_length: usize,
        work: *mut u8,
        work_length: usize,
        verdicts: *mut u8,
        verdicts_length: usize,
        text: *mut u8,
        text_length: usize,
    ) -> u32;
    fn scene_log_check_log(
        layout: u32,
        mode: u32,
        rule: *const u8,
        rule_length: usize,
        log: *const u8,
        log_length: usize,
        work: *mut u8,
        work_length: usize,
        verdicts: *mut u8,
        verdicts_length: usize,
    ) -> u32;
    fn scene_log_check_log_record(
        layout: u32,
        mode: u32,
        rule: *const u8,
        rule_length: usize,
        log: *const u8,
        log_length: usize,
        record: *mut u8,
        record_length: usize,
        work: *mut u8,
        work_length: usize,
        verdicts: *mut u8,
        verdicts_length: usize,
    ) -> u32;
    fn scene_log_start(layout: u32, record: *mut u8, record_length: usize, work: *mut u8, work_length: usize) -> u32;
    fn scene_log_check_line(
        layout: u32,
        rule: *const u8,
        rule_length: usize,
        record: *mut u8,
        record_length: usize,
        work: *mut u8,
        work_length: usize,
        line: *const u8,
        line_length: usize,
    ) -> u32;
    fn scene_log_check_line_tallied(
        layout: u32,
        rule: *const u8,
        rule_length: usize,
        record: *mut u8,
        record_length: usize,
        tally: *mut u32,
        tally_length: usize,
        work: *mut u8,
        work_length: usize,
        line: *const u8,
        line_length: usize,
    ) -> u32;
}

/// Bytes behind every work area, which no call may change: as many as a square area has.
const GUARD: [u8; SQUARE] = [0xC3; SQUARE];

/// All that is lent to a call.
#[derive(Clone, PartialEq)]
struct Lent {
    rule: Vec<u8>,
    log: Vec<u8>,
    line: Vec<u8>,
    record: Vec<u8>,
    tally: [u32; 5],
    verdicts: Vec<u8>,
    text: Vec<u8>,
    /// The work area with guard bytes behind it, and its own length, which is lent.
    work: Vec<u8>,
    work_length: usize,
}

impl Lent {
    /// One line more on a check, and the log that it comes from. The tally counts no failing line.
    fn new(rule: &[u8], log: &[u8], check: &Check, line: &[u8]) -> Lent {
        let kinds = log.split(|byte| *byte == b'\n').filter_map(|line| line.first());
        let (begins, ends): (Vec<u8>, Vec<u8>) = kinds.partition(|kind| **kind == b'B');
        let (begun, finished) = (begins.len() as u32, ends.len() as u32);
        let lent = Lent {
            rule: rule.to_vec(),
            log: log.to_vec(),
            line: line.to_vec(),
            record: check.record.to_vec(),
            tally: [begun + finished, begun, finished, begun - finished, 0],
            verdicts: vec![7; VERDICT_BYTES],
            text: vec![7; TEXT_BYTES],
            work: Vec::new(),
            work_length: 0,
        };
        lent.with_work(&check.work)
    }

    fn with_work(mut self, work: &[u8]) -> Lent {
        self.work = [work, &GUARD].concat();
        self.work_length = work.len();
        self
    }

    /// The work area without what is behind it.
    fn area(&self) -> &[u8] {
        &self.work[..self.work_length]
    }

    /// All but the work area.
    fn others(&self) -> Lent {
        self.clone().with_work(&[])
    }
}

/// A call by its name in C, and what makes it with the number of a layout.
type Call = (&'static str, fn(u32, &mut Lent) -> u32);

// Safe, here and below: each pointer comes with the length of its own buffer, or with a smaller one.
fn report(layout: u32, lent: &mut Lent) -> u32 {
    unsafe {
        scene_log_report(
            layout,
            FULL,
            lent.rule.as_ptr(),
            lent.rule.len(),
            lent.log.as_ptr(),
            lent.log.len(),
            lent.work.as_mut_ptr(),
            lent.work_length,
            lent.verdicts.as_mut_ptr(),
            lent.verdicts.len(),
            lent.text.as_mut_ptr(),
            lent.text.len(),
        )
    }
}

fn check_log(layout: u32, lent: &mut Lent) -> u32 {
    unsafe {
        scene_log_check_log(
            layout,
            FULL,
            lent.rule.as_ptr(),
            lent.rule.len(),
            lent.log.as_ptr(),
            lent.log.len(),
            lent.work.as_mut_ptr(),
            lent.work_length,
            lent.verdicts.as_mut_ptr(),
            lent.verdicts.len(),
        )
    }
}

fn check_log_record(layout: u32, lent: &mut Lent) -> u32 {
    unsafe {
        scene_log_check_log_record(
            layout,
            FULL,
            lent.rule.as_ptr(),
            lent.rule.len(),
            lent.log.as_ptr(),
            lent.log.len(),
            lent.record.as_mut_ptr(),
            lent.record.len(),
            lent.work.as_mut_ptr(),
            lent.work_length,
            lent.verdicts.as_mut_ptr(),
            lent.verdicts.len(),
        )
    }
}

fn start(layout: u32, lent: &mut Lent) -> u32 {
    unsafe {
        let (record, work) = (lent.record.as_mut_ptr(), lent.work.as_mut_ptr());
        scene_log_start(layout, record, lent.record.len(), work, lent.work_length)
    }
}

fn check_line(layout: u32, lent: &mut Lent) -> u32 {
    unsafe {
        scene_log_check_line(
            layout,
            lent.rule.as_ptr(),
            lent.rule.len(),
            lent.record.as_mut_ptr(),
            lent.record.len(),
            lent.work.as_mut_ptr(),
            lent.work_length,
            lent.line.as_ptr(),
            lent.line.len(),
        )
    }
}

fn check_line_tallied(layout: u32, lent: &mut Lent) -> u32 {
    unsafe {
        scene_log_check_line_tallied(
            layout,
            lent.rule.as_ptr(),
            lent.rule.len(),
            lent.record.as_mut_ptr(),
            lent.record.len(),
            lent.tally.as_mut_ptr(),
            lent.tally.len(),
            lent.work.as_mut_ptr(),
            lent.work_length,
            lent.line.as_ptr(),
            lent.line.len(),
        )
    }
}

/// The calls that read a work area.
const LINE_CALLS: [Call; 2] =
    [("scene_log_check_line", check_line), ("scene_log_check_line_tallied", check_line_tallied)];

/// Those that write one whatever is in it.
const OTHER_CALLS: [Call; 4] = [
    ("scene_log_report", report),
    ("scene_log_check_log", check_log),
    ("scene_log_check_log_record", check_log_record),
    ("scene_log_start", start),
];

/// All calls that are lent a work area.
fn calls() -> impl Iterator<Item = Call> {
    LINE_CALLS.into_iter().chain(OTHER_CALLS)
}

/// The half area of a square one: its bytes by the number of the second run, then of the first. What is no pair is
/// dropped, and is 0.
fn half_of(square: &[u8]) -> Vec<u8> {
    let mut pairs: Vec<(usize, usize, u8)> = Vec::new();
    for (first, row) in square[..SQUARE].chunks(128).enumerate() {
        for (second, byte) in row.iter().enumerate() {
            if first < second {
                pairs.push((second, first, *byte));
            } else {
                assert_eq!(*byte, 0, "runs {first}, {second} are no pair");
            }
        }
    }
    pairs.sort();
    pairs.into_iter().map(|(_, _, byte)| byte).collect()
}

#[test]
fn the_layouts_have_their_numbers_and_sizes() {
    assert_eq!(Layout::ALL.map(Layout::number), [0, 1]);
    assert_eq!(Layout::ALL.map(Layout::work_bytes), [SQUARE, HALF]);
    assert_eq!(Layout::default(), Layout::Square);
    assert_eq!(Check::default(), Check::with_layout(Layout::Square));
    for layout in Layout::ALL {
        let check = Check::with_layout(layout);
        assert_eq!((check.layout, &check.work[..]), (layout, &vec![0; layout.work_bytes()][..]));
    }
}

/// What is lent in a case, with the case's work area.
fn lent_of(case: &Case) -> Lent {
    let count = |number: u64| u32::try_from(number).expect("a number of 32 bits");
    let tally = case.tally;
    Lent {
        rule: case.rule.clone(),
        log: case.log.clone(),
        line: case.line.clone(),
        record: bytes_of(&case.record),
        tally: [tally.lines, tally.begun, tally.finished, tally.open, tally.failing].map(count),
        verdicts: vec![7; VERDICT_BYTES],
        text: vec![7; TEXT_BYTES],
        work: Vec::new(),
        work_length: 0,
    }
    .with_work(&case.work)
}

/// Number, record, verdict bytes, text and tally are the same, and the half bytes are those of the square area. The
/// areas are sound, or of another record, and of any length; what is behind their pair bytes stays.
#[test]
fn every_answer_is_the_same_in_either_layout() {
    let mut answered: BTreeMap<(&str, u32), u64> = BTreeMap::new();
    for seed in first_seed()..first_seed() + CASES {
        let cases = reference::Layout::ALL.map(|layout| case(layout, seed));
        if cases[0].fault != Fault::None {
            continue;
        }
        let before = cases.map(|case| lent_of(&case));
        for (name, call) in calls() {
            let [mut square, mut half] = before.clone();
            let answers = [call(0, &mut square), call(1, &mut half)];
            assert_eq!(answers[0], answers[1], "{name}, seed {seed}");
            assert!(square.others() == half.others(), "{name}, seed {seed}");
            assert!(half.work[..HALF] == half_of(&square.work), "{name}, seed {seed}");
            for (left, before, size) in [(&square, &before[0], SQUARE), (&half, &before[1], HALF)] {
                assert!(left.work[size..] == before.work[size..], "{name}, seed {seed}");
                assert!(answers[0] != refused(21) || left == before, "{name}, seed {seed}");
            }
            *answered.entry((name, answers[0] >> 16)).or_default() += 1;
        }
    }
    println!("{answered:?}");
    let numbers = |name: &str| answered.keys().filter(|(of, _)| *of == name).map(|(_, number)| *number).collect();
    let rule: Vec<u32> = (0..=10).collect();
    let lines = [&rule[..], &[11, 12, 13, 15, 16, 17, 18, 19]].concat();
    let expected: BTreeMap<&str, Vec<u32>> = BTreeMap::from([
        ("scene_log_report", vec![0]),
        ("scene_log_start", vec![0]),
        ("scene_log_check_log", lines.clone()),
        ("scene_log_check_log_record", lines.clone()),
        ("scene_log_check_line", [&lines[..], &[21]].concat()),
        ("scene_log_check_line_tallied", [&lines[..], &[21, 24]].concat()),
    ]);
    for (name, expected) in expected {
        let met: Vec<u32> = numbers(name);
        assert_eq!(met, expected, "{name}");
    }
    assert!(answered.values().all(|count| *count >= 20));
}

/// A log of 128 runs in any order to each other, as lines. A run has the lowest id that is free.
fn full_log(random: &mut Random) -> Vec<String> {
    let mut lines = Vec::new();
    let mut open: Vec<usize> = Vec::new();
    let mut begun = 0;
    let weight = random.between(1, 3);
    while begun < 128 || !open.is_empty() {
        if begun < 128 && (open.is_empty() || random.chance(weight, 4)) {
            let id = (1..).find(|id| !open.contains(id)).expect("an id that is free");
            let label = *random.pick(&["", " A", " B", " TEST"]);
            lines.push(format!("B {id}{label}\n"));
            open.push(id);
            begun += 1;
        } else {
            let at = random.below(open.len());
            lines.push(format!("E {}\n", open.remove(at)));
        }
    }
    lines
}

/// After each of 256 lines the records are the same, and the half area is that of the square one.
#[test]
fn the_half_bytes_are_those_of_the_square_area_after_every_line() {
    for seed in 0..FULL_LOGS {
        let [mut square, mut half] = Layout::ALL.map(Check::with_layout);
        let lines = full_log(&mut Random::new(seed));
        for (number, line) in lines.iter().enumerate() {
            let taken = [&mut square, &mut half].map(|check| check.line(RULE, line.as_bytes()));
            assert!(taken[0].is_ok() && taken[0] == taken[1], "seed {seed}, line {number}");
            assert!(square.record == half.record, "seed {seed}, line {number}");
            assert!(half.work[..] == half_of(&square.work), "seed {seed}, line {number}");
        }
        let used = half.work.iter().filter(|byte| **byte != 0).count();
        assert_eq!((lines.len(), used), (256, HALF), "seed {seed}");
        let whole = Layout::ALL.map(|layout| Check::after_with(layout, Mode::Full, RULE, lines.concat().as_bytes()).0);
        assert!(whole == [square, half], "seed {seed}");
    }
}

/// A check of so many open runs, in this layout. Their bytes are all 1: both have begun, and none has ended.
fn open_runs(layout: Layout, runs: usize) -> Check {
    let log: String = (1..=runs).map(|id| format!("B {id}\n")).collect();
    let (check, lines) = Check::after_with(layout, Mode::Full, RULE, log.as_bytes());
    assert_eq!(lines.map(usize::from), Ok(runs));
    check
}

/// The one place with this byte.
fn only_place(work: &[u8], byte: u8) -> usize {
    let places: Vec<usize> = (0..work.len()).filter(|place| work[*place] == byte).collect();
    assert_eq!(places.len(), 1, "{places:?}");
    places[0]
}

/// All runs but x and y stay open, and y ends before x: the byte of x and y alone is 7. The pairs are taken by their
/// second run, then by their first, so that the places come one after another.
#[test]
fn every_place_of_the_half_area_is_of_one_pair() {
    let [square, half] = Layout::ALL.map(|layout| open_runs(layout, 128));
    assert!(half.work.iter().all(|byte| *byte == 1));
    let mut owners: Vec<(usize, usize)> = Vec::new();
    for y in 1..128 {
        let end = |run: usize| format!("E {}\n", run + 1);
        let [mut square, mut half] = [square.clone(), half.clone()];
        for check in [&mut square, &mut half] {
            check.line(RULE, end(y).as_bytes()).unwrap();
        }
        for x in 0..y {
            let [mut square, mut half] = [square.clone(), half.clone()];
            for check in [&mut square, &mut half] {
                check.line(RULE, end(x).as_bytes()).unwrap();
            }
            assert_eq!(only_place(&square.work, 7), 128 * x + y, "runs {x}, {y}");
            let place = only_place(&half.work, 7);
            assert_eq!(place, y * (y - 1) / 2 + x, "runs {x}, {y}");
            assert_eq!(place, owners.len(), "runs {x}, {y}");
            owners.push((x, y));
        }
    }
    assert_eq!(owners.len(), HALF);
    let different: BTreeSet<(usize, usize)> = owners.iter().copied().collect();
    assert_eq!(different.len(), HALF);
}

/// Whatever has begun, each of the 8,128 bytes must be the record's, those of runs that have not begun too; the bytes
/// behind them may be anything.
#[test]
fn every_byte_of_the_half_area_is_looked_at_and_none_behind_it() {
    for runs in [0, 1, 2, 50, 127, 128] {
        let check = open_runs(Layout::Half, runs);
        let mut area = check.work.to_vec();
        area.extend([0xA5; 40]);
        for place in 0..area.len() {
            let before = area[place];
            area[place] = before ^ 1;
            let mut record = check.record.clone();
            let mut work = area.clone();
            let taken = scene_log::check_line(Layout::Half, RULE, &mut *record, &mut work, b"X\n");
            let expected = if place < HALF { Refusal::NoRecord } else { Refusal::LineForm };
            assert_eq!(taken, Err(expected), "{runs} runs, byte {place}");
            assert!(record == check.record && work == area, "{runs} runs, byte {place}");
            area[place] = before;
        }
    }
}

/// All accepted logs of up to so many lines over three ids: each line is of one of them, and begins a run of it or ends
/// the open one.
fn small_logs(lines: usize) -> Vec<String> {
    let mut logs = vec![String::new()];
    let mut longest = logs.clone();
    for _ in 0..lines {
        let next = |log: &String| {
            let log = log.clone();
            (1..=3).map(move |id| {
                let of_id = log.lines().filter(|line| line.ends_with(&id.to_string())).count();
                format!("{log}{} {id}\n", if of_id % 2 == 0 { "B" } else { "E" })
            })
        };
        longest = longest.iter().flat_map(next).collect();
        logs.extend(longest.clone());
    }
    logs
}

/// When an area of the other layout is right. Let n runs have begun.
///
/// In the square area the byte of x < y stands at 128 × x + y, so the first byte, at 0, is of no pair and is 0. In the
/// half area the first byte is that of runs 0 and 1. From n = 2 on it is 1 to 7, and never 0: the areas differ in their
/// first byte, and an area of the other layout is 21. For n = 0 and n = 1 no two runs have begun, and all pair bytes are
/// 0 in either layout. Then the first 8,128 bytes of a square area are right for the half layout, whatever stands behind
/// them. A half area is right for the square layout exactly if 0 stands behind it up to byte 16,383; it is 21 if another
/// byte stands there, and 20 if it has fewer than 16,384 bytes, for any n.
///
/// Here each call is held against the same one on the record's own area.
#[test]
fn an_area_of_the_other_layout_is_21_unless_fewer_than_two_runs_have_begun() {
    let (mut right, mut wrong, mut short) = (0, 0, 0);
    for log in small_logs(6) {
        let begun = log.lines().filter(|line| line.starts_with('B')).count();
        let [square, half] = Layout::ALL.map(|layout| Check::after_with(layout, Mode::Full, RULE, log.as_bytes()).0);
        let same = |length: usize, behind: &[(usize, u8)]| {
            let mut area = half.work.to_vec();
            area.resize(length, 0);
            behind.iter().for_each(|(place, byte)| area[*place] = *byte);
            area
        };
        // The layout that is named, the area of the other one, and whether its bytes can be right.
        let handed_over = [
            (Layout::Half, square.work.to_vec(), true),
            (Layout::Half, square.work[..HALF].to_vec(), true),
            (Layout::Half, [&square.work[..], &[9; 3]].concat(), true),
            (Layout::Square, same(SQUARE, &[]), true),
            (Layout::Square, same(SQUARE + 3, &[(SQUARE, 9), (SQUARE + 2, 1)]), true),
            (Layout::Square, same(SQUARE, &[(HALF, 1)]), false),
            (Layout::Square, same(SQUARE, &[(12_000, 200)]), false),
            (Layout::Square, same(SQUARE + 3, &[(SQUARE - 1, 7)]), false),
            (Layout::Square, same(HALF, &[]), false),
            (Layout::Square, same(SQUARE - 1, &[]), false),
        ];
        for ((layout, area, may_be_right), line) in
            handed_over.iter().flat_map(|handed| ["B 9\n", "E 9\n", "X\n"].map(|line| (handed, line)))
        {
            let own = if *layout == Layout::Square { &square } else { &half };
            for (name, call) in LINE_CALLS {
                let message = || format!("{name}, {layout:?}, {} bytes, {line:?} after {log:?}", area.len());
                let before = Lent::new(RULE, log.as_bytes(), own, line.as_bytes());
                let mut expected = before.clone();
                let own_answer = call(layout.number(), &mut expected);
                assert!(![refused(20), refused(21), refused(24)].contains(&own_answer), "{}", message());
                let handed = before.with_work(area);
                let mut left = handed.clone();
                let answer = call(layout.number(), &mut left);
                if area.len() < layout.work_bytes() {
                    assert!(answer == refused(20) && left == handed, "{}", message());
                    short += 1;
                } else if begun < 2 && *may_be_right {
                    assert!(answer == own_answer && left.others() == expected.others(), "{}", message());
                    assert!(left.area()[..layout.work_bytes()] == *expected.area(), "{}", message());
                    assert!(left.work[layout.work_bytes()..] == handed.work[layout.work_bytes()..], "{}", message());
                    right += 1;
                } else {
                    assert!(answer == refused(21) && left == handed, "{}", message());
                    wrong += 1;
                }
            }
        }
    }
    // Of 1 + 3 + 9 + .. + 729 logs, the log of no lines, three of one line and three of two have fewer than two runs.
    // Each has ten areas, three lines and two calls: two areas are too short, five can be right.
    let logs = (0..=6).map(|lines| 3_u64.pow(lines)).sum::<u64>();
    assert_eq!(logs, 1093);
    assert_eq!((right, short), (7 * 5 * 6, logs * 2 * 6));
    assert_eq!(wrong, (logs * 8 - 7 * 5) * 6);
}

/// A log of three runs, its check in this layout, and a line more.
fn small(layout: Layout) -> Lent {
    let log = b"B 1 A\nB 2\nE 1\nB 1\n";
    let (check, lines) = Check::after_with(layout, Mode::Full, RULE, log);
    assert_eq!(lines, Ok(4));
    Lent::new(RULE, log, &check, b"E 2\n")
}

/// The same with nothing in it that a call could take, but for the work area.
fn spoiled(lent: &Lent) -> Lent {
    Lent {
        rule: Vec::new(),
        log: b"X".to_vec(),
        line: b"X".to_vec(),
        record: vec![9; RECORD_BYTES],
        tally: [9; 5],
        ..lent.clone()
    }
}

/// 20 is given below the size, before anything else is looked at; from there on an area of any length is taken, and no
/// byte past the size is changed.
#[test]
fn an_area_is_long_enough_from_its_layouts_size_on() {
    let (mut taken, mut short) = (0, 0);
    for (layout, size) in [(Layout::Square, SQUARE), (Layout::Half, HALF)] {
        let exact = small(layout);
        for length in [0, 1, 4064, 8127, 8128, 8129, 8131, 16383, 16384, 16385, 16387, 30_000] {
            let mut area = exact.area().to_vec();
            area.resize(length, 0xA5);
            let before = exact.clone().with_work(&area);
            for (name, call) in calls() {
                let mut left = before.clone();
                let answer = call(layout.number(), &mut left);
                let message = format!("{name}, {layout:?}, {length} bytes");
                if length < size {
                    assert!(answer == refused(20) && left == before, "{message}");
                    let mut left = spoiled(&before);
                    assert!(call(layout.number(), &mut left) == refused(20) && left == spoiled(&before), "{message}");
                    short += 1;
                    continue;
                }
                let mut expected = exact.clone();
                assert_eq!(answer, call(layout.number(), &mut expected), "{message}");
                assert!(answer < 1 << 16 && left.others() == expected.others(), "{message}");
                assert!(left.area()[..size] == *expected.area(), "{message}");
                assert!(left.work[size..] == before.work[size..], "{message}");
                taken += 1;
            }
        }
    }
    // Of twelve lengths eight are too short for the square layout, and four for the half one; six calls.
    assert_eq!((short, taken), ((8 + 4) * 6, (4 + 8) * 6));
}

/// A whole log and a start write all pair bytes, whatever the area held before: zeros, anything, the bytes of a full log,
/// and those of the other layout.
#[test]
fn what_was_in_an_area_has_no_part_in_a_whole_log_or_a_start() {
    for layout in Layout::ALL {
        let size = layout.work_bytes();
        let full = Layout::ALL.map(|of| open_runs(of, 128).work.to_vec());
        let held = full.into_iter().chain([vec![0xA5; size], vec![1; size]]).map(|mut area| {
            area.resize(size, 2);
            area
        });
        let held: Vec<Vec<u8>> = held.collect();
        for (name, call) in OTHER_CALLS {
            let mut expected = small(layout).with_work(&vec![0; size]);
            let answer = call(layout.number(), &mut expected);
            for area in &held {
                let mut left = small(layout).with_work(area);
                assert_eq!(call(layout.number(), &mut left), answer, "{name}, {layout:?}");
                assert!(left == expected, "{name}, {layout:?}");
            }
        }
    }
}

/// Any number but 0 and 1 is refused with 20, at line 0 of a whole log, and changes nothing, whatever else is lent; 0 is
/// the square layout and 1 the half one.
#[test]
fn a_number_that_names_no_layout_is_20() {
    let areas = [vec![0; SQUARE + 3], vec![0; HALF], vec![0xA5; 70_000], Vec::new()];
    for of_layout in Layout::ALL {
        let sound = small(of_layout);
        let others = areas.iter().map(|area| sound.clone().with_work(area));
        let all: Vec<Lent> = others.chain([sound.clone()]).flat_map(|lent| [spoiled(&lent), lent]).collect();
        for (name, call) in calls() {
            let mut taken = sound.clone();
            assert!(call(of_layout.number(), &mut taken) < 1 << 16 && taken != sound, "{name}, {of_layout:?}");
            for number in [2, 3, 4, 7, 127, 128, 255, 256, 257, 65535, 65536, 65537, 1 << 31, (1 << 31) + 1, u32::MAX] {
                for before in &all {
                    let mut left = before.clone();
                    assert_eq!(call(number, &mut left), refused(20), "{name}, {number}, {} bytes", before.work_length);
                    assert!(left == *before, "{name}, {number}, {} bytes", before.work_length);
                }
            }
        }
    }
}
