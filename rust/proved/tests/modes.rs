//! The two modes of reading a whole log: up to the first failure, which is the default, and in full.
//!
//! The calls are made as C has them, with the number of a mode. They are held against the reference on generated cases,
//! against the full mode on the log cut behind its first failing line, and against the calls on one line, which have no
//! mode, on logs that are made by hand.

mod common;
#[path = "common/program.rs"]
mod program;

use common::{bytes_of, first_seed};
use generate::random::Random;
use generate::{case, log_left, Case, LogLeft};
use program::{arguments, empty_folder, printed_by, program};
use reference::typed::rule_file;
use reference::Layout;
use scene_log::{Check, Mode, RECORD_BYTES, TEXT_BYTES, VERDICT_BYTES};
use std::collections::BTreeMap;
use std::fs;
use std::os::unix::ffi::OsStringExt;
use std::os::unix::process::CommandExt;

/// Generated cases, each in both layouts and with three numbers of a mode; and those for the law of the cut log.
const CASES: u64 = 20_000;
const CUT: u64 = 6_000;

/// The numbers of the modes.
const FIRST_FAILURE: u32 = 0;
const FULL: u32 = 1;

/// Other numbers, which count as the default. Those with a 1 in their lowest bit or byte are among them.
const OTHERS: [u32; 12] =
    [2, 3, 5, 127, 255, 256, 257, 65_535, 65_537, 1 << 31, (1 << 31) + 1, u32::MAX];

/// Bytes behind every work area, which no call may change: as many as a square area has.
const GUARD: [u8; 16384] = [0xC3; 16384];

extern "C" {
    fn scene_log_report(
        layout: u32,
        mode: u32,
        rule: *const u8,
        rule_length: usize,
        log: *const u8,
        log_length: usize,
        work: *mut u8,
        work_length: usize,
        verdicts: *mut u8,
        verdicts_length: usize,
        text: *mut u8,
        text_length: usize,
    ) -> u32;
    fn scene_log_check_log(
        layout: u32,
        mode: u32,
        rule: *const u8,
        rule_length: usize,
        log: *const u8,
        log_length: usize,
        work: *mut u8,
        work_length: usize,
        verdicts: *mut u8,
        verdicts_length: usize,
    ) -> u32;
    fn scene_log_check_log_record(
        layout: u32,
        mode: u32,
        rule: *const u8,
        rule_length: usize,
        log: *const u8,
        log_length: usize,
        record: *mut u8,
        record_length: usize,
        work: *mut u8,
        work_length: usize,
        verdicts: *mut u8,
        verdicts_length: usize,
    ) -> u32;
}

/// The buffers that are lent to a call. The guard stands behind the work area.
#[derive(Clone, PartialEq)]
struct Buffers {
    record: Vec<u8>,
    work: Vec<u8>,
    verdicts: Vec<u8>,
    text: Vec<u8>,
}

impl Buffers {
    /// Of the stated lengths, filled with any bytes. Verdict bytes are neither 0 nor 1, so that those written show.
    fn any(random: &mut Random, layout: Layout) -> Buffers {
        Buffers {
            record: random.bytes(RECORD_BYTES + 5),
            work: random.bytes(layout.size() + 5),
            verdicts: (0..VERDICT_BYTES + 5).map(|_| random.between(2, 255) as u8).collect(),
            text: random.bytes(TEXT_BYTES + 5),
        }
    }

    /// Whether one of these is shorter than stated, so that this call is refused with 20.
    fn are_short(&self, call: Call, layout: Layout) -> bool {
        self.work.len() < layout.size()
            || self.verdicts.len() < VERDICT_BYTES
            || (call == Call::Record && self.record.len() < RECORD_BYTES)
            || (call == Call::Report && self.text.len() < TEXT_BYTES)
    }
}

/// The calls on a whole log.
#[derive(Clone, Copy, PartialEq, Eq, PartialOrd, Ord, Debug)]
enum Call {
    Log,
    Record,
    Report,
}

const CALLS: [Call; 3] = [Call::Log, Call::Record, Call::Report];

/// What a call answers, and what it leaves in its buffers.
#[derive(Clone, PartialEq)]
struct Left {
    answer: u32,
    buffers: Buffers,
}

/// Makes a call with these numbers of a layout and a mode.
fn left_by_library(call: Call, [layout, mode]: [u32; 2], rule: &[u8], log: &[u8], buffers: &Buffers) -> Left {
    let Buffers { mut record, work, mut verdicts, mut text } = buffers.clone();
    let mut guarded = [&work[..], &GUARD].concat();
    let (rule_at, rule_length, log_at, log_length) = (rule.as_ptr(), rule.len(), log.as_ptr(), log.len());
    let (work_at, work_length) = (guarded.as_mut_ptr(), work.len());
    let (verdicts_at, verdicts_length) = (verdicts.as_mut_ptr(), verdicts.len());
    // Safe: each pointer comes with the length of its own buffer, or with a smaller one.
    let answer = unsafe {
        match call {
            Call::Log => scene_log_check_log(
                layout,
                mode,
                rule_at,
                rule_length,
                log_at,
                log_length,
                work_at,
                work_length,
                verdicts_at,
                verdicts_length,
            ),
            Call::Record => scene_log_check_log_record(
                layout,
                mode,
                rule_at,
                rule_length,
                log_at,
                log_length,
                record.as_mut_ptr(),
                record.len(),
                work_at,
                work_length,
                verdicts_at,
                verdicts_length,
            ),
            Call::Report => scene_log_report(
                layout,
                mode,
                rule_at,
                rule_length,
                log_at,
                log_length,
                work_at,
                work_length,
                verdicts_at,
                verdicts_length,
                text.as_mut_ptr(),
                text.len(),
            ),
        }
    };
    assert!(guarded[work_length..] == GUARD, "a byte behind the work area is changed");
    guarded.truncate(work_length);
    Left { answer, buffers: Buffers { record, work: guarded, verdicts, text } }
}

/// The number by which a C call names the layout.
fn number_of(layout: Layout) -> u32 {
    match layout {
        Layout::Square => 0,
        Layout::Half => 1,
    }
}

fn write_front(buffer: &mut [u8], bytes: &[u8]) {
    buffer[..bytes.len()].copy_from_slice(bytes);
}

// ---- generated cases

/// What the reference makes of a call. The case has the work area and the verdict bytes of the buffers.
fn left_by_reference(call: Call, case: &Case, log: &LogLeft, buffers: &Buffers) -> Left {
    let mut left = Left { answer: 20 << 16, buffers: buffers.clone() };
    if buffers.are_short(call, case.layout) {
        return left;
    }
    let LogLeft { report, answer, work, verdicts } = log;
    left.buffers.work = work.clone();
    left.buffers.verdicts = verdicts.clone();
    left.answer = match (call, answer.refusal) {
        (Call::Report, _) => report.len() as u32,
        (_, None) => answer.record.lines as u32,
        (_, Some((number, line))) => (u32::from(number) << 16) + line as u32,
    };
    if call == Call::Report {
        write_front(&mut left.buffers.text, report);
    } else if call == Call::Record && !matches!(answer.refusal, Some((_, 0))) {
        write_front(&mut left.buffers.record, &bytes_of(&answer.record));
    }
    left
}

/// Now and then a buffer is too short.
fn lent_length(random: &mut Random, stated: usize) -> usize {
    match random.below(40) {
        0 => *random.pick(&[0, 1, stated / 2, stated - 1]),
        1..=10 => stated + random.below(40),
        _ => stated,
    }
}

/// The case of a seed with buffers that are filled with any bytes; its own may be too short too.
fn case_and_buffers(random: &mut Random, layout: Layout, seed: u64) -> (Case, Buffers) {
    let mut case = case(layout, seed);
    case.log_work = random.bytes(case.log_work.len());
    case.verdicts = random.bytes(case.verdicts.len());
    let (record, text) = (lent_length(random, RECORD_BYTES), lent_length(random, TEXT_BYTES));
    let buffers = Buffers {
        record: random.bytes(record),
        work: case.log_work.clone(),
        verdicts: case.verdicts.clone(),
        text: random.bytes(text),
    };
    (case, buffers)
}

fn described(case: &Case) -> String {
    let rule: String = case.rule.iter().map(|byte| format!("{byte:02x}")).collect();
    format!("seed {}, {:?}\nrule {rule}\nlog {}", case.seed, case.layout, case.log.escape_ascii())
}

/// How the modes differ in the cases that are read.
#[derive(Default)]
struct Seen {
    read: u64,
    differ: u64,
    /// By refusal: how many logs have one behind the first failure, and how many have one before any.
    behind: BTreeMap<u8, u64>,
    before: BTreeMap<u8, u64>,
    answered: BTreeMap<(u32, Call, u32), u64>,
}

impl Seen {
    fn add(&mut self, first: &LogLeft, full: &LogLeft) {
        let refusal = |left: &LogLeft| left.answer.refusal.map(|(number, _)| number);
        // The report of the reference is that of the program, which has no buffer that can be too short.
        let is_read = !matches!(full.answer.refusal, Some((_, 0)));
        self.read += u64::from(is_read);
        self.differ += u64::from(is_read && first != full);
        match (refusal(first), refusal(full)) {
            (None, Some(number)) => *self.behind.entry(number).or_default() += 1,
            (Some(number), _) => *self.before.entry(number).or_default() += 1,
            (None, None) => {}
        }
    }
}

/// Answer, record, work area, verdict bytes and text, in both layouts: of number 0, of number 1, and of any other.
#[test]
fn library_and_reference_agree_in_both_modes() {
    let mut seen = Seen::default();
    for (seed, layout) in (0..CASES).flat_map(|seed| Layout::ALL.map(|layout| (first_seed() + seed, layout))) {
        let random = &mut Random::new(!seed);
        let (case, buffers) = case_and_buffers(random, layout, seed);
        let [first, full] = reference::Mode::ALL.map(|mode| log_left(&case, mode));
        seen.add(&first, &full);
        let other = if random.chance(1, 4) { (random.number() as u32).max(2) } else { *random.pick(&OTHERS) };
        for (number, log) in [(FIRST_FAILURE, &first), (FULL, &full), (other, &first)] {
            for call in CALLS {
                let expected = left_by_reference(call, &case, log, &buffers);
                let left = left_by_library(call, [number_of(layout), number], &case.rule, &case.log, &buffers);
                assert_eq!(left.answer, expected.answer, "{call:?}, mode {number}, {}", described(&case));
                assert!(left == expected, "{call:?}, mode {number}, {}", described(&case));
                *seen.answered.entry((number.min(2), call, left.answer >> 16)).or_default() += 1;
            }
        }
    }
    println!("{} of {} cases read, {} differ", seen.read, 2 * CASES, seen.differ);
    println!("refused behind the first failure {:?}\nrefused before it {:?}", seen.behind, seen.before);
    assert!(seen.differ * 2 >= seen.read && seen.read >= CASES);
    let lines = [11, 12, 13, 15, 16, 17, 18, 19];
    assert!(lines.iter().all(|number| seen.behind[number] >= 100 && seen.before[number] >= 20));
    // Every refusal is answered in each mode and by each call; the report prints all but 20.
    for (mode, call) in (0..3).flat_map(|mode| CALLS.map(|call| (mode, call))) {
        let met = seen.answered.keys().filter(|(of, by, _)| (*of, *by) == (mode, call)).map(|(_, _, number)| *number);
        let all: Vec<u32> = (0..=10).chain(lines.map(u32::from)).chain([20]).collect();
        let expected = if call == Call::Report { vec![0, 20] } else { all };
        assert_eq!(met.collect::<Vec<u32>>(), expected, "mode {mode}, {call:?}");
    }
}

/// How many bytes these lines at the front of a log have.
fn length_of(log: &[u8], lines: usize) -> usize {
    log.split_inclusive(|byte| *byte == b'\n').take(lines).map(<[u8]>::len).sum()
}

/// The log through its first line with which the rule fails in full; the whole log where none does.
fn cut<'a>(layout: Layout, rule: &[u8], log: &'a [u8]) -> &'a [u8] {
    let buffers = Buffers::any(&mut Random::new(1), layout);
    let full = left_by_library(Call::Log, [number_of(layout), FULL], rule, log, &buffers);
    let failing = full.buffers.verdicts[..VERDICT_BYTES].iter().position(|byte| *byte == 0);
    failing.map_or(log, |before| &log[..length_of(log, before + 1)])
}

/// In everything: answer, record, work area, verdict bytes and text.
#[test]
fn the_default_is_the_full_mode_on_the_log_cut_behind_its_first_failing_line() {
    let (mut shorter, mut whole) = (0, 0);
    for (seed, layout) in (0..CUT).flat_map(|seed| Layout::ALL.map(|layout| (first_seed() + CASES + seed, layout))) {
        let random = &mut Random::new(!seed);
        let (case, buffers) = case_and_buffers(random, layout, seed);
        let cut = cut(layout, &case.rule, &case.log);
        let numbers = [FIRST_FAILURE, 2, u32::MAX];
        for (call, number) in CALLS.into_iter().flat_map(|call| numbers.map(|number| (call, number))) {
            let left = left_by_library(call, [number_of(layout), number], &case.rule, &case.log, &buffers);
            let expected = left_by_library(call, [number_of(layout), FULL], &case.rule, cut, &buffers);
            assert!(left == expected, "{call:?}, mode {number}, {}", described(&case));
            // Nothing behind the cut has a part, and nothing more is to be cut.
            let again = left_by_library(call, [number_of(layout), number], &case.rule, cut, &buffers);
            assert!(again == expected, "{call:?}, mode {number}, {}", described(&case));
        }
        if cut.len() < case.log.len() { shorter += 1 } else { whole += 1 }
    }
    println!("{shorter} logs are cut, {whole} are not");
    assert!(shorter >= CUT / 2 && whole >= CUT / 4);
}

// ---- logs that are made by hand

/// No run with the label LAST has finished; it fails from the end line of such a run on.
fn none_last() -> Vec<u8> {
    rule_file(b"!exist A . A('LAST')").unwrap()
}

/// Some run has finished; it fails of no runs.
fn some_run() -> Vec<u8> {
    rule_file(b"exist A . same(A,A) | !same(A,A)").unwrap()
}

/// The lines that are taken one by one, on a check that starts in this layout: it, and the verdict of each; up to a
/// refused line and its refusal, and up to the first failure unless it is in full.
fn line_by_line(layout: Layout, is_full: bool, rule: &[u8], log: &[u8]) -> (Check, Vec<u8>, Option<u8>) {
    let layout = if layout == Layout::Square { scene_log::Layout::Square } else { scene_log::Layout::Half };
    let mut check = Check::with_layout(layout);
    let mut verdicts = Vec::new();
    for line in log.split_inclusive(|byte| *byte == b'\n') {
        match check.line(rule, line) {
            Err(refusal) => return (check, verdicts, Some(refusal.number())),
            Ok(verdict) => verdicts.push(u8::from(verdict.holds())),
        }
        if !is_full && verdicts.last() == Some(&0) {
            break;
        }
    }
    (check, verdicts, None)
}

/// What is printed of lines with these verdicts at the front of a log, and of a refusal behind them.
fn printed_of(log: &[u8], verdicts: &[u8], refusal: Option<u8>) -> Vec<u8> {
    let printed = |(line, verdict): (usize, &u8)| format!("{line} {}\n", if *verdict == 1 { 'H' } else { 'F' });
    let mut text: String = (1..).zip(verdicts).map(printed).collect();
    if let Some(number) = refusal {
        text += &format!("{} R{number}\n", verdicts.len() + 1);
    }
    let read = log.split(|byte| *byte == b'\n').take(verdicts.len());
    let begun = read.filter(|line| line.starts_with(b"B")).count();
    let finished = verdicts.len() - begun;
    let failing = verdicts.iter().filter(|verdict| **verdict == 0).count();
    text += &format!("T {} {begun} {finished} {} {failing}\n", verdicts.len(), begun - finished);
    text.into_bytes()
}

/// Holds all calls in all modes and layouts, and the program, against the calls on one line. Answers how many lines are
/// taken in the default and in full, with the refusal behind them.
fn hold(rule: &[u8], log: &[u8]) -> [(usize, Option<u8>); 2] {
    [false, true].map(|is_full| {
        let (_, verdicts, refusal) = line_by_line(Layout::Square, is_full, rule, log);
        hold_program(is_full, rule, log, &printed_of(log, &verdicts, refusal));
        for layout in Layout::ALL {
            hold_calls(layout, is_full, rule, log);
        }
        (verdicts.len(), refusal)
    })
}

/// All calls in this layout, with each number of this mode.
fn hold_calls(layout: Layout, is_full: bool, rule: &[u8], log: &[u8]) {
    let buffers = Buffers::any(&mut Random::new(log.len() as u64), layout);
    let (check, verdicts, refusal) = line_by_line(layout, is_full, rule, log);
    let lines = verdicts.len();
    let text = printed_of(log, &verdicts, refusal);
    let numbers = if is_full { vec![FULL] } else { [&[FIRST_FAILURE][..], &OTHERS].concat() };
    for (call, number) in CALLS.into_iter().flat_map(|call| numbers.iter().map(move |number| (call, *number))) {
        let mut expected = buffers.clone();
        write_front(&mut expected.work, &check.work);
        write_front(&mut expected.verdicts, &verdicts);
        let mut answer = refusal.map_or(lines, |number| (usize::from(number) << 16) + lines + 1);
        match call {
            Call::Log => {}
            Call::Record => write_front(&mut expected.record, &check.record[..]),
            Call::Report => {
                write_front(&mut expected.text, &text);
                answer = text.len();
            }
        }
        let left = left_by_library(call, [number_of(layout), number], rule, log, &buffers);
        let message = || format!("{call:?}, {layout:?}, mode {number}, log {}", log.escape_ascii());
        assert_eq!(left.answer as usize, answer, "{}", message());
        assert!(left.buffers == expected, "{}", message());
    }
}

/// The program prints this with some of the arguments of either mode.
fn hold_program(is_full: bool, rule: &[u8], log: &[u8], text: &[u8]) {
    let folder = empty_folder("modes_by_hand");
    fs::write(folder.join("rule.rul"), rule).unwrap();
    let mode = if is_full { reference::Mode::Full } else { reference::Mode::FirstFailure };
    for words in arguments(mode).iter().step_by(4) {
        let printed = printed_by(program(&folder, words), log, log.len());
        assert!(printed == text, "the program with {words:?} on log {}", log.escape_ascii());
    }
    fs::remove_dir_all(&folder).unwrap();
}

/// So many runs that begin, of which the first has the label LAST and the next ones labels of their own.
fn begins(runs: usize, labels: usize) -> String {
    let label = |run: usize| match run {
        1 => " LAST".into(),
        run if run <= labels => format!(" L{run}"),
        _ => String::new(),
    };
    (1..=runs).map(|run| format!("B {run}{}\n", label(run))).collect()
}

/// Each line refusal right behind the line that fails, which is the end of run 1, and one line further on; and bytes
/// without LF, few and many. In full the line is refused.
#[test]
fn a_line_behind_the_first_failure_meets_no_refusal() {
    let long = "B 9 ".to_string() + &"A".repeat(36) + "\n";
    for (runs, labels, line, number) in [
        (3, 1, "X\n", 11),
        (3, 1, "\n", 11),
        (3, 1, &long, 11),
        (3, 1, "B 9", 11),
        (3, 1, "B", 11),
        (3, 1, &"B".repeat(40), 11),
        (3, 1, &"B".repeat(20_000), 11),
        (3, 1, "B 0\n", 12),
        (3, 1, "E 65536\n", 12),
        (3, 1, "B 9 te-st\n", 13),
        (3, 1, "B 2\n", 15),
        (3, 1, "E 9\n", 16),
        (3, 1, "E 1\n", 17),
        (128, 1, "B 200\n", 18),
        (128, 64, "B 1 NEW\n", 18),
        (64, 64, "B 200 NEW\n", 19),
    ] {
        let failing = begins(runs, labels) + "E 1\n";
        let first = (runs + 1, None);
        let refused = (runs + 1, Some(number));
        assert_eq!(hold(&none_last(), (failing.clone() + line).as_bytes()), [first, refused], "{line:?}");
        // A line that is accepted stands between the two.
        let later = failing.clone() + "E 3\n" + line;
        assert_eq!(hold(&none_last(), later.as_bytes()), [first, (runs + 2, Some(number))], "{line:?}");
        let more = failing + line + "B 300\nE 300\n";
        assert_eq!(hold(&none_last(), more.as_bytes())[0], first, "{line:?}");
    }
    // In full a label in small letters is taken.
    let log = begins(3, 1) + "E 1\nB 9 test\n";
    assert_eq!(hold(&none_last(), log.as_bytes()), [(4, None), (5, None)]);
}

/// The line that is refused is met, whatever the next ones would do.
#[test]
fn a_refusal_before_the_first_failure_is_met_in_either_mode() {
    for (line, number) in [("X\n", 11), ("B 0\n", 12), ("B 9 x-\n", 13), ("B 2\n", 15), ("E 9\n", 16)] {
        let log = begins(3, 1) + line + "E 1\nE 2\n";
        assert_eq!(hold(&none_last(), log.as_bytes()), [(3, Some(number)); 2], "{line:?}");
    }
    let log = begins(3, 1) + "B 9 x\nE 1\nE 2\n";
    assert_eq!(hold(&none_last(), log.as_bytes()), [(5, None), (6, None)]);
    let log = begins(3, 1) + "E 2\nE 2\nE 1\n";
    assert_eq!(hold(&none_last(), log.as_bytes()), [(4, Some(17)); 2]);
    let log = begins(128, 1) + "B 200\nE 1\n";
    assert_eq!(hold(&none_last(), log.as_bytes()), [(128, Some(18)); 2]);
    let log = begins(64, 64) + "B 200 NEW\nE 1\n";
    assert_eq!(hold(&none_last(), log.as_bytes()), [(64, Some(19)); 2]);
    // The line that would fail is itself refused.
    assert_eq!(hold(&none_last(), b"B 1 LAST\nE 1"), [(1, Some(11)); 2]);
    assert_eq!(hold(&some_run(), b"E 1\nB 1\n"), [(0, Some(16)); 2]);
    assert_eq!(hold(&some_run(), b"B 1"), [(0, Some(11)); 2]);
}

/// A log of 128 runs one after another, of which this one, from 1, has the label LAST.
fn one_after_another(last: usize) -> String {
    let label = |run: usize| if run == last { " LAST" } else { "" };
    (1..=128).map(|run| format!("B {run}{}\nE {run}\n", label(run))).collect()
}

/// The first failure at line 1, at every second line to the last one, at a begin line; and what is behind it is as much
/// as can be.
#[test]
fn a_log_is_read_through_its_first_failing_line_wherever_that_is() {
    for run in 1..=128 {
        let log = one_after_another(run);
        assert_eq!(hold(&none_last(), log.as_bytes()), [(2 * run, None), (256, None)], "run {run}");
        let refused = log + "B 1\n";
        assert_eq!(hold(&none_last(), refused.as_bytes()), [(2 * run, None), (256, Some(18))], "run {run}");
    }
    // Line 1 is a begin line, and fails since no run has finished. The rule holds from line 2 on.
    assert_eq!(hold(&some_run(), b"B 1\n"), [(1, None); 2]);
    assert_eq!(hold(&some_run(), b"B 1\nE 1\nB 1\n"), [(1, None), (3, None)]);
    assert_eq!(hold(&some_run(), (one_after_another(1) + "E 1\n").as_bytes()), [(1, None), (256, Some(17))]);
    // All begins come first, so line 256 ends the run that breaks the rule.
    let ends: String = (1..=128).rev().map(|run| format!("E {run}\n")).collect();
    let log = begins(128, 64) + &ends;
    assert_eq!(hold(&none_last(), log.as_bytes()), [(256, None); 2]);
    assert_eq!(hold(&none_last(), (log.clone() + "X").as_bytes()), [(256, None), (256, Some(11))]);
    assert_eq!(hold(&none_last(), (log + "E 1\n").as_bytes()), [(256, None), (256, Some(17))]);
    // A verdict that comes back: the first F counts, and not the last.
    let comes_back = rule_file(b"!exist A . A('LAST') & !exist B . A < B").unwrap();
    assert_eq!(hold(&comes_back, b"B 1 LAST\nE 1\nB 2\nE 2\nB 1 LAST\nE 1\n"), [(2, None), (6, None)]);
}

/// More bytes than 256 lines have, of lines that are accepted for a while, and more than the program reads.
#[test]
fn bytes_without_end_behind_the_first_failure_have_no_part() {
    for behind in ["B 9\nE 9\n".repeat(9_000), "E 2\n".repeat(20_000), "X".repeat(70_000), "\n".repeat(9_000)] {
        let log = begins(2, 1) + "E 1\n" + &behind;
        let [first, (_, refusal)] = hold(&none_last(), log.as_bytes());
        assert_eq!((first, refusal.is_some()), ((3, None), true));
    }
}

/// No line fails: all is the same in either mode.
#[test]
fn a_log_without_a_failing_line_is_read_to_its_end_in_either_mode() {
    let none = one_after_another(0);
    for (log, lines, refusal) in [
        (String::new(), 0, None),
        ("B 1\nE 1\n".into(), 2, None),
        ("B 1\nE 1\nE 1\n".into(), 2, Some(17)),
        (begins(128, 64), 128, None),
        (none.clone(), 256, None),
        (none + "B 1", 256, Some(11)),
    ] {
        assert_eq!(hold(&none_last(), log.as_bytes()), [(lines, refusal); 2], "{log:?}");
    }
}

/// Short buffers, layouts that are none and rules that are refused: the same in all modes, in the same order, and no
/// buffer is touched. The log fails at its first line.
#[test]
fn refusals_before_any_line_is_read_are_the_same_in_every_mode() {
    let log = b"B 1\nX\n";
    let rules: [(&[u8], u32); 3] = [(&some_run(), 0), (b"", 1), (b"RUX", 2)];
    let numbers = [FIRST_FAILURE, FULL, 2, u32::MAX];
    for (layout, number) in Layout::ALL.into_iter().flat_map(|layout| numbers.map(|number| (layout, number))) {
        let sound = Buffers::any(&mut Random::new(7), layout);
        let short = |shorten: fn(&mut Buffers, Layout)| {
            let mut buffers = sound.clone();
            shorten(&mut buffers, layout);
            buffers
        };
        let all = [
            sound.clone(),
            short(|buffers, layout| buffers.work.truncate(layout.size() - 1)),
            short(|buffers, _| buffers.verdicts.truncate(VERDICT_BYTES - 1)),
            short(|buffers, _| buffers.record.truncate(RECORD_BYTES - 1)),
            short(|buffers, _| buffers.text.truncate(TEXT_BYTES - 1)),
        ];
        for ((rule, refusal), buffers) in rules.iter().flat_map(|rule| all.iter().map(move |buffers| (rule, buffers))) {
            for call in CALLS {
                let left = left_by_library(call, [number_of(layout), number], rule, log, buffers);
                let message = format!("{call:?}, {layout:?}, mode {number}, rule {}", rule.escape_ascii());
                if buffers.are_short(call, layout) {
                    assert!(left.answer == 20 << 16 && left.buffers == *buffers, "{message}");
                } else if *refusal != 0 && call == Call::Report {
                    assert_eq!(&left.buffers.text[..left.answer as usize], format!("0 R{refusal}\n").as_bytes());
                    let Buffers { work, verdicts, .. } = &left.buffers;
                    assert!((work, verdicts) == (&buffers.work, &buffers.verdicts), "{message}");
                } else if *refusal != 0 {
                    assert!(left.answer == refusal << 16 && left.buffers == *buffers, "{message}");
                } else {
                    assert!(left.answer != 20 << 16 && left.buffers != *buffers, "{message}");
                }
                for unknown in [2, 3, 255, 256, 65536, u32::MAX] {
                    let left = left_by_library(call, [unknown, number], rule, log, buffers);
                    assert!(left.answer == 20 << 16 && left.buffers == *buffers, "layout {unknown}, {message}");
                }
            }
        }
    }
}

#[test]
fn the_modes_have_their_numbers_and_the_first_failure_is_the_default() {
    assert_eq!(Mode::ALL.map(Mode::number), [FIRST_FAILURE, FULL]);
    assert_eq!(Mode::default(), Mode::FirstFailure);
    let (rule, log) = (none_last(), b"B 1 LAST\nE 1\nB 2\n");
    let after = |lines: usize| line_by_line(Layout::Square, true, &rule, &log[..length_of(log, lines)]).0;
    assert!(Check::after(&rule, log) == (after(2), Ok(2)));
    assert!(Check::after_with_mode(Mode::FirstFailure, &rule, log) == (after(2), Ok(2)));
    assert!(Check::after_with_mode(Mode::Full, &rule, log) == (after(3), Ok(3)));
    for layout in scene_log::Layout::ALL {
        let default = Check::after_with_layout(layout, &rule, log);
        assert!(default == Check::after_with(layout, Mode::FirstFailure, &rule, log) && default.1 == Ok(2));
        assert_eq!(Check::after_with(layout, Mode::Full, &rule, log).1, Ok(3));
        assert_eq!(default.0.layout, layout);
    }
}

/// A check that has stopped at the first failure goes on with the lines behind it.
#[test]
fn the_lines_behind_the_first_failure_can_be_taken_one_by_one() {
    let (rule, log) = (none_last(), b"B 1 LAST\nB 2\nE 1\nB 3\nE 3\nE 2\n");
    for layout in scene_log::Layout::ALL {
        let (mut check, lines) = Check::after_with_layout(layout, &rule, log);
        assert_eq!(lines, Ok(3));
        for line in log[length_of(log, 3)..].split_inclusive(|byte| *byte == b'\n') {
            assert!(!check.line(&rule, line).unwrap().holds());
        }
        assert!(check == Check::after_with(layout, Mode::Full, &rule, log).0);
    }
}

// ---- the program

/// P10's rule and log: "P10 names the full mode."
#[test]
fn p10_is_printed_in_full() {
    let rule = rule_file(b"exist A . same(A,A)").unwrap();
    let folder = empty_folder("p10");
    fs::write(folder.join("rule.rul"), rule).unwrap();
    let printed = |words: &[&str]| {
        let words: Vec<String> = words.iter().map(|word| word.to_string()).collect();
        String::from_utf8(printed_by(program(&folder, &words), b"B 1\nE 1\n", 100)).unwrap()
    };
    assert_eq!(printed(&["full"]), "1 F\n2 F\nT 2 1 1 0 2\n");
    assert_eq!(printed(&[]), "1 F\nT 1 1 0 1 1\n");
    fs::remove_dir_all(&folder).unwrap();
}

/// All arguments of either mode; very long ones; one that is not text; and `full` as the name under which the program
/// is started, which is no argument.
#[test]
fn full_as_the_first_argument_alone_names_the_full_mode() {
    let (rule, log) = (none_last(), b"B 1 LAST\nE 1\nB 2\nX\n");
    let first = b"1 H\n2 F\nT 2 1 1 0 1\n";
    let full = b"1 H\n2 F\n3 F\n4 R11\nT 3 2 1 1 2\n";
    let folder = empty_folder("arguments");
    fs::write(folder.join("rule.rul"), rule).unwrap();
    for words in arguments(reference::Mode::FirstFailure) {
        assert_eq!(printed_by(program(&folder, &words), log, 100), first, "{words:?}");
    }
    for words in arguments(reference::Mode::Full) {
        assert_eq!(printed_by(program(&folder, &words), log, 100), full, "{words:?}");
    }
    // A single argument has less than 128 KiB.
    for long in ["full".repeat(32_000), format!("full{}", " ".repeat(120_000)), "x".repeat(131_000)] {
        let after_full = ["full".into(), long.clone()];
        assert_eq!(printed_by(program(&folder, &[long]), log, 100), first);
        assert_eq!(printed_by(program(&folder, &after_full), log, 100), full);
    }
    let many: Vec<String> = vec!["full".into(); 20_000];
    assert_eq!(printed_by(program(&folder, &many), log, 100), full);
    let mut not_text = program(&folder, &[]);
    not_text.arg(std::ffi::OsString::from_vec(b"full\xff".to_vec()));
    assert_eq!(printed_by(not_text, log, 100), first);
    for (name, words, expected) in [("full", &[][..], &first[..]), ("full", &["full".into()], full), ("", &[], first)] {
        let mut command = program(&folder, words);
        command.arg0(name);
        assert_eq!(printed_by(command, log, 100), expected, "started as {name:?} with {words:?}");
    }
    fs::remove_dir_all(&folder).unwrap();
}
