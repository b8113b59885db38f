//! Times in both layouts of a work area, which take turns: whole logs, one line on a record, and the start of a record.

use crate::checks::{print_numbers, Limit};
use crate::logs::{begins_first, interleaved, Log};
use crate::measure::{in_turns, seconds_of, timed_in_turns};
use crate::rules::two_nodes;
use crate::table::{seconds, short, Number};
use crate::LABELS;
use scene_log::{check_line, check_log_record, start, Check, Layout, LogRefused, Mode};
use scene_log::{RECORD_BYTES, VERDICT_BYTES, WORK_BYTES};
use std::cell::RefCell;
use std::hint::black_box;

/// The time in the half layout, as a multiple of that in the square one.
const HALF_TO_SQUARE: f64 = 1.1;

/// The calls, as the table names them.
const WHOLE_LOG: &str = "whole log";
const BEGIN_LINE: &str = "begin line";
const END_LINE: &str = "end line";
const START: &str = "start";

/// The runs of a short log of which one line is taken.
const FEW: usize = 2;

/// How many starts are timed at once.
const STARTS: usize = 16;

/// The times of one call in both layouts. A line of a log of so many runs is taken on the record of the lines before it.
pub struct Row {
    call: &'static str,
    log: &'static str,
    runs: usize,
    square: f64,
    half: f64,
}

/// The buffers of all calls. Both layouts use the same memory, the half one the front of it.
struct Buffers {
    record: Vec<u8>,
    work: Vec<u8>,
    verdicts: Vec<u8>,
}

impl Buffers {
    fn new() -> RefCell<Buffers> {
        RefCell::new(Buffers {
            record: vec![7; RECORD_BYTES],
            work: vec![7; WORK_BYTES],
            verdicts: vec![7; VERDICT_BYTES],
        })
    }
}

/// Reads a whole log in full: what is answered.
fn read(layout: Layout, rule: &[u8], log: &[u8], buffers: &mut Buffers) -> Result<u16, LogRefused> {
    let work = &mut buffers.work[..layout.work_bytes()];
    check_log_record(layout, Mode::Full, rule, log, &mut buffers.record, work, &mut buffers.verdicts)
}

/// The times of reading a whole log with the two-node rule. The answers, verdicts and records must be the same.
fn whole_log(log: &Log) -> Row {
    let rule = two_nodes().file;
    let [square, half] = Layout::ALL.map(|layout| {
        let mut buffers = Buffers::new().into_inner();
        (read(layout, &rule, &log.bytes, &mut buffers), buffers.record, buffers.verdicts)
    });
    assert!(square.0.map(usize::from) == Ok(2 * log.runs) && square == half, "the layouts differ on {}", log.kind);
    let buffers = Buffers::new();
    let call = |layout: Layout| {
        let _ = black_box(read(layout, &rule, &log.bytes, &mut buffers.borrow_mut()));
    };
    let [square, half] = in_turns([&|| call(Layout::Square), &|| call(Layout::Half)]);
    Row { call: WHOLE_LOG, log: log.kind, runs: log.runs, square, half }
}

/// The times of taking the line with this number, from 0, on the record of the lines before it.
fn one_line(call: &'static str, log: &Log, number: usize) -> Row {
    let rule = two_nodes().file;
    let lines: Vec<&[u8]> = log.bytes.split_inclusive(|byte| *byte == b'\n').collect();
    let (line, before) = (lines[number], lines[..number].concat());
    let checks = Layout::ALL.map(|layout| Check::after_with(layout, Mode::Full, &rule, &before).0);
    let taken = checks.clone().map(|mut check| (check.line(&rule, line), check.record));
    assert!(taken[0].0.is_ok() && taken[0] == taken[1], "the layouts differ on {}", log.kind);
    let buffers = Buffers::new();
    let time = |check: &Check| {
        let Buffers { record, work, .. } = &mut *buffers.borrow_mut();
        let work = &mut work[..check.layout.work_bytes()];
        record.copy_from_slice(&check.record[..]);
        work.copy_from_slice(&check.work);
        seconds_of(|| {
            let _ = black_box(check_line(check.layout, &rule, record, work, line));
        })
    };
    let [square, half] = timed_in_turns([&|| time(&checks[0]), &|| time(&checks[1])]);
    Row { call, log: log.kind, runs: log.runs, square, half }
}

/// The times of starting a record.
fn starting() -> Row {
    let buffers = Buffers::new();
    let starts = |layout: Layout| {
        let Buffers { record, work, .. } = &mut *buffers.borrow_mut();
        for _ in 0..STARTS {
            let started = start(layout, record, &mut work[..layout.work_bytes()]);
            black_box(started).expect("both are long enough");
        }
    };
    let [square, half] = in_turns([&|| starts(Layout::Square), &|| starts(Layout::Half)]);
    Row { call: START, log: "–", runs: 0, square: square / STARTS as f64, half: half / STARTS as f64 }
}

/// Measures and prints all rows, on logs of these sizes. One line is taken on the records of a few runs and of the most.
pub fn measured(title: &str, sizes: &[usize]) -> Vec<Row> {
    println!("\n## {title}\n");
    println!("| Call | Log | Runs | Square | Half | half / square |");
    println!("|---|---|--:|--:|--:|--:|");
    let both = |runs: usize| [interleaved(runs, &LABELS), begins_first(runs, &LABELS)];
    let mut rows = Vec::new();
    let mut add = |row: Row| {
        print_row(&row);
        rows.push(row);
    };
    sizes.iter().flat_map(|runs| both(*runs)).for_each(|log| add(whole_log(&log)));
    for log in [FEW, sizes[sizes.len() - 1]].into_iter().flat_map(both) {
        add(one_line(BEGIN_LINE, &log, last_begin(&log)));
        add(one_line(END_LINE, &log, 2 * log.runs - 1));
    }
    add(starting());
    rows
}

/// The number of the last begin line, from 0.
fn last_begin(log: &Log) -> usize {
    let lines = log.bytes.split(|byte| *byte == b'\n');
    let begins = lines.enumerate().filter(|(_, line)| line.starts_with(b"B"));
    begins.last().expect("a log of some runs").0
}

fn print_row(row: &Row) {
    let Row { call, log, runs, square, half } = row;
    let ratio = short(half / square);
    println!("| {call} | {log} | {runs} | {} | {} | {ratio} |", seconds(*square), seconds(*half));
}

/// Prints a line for each requirement, over all rows. Answers whether none failed.
pub fn print_checks(rows: &[Row]) -> bool {
    let check = |what: &str, calls: &[&str]| {
        let of = rows.iter().filter(|row| calls.contains(&row.call));
        let numbers = of.map(|row| Number { value: row.half / row.square, is_taken: true }).collect();
        print_numbers("layouts", &format!("{what}, half / square"), Limit::AtMost(HALF_TO_SQUARE), numbers, short)
    };
    let passed = [check("whole log", &[WHOLE_LOG]), check("one line", &[BEGIN_LINE, END_LINE]), check("start", &[START])];
    passed.iter().all(|passed| *passed)
}

#[cfg(test)]
mod tests {
    use super::*;

    #[test]
    fn a_layout_that_takes_longer_than_the_limit_fails() {
        let row = |call, half| Row { call, log: "interleaved", runs: 2, square: 1e-6, half };
        let all = |times: [f64; 4]| {
            print_checks(&[
                row(WHOLE_LOG, times[0]),
                row(BEGIN_LINE, times[1]),
                row(END_LINE, times[2]),
                row(START, times[3]),
            ])
        };
        assert!(all([1.09e-6, 0.5e-6, 1.0e-6, 1.05e-6]));
        for slow in 0..4 {
            let mut times = [0.9e-6; 4];
            times[slow] = 1.11e-6;
            assert!(!all(times), "{slow}");
        }
        assert!(print_checks(&[]));
    }

    #[test]
    fn the_last_begin_line_is_found() {
        for runs in [1, 2, 9] {
            assert_eq!(last_begin(&begins_first(runs, &LABELS)), runs - 1);
            let log = interleaved(runs, &LABELS);
            let lines: Vec<&[u8]> = log.bytes.split(|byte| *byte == b'\n').collect();
            assert!(lines[last_begin(&log)].starts_with(b"B"));
            assert!(lines[last_begin(&log) + 1..2 * runs].iter().all(|line| line.starts_with(b"E")));
        }
    }
}
