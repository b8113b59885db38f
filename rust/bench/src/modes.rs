//! Times of both modes of reading a whole log, in turns: up to the first failure beside what that must cost, which is
//! judging in full the lines through it and reading the log once; and on logs that never fail.

use crate::checks::{print_numbers, Limit};
use crate::logs::{figure_1_carried_on, interleaved, kept, last_carried_on, section_3_carried_on, Log, MAX_RUNS};
use crate::measure::in_turns;
use crate::rules::{
    figure_1, no_last, section_3, two_nodes, worst_nots_and_no_last, worst_nots_and_some_run, Case,
};
use crate::table::{seconds, short, Number};
use crate::LABELS;
use scene_log::{check_log_record, Layout, LogRefused, Mode, RECORD_BYTES, VERDICT_BYTES, WORK_BYTES};
use std::cell::RefCell;
use std::hint::black_box;

/// The time up to the first failure, as a multiple of the time that it may take: 1.3 times the full mode on the lines
/// through the failing one, and one reading of the whole log.
const TO_ALLOWED: f64 = 1.0;
const TO_FULL: f64 = 1.3;

/// What was measured of a log that fails.
pub struct Failing {
    rule: String,
    log: &'static str,
    runs: usize,
    /// The number of the first line with which the rule fails.
    line: usize,
    first: f64,
    /// The full mode on the lines through that one, and the full mode with the two-node rule on the whole log.
    cut: f64,
    reading: f64,
}

impl Failing {
    fn to_allowed(&self) -> f64 {
        self.first / (TO_FULL * self.cut + self.reading)
    }

    fn print(&self) {
        let cells = [
            self.rule.clone(),
            self.log.into(),
            self.line.to_string(),
            seconds(self.first),
            seconds(self.cut),
            seconds(self.reading),
            short(self.to_allowed()),
        ];
        println!("| {} |", cells.join(" | "));
    }
}

/// What was measured of a log that never fails, by default and in full.
pub struct Kept {
    rule: String,
    log: &'static str,
    runs: usize,
    first: f64,
    full: f64,
}

impl Kept {
    fn to_full(&self) -> f64 {
        self.first / self.full
    }

    fn print(&self) {
        let Kept { rule, log, first, full, .. } = self;
        println!("| {rule} | {log} | {} | {} | {} |", seconds(*first), seconds(*full), short(self.to_full()));
    }
}

#[derive(Default)]
pub struct Rows {
    failing: Vec<Failing>,
    kept: Vec<Kept>,
}

/// The buffers of all calls.
#[derive(Clone, PartialEq)]
struct Buffers {
    record: Vec<u8>,
    work: Vec<u8>,
    verdicts: Vec<u8>,
}

impl Buffers {
    fn new() -> Buffers {
        Buffers { record: vec![7; RECORD_BYTES], work: vec![7; WORK_BYTES], verdicts: vec![7; VERDICT_BYTES] }
    }

    fn read(&mut self, mode: Mode, rule: &[u8], log: &[u8]) -> Result<u16, LogRefused> {
        check_log_record(Layout::Square, mode, rule, log, &mut self.record, &mut self.work, &mut self.verdicts)
    }
}

/// How many lines are taken, and what is left in new buffers.
fn left(mode: Mode, rule: &[u8], log: &[u8]) -> (usize, Buffers) {
    let mut buffers = Buffers::new();
    let lines = buffers.read(mode, rule, log).expect("accepted lines");
    (lines.into(), buffers)
}

/// The front of the log with so many lines.
fn front(log: &[u8], lines: usize) -> &[u8] {
    let length = log.split_inclusive(|byte| *byte == b'\n').take(lines).map(<[u8]>::len).sum();
    &log[..length]
}

/// Measures a log whose first failing line has this number. Both calls must take the lines through it, with
/// verdicts that hold before it and fail there, and leave the same record and work area.
fn failing(rule: &Case, log: &Log, line: usize) -> Failing {
    let (file, bytes, two_nodes) = (&rule.file, &log.bytes, two_nodes().file);
    let cut = front(bytes, line);
    let found = left(Mode::FirstFailure, file, bytes);
    assert!(found == left(Mode::Full, file, cut), "the modes differ on {}, line {line}", rule.name);
    let verdicts = [&vec![1; line - 1][..], &[0]].concat();
    assert!((found.0, &found.1.verdicts[..line]) == (line, &verdicts), "{} first fails at line {line}", rule.name);
    assert_eq!(left(Mode::Full, &two_nodes, bytes).0, 2 * log.runs, "every line is accepted");
    // All write to the same memory.
    let buffers = RefCell::new(Buffers::new());
    let call = |mode: Mode, rule: &[u8], log: &[u8]| {
        let _ = black_box(buffers.borrow_mut().read(mode, rule, log));
    };
    let [first, cut, reading] = in_turns([
        &|| call(Mode::FirstFailure, file, bytes),
        &|| call(Mode::Full, file, cut),
        &|| call(Mode::Full, &two_nodes, bytes),
    ]);
    Failing { rule: rule.name.clone(), log: log.kind, runs: log.runs, line, first, cut, reading }
}

/// Measures a log on which the rule holds throughout. Both modes must leave the same.
fn never_failing(rule: &Case, log: &Log) -> Kept {
    let [found, in_full] = Mode::ALL.map(|mode| left(mode, &rule.file, &log.bytes));
    assert!(found == in_full && found.0 == 2 * log.runs, "the modes differ on {}, {}", rule.name, log.kind);
    assert!(found.1.verdicts[..found.0].iter().all(|verdict| *verdict == 1), "{} holds throughout", rule.name);
    let buffers = RefCell::new(Buffers::new());
    let call = |mode: Mode| {
        let _ = black_box(buffers.borrow_mut().read(mode, &rule.file, &log.bytes));
    };
    let [first, full] = in_turns([&|| call(Mode::FirstFailure), &|| call(Mode::Full)]);
    Kept { rule: rule.name.clone(), log: log.kind, runs: log.runs, first, full }
}

/// The numbers of the lines that fail first, in logs of so many runs: the second, a quarter on, half way, the last.
fn failing_lines(runs: usize) -> [usize; 4] {
    [2, runs / 2, runs, 2 * runs]
}

/// The proved search goes by 1, 4, 16, 32, 64 and 128 runs. These lines end the run behind such a part, where the search
/// costs most beside the lines through them; the lines above end the last run of one.
fn lines_behind_a_part(runs: usize) -> impl Iterator<Item = usize> {
    [10, 34, 66, 130].into_iter().filter(move |line| *line <= 2 * runs)
}

/// The rules with their logs of so many runs that first fail at each of these lines. Two runs at least are needed to
/// break a property of the paper, so none has a log that fails at line 2, which is the end line of the only run. A rule
/// that asks for a run fails with line 1.
fn broken_logs(runs: usize) -> Vec<(Case, Log, usize)> {
    let asking = [two_nodes(), worst_nots_and_some_run()];
    let mut all = Vec::from(asking.map(|rule| (rule, interleaved(runs, &["ONE"]), 1)));
    for line in failing_lines(runs).into_iter().chain(lines_behind_a_part(runs)) {
        if line > 2 {
            for property in 1..=4 {
                all.push((figure_1(property), figure_1_carried_on(property, line / 2, runs), line));
                all.push((section_3(property), section_3_carried_on(property, line / 2, runs), line));
            }
        }
        for rule in [no_last(), worst_nots_and_no_last()] {
            all.push((rule, last_carried_on(line / 2, runs, &LABELS), line));
        }
    }
    all.sort_by(|one, other| (&one.0.name, one.2).cmp(&(&other.0.name, other.2)));
    all
}

/// Rules with logs of so many runs on which they never fail. Runs without labels keep property 1 of section 3; its
/// other properties are left out, which runs with any labels break. No run of the last log has the label LAST.
fn kept_logs(runs: usize) -> Vec<(Case, Log)> {
    let mut all: Vec<(Case, Log)> = (1..=4).map(|property| (figure_1(property), kept(property, runs))).collect();
    all.push((section_3(1), interleaved(runs, &[""])));
    for rule in [no_last(), worst_nots_and_no_last()] {
        all.push((rule, interleaved(runs, &LABELS)));
    }
    all
}

/// Measures and prints all rows, on logs of so many runs.
pub fn measured(title: &str, runs: usize) -> Rows {
    println!("\n## {title}\n");
    println!("Logs of {} lines: read by default, up to the first failure (D); the lines through that one in", 2 * runs);
    println!("full (K); all lines in full with the two-node rule (R).\n");
    println!("| Rule | Log | First failure | D | K | R | D / ({TO_FULL} K + R) |");
    println!("|---|---|--:|--:|--:|--:|--:|");
    let mut rows = Rows::default();
    for (rule, log, line) in broken_logs(runs) {
        let row = failing(&rule, &log, line);
        row.print();
        rows.failing.push(row);
    }
    println!("\nLogs that never fail.\n");
    println!("| Rule | Log | Default | In full | default / full |");
    println!("|---|---|--:|--:|--:|");
    for (rule, log) in kept_logs(runs) {
        let row = never_failing(&rule, &log);
        row.print();
        rows.kept.push(row);
    }
    rows
}

impl Rows {
    /// Prints a line for each requirement, over the rows of full logs. Answers whether none failed.
    pub fn print_checks(&self) -> bool {
        let full = |behind: bool| {
            let is_behind = move |row: &&Failing| lines_behind_a_part(row.runs).any(|line| line == row.line) == behind;
            self.failing.iter().filter(|row| row.runs == MAX_RUNS).filter(is_behind)
        };
        let check = |rules: &str| {
            let of = full(false).filter(|row| row.rule.starts_with(rules));
            let numbers = of.map(|row| Number { value: row.to_allowed(), is_taken: true }).collect();
            let what = format!("default / ({TO_FULL} × full to the failure + reading)");
            print_numbers(&format!("modes, {rules}"), &what, Limit::AtMost(TO_ALLOWED), numbers, short)
        };
        let passed = ["figure 1", "section 3", "two nodes", "no LAST", "worst"].map(check);
        let numbers = full(true).map(|row| Number { value: row.to_allowed(), is_taken: true }).collect();
        print_numbers("modes", "behind a part of the search, the same", Limit::NoneUp, numbers, short);
        let kept = self.kept.iter().filter(|row| row.runs == MAX_RUNS);
        let numbers = kept.map(|row| Number { value: row.to_full(), is_taken: true }).collect();
        print_numbers("modes", "logs that never fail, default / full", Limit::NoneUp, numbers, short);
        passed.iter().all(|passed| *passed)
    }
}

#[cfg(test)]
mod tests {
    use super::*;
    use crate::measure::Baseline;
    use crate::published;
    use crate::trace::Trace;
    use reference::rule::read_rule;

    const PUBLISHED: Baseline = published::verdicts;

    /// The verdicts of the published algorithm.
    fn verdicts(rule: &Case, log: &Log) -> Vec<bool> {
        PUBLISHED(&read_rule(&rule.file).expect("a legal rule"), &Trace::read(&log.bytes))
    }

    #[test]
    fn every_log_first_fails_at_its_line() {
        for runs in [32, MAX_RUNS] {
            let logs = broken_logs(runs);
            let behind = lines_behind_a_part(runs).count();
            assert_eq!(logs.len(), 2 + 8 * (3 + behind) + 2 * (4 + behind));
            for (rule, log, line) in logs {
                let verdicts = verdicts(&rule, &log);
                assert_eq!((log.runs, verdicts.len()), (runs, 2 * runs), "{}", rule.name);
                assert_eq!(verdicts.iter().position(|holds| !holds), Some(line - 1), "{}, line {line}", rule.name);
                let (lines, buffers) = left(Mode::FirstFailure, &rule.file, &log.bytes);
                assert_eq!(lines, line, "{}", rule.name);
                assert!((lines, buffers) == left(Mode::Full, &rule.file, front(&log.bytes, line)), "{}", rule.name);
            }
        }
        assert_eq!(failing_lines(MAX_RUNS), [2, 64, 128, 256]);
    }

    #[test]
    fn every_other_log_never_fails() {
        for (rule, log) in [32, MAX_RUNS].into_iter().flat_map(kept_logs) {
            assert!(verdicts(&rule, &log).iter().all(|holds| *holds), "{}, {}", rule.name, log.kind);
            assert!(left(Mode::FirstFailure, &rule.file, &log.bytes) == left(Mode::Full, &rule.file, &log.bytes));
        }
    }

    #[test]
    fn the_rule_that_is_made_to_be_slow_has_as_many_nodes_as_the_limit_lets() {
        assert_eq!(read_rule(&worst_nots_and_no_last().file).expect("a legal rule").nodes.len(), 64);
    }

    #[test]
    fn a_default_that_takes_longer_than_the_limit_fails() {
        let row = |rule: &str, runs: usize, first: f64| {
            Failing { rule: rule.into(), log: "carried on", runs, line: 2, first, cut: 1.0, reading: 0.5 }
        };
        let checks = |rows: Vec<Failing>| Rows { failing: rows, kept: Vec::new() }.print_checks();
        for rule in ["figure 1, property 2", "section 3, property 1", "two nodes", "no LAST", "worst: 52 nots and no LAST"] {
            assert!(checks(vec![row(rule, MAX_RUNS, 1.79), row(rule, MAX_RUNS, 0.1)]));
            assert!(!checks(vec![row(rule, MAX_RUNS, 1.81), row(rule, MAX_RUNS, 0.1)]));
            assert!(checks(vec![row(rule, 32, 1.81)]));
            assert!(checks(vec![Failing { line: 66, ..row(rule, MAX_RUNS, 1.81) }]));
        }
        let kept = vec![Kept { rule: "figure 1".into(), log: "kept", runs: MAX_RUNS, first: 9.0, full: 1.0 }];
        assert!(Rows { failing: Vec::new(), kept }.print_checks());
    }
}
