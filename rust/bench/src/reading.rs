//! Times of reading with the two-node rule that are held against each other, in turns: whole logs whose runs share few
//! ids beside the same lines with fresh ids, whole logs with labels in small letters beside the same lines in capitals,
//! and whole logs and single lines with this library beside an earlier one.

use crate::checks::{print_numbers, Limit};
use crate::earlier::{Libraries, Library};
use crate::logs::{
    begins_first, few_and_fresh_ids, in_small_letters, interleaved, long_labels, Log, MAX_LABELS, MAX_RUNS, WORDS,
};
use crate::measure::{in_turns, seconds_of, timed_in_turns};
use crate::rules::two_nodes;
use crate::table::{seconds, short, Number};
use crate::LABELS;
use scene_log::{check_log, Check, Layout, Mode, VERDICT_BYTES, WORK_BYTES};
use std::cell::RefCell;
use std::hint::black_box;

/// The time of a log whose runs share few ids, as a multiple of that of the same lines with fresh ids.
const FEW_TO_FRESH: f64 = 1.1;

/// The time of a log in small letters, as a multiple of that of the same lines in capitals.
const SMALL_TO_CAPITALS: f64 = 1.05;

/// The time of a log, as a multiple of that of the earlier library: no longer than before, but for where the code
/// stands in memory.
const TO_EARLIER: f64 = 1.05;

/// How many ids the runs of a log share.
const FEW: [usize; 3] = [1, 4, 16];

/// The two times of one kind of log, and what the log is called in the table.
pub struct Row {
    log: String,
    runs: usize,
    time: f64,
    other: f64,
}

/// What was measured.
#[derive(Default)]
pub struct Rows {
    /// Few ids beside fresh ones.
    few: Vec<Row>,
    /// This library beside the earlier one, on the same log.
    earlier: Vec<Row>,
    /// Few ids with this library, beside fresh ones with the earlier one.
    few_to_earlier: Vec<Row>,
    /// Small letters beside capitals.
    small: Vec<Row>,
    /// One line with this library beside the earlier one, and in small letters with this one beside capitals with it.
    lines: Vec<Row>,
    small_lines: Vec<Row>,
}

/// What reads a log in full: the library that is linked in, or one that is loaded.
#[derive(Clone, Copy)]
enum Reader<'a> {
    Linked,
    Loaded(&'a Library),
}

impl Reader<'_> {
    /// How many lines are taken; none where one is refused.
    fn read(self, rule: &[u8], log: &Log, work: &mut [u8], verdicts: &mut [u8]) -> Option<u32> {
        match self {
            Reader::Linked => {
                check_log(Layout::Square, Mode::Full, rule, &log.bytes, work, verdicts).ok().map(u32::from)
            }
            Reader::Loaded(library) => {
                let answer = library.check_log(rule, &log.bytes, work, verdicts);
                (answer < 1 << 16).then_some(answer)
            }
        }
    }
}

/// Measures and prints two readers, each on a log of its own. The logs differ in ids at most, or in the case of their
/// labels, so both must take all lines, and leave the same pair bytes and verdicts.
fn row(name: String, [one, other]: [(Reader, &Log); 2]) -> Row {
    let rule = two_nodes().file;
    let left = |(reader, log): (Reader, &Log)| {
        let (mut work, mut verdicts) = (vec![7; WORK_BYTES], vec![7; VERDICT_BYTES]);
        (reader.read(&rule, log, &mut work, &mut verdicts), work, verdicts)
    };
    let runs = one.1.runs;
    assert_eq!(left(one).0, Some(2 * runs as u32), "every line is taken: {name}");
    assert!(left(one) == left(other), "the two differ on {name}");
    // Both write to the same memory.
    let buffers = RefCell::new((vec![0; WORK_BYTES], vec![0; VERDICT_BYTES]));
    let call = |(reader, log): (Reader, &Log)| {
        let (work, verdicts) = &mut *buffers.borrow_mut();
        black_box(reader.read(&rule, log, work, verdicts));
    };
    let [time, other] = in_turns([&|| call(one), &|| call(other)]);
    printed(Row { log: name, runs, time, other })
}

fn printed(row: Row) -> Row {
    let ratio = short(row.time / row.other);
    println!("| {} | {} | {} | {} | {ratio} |", row.log, row.runs, seconds(row.time), seconds(row.other));
    row
}

/// Measures and prints two libraries, each on a line of its own, which they take on the record of a log. The lines
/// differ in the case of their label at most, so both must leave the same record and work area. What is lent is not
/// timed.
fn line_row(name: String, log: &Log, [one, other]: [(&Library, &[u8]); 2]) -> Row {
    let rule = two_nodes().file;
    let (lent, lines) = Check::after_with_mode(Mode::Full, &rule, &log.bytes);
    assert!(lines.is_ok(), "every line is taken: {name}");
    let buffers = RefCell::new(lent.clone());
    let take = |(library, line): (&Library, &[u8])| {
        let Check { record, work, .. } = &mut *buffers.borrow_mut();
        record.copy_from_slice(&*lent.record);
        work.copy_from_slice(&lent.work);
        seconds_of(|| assert!(library.check_line(&rule, &mut **record, work, line) <= 1, "the line is taken: {name}"))
    };
    let [left, other_left] = [one, other].map(|call| {
        take(call);
        buffers.borrow().clone()
    });
    assert!(left != lent && left == other_left, "the two differ on {name}");
    let [time, other] = timed_in_turns([&|| take(one), &|| take(other)]);
    printed(Row { log: name, runs: log.runs, time, other })
}

/// Full logs with labels of capitals, and what they are called.
fn logs_in_capitals(runs: usize) -> [(String, Log); 4] {
    let long = long_labels();
    let words = |log: Log| (format!("{}, {} words", log.kind, WORDS.len()), log);
    let labels = |log: Log| (format!("{}, {MAX_LABELS} long labels", log.kind), log);
    [
        words(interleaved(runs, &WORDS)),
        words(begins_first(runs, &WORDS)),
        labels(interleaved(runs, &long)),
        labels(begins_first(runs, &long)),
    ]
}

/// The begin lines of all runs but the last, with all labels; a begin line with a known label in capitals, and the end
/// line of a run.
fn log_and_lines() -> (Log, [(&'static str, Vec<u8>); 2]) {
    let long = long_labels();
    let full = begins_first(MAX_RUNS, &long);
    let begins: Vec<&[u8]> = full.bytes.split_inclusive(|byte| *byte == b'\n').take(MAX_RUNS).collect();
    let (last, before) = begins.split_last().expect("some lines");
    let log = Log { kind: "begins first", runs: MAX_RUNS - 1, bytes: before.concat() };
    (log, [("a begin line", last.to_vec()), ("an end line", b"E 1\n".to_vec())])
}

fn few_name(count: usize) -> String {
    if count == 1 { "1 id".into() } else { format!("{count} ids") }
}

impl Rows {
    /// Measures and prints logs of so many runs that share few ids.
    pub fn measure_few(&mut self, runs: usize) {
        println!("\nRuns that share few ids, beside the same lines with fresh ids.\n");
        println!("| Log | Runs | Few ids | Fresh ids | few / fresh |");
        println!("|---|--:|--:|--:|--:|");
        for count in FEW {
            let [few, fresh] = few_and_fresh_ids(count, runs, &LABELS);
            self.few.push(row(few_name(count), [(Reader::Linked, &few), (Reader::Linked, &fresh)]));
        }
    }

    /// Measures and prints logs of so many runs with labels in small letters, beside the same lines in capitals.
    pub fn measure_small(&mut self, runs: usize) {
        println!("\nLabels in small letters, beside the same lines in capitals.\n");
        println!("| Log | Runs | Small letters | Capitals | small / capitals |");
        println!("|---|--:|--:|--:|--:|");
        for (name, capitals) in logs_in_capitals(runs) {
            let small = in_small_letters(&capitals);
            self.small.push(row(name, [(Reader::Linked, &small), (Reader::Linked, &capitals)]));
        }
    }

    /// Measures and prints full logs with both libraries. An earlier one may take an id once only, and reads fresh ids;
    /// it may refuse small letters, and reads capitals.
    pub fn measure_earlier(&mut self, libraries: &Libraries) {
        let [now, earlier] = [&libraries.now, &libraries.earlier].map(Reader::Loaded);
        println!("\nReading a log. Of few ids, the earlier library reads the same lines with fresh ids.\n");
        println!("| Log | Runs | Now | Earlier | now / earlier |");
        println!("|---|--:|--:|--:|--:|");
        for log in [interleaved(MAX_RUNS, &LABELS), begins_first(MAX_RUNS, &LABELS)] {
            self.earlier.push(row(log.kind.into(), [(now, &log), (earlier, &log)]));
        }
        for (name, log) in logs_in_capitals(MAX_RUNS) {
            self.earlier.push(row(name, [(now, &log), (earlier, &log)]));
        }
        for count in FEW {
            let [few, fresh] = few_and_fresh_ids(count, MAX_RUNS, &LABELS);
            self.few_to_earlier.push(row(few_name(count), [(now, &few), (earlier, &fresh)]));
        }
        self.measure_lines(libraries);
    }

    /// Measures and prints single lines with both libraries; and in small letters with this one, beside capitals.
    fn measure_lines(&mut self, Libraries { now, earlier }: &Libraries) {
        println!("\nOne line on the record of the lines before it, which has {MAX_LABELS} long labels.\n");
        println!("| Line | Runs | Now | Earlier | now / earlier |");
        println!("|---|--:|--:|--:|--:|");
        let (log, lines) = log_and_lines();
        for (name, line) in &lines {
            self.lines.push(line_row((*name).into(), &log, [(now, line), (earlier, line)]));
        }
        println!("\n| Line | Runs | Small letters | Capitals | small / capitals |");
        println!("|---|--:|--:|--:|--:|");
        let (name, line) = &lines[0];
        let small = in_small_letters(&Log { bytes: line.clone(), ..log.clone() }).bytes;
        self.small_lines.push(line_row((*name).into(), &log, [(now, &small), (now, line)]));
    }

    /// Prints a line for each requirement, over the rows of full logs. Answers whether none failed.
    pub fn print_checks(&self) -> bool {
        let check = |rows: &[Row], what: &str, limit: Limit| {
            // That of a line is full but for its run.
            let full = rows.iter().filter(|row| row.runs >= MAX_RUNS - 1);
            let numbers = full.map(|row| Number { value: row.time / row.other, is_taken: true }).collect();
            print_numbers("reading", what, limit, numbers, short)
        };
        let passed = [
            check(&self.few, "few ids / fresh ids", Limit::AtMost(FEW_TO_FRESH)),
            check(&self.earlier, "now / earlier", Limit::AtMost(TO_EARLIER)),
            check(&self.few_to_earlier, "few ids now / fresh ids earlier", Limit::AtMost(TO_EARLIER)),
            check(&self.small, "small letters / capitals", Limit::AtMost(SMALL_TO_CAPITALS)),
            check(&self.lines, "one line, now / earlier", Limit::NoneUp),
            check(&self.small_lines, "one line, small letters / capitals", Limit::NoneUp),
        ];
        passed.iter().all(|passed| *passed)
    }
}

#[cfg(test)]
mod tests {
    use super::*;
    use crate::earlier::tests::library_that_answers;

    /// It answers as it must, and writes nothing.
    #[test]
    #[should_panic(expected = "the two differ on interleaved")]
    fn a_library_that_leaves_other_bytes_is_not_measured() {
        let earlier = library_that_answers(0, 2 * MAX_RUNS as u32);
        Rows::default().measure_earlier(&Libraries { now: Library::present().unwrap(), earlier });
    }

    #[test]
    fn a_log_that_takes_longer_than_its_limit_fails() {
        let rows = |times: &[f64]| -> Vec<Row> {
            times.iter().map(|time| Row { log: "a log".into(), runs: MAX_RUNS, time: *time, other: 1.0 }).collect()
        };
        let checks = |few: &[f64], earlier: &[f64], few_to_earlier: &[f64]| {
            let (few, earlier, few_to_earlier) = (rows(few), rows(earlier), rows(few_to_earlier));
            Rows { few, earlier, few_to_earlier, ..Rows::default() }.print_checks()
        };
        assert!(checks(&[0.9, 1.09, 1.0], &[1.04, 0.8], &[1.04]));
        assert!(!checks(&[0.9, 1.09, 1.0], &[1.04, 0.8], &[1.06]));
        assert!(!checks(&[0.9, 1.11, 1.0], &[1.04, 0.8], &[1.0]));
        assert!(!checks(&[0.9, 1.09, 1.0], &[1.06, 0.8], &[1.0]));
        assert!(checks(&[], &[], &[]));
        let small = |times: &[f64]| Rows { small: rows(times), ..Rows::default() }.print_checks();
        assert!(small(&[1.04, 0.9]) && !small(&[1.04, 1.06]));
        // No limit is set for one line.
        assert!(Rows { lines: rows(&[2.0]), small_lines: rows(&[2.0]), ..Rows::default() }.print_checks());
        let short = Rows { few: vec![Row { runs: 32, ..rows(&[2.0]).remove(0) }], ..Rows::default() };
        assert!(short.print_checks());
    }

    /// It takes the line and writes nothing.
    #[test]
    #[should_panic(expected = "the two differ on a line")]
    fn a_library_that_leaves_another_record_is_not_measured() {
        let (log, [(_, line), _]) = log_and_lines();
        let (now, other) = (Library::present().unwrap(), library_that_answers(0, 0));
        line_row("a line".into(), &log, [(&now, &line), (&other, &line)]);
    }

    #[test]
    fn logs_in_small_letters_have_the_same_lines() {
        assert!(long_labels().iter().all(|label| label.len() == 24) && long_labels().len() == MAX_LABELS);
        for (name, capitals) in logs_in_capitals(MAX_RUNS) {
            let small = in_small_letters(&capitals);
            assert!(small.bytes != capitals.bytes && small.record() == capitals.record(), "{name}");
            assert_eq!(capitals.record()[3] as usize, if name.ends_with("words") { WORDS.len() } else { MAX_LABELS });
            // Every letter of a label is a small one, and B and E are capitals.
            let text = String::from_utf8(small.bytes.clone()).unwrap();
            let is_small = |line: &str| line[1..] == line[1..].to_ascii_lowercase();
            assert!(text.lines().all(|line| line.starts_with(['B', 'E']) && is_small(line)));
            assert!(text.eq_ignore_ascii_case(std::str::from_utf8(&capitals.bytes).unwrap()));
        }
        let (log, [(_, begin), (_, end)]) = log_and_lines();
        let (check, lines) = Check::after_with_mode(Mode::Full, &two_nodes().file, &log.bytes);
        assert_eq!((log.runs, lines), (MAX_RUNS - 1, Ok(127)));
        assert_eq!(check.record[2..4], [127, 64]);
        assert!(begin.starts_with(b"B 128 ") && begin.len() == 31 && end == b"E 1\n");
    }
}
