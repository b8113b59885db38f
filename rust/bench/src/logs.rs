//! The logs that are measured.
//!
//! Kinds of logs:
//! - "interleaved": begins and ends mixed at random.
//! - "begins first": all begin lines, then all end lines in a random order. Both have given labels in turn.
//! - "section 6": as 000, section 6, makes its traces. Followed from there: the rule breaks at the last line and not before
//!   ("creating the traces to be violated only at the last event"); at most three runs are open at a time ("the maximal number
//!   of overlapping intervals [..] limit of 3"); the labels are none of the rule's, but for the runs that break it ("we set the
//!   data to be different from the ones that appears in the property, except for the violating events"). Not followed: the
//!   length, 1,000 to 16,000 lines there, at most 256 here.
//! - "kept": two phases, mixed at random inside a phase. Every run has a label of the rule or OTHER, and the rule holds at
//!   every line, so that no evaluator finds anything early.
//! - "carried on": a section 6 log, or one whose last run has the label LAST, with runs of other labels behind it. So
//!   the first line with which the rule fails can be in the middle of a full log.
//! - "few ids" and "fresh ids": the same lines but for their ids, which all have three digits. Begins and ends are
//!   mixed at random, and no more runs are open at a time than there are few ids.
//! - "4 words" and "64 long labels": interleaved, or with all begins first, with labels of capitals. Of the long ones
//!   each has 24 letters, so that no log has more letters to read.
//!
//! The random source is seeded, so a log is the same in every run.

use crate::rules::two_nodes;
use generate::random::Random;
use scene_log::{check_log_record, Layout, Mode, RECORD_BYTES, VERDICT_BYTES, WORK_BYTES};
use std::fmt::Write;

/// The most runs of a log, and the most labels.
pub const MAX_RUNS: usize = 128;
pub const MAX_LABELS: usize = 64;

/// A log: what it is called in the table, how many runs it has, its bytes.
#[derive(Clone)]
pub struct Log {
    pub kind: &'static str,
    pub runs: usize,
    pub bytes: Vec<u8>,
}

impl Log {
    /// The record that the log leaves, which is the same with any rule.
    pub fn record(&self) -> Vec<u8> {
        let (mut record, mut work, mut verdicts) = (vec![0; RECORD_BYTES], vec![0; WORK_BYTES], vec![0; VERDICT_BYTES]);
        let rule = two_nodes().file;
        let (layout, mode) = (Layout::Square, Mode::Full);
        let lines = check_log_record(layout, mode, &rule, &self.bytes, &mut record, &mut work, &mut verdicts);
        assert_eq!(lines.map(usize::from), Ok(2 * self.runs));
        record
    }
}

/// The ids that the runs of a log get.
enum Ids {
    /// Each run has its own, from this one on.
    From(usize),
    /// All share so many, from this one on. A run has any that no open run has, drawn from a random source apart from
    /// that of the lines, so that their order is the same with any ids.
    Few { count: usize, first: usize, random: Random },
}

impl Ids {
    /// The id of the next run, with so many begun before it and these ids open.
    fn next(&mut self, begun: usize, open: &[usize]) -> usize {
        match self {
            Ids::From(first) => *first + begun,
            Ids::Few { count, first, random } => {
                let closed: Vec<usize> = (*first..*first + *count).filter(|id| !open.contains(id)).collect();
                *random.pick(&closed)
            }
        }
    }
}

/// A log that is being written: its text so far, the runs begun, and the ids of the open ones.
struct Writer {
    random: Random,
    ids: Ids,
    text: String,
    begun: usize,
    open: Vec<usize>,
}

impl Writer {
    /// Ids count from 1.
    fn new(seed: u64) -> Writer {
        Writer::with_ids(seed, Ids::From(1))
    }

    fn with_ids(seed: u64, ids: Ids) -> Writer {
        Writer { random: Random::new(seed), ids, text: String::new(), begun: 0, open: Vec::new() }
    }

    /// Begins a run with this label, or with none where it is empty.
    fn begin(&mut self, label: &str) {
        let id = self.ids.next(self.begun, &self.open);
        self.begun += 1;
        self.open.push(id);
        let space = if label.is_empty() { "" } else { " " };
        writeln!(self.text, "B {id}{space}{label}").unwrap();
    }

    /// Ends the open run at this place among the open ones, in the order of their begins.
    fn end(&mut self, place: usize) {
        writeln!(self.text, "E {}", self.open.remove(place)).unwrap();
    }

    fn end_any(&mut self) {
        let place = self.random.below(self.open.len());
        self.end(place);
    }

    /// Runs with these labels in turn, begins and ends mixed at random, at most `limit` open at a time. All are ended.
    fn mixed(&mut self, runs: usize, labels: &[impl AsRef<str>], limit: usize) {
        let until = self.begun + runs;
        while self.begun < until || !self.open.is_empty() {
            let may_begin = self.begun < until && self.open.len() < limit;
            if may_begin && (self.open.is_empty() || self.random.chance(1, 2)) {
                self.begin(labels[self.begun % labels.len()].as_ref());
            } else {
                self.end_any();
            }
        }
    }

    fn log(self, kind: &'static str) -> Log {
        Log { kind, runs: self.begun, bytes: self.text.into_bytes() }
    }
}

/// Begins and ends mixed at random; these labels in turn.
pub fn interleaved(runs: usize, labels: &[impl AsRef<str>]) -> Log {
    interleaved_by(1, runs, labels)
}

/// The interleaved log of this seed.
pub fn interleaved_by(seed: u64, runs: usize, labels: &[impl AsRef<str>]) -> Log {
    let mut writer = Writer::new(seed);
    writer.mixed(runs, labels, MAX_RUNS);
    writer.log("interleaved")
}

/// All begin lines, then all end lines in a random order; these labels in turn.
pub fn begins_first(runs: usize, labels: &[impl AsRef<str>]) -> Log {
    begins_first_by(2, runs, labels)
}

/// The begins-first log of this seed.
pub fn begins_first_by(seed: u64, runs: usize, labels: &[impl AsRef<str>]) -> Log {
    let mut writer = Writer::new(seed);
    for run in 0..runs {
        writer.begin(labels[run % labels.len()].as_ref());
    }
    for _ in 0..runs {
        writer.end_any();
    }
    writer.log("begins first")
}

/// Four labels of a few capitals, and 64 of 24 capitals.
pub const WORDS: [&str; 4] = ["EVENING", "TEST", "MORNING", "DL_IMAGE"];

pub fn long_labels() -> Vec<String> {
    let random = &mut Random::new(9);
    (0..MAX_LABELS).map(|_| (0..24).map(|_| char::from(random.between(65, 90) as u8)).collect()).collect()
}

/// The same log with its labels in small letters.
pub fn in_small_letters(log: &Log) -> Log {
    let label_of = |line: &[u8]| line.split(|byte| *byte == b' ').take(2).map(|word| word.len() + 1).sum::<usize>();
    let mut bytes = log.bytes.clone();
    for line in bytes.split_inclusive_mut(|byte| *byte == b'\n') {
        let front = label_of(line).min(line.len());
        line[front..].make_ascii_lowercase();
    }
    Log { bytes, ..log.clone() }
}

/// The first of ids that all have three digits.
const FIRST_ID: usize = 101;

/// A log whose runs share so many ids, and the same lines with ids of their own; these labels in turn.
pub fn few_and_fresh_ids(count: usize, runs: usize, labels: &[impl AsRef<str>]) -> [Log; 2] {
    let log = |ids: Ids, kind: &'static str| {
        let mut writer = Writer::with_ids(6, ids);
        writer.mixed(runs, labels, count);
        writer.log(kind)
    };
    let few = Ids::Few { count, first: FIRST_ID, random: Random::new(7) };
    [log(few, "few ids"), log(Ids::From(FIRST_ID), "fresh ids")]
}

/// Labels that no rule names.
const OTHERS: [&str; 4] = ["DRIVE", "HEAT", "IDLE", "SLEEP"];

/// At most this many runs of a section 6 log are open at a time.
const OPEN_LIMIT: usize = 3;

/// How a log ends: begin lines with a label, and end lines of the open run at a place.
enum Last {
    Begin(&'static str),
    End(usize),
}

/// The section 6 log of a property of figure 1 (1 to 4): the last lines break it.
pub fn section_6_of_figure_1(property: usize, runs: usize) -> Log {
    figure_1_broken(property, runs).log(SECTION_6)
}

const SECTION_6: &str = "section 6";

fn figure_1_broken(property: usize, runs: usize) -> Writer {
    use Last::{Begin, End};
    let last: &[Last] = match property {
        // A DL_IMAGE inside the first of two BOOTs.
        1 => &[Begin("BOOT"), Begin("DL_IMAGE"), End(1), End(0), Begin("BOOT"), End(0)],
        // A DL_FAIL inside a DL_MOBPRM.
        2 => &[Begin("DL_MOBPRM"), Begin("DL_FAIL"), End(1), End(0)],
        // INS_ON, INS_FAIL and INS_RECOVER one after another.
        3 => &[Begin("INS_ON"), End(0), Begin("INS_FAIL"), End(0), Begin("INS_RECOVER"), End(0)],
        // A STARVE inside a GET_CAMDATA and a DL_IMAGE.
        _ => &[Begin("DL_IMAGE"), Begin("GET_CAMDATA"), Begin("STARVE"), End(2), End(1), End(0)],
    };
    let mut writer = Writer::new(3);
    let ending = last.iter().filter(|line| matches!(line, Begin(_))).count();
    writer.mixed(runs - ending, &OTHERS, OPEN_LIMIT);
    break_rule(writer, last)
}

/// The section 6 log of a property of section 3 (1 to 4). Properties 1, 2 and 4 are broken by runs with any labels, so here
/// the runs before the last have the labels and the order that keep them.
pub fn section_6_of_section_3(property: usize, runs: usize) -> Log {
    section_3_broken(property, runs).log(SECTION_6)
}

fn section_3_broken(property: usize, runs: usize) -> Writer {
    use Last::{Begin, End};
    let mut writer = Writer::new(4);
    let last: &[Last] = match property {
        // Runs without a label, and two with the same one.
        1 => {
            writer.mixed(runs - 2, &[""], OPEN_LIMIT);
            &[Begin("DRIVE"), End(0), Begin("DRIVE"), End(0)]
        }
        // Runs end in the order in which they began, so none includes another; then three, each in the one before.
        2 => {
            ordered(&mut writer, runs - 3, |_| 0);
            &[Begin("DRIVE"), Begin("HEAT"), Begin("IDLE"), End(2), End(1), End(0)]
        }
        // Two adjacent runs with label 2.
        3 => {
            writer.mixed(runs - 2, &OTHERS, OPEN_LIMIT);
            &[Begin("2"), End(0), Begin("2"), End(0)]
        }
        // The run begun last ends first, so none overlaps another; then three that overlap in turn.
        _ => {
            ordered(&mut writer, runs - 3, |open| open - 1);
            &[Begin("DRIVE"), Begin("HEAT"), Begin("IDLE"), End(0), End(0), End(0)]
        }
    };
    break_rule(writer, last)
}

/// Runs of which two at most are open; the open run at the place that `ends` answers ends.
fn ordered(writer: &mut Writer, runs: usize, ends: impl Fn(usize) -> usize) {
    while writer.begun < runs || !writer.open.is_empty() {
        if writer.begun < runs && writer.open.len() < 2 && (writer.open.is_empty() || writer.random.chance(1, 2)) {
            writer.begin(OTHERS[writer.begun % OTHERS.len()]);
        } else {
            let open = writer.open.len();
            writer.end(ends(open));
        }
    }
}

fn break_rule(mut writer: Writer, last: &[Last]) -> Writer {
    for line in last {
        match line {
            Last::Begin(label) => writer.begin(label),
            Last::End(place) => writer.end(*place),
        }
    }
    writer
}

/// The label that one run of a log has, and no other.
pub const LAST: &str = "LAST";

/// Logs of so many runs of which the first `broken` break a property of figure 1, or of section 3, at their last line;
/// and one whose last of these runs has the label LAST. That line has the number 2 × `broken`.
pub fn figure_1_carried_on(property: usize, broken: usize, runs: usize) -> Log {
    carried_on(figure_1_broken(property, broken), runs, &OTHERS, OPEN_LIMIT)
}

pub fn section_3_carried_on(property: usize, broken: usize, runs: usize) -> Log {
    carried_on(section_3_broken(property, broken), runs, &OTHERS, OPEN_LIMIT)
}

pub fn last_carried_on(broken: usize, runs: usize, labels: &[&str]) -> Log {
    let mut writer = Writer::new(8);
    writer.mixed(broken - 1, labels, MAX_RUNS);
    writer.begin(LAST);
    writer.end(0);
    carried_on(writer, runs, labels, MAX_RUNS)
}

/// Runs with these labels behind those that a log has, so many in all, with at most `limit` open at a time.
fn carried_on(mut writer: Writer, runs: usize, labels: &[&str], limit: usize) -> Log {
    let more = runs - writer.begun;
    writer.mixed(more, labels, limit);
    writer.log("carried on")
}

/// The "kept" log of a property of figure 1: every run of the first phase is before every run of the second.
pub fn kept(property: usize, runs: usize) -> Log {
    let [first, second] = match property {
        1 => [["DL_IMAGE", "OTHER"], ["BOOT", "OTHER"]],
        2 => [["DL_FAIL", "OTHER"], ["DL_MOBPRM", "DL_ARMPRM"]],
        3 => [["INS_ON", "INS_RECOVER"], ["INS_FAIL", "OTHER"]],
        _ => [["STARVE", "OTHER"], ["DL_IMAGE", "GET_CAMDATA"]],
    };
    let mut writer = Writer::new(5);
    writer.mixed(runs / 2, &first, MAX_RUNS);
    writer.mixed(runs - runs / 2, &second, MAX_RUNS);
    writer.log("kept")
}
