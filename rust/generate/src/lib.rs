//! Seeded cases for the check: rule files, logs, records and lent buffers, sound and
//! damaged in every way that the paper has a refusal for.
//!
//! `case(layout, seed)` gives the input of every call, of which those that are lent a work
//! area name this layout. `reference_answers(&case)` gives what the reference answers and
//! leaves in each buffer. To hold another implementation against the reference, give it
//! the same case and compare with the answers. The cases of a seed in either layout
//! differ in their work areas alone. A whole log is read in both modes; so that they
//! differ, in many cases the rule first fails in the middle of the log. Labels are written
//! in capitals, in small letters or in both, in the rule and in the log apart.
//!
//! `texts` has cases of its own for rules typed by hand: `text_case(seed)` for reading a
//! text, `rule_case(seed)` for writing one. `slips` has those for the runs that break a
//! rule: `slip_case(seed)`. `positions` has those for where two runs start and finish:
//! `position_case(seed)`. `books` has those for the label book: `book_case(seed)`.

pub mod areas;
pub mod books;
pub mod letters;
pub mod logs;
pub mod positions;
pub mod random;
pub mod records;
pub mod rules;
pub mod slips;
pub mod texts;
pub mod typed;

use areas::{area_of, lent_area, Fault};
use letters::Letters;
use random::Random;
use reference::calls::{
    check_line, check_line_with_tally, check_log, compose, converse, counts_of, finished_runs, next_line,
    relation_between, start_record, LineAnswer, LogAnswer, NextLine, Tally,
};
use reference::formula::{is_true, Formula};
use reference::line::Event;
use reference::record::{lines_of, record_of, Record};
use reference::report::report;
use reference::rule::{read_rule, Rule};
use reference::trace::accepted_lines;
use reference::{Layout, Mode, Refusal, VERDICT_BYTES};

/// The input of every call.
#[derive(Clone, PartialEq, Eq, Debug)]
pub struct Case {
    pub seed: u64,
    /// What the log is meant to be; for messages.
    pub kind: &'static str,
    /// The layout that the calls name, and what is wrong with `work`.
    pub layout: Layout,
    pub fault: Fault,

    /// The program and the whole-log call: the rule file, the log, the two buffers.
    pub rule: Vec<u8>,
    pub log: Vec<u8>,
    pub log_work: Vec<u8>,
    pub verdicts: Vec<u8>,

    /// The single-line call, with the same rule; and the form that is lent a tally.
    pub record: Record,
    pub work: Vec<u8>,
    pub tally: Tally,
    pub line: Vec<u8>,

    /// The log reader, with the same log.
    pub place: usize,
    /// Starting a record.
    pub start_work: Vec<u8>,
    /// Relating two runs of `record`.
    pub runs: (u64, u64),
    /// Composing two sets; the first one's converse.
    pub sets: (u64, u64),
}

/// What the reference makes of a whole log in one mode: what the program prints, what the
/// call answers, and what it leaves in its buffers.
#[derive(Clone, PartialEq, Eq, Debug)]
pub struct LogLeft {
    pub report: Vec<u8>,
    pub answer: LogAnswer,
    pub work: Vec<u8>,
    pub verdicts: Vec<u8>,
}

/// What the reference answers, and what it leaves in each buffer.
#[derive(Clone, PartialEq, Eq, Debug)]
pub struct Answers {
    pub first_failure: LogLeft,
    pub full: LogLeft,
    pub line: LineAnswer,
    pub line_work: Vec<u8>,
    pub tally_line: LineAnswer,
    pub tally_work: Vec<u8>,
    pub tally: Tally,
    /// The line handed out, 11, or no line; and the place after it.
    pub next_line: (Result<Option<Vec<u8>>, Refusal>, usize),
    pub start: Result<Record, Refusal>,
    pub start_work: Vec<u8>,
    pub relation: Result<u8, Refusal>,
    pub composition: Result<u8, Refusal>,
    pub converse: Result<u8, Refusal>,
}

impl Answers {
    /// The refusal numbers among the answers.
    pub fn refusals(&self) -> Vec<Refusal> {
        let numbers = [
            self.full.answer.refusal.map(|(number, _)| number),
            self.line.verdict.err(),
            self.tally_line.verdict.err(),
            self.next_line.0.as_ref().err().copied(),
            self.start.as_ref().err().copied(),
            self.relation.err(),
            self.composition.err(),
            self.converse.err(),
        ];
        numbers.into_iter().flatten().collect()
    }
}

/// How much work judging a log with a rule may be, counted in formulas looked at:
/// mostly little, so that many cases fit in a short time, and now and then much.
const LITTLE_WORK: u64 = 100_000;
const MUCH_WORK: u64 = 25_000_000;
const MUCH_WORK_IN: usize = 5;

/// The case of this seed in this layout.
pub fn case(layout: Layout, seed: u64) -> Case {
    let random = &mut Random::new(seed);
    let rule_labels = some_labels(random);
    let log = logs::any_log(random, &rule_labels);
    let (accepted, refusal) = accepted_lines(&log.bytes);
    let mut rule = rule_for(random, &rule_labels, &accepted);
    // The last line may be the one that fails if there is a refused one behind it.
    let last = if refusal.is_some() { accepted.len() } else { accepted.len().saturating_sub(1) };
    if last >= 2 && random.chance(1, 2) {
        rule = rule_that_fails(random, &rule_labels, &accepted, last).unwrap_or(rule);
    }
    let mut file = rule_file(random, &rule);
    // A fault may leave a legal rule that is too much work; then there is no fault.
    if read_rule(&file).is_ok_and(|other| work_of(&other, &accepted) > MUCH_WORK) {
        file = rule.to_bytes();
    }

    // The record of a beginning of the log.
    let lines = if random.chance(1, 3) { accepted.len() } else { random.below(accepted.len() + 1) };
    let before = &accepted[..lines];
    let line = logs::next_line(random, before, &rule_labels);
    let mut record = record_of(before);
    let mut tally = counts_of(before);
    tally.failing = random.below(lines + 1) as u64;
    let (paired, fault) = damage_some(random, &mut record, &mut tally);
    // The work areas have a random source of their own, so that all else is the same in either layout.
    let areas = &mut Random::new(random.number());

    Case {
        seed,
        kind: log.kind,
        layout,
        fault,
        rule: file,
        log_work: lent_area(areas, layout),
        verdicts: lent_buffer(random, VERDICT_BYTES),
        place: random.below(log.bytes.len() + 50),
        log: log.bytes,
        runs: two_runs(random, &record),
        record,
        work: area_of(areas, layout, &paired, fault),
        tally,
        line,
        start_work: lent_area(areas, layout),
        sets: (any_set(random), any_set(random)),
    }
}

/// What the reference makes of the case's log in this mode.
pub fn log_left(case: &Case, mode: Mode) -> LogLeft {
    let mut work = case.log_work.clone();
    let mut verdicts = case.verdicts.clone();
    let answer = check_log(case.layout, mode, &case.rule, &case.log, &mut work, &mut verdicts);
    LogLeft { report: report(mode, &case.rule, &case.log), answer, work, verdicts }
}

/// What the reference makes of the case.
pub fn reference_answers(case: &Case) -> Answers {
    let mut line_work = case.work.clone();
    let line = check_line(case.layout, &case.rule, &case.record, &mut line_work, &case.line);
    let mut tally_work = case.work.clone();
    let mut tally = case.tally;
    let tally_line =
        check_line_with_tally(case.layout, &case.rule, &case.record, &mut tally_work, &mut tally, &case.line);
    let mut start_work = case.start_work.clone();
    let start = start_record(case.layout, &mut start_work);
    Answers {
        first_failure: log_left(case, Mode::FirstFailure),
        full: log_left(case, Mode::Full),
        line,
        line_work,
        tally_line,
        tally_work,
        tally,
        next_line: match next_line(&case.log, case.place) {
            NextLine::Line(line, after) => (Ok(Some(line.to_vec())), after),
            NextLine::Refused(number, place) => (Err(number), place),
            NextLine::NoLine(place) => (Ok(None), place),
        },
        start,
        start_work,
        relation: relation_between(&case.record, case.runs.0, case.runs.1),
        composition: compose(case.sets.0, case.sets.1),
        converse: converse(case.sets.0),
    }
}

/// Labels for the rule's list: none to 16, all different, in letters of either case.
fn some_labels(random: &mut Random) -> Vec<Vec<u8>> {
    let wanted = *random.pick(&[0, 1, 1, 2, 2, 2, 3, 4, 16]);
    let labels = logs::different_labels(random, wanted);
    let letters = Letters::any(random);
    labels.iter().map(|label| letters.write(random, label)).collect()
}

/// A legal rule that can be judged over these lines without too much work.
fn rule_for(random: &mut Random, labels: &[Vec<u8>], accepted: &[Event]) -> Rule {
    if random.chance(1, 60) {
        return rules::longest_rule(random);
    }
    let limit = if random.chance(1, MUCH_WORK_IN) { MUCH_WORK } else { LITTLE_WORK };
    let mut depth = *random.pick(&[1, 2, 2, 3, 3, 4]);
    loop {
        let rule = rules::legal_rule(random, labels.to_vec(), depth);
        if work_of(&rule, accepted) <= limit {
            return rule;
        }
        depth = (depth - 1).max(1);
    }
}

/// How many rules are tried for one that first fails in the middle of a log.
const TRIED: usize = 12;

/// A legal rule that holds with line 1 and first fails with a line up to `last`; none if none of those tried does.
fn rule_that_fails(random: &mut Random, labels: &[Vec<u8>], accepted: &[Event], last: usize) -> Option<Rule> {
    for _ in 0..TRIED {
        let depth = *random.pick(&[1, 2, 2, 3]);
        let mut rule = rules::legal_rule(random, labels.to_vec(), depth);
        if work_of(&rule, accepted) > LITTLE_WORK {
            continue;
        }
        if !is_true(&rule.formula(), &finished_runs(&accepted[..1])) {
            rule = rules::negated(rule);
        }
        if first_failure(&rule.formula(), accepted).is_some_and(|line| (2..=last).contains(&line)) {
            return Some(rule);
        }
    }
    None
}

/// The first of these lines with which the rule fails.
fn first_failure(formula: &Formula, accepted: &[Event]) -> Option<usize> {
    (1..=accepted.len()).find(|lines| !is_true(formula, &finished_runs(&accepted[..*lines])))
}

/// The most formulas that judging every line with this rule looks at.
fn work_of(rule: &Rule, accepted: &[Event]) -> u64 {
    let finished = counts_of(accepted).finished;
    (accepted.len() as u64 + 2) * formulas_looked_at(&rule.formula(), finished)
}

/// The most formulas that judging this one looks at, with so many finished runs.
fn formulas_looked_at(formula: &Formula, finished: u64) -> u64 {
    match formula {
        Formula::And(first, second) => {
            1 + formulas_looked_at(first, finished) + formulas_looked_at(second, finished)
        }
        Formula::Not(child) => 1 + formulas_looked_at(child, finished),
        Formula::Some(_, child) => 1 + finished * formulas_looked_at(child, finished),
        _ => 1,
    }
}

/// The rule's file, in a good part of the cases with a fault or two.
fn rule_file(random: &mut Random, rule: &Rule) -> Vec<u8> {
    match random.below(100) {
        0..=72 => rule.to_bytes(),
        73..=74 => rules::listed_in_another_case(random, rule),
        75..=92 => {
            let number = random.between(1, 10) as u8;
            rules::damaged_file(random, rule, number)
        }
        93..=96 => {
            // Two faults in one file: the order decides which is met.
            let number = random.between(2, 10) as u8;
            let mut file = rules::damaged_file(random, rule, number);
            match random.below(3) {
                0 => file.truncate(random.below(file.len() + 1)),
                1 => file.push(random.byte()),
                _ => {
                    let at = random.below(file.len());
                    file[at] = random.byte();
                }
            }
            file
        }
        97..=98 => {
            let mut file = rule.to_bytes();
            for _ in 0..random.between(1, 3) {
                let at = random.below(file.len());
                file[at] = if random.chance(1, 2) { random.byte() } else { random.below(10) as u8 };
            }
            file
        }
        _ => {
            let length = random.below(700);
            random.bytes(length)
        }
    }
}

/// Spoils the record or the tally, or has something wrong with the work area, in about two
/// of three cases. Answers the record whose pair bytes the work area has, and what is wrong
/// with it.
fn damage_some(random: &mut Random, record: &mut Record, tally: &mut Tally) -> (Record, Fault) {
    let mut paired = record.clone();
    let mut fault = Fault::None;
    match random.below(22) {
        0..=4 => {
            for _ in 0..random.between(1, 2) {
                records::damage_record(random, record);
            }
            // If another real record came out, give it its own pair bytes half of the time.
            if random.chance(1, 2) && lines_of(record).is_some() {
                paired = record.clone();
            }
        }
        5..=6 => fault = Fault::Byte,
        7..=9 => records::damage_tally(random, tally),
        10 => {
            if random.chance(1, 2) {
                records::damage_record(random, record);
            } else {
                fault = Fault::Byte;
            }
            records::damage_tally(random, tally);
        }
        11 => fault = Fault::Short,
        // Ids have no part in the pair bytes, which stay the record's own.
        12 => records::share_any_id(random, record),
        13..=14 => fault = Fault::Layout,
        _ => {}
    }
    (paired, fault)
}

/// A buffer of at least this length, but for a few that are short; filled with anything.
fn lent_buffer(random: &mut Random, length: usize) -> Vec<u8> {
    let length = match random.below(60) {
        0 => length - 1,
        1 => *random.pick(&[0, 1, length / 2]),
        2..=20 => length + random.below(40),
        _ => length,
    };
    let byte = random.byte();
    let mut buffer = vec![byte; length];
    for _ in 0..20.min(length) {
        let at = random.below(length);
        buffer[at] = random.byte();
    }
    buffer
}

/// Two run numbers: mostly of finished runs.
fn two_runs(random: &mut Random, record: &Record) -> (u64, u64) {
    let finished: Vec<u64> = (0..128).filter(|run| record.runs[*run as usize].end != 0).collect();
    let begun = record.runs.iter().filter(|run| run.id != 0).count();
    let number = |random: &mut Random| match random.below(12) {
        0 => random.below(128) as u64,
        1 => *random.pick(&[127, 128, 129, 255, 256, 65535]),
        2 => random.below(begun + 1) as u64,
        _ if finished.is_empty() => random.below(3) as u64,
        _ => *random.pick(&finished),
    };
    let first = number(random);
    if random.chance(1, 12) {
        return (first, first);
    }
    (first, number(random))
}

/// A relation set, now and then above 63.
fn any_set(random: &mut Random) -> u64 {
    match random.below(20) {
        0 => *random.pick(&[64, 65, 127, 128, 255]),
        1 => 0,
        2 => 63,
        3..=8 => 1 << random.below(6),
        _ => random.below(64) as u64,
    }
}

/// The refusal of the rule file, if it has one.
pub fn rule_refusal(case: &Case) -> Option<Refusal> {
    read_rule(&case.rule).err()
}
