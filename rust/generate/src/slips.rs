//! Cases for the runs that break a rule: rules of the form and nearly of it, records with
//! open runs, and slips that are ours, another's or damaged.

use crate::random::Random;
use crate::rules::{and, atom, leaf, legal_rule, nodes_of, not, or, random_tree, some, Tree};
use crate::{formulas_looked_at, lent_buffer, logs, records, rule_file, some_labels};
use reference::calls::counts_of;
use reference::line::Event;
use reference::record::{finished_run, lines_of, record_of, Record};
use reference::rule::{read_rule, Rule, BEFORE, HAS_LABEL, INCLUDES, OVERLAPS, SAME};
use reference::slip::{first_slip_of, form_of, MAX_SLIP};
use reference::trace::accepted_lines;
use reference::MAX_RUNS;

/// The input of both calls.
#[derive(Clone, PartialEq, Eq, Debug)]
pub struct SlipCase {
    pub seed: u64,
    /// What the rule is meant to be; for messages.
    pub kind: &'static str,
    pub rule: Vec<u8>,
    /// Accepted lines, and their record; now and then it is damaged.
    pub log: Vec<u8>,
    pub record: Record,
    /// The buffer lent for the first slip.
    pub buffer: Vec<u8>,
    /// The slip handed in, and what it is meant to be; for messages.
    pub slip: Vec<u8>,
    pub slip_kind: &'static str,
}

/// How many formulas finding a slip may look at: mostly few, now and then many.
const LITTLE_WORK: u64 = 60_000;
const MUCH_WORK: u64 = 12_000_000;
const MUCH_WORK_IN: usize = 12;

/// The case of this seed.
pub fn slip_case(seed: u64) -> SlipCase {
    let random = &mut Random::new(seed);
    let labels = some_labels(random);
    let (bytes, accepted) = log_for(random, &labels);
    let lines = if random.chance(2, 3) { accepted.len() } else { random.below(accepted.len() + 1) };
    let before = &accepted[..lines];
    let log = bytes.split_inclusive(|byte| *byte == b'\n').take(lines).collect::<Vec<_>>().concat();
    let (kind, rule) = rule_for(random, &labels, before);
    let file = damaged_now_and_then(random, &rule, before);
    let mut record = record_of(before);
    if random.chance(1, 8) {
        for _ in 0..random.between(1, 2) {
            records::damage_record(random, &mut record);
        }
    }
    let (slip_kind, slip) = slip_for(random, &rule, &record);
    SlipCase { seed, kind, rule: file, log, record, buffer: lent_buffer(random, MAX_SLIP), slip, slip_kind }
}

/// A log and its accepted lines. A few runs are finished, but for some cases.
fn log_for(random: &mut Random, labels: &[Vec<u8>]) -> (Vec<u8>, Vec<Event>) {
    loop {
        let bytes = logs::any_log(random, labels).bytes;
        let (accepted, _) = accepted_lines(&bytes);
        if finished(&accepted) >= 3 || random.chance(1, 5) {
            return (bytes, accepted);
        }
    }
}

/// How many runs are finished.
fn finished(accepted: &[Event]) -> u64 {
    counts_of(accepted).finished
}

/// The file of the rule, with a fault in a good part of the cases. A fault may leave a
/// legal rule that is too much work; then there is no fault.
fn damaged_now_and_then(random: &mut Random, rule: &Rule, accepted: &[Event]) -> Vec<u8> {
    if random.chance(2, 5) {
        return rule.to_bytes();
    }
    let file = rule_file(random, rule);
    let is_too_much = read_rule(&file).is_ok_and(|other| work_of(&other, accepted) > MUCH_WORK);
    if is_too_much { rule.to_bytes() } else { file }
}

/// The most formulas that finding a slip of this rule looks at.
fn work_of(rule: &Rule, accepted: &[Event]) -> u64 {
    formulas_looked_at(&rule.formula(), finished(accepted))
}

/// A rule whose slips can be tried one by one without too much work.
fn rule_for(random: &mut Random, labels: &[Vec<u8>], accepted: &[Event]) -> (&'static str, Rule) {
    let limit = if random.chance(1, MUCH_WORK_IN) { MUCH_WORK } else { LITTLE_WORK };
    let mut longest = *random.pick(&[1, 2, 2, 3, 3, 4, 4]);
    loop {
        let (kind, rule) = any_rule(random, labels, longest);
        if work_of(&rule, accepted) <= limit {
            return (kind, rule);
        }
        longest = (longest - 1).max(1);
    }
}

/// A rule of the form with so many "some", or nearly of it, or any.
fn any_rule(random: &mut Random, labels: &[Vec<u8>], length: usize) -> (&'static str, Rule) {
    let listed = |random: &mut Random, tree: &Tree| Rule { labels: labels.to_vec(), nodes: nodes_of(random, tree) };
    match random.below(10) {
        0..=6 => {
            let variables = chain(random, length);
            let part = part(random, labels.len(), &variables);
            ("of the form", listed(random, &not(chained(&variables, part))))
        }
        7..=8 => {
            let (kind, tree) = nearly(random, labels.len(), length);
            (kind, listed(random, &tree))
        }
        _ => ("any rule", legal_rule(random, labels.to_vec(), length)),
    }
}

/// The variables of a chain, outermost first: mostly different ones in any order, now and
/// then one that is bound twice, or any.
fn chain(random: &mut Random, length: usize) -> Vec<u8> {
    let mut variables: Vec<u8> = vec![0, 1, 2, 3];
    for last in (1..4).rev() {
        variables.swap(last, random.below(last + 1));
    }
    variables.truncate(length);
    match random.below(8) {
        0 => variables[random.below(length)] = variables[random.below(length)],
        1 => variables.fill_with(|| random.below(4) as u8),
        _ => {}
    }
    variables
}

/// "some" for each of these variables, the last one innermost.
fn chained(variables: &[u8], part: Tree) -> Tree {
    variables.iter().rev().fold(part, |inner, variable| some(*variable, inner))
}

/// A part without "some": half of the time one that few runs pass, so that the first slip
/// stands anywhere; otherwise a random tree.
fn part(random: &mut Random, label_count: usize, variables: &[u8]) -> Tree {
    if random.chance(1, 2) {
        return few_pass(random, label_count, variables);
    }
    let mut budget = *random.pick(&[1, 2, 4, 6, 10, 16, 30, 59]);
    random_tree(random, label_count, &mut variables.to_vec(), variables.len(), &mut budget)
}

/// A row of conditions: each next run relates to one before it, or has a label, or is or
/// is not the same; now and then one of two ways.
fn few_pass(random: &mut Random, label_count: usize, variables: &[u8]) -> Tree {
    let mut conditions = Vec::new();
    for (place, variable) in variables.iter().enumerate() {
        let other = variables[random.below(place + 1)];
        let relation = *random.pick(&[BEFORE, OVERLAPS, INCLUDES]);
        let [first, second] = if random.chance(1, 2) { [other, *variable] } else { [*variable, other] };
        let related = leaf(relation, first, second);
        conditions.push(match random.below(8) {
            0..=2 if place > 0 => related,
            3 if place > 0 => not(related),
            4 => leaf(SAME, other, *variable),
            5 => not(leaf(SAME, other, *variable)),
            6 if label_count > 0 => not(leaf(HAS_LABEL, *variable, random.below(label_count) as u8)),
            _ => Tree::Atom(atom(random, &variables[..=place], label_count)),
        });
    }
    if random.chance(1, 3) {
        let again = Tree::Atom(atom(random, variables, label_count));
        conditions.push(or(again, not(leaf(SAME, variables[0], variables[0]))));
    }
    // In any order.
    for last in (1..conditions.len()).rev() {
        conditions.swap(last, random.below(last + 1));
    }
    conditions.into_iter().reduce(and).expect("one condition for each variable")
}

/// A rule that is nearly of the form. All are legal but a chain of five.
fn nearly(random: &mut Random, label_count: usize, length: usize) -> (&'static str, Tree) {
    let variables = chain(random, length);
    let part = part(random, label_count, &variables);
    let inner = Tree::Atom(atom(random, &variables, label_count));
    let more = *random.pick(&variables);
    match random.below(9) {
        0 => ("no not", chained(&variables, part)),
        1 => ("two nots", not(not(chained(&variables, part)))),
        2 => ("three nots", not(not(not(chained(&variables, part))))),
        // A "some" anywhere below the chain.
        3 if length < 4 => ("some in the part", not(chained(&variables, and(part, some(more, inner))))),
        4 if length < 4 => ("not some in the part", not(chained(&variables, not(some(more, inner))))),
        // "not" or "and" between two of the chain.
        5 if length >= 2 => {
            let (outer, rest) = variables.split_at(random.between(1, length - 1));
            let rest = chained(rest, part);
            let broken = if random.chance(1, 2) { not(not(rest)) } else { and(rest, leaf(SAME, outer[0], outer[0])) };
            ("broken chain", not(chained(outer, broken)))
        }
        6 => {
            let five: Vec<u8> = variables.iter().chain(&[more; 4]).copied().take(5).collect();
            ("chain of five", not(chained(&five, part)))
        }
        7 => {
            let second = chained(&variables, inner);
            ("two chains", not(and(chained(&variables, part), second)))
        }
        _ => {
            let second = chained(&variables, inner);
            ("and of two", and(not(chained(&variables, part)), not(second)))
        }
    }
}

/// A slip for a rule: ours, another's that may pass or not, or one that is refused.
fn slip_for(random: &mut Random, rule: &Rule, record: &Record) -> (&'static str, Vec<u8>) {
    let form = form_of(rule);
    let length = form.as_ref().map_or_else(|| random.below(5), |form| form.variables.len());
    let finished: Vec<u8> = (0..MAX_RUNS as u8).filter(|run| finished_run(record, (*run).into()).is_some()).collect();
    let open: Vec<u8> = (0..MAX_RUNS as u8)
        .filter(|run| record.runs[usize::from(*run)].id != 0 && !finished.contains(run))
        .collect();
    let absent = [open.len() + finished.len(), 127, 128, 129, 200, 254, 255];
    let any = |random: &mut Random| if finished.is_empty() { 0 } else { *random.pick(&finished) };
    let mut slip: Vec<u8> = (0..length).map(|_| any(random)).collect();
    let kind = random.below(20);
    if matches!(kind, 0..=6) && lines_of(record).is_some() {
        if let Some(ours) = form.and_then(|form| first_slip_of(&form, record)) {
            slip = ours;
            if kind <= 3 {
                return ("ours", slip);
            }
            // One number is another finished run's, or one more or less.
            let at = random.below(length);
            slip[at] = match random.below(4) {
                0 => slip[at].wrapping_add(1),
                1 => slip[at].wrapping_sub(1),
                _ => any(random),
            };
            return ("ours with another run", slip);
        }
    }
    match kind {
        0..=11 => ("another's", slip),
        12..=14 => {
            let number = if !open.is_empty() && random.chance(2, 3) {
                *random.pick(&open)
            } else {
                (*random.pick(&absent)).min(255) as u8
            };
            if length > 0 {
                slip[random.below(length)] = number;
            }
            ("a run that is not finished", slip)
        }
        15..=18 => {
            let less = length.saturating_sub(1);
            let length = *random.pick(&[0, less, length + 1, 1, 2, 3, 4, 5, 6, 8, 255, 256, 260, 700]);
            slip = (0..length).map(|_| any(random)).collect();
            ("any number of runs", slip)
        }
        _ => {
            let length = random.below(9);
            ("any bytes", random.bytes(length))
        }
    }
}
