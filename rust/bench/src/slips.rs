//! Times of slips: finding the first runs that break a rule, and passing a slip, beside the check itself.

mod worst;

use crate::checks::{print_numbers, Limit};
use crate::logs::{begins_first, interleaved, kept, section_6_of_figure_1, section_6_of_section_3, Log, LAST, MAX_RUNS};
use crate::measure::seconds_of;
use crate::rules::{figure_1, section_3, two_nodes, Case};
use crate::table::{seconds, short, Number};
use crate::{measure, LABELS};
use reference::rule::read_rule;
use reference::slip::form_of;
use scene_log::{slip_passes, write_first_slip, Layout, Mode, Refusal, SLIP_BYTES, VERDICT_BYTES, WORK_BYTES};
use worst::{searched, worst};

/// On the properties of the paper, finding and passing as multiples of the whole-log call with the two-node rule.
const TO_READING: f64 = 3.0;

/// Finding that none passes, and on the worst rules finding and passing, as multiples of the check, which is the
/// whole-log call with the same rule and log; and in seconds.
const TO_WHOLE: f64 = 2.0;
const WORST_TIME: f64 = 0.3;

/// The properties of the paper that have slips. The third of both lists has a "some" in its part.
const WITH_SLIPS: [usize; 3] = [1, 2, 4];

/// How many random rules are tried for bad ones, and how many of them are measured: those with the longest times, and
/// those with the longest times to the check.
const SEARCHED: u64 = 150;
const MEASURED: usize = 3;

/// What was measured of one rule on one log.
pub struct Row {
    rule: String,
    log: &'static str,
    runs: usize,
    /// The runs that were found; none where no slip passes.
    slip: Vec<u8>,
    finding: f64,
    passing: f64,
    /// The whole log with the two-node rule, and with this one.
    reading: f64,
    whole: f64,
}

/// Measures and prints one rule on one log. The rule fails at the last line exactly where a slip is found, and that one
/// passes; where there is none, the slip that is handed in has the last run for each "some".
fn row(rule: &Case, log: &Log) -> Row {
    let file = &rule.file;
    let record = log.record();
    let (whole, verdicts) = measure::whole_log(file, log);
    let find = |slip: &mut [u8]| write_first_slip(file, &record, slip).map_err(Refusal::number);
    let (finding, (found, mut slip)) = measure::lent_buffer(SLIP_BYTES, find);
    slip.truncate(found.expect("a rule that has slips"));
    assert_eq!(slip.is_empty(), verdicts[2 * log.runs - 1], "a slip is found where the rule fails: {}", rule.name);
    let form = form_of(&read_rule(file).expect("a legal rule")).expect("a rule that has slips");
    let given = if slip.is_empty() { vec![log.runs as u8 - 1; form.variables.len()] } else { slip.clone() };
    let pass = |_: &mut [u8]| slip_passes(file, &record, &given).map(usize::from).map_err(Refusal::number);
    let (passing, (passes, _)) = measure::lent_buffer(0, pass);
    assert_eq!(passes, Ok(usize::from(!slip.is_empty())), "{}", rule.name);
    let reading = measure::whole_log(&two_nodes().file, log).0;
    let row = Row { rule: rule.name.clone(), log: log.kind, runs: log.runs, slip, finding, passing, reading, whole };
    print_row(&row);
    row
}

/// The logs of a property of figure 1, as in its own group.
fn logs_of_figure_1(property: usize, runs: usize) -> [Log; 4] {
    let labels = figure_1(property).labels();
    let section_6 = section_6_of_figure_1(property, runs);
    [section_6, kept(property, runs), interleaved(runs, &labels), begins_first(runs, &labels)]
}

fn logs_of_section_3(property: usize, runs: usize) -> [Log; 3] {
    [section_6_of_section_3(property, runs), interleaved(runs, &LABELS), begins_first(runs, &LABELS)]
}

/// The logs of the worst rules: the labels in turn, and on the last run LAST.
fn logs_of_worst(runs: usize) -> [Log; 2] {
    let mut labels: Vec<&str> = (0..runs).map(|run| LABELS[run % LABELS.len()]).collect();
    labels[runs - 1] = LAST;
    [interleaved(runs, &labels), begins_first(runs, &labels)]
}

/// Random rules that are slow on this log: the time of one call each, and of one check.
fn slow_rules(log: &Log) -> Vec<Case> {
    let record = log.record();
    let mut timed: Vec<(f64, f64, u64)> = (0..SEARCHED)
        .map(|seed| {
            let file = searched(seed).file;
            let (mut work, mut verdicts) = (vec![0; WORK_BYTES], vec![0; VERDICT_BYTES]);
            let finding = seconds_of(|| {
                let _ = write_first_slip(&file, &record, &mut [0; SLIP_BYTES]);
            });
            let whole = seconds_of(|| {
                let (layout, mode) = (Layout::Square, Mode::Full);
                let _ = scene_log::check_log(layout, mode, &file, &log.bytes, &mut work, &mut verdicts);
            });
            (finding, finding / whole, seed)
        })
        .collect();
    timed.sort_by(|one, other| other.0.total_cmp(&one.0));
    let longest: Vec<u64> = timed.iter().take(MEASURED).map(|(_, _, seed)| *seed).collect();
    timed.sort_by(|one, other| other.1.total_cmp(&one.1));
    let others = timed.iter().map(|(_, _, seed)| *seed).filter(|seed| !longest.contains(seed)).take(MEASURED);
    longest.iter().copied().chain(others).map(searched).collect()
}

/// Measures and prints all rows, on logs of so many runs.
pub fn measured(title: &str, runs: usize) -> Vec<Row> {
    println!("\n## {title}\n");
    println!(
        "| Rule | Log | Runs | First slip | Finding it | Passing a slip | reading | whole log | finding / reading \
         | passing / reading | finding / whole | passing / whole |"
    );
    println!("|---|---|--:|---|--:|--:|--:|--:|--:|--:|--:|--:|");
    let mut rows = Vec::new();
    for property in WITH_SLIPS {
        rows.extend(logs_of_figure_1(property, runs).map(|log| row(&figure_1(property), &log)));
    }
    for property in WITH_SLIPS {
        rows.extend(logs_of_section_3(property, runs).map(|log| row(&section_3(property), &log)));
    }
    for log in logs_of_worst(runs) {
        rows.extend(worst().iter().map(|rule| row(rule, &log)));
        rows.extend(slow_rules(&log).iter().map(|rule| row(rule, &log)));
    }
    rows
}

fn print_row(row: &Row) {
    let slip: Vec<String> = row.slip.iter().map(u8::to_string).collect();
    let cells = [
        row.rule.clone(),
        row.log.into(),
        row.runs.to_string(),
        if slip.is_empty() { "none".into() } else { slip.join(", ") },
        seconds(row.finding),
        seconds(row.passing),
        seconds(row.reading),
        seconds(row.whole),
        short(row.finding / row.reading),
        short(row.passing / row.reading),
        short(row.finding / row.whole),
        short(row.passing / row.whole),
    ];
    println!("| {} |", cells.join(" | "));
}

/// Prints a line for each requirement, over the rows of full logs. Answers whether none failed.
pub fn print_checks(rows: &[Row]) -> bool {
    let check = |rules: &str, what: &str, limit: f64, number: fn(&Row) -> Option<f64>, form| {
        let of = rows.iter().filter(|row| row.runs == MAX_RUNS && row.rule.starts_with(rules));
        let numbers = of.filter_map(number).map(|value| Number { value, is_taken: true }).collect();
        let name = if rules.contains("slips") { rules.into() } else { format!("slips, {rules}") };
        print_numbers(&name, what, Limit::AtMost(limit), numbers, form)
    };
    let finding: fn(&Row) -> Option<f64> = |row| Some(row.finding / row.reading);
    let none: fn(&Row) -> Option<f64> = |row| row.slip.is_empty().then_some(row.finding / row.whole);
    let passed = [
        check("figure 1", "finding / reading", TO_READING, finding, short),
        check("figure 1", "finding none / whole log", TO_WHOLE, none, short),
        check("figure 1", "passing / reading", TO_READING, |row| Some(row.passing / row.reading), short),
        check("section 3", "finding / reading", TO_READING, finding, short),
        check("section 3", "finding none / whole log", TO_WHOLE, none, short),
        check("section 3", "passing / reading", TO_READING, |row| Some(row.passing / row.reading), short),
        check("worst slips", "finding / whole log", TO_WHOLE, |row| Some(row.finding / row.whole), short),
        check("worst slips", "passing / whole log", TO_WHOLE, |row| Some(row.passing / row.whole), short),
        check("worst slips", "finding", WORST_TIME, |row| Some(row.finding), seconds),
        check("worst slips", "passing", WORST_TIME, |row| Some(row.passing), seconds),
    ];
    passed.iter().all(|passed| *passed)
}

#[cfg(test)]
mod tests {
    use super::*;
    use reference::calls as by_reference;
    use reference::record::record_of;
    use reference::trace::accepted_lines;

    /// The first slip by the reference; the library finds the same, and passes it.
    fn agreed_slip(rule: &Case, log: &Log) -> Vec<u8> {
        let (accepted, _) = accepted_lines(&log.bytes);
        let mut slip = vec![0; SLIP_BYTES];
        let runs = by_reference::first_slip(&rule.file, &record_of(&accepted), &mut slip).expect("a rule with slips");
        let record = log.record();
        let mut found = vec![0; SLIP_BYTES];
        let message = format!("{}, {}", rule.name, log.kind);
        assert_eq!(write_first_slip(&rule.file, &record, &mut found), Ok(runs), "{message}");
        assert_eq!(found, slip, "{message}");
        slip.truncate(runs);
        assert!(runs == 0 || slip_passes(&rule.file, &record, &slip) == Ok(true), "{message}");
        slip
    }

    fn nodes_of(rule: &Case) -> usize {
        read_rule(&rule.file).expect("a legal rule").nodes.len()
    }

    #[test]
    fn no_slip_of_a_worst_rule_passes_but_the_last_of_all() {
        for log in logs_of_worst(9) {
            for rule in worst() {
                assert!((60..=64).contains(&nodes_of(&rule)), "{}", rule.name);
                let expected = if rule.name.ends_with("the last of all") { vec![8; 4] } else { vec![] };
                assert_eq!(agreed_slip(&rule, &log), expected, "{}", rule.name);
            }
        }
    }

    #[test]
    fn no_slip_of_a_searched_rule_passes() {
        let mut large = 0;
        for seed in 0..SEARCHED {
            let rule = searched(seed);
            assert!(nodes_of(&rule) <= 64);
            large += u64::from(nodes_of(&rule) >= 40);
            for log in logs_of_worst(6) {
                assert_eq!(agreed_slip(&rule, &log), [], "{}", rule.name);
            }
        }
        assert!(large >= SEARCHED / 3, "{large}");
    }

    /// Section 6 logs break a property at the last line, so there is a slip; kept ones have none.
    #[test]
    fn library_and_reference_agree_on_the_slips_of_the_properties() {
        for property in WITH_SLIPS {
            let [broken, kept, ..] = logs_of_figure_1(property, 40).map(|log| agreed_slip(&figure_1(property), &log));
            assert!(!broken.is_empty() && kept.is_empty(), "property {property}");
            let [broken, ..] = logs_of_section_3(property, 40).map(|log| agreed_slip(&section_3(property), &log));
            assert!(!broken.is_empty(), "property {property}");
        }
        for property in [figure_1(3), section_3(3)] {
            assert_eq!(form_of(&read_rule(&property.file).expect("a legal rule")), None);
        }
    }
}
