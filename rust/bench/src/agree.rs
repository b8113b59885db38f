//! The two baselines answer what the proved check answers, and rules and logs are what they are said to be.

use crate::deep::{deep_rule, has_open_pair};
use crate::logs::{
    begins_first, begins_first_by, few_and_fresh_ids, interleaved, interleaved_by, kept, section_6_of_figure_1,
    section_6_of_section_3, Log,
};
use crate::measure::Baseline;
use crate::rules::{figure_1, section_3, two_nodes, worst, Case, NodeList};
use crate::trace::{Line, Trace};
use crate::{plain, published, LABELS};
use generate::case;
use generate::random::Random;
use generate::rules::legal_rule;
use reference::rule::{read_rule, BEFORE, HAS_LABEL, INCLUDES};
use reference::typed::rule_file;
use scene_log::{check_log, Layout, LogRefused, Mode, VERDICT_BYTES, WORK_BYTES};
use std::collections::BTreeSet;

const PLAIN: (&str, Baseline) = ("plain", plain::verdicts);
const PUBLISHED: (&str, Baseline) = ("published", published::verdicts);

/// The verdicts of the accepted lines by the proved check; the rule is legal.
fn proved_verdicts(rule: &[u8], log: &[u8]) -> Vec<bool> {
    let (mut work, mut verdicts) = (vec![0; WORK_BYTES], vec![0; VERDICT_BYTES]);
    let answer = check_log(Layout::Square, Mode::Full, rule, log, &mut work, &mut verdicts);
    let lines = answer.unwrap_or_else(LogRefused::lines);
    verdicts[..usize::from(lines)].iter().map(|verdict| *verdict == 1).collect()
}

/// All three on a rule and the accepted lines of a log; answers the verdicts.
fn agreed_verdicts(rule: &[u8], log: &[u8], message: &str) -> Vec<bool> {
    agreed_with(&[PLAIN, PUBLISHED], rule, log, message)
}

/// The proved check and these baselines on a rule and the accepted lines of a log; answers the verdicts.
fn agreed_with(baselines: &[(&str, Baseline)], rule: &[u8], log: &[u8], message: &str) -> Vec<bool> {
    let expected = proved_verdicts(rule, log);
    let accepted: usize = log.split_inclusive(|byte| *byte == b'\n').take(expected.len()).map(<[u8]>::len).sum();
    let (rule, trace) = (read_rule(rule).expect("a legal rule"), Trace::read(&log[..accepted]));
    for (name, verdicts_of) in baselines {
        assert_eq!(verdicts_of(&rule, &trace), expected, "{name}, {message}");
    }
    expected
}

/// The same on a whole log, of which no line is refused.
fn all_agreed(baselines: &[(&str, Baseline)], rule: &[u8], log: &Log, message: &str) -> Vec<bool> {
    let verdicts = agreed_with(baselines, rule, &log.bytes, message);
    assert_eq!(verdicts.len(), 2 * log.runs, "every line is taken: {message}");
    verdicts
}

/// How often the verdict changes from a line to the next.
fn changes(verdicts: &[bool]) -> usize {
    verdicts.windows(2).filter(|two| two[0] != two[1]).count()
}

#[test]
fn the_three_agree_on_generated_cases() {
    let (mut holds, mut fails) = (0, 0);
    for seed in 0..600 {
        let case = case(reference::Layout::Square, seed);
        if read_rule(&case.rule).is_ok() {
            let verdicts = agreed_verdicts(&case.rule, &case.log, &format!("seed {seed}"));
            holds += verdicts.iter().filter(|verdict| **verdict).count();
            fails += verdicts.iter().filter(|verdict| !**verdict).count();
        }
    }
    assert!(holds >= 1000 && fails >= 1000, "{holds} lines hold, {fails} fail");
}

/// Rules with up to four nested "some" on logs of up to 14 runs of both kinds: three of four from `deep`, the others from
/// `generate`.
#[test]
fn the_three_agree_on_small_logs_with_deep_rules() {
    let rule_labels = ["1", "2", "NEVER"];
    let (mut logs, mut for_matrix, mut changed) = (BTreeSet::new(), 0, 0);
    for seed in 0..6000 {
        let random = &mut Random::new(seed);
        let rule = match random.between(1, 4) {
            1 => legal_rule(random, rule_labels.map(|label| label.as_bytes().to_vec()).into(), 4).to_bytes(),
            nested => deep_rule(random, &rule_labels, nested),
        };
        let runs = if random.chance(1, 4) { random.between(1, 8) } else { random.between(9, 14) };
        let labels: Vec<&str> = (0..runs).map(|_| *random.pick(&LABELS)).collect();
        let is_for_matrix = runs >= 9 && has_open_pair(&read_rule(&rule).expect("a legal rule"));
        for log in [interleaved_by(!seed, runs, &labels), begins_first_by(!seed, runs, &labels)] {
            let verdicts = all_agreed(&[PLAIN, PUBLISHED], &rule, &log, &format!("seed {seed}, {}", log.kind));
            changed += changes(&verdicts);
            for_matrix += usize::from(is_for_matrix);
            logs.insert(log.bytes);
        }
    }
    assert!(logs.len() >= 10_000 && for_matrix >= 4000, "{} different logs, {for_matrix} of them for the matrix", logs.len());
    assert!(changed >= 5000, "{changed} changes of a verdict");
}

/// Three nested "some" and rows of two words. Only runs that finish as the 65th or later have the label LATE, so that verdicts
/// also change there. Plain takes long here and judges one log of eight.
#[test]
fn proved_and_published_agree_on_logs_of_70_runs_with_deep_rules() {
    let (mut for_matrix, mut changed, mut changed_late) = (0, 0, 0);
    for seed in 0..1200 {
        let random = &mut Random::new(seed);
        let rule = deep_rule(random, &["1", "LATE"], 3);
        let log = |labels: &[&str]| {
            if seed % 2 == 0 { interleaved_by(!seed, 70, labels) } else { begins_first_by(!seed, 70, labels) }
        };
        let mut labels: Vec<&str> = (0..70).map(|_| *random.pick(&LABELS)).collect();
        let (late, from) = late_runs(&log(&labels));
        for run in late {
            labels[run] = *random.pick(&["LATE", "LATE", "1", ""]);
        }
        let baselines = if seed % 16 < 2 { &[PUBLISHED, PLAIN][..] } else { &[PUBLISHED] };
        let log = log(&labels);
        let verdicts = all_agreed(baselines, &rule, &log, &format!("seed {seed}, {}", log.kind));
        changed += changes(&verdicts);
        changed_late += changes(&verdicts[from - 1..]);
        for_matrix += usize::from(has_open_pair(&read_rule(&rule).expect("a legal rule")));
    }
    assert!(for_matrix >= 600, "{for_matrix} rules for the matrix");
    assert!(changed >= 800 && changed_late >= 50, "{changed} changes of a verdict, {changed_late} of them late");
}

/// The runs that finish as the 65th or later, whose ranks are in the second word of a row, and how many lines come before the
/// first of these ends.
fn late_runs(log: &Log) -> (Vec<usize>, usize) {
    let lines = Trace::read(&log.bytes).lines;
    let ends = lines.iter().enumerate().filter_map(|(before, line)| match line {
        Line::End { run } => Some((*run, before)),
        Line::Begin { .. } => None,
    });
    let (late, before): (Vec<usize>, Vec<usize>) = ends.skip(64).unzip();
    (late, before[0])
}

/// Rows of one word and, from 65 finished runs on, of two.
#[test]
fn the_three_agree_on_long_logs() {
    let log = interleaved(68, &LABELS);
    for rule in [two_nodes(), section_3(1), section_3(2), section_3(3), section_3(4), figure_1(2)] {
        all_agreed(&[PLAIN, PUBLISHED], &rule.file, &log, &rule.name);
    }
    for property in 1..=4 {
        all_agreed(&[PLAIN, PUBLISHED], &figure_1(property).file, &kept(property, 68), &format!("property {property}"));
    }
}

/// Four variables and rows of two words, without four nested loops for plain: "some A, B, C, D, p and q" is "some p and
/// some q" where p and q share no variable. The log ends in a DL_MOBPRM that includes a DL_FAIL, the only one.
#[test]
fn a_rule_over_four_variables_is_its_two_halves() {
    let log = section_6_of_figure_1(2, 68);
    for [x, y, u, v] in [[0, 3, 1, 2], [3, 0, 2, 1], [1, 3, 0, 2], [2, 0, 3, 1], [0, 1, 2, 3], [2, 3, 1, 0]] {
        let mut halves = NodeList::with_labels(&["DL_MOBPRM"]);
        let has = halves.node(HAS_LABEL, x, 0);
        let includes = halves.node(INCLUDES, x, y);
        let includes = halves.some(&[y], includes);
        let both = halves.and(has, includes);
        let first = halves.some(&[x], both);
        let before = halves.node(BEFORE, u, v);
        let second = halves.some(&[u, v], before);
        halves.and(first, second);
        let mut whole = NodeList::with_labels(&["DL_MOBPRM"]);
        let has = whole.node(HAS_LABEL, x, 0);
        let includes = whole.node(INCLUDES, x, y);
        let first = whole.and(has, includes);
        let before = whole.node(BEFORE, u, v);
        let both = whole.and(first, before);
        let nots = whole.nots(2, both);
        whole.some(&[0, 1, 2, 3], nots);
        let expected = all_agreed(&[PLAIN, PUBLISHED], &halves.file(), &log, "halves");
        assert_eq!(expected.iter().position(|verdict| *verdict), Some(2 * log.runs - 1));
        let message = format!("variables {x}, {y} and {u}, {v}");
        let found = all_agreed(&[PUBLISHED], &whole.file(), &log, &message);
        assert_eq!(found, expected, "{message}");
    }
}

/// The most runs that are open at a time.
fn most_open(log: &Log) -> usize {
    let (mut open, mut most) = (0, 0);
    for line in Trace::read(&log.bytes).lines {
        match line {
            Line::Begin { .. } => open += 1,
            Line::End { .. } => open -= 1,
        }
        most = most.max(open);
    }
    most
}

/// The ids of a log, in the order of its lines.
fn ids_of(log: &Log) -> Vec<String> {
    let text = String::from_utf8(log.bytes.clone()).unwrap();
    text.lines().map(|line| line.split(' ').nth(1).unwrap().into()).collect()
}

#[test]
fn logs_of_few_ids_have_the_lines_of_those_of_fresh_ids() {
    for (count, runs) in [(1, 128), (4, 128), (16, 128), (1, 32), (4, 32)] {
        let [few, fresh] = few_and_fresh_ids(count, runs, &LABELS);
        assert_eq!((few.runs, fresh.runs), (runs, runs));
        let different = |log: &Log| ids_of(log).into_iter().collect::<BTreeSet<String>>();
        assert_eq!((different(&few).len(), different(&fresh).len()), (count, runs));
        assert!(different(&few).iter().chain(&different(&fresh)).all(|id| id.len() == 3));
        assert!((count.div_ceil(2)..=count).contains(&most_open(&few)));
        // The same runs begin and end at the same lines; all but the ids is the same.
        assert_eq!(Trace::read(&few.bytes).lines, Trace::read(&fresh.bytes).lines);
        let renamed: Vec<u8> = few
            .bytes
            .split_inclusive(|byte| *byte == b'\n')
            .zip(ids_of(&fresh))
            .flat_map(|(line, id)| [&line[..2], id.as_bytes(), &line[5..]].concat())
            .collect();
        assert!(renamed == fresh.bytes, "{count} ids, {runs} runs");
    }
}

/// The verdicts are those of the same lines with fresh ids.
#[test]
fn the_three_agree_on_logs_of_few_ids() {
    for count in [1, 4, 16] {
        let [few, fresh] = few_and_fresh_ids(count, 40, &LABELS);
        for rule in [two_nodes(), section_3(1), section_3(2), section_3(3), section_3(4)] {
            let verdicts = all_agreed(&[PLAIN, PUBLISHED], &rule.file, &few, &rule.name);
            assert_eq!(verdicts, all_agreed(&[], &rule.file, &fresh, &rule.name), "{}, {count} ids", rule.name);
        }
    }
}

fn break_only_at_the_last_line(rule: fn(usize) -> Case, log: fn(usize, usize) -> Log) {
    for (property, runs) in (1..=4).flat_map(|property| [16, 33].map(|runs| (property, runs))) {
        let (rule, log) = (rule(property), log(property, runs));
        let verdicts = all_agreed(&[PLAIN, PUBLISHED], &rule.file, &log, &format!("{}, {runs} runs", rule.name));
        assert_eq!((log.runs, verdicts.len()), (runs, 2 * runs));
        assert_eq!(verdicts.iter().position(|verdict| !verdict), Some(2 * runs - 1), "{}", rule.name);
        assert!(most_open(&log) <= 3, "{}", rule.name);
    }
}

#[test]
fn section_6_logs_break_the_properties_of_figure_1_at_the_last_line_only() {
    break_only_at_the_last_line(figure_1, section_6_of_figure_1);
}

#[test]
fn section_6_logs_break_the_properties_of_section_3_at_the_last_line_only() {
    break_only_at_the_last_line(section_3, section_6_of_section_3);
}

#[test]
fn kept_logs_keep_the_properties_of_figure_1() {
    for (property, runs) in (1..=4).flat_map(|property| [16, 40].map(|runs| (property, runs))) {
        let verdicts = all_agreed(&[PLAIN, PUBLISHED], &figure_1(property).file, &kept(property, runs), "kept");
        assert!(verdicts.len() == 2 * runs && verdicts.iter().all(|verdict| *verdict), "property {property}");
    }
}

#[test]
fn interleaved_logs_break_figure_1_and_begins_first_keeps_properties_1_and_3() {
    for property in 1..=4 {
        let rule = figure_1(property);
        let labels = rule.labels();
        for runs in [32, 128] {
            let [mixed, first] = [interleaved(runs, &labels), begins_first(runs, &labels)]
                .map(|log| all_agreed(&[PUBLISHED], &rule.file, &log, &rule.name));
            assert!(mixed[0] && mixed.contains(&false), "{}, {runs} runs", rule.name);
            assert_eq!(first.contains(&false), property % 2 == 0, "{}, {runs} runs", rule.name);
        }
    }
}

#[test]
fn the_worst_rules_have_as_many_nodes_as_the_limit_lets_and_are_never_true() {
    for rule in worst() {
        let nodes = read_rule(&rule.file).expect("a legal rule").nodes.len();
        assert!((63..=64).contains(&nodes), "{}: {nodes} nodes", rule.name);
        for log in [interleaved(12, &LABELS), begins_first(12, &LABELS)] {
            let verdicts = agreed_verdicts(&rule.file, &log.bytes, &rule.name);
            assert!(verdicts.len() == 24 && !verdicts.contains(&true), "{}", rule.name);
        }
    }
}

#[test]
fn both_relations_of_a_pair_occur_in_both_kinds_of_logs() {
    let occurs = |text: &str, log: &Log| {
        let rule = rule_file(text.as_bytes()).expect("a legal rule");
        agreed_verdicts(&rule, &log.bytes, text).contains(&true)
    };
    for log in [interleaved(16, &LABELS), begins_first(16, &LABELS)] {
        assert!(occurs("exist A, B . A o B", &log) && occurs("exist A, B . A i B", &log), "{}", log.kind);
    }
}
