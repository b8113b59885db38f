//! The cases reach every refusal, and the reference agrees with itself on them.

use generate::areas::{places_not_begun, Fault};
use generate::logs::{faulty_line, LINE_REFUSALS};
use generate::random::Random;
use generate::records::{share_id, sharings, Sharing, SHARINGS};
use generate::{case, log_left, reference_answers, rule_refusal, Case};
use reference::calls::{check_line, check_line_with_tally, finished_runs, start_record, Tally};
use reference::formula::Formula;
use reference::line::{read_line, Event};
use reference::reading::{read_log, Reading};
use reference::record::{first_place, lines_of, pair_bytes, record_of};
use reference::report::report;
use reference::rule::read_rule;
use reference::trace::{accepted_lines, judge_line, labels_of, runs_of, Run};
use reference::{Layout, Mode, MAX_LABELS, MAX_RUNS, VERDICT_BYTES};
use std::collections::{BTreeMap, BTreeSet};

const CASES: u64 = 4000;

/// The lengths of work areas about both sizes.
const LENGTHS: [usize; 6] = [8127, 8128, 8131, 16383, 16384, 16387];

#[test]
fn a_seed_always_gives_the_same_case() {
    for (seed, layout) in in_both(0..50) {
        assert_eq!(case(layout, seed), case(layout, seed));
    }
    for layout in Layout::ALL {
        assert_ne!(case(layout, 1), case(layout, 2));
    }
}

/// Each seed in either layout.
fn in_both(seeds: std::ops::Range<u64>) -> impl Iterator<Item = (u64, Layout)> {
    seeds.flat_map(|seed| Layout::ALL.map(|layout| (seed, layout)))
}

/// The case of a seed, where the layout has no part in what is looked at.
fn case_of(seed: u64) -> Case {
    case(Layout::Square, seed)
}

#[test]
fn the_cases_of_a_seed_differ_in_layout_and_work_areas_alone() {
    for seed in 0..CASES {
        let (square, half) = (case(Layout::Square, seed), case(Layout::Half, seed));
        let Case { log_work, work, start_work, .. } = square.clone();
        assert_eq!(Case { layout: Layout::Square, log_work, work, start_work, ..half }, square, "seed {seed}");
    }
}

/// Every number of the list is reached, and every one that the program can print is
/// printed.
#[test]
fn every_refusal_number_is_reached() {
    Layout::ALL.into_iter().for_each(every_refusal_number_is_reached_in);
}

fn every_refusal_number_is_reached_in(layout: Layout) {
    let mut answered: BTreeMap<u8, u64> = BTreeMap::new();
    let mut printed: BTreeMap<u8, u64> = BTreeMap::new();
    for seed in 0..CASES {
        let answers = reference_answers(&case(layout, seed));
        for number in answers.refusals() {
            *answered.entry(number).or_default() += 1;
        }
        let text = String::from_utf8(answers.full.report).unwrap();
        for (_, number) in text.lines().filter_map(|line| line.split_once(" R")) {
            *printed.entry(number.parse().unwrap()).or_default() += 1;
        }
    }
    println!("{layout:?}: answered {answered:?}");
    println!("printed {printed:?}");
    let numbers: Vec<u8> = answered.keys().copied().collect();
    assert_eq!(numbers, (1..=24).collect::<Vec<u8>>());
    let numbers: Vec<u8> = printed.keys().copied().collect();
    assert_eq!(numbers, [1, 2, 3, 4, 5, 6, 7, 8, 9, 10, 11, 12, 13, 15, 16, 17, 18, 19]);
    // None of them by a lucky case only.
    for (number, times) in answered.iter().chain(&printed) {
        assert!(*times >= 10, "{number}: {times}");
    }
}

/// Each call is lent a work area of each of the lengths about both sizes, and of others, in either layout.
#[test]
fn work_areas_of_every_length_are_lent() {
    let mut lent: BTreeMap<(Layout, &str, Option<usize>), u64> = BTreeMap::new();
    for (seed, layout) in in_both(0..CASES) {
        let Case { log_work, work, start_work, .. } = case(layout, seed);
        for (call, length) in [("log", log_work.len()), ("line", work.len()), ("start", start_work.len())] {
            let known = LENGTHS.contains(&length).then_some(length);
            *lent.entry((layout, call, known)).or_default() += 1;
        }
    }
    println!("{lent:?}");
    for layout in Layout::ALL {
        for call in ["log", "line", "start"] {
            for length in LENGTHS.map(Some).into_iter().chain([None]) {
                let count = lent.get(&(layout, call, length)).copied().unwrap_or(0);
                assert!(count >= 10, "{layout:?}, {call}, {length:?}: {count}");
            }
        }
        // Most areas are long enough, and many have just the layout's size.
        assert!(lent[&(layout, "line", Some(layout.size()))] >= CASES / 3);
    }
}

/// Which pair byte is changed in a work area that is otherwise its record's.
#[derive(Clone, Copy, PartialEq, Eq, PartialOrd, Ord, Debug)]
enum Changed {
    /// One of two runs that have begun.
    Begun,
    /// The first byte of a run that has not, another of such runs, and the last of all.
    FirstBehind,
    Behind,
    Last,
    /// In the square, a byte that no pair has.
    NoPair,
}

/// What the single-line call answers, and the work area that it leaves.
fn line_answer(case: &Case) -> (Result<bool, u8>, Vec<u8>) {
    let mut work = case.work.clone();
    (check_line(case.layout, &case.rule, &case.record, &mut work, &case.line).verdict, work)
}

/// The only place within the layout's size where the area is not the record's.
fn changed_place(case: &Case) -> Option<usize> {
    let own = pair_bytes(case.layout, &case.record);
    let places: Vec<usize> = (0..own.len()).filter(|place| case.work.get(*place) != Some(&own[*place])).collect();
    if let [place] = places[..] { Some(place) } else { None }
}

fn changed_of(case: &Case, place: usize) -> Changed {
    let (first, second) = case.layout.pairs()[place];
    let behind = places_not_begun(case.layout, &case.record);
    match behind.iter().position(|other| *other == place) {
        None if first < second => Changed::Begun,
        None => Changed::NoPair,
        Some(0) => Changed::FirstBehind,
        Some(at) if at + 1 == behind.len() && case.layout == Layout::Half => Changed::Last,
        Some(_) => Changed::Behind,
    }
}

/// In either layout one byte is changed in each part of the area, and 21 is met for that alone.
#[test]
fn areas_with_one_byte_changed_are_reached() {
    let mut found: BTreeMap<(Layout, Changed), u64> = BTreeMap::new();
    for (seed, layout) in in_both(0..2 * CASES) {
        let case = case(layout, seed);
        if case.fault != Fault::Byte || rule_refusal(&case).is_some() || lines_of(&case.record).is_none() {
            continue;
        }
        if let Some(place) = changed_place(&case) {
            assert_eq!(line_answer(&case).0, Err(21), "seed {seed}");
            *found.entry((layout, changed_of(&case, place))).or_default() += 1;
        }
    }
    println!("{found:?}");
    use Changed::{Begun, Behind, FirstBehind, Last, NoPair};
    let half = [Begun, FirstBehind, Behind, Last].map(|changed| (Layout::Half, changed));
    let square = [Begun, FirstBehind, Behind, NoPair].map(|changed| (Layout::Square, changed));
    assert_eq!(found.keys().copied().collect::<Vec<_>>(), [square, half].concat());
    assert!(found.values().all(|count| *count >= 20));
}

/// What is met by an area of the other layout: 21 from two runs on, and with fewer a verdict or the line's refusal;
/// also 20, where it is too short for the layout that is named.
#[test]
fn areas_of_the_other_layout_are_reached() {
    let mut met: BTreeMap<(Layout, bool, &str), u64> = BTreeMap::new();
    for (seed, layout) in in_both(0..2 * CASES) {
        let case = case(layout, seed);
        let is_other = case.fault == Fault::Layout && lines_of(&case.record).is_some();
        if !is_other || rule_refusal(&case).is_some() {
            continue;
        }
        let several = case.record.runs[1].begin != 0;
        let answer = match line_answer(&case).0 {
            Err(20) => "20",
            Err(21) => "21",
            _ => "the area is taken",
        };
        *met.entry((layout, several, answer)).or_default() += 1;
    }
    println!("{met:?}");
    use Layout::{Half, Square};
    let expected = [
        (Square, false, "20"),
        (Square, false, "21"),
        (Square, false, "the area is taken"),
        (Square, true, "20"),
        (Square, true, "21"),
        (Half, false, "the area is taken"),
        (Half, true, "21"),
    ];
    assert_eq!(met.keys().copied().collect::<Vec<_>>(), expected);
    assert!(met.values().all(|count| *count >= 10));
}

/// Areas that are their record's, with anything behind the pair bytes: zeros, and other bytes. The line is judged, and
/// the bytes behind stay.
#[test]
fn bytes_behind_the_pair_bytes_are_anything() {
    let mut found: BTreeMap<(Layout, &str), u64> = BTreeMap::new();
    for (seed, layout) in in_both(0..2 * CASES) {
        let case = case(layout, seed);
        let Some(behind) = case.work.get(layout.size()..).filter(|behind| !behind.is_empty()) else {
            continue;
        };
        let (Ok(_), left) = line_answer(&case) else {
            continue;
        };
        assert_eq!(&left[layout.size()..], behind, "seed {seed}");
        let kind = if behind.iter().all(|byte| *byte == 0) { "zeros" } else { "others" };
        *found.entry((layout, kind)).or_default() += 1;
    }
    println!("{found:?}");
    assert_eq!(found.len(), 4);
    assert!(found.values().all(|count| *count >= 180));
}

/// "give the same verdicts, refusals and relations": where no area is too short, all answers of the reference but the
/// work areas are the same in either layout.
#[test]
fn the_reference_answers_the_same_in_either_layout() {
    let (mut logs, mut lines) = (0, 0);
    for seed in 0..CASES / 2 {
        let cases = Layout::ALL.map(|layout| case(layout, seed));
        let [square, half] = cases.clone().map(|case| reference_answers(&case));
        let are_long = cases.iter().all(|case| case.log_work.len() >= case.layout.size());
        for (square, half) in [(&square.full, &half.full), (&square.first_failure, &half.first_failure)] {
            assert_eq!(square.report, half.report, "seed {seed}");
            if are_long {
                assert_eq!((&square.answer, &square.verdicts), (&half.answer, &half.verdicts), "seed {seed}");
            }
        }
        logs += u64::from(are_long);
        // A byte that is changed may stand where the other layout has none.
        if matches!(cases[0].fault, Fault::None) {
            let left = |answers: &generate::Answers| (answers.line.clone(), answers.tally_line.clone(), answers.tally);
            assert_eq!(left(&square), left(&half), "seed {seed}");
            lines += 1;
        }
    }
    println!("{logs} logs, {lines} lines");
    assert!(logs >= CASES * 2 / 5 && lines >= CASES / 4);
}

/// In more than half of the cases whose rule is taken the modes differ, in more than a quarter by a failure that comes
/// after line 1. Every line refusal stands behind a first failure, and many a one right behind it.
#[test]
fn the_modes_differ_in_a_good_share_of_the_cases() {
    let (mut judged, mut differ, mut at_line_1, mut later, mut at_the_last) = (0, 0, 0, 0, 0);
    let mut behind: BTreeMap<u8, u64> = BTreeMap::new();
    let mut right_behind: BTreeMap<u8, u64> = BTreeMap::new();
    for seed in 0..CASES {
        let case = case_of(seed);
        let Ok(rule) = read_rule(&case.rule) else {
            continue;
        };
        let [short, full] = Mode::ALL.map(|mode| read_log(mode, &rule.formula(), &case.log));
        judged += 1;
        differ += u64::from(short != full);
        let Some(before) = full.verdicts.iter().position(|holds| !holds) else {
            assert_eq!(short, full, "seed {seed}");
            continue;
        };
        let read = Reading {
            accepted: full.accepted[..=before].to_vec(),
            verdicts: full.verdicts[..=before].to_vec(),
            refusal: None,
        };
        assert_eq!(short, read, "seed {seed}");
        at_line_1 += u64::from(before == 0);
        later += u64::from(before > 0 && short != full);
        at_the_last += u64::from(short == full);
        if let Some(number) = full.refusal {
            *behind.entry(number).or_default() += 1;
            *right_behind.entry(number).or_default() += u64::from(full.verdicts.len() == before + 1);
        }
    }
    println!("{judged} rules, {differ} differ; {at_line_1} fail at line 1, {later} later, {at_the_last} at the end");
    println!("refusals behind a failure {behind:?}, right behind it {right_behind:?}");
    assert!(differ * 2 > judged && later * 4 > judged && at_line_1 >= 500 && at_the_last >= 10);
    assert_eq!(behind.keys().copied().collect::<Vec<u8>>(), LINE_REFUSALS);
    assert!(behind.values().sum::<u64>() * 4 > judged && behind.values().all(|count| *count >= 20));
    assert!(right_behind.values().sum::<u64>() >= 100);
}

/// How many "some" nodes lie one inside another.
fn nesting(formula: &Formula) -> usize {
    match formula {
        Formula::And(first, second) => nesting(first).max(nesting(second)),
        Formula::Not(child) => nesting(child),
        Formula::Some(_, child) => 1 + nesting(child),
        _ => 0,
    }
}

/// The kinds of log that are easy to miss.
#[test]
fn full_logs_many_labels_and_common_first_places_are_reached() {
    let (mut full, mut labels_full, mut both, mut collisions, mut wraps, mut past_8192, mut longest_rules) =
        (0, 0, 0, 0, 0, 0, 0);
    let (mut changing, mut comes_back, mut longest_logs, mut full_nested) = (0, 0, 0, 0);
    for seed in 0..CASES {
        let case = case_of(seed);
        let (accepted, _) = accepted_lines(&case.log);
        let labels = labels_of(&accepted);
        let begun = accepted.iter().filter(|event| matches!(event, Event::Begin { .. })).count();
        full += u64::from(begun == 128);
        labels_full += u64::from(labels.len() == 64);
        both += u64::from(begun == 128 && labels.len() == 64 && accepted.len() == 256);
        past_8192 += u64::from(case.log.len() > 8192);
        longest_rules += u64::from(case.rule.len() == 599);
        let finished = finished_runs(&accepted).len();
        let nested = read_rule(&case.rule).map_or(0, |rule| nesting(&rule.formula()));
        full_nested += u64::from(finished >= 100 && nested >= 2);
        // The longest log of accepted lines.
        longest_logs += u64::from(accepted.len() == 256 && case.log.split(|byte| *byte == b'\n').take(256).map(|line| line.len() + 1).sum::<usize>() == 5248);
        let mut places: Vec<usize> = labels.iter().map(|label| first_place(label)).collect();
        wraps += u64::from(places.iter().filter(|place| **place == 127).count() > 1);
        places.sort();
        collisions += u64::from(places.windows(2).any(|pair| pair[0] == pair[1]));
        let verdicts: String = String::from_utf8(report(Mode::Full, &case.rule, &case.log))
            .unwrap()
            .lines()
            .filter_map(|line| line.chars().last().filter(|letter| "HF".contains(*letter)))
            .collect();
        changing += u64::from(verdicts.contains("HF") || verdicts.contains("FH"));
        comes_back += u64::from(verdicts.contains("HF") && verdicts.contains("FH"));
    }
    println!("full {full}, 64 labels {labels_full}, both and all finished {both}, collisions {collisions}, 127 to 0 {wraps}, past 8192 bytes {past_8192}, rules of 599 bytes {longest_rules}, verdict changes {changing}, comes back {comes_back}, logs of 5248 bytes {longest_logs}, 100 finished runs under nested some {full_nested}");
    for count in [full, labels_full, both, collisions, wraps, past_8192, longest_rules, changing, comes_back] {
        assert!(count >= 20);
    }
    assert!(longest_logs > 0 && full_nested >= 5);
}

/// How many runs have this id.
fn runs_with(runs: &[Run], id: u64) -> usize {
    runs.iter().filter(|run| run.id == id).count()
}

/// Logs in which a finished run's id begins again: many, of all kinds, and most of the full ones.
#[test]
fn ids_are_used_again_in_many_logs() {
    let (mut again, mut full, mut full_again, mut few, mut across) = (0, 0, 0, 0, 0);
    let mut kinds: BTreeMap<&str, u64> = BTreeMap::new();
    for seed in 0..CASES {
        let case = case_of(seed);
        let (accepted, _) = accepted_lines(&case.log);
        let runs = runs_of(&accepted);
        let ids: BTreeSet<u64> = runs.iter().map(|run| run.id).collect();
        full += u64::from(runs.len() == MAX_RUNS);
        if ids.len() == runs.len() {
            continue;
        }
        again += 1;
        *kinds.entry(case.kind).or_default() += 1;
        full_again += u64::from(runs.len() == MAX_RUNS);
        few += u64::from(runs.len() >= 8 && ids.len() <= 4);
        // A run whose id was used before, and which begins or ends inside a run of another id.
        let is_inside = |line: u64, other: &Run| other.begin < line && other.end.is_none_or(|end| line < end);
        across += u64::from(runs.iter().enumerate().any(|(number, run)| {
            let others = || runs.iter().filter(|other| other.id != run.id);
            let has_inside = |line: u64| others().any(|other| is_inside(line, other));
            runs_with(&runs[..number], run.id) > 0 && (has_inside(run.begin) || run.end.is_some_and(has_inside))
        }));
    }
    println!("{again} logs use an id again, {full_again} of {full} full ones; by kinds {kinds:?}");
    println!("{few} of 8 runs and more have 4 ids at most, {across} have runs that overlap or nest");
    assert!(again >= CASES * 2 / 5 && few >= CASES / 50 && across >= CASES / 5);
    assert!(full_again >= full / 2 && full_again >= 50);
    for kind in ["short", "short with a fault", "middling", "middling with a fault", "labels with one first place"] {
        assert!(kinds[kind] >= 50, "{kind}");
    }
    for kind in ["128 runs", "64 labels", "few ids"] {
        assert!(kinds[kind] >= 50, "{kind}");
    }
}

/// What a line meets, whether its id has begun, whether more than once, and whether the log is full.
type Met = (Result<(), u8>, bool, bool, bool);

/// What lines meet in a log and in the single-line call, where ids are used again and where not.
#[test]
fn every_refusal_is_met_by_ids_that_are_used_again() {
    let mut met: BTreeMap<Met, u64> = BTreeMap::new();
    for seed in 0..CASES {
        let case = case_of(seed);
        let (accepted, refusal) = accepted_lines(&case.log);
        let before: usize = case.log.split_inclusive(|byte| *byte == b'\n').take(accepted.len()).map(<[u8]>::len).sum();
        let refused = refusal.and_then(|_| case.log[before..].split_inclusive(|byte| *byte == b'\n').next());
        let of_record = lines_of(&case.record).unwrap_or_default();
        for (accepted, line) in [(&accepted, refused), (&of_record, Some(&case.line[..]))] {
            let Some(Ok(event)) = line.map(read_line) else {
                continue;
            };
            let runs = runs_of(accepted);
            let times = runs_with(&runs, event.id());
            let answer = judge_line(accepted, line.unwrap()).map(|_| ());
            *met.entry((answer, times > 0, times > 1, runs.len() == MAX_RUNS)).or_default() += 1;
        }
    }
    println!("answer, begun, begun more than once, full: {met:?}");
    let count = |wanted: &dyn Fn(&Met) -> bool| -> u64 {
        met.iter().filter(|(met, _)| wanted(met)).map(|(_, count)| count).sum()
    };
    // 16 is for an id that never began, 15 and 17 for one that has begun, 18 and 19 for any.
    assert_eq!(count(&|(answer, begun, _, _)| *begun && *answer == Err(16)), 0);
    assert_eq!(count(&|(answer, begun, _, _)| !*begun && matches!(answer, Err(15 | 17))), 0);
    for number in [15, 17, 18, 19] {
        assert!(count(&|(answer, begun, _, _)| *begun && *answer == Err(number)) >= 10, "{number}");
        assert!(count(&|(answer, _, again, _)| *again && *answer == Err(number)) >= 5, "{number}");
    }
    for number in [15, 16, 17, 18] {
        assert!(count(&|(answer, _, _, full)| *full && *answer == Err(number)) >= 5, "{number}");
    }
    assert!(count(&|(answer, begun, _, _)| *begun && answer.is_ok()) >= 300);
}

/// 15 for an id of an open run, 17 for one that has begun and has none open, 16 for one that never began.
#[test]
fn a_faulty_line_meets_its_refusal_where_the_lines_before_it_allow_it() {
    let mut met: BTreeMap<u8, u64> = BTreeMap::new();
    for seed in 0..CASES {
        let random = &mut Random::new(seed);
        let (accepted, _) = accepted_lines(&case_of(seed).log);
        let lines = if random.chance(1, 2) { accepted.len() } else { random.below(accepted.len() + 1) };
        let before = &accepted[..lines];
        let runs = runs_of(before);
        let open: BTreeSet<u64> = runs.iter().filter(|run| run.end.is_none()).map(|run| run.id).collect();
        for number in LINE_REFUSALS {
            let is_allowed = match number {
                15 => !open.is_empty(),
                17 => runs.iter().any(|run| !open.contains(&run.id)),
                18 => runs.len() == MAX_RUNS,
                19 => runs.len() < MAX_RUNS && labels_of(before).len() == MAX_LABELS,
                _ => true,
            };
            if is_allowed {
                assert_eq!(judge_line(before, &faulty_line(random, before, number)), Err(number), "seed {seed}");
                *met.entry(number).or_default() += 1;
            }
        }
    }
    println!("{met:?}");
    assert!(LINE_REFUSALS.iter().all(|number| met[number] >= 20));
}

/// Two runs that share an id: where one was open when the other began, no lines leave the record, and both ways to
/// stand so are reached. Where it had finished, a changed id leaves a record of other lines.
#[test]
fn records_with_shared_ids_are_reached_that_lines_leave_and_that_none_leave() {
    let (mut both_open, mut open_then, mut changed_ids, mut refused) = (0, 0, 0, 0);
    for seed in 0..CASES {
        let case = case_of(seed);
        let found = sharings(&case.record);
        let is_real = lines_of(&case.record).is_some();
        if found.contains(&Sharing::BothOpen) || found.contains(&Sharing::OpenThen) {
            assert!(!is_real, "seed {seed}");
            let answers = reference_answers(&case);
            assert_eq!(answers.relation, Err(21), "seed {seed}");
            refused += u64::from(answers.line.verdict == Err(21));
        }
        both_open += u64::from(found.contains(&Sharing::BothOpen));
        open_then += u64::from(found.contains(&Sharing::OpenThen));
        // The lines of the log leave the same record but for one id, which another run has.
        let (accepted, _) = accepted_lines(&case.log);
        let mut unchanged = record_of(&accepted[..accepted.len().min(case.record.lines as usize)]);
        let changed: Vec<usize> =
            (0..MAX_RUNS).filter(|run| unchanged.runs[*run].id != case.record.runs[*run].id).collect();
        if let ([run], true) = (&changed[..], is_real) {
            let id = case.record.runs[*run].id;
            let is_shared = unchanged.runs.iter().any(|other| other.id == id);
            unchanged.runs[*run].id = id;
            changed_ids += u64::from(is_shared && unchanged == case.record);
        }
    }
    println!("{both_open} both open, {open_then} open then, {refused} refused for that; {changed_ids} of other lines");
    assert!(both_open >= 20 && open_then >= 20 && refused >= 20 && changed_ids >= 20);
}

/// On the record of a log whose runs have ids of their own.
#[test]
fn an_id_is_shared_as_it_is_asked_for() {
    let log = b"B 1\nB 2\nE 1\nB 3\nE 3\nB 4\n";
    let (accepted, _) = accepted_lines(log);
    assert_eq!(sharings(&record_of(&accepted)), []);
    let mut found: BTreeMap<Sharing, BTreeSet<Vec<u64>>> = BTreeMap::new();
    for (seed, sharing) in (0..40).flat_map(|seed| SHARINGS.map(|sharing| (seed, sharing))) {
        let mut record = record_of(&accepted);
        assert!(share_id(&mut Random::new(seed), &mut record, sharing));
        assert_eq!(sharings(&record), [sharing]);
        assert_eq!(lines_of(&record).is_some(), sharing == Sharing::FinishedBefore);
        found.entry(sharing).or_default().insert(record.runs[..4].iter().map(|run| run.id).collect());
    }
    // Runs 1 and 3 are open. Run 0 ends inside run 1, and run 2 lies inside it.
    let ids = |all: &[[u64; 4]]| all.iter().map(|ids| ids.to_vec()).collect::<BTreeSet<Vec<u64>>>();
    assert_eq!(found[&Sharing::BothOpen], ids(&[[1, 2, 3, 2]]));
    assert_eq!(found[&Sharing::OpenThen], ids(&[[1, 1, 3, 4], [1, 2, 2, 4]]));
    assert_eq!(found[&Sharing::FinishedBefore], ids(&[[1, 2, 1, 4], [1, 2, 3, 1], [1, 2, 3, 3]]));
    let (accepted, _) = accepted_lines(b"B 1\nE 1\nB 1\n");
    let mut record = record_of(&accepted);
    assert_eq!(sharings(&record), [Sharing::FinishedBefore]);
    assert!(!SHARINGS.iter().any(|sharing| share_id(&mut Random::new(1), &mut record, *sharing)));
    assert_eq!(record, record_of(&accepted));
}

/// The program's output in this mode, rebuilt from single-line calls with a tally.
fn report_from_single_lines(mode: Mode, case: &Case) -> String {
    if let Some(number) = rule_refusal(case) {
        return format!("0 R{number}\n");
    }
    let mut work = vec![0xA5; case.layout.size()];
    let mut record = start_record(case.layout, &mut work).unwrap();
    let mut tally = Tally::default();
    let mut text = String::new();
    let mut place = 0;
    loop {
        let line = match reference::calls::next_line(&case.log, place) {
            reference::calls::NextLine::NoLine(_) => break,
            reference::calls::NextLine::Line(line, after) => {
                place = after;
                line
            }
            // The bytes of the window hold no LF, so the single-line call refuses them too.
            reference::calls::NextLine::Refused(_, at) => &case.log[at..case.log.len().min(at + 40)],
        };
        let answer = check_line_with_tally(case.layout, &case.rule, &record, &mut work, &mut tally, line);
        record = answer.record;
        match answer.verdict {
            Ok(true) => text += &format!("{} H\n", tally.lines),
            Ok(false) => {
                text += &format!("{} F\n", tally.lines);
                if mode == Mode::FirstFailure {
                    break;
                }
            }
            Err(number) => {
                text += &format!("{} R{number}\n", tally.lines + 1);
                break;
            }
        }
    }
    text + &format!("T {} {} {} {} {}\n", tally.lines, tally.begun, tally.finished, tally.open, tally.failing)
}

#[test]
fn line_by_line_and_all_at_once_agree() {
    for (seed, layout) in in_both(0..800) {
        let case = case(layout, seed);
        if accepted_lines(&case.log).0.len() > 100 && seed % 16 != 0 {
            continue;
        }
        for mode in Mode::ALL {
            let left = log_left(&case, mode);
            let text = String::from_utf8(left.report).unwrap();
            assert_eq!(text, report_from_single_lines(mode, &case), "seed {seed}, {mode:?}");
            let is_read = case.log_work.len() >= layout.size() && case.verdicts.len() >= VERDICT_BYTES;
            if is_read && rule_refusal(&case).is_none() {
                let verdicts = text.lines().map_while(|line| match line.chars().last() {
                    Some('H') => Some(1),
                    Some('F') => Some(0),
                    _ => None,
                });
                let verdicts: Vec<u8> = verdicts.collect();
                let (read, rest) = left.verdicts.split_at(verdicts.len());
                assert_eq!((read, rest), (&verdicts[..], &case.verdicts[verdicts.len()..]), "seed {seed}, {mode:?}");
            }
        }
    }
}

#[test]
fn log_bytes_past_8192_decide_nothing() {
    for seed in 0..CASES {
        let case = case_of(seed);
        if case.log.len() > 8192 {
            for mode in Mode::ALL {
                let whole = report(mode, &case.rule, &case.log);
                assert_eq!(whole, report(mode, &case.rule, &case.log[..8192]), "seed {seed}");
            }
        }
    }
}

#[test]
fn a_refused_call_changes_no_lent_buffer() {
    for (seed, layout) in in_both(0..CASES / 2) {
        let case = case(layout, seed);
        let answers = reference_answers(&case);
        if answers.line.verdict.is_err() {
            assert_eq!((&answers.line.record, &answers.line_work), (&case.record, &case.work));
        }
        if answers.tally_line.verdict.is_err() {
            assert_eq!((&answers.tally_line.record, &answers.tally_work), (&case.record, &case.work));
            assert_eq!(answers.tally, case.tally);
        }
        if answers.start.is_err() {
            assert_eq!(answers.start_work, case.start_work);
        }
        for left in [&answers.first_failure, &answers.full] {
            if matches!(left.answer.refusal, Some((_, 0))) {
                assert_eq!((&left.work, &left.verdicts), (&case.log_work, &case.verdicts));
            }
            assert_eq!(case.verdicts.get(VERDICT_BYTES..), left.verdicts.get(VERDICT_BYTES..));
        }
        for (before, after) in [
            (&case.work, &answers.line_work),
            (&case.work, &answers.tally_work),
            (&case.log_work, &answers.first_failure.work),
            (&case.log_work, &answers.full.work),
            (&case.start_work, &answers.start_work),
        ] {
            assert_eq!(before.len(), after.len());
            assert_eq!(before.get(layout.size()..), after.get(layout.size()..));
        }
    }
}
