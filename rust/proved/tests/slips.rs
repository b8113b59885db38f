//! Slips: the proved library and the reference agree on the runs that break a rule, byte for byte.

mod common;
#[path = "common/damage.rs"]
mod damage;

use common::{bytes_of, first_seed};
use damage::{lent_record, Damage};
use generate::random::Random;
use generate::slips::{slip_case, SlipCase};
use reference::calls as by_reference;
use reference::record::{record_of, Record};
use reference::rule::read_rule;
use reference::slip::form_of;
use reference::trace::accepted_lines;
use scene_log::{check_log, first_slip, rule_file, slip_passes, write_first_slip, Check, Layout, Mode, Refusal};
use scene_log::{RECORD_BYTES, SLIP_BYTES, VERDICT_BYTES, WORK_BYTES};
use std::collections::BTreeMap;
use std::fs;
use std::path::Path;
use std::thread;

const CASES: u64 = 24_000;

/// Cases of which all slips are tried one by one, and how many slips these may have.
const TRIED: u64 = 3_000;
const MOST_SLIPS: usize = 1_300;

/// Bytes on either side of a lent buffer, which no call may change.
const GUARD: usize = 64;

/// The record in these bytes. One whose numbers of runs and labels are not its own is one that no lines leave: then its
/// line count is made one that no lines leave.
fn record_from(bytes: &[u8]) -> Record {
    let number = |at: usize| u64::from(u16::from_le_bytes([bytes[at], bytes[at + 1]]));
    let mut record = Record::of_no_lines();
    record.lines = number(0);
    for (run, at) in record.runs.iter_mut().zip((4..).step_by(7)) {
        (run.id, run.begin, run.end, run.label) = (number(at), number(at + 2), number(at + 4), bytes[at + 6].into());
    }
    for (label, at) in record.labels.iter_mut().zip((900..).step_by(25)) {
        label.length = bytes[at];
        label.bytes.copy_from_slice(&bytes[at + 1..at + 25]);
    }
    record.places.copy_from_slice(&bytes[2500..2628]);
    if bytes_of(&record)[2..4] != bytes[2..4] {
        record.lines = 60_000;
    }
    record
}

/// What both calls answer, and what the first leaves in its buffer and on either side of it.
#[derive(Clone, PartialEq, Debug)]
struct Left {
    first: Result<usize, u8>,
    memory: Vec<u8>,
    passes: Result<bool, u8>,
}

impl Left {
    /// The slip that was written; empty where there is none.
    fn slip(&self) -> &[u8] {
        &self.memory[GUARD..GUARD + self.first.unwrap_or(0)]
    }
}

/// What a call answers that is lent this buffer, in the middle of a longer one.
fn lent<A>(buffer: &[u8], call: impl FnOnce(&mut [u8]) -> A) -> (A, Vec<u8>) {
    let guard: Vec<u8> = (0..GUARD as u8).map(|number| number ^ 0xa5).collect();
    let mut memory = [&guard, buffer, &guard].concat();
    let answer = call(&mut memory[GUARD..GUARD + buffer.len()]);
    (answer, memory)
}

/// What the reference makes of both calls. Too few bytes of a record are 20.
fn left_by_reference(rule: &[u8], record: &[u8], buffer: &[u8], slip: &[u8]) -> Left {
    let record = (record.len() >= RECORD_BYTES).then(|| record_from(record));
    let call = |buffer: &mut [u8]| by_reference::first_slip(rule, record.as_ref().ok_or(20)?, buffer);
    let (first, memory) = lent(buffer, call);
    let passes = record.as_ref().ok_or(20).and_then(|record| by_reference::slip_passes(rule, record, slip));
    Left { first, memory, passes }
}

fn left_by_library(rule: &[u8], record: &[u8], buffer: &[u8], slip: &[u8]) -> Left {
    let inputs = (rule.to_vec(), record.to_vec(), slip.to_vec());
    let (first, memory) = lent(buffer, |buffer| write_first_slip(rule, record, buffer));
    let passes = slip_passes(rule, record, slip);
    // What is only read stays as it is.
    assert!(inputs == (rule.to_vec(), record.to_vec(), slip.to_vec()));
    Left { first: first.map_err(Refusal::number), memory, passes: passes.map_err(Refusal::number) }
}

/// Both on the same input: the same answers, the same bytes.
fn agreed(rule: &[u8], record: &[u8], buffer: &[u8], slip: &[u8], message: &str) -> Left {
    let expected = left_by_reference(rule, record, buffer, slip);
    let found = left_by_library(rule, record, buffer, slip);
    assert!(
        found == expected,
        "{message}: {:?} {:?} {:?}, not {:?} {:?} {:?}\nrule {}\nslip handed in {slip:?}",
        found.first,
        found.slip(),
        found.passes,
        expected.first,
        expected.slip(),
        expected.passes,
        rule.escape_ascii()
    );
    found
}

/// The bytes of a case's record with a few behind them, now and then damaged.
fn damaged_record(random: &mut Random, case: &SlipCase) -> (Vec<u8>, Damage) {
    let (mut bytes, damage) = lent_record(random, &case.record);
    if damage == Damage::None && random.chance(1, 20) {
        let at = random.below(bytes.len());
        bytes[at] = if random.chance(1, 2) { random.byte() } else { random.below(4) as u8 };
    }
    (bytes, damage)
}

#[test]
fn library_and_reference_agree_on_generated_slips() {
    let mut found: BTreeMap<Result<usize, u8>, u64> = BTreeMap::new();
    let mut passed: BTreeMap<Result<bool, u8>, u64> = BTreeMap::new();
    let mut slips: BTreeMap<(&str, Result<bool, u8>), u64> = BTreeMap::new();
    let (mut full, mut counts) = (0, 0);
    for seed in first_seed()..first_seed() + CASES {
        let case = slip_case(seed);
        let (record, damage) = damaged_record(&mut Random::new(!seed), &case);
        let message = format!("seed {seed}, {}, {}, {damage:?}", case.kind, case.slip_kind);
        let left = agreed(&case.rule, &record, &case.buffer, &case.slip, &message);
        *found.entry(left.first).or_default() += 1;
        *passed.entry(left.passes).or_default() += 1;
        *slips.entry((case.slip_kind, left.passes)).or_default() += 1;
        let finished = case.record.runs.iter().filter(|run| run.end != 0).count();
        full += u64::from(left.first.is_ok() && finished >= 100);
        counts += u64::from(damage == Damage::Count && left.first == Err(21));
    }
    println!("{CASES} cases, first slips by their runs: {found:?}\npassing: {passed:?}\n{full} of a full log");
    let refusals = [1, 2, 3, 4, 5, 6, 7, 8, 9, 10, 20, 21];
    let expected: Vec<Result<usize, u8>> = (0..=4).map(Ok).chain(refusals.into_iter().chain([26]).map(Err)).collect();
    assert_eq!(found.keys().copied().collect::<Vec<_>>(), expected);
    let expected: Vec<Result<bool, u8>> =
        [false, true].into_iter().map(Ok).chain(refusals.into_iter().chain([22, 26]).map(Err)).collect();
    assert_eq!(passed.keys().copied().collect::<Vec<_>>(), expected);
    assert!(found.values().chain(passed.values()).all(|count| *count >= 100));
    assert!((1..=4).all(|runs| found[&Ok(runs)] >= 400) && slips[&("ours", Ok(true))] >= 400);
    assert!(full >= 200 && counts >= 100);
}

/// The case's record in bytes, where its rule has slips and accepted lines leave it.
fn sound_record(case: &SlipCase) -> Option<Vec<u8>> {
    let (accepted, _) = accepted_lines(&case.log);
    let is_sound = record_of(&accepted) == case.record && form_of(&read_rule(&case.rule).ok()?).is_some();
    is_sound.then(|| bytes_of(&case.record))
}

/// "The verdict is F exactly when some slip passes", and ours does.
#[test]
fn the_rule_fails_at_the_last_line_exactly_where_a_slip_is_found() {
    let (mut fails, mut holds) = (0, 0);
    for seed in first_seed()..first_seed() + CASES {
        let case = slip_case(seed);
        let Some(record) = sound_record(&case) else {
            continue;
        };
        let (mut work, mut verdicts) = (vec![0; WORK_BYTES], vec![7; VERDICT_BYTES]);
        let (layout, mode) = (Layout::Square, Mode::Full);
        let lines = check_log(layout, mode, &case.rule, &case.log, &mut work, &mut verdicts).expect("accepted lines");
        let slip = first_slip(&case.rule, &record).expect("a rule with slips and a record");
        if lines == 0 {
            assert_eq!(slip, None, "seed {seed}");
            continue;
        }
        assert_eq!(slip.is_some(), verdicts[usize::from(lines) - 1] == 0, "seed {seed}");
        if let Some(slip) = slip {
            assert_eq!(slip_passes(&case.rule, &record, slip.runs()), Ok(true), "seed {seed}");
            fails += 1;
        } else {
            holds += 1;
        }
    }
    println!("{fails} rules fail, {holds} hold");
    assert!(fails >= 2_000 && holds >= 2_000);
}

/// The slip after this one, of numbers up to the last.
fn next_slip(slip: &mut [u8], last: u8) -> bool {
    for run in slip.iter_mut().rev() {
        if *run < last {
            *run += 1;
            return true;
        }
        *run = 0;
    }
    false
}

/// All slips in order, with the open runs and the first number past the last run: the library and the reference agree
/// on each, and ours is the first that passes.
#[test]
fn ours_is_the_first_of_all_slips_that_passes() {
    let (mut records, mut tried, mut passing) = (0, 0, 0);
    let mut lengths = [0; 5];
    for seed in first_seed()..first_seed() + TRIED {
        let case = slip_case(seed);
        let Some(record) = sound_record(&case) else {
            continue;
        };
        let runs = case.record.runs.iter().filter(|run| run.id != 0).count();
        let length = form_of(&read_rule(&case.rule).unwrap()).unwrap().variables.len();
        if (runs + 1).pow(length as u32) > MOST_SLIPS {
            continue;
        }
        let ours = first_slip(&case.rule, &record).unwrap().map(|slip| slip.runs().to_vec());
        assert!(ours.as_ref().is_none_or(|slip| slip.len() == length), "seed {seed}");
        let mut first = None;
        let mut slip = vec![0; length];
        loop {
            let expected = by_reference::slip_passes(&case.rule, &case.record, &slip);
            let passes = slip_passes(&case.rule, &record, &slip).map_err(Refusal::number);
            assert_eq!(passes, expected, "seed {seed}, slip {slip:?}");
            assert!(passes == Err(22) || slip.iter().all(|run| case.record.runs[usize::from(*run)].end != 0));
            if passes == Ok(true) {
                first = first.or(Some(slip.clone()));
                passing += 1;
            }
            tried += 1;
            if !next_slip(&mut slip, runs as u8) {
                break;
            }
        }
        assert_eq!(ours, first, "seed {seed}");
        records += 1;
        lengths[length] += u64::from(ours.is_some());
    }
    println!("{records} records, {tried} slips, {passing} of them pass; found by their runs: {lengths:?}");
    assert!(records >= 1_000 && tried >= 100_000 && passing >= 5_000);
    assert!(lengths[1..].iter().all(|count| *count >= 30));
}

/// The nodes of P1: no EVENING includes a TEST.
const P1_NODES: [[u8; 3]; 8] =
    [[4, 0, 0], [4, 1, 1], [1, 0, 1], [7, 0, 1], [1, 2, 3], [3, 1, 4], [3, 0, 5], [2, 6, 0]];

/// P1's lines, and an open run 2.
const LOG: &[u8] = b"B 7 EVENING\nB 9 TEST\nE 9\nE 7\nB 5\n";

/// P1's rule file with the faults of these numbers, 1 to 10; and without its "not", which is another form.
fn p1_with(faults: &[u8], has_not: bool) -> Vec<u8> {
    let has = |number: u8| faults.contains(&number);
    let mut nodes = P1_NODES[..7].to_vec();
    if has(10) {
        for _ in 0..3 {
            nodes.push([3, 0, nodes.len() as u8 - 1]);
        }
    }
    if has_not {
        nodes.push([2, nodes.len() as u8 - 1, 0]);
    }
    if has(6) {
        nodes[1][0] = 9;
    }
    if has(8) {
        nodes[2] = [1, 0, 0];
    }
    if has(9) {
        nodes[0][1] = 2;
    }
    let mut file = if has(2) { b"RUX".to_vec() } else { b"RUL".to_vec() };
    file.extend(if has(3) { [2, 0] } else { [1, 0] });
    file.push(if has(4) { 17 } else { 2 });
    file.extend(if has(5) { b"\x07ev-NING\x04TEST" } else { b"\x07EVENING\x04TEST" });
    file.push(nodes.len() as u8);
    file.extend(nodes.concat());
    if has(7) {
        file.push(0);
    }
    if has(1) {
        file.truncate(file.len() - 1);
    }
    file
}

/// No fault of the rule, each alone, and every two that can stand in one file: cut by one byte and made longer by one,
/// it is as it was.
fn rule_faults() -> Vec<Vec<u8>> {
    let two = |first: u8| (first + 1..=10).map(move |second| vec![first, second]);
    let all = [vec![]].into_iter().chain((1..=10).map(|number| vec![number])).chain((1..=10).flat_map(two));
    all.filter(|faults| *faults != [1, 7]).collect()
}

/// Every set of faults that a call can have: "20; the rule's; 26; 21; 22", and the first of them is answered.
#[test]
fn of_several_faults_the_first_in_order_is_answered() {
    let (record, lines) = Check::after_with_mode(Mode::Full, &p1_with(&[], true), LOG);
    assert_eq!(lines, Ok(5));
    let mut answered: BTreeMap<(Option<u8>, Option<u8>), u64> = BTreeMap::new();
    for faults in rule_faults() {
        for others in 0..64 {
            let [short_record, short_buffer, no_not, spoiled, wrong_length, open] =
                [0, 1, 2, 3, 4, 5].map(|bit| others >> bit & 1 == 1);
            let rule = p1_with(&faults, !no_not);
            let of_rule = read_rule(&rule).err();
            match faults[..] {
                [] => assert_eq!(of_rule, None),
                [number] => assert_eq!(of_rule, Some(number)),
                _ => assert!(faults.contains(&of_rule.unwrap())),
            }
            let mut bytes = record.record.to_vec();
            bytes[0] += u8::from(spoiled);
            bytes.truncate(RECORD_BYTES - usize::from(short_record));
            let buffer = vec![7; SLIP_BYTES - usize::from(short_buffer)];
            let common = of_rule.or(no_not.then_some(26)).or(spoiled.then_some(21));
            let first = (short_record || short_buffer).then_some(20).or(common);
            let passes = short_record.then_some(20).or(common).or((wrong_length || open).then_some(22));
            for length in if wrong_length { vec![0, 1, 3, 4, 5, 6] } else { vec![2] } {
                let mut slip = vec![0; length];
                if let Some(last) = slip.last_mut() {
                    *last = if open { 2 } else { 1 };
                }
                let message = format!("faults {faults:?}, {others:06b}, {length} runs");
                let left = agreed(&rule, &bytes, &buffer, &slip, &message);
                assert_eq!((left.first.err(), left.passes.err()), (first, passes), "{message}");
                assert!(first.is_some() || left.slip() == [0, 1]);
                *answered.entry((first, passes)).or_default() += 1;
            }
        }
    }
    println!("{answered:?}");
    assert_eq!(answered[&(None, None)], 1);
}

/// Each length below the stated one, with nothing written; each above it, with nothing written behind the slip.
#[test]
fn a_buffer_shorter_than_stated_is_refused_and_a_longer_one_is_taken() {
    let rule = p1_with(&[], true);
    let (check, _) = Check::after_with_mode(Mode::Full, &rule, LOG);
    for length in 0..12 {
        let left = agreed(&rule, &*check.record, &vec![7; length], &[0, 1], "buffer");
        assert_eq!(left.first, if length < SLIP_BYTES { Err(20) } else { Ok(2) }, "{length}");
        assert_eq!(left.passes, Ok(true));
    }
    for length in 0..RECORD_BYTES {
        let left = agreed(&rule, &check.record[..length], &[7; SLIP_BYTES], &[0, 1], "record");
        assert_eq!((left.first, left.passes), (Err(20), Err(20)), "{length}");
    }
    let longer = [&check.record[..], &[255; 40]].concat();
    assert_eq!(agreed(&rule, &longer, &[7; SLIP_BYTES], &[0, 1], "longer record").first, Ok(2));
    for length in (0..300).filter(|length| *length != 2) {
        let left = agreed(&rule, &*check.record, &[7; SLIP_BYTES], &vec![0; length], "slip");
        assert_eq!(left.passes, Err(22), "{length}");
    }
}

/// Worked out by hand: run 0 is EVENING and includes run 1, TEST. Run 2 is open.
#[test]
fn p1_has_runs_0_and_1() {
    let rule = rule_file("!exist A, B . A('EVENING') & B('TEST') & A i B").unwrap();
    assert_eq!(rule, p1_with(&[], true));
    let mut check = Check::start();
    for line in ["B 7 EVENING\n", "B 9 TEST\n", "E 9\n"] {
        assert!(check.line(&rule, line.as_bytes()).unwrap().holds());
        assert_eq!(check.first_slip(&rule), Ok(None));
    }
    assert_eq!(check.slip_passes(&rule, &[0, 1]), Err(Refusal::NoFinishedRun));
    for line in ["E 7\n", "B 5\n"] {
        assert!(!check.line(&rule, line.as_bytes()).unwrap().holds());
        let slip = check.first_slip(&rule).unwrap().unwrap();
        assert_eq!(slip.runs(), [0, 1]);
        assert_eq!(check.slip_passes(&rule, slip.runs()), Ok(true));
    }
    let left = agreed(&rule, &*check.record, &[7; 6], &[1, 0], "P1");
    assert_eq!((left.first, &left.memory[GUARD..GUARD + 6]), (Ok(2), &[0, 1, 7, 7, 7, 7][..]));
    // All slips of two bytes.
    for slip in (0..=u16::MAX).map(u16::to_be_bytes) {
        let expected = match slip {
            [0, 1] => Ok(true),
            [0 | 1, 0 | 1] => Ok(false),
            _ => Err(Refusal::NoFinishedRun),
        };
        assert_eq!(check.slip_passes(&rule, &slip), expected, "{slip:?}");
    }
}

/// P1's file with one byte changed to any other, and cut at every place.
#[test]
fn library_and_reference_agree_on_the_rule_of_p1_with_one_byte_wrong() {
    let rule = p1_with(&[], true);
    let (check, _) = Check::after_with_mode(Mode::Full, &rule, LOG);
    let mut answered = BTreeMap::new();
    for at in 0..=rule.len() {
        agreed(&rule[..at], &*check.record, &[7; SLIP_BYTES], &[0, 1], "cut");
        for byte in 0..=255 {
            let mut file = rule.clone();
            file.resize(rule.len().max(at + 1), 0);
            file[at] = byte;
            let left = agreed(&file, &*check.record, &[7; SLIP_BYTES], &[0, 1], "one byte changed");
            *answered.entry((left.first, left.passes)).or_default() += 1;
        }
    }
    println!("{answered:?}");
    assert!(answered.values().sum::<u64>() == 45 * 256 && answered.len() >= 10);
}

/// The record with one byte changed.
#[test]
fn library_and_reference_agree_on_a_record_with_one_byte_wrong() {
    let rule = p1_with(&[], true);
    let (check, _) = Check::after_with_mode(Mode::Full, &rule, LOG);
    let mut answered: BTreeMap<_, u64> = BTreeMap::new();
    for at in 0..RECORD_BYTES {
        for change in [1, 2, 128, 255] {
            let mut record = check.record.to_vec();
            record[at] ^= change;
            let left = agreed(&rule, &record, &[7; SLIP_BYTES], &[0, 1], &format!("byte {at}"));
            *answered.entry((left.first, left.passes)).or_default() += 1;
        }
    }
    println!("{answered:?}");
    // Another id is another record.
    assert!(answered[&(Err(21), Err(21))] >= 10_000 && answered[&(Ok(2), Ok(true))] >= 10);
}

/// Rules of each form, worked out by hand: how many runs their slips have, 0 for another form.
#[test]
fn the_form_is_a_not_directly_over_one_to_four_some_and_none_below() {
    let (check, _) = Check::after_with_mode(Mode::Full, &p1_with(&[], true), LOG);
    for (text, runs) in [
        ("!exist A . A('TEST')", 1),
        ("!exist A . !A('OTHER')", 1),
        ("!exist A . exist B . A i B", 2),
        ("!exist A, B, C . A i B & A i C", 3),
        ("!exist A, B, C, D . A i B & A i C & D i C", 4),
        ("!exist A, A . A('TEST')", 2),
        ("!exist A, B, A, B . A i B", 4),
        ("exist A . A('TEST')", 0),
        ("!!exist A . A('TEST')", 0),
        ("!!!exist A . A('TEST')", 0),
        ("!exist A . !exist B . A i B", 0),
        ("!exist A . !!exist B . A i B", 0),
        ("!exist A . A('TEST') & exist B . A i B", 0),
        ("!exist A, B . A i B | exist C . C i A", 0),
        ("!((exist A . A('TEST')) & exist A . A('TEST'))", 0),
        ("(!exist A . A('TEST')) & !exist A . A('TEST')", 0),
        ("exist A . !exist B . A i B", 0),
    ] {
        let rule = rule_file(text).unwrap();
        for length in 0..6 {
            let left = agreed(&rule, &*check.record, &[7; SLIP_BYTES], &vec![0; length], text);
            assert_eq!(left.first, if runs == 0 { Err(26) } else { Ok(runs) }, "{text}");
            let expected = if runs == 0 { Some(26) } else { (length != runs).then_some(22) };
            assert_eq!(left.passes.err(), expected, "{text}, {length} runs");
        }
    }
}

/// Variables that are bound twice in the chain: the innermost binds, and the slip has a run for each.
#[test]
fn where_two_some_bind_a_variable_the_slip_has_a_run_for_each() {
    let log = b"B 1 A\nE 1\nB 2 B\nE 2\nB 3 A\nE 3\n";
    for (variables, node, expected) in [
        (&[0, 0][..], [4, 0, 0], &[0, 1][..]),
        (&[2, 1, 2, 2], [4, 2, 0], &[0, 0, 0, 1]),
        (&[3, 3, 3, 3], [4, 3, 0], &[0, 0, 0, 1]),
        (&[0, 1, 0], [5, 0, 1], &[0, 1, 0]),
        (&[0, 1, 0], [5, 1, 0], &[0, 0, 1]),
        (&[0, 1, 1, 0], [5, 0, 1], &[0, 0, 1, 0]),
    ] {
        let mut nodes = vec![node];
        for variable in variables.iter().rev() {
            nodes.push([3, *variable, nodes.len() as u8 - 1]);
        }
        nodes.push([2, nodes.len() as u8 - 1, 0]);
        let rule = [b"RUL\x01\x00\x01\x01B", &[nodes.len() as u8][..], &nodes.concat()].concat();
        let (check, lines) = Check::after_with_mode(Mode::Full, &rule, log);
        assert_eq!(lines, Ok(6));
        let left = agreed(&rule, &*check.record, &[7; SLIP_BYTES], expected, "bound twice");
        assert_eq!((left.slip(), left.passes), (expected, Ok(true)), "{variables:?}");
    }
}

/// A log of this many runs with labels from the list, which lie in any order to each other; a few stay open.
fn long_log(random: &mut Random, labels: &[Vec<u8>], runs: usize) -> Vec<u8> {
    let mut log = Vec::new();
    let mut open: Vec<usize> = Vec::new();
    let mut begun = 0;
    let stay_open = random.below(4);
    while begun < runs || open.len() > stay_open {
        if begun < runs && (open.is_empty() || random.chance(2, 3)) {
            begun += 1;
            open.push(begun);
            log.extend(format!("B {begun}").bytes());
            if random.chance(9, 10) {
                log.push(b' ');
                log.extend(random.pick(labels).clone());
            }
            log.push(b'\n');
        } else {
            let at = random.below(open.len());
            log.extend(format!("E {}\n", open.remove(at)).bytes());
        }
    }
    log
}

/// The properties of the paper that have slips, on long logs: with all their labels, and with the first alone, so that
/// nothing is found early.
#[test]
fn library_and_reference_agree_on_the_slips_of_the_papers_properties() {
    let examples = Path::new(env!("CARGO_MANIFEST_DIR")).join("../../examples");
    let random = &mut Random::new(2);
    let (mut with_slips, mut found, mut none) = (0, 0, 0);
    for name in ["property_1", "property_2", "property_3", "property_4", "rover_1", "rover_2", "rover_3", "rover_4"] {
        let rule = fs::read(examples.join(format!("{name}_kept/rule.rul"))).unwrap();
        let has_some_below = name == "property_3" || name == "rover_3";
        let mut labels = read_rule(&rule).unwrap().labels;
        labels.push(b"OTHER".to_vec());
        with_slips += u64::from(!has_some_below);
        for (all, runs) in [(true, 128), (true, 128), (true, 40), (false, 128), (false, 40), (false, 12)] {
            let listed = if all { &labels[..] } else { &labels[..1] };
            let log = long_log(random, listed, runs);
            let (check, _) = Check::after_with_mode(Mode::Full, &rule, &log);
            let left = agreed(&rule, &*check.record, &[7; SLIP_BYTES], &[0, 1, 2], name);
            assert_eq!(left.first == Err(26), has_some_below, "{name}");
            match left.first {
                Ok(0) => none += 1,
                Ok(_) => found += 1,
                Err(_) => {}
            }
        }
    }
    println!("{with_slips} properties with slips: {found} found, {none} times none");
    assert!(with_slips == 6 && found >= 12 && none >= 6);
}

/// The stack that the header states.
fn stack_bytes() -> usize {
    let header = Path::new(env!("CARGO_MANIFEST_DIR")).join("../../include/scene_log.h");
    let header = fs::read_to_string(header).unwrap();
    let stated = header.lines().find_map(|line| line.strip_prefix("#define SCENE_LOG_STACK_BYTES "));
    stated.expect("the header states the stack").parse().unwrap()
}

/// The deepest rules on a full log end with their answer on a thread that has no more stack than the header states.
#[test]
fn slips_are_found_within_the_stack_of_the_header() {
    let log = long_log(&mut Random::new(5), &[b"TEST".to_vec()], 128);
    let texts = [
        // 58 nots, which leave the part as it is, and 57.
        (format!("!exist A,B,C,D.{}A('TEST')", "!".repeat(58)), Some(true)),
        (format!("!exist A,B,C,D.{}!(A('TEST')|!A('TEST'))", "!".repeat(50)), Some(false)),
        (format!("!exist A.{}(A<A&A i A)", "!".repeat(58)), Some(false)),
        (format!("{}exist A.A<A", "!".repeat(62)), None),
        (format!("!exist A,B,C,D.{}", vec!["A<D"; 30].join("&")), Some(true)),
    ];
    let cases = texts.map(|(text, found)| (rule_file(&text).expect("a legal rule"), found));
    let (check, _) = Check::after_with_mode(Mode::Full, &cases[0].0, &log);
    let run = move || {
        for (rule, found) in &cases {
            let slip = check.first_slip(rule).ok();
            assert_eq!(slip.map(|slip| slip.is_some()), *found, "{}", rule.escape_ascii());
            let given = slip.flatten().map_or(vec![0; 4], |slip| slip.runs().to_vec());
            let passes = check.slip_passes(rule, &given);
            assert!(*found != Some(true) || passes == Ok(true));
            assert!(found.is_some() || passes == Err(Refusal::RuleNoSlips));
        }
    };
    thread::Builder::new().stack_size(stack_bytes()).spawn(run).unwrap().join().unwrap();
}
