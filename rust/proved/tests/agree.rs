//! The proved library, the check program and the reference agree on everything that is generated.
//!
//! Every case goes to the library in both layouts of a work area and in both modes, and to the program in both modes.

#[path = "common/layouts.rs"]
mod layouts;
#[path = "common/program.rs"]
mod program;

use generate::random::Random;
use generate::{case, log_left, Case};
use layouts::{of_library, with_guard};
use program::{arguments, empty_folder, printed_by, program};
use reference::report::report;
use reference::trace::{accepted_lines, runs_of};
use reference::{Layout, Mode};
use scene_log::{LogRefused, Refusal, Relations};
use std::collections::BTreeMap;
use std::fs;
use std::path::Path;
use std::thread;

/// How many cases there are, each in both layouts and in both modes.
const CASES: u64 = 21_000;

/// The lengths of work areas about the sizes of both layouts.
const LENGTHS: [usize; 6] = [8127, 8128, 8131, 16383, 16384, 16387];

/// How many threads share the cases.
const THREADS: u64 = 2;

/// The seed of the first case; the variable FIRST_SEED of the environment names another one, for other cases.
fn first_seed() -> u64 {
    std::env::var("FIRST_SEED").map_or(0, |text| text.parse().expect("FIRST_SEED is a number"))
}

/// The numbers that the program can print.
const PRINTED: [u8; 18] = [1, 2, 3, 4, 5, 6, 7, 8, 9, 10, 11, 12, 13, 15, 16, 17, 18, 19];

/// The seed, the rule and the log of a case, to repeat it by hand.
fn described(case: &Case) -> String {
    let rule: String = case.rule.iter().map(|byte| format!("{byte:02x}")).collect();
    let Case { seed, kind, layout, .. } = case;
    let length = case.log_work.len();
    format!("seed {seed} ({kind}), {layout:?}, {length} bytes\nrule {rule}\nlog {}", case.log.escape_ascii())
}

/// The library's mode of the same name.
fn mode_of_library(mode: Mode) -> scene_log::Mode {
    match mode {
        Mode::FirstFailure => scene_log::Mode::FirstFailure,
        Mode::Full => scene_log::Mode::Full,
    }
}

/// What the whole-log call answers, and what it leaves in its buffers.
#[derive(PartialEq, Debug)]
struct LogLeft {
    lines: u64,
    refusal: Option<(u8, u64)>,
    work: Vec<u8>,
    verdicts: Vec<u8>,
}

/// By the reference; and what the program prints.
fn left_by_reference(case: &Case, mode: Mode) -> (LogLeft, Vec<u8>) {
    let generate::LogLeft { report, answer, work, verdicts } = log_left(case, mode);
    (LogLeft { lines: answer.record.lines, refusal: answer.refusal, work, verdicts }, report)
}

fn left_by_library(case: &Case, mode: Mode) -> LogLeft {
    let mut verdicts = case.verdicts.clone();
    let (layout, mode) = (of_library(case.layout), mode_of_library(mode));
    let (answer, work) = with_guard(&case.log_work, |work| {
        scene_log::check_log(layout, mode, &case.rule, &case.log, work, &mut verdicts)
    });
    let lines = answer.unwrap_or_else(LogRefused::lines).into();
    let refusal = answer.err().map(|refused| (refused.refusal.number(), refused.line.into()));
    LogLeft { lines, refusal, work, verdicts }
}

/// What the report call answers, and what it leaves in its buffers.
#[derive(PartialEq, Debug)]
struct ReportLeft {
    length: Option<usize>,
    work: Vec<u8>,
    verdicts: Vec<u8>,
    text: Vec<u8>,
}

/// A text buffer, now and then too short; filled with anything.
fn text_buffer(random: &mut Random) -> Vec<u8> {
    let length = match random.below(40) {
        0 => *random.pick(&[0, 1, 1024, scene_log::TEXT_BYTES - 1]),
        1..=10 => scene_log::TEXT_BYTES + random.below(100),
        _ => scene_log::TEXT_BYTES,
    };
    vec![random.byte(); length]
}

/// The reference has no report call of its own: what it leaves follows from its report and its whole-log call.
fn expected_report(case: &Case, text: &[u8], printed: &[u8], log: &LogLeft) -> ReportLeft {
    let is_short = log.refusal == Some((20, 0)) || text.len() < scene_log::TEXT_BYTES;
    if is_short {
        let (work, verdicts) = (case.log_work.clone(), case.verdicts.clone());
        return ReportLeft { length: None, work, verdicts, text: text.to_vec() };
    }
    let mut text = text.to_vec();
    text[..printed.len()].copy_from_slice(printed);
    ReportLeft { length: Some(printed.len()), work: log.work.clone(), verdicts: log.verdicts.clone(), text }
}

fn report_by_library(case: &Case, mode: Mode, text: &[u8]) -> ReportLeft {
    let (mut verdicts, mut text) = (case.verdicts.clone(), text.to_vec());
    let (layout, mode) = (of_library(case.layout), mode_of_library(mode));
    let (answer, work) = with_guard(&case.log_work, |work| {
        scene_log::report(layout, mode, &case.rule, &case.log, work, &mut verdicts, &mut text)
    });
    let length = answer.map_err(|refusal| assert_eq!(refusal, Refusal::ShortBuffer)).ok();
    ReportLeft { length, work, verdicts, text }
}

/// What the program prints in this folder with these arguments, with the log handed over in pieces of this length.
fn printed_by_program(folder: &Path, arguments: &[String], log: &[u8], piece: usize) -> Vec<u8> {
    printed_by(program(folder, arguments), log, piece)
}

/// An argument that names the full mode.
fn full() -> [String; 1] {
    ["full".into()]
}

/// The refusal in a report, if there is one.
fn printed_refusal(report: &[u8]) -> Option<u8> {
    let text = std::str::from_utf8(report).unwrap();
    text.lines().find_map(|line| line.split_once(" R")).map(|(_, number)| number.parse().unwrap())
}

/// What was seen in the cases.
#[derive(Default)]
struct Seen {
    answered: BTreeMap<(Mode, Layout, u8), u64>,
    /// How often a work area of one of the lengths about both sizes was lent, and whether it was too short.
    lengths: BTreeMap<(Layout, usize, bool), u64>,
    printed: BTreeMap<(Mode, u8), u64>,
    /// How often each kind of log was read, how many logs were full, and in how many an id begins again; in either
    /// layout, in full.
    kinds: BTreeMap<&'static str, u64>,
    full: u64,
    again: u64,
    /// How often the program prints something else in either mode.
    differ: u64,
    cases: u64,
}

impl Seen {
    fn add(&mut self, other: Seen) {
        for (number, count) in other.answered {
            *self.answered.entry(number).or_default() += count;
        }
        for (length, count) in other.lengths {
            *self.lengths.entry(length).or_default() += count;
        }
        for (number, count) in other.printed {
            *self.printed.entry(number).or_default() += count;
        }
        for (kind, count) in other.kinds {
            *self.kinds.entry(kind).or_default() += count;
        }
        self.full += other.full;
        self.again += other.again;
        self.differ += other.differ;
        self.cases += other.cases;
    }
}

/// Whether two runs of the lines that are taken have the same id.
fn uses_an_id_again(log: &[u8]) -> bool {
    let (accepted, _) = accepted_lines(log);
    let mut ids: Vec<u64> = runs_of(&accepted).iter().map(|run| run.id).collect();
    let runs = ids.len();
    ids.sort();
    ids.dedup();
    ids.len() < runs
}

/// Holds the three against each other on one case, in both layouts and in both modes. The folder is for the program's
/// rule file.
fn compare(seed: u64, folder: &Path, seen: &mut Seen) {
    let random = &mut Random::new(!seed);
    let text = text_buffer(random);
    let cases = Layout::ALL.map(|layout| case(layout, seed));
    // Rule and log are the same in both.
    let case = &cases[0];
    fs::write(folder.join("rule.rul"), &case.rule).unwrap();
    let printed = Mode::ALL.map(|mode| {
        for case in &cases {
            compare_calls(case, mode, &text, seen);
        }
        compare_program(random, folder, case, mode, seen)
    });
    seen.differ += u64::from(printed[0] != printed[1]);
    seen.cases += 1;
}

/// Holds the program in this mode against the reference: what both print.
fn compare_program(random: &mut Random, folder: &Path, case: &Case, mode: Mode, seen: &mut Seen) -> Vec<u8> {
    let printed = report(mode, &case.rule, &case.log);
    let words = random.pick(&arguments(mode)).clone();
    let piece = *random.pick(&[1, 7, 100, 4096, 10_000]);
    let output = printed_by_program(folder, &words, &case.log, piece.max(case.log.len() / 300));
    assert!(output == printed, "the program with {words:?} and the reference differ on {}", described(case));
    if let Some(number) = printed_refusal(&output) {
        *seen.printed.entry((mode, number)).or_default() += 1;
    }
    printed
}

/// Holds the calls on a whole log against the reference.
fn compare_calls(case: &Case, mode: Mode, text: &[u8], seen: &mut Seen) {
    let (log, printed) = left_by_reference(case, mode);
    assert!(left_by_library(case, mode) == log, "the whole-log calls differ, {mode:?}, on {}", described(case));
    let expected = expected_report(case, text, &printed, &log);
    assert!(report_by_library(case, mode, text) == expected, "the reports differ, {mode:?}, on {}", described(case));
    let refusals = [log.refusal.map(|(number, _)| number), (expected.length.is_none()).then_some(20)];
    for number in refusals.into_iter().flatten() {
        *seen.answered.entry((mode, case.layout, number)).or_default() += 1;
    }
    if mode == Mode::Full {
        see_log(case, &log, seen);
    }
}

/// What kind of log was read, and in which area.
fn see_log(case: &Case, log: &LogLeft, seen: &mut Seen) {
    let length = case.log_work.len();
    if LENGTHS.contains(&length) && case.verdicts.len() >= scene_log::VERDICT_BYTES {
        *seen.lengths.entry((case.layout, length, log.refusal == Some((20, 0)))).or_default() += 1;
    }
    if !matches!(log.refusal, Some((_, 0))) {
        *seen.kinds.entry(case.kind).or_default() += 1;
        seen.full += u64::from(log.lines == 256);
        seen.again += u64::from(uses_an_id_again(&case.log));
    }
}

#[test]
fn library_program_and_reference_agree_on_generated_cases() {
    let mut seen = Seen::default();
    // Each thread has a folder of its own, since the program reads its rule from the folder that it is started in.
    thread::scope(|scope| {
        let parts: Vec<_> = (0..THREADS)
            .map(|part| {
                scope.spawn(move || {
                    let folder = empty_folder(&format!("agree_{part}"));
                    let mut seen = Seen::default();
                    for seed in (first_seed() + part..first_seed() + CASES).step_by(THREADS as usize) {
                        compare(seed, &folder, &mut seen);
                    }
                    fs::remove_dir_all(&folder).unwrap();
                    seen
                })
            })
            .collect();
        for part in parts {
            seen.add(part.join().unwrap());
        }
    });
    println!("{} cases in both layouts and modes, each with a run of the program in either mode", seen.cases);
    println!("answered {:?}\nprinted {:?}", seen.answered, seen.printed);
    println!("read {:?}, {} of 256 lines, {} differ between the modes", seen.kinds, seen.full, seen.differ);
    println!("{} begin an id again; lengths {:?}", seen.again, seen.lengths);
    assert_eq!(seen.cases, CASES);
    let both = Mode::ALL.into_iter().flat_map(|mode| Layout::ALL.map(|layout| (mode, layout)));
    let with_20 = |(mode, layout)| PRINTED.into_iter().chain([20]).map(move |number| (mode, layout, number));
    let expected: Vec<(Mode, Layout, u8)> = both.flat_map(with_20).collect();
    assert_eq!(seen.answered.into_keys().collect::<Vec<_>>(), expected);
    let expected: Vec<(Mode, u8)> = Mode::ALL.map(|mode| PRINTED.map(|number| (mode, number))).concat();
    assert_eq!(seen.printed.into_keys().collect::<Vec<_>>(), expected);
    assert!(seen.differ >= CASES / 2);
    for kind in ["no bytes", "short", "middling", "128 runs", "64 labels", "labels with one first place", "random bytes"] {
        assert!(seen.kinds[kind] >= 200, "{kind}");
    }
    assert!(seen.full >= 200 && seen.again >= CASES / 2);
    // Each length is too short for a layout or long enough, in all cases that lend it.
    let least = |layout: Layout| if layout == Layout::Square { 16384 } else { 8128 };
    let of_layout = |layout: Layout| LENGTHS.map(|length| (layout, length, length < least(layout)));
    let expected: Vec<(Layout, usize, bool)> = Layout::ALL.into_iter().flat_map(of_layout).collect();
    assert_eq!(seen.lengths.keys().copied().collect::<Vec<_>>(), expected);
    assert!(seen.lengths.values().all(|count| *count >= 50));
}

/// A set or a refusal by its number.
fn numbered(answer: Result<Relations, Refusal>) -> Result<u8, u8> {
    answer.map(Relations::number).map_err(Refusal::number)
}

#[test]
fn library_and_reference_agree_on_all_sets_of_relations() {
    let above = [64, 65, 127, 128, 255, 256, 257, 319, 320, 65536, 1 << 31, u32::MAX];
    let sets: Vec<u32> = (0..64).chain(above).collect();
    for &first in &sets {
        let expected = reference::calls::converse(first.into());
        assert_eq!(numbered(scene_log::converse(first)), expected, "{first}");
        for &second in &sets {
            let expected = reference::calls::compose(first.into(), second.into());
            assert_eq!(numbered(scene_log::compose(first, second)), expected, "{first} {second}");
        }
    }
    assert_eq!(scene_log::compose(64, 0), Err(Refusal::NoSet));
    assert_eq!(scene_log::converse(256), Err(Refusal::NoSet));
}

#[test]
fn library_and_reference_agree_on_hashes() {
    let random = &mut Random::new(1);
    for _ in 0..20_000 {
        let length = random.below(40);
        let bytes = random.bytes(length);
        assert_eq!(scene_log::fnv1a(&bytes), reference::record::fnv1a(&bytes), "{bytes:?}");
    }
}

/// A log of this many finished runs with labels from the list, which lie in any order to each other.
fn full_log(random: &mut Random, labels: &[Vec<u8>], runs: usize) -> Vec<u8> {
    let mut log = Vec::new();
    let mut open: Vec<usize> = Vec::new();
    let mut begun = 0;
    while begun < runs || !open.is_empty() {
        if begun < runs && (open.is_empty() || random.chance(2, 3)) {
            begun += 1;
            open.push(begun);
            log.extend(format!("B {begun}").bytes());
            if random.chance(9, 10) {
                log.push(b' ');
                log.extend(random.pick(labels).clone());
            }
            log.push(b'\n');
        } else {
            let at = random.below(open.len());
            log.extend(format!("E {}\n", open.remove(at)).bytes());
        }
    }
    log
}

/// The report of the library.
fn reported(layout: scene_log::Layout, mode: Mode, rule: &[u8], log: &[u8]) -> Vec<u8> {
    let (mut work, mut verdicts, mut text) = (vec![7; layout.work_bytes()], [7; 256], [7; 2048]);
    let mode = mode_of_library(mode);
    let length = scene_log::report(layout, mode, rule, log, &mut work, &mut verdicts, &mut text).unwrap();
    text[..length].to_vec()
}

/// The properties of the paper have up to four nested "some". A long log with all their labels soon breaks them, and is
/// quick to judge; in one with another label alone nothing is found early.
#[test]
fn library_and_reference_agree_on_the_properties_of_the_paper() {
    let examples = Path::new(env!("CARGO_MANIFEST_DIR")).join("../../examples");
    let random = &mut Random::new(2);
    for name in ["property_1", "property_2", "property_3", "property_4", "rover_1", "rover_2", "rover_3", "rover_4"] {
        let rule = fs::read(examples.join(format!("{name}_kept/rule.rul"))).unwrap();
        let mut labels = reference::rule::read_rule(&rule).unwrap().labels;
        labels.push(b"OTHER".to_vec());
        for (all, runs) in [(true, 128), (true, 128), (true, 40), (true, 12), (false, 40), (false, 12)] {
            let listed = if all { &labels } else { &labels[labels.len() - 1..] };
            let log = full_log(random, listed, runs);
            for mode in Mode::ALL {
                let expected = report(mode, &rule, &log);
                for layout in scene_log::Layout::ALL {
                    let reported = reported(layout, mode, &rule, &log);
                    assert!(reported == expected, "{name}, {layout:?}, {mode:?}, log {}", log.escape_ascii());
                }
            }
        }
    }
}

/// P1's rule and log.
fn p1() -> (Vec<u8>, Vec<u8>) {
    let folder = Path::new(env!("CARGO_MANIFEST_DIR")).join("../../examples/p1");
    (fs::read(folder.join("rule.rul")).unwrap(), fs::read(folder.join("log")).unwrap())
}

#[test]
fn a_rule_file_that_cannot_be_opened_counts_as_no_bytes() {
    let folder = empty_folder("no_rule");
    let (_, log) = p1();
    assert_eq!(printed_by_program(&folder, &[], &log, 100), b"0 R1\n");
    assert_eq!(printed_by_program(&folder, &full(), &log, 100), b"0 R1\n");
    // A folder in its place can be opened, and reading it fails: then no report is printed.
    fs::create_dir(folder.join("rule.rul")).unwrap();
    assert_eq!(printed_by_program(&folder, &[], &log, 100), b"");
    assert_eq!(printed_by_program(&folder, &full(), &log, 100), b"");
    fs::remove_dir_all(&folder).unwrap();
}

#[test]
fn a_rule_file_above_599_bytes_is_seen_to_be_too_long() {
    let folder = empty_folder("long_rule");
    let (_, log) = p1();
    let longest = generate::rules::longest_rule(&mut Random::new(3)).to_bytes();
    assert_eq!(longest.len(), 599);
    for (more, is_taken) in [(0, true), (1, false), (2, false), (5000, false)] {
        let file = [longest.clone(), vec![0; more]].concat();
        fs::write(folder.join("rule.rul"), &file).unwrap();
        let output = printed_by_program(&folder, &full(), &log, 100);
        assert_eq!(output, report(Mode::Full, &file, &log), "{more} bytes more");
        assert_eq!(output != b"0 R7\n", is_taken, "{more} bytes more");
    }
    fs::remove_dir_all(&folder).unwrap();
}

#[test]
fn the_program_reads_a_log_in_any_number_of_pieces() {
    let folder = empty_folder("pieces");
    let (rule, _) = p1();
    fs::write(folder.join("rule.rul"), &rule).unwrap();
    // The longest log of accepted lines, and one that goes far past what decides every answer.
    let begins: String = (0..128).map(|n| format!("B {} {}\n", 65000 + n, "A".repeat(24))).collect();
    let ends: String = (0..128).map(|n| format!("E {}\n", 65000 + n)).collect();
    let longest = (begins + &ends).into_bytes();
    let endless = [longest.clone(), b"B 1\n".repeat(200_000)].concat();
    for log in [&longest, &endless] {
        for piece in [1, 40, 4096, 8191, 8192, 8193, log.len()] {
            if log.len() / piece > 10_000 {
                continue;
            }
            let printed = printed_by_program(&folder, &full(), log, piece);
            assert!(printed == report(Mode::Full, &rule, log), "{} bytes by {piece}", log.len());
        }
    }
    fs::remove_dir_all(&folder).unwrap();
}

#[test]
fn the_lessons_hold_for_library_and_program() {
    let examples = Path::new(env!("CARGO_MANIFEST_DIR")).join("../../examples");
    let mut lessons = 0;
    for entry in fs::read_dir(examples).unwrap() {
        let folder = entry.unwrap().path();
        if !folder.is_dir() {
            continue;
        }
        let read = |name: &str| fs::read(folder.join(name)).unwrap();
        let (rule, log) = (read("rule.rul"), read("log"));
        // What is expected is in full, and printed with the lesson's own arguments.
        assert!(report(Mode::Full, &rule, &log) == read("expected"), "{}", folder.display());
        let words = fs::read_to_string(folder.join("args")).unwrap_or_default();
        let words: Vec<String> = words.lines().map(str::to_string).collect();
        assert!(printed_by_program(&folder, &words, &log, 5) == read("expected"), "{}", folder.display());
        for mode in Mode::ALL {
            let expected = report(mode, &rule, &log);
            for layout in scene_log::Layout::ALL {
                let reported = reported(layout, mode, &rule, &log);
                assert!(reported == expected, "{}, {layout:?}, {mode:?}", folder.display());
            }
            for words in arguments(mode) {
                let printed = printed_by_program(&folder, &words, &log, 5);
                assert!(printed == expected, "{}, {words:?}", folder.display());
            }
        }
        lessons += 1;
    }
    assert!(lessons >= 29);
}
