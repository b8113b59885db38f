//! The proved relation of two runs by their positions and the reference's agree on any four numbers.
//!
//! The library relates runs of a record alone, whose positions are line numbers up to 256. The program `relations_test`
//! takes positions of 64 bits, and prints what the library's routine answers.

use generate::positions::{position_case, PositionCase, LAST_OF_16_BITS};
use reference::relation::relation_of_positions;
use std::collections::BTreeMap;
use std::io::{Read, Write};
use std::ops::Range;
use std::path::{Path, PathBuf};
use std::process::{Command, Stdio};

const CASES: u64 = 60_000;

/// The program reads so many bytes, and leaves the rest.
const READ_LIMIT: usize = 65_536;

/// None, before, after, overlaps, overlapped by, includes, during.
const ANSWERS: [u8; 7] = [0, 1, 2, 4, 8, 16, 32];

/// The seed of the first case; the variable FIRST_SEED of the environment names another one, for other cases.
fn first_seed() -> u64 {
    std::env::var("FIRST_SEED").map_or(0, |text| text.parse().expect("FIRST_SEED is a number"))
}

/// The program, built by `rt ci`, or by `rt run` in its crate.
fn program() -> PathBuf {
    let path = Path::new(env!("CARGO_MANIFEST_DIR")).join("../../crates/relations_test/out/relations_test");
    let message = "the program is missing: run `rt run </dev/null` in crates/relations_test";
    assert!(path.is_file(), "{message}");
    path
}

/// What the program prints for its input, all of which it reads before it prints.
fn printed_by_program(input: &str) -> String {
    assert!(input.len() < READ_LIMIT);
    let mut child = Command::new(program()).stdin(Stdio::piped()).stdout(Stdio::piped()).spawn().unwrap();
    child.stdin.take().unwrap().write_all(input.as_bytes()).unwrap();
    let mut output = String::new();
    child.stdout.take().unwrap().read_to_string(&mut output).unwrap();
    assert!(child.wait().unwrap().success());
    output
}

/// The answer of the reference.
fn answer_of([start_a, finish_a, start_b, finish_b]: [u64; 4]) -> u8 {
    relation_of_positions(start_a, finish_a, start_b, finish_b)
}

/// The positions, a space between them.
fn text_of(case: &PositionCase) -> String {
    case.positions.map(|position| position.to_string()).join(" ")
}

/// Holds the program against the reference on some cases, whose lines are its input.
fn compare(cases: &[PositionCase], input: &str) {
    let output = printed_by_program(input);
    let lines: Vec<&str> = output.lines().collect();
    assert_eq!(lines.len(), cases.len());
    for (case, line) in cases.iter().zip(lines) {
        let expected = format!("{}: {}", text_of(case), answer_of(case.positions));
        assert_eq!(line, expected, "seed {} ({}, {})", case.seed, case.kind, case.shape);
    }
}

/// The same on all cases, as many in a run of the program as it reads. Answers how often it was run.
fn compare_all(all: &[PositionCase]) -> u64 {
    let (mut first, mut runs) = (0, 0);
    let mut input = String::new();
    for (at, case) in all.iter().enumerate() {
        let line = format!("b {}\n", text_of(case));
        if input.len() + line.len() >= READ_LIMIT {
            compare(&all[first..at], &input);
            (first, runs) = (at, runs + 1);
            input.clear();
        }
        input += &line;
    }
    compare(&all[first..], &input);
    runs + 1
}

/// How often each answer is that of some cases.
fn answers_of<'a>(cases: impl Iterator<Item = &'a PositionCase>) -> BTreeMap<u8, u64> {
    let mut answered = BTreeMap::new();
    for case in cases {
        *answered.entry(answer_of(case.positions)).or_default() += 1;
    }
    answered
}

fn fits(position: u64) -> bool {
    position <= LAST_OF_16_BITS
}

/// Whether the answer is another one if these positions are cut to their lowest bits.
fn changes_if_cut(case: &PositionCase, bits: u32, places: Range<usize>) -> bool {
    let mut cut = case.positions;
    for position in &mut cut[places] {
        *position &= (1 << bits) - 1;
    }
    answer_of(cut) != answer_of(case.positions)
}

#[test]
fn program_and_reference_agree_on_generated_positions() {
    let all: Vec<PositionCase> = (first_seed()..first_seed() + CASES).map(position_case).collect();
    let runs = compare_all(&all);
    println!("{} quadruples in {runs} runs of the program", all.len());
    let (narrow, wide): (Vec<&PositionCase>, Vec<&PositionCase>) =
        all.iter().partition(|case| case.positions.into_iter().all(fits));
    for (width, cases) in [("in 16 bits", narrow), ("wider", wide)] {
        let answered = answers_of(cases.into_iter());
        println!("{width}: {answered:?}");
        assert!(answered.keys().eq(&ANSWERS) && answered.values().all(|count| *count >= 1000), "{width}");
    }
}

/// A program that cuts positions is caught by many cases: one that cuts all four, and one that looks at three of them
/// only to see whether they fit.
#[test]
fn cut_positions_have_other_answers_in_many_cases() {
    let all: Vec<PositionCase> = (first_seed()..first_seed() + CASES).map(position_case).collect();
    for bits in [8, 16, 32] {
        let changed = all.iter().filter(|case| changes_if_cut(case, bits, 0..4)).count();
        println!("all cut to {bits} bits: {changed}");
        assert!(changed >= 5000, "{bits} bits: {changed}");
    }
    for place in 0..4 {
        let alone = |case: &&PositionCase| (0..4).all(|other| fits(case.positions[other]) == (other != place));
        let changed = all.iter().filter(alone).filter(|case| changes_if_cut(case, 16, place..place + 1)).count();
        println!("only place {place} above 16 bits, and another answer if it is cut: {changed}");
        assert!(changed >= 200, "place {place}: {changed}");
    }
}
