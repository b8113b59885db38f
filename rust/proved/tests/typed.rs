//! Typed rules: the proved library and the reference agree on texts and rule files, byte for byte.

use generate::case;
use generate::texts::{rule_case, text_case};
use reference::calls as by_reference;
use scene_log::{report, rule_file, rule_from_text, rule_text, text_from_rule, Layout, Mode, Refusal};
use scene_log::{RULE_BYTES, RULE_TEXT_BYTES};
use std::collections::BTreeMap;
use std::fs;
use std::path::Path;
use std::thread;

const CASES: u64 = 30_000;

/// Cases whose rule is judged over a log, before and after it is written out.
const LOGS: u64 = 4_000;

/// Bytes on either side of a lent buffer, which no call may change.
const GUARD: usize = 64;

/// The seed of the first case; the variable FIRST_SEED of the environment names another one, for other cases.
fn first_seed() -> u64 {
    std::env::var("FIRST_SEED").map_or(0, |text| text.parse().expect("FIRST_SEED is a number"))
}

/// What a call answers, and what it leaves in its buffer and on either side of it.
#[derive(PartialEq, Debug)]
struct Left {
    answer: Result<usize, u8>,
    memory: Vec<u8>,
}

/// A call that is lent this buffer, in the middle of a longer one.
fn left_by(buffer: &[u8], call: impl FnOnce(&mut [u8]) -> Result<usize, u8>) -> Left {
    let guard: Vec<u8> = (0..GUARD as u8).map(|number| number ^ 0xa5).collect();
    let mut memory = [&guard, buffer, &guard].concat();
    let answer = call(&mut memory[GUARD..GUARD + buffer.len()]);
    Left { answer, memory }
}

/// Both readers on a text: the same answer, the same bytes. Answers the refusal, 0 for none.
fn agreed_reading(text: &[u8], buffer: &[u8], message: &str) -> u8 {
    let expected = left_by(buffer, |rule| by_reference::rule_from_text(text, rule));
    let found = left_by(buffer, |rule| rule_from_text(text, rule).map_err(Refusal::number));
    assert!(found == expected, "{message}: {:?}, not {:?}: {}", found.answer, expected.answer, text.escape_ascii());
    found.answer.err().unwrap_or(0)
}

/// Both writers on a rule file: the same answer, the same bytes. Answers the refusal, 0 for none.
fn agreed_writing(rule: &[u8], buffer: &[u8], message: &str) -> u8 {
    let expected = left_by(buffer, |text| by_reference::text_from_rule(rule, text));
    let found = left_by(buffer, |text| text_from_rule(rule, text).map_err(Refusal::number));
    assert!(found == expected, "{message}: {:?}, not {:?}: {}", found.answer, expected.answer, rule.escape_ascii());
    found.answer.err().unwrap_or(0)
}

#[test]
fn library_and_reference_agree_on_generated_texts() {
    let mut answered: BTreeMap<u8, u64> = BTreeMap::new();
    let mut orders: BTreeMap<Vec<u8>, u64> = BTreeMap::new();
    for seed in first_seed()..first_seed() + CASES {
        let case = text_case(seed);
        let refusal = agreed_reading(&case.text, &case.rule, &format!("seed {seed}, {}", case.kind));
        *answered.entry(refusal).or_default() += 1;
        if case.faults.len() == 2 {
            *orders.entry(case.faults).or_default() += 1;
        }
    }
    println!("{CASES} texts, 0 for those taken: {answered:?}\ntwo faults: {orders:?}");
    assert_eq!(answered.keys().copied().collect::<Vec<u8>>(), [0, 4, 5, 9, 10, 20, 25]);
    assert!(answered[&0] >= CASES / 3 && answered.values().all(|count| *count >= CASES / 50));
    // Each two of the six numbers, in both orders.
    assert!(orders.len() == 30 && orders.values().all(|count| *count >= 20));
}

#[test]
fn library_and_reference_agree_on_generated_rule_files() {
    let mut answered: BTreeMap<u8, u64> = BTreeMap::new();
    for seed in first_seed()..first_seed() + CASES {
        let case = rule_case(seed);
        let refusal = agreed_writing(&case.rule, &case.text, &format!("seed {seed}"));
        *answered.entry(refusal).or_default() += 1;
    }
    println!("{CASES} rule files, 0 for those written: {answered:?}");
    assert_eq!(answered.keys().copied().collect::<Vec<u8>>(), [0, 1, 2, 3, 4, 5, 6, 7, 8, 9, 10, 20]);
    assert!(answered[&0] >= CASES / 2 && answered.values().all(|count| *count >= 100));
}

const SIGNS: [&str; 18] =
    ["exist", "same", "A", "B", "'T'", "''", "'t'", "<", "o", "i", "!", "&", "|", "(", ")", ",", ".", "\t"];

/// Every text of up to four signs, alone and behind `exist A.`, with a space between signs and without.
#[test]
fn library_and_reference_agree_on_all_short_texts() {
    let mut texts = 0;
    let mut taken = 0;
    for front in ["", "exist A."] {
        let mut beginnings = vec![Vec::new()];
        for _ in 0..4 {
            let longer = |signs: &Vec<&'static str>| SIGNS.map(|sign| [signs.as_slice(), &[sign]].concat());
            beginnings = beginnings.iter().flat_map(longer).collect();
            for signs in &beginnings {
                for space in ["", " "] {
                    let text = format!("{front}{}", signs.join(space));
                    let refusal = agreed_reading(text.as_bytes(), &[7; RULE_BYTES], "short");
                    taken += u64::from(refusal == 0);
                    texts += 1;
                }
            }
        }
    }
    println!("{texts} short texts, {taken} taken");
    assert_eq!(texts, 4 * (18 + 18 * 18 + 18 * 18 * 18 + 18 * 18 * 18 * 18));
    assert!(taken >= 10);
}

const P1: &str = "!exist A, B . A('EVENING') & B('TEST') & A i B";

/// The paper's 44 bytes.
const P1_FILE: &[u8] = b"RUL\x01\x00\
    \x02\x07EVENING\x04TEST\
    \x08\x04\x00\x00\x04\x01\x01\x01\x00\x01\x07\x00\x01\x01\x02\x03\x03\x01\x04\x03\x00\x05\x02\x06\x00";

#[test]
fn p1_typed_and_written() {
    assert_eq!(rule_file(P1).unwrap(), P1_FILE);
    assert_eq!(rule_file(P1.as_bytes()).unwrap(), P1_FILE);
    let text = "!(exist A.(exist B.((A('EVENING')&B('TEST'))&A i B)))";
    assert_eq!(rule_text(P1_FILE).unwrap(), text);
    assert_eq!(rule_file(text).unwrap(), P1_FILE);
}

/// P1 typed with one byte changed to any other, removed or doubled, and cut at every place.
#[test]
fn library_and_reference_agree_on_p1_with_one_byte_wrong() {
    let text = P1.as_bytes();
    for at in 0..=text.len() {
        let (front, rest) = text.split_at(at);
        agreed_reading(front, &[7; RULE_BYTES], "cut");
        for byte in 0..=255 {
            agreed_reading(&[front, &[byte], rest].concat(), &[7; RULE_BYTES], "one byte more");
            if let Some((_, rest)) = rest.split_first() {
                agreed_reading(&[front, &[byte], rest].concat(), &[7; RULE_BYTES], "one byte changed");
                agreed_reading(&[front, rest].concat(), &[7; RULE_BYTES], "one byte less");
            }
        }
    }
}

/// P1's file with one byte changed to any other, and cut at every place.
#[test]
fn library_and_reference_agree_on_the_file_of_p1_with_one_byte_wrong() {
    for at in 0..=P1_FILE.len() {
        agreed_writing(&P1_FILE[..at], &[7; RULE_TEXT_BYTES], "cut");
        for byte in 0..=255 {
            let mut file = P1_FILE.to_vec();
            if at < file.len() {
                file[at] = byte;
            } else {
                file.push(byte);
            }
            agreed_writing(&file, &[7; RULE_TEXT_BYTES], "one byte changed");
        }
    }
}

/// Worked out by hand; 0 for a text that is taken.
#[test]
fn texts_at_the_edges() {
    let padded = |text: &str, length: usize| format!("{text}{}", " ".repeat(length - text.len()));
    let has = |label: &str| format!("exist A . A('{label}')");
    let nodes = |atoms: usize| format!("exist A . {}", vec!["A<A"; atoms].join("&"));
    let labels = |count: usize| {
        let atoms: Vec<String> = (0..count).map(|number| format!("A('L{number}')")).collect();
        format!("exist A . {}", atoms.join("&"))
    };
    for (text, number) in [
        ("".into(), 25),
        (" \n ".into(), 25),
        ("()".into(), 25),
        ("exist A.A<A\t".into(), 25),
        ("exist A.A<A\r\n".into(), 25),
        ("existA.A<A".into(), 0),
        ("exist A,B.A oB".into(), 0),
        ("exist A,B.AoB".into(), 25),
        ("exist A . A('TEST)".into(), 25),
        ("exist A . A(TEST')".into(), 25),
        (has(""), 5),
        (has("A\nB"), 5),
        (has(" A"), 5),
        (has("a"), 0),
        (has("te-st"), 5),
        (has(&"A".repeat(24)), 0),
        (has(&"A".repeat(25)), 5),
        (has(&"z".repeat(24)), 0),
        (has(&"z".repeat(25)), 5),
        (padded("exist A.A<A", 4096), 0),
        (padded("exist A.A<A", 4097), 25),
        ("exist ABCDEFGH . ABCDEFGH < ABCDEFGH".into(), 0),
        ("exist ABCDEFGHI . ABCDEFGHI < ABCDEFGHI".into(), 25),
        (nodes(32), 0),
        (format!("!{}", nodes(32)), 4),
        (labels(16), 0),
        (labels(17), 4),
        (labels(17).replace("L3'", "l'"), 4),
        (labels(17).replace("L3'", "l-'"), 4),
        (labels(17).replace("L16'", "l3'"), 0),
        (labels(18).replace("L16'", "l3'"), 4),
        ("exist A,B,C,D . A<D".into(), 0),
        ("exist A,B,C,D,E . A<D".into(), 10),
        ("exist A,B,C,D,E . A<F".into(), 9),
        ("exist A . A('a') & A<B".into(), 9),
        ("exist A . A('a-') & A<B".into(), 5),
        ("(exist A . A<A) & A<A".into(), 9),
        ("exist A . (exist A . A<A) & A<A".into(), 0),
    ] {
        let text: String = text;
        assert_eq!(agreed_reading(text.as_bytes(), &[7; RULE_BYTES], "edge"), number, "{text:?}");
        assert_eq!(agreed_reading(text.as_bytes(), &[7; RULE_BYTES - 1], "edge"), 20, "{text:?}");
    }
    assert_eq!(agreed_writing(P1_FILE, &[7; RULE_TEXT_BYTES], "edge"), 0);
    assert_eq!(agreed_writing(P1_FILE, &[7; RULE_TEXT_BYTES - 1], "edge"), 20);
    assert_eq!(agreed_writing(b"", &[7; RULE_TEXT_BYTES - 1], "edge"), 20);
    assert_eq!(agreed_writing(b"", &[7; RULE_TEXT_BYTES], "edge"), 1);
}

/// The report of a rule on a log in full, by the library.
fn reported(rule: &[u8], log: &[u8]) -> Vec<u8> {
    let (mut work, mut verdicts, mut text) = ([0; 16384], [0; 256], [0; 2048]);
    let length = report(Layout::Square, Mode::Full, rule, log, &mut work, &mut verdicts, &mut text).unwrap();
    text[..length].to_vec()
}

#[test]
fn a_rule_written_out_and_read_again_has_the_same_verdicts() {
    let (mut rules, mut lines) = (0, 0);
    for seed in first_seed()..first_seed() + LOGS {
        let case = case(reference::Layout::Square, seed);
        let Ok(text) = rule_text(&case.rule) else {
            continue;
        };
        let again = rule_file(&text).unwrap();
        assert_eq!(rule_text(&again).unwrap(), text, "seed {seed}");
        let expected = reported(&case.rule, &case.log);
        assert!(reported(&again, &case.log) == expected, "seed {seed}: {text}");
        let by_reference = reference::report::report(reference::Mode::Full, &again, &case.log);
        assert!(by_reference == expected, "seed {seed}: {text}");
        rules += 1;
        lines += expected.split(|byte| *byte == b'\n').count();
    }
    println!("{rules} rules over {lines} lines");
    assert!(rules >= LOGS / 2 && lines >= 20_000);
}

/// The typed rule of every lesson is its rule file, figure 1's and the paper's other properties among them.
#[test]
fn every_lesson_is_typed_as_its_rule_file() {
    let examples = Path::new(env!("CARGO_MANIFEST_DIR")).join("../../examples");
    let mut lessons = 0;
    for entry in fs::read_dir(examples).unwrap() {
        let folder = entry.unwrap().path();
        if folder.is_dir() {
            let read = |name: &str| fs::read(folder.join(name)).unwrap();
            assert_eq!(rule_file(read("rule.txt")), Ok(read("rule.rul")), "{}", folder.display());
            lessons += 1;
        }
    }
    assert!(lessons >= 29);
}

/// The stack that the header states.
fn stack_bytes() -> usize {
    let header = Path::new(env!("CARGO_MANIFEST_DIR")).join("../../include/scene_log.h");
    let header = fs::read_to_string(header).unwrap();
    let stated = header.lines().find_map(|line| line.strip_prefix("#define SCENE_LOG_TYPED_STACK_BYTES "));
    stated.expect("the header states the stack").parse().unwrap()
}

/// A text of at most 4,096 bytes: so many openings, the middle, as many closings.
fn deep(opening: &str, middle: &str, closing: &str) -> Vec<u8> {
    let times = (RULE_TEXT_BYTES - middle.len()) / (opening.len() + closing.len());
    [opening.repeat(times), middle.into(), closing.repeat(times)].concat().into_bytes()
}

/// The deepest texts and the deepest rule files end with their answer on a thread that has no more stack than the header
/// states.
#[test]
fn deep_texts_end_within_the_stack_of_the_header() {
    let texts = [
        (deep("(", "", ""), 25),
        (deep("!", "", ""), 25),
        (deep("!(", "", ""), 25),
        (deep("exist A.", "", ""), 25),
        (["exist A", &",A".repeat(2044)].concat().into_bytes(), 25),
        (deep("exist A.(", "", ""), 25),
        (deep("exist A.A<A&(", "", ""), 25),
        (deep("exist A.A<A|!(", "", ""), 25),
        (deep("(", "exist A.A<A", ")"), 0),
        (deep("!", "exist A.A<A", ""), 4),
        (deep("!(", "exist A.A<A", ")"), 4),
        (deep("exist A.", "A<A", ""), 4),
        (deep("exist A.(", "A<A", ")"), 4),
        (deep("exist A.A<A&", "A<A", ""), 4),
        (deep("exist A.A<A|(", "A<A", ")"), 4),
        (deep("exist A.A<A&!(", "A<A", ")"), 4),
    ];
    // 62 nots over a "some"; and four "some" with a chain of nots.
    let nots = rule_file(format!("{}exist A.A<A", "!".repeat(62))).unwrap();
    let somes = rule_file(format!("exist A,B,C,D.{}A<D", "!".repeat(59))).unwrap();
    let run = move || {
        let mut rule = [7; RULE_BYTES];
        let mut text = vec![7; RULE_TEXT_BYTES];
        for (typed, number) in &texts {
            assert!(typed.len() > RULE_TEXT_BYTES - 20);
            let answer = rule_from_text(typed, &mut rule);
            assert_eq!(answer.map_err(Refusal::number).err().unwrap_or(0), *number, "{}", typed[..40].escape_ascii());
        }
        for file in [&nots, &somes] {
            assert!(text_from_rule(file, &mut text).is_ok());
        }
    };
    thread::Builder::new().stack_size(stack_bytes()).spawn(run).unwrap().join().unwrap();
}
