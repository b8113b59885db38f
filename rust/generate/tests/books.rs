//! The cases for the label book have every fault and every kind of piece, and the reference reads them as their makers
//! meant them.

use generate::books::{book_case, BookCase};
use generate::letters::differ_only_in_case;
use reference::book::{label_at, read_book, Piece};
use reference::calls::label_text;
use reference::label::is_label_byte;
use std::collections::BTreeMap;

const CASES: u64 = 30_000;

/// How often each of them occurs at least.
const OFTEN: u64 = 100;

#[test]
fn a_seed_always_gives_the_same_book_and_piece() {
    for seed in 0..200 {
        assert_eq!(book_case(seed), book_case(seed));
    }
    assert_ne!(book_case(1), book_case(2));
}

fn answer_of(case: &BookCase) -> Result<Piece, u8> {
    label_text(&case.book, &case.log, case.place, case.length)
}

/// What an answer is counted as.
fn name_of(answer: Result<Piece, u8>) -> &'static str {
    match answer {
        Ok(Piece::InBook { .. }) => "in the book",
        Ok(Piece::InLog { .. }) => "in the log",
        Err(27) => "27",
        Err(13) => "13",
        Err(other) => panic!("refused with {other}"),
    }
}

#[test]
fn books_and_pieces_are_read_as_they_are_meant() {
    let mut answered: BTreeMap<&str, u64> = BTreeMap::new();
    let mut not_known: BTreeMap<&str, u64> = BTreeMap::new();
    let mut kinds: BTreeMap<&str, u64> = BTreeMap::new();
    let mut pieces: BTreeMap<&str, u64> = BTreeMap::new();
    let (mut known, mut both) = (0, 0);
    for seed in 0..CASES {
        let case = book_case(seed);
        let answer = answer_of(&case);
        if let Some(expected) = case.known {
            let described = format!("seed {seed}, {}, {}: {}", case.kind, case.piece_kind, case.book.escape_ascii());
            assert!(answer == expected, "{answer:?}, not {expected:?}: {described}");
            known += 1;
        } else {
            *not_known.entry(name_of(answer)).or_default() += 1;
        }
        *answered.entry(name_of(answer)).or_default() += 1;
        *kinds.entry(case.kind).or_default() += 1;
        *pieces.entry(case.piece_kind).or_default() += 1;
        both += u64::from(answer == Err(27) && label_at(&case.log, case.place, case.length).is_none());
    }
    println!("{CASES} cases, {known} known: {answered:?}\nwhere not known {not_known:?}\n{kinds:?}\n{pieces:?}");
    println!("{both} with a fault in the book and in the piece");
    assert!(answered.len() == 4 && answered.values().all(|count| *count >= CASES / 10));
    assert!(not_known.len() == 4 && not_known.values().all(|count| *count >= OFTEN));
    assert!(kinds.len() == 29 && kinds.values().all(|count| *count >= OFTEN), "{}", kinds.len());
    assert!(pieces.len() == 18 && pieces.values().all(|count| *count >= OFTEN), "{}", pieces.len());
    assert!(known >= CASES * 2 / 3 && both >= CASES / 20);
}

/// A case, its answer, and the label and the text of each line; no lines if it is no book.
struct Seen<'a> {
    case: &'a BookCase,
    answer: Result<Piece, u8>,
    lines: Vec<(&'a [u8], &'a [u8])>,
}

impl Seen<'_> {
    fn of(case: &BookCase) -> Seen<'_> {
        let is_book = read_book(&case.book).is_some();
        let ended = case.book.split_inclusive(|byte| *byte == b'\n').filter(|_| is_book);
        let cut = |line| <[u8]>::split(line, |byte| *byte == b'=');
        let lines = ended.map(|line| &line[..line.len() - 1]);
        let lines = lines.map(|line| (cut(line).next().unwrap(), cut(line).next_back().unwrap())).collect();
        Seen { case, answer: answer_of(case), lines }
    }

    /// Where the text stands that is found in the book.
    fn found(&self) -> Option<(usize, usize)> {
        match self.answer {
            Ok(Piece::InBook { start, length }) => Some((start, length)),
            _ => None,
        }
    }

    /// Whether the line whose text is found is the first, and whether it is the last.
    fn line_found(&self) -> Option<(bool, bool)> {
        let (start, length) = self.found()?;
        let book = &self.case.book;
        Some((!book[..start].contains(&b'\n'), start + length + 1 == book.len()))
    }

    /// Whether the label of two lines, one right behind the other, are as asked, in capitals.
    fn has_two(&self, holds: &dyn Fn(&[u8], &[u8]) -> bool) -> bool {
        let labels: Vec<Vec<u8>> = self.lines.iter().map(|(label, _)| label.to_ascii_uppercase()).collect();
        labels.windows(2).any(|two| holds(&two[0], &two[1]))
    }
}

/// The bytes in which two labels differ first.
fn first_bytes(one: &[u8], other: &[u8]) -> Option<(u8, u8)> {
    one.iter().zip(other).find(|(x, y)| x != y).map(|(x, y)| (*x, *y))
}

/// By the bytes alone, whatever they are meant to be.
#[test]
fn edges_of_books_and_pieces_occur() {
    let cases: Vec<BookCase> = (0..CASES).map(book_case).collect();
    let all: Vec<Seen> = cases.iter().map(Seen::of).collect();
    let often = |what: &str, holds: &dyn Fn(&Seen) -> bool| {
        let count = all.iter().filter(|seen| holds(seen)).count() as u64;
        println!("{what}: {count}");
        assert!(count >= OFTEN, "{what}: {count}");
    };
    for length in [1, 2, 23, 24] {
        let what = format!("a label of {length} bytes");
        often(&what, &|seen| seen.lines.iter().any(|(label, _)| label.len() == length));
    }
    for length in [1, 2, 59, 60] {
        let what = format!("a text of {length} bytes");
        often(&what, &|seen| seen.lines.iter().any(|(_, text)| text.len() == length));
    }
    for byte in *b"\r\0 \"'<>\x0b\x8a\xbd\xff" {
        let what = format!("byte {byte} in a text");
        often(&what, &|seen| seen.lines.iter().any(|(_, text)| text.contains(&byte)));
    }
    often("a CR at the end of a text", &|seen| seen.lines.iter().any(|(_, text)| text.ends_with(b"\r")));
    often("small letters and capitals", &|seen| {
        let has = |label: &[u8], is: fn(&u8) -> bool| label.iter().any(is);
        seen.lines.iter().any(|(label, _)| has(label, u8::is_ascii_lowercase) && has(label, u8::is_ascii_uppercase))
    });
    often("a label before a longer one that begins with it", &|seen| {
        seen.has_two(&|one, next| next.starts_with(one))
    });
    for (what, is_first, is_next) in [
        ("a digit before a letter", u8::is_ascii_digit as fn(&u8) -> bool, u8::is_ascii_uppercase as fn(&u8) -> bool),
        ("a letter before an underscore", u8::is_ascii_uppercase, |byte| *byte == b'_'),
        ("a digit before an underscore", u8::is_ascii_digit, |byte| *byte == b'_'),
    ] {
        often(what, &|seen| {
            seen.has_two(&|one, next| first_bytes(one, next).is_some_and(|(x, y)| is_first(&x) && is_next(&y)))
        });
    }
    often("in order by capitals alone", &|seen| {
        let is_as_written = seen.lines.is_sorted_by_key(|(label, _)| *label);
        !is_as_written && !seen.lines.is_sorted_by_key(|(label, _)| label.to_ascii_lowercase())
    });
    often("the text of the first line", &|seen| seen.line_found() == Some((true, false)));
    often("the text of the last line", &|seen| seen.line_found() == Some((false, true)));
    often("the text of a line between", &|seen| seen.line_found() == Some((false, false)));
    often("the text of the only line", &|seen| seen.line_found() == Some((true, true)));
    often("found in other letters", &|seen| {
        let Seen { case, .. } = seen;
        seen.found().is_some_and(|(start, _)| {
            let label = case.book[..start - 1].rsplit(|byte| *byte == b'\n').next().unwrap();
            differ_only_in_case(label, &case.log[case.place..case.place + case.length])
        })
    });
    often("an empty book", &|seen| seen.answer.is_ok() && seen.case.book.is_empty());
    often_of_pieces(&|what, holds| often(what, &|seen| holds(seen.case, seen.answer)));
}

/// What is asked of a case and its answer.
type Asked<'a> = &'a dyn Fn(&BookCase, Result<Piece, u8>) -> bool;

/// The edges of pieces: those that are labels, and those that are refused with 13.
fn often_of_pieces(often: &dyn Fn(&str, Asked)) {
    let right = |what: &str, holds: &dyn Fn(&BookCase) -> bool| {
        often(what, &|case, answer| answer.is_ok() && holds(case));
    };
    right("the whole log is the label", &|case| case.place == 0 && case.length == case.log.len());
    right("a label at the front of a log", &|case| case.place == 0 && case.length < case.log.len());
    right("a label at the end of a log", &|case| case.place > 0 && case.place + case.length == case.log.len());
    right("a part of a longer row of label bytes", &|case| {
        let is_letter = |at: Option<usize>| at.and_then(|at| case.log.get(at)).is_some_and(u8::is_ascii_alphanumeric);
        is_letter(case.place.checked_sub(1)) && is_letter(case.place.checked_add(case.length))
    });
    let wrong = |what: &str, holds: &dyn Fn(&BookCase) -> bool| {
        often(what, &|case, answer| answer == Err(13) && holds(case));
    };
    wrong("one byte past the end", &|case| {
        case.length > 1 && case.place.checked_add(case.length) == Some(case.log.len() + 1)
    });
    wrong("at the end", &|case| case.length > 0 && case.place == case.log.len() && case.place > 0);
    wrong("no byte inside the log", &|case| case.length == 0 && case.place < case.log.len());
    wrong("25 label bytes", &|case| {
        let row = case.log.get(case.place..).and_then(|rest| rest.get(..case.length));
        row.is_some_and(|row| row.len() == 25 && row.iter().all(|byte| is_label_byte(*byte)))
    });
    wrong("an empty log", &|case| case.log.is_empty());
    wrong("a place and a length that add up to 2^64 and more", &|case| case.place.checked_add(case.length).is_none());
    wrong("such as add up to a place inside the log", &|case| {
        let sum = case.place.wrapping_add(case.length);
        sum < case.place && (1..=case.log.len()).contains(&sum)
    });
    for bits in [8, 16, 32] {
        let cut = |number: usize| number & ((1 << bits) - 1);
        let what = format!("a label where numbers are cut to {bits} bits");
        wrong(&what, &|case| label_at(&case.log, cut(case.place), cut(case.length)).is_some());
    }
}
