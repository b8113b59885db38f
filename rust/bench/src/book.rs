//! Times of finding the text for a label in a label book, beside a plain search line by line. Both take turns on the same
//! book and label.

use crate::checks::{print_numbers, Limit};
use crate::measure::in_turns;
use crate::table::{seconds, short, Number};
use generate::letters::{in_another_case, Letters};
use generate::random::Random;
use scene_log::{label_text, LabelText, Refusal};
use std::collections::BTreeSet;
use std::hint::black_box;

/// How many lines the books have, each twice as many as the one before; and the lines for which the limit is set.
const LINES: [usize; 3] = [5_000, 10_000, 20_000];
const LIMITED: usize = 10_000;

/// The time of a call, as a multiple of that of the plain search.
const PROVED_TO_PLAIN: f64 = 1.5;

/// A book of twice the lines takes twice as long; a quarter more passes as that.
const GROWTH: f64 = 2.5;

/// The most bytes of a label, and of a text.
const LABEL_LIMIT: usize = 24;
const TEXT_LIMIT: usize = 60;

/// The line whose label is looked up, as the table names it.
const LOOKED_UP: [&str; 4] = ["first line", "middle line", "last line", "not listed"];

/// What was measured of one label in one book.
pub struct Row {
    label: &'static str,
    lines: usize,
    bytes: usize,
    proved: f64,
    plain: f64,
    /// The time over that of half the lines.
    growth: Option<f64>,
}

/// A book, and the labels and texts of its lines.
struct Book {
    bytes: Vec<u8>,
    lines: Vec<(Vec<u8>, Vec<u8>)>,
}

/// The words with which labels begin, so that neighbours have many bytes in common; some labels begin with none.
const WORDS: [&str; 8] = ["", "EVENING_", "HALL_", "MORNING_WEST_", "REHEARSAL_", "ROOM_1", "TEST", "_"];

/// A book of so many lines: labels of 1 to 24 bytes in letters of either case, texts of 1 to 60 bytes.
fn book_of(lines: usize) -> Book {
    let random = &mut Random::new(lines as u64);
    let mut labels = BTreeSet::new();
    while labels.len() < lines {
        let mut label = random.pick(&WORDS).as_bytes().to_vec();
        let length = random.between(1, LABEL_LIMIT).max(label.len());
        label.resize_with(length, || *random.pick(b"ABCDEFGHIJKLMNOPQRSTUVWXYZ0123456789_"));
        if !label.is_empty() {
            labels.insert(label);
        }
    }
    let written = |label: Vec<u8>| {
        let length = random.between(1, TEXT_LIMIT);
        let text = (0..length).map(|_| *random.pick(b"Evening, west hall\r\0\"' \xc3\xa9")).collect();
        (Letters::any(random).write(random, &label), text)
    };
    let lines: Vec<(Vec<u8>, Vec<u8>)> = labels.into_iter().map(written).collect();
    let bytes = lines.iter().flat_map(|(label, text)| [label, &b"="[..], text, b"\n"].concat()).collect();
    Book { bytes, lines }
}

impl Book {
    /// A log of one run with the label of this name, in other letters than the book has it; and the label's text.
    fn log_and_text(&self, label: &str) -> (Vec<u8>, Option<&[u8]>) {
        let last = self.lines.len() - 1;
        let line = match label {
            "first line" => Some(0),
            "middle line" => Some(last / 2),
            "last line" => Some(last),
            _ => None,
        };
        // One that is not listed is the middle one with another byte at its end.
        let mut written = in_another_case(&mut Random::new(7), &self.lines[line.unwrap_or(last / 2)].0);
        if line.is_none() {
            let is_listed = |label: &[u8]| self.lines.iter().any(|(other, _)| other.eq_ignore_ascii_case(label));
            let at = written.len() - 1;
            written[at] = *b"QXJ_".iter().find(|byte| !is_listed(&[&written[..at], &[**byte]].concat())).expect("one");
        }
        let log = [b"B 7 ", &written[..], b"\nE 7\n"].concat();
        (log, line.map(|line| &self.lines[line].1[..]))
    }
}

/// Where the label stands in such a log.
fn piece_of(log: &[u8]) -> (usize, usize) {
    (4, log.len() - b"B 7 \nE 7\n".len())
}

/// The same as the proved call with ordinary calls of the standard library. Each line is judged, and its label is
/// compared with that of the line before and with the one that is looked up.
fn plain<'a>(book: &'a [u8], log: &'a [u8], place: usize, length: usize) -> Result<LabelText<'a>, Refusal> {
    let label = place.checked_add(length).and_then(|end| log.get(place..end)).unwrap_or_default();
    let mut before: &[u8] = b"";
    let mut found = None;
    for line in book.split_inclusive(|byte| *byte == b'\n') {
        let line = line.strip_suffix(b"\n").ok_or(Refusal::BookForm)?;
        let sign = line.iter().position(|byte| *byte == b'=').ok_or(Refusal::BookForm)?;
        let (listed, text) = (&line[..sign], &line[sign + 1..]);
        let has_form = is_label(listed) && (1..=TEXT_LIMIT).contains(&text.len()) && !text.contains(&b'=');
        if !has_form || !in_capitals(before).lt(in_capitals(listed)) {
            return Err(Refusal::BookForm);
        }
        if listed.eq_ignore_ascii_case(label) {
            found = Some(text);
        }
        before = listed;
    }
    if !is_label(label) {
        return Err(Refusal::LineLabel);
    }
    Ok(found.map_or(LabelText::Log(label), LabelText::Book))
}

fn is_label(bytes: &[u8]) -> bool {
    (1..=LABEL_LIMIT).contains(&bytes.len()) && bytes.iter().all(|byte| byte.is_ascii_alphanumeric() || *byte == b'_')
}

fn in_capitals(label: &[u8]) -> impl Iterator<Item = u8> + '_ {
    label.iter().map(u8::to_ascii_uppercase)
}

/// Measures and prints one label in one book. Both must hand back the same bytes of the same memory.
fn row(book: &Book, label: &'static str, half: Option<f64>) -> Row {
    let (log, expected) = book.log_and_text(label);
    let (place, length) = piece_of(&log);
    let [found, other] = [label_text, plain].map(|call| call(&book.bytes, &log, place, length));
    assert!(found.is_ok() && found == other, "the two differ on {label}");
    let [found, other] = [found, other].map(|text| text.expect("a text").bytes());
    assert!(found.as_ptr() == other.as_ptr(), "the two differ on where {label} stands");
    assert_eq!(found, expected.unwrap_or(&log[place..place + length]), "{label}");
    let [proved, plain] = in_turns([
        &|| {
            let _ = black_box(label_text(black_box(&book.bytes), black_box(&log), place, length));
        },
        &|| {
            let _ = black_box(plain(black_box(&book.bytes), black_box(&log), place, length));
        },
    ]);
    let growth = half.map(|half| proved / half);
    let row = Row { label, lines: book.lines.len(), bytes: book.bytes.len(), proved, plain, growth };
    print_row(&row);
    row
}

/// Measures and prints all rows.
pub fn measured(title: &str) -> Vec<Row> {
    println!("\n## {title}\n");
    println!("| Label | Lines | Bytes | Proved | Plain | proved / plain | Proved: bytes in a second | to half the lines |");
    println!("|---|--:|--:|--:|--:|--:|--:|--:|");
    let mut rows: Vec<Row> = Vec::new();
    for book in LINES.map(book_of) {
        for label in LOOKED_UP {
            let is_half = |row: &&Row| row.label == label && 2 * row.lines == book.lines.len();
            let half = rows.iter().find(is_half).map(|row| row.proved);
            rows.push(row(&book, label, half));
        }
    }
    rows
}

/// How many bytes of a book are read in a second.
fn rate(row: &Row) -> f64 {
    row.bytes as f64 / row.proved
}

fn megabytes(rate: f64) -> String {
    format!("{} MB", short(rate / 1e6))
}

fn print_row(row: &Row) {
    let growth = row.growth.map_or("–".into(), short);
    let Row { label, lines, bytes, .. } = row;
    let [proved, plain] = [row.proved, row.plain].map(seconds);
    let (ratio, rate) = (short(row.proved / row.plain), megabytes(rate(row)));
    println!("| {label} | {lines} | {bytes} | {proved} | {plain} | {ratio} | {rate} | {growth} |");
}

/// Prints a line for each requirement. Answers whether none failed.
pub fn print_checks(rows: &[Row]) -> bool {
    let check = |what: &str, limit: Limit, values: Vec<f64>, form| {
        let numbers = values.into_iter().map(|value| Number { value, is_taken: true }).collect();
        print_numbers("label book", what, limit, numbers, form)
    };
    let limited = || rows.iter().filter(|row| row.lines == LIMITED);
    let passed = [
        check(
            "10,000 lines, proved / plain",
            Limit::AtMost(PROVED_TO_PLAIN),
            limited().map(|row| row.proved / row.plain).collect(),
            short,
        ),
        check(
            "growth with twice the lines",
            Limit::AtMost(GROWTH),
            rows.iter().filter_map(|row| row.growth).collect(),
            short,
        ),
        check("10,000 lines, bytes in a second", Limit::NoneDown, limited().map(rate).collect(), megabytes),
    ];
    passed.iter().all(|passed| *passed)
}

#[cfg(test)]
mod tests {
    use super::*;
    use generate::books::book_case;
    use reference::book::read_book;
    use reference::calls as by_reference;

    /// The text by the reference, and its refusal.
    fn by_reference_text<'a>(
        book: &'a [u8],
        log: &'a [u8],
        place: usize,
        length: usize,
    ) -> Result<(bool, &'a [u8]), u8> {
        let piece = by_reference::label_text(book, log, place, length)?;
        Ok((matches!(piece, reference::book::Piece::InBook { .. }), piece.bytes(book, log)))
    }

    #[test]
    fn the_plain_search_the_library_and_the_reference_agree_on_generated_books() {
        let (mut texts, mut refusals) = (0, 0);
        for seed in 0..20_000 {
            let case = book_case(seed);
            let expected = by_reference_text(&case.book, &case.log, case.place, case.length);
            for call in [plain, label_text] {
                let found = call(&case.book, &case.log, case.place, case.length);
                let found = found.map(|text| (text.is_listed(), text.bytes())).map_err(Refusal::number);
                assert_eq!(found, expected, "seed {seed}");
                let at = |found: Result<(bool, &[u8]), u8>| found.ok().map(|(_, bytes)| bytes.as_ptr());
                assert_eq!(at(found), at(expected), "seed {seed}");
            }
            if expected.is_ok() { texts += 1 } else { refusals += 1 }
        }
        assert!(texts >= 5_000 && refusals >= 5_000, "{texts} texts, {refusals} refusals");
    }

    #[test]
    fn the_books_have_their_lines_with_labels_and_texts_of_every_length() {
        for count in LINES {
            let Book { bytes, lines } = book_of(count);
            assert_eq!(read_book(&bytes).map(|listed| listed.len()), Some(count));
            assert_eq!(lines.len(), count);
            let lengths = |of: fn(&(Vec<u8>, Vec<u8>)) -> usize| lines.iter().map(of).collect::<BTreeSet<usize>>();
            assert!(lengths(|(label, _)| label.len()).into_iter().eq(1..=LABEL_LIMIT));
            assert!(lengths(|(_, text)| text.len()).into_iter().eq(1..=TEXT_LIMIT));
            for is in [u8::is_ascii_lowercase, u8::is_ascii_uppercase, u8::is_ascii_digit] {
                let with = lines.iter().filter(|(label, _)| label.iter().any(is)).count();
                assert!(with >= count / 3, "{with} of {count}");
            }
        }
    }

    #[test]
    fn each_label_that_is_measured_has_its_text_or_none() {
        let book = book_of(LINES[0]);
        let text_of = |label: &str| {
            let (log, expected) = book.log_and_text(label);
            let (place, length) = piece_of(&log);
            let (is_listed, text) = by_reference_text(&book.bytes, &log, place, length).expect("a book and a label");
            assert_eq!(expected, is_listed.then_some(text), "{label}");
            is_listed.then(|| text.as_ptr() as usize - book.bytes.as_ptr() as usize)
        };
        let places = LOOKED_UP.map(text_of);
        let [Some(first), Some(middle), Some(last), None] = places else {
            panic!("three are listed: {places:?}");
        };
        let half = book.bytes.len() / 2;
        assert!(first <= 25 && middle.abs_diff(half) < half / 10 && last + 61 >= book.bytes.len());
    }

    #[test]
    fn a_call_that_takes_longer_than_its_limit_fails() {
        let row = |lines, proved, growth| Row { label: "first line", lines, bytes: 450_000, proved, plain: 1.0, growth };
        assert!(print_checks(&[row(10_000, 1.4, None), row(10_000, 0.9, Some(2.4))]));
        assert!(!print_checks(&[row(10_000, 1.6, None), row(10_000, 0.9, Some(2.4))]));
        assert!(!print_checks(&[row(10_000, 1.4, None), row(10_000, 0.9, Some(2.6))]));
        // The ratio has a limit for 10,000 lines alone, the growth for all.
        assert!(print_checks(&[row(5_000, 9.0, None), row(20_000, 9.0, Some(2.0))]));
        assert!(!print_checks(&[row(20_000, 0.5, Some(2.6))]));
        assert!(print_checks(&[]));
    }
}
