//! Times of typed rules: the proved reader and writer beside those of the reference.

use crate::checks::{print_numbers, Limit};
use crate::measure;
use crate::table::{seconds, short, Number};
use reference::calls as by_reference;
use reference::typed::{rule_file, rule_text};
use scene_log::{rule_from_text, text_from_rule, Refusal, RULE_BYTES, RULE_TEXT_BYTES};

/// The lengths of the texts.
const LENGTHS: [usize; 3] = [1024, 2048, 4096];

/// The proved reader on the longest texts, and the proved writer, as multiples of the reference's. The reference's
/// writer is slow: it reads the rule file as plainly as it can.
const READING_TO_REFERENCE: f64 = 1.5;
const WRITING_TO_REFERENCE: f64 = 1.5;

/// A text of twice the length takes twice as long; a quarter more passes as that.
const READING_GROWTH: f64 = 2.5;

/// What was measured of one text or one rule file.
pub struct Row {
    what: String,
    bytes: usize,
    /// "taken", or the refusal.
    answer: String,
    proved: f64,
    reference: f64,
    /// The time over that of half the bytes.
    growth: Option<f64>,
}

/// The rows of the reader, by kinds of texts and from short to long; those of writing the longest text and of reading
/// it again.
pub struct Rows {
    reading: Vec<Row>,
    writing: Row,
    reading_again: Row,
}

/// The text of figure 1, property 1, a space between signs: 41 nodes.
const PROPERTY_1: &str = "! exist B1 , B2 , D . B1 ( 'BOOT' ) & B2 ( 'BOOT' ) & D ( 'DL_IMAGE' ) & B1 < B2 & \
    ( B1 i D | B2 i D | ( B1 < D & D < B2 ) | ( B1 o D & ! D i B2 ) | ( D o B2 & ! D i B1 ) )";

/// The text of some kind that has this length.
type TextOf = fn(usize) -> String;

/// The kinds of texts.
fn kinds() -> [(&'static str, TextOf); 10] {
    [
        ("a rule spread out", spread_out),
        ("labels", |length| chain("exist A . ", |number| format!("A('{:_>24}')", number % 16), " & ", length)),
        ("relations", |length| chain("exist A.", |_| "A<A".into(), "&", length)),
        ("ors", |length| chain("exist A . ", |_| "A o A".into(), " | ", length)),
        ("brackets", |length| inside("(", "exist A.A<A", ")", length)),
        ("brackets not closed", |length| "(".repeat(length)),
        ("nots", |length| inside("!", "exist A.A<A", "", length)),
        ("names", |length| inside("exist A.", "A<A", "", length)),
        ("names in one list", names_in_one_list),
        ("names, then spaces", |length| padded(inside("exist A.", "A<A", "", length / 2), length)),
    ]
}

/// Property 1 with all spaces widened to fill the text.
fn spread_out(length: usize) -> String {
    let signs: Vec<&str> = PROPERTY_1.split(' ').collect();
    let bytes: usize = signs.iter().map(|sign| sign.len()).sum();
    let gap = (length - bytes) / (signs.len() - 1);
    padded(signs.join(&" ".repeat(gap)), length)
}

/// As many atoms as fit, with a sign between them.
fn chain(front: &str, atom: impl Fn(usize) -> String, sign: &str, length: usize) -> String {
    let mut text = format!("{front}{}", atom(0));
    for number in 1.. {
        let more = format!("{sign}{}", atom(number));
        if text.len() + more.len() > length {
            break;
        }
        text += &more;
    }
    padded(text, length)
}

/// A rule inside as many openings and closings as fit.
fn inside(opening: &str, rule: &str, closing: &str, length: usize) -> String {
    let times = (length - rule.len()) / (opening.len() + closing.len());
    padded([opening.repeat(times).as_str(), rule, &closing.repeat(times)].concat(), length)
}

/// Half of the text binds different names, the other half uses the outermost.
fn names_in_one_list(length: usize) -> String {
    let names: Vec<String> = (0..length / 2 / 5).map(|number| format!("N{number:03}")).collect();
    chain(&format!("exist {}.", names.join(",")), |_| "N000<N000".into(), "&", length)
}

fn padded(text: String, length: usize) -> String {
    format!("{text:<length$}")
}

/// The rule file with the longest text: 64 nodes, 32 of them "has label" with a label of 24 bytes.
fn longest_rule() -> Vec<u8> {
    let atoms: Vec<String> = (0..32).map(|number| format!("A('{:_>24}')", number % 16)).collect();
    rule_file(format!("exist A . {}", atoms.join(" & ")).as_bytes()).expect("a legal rule")
}

/// A call that is lent a buffer.
type Call<'a> = &'a dyn Fn(&mut [u8]) -> Result<usize, u8>;

/// A row of two calls, which must answer and write the same.
fn row(what: String, bytes: usize, buffer: usize, proved: Call, reference: Call) -> Row {
    let (proved, found) = measure::lent_buffer(buffer, proved);
    let (reference, expected) = measure::lent_buffer(buffer, reference);
    assert!(found == expected, "the library and the reference differ on {what}, {bytes} bytes");
    let answer = found.0.map_or_else(|number| format!("refused with {number}"), |_| "taken".into());
    Row { what, bytes, answer, proved, reference, growth: None }
}

fn reading(kind: &str, text: &str) -> Row {
    let text = text.as_bytes();
    row(kind.into(), text.len(), RULE_BYTES, &|rule| rule_from_text(text, rule).map_err(Refusal::number), &|rule| {
        by_reference::rule_from_text(text, rule)
    })
}

fn writing(what: &str, rule: &[u8]) -> Row {
    row(
        what.into(),
        rule.len(),
        RULE_TEXT_BYTES,
        &|text| text_from_rule(rule, text).map_err(Refusal::number),
        &|text| by_reference::text_from_rule(rule, text),
    )
}

/// Measures and prints all rows.
pub fn measured(title: &str) -> Rows {
    println!("\n## {title}\n");
    println!("| Text or rule file | Bytes | Answer | Proved | Reference | proved / reference | to half the bytes |");
    println!("|---|--:|---|--:|--:|--:|--:|");
    let mut all: Vec<Row> = Vec::new();
    for (kind, text) in kinds() {
        let mut before = None;
        for length in LENGTHS {
            let mut row = reading(kind, &text(length));
            row.growth = before.map(|before| row.proved / before);
            before = Some(row.proved);
            print_row(&row);
            all.push(row);
        }
    }
    let rule = longest_rule();
    let text = text_of(&rule);
    let rows = Rows {
        reading: all,
        writing: writing("the longest text written", &rule),
        reading_again: reading("the longest text read again", &text),
    };
    print_row(&rows.writing);
    print_row(&rows.reading_again);
    rows
}

/// The text of a rule file.
fn text_of(rule: &[u8]) -> String {
    let text = rule_text(rule).expect("a legal rule");
    String::from_utf8(text).expect("letters, digits and signs")
}

fn print_row(row: &Row) {
    let growth = row.growth.map_or("–".into(), short);
    let Row { what, bytes, answer, .. } = row;
    let [proved, reference] = [row.proved, row.reference].map(seconds);
    println!(
        "| {what} | {bytes} | {answer} | {proved} | {reference} | {} | {growth} |",
        short(row.proved / row.reference)
    );
}

/// Prints a line for each requirement. Answers whether none failed.
pub fn print_checks(rows: Option<&Rows>) -> bool {
    let longest = || rows.into_iter().flat_map(|rows| &rows.reading).filter(|row| row.bytes == RULE_TEXT_BYTES);
    let to_reference = |row: &Row| row.proved / row.reference;
    let passed = [
        print_check(
            "reading 4,096 bytes, proved / reference",
            Limit::AtMost(READING_TO_REFERENCE),
            longest().map(to_reference),
        ),
        print_check(
            "growth from 2,048 to 4,096 bytes",
            Limit::AtMost(READING_GROWTH),
            longest().filter_map(|row| row.growth),
        ),
        print_check(
            "writing the longest text, proved / reference",
            Limit::AtMost(WRITING_TO_REFERENCE),
            rows.map(|rows| to_reference(&rows.writing)),
        ),
        print_check(
            "writing the longest text / reading it again",
            Limit::NoneUp,
            rows.map(|rows| rows.writing.proved / rows.reading_again.proved),
        ),
    ];
    passed.iter().all(|passed| *passed)
}

fn print_check(what: &str, limit: Limit, values: impl IntoIterator<Item = f64>) -> bool {
    let numbers = values.into_iter().map(|value| Number { value, is_taken: true }).collect();
    print_numbers("typed rules", what, limit, numbers, short)
}

#[cfg(test)]
mod tests {
    use super::*;

    #[test]
    fn the_texts_have_their_lengths_and_answers() {
        for (kind, text) in kinds() {
            for length in LENGTHS {
                let text = text(length);
                assert_eq!(text.len(), length, "{kind}");
                let expected = match kind {
                    "a rule spread out" | "brackets" => 0,
                    "brackets not closed" => 25,
                    // 32 of them fit, which are 64 nodes.
                    "labels" if length == 1024 => 0,
                    // 63 names and one atom, which are 64 nodes.
                    "names, then spaces" if length == 1024 => 10,
                    _ => 4,
                };
                assert_eq!(rule_file(text.as_bytes()).err().unwrap_or(0), expected, "{kind}, {length} bytes");
            }
        }
    }

    #[test]
    fn the_longest_text_has_1031_bytes() {
        let mut text = [0; RULE_TEXT_BYTES];
        assert_eq!(longest_rule().len(), RULE_BYTES);
        assert_eq!(by_reference::text_from_rule(&longest_rule(), &mut text), Ok(1031));
    }
}
