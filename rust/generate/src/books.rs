//! Cases for the house label book: books, sound and with each fault that one can have, and
//! pieces of logs that are labels or not.

use crate::letters::{in_another_case, Letters, BESIDE_LETTERS};
use crate::logs;
use crate::random::Random;
use reference::book::{Piece, TEXT_LIMIT};
use reference::{Refusal, LABEL_LIMIT};

/// The input of the call.
#[derive(Clone, PartialEq, Eq, Debug)]
pub struct BookCase {
    pub seed: u64,
    /// What the book is meant to be, and what the piece; for messages.
    pub kind: &'static str,
    pub piece_kind: &'static str,
    pub book: Vec<u8>,
    pub log: Vec<u8>,
    pub place: usize,
    pub length: usize,
    /// The answer, where it is known without reading the book and the log.
    pub known: Option<Result<Piece, Refusal>>,
}

/// The case of this seed.
pub fn book_case(seed: u64) -> BookCase {
    let random = &mut Random::new(seed);
    let book = any_book(random);
    let piece = any_piece(random, &book.labels);
    let known = match (&book.state, &piece.state) {
        (State::Wrong, _) => Some(Err(27)),
        (State::Right(_), State::Wrong) => Some(Err(13)),
        (State::Right(lines), State::Right(label)) => Some(Ok(text_of(lines, label, &piece))),
        _ => None,
    };
    let Given { kind: piece_kind, log, place, length, .. } = piece;
    BookCase { seed, kind: book.kind, piece_kind, book: book.bytes, log, place, length, known }
}

/// What is known of bytes that were made: what they were made from where they have their form,
/// or that they have it not, or nothing.
enum State<T> {
    Right(T),
    Wrong,
    Unknown,
}

/// A line of a book: its label as it is written, and its text.
#[derive(Clone)]
struct Line {
    label: Vec<u8>,
    text: Vec<u8>,
}

impl Line {
    fn bytes(&self) -> Vec<u8> {
        [&self.label, &b"="[..], &self.text, b"\n"].concat()
    }
}

/// A book, and what it is meant to be; the labels that it lists or was to list, as they are written.
struct Book {
    kind: &'static str,
    bytes: Vec<u8>,
    labels: Vec<Vec<u8>>,
    state: State<Vec<Line>>,
}

/// A piece of a log, and what it is meant to be. A right one has these bytes.
struct Given {
    kind: &'static str,
    log: Vec<u8>,
    place: usize,
    length: usize,
    state: State<Vec<u8>>,
}

/// The text for a label, from the lines that the book was made from.
fn text_of(lines: &[Line], label: &[u8], piece: &Given) -> Piece {
    let mut start = 0;
    for line in lines {
        if line.label.eq_ignore_ascii_case(label) {
            return Piece::InBook { start: start + line.label.len() + 1, length: line.text.len() };
        }
        start += line.bytes().len();
    }
    Piece::InLog { start: piece.place, length: piece.length }
}

// ---- labels and texts

/// Bytes of a label in capitals; those that tell apart the orders by capitals, by small letters
/// and as they are written come often.
const LABEL_BYTES: &[u8] = b"AABCMYZZ00189___";

/// Bytes that a text may have and a reader may stumble over: those beside LF and `=`, other ends
/// of lines, quotes, and bytes that are LF or `=` but for their highest bit.
const ODD_BYTES: &[u8] = b"\r\0 \"'\t\x0b\x0c\x1a<>:;#\\\x7f\x80\x85\x8a\xbd\xc3\xa9\xff";

/// Bytes that no label has.
const NO_LABEL_BYTES: &[u8] = b" -.:;\r\0\t<>\"";

/// So many bytes of a label, in capitals.
fn label_bytes(random: &mut Random, length: usize) -> Vec<u8> {
    (0..length).map(|_| *random.pick(LABEL_BYTES)).collect()
}

/// Up to so many different labels, in capitals and in any order: short ones, of which many begin
/// alike, any, the beginnings of one, or numbered ones.
fn some_labels(random: &mut Random, most: usize) -> Vec<Vec<u8>> {
    let family = random.below(4);
    let longest = label_bytes(random, LABEL_LIMIT);
    let mut labels = Vec::new();
    for _ in 0..most {
        labels.push(match family {
            0 => {
                let length = *random.pick(&[1, 1, 2, 2, 3]);
                label_bytes(random, length)
            }
            1 => logs::any_label(random),
            2 => {
                let mut label = longest[..random.between(1, LABEL_LIMIT)].to_vec();
                if random.chance(1, 3) {
                    *label.last_mut().expect("a byte") = *random.pick(LABEL_BYTES);
                }
                label
            }
            _ => format!("ROOM_{}", random.below(3 * most)).into_bytes(),
        });
    }
    labels.sort();
    labels.dedup();
    labels
}

/// A text of 1 to 60 bytes, often of the fewest or the most.
fn any_text(random: &mut Random) -> Vec<u8> {
    let any = random.between(1, TEXT_LIMIT);
    let length = *random.pick(&[1, 2, TEXT_LIMIT - 1, TEXT_LIMIT, TEXT_LIMIT, any, any, any, any]);
    text_of_length(random, length)
}

/// A text of so many bytes: words, letters, odd bytes, any, or one byte again and again.
fn text_of_length(random: &mut Random, length: usize) -> Vec<u8> {
    let again = text_byte(random);
    match random.below(5) {
        0 => b"Evening, west hall; ".iter().copied().cycle().take(length).collect(),
        1 => label_bytes(random, length),
        2 => (0..length).map(|_| *random.pick(ODD_BYTES)).collect(),
        3 => (0..length).map(|_| text_byte(random)).collect(),
        _ => vec![again; length],
    }
}

/// Any byte but LF and `=`.
fn text_byte(random: &mut Random) -> u8 {
    loop {
        let byte = random.byte();
        if byte != b'\n' && byte != b'=' {
            return byte;
        }
    }
}

// ---- books

/// At least so many lines in order, their labels in letters of either case.
fn sound_lines(random: &mut Random, least: usize) -> Vec<Line> {
    let most = *random.pick(&[0, 1, 1, 2, 2, 3, 4, 6, 9, 15, 40]);
    loop {
        let labels = some_labels(random, most.max(least));
        if labels.len() >= least {
            return lines_of(random, labels);
        }
    }
}

/// A line for each label, in their order.
fn lines_of(random: &mut Random, labels: Vec<Vec<u8>>) -> Vec<Line> {
    let letters = Letters::any(random);
    let line = |label: Vec<u8>| Line { label: letters.write(random, &label), text: any_text(random) };
    labels.into_iter().map(line).collect()
}

fn bytes_of(lines: &[Line]) -> Vec<u8> {
    lines.iter().flat_map(Line::bytes).collect()
}

fn any_book(random: &mut Random) -> Book {
    match random.below(100) {
        0..=55 => {
            let lines = sound_lines(random, 0);
            let labels = lines.iter().map(|line| line.label.clone()).collect();
            let kind = if lines.is_empty() { "no line" } else { "sound" };
            Book { kind, bytes: bytes_of(&lines), labels, state: State::Right(lines) }
        }
        56..=86 => {
            let (kind, bytes, labels) = wrong_book(random);
            Book { kind, bytes, labels, state: State::Wrong }
        }
        _ => {
            let lines = sound_lines(random, 1);
            let (kind, bytes, labels) = any_bytes(random, &lines);
            Book { kind, bytes, labels, state: State::Unknown }
        }
    }
}

/// A book with one fault, and the labels that it was to list. All else is sound.
fn wrong_book(random: &mut Random) -> (&'static str, Vec<u8>, Vec<Vec<u8>>) {
    let mut lines = sound_lines(random, 2);
    let labels = lines.iter().map(|line| line.label.clone()).collect();
    let at = random.below(lines.len());
    let (kind, bytes) = match random.below(22) {
        0 => {
            lines[at].label.clear();
            ("a label of no byte", in_order(lines))
        }
        1 => {
            // 257 and 280 are lengths of a label where they are cut to 8 bits.
            let length = *random.pick(&[25, 25, 25, 26, 48, 255, 256, 257, 280, 281]);
            lines[at].label = label_bytes(random, length);
            ("a label of 25 bytes or more", in_order(lines))
        }
        2 => {
            let label = &mut lines[at].label;
            let place = *random.pick(&[0, label.len() / 2, label.len() - 1]);
            label[place] = *random.pick(&[BESIDE_LETTERS, NO_LABEL_BYTES].concat());
            ("a wrong byte in a label", in_order(lines))
        }
        3 => {
            lines[at].text.clear();
            ("a text of no byte", bytes_of(&lines))
        }
        4 => {
            // 257 and 316 are lengths of a text where they are cut to 8 bits.
            let length = *random.pick(&[61, 61, 61, 62, 120, 255, 256, 257, 316, 317, 1000]);
            lines[at].text = text_of_length(random, length);
            ("a text of 61 bytes or more", bytes_of(&lines))
        }
        5 => ("no sign", without_sign(random, &lines, at)),
        6 => {
            let text = &mut lines[at].text;
            text.truncate(TEXT_LIMIT - 1);
            let place = *random.pick(&[0, text.len() / 2, text.len()]);
            text.insert(place, b'=');
            ("two signs", bytes_of(&lines))
        }
        7 => {
            let mut bytes = bytes_of(&lines);
            bytes.pop();
            ("no last LF", bytes)
        }
        8 => {
            let place = random.below(lines.len() + 1);
            let [before, behind] = [&lines[..place], &lines[place..]].map(bytes_of);
            ("an empty line", [&before[..], b"\n", &behind].concat())
        }
        9 => {
            let text = &mut lines[at].text;
            text.truncate(TEXT_LIMIT - 1);
            let place = random.below(text.len() + 1);
            text.insert(place, b'\n');
            ("an LF in a text", bytes_of(&lines))
        }
        10 => {
            let other = (at + random.between(1, lines.len() - 1)) % lines.len();
            lines.swap(at, other);
            ("two lines in each other's place", bytes_of(&lines))
        }
        11 => {
            lines.reverse();
            ("backwards", bytes_of(&lines))
        }
        12 => {
            let label = lines[at].label.clone();
            ("a label again", again(random, lines, at, label))
        }
        13 => {
            // A label that has a letter.
            lines = sound_lines_with(random, &[b"A"]);
            let with_letter = |line: &Line| line.label.iter().any(u8::is_ascii_alphabetic);
            let at = lines.iter().position(with_letter).expect("one label has a letter");
            let label = in_another_case(random, &lines[at].label);
            ("a label again in another case", again(random, lines, at, label))
        }
        14 => {
            // The sign for "no more bytes" comes last.
            lines = sound_lines_with(random, &[b"", b"0"]);
            ("longer labels first", sorted_by(lines, |label| [&label.to_ascii_uppercase(), &b"\xff"[..]].concat()))
        }
        15 => {
            lines = sound_lines_with(random, &[b"B", b"AA"]);
            let key = |label: &[u8]| [&[label.len() as u8], &label.to_ascii_uppercase()[..]].concat();
            ("shorter labels first", sorted_by(lines, key))
        }
        16..=17 => {
            lines = sound_lines_with(random, &[b"_", b"A"]);
            ("in order of small letters", sorted_by(lines, <[u8]>::to_ascii_lowercase))
        }
        18..=19 => {
            lines = sound_lines_with(random, &[b"b", b"C"]);
            ("in order as they are written", sorted_by(lines, <[u8]>::to_vec))
        }
        20 => {
            lines = sound_lines_with(random, &[b"0", b"A"]);
            let behind_letters = |byte: &u8| if byte.is_ascii_digit() { 0xff } else { byte.to_ascii_uppercase() };
            ("digits behind letters", sorted_by(lines, |label| label.iter().map(behind_letters).collect()))
        }
        _ => {
            // In order by letters and digits, as if the others were not there.
            lines = sound_lines_with(random, &[b"_A", b"B"]);
            let counts = |byte: &u8| byte.is_ascii_alphanumeric();
            let key = |label: &[u8]| label.to_ascii_uppercase().into_iter().filter(counts).collect();
            ("in order without underscores", sorted_by(lines, key))
        }
    };
    (kind, bytes, labels)
}

/// Sound lines, among which there are some whose labels begin alike, and then are as given here.
/// Those are written with these letters.
fn sound_lines_with(random: &mut Random, ends: &[&[u8]]) -> Vec<Line> {
    let length = *random.pick(&[1, 1, 2, 5, LABEL_LIMIT - 2]);
    let front = label_bytes(random, length);
    let written: Vec<Vec<u8>> = ends.iter().map(|end| [&front, *end].concat()).collect();
    let mut lines = sound_lines(random, 0);
    lines.retain(|line| written.iter().all(|label| !label.eq_ignore_ascii_case(&line.label)));
    for label in written {
        lines.push(Line { label, text: any_text(random) });
    }
    lines.sort_by_key(|line| line.label.to_ascii_uppercase());
    lines
}

/// The book of these lines in byte order of the capitals, where one label has a fault.
fn in_order(lines: Vec<Line>) -> Vec<u8> {
    sorted_by(lines, <[u8]>::to_ascii_uppercase)
}

/// The book of these lines in another order than theirs.
fn sorted_by(mut lines: Vec<Line>, key: impl Fn(&[u8]) -> Vec<u8>) -> Vec<u8> {
    lines.sort_by_key(|line| key(&line.label));
    bytes_of(&lines)
}

/// The book of these lines with the sign of one left out, or another byte in its place, or with
/// nothing but the label on this line.
fn without_sign(random: &mut Random, lines: &[Line], at: usize) -> Vec<u8> {
    let Line { label, text } = &lines[at];
    let sign = [*random.pick(b":<> -\t\0\xbd")];
    let sign = if random.chance(1, 2) { &sign[..] } else { b"" };
    let text = if random.chance(1, 4) { b"" } else { &text[..] };
    let [before, behind] = [&lines[..at], &lines[at + 1..]].map(bytes_of);
    [&before, &label[..], sign, text, b"\n", &behind].concat()
}

/// The book of these lines with one more that has the label of another, mostly right behind it.
fn again(random: &mut Random, mut lines: Vec<Line>, at: usize, label: Vec<u8>) -> Vec<u8> {
    let text = if random.chance(1, 3) { lines[at].text.clone() } else { any_text(random) };
    let place = if random.chance(2, 3) { at + random.below(2) } else { random.below(lines.len() + 1) };
    lines.insert(place, Line { label, text });
    bytes_of(&lines)
}

/// The labels of lines of a few bytes.
const FEW: [&str; 13] = ["A", "a", "AA", "aB", "b", "B", "Z", "_", "__", "a_", "0", "9", "0a"];

/// Bytes of which it is not known whether they are a book, and the labels that it may list.
fn any_bytes(random: &mut Random, lines: &[Line]) -> (&'static str, Vec<u8>, Vec<Vec<u8>>) {
    let mut bytes = bytes_of(lines);
    let labels = lines.iter().map(|line| line.label.clone()).collect();
    let at = random.below(bytes.len());
    let byte = if random.chance(1, 2) { random.byte() } else { *random.pick(b"=\n\rAaZz09_ ") };
    let kind = match random.below(10) {
        0 => {
            bytes.truncate(at);
            "cut"
        }
        1 => {
            bytes[at] = byte;
            "one byte changed"
        }
        2 => {
            bytes.insert(at, byte);
            "one byte more"
        }
        3 => {
            bytes.remove(at);
            "one byte less"
        }
        4..=7 => {
            let labels: Vec<&str> = (0..*random.pick(&[1, 2, 2, 2, 3, 4])).map(|_| *random.pick(&FEW)).collect();
            bytes = labels.iter().flat_map(|label| line_of_a_few_bytes(random, label)).collect();
            return ("lines of a few bytes", bytes, labels.iter().map(|label| label.as_bytes().to_vec()).collect());
        }
        8 => {
            let length = random.below(40);
            bytes = (0..length).map(|_| *random.pick(b"AaZz09_===\n\n\nx\r ")).collect();
            "signs"
        }
        _ => {
            let length = random.below(300);
            bytes = random.bytes(length);
            "any bytes"
        }
    };
    (kind, bytes, labels)
}

/// A line that is mostly sound. About half of those that come two by two are in order.
fn line_of_a_few_bytes(random: &mut Random, label: &str) -> Vec<u8> {
    let sign = if random.chance(1, 12) { *random.pick(&["==", "", " =", "= ="]) } else { "=" };
    let text = *random.pick(&["x", "x", "x", "x", "A", " ", "\r", "\0", "yz", ""]);
    format!("{label}{sign}{text}\n").into_bytes()
}

// ---- pieces

/// Numbers that are lost where a sum is cut to 8 bits, all but the first also where it is cut to 16.
const HIGH_BITS: [usize; 5] = [1 << 8, 1 << 16, 1 << 32, 1 << 48, 1 << 63];

/// A piece of a log. The labels are those of a book.
fn any_piece(random: &mut Random, labels: &[Vec<u8>]) -> Given {
    match random.below(100) {
        0..=61 => label_piece(random, labels),
        62..=90 => wrong_piece(random, labels),
        91..=95 => piece_of_a_line(random, labels),
        _ => {
            let log = logs::any_log(random, labels).bytes;
            let place = random.below(log.len() + 3);
            let length = random.below(30);
            Given { kind: "anything", log, place, length, state: State::Unknown }
        }
    }
}

/// A label of the book, near one, or any, written in any letters.
fn any_written(random: &mut Random, labels: &[Vec<u8>]) -> (&'static str, Vec<u8>) {
    let letters = Letters::any(random);
    if labels.is_empty() || random.chance(1, 8) {
        let label = logs::any_label(random);
        return ("any label", letters.write(random, &label));
    }
    let mut label = random.pick(labels).clone();
    if random.chance(3, 5) {
        return match random.below(3) {
            0 => ("a listed label", label),
            1 => ("a listed label in other letters", in_another_case(random, &label)),
            _ => ("a listed label in any letters", letters.write(random, &label)),
        };
    }
    let at = random.below(label.len());
    let byte = *random.pick(LABEL_BYTES);
    match random.below(4) {
        0 if label.len() > 1 => {
            label.pop();
        }
        1 if label.len() < LABEL_LIMIT => label.push(byte),
        2 if label.len() < LABEL_LIMIT => label.insert(at, byte),
        _ => label[at] = byte,
    }
    ("near a listed label", letters.write(random, &label))
}

/// What stands before a label in its log, and behind it: nothing, the rest of a line, bytes of
/// labels, any bytes, or a log.
fn surroundings(random: &mut Random) -> (Vec<u8>, Vec<u8>) {
    let (before, behind) = (random.between(1, 30), random.between(1, 30));
    match random.below(9) {
        0 => (Vec::new(), Vec::new()),
        1 => (Vec::new(), random.bytes(behind)),
        2 => (random.bytes(before), Vec::new()),
        3 => (label_bytes(random, before), label_bytes(random, behind)),
        4 => (random.bytes(before), random.bytes(behind)),
        5 => {
            let log = logs::any_log(random, &[]).bytes;
            ([&log, &b"B 7 "[..]].concat(), [b"\n", &log[..]].concat())
        }
        6 => (b"B 65535 ".to_vec(), Vec::new()),
        _ => (b"B 7 ".to_vec(), b"\nE 7\n".to_vec()),
    }
}

/// A label somewhere in a log.
fn label_piece(random: &mut Random, labels: &[Vec<u8>]) -> Given {
    let (kind, label) = any_written(random, labels);
    let (before, behind) = surroundings(random);
    let log = [&before[..], &label, &behind].concat();
    Given { kind, log, place: before.len(), length: label.len(), state: State::Right(label) }
}

/// The label of a begin line, or what stands in its place.
fn piece_of_a_line(random: &mut Random, labels: &[Vec<u8>]) -> Given {
    let log = logs::any_log(random, labels).bytes;
    let mut pieces = Vec::new();
    let mut start = 0;
    for line in log.split_inclusive(|byte| *byte == b'\n') {
        let spaces: Vec<usize> = (0..line.len()).filter(|at| line[*at] == b' ').collect();
        if let Some(space) = spaces.get(1) {
            let label = line[space + 1..].strip_suffix(b"\n").unwrap_or(&line[space + 1..]);
            pieces.push((start + space + 1, label.len()));
        }
        start += line.len();
    }
    let (place, length) = if pieces.is_empty() { (0, log.len()) } else { *random.pick(&pieces) };
    Given { kind: "the label of a line", log, place, length, state: State::Unknown }
}

/// A piece that is no label, or not wholly inside its log.
fn wrong_piece(random: &mut Random, labels: &[Vec<u8>]) -> Given {
    let Given { mut log, place, length, .. } = label_piece(random, labels);
    let end = log.len();
    let wrong = |kind, log, place, length| Given { kind, log, place, length, state: State::Wrong };
    match random.below(11) {
        0 => {
            let place = *random.pick(&[0, place, place + length, end, end + 1, usize::MAX]);
            wrong("no byte", log, place, 0)
        }
        1 => {
            // A label up to the end of the log, and a byte or more behind it.
            log.truncate(place + length);
            let more = random.between(1, LABEL_LIMIT + 1 - length);
            wrong("past the end", log, place, length + *random.pick(&[1, 1, more]))
        }
        2 => {
            let place = end + *random.pick(&[0, 0, 1, 2, 300]);
            wrong("behind the end", log, place, length)
        }
        3 => {
            // No log here has 65,536 bytes.
            let high = *random.pick(&HIGH_BITS[1..]);
            wrong("a place with high bits", log, place + high, length)
        }
        4 => {
            // Now and then it is inside the log.
            log.extend(label_bytes(random, 300));
            wrong("a length with high bits", log, place, length + *random.pick(&HIGH_BITS))
        }
        5 => {
            // The place and the length add up to the end of the label, but for 2^64.
            let away = random.between(1, 30);
            wrong("around from far on", log, 0_usize.wrapping_sub(away), away + place + length)
        }
        6 => {
            // They add up to a place before the label.
            let back = random.between(1, place + 1);
            wrong("around by a long length", log, place, 0_usize.wrapping_sub(back))
        }
        7 => {
            let [place, far] = [(); 2].map(|()| 0_usize.wrapping_sub(random.between(1, 30)));
            let length = *random.pick(&[length, far]);
            wrong("near the last number", log, place, length)
        }
        8 => {
            let length = *random.pick(&[25, 25, 25, 26, 48, 255, 256, 257, 280]);
            let row = label_bytes(random, length);
            let log = [&log[..place], &row, &log[place..]].concat();
            wrong("a label of 25 bytes or more", log, place, length)
        }
        9 => {
            let at = *random.pick(&[place, place + length / 2, place + length - 1]);
            log[at] = *random.pick(&[BESIDE_LETTERS, NO_LABEL_BYTES, b"\n="].concat());
            wrong("a wrong byte in a label", log, place, length)
        }
        _ => {
            let (place, length) = (random.below(3), *random.pick(&[0, 1, 1, 2, 24, 25, 256, usize::MAX]));
            wrong("no log", Vec::new(), place, length)
        }
    }
}
