//! The house label book: the proved library and the reference agree on the text for a label and on where it stands.
//!
//! Each call is also made as C has it, with two numbers that are lent for the place and the size.

use generate::books::book_case;
use generate::letters::{in_another_case, Letters};
use generate::random::Random;
use reference::book::Piece;
use reference::calls as by_reference;
use scene_log::{label_text, LabelText, Refusal};
use std::collections::BTreeMap;
use std::path::Path;
use std::{fs, ptr, thread};

/// Generated cases; and those that are written in other letters.
const CASES: u64 = 40_000;
const WRITTEN: u64 = 20_000;

/// The seed of the first case; the variable FIRST_SEED of the environment names another one, for other cases.
fn first_seed() -> u64 {
    std::env::var("FIRST_SEED").map_or(0, |text| text.parse().expect("FIRST_SEED is a number"))
}

extern "C" {
    fn scene_log_label_text(
        book: *const u8,
        book_length: usize,
        log: *const u8,
        log_length: usize,
        place: usize,
        length: usize,
        start: *mut usize,
        size: *mut usize,
    ) -> u32;
}

/// What the two numbers are before a call, and those on either side of them.
const BEFORE: [usize; 5] = [!0 - 6, !0 - 7, !0 - 8, !0 - 9, !0 - 10];

/// Makes the call on two buffers, each a pointer and a length. It writes both numbers where it answers, and none where
/// it refuses; those beside them stay.
///
/// # Safety
///
/// Each pointer comes with the length of what it points to, or with a smaller one.
unsafe fn piece_at(
    (book, book_length): (*const u8, usize),
    (log, log_length): (*const u8, usize),
    place: usize,
    length: usize,
) -> Result<Piece, u8> {
    let mut numbers = BEFORE;
    let at = numbers.as_mut_ptr();
    // Safe: both are inside the array, and no part of the buffers.
    let (start, size) = unsafe { (at.add(1), at.add(3)) };
    // Safe: as asked above.
    let answer = unsafe { scene_log_label_text(book, book_length, log, log_length, place, length, start, size) };
    if answer > 0xffff {
        assert_eq!(numbers, BEFORE, "a refused call writes nothing");
        assert_eq!(answer & 0xffff, 0, "there is no value beside a refusal");
        return Err((answer >> 16) as u8);
    }
    let [before, start, between, length, behind] = numbers;
    assert_eq!([before, between, behind], [BEFORE[0], BEFORE[2], BEFORE[4]], "nothing else is written");
    match answer {
        0 => Ok(Piece::InBook { start, length }),
        1 => Ok(Piece::InLog { start, length }),
        _ => panic!("the answer is {answer}"),
    }
}

fn by_c(book: &[u8], log: &[u8], place: usize, length: usize) -> Result<Piece, u8> {
    // Safe: each pointer comes with the length of its slice.
    unsafe { piece_at((book.as_ptr(), book.len()), (log.as_ptr(), log.len()), place, length) }
}

/// Where a part stands in a slice: it is a part of that memory, and no copy.
fn place_in(slice: &[u8], part: &[u8]) -> (usize, usize) {
    let (all, part_at) = (slice.as_ptr_range(), part.as_ptr_range());
    assert!(all.start <= part_at.start && part_at.end <= all.end, "the text is a part of what is lent");
    (part_at.start as usize - all.start as usize, part.len())
}

/// By the safe function: what is handed back is never empty, and is stated by its place.
fn by_library(book: &[u8], log: &[u8], place: usize, length: usize) -> Result<Piece, u8> {
    let text = label_text(book, log, place, length).map_err(Refusal::number)?;
    assert!(!text.bytes().is_empty());
    assert_eq!(text.is_listed(), matches!(text, LabelText::Book(_)));
    Ok(match text {
        LabelText::Book(bytes) => {
            let (start, length) = place_in(book, bytes);
            Piece::InBook { start, length }
        }
        LabelText::Log(bytes) => {
            let (start, length) = place_in(log, bytes);
            Piece::InLog { start, length }
        }
    })
}

/// Both ways to call the library and the reference on the same input.
fn agreed(book: &[u8], log: &[u8], place: usize, length: usize, message: &str) -> Result<Piece, u8> {
    let expected = by_reference::label_text(book, log, place, length);
    for (name, found) in [("C", by_c(book, log, place, length)), ("Rust", by_library(book, log, place, length))] {
        assert!(
            found == expected,
            "{message}, by {name}: {found:?}, not {expected:?}\nbook {}\nlog {}\npiece at {place}, {length} bytes",
            book.escape_ascii(),
            log.escape_ascii()
        );
    }
    expected
}

/// The piece of a log that has this label alone.
fn of_label(book: &[u8], label: &[u8], message: &str) -> Result<Piece, u8> {
    agreed(book, label, 0, label.len(), message)
}

/// What an answer is counted as.
fn name_of(answer: Result<Piece, u8>) -> &'static str {
    match answer {
        Ok(Piece::InBook { .. }) => "in the book",
        Ok(Piece::InLog { .. }) => "in the log",
        Err(27) => "27",
        Err(13) => "13",
        Err(other) => panic!("refused with {other}"),
    }
}

#[test]
fn library_and_reference_agree_on_generated_books_and_pieces() {
    let mut answered: BTreeMap<&str, u64> = BTreeMap::new();
    let mut kinds: BTreeMap<&str, BTreeMap<&str, u64>> = BTreeMap::new();
    let mut pieces: BTreeMap<&str, BTreeMap<&str, u64>> = BTreeMap::new();
    let mut known = 0;
    for seed in first_seed()..first_seed() + CASES {
        let case = book_case(seed);
        let lent = (case.book.clone(), case.log.clone());
        let message = format!("seed {seed}, {}, {}", case.kind, case.piece_kind);
        let answer = agreed(&case.book, &case.log, case.place, case.length, &message);
        assert!(case.known.is_none_or(|known| known == answer), "{message}");
        // What is only read stays as it is.
        assert!(lent == (case.book, case.log), "{message}");
        known += u64::from(case.known.is_some());
        *answered.entry(name_of(answer)).or_default() += 1;
        *kinds.entry(case.kind).or_default().entry(name_of(answer)).or_default() += 1;
        *pieces.entry(case.piece_kind).or_default().entry(name_of(answer)).or_default() += 1;
    }
    println!("{CASES} cases, {known} known: {answered:?}");
    for (kind, counts) in kinds.iter().chain(&pieces) {
        println!("{kind}: {counts:?}");
    }
    for (name, least) in [("in the book", 6_000), ("in the log", 6_000), ("27", 12_000), ("13", 6_000)] {
        assert!(answered[name] >= least, "{name}: {}", answered[name]);
    }
    assert!(kinds.len() == 29 && pieces.len() == 18 && known >= CASES * 2 / 3);
    // Each fault of a book is answered with 27 whatever the piece is, and each of a piece also with a sound book.
    let only = |counts: &BTreeMap<&str, u64>, name: &str| counts.keys().eq([&name]) && counts[name] >= 200;
    assert_eq!(kinds.values().filter(|counts| only(counts, "27")).count(), 20);
    let is_refused = |counts: &&BTreeMap<&str, u64>| counts.keys().eq([&"13", &"27"]) && counts["13"] >= 200;
    assert_eq!(pieces.values().filter(is_refused).count(), 11);
    assert!(kinds["lines of a few bytes"].len() == 4 && kinds["lines of a few bytes"]["in the book"] >= 100);
}

/// Bytes that would make a book, a label or a log go on, or that would end one.
const AROUND: [&[u8]; 10] =
    [b"", b"\n", b"=x\n", b"A=x\n", b"ZZ=x\n", b"A", b"_", b"x\n", b"\n\n", b"AAAAAAAAAAAAAAAAAAAAAAAAAAAAAAAAAAA"];

/// The bytes in the middle of others.
fn surrounded(random: &mut Random, bytes: &[u8]) -> (Vec<u8>, usize) {
    let (before, behind) = (*random.pick(&AROUND), *random.pick(&AROUND));
    ([before, bytes, behind].concat(), before.len())
}

#[test]
fn bytes_beside_the_lent_ones_have_no_part_in_the_answer() {
    let mut answered: BTreeMap<&str, u64> = BTreeMap::new();
    for seed in first_seed()..first_seed() + CASES {
        let case = book_case(seed);
        let random = &mut Random::new(!seed);
        let (book, book_at) = surrounded(random, &case.book);
        let (log, log_at) = surrounded(random, &case.log);
        let (book, log) = (&book[book_at..][..case.book.len()], &log[log_at..][..case.log.len()]);
        let message = format!("seed {seed}, {}, {}", case.kind, case.piece_kind);
        let answer = agreed(book, log, case.place, case.length, &message);
        assert_eq!(answer, by_c(&case.book, &case.log, case.place, case.length), "{message}");
        *answered.entry(name_of(answer)).or_default() += 1;
    }
    println!("{answered:?}");
    assert!(answered.len() == 4 && answered.values().all(|count| *count >= 6_000));
}

/// Worked out by hand: the text of EVENING_W begins behind 15 bytes of the first line and 10 of its own.
#[test]
fn clients_read_evening_west_hall_and_not_evening_w() {
    let book = b"EAST=East wing\nEvening_W=Evening, west hall\nWEST=West wing\n";
    let log = b"B 7 EVENING_W\nB 8 Evening\nE 8\n";
    assert_eq!(agreed(book, log, 4, 9, "listed"), Ok(Piece::InBook { start: 25, length: 18 }));
    assert_eq!(label_text(book, log, 4, 9), Ok(LabelText::Book(b"Evening, west hall")));
    assert_eq!(agreed(book, log, 18, 7, "not listed"), Ok(Piece::InLog { start: 18, length: 7 }));
    assert_eq!(label_text(book, log, 18, 7), Ok(LabelText::Log(b"Evening")));
    assert_eq!(label_text(book, log, 18, 8), Err(Refusal::LineLabel));
    assert_eq!(label_text(&book[1..], log, 18, 7), Ok(LabelText::Log(b"Evening")));
    assert_eq!(label_text(&book[4..], log, 18, 8), Err(Refusal::BookForm));
}

/// All strings of so many of these bytes.
fn for_each_string(bytes: &[u8], length: usize, mut take: impl FnMut(&[u8])) {
    let mut places = vec![0; length];
    let mut string = vec![bytes[0]; length];
    loop {
        take(&string);
        let Some(last) = (0..length).rev().find(|at| places[*at] + 1 < bytes.len()) else {
            return;
        };
        places[last] += 1;
        places[last + 1..].fill(0);
        for at in last..length {
            string[at] = bytes[places[at]];
        }
    }
}

/// All books of up to this many of these bytes, each with these labels; how many books there are, and how many of them
/// have their form.
fn all_books(bytes: &[u8], longest: usize, labels: &[&[u8]]) -> (u64, u64) {
    let (mut books, mut sound) = (0, 0);
    for length in 0..=longest {
        for_each_string(bytes, length, |book| {
            books += 1;
            // What is no book is refused before any label is looked at.
            let first = of_label(book, labels[0], "all books");
            if first != Err(27) {
                sound += 1;
                for label in &labels[1..] {
                    assert_ne!(of_label(book, label, "all books"), Err(27));
                }
            }
        });
    }
    (books, sound)
}

/// A line has four bytes at least, so a book of seven has one line at most. Without `=` and LF five bytes are left for
/// a label and for a text. So with n bytes there are 5^k × 5^(n - 2 - k) books whose label has k of them, 1 to n - 3;
/// that is (n - 3) × 5^(n - 2) in all.
#[test]
fn library_and_reference_agree_on_all_books_of_up_to_seven_bytes() {
    let labels: [&[u8]; 8] = [b"A", b"a", b"_", b"0", b"x", b"AA", b"aX", b"-"];
    let (books, sound) = all_books(b"Aa_0=\nx", 7, &labels);
    println!("{books} books, {sound} of them sound");
    assert_eq!(books, (7_u64.pow(8) - 1) / 6);
    assert_eq!(sound, 1 + (4..=7).map(|length| (length - 3) * 5_u64.pow(length as u32 - 2)).sum::<u64>());
}

/// Two lines have eight bytes at least. Of two labels of one byte, `A`, `a` or `_`, those in order are A _ and a _;
/// each byte of a text is one of the three.
#[test]
fn library_and_reference_agree_on_all_books_of_up_to_nine_bytes_of_a_few() {
    let (books, sound) = all_books(b"Aa_=\n", 9, &[b"A", b"a", b"_", b"AA", b"a_"]);
    println!("{books} books, {sound} of them sound");
    assert_eq!(books, (5_u64.pow(10) - 1) / 4);
    let one_line: u64 = (4..=9).map(|length| (length - 3) * 3_u64.pow(length as u32 - 2)).sum();
    // With nine bytes one of the texts has two bytes, or one of the labels.
    let two_lines = 2 * 9 + 2 * 2 * 27 + 9 * two_labels_in_order();
    assert_eq!(sound, 1 + one_line + two_lines);
}

/// How many labels of one byte and of two, of `A`, `a` and `_`, are in order, either of them first. `A` and `a` come
/// before all nine of two bytes, `_` before the three that begin with it. `A` and `a` come behind none, `_` behind the
/// six that begin with a letter.
fn two_labels_in_order() -> u64 {
    let shorter_first = 2 * 9 + 3;
    let longer_first = 6;
    shorter_first + longer_first
}

/// All labels of one and of two of these bytes.
fn short_labels() -> Vec<Vec<u8>> {
    let bytes = b"0Aaz_";
    let two = bytes.iter().flat_map(|one| bytes.iter().map(|next| vec![*one, *next]));
    bytes.iter().map(|byte| vec![*byte]).chain(two).collect()
}

/// All books of three lines with labels of one or two bytes. Whether they are in order is worked out from the capitals,
/// and each of their labels is then found, at its text.
#[test]
fn any_three_labels_make_a_book_exactly_in_byte_order_of_their_capitals() {
    let labels = short_labels();
    let (mut sound, mut listed) = (0, 0);
    for (one, two) in labels.iter().flat_map(|one| labels.iter().map(move |two| (one, two))) {
        for three in &labels {
            let lines = [(one, "first"), (two, "the second"), (three, "3")];
            let line = |(label, text): (&Vec<u8>, &str)| [label, &b"="[..], text.as_bytes(), b"\n"].concat();
            let book = lines.map(line).concat();
            let [x, y, z] = [one, two, three].map(|label| label.to_ascii_uppercase());
            let is_book = x < y && y < z;
            sound += u64::from(is_book);
            let asked = if is_book { &labels[..] } else { &labels[..1] };
            for label in asked {
                let answer = of_label(&book, label, "three labels");
                let line = lines.iter().find(|(listed, _)| listed.eq_ignore_ascii_case(label));
                match (is_book, line) {
                    (false, _) => assert_eq!(answer, Err(27)),
                    (true, None) => assert_eq!(answer, Ok(Piece::InLog { start: 0, length: label.len() })),
                    (true, Some((_, text))) => {
                        assert_eq!(answer.unwrap().bytes(&book, label), text.as_bytes());
                        listed += 1;
                    }
                }
            }
        }
    }
    println!("{} books, {sound} of them sound, {listed} labels found", labels.len().pow(3));
    // Where case does not count there are 20 labels, and so 1,140 threes; most can be written in several ways.
    assert!(sound >= 2 * 1_140 && listed >= 3 * sound);
}

/// Any two bytes as the labels of two lines, and any byte as the label that is looked up.
#[test]
fn library_and_reference_agree_on_any_two_bytes_as_labels() {
    let mut answered: BTreeMap<&str, u64> = BTreeMap::new();
    for (one, two) in (0..=255).flat_map(|one| (0..=255).map(move |two| (one, two))) {
        let book = [&[one][..], b"=x\n", &[two], b"=y\n"].concat();
        *answered.entry(name_of(of_label(&book, &[two], "two lines"))).or_default() += 1;
        let book = [&[one][..], b"=x\n"].concat();
        *answered.entry(name_of(of_label(&book, &[two], "one line"))).or_default() += 1;
    }
    println!("{answered:?}");
    // A label has ten digits, 52 letters and the underscore. Two lines are in order with two digits, a digit and a
    // letter or the underscore, two different letters, each in either case, or a letter and the underscore. In one line
    // each byte finds itself, and a letter also its other case.
    let in_order = 10 * 9 / 2 + 10 * 53 + 4 * (26 * 25 / 2) + 52;
    assert_eq!(answered["in the book"], in_order + 11 + 2 * 52);
    assert_eq!(answered["in the log"], 63 * 63 - 11 - 2 * 52);
    assert_eq!(answered["13"], 63 * (256 - 63));
    assert_eq!(answered.values().sum::<u64>(), 2 * 65_536);
}

/// The book of one line whose label and text have so many bytes.
fn line_of(label: usize, text: usize) -> Vec<u8> {
    [vec![b'Z'; label], b"=".to_vec(), vec![b't'; text], b"\n".to_vec()].concat()
}

#[test]
fn a_label_has_1_to_24_bytes_and_a_text_1_to_60() {
    for (label, text) in (0..40).flat_map(|label| (0..330).map(move |text| (label, text))) {
        let answer = of_label(&line_of(label, text), b"z", "lengths");
        let expected = match (label, text) {
            (1, 1..=60) => Ok(Piece::InBook { start: 2, length: text }),
            (2..=24, 1..=60) => Ok(Piece::InLog { start: 0, length: 1 }),
            _ => Err(27),
        };
        assert_eq!(answer, expected, "a label of {label} bytes, a text of {text}");
    }
    // Where a length is cut to 8 or 16 bits, most of these are short.
    for length in [255, 256, 257, 280, 300, 316, 65_535, 65_536, 65_537, 65_560, 65_596] {
        for (label, text) in [(length, 1), (1, length), (length, length)] {
            assert_eq!(of_label(&line_of(label, text), b"z", "long ones"), Err(27));
        }
        assert_eq!(of_label(b"", &vec![b'z'; length], "a long piece"), Err(13));
    }
    for length in 0..40 {
        let label = vec![b'z'; length];
        let found = of_label(&line_of(24, 60), &label, "pieces");
        let expected = match length {
            24 => Ok(Piece::InBook { start: 25, length: 60 }),
            1..=23 => Ok(Piece::InLog { start: 0, length }),
            _ => Err(13),
        };
        assert_eq!(found, expected, "{length}");
    }
}

#[test]
fn a_text_has_any_byte_but_lf_and_the_sign() {
    for byte in 0..=255 {
        for text in [vec![byte], vec![byte, b'x'], vec![b'x', byte], vec![b'x', byte, b'x'], vec![byte; 60]] {
            let book = [b"A=x\nB=", &text[..], b"\nC=y\n"].concat();
            let expected = match byte {
                b'\n' | b'=' => Err(27),
                _ => Ok(Piece::InBook { start: 6, length: text.len() }),
            };
            assert_eq!(of_label(&book, b"b", "a byte of a text"), expected, "{byte}");
        }
    }
}

#[test]
fn a_byte_changed_or_cut_in_a_book_is_answered_as_by_the_reference() {
    let book = b"0=x\nA=\r\0\nA0=west\na_=z\nB=Evening, hall 2\n_=?\n";
    let mut answered: BTreeMap<&str, u64> = BTreeMap::new();
    for at in 0..=book.len() {
        let cut = of_label(&book[..at], b"A", "cut");
        assert_eq!(cut.is_ok(), at == 0 || book[at - 1] == b'\n', "{at}");
        for byte in 0..=255 {
            let mut changed = book.to_vec();
            changed.resize(book.len().max(at + 1), 0);
            changed[at] = byte;
            *answered.entry(name_of(of_label(&changed, b"A", "changed"))).or_default() += 1;
            let more = [&book[..at], &[byte], &book[at..]].concat();
            *answered.entry(name_of(of_label(&more, b"a0", "one more"))).or_default() += 1;
        }
    }
    println!("{answered:?}");
    assert!(answered["27"] >= 8_000 && answered["in the book"] >= 8_000 && answered["in the log"] >= 50);
}

/// Every place and every length about the ends of a log, and the same near 2^64, 2^63, 2^32, 2^16 and 2^8.
#[test]
fn a_piece_is_a_label_wholly_inside_the_log() {
    let log = b"B 7 Evening_W\nABCDEFGHIJKLMNOPQRSTUVWXYZ0123456789_";
    let book = b"EVENING_W=Evening, west hall\n";
    let near = |middle: usize| (0..=40).map(move |away| middle.wrapping_sub(20).wrapping_add(away));
    let middles = [0, 1 << 8, 1 << 16, 1 << 32, 1 << 63, 20 + log.len() / 2, log.len()];
    let mut numbers: Vec<usize> = (0..=log.len() + 3).chain(middles.into_iter().flat_map(near)).collect();
    numbers.sort();
    numbers.dedup();
    let mut answered: BTreeMap<&str, u64> = BTreeMap::new();
    for (place, length) in numbers.iter().flat_map(|place| numbers.iter().map(move |length| (*place, *length))) {
        let answer = agreed(book, log, place, length, "places");
        let is_inside = place as u128 + length as u128 <= log.len() as u128;
        let has_form = is_inside && (1..=24).contains(&length) && {
            log[place..place + length].iter().all(|byte| byte.is_ascii_alphanumeric() || *byte == b'_')
        };
        let expected = match (place, length) {
            (4, 9) => Ok(Piece::InBook { start: 10, length: 18 }),
            _ if has_form => Ok(Piece::InLog { start: place, length }),
            _ => Err(13),
        };
        assert_eq!(answer, expected, "{place} {length}");
        *answered.entry(name_of(answer)).or_default() += 1;
    }
    println!("{} numbers: {answered:?}", numbers.len());
    assert!(numbers.len() >= 250 && answered["in the book"] == 1 && answered["in the log"] >= 500);
}

/// Every fault of a book with every fault of a piece, and with none.
#[test]
fn a_book_outside_its_form_comes_before_a_piece_that_is_no_label() {
    let faults: [&[u8]; 18] = [
        b"A=x\nWEST=y",
        b"A=x\n\nWEST=y\n",
        b"\nWEST=y\n",
        b"WEST=y\n\n",
        b"A\nWEST=y\n",
        b"A=x=\nWEST=y\n",
        b"A==\nWEST=y\n",
        b"=x\nWEST=y\n",
        b"A=\nWEST=y\n",
        b"A-=x\nWEST=y\n",
        b"A =x\nWEST=y\n",
        b"WEST=y\nA=x\n",
        b"WEST=y\nWEST=y\n",
        b"WEST=y\nwest=z\n",
        b"WEST_1=x\nWEST=y\n",
        b"WEST_=x\nWESTA=y\n",
        b"WEST=y\nabcdefghijklmnopqrstuvwxyz=x\n",
        b"WEST=y\nX=1234567890123456789012345678901234567890123456789012345678901\n",
    ];
    let longest = b"WEST=\r\nX=123456789012345678901234567890123456789012345678901234567890\n";
    let sound: [&[u8]; 3] = [b"", b"A=x\nWEST=y\n", longest];
    let log = b"B 7 west\nABCDEFGHIJKLMNOPQRSTUVWXYZ";
    let pieces = [
        (4, 4, None),
        (6, 2, None),
        (9, 24, None),
        (4, 0, Some(13)),
        (log.len(), 0, Some(13)),
        (3, 5, Some(13)),
        (4, 5, Some(13)),
        (9, 25, Some(13)),
        (11, 25, Some(13)),
        (log.len(), 1, Some(13)),
        (usize::MAX, 5, Some(13)),
        (4, usize::MAX, Some(13)),
        (4, 4_usize.wrapping_sub(5), Some(13)),
    ];
    for (place, length, refusal) in pieces {
        for book in faults {
            assert_eq!(agreed(book, log, place, length, "a fault in the book"), Err(27));
            assert_eq!(agreed(book, b"", place, length, "and no log"), Err(27));
        }
        for book in sound {
            assert_eq!(agreed(book, log, place, length, "no fault in the book").err(), refusal);
        }
    }
}

/// A pointer may be NULL where the length is 0.
#[test]
fn an_empty_book_lists_nothing_and_an_empty_log_has_no_label() {
    let log = b"B 7 WEST\n";
    let nothing = (ptr::null(), 0);
    let lent = (log.as_ptr(), log.len());
    // Safe: NULL comes with length 0, and the other pointer with the length of its slice.
    unsafe {
        assert_eq!(piece_at(nothing, lent, 4, 4), Ok(Piece::InLog { start: 4, length: 4 }));
        assert_eq!(piece_at(nothing, lent, 4, 5), Err(13));
        assert_eq!(piece_at(lent, nothing, 0, 0), Err(27));
        for (place, length) in [(0, 0), (0, 1), (1, 0), (4, 4), (usize::MAX, 1), (1, usize::MAX)] {
            assert_eq!(piece_at(nothing, nothing, place, length), Err(13), "{place} {length}");
        }
    }
    assert_eq!(agreed(b"", log, 4, 4, "an empty book"), Ok(Piece::InLog { start: 4, length: 4 }));
    assert_eq!(agreed(b"", b"", 0, 0, "an empty log"), Err(13));
}

/// The book is also lent as the log: each label in it has its text, and each text that is a label is looked up.
#[test]
fn the_book_and_the_log_may_be_the_same_bytes() {
    let book = b"A=b\nB=lamps\nlamps=A\nZ=no label\n";
    let text = |place: usize, length: usize| agreed(book, book, place, length, "one for both");
    assert_eq!(text(0, 1), Ok(Piece::InBook { start: 2, length: 1 }));
    assert_eq!(text(2, 1), Ok(Piece::InBook { start: 6, length: 5 }));
    assert_eq!(text(6, 5), Ok(Piece::InBook { start: 18, length: 1 }));
    assert_eq!(text(22, 2), Ok(Piece::InLog { start: 22, length: 2 }));
    assert_eq!(text(22, 8), Err(13));
    // A log that begins in the middle of the book.
    let found = agreed(book, &book[6..], 0, 5, "one in the other");
    assert_eq!(found, Ok(Piece::InBook { start: 18, length: 1 }));
}

/// The book with its labels written in other letters, and the label of the log too.
#[test]
fn the_case_of_labels_changes_no_answer() {
    let mut answered: BTreeMap<&str, u64> = BTreeMap::new();
    let mut changed = 0;
    for seed in first_seed()..first_seed() + WRITTEN {
        let case = book_case(seed);
        let random = &mut Random::new(!seed);
        let answer = by_c(&case.book, &case.log, case.place, case.length);
        // Up to the first sign of a line; without one the line stays.
        let letters = Letters::any(random);
        let lines = case.book.split_inclusive(|byte| *byte == b'\n');
        let book: Vec<u8> = lines
            .flat_map(|line| match line.iter().position(|byte| *byte == b'=') {
                Some(sign) => [letters.write(random, &line[..sign]), line[sign..].to_vec()].concat(),
                None => line.to_vec(),
            })
            .collect();
        let mut log = case.log.clone();
        if let Some(label) = log.get_mut(case.place..).and_then(|rest| rest.get_mut(..case.length)) {
            let other = in_another_case(random, label);
            label.copy_from_slice(&other);
        }
        changed += u64::from(book != case.book && log != case.log);
        assert_eq!(by_c(&book, &log, case.place, case.length), answer, "seed {seed}");
        *answered.entry(name_of(answer)).or_default() += 1;
    }
    println!("{changed} are written in other letters: {answered:?}");
    assert!(changed >= WRITTEN / 4 && answered.len() == 4 && answered.values().all(|count| *count >= 1_000));
}

/// A book of so many lines, each label once in either case.
fn long_book(lines: usize) -> (Vec<u8>, Vec<(Vec<u8>, Vec<u8>)>) {
    let random = &mut Random::new(27);
    let mut labels: Vec<String> = (0..lines).map(|number| format!("{number:X}_{}", "Y".repeat(number % 19))).collect();
    labels.sort();
    let mut book = Vec::new();
    let mut listed = Vec::new();
    for (number, label) in labels.iter().enumerate() {
        let label = Letters::Mixed.write(random, label.as_bytes());
        let text = vec![b'!' + (number % 28) as u8; 1 + number % 60];
        book.extend([&label, &b"="[..], &text, b"\n"].concat());
        listed.push((label, text));
    }
    (book, listed)
}

#[test]
fn every_label_of_a_long_book_is_found_and_no_other() {
    let (book, listed) = long_book(1_500);
    let random = &mut Random::new(8);
    for (label, text) in &listed {
        let written = in_another_case(random, label);
        let found = label_text(&book, &written, 0, written.len());
        assert_eq!(found, Ok(LabelText::Book(text)), "{}", label.escape_ascii());
        let (start, length) = place_in(&book, found.unwrap().bytes());
        assert_eq!((&book[..start].ends_with(b"="), length), (&true, text.len()));
        let other = [label, &b"_"[..]].concat();
        let expected = if other.len() > 24 { Err(Refusal::LineLabel) } else { Ok(LabelText::Log(&other)) };
        assert_eq!(label_text(&book, &other, 0, other.len()), expected);
    }
    // One line, at the front, in the middle or at the end, in the place of the next.
    for at in [0, 1, 749, 1_497, 1_498] {
        let mut lines = listed.clone();
        lines.swap(at, at + 1);
        let book: Vec<u8> = lines.iter().flat_map(|(label, text)| [label, &b"="[..], text, b"\n"].concat()).collect();
        for (label, _) in [&listed[0], &listed[750], &listed[1_499]] {
            assert_eq!(of_label(&book, label, "two lines swapped"), Err(27), "{at}");
        }
    }
}

/// The stack that the header states.
fn stack_bytes() -> usize {
    let header = Path::new(env!("CARGO_MANIFEST_DIR")).join("../../include/scene_log.h");
    let header = fs::read_to_string(header).unwrap();
    let stated = header.lines().find_map(|line| line.strip_prefix("#define SCENE_LOG_STACK_BYTES "));
    stated.expect("the header states the stack").parse().unwrap()
}

/// A book of 20,000 lines, and one line of a million bytes.
#[test]
fn a_long_book_is_read_within_the_stack_of_the_header() {
    let (book, listed) = long_book(20_000);
    let run = move || {
        for (label, text) in [&listed[0], &listed[10_000], &listed[19_999]] {
            assert_eq!(label_text(&book, label, 0, label.len()), Ok(LabelText::Book(text)));
        }
        assert_eq!(label_text(&book, b"none", 0, 4), Ok(LabelText::Log(b"none")));
        assert_eq!(label_text(&book, b"none", 0, 5), Err(Refusal::LineLabel));
        for line in [vec![b'A'; 1_000_000], [b"A=", &vec![b'x'; 1_000_000][..]].concat(), vec![b'\n'; 1_000_000]] {
            assert_eq!(label_text(&line, b"A", 0, 1), Err(Refusal::BookForm));
            assert_eq!(label_text(&[&book[..], &line].concat(), b"A", 0, 1), Err(Refusal::BookForm));
        }
    };
    thread::Builder::new().stack_size(stack_bytes()).spawn(run).unwrap().join().unwrap();
}
