//! The house label book: the texts that are read in place of labels.
//!
//! "A lent book has zero or more lines of a label, one `=`, and 1 to 60 bytes of text without
//! LF or `=`, each ended by LF, in byte order of the labels' capitals, without repeats."
//!
//! A book is cut at every LF, and a line at every `=`. What it lists is a sorted map from
//! capitals to places. The map has one key for each different label, and has them in byte
//! order; so the lines are in order and without repeats if their labels are its keys.

use crate::label::{capitals, is_label};
use std::collections::BTreeMap;

/// "1 to 60 bytes of text".
pub const TEXT_LIMIT: usize = 60;

/// "Nothing is copied; the piece is stated by its place": in which of the two it stands, where
/// its first byte is, and how many bytes it has.
#[derive(Clone, Copy, PartialEq, Eq, PartialOrd, Ord, Hash, Debug)]
pub enum Piece {
    /// "the book's own text where the label is listed"
    InBook { start: usize, length: usize },
    /// "otherwise the label's bytes as they stand in the log"
    InLog { start: usize, length: usize },
}

impl Piece {
    /// The bytes themselves.
    pub fn bytes<'a>(self, book: &'a [u8], log: &'a [u8]) -> &'a [u8] {
        match self {
            Piece::InBook { start, length } => &book[start..][..length],
            Piece::InLog { start, length } => &log[start..][..length],
        }
    }
}

/// What a book lists: for the capitals of a label, where its text stands in the book.
pub type Listed = BTreeMap<Vec<u8>, Piece>;

/// What these bytes list; none for "a book outside this form".
pub fn read_book(book: &[u8]) -> Option<Listed> {
    let mut labels = Vec::new();
    let mut listed = Listed::new();
    let mut line_start = 0;
    for line in lines_of(book)? {
        let (label, text) = label_and_text(line)?;
        let start = line_start + label.len() + 1;
        labels.push(capitals(label));
        listed.insert(capitals(label), Piece::InBook { start, length: text.len() });
        line_start += line.len() + 1;
    }
    // "in byte order of the labels' capitals, without repeats"
    listed.keys().eq(&labels).then_some(listed)
}

/// "zero or more lines [..], each ended by LF", without their LFs. None if bytes stand behind
/// the last LF.
fn lines_of(book: &[u8]) -> Option<Vec<&[u8]>> {
    let mut lines: Vec<&[u8]> = book.split(|byte| *byte == b'\n').collect();
    let behind = lines.pop()?;
    behind.is_empty().then_some(lines)
}

/// "a label, one `=`, and 1 to 60 bytes of text without LF or `=`"
fn label_and_text(line: &[u8]) -> Option<(&[u8], &[u8])> {
    let parts: Vec<&[u8]> = line.split(|byte| *byte == b'=').collect();
    let [label, text] = parts[..] else {
        return None;
    };
    (is_label(label) && (1..=TEXT_LIMIT).contains(&text.len())).then_some((label, text))
}

/// The bytes of "a piece [..] wholly inside the log" with "a label's form". The place and the
/// length are never added up, so they may be any numbers.
pub fn label_at(log: &[u8], place: usize, length: usize) -> Option<&[u8]> {
    let label = log.get(place..)?.get(..length)?;
    is_label(label).then_some(label)
}

#[cfg(test)]
mod tests {
    use super::*;

    /// The capitals and the text of each line, in the order of the map.
    fn listed(book: &[u8]) -> Option<Vec<(String, Vec<u8>)>> {
        let text = |(label, piece): (Vec<u8>, Piece)| {
            (String::from_utf8(label).unwrap(), piece.bytes(book, b"").to_vec())
        };
        Some(read_book(book)?.into_iter().map(text).collect())
    }

    /// The labels of a book with the text `x` on every line; none if it is no book.
    fn labels(labels: &[&str]) -> Option<usize> {
        let book: String = labels.iter().map(|label| format!("{label}=x\n")).collect();
        read_book(book.as_bytes()).map(|listed| listed.len())
    }

    #[test]
    fn a_book_lists_a_text_for_each_label() {
        let book = b"Evening_w=Evening, west hall\nTEST=Test of the lamps\n";
        let expected = [("EVENING_W", "Evening, west hall"), ("TEST", "Test of the lamps")];
        assert_eq!(listed(book).unwrap(), expected.map(|(label, text)| (label.into(), text.as_bytes().to_vec())));
        let pieces: Vec<Piece> = read_book(book).unwrap().into_values().collect();
        assert_eq!(pieces, [Piece::InBook { start: 10, length: 18 }, Piece::InBook { start: 34, length: 17 }]);
    }

    #[test]
    fn a_book_may_have_no_line() {
        assert_eq!(listed(b""), Some(vec![]));
    }

    #[test]
    fn each_line_is_ended_by_lf_and_none_is_empty() {
        for book in ["A=x", "A=x\nB=y", "\n", "\nA=x\n", "A=x\n\n", "A=x\n\nB=y\n", "A=x\n\r\n", "A=x\nB", " "] {
            assert_eq!(listed(book.as_bytes()), None, "{book:?}");
        }
    }

    #[test]
    fn a_line_has_one_sign() {
        let two_lines = ["A=x\nB\n", "A=x\nB=y=\n", "A\nB=y\n", "A=x=\nB=y\n"];
        for book in ["A\n", "Ax\n", "A:x\n", "A==x\n", "A=x=\n", "A=x=y\n", "A==\n", "==\n"].iter().chain(&two_lines) {
            assert_eq!(listed(book.as_bytes()), None, "{book:?}");
        }
    }

    #[test]
    fn a_text_has_1_to_60_bytes_of_any_kind_but_lf_and_the_sign() {
        for length in 0..200 {
            let book = [b"A=".to_vec(), vec![b'x'; length], b"\n".to_vec()].concat();
            assert_eq!(listed(&book).is_some(), (1..=60).contains(&length), "{length}");
        }
        for byte in 0..=255 {
            for text in [vec![byte], vec![byte, b'x'], vec![b'x', byte], vec![b'x', byte, b'x']] {
                let book = [b"A=", &text[..], b"\n"].concat();
                let expected = (byte != 10 && byte != 61).then(|| vec![("A".to_string(), text)]);
                assert_eq!(listed(&book), expected, "{byte}");
            }
        }
    }

    #[test]
    fn a_label_has_1_to_24_bytes_of_a_label_in_either_case() {
        for length in 0..60 {
            let label = "z".repeat(length);
            assert_eq!(labels(&[&label]).is_some(), (1..=24).contains(&length), "{length}");
        }
        for byte in 0..=255 {
            let expected = matches!(byte, 48..=57 | 65..=90 | 95 | 97..=122);
            for label in [vec![byte], vec![byte, b'A'], vec![b'A', byte]] {
                assert_eq!(listed(&[&label[..], b"=x\n"].concat()).is_some(), expected, "{byte}");
            }
        }
        for label in [" A", "A ", "A-B", "A.B", "A\r", "\u{c4}"] {
            assert_eq!(labels(&[label]), None, "{label:?}");
        }
    }

    /// Digits come first, then letters, then the underscore; a label comes before a longer one
    /// that begins with it.
    #[test]
    fn labels_are_in_byte_order_of_their_capitals() {
        let rising = [
            "0", "09", "0A", "0_", "9", "A", "A0", "a9", "aA", "AAA", "aB", "Az", "a_", "A_0", "b", "Z", "_", "__",
        ];
        assert_eq!(labels(&rising), Some(18));
        for first in 0..rising.len() {
            for second in 0..rising.len() {
                let expected = (first < second).then_some(2);
                assert_eq!(labels(&[rising[first], rising[second]]), expected, "{} {}", rising[first], rising[second]);
            }
        }
        // In order as they are written, and as small letters, but not as capitals.
        for two in [["B", "a"], ["Z", "a"], ["_", "a"], ["_", "Z"], ["A_", "AB"], ["a_", "ab"], ["TEST_2", "TESTS"]] {
            assert_eq!(labels(&two), None, "{two:?}");
        }
        // The order of lines further apart follows from that of neighbours, and one of them alone breaks it.
        assert_eq!(labels(&["A", "B", "C", "D"]), Some(4));
        for falling in [["B", "A", "C", "D"], ["A", "C", "B", "D"], ["A", "B", "D", "C"], ["D", "A", "B", "C"]] {
            assert_eq!(labels(&falling), None, "{falling:?}");
        }
    }

    #[test]
    fn no_label_is_listed_twice_in_any_case() {
        for two in [["A", "A"], ["A", "a"], ["a", "A"], ["Test_1", "tEST_1"]] {
            assert_eq!(labels(&two), None, "{two:?}");
        }
        assert_eq!((labels(&["A", "B", "b"]), labels(&["A", "B", "A"])), (None, None));
        assert_eq!(labels(&["1", "11", "111"]), Some(3));
    }

    #[test]
    fn a_piece_is_a_label_wholly_inside_the_log() {
        let log = b"B 7 Evening_w\n";
        assert_eq!(label_at(log, 4, 9), Some(&b"Evening_w"[..]));
        assert_eq!(label_at(log, 6, 2), Some(&b"en"[..]));
        assert_eq!((label_at(log, 0, 1), label_at(log, 2, 1)), (Some(&b"B"[..]), Some(&b"7"[..])));
        for (place, length) in [(4, 0), (0, 0), (14, 0), (15, 0), (0, 2), (3, 10), (4, 10), (13, 1), (14, 1), (12, 3)] {
            assert_eq!(label_at(log, place, length), None, "{place} {length}");
        }
        assert_eq!((label_at(b"AB", 0, 2), label_at(b"AB", 1, 1)), (Some(&b"AB"[..]), Some(&b"B"[..])));
        assert_eq!((label_at(b"AB", 0, 3), label_at(b"AB", 1, 2), label_at(b"AB", 2, 1)), (None, None, None));
        assert_eq!((label_at(&[b'A'; 30], 3, 24).is_some(), label_at(&[b'A'; 30], 3, 25)), (true, None));
        assert_eq!((label_at(b"", 0, 0), label_at(b"", 0, 1)), (None, None));
    }

    /// 2^64 - 1 and 2 are 1 where they wrap around, which would be inside.
    #[test]
    fn a_place_and_a_length_do_not_wrap_around() {
        let log = b"ABCDEFGH";
        for away in 0..20 {
            let far = usize::MAX - away;
            for near in 0..30 {
                assert_eq!((label_at(log, far, near), label_at(log, near, far)), (None, None), "{away} {near}");
            }
            assert_eq!(label_at(log, far, far), None);
        }
        assert_eq!(label_at(log, 1 << 63, 1 << 63), None);
        assert_eq!((label_at(log, 1 << 32, 1), label_at(log, 1, 1 + (1 << 32))), (None, None));
    }
}
