//! Labels as they are written, and their capitals: "Looking up a label must treat a to z as A
//! to Z, in logs, rule files and typed rules, and the record and all rules written out keep
//! the capital form."
//!
//! Everything that has been read keeps a label's bytes as they were written, and whether two
//! are one label is asked here. Capitals are made where a label is written down: in a record
//! and its places, in a rule file made from a text, and in the text of a rule file.

use crate::LABEL_LIMIT;

/// The letters that are one letter, by their places.
const SMALL: &[u8; 26] = b"abcdefghijklmnopqrstuvwxyz";
const CAPITAL: &[u8; 26] = b"ABCDEFGHIJKLMNOPQRSTUVWXYZ";

/// What each byte is in capitals.
const IN_CAPITALS: [u8; 256] = in_capitals();

const fn in_capitals() -> [u8; 256] {
    let mut table = [0; 256];
    let mut byte = 0;
    while byte < 256 {
        table[byte] = byte as u8;
        byte += 1;
    }
    let mut place = 0;
    while place < SMALL.len() {
        table[SMALL[place] as usize] = CAPITAL[place];
        place += 1;
    }
    table
}

/// "A label is 1 to 24 bytes from A to Z, 0 to 9 and underscore", where it may be written with
/// "a to z as A to Z".
pub fn is_label(bytes: &[u8]) -> bool {
    (1..=LABEL_LIMIT).contains(&bytes.len()) && bytes.iter().all(|&byte| is_label_byte(byte))
}

/// A byte that a label may be written with: a letter of either case, a digit or an underscore.
pub fn is_label_byte(byte: u8) -> bool {
    SMALL.contains(&byte) || CAPITAL.contains(&byte) || byte.is_ascii_digit() || byte == b'_'
}

/// The label in capitals. Every byte that is no small letter stays.
pub fn capitals(label: &[u8]) -> Vec<u8> {
    label.iter().map(|&byte| IN_CAPITALS[usize::from(byte)]).collect()
}

/// Whether the two are one label, each written in any case.
pub fn are_one(first: &[u8], second: &[u8]) -> bool {
    let is_one = |(x, y): (&u8, &u8)| IN_CAPITALS[usize::from(*x)] == IN_CAPITALS[usize::from(*y)];
    first.len() == second.len() && first.iter().zip(second).all(is_one)
}

/// The place of the label in a list, however either is written.
pub fn place_in(labels: &[impl AsRef<[u8]>], label: &[u8]) -> Option<usize> {
    labels.iter().position(|listed| are_one(listed.as_ref(), label))
}

#[cfg(test)]
mod tests {
    use super::*;

    /// Only a to z are folded: the 26 bytes from 97 on become those from 65 on.
    #[test]
    fn twenty_six_bytes_have_a_capital_and_every_other_byte_stays() {
        for byte in 0..=255 {
            let expected = if (97..=122).contains(&byte) { byte - 32 } else { byte };
            assert_eq!(capitals(&[byte]), [expected], "{byte}");
        }
        assert_eq!(capitals(b"Test_9 \xe1z{`@[\0"), b"TEST_9 \xe1Z{`@[\0");
        assert_eq!(capitals(b""), b"");
    }

    #[test]
    fn two_bytes_are_one_label_if_they_are_equal_or_the_two_cases_of_a_letter() {
        for x in 0..=255_u8 {
            for y in 0..=255_u8 {
                let is_pair = (65..=90).contains(&x.min(y)) && x.abs_diff(y) == 32;
                assert_eq!(are_one(&[x], &[y]), x == y || is_pair, "{x} {y}");
            }
        }
        assert!(are_one(b"Test", b"tEST") && are_one(b"", b"") && are_one(b"A_1", b"a_1"));
        assert!(!are_one(b"TEST", b"TES") && !are_one(b"", b"A") && !are_one(b"A_", b"A?") && !are_one(b"AB", b"BA"));
    }

    #[test]
    fn labels_as_they_are_written() {
        for byte in 0..=255 {
            let expected = matches!(byte, 48..=57 | 65..=90 | 95 | 97..=122);
            assert_eq!(is_label_byte(byte), expected, "{byte}");
            assert_eq!(is_label(&[b'x', byte, b'X']), expected, "{byte}");
        }
        assert!(is_label(&[b'z'; 24]) && !is_label(&[b'z'; 25]) && !is_label(b""));
    }

    #[test]
    fn a_label_is_found_however_it_is_written() {
        let labels = ["Test", "TES", "A_1"];
        assert_eq!(["TEST", "test", "tes", "a_1", "te", ""].map(|label| place_in(&labels, label.as_bytes())), [
            Some(0),
            Some(0),
            Some(1),
            Some(2),
            None,
            None
        ]);
    }
}
