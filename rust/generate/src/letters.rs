//! How labels are written: in capitals, in small letters, or in both.

use crate::random::Random;

/// How the labels of one log, rule file or typed rule are written.
#[derive(Clone, Copy, PartialEq, Eq, PartialOrd, Ord, Debug)]
pub enum Letters {
    Capitals,
    Small,
    /// Each letter in either case, drawn anew wherever a label stands.
    Mixed,
}

pub const LETTERS: [Letters; 3] = [Letters::Capitals, Letters::Small, Letters::Mixed];

impl Letters {
    /// Mixed in half of the cases.
    pub fn any(random: &mut Random) -> Letters {
        *random.pick(&[Letters::Capitals, Letters::Small, Letters::Mixed, Letters::Mixed])
    }

    /// The label, written so. Bytes that are no letters stay.
    pub fn write(self, random: &mut Random, label: &[u8]) -> Vec<u8> {
        match self {
            Letters::Capitals => label.to_ascii_uppercase(),
            Letters::Small => label.to_ascii_lowercase(),
            Letters::Mixed => label.iter().map(|byte| in_either_case(random, *byte)).collect(),
        }
    }
}

fn in_either_case(random: &mut Random, byte: u8) -> u8 {
    if random.chance(1, 2) { byte.to_ascii_uppercase() } else { byte.to_ascii_lowercase() }
}

/// The label with one letter or more in the other case, where it has a letter.
pub fn in_another_case(random: &mut Random, label: &[u8]) -> Vec<u8> {
    let letters: Vec<usize> = (0..label.len()).filter(|at| label[*at].is_ascii_alphabetic()).collect();
    if letters.is_empty() {
        return label.to_vec();
    }
    let mut other = Letters::any(random).write(random, label);
    if other == label {
        let at = *random.pick(&letters);
        other[at] ^= 0x20;
    }
    other
}

/// Whether the two are one label in another case.
pub fn differ_only_in_case(first: &[u8], second: &[u8]) -> bool {
    first != second && first.eq_ignore_ascii_case(second)
}

/// The bytes beside the letters, those that are letters but for their highest bit, and the ends of the digits.
pub const BESIDE_LETTERS: &[u8] = b"@[`{/:^\xc1\xda\xe1\xfa\xdf\xff\x01\x1a\x80";
