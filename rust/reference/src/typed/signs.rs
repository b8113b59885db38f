//! The signs of a typed rule.

use crate::rule::{BEFORE, INCLUDES, OVERLAPS};

/// "A name is a capital and all letters or digits that follow, at most seven of them."
const NAME_LIMIT: usize = 1 + 7;

#[derive(Clone, Copy, PartialEq, Eq, Debug)]
pub enum Sign<'a> {
    Exist,
    Same,
    Name(&'a [u8]),
    /// What stands between two quotes.
    Label(&'a [u8]),
    /// `<`, `o` or `i`, as the kind of its node.
    Relation(u8),
    Not,
    And,
    Or,
    Open,
    Close,
    Comma,
    Dot,
}

/// The signs of the text. "Spaces and LFs may stand between any two signs and at both
/// ends."
pub fn signs_of(text: &[u8]) -> Option<Vec<Sign<'_>>> {
    let mut signs = Vec::new();
    let mut at = 0;
    while let Some(byte) = text.get(at) {
        if matches!(byte, b' ' | b'\n') {
            at += 1;
        } else {
            let (sign, length) = first_sign(&text[at..])?;
            signs.push(sign);
            at += length;
        }
    }
    Some(signs)
}

/// The sign that the text begins with, and its length. Its first byte tells which one
/// it is.
fn first_sign(text: &[u8]) -> Option<(Sign<'_>, usize)> {
    let short = |sign| Some((sign, 1));
    match text[0] {
        b'!' => short(Sign::Not),
        b'&' => short(Sign::And),
        b'|' => short(Sign::Or),
        b'(' => short(Sign::Open),
        b')' => short(Sign::Close),
        b',' => short(Sign::Comma),
        b'.' => short(Sign::Dot),
        b'<' => short(Sign::Relation(BEFORE)),
        b'o' => short(Sign::Relation(OVERLAPS)),
        b'i' => short(Sign::Relation(INCLUDES)),
        b'e' => text.starts_with(b"exist").then_some((Sign::Exist, 5)),
        b's' => text.starts_with(b"same").then_some((Sign::Same, 4)),
        b'A'..=b'Z' => {
            let length = text.iter().take_while(|byte| byte.is_ascii_alphanumeric()).count();
            (length <= NAME_LIMIT).then(|| (Sign::Name(&text[..length]), length))
        }
        // "Between quotes stand any bytes but a quote."
        b'\'' => {
            let length = text[1..].iter().position(|byte| *byte == b'\'')?;
            Some((Sign::Label(&text[1..=length]), length + 2))
        }
        _ => None,
    }
}
