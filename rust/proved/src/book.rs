//! The house label book: what is read in place of a label.
//!
//! A book has zero or more lines of a label, one `=`, and 1 to 60 bytes of text without LF or `=`. Each line is ended
//! by LF. The labels are in byte order of their capitals, without repeats: digits, then letters, then the underscore,
//! and a label before a longer one that begins with it.

use crate::{c, small_value, Refusal};

/// What is read for a label: some bytes of the book or of the log, where they stand. They are never empty.
#[derive(Clone, Copy, PartialEq, Eq, Hash, Debug)]
pub enum LabelText<'a> {
    /// The label is listed: the book's own text.
    Book(&'a [u8]),
    /// It is not: the label's bytes as they stand in the log.
    Log(&'a [u8]),
}

impl<'a> LabelText<'a> {
    /// The bytes, wherever they stand.
    pub fn bytes(self) -> &'a [u8] {
        match self {
            LabelText::Book(bytes) | LabelText::Log(bytes) => bytes,
        }
    }

    /// Whether the book lists the label.
    pub fn is_listed(self) -> bool {
        matches!(self, LabelText::Book(_))
    }
}

/// The text for the label that has `length` bytes of the log from `place` on: a part of the book where the label is
/// listed, otherwise these bytes of the log. a to z count as A to Z. Nothing is copied.
///
/// The label may stand anywhere in the log, and the log need not be one that is taken. The whole book is read in each
/// call. Refused with [`Refusal::BookForm`] for a book outside its form, then with [`Refusal::LineLabel`] for a piece
/// that is not wholly inside the log or is no label. The two numbers may be any.
///
/// ```
/// use scene_log::{label_text, LabelText, Refusal};
///
/// let book = b"evening_w=Evening, west hall\nTEST=Test of the lamps\n";
/// let log = b"B 7 EVENING_W\nB 9 Rehearsal\nE 9\n";
/// assert_eq!(label_text(book, log, 4, 9)?, LabelText::Book(b"Evening, west hall"));
/// assert_eq!(label_text(book, log, 18, 9)?, LabelText::Log(b"Rehearsal"));
/// // A book without its last LF; a piece with a space in front; one that is not wholly inside the log.
/// assert_eq!(label_text(&book[..51], log, 4, 9), Err(Refusal::BookForm));
/// assert_eq!(label_text(book, log, 3, 10), Err(Refusal::LineLabel));
/// assert_eq!(label_text(book, log, 4, usize::MAX), Err(Refusal::LineLabel));
/// # Ok::<(), Refusal>(())
/// ```
pub fn label_text<'a>(
    book: &'a [u8],
    log: &'a [u8],
    place: usize,
    length: usize,
) -> Result<LabelText<'a>, Refusal> {
    let (mut start, mut size) = (0, 0);
    // Safe: each pointer comes with the length of its slice, and the two numbers are no part of these.
    let answer = small_value(unsafe {
        c::scene_log_label_text(
            book.as_ptr(),
            book.len(),
            log.as_ptr(),
            log.len(),
            place,
            length,
            &mut start,
            &mut size,
        )
    })?;
    Ok(match answer {
        0 => LabelText::Book(&book[start..][..size]),
        _ => LabelText::Log(&log[start..][..size]),
    })
}
