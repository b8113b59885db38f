//! The layouts of a work area.

use crate::{HALF_WORK_BYTES, WORK_BYTES};

/// Where the pair bytes stand in a work area. A pair is two runs x < y, begun in that order; its byte says in which order
/// their lines have come. Verdicts, refusals, relations and tallies are the same in either layout.
///
/// A work area is read in the layout in which it was written. A call on one line that names the other one, and whose
/// rule is taken, refuses it with [`Refusal::NoRecord`](crate::Refusal::NoRecord), or with
/// [`Refusal::ShortBuffer`](crate::Refusal::ShortBuffer) where it is too short for that. While fewer than two runs have
/// begun all pair bytes are 0, and an area may pass for both.
///
/// ```
/// use scene_log::{check_line, Check, Layout, Refusal};
///
/// let rule = b"RUL\x01\x00\x00\x02\x08\x00\x00\x03\x00\x00";
/// let mut check = Check::with_layout(Layout::Half);
/// assert_eq!(check.work.len(), 8128);
/// for line in ["B 1\n", "B 2\n", "E 2\n"] {
///     check.line(rule, line.as_bytes())?;
/// }
/// // Run 0 begins, run 1 begins, run 1 ends: XYY.
/// assert_eq!(check.work[0], 4);
/// let taken = check_line(Layout::Square, rule, &mut *check.record, &mut check.work, b"B 3\n");
/// assert_eq!(taken, Err(Refusal::ShortBuffer));
/// # Ok::<(), Refusal>(())
/// ```
#[derive(Clone, Copy, PartialEq, Eq, PartialOrd, Ord, Hash, Debug, Default)]
#[repr(u32)]
pub enum Layout {
    /// 16,384 bytes: the byte of runs x < y at 128 × x + y. Every other byte is 0.
    #[default]
    Square = 0,
    /// 8,128 bytes, one for each pair of runs x < y below 128: at y × (y − 1) / 2 + x. The bytes of runs that have not
    /// begun are 0.
    Half = 1,
}

impl Layout {
    pub const ALL: [Layout; 2] = [Layout::Square, Layout::Half];

    /// The bytes that a work area has at least. No call changes a byte past them.
    pub const fn work_bytes(self) -> usize {
        match self {
            Layout::Square => WORK_BYTES,
            Layout::Half => HALF_WORK_BYTES,
        }
    }

    /// The number by which a C call names the layout.
    pub const fn number(self) -> u32 {
        self as u32
    }
}
