//! Slips: the runs that break a rule.
//!
//! A rule has slips where it is a "not" directly over a chain of one to four "some" over a part without "some". A slip
//! has one run number for each "some", the outermost first. It passes where all its runs are finished and the part is
//! true of them. The rule fails exactly where some slip passes.

use crate::{c, small_value, Refusal, SLIP_BYTES};

/// The first runs that break a rule: a run number for each "some" of its chain, the outermost first.
#[derive(Clone, Copy, PartialEq, Eq, Hash, Debug)]
pub struct Slip {
    /// The bytes past the runs are 0.
    bytes: [u8; SLIP_BYTES],
    count: usize,
}

impl Slip {
    /// The run numbers, one to four of them.
    pub fn runs(&self) -> &[u8] {
        &self.bytes[..self.count]
    }
}

/// Writes the first slip of the rule that passes to the start of `slip`, which has at least [`SLIP_BYTES`]: how many
/// runs it has, or 0 where none passes and nothing is written.
/// Refused with 20, the rule's 1 to 10, 26 or 21, in this order; then nothing is written.
///
/// ```
/// use scene_log::{rule_file, write_first_slip, Check, Refusal};
///
/// let rule = rule_file("!exist A, B . A < B")?;
/// let (check, _) = Check::after(&rule, b"B 1\nE 1\nB 2\nE 2\n");
/// let mut slip = [7; 4];
/// assert_eq!(write_first_slip(&rule, &*check.record, &mut slip), Ok(2));
/// assert_eq!(slip, [0, 1, 7, 7]);
/// assert_eq!(write_first_slip(&rule, &*check.record, &mut slip[1..]), Err(Refusal::ShortBuffer));
/// # Ok::<(), Refusal>(())
/// ```
pub fn write_first_slip(rule: &[u8], record: &[u8], slip: &mut [u8]) -> Result<usize, Refusal> {
    // Safe: each pointer comes with the length of its own slice, and `&mut` slices do not overlap others.
    small_value(unsafe {
        c::scene_log_first_slip(
            rule.as_ptr(),
            rule.len(),
            record.as_ptr(),
            record.len(),
            slip.as_mut_ptr(),
            slip.len(),
        )
    })
    .map(usize::from)
}

/// The first slip of the rule that passes, in the order of run numbers, outermost compared first; none where the rule
/// holds.
///
/// ```
/// use scene_log::{first_slip, rule_file, Check, Refusal};
///
/// let rule = rule_file("!exist A, B . A < B & same(A,B)")?;
/// let (check, _) = Check::after(&rule, b"B 1\nE 1\nB 2 TEST\nE 2\nB 3 TEST\nE 3\n");
/// assert_eq!(first_slip(&rule, &*check.record)?.unwrap().runs(), [1, 2]);
/// let (check, _) = Check::after(&rule, b"B 1 TEST\nE 1\nB 2 TEST\n");
/// assert_eq!(first_slip(&rule, &*check.record)?, None);
/// let rule = rule_file("exist A, B . A < B")?;
/// assert_eq!(first_slip(&rule, &*check.record), Err(Refusal::RuleNoSlips));
/// # Ok::<(), Refusal>(())
/// ```
pub fn first_slip(rule: &[u8], record: &[u8]) -> Result<Option<Slip>, Refusal> {
    let mut bytes = [0; SLIP_BYTES];
    let count = write_first_slip(rule, record, &mut bytes)?;
    Ok((count > 0).then_some(Slip { bytes, count }))
}

/// Whether a slip passes, whoever wrote it. Its length is its number of runs.
/// Refused with 20 (for the record), the rule's 1 to 10, 26, 21 or 22, in this order.
///
/// ```
/// use scene_log::{rule_file, slip_passes, Check, Mode, Refusal};
///
/// let rule = rule_file("!exist A, B . A < B")?;
/// let (check, _) = Check::after_with_mode(Mode::Full, &rule, b"B 1\nE 1\nB 2\nE 2\nB 3\n");
/// assert_eq!(slip_passes(&rule, &*check.record, &[0, 1]), Ok(true));
/// assert_eq!(slip_passes(&rule, &*check.record, &[1, 0]), Ok(false));
/// // Run 2 is open, and a slip of this rule has two runs.
/// assert_eq!(slip_passes(&rule, &*check.record, &[0, 2]), Err(Refusal::NoFinishedRun));
/// assert_eq!(slip_passes(&rule, &*check.record, &[0]), Err(Refusal::NoFinishedRun));
/// # Ok::<(), Refusal>(())
/// ```
pub fn slip_passes(rule: &[u8], record: &[u8], slip: &[u8]) -> Result<bool, Refusal> {
    // Safe: each pointer comes with the length of its slice.
    small_value(unsafe {
        c::scene_log_slip_passes(
            rule.as_ptr(),
            rule.len(),
            record.as_ptr(),
            record.len(),
            slip.as_ptr(),
            slip.len(),
        )
    })
    .map(|value| value == 1)
}
