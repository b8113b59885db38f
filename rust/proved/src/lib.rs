//! The proved scene-log check behind safe functions.
//!
//! Each function passes its slices on as a pointer and a length, and turns the number that comes back into a Rust type.
//! Nothing is checked here: the library takes any input, and refuses what it does not take.
//!
//! A log at once, with the rule "some run is before another". By default a log is read through the first line with
//! which the rule fails; the full mode is named:
//!
//! ```
//! use scene_log::{report, Layout, Mode, TEXT_BYTES, VERDICT_BYTES, WORK_BYTES};
//!
//! let rule = b"RUL\x01\x00\x00\x03\x05\x00\x01\x03\x01\x00\x03\x00\x01";
//! let log = b"B 1 EVENING\nE 1\nB 2 TEST\nE 2\n";
//! let (mut work, mut verdicts, mut text) = ([0; WORK_BYTES], [0; VERDICT_BYTES], [0; TEXT_BYTES]);
//! let length = report(Layout::Square, Mode::default(), rule, log, &mut work, &mut verdicts, &mut text)?;
//! assert_eq!(&text[..length], b"1 F\nT 1 1 0 1 1\n");
//! let length = report(Layout::Square, Mode::Full, rule, log, &mut work, &mut verdicts, &mut text)?;
//! assert_eq!(&text[..length], b"1 F\n2 F\n3 F\n4 H\nT 4 2 2 0 3\n");
//! # Ok::<(), scene_log::Refusal>(())
//! ```
//!
//! Line by line, as the lines come:
//!
//! ```
//! use scene_log::{Check, Relation, Verdict};
//!
//! let rule = b"RUL\x01\x00\x00\x03\x05\x00\x01\x03\x01\x00\x03\x00\x01";
//! let mut check = Check::default();
//! for line in ["B 1\n", "E 1\n", "B 2\n"] {
//!     assert_eq!(check.line(rule, line.as_bytes())?, Verdict::Fails);
//! }
//! assert_eq!(check.line(rule, b"E 2\n")?, Verdict::Holds);
//! assert_eq!(check.relate(0, 1)?, Relation::Before);
//! # Ok::<(), scene_log::Refusal>(())
//! ```
//!
//! A work area has one of two layouts, which every call that is lent one names. In the half layout it has 8,128 bytes
//! instead of 16,384, and every answer is the same:
//!
//! ```
//! use scene_log::{check_log, Layout, Mode, HALF_WORK_BYTES, VERDICT_BYTES};
//!
//! let rule = b"RUL\x01\x00\x00\x03\x05\x00\x01\x03\x01\x00\x03\x00\x01";
//! let (mut work, mut verdicts) = ([0; HALF_WORK_BYTES], [0; VERDICT_BYTES]);
//! assert_eq!(check_log(Layout::Half, Mode::Full, rule, b"B 1\nE 1\nB 2\nE 2\n", &mut work, &mut verdicts)?, 4);
//! assert_eq!(verdicts[..4], [0, 0, 0, 1]);
//! # Ok::<(), scene_log::LogRefused>(())
//! ```
//!
//! The rule may be typed, and is then made into a rule file:
//!
//! ```
//! let rule = scene_log::rule_file("exist A, B . A < B")?;
//! assert_eq!(rule, b"RUL\x01\x00\x00\x03\x05\x00\x01\x03\x01\x00\x03\x00\x01");
//! # Ok::<(), scene_log::Refusal>(())
//! ```
//!
//! Labels are written in letters of either case, in logs, rule files and typed rules: a to z count as A to Z. Capitals
//! come back, in the record, in the rule file of a typed rule and in the text of a rule file. So a record with a small
//! letter in a label is refused, and so is a rule file that lists one label in two cases:
//!
//! ```
//! use scene_log::{relate, rule_file, rule_text, Check, Mode, Refusal};
//!
//! let rule = rule_file("exist A, B . A('Test') & B('TEST') & A < B")?;
//! assert_eq!(rule_text(&rule)?, "(exist A.(exist B.((A('TEST')&B('TEST'))&A < B)))");
//! let (check, lines) = Check::after_with_mode(Mode::Full, &rule, b"B 1 test\nE 1\nB 2 TeSt\nE 2\n");
//! assert_eq!(lines, Ok(4));
//! let mut record = *check.record;
//! assert_eq!(record[900..905], *b"\x04TEST");
//! assert!(relate(&record, 0, 1).is_ok());
//! record[901] = b't';
//! assert_eq!(relate(&record, 0, 1), Err(Refusal::NoRecord));
//! let twice = b"RUL\x01\x00\x02\x01A\x01a\x02\x08\x00\x00\x03\x00\x00";
//! assert_eq!(rule_text(twice), Err(Refusal::RuleLabel));
//! # Ok::<(), scene_log::Refusal>(())
//! ```
//!
//! A rule that fails may show its runs:
//!
//! ```
//! use scene_log::{rule_file, Check};
//!
//! let rule = rule_file("!exist A, B . A('EVENING') & B('TEST') & A i B")?;
//! let (check, _) = Check::after(&rule, b"B 7 EVENING\nB 9 TEST\nE 9\nE 7\n");
//! let slip = check.first_slip(&rule)?.expect("the rule fails");
//! assert_eq!(slip.runs(), [0, 1]);
//! # Ok::<(), scene_log::Refusal>(())
//! ```
//!
//! Clients may read a text in place of a label, from a book of the house:
//!
//! ```
//! use scene_log::{label_text, LabelText};
//!
//! let book = b"EVENING=Evening, main hall\nEVENING_W=Evening, west hall\n";
//! let log = b"B 7 evening_w\nE 7\n";
//! assert_eq!(label_text(book, log, 4, 9)?, LabelText::Book(b"Evening, west hall"));
//! # Ok::<(), scene_log::Refusal>(())
//! ```

mod book;
mod c;
mod layout;
mod mode;
mod refusal;
mod relation;
mod slip;
mod typed;

pub use book::{label_text, LabelText};
pub use layout::Layout;
pub use mode::Mode;
pub use refusal::{LogRefused, Refusal};
pub use relation::{Relation, Relations};
pub use slip::{first_slip, slip_passes, write_first_slip, Slip};
pub use typed::{rule_file, rule_from_text, rule_text, text_from_rule};

use std::fmt;

/// The bytes that each lent buffer has at least; a work area in the square layout, and in the half layout.
pub const WORK_BYTES: usize = 16384;
pub const HALF_WORK_BYTES: usize = 8128;
pub const VERDICT_BYTES: usize = 256;
pub const TEXT_BYTES: usize = 2048;
pub const RECORD_BYTES: usize = 2628;
pub const RULE_BYTES: usize = 599;
pub const RULE_TEXT_BYTES: usize = 4096;
pub const SLIP_BYTES: usize = 4;

/// Whether the rule is true of the lines up to a line.
#[derive(Clone, Copy, PartialEq, Eq, PartialOrd, Ord, Hash, Debug)]
pub enum Verdict {
    Fails,
    Holds,
}

impl Verdict {
    pub fn holds(self) -> bool {
        self == Verdict::Holds
    }

    /// The verdict of a byte in a verdict buffer, 1 holds, 0 fails.
    pub fn from_byte(byte: u8) -> Option<Verdict> {
        match byte {
            0 => Some(Verdict::Fails),
            1 => Some(Verdict::Holds),
            _ => None,
        }
    }
}

impl fmt::Display for Verdict {
    fn fmt(&self, out: &mut fmt::Formatter) -> fmt::Result {
        out.write_str(if self.holds() { "holds" } else { "fails" })
    }
}

/// Counts over accepted lines. It starts at zeros, which are the default.
#[derive(Clone, Copy, PartialEq, Eq, Hash, Debug, Default)]
pub struct Tally {
    pub lines: u32,
    pub begun: u32,
    pub finished: u32,
    pub open: u32,
    pub failing: u32,
}

/// The value of an answer, which is below 65,536; or the refusal, of which the answer is 65,536 times the number, and the value
/// beside it.
fn value_of(answer: u32) -> Result<u16, (Refusal, u16)> {
    let value = (answer & 0xffff) as u16;
    match answer >> 16 {
        0 => Ok(value),
        number => Err((Refusal::from_number(number as u8).expect("a number on the list"), value)),
    }
}

fn small_value(answer: u32) -> Result<u16, Refusal> {
    value_of(answer).map_err(|(refusal, _)| refusal)
}

fn verdict_of(answer: u32) -> Result<Verdict, Refusal> {
    small_value(answer).map(|value| if value == 1 { Verdict::Holds } else { Verdict::Fails })
}

fn lines_of(answer: u32) -> Result<u16, LogRefused> {
    value_of(answer).map_err(|(refusal, line)| LogRefused { refusal, line })
}

/// The whole output of the check for a rule file and a log in this mode, at the start of the text: its length. Refused
/// with [`Refusal::ShortBuffer`] alone; then nothing is written.
pub fn report(
    layout: Layout,
    mode: Mode,
    rule: &[u8],
    log: &[u8],
    work: &mut [u8],
    verdicts: &mut [u8],
    text: &mut [u8],
) -> Result<usize, Refusal> {
    // Safe: each pointer comes with the length of its own slice, and `&mut` slices do not overlap others.
    small_value(unsafe {
        c::scene_log_report(
            layout.number(),
            mode.number(),
            rule.as_ptr(),
            rule.len(),
            log.as_ptr(),
            log.len(),
            work.as_mut_ptr(),
            work.len(),
            verdicts.as_mut_ptr(),
            verdicts.len(),
            text.as_mut_ptr(),
            text.len(),
        )
    })
    .map(usize::from)
}

/// Reads a log with a rule file, through the first line with which the rule fails or in full: how many lines are taken,
/// or where the log is refused and why. A verdict byte is written for each line that is taken, 1 holds, 0 fails. An id
/// whose run has finished may begin a new run. Labels are looked up in either case.
///
/// ```
/// use scene_log::{check_log, Layout, Mode, Refusal, VERDICT_BYTES, WORK_BYTES};
///
/// let rule = b"RUL\x01\x00\x00\x02\x08\x00\x00\x03\x00\x00";
/// let log = b"B 1 TEST\nE 1\nB 1\nB 1\n";
/// let (mut work, mut verdicts) = ([0; WORK_BYTES], [7; VERDICT_BYTES]);
/// assert_eq!(check_log(Layout::Square, Mode::FirstFailure, rule, log, &mut work, &mut verdicts)?, 1);
/// assert_eq!(verdicts[..4], [0, 7, 7, 7]);
/// let refused = check_log(Layout::Square, Mode::Full, rule, log, &mut work, &mut verdicts).unwrap_err();
/// assert_eq!((refused.line, refused.refusal), (4, Refusal::StillOpen));
/// assert_eq!(verdicts[..4], [0, 1, 1, 7]);
/// # Ok::<(), scene_log::LogRefused>(())
/// ```
pub fn check_log(
    layout: Layout,
    mode: Mode,
    rule: &[u8],
    log: &[u8],
    work: &mut [u8],
    verdicts: &mut [u8],
) -> Result<u16, LogRefused> {
    // Safe: as above.
    lines_of(unsafe {
        c::scene_log_check_log(
            layout.number(),
            mode.number(),
            rule.as_ptr(),
            rule.len(),
            log.as_ptr(),
            log.len(),
            work.as_mut_ptr(),
            work.len(),
            verdicts.as_mut_ptr(),
            verdicts.len(),
        )
    })
}

/// The same, with the record of the lines that were taken at the front of `record`. Its labels are in capitals, however
/// the lines have them.
pub fn check_log_record(
    layout: Layout,
    mode: Mode,
    rule: &[u8],
    log: &[u8],
    record: &mut [u8],
    work: &mut [u8],
    verdicts: &mut [u8],
) -> Result<u16, LogRefused> {
    // Safe: as above.
    lines_of(unsafe {
        c::scene_log_check_log_record(
            layout.number(),
            mode.number(),
            rule.as_ptr(),
            rule.len(),
            log.as_ptr(),
            log.len(),
            record.as_mut_ptr(),
            record.len(),
            work.as_mut_ptr(),
            work.len(),
            verdicts.as_mut_ptr(),
            verdicts.len(),
        )
    })
}

/// Starts a record of no lines at the front of `record` and clears the pair bytes of the work area, or refuses with
/// [`Refusal::ShortBuffer`] and writes nothing.
pub fn start(layout: Layout, record: &mut [u8], work: &mut [u8]) -> Result<(), Refusal> {
    // Safe: as above.
    small_value(unsafe {
        c::scene_log_start(layout.number(), record.as_mut_ptr(), record.len(), work.as_mut_ptr(), work.len())
    })
    .map(|_| ())
}

/// Takes one line, with its LF, on a record and its work area: the verdict, or the refusal, which leaves both as they
/// were. The line's label and the rule's are looked up in either case; those of the record are capitals, or it is
/// refused with [`Refusal::NoRecord`].
pub fn check_line(
    layout: Layout,
    rule: &[u8],
    record: &mut [u8],
    work: &mut [u8],
    line: &[u8],
) -> Result<Verdict, Refusal> {
    // Safe: as above.
    verdict_of(unsafe {
        c::scene_log_check_line(
            layout.number(),
            rule.as_ptr(),
            rule.len(),
            record.as_mut_ptr(),
            record.len(),
            work.as_mut_ptr(),
            work.len(),
            line.as_ptr(),
            line.len(),
        )
    })
}

/// The same with a tally, which is updated where the line is taken.
pub fn check_line_tallied(
    layout: Layout,
    rule: &[u8],
    record: &mut [u8],
    tally: &mut Tally,
    work: &mut [u8],
    line: &[u8],
) -> Result<Verdict, Refusal> {
    let mut counts = [tally.lines, tally.begun, tally.finished, tally.open, tally.failing];
    // Safe: as above.
    let verdict = verdict_of(unsafe {
        c::scene_log_check_line_tallied(
            layout.number(),
            rule.as_ptr(),
            rule.len(),
            record.as_mut_ptr(),
            record.len(),
            counts.as_mut_ptr(),
            counts.len(),
            work.as_mut_ptr(),
            work.len(),
            line.as_ptr(),
            line.len(),
        )
    });
    let [lines, begun, finished, open, failing] = counts;
    *tally = Tally { lines, begun, finished, open, failing };
    verdict
}

/// The relation of the first run of a record to the second.
pub fn relate(record: &[u8], first: u32, second: u32) -> Result<Relation, Refusal> {
    // Safe: the pointer comes with the length of its slice.
    let number = small_value(unsafe { c::scene_log_relate(record.as_ptr(), record.len(), first, second) })?;
    Ok(Relation::from_number(number as u8).expect("a relation"))
}

/// A log that is checked line by line: the record of the lines taken so far, and its work area with the layout that it has.
#[derive(Clone, PartialEq, Eq, Debug)]
pub struct Check {
    pub layout: Layout,
    pub record: Box<[u8; RECORD_BYTES]>,
    pub work: Box<[u8]>,
}

impl Default for Check {
    fn default() -> Check {
        Check::start()
    }
}

impl Check {
    /// The check of a log of which no line is read, in the square layout.
    pub fn start() -> Check {
        Check::with_layout(Layout::default())
    }

    /// The same in this layout.
    pub fn with_layout(layout: Layout) -> Check {
        let work = vec![0; layout.work_bytes()].into_boxed_slice();
        let mut check = Check { layout, record: Box::new([0; RECORD_BYTES]), work };
        start(layout, &mut *check.record, &mut check.work).expect("both are long enough");
        check
    }

    /// The check after the lines of a log that are taken, ready for the next line, in the square layout; and how many
    /// they are, or where the log is refused and why. The log is read through the first line with which the rule fails.
    ///
    /// ```
    /// use scene_log::{Check, Verdict};
    ///
    /// let rule = b"RUL\x01\x00\x00\x02\x08\x00\x00\x03\x00\x00";
    /// let (mut check, lines) = Check::after(rule, b"B 1 TEST\nE 1\n");
    /// assert_eq!(lines, Ok(1));
    /// assert_eq!(check.line(rule, b"E 1\n"), Ok(Verdict::Holds));
    /// ```
    pub fn after(rule: &[u8], log: &[u8]) -> (Check, Result<u16, LogRefused>) {
        Check::after_with(Layout::default(), Mode::default(), rule, log)
    }

    /// The same in this layout.
    pub fn after_with_layout(layout: Layout, rule: &[u8], log: &[u8]) -> (Check, Result<u16, LogRefused>) {
        Check::after_with(layout, Mode::default(), rule, log)
    }

    /// The same in the square layout and in this mode.
    ///
    /// ```
    /// use scene_log::{Check, Mode};
    ///
    /// let rule = b"RUL\x01\x00\x00\x02\x08\x00\x00\x03\x00\x00";
    /// let (check, lines) = Check::after_with_mode(Mode::Full, rule, b"B 1 TEST\nE 1\n");
    /// assert_eq!(lines, Ok(2));
    /// ```
    pub fn after_with_mode(mode: Mode, rule: &[u8], log: &[u8]) -> (Check, Result<u16, LogRefused>) {
        Check::after_with(Layout::default(), mode, rule, log)
    }

    /// The same in this layout and in this mode.
    pub fn after_with(layout: Layout, mode: Mode, rule: &[u8], log: &[u8]) -> (Check, Result<u16, LogRefused>) {
        let mut check = Check::with_layout(layout);
        let verdicts = &mut [0; VERDICT_BYTES];
        let lines = check_log_record(layout, mode, rule, log, &mut *check.record, &mut check.work, verdicts);
        (check, lines)
    }

    /// Takes one line, with its LF: the verdict, or the refusal, which changes nothing.
    pub fn line(&mut self, rule: &[u8], line: &[u8]) -> Result<Verdict, Refusal> {
        check_line(self.layout, rule, &mut *self.record, &mut self.work, line)
    }

    /// The same with a tally, which is updated where the line is taken.
    ///
    /// ```
    /// use scene_log::{Check, Tally};
    ///
    /// let rule = b"RUL\x01\x00\x00\x02\x08\x00\x00\x03\x00\x00";
    /// let (mut check, mut tally) = (Check::default(), Tally::default());
    /// check.line_tallied(rule, &mut tally, b"B 1 TEST\n")?;
    /// assert_eq!(tally, Tally { lines: 1, begun: 1, open: 1, failing: 1, ..Tally::default() });
    /// # Ok::<(), scene_log::Refusal>(())
    /// ```
    pub fn line_tallied(&mut self, rule: &[u8], tally: &mut Tally, line: &[u8]) -> Result<Verdict, Refusal> {
        check_line_tallied(self.layout, rule, &mut *self.record, tally, &mut self.work, line)
    }

    /// The relation of the first of two runs to the second, or the refusal. Runs are numbered from 0.
    pub fn relate(&self, first: u32, second: u32) -> Result<Relation, Refusal> {
        relate(&*self.record, first, second)
    }

    /// The first slip of the rule that passes, none where the rule holds, or the refusal.
    pub fn first_slip(&self, rule: &[u8]) -> Result<Option<Slip>, Refusal> {
        first_slip(rule, &*self.record)
    }

    /// Whether the slip passes, or the refusal.
    pub fn slip_passes(&self, rule: &[u8], slip: &[u8]) -> Result<bool, Refusal> {
        slip_passes(rule, &*self.record, slip)
    }
}

/// The composition of two sets of relations, or [`Refusal::NoSet`].
///
/// ```
/// use scene_log::{compose, Refusal, Relation};
///
/// let composed = compose(Relation::Overlaps.into(), Relation::Overlaps.into())?;
/// assert!(composed.members().eq([Relation::Before, Relation::Overlaps]));
/// assert_eq!(compose(64, 0), Err(Refusal::NoSet));
/// # Ok::<(), Refusal>(())
/// ```
pub fn compose(first: u32, second: u32) -> Result<Relations, Refusal> {
    // Safe: numbers only.
    small_value(unsafe { c::scene_log_compose(first, second) }).map(|set| Relations(set as u8))
}

/// The converses of a set's members, or [`Refusal::NoSet`].
///
/// ```
/// use scene_log::{converse, Relation, Relations};
///
/// assert_eq!(converse(Relation::Includes.into())?, Relations::from(Relation::During));
/// # Ok::<(), scene_log::Refusal>(())
/// ```
pub fn converse(set: u32) -> Result<Relations, Refusal> {
    // Safe: numbers only.
    small_value(unsafe { c::scene_log_converse(set) }).map(|set| Relations(set as u8))
}

/// The 32-bit FNV-1a hash of the bytes as they are. In a record a label has the place that its capitals have.
///
/// ```
/// assert_eq!(scene_log::fnv1a(b"foobar"), 3214735720);
/// ```
pub fn fnv1a(bytes: &[u8]) -> u32 {
    // Safe: the pointer comes with the length of its slice.
    unsafe { c::scene_log_fnv1a(bytes.as_ptr(), bytes.len()) }
}
