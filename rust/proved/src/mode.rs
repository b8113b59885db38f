//! The modes of reading a whole log.

/// How far a whole log is read. In either mode a refused line ends it, and the lines before that are taken.
///
/// ```
/// use scene_log::{report, rule_file, Layout, Mode, TEXT_BYTES, VERDICT_BYTES, WORK_BYTES};
///
/// let rule = rule_file("!exist A . A('TEST') & !exist B . A < B")?;
/// let log = b"B 1 TEST\nE 1\nB 2\nE 2\nX\n";
/// let (mut work, mut verdicts, mut text) = ([0; WORK_BYTES], [7; VERDICT_BYTES], [0; TEXT_BYTES]);
/// let length = report(Layout::Square, Mode::FirstFailure, &rule, log, &mut work, &mut verdicts, &mut text)?;
/// assert_eq!(&text[..length], b"1 H\n2 F\nT 2 1 1 0 1\n");
/// assert_eq!(verdicts[..5], [1, 0, 7, 7, 7]);
/// let length = report(Layout::Square, Mode::Full, &rule, log, &mut work, &mut verdicts, &mut text)?;
/// assert_eq!(&text[..length], b"1 H\n2 F\n3 F\n4 H\n5 R11\nT 4 2 2 0 2\n");
/// # Ok::<(), scene_log::Refusal>(())
/// ```
#[derive(Clone, Copy, PartialEq, Eq, PartialOrd, Ord, Hash, Debug, Default)]
#[repr(u32)]
pub enum Mode {
    /// Through the first line with which the rule fails. What stands behind that line is not read: it meets no refusal,
    /// and its verdict bytes stay as they are.
    #[default]
    FirstFailure = 0,
    /// To the end of the log.
    Full = 1,
}

impl Mode {
    pub const ALL: [Mode; 2] = [Mode::FirstFailure, Mode::Full];

    /// The number by which a C call names the mode.
    pub const fn number(self) -> u32 {
        self as u32
    }
}
