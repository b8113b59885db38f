//! Rules typed by hand, and rules written out.

use crate::{c, small_value, Refusal, RULE_BYTES, RULE_TEXT_BYTES};

/// Reads a typed rule into a rule file at the start of `rule`, which has at least [`RULE_BYTES`]: the file's length.
/// Its labels are in capitals, and those that differ only in case are one.
///
/// ```
/// use scene_log::{rule_from_text, Refusal, RULE_BYTES};
///
/// let mut rule = [0; RULE_BYTES];
/// let length = rule_from_text(b"exist A . same(A,A)", &mut rule)?;
/// assert_eq!(&rule[..length], b"RUL\x01\x00\x00\x02\x08\x00\x00\x03\x00\x00");
/// assert_eq!(rule_from_text(b"exist A . same(A,B)", &mut rule), Err(Refusal::RuleUnbound));
/// assert_eq!(rule_from_text(b"exist A", &mut rule), Err(Refusal::RuleGrammar));
/// assert_eq!(rule_from_text(b"exist A", &mut rule[1..]), Err(Refusal::ShortBuffer));
/// # Ok::<(), Refusal>(())
/// ```
pub fn rule_from_text(text: &[u8], rule: &mut [u8]) -> Result<usize, Refusal> {
    // Safe: each pointer comes with the length of its own slice, and `&mut` slices do not overlap others.
    small_value(unsafe { c::scene_log_rule_from_text(text.as_ptr(), text.len(), rule.as_mut_ptr(), rule.len()) })
        .map(usize::from)
}

/// Writes a rule file out as a typed rule at the start of `text`, which has at least [`RULE_TEXT_BYTES`]: the text's
/// length. Its labels are in capitals, however the file has them.
///
/// ```
/// use scene_log::{text_from_rule, Refusal, RULE_TEXT_BYTES};
///
/// let rule = b"RUL\x01\x00\x00\x02\x08\x00\x00\x03\x00\x00";
/// let mut text = [0; RULE_TEXT_BYTES];
/// let length = text_from_rule(rule, &mut text)?;
/// assert_eq!(&text[..length], b"(exist A.same(A,A))");
/// assert_eq!(text_from_rule(&rule[..12], &mut text), Err(Refusal::RuleEndsEarly));
/// # Ok::<(), Refusal>(())
/// ```
pub fn text_from_rule(rule: &[u8], text: &mut [u8]) -> Result<usize, Refusal> {
    // Safe: as above.
    small_value(unsafe { c::scene_log_text_from_rule(rule.as_ptr(), rule.len(), text.as_mut_ptr(), text.len()) })
        .map(usize::from)
}

/// The rule file of a typed rule, with its labels in capitals.
///
/// ```
/// use scene_log::{check_log, rule_file, Layout, Mode, VERDICT_BYTES, WORK_BYTES};
///
/// let rule = rule_file("!exist A, B . A('EVENING') & B('TEST') & A i B").unwrap();
/// let (mut work, mut verdicts) = ([0; WORK_BYTES], [0; VERDICT_BYTES]);
/// let log = b"B 7 EVENING\nB 9 TEST\nE 9\nE 7\n";
/// assert_eq!(check_log(Layout::Square, Mode::default(), &rule, log, &mut work, &mut verdicts), Ok(4));
/// assert_eq!(verdicts[..4], [1, 1, 1, 0]);
/// ```
pub fn rule_file(text: impl AsRef<[u8]>) -> Result<Vec<u8>, Refusal> {
    let mut rule = vec![0; RULE_BYTES];
    let length = rule_from_text(text.as_ref(), &mut rule)?;
    rule.truncate(length);
    Ok(rule)
}

/// The text of a rule file, as it is typed, with its labels in capitals.
///
/// ```
/// use scene_log::{rule_file, rule_text};
///
/// let rule = rule_file("exist First, Then . First < Then | Then < First")?;
/// assert_eq!(rule_text(&rule)?, "(exist A.(exist B.!(!A < B&!B < A)))");
/// # Ok::<(), scene_log::Refusal>(())
/// ```
pub fn rule_text(rule: &[u8]) -> Result<String, Refusal> {
    let mut text = vec![0; RULE_TEXT_BYTES];
    let length = text_from_rule(rule, &mut text)?;
    text.truncate(length);
    Ok(String::from_utf8(text).expect("letters, digits and signs"))
}
