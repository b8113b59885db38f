//! The whole output of the check program for a rule file and a log.

use crate::calls::{counts_of, Tally};
use crate::reading::{read_log, Reading};
use crate::rule::read_rule;
use crate::Mode;

/// "It prints for each accepted line its number, a space, and `H` or `F`; for a
/// refused line its number, a space, `R` and the refusal joined (as `3 R15`), and no
/// later line. Last comes `T` and the five tally counts, in the order above, a space
/// before each. Numbers are decimal, and every line ends in LF. A refused rule prints
/// `0 R` and the number joined, and nothing else." "after an F line, nothing further is
/// read and the T line covers what was read", but in the full mode.
pub fn report(mode: Mode, rule: &[u8], log: &[u8]) -> Vec<u8> {
    let formula = match read_rule(rule) {
        Ok(rule) => rule.formula(),
        Err(number) => return format!("0 R{number}\n").into_bytes(),
    };
    let Reading { accepted, verdicts, refusal } = read_log(mode, &formula, log);
    let mut text = String::new();
    for (line, holds) in (1..).zip(&verdicts) {
        text += &format!("{line} {}\n", if *holds { 'H' } else { 'F' });
    }
    if let Some(number) = refusal {
        text += &format!("{} R{number}\n", accepted.len() + 1);
    }
    let failing = verdicts.iter().filter(|holds| !**holds).count();
    let Tally { lines, begun, finished, open, .. } = counts_of(&accepted);
    text += &format!("T {lines} {begun} {finished} {open} {failing}\n");
    text.into_bytes()
}
