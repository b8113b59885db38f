//! `check_log [full] RULE LOG`: what the check program prints for this rule file and log, up to the first failure or in
//! full. A first argument that is another word leaves the default, as with that program.

use reference::Mode;
use std::io::Write;
use std::process::ExitCode;

fn main() -> ExitCode {
    let arguments: Vec<String> = std::env::args().skip(1).collect();
    let (first, rule_path, log_path) = match arguments.as_slice() {
        [rule, log] => (None, rule, log),
        [first, rule, log] => (Some(first.as_bytes()), rule, log),
        _ => {
            eprintln!("usage: check_log [full] RULE LOG");
            return ExitCode::from(2);
        }
    };
    let mode = Mode::of_first_argument(first);
    // "one that can't be opened counts as no bytes"
    let rule = std::fs::read(rule_path).unwrap_or_default();
    let log = match std::fs::read(log_path) {
        Ok(log) => log,
        Err(error) => {
            eprintln!("{log_path}: {error}");
            return ExitCode::FAILURE;
        }
    };
    match std::io::stdout().write_all(&reference::report::report(mode, &rule, &log)) {
        Ok(()) => ExitCode::SUCCESS,
        Err(error) => {
            eprintln!("standard output: {error}");
            ExitCode::FAILURE
        }
    }
}
