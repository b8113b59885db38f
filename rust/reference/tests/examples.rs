//! Each folder of examples: the typed rule makes the rule file, and the output for the
//! rule file and the log is the expected one. That is in full; where the default has another,
//! the file `args` names the full mode.

use reference::report::report;
use reference::Mode;
use std::fs;
use std::path::{Path, PathBuf};

fn folders() -> Vec<PathBuf> {
    let examples = Path::new(env!("CARGO_MANIFEST_DIR")).join("../../examples");
    let mut folders: Vec<PathBuf> =
        fs::read_dir(examples).unwrap().map(|entry| entry.unwrap().path()).filter(|path| path.is_dir()).collect();
    folders.sort();
    folders
}

#[test]
fn every_folder_has_what_a_lesson_needs() {
    assert!(!folders().is_empty());
    for folder in folders() {
        for name in ["rule.txt", "rule.rul", "log", "expected", "README.md"] {
            assert!(folder.join(name).is_file(), "{} has no {name}", folder.display());
        }
    }
}

#[test]
fn every_typed_rule_makes_the_rule_file_beside_it() {
    for folder in folders() {
        let typed = fs::read(folder.join("rule.txt")).unwrap();
        let file = fs::read(folder.join("rule.rul")).unwrap();
        assert_eq!(reference::typed::rule_file(&typed), Ok(file), "{}", folder.display());
    }
}

/// The rule file, the log and the output in full.
fn lesson(folder: &Path) -> (Vec<u8>, Vec<u8>, String) {
    let read = |name: &str| fs::read(folder.join(name)).unwrap();
    (read("rule.rul"), read("log"), String::from_utf8(read("expected")).unwrap())
}

#[test]
fn every_log_gives_the_output_that_was_worked_out() {
    for folder in folders() {
        let (rule, log, expected) = lesson(&folder);
        let output = String::from_utf8(report(Mode::Full, &rule, &log)).unwrap();
        assert_eq!(output, expected, "{}", folder.display());
    }
}

/// Of the output in full the lines through the first `F`; then the counts of the lines through that one: the lines
/// themselves, those with a `B`, those with an `E`, the runs that are open, and one that fails.
#[test]
fn by_default_every_log_gives_that_output_through_its_first_f() {
    let mut shorter = 0;
    for folder in folders() {
        let (rule, log, full) = lesson(&folder);
        let lines: Vec<&str> = full.lines().collect();
        let expected = match lines.iter().position(|line| line.ends_with(" F")) {
            None => full.clone(),
            Some(last) => {
                let read = log.split(|byte| *byte == b'\n').take(last + 1);
                let (begins, ends): (Vec<&[u8]>, Vec<&[u8]>) = read.partition(|line| line.starts_with(b"B"));
                let (begun, finished) = (begins.len(), ends.len());
                let open = begun - finished;
                lines[..=last].join("\n") + &format!("\nT {} {begun} {finished} {open} 1\n", last + 1)
            }
        };
        let is_shorter = expected.len() < full.len();
        shorter += usize::from(is_shorter);
        let output = String::from_utf8(report(Mode::FirstFailure, &rule, &log)).unwrap();
        assert_eq!(output, expected, "{}", folder.display());
        let words = fs::read_to_string(folder.join("args")).unwrap_or_default();
        let mode = Mode::of_first_argument(words.lines().next().map(str::as_bytes));
        assert!(mode == Mode::Full || !is_shorter, "{} does not name the full mode", folder.display());
    }
    assert!(shorter >= 5);
}
