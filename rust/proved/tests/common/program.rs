//! The check program, built by `rt ci`, or by `rt run` in its crate: what it prints, and with which arguments it is run
//! in either mode.

use reference::Mode;
use std::fs;
use std::io::{Read, Write};
use std::path::{Path, PathBuf};
use std::process::{Command, Stdio};
use std::sync::atomic::{AtomicU32, Ordering};

/// The program, to be run in this folder with these arguments. It reads its rule from the folder.
pub fn program(folder: &Path, arguments: &[String]) -> Command {
    let path = Path::new(env!("CARGO_MANIFEST_DIR")).join("../../crates/log_check/out/log_check");
    assert!(path.is_file(), "the check program is missing: run `rt run </dev/null` in crates/log_check");
    let mut command = Command::new(path);
    command.args(arguments).current_dir(folder);
    command
}

/// What it prints, with the log handed over in pieces of this length.
pub fn printed_by(mut command: Command, log: &[u8], piece: usize) -> Vec<u8> {
    let mut child = command.stdin(Stdio::piped()).stdout(Stdio::piped()).spawn().unwrap();
    let mut input = child.stdin.take().unwrap();
    for part in log.chunks(piece.max(1)) {
        // The program reads no more than decides every answer, so the rest may find no reader.
        if input.write_all(part).is_err() {
            break;
        }
    }
    drop(input);
    let mut output = Vec::new();
    child.stdout.take().unwrap().read_to_end(&mut output).unwrap();
    assert!(child.wait().unwrap().success());
    output
}

/// Arguments that leave the default, and those that name the full mode.
pub fn arguments(mode: Mode) -> Vec<Vec<String>> {
    let long = "full".repeat(1_000);
    let given: &[&[&str]] = match mode {
        Mode::FirstFailure => &[
            &[],
            &[""],
            &["FULL"],
            &["Full"],
            &["full "],
            &[" full"],
            &["full\n"],
            &["ful"],
            &["fulk"],
            &["fullfull"],
            &["-full"],
            &["--full"],
            &["1"],
            &["x", "full"],
            &["", "full"],
            &["FULL", "full"],
            &["ignored", "words"],
            &[&long],
            &[&long, "full"],
        ],
        Mode::Full => &[
            &["full"],
            &["full", "x"],
            &["full", ""],
            &["full", "full"],
            &["full", "FULL", "words"],
            &["full", &long],
        ],
    };
    given.iter().map(|words| words.iter().map(|word| word.to_string()).collect()).collect()
}

/// A folder of a test's own, empty.
pub fn empty_folder(name: &str) -> PathBuf {
    static MADE: AtomicU32 = AtomicU32::new(0);
    let number = MADE.fetch_add(1, Ordering::Relaxed);
    let folder = std::env::temp_dir().join(format!("scene_log_{name}_{}_{number}", std::process::id()));
    let _ = fs::remove_dir_all(&folder);
    fs::create_dir_all(&folder).unwrap();
    folder
}
