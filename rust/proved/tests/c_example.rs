//! The C header declares what the archive has: the example beside it is compiled, linked and run.

use scene_log::{
    Layout, Mode, Refusal, HALF_WORK_BYTES, RECORD_BYTES, RULE_BYTES, RULE_TEXT_BYTES, SLIP_BYTES, TEXT_BYTES,
    VERDICT_BYTES, WORK_BYTES,
};
use std::path::Path;
use std::process::Command;

#[test]
fn the_c_example_prints_what_was_worked_out() {
    let root = Path::new(env!("CARGO_MANIFEST_DIR")).join("../..");
    let program = std::env::temp_dir().join(format!("scene_log_c_example_{}", std::process::id()));
    let compiled = Command::new("gcc")
        .args(["-std=c99", "-Wall", "-Wextra", "-pedantic", "-Werror", "-I"])
        .arg(root.join("include"))
        .arg(root.join("include/example.c"))
        .arg(root.join("crates/scene_log/out/libscene_log.a"))
        .arg("-o")
        .arg(&program)
        .output()
        .expect("gcc can be run: this test compiles include/example.c with it");
    assert!(compiled.status.success(), "{}", String::from_utf8_lossy(&compiled.stderr));
    let run = Command::new(&program).output().unwrap();
    std::fs::remove_file(&program).unwrap();
    assert!(run.status.success());
    // The rule is refused without its point and what follows it. Written out, each "exist" has one name and brackets
    // round it. Run 1 is before run 2, which is finished at line 4; up to there one run at most is finished, and none
    // is before another. So line 1 fails, and is all that is read up to the first failure. Line by line in the half
    // layout it is as in full; then the end of run 2 comes a second time. Their lines come as XXYY, which is 5.
    // Of the other log four lines are taken: its run 1 begins first and ends while run 2 is on, so none is before the
    // other. The byte of these two is the second of the square area and should be the first of a half one, which is 0
    // there: 21.
    // Then the rule has no "not" and so no slip; with "not", runs 0 and 2 are the first to break it: run 0 ends at line 3,
    // run 2 begins at line 4 and ends at line 5, which fails, and run 1 lasts from line 2 to the end.
    let expected = std::fs::read_to_string(root.join("include/example.expected")).unwrap();
    assert_eq!(String::from_utf8(run.stdout).unwrap(), expected);
}

/// The sentences of the refusals, the buffers' lengths, the numbers of layouts and modes and the version, from the
/// header and from this crate.
#[test]
fn the_header_says_what_this_crate_says() {
    let root = Path::new(env!("CARGO_MANIFEST_DIR")).join("../..");
    let header = std::fs::read_to_string(root.join("include/scene_log.h")).unwrap();
    let version = format!("#define SCENE_LOG_VERSION \"{}\"", env!("CARGO_PKG_VERSION"));
    assert!(header.lines().any(|line| line == version), "{version}");
    for (name, length) in [
        ("WORK_BYTES", WORK_BYTES),
        ("HALF_WORK_BYTES", HALF_WORK_BYTES),
        ("VERDICT_BYTES", VERDICT_BYTES),
        ("TEXT_BYTES", TEXT_BYTES),
        ("RECORD_BYTES", RECORD_BYTES),
        ("RULE_BYTES", RULE_BYTES),
        ("RULE_TEXT_BYTES", RULE_TEXT_BYTES),
        ("SLIP_BYTES", SLIP_BYTES),
    ] {
        let stated = format!("#define SCENE_LOG_{name} {length}");
        assert!(header.lines().any(|line| line == stated), "{stated}");
    }
    let layouts = [("SQUARE", Layout::Square.number()), ("HALF", Layout::Half.number())];
    let modes = [("FIRST_FAILURE", Mode::FirstFailure.number()), ("FULL", Mode::Full.number())];
    for (name, numbers) in [("layout", layouts), ("mode", modes)] {
        let numbers = numbers.map(|(name, number)| format!("    SCENE_LOG_{name} = {number}")).join(",\n");
        let stated = format!("enum scene_log_{name} {{\n{numbers}\n}};\n");
        assert!(header.contains(&stated), "{stated}");
    }
    let (_, texts) = header.split_once("\"no refusal\",\n").unwrap();
    let (texts, _) = texts.split_once("};").unwrap();
    let plain = |line: &str| line.trim().replace("\\\"", "'");
    let in_header: Vec<String> = texts.lines().map(plain).filter(|line| !line.is_empty()).collect();
    let refusals = (1..=27).map(|number| Refusal::from_number(number).unwrap());
    let here: Vec<String> = refusals.map(|refusal| format!("\"{}\",", refusal.to_string().replace('"', "'"))).collect();
    assert_eq!(in_header, here);
}
