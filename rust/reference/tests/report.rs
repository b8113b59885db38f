//! The program's whole output: P1, P9, P10, the misreadings and the edges.

use reference::report::report;
use reference::typed::rule_file;
use reference::Mode;

const P1: &str = "!exist A, B . A('EVENING') & B('TEST') & A i B";

/// The verdict letters and refusal of the output in full, without line numbers, and the T line.
fn output(rule: &str, log: &str) -> String {
    output_in(Mode::Full, rule, log)
}

/// The same in this mode.
fn output_in(mode: Mode, rule: &str, log: &str) -> String {
    let text = String::from_utf8(report(mode, &rule_file(rule.as_bytes()).unwrap(), log.as_bytes())).unwrap();
    let mut short = Vec::new();
    for (index, line) in text.lines().enumerate() {
        match line.split_once(' ').unwrap() {
            ("T", _) => short.push(line.to_string()),
            (number, rest) => {
                assert_eq!(number, (index + 1).to_string());
                short.push(rest.to_string());
            }
        }
    }
    assert!(text.ends_with('\n'));
    short.join(" ")
}

#[test]
fn p1() {
    let rule = rule_file(P1.as_bytes()).unwrap();
    assert_eq!(rule.len(), 44);
    for mode in Mode::ALL {
        let text = report(mode, &rule, b"B 7 EVENING\nB 9 TEST\nE 9\nE 7\n");
        assert_eq!(String::from_utf8(text).unwrap(), "1 H\n2 H\n3 H\n4 F\nT 4 2 2 0 1\n");
    }
}

#[test]
fn p9() {
    for mode in Mode::ALL {
        assert_eq!(output_in(mode, P1, "B 1 TEST\nE 1\n"), "H H T 2 1 1 0 0");
    }
}

/// "P10 names the full mode."
#[test]
fn p10() {
    let output = |log: &str| output_in(Mode::Full, "exist A . same(A,A)", log);
    assert_eq!(output("B 1\nE 1\n"), "F F T 2 1 1 0 2");
    // With a label it is the same as itself.
    assert_eq!(output("B 1 A\nE 1\n"), "F H T 2 1 1 0 1");
}

/// "after an F line, nothing further is read and the T line covers what was read".
#[test]
fn by_default_the_f_line_is_the_last_before_the_tally() {
    let output = |rule: &str, log: &str| output_in(Mode::default(), rule, log);
    assert_eq!(output("exist A . same(A,A)", "B 1\nE 1\n"), "F T 1 1 0 1 1");
    let no_test_without_a_run_after_it = "!exist A . A('TEST') & !exist B . A < B";
    for behind in ["", "B 2\nE 2\n", "X\n", "B 2", "E 1\n", &"B 3 TEST\nE 3\n".repeat(200)] {
        let log = format!("B 9\nB 1 TEST\nE 1\n{behind}");
        assert_eq!(output(no_test_without_a_run_after_it, &log), "H H F T 3 2 1 1 1", "{behind:?}");
    }
    // Line 2 is refused before any line fails.
    assert_eq!(output(no_test_without_a_run_after_it, "B 1 TEST\nE 2\nE 1\n"), "H R16 T 1 1 0 1 0");
}

#[test]
fn a_refused_rule_prints_one_line() {
    let mut longer = rule_file(P1.as_bytes()).unwrap();
    longer.push(0);
    for mode in Mode::ALL {
        assert_eq!(report(mode, b"", b"B 1\n"), b"0 R1\n");
        assert_eq!(report(mode, b"RUX", b"B 1\n"), b"0 R2\n");
        assert_eq!(report(mode, &longer, b""), b"0 R7\n");
    }
}

#[test]
fn a_log_of_no_bytes_prints_the_tally() {
    assert_eq!(output(P1, ""), "T 0 0 0 0 0");
}

#[test]
fn a_refused_line_ends_the_lines() {
    assert_eq!(output(P1, "E 1\nB 1\n"), "R16 T 0 0 0 0 0");
    assert_eq!(output(P1, "B 1\nB 1\nE 1\n"), "H R15 T 1 1 0 1 0");
    assert_eq!(output(P1, "B 1\nE 1\nE 1\nB 1\n"), "H H R17 T 2 1 1 0 0");
    for (line, number) in [
        ("B 65535\n", None),
        ("B 65536\n", Some(12)),
        ("B 0\n", Some(12)),
        ("B 007\n", Some(11)),
        ("B 5\r\n", Some(11)),
        ("B 5 \n", Some(11)),
        ("E 5 TEST\n", Some(11)),
        ("B 5 AAAAAAAAAAAAAAAAAAAAAAAA\n", None),
        ("B 5 AAAAAAAAAAAAAAAAAAAAAAAAA\n", Some(13)),
        ("B 5", Some(11)),
    ] {
        let expected = match number {
            None => "H T 1 1 0 1 0".to_string(),
            Some(number) => format!("R{number} T 0 0 0 0 0"),
        };
        assert_eq!(output(P1, line), expected, "{line:?}");
    }
}

/// Log and typed rule, each in capitals, in small letters and in both.
#[test]
fn labels_are_looked_up_in_either_case() {
    let rule = |evening: &str, test: &str| format!("!exist A, B . A('{evening}') & B('{test}') & A i B");
    for (evening, test) in [("EVENING", "TEST"), ("evening", "test"), ("Evening", "tesT")] {
        for (of_7, of_9) in [("EVENING", "TEST"), ("evening", "test"), ("eVENING", "Test")] {
            let log = format!("B 7 {of_7}\nB 9 {of_9}\nE 9\nE 7\n");
            assert_eq!(output(&rule(evening, test), &log), "H H H F T 4 2 2 0 1", "{evening} {test} {log:?}");
        }
    }
    let some_same = "exist A, B . A < B & same(A,B)";
    assert_eq!(output(some_same, "B 1 test\nE 1\nB 2 TEST\nE 2\n"), "F F F H T 4 2 2 0 3");
    assert_eq!(output(some_same, "B 1 test\nE 1\nB 2 TESTS\nE 2\n"), "F F F F T 4 2 2 0 4");
    assert_eq!(output(P1, "b 1 X\n"), "R11 T 0 0 0 0 0");
    assert_eq!(output(P1, "B 1 x\ne 1\n"), "H R11 T 1 1 0 1 0");
}

#[test]
fn an_id_whose_run_has_finished_begins_a_new_run() {
    assert_eq!(output(P1, "B 1\nE 1\nB 1\nB 2\n"), "H H H H T 4 3 1 2 0");
    // The second EVENING has the id of the first, and includes the TEST.
    assert_eq!(output(P1, "B 1 EVENING\nE 1\nB 1 EVENING\nB 2 TEST\nE 2\nE 1\n"), "H H H H H F T 6 3 3 0 1");
    // The TEST has the id of the EVENING that it comes after.
    assert_eq!(output(P1, "B 1 EVENING\nE 1\nB 1 TEST\nE 1\n"), "H H H H T 4 2 2 0 0");
}

#[test]
fn an_open_run_does_not_end_at_the_last_line() {
    assert_eq!(output(P1, "B 7 EVENING\nB 9 TEST\nE 9\nB 1\nE 1\n"), "H H H H H T 5 3 2 1 0");
}

#[test]
fn two_missing_labels_are_not_the_same() {
    let some_same = "exist A, B . A < B & same(A,B)";
    assert_eq!(output(some_same, "B 1\nE 1\nB 2\nE 2\n"), "F F F F T 4 2 2 0 4");
    assert_eq!(output(some_same, "B 1 A\nE 1\nB 2 A\nE 2\n"), "F F F H T 4 2 2 0 3");
}

#[test]
fn a_failed_verdict_is_not_kept_for_good() {
    let no_test_without_a_run_after_it = "!exist A . A('TEST') & !exist B . A < B";
    assert_eq!(output(no_test_without_a_run_after_it, "B 1 TEST\nE 1\nB 2\nE 2\n"), "H F F H T 4 2 2 0 2");
}

#[test]
fn one_run_inside_another_includes_it_and_does_not_overlap_it() {
    let some_pair = |sign: &str| format!("exist A, B . A {sign} B");
    for (log, sign) in [
        ("B 1\nE 1\nB 2\nE 2\n", "<"),
        ("B 1\nB 2\nE 1\nE 2\n", "o"),
        ("B 1\nB 2\nE 2\nE 1\n", "i"),
    ] {
        for other in ["<", "o", "i"] {
            let expected = if other == sign { "F F F H T 4 2 2 0 3" } else { "F F F F T 4 2 2 0 4" };
            assert_eq!(output(&some_pair(other), log), expected, "{log:?} {other}");
        }
    }
}

#[test]
fn log_bytes_past_8192_decide_nothing() {
    let rule = rule_file(P1.as_bytes()).unwrap();
    let mut log: Vec<u8> = Vec::new();
    for n in 0..128 {
        log.extend(format!("B {} {}\n", 65000 + n, "A".repeat(24)).bytes());
    }
    for n in 0..128 {
        log.extend(format!("E {}\n", 65000 + n).bytes());
    }
    while log.len() < 20000 {
        log.extend(b"B 1\n");
    }
    let whole = report(Mode::Full, &rule, &log);
    assert_eq!(whole, report(Mode::Full, &rule, &log[..8192]));
    assert!(whole.ends_with(b"256 H\n257 R18\nT 256 128 128 0 0\n"));
}
