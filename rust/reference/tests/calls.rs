//! The calls: refusals in the paper's order, answers, and what each buffer holds after.

use reference::book::Piece;
use reference::calls::*;
use reference::record::{pair_bytes, record_of, Record};
use reference::trace::accepted_lines;
use reference::typed::rule_file;
use reference::{Layout, Mode, VERDICT_BYTES};

/// No EVENING includes a TEST.
fn p1() -> Vec<u8> {
    rule_file(b"!exist A, B . A('EVENING') & B('TEST') & A i B").unwrap()
}

const P1_LOG: &str = "B 7 EVENING\nB 9 TEST\nE 9\nE 7\n";

fn record_after(log: &str) -> Record {
    let (accepted, refusal) = accepted_lines(log.as_bytes());
    assert_eq!(refusal, None);
    record_of(&accepted)
}

/// A work area with a few bytes more than needed, which no call may change.
fn work_after(layout: Layout, log: &str) -> Vec<u8> {
    let mut work = pair_bytes(layout, &record_after(log));
    work.extend([0xA5; 7]);
    work
}

/// Each layout in either mode.
fn in_both() -> Vec<(Layout, Mode)> {
    Layout::ALL.into_iter().flat_map(|layout| Mode::ALL.map(|mode| (layout, mode))).collect()
}

fn tally(counts: [u64; 5]) -> Tally {
    let [lines, begun, finished, open, failing] = counts;
    Tally { lines, begun, finished, open, failing }
}

#[test]
fn starting_a_record_clears_the_pair_bytes_and_no_byte_after_them() {
    for (layout, size) in [(Layout::Square, 16384), (Layout::Half, 8128)] {
        for more in [0, 1, 3, 8256] {
            let mut work = vec![0xA5; size + more];
            assert_eq!(start_record(layout, &mut work), Ok(Record::of_no_lines()));
            assert_eq!(work[..size], vec![0; size]);
            assert_eq!(work[size..], vec![0xA5; more]);
        }
        for length in [0, 1, 8127, size - 1] {
            let mut short = vec![0xA5; length];
            assert_eq!(start_record(layout, &mut short), Err(20));
            assert_eq!(short, vec![0xA5; length]);
        }
    }
    assert_eq!(start_record(Layout::Square, &mut [0; 8128]), Err(20));
}

#[test]
fn the_single_line_calls_follow_p1() {
    for (layout, place) in [(Layout::Square, 1), (Layout::Half, 0)] {
        let mut work = vec![0xA5; layout.size() + 3];
        let mut record = start_record(layout, &mut work).unwrap();
        let mut counts = Tally::default();
        let mut so_far = String::new();
        for (line, holds, byte, expected) in [
            ("B 7 EVENING\n", true, 0, [1, 1, 0, 1, 0]),
            ("B 9 TEST\n", true, 1, [2, 2, 0, 2, 0]),
            ("E 9\n", true, 4, [3, 2, 1, 1, 0]),
            ("E 7\n", false, 7, [4, 2, 2, 0, 1]),
        ] {
            let mut other_work = work.clone();
            let without = check_line(layout, &p1(), &record, &mut other_work, line.as_bytes());
            let with = check_line_with_tally(layout, &p1(), &record, &mut work, &mut counts, line.as_bytes());
            so_far += line;
            assert_eq!(without, with);
            assert_eq!(other_work, work);
            assert_eq!(with.verdict, Ok(holds));
            assert_eq!(with.record, record_after(&so_far));
            assert_eq!(work[..layout.size()], pair_bytes(layout, &with.record));
            assert_eq!(work[place], byte);
            assert_eq!(work[layout.size()..], [0xA5; 3]);
            assert_eq!(counts, tally(expected));
            record = with.record;
        }
    }
}

#[test]
fn the_whole_log_call_follows_p1() {
    // The last line is the first that fails, so both modes read all.
    for (layout, mode) in in_both() {
        let mut work = vec![0xA5; layout.size() + 3];
        let mut verdicts = vec![9; VERDICT_BYTES + 3];
        let answer = check_log(layout, mode, &p1(), P1_LOG.as_bytes(), &mut work, &mut verdicts);
        assert_eq!(answer, LogAnswer { record: record_after(P1_LOG), refusal: None });
        assert_eq!(verdicts[..4], [1, 1, 1, 0]);
        assert!(verdicts[4..].iter().all(|byte| *byte == 9));
        assert_eq!(work[..layout.size()], pair_bytes(layout, &answer.record));
        assert_eq!(work[layout.size()..], [0xA5; 3]);
    }
}

#[test]
fn a_log_refused_at_a_line_keeps_what_came_before_it() {
    for (layout, mode) in in_both() {
        let mut work = vec![0xA5; layout.size()];
        let mut verdicts = vec![9; VERDICT_BYTES];
        let log = "B 7 EVENING\nB 9 TEST\nE 9\nB 7\nE 7\n";
        let answer = check_log(layout, mode, &p1(), log.as_bytes(), &mut work, &mut verdicts);
        let before = record_after("B 7 EVENING\nB 9 TEST\nE 9\n");
        assert_eq!(answer.refusal, Some((15, 4)));
        assert_eq!(work, pair_bytes(layout, &before));
        assert_eq!(answer.record, before);
        assert_eq!(verdicts[..4], [1, 1, 1, 9]);
    }
}

#[test]
fn the_whole_log_call_starts_a_record_itself() {
    let logs = [("", None), ("E 1\n", Some((16, 1))), ("B 1", Some((11, 1)))];
    for ((layout, mode), (log, refusal)) in in_both().into_iter().flat_map(|both| logs.map(|log| (both, log))) {
        let mut work = vec![0xA5; layout.size() + 3];
        let mut verdicts = vec![9; VERDICT_BYTES];
        let answer = check_log(layout, mode, &p1(), log.as_bytes(), &mut work, &mut verdicts);
        assert_eq!(answer, LogAnswer { record: Record::of_no_lines(), refusal });
        assert_eq!(work[..layout.size()], vec![0; layout.size()]);
        assert_eq!(work[layout.size()..], [0xA5; 3]);
        assert_eq!(verdicts, [9; VERDICT_BYTES]);
    }
}

#[test]
fn the_whole_log_call_refused_for_20_or_the_rule_touches_no_buffer() {
    use Layout::{Half, Square};
    for (layout, rule, work_length, verdict_length, number) in [
        (Square, p1(), 16383, VERDICT_BYTES, 20),
        (Square, p1(), 8128, VERDICT_BYTES, 20),
        (Square, p1(), 16384, VERDICT_BYTES - 1, 20),
        (Square, vec![], 16384, VERDICT_BYTES - 1, 20),
        (Square, vec![], 0, 0, 20),
        (Square, vec![], 16384, VERDICT_BYTES, 1),
        (Square, b"RUX".to_vec(), 16384, VERDICT_BYTES, 2),
        (Half, p1(), 8127, VERDICT_BYTES, 20),
        (Half, p1(), 8128, VERDICT_BYTES - 1, 20),
        (Half, vec![], 8127, VERDICT_BYTES, 20),
        (Half, vec![], 0, 0, 20),
        (Half, vec![], 8128, VERDICT_BYTES, 1),
        (Half, b"RUX".to_vec(), 16384, VERDICT_BYTES, 2),
    ] {
        for mode in Mode::ALL {
            let mut work = vec![0xA5; work_length];
            let mut verdicts = vec![9; verdict_length];
            let answer = check_log(layout, mode, &rule, b"E 1\n", &mut work, &mut verdicts);
            assert_eq!(answer, LogAnswer { record: Record::of_no_lines(), refusal: Some((number, 0)) });
            assert_eq!(work, vec![0xA5; work_length]);
            assert_eq!(verdicts, vec![9; verdict_length]);
        }
    }
}

/// "after an F line, nothing further is read"; "later verdict bytes stay untouched".
#[test]
fn the_whole_log_call_stops_at_the_first_failure_unless_it_is_in_full() {
    // The TEST has ended and no run is after it, until the second run has ended.
    let rule = rule_file(b"!exist A . A('TEST') & !exist B . A < B").unwrap();
    let log = "B 1 TEST\nE 1\nB 2\nE 2\nE 2\n";
    for layout in Layout::ALL {
        for (mode, read, refusal, expected) in [
            (Mode::FirstFailure, "B 1 TEST\nE 1\n", None, [1, 0, 9, 9, 9]),
            (Mode::Full, "B 1 TEST\nE 1\nB 2\nE 2\n", Some((17, 5)), [1, 0, 0, 1, 9]),
        ] {
            let mut work = vec![0xA5; layout.size() + 3];
            let mut verdicts = vec![9; VERDICT_BYTES];
            let answer = check_log(layout, mode, &rule, log.as_bytes(), &mut work, &mut verdicts);
            assert_eq!(answer, LogAnswer { record: record_after(read), refusal });
            assert_eq!(work[..layout.size()], pair_bytes(layout, &answer.record));
            assert_eq!(work[layout.size()..], [0xA5; 3]);
            assert_eq!(verdicts[..5], expected);
            assert!(verdicts[5..].iter().all(|byte| *byte == 9));
        }
    }
}

/// "Answers: a line after the first F meets no refusal in the new default." One before it does.
#[test]
fn a_refusal_is_met_before_the_first_failure_and_not_behind_it() {
    let some_run = rule_file(b"exist A . same(A,A) | !same(A,A)").unwrap();
    for layout in Layout::ALL {
        let met = |mode: Mode, rule: &[u8], log: &str| {
            let (mut work, mut verdicts) = (vec![0; layout.size()], vec![9; VERDICT_BYTES]);
            let answer = check_log(layout, mode, rule, log.as_bytes(), &mut work, &mut verdicts);
            (answer.record.lines, answer.refusal)
        };
        // No run is finished with line 1, so the rule fails there.
        for behind in ["X\n", "B 0\n", "B 2 x-\n", "B 1\n", "E 2\n", "B 2", &"B 2\n".repeat(9000), ""] {
            let log = format!("B 1\n{behind}");
            assert_eq!(met(Mode::FirstFailure, &some_run, &log), (1, None), "{behind:?}");
            assert_eq!(met(Mode::Full, &some_run, &log).1.is_some(), !behind.is_empty(), "{behind:?}");
        }
        assert_eq!(met(Mode::Full, &some_run, "B 1\nB 2 x\n"), (2, None));
        // Line 4 would fail, and line 3 is refused.
        let log = "B 7 EVENING\nB 9 TEST\nE 8\nE 9\nE 7\n";
        for mode in Mode::ALL {
            assert_eq!(met(mode, &p1(), log), (2, Some((16, 3))));
            assert_eq!(met(mode, &some_run, "E 1\n"), (0, Some((16, 1))));
        }
    }
}

/// The refusal of the single-line call with a tally; record, work area and tally must
/// come back the same.
fn refusal(layout: Layout, rule: &[u8], record: &Record, work: &[u8], counts: Tally, line: &str) -> Option<u8> {
    let (mut work_after, mut tally_after) = (work.to_vec(), counts);
    let answer = check_line_with_tally(layout, rule, record, &mut work_after, &mut tally_after, line.as_bytes());
    let number = answer.verdict.err();
    if number.is_some() {
        assert_eq!((&answer.record, work_after.as_slice(), tally_after), (record, work, counts));
    }
    // Without a tally the answer is the same, but for 24.
    let mut work_after = work.to_vec();
    let without = check_line(layout, rule, record, &mut work_after, line.as_bytes());
    if number != Some(24) {
        assert_eq!(without, answer);
    } else {
        assert_ne!(without.verdict, Err(24));
    }
    number
}

#[test]
fn the_order_of_refusals_of_the_single_line_call() {
    for layout in Layout::ALL {
        let sound = record_after("B 7 EVENING\n");
        let mut spoiled = sound.clone();
        spoiled.lines = 2;
        let work = work_after(layout, "B 7 EVENING\n");
        let mut wrong_work = work.clone();
        wrong_work[5] = 1;
        let right = tally([1, 1, 0, 1, 0]);
        let wrong = tally([2, 1, 0, 1, 0]);
        let met = |rule: &[u8], record: &Record, work: &[u8], counts: Tally, line: &str| {
            refusal(layout, rule, record, work, counts, line)
        };
        assert_eq!(met(&[], &spoiled, &work[..layout.size() - 1], wrong, "X\n"), Some(20));
        assert_eq!(met(&[], &spoiled, &wrong_work, wrong, "X\n"), Some(1));
        assert_eq!(met(b"RULX", &spoiled, &wrong_work, wrong, "X\n"), Some(1));
        assert_eq!(met(b"RULXX", &spoiled, &wrong_work, wrong, "X\n"), Some(3));
        assert_eq!(met(&p1(), &spoiled, &wrong_work, wrong, "X\n"), Some(21));
        assert_eq!(met(&p1(), &spoiled, &work, wrong, "X\n"), Some(21));
        assert_eq!(met(&p1(), &sound, &wrong_work, wrong, "X\n"), Some(21));
        assert_eq!(met(&p1(), &sound, &work, wrong, "X\n"), Some(24));
        assert_eq!(met(&p1(), &sound, &work, right, "X\n"), Some(11));
        assert_eq!(met(&p1(), &sound, &work, right, "B 70000 x-\n"), Some(12));
        assert_eq!(met(&p1(), &sound, &work, right, "B 7 x-\n"), Some(13));
        assert_eq!(met(&p1(), &sound, &work, right, "B 7 X\n"), Some(15));
        assert_eq!(met(&p1(), &sound, &work, right, "B 7 x\n"), Some(15));
        assert_eq!(met(&p1(), &sound, &work, right, "E 8\n"), Some(16));
        assert_eq!(met(&p1(), &sound, &work, right, "E 7\n"), None);
    }
}

#[test]
fn every_pair_byte_must_be_the_records() {
    let record = record_after(P1_LOG);
    let counts = tally([4, 2, 2, 0, 1]);
    let square = (Layout::Square, vec![0, 1, 2, 127, 128, 129, 8127, 8128, 16383]);
    // The two runs have one byte, and all behind it are of runs that have not begun.
    let half = (Layout::Half, vec![0, 1, 2, 127, 128, 8001, 8127]);
    for (layout, places) in [square, half] {
        for at in places {
            let mut work = work_after(layout, P1_LOG);
            work[at] ^= 1;
            assert_eq!(refusal(layout, &p1(), &record, &work, counts, "B 1\n"), Some(21), "{layout:?} {at}");
        }
        let mut work = work_after(layout, P1_LOG);
        work[layout.size()] ^= 1;
        assert_eq!(refusal(layout, &p1(), &record, &work, counts, "B 1\n"), None);
    }
}

/// The byte of runs 0 and 1 is never 0, and is the first of the half area; the first of the square area is always 0.
/// So one area is right for both layouts exactly if no two runs have begun, and nothing but 0 stands where the longer
/// layout has its bytes.
#[test]
fn an_area_of_the_other_layout_is_refused_once_two_runs_have_begun() {
    for (log, number, counts) in [
        ("", None, [0, 0, 0, 0, 0]),
        ("B 1\n", None, [1, 1, 0, 1, 0]),
        ("B 1\nE 1\n", None, [2, 1, 1, 0, 0]),
        ("B 1\nB 2\n", Some(21), [2, 2, 0, 2, 0]),
        ("B 1\nE 1\nB 1\n", Some(21), [3, 2, 1, 1, 0]),
    ] {
        let (record, counts) = (record_after(log), tally(counts));
        let met = |layout: Layout, work: &[u8]| refusal(layout, &p1(), &record, work, counts, "B 9\n");
        let square = work_after(Layout::Square, log);
        assert_eq!((met(Layout::Square, &square), met(Layout::Half, &square)), (None, number), "{log:?}");
        let mut half = pair_bytes(Layout::Half, &record);
        assert_eq!((met(Layout::Half, &half), met(Layout::Square, &half)), (None, Some(20)), "{log:?}");
        half.resize(16384, 0);
        assert_eq!((met(Layout::Half, &half), met(Layout::Square, &half)), (None, number), "{log:?}");
        half[8128] = 1;
        assert_eq!((met(Layout::Half, &half), met(Layout::Square, &half)), (None, Some(21)), "{log:?}");
    }
}

#[test]
fn a_tally_that_is_not_the_records() {
    let log = "B 7 EVENING\nB 9 TEST\nE 9\n";
    let record = record_after(log);
    for (counts, number) in [
        ([3, 2, 1, 1, 0], None),
        ([3, 2, 1, 1, 3], None),
        ([3, 2, 1, 1, 4], Some(24)),
        ([3, 2, 1, 1, u64::MAX], Some(24)),
        ([4, 2, 1, 1, 0], Some(24)),
        ([3, 3, 1, 1, 0], Some(24)),
        ([3, 2, 2, 1, 0], Some(24)),
        ([3, 2, 1, 2, 0], Some(24)),
        ([0, 0, 0, 0, 0], Some(24)),
    ] {
        for layout in Layout::ALL {
            let work = work_after(layout, log);
            assert_eq!(refusal(layout, &p1(), &record, &work, tally(counts), "E 7\n"), number, "{counts:?}");
        }
    }
}

#[test]
fn failing_lines_rise_by_one_exactly_at_a_line_that_fails() {
    let record = record_after(P1_LOG);
    for layout in Layout::ALL {
        let mut work = work_after(layout, P1_LOG);
        let mut counts = tally([4, 2, 2, 0, 3]);
        // The rule still fails; the 3 handed in is kept.
        let answer = check_line_with_tally(layout, &p1(), &record, &mut work, &mut counts, b"B 1\n");
        assert_eq!(answer.verdict, Ok(false));
        assert_eq!(counts, tally([5, 3, 2, 1, 4]));
    }
}

#[test]
fn a_refused_begin_line_leaves_nothing_behind() {
    let layout = Layout::Half;
    let mut work = vec![0; layout.size()];
    let mut record = start_record(layout, &mut work).unwrap();
    for (line, number) in [("B 1 A\n", None), ("B 1 NEW\n", Some(15)), ("B 2 bad-\n", Some(13)), ("B 2 b\n", None)] {
        let answer = check_line(layout, &p1(), &record, &mut work, line.as_bytes());
        assert_eq!(answer.verdict.err(), number);
        record = answer.record;
    }
    assert_eq!(record, record_after("B 1 A\nB 2 B\n"));
}

/// The controller is reset after the third line, while run 1 is open, and counts from 1 again.
#[test]
fn an_id_is_used_again_line_by_line() {
    // Of runs 0 with 1, 2 and 3, of 1 with 2 and 3, of 2 with 3.
    for (layout, places) in [(Layout::Square, [1, 2, 3, 130, 131, 259]), (Layout::Half, [0, 1, 3, 2, 4, 5])] {
        let mut work = vec![0xA5; layout.size() + 3];
        let mut record = start_record(layout, &mut work).unwrap();
        let mut counts = Tally::default();
        for (line, answer, expected) in [
            ("B 1 EVENING\n", Ok(true), [1, 1, 0, 1, 0]),
            ("B 2 EVENING\n", Ok(true), [2, 2, 0, 2, 0]),
            ("E 1\n", Ok(true), [3, 2, 1, 1, 0]),
            ("B 1 TEST\n", Ok(true), [4, 3, 1, 2, 0]),
            ("B 2\n", Err(15), [4, 3, 1, 2, 0]),
            ("B 1\n", Err(15), [4, 3, 1, 2, 0]),
            ("E 1\n", Ok(true), [5, 3, 2, 1, 0]),
            ("E 1\n", Err(17), [5, 3, 2, 1, 0]),
            // Run 1 includes run 2; run 0 has the same id as run 2, and overlaps run 1.
            ("E 2\n", Ok(false), [6, 3, 3, 0, 1]),
            ("E 2\n", Err(17), [6, 3, 3, 0, 1]),
            ("E 3\n", Err(16), [6, 3, 3, 0, 1]),
            ("B 2\n", Ok(false), [7, 4, 3, 1, 2]),
        ] {
            let answered = check_line_with_tally(layout, &p1(), &record, &mut work, &mut counts, line.as_bytes());
            assert_eq!(answered.verdict, answer, "{line}");
            assert_eq!(counts, tally(expected), "{line}");
            assert_eq!(work[..layout.size()], pair_bytes(layout, &answered.record), "{line}");
            record = answered.record;
        }
        let runs = record.runs.map(|run| (run.id, run.begin, run.end));
        assert_eq!(runs[..4], [(1, 1, 3), (2, 2, 6), (1, 4, 5), (2, 7, 0)]);
        assert_eq!(places.map(|at| work[at]), [6, 5, 2, 7, 2, 2]);
        let relations = [(0, 1, Ok(4)), (0, 2, Ok(1)), (2, 0, Ok(2)), (1, 2, Ok(16)), (2, 2, Err(23)), (1, 3, Err(22))];
        for (first, second, relation) in relations {
            assert_eq!(relation_between(&record, first, second), relation, "{first} {second}");
        }
    }
}

/// Runs 0 and 1 are open at a time; run 2 begins when run 0 has finished, and is open with run 1.
#[test]
fn no_lines_leave_a_record_in_which_two_runs_of_one_id_are_open_at_a_time() {
    let log = "B 1\nB 2\nE 1\nB 3\n";
    let sound = record_after(log);
    let counts = tally([4, 3, 1, 2, 0]);
    for (run, id, number) in [
        (0, 2, Some(21)),
        (1, 1, Some(21)),
        (1, 3, Some(21)),
        (2, 2, Some(21)),
        (0, 3, None),
        (2, 1, None),
    ] {
        let mut record = sound.clone();
        record.runs[run].id = id;
        for layout in Layout::ALL {
            let work = work_after(layout, log);
            assert_eq!(refusal(layout, &p1(), &record, &work, counts, "B 9\n"), number, "run {run}, id {id}");
        }
        assert_eq!(relation_between(&record, 0, 0), Err(number.unwrap_or(23)), "run {run}, id {id}");
    }
}

#[test]
fn runs_and_labels_at_the_edges() {
    for layout in Layout::ALL {
        let met = |log: &str, counts: [u64; 5], line: &str| {
            refusal(layout, &p1(), &record_after(log), &work_after(layout, log), tally(counts), line)
        };
        let mut log: String = (1..=128).map(|id| format!("B {id} L{}\n", id % 64)).collect();
        let counts = [128, 128, 0, 128, 0];
        assert_eq!(met(&log, counts, "B 129 NEW\n"), Some(18));
        assert_eq!(met(&log, counts, "B 128 NEW\n"), Some(15));
        assert_eq!(met(&log, counts, "E 128\n"), None);
        for id in 1..=128 {
            log += &format!("E {id}\n");
        }
        let counts = [256, 128, 128, 0, 0];
        assert_eq!(met(&log, counts, "B 128\n"), Some(18));
        assert_eq!(met(&log, counts, "E 128\n"), Some(17));
        assert_eq!(met(&log, counts, "E 129\n"), Some(16));
        let log: String = (1..=64).map(|id| format!("B {id} L{id}\n")).collect();
        let counts = [64, 64, 0, 64, 0];
        assert_eq!(met(&log, counts, "B 65 NEW\n"), Some(19));
        assert_eq!(met(&log, counts, "B 65 L1\n"), None);
        assert_eq!(met(&log, counts, "B 65\n"), None);
    }
}

#[test]
fn relating_two_runs() {
    // Runs: 0 before 1, 1 overlaps 2, 2 includes 3, 4 open.
    let log = "B 1\nE 1\nB 2\nB 3\nE 2\nB 4\nE 4\nE 3\nB 5\n";
    let record = record_after(log);
    for (first, second, relation) in [
        (0, 1, 1), (1, 0, 2), (0, 2, 1), (0, 3, 1), (1, 2, 4), (2, 1, 8), (1, 3, 1), (3, 1, 2), (2, 3, 16), (3, 2, 32),
    ] {
        assert_eq!(relation_between(&record, first, second), Ok(relation), "{first} {second}");
    }
    for (first, second) in [(0, 4), (4, 0), (4, 4), (5, 5), (0, 5), (0, 127), (0, 128), (128, 128), (u64::MAX, 0)] {
        assert_eq!(relation_between(&record, first, second), Err(22), "{first} {second}");
    }
    assert_eq!(relation_between(&record, 3, 3), Err(23));
    let mut spoiled = record.clone();
    spoiled.lines += 1;
    assert_eq!(relation_between(&spoiled, 3, 3), Err(21));
    assert_eq!(relation_between(&spoiled, 9, 9), Err(21));
}

/// The refusals of both calls on slips, in order. The buffer that a slip is written to has this length.
fn slip_refusals(rule: &[u8], record: &Record, length: usize, slip: &[u8]) -> (Option<u8>, Option<u8>) {
    let mut buffer = vec![0xA5; length];
    let first = first_slip(rule, record, &mut buffer);
    if !matches!(first, Ok(1..)) {
        assert_eq!(buffer, vec![0xA5; length]);
    }
    (first.err(), slip_passes(rule, record, slip).err())
}

#[test]
fn the_slip_of_p1() {
    let record = record_after(P1_LOG);
    let mut slip = [0xA5; 6];
    assert_eq!(first_slip(&p1(), &record, &mut slip), Ok(2));
    assert_eq!(slip, [0, 1, 0xA5, 0xA5, 0xA5, 0xA5]);
    assert_eq!(slip_passes(&p1(), &record, &[0, 1]), Ok(true));
    for slip in [[0, 0], [1, 0], [1, 1]] {
        assert_eq!(slip_passes(&p1(), &record, &slip), Ok(false));
    }
    let before = record_after("B 7 EVENING\nB 9 TEST\nE 9\n");
    assert_eq!(first_slip(&p1(), &before, &mut slip), Ok(0));
    assert_eq!(slip, [0, 1, 0xA5, 0xA5, 0xA5, 0xA5]);
    assert_eq!(slip_passes(&p1(), &before, &[0, 1]), Err(22));
    assert_eq!(slip_passes(&p1(), &before, &[1, 1]), Ok(false));
}

#[test]
fn the_order_of_refusals_of_the_calls_on_slips() {
    let sound = record_after(P1_LOG);
    let mut spoiled = sound.clone();
    spoiled.lines = 5;
    let bare = rule_file(b"exist A . A < A").unwrap();
    let mut long_bare = bare.clone();
    long_bare.push(0);
    assert_eq!(slip_refusals(&long_bare, &spoiled, 3, &[]), (Some(20), Some(7)));
    assert_eq!(slip_refusals(&long_bare, &spoiled, 4, &[]), (Some(7), Some(7)));
    assert_eq!(slip_refusals(&bare, &spoiled, 4, &[]), (Some(26), Some(26)));
    assert_eq!(slip_refusals(&bare, &sound, 4, &[0, 1]), (Some(26), Some(26)));
    assert_eq!(slip_refusals(&p1(), &spoiled, 4, &[]), (Some(21), Some(21)));
    assert_eq!(slip_refusals(&p1(), &spoiled, 4, &[0, 1]), (Some(21), Some(21)));
    for slip in [&[][..], &[0], &[0, 1, 1], &[0, 1, 0, 1], &[0; 5], &[0; 300], &[0, 2], &[2, 0], &[128, 1], &[0, 255]] {
        assert_eq!(slip_refusals(&p1(), &sound, 4, slip), (None, Some(22)), "{slip:?}");
    }
    assert_eq!(slip_refusals(&p1(), &sound, 4, &[1, 0]), (None, None));
}

#[test]
fn every_relation_that_a_longer_log_shows_is_in_the_composition() {
    // Nested and side by side runs in a log of eight; all triples of different runs.
    let log = "B 1\nB 2\nE 1\nB 3\nB 4\nE 4\nE 2\nB 5\nE 3\nB 6\nB 7\nE 7\nE 5\nE 6\nB 8\nE 8\n";
    let record = record_after(log);
    for x in 0..8 {
        for y in (0..8).filter(|y| *y != x) {
            for z in (0..8).filter(|z| *z != x && *z != y) {
                let first = relation_between(&record, x, y).unwrap();
                let second = relation_between(&record, y, z).unwrap();
                let third = relation_between(&record, x, z).unwrap();
                assert_ne!(compose(first.into(), second.into()).unwrap() & third, 0);
            }
        }
    }
}

/// A record is in capitals, and whoever hands in another meets 21: in the single-line call, in relating two runs and in
/// both calls on slips.
#[test]
fn a_record_with_a_small_letter_is_refused_with_21() {
    let log = "B 7 evening\nB 9 Test\nE 9\nE 7\n";
    let sound = record_after(log);
    assert_eq!(sound, record_after("B 7 EVENING\nB 9 TEST\nE 9\nE 7\n"));
    for (label, at) in [(0, 0), (0, 6), (1, 0), (1, 3)] {
        let mut small = sound.clone();
        small.labels[label].bytes[at] += 32;
        for layout in Layout::ALL {
            let work = work_after(layout, log);
            let counts = tally([4, 2, 2, 0, 1]);
            assert_eq!(refusal(layout, &p1(), &sound, &work, counts, "B 5 test\n"), None);
            assert_eq!(refusal(layout, &p1(), &small, &work, counts, "B 5 test\n"), Some(21), "{label} {at}");
            assert_eq!(refusal(layout, &p1(), &small, &work, counts, "X\n"), Some(21), "{label} {at}");
        }
        assert_eq!((relation_between(&sound, 0, 1), relation_between(&small, 0, 1)), (Ok(16), Err(21)));
        assert_eq!(slip_refusals(&p1(), &sound, 4, &[0, 1]), (None, None));
        assert_eq!(slip_refusals(&p1(), &small, 4, &[0, 1]), (Some(21), Some(21)));
    }
}

/// "Clients read "Evening, west hall" and not EVENING_W."
#[test]
fn a_listed_label_has_the_text_of_the_book_and_another_its_bytes_in_the_log() {
    let book = b"east=East wing\nEvening_w=Evening, west hall\nWEST=West wing\n";
    let log = b"B 7 EVENING_W\nB 8 Evening\nB 9 evening_W\nE 9\nB 3 EAST\nB 4 west\n";
    let text = |place: usize, length: usize| label_text(book, log, place, length).unwrap();
    assert_eq!(text(4, 9), Piece::InBook { start: 25, length: 18 });
    assert_eq!(text(4, 9).bytes(book, log), b"Evening, west hall");
    assert_eq!(text(30, 9), Piece::InBook { start: 25, length: 18 });
    assert_eq!((text(48, 4).bytes(book, log), text(57, 4).bytes(book, log)), (&b"East wing"[..], &b"West wing"[..]));
    // Not listed, and as it stands: in small letters, too.
    assert_eq!((text(18, 7), text(18, 7).bytes(book, log)), (Piece::InLog { start: 18, length: 7 }, &b"Evening"[..]));
    // A part of a label, and a piece that is no label of a line.
    assert_eq!(text(5, 8), Piece::InLog { start: 5, length: 8 });
    assert_eq!(text(2, 1), Piece::InLog { start: 2, length: 1 });
    // A book of no bytes lists nothing.
    assert_eq!(label_text(b"", log, 4, 9), Ok(Piece::InLog { start: 4, length: 9 }));
    // The log need not be one: here it is the book.
    assert_eq!(label_text(book, book, 15, 9), Ok(Piece::InBook { start: 25, length: 18 }));
}

#[test]
fn a_book_outside_its_form_comes_before_a_piece_that_is_no_label() {
    let log = b"B 7 WEST\n";
    let pieces = [(4, 4, true), (4, 0, false), (4, 5, false), (3, 5, false), (9, 1, false), (0, usize::MAX, false)];
    let books: [(&[u8], bool); 8] = [
        (b"", true),
        (b"WEST=West wing\n", true),
        (b"A=x\nwest=\r\0\xff\n", true),
        (b"WEST=West wing", false),
        (b"WEST\n", false),
        // A fault behind the line that lists the label, and one before it.
        (b"WEST=West wing\nEAST=East wing\n", false),
        (b"WEST=West wing\nX==\n", false),
        (b"EAST=\nWEST=West wing\n", false),
    ];
    for (book, is_book) in books {
        for (place, length, is_label) in pieces {
            let refusal = label_text(book, log, place, length).err();
            let expected = if is_book { (!is_label).then_some(13) } else { Some(27) };
            assert_eq!(refusal, expected, "{} {place} {length}", book.escape_ascii());
        }
    }
}
