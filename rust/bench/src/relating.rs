//! Times of relating two runs, now and with an earlier library. Both take turns on the same records and runs.

use crate::checks::{print_numbers, Limit};
use crate::earlier::{Libraries, Library, VARIABLE};
use crate::logs::{begins_first, interleaved, kept, section_6_of_figure_1, Log, MAX_RUNS};
use crate::measure::in_turns;
use crate::table::{seconds, short, Number};
use crate::LABELS;
use generate::random::Random;
use std::hint::black_box;

/// The time of a call, as a multiple of that of the earlier library.
const TO_EARLIER: f64 = 1.1;

/// How many calls are timed at once.
const CALLS: usize = 16;

/// What was measured of one record: the time of one call with each library.
pub struct Row {
    log: &'static str,
    runs: usize,
    now: f64,
    earlier: f64,
}

/// A log of two runs, and full logs.
fn logs() -> [Log; 5] {
    [
        interleaved(2, &LABELS),
        interleaved(MAX_RUNS, &LABELS),
        begins_first(MAX_RUNS, &LABELS),
        section_6_of_figure_1(1, MAX_RUNS),
        kept(1, MAX_RUNS),
    ]
}

/// All ordered pairs of different runs, in mixed order.
fn mixed_pairs(runs: usize) -> Vec<(u32, u32)> {
    let runs = runs as u32;
    let mut pairs: Vec<(u32, u32)> = (0..runs).flat_map(|one| (0..runs).map(move |other| (one, other))).collect();
    pairs.retain(|(one, other)| one != other);
    let random = &mut Random::new(6);
    pairs.sort_by_cached_key(|_| random.number());
    pairs
}

/// Both libraries must give the same relation of each pair.
fn hold_against(Libraries { now, earlier }: &Libraries, record: &[u8], pairs: &[(u32, u32)]) {
    for (one, other) in pairs {
        let relation = now.relate(record, *one, *other);
        assert!(relation < 1 << 16, "different finished runs are related");
        assert_eq!(earlier.relate(record, *one, *other), relation, "the libraries differ on runs {one}, {other}");
    }
}

/// Measures and prints one record.
fn row(libraries: &Libraries, log: &Log) -> Row {
    let (record, pairs) = (log.record(), mixed_pairs(log.runs));
    hold_against(libraries, &record, &pairs);
    let timed: Vec<(u32, u32)> = pairs.into_iter().cycle().take(CALLS).collect();
    let relate_all = |library: &Library| {
        for (one, other) in &timed {
            black_box(library.relate(&record, *one, *other));
        }
    };
    let [now, then] = in_turns([&|| relate_all(&libraries.now), &|| relate_all(&libraries.earlier)]);
    let row = Row { log: log.kind, runs: log.runs, now: now / CALLS as f64, earlier: then / CALLS as f64 };
    print_row(&row);
    row
}

/// Measures and prints all rows; none where there is no earlier library.
pub fn measured(title: &str, libraries: Option<&Libraries>) -> Vec<Row> {
    println!("\n## {title}\n");
    let Some(libraries) = libraries else {
        println!("Not measured: {VARIABLE} names no earlier library.");
        return Vec::new();
    };
    println!("Relating two runs.\n");
    println!("| Log | Runs | Now | Earlier | now / earlier |");
    println!("|---|--:|--:|--:|--:|");
    logs().map(|log| row(libraries, &log)).into()
}

fn print_row(row: &Row) {
    let ratio = short(row.now / row.earlier);
    println!("| {} | {} | {} | {} | {ratio} |", row.log, row.runs, seconds(row.now), seconds(row.earlier));
}

/// Prints the line of the requirement, over all rows. Answers whether it did not fail.
pub fn print_checks(rows: &[Row]) -> bool {
    let numbers = rows.iter().map(|row| Number { value: row.now / row.earlier, is_taken: true }).collect();
    print_numbers("relating two runs", "now / earlier", Limit::AtMost(TO_EARLIER), numbers, short)
}

#[cfg(test)]
mod tests {
    use super::*;
    use crate::earlier::tests::library_that_answers;

    #[test]
    fn each_two_runs_are_paired_once_either_way() {
        let pairs = mixed_pairs(MAX_RUNS);
        assert_eq!(pairs.len(), 128 * 127);
        assert!(!pairs.is_sorted());
        let mut sorted = pairs.clone();
        sorted.sort();
        sorted.dedup();
        assert_eq!(sorted.len(), pairs.len());
        assert!(pairs.iter().all(|(one, other)| one != other && one.max(other) < &128));
    }

    /// No run is before another and after it.
    #[test]
    #[should_panic(expected = "the libraries differ")]
    fn a_library_with_other_answers_is_not_measured() {
        let libraries = Libraries { now: Library::present().unwrap(), earlier: library_that_answers(1, 0) };
        row(&libraries, &interleaved(2, &LABELS));
    }

    #[test]
    fn a_call_that_takes_longer_than_the_limit_fails() {
        let row = |log: &'static str, now| Row { log, runs: 2, now, earlier: 1e-6 };
        assert!(print_checks(&[row("interleaved", 1.05e-6), row("begins first", 0.9e-6)]));
        assert!(!print_checks(&[row("interleaved", 1.15e-6), row("begins first", 0.9e-6)]));
        assert!(print_checks(&[]));
    }
}
