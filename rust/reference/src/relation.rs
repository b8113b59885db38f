//! The six relations between different finished runs, converse and composition.
//!
//! "before 1, after 2, overlaps 4, overlapped by 8, includes 16, during 32; 2, 8
//! and 32 are the converses of 1, 4 and 16. A set is a sum of these, 0 to 63".

use crate::formula::{before, includes, overlaps, FinishedRun};
use crate::trace::{accepted_lines, runs_of};
use crate::Refusal;
use std::collections::BTreeMap;
use std::sync::OnceLock;

pub const BEFORE: u8 = 1;
pub const AFTER: u8 = 2;
pub const OVERLAPS: u8 = 4;
pub const OVERLAPPED_BY: u8 = 8;
pub const INCLUDES: u8 = 16;
pub const DURING: u8 = 32;

/// "Between two different finished runs one of six holds".
pub fn relation_of(first: &FinishedRun, second: &FinishedRun) -> u8 {
    let mut relation = 0;
    for (holds, number) in [
        (before(first, second), BEFORE),
        (before(second, first), AFTER),
        (overlaps(first, second), OVERLAPS),
        (overlaps(second, first), OVERLAPPED_BY),
        (includes(first, second), INCLUDES),
        (includes(second, first), DURING),
    ] {
        if holds {
            relation += number;
        }
    }
    relation
}

/// The relation of a to b by their positions, which may be any numbers: the first that holds, in the order
/// of the relations' numbers, or 0.
///
/// The positions are written down from left to right as words: a and b for a start, A and B for a finish,
/// the letters of equal positions in one word. Runs that overlap or include each other make four words of one letter. One
/// run is before another if its finish is to the left of the other's start, wherever the rest stands. Each
/// can be before the other where a run finishes before it starts.
pub fn relation_of_positions(start_a: u64, finish_a: u64, start_b: u64, finish_b: u64) -> u8 {
    let mut line: BTreeMap<u64, String> = BTreeMap::new();
    for (letter, position) in [('a', start_a), ('A', finish_a), ('b', start_b), ('B', finish_b)] {
        line.entry(position).or_default().push(letter);
    }
    let words: Vec<String> = line.into_values().collect();
    match words.join(" ").as_str() {
        "a b A B" => OVERLAPS,
        "b a B A" => OVERLAPPED_BY,
        "a b B A" => INCLUDES,
        "b a A B" => DURING,
        _ if is_left_of('A', 'b', &words) => BEFORE,
        _ if is_left_of('B', 'a', &words) => AFTER,
        _ => 0,
    }
}

/// Whether the word with one letter stands to the left of the word with the other.
fn is_left_of(one: char, other: char, words: &[String]) -> bool {
    let from_one = words.iter().skip_while(|word| !word.contains(one));
    from_one.skip(1).any(|word| word.contains(other))
}

/// The set of the members' converses, or 14. The paper names no such call; the
/// refusal is that of the composing call.
pub fn converse(set: u64) -> Result<u8, Refusal> {
    let set = read_set(set)?;
    let mut answer = 0;
    for (relation, its_converse) in [(BEFORE, AFTER), (OVERLAPS, OVERLAPPED_BY), (INCLUDES, DURING)] {
        if set & relation != 0 {
            answer += its_converse;
        }
        if set & its_converse != 0 {
            answer += relation;
        }
    }
    Ok(answer)
}

/// Demand 3: a relation is in the answer exactly when some log has three runs
/// "where a member of the first set relates the first run to the second, a member
/// of the second set relates the second to the third, and the relation taken
/// relates the first to the third". "Wherever a log shows this, an accepted log
/// with three runs and no others shows it too", so those logs are enough.
pub fn compose(first: u64, second: u64) -> Result<u8, Refusal> {
    let (first, second) = (read_set(first)?, read_set(second)?);
    // The runs of the 90 logs, read once.
    static ALL: OnceLock<Vec<[FinishedRun; 3]>> = OnceLock::new();
    let all = ALL.get_or_init(|| logs_of_three_runs().iter().map(|log| three_runs(log)).collect());
    let mut answer = 0;
    for [x, y, z] in all {
        if first & relation_of(x, y) != 0 && second & relation_of(y, z) != 0 {
            answer |= relation_of(x, z);
        }
    }
    Ok(answer)
}

/// "14 a relation set above 63".
fn read_set(set: u64) -> Result<u8, Refusal> {
    if set > 63 {
        return Err(14);
    }
    Ok(set as u8)
}

/// Every accepted log in which each of the ids 1, 2 and 3 has one run, which is finished: 90
/// of them. Different runs are those with different run numbers; where they share an id, the
/// log with ids of their own relates them in the same way.
pub fn logs_of_three_runs() -> Vec<String> {
    let mut finished_logs = Vec::new();
    let mut unfinished_logs = vec![String::new()];
    while let Some(log) = unfinished_logs.pop() {
        let mut is_finished = true;
        for id in 1..=3 {
            let (begin, end) = (format!("B {id}\n"), format!("E {id}\n"));
            if !log.contains(&begin) {
                unfinished_logs.push(log.clone() + &begin);
                is_finished = false;
            } else if !log.contains(&end) {
                unfinished_logs.push(log.clone() + &end);
                is_finished = false;
            }
        }
        if is_finished {
            finished_logs.push(log);
        }
    }
    finished_logs
}

/// The finished runs of the ids 1, 2 and 3, in this order.
fn three_runs(log: &str) -> [FinishedRun<'static>; 3] {
    let (accepted, _) = accepted_lines(log.as_bytes());
    let runs = runs_of(&accepted);
    [1, 2, 3].map(|id| {
        let run = runs.iter().find(|run| run.id == id).expect("a run of the log");
        FinishedRun { start: run.begin, finish: run.end.expect("a finished run"), label: None }
    })
}

#[cfg(test)]
mod tests {
    use super::*;
    use crate::calls::finished_runs;
    use crate::line::Event;
    use std::collections::BTreeSet;

    #[test]
    fn there_are_90_logs_of_three_runs_and_all_are_accepted() {
        let logs = logs_of_three_runs();
        assert_eq!(logs.len(), 90);
        for log in &logs {
            assert_eq!(accepted_lines(log.as_bytes()).1, None);
            assert_eq!(logs.iter().filter(|other| *other == log).count(), 1);
        }
    }

    /// What relates x to y, y to z and x to z.
    fn related([x, y, z]: [&FinishedRun; 3]) -> [u8; 3] {
        [relation_of(x, y), relation_of(y, z), relation_of(x, z)]
    }

    /// All logs of six lines over three ids that leave three finished runs, of which two or all may have one id; and
    /// all orders of their run numbers.
    #[test]
    fn logs_that_use_an_id_again_relate_runs_as_the_90_do() {
        let expected: BTreeSet<[u8; 3]> =
            logs_of_three_runs().iter().map(|log| related(three_runs(log).each_ref())).collect();
        let mut found = BTreeSet::new();
        let (mut logs, mut again) = (0, 0);
        for number in 0..6_usize.pow(6) {
            let lines = (0..6).map(|place| number / 6_usize.pow(place) % 6);
            let log: String = lines.map(|line| format!("{} {}\n", ["B", "E"][line / 3], line % 3 + 1)).collect();
            let (accepted, refusal) = accepted_lines(log.as_bytes());
            let finished = finished_runs(&accepted);
            if refusal.is_some() || finished.len() != 3 {
                continue;
            }
            for order in [[0, 1, 2], [0, 2, 1], [1, 0, 2], [1, 2, 0], [2, 0, 1], [2, 1, 0]] {
                found.insert(related(order.map(|run: usize| &finished[run])));
            }
            logs += 1;
            let ids: BTreeSet<u64> = accepted.iter().map(Event::id).collect();
            again += u64::from(ids.len() < 3);
        }
        assert_eq!(found, expected);
        // Three runs of one id come one after another: a log for each id. Of two runs of one id and one of another the
        // last has any two of the six lines, 15 ways, and the two ids are chosen in 6 ways.
        assert_eq!((logs, again), (90 + 3 + 15 * 6, 3 + 15 * 6));
    }

    #[test]
    fn p2_to_p8() {
        for (first, second, answer) in [
            (BEFORE, BEFORE, 1),
            (BEFORE, AFTER, 63),
            (OVERLAPS, OVERLAPS, 5),
            (BEFORE, DURING, 37),
            (OVERLAPS, INCLUDES, 21),
            (INCLUDES, DURING, 60),
            (0, 63, 0),
        ] {
            assert_eq!(compose(first.into(), second.into()), Ok(answer), "{first} {second}");
        }
    }

    #[test]
    fn sets_at_the_edges() {
        assert_eq!(compose(63, 63), Ok(63));
        assert_eq!(compose(63, 0), Ok(0));
        assert_eq!(compose(0, 0), Ok(0));
        for (first, second) in [(64, 0), (0, 64), (64, 64), (255, 1), (256, 1), (1, 1 << 32)] {
            assert_eq!(compose(first, second), Err(14));
        }
        assert_eq!(converse(63), Ok(63));
        assert_eq!(converse(64), Err(14));
    }

    #[test]
    fn converses() {
        assert_eq!(converse(0), Ok(0));
        for (relation, its_converse) in [(1, 2), (4, 8), (16, 32)] {
            assert_eq!(converse(relation), Ok(its_converse as u8));
            assert_eq!(converse(its_converse), Ok(relation as u8));
        }
        for set in 0..64 {
            assert_eq!(converse(converse(set).unwrap().into()), Ok(set as u8));
        }
    }

    #[test]
    fn composition_adds_up_over_members_and_turns_round_under_converse() {
        let table: Vec<u8> = (0..4096).map(|at| compose(at / 64, at % 64).unwrap()).collect();
        let at = |first: usize, second: usize| table[64 * first + second];
        let back = |set: u8| usize::from(converse(set.into()).unwrap());
        for first in 0..64 {
            for second in 0..64 {
                let mut by_members = 0;
                for one in (0..6).map(|bit| 1 << bit).filter(|bit| first & bit != 0) {
                    for other in (0..6).map(|bit| 1 << bit).filter(|bit| second & bit != 0) {
                        by_members |= at(one, other);
                    }
                }
                assert_eq!(at(first, second), by_members);
                assert_eq!(back(at(first, second)), usize::from(at(back(second as u8), back(first as u8))));
            }
        }
    }

    #[test]
    fn between_two_runs_the_relation_turns_round_with_them() {
        for log in logs_of_three_runs() {
            let [x, y, z] = three_runs(&log);
            for (a, b) in [(&x, &y), (&y, &z), (&x, &z)] {
                let relation = relation_of(a, b);
                assert_eq!(relation.count_ones(), 1);
                assert_eq!(converse(relation.into()), Ok(relation_of(b, a)));
            }
        }
    }

    /// `relation_of` adds up all that hold by their inequalities; the first of them has the lowest number.
    /// Of 36 pairs of numbers 15 rise, so before holds of 15 * 36 quadruples, after too of 15 * 15 of these,
    /// and after alone of 15 * 21; four numbers rise in 15 ways.
    #[test]
    fn the_order_on_the_line_tells_the_first_inequality_that_holds() {
        let run = |start, finish| FinishedRun { start, finish, label: None };
        let mut answered: BTreeMap<u8, u64> = BTreeMap::new();
        let mut several = 0;
        for number in 0..6_u64.pow(4) {
            let [s, f, t, g] = [216, 36, 6, 1].map(|place| number / place % 6);
            let held = relation_of(&run(s, f), &run(t, g));
            let first = held & held.wrapping_neg();
            assert_eq!(relation_of_positions(s, f, t, g), first, "{s} {f} {t} {g}");
            *answered.entry(first).or_default() += 1;
            several += u64::from(held.count_ones() > 1);
        }
        let counts = [(0, 381), (BEFORE, 540), (AFTER, 315), (OVERLAPS, 15), (OVERLAPPED_BY, 15), (INCLUDES, 15)];
        assert_eq!(answered, BTreeMap::from_iter(counts.into_iter().chain([(DURING, 15)])));
        assert_eq!(several, 225);
    }
}
