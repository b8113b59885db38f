//! The rules of the eight properties say what the properties say: each is held
//! against its words in plain code, over many small logs.

use generate::random::Random;
use reference::calls::finished_runs;
use reference::formula::{is_true, FinishedRun};
use reference::rule::read_rule;
use reference::trace::accepted_lines;
use std::path::Path;

type Runs<'a> = &'a [FinishedRun<'a>];
type Property = fn(Runs) -> bool;

fn has(run: &FinishedRun, label: &str) -> bool {
    run.label == Some(label.as_bytes())
}

fn before(a: &FinishedRun, b: &FinishedRun) -> bool {
    a.finish < b.start
}

fn inside(inner: &FinishedRun, outer: &FinishedRun) -> bool {
    outer.start < inner.start && inner.finish < outer.finish
}

/// "Disjoint intervals cannot have the same data value."
fn property_1(runs: Runs) -> bool {
    runs.iter().all(|a| runs.iter().all(|b| !before(a, b) || a.label.is_none() || a.label != b.label))
}

/// "No double nesting of intervals."
fn property_2(runs: Runs) -> bool {
    runs.iter().all(|b| !(runs.iter().any(|a| inside(b, a)) && runs.iter().any(|c| inside(c, b))))
}

/// "No two adjacent intervals (one completely after the other without any interval in
/// between) can have both the same value 2."
fn property_3(runs: Runs) -> bool {
    let adjacent = |a: &FinishedRun, b: &FinishedRun| {
        before(a, b) && !runs.iter().any(|c| before(a, c) && before(c, b))
    };
    runs.iter().all(|a| runs.iter().all(|b| !adjacent(a, b) || !has(a, "2") || !has(b, "2")))
}

/// Three runs that begin in turn and end in the same turn, the last begin before the
/// first end.
fn property_4(runs: Runs) -> bool {
    runs.iter().all(|a| {
        runs.iter().all(|b| {
            runs.iter().all(|c| {
                let in_turn = a.start < b.start && b.start < c.start && a.finish < b.finish && b.finish < c.finish;
                !(in_turn && c.start < a.finish)
            })
        })
    })
}

/// "there is no DL_IMAGE during two BOOT intervals (after the start of the first and
/// before the end of the second)"
fn rover_1(runs: Runs) -> bool {
    let boots: Vec<&FinishedRun> = runs.iter().filter(|run| has(run, "BOOT")).collect();
    let found = |image: &FinishedRun| {
        boots.iter().any(|first| {
            boots.iter().any(|second| {
                before(first, second) && first.start < image.start && image.finish < second.finish
            })
        })
    };
    !runs.iter().any(|run| has(run, "DL_IMAGE") && found(run))
}

/// "there is no DL_FAIL during a DL_MOBPRM or DL_ARMPRM interval"
fn rover_2(runs: Runs) -> bool {
    let transfer = |run: &FinishedRun| has(run, "DL_MOBPRM") || has(run, "DL_ARMPRM");
    !runs.iter().any(|fail| has(fail, "DL_FAIL") && runs.iter().any(|run| transfer(run) && inside(fail, run)))
}

/// "there is no INS_FAIL in between an INS_ON and a subsequent closest INS_RECOVER";
/// closest: "there is no INS_ON or INS_RECOVER in between"
fn rover_3(runs: Runs) -> bool {
    let mark = |run: &FinishedRun| has(run, "INS_ON") || has(run, "INS_RECOVER");
    for on in runs.iter().filter(|run| has(run, "INS_ON")) {
        for recover in runs.iter().filter(|run| has(run, "INS_RECOVER")) {
            let is_closest = !runs.iter().any(|run| mark(run) && before(on, run) && before(run, recover));
            let fails = runs.iter().any(|run| has(run, "INS_FAIL") && before(on, run) && before(run, recover));
            if is_closest && fails {
                return false;
            }
        }
    }
    true
}

/// "there is no STARVE during a period where both an DL_IMAGE interval and a
/// GET_CAMDATA interval are active"
fn rover_4(runs: Runs) -> bool {
    let in_a = |label: &str, starve: &FinishedRun| runs.iter().any(|run| has(run, label) && inside(starve, run));
    !runs.iter().any(|run| has(run, "STARVE") && in_a("DL_IMAGE", run) && in_a("GET_CAMDATA", run))
}

/// A log of a few runs with labels from the list, or none.
fn log_of(random: &mut Random, labels: &[Vec<u8>]) -> Vec<u8> {
    let mut log = Vec::new();
    let mut open: Vec<usize> = Vec::new();
    let runs = random.between(2, 7);
    let mut begun = 0;
    while begun < runs || !open.is_empty() {
        if begun < runs && (open.is_empty() || random.chance(1, 2)) {
            begun += 1;
            open.push(begun);
            log.extend(format!("B {begun}").bytes());
            if !labels.is_empty() && random.chance(9, 10) {
                log.push(b' ');
                log.extend(random.pick(labels).clone());
            }
            log.push(b'\n');
        } else {
            let at = random.below(open.len());
            log.extend(format!("E {}\n", open.remove(at)).bytes());
        }
    }
    log
}

#[test]
fn the_rules_of_the_properties_say_what_their_words_say() {
    let properties: [(&str, Property); 8] = [
        ("property_1", property_1),
        ("property_2", property_2),
        ("property_3", property_3),
        ("property_4", property_4),
        ("rover_1", rover_1),
        ("rover_2", rover_2),
        ("rover_3", rover_3),
        ("rover_4", rover_4),
    ];
    let examples = Path::new(env!("CARGO_MANIFEST_DIR")).join("../../examples");
    for (name, words) in properties {
        let read = |end: &str| std::fs::read(examples.join(format!("{name}_{end}/rule.rul"))).unwrap();
        assert_eq!(read("kept"), read("broken"), "{name}");
        let rule = read_rule(&read("kept")).unwrap();
        let formula = rule.formula();
        let random = &mut Random::new(1);
        let mut labels = rule.labels.clone();
        if labels.len() < 2 {
            labels.push(b"OTHER".to_vec());
        }
        let (mut kept, mut broken) = (0, 0);
        for _ in 0..2000 {
            let log = log_of(random, &labels);
            let (accepted, refusal) = accepted_lines(&log);
            assert_eq!(refusal, None);
            for lines in 0..=accepted.len() {
                let runs = finished_runs(&accepted[..lines]);
                let holds = is_true(&formula, &runs);
                assert_eq!(holds, words(&runs), "{name}: {}", String::from_utf8_lossy(&log));
                if holds { kept += 1 } else { broken += 1 }
            }
        }
        assert!(kept > 100 && broken > 100, "{name}: {kept} {broken}");
    }
}
