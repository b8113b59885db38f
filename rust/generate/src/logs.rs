//! Logs and lines: accepted ones, and ones with a fault of each number 11 to 13
//! and 15 to 19.

use crate::letters::{in_another_case, Letters, BESIDE_LETTERS};
use crate::random::Random;
use reference::label::is_label_byte;
use reference::line::Event;
use reference::record::first_place;
use reference::trace::{accepted_lines, labels_of, runs_of};
use reference::{MAX_LABELS, MAX_RUNS};

/// A log, and what it is meant to be; for messages.
pub struct Log {
    pub bytes: Vec<u8>,
    pub kind: &'static str,
}

/// The numbers a line can be refused with.
pub const LINE_REFUSALS: [u8; 8] = [11, 12, 13, 15, 16, 17, 18, 19];

/// A log of any kind. `rule_labels` are labels that the rule speaks of.
pub fn any_log(random: &mut Random, rule_labels: &[Vec<u8>]) -> Log {
    match random.below(100) {
        0..=1 => Log { bytes: Vec::new(), kind: "no bytes" },
        2..=24 => sound_log(random, rule_labels, 1, 7, "short"),
        25..=52 => {
            let log = sound_log(random, rule_labels, 0, 7, "short with a fault");
            with_fault(random, log)
        }
        53..=58 => sound_log(random, rule_labels, 8, 40, "middling"),
        59..=66 => {
            let log = sound_log(random, rule_labels, 8, 40, "middling with a fault");
            with_fault(random, log)
        }
        67..=74 => {
            let labels = colliding_labels(random);
            let log = sound_log(random, &labels, 2, 30, "labels with one first place");
            if random.chance(1, 2) { log } else { with_fault(random, log) }
        }
        75..=79 => full_log(random),
        80..=83 => many_labels_log(random),
        84..=94 => noise(random, rule_labels),
        _ => {
            let length = random.below(90);
            let bytes = (0..length).map(|_| *random.pick(b"BE 0123456789AZaz_\n\n\r\tbe-\0\xff")).collect();
            Log { bytes, kind: "random bytes" }
        }
    }
}

/// Labels to choose from: the rule's and a few others.
fn label_choices(random: &mut Random, rule_labels: &[Vec<u8>]) -> Vec<Vec<u8>> {
    let mut labels = rule_labels.to_vec();
    for _ in 0..random.below(4) {
        labels.push(any_label(random));
    }
    if labels.is_empty() {
        labels.push(b"TEST".to_vec());
    }
    labels
}

/// A label of any legal length, in capitals; short ones often.
pub fn any_label(random: &mut Random) -> Vec<u8> {
    let length = *random.pick(&[1, 1, 2, 4, 8, 23, 24]);
    (0..length).map(|_| *random.pick(b"ABCXYZ019_")).collect()
}

/// So many different labels, in capitals.
pub fn different_labels(random: &mut Random, count: usize) -> Vec<Vec<u8>> {
    let mut labels: Vec<Vec<u8>> = Vec::new();
    while labels.len() < count {
        let label = any_label(random);
        if !labels.contains(&label) {
            labels.push(label);
        }
    }
    labels
}

/// Labels that fall on one first place or the ones beside it, near 127 half of the time.
pub fn colliding_labels(random: &mut Random) -> Vec<Vec<u8>> {
    let anywhere = random.below(128);
    let place = *random.pick(&[127, 126, anywhere, anywhere]);
    let wanted = random.between(2, 12);
    let spread = random.below(3);
    let start = random.below(1000);
    let distance = |label: &[u8]| (first_place(label) + 128 - place) % 128;
    (start..)
        .map(|n| format!("C{n}").into_bytes())
        .filter(|label| distance(label) <= spread)
        .take(wanted)
        .collect()
}

/// An id that is not among these; small ones often.
pub fn fresh_id(random: &mut Random, taken: &[u64]) -> u64 {
    loop {
        let id = match random.below(4) {
            0 => random.between(1, 9),
            1 => random.between(1, 300),
            2 => random.between(65500, 65535),
            _ => random.between(1, 65535),
        } as u64;
        if !taken.contains(&id) {
            return id;
        }
    }
}

fn begin_line(id: u64, label: Option<&[u8]>) -> Vec<u8> {
    let mut line = format!("B {id}").into_bytes();
    if let Some(label) = label {
        line.push(b' ');
        line.extend(label);
    }
    line.push(b'\n');
    line
}

fn end_line(id: u64) -> Vec<u8> {
    format!("E {id}\n").into_bytes()
}

/// An accepted log of `low` to `high` runs, some of which may stay open.
fn sound_log(random: &mut Random, labels: &[Vec<u8>], low: usize, high: usize, kind: &'static str) -> Log {
    let choices = label_choices(random, labels);
    let runs = random.between(low, high);
    let unlabelled = random.below(5);
    let labels: Vec<Option<Vec<u8>>> =
        (0..runs).map(|_| (!random.chance(unlabelled, 8)).then(|| random.pick(&choices).clone())).collect();
    let stay_open = random.chance(1, 4);
    Log { bytes: interleave(random, &labels, stay_open), kind }
}

/// Where the ids of a log come from.
struct Ids {
    /// No id is below this one.
    least: u64,
    /// The ids that all runs share, so that no more are open at a time; none where ids are taken as they come.
    few: Vec<u64>,
    /// Of four ids that are taken as they come, so many are those of finished runs.
    again: usize,
}

impl Ids {
    /// An id of its own for each run in one of four logs, otherwise ids that are used again.
    fn any(random: &mut Random, least: u64) -> Ids {
        let mut ids = Ids { least, few: Vec::new(), again: 0 };
        match random.below(8) {
            0..=1 => {}
            2..=4 => ids.again = random.between(1, 3),
            kind => {
                let most = if kind == 7 { 16 } else { 4 };
                for _ in 0..random.between(1, most) {
                    ids.few.push(ids.fresh(random, &ids.few));
                }
            }
        }
        ids
    }

    /// An id that is not among these.
    fn fresh(&self, random: &mut Random, taken: &[u64]) -> u64 {
        loop {
            let id = fresh_id(random, taken);
            if id >= self.least {
                return id;
            }
        }
    }

    /// The id of the next run; none where all that it may have are open.
    fn next(&self, random: &mut Random, begun: &[u64], open: &[u64]) -> Option<u64> {
        let is_shared = !self.few.is_empty();
        let known = if is_shared { &self.few } else { begun };
        let closed: Vec<u64> = known.iter().copied().filter(|id| !open.contains(id)).collect();
        if !closed.is_empty() && (is_shared || random.chance(self.again, 4)) {
            return Some(*random.pick(&closed));
        }
        (!is_shared).then(|| self.fresh(random, begun))
    }
}

/// The lines of one run for each label given, in a random order that is accepted. The labels are written in letters of
/// either case.
fn interleave(random: &mut Random, labels: &[Option<Vec<u8>>], stay_open: bool) -> Vec<u8> {
    let letters = Letters::any(random);
    let least = if labels.len() == MAX_RUNS && random.chance(1, 2) { 10000 } else { 1 };
    let ids = Ids::any(random, least);
    let mut bytes = Vec::new();
    let mut begun: Vec<u64> = Vec::new();
    let mut open: Vec<u64> = Vec::new();
    let begin_weight = random.between(1, 5);
    let order = random.below(4);
    while begun.len() < labels.len() || !open.is_empty() {
        let may_begin = begun.len() < labels.len() && (open.is_empty() || random.chance(begin_weight, 6));
        let id = if may_begin { ids.next(random, &begun, &open) } else { None };
        if let Some(id) = id {
            let label = labels[begun.len()].as_ref().map(|label| letters.write(random, label));
            bytes.extend(begin_line(id, label.as_deref()));
            begun.push(id);
            open.push(id);
        } else {
            // The last begun ends first (nesting), the first begun (overlapping), or any.
            let at = match order {
                0 => open.len() - 1,
                1 => 0,
                _ => random.below(open.len()),
            };
            bytes.extend(end_line(open.remove(at)));
            if stay_open && begun.len() == labels.len() && random.chance(1, 2) {
                break;
            }
        }
    }
    bytes
}

/// 128 runs and often 64 labels, and then perhaps a line that is refused.
fn full_log(random: &mut Random) -> Log {
    let label_count = *random.pick(&[0, 1, 63, 64, 64, 64]);
    let labels = distinct_labels(random, label_count);
    let unlabelled = random.below(3);
    let of_run: Vec<Option<Vec<u8>>> = (0..MAX_RUNS)
        .map(|run| match labels.get(run) {
            Some(label) => Some(label.clone()),
            None if labels.is_empty() || random.chance(unlabelled, 6) => None,
            None => Some(random.pick(&labels).clone()),
        })
        .collect();
    let stay_open = random.chance(1, 3);
    let log = Log { bytes: interleave(random, &of_run, stay_open), kind: "128 runs" };
    match random.below(4) {
        0 => log,
        1 => with_fault_of(random, log, 18),
        2 => {
            let number = *random.pick(&[15, 17]);
            with_fault_of(random, log, number)
        }
        _ => with_fault(random, log),
    }
}

/// 64 labels on fewer than 128 runs, and then perhaps a line that is refused.
fn many_labels_log(random: &mut Random) -> Log {
    let labels = distinct_labels(random, MAX_LABELS);
    let mut of_run: Vec<Option<Vec<u8>>> = labels.iter().cloned().map(Some).collect();
    for _ in 0..random.below(20) {
        let label = random.chance(1, 2).then(|| random.pick(&labels).clone());
        of_run.push(label);
    }
    let stay_open = random.chance(1, 2);
    let log = Log { bytes: interleave(random, &of_run, stay_open), kind: "64 labels" };
    match random.below(4) {
        0 => log,
        1..=2 => with_fault_of(random, log, 19),
        _ => with_fault(random, log),
    }
}

/// Different labels, all short or all of 24 bytes or with many common first places.
fn distinct_labels(random: &mut Random, count: usize) -> Vec<Vec<u8>> {
    let start = random.below(5000);
    match random.below(3) {
        0 => (start..start + count).map(|n| format!("L{n}").into_bytes()).collect(),
        1 => (start..start + count).map(|n| format!("{n:_>24}").into_bytes()).collect(),
        _ => (start..)
            .map(|n| format!("H{n}").into_bytes())
            .filter(|label| first_place(label) >= 112)
            .take(count)
            .collect(),
    }
}

/// The log with a refused line somewhere, mostly at its end, and perhaps more after it.
fn with_fault(random: &mut Random, log: Log) -> Log {
    let number = *random.pick(&[11, 11, 12, 13, 15, 16, 17]);
    with_fault_of(random, log, number)
}

fn with_fault_of(random: &mut Random, log: Log, number: u8) -> Log {
    let lines: Vec<&[u8]> = log.bytes.split_inclusive(|byte| *byte == b'\n').collect();
    let begins: Vec<usize> = (0..lines.len()).filter(|line| lines[*line].starts_with(b"B")).collect();
    let at = match (number, random.below(4)) {
        (18.., _) => lines.len(),
        // After a begin line a run is open; at the end there is often none.
        (15, 0) if !begins.is_empty() => *random.pick(&begins) + 1,
        (15, 1..=2) if !begins.is_empty() => begins[begins.len() - 1] + 1,
        (_, 0) => random.below(lines.len() + 1),
        _ => lines.len(),
    };
    let before = lines[..at].concat();
    let after = lines[at..].concat();
    let (accepted, _) = accepted_lines(&before);
    let mut bytes = before;
    bytes.extend(faulty_line(random, &accepted, number));
    if random.chance(1, 2) {
        bytes.extend(after);
    }
    match random.below(12) {
        0..=3 => bytes.extend(b"B 4711 TEST\nE 4711\n"),
        4 => {
            // A tail that goes past 8,192 bytes.
            while bytes.len() < 9000 {
                let lines: [&[u8]; 4] = [b"B 4711 TEST\n", b"E 4711\n", b"\n", b"XXXXXXXXXXXXXXXXXXX"];
                bytes.extend(*random.pick(&lines));
            }
        }
        5 => {
            bytes.pop();
        }
        _ => {}
    }
    Log { bytes, kind: log.kind }
}

/// A line that is refused with this number after the accepted lines, where they allow
/// it; otherwise a line that is like it.
pub fn faulty_line(random: &mut Random, accepted: &[Event], number: u8) -> Vec<u8> {
    let UsedIds { begun, open, closed } = UsedIds::of(accepted);
    let fresh = fresh_id(random, &begun);
    let known_label = labels_of(accepted).first().map(|label| in_another_case(random, label));
    let new_label = Letters::any(random).write(random, b"NEW_LABEL");
    match number {
        11 => line_without_form(random, fresh),
        12 => {
            let id = match random.below(8) {
                0 => "0".to_string(),
                1 => "65536".to_string(),
                2 => format!("{}", 65536 + fresh),
                3 => format!("{}", (1u64 << 32) + fresh),
                4 => format!("{}", (1u128 << 64) + u128::from(fresh)),
                // With 37 digits the LF is the 40th byte.
                5 => "9".repeat(*random.pick(&[6, 10, 20, 36, 37, 37, 37])),
                6 => format!("{}", random.between(65536, 99999)),
                _ => format!("{fresh}000000"),
            };
            let tail = *random.pick(&["", "", " TEST", " bad-", " B 1"]);
            let line = format!("B {id}{tail}\n");
            let line = if line.len() > 40 || random.chance(1, 3) { format!("E {id}\n") } else { line };
            line.into_bytes()
        }
        13 => {
            // A run of the id may be open: the label is judged first.
            let id = if random.chance(1, 3) && !begun.is_empty() { *random.pick(&begun) } else { fresh };
            let mut line = format!("B {id} ").into_bytes();
            let letters = Letters::any(random);
            let label: Vec<u8> = match random.below(8) {
                0 => letters.write(random, &[b'A'; 25]),
                // The LF is the 40th byte.
                1 => letters.write(random, &vec![b'A'; 39 - line.len()]),
                2 => label_with_a_wrong_byte(random),
                3 => b" X".to_vec(),
                4 => letters.write(random, b"TEST\r"),
                5 => vec![*random.pick(BESIDE_LETTERS)],
                _ => random.pick(&[&b"te-st"[..], b"A B", b"a ", b"-", b"\0", b"\xc3\x84", b"\xc3\xa4"]).to_vec(),
            };
            line.extend(label);
            line.push(b'\n');
            line
        }
        15 if !begun.is_empty() => {
            let label = random.pick(&[None, Some(new_label), known_label]).clone();
            begin_line(*random.pick(if open.is_empty() { &begun } else { &open }), label.as_deref())
        }
        17 if !closed.is_empty() => end_line(*random.pick(&closed)),
        18 => {
            let label = random.pick(&[None, known_label, Some(new_label)]).clone();
            begin_line(fresh_or_closed(random, fresh, &closed), label.as_deref())
        }
        19 => begin_line(fresh_or_closed(random, fresh, &closed), Some(&new_label)),
        _ => end_line(fresh),
    }
}

/// The ids of accepted lines, each once: all that have begun, those of open runs, and the others.
struct UsedIds {
    begun: Vec<u64>,
    open: Vec<u64>,
    closed: Vec<u64>,
}

impl UsedIds {
    fn of(accepted: &[Event]) -> UsedIds {
        let runs = runs_of(accepted);
        let mut begun: Vec<u64> = runs.iter().map(|run| run.id).collect();
        begun.sort();
        begun.dedup();
        let is_open = |id: &u64| runs.iter().any(|run| run.id == *id && run.end.is_none());
        let (open, closed) = begun.iter().partition(|id| is_open(id));
        UsedIds { begun, open, closed }
    }
}

/// An id that may begin a run: as often as not one whose runs have finished, where there is one.
fn fresh_or_closed(random: &mut Random, fresh: u64, closed: &[u64]) -> u64 {
    if !closed.is_empty() && random.chance(1, 2) { *random.pick(closed) } else { fresh }
}

/// A label of a right length with one byte that no label has, as often as not one beside the letters.
fn label_with_a_wrong_byte(random: &mut Random) -> Vec<u8> {
    let length = random.between(1, 24);
    let mut label = Letters::any(random).write(random, &vec![b'A'; length]);
    let wrong = loop {
        let byte = if random.chance(1, 2) { *random.pick(BESIDE_LETTERS) } else { random.byte() };
        if !is_label_byte(byte) && byte != b'\n' {
            break byte;
        }
    };
    let at = random.below(length);
    label[at] = wrong;
    label
}

/// A line that is not of the two forms.
fn line_without_form(random: &mut Random, id: u64) -> Vec<u8> {
    let long = |length: usize| [format!("B {id} ").into_bytes(), vec![b'A'; length], b"\n".to_vec()].concat();
    match random.below(31) {
        0 => b"\n".to_vec(),
        1 => b"B\n".to_vec(),
        2 => b"B \n".to_vec(),
        3 => format!("B  {id}\n").into_bytes(),
        4 => format!("b {id}\n").into_bytes(),
        5 => format!("e {id}\n").into_bytes(),
        6 => format!("E {id} TEST\n").into_bytes(),
        7 => format!("E {id} \n").into_bytes(),
        8 => format!("B {id} \n").into_bytes(),
        9 => format!("B 0{id}\n").into_bytes(),
        10 => format!("B {id}\r\n").into_bytes(),
        11 => format!("X {id}\n").into_bytes(),
        12 => format!("B\t{id}\n").into_bytes(),
        13 => format!(" B {id}\n").into_bytes(),
        14 => format!("B -{id}\n").into_bytes(),
        15 => format!("B +{id}\n").into_bytes(),
        16 => format!("B {id}A\n").into_bytes(),
        17 => format!("B{id}\n").into_bytes(),
        18 => long(40),
        // The LF is the 41st byte.
        19 => long(40 - format!("B {id} ").len()),
        20 => long(200),
        21 => format!("B {}\n", "1".repeat(38)).into_bytes(),
        22 => b"E\n".to_vec(),
        23 => b"B 00\n".to_vec(),
        24 => b"B \xd9\xa1\n".to_vec(),
        // A good line but for its LF.
        25..=26 => format!("B {id}").into_bytes(),
        // A good line but for its B or E, which is no label.
        27 => format!("b {id} TEST\n").into_bytes(),
        28 => format!("b {id} test\n").into_bytes(),
        29 => format!("{} {id}\n", random.pick(&["b", "e"])).into_bytes(),
        _ => {
            let length = random.below(12);
            [random.bytes(length), b"\n".to_vec()].concat()
        }
    }
}

/// Lines of all kinds with few ids, so that every state is met. Most fit the lines before them.
fn noise(random: &mut Random, rule_labels: &[Vec<u8>]) -> Log {
    let choices = label_choices(random, rule_labels);
    let letters = Letters::any(random);
    let mut bytes = Vec::new();
    let mut open: Vec<u64> = Vec::new();
    let wrong = random.below(3);
    let most = *random.pick(&[1, 2, 3, 4, 12]);
    for _ in 0..random.below(30) {
        let id = random.between(1, most) as u64;
        let fits = random.chance(7, 8);
        if random.chance(wrong, 40) {
            let number = *random.pick(&LINE_REFUSALS);
            bytes.extend(faulty_line(random, &[], number));
        } else if open.contains(&id) != fits {
            let label = random.chance(2, 3).then(|| random.pick(&choices));
            let label = label.map(|label| letters.write(random, label));
            bytes.extend(begin_line(id, label.as_deref()));
            open.push(id);
        } else {
            bytes.extend(end_line(id));
            open.retain(|other| *other != id);
        }
    }
    Log { bytes, kind: "few ids" }
}

/// One line to pass to the single-line call after these accepted lines.
pub fn next_line(random: &mut Random, accepted: &[Event], rule_labels: &[Vec<u8>]) -> Vec<u8> {
    let UsedIds { begun, open, closed } = UsedIds::of(accepted);
    match random.below(12) {
        0..=3 => {
            let mut choices = label_choices(random, rule_labels);
            choices.extend(labels_of(accepted).first().map(|label| label.to_vec()));
            let letters = Letters::any(random);
            let label = random.chance(3, 4).then(|| random.pick(&choices));
            let label = label.map(|label| letters.write(random, label));
            let fresh = fresh_id(random, &begun);
            begin_line(fresh_or_closed(random, fresh, &closed), label.as_deref())
        }
        4..=7 if !open.is_empty() => end_line(*random.pick(&open)),
        8 => {
            // What only this call can be handed: no LF, no bytes, or bytes after the LF.
            let id = fresh_id(random, &begun);
            match random.below(5) {
                0 => Vec::new(),
                1 => format!("B {id}").into_bytes(),
                2 => format!("B {id}\nE {id}\n").into_bytes(),
                3 => format!("B {id}\n\n").into_bytes(),
                _ => [format!("B {id}\n").into_bytes(), random.bytes(60)].concat(),
            }
        }
        _ => {
            let number = *random.pick(&LINE_REFUSALS);
            faulty_line(random, accepted, number)
        }
    }
}
