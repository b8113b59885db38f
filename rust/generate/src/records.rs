//! Records and tallies with one field or more spoiled.
//!
//! Every value fits in 16 bits (ids and lines), 8 bits (label numbers, lengths,
//! places) or 32 bits (tally counts), so that a record with narrower fields can hold it.

use crate::random::Random;
use reference::calls::Tally;
use reference::record::{fnv1a, Record, RunEntry};

/// How two runs that share an id stand to each other. The first is the one that begins first.
#[derive(Clone, Copy, PartialEq, Eq, PartialOrd, Ord, Debug)]
pub enum Sharing {
    /// Both are open: no lines leave such a record.
    BothOpen,
    /// The first was open when the second began, and at least one of them has finished: no lines leave such a record
    /// either.
    OpenThen,
    /// The first had finished when the second began, as after a reset.
    FinishedBefore,
}

pub const SHARINGS: [Sharing; 3] = [Sharing::BothOpen, Sharing::OpenThen, Sharing::FinishedBefore];

impl Sharing {
    fn of(first: &RunEntry, second: &RunEntry) -> Sharing {
        match (first.end, second.end) {
            (0, 0) => Sharing::BothOpen,
            (end, _) if end == 0 || end > second.begin => Sharing::OpenThen,
            _ => Sharing::FinishedBefore,
        }
    }
}

/// The places of every two runs that stand so to each other.
fn standing_so(record: &Record, sharing: Sharing) -> Vec<(usize, usize)> {
    let begun = record.runs.iter().filter(|run| run.begin != 0).count();
    let pairs = (0..begun).flat_map(|second| (0..second).map(move |first| (first, second)));
    pairs.filter(|(first, second)| Sharing::of(&record.runs[*first], &record.runs[*second]) == sharing).collect()
}

/// How the runs stand that share an id.
pub fn sharings(record: &Record) -> Vec<Sharing> {
    let share = |sharing: &Sharing| {
        standing_so(record, *sharing).iter().any(|(first, second)| record.runs[*first].id == record.runs[*second].id)
    };
    SHARINGS.into_iter().filter(share).collect()
}

/// Gives a run the id of an earlier one to which it stands so, and answers whether there are two such. Where the
/// earlier one had finished, no other run of its id is open together with the run, so that lines leave the record.
pub fn share_id(random: &mut Random, record: &mut Record, sharing: Sharing) -> bool {
    let is_in_the_way = |place: usize, other: usize| {
        let (first, second) = (place.min(other), place.max(other));
        place != other && Sharing::of(&record.runs[first], &record.runs[second]) != Sharing::FinishedBefore
    };
    let is_fit = |(first, second): &(usize, usize)| {
        let id = record.runs[*first].id;
        let mut of_id = (0..record.runs.len()).filter(|other| record.runs[*other].id == id);
        let is_real = sharing != Sharing::FinishedBefore || !of_id.any(|other| is_in_the_way(*second, other));
        record.runs[*second].id != id && is_real
    };
    let pairs: Vec<(usize, usize)> = standing_so(record, sharing).into_iter().filter(is_fit).collect();
    if pairs.is_empty() {
        return false;
    }
    let (first, second) = *random.pick(&pairs);
    record.runs[second].id = record.runs[first].id;
    true
}

/// Gives a run the id of an earlier one, where two have different ids. How they stand is drawn;
/// where no two stand so, the next way is tried.
pub fn share_any_id(random: &mut Random, record: &mut Record) {
    let mut ways = SHARINGS;
    ways.rotate_left(random.below(SHARINGS.len()));
    let _ = ways.iter().any(|sharing| share_id(random, record, *sharing));
}

/// How small letters come into a record, whose labels and places are those of capitals.
#[derive(Clone, Copy, PartialEq, Eq, PartialOrd, Ord, Debug)]
pub enum Small {
    /// One letter of a label.
    Letter,
    /// All letters of a label.
    Label,
    /// All letters of all labels, each of which has the place that these bytes would have.
    LabelsAndPlaces,
    /// A label becomes an earlier one in small letters, and has the place that these bytes would have.
    Twin,
    /// The labels stay in capitals, and one has the place that its small letters would have.
    Place,
}

pub const SMALLS: [Small; 5] = [Small::Letter, Small::Label, Small::LabelsAndPlaces, Small::Twin, Small::Place];

/// The bytes of the labels of a record.
fn labels_in(record: &Record) -> Vec<Vec<u8>> {
    let used = record.labels.iter().take_while(|label| (1..=24).contains(&label.length));
    used.map(|label| label.bytes[..usize::from(label.length)].to_vec()).collect()
}

/// The places of labels whose hash runs over these bytes as they are.
fn places_of(labels: &[Vec<u8>]) -> [u8; 128] {
    let mut places = [0; 128];
    for (label, number) in labels.iter().zip(1..) {
        let mut place = fnv1a(label) as usize % 128;
        while places[place] != 0 {
            place = (place + 1) % 128;
        }
        places[place] = number;
    }
    places
}

/// Brings small letters into a record in this way, and answers whether it has labels for that. No lines leave the
/// record then, but where only a place was to change and the places are the same in either case.
pub fn make_small(random: &mut Random, record: &mut Record, way: Small) -> bool {
    let mut labels = labels_in(record);
    let with_letters: Vec<usize> =
        (0..labels.len()).filter(|label| labels[*label].iter().any(u8::is_ascii_uppercase)).collect();
    if with_letters.is_empty() {
        return false;
    }
    let label = *random.pick(&with_letters);
    match way {
        Small::Letter => {
            let bytes = &mut record.labels[label].bytes;
            let capitals: Vec<usize> = (0..24).filter(|at| bytes[*at].is_ascii_uppercase()).collect();
            bytes[*random.pick(&capitals)] += 32;
        }
        Small::Label => record.labels[label].bytes.make_ascii_lowercase(),
        Small::LabelsAndPlaces => {
            labels.iter_mut().for_each(|label| label.make_ascii_lowercase());
            record.labels.iter_mut().for_each(|label| label.bytes.make_ascii_lowercase());
            record.places = places_of(&labels);
        }
        Small::Twin => {
            if label + 1 == labels.len() {
                return false;
            }
            let twin = random.between(label + 1, labels.len() - 1);
            record.labels[twin] = record.labels[label];
            record.labels[twin].bytes.make_ascii_lowercase();
            labels[twin] = labels[label].to_ascii_lowercase();
            record.places = places_of(&labels);
        }
        Small::Place => {
            labels[label].make_ascii_lowercase();
            record.places = places_of(&labels);
        }
    }
    true
}

/// Changes one field, or swaps two entries, or brings in small letters. Some changes leave a real record.
pub fn damage_record(random: &mut Random, record: &mut Record) {
    let runs = record.runs.iter().filter(|run| run.id != 0).count();
    let labels = record.labels.iter().filter(|label| label.length != 0).count();
    // A used entry mostly, sometimes the first unused or any.
    let entry = |random: &mut Random, used: usize, all: usize| match random.below(8) {
        0 => random.below(all),
        1 => used.min(all - 1),
        _ => random.below(used.max(1)),
    };
    let run = entry(random, runs, record.runs.len());
    let other_run = entry(random, runs, record.runs.len());
    let label = entry(random, labels, record.labels.len());
    let other_label = entry(random, labels, record.labels.len());
    let near = |random: &mut Random, value: u64| match random.below(6) {
        0 => 0,
        1 => value + 1,
        2 => value.saturating_sub(1),
        3 => random.between(0, 257) as u64,
        4 => (value + 256) % 65536,
        _ => random.between(0, 65535) as u64,
    };
    match random.below(24) {
        0 => record.runs[run].id = near(random, record.runs[run].id).min(65535),
        1 => record.runs[run].id = record.runs[other_run].id,
        2..=3 => record.runs[run].begin = near(random, record.runs[run].begin).min(65535),
        4 => record.runs[run].begin = record.runs[other_run].begin,
        5..=6 => record.runs[run].end = near(random, record.runs[run].end).min(65535),
        7 => record.runs[run].end = record.runs[other_run].end,
        8 => record.runs[run].label = near(random, record.runs[run].label) % 256,
        9 => record.runs[run].label = random.between(0, labels + 1) as u64,
        10 => record.labels[label].length = near(random, record.labels[label].length.into()) as u8,
        11 => {
            let length = usize::from(record.labels[label].length).clamp(1, 24);
            let at = random.below(length);
            record.labels[label].bytes[at] = *random.pick(b"AZaz_@[`{ \n\0\xe1\xff");
        }
        12 => {
            // A byte past the label's length.
            let at = usize::from(record.labels[label].length).min(23);
            record.labels[label].bytes[random.between(at, 23)] = *random.pick(&[b'A', 1, 255]);
        }
        13 => record.labels.swap(label, other_label),
        14 => record.runs.swap(run, other_run),
        15 => {
            let place = random.below(128);
            record.places[place] = *random.pick(&[0, 1, labels as u8, labels as u8 + 1, 64, 65, 255]);
        }
        16 => {
            // A label moves to the next place, or two change places.
            let taken: Vec<usize> = (0..128).filter(|place| record.places[*place] != 0).collect();
            if let Some(place) = (!taken.is_empty()).then(|| *random.pick(&taken)) {
                record.places.swap(place, (place + 1) % 128);
            }
        }
        17 => record.lines = near(random, record.lines).min(65535),
        18..=19 => share_any_id(random, record),
        _ => {
            let way = *random.pick(&SMALLS);
            make_small(random, record, way);
        }
    }
}

/// Changes one count, or all.
pub fn damage_tally(random: &mut Random, tally: &mut Tally) {
    let change = |random: &mut Random, value: u64| match random.below(4) {
        0 => value + 1,
        1 => value.saturating_sub(1),
        2 => 0,
        _ => random.number() % (1 << 32),
    };
    match random.below(8) {
        0 => tally.lines = change(random, tally.lines),
        1 => tally.begun = change(random, tally.begun),
        2 => tally.finished = change(random, tally.finished),
        3 => tally.open = change(random, tally.open),
        4 => tally.failing = tally.lines + 1,
        5 => tally.failing = change(random, tally.failing),
        6 => (tally.finished, tally.open) = (tally.open, tally.finished),
        _ => *tally = Tally::default(),
    }
}
