//! What the tests of the calls on a record in bytes have in common.

use reference::record::Record;

/// The seed of the first case; the variable FIRST_SEED of the environment names another one, for other cases.
pub fn first_seed() -> u64 {
    std::env::var("FIRST_SEED").map_or(0, |text| text.parse().expect("FIRST_SEED is a number"))
}

/// A number of 16 bits, low byte first.
fn two_bytes(number: u64) -> [u8; 2] {
    u16::try_from(number).expect("a number of 16 bits").to_le_bytes()
}

/// The bytes of a record: "the number of lines, low byte first; the numbers of runs and of labels, a byte each; for
/// each of 128 runs, 7 bytes: id, begin line and end line, low byte first, and the label's number; for each of 64
/// labels, its length and its 24 bytes; the 128 places".
pub fn bytes_of(record: &Record) -> Vec<u8> {
    let runs = record.runs.iter().filter(|run| run.id != 0).count();
    let labels = record.labels.iter().filter(|label| label.length != 0).count();
    let mut bytes = two_bytes(record.lines).to_vec();
    bytes.extend([runs as u8, labels as u8]);
    for run in &record.runs {
        bytes.extend([two_bytes(run.id), two_bytes(run.begin), two_bytes(run.end)].concat());
        bytes.push(run.label.try_into().expect("a number of 8 bits"));
    }
    for label in &record.labels {
        bytes.push(label.length);
        bytes.extend(label.bytes);
    }
    bytes.extend(record.places);
    bytes
}
