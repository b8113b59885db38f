//! Records in bytes as they are lent to a call: as they are, or damaged in what the reference's record has not.

use crate::common::bytes_of;
use generate::random::Random;
use reference::record::Record;
use scene_log::RECORD_BYTES;

/// What has been done to the bytes of a case's record.
#[derive(Clone, Copy, PartialEq, Debug)]
pub enum Damage {
    None,
    /// Too few bytes: 20.
    Short,
    /// A number of runs or labels that is not the record's: 21.
    Count,
}

/// The bytes of a case's record with a few behind them, now and then damaged.
pub fn lent_record(random: &mut Random, record: &Record) -> (Vec<u8>, Damage) {
    let mut bytes = bytes_of(record);
    assert_eq!(bytes.len(), RECORD_BYTES);
    let more = random.below(6);
    bytes.extend(random.bytes(more));
    match random.below(40) {
        0 => {
            bytes.truncate(*random.pick(&[0, 1, 4, 900, 2500, RECORD_BYTES - 1]));
            (bytes, Damage::Short)
        }
        1..=2 => {
            let at = random.between(2, 3);
            bytes[at] = bytes[at].wrapping_add(random.between(1, 255) as u8);
            (bytes, Damage::Count)
        }
        _ => (bytes, Damage::None),
    }
}
