//! Work areas for either layout: of the lengths about both sizes, with the pair bytes of a record, with one byte
//! changed, with those of the other layout, or filled with anything.

use crate::random::Random;
use reference::record::{pair_bytes, Record};
use reference::Layout;

/// Lengths of work areas: one less than the size of either layout, just its size, and three more.
const LENGTHS: [usize; 6] = [8127, 8128, 8131, 16383, 16384, 16387];

/// What is wrong with a work area that is handed over with a record.
#[derive(Clone, Copy, PartialEq, Eq, PartialOrd, Ord, Debug)]
pub enum Fault {
    None,
    /// One of its pair bytes is another.
    Byte,
    /// It has the pair bytes of the other layout.
    Layout,
    /// It is shorter than the layout's size.
    Short,
}

/// A work area whose contents no call reads, now and then too short; filled with anything.
pub fn lent_area(random: &mut Random, layout: Layout) -> Vec<u8> {
    let length = if random.chance(1, 20) { short_length(random, layout) } else { long_length(random, layout) };
    let byte = random.byte();
    let mut area = vec![byte; length];
    for _ in 0..20.min(length) {
        let at = random.below(length);
        area[at] = random.byte();
    }
    area
}

/// A work area that is handed over with a record whose pair bytes are those of `paired`. Behind the pair bytes stands
/// anything.
pub fn area_of(random: &mut Random, layout: Layout, paired: &Record, fault: Fault) -> Vec<u8> {
    let mut area = pair_bytes(layout, paired);
    match fault {
        Fault::None => {}
        Fault::Byte => change_byte(random, layout, paired, &mut area),
        Fault::Layout => {
            area = pair_bytes(layout.other(), paired);
            // Of its own length, it may be too short for the layout that is named.
            if random.chance(1, 4) {
                return area;
            }
        }
        Fault::Short => {
            area.truncate(short_length(random, layout));
            return area;
        }
    }
    let length = long_length(random, layout);
    area.truncate(length);
    let more = length - area.len();
    area.extend(if random.chance(1, 3) { vec![0; more] } else { random.bytes(more) });
    area
}

/// Mostly the layout's size, or one of the lengths above it, or a few bytes more.
fn long_length(random: &mut Random, layout: Layout) -> usize {
    let lengths: Vec<usize> = LENGTHS.into_iter().filter(|length| *length >= layout.size()).collect();
    match random.below(6) {
        0..=2 => layout.size(),
        3 => layout.size() + random.below(40),
        _ => *random.pick(&lengths),
    }
}

/// Mostly one of the lengths below the layout's size.
fn short_length(random: &mut Random, layout: Layout) -> usize {
    let lengths: Vec<usize> = LENGTHS.into_iter().filter(|length| *length < layout.size()).collect();
    match random.below(4) {
        0 => *random.pick(&[0, 1, layout.size() / 2]),
        _ => *random.pick(&lengths),
    }
}

/// Changes one pair byte: of two runs, of runs that have not begun, or of no two runs.
fn change_byte(random: &mut Random, layout: Layout, paired: &Record, area: &mut [u8]) {
    let at = match random.below(6) {
        0 => random.below(area.len()),
        1 => area.len() - 1,
        // The first byte of runs that have not both begun: in the half layout that behind those of the last run.
        2 => *places_not_begun(layout, paired).first().unwrap_or(&0),
        3 => {
            let places = places_not_begun(layout, paired);
            if places.is_empty() { 0 } else { *random.pick(&places) }
        }
        _ => {
            let used: Vec<usize> = (0..area.len()).filter(|at| area[*at] != 0).collect();
            if used.is_empty() { 1 } else { *random.pick(&used) }
        }
    };
    area[at] = match random.below(3) {
        0 => area[at] ^ 1,
        1 => random.below(9) as u8,
        _ => random.byte(),
    };
}

/// The places of pairs whose second run has not begun.
pub fn places_not_begun(layout: Layout, record: &Record) -> Vec<usize> {
    let is_pair = |(first, second): (usize, usize)| first < second && record.runs[second].begin == 0;
    let pairs = layout.pairs().into_iter().enumerate();
    pairs.filter(|(_, pair)| is_pair(*pair)).map(|(place, _)| place).collect()
}
