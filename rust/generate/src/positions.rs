//! Cases for the relation of two runs by where they start and finish: any four numbers of 64 bits.

use crate::random::Random;

/// The positions of two runs.
#[derive(Clone, PartialEq, Eq, Debug)]
pub struct PositionCase {
    pub seed: u64,
    /// What the four numbers are meant to be, and how they are dealt out to the runs; for messages.
    pub kind: &'static str,
    pub shape: &'static str,
    /// Start and finish of the first run, start and finish of the second.
    pub positions: [u64; 4],
}

/// Numbers at and beside the ends of 8, 16, 17, 32, 48 and 64 bits.
pub const EDGES: [u64; 16] = [
    0,
    1,
    255,
    256,
    65_534,
    65_535,
    65_536,
    65_537,
    131_071,
    131_072,
    (1 << 32) - 1,
    1 << 32,
    (1 << 32) + 1,
    1 << 48,
    u64::MAX - 1,
    u64::MAX,
];

/// The last number that fits in 16 bits.
pub const LAST_OF_16_BITS: u64 = 65_535;

/// The last line of a full log.
const LAST_LINE: usize = 256;

/// The case of this seed.
pub fn position_case(seed: u64) -> PositionCase {
    let random = &mut Random::new(seed);
    let (kind, numbers) = four_numbers(random);
    let (shape, positions) = dealt(random, numbers);
    PositionCase { seed, kind, shape, positions }
}

/// Four numbers of one kind.
fn four_numbers(random: &mut Random) -> (&'static str, [u64; 4]) {
    match random.below(9) {
        0 | 1 => ("line numbers", four(|| random.between(1, LAST_LINE) as u64)),
        2 => ("few numbers", four(|| random.below(6) as u64)),
        3 => ("16 bits", four(|| random.number() & LAST_OF_16_BITS)),
        4 => ("edges", four(|| *random.pick(&EDGES))),
        5 => {
            let edge = *random.pick(&EDGES);
            ("about one edge", four(|| near(random, edge)))
        }
        6 => {
            let middle = any_width(random).max(LAST_OF_16_BITS + 4);
            ("near each other", four(|| near(random, middle)))
        }
        7 => {
            let low = random.number() & LAST_OF_16_BITS;
            ("the same lowest 16 bits", four(|| low | any_block(random)))
        }
        _ => ("any width", four(|| any_width(random))),
    }
}

fn four(mut next: impl FnMut() -> u64) -> [u64; 4] {
    std::array::from_fn(|_| next())
}

/// A number at most three from another.
fn near(random: &mut Random, middle: u64) -> u64 {
    let away = random.below(4) as u64;
    if random.chance(1, 2) { middle.saturating_sub(away) } else { middle.saturating_add(away) }
}

/// A multiple of 65,536, from 0 to 2^63.
fn any_block(random: &mut Random) -> u64 {
    *random.pick(&[0, 1, 2, 3, 1 << 15, 1 << 16, 1 << 31, 1 << 32, 1 << 47]) << 16
}

/// A number of 0 to 64 bits.
fn any_width(random: &mut Random) -> u64 {
    let bits = random.below(65) as u32;
    random.number().checked_shr(64 - bits).unwrap_or(0)
}

/// Deals four numbers out to two runs: as they come, with equal ones, with a run that finishes before it starts; as
/// two that do not, then with one position raised by a power of two from 16 bits on; in one of three orders.
fn dealt(random: &mut Random, mut numbers: [u64; 4]) -> (&'static str, [u64; 4]) {
    match random.below(9) {
        0 => ("as they come", numbers),
        1 => {
            let at = random.below(4);
            numbers[at] = numbers[(at + random.between(1, 3)) % 4];
            ("two equal", numbers)
        }
        2 => {
            numbers[..2].sort_by(|one, other| other.cmp(one));
            ("backwards", turned(random, numbers))
        }
        3 => ("two runs", two_runs(numbers)),
        4 => {
            let mut runs = two_runs(numbers);
            let raised = &mut runs[random.below(4)];
            *raised = raised.saturating_add(1 << random.between(16, 63));
            ("one raised", runs)
        }
        5 => ("one after the other", in_order(random, numbers, [0, 1, 2, 3])),
        6 => ("one in the other", in_order(random, numbers, [0, 3, 1, 2])),
        _ => ("overlapping", in_order(random, numbers, [0, 2, 1, 3])),
    }
}

/// Two runs that do not finish before they start.
fn two_runs(mut numbers: [u64; 4]) -> [u64; 4] {
    numbers[..2].sort();
    numbers[2..].sort();
    numbers
}

/// Two runs that have the least of the numbers, the next, the third and the largest, 0 to 3, in these places.
fn in_order(random: &mut Random, mut numbers: [u64; 4], places: [usize; 4]) -> [u64; 4] {
    numbers.sort();
    turned(random, places.map(|place| numbers[place]))
}

/// The two runs, or each in the other's place.
fn turned(random: &mut Random, [start_a, finish_a, start_b, finish_b]: [u64; 4]) -> [u64; 4] {
    if random.chance(1, 2) {
        return [start_b, finish_b, start_a, finish_a];
    }
    [start_a, finish_a, start_b, finish_b]
}
