//! The positions are of every kind that a comparison may get wrong.

use generate::positions::{position_case, EDGES, LAST_OF_16_BITS};
use std::collections::BTreeMap;

const CASES: u64 = 40_000;

/// How often each of them occurs at least.
const OFTEN: u64 = 100;

#[test]
fn a_seed_always_gives_the_same_positions() {
    for seed in 0..200 {
        assert_eq!(position_case(seed), position_case(seed));
    }
    assert_ne!(position_case(1), position_case(2));
}

#[test]
fn every_kind_comes_in_every_shape() {
    let mut seen: BTreeMap<(&str, &str), u64> = BTreeMap::new();
    for case in (0..CASES).map(position_case) {
        *seen.entry((case.kind, case.shape)).or_default() += 1;
    }
    println!("{seen:?}");
    assert!(seen.len() == 8 * 8 && seen.values().all(|count| *count >= OFTEN));
}

/// Whether the one at this place, and no other, is above 16 bits.
fn only_one_above(positions: &[u64; 4], place: usize) -> bool {
    (0..4).all(|other| (positions[other] > LAST_OF_16_BITS) == (other == place))
}

/// By the numbers alone, whatever they are meant to be.
#[test]
fn edges_and_equal_and_near_and_cut_numbers_occur() {
    let all: Vec<[u64; 4]> = (0..CASES).map(|seed| position_case(seed).positions).collect();
    let often = |what: &str, holds: &dyn Fn(&[u64; 4]) -> bool| {
        let count = all.iter().filter(|positions| holds(positions)).count() as u64;
        println!("{what}: {count}");
        assert!(count >= OFTEN, "{what}: {count}");
    };
    for place in 0..4 {
        for edge in EDGES {
            often(&format!("{edge} at place {place}"), &|positions| positions[place] == edge);
        }
        for other in 0..place {
            often(&format!("places {other} and {place} equal"), &|positions| positions[other] == positions[place]);
        }
        often(&format!("place {place} alone above 16 bits"), &|positions| only_one_above(positions, place));
    }
    often("all equal", &|positions| positions.iter().all(|position| *position == positions[0]));
    often("the first run finishes before it starts", &|[start, finish, ..]| finish < start);
    often("the second run finishes before it starts", &|[.., start, finish]| finish < start);
    often("line numbers", &|positions| positions.iter().all(|position| (1..=256).contains(position)));
    often("above 16 bits and near each other", &|positions| {
        let (least, most) = (positions.iter().min().unwrap(), positions.iter().max().unwrap());
        *least > LAST_OF_16_BITS && least < most && most - least <= 6
    });
    often("different above the lowest 16 bits alone", &|positions| {
        let low = |position: u64| position & LAST_OF_16_BITS;
        let differ = |one: usize, other: usize| positions[one] != positions[other];
        positions.iter().all(|position| low(*position) == low(positions[0])) && (1..4).any(|other| differ(0, other))
    });
    often("all fit in 16 bits", &|positions| positions.iter().all(|position| *position <= LAST_OF_16_BITS));
    often("none fits in 16 bits", &|positions| positions.iter().all(|position| *position > LAST_OF_16_BITS));
}
