//! The layouts of a work area: how many bytes it has, and which pair each byte is of.
//!
//! A layout is here no more than an order of the pairs in which their bytes are written down, one after another. So a
//! byte is found by counting on, and no place is computed.

use crate::{HALF_BYTES, MAX_RUNS, SQUARE_BYTES};

/// "Both layouts remain"; "Pair bytes now follow the layout named in the call."
#[derive(Clone, Copy, PartialEq, Eq, PartialOrd, Ord, Debug)]
pub enum Layout {
    /// "128 × first run + second run": a row for each first run.
    Square,
    /// "one byte for each pair begun in order, at y × (y − 1) / 2 + x for runs x below y".
    Half,
}

impl Layout {
    pub const ALL: [Layout; 2] = [Layout::Square, Layout::Half];

    /// How many bytes of a work area are pair bytes, and how many it has at least.
    pub fn size(self) -> usize {
        match self {
            Layout::Square => SQUARE_BYTES,
            Layout::Half => HALF_BYTES,
        }
    }

    pub fn other(self) -> Layout {
        match self {
            Layout::Square => Layout::Half,
            Layout::Half => Layout::Square,
        }
    }

    /// Two runs for each pair byte, in the order of the bytes. The square has a byte for any two, of which those with
    /// the first below the second are pairs. The half has a byte for each pair: first those whose second run is 1, then
    /// those whose second run is 2, and so on: (0, 1), (0, 2), (1, 2), (0, 3) .. So y × (y − 1) / 2 bytes, one for each
    /// two of the y runs before it, stand in front of those of second run y.
    pub fn pairs(self) -> Vec<(usize, usize)> {
        let mut pairs = Vec::new();
        match self {
            Layout::Square => {
                for first in 0..MAX_RUNS {
                    for second in 0..MAX_RUNS {
                        pairs.push((first, second));
                    }
                }
            }
            Layout::Half => {
                for second in 0..MAX_RUNS {
                    for first in 0..second {
                        pairs.push((first, second));
                    }
                }
            }
        }
        pairs
    }
}

#[cfg(test)]
mod tests {
    use super::*;

    /// The words of the paper: 16,384 and 8,128 bytes, 128 × first run + second run, y × (y − 1) / 2 + x.
    #[test]
    fn each_byte_stands_where_the_paper_has_it() {
        let square = Layout::Square.pairs();
        assert_eq!((square.len(), Layout::Square.size()), (16384, 16384));
        for (place, (first, second)) in square.into_iter().enumerate() {
            assert_eq!(place, 128 * first + second);
        }
        let half = Layout::Half.pairs();
        assert_eq!((half.len(), Layout::Half.size()), (8128, 8128));
        assert_eq!(half[..7], [(0, 1), (0, 2), (1, 2), (0, 3), (1, 3), (2, 3), (0, 4)]);
        for (place, (x, y)) in half.into_iter().enumerate() {
            assert!(x < y && y < 128);
            assert_eq!(place, y * (y - 1) / 2 + x);
        }
    }

    #[test]
    fn the_half_is_the_square_without_what_is_no_pair() {
        let mut pairs: Vec<(usize, usize)> = Layout::Square.pairs().into_iter().filter(|(x, y)| x < y).collect();
        pairs.sort_by_key(|(x, y)| (*y, *x));
        assert_eq!(Layout::Half.pairs(), pairs);
    }
}
