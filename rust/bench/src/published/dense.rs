//! Sets of assignments as dense bit sets: the operators that the paper has on decision diagrams.
//!
//! A set over k free variables has a bit for each assignment: rows of 64-bit words for the last variable, a row for each
//! assignment of the others. Buffers are used again, "not" and "and" work in place, and an "and" of sets over different variables
//! spreads the smaller one row by row, without a copy.

use super::update::Runs;
use crate::logs::MAX_RUNS;

/// The assignments that satisfy a subformula. Bits past the last run of a row may be anything.
pub struct Set {
    /// The free variables, a bit each.
    pub free: u8,
    pub words: Vec<u64>,
}

/// The last free variable; its runs are the bits of a row.
fn last(free: u8) -> usize {
    free.ilog2() as usize
}

/// How many of the free variables come after this one.
fn after(free: u8, variable: usize) -> u32 {
    (free >> variable >> 1).count_ones()
}

/// The universe of the finished runs, and the buffers of its sets.
#[derive(Default)]
pub struct Universe {
    /// How many runs there are, and the words of a row of so many bits.
    runs: usize,
    row: usize,
    /// Buffers to use again, by the number of free variables.
    spare: [Vec<Vec<u64>>; 5],
}

impl Universe {
    pub fn enlarge_to(&mut self, runs: usize) {
        self.runs = runs;
        self.row = runs.div_ceil(64);
    }

    /// A set over one or two variables from its rows.
    pub fn rows(&mut self, free: u8, row_of: impl Fn(usize) -> Runs) -> Set {
        let mut set = self.take(free);
        for (run, row) in set.words.chunks_exact_mut(self.row.max(1)).enumerate() {
            let runs = row_of(run);
            for (place, word) in row.iter_mut().enumerate() {
                *word = (runs >> (64 * place)) as u64;
            }
        }
        set
    }

    /// The words of a set over these variables.
    fn length(&self, free: u8) -> usize {
        if free == 0 { 1 } else { self.runs.pow(free.count_ones() - 1) * self.row }
    }

    /// A set over these variables with anything in it. Its buffer has room for a full log.
    fn take(&mut self, free: u8) -> Set {
        let variables = free.count_ones();
        let room = MAX_RUNS.pow(variables.saturating_sub(1)) * MAX_RUNS / 64;
        let mut words = self.spare[variables as usize].pop().unwrap_or_else(|| Vec::with_capacity(room));
        words.resize(self.length(free), 0);
        Set { free, words }
    }

    pub fn give(&mut self, set: Set) {
        self.spare[set.free.count_ones() as usize].push(set.words);
    }

    /// comp(B), in place.
    pub fn complement(&self, set: &mut Set) {
        set.words.iter_mut().for_each(|word| *word = !*word);
    }

    /// conj(B, C): the assignments in both sets, over the free variables of both.
    pub fn conjunction(&mut self, first: Set, second: Set) -> Set {
        let free = first.free | second.free;
        let (mut wide, other) = if first.free == free {
            (first, second)
        } else if second.free == free {
            (second, first)
        } else {
            let mut wide = self.take(free);
            self.spread(&mut wide, &first, |_, new| new);
            self.give(first);
            (wide, second)
        };
        if other.free == free {
            wide.words.iter_mut().zip(&other.words).for_each(|(word, other)| *word &= other);
        } else {
            self.spread(&mut wide, &other, |old, new| old & new);
        }
        self.give(other);
        wide
    }

    /// Joins each word of the wide set with that of the narrow one, whose free variables are a part of the wide one's.
    fn spread(&self, wide: &mut Set, narrow: &Set, join: impl Fn(u64, u64) -> u64) {
        match self.row {
            0 => {}
            1 => self.spread_rows::<1>(wide, narrow, join),
            _ => self.spread_rows::<2>(wide, narrow, join),
        }
    }

    fn spread_rows<const ROW: usize>(&self, wide: &mut Set, narrow: &Set, join: impl Fn(u64, u64) -> u64) {
        let levels = self.levels(wide.free, narrow.free);
        let [outer, middle, inner] = levels;
        let same_last = narrow.free != 0 && last(narrow.free) == last(wide.free);
        let mut rows = wide.words.chunks_exact_mut(ROW);
        for i in 0..outer.count {
            for j in 0..middle.count {
                let words = i * outer.words + j * middle.words;
                let bits = i * outer.bits + j * middle.bits;
                for (k, row) in (0..inner.count).zip(&mut rows) {
                    let word = words + k * inner.words;
                    if same_last {
                        let from = &narrow.words[word..word + ROW];
                        row.iter_mut().zip(from).for_each(|(word, from)| *word = join(*word, *from));
                    } else {
                        let bit = bits + k * inner.bits;
                        let all = 0_u64.wrapping_sub(narrow.words[word + bit / 64] >> (bit % 64) & 1);
                        row.iter_mut().for_each(|word| *word = join(*word, all));
                    }
                }
            }
        }
    }

    /// The loops over the rows of the wide set, one for each variable but the last, and how each moves in the narrow set.
    fn levels(&self, wide: u8, narrow: u8) -> [Level; 3] {
        let mut levels = [Level { count: 1, words: 0, bits: 0 }; 3];
        let others = (0..last(wide)).filter(|variable| wide >> variable & 1 == 1);
        let first = 4 - wide.count_ones() as usize;
        for (level, variable) in levels[first..].iter_mut().zip(others) {
            level.count = self.runs;
            if narrow >> variable & 1 == 1 {
                match after(narrow, variable) {
                    0 => level.bits = 1,
                    later => level.words = self.runs.pow(later - 1) * self.row,
                }
            }
        }
        levels
    }

    /// project(B, A): the assignments to the other variables that some finished run completes.
    pub fn project(&mut self, set: Set, variable: usize) -> Set {
        let is_free = set.free >> variable & 1 == 1;
        if self.runs > 0 && !is_free {
            return set;
        }
        let mut rest = self.take(set.free & !(1 << variable));
        if self.runs == 0 {
            rest.words.fill(0);
        } else if after(set.free, variable) == 0 {
            self.project_last(&set, &mut rest);
        } else {
            rest.words.fill(0);
            let length = self.length(set.free & !((2 << variable) - 1));
            for (block, all) in rest.words.chunks_exact_mut(length).zip(set.words.chunks_exact(length * self.runs)) {
                for part in all.chunks_exact(length) {
                    block.iter_mut().zip(part).for_each(|(word, from)| *word |= from);
                }
            }
        }
        self.give(set);
        rest
    }

    /// A bit for each row: whether the row has a run.
    fn project_last(&self, set: &Set, rest: &mut Set) {
        let used = u64::MAX >> (64 * self.row - self.runs);
        let any = |row: &[u64]| row[self.row - 1] & used != 0 || row[..self.row - 1].iter().any(|word| *word != 0);
        if rest.free == 0 {
            rest.words[0] = u64::from(any(&set.words));
            return;
        }
        for (bits, rows) in rest.words.chunks_exact_mut(self.row).zip(set.words.chunks_exact(self.row * self.runs)) {
            bits.fill(0);
            for (run, row) in rows.chunks_exact(self.row).enumerate() {
                bits[run / 64] |= u64::from(any(row)) << (run % 64);
            }
        }
    }
}

/// A loop over the runs of one variable: its turns, and the words or bits of the narrow set that a turn moves on.
#[derive(Clone, Copy)]
struct Level {
    count: usize,
    words: usize,
    bits: usize,
}
