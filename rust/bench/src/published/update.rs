//! Step 1 of the published algorithm: table 1.

use crate::logs::MAX_RUNS;

/// A set of runs.
pub type Runs = u128;

/// The members of a set, from the lowest on.
fn members(mut set: Runs) -> impl Iterator<Item = usize> {
    std::iter::from_fn(move || {
        let lowest = set.trailing_zeros() as usize;
        set &= set.wrapping_sub(1);
        (lowest < MAX_RUNS).then_some(lowest)
    })
}

/// The sets of table 1 that are not completed, over run numbers. A set of pairs is a set of runs for each first or each second
/// run of its pairs, whichever the updates read.
pub struct Table {
    x: Runs,
    xx: Runs,
    /// By the second run.
    xy: [Runs; MAX_RUNS],
    /// By the first run.
    xyy: [Runs; MAX_RUNS],
    /// By the second run.
    xyx: [Runs; MAX_RUNS],
    /// By the second run.
    xxy: [Runs; MAX_RUNS],
    label: [u8; MAX_RUNS],
    /// The place of each finished run in the order of finishing.
    rank: [usize; MAX_RUNS],
}

impl Table {
    pub fn new() -> Table {
        let none = [0; MAX_RUNS];
        Table { x: 0, xx: 0, xy: none, xyy: none, xyx: none, xxy: none, label: [0; MAX_RUNS], rank: [0; MAX_RUNS] }
    }

    /// The column begin(Z, d). "a set that is a prefix of another set [..] is updated after the latter".
    pub fn begin(&mut self, z: usize, label: u8) {
        // XXY: XXY ∪ (XX × {Z})
        self.xxy[z] = self.xx;
        // XY: XY ∪ (X × {Z})
        self.xy[z] = self.x;
        // X: X ∪ {Z}
        self.x |= 1 << z;
        self.label[z] = label;
    }

    /// The column end(Z, d).
    pub fn end(&mut self, z: usize, completed: &mut Completed) {
        let rank = completed.enlarge(self.label[z]);
        self.rank[z] = rank;
        // XYYX: XYYX ∪ (XYY ∩ ({Z} × U)), and with it XYY: XYY without XYYX
        for y in members(std::mem::take(&mut self.xyy[z])) {
            completed.includes.add(rank, self.rank[y]);
        }
        // XYY: .. ∪ (XY ∩ (U × {Z}))
        for x in members(self.xy[z]) {
            self.xyy[x] |= 1 << z;
        }
        // XYXY: XYXY ∪ (XYX ∩ (U × {Z})), and with it XYX: XYX without XYXY
        for x in members(std::mem::take(&mut self.xyx[z])) {
            completed.overlaps.add(self.rank[x], rank);
        }
        // XYX: .. ∪ (XY ∩ ({Z} × U)), and XY: XY ∩ (U × not {Z}) ∩ (not {Z} × U)
        self.xy[z] = 0;
        for y in members(self.x) {
            self.xyx[y] |= self.xy[y] & (1 << z);
            self.xy[y] &= !(1 << z);
        }
        // XXYY: XXYY ∪ (XXY ∩ (U × {Z})), and XXY: XXY ∩ (U × not {Z})
        for x in members(std::mem::take(&mut self.xxy[z])) {
            completed.before.add(self.rank[x], rank);
        }
        // X: X without {Z}; XX: XX ∪ {Z}
        self.x &= !(1 << z);
        self.xx |= 1 << z;
    }
}

/// A set of completed pairs over ranks, both ways round.
pub struct Pairs {
    pub by_first: [Runs; MAX_RUNS],
    pub by_second: [Runs; MAX_RUNS],
}

impl Pairs {
    fn new() -> Pairs {
        Pairs { by_first: [0; MAX_RUNS], by_second: [0; MAX_RUNS] }
    }

    fn add(&mut self, first: usize, second: usize) {
        self.by_first[first] |= 1 << second;
        self.by_second[second] |= 1 << first;
    }
}

/// The completed sets of table 1, over ranks.
pub struct Completed {
    /// How many runs are finished.
    pub runs: usize,
    /// XXYY, XYXY and XYYX.
    pub before: Pairs,
    pub overlaps: Pairs,
    pub includes: Pairs,
    /// XD: the runs of each label, and the label of each run. The runs of label 0, no label, are not kept.
    pub data: Vec<Runs>,
    pub label: [u8; MAX_RUNS],
}

impl Completed {
    pub fn new(label_count: usize) -> Completed {
        Completed {
            runs: 0,
            before: Pairs::new(),
            overlaps: Pairs::new(),
            includes: Pairs::new(),
            data: vec![0; label_count + 1],
            label: [0; MAX_RUNS],
        }
    }

    /// Adds a finished run, answers its rank. XD: XD ∪ {(Z, d)}.
    fn enlarge(&mut self, label: u8) -> usize {
        let rank = self.runs;
        self.label[rank] = label;
        if label != 0 {
            self.data[usize::from(label)] |= 1 << rank;
        }
        self.runs += 1;
        rank
    }
}
