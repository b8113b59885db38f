//! How two finished runs relate, and sets of relations.

use std::fmt;

/// The relation of one finished run to another.
#[derive(Clone, Copy, PartialEq, Eq, PartialOrd, Ord, Hash, Debug)]
#[repr(u8)]
pub enum Relation {
    Before = 1,
    After = 2,
    Overlaps = 4,
    OverlappedBy = 8,
    Includes = 16,
    During = 32,
}

impl Relation {
    /// All six, by their numbers.
    pub const ALL: [Relation; 6] = [
        Relation::Before,
        Relation::After,
        Relation::Overlaps,
        Relation::OverlappedBy,
        Relation::Includes,
        Relation::During,
    ];

    /// The number of the set that has this relation alone.
    pub fn number(self) -> u8 {
        self as u8
    }

    /// The relation with this number, if there is one.
    pub fn from_number(number: u8) -> Option<Relation> {
        Relation::ALL.into_iter().find(|relation| relation.number() == number)
    }
}

impl fmt::Display for Relation {
    fn fmt(&self, out: &mut fmt::Formatter) -> fmt::Result {
        out.write_str(match self {
            Relation::Before => "before",
            Relation::After => "after",
            Relation::Overlaps => "overlaps",
            Relation::OverlappedBy => "overlapped by",
            Relation::Includes => "includes",
            Relation::During => "during",
        })
    }
}

/// A set of relations: a sum of their numbers, 0 to 63. The one by default is empty.
#[derive(Clone, Copy, PartialEq, Eq, PartialOrd, Ord, Hash, Debug, Default)]
pub struct Relations(pub(crate) u8);

impl Relations {
    /// The sum of the members' numbers.
    pub fn number(self) -> u8 {
        self.0
    }

    /// Whether the relation is a member.
    pub fn contains(self, relation: Relation) -> bool {
        self.0 & relation.number() != 0
    }

    /// The members, by their numbers.
    pub fn members(self) -> impl Iterator<Item = Relation> {
        Relation::ALL.into_iter().filter(move |relation| self.contains(*relation))
    }
}

impl From<Relation> for Relations {
    fn from(relation: Relation) -> Relations {
        Relations(relation.number())
    }
}

impl FromIterator<Relation> for Relations {
    fn from_iter<I: IntoIterator<Item = Relation>>(members: I) -> Relations {
        Relations(members.into_iter().fold(0, |set, relation| set | relation.number()))
    }
}

/// The number of a set, for the calls that take any number.
impl From<Relations> for u32 {
    fn from(set: Relations) -> u32 {
        set.0.into()
    }
}

/// The number of the set that has this relation alone.
impl From<Relation> for u32 {
    fn from(relation: Relation) -> u32 {
        relation.number().into()
    }
}
