//! The tree of a typed rule: signs grouped by how closely they bind, and its nodes
//! numbered.

use super::signs::Sign;
use crate::label::place_in;
use crate::rule::{Node, AND, HAS_LABEL, NOT, SAME, SOME};

/// A node of the tree; children by their places in the tree's list.
enum Part<'a> {
    And(usize, usize),
    Not(usize),
    Some(&'a [u8], usize),
    Has(&'a [u8], &'a [u8]),
    /// A relation or "same", as the kind of its node, and its two names.
    Pair(u8, &'a [u8], &'a [u8]),
}

/// All nodes; a child stands before its parent, and the root is the last.
pub struct Tree<'a>(Vec<Part<'a>>);

/// What waits for the end of the operand on its right.
#[derive(Clone, Copy, PartialEq)]
enum Waiting<'a> {
    Bracket,
    Some(&'a [u8]),
    Or,
    And,
    Not,
}

impl Waiting<'_> {
    /// How closely it binds: "`!` binds closest, then `&`, then `|`"; ""exist" reaches as
    /// far right as it can", so that no sign but the closing bracket ends its operand.
    fn strength(self) -> u8 {
        match self {
            Waiting::Bracket | Waiting::Some(_) => 0,
            Waiting::Or => 1,
            Waiting::And => 2,
            Waiting::Not => 3,
        }
    }
}

/// Signs that are being grouped: the parts that are complete, the places of those that
/// have no parent yet, and what waits.
struct Grouping<'a> {
    parts: Vec<Part<'a>>,
    operands: Vec<usize>,
    waiting: Vec<Waiting<'a>>,
}

impl<'a> Tree<'a> {
    /// The tree of the signs, if they are a whole rule.
    pub fn of(signs: &[Sign<'a>]) -> Option<Tree<'a>> {
        let mut grouping = Grouping { parts: Vec::new(), operands: Vec::new(), waiting: Vec::new() };
        let mut rest = grouping.read_operand(signs)?;
        while let [sign, after @ ..] = rest {
            rest = match sign {
                Sign::Close => {
                    grouping.close_bracket()?;
                    after
                }
                Sign::And => grouping.read_right_side(Waiting::And, after)?,
                Sign::Or => grouping.read_right_side(Waiting::Or, after)?,
                _ => return None,
            };
        }
        grouping.complete_to_bracket();
        grouping.waiting.is_empty().then_some(Tree(grouping.parts))
    }

    /// How many nodes the table has.
    pub fn node_count(&self) -> usize {
        self.0.len()
    }

    /// How many names are bound one inside another at most. Asked only of a tree that
    /// passed 4.
    pub fn nested(&self) -> usize {
        self.nested_at(self.0.len() - 1)
    }

    fn nested_at(&self, place: usize) -> usize {
        match self.0[place] {
            Part::And(first, second) => self.nested_at(first).max(self.nested_at(second)),
            Part::Not(child) => self.nested_at(child),
            Part::Some(_, child) => 1 + self.nested_at(child),
            Part::Has(..) | Part::Pair(..) => 0,
        }
    }

    /// The nodes, "numbered as first completed, left before right"; none where a name is
    /// used outside every binding of it. Asked only of a tree that passed 4.
    pub fn nodes(&self, labels: &[&[u8]]) -> Option<Vec<Node>> {
        let mut nodes = Vec::new();
        self.push_nodes(self.0.len() - 1, labels, &mut Vec::new(), &mut nodes)?;
        Some(nodes)
    }

    /// Adds the nodes of this part; answers the number of the last one, which is its root.
    fn push_nodes(
        &self,
        place: usize,
        labels: &[&[u8]],
        bound: &mut Vec<&'a [u8]>,
        nodes: &mut Vec<Node>,
    ) -> Option<u8> {
        let node = match self.0[place] {
            Part::And(first, second) => {
                let a = self.push_nodes(first, labels, bound, nodes)?;
                let b = self.push_nodes(second, labels, bound, nodes)?;
                Node { kind: AND, a, b }
            }
            Part::Not(child) => Node { kind: NOT, a: self.push_nodes(child, labels, bound, nodes)?, b: 0 },
            // "A name bound at nesting level k (from 0) becomes variable k".
            Part::Some(name, child) => {
                let a = bound.len() as u8;
                bound.push(name);
                let b = self.push_nodes(child, labels, bound, nodes)?;
                bound.pop();
                Node { kind: SOME, a, b }
            }
            Part::Has(name, label) => {
                let b = place_in(labels, label).expect("a listed label");
                Node { kind: HAS_LABEL, a: level_of(name, bound)?, b: b as u8 }
            }
            Part::Pair(kind, a, b) => Node { kind, a: level_of(a, bound)?, b: level_of(b, bound)? },
        };
        nodes.push(node);
        Some(nodes.len() as u8 - 1)
    }
}

/// The level of the innermost binding of the name.
fn level_of(name: &[u8], bound: &[&[u8]]) -> Option<u8> {
    bound.iter().rposition(|other| *other == name).map(|level| level as u8)
}

impl<'a> Grouping<'a> {
    /// Takes what stands before an atom, and the atom; answers the signs after it.
    fn read_operand<'s>(&mut self, signs: &'s [Sign<'a>]) -> Option<&'s [Sign<'a>]> {
        let mut rest = signs;
        loop {
            match rest {
                [Sign::Not, after @ ..] => {
                    self.waiting.push(Waiting::Not);
                    rest = after;
                }
                [Sign::Open, after @ ..] => {
                    self.waiting.push(Waiting::Bracket);
                    rest = after;
                }
                [Sign::Exist, after @ ..] => rest = self.read_names(after)?,
                [Sign::Name(name), Sign::Open, Sign::Label(label), Sign::Close, after @ ..] => {
                    self.add_atom(Part::Has(name, label));
                    return Some(after);
                }
                [Sign::Name(a), Sign::Relation(kind), Sign::Name(b), after @ ..] => {
                    self.add_atom(Part::Pair(*kind, a, b));
                    return Some(after);
                }
                [Sign::Same, Sign::Open, Sign::Name(a), Sign::Comma, Sign::Name(b), Sign::Close, after @ ..] => {
                    self.add_atom(Part::Pair(SAME, a, b));
                    return Some(after);
                }
                _ => return None,
            }
        }
    }

    /// The names after `exist`, each a "some" of its own, and the point.
    fn read_names<'s>(&mut self, signs: &'s [Sign<'a>]) -> Option<&'s [Sign<'a>]> {
        let mut rest = signs;
        loop {
            let [Sign::Name(name), sign, after @ ..] = rest else {
                return None;
            };
            self.waiting.push(Waiting::Some(name));
            match sign {
                Sign::Comma => rest = after,
                Sign::Dot => return Some(after),
                _ => return None,
            }
        }
    }

    /// An `&` or `|`, whose left side is complete, "each grouping to the left"; and its
    /// right operand.
    fn read_right_side<'s>(&mut self, sign: Waiting<'a>, signs: &'s [Sign<'a>]) -> Option<&'s [Sign<'a>]> {
        self.complete_while(|waiting| waiting.strength() >= sign.strength());
        self.waiting.push(sign);
        self.read_operand(signs)
    }

    /// A closing bracket: all since its opening bracket is complete, "the way a whole rule
    /// is".
    fn close_bracket(&mut self) -> Option<()> {
        self.complete_to_bracket();
        self.waiting.pop().map(|_| ())
    }

    /// Completes what waits, down to a bracket.
    fn complete_to_bracket(&mut self) {
        self.complete_while(|waiting| waiting != Waiting::Bracket);
    }

    /// Completes what waits last, as long as it is such.
    fn complete_while(&mut self, is_complete: impl Fn(Waiting) -> bool) {
        while let Some(waiting) = self.waiting.pop_if(|waiting| is_complete(*waiting)) {
            let right = self.operand();
            let place = match waiting {
                Waiting::Bracket => unreachable!("a bracket waits for its own sign"),
                Waiting::Some(name) => self.part(Part::Some(name, right)),
                Waiting::Not => self.part(Part::Not(right)),
                Waiting::And => {
                    let left = self.operand();
                    self.part(Part::And(left, right))
                }
                // "An or becomes the not of the and of the nots of its two sides."
                Waiting::Or => {
                    let left = self.operand();
                    let not_left = self.part(Part::Not(left));
                    let not_right = self.part(Part::Not(right));
                    let neither = self.part(Part::And(not_left, not_right));
                    self.part(Part::Not(neither))
                }
            };
            self.operands.push(place);
        }
    }

    /// The last part that has no parent; it gets one now.
    fn operand(&mut self) -> usize {
        self.operands.pop().expect("what waits has its operands before it")
    }

    /// Adds a part; answers its place.
    fn part(&mut self, part: Part<'a>) -> usize {
        self.parts.push(part);
        self.parts.len() - 1
    }

    /// Adds an atom, an operand of what waits.
    fn add_atom(&mut self, atom: Part<'a>) {
        let place = self.part(atom);
        self.operands.push(place);
    }
}
