//! The nine ways in which a record can name a cell more than once.

use crate::records::Record;

/// What a record asks of p, the cell that it names more than once, and of q, its other cell.
#[derive(Clone, Copy, PartialEq, Eq)]
pub enum Relation {
    /// q is twice p.
    Doubling,
    /// p absorbs q, or the mirror of q in a diff.
    Absorbing,
    /// q is zero, p is anything.
    Difference,
    /// p is zero, and there is no q.
    Zero,
}

pub struct Coincidence {
    pub name: &'static str,
    pub relation: Relation,
    /// The record over the numbers of p and q.
    pub record: fn(usize, usize) -> Record,
}

const fn coincidence(name: &'static str, relation: Relation, record: fn(usize, usize) -> Record) -> Coincidence {
    Coincidence { name, relation, record }
}

pub const COINCIDENCES: [Coincidence; 9] = [
    coincidence("x + x = b", Relation::Doubling, |p, q| Record::Sum([p, p, q])),
    coincidence("x + a = x", Relation::Absorbing, |p, q| Record::Sum([p, q, p])),
    coincidence("x + a = a", Relation::Absorbing, |p, q| Record::Sum([q, p, p])),
    coincidence("x + x = x", Relation::Zero, |p, _| Record::Sum([p, p, p])),
    coincidence("x - x = b", Relation::Difference, |p, q| Record::Diff([p, p, q])),
    coincidence("x - a = x", Relation::Absorbing, |p, q| Record::Diff([p, q, p])),
    coincidence("x - a = a", Relation::Doubling, |p, q| Record::Diff([q, p, p])),
    coincidence("x - x = x", Relation::Zero, |p, _| Record::Diff([p, p, p])),
    coincidence("x = -x", Relation::Zero, |p, _| Record::Neg([p, p])),
];
