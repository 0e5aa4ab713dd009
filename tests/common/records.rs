//! Records by the cells they name, and the narrowing of cells by a record: one value for a cell, wherever the record names it.

use crate::floats::{Range, Width};
use crate::narrowing::narrow;
use crate::repeated::{absorbing, doubled, halved};

/// x + a = b, x + (-a) = b, y = -x.
#[derive(Clone, Copy, Debug)]
pub enum Record {
    Sum([usize; 3]),
    Diff([usize; 3]),
    Neg([usize; 2]),
}

impl Record {
    pub fn cells(&self) -> &[usize] {
        match self {
            Record::Sum(cells) | Record::Diff(cells) => cells,
            Record::Neg(cells) => cells,
        }
    }
}

/// Zero alone, where the range has it.
fn zero(range: Range) -> Option<Range> {
    range.contains(0).then_some(Range::point(0))
}

/// The ranges p, q and r of cells x, a and b, by x + a = b.
fn sum<W: Width>([x, a, b]: [usize; 3], [p, q, r]: [Range; 3]) -> Option<[Range; 3]> {
    match [x == a, a == b, x == b] {
        [true, true, true] => zero(p).map(|p| [p; 3]),
        [true, ..] => doubled::<W>(p, r).map(|[p, r]| [p, p, r]),
        [_, true, _] => absorbing::<W>(q, p).map(|[q, p]| [p, q, q]),
        [.., true] => absorbing::<W>(p, q).map(|[p, q]| [p, q, p]),
        _ => narrow::<W>(p, q, r).map(|n| [n.x, n.a, n.b]),
    }
}

/// The same by x + (-a) = b.
fn diff<W: Width>([x, a, b]: [usize; 3], [p, q, r]: [Range; 3]) -> Option<[Range; 3]> {
    match [x == a, a == b, x == b] {
        [true, true, true] => zero(p).map(|p| [p; 3]),
        [true, ..] => zero(r).map(|r| [p, p, r]),
        [_, true, _] => halved::<W>(q, p).map(|[q, p]| [p, q, q]),
        [.., true] => absorbing::<W>(p, q.mirror()).map(|[p, q]| [p, q.mirror(), p]),
        _ => narrow::<W>(p, q.mirror(), r).map(|n| [n.x, n.a.mirror(), n.b]),
    }
}

/// The ranges p and q of cells x and y, by y = -x.
fn neg([x, y]: [usize; 2], [p, q]: [Range; 2]) -> Option<[Range; 2]> {
    if x == y {
        return zero(p).map(|p| [p; 2]);
    }
    let shared = Range { low: p.low.max(-q.high), high: p.high.min(-q.low) };
    (shared.low <= shared.high).then_some([shared, shared.mirror()])
}

/// Puts the ranges of the named cells, narrowed, in their place.
fn put<const N: usize>(
    cells: &mut [Range],
    named: [usize; N],
    narrowed: impl Fn([usize; N], [Range; N]) -> Option<[Range; N]>,
) -> Option<()> {
    let ranges = narrowed(named, named.map(|i| cells[i]))?;
    named.into_iter().zip(ranges).for_each(|(i, range)| cells[i] = range);
    Some(())
}

/// The cells of a record get the least and greatest values in its solutions; none if it has no solution.
pub fn narrow_record<W: Width>(cells: &mut [Range], record: Record) -> Option<()> {
    match record {
        Record::Sum(named) => put(cells, named, sum::<W>),
        Record::Diff(named) => put(cells, named, diff::<W>),
        Record::Neg(named) => put(cells, named, neg),
    }
}
