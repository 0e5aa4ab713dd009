//! Whether wide ranges have a solution, by cutting them into pieces of equal steps; and so whether an answer is the narrowing.
//!
//! On a piece, the floats are equally far apart. Let x and a run over a piece each, x with the smaller step u. Take the least q
//! whose sum with the greatest x reaches b, and the least p whose sum with q does. If p + q overshoots b, there is no solution
//! on these pieces. Smaller a fall short. If p is the least x, every larger a overshoots as well. Otherwise p - u and p, each
//! with q, are neighbouring multiples of u, of which one rounds below b and one above it; and every sum is a multiple of u.

use crate::floats::{Place, Range, Width};
use crate::narrowing::Narrowed;
use crate::ranges::bisect;

/// The piece that a place lies on, numbered in order of places, from -1 down below zero. A power of two below zero lies on the
/// same piece as its upper neighbours, which are as far apart as those are from it.
fn piece<W: Width>(place: Place) -> i64 {
    place >> W::FRACTION
}

/// How many pieces a range has beyond its first.
fn cuts<W: Width>(range: Range) -> i64 {
    piece::<W>(range.high) - piece::<W>(range.low)
}

/// A number that grows with the step of a piece.
fn coarseness(piece: i64) -> i64 {
    if piece < 0 { -1 - piece } else { piece }
}

/// The range as two, each with about half of its pieces.
fn halves<W: Width>(range: Range) -> [Range; 2] {
    let middle = piece::<W>(range.low) + cuts::<W>(range) / 2;
    let from = (middle + 1) << W::FRACTION;
    [Range { low: range.low, high: from - 1 }, Range { low: from, high: range.high }]
}

/// Whether a piece of x and one of a have a solution, x with the smaller step.
fn on_pieces<W: Width>(x: Range, a: Range, b: Range) -> bool {
    let q = bisect(a, |q| b.low <= W::sum(x.high, q));
    let p = bisect(x, |p| q <= a.high && b.low <= W::sum(p, q));
    p <= x.high && W::sum(p, q) <= b.high
}

/// Whether there are x, a and b of the ranges with x + a = b. An empty range has none.
pub fn solvable<W: Width>(x: Range, a: Range, b: Range) -> bool {
    if [x, a, b].iter().any(|r| r.low > r.high) || W::sum(x.high, a.high) < b.low || b.high < W::sum(x.low, a.low) {
        return false;
    }
    if cuts::<W>(x) == 0 && cuts::<W>(a) == 0 {
        let finer = coarseness(piece::<W>(x.low)) <= coarseness(piece::<W>(a.low));
        return if finer { on_pieces::<W>(x, a, b) } else { on_pieces::<W>(a, x, b) };
    }
    if cuts::<W>(x) < cuts::<W>(a) {
        return halves::<W>(a).iter().any(|half| solvable::<W>(x, *half, b));
    }
    halves::<W>(x).iter().any(|half| solvable::<W>(*half, a, b))
}

/// Whether the answer is the narrowing of the ranges: none if there is no solution; else each end lies in the range given and
/// stands in a solution, and none has a value beyond it.
pub fn is_narrowing<W: Width>(given: [Range; 3], answer: Option<Narrowed>) -> bool {
    let solvable = |[x, a, b]: [Range; 3]| solvable::<W>(x, a, b);
    let Some(n) = answer else { return !solvable(given) };
    [n.x, n.a, n.b].iter().enumerate().all(|(i, got)| {
        let with = |range: Range| {
            let mut ranges = given;
            ranges[i] = range;
            solvable(ranges)
        };
        let inside = |end: Place| given[i].low <= end && end <= given[i].high;
        inside(got.low)
            && inside(got.high)
            && with(Range::point(got.low))
            && with(Range::point(got.high))
            && !with(Range { low: given[i].low, high: got.low - 1 })
            && !with(Range { low: got.high + 1, high: given[i].high })
    })
}
