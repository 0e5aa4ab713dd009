//! Narrowing by trying everything: every pair of operands, or every operand and sum.

use crate::floats::{Place, Range, Width};
use crate::narrowing::Narrowed;
use crate::ranges::bisect;

/// The hull of the solutions found so far.
struct Hull(Option<Narrowed>);

impl Hull {
    fn add(&mut self, x: Range, a: Place, b: Place) {
        let (a, b) = (Range::point(a), Range::point(b));
        self.0 = Some(match self.0 {
            None => Narrowed { x, a, b },
            Some(n) => Narrowed { x: n.x.join(x), a: n.a.join(a), b: n.b.join(b) },
        });
    }
}

/// Every x with every a: x and a are short, b is anything.
pub fn by_operands<W: Width>(x: Range, a: Range, b: Range) -> Option<Narrowed> {
    let mut hull = Hull(None);
    for p in x.low..=x.high {
        for q in a.low..=a.high {
            let s = W::sum(p, q);
            if b.contains(s) {
                hull.add(Range::point(p), q, s);
            }
        }
    }
    hull.0
}

/// Every a with every b: a and b are short, x is anything. A sum grows with x, so the x that give b are a range.
pub fn by_sums<W: Width>(x: Range, a: Range, b: Range) -> Option<Narrowed> {
    let mut hull = Hull(None);
    for q in a.low..=a.high {
        for s in b.low..=b.high {
            let low = bisect(x, |p| s <= W::sum(p, q));
            let high = bisect(x, |p| s < W::sum(p, q)) - 1;
            if low <= high {
                hull.add(Range { low, high }, q, s);
            }
        }
    }
    hull.0
}
