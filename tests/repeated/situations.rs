//! Situations that cases of a relation must meet, told by p and q and by what is left of them.

use crate::coincidences::Relation;
use crate::floats::{Place, Range, Width};

/// p and q as given, and narrowed.
type Holds = fn([Range; 2], [Range; 2]) -> bool;

pub struct Situation {
    pub name: &'static str,
    pub holds: Holds,
}

fn situation(name: &'static str, holds: Holds) -> Situation {
    Situation { name, holds }
}

/// For short ranges with a solution.
pub fn of_short<W: Width>(relation: Relation) -> Vec<Situation> {
    match relation {
        Relation::Doubling => vec![
            situation("an odd end without a half", |[_, q], [_, r]| {
                has_no_half::<W>(q.low) && q.low < r.low || has_no_half::<W>(q.high) && r.high < q.high
            }),
            situation("a double is too large", |[p, _], _| [p.low, p.high].iter().any(|p| W::sum(*p, *p).abs() > W::LARGEST)),
            situation("the largest double", |_, [_, r]| r.low == -W::LARGEST || r.high == W::LARGEST),
            situation("both signs", |_, [r, _]| r.low < 0 && 0 < r.high),
        ],
        Relation::Absorbing => vec![
            situation("zero in a", |[_, a], _| a.contains(0)),
            situation("zero in a, both its ends move", |[_, a], [_, b]| a.contains(0) && a.low < b.low && b.high < a.high),
            situation("a above zero", |[_, a], _| a.low > 0),
            situation("a below zero", |[_, a], _| a.high < 0),
            situation("a tie at an odd x", |given, _| any_pair(given, |x, a| x % 2 != 0 && is_tie::<W>(x, a))),
            situation("a tie below a power of two", |given, _| {
                any_pair(given, |x, a| is_power::<W>(x) && x.signum() != a.signum() && is_tie::<W>(x, a))
            }),
            situation("the largest floats", |[x, _], _| x.contains(W::LARGEST) || x.contains(-W::LARGEST)),
            situation("other x for each end of a", |[x, _], [_, b]| {
                !any(x, |x| absorbs::<W>(x, b.low) && absorbs::<W>(x, b.high))
            }),
            situation("no a for an x between the ends", |[_, a], [y, _]| any(y, |x| !any(a, |a| absorbs::<W>(x, a)))),
        ],
        Relation::Difference => vec![situation("both signs", |[_, q], _| q.low < 0 && 0 < q.high)],
        Relation::Zero => vec![situation("both signs", |[p, _], _| p.low < 0 && 0 < p.high)],
    }
}

/// For long ranges with a solution.
pub fn of_long(relation: Relation) -> Vec<Situation> {
    match relation {
        Relation::Doubling => vec![
            situation("both ends of p move", |[p, _], [r, _]| p.low < r.low && r.high < p.high),
            situation("both ends of q move", |[_, q], [_, r]| q.low < r.low && r.high < q.high),
        ],
        Relation::Absorbing => vec![
            situation("zero in a, both its ends move", |[_, a], [_, b]| a.contains(0) && a.low < b.low && b.high < a.high),
            situation("a above zero, x far above its low end", |[x, a], [y, _]| a.low > 0 && x.low + 2 < y.low),
            situation("a above zero, x far below its high end", |[x, a], [y, _]| a.low > 0 && y.high < x.high - 2),
            situation("a below zero, x far above its low end", |[x, a], [y, _]| a.high < 0 && x.low + 2 < y.low),
            situation("a below zero, x far below its high end", |[x, a], [y, _]| a.high < 0 && y.high < x.high - 2),
        ],
        Relation::Difference | Relation::Zero => vec![],
    }
}

fn absorbs<W: Width>(x: Place, a: Place) -> bool {
    W::sum(x, a) == x
}

fn any(range: Range, holds: impl Fn(Place) -> bool) -> bool {
    (range.low..=range.high).any(holds)
}

fn any_pair([x, a]: [Range; 2], holds: impl Fn(Place, Place) -> bool) -> bool {
    any(x, |x| any(a, |a| holds(x, a)))
}

/// Whether no float is half of it: it is odd, and subnormal or in the binade above.
fn has_no_half<W: Width>(place: Place) -> bool {
    place % 2 != 0 && place.abs() < 2 << W::FRACTION
}

/// Whether floats are closer together on the one side than on the other: subnormals and the binade above them are not.
fn is_power<W: Width>(place: Place) -> bool {
    place % (1 << W::FRACTION) == 0 && place.abs() > 1 << W::FRACTION
}

/// Whether x + a lies halfway between x and the next float.
fn is_tie<W: Width>(x: Place, a: Place) -> bool {
    a != 0 && W::sum(a, a) == W::sum(x + a.signum(), -x)
}
