//! What a sum or a difference asks of two cells, one of which it names twice: x + x = b, x - a = a and x + a = x, narrowed by search
//! over the hardware's addition. Not verified; the test of repeated cells holds it to brute force, as it does the library.

use crate::floats::{Place, Range, Width};
use crate::narrowing::least_operand;
use crate::ranges::bisect;

/// x and b of x + x = b. The sum grows with x, so the x that fit are a range.
pub fn doubled<W: Width>(x: Range, b: Range) -> Option<[Range; 2]> {
    let low = bisect(x, |x| b.low <= W::sum(x, x));
    let high = bisect(x, |x| b.high < W::sum(x, x)) - 1;
    (low <= high).then(|| [Range { low, high }, Range { low: W::sum(low, low), high: W::sum(high, high) }])
}

/// The x with x - a = a: those from the least that reach a to the greatest that do not pass it. They have 2a among them; if that
/// is too large, there are none.
fn twice<W: Width>(a: Place) -> Range {
    let all = Range { low: -W::LARGEST, high: W::LARGEST };
    let least = |a: Place| least_operand::<W>(-a, a, all).unwrap_or(W::LARGEST + 1);
    Range { low: least(a), high: -least(-a) }
}

/// a and x of x - a = a. The larger a is, the more is taken off and the more is to be left: its x are above those of smaller a, and
/// the a that fit are a range.
pub fn halved<W: Width>(a: Range, x: Range) -> Option<[Range; 2]> {
    let low = bisect(a, |a| x.low <= twice::<W>(a).high);
    let high = bisect(a, |a| x.high < twice::<W>(a).low) - 1;
    let xs = || Range { low: x.low.max(twice::<W>(low).low), high: x.high.min(twice::<W>(high).high) };
    (low <= high).then(|| [Range { low, high }, xs()])
}

fn absorbs<W: Width>(x: Place, a: Place) -> bool {
    W::sum(x, a) == x
}

/// Those places of a range that are at most two from its ends, from a power of two or from zero. Between them floats are equally far
/// apart, and of such two absorb the same if both are even or both odd: so each place left out has a like above it and one below.
fn samples<W: Width>(range: Range) -> impl Iterator<Item = Place> {
    let binades = range.low >> W::FRACTION..=(range.high >> W::FRACTION) + 1;
    let edges = binades.map(|k| k << W::FRACTION).chain([range.low, range.high]);
    edges.flat_map(|edge| edge - 2..=edge + 2).filter(move |place| range.contains(*place))
}

/// The a farthest from `nearest`, towards `end`, that one of the x absorbs; all of them absorb `nearest`.
fn farthest<W: Width>(xs: &[Place], nearest: Place, end: Place) -> Place {
    let (sign, steps) = ((end - nearest).signum(), (end - nearest).abs());
    let absorbed = |x: Place, step: Place| absorbs::<W>(x, nearest + sign * step);
    let farther = |best: Place, x: &Place| {
        if best == steps || !absorbed(*x, best + 1) {
            return best;
        }
        bisect(Range { low: best + 1, high: steps }, |step| !absorbed(*x, step)) - 1
    };
    nearest + sign * xs.iter().fold(0, farther)
}

/// x and a of x + a = x. The sum grows with a, so what x absorbs is a range that has zero in it; and x fits if it absorbs that a
/// which is nearest to zero.
pub fn absorbing<W: Width>(x: Range, a: Range) -> Option<[Range; 2]> {
    let nearest = Place::clamp(0, a.low, a.high);
    let xs: Vec<Place> = samples::<W>(x).filter(|x| absorbs::<W>(*x, nearest)).collect();
    let hull = xs.iter().map(|x| Range::point(*x)).reduce(Range::join)?;
    let [low, high] = [a.low, a.high].map(|end| farthest::<W>(&xs, nearest, end));
    Some([hull, Range { low, high }])
}
