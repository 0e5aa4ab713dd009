//! Narrowing of one sum by galloping search over the hardware's addition. Not verified; the differential test holds it to
//! brute force, as it does the library.

use crate::floats::{Place, Range, Width};

/// The three ranges of a sum, narrowed.
#[derive(Clone, Copy, PartialEq, Eq, Debug)]
pub struct Narrowed {
    pub x: Range,
    pub a: Range,
    pub b: Range,
}

/// From a place where the test holds, down by doubled steps: a place where it fails and one above it where it holds, or the
/// range's low end, where it holds.
fn gallop_down(range: Range, start: Place, holds: &impl Fn(Place) -> bool) -> Result<(Place, Place), Place> {
    let (mut good, mut step) = (start, 1);
    while good != range.low {
        let next = good.saturating_sub(step).max(range.low);
        if !holds(next) {
            return Ok((next, good));
        }
        good = next;
        step = step.saturating_mul(2);
    }
    Err(good)
}

/// From a place where it fails, up by doubled steps: the same two places, or none where it fails up to the range's high end.
fn gallop_up(range: Range, start: Place, holds: &impl Fn(Place) -> bool) -> Option<(Place, Place)> {
    let (mut fails, mut step) = (start, 1);
    while fails != range.high {
        let next = fails.saturating_add(step).min(range.high);
        if holds(next) {
            return Some((fails, next));
        }
        fails = next;
        step = step.saturating_mul(2);
    }
    None
}

/// The least place above `fails`, where the test fails, at which it holds, as it does at `good`.
fn halve((mut fails, mut good): (Place, Place), holds: &impl Fn(Place) -> bool) -> Place {
    while fails + 1 < good {
        let middle = (fails & good) + ((fails ^ good) >> 1);
        if holds(middle) { good = middle } else { fails = middle }
    }
    good
}

/// The least place of the range at which the test holds, if any; the test holds from some place on. The search starts at
/// the guess, doubles its steps until the end is between two of them, and halves the rest.
fn least_where(range: Range, guess: Place, holds: impl Fn(Place) -> bool) -> Option<Place> {
    let start = guess.clamp(range.low, range.high);
    if holds(start) {
        match gallop_down(range, start, &holds) {
            Ok(bounds) => Some(halve(bounds, &holds)),
            Err(low) => Some(low),
        }
    } else {
        gallop_up(range, start, &holds).map(|bounds| halve(bounds, &holds))
    }
}

/// The least x of the range with b <= x + a.
pub fn least_operand<W: Width>(a: Place, b: Place, range: Range) -> Option<Place> {
    least_where(range, W::sum(b, -a), |x| b <= W::sum(x, a))
}

/// A k such that no value of the range, which is above zero, is a multiple of 2^k units.
fn no_multiple<W: Width>(b: Range) -> i128 {
    let h = 1i64 << W::FRACTION;
    let parts = |m: Place| if m < h { (m, 0) } else { (h + m % h, m / h - 1) };
    let ((low, shift), (high, high_shift)) = (parts(b.low), parts(b.high));
    let digits = |n: i64| 64 - n.leading_zeros() as i64;
    let k = if shift == high_shift { shift + digits((low - 1) ^ high) } else { high_shift + digits(high) };
    k as i128
}

/// The range without the low places that stand in no solution: an operand of -2^(k+f) units or below has a partner of that
/// size, both are multiples of 2^k, and so is their sum.
fn raise<W: Width>(range: Range, b: Range) -> Range {
    if b.low <= 0 {
        return range;
    }
    let bound = 1 - (no_multiple::<W>(b) + 1) * (1i128 << W::FRACTION);
    Range { low: bound.max(range.low as i128) as Place, high: range.high }
}

/// The least x in a solution and an a with it, if there is a solution.
fn least_x<W: Width>(x: Range, a: Range, b: Range) -> Option<(Place, Place)> {
    let clamp = |r: Range| {
        let r = raise::<W>(r, b);
        raise::<W>(r.mirror(), b.mirror()).mirror()
    };
    let (x, a) = (clamp(x), clamp(a));
    if x.low > x.high || a.low > a.high {
        return None;
    }
    let mut at = least_operand::<W>(a.high, b.low, x)?;
    loop {
        if W::sum(at, a.low) > b.high {
            return None;
        }
        let partner = least_operand::<W>(at, b.low, a)?;
        if W::sum(at, partner) <= b.high {
            return Some((at, partner));
        }
        at = least_operand::<W>(partner - 1, b.low, Range { low: at, high: x.high })?;
    }
}

fn extent<W: Width>(x: Range, a: Range, b: Range) -> Option<Range> {
    let (low, _) = least_x::<W>(x, a, b)?;
    let (high, _) = least_x::<W>(x.mirror(), a.mirror(), b.mirror())?;
    Some(Range { low, high: -high })
}

/// The least b in a solution; there is one, and x and a are narrowed.
fn least_b<W: Width>(x: Range, a: Range, b: Range) -> Place {
    let lows = W::sum(x.low, a.low);
    if b.low <= lows {
        return lows;
    }
    let with = |c: Place, range: Range| least_operand::<W>(c, b.low, range).map_or(b.high, |t| W::sum(t, c));
    let (mut low, mut high) = (b.low, b.high.min(with(a.low, x)).min(with(x.low, a)));
    let mut probe = high - 1;
    while low < high {
        match least_x::<W>(x, a, Range { low, high: probe }) {
            Some((t, u)) => high = W::sum(t, u),
            None => low = probe + 1,
        }
        probe = (low & high) + ((low ^ high) >> 1);
    }
    high
}

/// The three ranges narrowed, or none.
pub fn narrow<W: Width>(x: Range, a: Range, b: Range) -> Option<Narrowed> {
    let xs = extent::<W>(x, a, b)?;
    let ys = extent::<W>(a, x, b)?;
    let low = least_b::<W>(xs, ys, b);
    let high = -least_b::<W>(xs.mirror(), ys.mirror(), b.mirror());
    Some(Narrowed { x: xs, a: ys, b: Range { low, high } })
}
