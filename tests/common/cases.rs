//! Intervals: short ones placed everywhere, and wide ones.

use crate::floats::{Place, Range, Width};
use crate::words::Words;

/// Where the operands lie.
pub const PLACEMENTS: [&str; 8] =
    ["zero", "powers of two", "subnormal", "largest", "cancellation", "opposite signs", "ties", "anywhere"];

/// All finite floats.
pub fn finite<W: Width>() -> Range {
    Range { low: -W::LARGEST, high: W::LARGEST }
}

/// The place of 2^k times the smallest float.
pub fn power<W: Width>(k: i64) -> Place {
    let f = W::FRACTION as i64;
    if k < f { 1 << k.max(0) } else { ((k - f + 1) << f).min(W::LARGEST) }
}

/// The largest k of `power`.
pub fn top<W: Width>() -> i64 {
    (W::LARGEST >> W::FRACTION) + W::FRACTION as i64 - 1
}

/// Half the distance from the place to the next.
pub fn half_step<W: Width>(place: Place) -> Place {
    power::<W>((place.abs() >> W::FRACTION) - 2)
}

pub fn signed(words: &mut Words, place: Place) -> Place {
    if words.coin() { place } else { -place }
}

/// Two places for the middles of the operands' ranges.
pub fn middles<W: Width>(words: &mut Words, placement: &str) -> (Place, Place) {
    let any = words.between(-W::LARGEST, W::LARGEST);
    match placement {
        "zero" => (words.between(-20, 20), words.between(-20, 20)),
        "powers of two" => {
            let k = words.between(0, top::<W>());
            let l = (k + words.between(-3, W::FRACTION as i64 + 3)).clamp(0, top::<W>());
            (signed(words, power::<W>(k)), signed(words, power::<W>(l)))
        }
        "subnormal" => {
            let h = 2i64 << W::FRACTION;
            (words.between(-h, h), words.between(-h, h))
        }
        "largest" => {
            let x = W::LARGEST - words.between(0, 40);
            let a = if words.coin() { half_step::<W>(x) } else { W::LARGEST - words.between(0, 2i64 << W::FRACTION) };
            (signed(words, x), signed(words, a))
        }
        "cancellation" => (any, -any + words.between(-40, 40)),
        "opposite signs" => {
            let few = words.next() >> (2 + words.below(62));
            (any, -any.signum() * (any.abs() ^ few as i64).min(W::LARGEST))
        }
        "ties" => (any, signed(words, half_step::<W>(any))),
        _ => (any, words.between(-W::LARGEST, W::LARGEST)),
    }
}

/// A range of at most `most` + 1 floats with the middle in it or near it.
pub fn around<W: Width>(words: &mut Words, middle: Place, most: i64) -> Range {
    let length = words.between(0, most);
    let low = middle.clamp(-W::LARGEST, W::LARGEST) - words.between(0, length);
    let low = low.clamp(-W::LARGEST, W::LARGEST - length);
    Range { low, high: low + length }
}

/// A range for b: about a sum of two of the operands, now and then with one end far out.
pub fn about_sum<W: Width>(words: &mut Words, x: Range, a: Range, most: i64) -> Range {
    let sum = W::sum(words.between(x.low, x.high), words.between(a.low, a.high));
    let middle = sum + words.between(-2, 2);
    let near = around::<W>(words, middle, most);
    match words.below(8) {
        0 => Range { low: -W::LARGEST, high: near.high },
        1 => Range { low: near.low, high: W::LARGEST },
        _ => near,
    }
}

/// A range as wide as all floats, as those of one sign or as a binade, or one between any two places.
pub fn wide<W: Width>(words: &mut Words) -> Range {
    let all = finite::<W>();
    let (p, q) = (words.between(all.low, all.high), words.between(all.low, all.high));
    let k = words.between(0, top::<W>());
    let binade = Range { low: power::<W>(k), high: power::<W>(k + 1) };
    match words.below(6) {
        0 => all,
        1 => Range { low: p.min(0), high: p.max(0) },
        2 => binade,
        3 => binade.mirror(),
        _ => Range { low: p.min(q), high: p.max(q) },
    }
}

/// Two ranges as wide as binades, of opposite signs and near sizes: their sums have gaps.
pub fn opposite_binades<W: Width>(words: &mut Words) -> (Range, Range) {
    let k = words.between(0, top::<W>());
    let l = (k + words.between(-3, 3)).clamp(0, top::<W>());
    let binade = |k: i64| Range { low: power::<W>(k), high: power::<W>(k + 1) };
    if words.coin() { (binade(k), binade(l).mirror()) } else { (binade(k).mirror(), binade(l)) }
}
