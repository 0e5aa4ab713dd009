//! Pairs of finite patterns, of ten kinds. A size is a pattern without its sign.

use crate::cases::{power, top};
use crate::floats::{Place, Width};
use crate::tally::Tally;
use crate::words::Words;

pub struct Kind {
    pub name: &'static str,
    pub pair: fn(&mut Words) -> [u64; 2],
    /// Whether what the kind is made for was met.
    pub met: fn(&Tally) -> bool,
}

pub fn all<W: Width>() -> [Kind; 10] {
    let kind = |name, pair, met| Kind { name, pair, met };
    [
        kind("any two", any_two::<W>, |t| t.rounded > 0 && t.far > 0),
        kind("near sizes", near_sizes::<W>, |t| t.rounded > 0 && t.exact() > 0 && t.carried > 0 && t.went_up > 0),
        kind("opposite signs", opposite_signs::<W>, |t| t.rounded > 0 && t.exact() > 0),
        kind("equal sizes", equal_sizes::<W>, |t| t.exact() > 0 && t.too_large > 0),
        kind("powers of two", two_powers::<W>, |t| t.rounded > 0 && t.exact() > 0),
        kind("ties", at_ties::<W>, |t| t.ties > t.compared / 20),
        kind("ties at powers of two", at_power_ties::<W>, |t| t.ties > t.compared / 20),
        kind("subnormal", about_subnormal::<W>, |t| t.subnormal > 0 && t.rounded > 0 && t.tiny > 0),
        kind("largest", about_largest::<W>, |t| t.rounded > 0 && t.too_large > 0),
        kind("largest and a few of its steps", steps_from_largest::<W>, |t| t.rounded > 0 && t.by_integers > 0),
    ]
}

fn any<W: Width>(words: &mut Words) -> Place {
    words.between(0, W::LARGEST)
}

/// A size, counted around the finite ones.
fn finite<W: Width>(size: Place) -> Place {
    size.rem_euclid(W::LARGEST + 1)
}

/// The size itself, or one or two beside it.
fn beside<W: Width>(words: &mut Words, size: Place) -> Place {
    finite::<W>(size + words.between(-2, 2))
}

/// A number of fewer bits than the width has, of every length alike.
fn fewer_bits<W: Width>(words: &mut Words) -> Place {
    let bits = words.between(1, W::BITS as i64 - 1);
    (words.next() >> (64 - bits)) as Place
}

/// A size that differs in its last bits alone, often in few of them, so that the exponents are often near.
fn near<W: Width>(words: &mut Words, size: Place) -> Place {
    finite::<W>(size ^ fewer_bits::<W>(words))
}

/// The pattern of a size with either sign; zero's too.
fn signed<W: Width>(words: &mut Words, size: Place) -> u64 {
    if words.coin() { size as u64 } else { opposite::<W>(size as u64) }
}

fn opposite<W: Width>(pattern: u64) -> u64 {
    pattern ^ 1 << (W::BITS - 1)
}

fn any_power<W: Width>(words: &mut Words) -> Place {
    power::<W>(words.between(0, top::<W>()))
}

fn any_two<W: Width>(words: &mut Words) -> [u64; 2] {
    let (p, q) = (any::<W>(words), any::<W>(words));
    [signed::<W>(words, p), signed::<W>(words, q)]
}

/// Sizes that differ in their last bits, any signs.
fn near_sizes<W: Width>(words: &mut Words) -> [u64; 2] {
    let p = any::<W>(words);
    let q = near::<W>(words, p);
    [signed::<W>(words, p), signed::<W>(words, q)]
}

/// Sizes that differ in their last bits, opposite signs.
fn opposite_signs<W: Width>(words: &mut Words) -> [u64; 2] {
    let p = any::<W>(words);
    let q = near::<W>(words, p);
    if words.coin() { [p as u64, opposite::<W>(q as u64)] } else { [opposite::<W>(p as u64), q as u64] }
}

/// Sizes equal or one or two floats apart, any signs: cancellation and doubling.
fn equal_sizes<W: Width>(words: &mut Words) -> [u64; 2] {
    let p = any::<W>(words);
    let q = beside::<W>(words, p);
    [signed::<W>(words, p), signed::<W>(words, q)]
}

/// Two powers of two or their neighbours, the second up to 2^59 times the first.
fn two_powers<W: Width>(words: &mut Words) -> [u64; 2] {
    let k = words.between(0, top::<W>());
    let l = (k + words.between(0, 59)).min(top::<W>());
    let (p, q) = (beside::<W>(words, power::<W>(k)), beside::<W>(words, power::<W>(l)));
    [signed::<W>(words, p), signed::<W>(words, q)]
}

/// A float of the size, and a half or a quarter of its distance to the next float, or a neighbour of that.
fn tie_at<W: Width>(words: &mut Words, size: Place) -> [u64; 2] {
    let part = power::<W>((size >> W::FRACTION) - 2 - words.between(0, 1));
    let part = beside::<W>(words, part);
    [signed::<W>(words, size), signed::<W>(words, part)]
}

fn at_ties<W: Width>(words: &mut Words) -> [u64; 2] {
    let size = any::<W>(words);
    tie_at::<W>(words, size)
}

/// At powers of two and their neighbours.
fn at_power_ties<W: Width>(words: &mut Words) -> [u64; 2] {
    let size = any_power::<W>(words);
    let size = beside::<W>(words, size);
    tie_at::<W>(words, size)
}

/// Both below eight times the smallest normal float.
fn about_subnormal<W: Width>(words: &mut Words) -> [u64; 2] {
    let below = (4 << W::FRACTION) - 1;
    let (p, q) = (words.between(0, below), words.between(0, below));
    [signed::<W>(words, p), signed::<W>(words, q)]
}

/// The largest float or one a few bits below it.
fn almost_largest<W: Width>(words: &mut Words) -> Place {
    W::LARGEST - fewer_bits::<W>(words) / 2
}

/// The first about the largest float, the second too or about half the last step before it.
fn about_largest<W: Width>(words: &mut Words) -> [u64; 2] {
    let (p, q) = (almost_largest::<W>(words), almost_largest::<W>(words));
    if words.coin() { tie_at::<W>(words, p) } else { [signed::<W>(words, p), signed::<W>(words, q)] }
}

/// The largest float or one a few below it, and some eighths of a power of two about its last step: sums near to overflowing.
fn steps_from_largest<W: Width>(words: &mut Words) -> [u64; 2] {
    let p = W::LARGEST - words.between(0, 3);
    let step = power::<W>((W::LARGEST >> W::FRACTION) - 1 + words.between(-2, 2));
    let q = step + (words.between(0, 7) << (W::FRACTION - 3));
    [signed::<W>(words, p), signed::<W>(words, q)]
}
