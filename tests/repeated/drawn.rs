//! Cases of a coincidence, drawn so that solutions are frequent: over short ranges, and over long ones.

use crate::cases::{around, half_step, power, signed, top, wide};
use crate::coincidences::{Coincidence, Relation};
use crate::ends;
use crate::floats::{Place, Range, Width};
use crate::records::Record;
use crate::words::Words;

/// Three cells, and a record over p and q, which are two of them.
pub struct Case {
    pub record: Record,
    pub cells: [Range; 3],
    p: usize,
    q: usize,
}

impl Case {
    /// p, and what it absorbs or is doubled to: q, but its mirror where it is taken off.
    pub fn pair(&self, cells: [Range; 3]) -> [Range; 2] {
        let (p, q) = (cells[self.p], cells[self.q]);
        let taken_off = matches!(self.record, Record::Diff([_, a, _]) if a == self.q);
        [p, if taken_off { q.mirror() } else { q }]
    }
}

/// The place itself, or one up to three beside it.
fn beside(words: &mut Words, place: Place) -> Place {
    place + words.pick(&[-3, -2, -1, 0, 0, 0, 1, 1, 2, 3])
}

/// A place for p: about zero, a power of two, the largest float or its half, among the lowest binades or about their ends, or
/// anywhere.
fn middle<W: Width>(words: &mut Words) -> Place {
    let binade = 1 << W::FRACTION;
    let size = match words.below(6) {
        0 => words.between(0, 20),
        1 => power::<W>(words.between(0, top::<W>())),
        2 => W::LARGEST - words.pick(&[0, binade]) - words.between(0, 8),
        3 => words.between(0, 8 * binade),
        4 => words.between(0, 8) * binade,
        _ => words.between(0, W::LARGEST),
    };
    let size = beside(words, size);
    signed(words, size)
}

/// About the most that p absorbs: half the distance to the next float, or to that of the binade below.
fn most_absorbed<W: Width>(words: &mut Words, p: Place) -> Place {
    let binade = words.pick(&[0, 1 << W::FRACTION]);
    let half = half_step::<W>(p.abs() - binade);
    beside(words, half)
}

/// A place for q: about the double of p; about zero or the most that p absorbs, of either sign; or about zero.
fn partner<W: Width>(words: &mut Words, relation: Relation, p: Place) -> Place {
    let most = most_absorbed::<W>(words, p);
    let near = match relation {
        Relation::Doubling => W::sum(p, p),
        Relation::Absorbing => words.pick(&[0, most, -most]),
        Relation::Difference | Relation::Zero => 0,
    };
    beside(words, near)
}

/// About all that p absorbs.
fn all_absorbed<W: Width>(words: &mut Words, p: Place) -> Range {
    Range::point(most_absorbed::<W>(words, p)).join(Range::point(-most_absorbed::<W>(words, p)))
}

type Draw = fn(&mut Words, Place) -> Range;

/// Up to eight floats on each side of the middle.
fn short<W: Width>(words: &mut Words, middle: Place) -> Range {
    let most = words.pick(&[0, 1, 2, 8]);
    let ends = [middle - words.between(0, most), middle + words.between(0, most)];
    let [low, high] = ends.map(|end| end.clamp(-W::LARGEST, W::LARGEST));
    Range { low, high }
}

/// A wide range, one from zero on, or one of any length.
fn long<W: Width>(words: &mut Words, middle: Place) -> Range {
    let end = middle.clamp(-W::LARGEST, W::LARGEST);
    let most = 1 << words.below(W::BITS - 2);
    match words.below(3) {
        0 => wide::<W>(words),
        1 => Range { low: end.min(0), high: end.max(0) },
        _ => around::<W>(words, middle, most),
    }
}

/// A case over any two of the cells: p as drawn, and q too, or all that p absorbs if that is at most `most`.
fn case<W: Width>(words: &mut Words, coincidence: &Coincidence, [draw_p, draw_q]: [Draw; 2], most: Place) -> Case {
    let about_zero = coincidence.relation == Relation::Zero && words.coin();
    let middle_p = if about_zero { beside(words, 0) } else { middle::<W>(words) };
    let range_p = draw_p(words, middle_p);
    let value = words.between(range_p.low, range_p.high);
    let middle_q = partner::<W>(words, coincidence.relation, value);
    let absorbed = all_absorbed::<W>(words, value);
    let all = coincidence.relation == Relation::Absorbing && absorbed.high <= most && words.coin();
    let range_q = if all { absorbed } else { draw_q(words, middle_q) };
    let p = words.below(3) as usize;
    let q = (p + 1 + words.below(2) as usize) % 3;
    let mut cells = [long::<W>(words, middle_p); 3];
    (cells[p], cells[q]) = (range_p, range_q);
    Case { record: (coincidence.record)(p, q), cells, p, q }
}

pub fn short_case<W: Width>(words: &mut Words, coincidence: &Coincidence) -> Case {
    case::<W>(words, coincidence, [short::<W>; 2], 20)
}

/// p long, or q, or both.
pub fn long_case<W: Width>(words: &mut Words, coincidence: &Coincidence) -> Case {
    let draws: [[Draw; 2]; 3] = [[long::<W>; 2], [long::<W>, short::<W>], [short::<W>, long::<W>]];
    let draws = words.pick(&draws);
    case::<W>(words, coincidence, draws, W::LARGEST)
}

/// The ends of cells as six patterns; zero is written with either sign.
pub fn patterns<W: Width>(words: &mut Words, cells: [Range; 3]) -> [u64; 6] {
    ends::patterns::<W>(cells).map(|pattern| if pattern == 0 && words.coin() { 1 << (W::BITS - 1) } else { pattern })
}
