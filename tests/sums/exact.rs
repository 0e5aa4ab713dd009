//! Exact values as whole numbers of units, wide enough for every finite float: what a sum leaves over, without any rounding.

use crate::floats::{Place, Width};

/// Words of a number of units: the largest value of width 64 has 2,098 bits, a sum of three has two more, and a sign.
const WORDS: usize = 33;

/// A whole number of units, low word first, below zero as its complement.
struct Units([u64; WORDS]);

impl Units {
    /// Adds significand * 2^shift.
    fn add(&mut self, significand: u64, shift: u64) {
        let mut carry = u128::from(significand) << (shift % 64);
        for word in &mut self.0[shift as usize / 64..] {
            if carry == 0 {
                return;
            }
            let sum = u128::from(*word) + (carry & u128::from(u64::MAX));
            *word = sum as u64;
            carry = (carry >> 64) + (sum >> 64);
        }
    }

    /// The number with the other sign.
    fn negate(&mut self) {
        self.0.iter_mut().for_each(|word| *word = !*word);
        self.add(1, 0);
    }

    /// Adds the value of a place.
    fn add_place<W: Width>(&mut self, place: Place) {
        let m = place.unsigned_abs();
        let (field, hidden) = (m >> W::FRACTION, 1 << W::FRACTION);
        let (significand, shift) = if field == 0 { (m, 0) } else { (m % hidden + hidden, field - 1) };
        if place < 0 {
            self.negate();
        }
        self.add(significand, shift);
        if place < 0 {
            self.negate();
        }
    }

    /// The place with this value; none where no finite float has it.
    fn place<W: Width>(mut self) -> Option<Place> {
        let negative = self.0[WORDS - 1] >> 63 != 0;
        if negative {
            self.negate();
        }
        let Some(top) = self.0.iter().rposition(|word| *word != 0) else { return Some(0) };
        let bits = 64 * top as u64 + u64::from(64 - self.0[top].leading_zeros());
        let shift = bits.saturating_sub(u64::from(W::FRACTION) + 1);
        let at = |i: usize| u128::from(self.0.get(i).copied().unwrap_or(0));
        let word = shift as usize / 64;
        let significand = ((at(word) | at(word + 1) << 64) >> (shift % 64)) as u64;
        let mut rest = self;
        rest.negate();
        rest.add(significand, shift);
        let m = ((shift << W::FRACTION) + significand) as Place;
        let is_float = m <= W::LARGEST && rest.0.iter().all(|word| *word == 0);
        is_float.then_some(if negative { -m } else { m })
    }
}

/// What the sum of x and a leaves over, all by place: the float whose value is exact x plus exact a less the sum.
pub fn left_over<W: Width>(x: Place, a: Place, sum: Place) -> Option<Place> {
    let mut units = Units([0; WORDS]);
    for place in [x, a, -sum] {
        units.add_place::<W>(place);
    }
    units.place::<W>()
}
