//! The hardware's own sum of two patterns, what it leaves over, and the answer that is due by both.

use crate::exact;
use crate::floats::{Binary32, Binary64, Place, Width};

pub trait Hardware: Width {
    /// The pattern of the hardware's sum of two patterns.
    fn add(x: u64, a: u64) -> u64;

    /// The pattern of what that sum leaves over, by TwoSum in the hardware's own operations; none where something in it overflows.
    fn two_sum(x: u64, a: u64) -> Option<u64>;
}

/// The operations of a width by one of the hardware's float types.
macro_rules! hardware {
    ($width:ident, $float:ty) => {
        impl Hardware for $width {
            fn add(x: u64, a: u64) -> u64 {
                (<$float>::from_bits(x as _) + <$float>::from_bits(a as _)).to_bits() as u64
            }

            fn two_sum(x: u64, a: u64) -> Option<u64> {
                let (x, a) = (<$float>::from_bits(x as _), <$float>::from_bits(a as _));
                let s = x + a;
                let b = s - x;
                let (c, d) = (s - b, a - b);
                let r = (x - c) + d;
                [s, b, c, d, r].iter().all(|part| part.is_finite()).then_some(r.to_bits() as u64)
            }
        }
    };
}

hardware!(Binary32, f32);
hardware!(Binary64, f64);

/// A finite sum and what it leaves over, by place.
#[derive(Debug)]
pub struct Sum {
    /// The operand larger in size, and the other.
    pub larger: Place,
    pub smaller: Place,
    pub place: Place,
    /// By exact integers.
    pub left: Place,
    /// By TwoSum, of the operands in either order; none where something in it overflows.
    pub two_sums: [Option<Place>; 2],
}

/// The hardware's sum, or the refusal number that is due: 2 for an operand that is not finite, 9 for a sum that is too large.
pub fn sum<W: Hardware>(x: u64, a: u64) -> Result<Sum, u64> {
    let (p, q) = (W::place(x).ok_or(2u64)?, W::place(a).ok_or(2u64)?);
    let place = W::place(W::add(x, a)).ok_or(9u64)?;
    let left = exact::left_over::<W>(p, q, place).expect("what a sum leaves over is a float");
    let two_sum = |x, a| W::two_sum(x, a).and_then(W::place);
    let (larger, smaller) = if p.abs() < q.abs() { (q, p) } else { (p, q) };
    Ok(Sum { larger, smaller, place, left, two_sums: [two_sum(x, a), two_sum(a, x)] })
}

/// The number and the words after a call: zero has its one pattern, and a refusal leaves the words as they were.
pub fn answer<W: Width>(sum: &Result<Sum, u64>, before: [u64; 3]) -> (u64, [u64; 3]) {
    match sum {
        Ok(sum) => (0, [W::pattern(sum.place), sum.mark(), W::pattern(sum.left)]),
        Err(number) => (*number, before),
    }
}

impl Sum {
    /// 0 exact, 1 rounded. It is never 2: a sum below the smallest normal float is exact.
    fn mark(&self) -> u64 {
        if self.left == 0 { 0 } else { 1 }
    }

    /// Whether the hardware leaves over what the integers do, where it can tell.
    pub fn agrees(&self) -> bool {
        self.two_sums.iter().flatten().all(|left| *left == self.left)
    }

    /// Whether the sum was rounded up in size, so that what is left has the other sign.
    pub fn went_up(&self) -> bool {
        self.left.signum() * self.place.signum() < 0
    }

    /// Whether a rounded sum has a larger exponent than both operands.
    pub fn carried<W: Width>(&self) -> bool {
        self.left != 0 && exponent::<W>(self.larger) < exponent::<W>(self.place)
    }

    /// Whether something is left across a gap of a word or more.
    pub fn far<W: Width>(&self) -> bool {
        self.left != 0 && exponent::<W>(self.larger) - exponent::<W>(self.smaller) >= 64
    }

    /// Whether the exact sum lies halfway between two floats: twice what is left leads from this one to the next.
    pub fn is_tie<W: Width>(&self) -> bool {
        self.left != 0 && W::sum(self.left, self.left) == W::sum(self.place + self.left.signum(), -self.place)
    }
}

/// The exponent that a place is scaled by; the subnormals have that of the smallest normal floats.
fn exponent<W: Width>(place: Place) -> Place {
    (place.abs() >> W::FRACTION).max(1)
}
