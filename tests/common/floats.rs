//! The floats of both widths by their places, over the hardware's own floats.
//!
//! A pattern without its sign bit is a number m; its place is m, or -m with the sign set. The infinities have the places
//! next to the largest finite ones, so a sum that is too large is a place like the others, beyond `LARGEST`.

pub type Place = i64;

pub trait Width {
    /// Bits of the width, fraction bits, and the largest finite place.
    const BITS: u64;
    const FRACTION: u32;
    const LARGEST: Place;

    /// The hardware's sum of two finite floats.
    fn sum(x: Place, a: Place) -> Place;

    /// The pattern of a finite place; zero with its sign clear.
    fn pattern(place: Place) -> u64 {
        let sign = if place < 0 { 1 << (Self::BITS - 1) } else { 0 };
        sign | place.unsigned_abs()
    }

    /// The place of a finite pattern; none for others, and for one with bits beyond the width.
    fn place(pattern: u64) -> Option<Place> {
        let sign = 1u64 << (Self::BITS - 1);
        let size = pattern & (sign - 1);
        let beyond = pattern & !(sign | (sign - 1));
        if beyond != 0 || size > Self::LARGEST as u64 {
            return None;
        }
        Some(if pattern & sign != 0 { -(size as i64) } else { size as i64 })
    }
}

/// A width over one of the hardware's float types.
macro_rules! width {
    ($name:ident, $bits:expr, $float:ty) => {
        pub struct $name;

        impl Width for $name {
            const BITS: u64 = $bits;
            const FRACTION: u32 = <$float>::MANTISSA_DIGITS - 1;
            const LARGEST: Place = <$float>::MAX.to_bits() as Place;

            fn sum(x: Place, a: Place) -> Place {
                let float = |place: Place| {
                    let size = <$float>::from_bits(place.unsigned_abs() as _);
                    if place < 0 { -size } else { size }
                };
                let b = float(x) + float(a);
                let size = b.abs().to_bits() as Place;
                if b < 0.0 { -size } else { size }
            }
        }
    };
}

width!(Binary32, 32, f32);
width!(Binary64, 64, f64);

/// The floats from low to high, by place.
#[derive(Clone, Copy, PartialEq, Eq, Debug)]
pub struct Range {
    pub low: Place,
    pub high: Place,
}

impl Range {
    pub fn mirror(self) -> Range {
        Range { low: -self.high, high: -self.low }
    }
}
