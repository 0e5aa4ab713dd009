//! The narrowing of one sum x + a = b for Rust programs on x86-64 Linux, over the C entries of Tazsmibor.
//!
//! `narrow` takes ranges of `f32` or `f64`, `entry` patterns and a buffer as C does. Both are safe: every call gets an answer, in
//! every floating-point environment. `narrow_fast` and `entry_fast` answer the same sooner, in the default environment, which
//! Rust code keeps to; include/tazsmibor_fast.h says what is at stake where a library in C has left it.
//!
//! Add this file as a module (rustc 1.82 or later, edition 2021 or later, `core` alone), build the libraries with
//! `tools/build tazsmibor` and `tools/build tazsmibor_fast`, and link with `-L target/staticlib -l static=tazsmibor`, and with
//! `-l static=tazsmibor_fast` too where a fast function is called.

#![allow(dead_code)] // a program may use a part

use core::ops::RangeInclusive;

unsafe extern "C" {
    fn tazsmibor_narrow(
        width: u64,
        x_low: u64,
        x_high: u64,
        a_low: u64,
        a_high: u64,
        b_low: u64,
        b_high: u64,
        result: *mut u8,
        length: usize,
    ) -> u64;

    fn tazsmibor_narrow_fast(
        width: u64,
        x_low: u64,
        x_high: u64,
        a_low: u64,
        a_high: u64,
        b_low: u64,
        b_high: u64,
        result: *mut u8,
        length: usize,
    ) -> u64;
}

/// What the narrowing of three ranges answers.
#[derive(Clone, Debug, PartialEq)]
pub enum Narrowing<F> {
    /// From the least to the greatest x, a and b with x + a = b, the sum rounded to nearest even.
    Ends { x: RangeInclusive<F>, a: RangeInclusive<F>, b: RangeInclusive<F> },
    /// No x, a and b of the ranges have x + a = b.
    NoSolution,
    /// An end is an infinity or a NaN.
    NotFinite,
    /// A low end lies above its high end.
    OutOfOrder,
}

mod sealed {
    pub trait Sealed {}
    impl Sealed for f32 {}
    impl Sealed for f64 {}
}

/// `f32` and `f64`, by their patterns; no other type has it.
pub trait Float: Copy + sealed::Sealed {
    const WIDTH: u64;
    fn pattern(self) -> u64;
    fn float(pattern: u64) -> Self;
}

impl Float for f32 {
    const WIDTH: u64 = 32;
    fn pattern(self) -> u64 {
        self.to_bits().into()
    }
    fn float(pattern: u64) -> f32 {
        f32::from_bits(pattern as u32)
    }
}

impl Float for f64 {
    const WIDTH: u64 = 64;
    fn pattern(self) -> u64 {
        self.to_bits()
    }
    fn float(pattern: u64) -> f64 {
        f64::from_bits(pattern)
    }
}

/// The C entry on any numbers and any buffer, as include/tazsmibor.h has it: 0 with the six ends in the first 48 bytes, or the
/// number of a refusal and the buffer as it was.
#[inline]
pub fn entry(width: u64, ends: [u64; 6], result: &mut [u8]) -> u64 {
    let [xl, xh, al, ah, bl, bh] = ends;
    // The pointer and the length are a slice's, so the bytes are there, are this caller's alone, and the pointer is not null.
    unsafe { tazsmibor_narrow(width, xl, xh, al, ah, bl, bh, result.as_mut_ptr(), result.len()) }
}

/// The same by the machine's floats, as include/tazsmibor_fast.h has it.
#[inline]
pub fn entry_fast(width: u64, ends: [u64; 6], result: &mut [u8]) -> u64 {
    let [xl, xh, al, ah, bl, bh] = ends;
    // As in `entry`.
    unsafe { tazsmibor_narrow_fast(width, xl, xh, al, ah, bl, bh, result.as_mut_ptr(), result.len()) }
}

/// Cuts three ranges down: each to the least and the greatest of its values that stand in some x + a = b.
pub fn narrow<F: Float>(x: RangeInclusive<F>, a: RangeInclusive<F>, b: RangeInclusive<F>) -> Narrowing<F> {
    narrow_by(entry, x, a, b)
}

/// The same by the machine's floats.
pub fn narrow_fast<F: Float>(x: RangeInclusive<F>, a: RangeInclusive<F>, b: RangeInclusive<F>) -> Narrowing<F> {
    narrow_by(entry_fast, x, a, b)
}

fn narrow_by<F: Float>(
    entry: fn(u64, [u64; 6], &mut [u8]) -> u64,
    x: RangeInclusive<F>,
    a: RangeInclusive<F>,
    b: RangeInclusive<F>,
) -> Narrowing<F> {
    let mut result = [0u8; 48];
    let ends = [x.start(), x.end(), a.start(), a.end(), b.start(), b.end()].map(|end| end.pattern());
    let answer = entry(F::WIDTH, ends, &mut result);
    let end = |i: usize| F::float(u64::from_le_bytes(result[8 * i..8 * i + 8].try_into().expect("8 bytes")));
    match answer {
        0 => Narrowing::Ends { x: end(0)..=end(1), a: end(2)..=end(3), b: end(4)..=end(5) },
        11 => Narrowing::NoSolution,
        2 => Narrowing::NotFinite,
        3 => Narrowing::OutOfOrder,
        other => unreachable!("the width is known and there are 48 bytes: {other}"),
    }
}
