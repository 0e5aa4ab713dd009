//! The C entry's work without proofs: the same refusals and answers, by galloping search over the hardware's addition.

use crate::ends;
use crate::floats::{Binary32, Binary64, Width};
use crate::narrowing::narrow;

fn narrow_at<W: Width>(ends: [u64; 6], result: &mut [u8]) -> u64 {
    let [x, a, b] = match ends::ranges::<W>(ends) {
        Ok(ranges) => ranges,
        Err(number) => return number,
    };
    let Some(n) = narrow::<W>(x, a, b) else { return 11 };
    if result.len() < 48 {
        return 13;
    }
    for (bytes, pattern) in result.chunks_exact_mut(8).zip(ends::patterns::<W>([n.x, n.a, n.b])) {
        bytes.copy_from_slice(&pattern.to_le_bytes());
    }
    0
}

pub fn call(width: u64, ends: [u64; 6], result: &mut [u8]) -> u64 {
    match width {
        32 => narrow_at::<Binary32>(ends, result),
        64 => narrow_at::<Binary64>(ends, result),
        _ => 1,
    }
}
