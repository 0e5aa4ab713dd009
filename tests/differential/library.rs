//! The C entries, which answer alike, and their answers as ranges by place.

use crate::ends;
use crate::floats::{Range, Width};
use crate::narrowing::Narrowed;
use crate::tazsmibor;

/// Both entries on the same bytes; the run ends where they differ.
pub fn entry(width: u64, ends: [u64; 6], result: &mut [u8]) -> u64 {
    let mut bytes = result.to_vec();
    let answer = tazsmibor::entry(width, ends, result);
    let fast = tazsmibor::entry_fast(width, ends, &mut bytes);
    if (answer, &*result) != (fast, &bytes) {
        eprintln!("differential: width {width}, {ends:X?}: the fast entry answers {fast} {bytes:02X?}, the other {answer} {result:02X?}");
        std::process::exit(1);
    }
    answer
}

/// The narrowed ranges in the first 48 bytes: six ends, 8 bytes each, low byte first. An end that is not finite, out of order or
/// in another than its one pattern is a failure.
pub fn narrowed_in<W: Width>(result: &[u8]) -> Result<Narrowed, String> {
    let written = std::array::from_fn(|i| u64::from_le_bytes(result[8 * i..8 * i + 8].try_into().unwrap()));
    match ends::ranges::<W>(written) {
        Ok([x, a, b]) if ends::patterns::<W>([x, a, b]) == written => Ok(Narrowed { x, a, b }),
        _ => Err(format!("ends that are none: {written:X?}")),
    }
}

/// The narrowing of three ranges; none for refusal 11. Any other answer, or a changed byte that should be kept, is a failure.
pub fn narrow<W: Width>(x: Range, a: Range, b: Range) -> Result<Option<Narrowed>, String> {
    let mut result = [0xA5u8; 56];
    match entry(W::BITS, ends::patterns::<W>([x, a, b]), &mut result) {
        0 if result[48..] == [0xA5; 8] => narrowed_in::<W>(&result).map(Some),
        11 if result == [0xA5; 56] => Ok(None),
        other => Err(format!("answer {other}, buffer {result:02X?}")),
    }
}
