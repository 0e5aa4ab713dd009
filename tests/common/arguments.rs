//! Widths and patterns as any caller may hand them over: most of them good, some not.

use crate::words::Words;

const WIDTHS: [u64; 13] = [32, 64, 32, 64, 32, 64, 0, 16, 33, 128, (1 << 32) + 32, (1 << 32) + 64, u64::MAX];

pub fn width(words: &mut Words) -> u64 {
    if words.below(50) == 0 { words.next() } else { words.pick(&WIDTHS) }
}

/// Mostly a finite pattern of the width; else one about an infinity or about zero, or any word.
pub fn pattern(words: &mut Words, width: u64) -> u64 {
    let sign = 1u64 << (if width == 32 { 31 } else { 63 });
    let infinity = if width == 32 { 0x7F80_0000 } else { 0x7FF0_0000_0000_0000 };
    let some = match words.below(12) {
        0 => words.next(),
        1 => infinity + words.below(2),
        2 => infinity - 1,
        3 => words.below(3),
        _ => words.next() % infinity,
    };
    if words.coin() { some ^ sign } else { some }
}
