//! Random garbage for every parameter of the C entries: each answer is the number of the first condition that holds, with the
//! narrowing in the first 48 bytes at 0 and the buffer as it was otherwise.

use crate::arguments;
use crate::ends;
use crate::floats::{Binary32, Binary64, Width};
use crate::library;
use crate::pieces;
use crate::words::Words;

/// The number that is due at a width: 2, 3, 11, 13 or 0.
fn number<W: Width>(ends: [u64; 6], room: usize) -> u64 {
    match ends::ranges::<W>(ends) {
        Err(number) => number,
        Ok([x, a, b]) if !pieces::solvable::<W>(x, a, b) => 11,
        Ok(_) if room < 48 => 13,
        Ok(_) => 0,
    }
}

/// Whether the buffer holds the narrowing of the ends.
fn narrows<W: Width>(ends: [u64; 6], after: &[u8]) -> bool {
    let (given, got) = (ends::ranges::<W>(ends), library::narrowed_in::<W>(after));
    given.is_ok_and(|ranges| got.is_ok_and(|n| pieces::is_narrowing::<W>(ranges, Some(n))))
}

/// What is wrong with an answer, if anything.
fn fault(width: u64, ends: [u64; 6], before: &[u8], after: &[u8], answer: u64) -> Option<&'static str> {
    let (due, narrows): (u64, fn([u64; 6], &[u8]) -> bool) = match width {
        32 => (number::<Binary32>(ends, before.len()), narrows::<Binary32>),
        64 => (number::<Binary64>(ends, before.len()), narrows::<Binary64>),
        _ => (1, |_, _| false),
    };
    if answer != due {
        return Some("another number was due");
    }
    if answer != 0 {
        return (after != before).then_some("a refused call changed the buffer");
    }
    if after[48..] != before[48..] {
        return Some("bytes beyond the 48 changed");
    }
    (!narrows(ends, after)).then_some("the buffer does not hold the narrowing")
}

/// Makes the calls and answers how many; ends the run at the first fault.
pub fn run(calls: usize) -> usize {
    let mut words = Words(0xD1B5_4A32_D192_ED03);
    for _ in 0..calls {
        let width = arguments::width(&mut words);
        let mut ends: [u64; 6] = std::array::from_fn(|_| arguments::pattern(&mut words, width));
        if words.below(3) != 0 {
            ends::order(width, &mut ends);
        }
        let before: Vec<u8> = (0..words.pick(&[48, 49, 64, 47, 0, 7, 100])).map(|_| words.next() as u8).collect();
        let mut after = before.clone();
        let answer = library::entry(width, ends, &mut after);
        if let Some(what) = fault(width, ends, &before, &after, answer) {
            eprintln!("differential: {what}: width {width}, {ends:X?}, {} bytes, answer {answer}", before.len());
            std::process::exit(1);
        }
    }
    calls
}
