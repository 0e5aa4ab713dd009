//! Any numbers for every parameter: each answer is the number of the first condition that holds, or the hardware's sum.

use crate::floats::{Binary32, Binary64};
use crate::hardware::{answer, sum};
use crate::words::Words;
use crate::{BEFORE, arguments, library};
use std::collections::BTreeMap;

/// The answer that is due: 1 for a width that is not known, before any other.
fn due(width: u64, [x, a]: [u64; 2]) -> (u64, [u64; 3]) {
    match width {
        32 => answer::<Binary32>(&sum::<Binary32>(x, a), BEFORE),
        64 => answer::<Binary64>(&sum::<Binary64>(x, a), BEFORE),
        _ => (1, BEFORE),
    }
}

/// Makes the calls and prints how many got each number; whether none differed and every number was due.
pub fn passed(calls: usize) -> bool {
    let mut words = Words(0xD1B5_4A32_D192_ED03);
    let mut numbers: BTreeMap<u64, usize> = BTreeMap::new();
    let mut differed = 0;
    for _ in 0..calls {
        let width = arguments::width(&mut words);
        let pair = [arguments::pattern(&mut words, width), arguments::pattern(&mut words, width)];
        let (due, got) = (due(width, pair), library(width, pair));
        *numbers.entry(due.0).or_default() += 1;
        if got != due {
            differed += 1;
            if differed == 1 {
                eprintln!("sums: garbage: width {width}, {pair:X?}: due {due:X?}, got {got:X?}");
            }
        }
    }
    println!("garbage: calls {calls}, by number {numbers:?}, differed {differed}");
    let met = numbers.keys().eq(&[0, 1, 2, 9]);
    if !met {
        eprintln!("sums: garbage: one of 0, 1, 2 and 9 was never due");
    }
    met && differed == 0
}
