//! The forward sum at both widths against the hardware's own addition, on pairs of each kind in both orders, and on garbage.
//!
//! Compared are the pattern, with the hardware's -0 as 0; the remainder with exact integers, and these with the hardware's TwoSum
//! where nothing in that overflows; the mark, 1 where something is left over and else 0; refusal 9 exactly where the hardware's sum
//! is infinite; refusals 1 and 2; and that a refusal leaves the words as they were. The sums that docs/ARITHMETIC.md works in
//! figures, and its focus map, are worked anew. Prints a line for each kind and width; status 1 if anything differed, if what a kind
//! is made for was not met, or if TwoSum told fewer remainders than there are pairs.

#[path = "../common/arguments.rs"]
mod arguments;
#[allow(dead_code)]
#[path = "../common/cases.rs"]
mod cases;
#[path = "../common/exports.rs"]
mod exports;
#[path = "../common/floats.rs"]
mod floats;
#[path = "../common/words.rs"]
mod words;

mod documented;
mod exact;
mod garbage;
mod hardware;
mod kinds;
mod tally;

use floats::{Binary32, Binary64};
use hardware::{Hardware, Sum};
use kinds::Kind;
use tally::Tally;
use words::Words;

const PAIRS: u64 = 1_000_000;
const GARBAGE: usize = 1_000_000;

/// What the words hold before each call.
pub const BEFORE: [u64; 3] = [0xA5A5_A5A5_A5A5_A5A5, 0x5A5A_5A5A_5A5A_5A5A, 0xC3C3_C3C3_C3C3_C3C3];

/// The library's answer: the number, and the words after the call.
pub fn library(width: u64, [x, a]: [u64; 2]) -> (u64, [u64; 3]) {
    let mut out = BEFORE;
    (exports::add(width, x, a, &mut out), out)
}

/// One pair in both orders.
fn compare<W: Hardware>(kind: &Kind, tally: &mut Tally, [x, a]: [u64; 2]) {
    let sum = hardware::sum::<W>(x, a);
    let due = hardware::answer::<W>(&sum, BEFORE);
    let got = [library(W::BITS, [x, a]), library(W::BITS, [a, x])];
    let agrees = got == [due; 2] && sum.as_ref().map_or(true, Sum::agrees);
    if !agrees && tally.differed == 0 {
        eprintln!("sums: width {}, {}: {x:X} and {a:X}: due {due:X?}, got {got:X?}; by place {sum:?}", W::BITS, kind.name);
    }
    tally.count::<W>(&sum, agrees);
}

/// A line for a kind; whether it passed.
fn passed<W: Hardware>(words: &mut Words, kind: &Kind) -> bool {
    let mut tally = Tally::default();
    for _ in 0..PAIRS {
        compare::<W>(kind, &mut tally, (kind.pair)(words));
    }
    println!("width {}, {}: {tally}", W::BITS, kind.name);
    let met = (kind.met)(&tally) && tally.by_hardware >= PAIRS;
    if !met {
        eprintln!("sums: width {}, {}: what it is made for was not met", W::BITS, kind.name);
    }
    met && tally.differed == 0
}

/// Whether all kinds passed.
fn width<W: Hardware>() -> bool {
    let mut words = Words(0x9E37_79B9_7F4A_7C15);
    kinds::all::<W>().iter().fold(true, |all, kind| passed::<W>(&mut words, kind) && all)
}

fn main() {
    let all = [width::<Binary32>(), width::<Binary64>(), garbage::passed(GARBAGE), documented::passed()];
    std::process::exit(if all == [true; 4] { 0 } else { 1 });
}
