//! Records that name a cell more than once, by the library's export for tests, at both widths: for each coincidence, short ranges
//! against brute force over the hardware's addition and long ones against the reference; and garbage for every parameter.
//!
//! Compared are the number, 0 where no end moves, 12 where one does and 11 where there is no solution; and the six words: each end
//! in its one pattern, also of the cell that is not named, or all as they were. The reference that the listing test rests on is held
//! to brute force too. Prints a line for each coincidence and width; status 1 if anything differed or a situation was never met.

#[path = "../common/arguments.rs"]
mod arguments;
#[allow(dead_code)]
#[path = "../common/cases.rs"]
mod cases;
#[allow(dead_code)]
#[path = "../common/ends.rs"]
mod ends;
#[path = "../common/floats.rs"]
mod floats;
#[path = "../common/narrowing.rs"]
mod narrowing;
#[path = "../common/ranges.rs"]
mod ranges;
#[path = "../common/records.rs"]
mod records;
#[path = "../common/repeated.rs"]
mod repeated;
#[path = "../common/words.rs"]
mod words;

mod brute;
mod coincidences;
mod drawn;
mod garbage;
mod library;
mod situations;
mod tally;

use coincidences::{COINCIDENCES, Coincidence};
use drawn::Case;
use floats::{Binary32, Binary64, Range, Width};
use records::{Record, narrow_record};
use tally::Tally;
use words::Words;

const SHORT: usize = 100_000;
const LONG: usize = 6_000;
const GARBAGE: usize = 400_000;

/// The cells narrowed by the reference.
fn reference<W: Width>(record: Record, mut cells: [Range; 3]) -> Option<[Range; 3]> {
    narrow_record::<W>(&mut cells, record).map(|()| cells)
}

/// Compares the library's answer with the cells narrowed in one or more other ways, and counts the case. The first that differs is
/// shown.
fn compare<W: Width, const N: usize>(tally: &mut Tally, words: &mut Words, case: &Case, narrowed: [Option<[Range; 3]>; N]) {
    let given = drawn::patterns::<W>(words, case.cells);
    let due = narrowed.map(|cells| library::due::<W>(given, case.cells, cells));
    let got = library::answer::<W>(case.record, given);
    let agrees = due == [got; N];
    if !agrees && tally.differed == 0 {
        eprintln!("repeated: width {}, {:?} over {given:X?}: due {due:X?}, got {got:X?}", W::BITS, case.record);
    }
    tally.count(case, narrowed[0], agrees);
}

/// A line for the cases of a coincidence; whether they passed.
fn passed<W: Width>(coincidence: &Coincidence, ranges: &str, tally: &Tally) -> bool {
    println!("width {}, {}, {ranges}: {tally}", W::BITS, coincidence.name);
    if !tally.met() {
        eprintln!("repeated: width {}, {}, {ranges}: an ending or a situation was never met", W::BITS, coincidence.name);
    }
    tally.met() && tally.differed == 0
}

fn short<W: Width>(words: &mut Words, coincidence: &Coincidence) -> bool {
    let mut tally = Tally::new(situations::of_short::<W>(coincidence.relation));
    for _ in 0..SHORT {
        let case = drawn::short_case::<W>(words, coincidence);
        let narrowed = [brute::narrowed::<W>, reference::<W>].map(|way| way(case.record, case.cells));
        compare::<W, 2>(&mut tally, words, &case, narrowed);
    }
    passed::<W>(coincidence, "short ranges", &tally)
}

/// Each case with a solution comes a second time, with its cells narrowed: no end moves any more.
fn long<W: Width>(words: &mut Words, coincidence: &Coincidence) -> bool {
    let mut tally = Tally::new(situations::of_long(coincidence.relation));
    for _ in 0..LONG {
        let mut case = drawn::long_case::<W>(words, coincidence);
        let narrowed = reference::<W>(case.record, case.cells);
        compare::<W, 1>(&mut tally, words, &case, [narrowed]);
        if let Some(cells) = narrowed {
            case.cells = cells;
            compare::<W, 1>(&mut tally, words, &case, [narrowed]);
        }
    }
    passed::<W>(coincidence, "long ranges", &tally)
}

/// Whether all coincidences passed.
fn width<W: Width>() -> bool {
    let mut words = Words(0x9E37_79B9_7F4A_7C15);
    COINCIDENCES.iter().fold(true, |all, one| short::<W>(&mut words, one) & long::<W>(&mut words, one) & all)
}

fn main() {
    let all = [width::<Binary32>(), width::<Binary64>(), garbage::passed(GARBAGE)];
    std::process::exit(if all == [true; 3] { 0 } else { 1 });
}
