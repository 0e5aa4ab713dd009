//! What the program `narrow` keeps for those who start a sheet narrower or let it run longer, on random sheets of both widths.
//! Its listings are held to each other, by these sentences:
//!
//! - nested starts: the answer from an inner start lies inside the answer from the outer one, or inside its box if that is
//!   stopped; there is no answer if the outer one fails
//! - kept answers: an inner start that has the outer answer in it leads to the same answer
//! - a higher limit: a settled answer, or a failure at its pass and record, stays as it was
//! - stopped sheets: with a higher limit the box never grows, or the sheet fails
//! - passes: a stopped sheet has made as many as its limit; each moves an end, but for the last of a sheet that settles
//! - orders: answers are equal in whatever order the records come, and if one comes twice
//!
//! Usage: planning PROGRAM. Prints how often each premise held, by width, by kind of record and where a record names a cell twice;
//! status 1 if one never did, or if a sentence was broken.

#[path = "../common/cases.rs"]
mod cases;
#[path = "../common/floats.rs"]
mod floats;
#[path = "../common/program.rs"]
mod program;
#[path = "../common/words.rs"]
mod words;

mod families;
mod limits;
mod nested;
mod orders;
mod runs;
mod sheets;
mod trial;

use floats::{Binary32, Binary64, Width};
use trial::Trial;
use words::Words;

/// How many sheets of each width are tried.
const SHEETS: usize = 150;

fn width<W: Width>(trial: &mut Trial) {
    for n in 0..SHEETS {
        let sheet = families::sheet::<W>(&mut trial.words, n);
        let runs = limits::test::<W>(trial, &sheet);
        nested::test::<W>(trial, &sheet, &runs);
        orders::test::<W>(trial, &sheet, &runs);
    }
}

fn main() {
    let program = std::env::args().nth(1).expect("usage: planning PROGRAM");
    let mut trial = Trial::new(program, Words(0x9E37_79B9_7F4A_7C15));
    width::<Binary32>(&mut trial);
    width::<Binary64>(&mut trial);
    std::process::exit(if trial.passed() { 0 } else { 1 });
}
