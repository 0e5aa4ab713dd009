//! A higher limit, from the same start: a settled answer or a failure stays as it was; the box of a stopped sheet never grows, or
//! the sheet fails.

use crate::floats::Width;
use crate::runs::{Ending, Run};
use crate::sheets::{Sheet, inside};
use crate::trial::{Premise, Trial};
use crate::words::Words;

/// The highest limit that a sheet may have.
pub const MOST: u32 = 65_535;

/// Up to so many passes, every limit is tried.
const LONG: u32 = 256;

/// Lower limits for a sheet that ends in this pass: every one up to it, but of a very long run some, and a few above it.
fn limits(words: &mut Words, last: u32) -> Vec<u32> {
    let mut between = |low: u32, high: u32| words.between(low.into(), high.into()) as u32;
    let some = [between(1, last), last - 1, last, last + 1, last + 2, between(last, last + 40), between(last, MOST)];
    let mut limits: Vec<u32> = (1..=last.min(LONG)).chain(some).filter(|limit| (1..MOST).contains(limit)).collect();
    limits.sort();
    limits.dedup();
    limits
}

/// Whether a stopped sheet goes on by passes that move an end each, but for the last one of a sheet that settles.
fn goes_on(low: &Run, high: &Run) -> bool {
    let same = high.cells == low.cells;
    match high.ending {
        Ending::Settled => low.pass < high.pass && same == (low.pass + 1 == high.pass),
        Ending::Stopped => !same,
        Ending::None => low.pass < high.pass,
    }
}

/// Tries two runs from the same start, the second with the higher limit.
fn compare<W: Width>(trial: &mut Trial, sheet: &Sheet, low: &Run, high: &Run) {
    if low.ending == Ending::Stopped {
        let grows = high.ending != Ending::None && !inside(&high.cells, &low.cells);
        trial.expect("stopped sheets", !grows, &[low, high]);
        trial.expect("passes", goes_on(low, high), &[low, high]);
    } else {
        trial.expect("a higher limit", high.listing == low.listing, &[low, high]);
    }
    let premises: &[Premise] = match low.ending {
        Ending::Settled if low.pass > 2 => &[Premise::Settled, Premise::SettledLate],
        Ending::Settled => &[Premise::Settled],
        Ending::None if low.pass == 1 => &[Premise::FailedFirst],
        Ending::None => &[Premise::FailedLate],
        Ending::Stopped if high.ending == Ending::None => &[Premise::Stopped, Premise::Fails],
        Ending::Stopped if high.cells != low.cells => &[Premise::Stopped, Premise::Shrinks],
        Ending::Stopped => &[Premise::Stopped],
    };
    trial.held::<W>(sheet, premises);
}

/// Tries every two of the limits chosen for a sheet; gives the runs by growing limits, up to the highest.
pub fn test<W: Width>(trial: &mut Trial, sheet: &Sheet) -> Vec<Run> {
    let last = trial.run::<W>(sheet, MOST);
    let limits = limits(&mut trial.words, last.pass);
    let mut runs: Vec<Run> = limits.into_iter().map(|limit| trial.run::<W>(sheet, limit)).collect();
    runs.push(last);
    for (i, low) in runs.iter().enumerate() {
        for high in &runs[i + 1..] {
            compare::<W>(trial, sheet, low, high);
        }
    }
    runs
}
