//! A narrower start under the same records: where both settle, its answer lies inside the other.

use crate::floats::{Range, Width};
use crate::limits::MOST;
use crate::runs::{Ending, Run};
use crate::sheets::{Sheet, inside};
use crate::trial::{Premise, Trial};
use crate::words::Words;

/// A box inside a box: most cells as they are, some with an end moved by a few floats or to any place.
fn tightened(words: &mut Words, cells: &[Range]) -> Vec<Range> {
    let mut cell = |range: &Range| {
        let (p, q) = (words.between(range.low, range.high), words.between(range.low, range.high));
        let few = words.between(1, 4);
        match words.below(12) {
            0 => Range { low: p.min(q), high: p.max(q) },
            1 => Range { low: p, ..*range },
            2 => Range { high: p, ..*range },
            3 => Range { low: (range.low + few).min(range.high), ..*range },
            4 => Range { high: (range.high - few).max(range.low), ..*range },
            _ => *range,
        }
    };
    cells.iter().map(&mut cell).collect()
}

/// Starts inside that of a sheet: its cells tightened, twice; and the box that one of its runs lists, as it is and tightened.
fn starts(words: &mut Words, sheet: &Sheet, run: &Run) -> Vec<Vec<Range>> {
    let mut starts = vec![tightened(words, &sheet.cells), tightened(words, &sheet.cells)];
    if run.ending != Ending::None {
        starts.push(run.cells.clone());
        starts.push(tightened(words, &run.cells));
    }
    starts
}

/// Whether a run lists a box that contains the answer of another run; true if the other has not settled.
pub fn contains(run: &Run, other: &Run) -> bool {
    other.ending != Ending::Settled || run.ending != Ending::None && inside(&other.cells, &run.cells)
}

/// Tries two runs, the second from a start inside that of the first. The outer box contains every steady box within its start:
/// so the inner answer too where the outer run is stopped, and there is none where it fails. If the inner start has the outer
/// answer, the inner box contains it as well.
fn compare<W: Width>(trial: &mut Trial, sheet: &Sheet, outer: &Run, inner: &Run) {
    trial.expect("nested starts", contains(outer, inner), &[outer, inner]);
    let kept = outer.ending == Ending::Settled && inside(&outer.cells, &inner.start);
    trial.expect("kept answers", !kept || contains(inner, outer), &[outer, inner]);
    let premises: &[Premise] = match (outer.ending, inner.ending) {
        (Ending::None, _) => &[Premise::OuterFails],
        (Ending::Stopped, Ending::Settled) => &[Premise::OuterStopped],
        (Ending::Settled, Ending::Settled) if kept => &[Premise::BothSettle, Premise::Kept],
        (Ending::Settled, Ending::Settled) if inner.cells != outer.cells => &[Premise::BothSettle, Premise::Smaller],
        (Ending::Settled, Ending::Settled) => &[Premise::BothSettle],
        _ => &[],
    };
    trial.held::<W>(sheet, premises);
}

/// Tries starts inside that of a sheet, each with a low limit and the highest, beside the last of the sheet's runs and another.
pub fn test<W: Width>(trial: &mut Trial, sheet: &Sheet, runs: &[Run]) {
    let last = &runs[runs.len() - 1];
    let one = &runs[trial.words.below(runs.len() as u64 - 1) as usize];
    for start in starts(&mut trial.words, sheet, one) {
        let narrower = Sheet { cells: start, records: sheet.records.clone() };
        for limit in [trial.words.between(1, 5) as u32, MOST] {
            let inner = trial.run::<W>(&narrower, limit);
            compare::<W>(trial, sheet, one, &inner);
            compare::<W>(trial, sheet, last, &inner);
        }
    }
}
