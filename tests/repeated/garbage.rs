//! Any numbers for every parameter: each answer is the number of the first condition that holds, or the reference's narrowing.

use crate::floats::{Binary32, Binary64, Range, Width};
use crate::library::{self, Answer};
use crate::records::Record;
use crate::words::Words;
use crate::{arguments, ends, reference};
use std::collections::BTreeMap;

/// The cells, or the number: 2 for the low and then the high end, 3 for their order, one cell after the other.
fn cells<W: Width>(ends: [u64; 6]) -> Result<[Range; 3], u64> {
    let mut cells = [Range::point(0); 3];
    for (cell, pair) in cells.iter_mut().zip(ends.chunks(2)) {
        *cell = Range { low: W::place(pair[0]).ok_or(2u64)?, high: W::place(pair[1]).ok_or(2u64)? };
        if cell.low > cell.high {
            return Err(3);
        }
    }
    Ok(cells)
}

/// The record, or the number: 4 for its kind or the third number of a neg, then 5 for a cell that is not there.
fn record(kind: u64, numbers: [u64; 3]) -> Result<Record, u64> {
    let named = numbers.map(|number| number as usize);
    let record = match (kind, named) {
        (0, _) => Record::Sum(named),
        (1, _) => Record::Diff(named),
        (2, [x, y, 0]) => Record::Neg([x, y]),
        _ => return Err(4),
    };
    if record.cells().iter().any(|i| *i > 2) { Err(5) } else { Ok(record) }
}

fn due_at<W: Width>(kind: u64, numbers: [u64; 3], ends: [u64; 6]) -> Result<Answer, u64> {
    let cells = cells::<W>(ends)?;
    let record = record(kind, numbers)?;
    Ok(library::due::<W>(ends, cells, reference::<W>(record, cells)))
}

/// The answer that is due: 1 for a width that is not known, before any other.
fn due(width: u64, kind: u64, numbers: [u64; 3], ends: [u64; 6]) -> Answer {
    let due = match width {
        32 => due_at::<Binary32>(kind, numbers, ends),
        64 => due_at::<Binary64>(kind, numbers, ends),
        _ => Err(1),
    };
    due.unwrap_or_else(|number| (number, ends))
}

const KINDS: [u64; 10] = [0, 1, 2, 0, 1, 2, 2, 3, 1 << 32, u64::MAX];
const NUMBERS: [u64; 16] = [0, 1, 2, 0, 1, 2, 0, 1, 2, 0, 0, 0, 3, 64, 1 << 32, u64::MAX];

/// Six ends, often in order; a cell is often zero alone.
fn any_ends(words: &mut Words, width: u64) -> [u64; 6] {
    let mut ends = std::array::from_fn(|_| arguments::pattern(words, width));
    if words.below(5) != 0 {
        ends::order(width, &mut ends);
    }
    for pair in ends.chunks_mut(2) {
        if words.below(6) == 0 {
            pair.fill(0);
        }
    }
    ends
}

/// Makes the calls and prints how many got each number; whether none differed and every number was due.
pub fn passed(calls: usize) -> bool {
    let mut words = Words(0xD1B5_4A32_D192_ED03);
    let mut numbers_due: BTreeMap<u64, usize> = BTreeMap::new();
    let mut differed = 0;
    for _ in 0..calls {
        let (width, kind) = (arguments::width(&mut words), words.pick(&KINDS));
        let numbers = [0; 3].map(|_| words.pick(&NUMBERS));
        let ends = any_ends(&mut words, width);
        let due = due(width, kind, numbers, ends);
        let mut after = ends;
        let got = (library::narrow_record(width, kind, numbers, &mut after), after);
        *numbers_due.entry(due.0).or_default() += 1;
        if got != due {
            differed += 1;
            if differed == 1 {
                eprintln!("repeated: garbage: width {width}, kind {kind}, {numbers:X?}, {ends:X?}: due {due:X?}, got {got:X?}");
            }
        }
    }
    println!("garbage: calls {calls}, by number {numbers_due:?}, differed {differed}");
    let met = numbers_due.keys().eq(&[0, 1, 2, 3, 4, 5, 11, 12]);
    if !met {
        eprintln!("repeated: garbage: one of 0, 1, 2, 3, 4, 5, 11 and 12 was never due");
    }
    met && differed == 0
}
