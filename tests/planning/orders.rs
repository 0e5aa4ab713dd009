//! The same records in another order, from the same start: where both settle, their boxes are equal.

use crate::families::shuffle;
use crate::floats::Width;
use crate::nested::contains;
use crate::runs::{Ending, Run};
use crate::sheets::Sheet;
use crate::trial::{Premise, Trial};
use crate::words::Words;

/// The sheet with its records in any order.
fn shuffled(words: &mut Words, sheet: &Sheet) -> Sheet {
    let mut sheet = sheet.clone();
    shuffle(words, &mut sheet.records);
    sheet
}

/// The sheet with one of its records a second time, anywhere.
fn repeated(words: &mut Words, sheet: &Sheet) -> Sheet {
    let mut sheet = sheet.clone();
    let count = sheet.records.len() as u64;
    let record = sheet.records[words.below(count) as usize].clone();
    sheet.records.insert(words.below(count + 1) as usize, record);
    sheet
}

/// Tries two runs, each of whose starts lies inside the other under the same set of records; `premise` is that both settle.
fn compare<W: Width>(trial: &mut Trial, sheet: &Sheet, [first, second]: [&Run; 2], premise: Premise) {
    let both = first.ending == Ending::Settled && second.ending == Ending::Settled;
    let equal = !both || first.lines() == second.lines();
    trial.expect("orders", equal && contains(first, second) && contains(second, first), &[first, second]);
    let premises: &[Premise] = match both {
        true if first.pass != second.pass => &[premise, Premise::PassesDiffer],
        true => &[premise],
        false => &[],
    };
    trial.held::<W>(sheet, premises);
}

/// Tries another order, and a list with a record twice, with the highest limit and with the lowest at which the sheet ends.
pub fn test<W: Width>(trial: &mut Trial, sheet: &Sheet, runs: &[Run]) {
    let last = &runs[runs.len() - 1];
    let others = [
        (shuffled(&mut trial.words, sheet), Premise::OrdersSettle),
        (repeated(&mut trial.words, sheet), Premise::TwiceSettles),
    ];
    for (other, premise) in others {
        for first in runs.iter().filter(|run| run.limit == last.pass || run.limit == last.limit) {
            let second = trial.run::<W>(&other, first.limit);
            compare::<W>(trial, sheet, [first, &second], premise);
        }
    }
}
