//! The library's answer for three cells and one record, and the answer that is due for cells narrowed in another way: a number, and
//! the six words that held the ends.

use crate::ends;
use crate::floats::{Range, Width};
use crate::records::Record;

unsafe extern "C" {
    fn test_narrow_record(width: u64, kind: u64, x: u64, a: u64, b: u64, ends: *mut [u64; 6]) -> u64;
}

/// A sheet of three cells, given by their ends, and of one record, given by its kind and numbers, after one pass: 0 settled or 12
/// stopped, with the cells in `ends`; 11 or the refusal number, with `ends` as they were.
pub fn narrow_record(width: u64, kind: u64, [x, a, b]: [u64; 3], ends: &mut [u64; 6]) -> u64 {
    // The pointer is a reference's.
    unsafe { test_narrow_record(width, kind, x, a, b, ends) }
}

pub type Answer = (u64, [u64; 6]);

/// The kind of a record and its three numbers.
fn numbers(record: Record) -> (u64, [usize; 3]) {
    match record {
        Record::Sum(named) => (0, named),
        Record::Diff(named) => (1, named),
        Record::Neg([x, y]) => (2, [x, y, 0]),
    }
}

pub fn answer<W: Width>(record: Record, mut words: [u64; 6]) -> Answer {
    let (kind, named) = numbers(record);
    (narrow_record(W::BITS, kind, named.map(|i| i as u64), &mut words), words)
}

/// 11 with the words as they were; or 0 if no end has moved, else 12, with each end in its one pattern.
pub fn due<W: Width>(words: [u64; 6], cells: [Range; 3], narrowed: Option<[Range; 3]>) -> Answer {
    match narrowed {
        None => (11, words),
        Some(after) => (if after == cells { 0 } else { 12 }, ends::patterns::<W>(after)),
    }
}
