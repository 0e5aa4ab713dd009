//! Narrowing of three cells by one record, by trying every value of each cell that it names.

use crate::floats::{Place, Range, Width};
use crate::records::Record;

/// Whether values of the cells are a solution, by the hardware's addition.
fn solves<W: Width>(record: Record, values: [Place; 3]) -> bool {
    match record {
        Record::Sum(named) => {
            let [x, a, b] = named.map(|i| values[i]);
            W::sum(x, a) == b
        }
        Record::Diff(named) => {
            let [x, a, b] = named.map(|i| values[i]);
            W::sum(x, -a) == b
        }
        Record::Neg(named) => {
            let [x, y] = named.map(|i| values[i]);
            y == -x
        }
    }
}

/// The hull of the solutions; a cell that is not named keeps its range. None if there is no solution.
pub fn narrowed<W: Width>(record: Record, cells: [Range; 3]) -> Option<[Range; 3]> {
    let is_named = |i: usize| record.cells().contains(&i);
    let [first, second, third] = [0, 1, 2].map(|i| if is_named(i) { cells[i] } else { Range::point(cells[i].low) });
    let mut hull: Option<[Range; 3]> = None;
    for p in first.low..=first.high {
        for q in second.low..=second.high {
            for r in third.low..=third.high {
                if solves::<W>(record, [p, q, r]) {
                    let points = [p, q, r].map(Range::point);
                    hull = Some(hull.map_or(points, |hull| [0, 1, 2].map(|i| hull[i].join(points[i]))));
                }
            }
        }
    }
    hull.map(|hull| [0, 1, 2].map(|i| if is_named(i) { hull[i] } else { cells[i] }))
}
