//! Random sheets: some that take a pass for each step, some around a solution, some that join wide cells.

use crate::cases::{PLACEMENTS, about_sum, around, finite, middles, opposite_binades, wide};
use crate::floats::{Place, Range, Width};
use crate::sheets::{KINDS, Sheet};
use crate::words::Words;

/// Puts a list in any order.
pub fn shuffle<T>(words: &mut Words, list: &mut [T]) {
    for i in 1..list.len() {
        list.swap(i, words.below(i as u64 + 1) as usize);
    }
}

fn point(place: Place) -> Range {
    Range { low: place, high: place }
}

/// A power of two.
fn power<W: Width>(words: &mut Words) -> Place {
    words.between(1, W::LARGEST >> W::FRACTION) << W::FRACTION
}

/// Adds the mirror of a cell, and gives its number.
fn mirror(sheet: &mut Sheet, cell: usize) -> usize {
    let mirrored = sheet.cell(sheet.cells[cell].mirror());
    sheet.record("neg", &[cell, mirrored]);
    mirrored
}

/// Says in one of four ways that cells x and a have the sum b.
fn link(words: &mut Words, sheet: &mut Sheet, [x, a, b]: [usize; 3]) {
    match words.below(4) {
        0 => sheet.record("sum", &[x, a, b]),
        1 => sheet.record("sum", &[a, x, b]),
        2 => {
            let a = mirror(sheet, a);
            sheet.record("diff", &[x, a, b]);
        }
        _ => {
            let [x, b] = [x, b].map(|cell| mirror(sheet, cell));
            sheet.record("diff", &[x, a, b]);
        }
    }
}

/// Cell y is to be a step above cell x, and equal to it: a pass counts one step. From a power of two on, where floats are twice
/// as far apart, the step is lost in rounding, and a sheet that gets there may settle. Others fail.
fn counting<W: Width>(words: &mut Words) -> Sheet {
    let power = power::<W>(words);
    let middle = words.pick(&[0, power, power]);
    let low = (middle - words.between(0, 12)).max(0);
    let range = Range { low, high: (middle + words.between(-6, 12)).max(low) };
    let mut sheet = Sheet::default();
    let [x, y] = [range; 2].map(|range| sheet.cell(range));
    let [step, zero] = [W::sum(low + 1, -low), 0].map(|place| sheet.cell(point(place)));
    link(words, &mut sheet, [x, step, y]);
    link(words, &mut sheet, [y, zero, x]);
    sheet
}

/// A cell above zero is to be twice itself: its ends come together, and the sheet fails.
fn doubling<W: Width>(words: &mut Words) -> Sheet {
    let low = words.between(1, W::LARGEST);
    let high = low.saturating_add(words.between(0, 6) << W::FRACTION).min(W::LARGEST);
    let mut sheet = Sheet::default();
    let [x, same, twice] = [Range { low, high }; 3].map(|range| sheet.cell(range));
    let zero = sheet.cell(point(0));
    link(words, &mut sheet, [x, zero, same]);
    match words.below(3) {
        0 => sheet.record("sum", &[x, x, twice]),
        1 => sheet.record("diff", &[twice, x, x]),
        _ => link(words, &mut sheet, [x, same, twice]),
    }
    link(words, &mut sheet, [twice, zero, x]);
    sheet
}

/// An interval that has the place: it alone, some floats about it, a wide one, or all floats.
fn having<W: Width>(words: &mut Words, place: Place) -> Range {
    let wide = wide::<W>(words);
    match words.below(4) {
        0 => point(place),
        1 => around::<W>(words, place, 12),
        2 => Range { low: wide.low.min(place), high: wide.high.max(place) },
        _ => finite::<W>(),
    }
}

/// The value that a record of the kind gives to its last cell; the largest float if it is too large.
fn made<W: Width>(kind: &str, x: Place, a: Place) -> Place {
    let value = match kind {
        "sum" => W::sum(x, a),
        "diff" => W::sum(x, -a),
        _ => -x,
    };
    value.clamp(-W::LARGEST, W::LARGEST)
}

/// Two cells, and others that a record each makes of earlier ones, in a row or not; and values for the cells, which fit the
/// records unless one was too large.
fn with_values<W: Width>(words: &mut Words) -> (Sheet, Vec<Place>) {
    let placement = words.pick(&PLACEMENTS);
    let (p, q) = middles::<W>(words, placement);
    let mut values = vec![p.clamp(-W::LARGEST, W::LARGEST), q.clamp(-W::LARGEST, W::LARGEST)];
    let mut sheet = Sheet::default();
    for place in &values {
        sheet.cell(around::<W>(words, *place, 4));
    }
    let row = words.coin();
    for b in 2..words.between(4, 9) as usize {
        let x = if row { b - 1 } else { words.below(b as u64) as usize };
        let a = words.below(b as u64) as usize;
        let kind = words.pick(&KINDS);
        values.push(made::<W>(kind, values[x], values[a]));
        sheet.cell(if row { finite::<W>() } else { having::<W>(words, values[b]) });
        match kind {
            "neg" => sheet.record(kind, &[x, b]),
            _ => sheet.record(kind, &[x, a, b]),
        }
    }
    (sheet, values)
}

/// A sheet around a solution.
fn solved<W: Width>(words: &mut Words) -> Sheet {
    with_values::<W>(words).0
}

/// The same, but for a cell that may miss the solution.
fn missed<W: Width>(words: &mut Words) -> Sheet {
    let (mut sheet, values) = with_values::<W>(words);
    let cell = words.below(values.len() as u64) as usize;
    let middle = values[cell] + words.between(-12, 12);
    sheet.cells[cell] = around::<W>(words, middle, 12);
    sheet
}

/// Cells that are a few steps from a power of two, from its mirror or from zero, and records that are true but for such steps.
fn near<W: Width>(words: &mut Words) -> Sheet {
    let power = power::<W>(words);
    let mut signs = vec![1, 0, 1];
    signs.extend((0..words.between(1, 4)).map(|_| words.between(-1, 1)));
    let mut sheet = Sheet::default();
    for sign in &signs {
        let middle = power + words.between(-5, 5);
        let about = around::<W>(words, middle, 30);
        sheet.cell(match sign {
            1 => about,
            0 => Range { low: W::sum(about.low, -power), high: W::sum(about.high, -power) },
            _ => about.mirror(),
        });
    }
    sheet.record("sum", &[0, 1, 2]);
    let mut cells: Vec<usize> = (0..signs.len()).collect();
    for _ in 0..12 {
        shuffle(words, &mut cells);
        let [x, a, b] = [0, 1, 2].map(|i| signs[cells[i]]);
        match words.pick(&KINDS) {
            "sum" if x + a == b => sheet.record("sum", &cells[..3]),
            "diff" if x - a == b => sheet.record("diff", &cells[..3]),
            "neg" if x + a == 0 => sheet.record("neg", &cells[..2]),
            _ => {}
        }
    }
    sheet
}

/// A sum of three cells, wide, of opposite signs or anywhere, and any records that join them with wide cells, or a cell with itself.
fn joined<W: Width>(words: &mut Words) -> Sheet {
    let placement = words.pick(&PLACEMENTS);
    let (p, q) = middles::<W>(words, placement);
    let (x, a) = match words.below(3) {
        0 => opposite_binades::<W>(words),
        1 => (wide::<W>(words), wide::<W>(words)),
        _ => (around::<W>(words, p, 1000), around::<W>(words, q, 12)),
    };
    let b = about_sum::<W>(words, x, a, 100);
    let mut sheet = Sheet { cells: vec![x, a, b], records: vec![] };
    sheet.cells.extend((0..3).map(|_| wide::<W>(words)));
    sheet.record("sum", &[0, 1, 2]);
    let count = sheet.cells.len() as u64;
    for _ in 0..words.between(1, 3) {
        let cells = [0; 3].map(|_| words.below(count) as usize);
        let kind = words.pick(&KINDS);
        sheet.record(kind, &cells[..if kind == "neg" { 2 } else { 3 }]);
    }
    sheet
}

/// A sheet of the n-th family, which come in turn. Its records stand as they were made; or backwards, so that of a row each pass
/// reaches one cell more; or in any order.
pub fn sheet<W: Width>(words: &mut Words, n: usize) -> Sheet {
    let families = [counting::<W>, doubling::<W>, solved::<W>, missed::<W>, near::<W>, joined::<W>];
    let mut sheet = families[n % families.len()](words);
    match words.below(3) {
        0 => sheet.records.reverse(),
        1 => shuffle(words, &mut sheet.records),
        _ => {}
    }
    sheet
}
