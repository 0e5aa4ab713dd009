//! A pass over a sheet of 64 cells and 128 records by the program `narrow`, beside the reference in this process: of sums, also
//! beside its 128 narrowings through the library's fast C entry, whose code the program has, and beside an earlier build; of
//! diffs and of negs, also beside the pass of sums; of sums that name a cell twice, beside the pass of sums of three cells.
//!
//! A part of each sheet counts upward: each pass moves ends by a few floats, so a run makes all the passes that its limit
//! allows. The time of a run of one pass is taken off, and with it the start of the program and the reading of the text.

use crate::records::Record;
use crate::{best, report, round, sheet, tazsmibor};
use std::io::Write;
use std::process::{Command, Stdio};
use std::time::Instant;

const PASSES: usize = 1_000;
const ROUNDS: usize = 100;
const SIGN: u64 = 1 << 63;

pub struct Sheet {
    pub cells: Vec<[u64; 2]>,
    pub records: Vec<Record>,
}

fn span(low: f64, high: f64) -> [u64; 2] {
    [low.to_bits(), high.to_bits()]
}

fn around(middle: f64) -> [u64; 2] {
    [middle.to_bits() - 4, middle.to_bits() + 4]
}

fn power(k: i32) -> f64 {
    2f64.powi(k)
}

/// Four groups of 16 cells: a ring of 14 from 0 on, with the smallest float and zero; wide ones, from minus a power of two to
/// a power of two; cell k a few floats around k + 1; and 7 positive binades, 7 negative ones, and two a few floats around 1.
fn cells() -> Vec<[u64; 2]> {
    let mut cells = vec![span(0.0, 1.0); 14];
    cells.extend([[1, 1], [0, 0]]);
    cells.extend((0..16).map(|k| span(-power(60 * k - 500), power(400 - 60 * k))));
    cells.extend((0..16).map(|k| around((k + 1) as f64)));
    cells.extend([span(power(40), power(41)); 7]);
    cells.extend([span(-power(41), -power(40)); 7]);
    cells.extend([around(1.0); 2]);
    cells
}

/// One sum of each group: around the ring, where the first step adds the smallest float and the others zero; of wide cells;
/// of k + 1 and l + 1; and a cancellation.
fn sums_of_round(i: usize) -> [[usize; 3]; 4] {
    let step = if i % 14 == 0 { 14 } else { 15 };
    let (k, l) = (i % 4, 4 + i / 4);
    [
        [i % 14, step, (i + 1) % 14],
        [16 + i % 16, 16 + (i + 1) % 16, 16 + (i + 2 + i / 16) % 16],
        [32 + k, 32 + l, 33 + k + l],
        [48 + i % 7, 55 + (i + i / 7) % 7, 62 + i % 2],
    ]
}

/// The same as diffs: around the ring and of a cancellation, where the cell to be taken off is mirrored; of wide cells as
/// they are; and k + l + 2 less l + 1.
fn diffs_of_round(i: usize) -> [[usize; 3]; 4] {
    let [ring, wide, [k, l, sum], cancellation] = sums_of_round(i);
    [ring, wide, [sum, l, k], cancellation]
}

impl Sheet {
    fn sums(count: usize) -> Sheet {
        Sheet { cells: cells(), records: (0..32).flat_map(sums_of_round).take(count).map(Record::Sum).collect() }
    }

    fn diffs() -> Sheet {
        let mut cells = cells();
        for i in (14..15).chain(55..62) {
            let [low, high] = cells[i];
            cells[i] = [high ^ SIGN, low ^ SIGN];
        }
        Sheet { cells, records: (0..32).flat_map(diffs_of_round).map(Record::Diff).collect() }
    }

    /// Negs alone settle soon, so one sum counts upward: cell 2 is the float after cell 0. From there 62 negs lead back to
    /// cell 0 and move in every pass; the other 65 are the same once more and find nothing to move.
    fn negs() -> Sheet {
        let one = 1f64.to_bits();
        let cell = |i: usize| if i % 2 == 0 { [0, one] } else { [one ^ SIGN, 0] };
        let mut cells: Vec<[u64; 2]> = (0..64).map(cell).collect();
        cells[1] = [1, 1];
        let mut records = vec![Record::Sum([0, 1, 2])];
        records.extend((2..64).cycle().take(127).map(|i| Record::Neg([i, (i + 1) % 64])));
        Sheet { cells, records }
    }

    /// x + x = b. Cell 2 is the float after cell 0, and both have the double cell 3, so a pass counts upward; each further cell is
    /// the double of the one before. These 62 doublings move in every pass; the other 65 are the same once more and find nothing
    /// to move.
    fn doublings() -> Sheet {
        let mut cells = vec![span(0.0, 1.0); 64];
        cells[1] = [1, 1];
        let doublings = [[2, 2, 3], [0, 0, 3]].into_iter().chain((3..63).map(|i| [i, i, i + 1]));
        let records = [[0, 1, 2]].into_iter().chain(doublings.cycle().take(127)).map(Record::Sum).collect();
        Sheet { cells, records }
    }

    /// x + a = x. Two sums count upward; the others are over 30 pairs of cells, x wide, a few floats around k + 1 or a binade, and
    /// a from the least given. They move in the first pass alone.
    fn at_rest(least: f64) -> Sheet {
        let x = |k: i32| match k % 3 {
            0 => span(-power(3 * k), power(2 * k + 40)),
            1 => around((k + 1) as f64),
            _ => span(power(k), power(k + 1)),
        };
        let mut cells = vec![span(0.0, 1.0), [1, 1], span(0.0, 1.0), [0, 0]];
        cells.extend((0..30).flat_map(|k| [x(k), span(least, power(60))]));
        let pairs = (0..30).cycle().take(126).map(|k| [4 + 2 * k, 5 + 2 * k, 4 + 2 * k]);
        let records = [[0, 1, 2], [2, 3, 0]].into_iter().chain(pairs).map(Record::Sum).collect();
        Sheet { cells, records }
    }

    pub fn text(&self, limit: usize) -> String {
        let cell = |[low, high]: &[u64; 2]| format!("cell\t{low:016X}\t{high:016X}\n");
        let record = |record: &Record| match record {
            Record::Sum([x, a, b]) => format!("sum\t{x}\t{a}\t{b}\n"),
            Record::Diff([x, a, b]) => format!("diff\t{x}\t{a}\t{b}\n"),
            Record::Neg([x, y]) => format!("neg\t{x}\t{y}\n"),
        };
        let cells: String = self.cells.iter().map(cell).collect();
        let records: String = self.records.iter().map(record).collect();
        format!("sheet\t64\t{limit}\n{cells}{records}")
    }

    /// The cell lines of a listing.
    fn lines(&self) -> String {
        let line = |(i, [low, high]): (usize, &[u64; 2])| format!("cell\t{i}\t{low:016X}\t{high:016X}\n");
        self.cells.iter().enumerate().map(line).collect()
    }

    /// One pass of sums through the C entry; the ends that each of its narrowings is given.
    fn pass(&mut self) -> Vec<[u64; 6]> {
        let mut given = vec![];
        for record in &self.records {
            let Record::Sum(sum) = record else { panic!("bench: the C entry narrows sums") };
            let [x, a, b] = sum.map(|i| self.cells[i]);
            let ends = [x[0], x[1], a[0], a[1], b[0], b[1]];
            let mut result = [0; 48];
            assert_eq!(tazsmibor::entry_fast(64, ends, &mut result), 0, "bench: a sum of the sheet has no triple");
            let end = |i: usize| u64::from_le_bytes(result[8 * i..8 * i + 8].try_into().unwrap());
            for (j, i) in sum.iter().enumerate() {
                self.cells[*i] = [end(2 * j), end(2 * j + 1)];
            }
            given.push(ends);
        }
        given
    }
}

pub fn run(program: &str, text: &str) -> String {
    let mut child = Command::new(program).stdin(Stdio::piped()).stdout(Stdio::piped()).spawn().expect("bench: no program");
    child.stdin.take().unwrap().write_all(text.as_bytes()).expect("bench: no input");
    String::from_utf8(child.wait_with_output().expect("bench: no output").stdout).expect("bench: not text")
}

/// Nanoseconds for a text, with its listing.
pub fn time(listing: &dyn Fn(&str) -> String, text: &str) -> (f64, String) {
    let start = Instant::now();
    let printed = listing(text);
    (start.elapsed().as_nanos() as f64, printed)
}

/// The listing of a run that makes all the passes of its limit.
pub fn stopped(listing: &dyn Fn(&str) -> String, sheet: &Sheet, limit: usize) -> String {
    let printed = listing(&sheet.text(limit));
    assert!(printed.starts_with(&format!("stopped\t{limit}\n")), "bench: the sheet settles early: {printed}");
    printed
}

fn reference(text: &str) -> String {
    sheet::listing(text.as_bytes())
}

/// The listing of a run of all passes, by the program and by another, which must print the same.
fn agreed(library: &dyn Fn(&str) -> String, other: &dyn Fn(&str) -> String, sheet: &Sheet) -> String {
    let printed = stopped(library, sheet, 1 + PASSES);
    assert_eq!(printed, other(&sheet.text(1 + PASSES)), "bench: two sides print different listings");
    printed
}

/// Nanoseconds a pass of each side, which is a program and its sheet.
fn per_pass<const N: usize>(sides: [(&dyn Fn(&str) -> String, &Sheet); N]) -> [f64; N] {
    let times = |limit: usize| {
        let mut runs = sides.map(|(listing, sheet)| {
            let text = sheet.text(limit);
            move || time(listing, &text).0
        });
        best(ROUNDS, runs.each_mut().map(|run| run as &mut dyn FnMut() -> f64))
    };
    let (one, all) = (times(1), times(1 + PASSES));
    std::array::from_fn(|i| (all[i] - one[i]) / PASSES as f64)
}

const SUMS: &str = "a pass of 64 cells and 128 sums, width 64";

/// A pass of sums. Its narrowings are timed by themselves: a run of the program after them would start slower than others.
pub fn pass(program: &str) {
    let mut sheet = Sheet::sums(128);
    let library = |text: &str| run(program, text);
    let printed = agreed(&library, &reference, &sheet);
    let [own, baseline] = per_pass([(&library, &sheet), (&reference, &sheet)]);

    sheet.pass();
    let narrowings: Vec<[u64; 6]> = (0..PASSES).flat_map(|_| sheet.pass()).collect();
    assert!(printed.ends_with(&sheet.lines()), "bench: the C entry and the program leave different cells");
    let [narrowing] = best(ROUNDS, [&mut || round(tazsmibor::entry_fast, 64, &narrowings)]);

    report(SUMS, &[("library", own), ("reference", baseline)]);
    report(SUMS, &[("library", own), ("its 128 narrowings", 128.0 * narrowing)]);
}

/// A pass of diffs and one of negs.
pub fn kinds(program: &str) {
    let library = |text: &str| run(program, text);
    let sums = Sheet::sums(128);
    for (records, sheet) in [("128 diffs", Sheet::diffs()), ("127 negs after a sum that counts upward", Sheet::negs())] {
        agreed(&library, &reference, &sheet);
        let [own, of_sums, baseline] = per_pass([(&library, &sheet), (&library, &sums), (&reference, &sheet)]);
        let what = format!("a pass of 64 cells and {records}, width 64");
        report(&what, &[("library", own), ("reference", baseline)]);
        report(&what, &[("library", own), ("128 sums", of_sums)]);
    }
}

/// Passes of sums that name a cell twice.
pub fn repeated(program: &str) {
    let library = |text: &str| run(program, text);
    let sums = Sheet::sums(128);
    for (records, sheet) in [
        ("127 of x + x = b", Sheet::doublings()),
        ("126 of x + a = x, zero in a", Sheet::at_rest(-power(60))),
        ("126 of x + a = x, a above zero", Sheet::at_rest(power(-60))),
    ] {
        agreed(&library, &reference, &sheet);
        let [own, of_sums] = per_pass([(&library, &sheet), (&library, &sums)]);
        report(&format!("a pass of 64 cells and 128 sums, {records}, width 64"), &[("library", own), ("of three cells", of_sums)]);
        report("a sum of it", &[("library", own / 128.0), ("of three cells", of_sums / 128.0)]);
    }
}

/// A pass of sums by the program and by an earlier build of it.
pub fn builds(program: &str, earlier: &str) {
    let (present, past) = (|text: &str| run(program, text), |text: &str| run(earlier, text));
    let sheet = Sheet::sums(128);
    agreed(&present, &past, &sheet);
    let [present, past] = per_pass([(&present, &sheet), (&past, &sheet)]);
    report(SUMS, &[("this build", present), ("the earlier build", past)]);
}

/// A pass by its sums, and by how many passes the run makes.
pub fn growth(program: &str) {
    let library = |text: &str| run(program, text);
    for (sums, passes) in [(64, PASSES), (96, PASSES), (128, PASSES), (128, 4 * PASSES), (128, 16 * PASSES)] {
        let sheet = Sheet::sums(sums);
        stopped(&library, &sheet, 1 + passes);
        let (one, all) = (sheet.text(1), sheet.text(1 + passes));
        let [short, long] = best(ROUNDS, [&mut || time(&library, &one).0, &mut || time(&library, &all).0]);
        let figure = (long - short) / passes as f64;
        println!("a pass of {sums} sums, one of {passes}: library {figure:.1} ns, {:.1} ns a sum", figure / sums as f64);
    }
}
