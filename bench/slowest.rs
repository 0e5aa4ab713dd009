//! The slowest narrowings of many cases, and the longest run that was made of such.

use crate::cases;
use crate::ends;
use crate::floats::{Binary64, Range, Width};
use crate::passes::{self, Sheet};
use crate::records::Record;
use crate::words::Words;
use crate::{Call, best, report, round, tazsmibor};

const CASES: usize = 200_000;
const SLOWEST: usize = CASES / 100;

/// Operands of every placement, of every length, from zero on, and as wide as binades; b about a sum, or as wide as may be.
fn any<W: Width>(words: &mut Words) -> [Range; 3] {
    let most = 1 << words.below(W::BITS - 3);
    let placement = words.pick(&cases::PLACEMENTS);
    let (p, q) = cases::middles::<W>(words, placement);
    let (x, a) = match words.below(4) {
        0 => (cases::around::<W>(words, p, most), cases::around::<W>(words, q, most)),
        1 => (Range { low: p.min(0), high: p.max(0) }, Range { low: q.min(0), high: q.max(0) }),
        2 => cases::opposite_binades::<W>(words),
        _ => (cases::wide::<W>(words), cases::wide::<W>(words)),
    };
    let (x, a) = (held::<W>(x), held::<W>(a));
    let b = if words.below(4) == 0 { cases::wide::<W>(words) } else { cases::about_sum::<W>(words, x, a, most) };
    [x, a, b]
}

fn held<W: Width>(r: Range) -> Range {
    Range { low: r.low.clamp(-W::LARGEST, W::LARGEST), high: r.high.clamp(-W::LARGEST, W::LARGEST) }
}

/// The slowest cases, each timed by itself.
fn slowest(call: Call, width: u64, cases: &[[u64; 6]]) -> Vec<[u64; 6]> {
    let alone = |ends: &[u64; 6]| best(8, [&mut || round(call, width, &[*ends; 16])])[0];
    let mut timed: Vec<(f64, [u64; 6])> = cases.iter().map(|ends| (alone(ends), *ends)).collect();
    timed.sort_by(|p, q| q.0.total_cmp(&p.0));
    timed.truncate(SLOWEST);
    timed.into_iter().map(|(_, ends)| ends).collect()
}

/// The slowest hundredth of the cases of each entry, called one after the other, so that few branches can be foreseen.
pub fn narrowings<W: Width>() {
    let mut words = Words(0x9E37_79B9_7F4A_7C15);
    let cases: Vec<[u64; 6]> = (0..CASES).map(|_| ends::patterns::<W>(any::<W>(&mut words))).collect();
    let time = |call: Call| {
        let slow = mixed(slowest(call, W::BITS, &cases));
        best(300, [&mut || round(call, W::BITS, &slow)])[0]
    };
    let (exact, fast) = (time(tazsmibor::entry), time(tazsmibor::entry_fast));
    println!(
        "narrowing, width {}, the slowest {SLOWEST} of {CASES} cases, for each entry its own: in integers {exact:.1} ns, fast {fast:.1} ns",
        W::BITS
    );
}

/// The same cases in an order of chance.
fn mixed<T>(mut all: Vec<T>) -> Vec<T> {
    let mut words = Words(0xD1B5_4A32_D192_ED03);
    for i in (1..all.len()).rev() {
        all.swap(i, words.below(i as u64 + 1) as usize);
    }
    all
}

/// The ends that a case is narrowed to, if it has a solution.
fn narrowed(ends: &[u64; 6]) -> Option<[u64; 6]> {
    let mut result = [0; 48];
    let answer = tazsmibor::entry(64, *ends, &mut result);
    (answer == 0).then(|| std::array::from_fn(|i| u64::from_le_bytes(result[8 * i..8 * i + 8].try_into().unwrap())))
}

/// A run of all passes over 128 sums: two that count, so that it goes on, and 126 over the 20 slowest of narrowed cases, which
/// do not move.
pub fn run(program: &str) {
    let mut words = Words(0x9E37_79B9_7F4A_7C15);
    let cases: Vec<[u64; 6]> = (0..CASES).filter_map(|_| narrowed(&ends::patterns::<Binary64>(any::<Binary64>(&mut words)))).collect();
    let slow = slowest(tazsmibor::entry_fast, 64, &cases);
    let mut sheet = Sheet { cells: vec![[0, 200_000], [1, 1], [0, 200_000], [0, 0]], records: vec![] };
    for [xl, xh, al, ah, bl, bh] in &slow[..20] {
        sheet.cells.extend([[*xl, *xh], [*al, *ah], [*bl, *bh]]);
    }
    let slow_sums = mixed((0..126).map(|i| 4 + 3 * (i % 20)).collect()).into_iter().map(|c| [c, c + 1, c + 2]);
    sheet.records.extend([[0, 1, 2], [2, 3, 0]].into_iter().chain(slow_sums).map(Record::Sum));
    let library = |text: &str| passes::run(program, text);
    passes::stopped(&library, &sheet, 65_535);
    let text = sheet.text(65_535);
    let [whole] = best(3, [&mut || passes::time(&library, &text).0]);
    println!("the longest run, 65535 passes of 128 sums: {:.2} s, {:.1} ns a sum", whole / 1e9, whole / (65_535.0 * 128.0));
    report("a sum of it", &[("library", whole / (65_535.0 * 128.0)), ("its narrowing", round_of(&slow[..20]))]);
}

fn round_of(cases: &[[u64; 6]]) -> f64 {
    best(1000, [&mut || round(tazsmibor::entry_fast, 64, cases)])[0]
}
