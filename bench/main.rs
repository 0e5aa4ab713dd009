//! Nanoseconds for the library's forward sum, for its narrowing in integers and by the machine's floats and for a pass over a
//! sheet of each kind of record, beside unverified baselines in the same run; for a pass of sums also beside its narrowings by
//! the library. Then the slowest narrowings and the longest run that were found, and how the cost grows: of a narrowing with the
//! length of its intervals, of a run with its sums and passes.
//!
//! Usage: bench PROGRAM [EARLIER], the program `narrow` and an earlier build of it, beside which a pass of sums is timed too; where
//! the earlier build's libraries are linked (bench/run), sums and narrowings are timed beside theirs. All sides get the same
//! input and must give the same answers. Each figure is the best of many rounds in which the sides take turns,
//! but for the narrowings of a pass; the result buffers are not cleared between calls.

#[path = "../tests/common/cases.rs"]
mod cases;
#[cfg(earlier)]
#[path = "../target/bench/earlier_bindings.rs"]
mod earlier_bindings;
#[cfg(earlier)]
#[allow(dead_code)]
#[path = "../target/bench/earlier_exports.rs"]
mod earlier_exports;
#[allow(dead_code)]
#[path = "../tests/common/ends.rs"]
mod ends;
#[allow(dead_code)]
#[path = "../tests/common/exports.rs"]
mod exports;
#[path = "../tests/common/floats.rs"]
mod floats;
#[path = "../tests/common/narrowing.rs"]
mod narrowing;
#[path = "../tests/common/ranges.rs"]
mod ranges;
#[path = "../tests/common/records.rs"]
mod records;
#[path = "../tests/common/repeated.rs"]
mod repeated;
#[path = "../tests/common/sheet.rs"]
mod sheet;
#[path = "../bindings/tazsmibor.rs"]
mod tazsmibor;
#[allow(dead_code)]
#[path = "../tests/common/words.rs"]
mod words;

mod baseline;
mod earlier;
mod passes;
mod slowest;
mod sums;

use floats::{Binary32, Binary64, Range, Width};
use std::hint::black_box;
use std::time::Instant;
use words::Words;

/// How many cases a line has, and how often each is called. The few come again so soon that the processor can foresee many of
/// their branches; the many do not.
#[derive(Clone, Copy)]
struct Amount {
    cases: usize,
    rounds: usize,
}

const FEW: Amount = Amount { cases: 2_000, rounds: 3_000 };
const MANY: Amount = Amount { cases: 200_000, rounds: 30 };

pub type Call = fn(u64, [u64; 6], &mut [u8]) -> u64;

/// Both operands wide, b wide or about a sum.
fn wide<W: Width>(words: &mut Words) -> [Range; 3] {
    let (x, a) = (cases::wide::<W>(words), cases::wide::<W>(words));
    let b = if words.coin() { cases::wide::<W>(words) } else { cases::about_sum::<W>(words, x, a, 8) };
    [x, a, b]
}

/// x and a at most `most` + 1 floats long, b too but in one of four, where one end is far out.
fn about<W: Width>(words: &mut Words, most: i64) -> [Range; 3] {
    let (p, q) = cases::middles::<W>(words, "opposite signs");
    let (x, a) = (cases::around::<W>(words, p, most), cases::around::<W>(words, q.abs(), most));
    [x, a, cases::about_sum::<W>(words, x, a, most)]
}

/// x and a a few floats long, b too but in one of four, where one end is far out.
fn few_ulps<W: Width>(words: &mut Words) -> [Range; 3] {
    about::<W>(words, 8)
}

/// Binades of opposite signs, b a few floats long but in one of four, where one end is far out: most of the operands cancel.
fn cancellation<W: Width>(words: &mut Words) -> [Range; 3] {
    let (x, a) = cases::opposite_binades::<W>(words);
    [x, a, cases::about_sum::<W>(words, x, a, 8)]
}

/// The best figure of each side over many rounds. The sides take turns, so that all meet the same state of the machine.
pub fn best<const N: usize>(rounds: usize, mut sides: [&mut dyn FnMut() -> f64; N]) -> [f64; N] {
    let mut best = [f64::MAX; N];
    for _ in 0..rounds {
        for (best, side) in best.iter_mut().zip(&mut sides) {
            *best = best.min(side());
        }
    }
    best
}

/// Nanoseconds a call over all cases. The answers' numbers and x's low ends are folded into one number, so that the compiler
/// leaves no call out.
fn round(call: Call, width: u64, cases: &[[u64; 6]]) -> f64 {
    let mut result = [0u8; 48];
    let mut check = 0u64;
    let start = Instant::now();
    for ends in cases {
        let answer = call(width, black_box(*ends), &mut result);
        check = check.wrapping_mul(31).wrapping_add(answer ^ u64::from_le_bytes(result[..8].try_into().unwrap()));
    }
    black_box(check);
    start.elapsed().as_nanos() as f64 / cases.len() as f64
}

/// The number and all six ends that one call answers, not timed.
fn answer(call: Call, width: u64, ends: [u64; 6]) -> (u64, [u8; 48]) {
    let mut result = [0u8; 48];
    (call(width, ends, &mut result), result)
}

/// A line with the nanoseconds of each side, and in brackets their ratio to the last.
pub fn report(what: &str, sides: &[(&str, f64)]) {
    let last = sides.last().expect("a side").1;
    let side = |(name, figure): &(&str, f64)| format!("{name} {figure:.1} ns ({:.2})", figure / last);
    println!("{what}: {}", sides.iter().map(side).collect::<Vec<_>>().join(", "));
}

fn patterns<W: Width>(cases: usize, make: impl Fn(&mut Words) -> [Range; 3]) -> Vec<[u64; 6]> {
    let mut words = Words(0x9E37_79B9_7F4A_7C15);
    (0..cases).map(|_| ends::patterns::<W>(make(&mut words))).collect()
}

fn narrowing<W: Width>(mix: &str, amount: Amount, make: impl Fn(&mut Words) -> [Range; 3]) {
    let cases = patterns::<W>(amount.cases, make);
    for ends in &cases {
        let expected = answer(baseline::call, W::BITS, *ends);
        for entry in [tazsmibor::entry, tazsmibor::entry_fast] {
            assert_eq!(answer(entry, W::BITS, *ends), expected, "{mix}: the baseline answers otherwise");
        }
    }
    let [exact, fast, baseline] = best(
        amount.rounds,
        [
            &mut || round(tazsmibor::entry, W::BITS, &cases),
            &mut || round(tazsmibor::entry_fast, W::BITS, &cases),
            &mut || round(baseline::call, W::BITS, &cases),
        ],
    );
    let what = format!("narrowing, width {}, {mix}, {} cases", W::BITS, amount.cases);
    report(&what, &[("in integers", exact), ("fast", fast), ("galloping search", baseline)]);
    if let Some(earlier) = earlier::NARROW {
        builds::<W>(&what, amount, &cases, earlier);
    }
}

/// Both entries beside those of an earlier build.
fn builds<W: Width>(what: &str, amount: Amount, cases: &[[u64; 6]], earlier: [Call; 2]) {
    let entries = [("in integers", tazsmibor::entry as Call), ("fast", tazsmibor::entry_fast)];
    for ((name, present), past) in entries.into_iter().zip(earlier) {
        for ends in cases {
            assert_eq!(answer(present, W::BITS, *ends), answer(past, W::BITS, *ends), "{what}, {name}: the builds differ");
        }
        let [present, past] =
            best(amount.rounds, [&mut || round(present, W::BITS, cases), &mut || round(past, W::BITS, cases)]);
        report(&format!("{what}, {name}"), &[("this build", present), ("the earlier build", past)]);
    }
}

/// The three mixes.
fn narrowings<W: Width>(amount: Amount) {
    narrowing::<W>("wide intervals", amount, wide::<W>);
    narrowing::<W>("a few ulps", amount, few_ulps::<W>);
    narrowing::<W>("cancellation", amount, cancellation::<W>);
}

/// By the length of the intervals.
fn lengths<W: Width>() {
    for k in [0, 10, 20, 30, 40, 50, 60] {
        narrowing::<W>(&format!("up to 2^{k} + 1 floats"), FEW, |words| about::<W>(words, 1 << k));
    }
}

/// The processor's name, as Linux has it.
fn processor() -> String {
    let text = std::fs::read_to_string("/proc/cpuinfo").unwrap_or_default();
    let fact = |name: &str| {
        let line = text.lines().find(|line| line.starts_with(name));
        line.and_then(|line| line.split(": ").nth(1)).unwrap_or("unknown").to_owned()
    };
    format!("{}, family {}, model {}", fact("model name"), fact("cpu family"), fact("model\t"))
}

fn main() {
    println!("processor: {}", processor());
    sums::sums::<Binary32>();
    sums::sums::<Binary64>();
    narrowings::<Binary32>(FEW);
    narrowings::<Binary64>(FEW);
    narrowings::<Binary32>(MANY);
    narrowings::<Binary64>(MANY);
    let mut arguments = std::env::args().skip(1);
    let program = arguments.next().expect("usage: bench PROGRAM [EARLIER]");
    passes::pass(&program);
    passes::kinds(&program);
    passes::repeated(&program);
    if let Some(earlier) = arguments.next() {
        passes::builds(&program, &earlier);
    }
    slowest::narrowings::<Binary32>();
    slowest::narrowings::<Binary64>();
    slowest::run(&program);
    lengths::<Binary64>();
    passes::growth(&program);
}
