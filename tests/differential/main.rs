//! The narrowing of both C entries at both widths: short ranges against brute force over the hardware's addition, wide ones and
//! random garbage for every parameter against a rule that decides by pieces. Prints how many cases of each kind were compared;
//! any difference ends it with status 1.

#[path = "../common/arguments.rs"]
mod arguments;
#[path = "../common/cases.rs"]
mod cases;
#[path = "../common/ends.rs"]
mod ends;
#[path = "../common/floats.rs"]
mod floats;
#[path = "../common/narrowing.rs"]
mod narrowing;
#[path = "../common/ranges.rs"]
mod ranges;
#[path = "../../bindings/tazsmibor.rs"]
mod tazsmibor;
#[path = "../common/words.rs"]
mod words;

mod brute;
mod garbage;
mod library;
mod pieces;

use floats::{Binary32, Binary64, Range, Width};
use narrowing::Narrowed;
use words::Words;

const SHORT: usize = 12_000;
const LONG: usize = 1_500;
const WIDE: usize = 20_000;
const GARBAGE: usize = 300_000;

/// Ends the run with the case that differs.
fn fail<W: Width>(kind: &str, [x, a, b]: [Range; 3], expected: &str, got: &str) -> ! {
    eprintln!("differential: width {}, {kind}: {x:?} {a:?} {b:?}\n expected {expected}\n got      {got}", W::BITS);
    std::process::exit(1)
}

/// The library's answer, held to the expected one.
fn compare<W: Width>(kind: &str, ranges: [Range; 3], expected: Option<Narrowed>) {
    let [x, a, b] = ranges;
    let got = library::narrow::<W>(x, a, b);
    if got != Ok(expected) {
        fail::<W>(kind, ranges, &format!("{expected:?}"), &format!("{got:?}"));
    }
    agree::<W>(kind, ranges, expected);
}

/// The rule by pieces, and the reference that the listing test rests on, held to an answer: so short ranges try the rule, and
/// on wide ones the rule tries the answer.
fn agree<W: Width>(kind: &str, ranges: [Range; 3], answer: Option<Narrowed>) {
    let [x, a, b] = ranges;
    if !pieces::is_narrowing::<W>(ranges, answer) {
        fail::<W>(kind, ranges, "another narrowing, by pieces", &format!("{answer:?}"));
    }
    let reference = narrowing::narrow::<W>(x, a, b);
    if reference != answer {
        fail::<W>(kind, ranges, &format!("{answer:?}"), &format!("{reference:?} (the reference)"));
    }
}

fn report<W: Width>(kind: &str, placement: &str, count: usize, solved: usize) {
    println!("width {}, {kind}, {placement}: {count} compared, {solved} with a solution", W::BITS);
}

/// Short ranges for both operands: every pair of operands is tried.
fn short_operands<W: Width>(words: &mut Words, placement: &str) -> usize {
    let mut solved = 0;
    for _ in 0..SHORT {
        let (p, q) = cases::middles::<W>(words, placement);
        let (x, a) = (cases::around::<W>(words, p, 12), cases::around::<W>(words, q, 12));
        let b = cases::about_sum::<W>(words, x, a, 12);
        let expected = brute::by_operands::<W>(x, a, b);
        solved += expected.is_some() as usize;
        compare::<W>("short operands", [x, a, b], expected);
    }
    report::<W>("short operands", placement, SHORT, solved);
    SHORT
}

/// A short range for one operand and for the sum, any range for the other: every operand with every sum is tried.
fn short_sums<W: Width>(words: &mut Words, placement: &str) -> usize {
    let mut solved = 0;
    for _ in 0..LONG {
        let (p, q) = cases::middles::<W>(words, placement);
        let (x, a) = (cases::wide::<W>(words), cases::around::<W>(words, q, 5));
        let sum = W::sum(p.clamp(x.low, x.high), a.low) + words.between(-8, 8);
        let b = cases::around::<W>(words, sum, 5);
        let expected = brute::by_sums::<W>(x, a, b);
        solved += expected.is_some() as usize;
        compare::<W>("short sums", [x, a, b], expected);
        let swapped = expected.map(|n| Narrowed { x: n.a, a: n.x, b: n.b });
        compare::<W>("short sums", [a, x, b], swapped);
    }
    report::<W>("short sums", placement, 2 * LONG, 2 * solved);
    2 * LONG
}

/// Wide ranges: too many pairs to try, so each of the answer's ends is tested by pieces; and the reference is held to it.
fn wide_ranges<W: Width>(words: &mut Words, opposite: bool) -> usize {
    let placement = if opposite { "opposite binades" } else { "anywhere" };
    let mut solved = 0;
    for _ in 0..WIDE {
        let (x, a) =
            if opposite { cases::opposite_binades::<W>(words) } else { (cases::wide::<W>(words), cases::wide::<W>(words)) };
        let b = if words.below(3) == 0 { cases::wide::<W>(words) } else { cases::about_sum::<W>(words, x, a, 40) };
        let answer =
            library::narrow::<W>(x, a, b).unwrap_or_else(|what| fail::<W>("wide ranges", [x, a, b], "a narrowing", &what));
        solved += answer.is_some() as usize;
        agree::<W>("wide ranges", [x, a, b], answer);
    }
    report::<W>("wide ranges", placement, WIDE, solved);
    WIDE
}

fn width<W: Width>() -> usize {
    let mut words = Words(0x9E37_79B9_7F4A_7C15);
    let mut cases = 0;
    for placement in cases::PLACEMENTS {
        cases += short_operands::<W>(&mut words, placement);
        cases += short_sums::<W>(&mut words, placement);
    }
    cases += wide_ranges::<W>(&mut words, false) + wide_ranges::<W>(&mut words, true);
    let all = cases::finite::<W>();
    compare::<W>("all floats", [all, all, all], Some(Narrowed { x: all, a: all, b: all }));
    cases + 1
}

fn main() {
    let cases = width::<Binary32>() + width::<Binary64>();
    let calls = garbage::run(GARBAGE);
    println!("differential: {cases} narrowings and {calls} calls with garbage, none differed");
}
