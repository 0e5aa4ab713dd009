//! The sums that docs/ARITHMETIC.md works in figures, at width 32: each row of its table is written anew from its two patterns,
//! step by step in plain integers, with the library's answer, and must stand there so. So must the rows of its focus map, which is
//! added up anew by the library.

use crate::library;

const NAME: &str = "docs/ARITHMETIC.md";
const DOCUMENT: &str = include_str!("../../docs/ARITHMETIC.md");
const SIGN: u32 = 1 << 31;
const HIDDEN: u32 = 1 << 23;

/// A pattern without its sign as a significand and how far it is shifted.
fn parts(m: u32) -> (u128, u32) {
    let (field, fraction) = (m / HIDDEN, m % HIDDEN);
    if field == 0 { (fraction.into(), 0) } else { ((HIDDEN + fraction).into(), field - 1) }
}

/// The pattern of n * 2^shift units, without its sign, for an n of at most 24 bits.
fn pattern(n: u128, shift: u32) -> u32 {
    let up = (n.leading_zeros() - 104).min(shift);
    (shift - up) * HIDDEN + ((n as u32) << up)
}

/// The answer and what is left over as the document words them; that by the integers must be the library's.
fn answer(x: u32, a: u32, left: u32) -> String {
    match library(32, [x.into(), a.into()]) {
        (0, [pattern, mark, remainder]) if remainder == left.into() => format!("`{pattern:08X}`, mark {mark} | `{left:08X}`"),
        (0, [.., remainder]) => format!("the library leaves `{remainder:08X}` over, the integers `{left:08X}`"),
        (number, _) => format!("refusal {number} | none"),
    }
}

/// The row of two floats whose exact sum has more digits than a significand.
fn row(x: u32, a: u32) -> String {
    let (p, q) = (x & !SIGN, a & !SIGN);
    let ((larger, high), (smaller, shift)) = (parts(p.max(q)), parts(p.min(q)));
    let gap = high - shift;
    let (sign, exact) = if (x ^ a) & SIGN == 0 { ('+', (larger << gap) + smaller) } else { ('−', (larger << gap) - smaller) };
    let drop = 128 - exact.leading_zeros() - 24;
    let step = 1 << drop;
    let (kept, rest) = (exact / step, exact % step);
    let up = 2 * rest > step || 2 * rest == step && kept % 2 == 1;
    let m = u128::from((shift + drop) * HIDDEN) + kept + u128::from(up);
    let negative = (if p < q { a } else { x }) & SIGN;
    let left = if up { pattern(step - rest, shift) | (negative ^ SIGN) } else { pattern(rest, shift) | negative };
    let exact = format!("({larger:X} · 2^{gap} {sign} {smaller:X}) · 2^{shift}");
    format!("| `{x:08X}` | `{a:08X}` | {exact} | {kept:X} | {rest:X} of {step:X} | {m:X} | {} |", answer(x, a, left))
}

/// Whether each row stands as written anew; at least four of them.
fn table() -> bool {
    let pattern = |cell: &str| u32::from_str_radix(cell.trim().strip_prefix('`')?.strip_suffix('`')?, 16).ok();
    let mut rows = 0;
    let mut differed = 0;
    for line in DOCUMENT.lines() {
        let cells: Vec<&str> = line.split('|').collect();
        let [_, x, a, ..] = cells[..] else { continue };
        let (Some(x), Some(a)) = (pattern(x), pattern(a)) else { continue };
        rows += 1;
        let due = row(x, a);
        if line != due {
            differed += 1;
            eprintln!("sums: {NAME} has\n{line}\nbut the row is\n{due}");
        }
    }
    println!("{NAME}: rows {rows}, differed {differed}");
    rows >= 4 && differed == 0
}

/// The library's sum of two floats and what it leaves over.
fn add(x: f32, a: f32) -> (f32, f32) {
    let (number, [pattern, _, remainder]) = library(32, [x, a].map(|operand| operand.to_bits().into()));
    assert_eq!(number, 0, "a sum of the focus map is refused");
    (f32::from_bits(pattern as u32), f32::from_bits(remainder as u32))
}

/// The rows of the focus map: a thousand small steps with their remainders and without.
fn focus_map() -> bool {
    let (start, step) = (16.0, 0.001);
    let (mut sum, mut left) = (start, 0.0);
    for _ in 0..1000 {
        let remainder;
        (sum, remainder) = add(sum, step);
        (left, _) = add(left, remainder);
    }
    let row = |what: &str, value: f32| format!("| {what} | `{:08X}` | {value} |", value.to_bits());
    let rows = [
        row("the start", start),
        row("a step", step),
        row("a thousand sums, what they leave over dropped", sum),
        row("what they leave over, summed too", left),
        row("both together", add(sum, left).0),
    ];
    let missing: Vec<&String> = rows.iter().filter(|row| !DOCUMENT.lines().any(|line| line == *row)).collect();
    for row in &missing {
        eprintln!("sums: {NAME} has no row\n{row}");
    }
    println!("{NAME}: rows of the focus map {}, missing {}", rows.len(), missing.len());
    missing.is_empty()
}

/// Whether both tables stand as worked anew.
pub fn passed() -> bool {
    [table(), focus_map()] == [true; 2]
}
