//! Forward sums with their remainders: the library's beside a plain software addition with guard, round and sticky bits.

use crate::cases;
use crate::earlier;
use crate::exports;
use crate::floats::Width;
use crate::{best, report};
use crate::words::Words;
use std::hint::black_box;
use std::time::Instant;

const PAIRS: usize = 4_000;
const ROUNDS: usize = 1_000;

pub type Add = fn(u64, u64, u64, &mut [u64; 3]) -> u64;

/// A pattern without its sign as a significand and an exponent, 1 for the subnormals.
fn unpack(f: u64, m: u64) -> (u64, u64) {
    let hidden = 1 << f;
    if m < hidden { (m, 1) } else { (m % hidden + hidden, m >> f) }
}

/// An exact size less its rounded one, as a pattern without its sign; and whether that is below zero. It is no larger than the
/// smaller operand, so in steps of that one's last digit its low word is all of it.
fn left_over(f: u64, larger: u64, smaller: u64, opposite: bool, rounded: u64) -> (u64, bool) {
    let ((s, high), (t, e), (r, top)) = (unpack(f, larger), unpack(f, smaller), unpack(f, rounded));
    let low = |n: u64, by: u64| if by < 64 { n << by } else { 0 };
    let t = if opposite { t.wrapping_neg() } else { t };
    let left = low(s, high - e).wrapping_add(t).wrapping_sub(low(r, top - e)) as i64;
    let n = left.unsigned_abs();
    let up = (n.leading_zeros() as u64 - (63 - f)).min(e - 1);
    (((e - 1 - up) << f) + (n << up), left < 0)
}

/// 0 with the pattern, the mark and the remainder, or the refusal number.
fn software_add(width: u64, x: u64, a: u64, out: &mut [u64; 3]) -> u64 {
    let f = match width {
        32 => 23,
        64 => 52,
        _ => return 1,
    };
    let (sign, hidden) = (1u64 << (width - 1), 1u64 << f);
    let infinity = sign - hidden;
    let (p, q) = (x & !sign, a & !sign);
    if p >= infinity || q >= infinity {
        return 2;
    }
    let (larger, smaller, negative) = if p >= q { (p, q, x & sign) } else { (q, p, a & sign) };
    let ((s, mut exponent), (t, e)) = (unpack(f, larger), unpack(f, smaller));
    let (s, t, gap) = (s << 3, t << 3, exponent - e);
    let t = if gap > 60 { (t != 0) as u64 } else { t >> gap | (t & ((1 << gap) - 1) != 0) as u64 };
    let opposite = (x ^ a) & sign != 0;
    let mut sum = if opposite { s - t } else { s + t };
    if sum == 0 {
        *out = [0; 3];
        return 0;
    }
    if sum >> (f + 4) != 0 {
        sum = sum >> 1 | sum & 1;
        exponent += 1;
    } else {
        let up = (sum.leading_zeros() as u64 - (60 - f)).min(exponent - 1);
        sum <<= up;
        exponent -= up;
    }
    let (kept, rest) = (sum >> 3, sum & 7);
    let up = rest > 4 || rest == 4 && kept & 1 == 1;
    let size = ((exponent - 1) << f) + kept + up as u64;
    if size >= infinity {
        return 9;
    }
    *out = [if size == 0 { 0 } else { size | negative }, 0, 0];
    if rest != 0 {
        let (m, below) = left_over(f, larger, smaller, opposite, size);
        out[1] = if size < hidden { 2 } else { 1 };
        out[2] = m | if below { negative ^ sign } else { negative };
    }
    0
}

/// Nanoseconds a sum over all pairs. The answers are folded into one number, so that the compiler leaves no call out.
fn round(add: Add, width: u64, pairs: &[[u64; 2]]) -> f64 {
    let mut out = [0; 3];
    let mut check = 0u64;
    let start = Instant::now();
    for [x, a] in pairs {
        let answer = add(width, black_box(*x), black_box(*a), &mut out);
        check = check.wrapping_mul(31).wrapping_add(answer ^ out[0] ^ out[1] ^ out[2]);
    }
    black_box(check);
    start.elapsed().as_nanos() as f64 / pairs.len() as f64
}

/// The number and the words that one call answers, not timed.
fn answer(add: Add, width: u64, [x, a]: [u64; 2]) -> (u64, [u64; 3]) {
    let mut out = [0; 3];
    (add(width, x, a, &mut out), out)
}

/// Operands of every placement of the differential test.
pub fn sums<W: Width>() {
    let mut words = Words(0x9E37_79B9_7F4A_7C15);
    let mut pair = |i: usize| {
        let (x, a) = cases::middles::<W>(&mut words, cases::PLACEMENTS[i % cases::PLACEMENTS.len()]);
        [x, a].map(|p| W::pattern(p.clamp(-W::LARGEST, W::LARGEST)))
    };
    let pairs: Vec<[u64; 2]> = (0..PAIRS).map(&mut pair).collect();
    // An earlier build may have no remainder: of that only the number, the pattern and the mark are compared.
    let agreed = |name: &str, other: Add, words: usize| {
        for pair in &pairs {
            let ((number, own), (due, others)) = (answer(exports::add, W::BITS, *pair), answer(other, W::BITS, *pair));
            assert_eq!((number, &own[..words]), (due, &others[..words]), "the {name} answers otherwise");
        }
    };
    let what = format!("sum, width {}", W::BITS);
    agreed("software addition", software_add, 3);
    let [library, baseline] =
        best(ROUNDS, [&mut || round(exports::add, W::BITS, &pairs), &mut || round(software_add, W::BITS, &pairs)]);
    report(&what, &[("library", library), ("software addition", baseline)]);
    if let Some(earlier) = earlier::ADD {
        agreed("earlier build", earlier, 2);
        let [present, past] =
            best(ROUNDS, [&mut || round(exports::add, W::BITS, &pairs), &mut || round(earlier, W::BITS, &pairs)]);
        report(&what, &[("this build", present), ("the earlier build", past)]);
    }
}
