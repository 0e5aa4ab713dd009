//! The Rust wrapper in bindings/, as a Rust program uses it: each case of its enum at both widths, and the entries over a buffer.
//! Status 1 at any difference.

#[path = "../../bindings/tazsmibor.rs"]
mod tazsmibor;

use std::fmt::Debug;
use std::ops::RangeInclusive;
use tazsmibor::{Float, Narrowing, entry, entry_fast, narrow, narrow_fast};

type Case<F> = (&'static str, [RangeInclusive<F>; 3], Narrowing<F>);

/// How many calls were made, and how many were not as expected.
#[derive(Default)]
struct Tally {
    calls: usize,
    wrong: usize,
}

impl Tally {
    fn compare<T: Debug + PartialEq>(&mut self, what: &str, got: T, expected: T) {
        self.calls += 1;
        if got != expected {
            self.wrong += 1;
            println!("{what}: {got:?}, expected {expected:?}");
        }
    }

    fn narrowings<F: Float + Clone + Debug + PartialEq>(&mut self, cases: Vec<Case<F>>) {
        for (what, [x, a, b], expected) in cases {
            let what = format!("width {}, {what}", F::WIDTH);
            self.compare(&what, narrow(x.clone(), a.clone(), b.clone()), expected.clone());
            self.compare(&format!("{what}, fast"), narrow_fast(x, a, b), expected);
        }
    }
}

/// The cases of `f32` or `f64`.
macro_rules! cases {
    ($float:ident) => {{
        let all = || $float::MIN..=$float::MAX;
        let (one, ulp): (RangeInclusive<$float>, $float) = (1.0..=1.0, $float::EPSILON);
        let ends = |x, a, b| Narrowing::Ends { x, a, b };
        let cases: Vec<Case<$float>> = vec![
            // Below 1 floats are twice as dense, so half an ulp down is half as far as half an ulp up.
            ("a = b = 1", [all(), one.clone(), one.clone()], ends(-ulp / 4.0..=ulp / 2.0, one.clone(), one.clone())),
            ("b alone narrowed", [1.0..=2.0, 1.0..=2.0, 1.0..=4.0], ends(1.0..=2.0, 1.0..=2.0, 2.0..=4.0)),
            ("x and a narrowed", [0.0..=9.0, 0.25..=5.0, one.clone()], ends(0.0..=0.75 + ulp / 2.0, 0.25..=1.0, one.clone())),
            ("nothing reaches", [one.clone(), one.clone(), one.clone()], Narrowing::NoSolution),
            ("infinity", [all(), $float::INFINITY..=$float::INFINITY, one.clone()], Narrowing::NotFinite),
            ("NaN", [all(), one.clone(), 1.0..=$float::NAN], Narrowing::NotFinite),
            ("low above high", [all(), 2.0..=1.0, one.clone()], Narrowing::OutOfOrder),
        ];
        cases
    }};
}

fn main() {
    let mut tally = Tally::default();
    tally.narrowings(cases!(f32));
    tally.narrowings(cases!(f64));
    for entry in [entry, entry_fast] {
        let mut buffer = [0xA5; 50];
        tally.compare("the entry at width 0", entry(0, [0; 6], &mut buffer), 1);
        tally.compare("and its buffer", buffer, [0xA5; 50]);
        tally.compare("the entry on zeros", entry(64, [0; 6], &mut buffer), 0);
        tally.compare("and its buffer", buffer[47..] == [0, 0xA5, 0xA5], true);
    }
    println!("bindings: {} calls, {} not as expected", tally.calls, tally.wrong);
    std::process::exit((tally.wrong != 0).into());
}
