//! A trial of the program: its runs, how often each premise held, and how often a sentence was broken.

use crate::floats::Width;
use crate::program;
use crate::runs::Run;
use crate::sheets::{PARTS, Sheet};
use crate::words::Words;
use std::collections::BTreeMap;

/// What a sentence presupposes of two runs, or a case of it that has to occur.
#[derive(Clone, Copy, PartialEq, Eq, PartialOrd, Ord)]
pub enum Premise {
    BothSettle,
    Smaller,
    Kept,
    OuterStopped,
    OuterFails,
    Settled,
    SettledLate,
    FailedFirst,
    FailedLate,
    Stopped,
    Shrinks,
    Fails,
    OrdersSettle,
    PassesDiffer,
    TwiceSettles,
}

const PREMISES: [(Premise, &str); 15] = [
    (Premise::BothSettle, "nested starts, both settle"),
    (Premise::Smaller, "nested starts, both settle, the inner answer is smaller"),
    (Premise::Kept, "nested starts, both settle, the outer answer lies in the inner start"),
    (Premise::OuterStopped, "nested starts, the inner settles, the outer is stopped"),
    (Premise::OuterFails, "nested starts, the outer fails"),
    (Premise::Settled, "a higher limit, settled"),
    (Premise::SettledLate, "a higher limit, settled after more than two passes"),
    (Premise::FailedFirst, "a higher limit, failed in pass 1"),
    (Premise::FailedLate, "a higher limit, failed in a later pass"),
    (Premise::Stopped, "a higher limit, stopped"),
    (Premise::Shrinks, "a higher limit, stopped, then the box is smaller"),
    (Premise::Fails, "a higher limit, stopped, then the sheet fails"),
    (Premise::OrdersSettle, "orders, both settle"),
    (Premise::PassesDiffer, "orders, both settle, after different numbers of passes"),
    (Premise::TwiceSettles, "orders, both settle, one with a record twice"),
];

/// How many times a broken sentence is shown.
const SHOWN: usize = 3;

pub struct Trial {
    pub words: Words,
    program: String,
    runs: usize,
    counts: BTreeMap<(Premise, u64, &'static str), usize>,
    broken: BTreeMap<&'static str, usize>,
}

impl Trial {
    pub fn new(program: String, words: Words) -> Trial {
        Trial { words, program, runs: 0, counts: BTreeMap::new(), broken: BTreeMap::new() }
    }

    /// Runs the program on a sheet. A listing of something else ends the trial.
    pub fn run<W: Width>(&mut self, sheet: &Sheet, limit: u32) -> Run {
        let text = sheet.text::<W>(limit);
        let listing = program::run(&self.program, &[text.as_bytes()]);
        let Some(run) = Run::read::<W>(sheet, limit, &text, &listing) else {
            eprintln!("planning: no listing of the sheet\n{text}is\n{listing}");
            std::process::exit(1)
        };
        self.runs += 1;
        self.expect("passes", run.possible(), &[&run]);
        run
    }

    /// Counts premises that held for a sheet, by the parts that it has.
    pub fn held<W: Width>(&mut self, sheet: &Sheet, premises: &[Premise]) {
        for part in PARTS.into_iter().filter(|part| sheet.has(part)) {
            for premise in premises {
                *self.counts.entry((*premise, W::BITS, part)).or_default() += 1;
            }
        }
    }

    /// Counts, and shows, runs by which a sentence is broken.
    pub fn expect(&mut self, sentence: &'static str, good: bool, runs: &[&Run]) {
        if good {
            return;
        }
        let broken = self.broken.entry(sentence).or_default();
        *broken += 1;
        if *broken <= SHOWN {
            eprintln!("planning: {sentence}: broken by");
            runs.iter().for_each(|run| eprintln!("{}{}", run.text, run.listing));
        }
    }

    /// Prints the counts; true if each premise held at both widths with each part and no sentence was broken.
    pub fn passed(&self) -> bool {
        let mut never = 0;
        for (premise, name) in PREMISES {
            for bits in [32, 64] {
                let counts = PARTS.map(|part| self.counts.get(&(premise, bits, part)).copied().unwrap_or(0));
                let [sums, diffs, negs, repeated] = counts;
                println!(
                    "width {bits}, {name}: {sums} with sums, {diffs} with diffs, {negs} with negs, {repeated} with repeated cells"
                );
                never += counts.iter().filter(|count| **count == 0).count();
            }
        }
        println!("planning: {} runs, broken sentences {:?}, {never} counts of zero", self.runs, self.broken);
        never == 0 && self.broken.is_empty()
    }
}
