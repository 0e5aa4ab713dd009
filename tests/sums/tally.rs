//! How many pairs of a kind were compared; what the hardware's sums of them are; how many answers differed.

use crate::floats::Width;
use crate::hardware::Sum;

#[derive(Default)]
pub struct Tally {
    pub compared: u64,
    pub rounded: u64,
    /// Of the rounded ones: halfway between two floats.
    pub ties: u64,
    /// Below the smallest normal float, and not zero.
    pub subnormal: u64,
    pub too_large: u64,
    /// Of what is left over: with the other sign than the sum, past a carry into the next binade, smaller than the smallest normal
    /// float, across a gap of a word or more.
    pub went_up: u64,
    pub carried: u64,
    pub tiny: u64,
    pub far: u64,
    /// How often TwoSum told what is left over, in each order of the operands by itself, and how often something in it overflowed,
    /// so that the integers alone told it.
    pub by_hardware: u64,
    pub by_integers: u64,
    pub differed: u64,
}

impl Tally {
    pub fn count<W: Width>(&mut self, sum: &Result<Sum, u64>, agrees: bool) {
        self.compared += 1;
        self.differed += !agrees as u64;
        match sum {
            Ok(sum) => {
                let told = sum.two_sums.iter().flatten().count() as u64;
                self.by_hardware += told;
                self.by_integers += 2 - told;
                self.rounded += (sum.left != 0) as u64;
                self.ties += sum.is_tie::<W>() as u64;
                self.subnormal += (1..1 << W::FRACTION).contains(&sum.place.abs()) as u64;
                self.went_up += sum.went_up() as u64;
                self.carried += sum.carried::<W>() as u64;
                self.tiny += (1..1 << W::FRACTION).contains(&sum.left.abs()) as u64;
                self.far += sum.far::<W>() as u64;
            }
            Err(_) => self.too_large += 1,
        }
    }

    pub fn exact(&self) -> u64 {
        self.compared - self.rounded - self.too_large
    }
}

impl std::fmt::Display for Tally {
    fn fmt(&self, f: &mut std::fmt::Formatter) -> std::fmt::Result {
        let Tally { compared, rounded, ties, subnormal, too_large, .. } = self;
        let Tally { went_up, carried, tiny, far, by_hardware, by_integers, differed, .. } = self;
        write!(
            f,
            "compared {compared}, rounded {rounded}, of these ties {ties}, subnormal {subnormal}, too large {too_large}; left over: \
             of the other sign {went_up}, past a carry {carried}, subnormal {tiny}, across a wide gap {far}, by TwoSum \
             {by_hardware}, by integers alone {by_integers}; differed {differed}"
        )
    }
}
