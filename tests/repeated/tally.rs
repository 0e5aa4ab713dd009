//! How many cases of a coincidence were compared, how they ended, which situations they met, and how many answers differed.

use crate::drawn::Case;
use crate::floats::Range;
use crate::situations::Situation;

pub struct Tally {
    none: u64,
    moved: u64,
    settled: u64,
    situations: Vec<(Situation, u64)>,
    pub differed: u64,
}

impl Tally {
    pub fn new(situations: Vec<Situation>) -> Tally {
        let situations = situations.into_iter().map(|situation| (situation, 0)).collect();
        Tally { none: 0, moved: 0, settled: 0, situations, differed: 0 }
    }

    pub fn count(&mut self, case: &Case, narrowed: Option<[Range; 3]>, agrees: bool) {
        self.differed += !agrees as u64;
        let Some(after) = narrowed else {
            self.none += 1;
            return;
        };
        *(if after == case.cells { &mut self.settled } else { &mut self.moved }) += 1;
        for (situation, count) in &mut self.situations {
            *count += (situation.holds)(case.pair(case.cells), case.pair(after)) as u64;
        }
    }

    /// Whether there were cases of every ending and of every situation.
    pub fn met(&self) -> bool {
        self.none > 0 && self.moved > 0 && self.settled > 0 && self.situations.iter().all(|(_, count)| *count > 0)
    }
}

impl std::fmt::Display for Tally {
    fn fmt(&self, f: &mut std::fmt::Formatter) -> std::fmt::Result {
        let Tally { none, moved, settled, situations, differed } = self;
        write!(f, "{} compared: none {none}, moved {moved}, settled {settled}", none + moved + settled)?;
        situations.iter().try_for_each(|(situation, count)| write!(f, ", {} {count}", situation.name))?;
        write!(f, "; differed {differed}")
    }
}
