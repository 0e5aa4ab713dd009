//! Ranges of places: of one place alone, what one contains, the least that has two, and the search for where a test begins to hold.

use crate::floats::{Place, Range};

impl Range {
    pub fn point(place: Place) -> Range {
        Range { low: place, high: place }
    }

    pub fn contains(self, place: Place) -> bool {
        self.low <= place && place <= self.high
    }

    pub fn join(self, other: Range) -> Range {
        Range { low: self.low.min(other.low), high: self.high.max(other.high) }
    }
}

/// The least place from low to high + 1 such that the test holds there and above.
pub fn bisect(range: Range, holds: impl Fn(Place) -> bool) -> Place {
    let (mut low, mut high) = (range.low as i128, range.high as i128 + 1);
    while low < high {
        let middle = (low + high).div_euclid(2);
        if holds(middle as Place) { high = middle } else { low = middle + 1 }
    }
    low as Place
}
