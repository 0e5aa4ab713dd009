//! Three ranges as the six patterns that the C entry takes, and back; and such patterns put in order.

use crate::floats::{Binary32, Binary64, Range, Width};

/// Low and high end of x, a and b.
pub fn patterns<W: Width>([x, a, b]: [Range; 3]) -> [u64; 6] {
    [x.low, x.high, a.low, a.high, b.low, b.high].map(W::pattern)
}

/// The ranges, or the refusal's number: 2 for an end that is not finite, 3 for ends out of order.
pub fn ranges<W: Width>(ends: [u64; 6]) -> Result<[Range; 3], u64> {
    let mut places = [0; 6];
    for (place, end) in places.iter_mut().zip(ends) {
        *place = W::place(end).ok_or(2u64)?;
    }
    let ranges = [0, 2, 4].map(|i| Range { low: places[i], high: places[i + 1] });
    if ranges.iter().any(|r| r.low > r.high) { Err(3) } else { Ok(ranges) }
}

/// Puts the ends of each interval in order by place, so that more calls get past refusal 3.
pub fn order(width: u64, ends: &mut [u64; 6]) {
    let place = |p: u64| if width == 32 { Binary32::place(p) } else { Binary64::place(p) };
    for pair in ends.chunks_mut(2) {
        if place(pair[0]) > place(pair[1]) {
            pair.swap(0, 1);
        }
    }
}
