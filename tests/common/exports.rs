//! The library's forward sum, by its export for tests.

unsafe extern "C" {
    fn test_add(width: u64, x: u64, a: u64, out: *mut [u64; 3]) -> u64;
}

/// 0 with the pattern, the mark and the remainder, or the refusal number with `out` as it was.
pub fn add(width: u64, x: u64, a: u64, out: &mut [u64; 3]) -> u64 {
    // The pointer is a reference's.
    unsafe { test_add(width, x, a, out) }
}
