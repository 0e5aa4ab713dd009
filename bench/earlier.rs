//! The calls by an earlier build of the libraries, where bench/run was given one.

use crate::Call;
use crate::sums::Add;

/// The forward sum.
#[cfg(earlier)]
pub const ADD: Option<Add> = Some(crate::earlier_exports::add);
#[cfg(not(earlier))]
pub const ADD: Option<Add> = None;

/// The narrowing in integers and the fast one.
#[cfg(earlier)]
pub const NARROW: Option<[Call; 2]> = Some([crate::earlier_bindings::entry, crate::earlier_bindings::entry_fast]);
#[cfg(not(earlier))]
pub const NARROW: Option<[Call; 2]> = None;
