//! The calls on numbers, which refuse nothing.
use crate::sys;

/// How many marks a block of the fits has, where `n` marks are cut; of a ring mark 0 counts twice.
pub fn max_points_to_fit(n: usize) -> usize {
    // SAFETY: the call takes any number, and no pointer.
    unsafe { sys::wes_max_points_to_fit(n) }
}

/// How many blocks a joined fit of `n` marks has; for a ring of n marks ask for n + 1.
pub fn joined_blocks(n: usize) -> usize {
    // SAFETY: the call takes any number, and no pointer.
    unsafe { sys::wes_joined_blocks(n) }
}

/// The square root, rounded to the nearest number; NaN below zero.
pub fn sqrt(x: f64) -> f64 {
    // SAFETY: the call takes any number, and no pointer.
    unsafe { sys::wes_sqrt(x) }
}
