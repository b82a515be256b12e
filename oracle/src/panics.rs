//! What a panic of the Rust's counts as.
use crate::ours::{FAR, NUMBER, STONES, TIMING, TURNED, UNPLACED};

/// The number that document 01 gives a panic, by what it says; 0 where it gives none. The last two are tests of 01's that `oracle/limits` adds.
pub fn number_of(said: &str) -> u8 {
    let told = [
        ("x <= i32::MAX as f64", UNPLACED),
        ("x >= i32::MIN as f64", UNPLACED),
        ("y <= i32::MAX as f64", UNPLACED),
        ("y >= i32::MIN as f64", UNPLACED),
        ("scan >= 1", TIMING),
        ("rotated perspective can't fail", TURNED),
        ("unwrap()", NUMBER),
        ("limit: a 65th stone", STONES),
        ("limit: too far", FAR),
    ];
    told.iter().find(|(words, _)| said.contains(words)).map_or(0, |(_, number)| *number)
}
