//! What a panic of the Rust's counts as.
use std::panic::{catch_unwind, AssertUnwindSafe};

/// A panic: what it says, and the number that document 01 gives it, 0 where it gives none.
#[derive(Debug)]
pub struct Panic {
    pub number: u8,
    pub said: String,
}

/// What the Rust answers, or its panic.
pub fn asked<T>(f: impl FnOnce() -> T) -> Result<T, Panic> {
    catch_unwind(AssertUnwindSafe(f)).map_err(|panic| {
        let said = panic.downcast_ref::<String>().cloned().or(panic.downcast_ref::<&str>().map(|s| s.to_string())).unwrap_or_default();
        Panic { number: number_of(&said), said }
    })
}

/// The number that document 01 gives a panic, by what it says. The last two are tests of 01's that `oracle/limits` adds.
fn number_of(said: &str) -> u8 {
    let told = [
        ("x <= i32::MAX as f64", 13),
        ("x >= i32::MIN as f64", 13),
        ("y <= i32::MAX as f64", 13),
        ("y >= i32::MIN as f64", 13),
        ("scan >= 1", 14),
        ("rotated perspective can't fail", 15),
        ("unwrap()", 10),
        ("limit: a 65th stone", 11),
        ("limit: too far", 12),
    ];
    told.iter().find(|(words, _)| said.contains(words)).map_or(0, |(_, number)| *number)
}
