//! Document 01's limits, which the Rust does not have: a panic tells where one bites. `oracle/limits` says where they are tested.
use crate::Point;
use std::cell::Cell;

thread_local! {
    static STONES: Cell<usize> = const { Cell::new(0) };
}

/// A picture is begun.
pub fn begin() {
    STONES.with(|stones| stones.set(0))
}

/// How many stones it has so far.
pub fn stones() -> usize {
    STONES.with(Cell::get)
}

/// One stone more; 11 where there are 64.
pub fn one_more() {
    assert!(stones() < 64, "limit: a 65th stone");
    STONES.with(|stones| stones.set(stones.get() + 1))
}

/// A stated point; 12 where it leaves -10,000..10,000.
pub fn near(p: Point) -> Point {
    let reach = -10_000..=10_000;
    assert!(reach.contains(&p.x) && reach.contains(&p.y), "limit: too far");
    p
}

/// A size estimate; 12 where it is above 10,000.
pub fn small(estimate: usize) {
    assert!(estimate <= 10_000, "limit: too far");
}
