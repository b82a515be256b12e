//! Holds our library against the Rust that it ports, on many inputs, and measures both. `oracle/run` builds and starts it.
mod asked;
mod fill;
mod floats;
mod geometry;
mod ours;
mod pictures;
mod prepare;
mod random;
mod report;
mod runs;
mod speed;
mod turns;

use asked::{end, Asked};

fn main() {
    let asked = Asked::read();
    let seed = asked.seed;
    end(match asked.what.as_str() {
        "geometry" => geometry::compare(seed, asked.count(10_000_000)),
        "prepare" => prepare::compare(seed, asked.count(20_000)),
        "claim" => fill::compare(seed, asked.count(800_000)),
        "lookup" => runs::compare(seed, asked.count(100_000)),
        "speed" => speed::measure(seed, asked.turns()),
        _ => asked.unknown(),
    })
}
