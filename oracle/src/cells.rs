//! Holds the reading of cells against the Rust's `BitGrid::bit`. `oracle/run cells` builds and starts it.
mod asked;
mod mark_pictures;
mod ours;
mod pictures;
mod random;
mod report;

use asked::{end, Asked};
use ours::{INDEX, UNPLACED};
use random::Random;
use report::{unless_panic, Report};
use theirs::geometry::Perspective;
use theirs::prepare::reach;
use theirs::{BitGrid, Point, SkewedGridLocation};

const DARK: u8 = 254;
const LIGHT: u8 = 255;

fn main() {
    let asked = Asked::read();
    let mut r = Random::new(asked.seed, "cells");
    let mut report = Report::new("cells read");
    while report.cases() < asked.count(1_000_000) {
        scene(&mut report, &mut r);
    }
    end(report.close())
}

/// A perspective: of corners near the picture, with floats of any size, or with any floats at all.
fn perspective(r: &mut Random, width: usize, height: usize, size: u8) -> (&'static str, Perspective) {
    let kind = r.below(4);
    if kind < 2 {
        let (w, h) = (width as i32, height as i32);
        let corners = [(0, 0), (w, 0), (w, h), (0, h)].map(|(x, y)| Point { x: x + r.between(-w, w) / 3, y: y + r.between(-h, h) / 3 });
        if let Some(c) = Perspective::create(&corners, f64::from(size), f64::from(size)) {
            return ("of corners", c);
        }
    }
    match kind {
        0..=2 => ("of small floats", Perspective([0; 8].map(|_| r.within(-3.0, 3.0)))),
        _ => ("of any floats", Perspective([0; 8].map(|_| r.any_float()))),
    }
}

/// A picture, bytes of all kinds in it, and some cells of some grids.
fn scene(report: &mut Report, r: &mut Random) {
    let (width, height) = (r.below(60) + 1, r.below(60) + 1);
    let mut picture = mark_pictures::drawn(r, width, height);
    if r.one_in(2) {
        picture.pixels.iter_mut().for_each(|b| *b *= r.below(256) as u8);
    }
    for _ in 0..20 {
        let size = r.pick(&[0, 1, 17, 21, 25, 101, 177, 255]);
        let (kind, c) = perspective(r, width, height, size);
        let grid = SkewedGridLocation { grid_size: size as usize, c: c.clone() };
        let img = reach::picture(width, height, &picture.pixels);
        let image = grid.into_grid_image(&img);
        for _ in 0..20 {
            let past = r.one_in(10);
            let mut at = || if past { r.below(256) } else { r.below((size as usize).max(1)) };
            let (y, x) = (at(), at());
            let ours = ours::read_cell(&picture.pixels, width, height, size, &c.0, y as u8, x as u8);
            let expected = if x >= size as usize || y >= size as usize {
                INDEX
            } else {
                match unless_panic(|| image.bit(y, x)) {
                    Some(true) => DARK,
                    Some(false) => LIGHT,
                    None => UNPLACED,
                }
            };
            report.case(ours == expected, &format!("{kind}: {expected}"), (width * height) as u64, || {
                format!("{}\n    size {size}, line {y}, column {x}, {:?}: ours {ours}, the Rust {expected}", picture.told(), c.0)
            });
        }
    }
}
