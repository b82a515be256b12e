//! Both sides' time for detect on a whole bitmap. `speed` has the threshold before it.
use crate::mark_pictures::{dashes, white};
use crate::pictures::{symbol, viewed, Picture, View};
use crate::random::Random;
use crate::turns::{timed, Table};
use crate::Lent;
use theirs::prepare::reach;

pub fn measure(seed: u64, turns: usize) -> bool {
    let table = Table::new(turns);
    for side in [100, 400, 800] {
        let mut r = Random::new(seed, "whole pictures");
        for version in [1, 3, 7, 20, 40] {
            if 2 * (4 * version + 17) <= side * 9 / 10 {
                for noise in [0, 200] {
                    detect_line(&table, &one(&mut r, side, version, noise), &format!("version {version}, {}", flipped(noise)));
                }
            }
        }
        for across in [2, 3] {
            let version = if side == 100 { 1 } else { 2 };
            for noise in [0, 200] {
                detect_line(&table, &tiled(&mut r, side, version, across, noise), &format!("{} symbols, {}", across * across, flipped(noise)));
            }
        }
        let noise = Picture::new("noise", side, side, |_, _| u8::from(r.below(100) < 30));
        detect_line(&table, &white("white", side, side), "white");
        detect_line(&table, &noise, "noise of 30 in 100");
        detect_line(&table, &dashes(&mut r, side, side), "dashes");
    }
    true
}

fn flipped(noise: usize) -> &'static str {
    if noise == 0 { "clean" } else { "0.5 % flipped" }
}

/// One symbol, slightly turned and pulled.
fn one(r: &mut Random, side: usize, version: usize, noise: usize) -> Picture {
    let symbol = symbol(r, version);
    viewed(r, &symbol, side, side, &View { side: 0.88, turn: 0.05, pull: (0.0001, -0.0001), noise })
}

/// Symbols side by side, in rows.
fn tiled(r: &mut Random, side: usize, version: usize, across: usize, noise: usize) -> Picture {
    let tiles: Vec<Picture> = (0..across * across).map(|_| one(r, side / across, version, noise)).collect();
    let wide = side / across;
    Picture::new("several symbols", side, side, |x, y| {
        let (i, j) = (x / wide, y / wide);
        if i < across && j < across { tiles[j * across + i].pixels[y % wide * wide + x % wide] } else { 0 }
    })
}

/// Detect on a fresh bitmap. Ours is the whole call, with its tests of the bitmap and with telling what it finds.
fn detect_line(table: &Table, picture: &Picture, told: &str) {
    let (w, h) = (picture.width, picture.height);
    let mut lent = Lent::new();
    let mut pixels = picture.pixels.clone();
    let number = lent.detect(&mut pixels, w, h, w * h);
    let found = if number == 0 { format!("{} stones, {} grids", lent.stones(), lent.grids()) } else { format!("refused {number}") };
    table.line(
        "detect",
        &format!("{told}, {w} x {h}: {found}"),
        || {
            let mut img = reach::picture(w, h, &picture.pixels);
            timed(|| img.detect_grids().len())
        },
        || {
            pixels.copy_from_slice(&picture.pixels);
            timed(|| lent.detect(&mut pixels, w, h, w * h))
        },
    );
}
