//! Both sides' time on the same inputs, in one process, by turns. What a call needs is restored outside the timer.
use crate::ours::{self, Seed};
use crate::pictures::{bitmap, checkerboard, comb, frame, grey, maze, rings, slate, spiral, Picture};
use crate::random::Random;
use crate::turns::{timed, Table};
use std::hint::black_box;
use theirs::geometry::{line_intersect, BresenhamScan, Perspective};
use theirs::prepare::reach;
use theirs::Point;

pub fn measure(seed: u64, turns: usize) -> bool {
    let table = Table::new(turns);
    points(&table, &mut Random::new(seed, "points"));
    for side in [100, 400, 800] {
        thresholds(&table, &mut Random::new(seed, "thresholds"), side);
    }
    for side in [400, 800] {
        claims(&table, &mut Random::new(seed, "claims"), side);
    }
    true
}

// ---------------------------------------------------------------- points

/// A thousand calls each.
fn points(table: &Table, r: &mut Random) {
    let some = 1000;
    let rects: Vec<[Point; 4]> = (0..some)
        .map(|_| {
            let (x, y, side) = (r.between(0, 600), r.between(0, 600), r.between(7, 190));
            let mut near = |x, y| Point { x: x + r.between(0, 3), y: y + r.between(0, 3) };
            [near(x, y), near(x + side, y), near(x + side, y + side), near(x, y + side)]
        })
        .collect();
    let flat: Vec<[i32; 8]> = rects.iter().map(|q| [q[0].x, q[0].y, q[1].x, q[1].y, q[2].x, q[2].y, q[3].x, q[3].y]).collect();
    let made: Vec<Perspective> = rects.iter().filter_map(|q| Perspective::create(q, 7.0, 7.0)).collect();
    table.line(
        "create",
        "1,000 marks",
        || timed(|| rects.iter().for_each(|q| drop(black_box(Perspective::create(q, 7.0, 7.0))))),
        || timed(|| flat.iter().for_each(|q| drop(black_box(ours::create(q, 7.0, 7.0, &mut [0.0; 8]))))),
    );
    table.line(
        "map",
        "1,000 points",
        || timed(|| made.iter().for_each(|p| drop(black_box(p.map(3.5, 2.3))))),
        || timed(|| made.iter().for_each(|p| drop(black_box(ours::map(&p.0, 3.5, 2.3, &mut [0; 2]))))),
    );
    table.line(
        "unmap",
        "1,000 points",
        || timed(|| made.iter().for_each(|p| drop(black_box(p.unmap(&Point { x: 300, y: 200 }))))),
        || timed(|| made.iter().for_each(|p| drop(black_box(ours::unmap(&p.0, Point { x: 300, y: 200 }, &mut [0.0; 2]))))),
    );
    table.line(
        "line_intersect",
        "1,000 pairs",
        || timed(|| rects.iter().for_each(|q| drop(black_box(line_intersect(&q[0], &q[2], &q[1], &q[3]))))),
        || timed(|| flat.iter().for_each(|q| drop(black_box(ours::line_intersect(q, &mut [0; 2]))))),
    );
    let (from, to) = (Point { x: 12, y: 700 }, Point { x: 790, y: 33 });
    let mut room = vec![0; 2000];
    table.line(
        "scan",
        "779 points",
        || timed(|| BresenhamScan::new(black_box(&from), &to).map(|p| p.x ^ p.y).fold(0, |a, b| a ^ b)),
        || timed(|| ours::scan(black_box(from), to, &mut room)),
    );
}

// ---------------------------------------------------------------- threshold

fn thresholds(table: &Table, r: &mut Random, side: usize) {
    let mut noise = grey(r, side, side);
    while noise.kind != "noise" {
        noise = grey(r, side, side);
    }
    let white = Picture::new("white", side, side, |_, _| 255);
    for picture in [frame(r, side, side), noise, white] {
        let input = format!("{}, {side} x {side}", picture.kind);
        let mut pixels = picture.pixels.clone();
        table.line(
            "prepare",
            &input,
            || {
                let bytes = picture.pixels.clone().into();
                timed(|| reach::prepare(side, side, bytes))
            },
            || {
                pixels.copy_from_slice(&picture.pixels);
                timed(|| ours::prepare(&mut pixels, side, side))
            },
        );
    }
    let bits = slate(r, side, side);
    table.line(
        "accept",
        &format!("slate, {side} x {side}"),
        || {
            let bytes = bits.pixels.clone().into();
            timed(|| reach::accept(side, side, bytes))
        },
        || timed(|| ours::accept(&bits.pixels, side, side)),
    );
}

// ---------------------------------------------------------------- claims

fn claims(table: &Table, r: &mut Random, side: usize) {
    let mut noise = bitmap(r, side, side);
    while noise.kind != "noise" {
        noise = bitmap(r, side, side);
    }
    noise.pixels.iter_mut().for_each(|b| *b = u8::from(r.below(100) < 65));
    let black = Picture::new("black", side, side, |_, _| 1);
    for picture in [black, spiral(side, side), comb(side, side, 1), rings(side, side), maze(r, side, side), noise, slate(r, side, side)] {
        let at = largest(&picture);
        claim_line(table, &format!("{}, {side} x {side}", picture.kind), &picture, &[at]);
    }
    let board = checkerboard(side, side);
    let seeds: Vec<usize> = (0..side * side).filter(|at| board.pixels[*at] == 1).step_by(side * side / 2000).collect();
    claim_line(table, &format!("checkerboard, {side} x {side}, {} pieces", seeds.len()), &board, &seeds);
}

/// A pixel of the largest piece.
fn largest(picture: &Picture) -> usize {
    let (w, h) = (picture.width, picture.height);
    let mut img = reach::picture(w, h, &picture.pixels);
    let (mut best, mut most) = (0, 0);
    for at in 0..w * h {
        if reach::pixels(&img)[at] == 1 {
            let mut pixels = 0;
            reach::claim(&mut img, at % w, at / w, 2, |row| pixels += row.right - row.left + 1);
            if pixels > most {
                (best, most) = (at, pixels);
            }
        }
    }
    best
}

fn claim_line(table: &Table, input: &str, picture: &Picture, seeds: &[usize]) {
    let (w, h) = (picture.width, picture.height);
    let mut img = reach::picture(w, h, &picture.pixels);
    let mut pixels = picture.pixels.clone();
    let mut stack = vec![0; w * h];
    table.line(
        "claim",
        input,
        || {
            reach::restore(&mut img, &picture.pixels);
            timed(|| {
                let mut pixels = 0;
                for at in seeds {
                    reach::claim(&mut img, at % w, at / w, 2, |row| pixels += row.right - row.left + 1);
                }
                pixels
            })
        },
        || {
            pixels.copy_from_slice(&picture.pixels);
            timed(|| {
                for at in seeds {
                    ours::claim(&mut pixels, w, h, &mut stack, Seed { x: at % w, y: at / w, target: 2 }, &mut [0; 3]);
                }
            })
        },
    );
}
