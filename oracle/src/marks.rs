//! Holds our search for marks against the Rust's `capstones_from_image`, and measures both. `oracle/run marks` builds and starts it.
mod asked;
mod mark_pictures;
mod ours;
mod pictures;
mod random;
mod report;
mod tables;
mod turns;

use asked::{end, Asked};
use mark_pictures::{dashes, drawn, full};
use ours::{BYTE, FAR, LENGTH, ROOM, SIZE, STONES, UNPLACED};
use pictures::{nth, slate, Picture};
use random::Random;
use report::{same_float, unless_panic, Report};
use theirs::detect::{capstones_from_image, CapStone};
use theirs::prepare::reach;
use theirs::Point;
use turns::{timed, Table};

fn main() {
    let asked = Asked::read();
    end(match asked.what.as_str() {
        "marks" => compare(asked.seed, asked.count(400_000)),
        "marks-speed" => measure(asked.seed, asked.turns()),
        _ => asked.unknown(),
    })
}

// ---------------------------------------------------------------- ours

/// What every call borrows; it is never cleared.
struct Lent {
    stack: Vec<u32>,
    places: Vec<i32>,
    floats: Vec<f64>,
    counts: Vec<usize>,
}

impl Lent {
    fn new() -> Lent {
        Lent { stack: vec![77; 640_000], places: vec![77; 640], floats: vec![7.7; 512], counts: vec![77; 1006] }
    }

    fn search(&mut self, pixels: &mut [u8], width: usize, height: usize, entries: usize) -> u8 {
        ours::capstones(pixels, width, height, &mut self.stack[..entries], &mut self.places, &mut self.floats, &mut self.counts)
    }

    /// The stones are the Rust's: corners, centre, and each coefficient bit for bit. The others are blank.
    fn same_stones(&self, stones: &[CapStone]) -> bool {
        let same = |k: usize, stone: &CapStone| {
            let points = stone.corners.iter().chain([&stone.center]).flat_map(|p| [p.x, p.y]);
            let floats = stone.c.0.iter().zip(&self.floats[8 * k..]);
            points.eq(self.places[10 * k..10 * k + 10].iter().copied()) && floats.into_iter().all(|(a, b)| same_float(*a, *b))
        };
        self.counts[1005] == stones.len() && stones.iter().enumerate().all(|(k, stone)| same(k, stone)) && self.blank_from(stones.len())
    }

    fn blank_from(&self, k: usize) -> bool {
        self.places[10 * k..].iter().all(|z| *z == 0) && self.floats[8 * k..].iter().all(|x| x.is_nan())
    }
}

// ---------------------------------------------------------------- comparison

fn compare(seed: u64, count: u64) -> bool {
    let mut lent = Lent::new();
    let reports = [
        small(&mut lent),
        pictures_of(&mut lent, &mut Random::new(seed, "marks"), count),
        large(&mut lent, &mut Random::new(seed, "large marks"), count / 400),
        refusals(&mut lent, &mut Random::new(seed, "mark refusals")),
    ];
    let searches: u64 = reports.iter().map(Report::cases).sum();
    let agreed = reports.into_iter().map(Report::close).fold(true, |a, b| a && b);
    println!("marks: {searches} pictures in all");
    agreed
}

/// The number that document 01 gives the Rust's stones: a centre that is too far out, or a 65th stone.
fn number_of(stones: &[CapStone]) -> u8 {
    let far = |p: &Point| !(-10_000..=10_000).contains(&p.x) || !(-10_000..=10_000).contains(&p.y);
    for (k, stone) in stones.iter().enumerate() {
        if far(&stone.center) {
            return FAR;
        }
        if k == 64 {
            return STONES;
        }
    }
    0
}

/// One search on both sides. The Rust goes on after 11 and 12, so only the number is compared there; where it panics, the picture and the
/// table are compared as the panic leaves them.
fn search_one(report: &mut Report, lent: &mut Lent, picture: &Picture) {
    let (w, h) = (picture.width, picture.height);
    let mut img = reach::picture(w, h, &picture.pixels);
    let found = unless_panic(|| capstones_from_image(&mut img));
    let mut pixels = picture.pixels.clone();
    let ours = lent.search(&mut pixels, w, h, w * h);
    let left = || pixels == reach::pixels(&img) && tables::same(&lent.counts, &img);
    let (same, outcome) = match &found {
        Some(stones) => match number_of(stones) {
            0 => {
                let kind = match stones.len() {
                    0 if reach::table(&img).is_empty() => "nothing looked up",
                    0 => "no stone",
                    1..=3 => "1 to 3 stones",
                    _ => "4 to 64 stones",
                };
                (ours == 0 && lent.same_stones(stones) && left(), kind)
            }
            FAR => (ours == FAR && lent.blank_from(0), "12"),
            _ => (ours == STONES && lent.blank_from(0), "11"),
        },
        None if ours == UNPLACED => (lent.blank_from(0) && left(), "13, the Rust panics"),
        None => (ours == FAR || ours == STONES, "12 or 11, and the Rust panics later"),
    };
    let full = if found.is_some() && reach::table(&img).len() == 251 { ", table full" } else { "" };
    report.case(same, &format!("{}: {outcome}{full}", picture.kind), (w * h) as u64, || {
        let stones = found.as_ref().map(|s| (s.len(), number_of(s)));
        format!("search of {}: ours {ours} with {} stones, the Rust {stones:?}", picture.told(), lent.counts[1005])
    });
}

/// Every bitmap of 7 x 3, in which the smallest marks are, and of some other small sides.
fn small(lent: &mut Lent) -> Report {
    let mut report = Report::new("marks in every small bitmap");
    for (width, height) in [(1, 1), (1, 7), (7, 1), (12, 1), (5, 3), (7, 2), (7, 3), (9, 2)] {
        for k in 0..1 << (width * height) {
            search_one(&mut report, lent, &nth("small", width, height, &[0, 1], k));
        }
    }
    report
}

/// Drawn pictures, mostly up to 120 on a side.
fn pictures_of(lent: &mut Lent, r: &mut Random, count: u64) -> Report {
    let mut report = Report::new("marks in drawn pictures");
    while report.cases() < count {
        let reach = r.pick(&[12, 30, 30, 60, 60, 90, 120]);
        let (width, height) = (r.below(reach) + 1, r.below(reach) + 1);
        search_one(&mut report, lent, &drawn(r, width, height));
    }
    report
}

/// Pictures up to 800 on a side.
fn large(lent: &mut Lent, r: &mut Random, count: u64) -> Report {
    let mut report = Report::new("marks in large pictures");
    while report.cases() < count {
        let (width, height) = (r.below(681) + 120, r.below(681) + 120);
        search_one(&mut report, lent, &drawn(r, width, height));
    }
    for _ in 0..8 {
        search_one(&mut report, lent, &drawn(r, 800, 800));
    }
    report
}

/// What document 01 refuses before a search, in its order; the Rust isn't asked. The picture stays as it was.
fn refusals(lent: &mut Lent, r: &mut Random) -> Report {
    let mut report = Report::new("searches that are refused");
    let ends = [0, 1, 2, 3, 6, 799, 800, 801, 65_536, 1 << 32, usize::MAX];
    for (width, height) in ends.iter().flat_map(|w| ends.iter().map(move |h| (*w, *h))) {
        for length in [0usize, 1, 2, 6, 9, 12, 18, 800, 1600] {
            for (entries, top) in [(length, 1), (length, 2), (length + 5, 255), (length.saturating_sub(1), 1), (0, 2)] {
                let bytes: Vec<u8> = (0..length).map(|k| if k + 1 == length { top } else { r.below(2) as u8 }).collect();
                let side = |n| (1..=800).contains(&n);
                let expected = if !side(width) || !side(height) {
                    SIZE
                } else if width * height != length {
                    LENGTH
                } else if entries < length {
                    ROOM
                } else if top > 1 {
                    BYTE
                } else {
                    0
                };
                let mut pixels = bytes.clone();
                let ours = lent.search(&mut pixels, width, height, entries);
                let kept = expected == 0 || (pixels == bytes && lent.blank_from(0) && lent.counts[1004] == 0);
                report.case(ours == expected && kept, &format!("{expected}"), length as u64, || {
                    format!("{width} x {height}, {length} bytes, {entries} entries, last {top}: ours {ours}, expected {expected}, kept {kept}")
                });
            }
        }
    }
    report
}

// ---------------------------------------------------------------- speed

/// The search alone. What our call does beside it is taken off: it is what a call takes whose last byte is refused.
fn measure(seed: u64, turns: usize) -> bool {
    let table = Table::new(turns);
    let mut r = Random::new(seed, "mark speed");
    for side in [400, 800] {
        let white = Picture::new("white", side, side, |_, _| 0);
        let black = Picture::new("black", side, side, |_, _| 1);
        let noise = Picture::new("noise of 30 in 100", side, side, |_, _| u8::from(r.below(100) < 30));
        let board = pictures::checkerboard(side, side);
        for picture in [white, black, noise, board, slate(&mut r, side, side), dashes(&mut r, side, side), full(side, side)] {
            search_line(&table, &picture);
        }
    }
    true
}

fn search_line(table: &Table, picture: &Picture) {
    let (w, h) = (picture.width, picture.height);
    let mut lent = Lent::new();
    let mut shadow = Lent::new();
    let mut pixels = picture.pixels.clone();
    let mut refused = picture.pixels.clone();
    refused[w * h - 1] = 2;
    lent.search(&mut pixels, w, h, w * h);
    let input = format!("{}, {w} x {h}, {} stones", picture.kind, lent.counts[1005]);
    table.line(
        "capstones_from_image",
        &input,
        || {
            let mut img = reach::picture(w, h, &picture.pixels);
            timed(|| capstones_from_image(&mut img))
        },
        || {
            pixels.copy_from_slice(&picture.pixels);
            let whole = timed(|| lent.search(&mut pixels, w, h, w * h));
            whole.saturating_sub(timed(|| shadow.search(&mut refused, w, h, w * h)))
        },
    );
}
