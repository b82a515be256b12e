//! Holds our fit of a group of stones against the Rust's `SkewedGridLocation::from_group`. `oracle/run fit` builds and starts it.
mod asked;
mod mark_pictures;
mod ours;
mod panics;
mod pictures;
mod random;
mod report;
mod symbols;
mod tables;

use asked::{end, said, Asked};
use ours::{Room, FAR, LENGTH, NOTHING, SIZE, TABLE, TIMING, TURNED};
use pictures::Picture;
use random::Random;
use report::{same_float, unless_panic, Report};
use symbols::{seen, Seen};
use theirs::detect::{capstones_from_image, CapStone};
use theirs::geometry::Perspective;
use theirs::identify::match_capstones::{find_and_rank_possible_neighbors, CapStoneGroup};
use theirs::prepare::{reach, ColoredRegion};
use theirs::version_db::VERSION_DATA_BASE;
use theirs::{Point, SkewedGridLocation};

const FARTHEST: i64 = 10_000;
/// What stands in the table's places past its entries, and is not to matter.
const STRAY: usize = 200;

fn main() {
    let asked = Asked::read();
    end(compare(asked.seed, asked.count(100_000)))
}

// ---------------------------------------------------------------- ours

/// What every call borrows.
struct Lent {
    stack: Vec<u32>,
    scratch: Vec<u8>,
    counts: Vec<usize>,
    floats: Vec<f64>,
}

impl Lent {
    fn new() -> Lent {
        Lent { stack: vec![77; 640_000], scratch: vec![77; 640_000], counts: vec![77; 1006], floats: vec![7.7; 8] }
    }

    /// Lends a table: its numbers by age, and the entry of each; what stands past them is not to matter.
    fn lend(&mut self, table: &[(u8, ColoredRegion)]) {
        self.counts.fill(STRAY);
        self.floats.fill(7.7);
        self.counts[tables::ENTRIES] = table.len();
        for (k, (age, region)) in table.iter().enumerate() {
            self.counts[4 * k] = *age as usize;
            self.counts[4 * *age as usize + 1..4 * *age as usize + 4].copy_from_slice(&tables::entry(region));
        }
    }

    fn fit(&mut self, pixels: &mut [u8], width: usize, height: usize, group: &[CapStone; 3]) -> u8 {
        let places: Vec<i32> = group.iter().flat_map(|s| s.corners.into_iter().chain([s.center])).flat_map(|p| [p.x, p.y]).collect();
        let n = width.saturating_mul(height).min(640_000);
        let room = Room { stack: &mut self.stack[..n], scratch: &mut self.scratch[..n] };
        ours::fit(pixels, width, height, room, &mut self.counts, &places, &mut self.floats)
    }

    /// The table is the Rust's, and the places past its entries are as they were.
    fn same_table(&self, img: &reach::Picture) -> bool {
        tables::same(&self.counts, img) && tables::holds_past(&self.counts, STRAY)
    }

    fn same_grid(&self, grid: &SkewedGridLocation) -> bool {
        self.counts[1005] == grid.grid_size && grid.c.0.iter().zip(&self.floats).all(|(a, b)| same_float(*a, *b))
    }

    fn floats_kept(&self) -> bool {
        self.floats.iter().all(|x| *x == 7.7)
    }
}

// ---------------------------------------------------------------- the Rust

/// A picture with the same bytes and the same table, in the same order of ages.
fn copy(w: usize, h: usize, pixels: &[u8], table: &[(u8, ColoredRegion)]) -> reach::Picture {
    let mut img = reach::picture(w, h, pixels);
    for (number, region) in table.iter().rev() {
        let [x, y, px] = tables::entry(region);
        reach::put(&mut img, *number, x, y, px);
    }
    img
}

/// Whether a limit of document 01's bites, by the Rust's own steps in wide numbers: at a point that every group has, or at one that only a
/// search for the alignment pattern has.
fn limits(width: usize, height: usize, group: &[CapStone; 3]) -> (bool, bool) {
    let out = |p: Point| i64::from(p.x).abs() > FARTHEST || i64::from(p.y).abs() > FARTHEST;
    let inside = |p: &Point| (0..width as i32).contains(&p.x) && (0..height as i32).contains(&p.y);
    if group.iter().any(|s| out(s.center) || !s.corners.iter().all(inside)) {
        return (true, true);
    }
    let [mut a, b, mut c] = group.clone();
    let h0 = a.center;
    let wide = |p: Point, q: Point| (i64::from(p.x) - i64::from(q.x), i64::from(p.y) - i64::from(q.y));
    let mut hd = wide(c.center, a.center);
    let side = |p: Point, hd: (i64, i64)| wide(p, h0).0 * -hd.1 + wide(p, h0).1 * hd.0;
    if side(b.center, hd) > 0 {
        std::mem::swap(&mut a, &mut c);
        hd = (-hd.0, -hd.1);
    }
    let mut turned = vec![];
    for stone in [a, b, c] {
        let mut corners = stone.corners;
        let first = (0..4).min_by_key(|k| side(corners[*k], hd)).unwrap();
        corners.rotate_left(first);
        match Perspective::create(&corners, 7.0, 7.0) {
            Some(made) => turned.push((corners, made)),
            None => return (false, false),
        }
    }
    for (k, u, v) in [(0, 6.5, 0.5), (1, 6.5, 6.5), (2, 0.5, 6.5)] {
        match unless_panic(|| turned[k].1.map(u, v)) {
            Some(p) if out(p) => return (true, true),
            Some(_) => (),
            None => return (false, false),
        }
    }
    let (p, q) = (&turned[0].0, &turned[2].0);
    let Some(Some(seed)) = unless_panic(|| theirs::geometry::line_intersect(&p[0], &p[1], &q[0], &q[3])) else { return (false, false) };
    if out(seed) {
        return (true, true);
    }
    let ((u, v), (s, t)) = (turned[0].1.unmap(&seed), turned[2].1.unmap(&seed));
    let Some(a) = unless_panic(|| turned[0].1.map(u, v + 1.0)) else { return (false, false) };
    if out(a) {
        return (false, true);
    }
    let Some(c) = unless_panic(|| turned[2].1.map(s + 1.0, t)) else { return (false, false) };
    let (a, c) = (wide(a, seed), wide(c, seed));
    (false, c.0.abs() > 2 * FARTHEST || out(Point { x: c.0 as i32 + seed.x, y: c.1 as i32 + seed.y }) || (a.0 * -c.1 + a.1 * c.0).abs() > FARTHEST)
}

// ---------------------------------------------------------------- comparison

/// A picture in some state, and groups to fit on it.
struct Scene {
    kind: &'static str,
    width: usize,
    height: usize,
    img: reach::Picture,
    groups: Vec<[CapStone; 3]>,
}

fn compare(seed: u64, count: u64) -> bool {
    let mut lent = Lent::new();
    let mut r = Random::new(seed, "fit");
    let mut report = Report::new("groups fitted");
    while report.cases() < count {
        let scene = drawn(&mut r);
        for group in &scene.groups {
            fit_one(&mut report, &mut lent, &scene, group);
        }
    }
    let reports = [report, strays(&mut lent, &mut Random::new(seed, "strays"), count / 10), refusals(&mut lent, &mut r)];
    reports.into_iter().map(Report::close).fold(true, |a, b| a && b)
}

/// Pictures with numbers that the table has no entry of: the Rust panics where it looks one up.
fn strays(lent: &mut Lent, r: &mut Random, count: u64) -> Report {
    let mut report = Report::new("groups fitted among stray numbers");
    while report.cases() < count {
        let mut scene = if r.one_in(3) { full(r) } else { symbol_true(r) };
        for _ in 0..3 {
            paint(r, &mut scene);
        }
        let table = reach::table(&scene.img);
        let kept = r.below(table.len() + 1);
        let table: Vec<_> = table.into_iter().filter(|(number, _)| (*number as usize) < kept).collect();
        scene.img = copy(scene.width, scene.height, reach::pixels(&scene.img), &table);
        for group in &scene.groups {
            fit_one(&mut report, lent, &scene, group);
        }
    }
    report
}

fn size_kind(size: usize) -> &'static str {
    match size {
        0..=17 => "17",
        18..=21 => "21",
        22..=45 => "25 to 45",
        46..=100 => "49 to 97",
        101 => "101",
        _ => "105 to 177",
    }
}

/// One group on both sides. Where ours refuses, the picture, the table and the floats are as they were.
fn fit_one(report: &mut Report, lent: &mut Lent, scene: &Scene, group: &[CapStone; 3]) {
    let (w, h) = (scene.width, scene.height);
    let before = reach::pixels(&scene.img).to_vec();
    let table = reach::table(&scene.img);
    lent.lend(&table);
    let lent_before = lent.counts.clone();
    let mut pixels = before.clone();
    let ours = lent.fit(&mut pixels, w, h, group);
    let kept = || pixels == before && lent.counts == lent_before && lent.floats_kept();
    let (always, sometimes) = limits(w, h, group);
    let mut img = copy(w, h, &before, &table);
    let [a, b, c] = group.clone();
    // past a limit the Rust goes on, and may search for hours
    let found = if ours == FAR { Some(None) } else { unless_panic(|| SkewedGridLocation::from_group(&mut img, CapStoneGroup(a, b, c))) };
    let said = if found.is_none() { said() } else { String::new() };
    let left = || pixels == reach::pixels(&img) && lent.same_table(&img);
    let (same, outcome) = match &found {
        _ if ours == FAR => (sometimes && kept(), "12, where a limit bites".to_string()),
        _ if always && ours != TIMING => (false, String::new()),
        Some(Some(grid)) => (ours == 0 && lent.same_grid(grid) && left(), format!("a grid of {}", size_kind(grid.grid_size))),
        Some(None) => (ours == NOTHING && lent.counts[1005] == 0 && lent.floats_kept() && left(), "no grid".to_string()),
        None => (panics::number_of(&said) == ours && kept(), format!("{ours}, the Rust panics")),
    };
    let full = if table.len() == 251 { ", table full" } else { "" };
    let unmended = VERSION_DATA_BASE[21].apat[4] == 92;
    let of_101 = |size: usize| size == 101;
    let touched = match &found {
        Some(Some(grid)) => of_101(grid.grid_size),
        _ => ours == 0 && of_101(lent.counts[1005]),
    };
    if !same && unmended && touched {
        return report.agree(&format!("{}: DIFFERS in a grid of 101, as the table's entry 21 does", scene.kind));
    }
    report.case(same, &format!("{}: {outcome}{full}", scene.kind), (w * h) as u64, || {
        let shown = Picture { kind: scene.kind, width: w, height: h, pixels: before.clone() };
        let places: Vec<_> = group.iter().map(|s| (s.corners.map(|p| (p.x, p.y)), (s.center.x, s.center.y))).collect();
        let told = (ours, lent.counts[1005], &lent.floats);
        format!(
            "{}\n    {} entries; {places:?}\n    ours {told:?}\n    the Rust {found:?} {said}\n    picture {} table {} kept {} limits {:?}",
            shown.told(),
            table.len(),
            pixels == reach::pixels(&img),
            lent.same_table(&img),
            kept(),
            (always, sometimes)
        )
    });
}

// ---------------------------------------------------------------- scenes

fn drawn(r: &mut Random) -> Scene {
    match r.below(12) {
        0..=3 => symbol_found(r, false),
        4 => symbol_found(r, true),
        5..=7 => symbol_true(r),
        8 => rings(r),
        9 | 10 => quads(r),
        _ => full(r),
    }
}

fn scene(kind: &'static str, picture: &Picture) -> Scene {
    let (width, height) = (picture.width, picture.height);
    Scene { kind, width, height, img: reach::picture(width, height, &picture.pixels), groups: vec![] }
}

/// Groups of the stones that the Rust finds: ranked ones, and any three.
fn groups_of(r: &mut Random, stones: &[CapStone]) -> Vec<[CapStone; 3]> {
    let mut groups = vec![];
    for idx in 0..stones.len().min(6) {
        for (h, v) in find_and_rank_possible_neighbors(stones, idx).into_iter().take(2) {
            groups.push([stones[h].clone(), stones[idx].clone(), stones[v].clone()]);
        }
    }
    if stones.len() >= 3 {
        for _ in 0..2 {
            groups.push([0; 3].map(|_| stones[r.below(stones.len())].clone()));
        }
    }
    groups
}

/// Some lookups and claims, wherever the Rust takes them.
fn paint(r: &mut Random, scene: &mut Scene) {
    let n = r.below(60);
    for _ in 0..n {
        let (x, y) = (r.below(scene.width), r.below(scene.height));
        let byte = reach::pixels(&scene.img)[y * scene.width + x];
        let target = r.pick(&[2, 3, 4]);
        if byte == 0 || byte == target {
            continue;
        }
        if r.one_in(3) {
            reach::claim(&mut scene.img, x, y, target, |_| ());
        } else {
            unless_panic(|| reach::look_up(&mut scene.img, x, y));
        }
    }
}

/// A symbol with the stones that the Rust finds in it, as detect has them.
fn symbol_found(r: &mut Random, painted: bool) -> Scene {
    let mut scene = scene(if painted { "symbol, painted" } else { "symbol" }, &seen(r).picture);
    let stones = unless_panic(|| capstones_from_image(&mut scene.img)).unwrap_or_default();
    if painted {
        paint(r, &mut scene);
    }
    scene.groups = groups_of(r, &stones);
    scene
}

/// A stone of these corners, whose perspective is not to matter.
fn stone(corners: [Point; 4], center: Point) -> CapStone {
    CapStone { corners, center, c: Perspective([f64::NAN; 8]) }
}

/// A symbol with stones at its true corners, or near them; they may be turned, and in any order.
fn symbol_true(r: &mut Random) -> Scene {
    let Seen { picture, c, size } = seen(r);
    let mut scene = scene("symbol, true corners", &picture);
    if r.one_in(3) {
        paint(r, &mut scene);
    }
    for _ in 0..3 {
        let off = r.pick(&[0, 0, 1, 1, 2, 4]);
        let mut near = |u: f64, v: f64| {
            let p = c.map(u, v);
            let at = |z: i32, side: usize, r: &mut Random| (z + r.between(-off, off)).clamp(0, side as i32 - 1);
            Point { x: at(p.x, picture.width, r), y: at(p.y, picture.height, r) }
        };
        let far = (size - 7) as f64;
        let mut group = [(far, 0.0), (0.0, 0.0), (0.0, far)].map(|(u, v)| {
            let corners = [near(u, v), near(u + 7.0, v), near(u + 7.0, v + 7.0), near(u, v + 7.0)];
            stone(corners, near(u + 3.5, v + 3.5))
        });
        group.iter_mut().for_each(|s| s.corners.rotate_left(r.below(4)));
        if r.one_in(2) {
            group.swap(0, 2);
        }
        if r.one_in(6) {
            group.swap(0, 1);
        }
        scene.groups.push(group);
    }
    scene
}

/// Rings and other marks, and any three of those that the Rust finds.
fn rings(r: &mut Random) -> Scene {
    let (width, height) = (r.below(100) + 30, r.below(100) + 30);
    let mut scene = scene("rings", &mark_pictures::drawn(r, width, height));
    let stones = unless_panic(|| capstones_from_image(&mut scene.img)).unwrap_or_default();
    scene.groups = groups_of(r, &stones);
    scene
}

/// Three stones with corners anywhere in the picture, mostly near a place of their own, and now and then outside or far out.
fn loose(r: &mut Random, width: usize, height: usize) -> [CapStone; 3] {
    let wild = r.one_in(3);
    let reach = r.pick(&[1, 3, 8, 20]);
    [0; 3].map(|_| {
        let (cx, cy) = (r.below(width) as i32, r.below(height) as i32);
        let edge = |z: i32, side: usize| z.clamp(0, side as i32 - 1);
        let mut at = |dx: i32, dy: i32| {
            let (x, y) = if wild {
                (r.below(width) as i32, r.below(height) as i32)
            } else {
                (cx + dx * reach + r.between(-reach / 2, reach / 2), cy + dy * reach + r.between(-reach / 2, reach / 2))
            };
            Point { x: edge(x, width), y: edge(y, height) }
        };
        let mut corners = [at(-1, -1), at(1, -1), at(1, 1), at(-1, 1)];
        corners.rotate_left(r.below(4));
        let center = if r.one_in(20) { Point { x: r.between(-10_001, 10_001), y: r.between(-10_001, 10_001) } } else { Point { x: cx, y: cy } };
        if r.one_in(100) {
            corners[r.below(4)] = Point { x: r.between(-2, width as i32 + 2), y: r.between(-2, height as i32 + 2) };
        }
        stone(corners, center)
    })
}

fn quads(r: &mut Random) -> Scene {
    let (width, height) = (r.below(90) + 4, r.below(90) + 4);
    let picture = mark_pictures::drawn(r, width, height);
    let mut scene = scene("loose corners", &picture);
    if r.one_in(2) {
        paint(r, &mut scene);
    }
    scene.groups = (0..6).map(|_| loose(r, width, height)).collect();
    scene
}

/// A picture of more pieces than there are numbers, looked up until the table is full.
fn full(r: &mut Random) -> Scene {
    let symbol = r.one_in(2);
    let Seen { mut picture, c, size } = seen(r);
    if picture.width * picture.height < 3000 || !symbol {
        let (width, height) = (60 + r.below(60), 60 + r.below(60));
        picture = Picture::new("dots", width, height, |x, y| u8::from(x % 2 == 0 && y % 2 == 0 || r.one_in(20)));
    } else {
        picture.pixels.iter_mut().for_each(|b| *b ^= u8::from(r.one_in(20)));
    }
    let mut scene = scene("table full", &picture);
    let (width, height) = (picture.width, picture.height);
    for _ in 0..6000 {
        let (x, y) = (r.below(width), r.below(height));
        if reach::pixels(&scene.img)[y * width + x] == 1 {
            reach::look_up(&mut scene.img, x, y);
        }
        if r.one_in(50) && reach::table(&scene.img).len() == 251 {
            break;
        }
    }
    let at = |u: f64, v: f64| {
        let p = c.map(u, v);
        Point { x: p.x.clamp(0, width as i32 - 1), y: p.y.clamp(0, height as i32 - 1) }
    };
    let far = (size - 7) as f64;
    let group = [(far, 0.0), (0.0, 0.0), (0.0, far)]
        .map(|(u, v)| stone([at(u, v), at(u + 7.0, v), at(u + 7.0, v + 7.0), at(u, v + 7.0)], at(u + 3.5, v + 3.5)));
    scene.groups = vec![group, loose(r, width, height), loose(r, width, height)];
    scene
}

// ---------------------------------------------------------------- refusals

/// What document 01 refuses before the first step, in its order; the Rust isn't asked. All stays as it was.
fn refusals(lent: &mut Lent, r: &mut Random) -> Report {
    let mut report = Report::new("groups that are refused");
    let ends = [0, 1, 2, 9, 800, 801, usize::MAX];
    for (width, height) in ends.iter().flat_map(|w| ends.iter().map(move |h| (*w, *h))) {
        for length in [0usize, 1, 4, 18, 81, 800] {
            for bad in 0..4 {
                let mut pixels: Vec<u8> = (0..length).map(|_| r.below(2) as u8).collect();
                let bytes = pixels.clone();
                lent.lend(&[]);
                if bad == 1 {
                    lent.counts[tables::ENTRIES] = r.pick(&[1, 252, usize::MAX]);
                }
                let point = Point { x: 0, y: 0 };
                let mut group = [0; 3].map(|_| stone([point; 4], point));
                match bad {
                    2 => group[r.below(3)].corners[r.below(4)] = Point { x: r.pick(&[-1, 800]), y: 0 },
                    3 => group[r.below(3)].center = Point { x: 0, y: r.pick(&[-10_001, 10_001, i32::MIN]) },
                    _ => (),
                }
                let lent_before = lent.counts.clone();
                let side = |n| (1..=800).contains(&n);
                let expected = if !side(width) || !side(height) {
                    SIZE
                } else if width * height != length {
                    LENGTH
                } else {
                    [TURNED, TABLE, FAR, FAR][bad]
                };
                let ours = lent.fit(&mut pixels, width, height, &group);
                let kept = pixels == bytes && lent.counts == lent_before && lent.floats_kept();
                report.case(ours == expected && kept, &format!("{expected}"), length as u64, || {
                    format!("{width} x {height}, {length} bytes, {bad}: ours {ours}, expected {expected}, kept {kept}")
                });
            }
        }
    }
    report
}
