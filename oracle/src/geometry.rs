//! Points: rounding, perspectives, `map`, `unmap`, crossings and scans, bit for bit.
use crate::floats::{all_same, any, near, SPECIAL};
use crate::ours::{self, FOUND, NOTHING};
use crate::random::Random;
use crate::report::{unless_panic, Report};
use theirs::geometry::{line_intersect, BresenhamScan, Perspective};
use theirs::Point;

const ROOM: u8 = 3;
const FAR: u8 = 12;
const UNPLACED: u8 = 13;
/// What stands in a lent slice before a call, to see that a refusal leaves it.
const BEFORE: i32 = -77;

pub fn compare(seed: u64, count: u64) -> bool {
    let random = |place| Random::new(seed, place);
    let reports = [
        rounding(&mut random("rounding"), count / 5),
        create(&mut random("create"), count / 5),
        map(&mut random("map"), count * 3 / 10),
        unmap(&mut random("unmap"), count / 10),
        crossings(&mut random("crossings"), count / 10),
        scans(&mut random("scans"), count / 10),
        short_slices(),
    ];
    let cases: u64 = reports.iter().map(Report::cases).sum();
    let agreed = reports.into_iter().map(Report::close).fold(true, |a, b| a && b);
    println!("geometry: {cases} cases in all");
    agreed
}

/// How small an input of whole numbers is.
fn size(numbers: &[i32]) -> u64 {
    numbers.iter().map(|n| u64::from(n.unsigned_abs())).sum()
}

fn flat(points: &[Point]) -> Vec<i32> {
    points.iter().flat_map(|p| [p.x, p.y]).collect()
}

// ---------------------------------------------------------------- rounding

/// Halves away from zero, by the standard library's `round` and the range that the Rust's `map` tests.
fn rounding(r: &mut Random, count: u64) -> Report {
    let mut report = Report::new("rounding");
    for k in -5000..=5000 {
        for x in [f64::from(k), f64::from(k) + 0.5] {
            for y in [x, x.next_up(), x.next_down()] {
                round_one(&mut report, y);
            }
        }
    }
    for end in [f64::from(i32::MIN), f64::from(i32::MAX), -0.0, 0.0, 4_503_599_627_370_496.0] {
        for eighths in -40..=40 {
            let x = end + f64::from(eighths) / 8.0;
            for y in [x, x.next_up(), x.next_down()] {
                round_one(&mut report, y);
            }
        }
    }
    SPECIAL.iter().for_each(|x| round_one(&mut report, *x));
    while report.cases() < count {
        let x = match r.below(4) {
            0 => any(r),
            1 => r.any_float(),
            2 => near(f64::from(r.between(i32::MIN, i32::MAX)) + 0.5, r),
            _ => r.within(-2.2e9, 2.2e9),
        };
        round_one(&mut report, x);
    }
    report
}

fn round_one(report: &mut Report, x: f64) {
    let rounded = x.round();
    let placed = rounded <= f64::from(i32::MAX) && rounded >= f64::from(i32::MIN);
    let theirs = if placed { (FOUND, rounded as i32) } else { (UNPLACED, BEFORE) };
    let mut out = [BEFORE];
    let ours = (ours::round(x, &mut out), out[0]);
    let kind = if placed { "whole number" } else { "13, no i32" };
    report.case(ours == theirs, kind, x.abs() as u64, || format!("round {x:e}: ours {ours:?}, Rust {theirs:?}"));
}

// ---------------------------------------------------------------- perspectives

/// Four corners of one of many kinds, with the kind's name.
fn corners(r: &mut Random) -> ([Point; 4], &'static str) {
    let spread = |r: &mut Random, low, high| [0; 4].map(|_| Point { x: r.between(low, high), y: r.between(low, high) });
    match r.below(10) {
        0 => (spread(r, 0, 799), "in a picture"),
        1 => (spread(r, 0, 6), "tiny"),
        2 => (turned_square(r, 1.0), "square"),
        3 => (turned_square(r, -1.0), "mirrored"),
        4 => (on_a_line(r), "on a line"),
        5 => (spread(r, i32::MIN, i32::MAX), "anywhere"),
        6 => {
            let ends = [i32::MIN, i32::MIN + 1, -1, 0, 1, i32::MAX - 1, i32::MAX];
            ([0; 4].map(|_| Point { x: r.pick(&ends), y: r.pick(&ends) }), "ends of i32")
        }
        7 => (spread(r, -10_000, 10_000), "far"),
        8 => {
            let (w, h) = (r.between(1, 800), r.between(1, 800));
            let whole = [(0, 0), (w - 1, 0), (w - 1, h - 1), (0, h - 1)];
            (whole.map(|(x, y)| Point { x, y }), "whole picture")
        }
        _ => {
            let mut c = spread(r, 0, 799);
            c[r.below(4)] = c[r.below(4)];
            (c, "repeated")
        }
    }
}

/// A square, turned and pulled a little, as a mark's corners are. `way` is the turn in which they are listed.
fn turned_square(r: &mut Random, way: f64) -> [Point; 4] {
    let (x, y) = (r.within(20.0, 780.0), r.within(20.0, 780.0));
    let (side, turn) = (r.within(1.0, 200.0), r.within(0.0, 7.0));
    let mut k = 0.0;
    [0; 4].map(|_| {
        let angle = turn + way * k * std::f64::consts::FRAC_PI_2;
        k += 1.0;
        let pull = r.within(0.9, 1.1);
        Point { x: (x + side * pull * angle.cos()) as i32, y: (y + side * pull * angle.sin()) as i32 }
    })
}

fn on_a_line(r: &mut Random) -> [Point; 4] {
    let (from, step) = (r.between(-400, 400), (r.between(-5, 5), r.between(-5, 5)));
    [0; 4].map(|_| {
        let k = r.between(-80, 80);
        Point { x: from + k * step.0, y: from + k * step.1 }
    })
}

/// The sides that a perspective spans: a mark's, a grid's, or anything.
fn span(r: &mut Random) -> f64 {
    match r.below(4) {
        0 | 1 => 7.0,
        2 => f64::from(r.between(2, 40) * 4 + 2),
        _ => any(r),
    }
}

fn create(r: &mut Random, count: u64) -> Report {
    let mut report = Report::new("create");
    while report.cases() < count {
        let (rect, kind) = corners(r);
        let w = span(r);
        let h = if r.one_in(2) { w } else { span(r) };
        let theirs = Perspective::create(&rect, w, h);
        let mut out = [f64::from(BEFORE); 8];
        let ours = ours::create(&flat(&rect), w, h, &mut out);
        let (same, made) = match &theirs {
            Some(p) => (ours == FOUND && all_same(&out, &p.0), "made"),
            None => (ours == NOTHING && out == [f64::from(BEFORE); 8], "flat"),
        };
        report.case(same, &format!("{made}, corners {kind}"), size(&flat(&rect)), || {
            format!("create {rect:?} {w:e} {h:e}: ours {ours} {out:?}, Rust {theirs:?}")
        });
    }
    report
}

/// A perspective of a mark or a grid, one with a coefficient changed as refinement does, or one that only a caller could hand over.
fn perspective(r: &mut Random) -> ([f64; 8], &'static str) {
    let numbers = |r: &mut Random| [0; 8].map(|_| any(r));
    match r.below(10) {
        0 => (numbers(r), "any floats"),
        1 => ([0; 8].map(|_| r.any_float()), "any bits"),
        2 => ([0; 8].map(|_| r.pick(&SPECIAL)), "special floats"),
        3 => (at_the_ends(r), "at the ends of i32"),
        _ => {
            let (rect, kind) = corners(r);
            let side = span(r);
            match Perspective::create(&rect, side, side) {
                None => ([1.0, 0.0, r.within(0.0, 800.0), 0.0, 1.0, r.within(0.0, 800.0), 0.0, 0.0], "upright"),
                Some(Perspective(mut c)) => {
                    if r.one_in(3) {
                        let j = r.below(8);
                        let step = c[j] * 0.02 / 2f64.powi(r.between(0, 4));
                        c[j] = if r.one_in(2) { c[j] + step } else { c[j] - step };
                    }
                    (c, kind)
                }
            }
        }
    }
}

/// Perspectives that put points about the ends of i32.
fn at_the_ends(r: &mut Random) -> [f64; 8] {
    let ends = [-2_147_483_648.5, -2_147_483_648.0, 2_147_483_647.0, 2_147_483_647.5];
    let mut c = [0.0; 8];
    for j in [2, 5] {
        let end = r.pick(&ends);
        c[j] = if r.one_in(3) { 12.0 } else { near(end, r) };
    }
    if r.one_in(3) {
        c[r.below(8)] = any(r);
    }
    c
}

/// A place on a grid: cell corners, centres and fitness points, the corner past the last, or anything.
fn place(r: &mut Random) -> f64 {
    match r.below(6) {
        0 => f64::from(r.between(-20, 180)) + r.pick(&[0.3, 0.5, 0.7]),
        1 => f64::from(r.between(-20, 180)),
        2 => r.pick(&[0.0, 0.5, 3.5, 6.5, 7.0]),
        3 => r.within(-20.0, 200.0),
        4 => f64::from(r.between(-800, 800)) + 0.5,
        _ => any(r),
    }
}

fn map(r: &mut Random, count: u64) -> Report {
    let mut report = Report::new("map");
    while report.cases() < count {
        let (c, kind) = perspective(r);
        let rust = Perspective(c);
        for _ in 0..8 {
            let (u, v) = (place(r), place(r));
            let theirs = match unless_panic(|| rust.map(u, v)) {
                Some(p) => (FOUND, [p.x, p.y]),
                None => (UNPLACED, [BEFORE; 2]),
            };
            let mut out = [BEFORE; 2];
            let ours = (ours::map(&c, u, v, &mut out), out);
            let told = if theirs.0 == FOUND { "placed" } else { "13, the Rust panics" };
            report.case(ours == theirs, &format!("{told}, perspective {kind}"), (u.abs() + v.abs()) as u64, || {
                format!("map {c:?} {u:e} {v:e}: ours {ours:?}, Rust {theirs:?}")
            });
        }
    }
    report
}

fn unmap(r: &mut Random, count: u64) -> Report {
    let mut report = Report::new("unmap");
    while report.cases() < count {
        let (c, kind) = perspective(r);
        let p = match r.below(4) {
            0 => Point { x: r.between(i32::MIN, i32::MAX), y: r.between(i32::MIN, i32::MAX) },
            1 => Point { x: r.pick(&[i32::MIN, -1, 0, i32::MAX]), y: r.pick(&[i32::MIN, -1, 0, i32::MAX]) },
            2 => Point { x: r.between(-10_000, 10_000), y: r.between(-10_000, 10_000) },
            _ => Point { x: r.between(0, 799), y: r.between(0, 799) },
        };
        let (u, v) = Perspective(c).unmap(&p);
        let mut out = [f64::from(BEFORE); 2];
        let ours = ours::unmap(&c, p, &mut out);
        let told = if u.is_nan() || v.is_nan() { "with a NaN" } else { "numbers" };
        report.case(ours == FOUND && all_same(&out, &[u, v]), &format!("{told}, perspective {kind}"), size(&[p.x, p.y]), || {
            format!("unmap {c:?} {p:?}: ours {ours} {out:?}, Rust {u:e} {v:e}")
        });
    }
    report
}

// ---------------------------------------------------------------- crossings

/// Every four points of a 6 x 6 picture, random points of pictures, and points outside.
fn crossings(r: &mut Random, count: u64) -> Report {
    let mut report = Report::new("line_intersect");
    let side = 6u64;
    for k in 0..(side * side).pow(4) {
        let (mut at, mut rest) = ([0; 8], k);
        for c in &mut at {
            *c = (rest % side) as i32;
            rest /= side;
        }
        cross_one(&mut report, at);
    }
    let random = report.cases() + count;
    while report.cases() < random {
        let reach = r.pick(&[3, 20, 100, 799, 799, 799]);
        let mut at = [0; 8].map(|_| if r.one_in(8) { r.pick(&[0, reach]) } else { r.between(0, reach) });
        if r.one_in(20) {
            at[r.below(8)] = r.pick(&[-1, 800, -10_000, 10_000, i32::MIN, i32::MAX]);
        }
        cross_one(&mut report, at);
    }
    report
}

fn cross_one(report: &mut Report, at: [i32; 8]) {
    let p = |k: usize| Point { x: at[2 * k], y: at[2 * k + 1] };
    let (theirs, kind) = if at.iter().any(|c| *c < 0 || *c > 799) {
        ((FAR, [BEFORE; 2]), "12, outside a picture (the Rust isn't asked)")
    } else {
        match line_intersect(&p(0), &p(1), &p(2), &p(3)) {
            Some(q) => ((FOUND, [q.x, q.y]), "crossing"),
            None => ((NOTHING, [BEFORE; 2]), "none"),
        }
    };
    let mut out = [BEFORE; 2];
    let ours = (ours::line_intersect(&at, &mut out), out);
    report.case(ours == theirs, kind, size(&at), || format!("line_intersect {at:?}: ours {ours:?}, Rust {theirs:?}"));
}

// ---------------------------------------------------------------- scans

/// Every pair of points within 5 of the origin, random ends of every reach, and ends too far out.
fn scans(r: &mut Random, count: u64) -> Report {
    let mut report = Report::new("scans");
    let mut out = vec![BEFORE; 2 * 20_001 + 2];
    for k in 0..11 * 11 * 11 * 11 {
        let at = [k % 11, k / 11 % 11, k / 121 % 11, k / 1331].map(|c| c - 5);
        scan_one(&mut report, &mut out, at);
    }
    let random = report.cases() + count;
    while report.cases() < random {
        let reach = match r.below(1000) {
            0 => 10_000,
            1..=20 => 799,
            21..=200 => 100,
            _ => 12,
        };
        let mut at = [0; 4].map(|_| r.between(-reach, reach));
        if r.one_in(20) {
            at[r.below(4)] = r.pick(&[-10_001, 10_001, i32::MIN, i32::MAX]);
        } else if r.one_in(1000) {
            at = [0; 4].map(|_| r.pick(&[-10_000, 10_000]));
        }
        scan_one(&mut report, &mut out, at);
    }
    report
}

fn scan_one(report: &mut Report, out: &mut [i32], at: [i32; 4]) {
    let (from, to) = (Point { x: at[0], y: at[1] }, Point { x: at[2], y: at[3] });
    let (status, points, kind) = if at.iter().any(|c| c.unsigned_abs() > 10_000) {
        (FAR, vec![], "12, an end too far out (the Rust isn't asked)")
    } else {
        (FOUND, flat(&BresenhamScan::new(&from, &to).collect::<Vec<_>>()), "whole list of points")
    };
    let length = points.len();
    let ours = ours::scan(from, to, out);
    let same = ours == status && out[..length] == points[..] && out[length..length + 2] == [BEFORE; 2];
    report.case(same, kind, size(&at), || format!("scan {from:?} {to:?}: ours {ours} {:?}, Rust {status} {points:?}", &out[..length]));
    out[..length.max(2)].fill(BEFORE);
}

// ---------------------------------------------------------------- slices too short

/// A slice one place short is refused, and nothing is written.
fn short_slices() -> Report {
    let mut report = Report::new("short slices");
    let (c, square) = ([1.0; 8], [0, 0, 7, 0, 7, 7, 0, 7]);
    let (mut i, mut f) = ([BEFORE; 8], [f64::from(BEFORE); 8]);
    for n in 0..8 {
        let mut refused = vec![
            ours::create(&square[..n], 7.0, 7.0, &mut f),
            ours::create(&square, 7.0, 7.0, &mut f[..n]),
            ours::map(&c[..n], 0.5, 0.5, &mut i),
            ours::unmap(&c[..n], Point { x: 3, y: 3 }, &mut f),
            ours::line_intersect(&square[..n], &mut i),
            ours::scan(Point { x: 0, y: 0 }, Point { x: 3, y: 1 }, &mut i[..n]),
        ];
        if n < 2 {
            refused.push(ours::map(&c, 0.5, 0.5, &mut i[..n]));
            refused.push(ours::unmap(&c, Point { x: 3, y: 3 }, &mut f[..n]));
            refused.push(ours::line_intersect(&square, &mut i[..n]));
        }
        if n < 1 {
            refused.push(ours::round(0.5, &mut i[..n]));
        }
        for answer in refused {
            let same = answer == ROOM && i == [BEFORE; 8] && f == [f64::from(BEFORE); 8];
            report.case(same, "3, too short", n as u64, || format!("a slice of {n} places: ours {answer}"));
        }
    }
    report
}
