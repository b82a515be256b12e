//! Symbols of versions 1 to 40, ideal ones with random data, seen under a random perspective.
use crate::pictures::Picture;
use crate::random::Random;
use theirs::geometry::Perspective;
use theirs::Point;

/// A picture of a symbol, the perspective that it is seen under, and how many cells it has along a side.
pub struct Seen {
    pub picture: Picture,
    pub c: Perspective,
    pub size: usize,
}

/// The alignment positions of a version (ISO/IEC 18004, Annex E).
fn positions(version: usize) -> Vec<usize> {
    if version == 1 {
        return vec![];
    }
    let n = version / 7 + 2;
    let apart = if version == 32 { 26 } else { 2 * ((4 * version + 2 * n + 1) / (2 * n - 2)) };
    let last = 4 * version + 10;
    std::iter::once(6).chain((0..n - 1).rev().map(|k| last - k * apart)).collect()
}

/// The cells of an ideal symbol, line by line.
fn cells(r: &mut Random, version: usize) -> Vec<bool> {
    let size = 4 * version + 17;
    let mut cells: Vec<bool> = (0..size * size).map(|_| r.one_in(2)).collect();
    let mut set = |x: usize, y: usize, dark: bool| cells[y * size + x] = dark;
    for k in 8..size - 8 {
        set(k, 6, k % 2 == 0);
        set(6, k, k % 2 == 0);
    }
    let at = positions(version);
    let (first, last) = (6, 4 * version + 10);
    for (x, y) in at.iter().flat_map(|x| at.iter().map(move |y| (*x, *y))) {
        if [(first, first), (first, last), (last, first)].contains(&(x, y)) {
            continue;
        }
        for (dx, dy) in (0..25).map(|k| (k % 5, k / 5)) {
            let far = (dx as i32 - 2).abs().max((dy as i32 - 2).abs());
            set(x + dx - 2, y + dy - 2, far != 1);
        }
    }
    for (left, top) in [(0, 0), (size - 8, 0), (0, size - 8)] {
        for (dx, dy) in (0..64).map(|k| (k % 8, k / 8)) {
            let (mx, my) = (dx as i32 - i32::from(left > 0), dy as i32 - i32::from(top > 0));
            let far = (mx - 3).abs().max((my - 3).abs());
            set(left + dx, top + dy, far < 2 || far == 3);
        }
    }
    cells
}

/// Four corners of a symbol, turned, sheared or warped, and the sides of a picture around them.
fn corners(r: &mut Random, size: usize) -> ([Point; 4], usize, usize) {
    let largest = f64::max(1.5, r.pick(&[160.0, 160.0, 240.0, 560.0]) / size as f64).min(8.0);
    let most = largest.min(r.pick(&[2.5, 4.0, 8.0])).max(1.6);
    let cell = if largest <= 1.5 { largest } else { r.within(1.5, most) };
    let half = cell * size as f64 / 2.0;
    let angle = if r.one_in(2) { r.below(4) as f64 } else { r.within(0.0, 4.0) } * std::f64::consts::FRAC_PI_2;
    let shear = if r.one_in(3) { r.within(-0.3, 0.3) } else { 0.0 };
    let warp = if r.one_in(2) { half * r.within(0.0, 0.25) } else { 0.0 };
    let mut points = [(-half, -half), (half, -half), (half, half), (-half, half)].map(|(x, y)| {
        let x = x + shear * y;
        let (sin, cos) = angle.sin_cos();
        (x * cos - y * sin + r.within(-1.0, 1.0) * warp, x * sin + y * cos + r.within(-1.0, 1.0) * warp)
    });
    let least = |f: fn(&(f64, f64)) -> f64, points: &[(f64, f64)]| points.iter().map(f).fold(f64::MAX, f64::min);
    let margin = r.within(-1.0, 14.0);
    let (left, top) = (least(|p| p.0, &points) - margin, least(|p| p.1, &points) - margin);
    points.iter_mut().for_each(|p| *p = (p.0 - left, p.1 - top));
    let most = |f: fn(&(f64, f64)) -> f64| points.iter().map(f).fold(0.0, f64::max);
    let side = |z: f64| ((z + margin) as usize).clamp(8, 800);
    let (width, height) = (side(most(|p| p.0)), side(most(|p| p.1)));
    (points.map(|p| Point { x: p.0.round() as i32, y: p.1.round() as i32 }), width, height)
}

/// A symbol of a random version, small ones more often.
pub fn seen(r: &mut Random) -> Seen {
    let most = r.pick(&[2, 2, 2, 3, 3, 3, 4, 4, 6, 6, 6, 9, 9, 14, 22, 40]);
    let version = r.below(most) + 1;
    let size = 4 * version + 17;
    let cells = cells(r, version);
    let mirrored = r.one_in(4);
    let noise = r.pick(&[0, 0, 0, 0, 2, 10, 40]);
    loop {
        let (corners, width, height) = corners(r, size);
        let Some(c) = Perspective::create(&corners, size as f64, size as f64) else { continue };
        let picture = Picture::new("symbol", width, height, |x, y| {
            let (u, v) = c.unmap(&Point { x: x as i32, y: y as i32 });
            let (u, v) = if mirrored { (v, u) } else { (u, v) };
            let inside = u >= 0.0 && v >= 0.0 && u < size as f64 && v < size as f64;
            let dark = inside && cells[v as usize * size + u as usize];
            u8::from(dark) ^ u8::from(noise > 0 && r.below(1000) < noise)
        });
        return Seen { picture, c, size };
    }
}
