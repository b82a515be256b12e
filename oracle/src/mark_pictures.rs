//! Bitmaps with marks in them, and with what is nearly one.
use crate::pictures::{bitmap, slate, Picture};
use crate::random::Random;

/// A bitmap of one of many kinds.
pub fn drawn(r: &mut Random, width: usize, height: usize) -> Picture {
    match r.below(13) {
        0 => noise(r, width, height),
        1 => {
            let n = r.below(4) + 1;
            straight(r, width, height, n)
        }
        2 => {
            let n = r.below(4) + 1;
            skewed(r, width, height, n)
        }
        3 => touching(r, width, height),
        4 => nested(r, width, height),
        5 => many(r, width, height),
        6 => tailed(r, width, height),
        7 => dashes(r, width, height),
        8 => lines(r, width, height),
        9 => several(r, width, height),
        10 => slate(r, width, height),
        11 => planted(r, width, height),
        _ => bitmap(r, width, height),
    }
}

pub fn white(kind: &'static str, width: usize, height: usize) -> Picture {
    Picture::new(kind, width, height, |_, _| 0)
}

/// Black where `n` in a hundred pixels are.
pub fn noise(r: &mut Random, width: usize, height: usize) -> Picture {
    let n = r.below(100) + 1;
    Picture::new("noise", width, height, |_, _| u8::from(r.below(100) < n))
}

/// A number from low to high, or low where there is none.
fn from(r: &mut Random, low: i32, high: i32) -> i32 {
    r.between(low, high.max(low))
}

/// Flips about one pixel in `rare`.
pub fn speckle(r: &mut Random, p: &mut Picture, rare: usize) {
    p.pixels.iter_mut().for_each(|b| *b ^= u8::from(r.one_in(rare)));
}

/// Whether the place (u, v) of a mark of seven by seven is black.
fn in_mark(u: f64, v: f64) -> bool {
    let far = (u - 3.5).abs().max((v - 3.5).abs());
    far < 1.5 || (2.5..3.5).contains(&far)
}

/// A mark whose left upper corner is at (x, y), with modules of these sides; what leaves the picture is cut off.
pub fn draw_mark(p: &mut Picture, x: i32, y: i32, wide: i32, high: i32) {
    for dy in 0..7 * high {
        for dx in 0..7 * wide {
            let (px, py) = (x + dx, y + dy);
            if px >= 0 && py >= 0 && (px as usize) < p.width && (py as usize) < p.height {
                let black = in_mark(f64::from(dx / wide) + 0.5, f64::from(dy / high) + 0.5);
                p.pixels[py as usize * p.width + px as usize] = u8::from(black);
            }
        }
    }
}

/// Marks with straight sides, of many sizes, some of them over an edge.
pub fn straight(r: &mut Random, width: usize, height: usize, n: usize) -> Picture {
    let mut p = white("straight marks", width, height);
    for _ in 0..n {
        let largest = (width.min(height) as i32 / 7).clamp(1, 12);
        let wide = r.between(1, largest);
        let high = if r.one_in(2) { wide } else { r.between(1, largest) };
        let (x, y) = (from(r, -2 * wide, width as i32 - 5 * wide), from(r, -2 * high, height as i32 - 5 * high));
        draw_mark(&mut p, x, y, wide, high);
    }
    if r.one_in(4) {
        speckle(r, &mut p, 60);
    }
    p
}

/// Marks that are turned, sheared and pulled.
pub fn skewed(r: &mut Random, width: usize, height: usize, n: usize) -> Picture {
    let mut p = white("skewed marks", width, height);
    for _ in 0..n {
        let module = r.within(1.0, (width.min(height) as f64 / 8.0).max(1.2));
        let (turn, lean) = (r.within(0.0, 6.3), r.within(-0.6, 0.6));
        let (pull_x, pull_y) = (r.within(-0.01, 0.01), r.within(-0.01, 0.01));
        let (cx, cy) = (r.within(0.0, width as f64), r.within(0.0, height as f64));
        for y in 0..height {
            for x in 0..width {
                let (dx, dy) = (x as f64 + 0.5 - cx, y as f64 + 0.5 - cy);
                let den = (1.0 + pull_x * dx + pull_y * dy) * module;
                let (a, b) = ((turn.cos() * dx + turn.sin() * dy) / den, (turn.cos() * dy - turn.sin() * dx) / den);
                let (u, v) = (a + lean * b + 3.5, b + 3.5);
                if den > 0.0 && (0.0..7.0).contains(&u) && (0.0..7.0).contains(&v) {
                    p.pixels[y * width + x] = u8::from(in_mark(u, v));
                }
            }
        }
    }
    if r.one_in(4) {
        speckle(r, &mut p, 80);
    }
    p
}

/// Marks side by side without a gap, or with one pixel of it, or over each other.
fn touching(r: &mut Random, width: usize, height: usize) -> Picture {
    let mut p = white("touching marks", width, height);
    let module = r.between(1, 4);
    let (apart, down) = (7 * module + r.between(-2, 1), 7 * module + r.between(-2, 1));
    let (x0, y0) = (r.between(-3, 3), r.between(-3, 3));
    for i in 0..3 {
        for j in 0..3 {
            if !r.one_in(4) {
                draw_mark(&mut p, x0 + i * apart, y0 + j * down, module, module);
            }
        }
    }
    p
}

/// Squares in squares, each ring with a module of its own: a mark's stone may be a mark.
fn nested(r: &mut Random, width: usize, height: usize) -> Picture {
    let mut p = white("nested marks", width, height);
    let side = width.min(height) as i32;
    let (mut left, mut top, mut across) = (r.between(0, 3), r.between(0, 3), side);
    while across > 0 {
        let ring = (across / 7).max(1);
        let gap = if r.one_in(3) { r.between(1, ring + 1) } else { ring };
        for y in top..top + across {
            for x in left..left + across {
                let depth = (x - left).min(y - top).min(left + across - 1 - x).min(top + across - 1 - y);
                if x >= 0 && y >= 0 && (x as usize) < width && (y as usize) < height {
                    p.pixels[y as usize * width + x as usize] = u8::from(depth < ring);
                }
            }
        }
        (left, top, across) = (left + ring + gap, top + ring + gap, across - 2 * (ring + gap));
    }
    p
}

/// Small marks in rows and columns: where there is room for them, more than 64.
pub fn many(r: &mut Random, width: usize, height: usize) -> Picture {
    let mut p = white("many marks", width, height);
    let (module, gap, missing) = (r.pick(&[1, 1, 1, 2]), r.between(1, 2), r.below(12) + 2);
    let step = 7 * module + gap;
    for y in (0..height as i32).step_by(step as usize) {
        for x in (0..width as i32).step_by(step as usize) {
            if !r.one_in(missing) {
                draw_mark(&mut p, x + r.between(0, gap - 1), y + r.between(0, gap - 1), module, module);
            }
        }
    }
    p
}

/// As many marks as there may be, in eight rows.
pub fn full(width: usize, height: usize) -> Picture {
    let mut p = white("64 marks", width, height);
    let (across, down) = (width as i32 / 8, height as i32 / 8);
    for k in 0..64 {
        draw_mark(&mut p, k % 8 * across, k / 8 * down, across / 8, down / 8);
    }
    p
}

/// Rings with tails, and with pieces bitten off: corners that lie far out, close together, or on a line.
pub fn tailed(r: &mut Random, width: usize, height: usize) -> Picture {
    let mut p = white("tailed marks", width, height);
    let module = r.between(1, 3);
    let (x, y) = (from(r, 0, width as i32 - 7 * module), from(r, 0, height as i32 - 7 * module));
    draw_mark(&mut p, x, y, module, module);
    for _ in 0..r.below(4) {
        let (from_x, from_y) = (x + r.between(0, 7 * module - 1), y + r.pick(&[0, 7 * module - 1]));
        let (to_x, to_y) = (r.between(0, width as i32), r.between(0, height as i32));
        stroke(&mut p, from_x, from_y, to_x, to_y, 1);
    }
    for _ in 0..r.below(3) {
        let (bx, by) = (x + r.between(-1, 7 * module), y + r.between(-1, 7 * module));
        stroke(&mut p, bx, by, bx + r.between(-3, 3), by + r.between(-3, 3), 0);
    }
    p
}

/// Noise, with stones in it that lie in a gap of their own, have a cut through them, and most of a ring around: rings of any shape.
fn planted(r: &mut Random, width: usize, height: usize) -> Picture {
    let black = r.below(50) + 5;
    let mut p = Picture::new("planted stones", width, height, |_, _| u8::from(r.below(100) < black));
    for _ in 0..r.below(3) + 1 {
        let (x, y) = (from(r, 0, width as i32 - 7), from(r, 3, height as i32 - 4));
        let (above, below, missing) = (r.between(1, 3), r.between(1, 3), r.below(30) + 2);
        for dy in -above - 1..=below + 1 {
            for dx in -1..8 {
                let (px, py) = (x + dx, y + dy);
                let stone = (2..5).contains(&dx) && dy > -above && dy < below;
                let gap = (1..6).contains(&dx) && dy >= -above && dy <= below;
                let side = (0..7).contains(&dx) && !gap;
                if px >= 0 && py >= 0 && (px as usize) < width && (py as usize) < height {
                    let byte = &mut p.pixels[py as usize * width + px as usize];
                    *byte = match () {
                        _ if gap => u8::from(stone),
                        _ if dy == 0 => u8::from(side),
                        _ if side && !r.one_in(missing) => 1,
                        _ => *byte,
                    };
                }
            }
        }
    }
    p
}

/// A stroke of pixels that touch by their sides.
pub fn stroke(p: &mut Picture, from_x: i32, from_y: i32, to_x: i32, to_y: i32, byte: u8) {
    let (mut x, mut y) = (from_x, from_y);
    for _ in 0..(to_x - from_x).abs() + (to_y - from_y).abs() + 1 {
        if x >= 0 && y >= 0 && (x as usize) < p.width && (y as usize) < p.height {
            p.pixels[y as usize * p.width + x as usize] = byte;
        }
        if (to_x - x).abs() >= (to_y - y).abs() {
            x += (to_x - x).signum();
        } else {
            y += (to_y - y).signum();
        }
    }
}

/// Lines of short runs with white lines between them: many cuts through many small pieces, more of them than there are numbers.
pub fn dashes(r: &mut Random, width: usize, height: usize) -> Picture {
    let mut p = white("dashes", width, height);
    let pitch = r.pick(&[2, 2, 3]);
    for y in (0..height).step_by(pitch) {
        let mut x = r.below(3);
        while x < width {
            for (run, byte) in [(1, 1), (1, 0), (3, 1), (1, 0), (1, 1)] {
                let run = if r.one_in(20) { run + 1 } else { run };
                (x..(x + run).min(width)).for_each(|at| p.pixels[y * width + at] = byte);
                x += run;
            }
            x += r.below(3) + 1;
        }
    }
    if r.one_in(2) {
        for _ in 0..3 {
            let (x, y) = (r.between(0, width as i32), r.between(0, height as i32));
            draw_mark(&mut p, x, y, 1, 1);
        }
    }
    p
}

/// Strokes in all directions.
fn lines(r: &mut Random, width: usize, height: usize) -> Picture {
    let mut p = white("lines", width, height);
    for _ in 0..r.below(30) + 1 {
        let (a, b) = (r.between(0, width as i32), r.between(0, height as i32));
        let (c, d) = match r.below(3) {
            0 => (r.between(0, width as i32), b),
            1 => (a, r.between(0, height as i32)),
            _ => (r.between(0, width as i32), r.between(0, height as i32)),
        };
        stroke(&mut p, a, b, c, d, u8::from(!r.one_in(4)));
    }
    p
}

/// Several symbols in one picture, side by side.
pub fn several(r: &mut Random, width: usize, height: usize) -> Picture {
    let (across, down) = (r.below(3) + 1, r.below(3) + 1);
    let (wide, high) = ((width / across).max(1), (height / down).max(1));
    let mut p = white("several symbols", width, height);
    for j in 0..down {
        for i in 0..across {
            let one = slate(r, wide, high);
            for y in 0..high.min(height.saturating_sub(j * high)) {
                for x in 0..wide.min(width.saturating_sub(i * wide)) {
                    p.pixels[(j * high + y) * width + i * wide + x] = one.pixels[y * wide + x];
                }
            }
        }
    }
    p
}
