//! Bitmaps with three marks as a symbol has them, and with what makes their groups hard to fit.
use crate::mark_pictures::{draw_mark, speckle, stroke, white};
use crate::pictures::Picture;
use crate::random::Random;

/// Three marks as a symbol has them: their modules, and the left upper corners of the one between, of the one beside it and of the one below.
struct Trio {
    picture: Picture,
    module: i32,
    at: [(i32, i32); 3],
}

/// Marks of this module, whose corners are this far apart; a few pixels off now and then.
fn trio(r: &mut Random, kind: &'static str, module: i32, apart: i32) -> Trio {
    let side = 7 * module;
    let down = if r.one_in(3) { apart + r.between(-module, module) } else { apart };
    let margin = r.between(0, 6 * module);
    let mut off = || r.pick(&[0, 0, 0, 1, -1, 2]);
    let at = [(margin, margin), (margin + apart, margin + off()), (margin + off(), margin + down.max(side + 1))];
    let at = at.map(|(x, y)| (x.max(0), y.max(0)));
    let reach = |f: fn(&(i32, i32)) -> i32| (at.iter().map(f).max().unwrap() + side + margin).min(800) as usize;
    let mut picture = white(kind, reach(|p| p.0), reach(|p| p.1));
    at.iter().for_each(|(x, y)| draw_mark(&mut picture, *x, *y, module, module));
    Trio { picture, module, at }
}

fn some_trio(r: &mut Random, kind: &'static str) -> Trio {
    let module = r.pick(&[1, 1, 2, 2, 3, 4]);
    let apart = 7 * module + r.between(module, 14 * module);
    trio(r, kind, module, apart)
}

/// Single black pixels with white around them: timing scans count them.
fn dotted(r: &mut Random, p: &mut Picture) {
    let rare = r.below(12) + 2;
    for y in 1..p.height.saturating_sub(1) {
        for x in 1..p.width.saturating_sub(1) {
            let around = |dy: usize| p.pixels[(y + dy - 1) * p.width + x - 1..][..3].iter().all(|b| *b == 0);
            if r.one_in(rare) && (0..3).all(around) {
                p.pixels[y * p.width + x] = 1;
            }
        }
    }
}

/// Turned by quarters and mirrored, some pixels flipped now and then.
fn turned(r: &mut Random, p: Picture) -> Picture {
    let (swap, right, low) = (r.one_in(2), r.one_in(2), r.one_in(2));
    let (width, height) = if swap { (p.height, p.width) } else { (p.width, p.height) };
    let mut q = Picture::new(p.kind, width, height, |x, y| {
        let (x, y) = if swap { (y, x) } else { (x, y) };
        let (x, y) = (if right { p.width - 1 - x } else { x }, if low { p.height - 1 - y } else { y });
        p.pixels[y * p.width + x]
    });
    if r.one_in(8) {
        speckle(r, &mut q, 150);
    }
    q
}

/// A hook from a place: so far across and so far down, across first or down first.
pub fn hook(p: &mut Picture, (x, y): (i32, i32), across: i32, down: i32, across_first: bool) {
    let (to_x, to_y) = (x + across, y + down);
    let (elbow_x, elbow_y) = if across_first { (to_x, y) } else { (x, to_y) };
    stroke(p, x, y, elbow_x, elbow_y, 1);
    stroke(p, elbow_x, elbow_y, to_x, to_y, 1);
}

/// Rings with a hook, mostly at the corner that looks inwards.
pub fn hooked(r: &mut Random) -> Picture {
    let Trio { mut picture, module, at } = some_trio(r, "hooked");
    let last = 7 * module - 1;
    let longest = r.pick(&[2, 4, 8, 16, 40]);
    for (k, (x, y)) in at.into_iter().enumerate() {
        let inward = [(1, 1), (-1, 1), (1, -1)][k];
        let (right, low) = if r.one_in(4) { (r.pick(&[1, -1]), r.pick(&[1, -1])) } else { inward };
        let from = (if right > 0 { x + last } else { x }, if low > 0 { y + last } else { y });
        hook(&mut picture, from, right * r.between(0, longest), low * r.between(0, longest), r.one_in(2));
    }
    turned(r, picture)
}

/// Rings with tails in all directions, and with pieces bitten off: corners far out, close together, on a line.
pub fn tailed(r: &mut Random) -> Picture {
    let Trio { mut picture, module, at } = some_trio(r, "tailed");
    let last = 7 * module - 1;
    for (x, y) in at {
        for _ in 0..r.below(3) {
            let (from_x, from_y) = (x + r.between(0, last), y + r.pick(&[0, last]));
            let (to_x, to_y) = (from_x + r.between(-20, 20), from_y + r.between(-20, 20));
            stroke(&mut picture, from_x, from_y, to_x, to_y, 1);
        }
        if r.one_in(3) {
            let (from_x, from_y) = (x + r.pick(&[0, last]), y + r.pick(&[0, last]));
            stroke(&mut picture, from_x, from_y, from_x + r.between(-2, 2), from_y + r.between(-2, 2), 0);
        }
    }
    turned(r, picture)
}

/// A ring, beside or below, with a bar along one of its sides that is longer at both ends: three of its corners on a line.
pub fn barred(r: &mut Random) -> Picture {
    let module = r.pick(&[1, 1, 2, 3]);
    let apart = module * r.between(13, 24);
    let Trio { mut picture, module, at } = trio(r, "barred", module, apart);
    let last = 7 * module - 1;
    for (x, y) in at.into_iter().skip(1) {
        if r.one_in(3) {
            continue;
        }
        let (short, long) = (r.between(0, 3 * module), r.between(1, 9 * module));
        let (before, after) = if r.one_in(2) { (short, long) } else { (long, short) };
        let along = r.pick(&[0, last]);
        if r.one_in(2) {
            stroke(&mut picture, x + along, y - before, x + along, y + last + after, 1);
        } else {
            stroke(&mut picture, x - before, y + along, x + last + after, y + along, 1);
        }
    }
    turned(r, picture)
}

/// Rings of one pixel, to the right of a mark and above it, some with a bar along their right side that is longer at both ends: three of their corners lie on a
/// line, and the turn that puts the fourth first is flat.
pub fn flat_turn(r: &mut Random) -> Picture {
    let apart = r.between(9, 22);
    let (left, top) = (r.between(0, 6), r.between(6, 9));
    let mut picture = white("a flat turn", (left + apart + 8) as usize, (top + apart + 13) as usize);
    draw_mark(&mut picture, left, top + apart, 1, 1);
    for (x, y) in [(left, top), (left + apart, top + apart)] {
        draw_mark(&mut picture, x, y, 1, 1);
        if !r.one_in(3) {
            stroke(&mut picture, x + 6, y - r.between(1, 6), x + 6, y + 6 + r.between(1, 5), 1);
        }
    }
    picture
}

/// Rings with a hook at the corner that looks inwards, such that all three reach around one white place: the timing ends lie in it.
pub fn pocketed(r: &mut Random) -> Picture {
    let module = r.pick(&[2, 2, 3, 4, 5]);
    let apart = module * r.between(9, 13) + r.between(0, module);
    let Trio { mut picture, module, at } = trio(r, "pocketed", module, apart);
    let (last, gap) = (7 * module - 1, apart - 7 * module);
    let middle = gap / 2 + r.between(0, 2 * module);
    let near = |r: &mut Random| (r.between(-module, module), r.between(-module, module));
    let [between, beside, below] = at;
    let (a, b) = near(r);
    hook(&mut picture, (between.0 + last, between.1 + last), middle + a, middle + b, true);
    let (a, b) = near(r);
    hook(&mut picture, (beside.0, beside.1 + last), -(gap - middle + 2 * module + a), middle + module + b, false);
    let (a, b) = near(r);
    hook(&mut picture, (below.0 + last, below.1), middle - module + a, -(gap - middle + 2 * module + b), false);
    turned(r, picture)
}

/// Three marks with hooks around one white place, in which both timing scans run.
pub fn pocket(r: &mut Random) -> Picture {
    let module = r.pick(&[3, 4, 5]);
    let apart = 11 * module + r.between(0, module / 2);
    let side = (apart + 7 * module + 2) as usize;
    let mut p = white("pocket", side, side);
    [(1, 1), (1 + apart, 1), (1, 1 + apart)].iter().for_each(|(x, y)| draw_mark(&mut p, *x, *y, module, module));
    let (last, gap) = (7 * module - 1, apart - 7 * module);
    let middle = gap / 2 + r.between(module / 2, module);
    let beyond = gap - middle + 2 * module;
    let mut about = |reach: i32| r.between(-reach, reach);
    hook(&mut p, (1 + last, 1 + last), middle + about(module / 4), middle + about(module / 4), true);
    hook(&mut p, (1 + apart, 1 + last), -beyond - module / 2 - about(module / 2), middle + module + about(module / 2), false);
    hook(&mut p, (1 + last, 1 + apart), middle - module + about(module / 2), -beyond - module / 2 - about(module / 2), false);
    p
}

/// Large rings with long hooks at the corners that the fourth corner is worked out from, and dots between them.
pub fn drawn_out(r: &mut Random) -> Picture {
    let module = r.between(2, 10);
    let apart = module * r.between(10, 22);
    let Trio { mut picture, module, at } = trio(r, "drawn out", module, apart);
    let last = 7 * module - 1;
    let long = |r: &mut Random| {
        let most = module * r.pick(&[2, 5, 9]);
        r.between(0, most)
    };
    let [_, beside, below] = at;
    hook(&mut picture, (beside.0, beside.1 + last), -long(r), long(r) / 2, r.one_in(2));
    hook(&mut picture, (below.0 + last, below.1), long(r) / 2, -long(r), r.one_in(2));
    if r.one_in(2) {
        dotted(r, &mut picture);
    }
    turned(r, picture)
}

/// Rings with straight tails along their sides: corners that are pulled far.
pub fn pulled(r: &mut Random) -> Picture {
    let Trio { mut picture, module, at } = some_trio(r, "pulled");
    let last = 7 * module - 1;
    let longest = r.pick(&[6, 20, 60]);
    for (x, y) in at {
        for _ in 0..r.below(3) {
            let (from_x, from_y) = (x + r.pick(&[0, last]), y + r.pick(&[0, last]));
            let long = r.between(-longest, longest);
            let (to_x, to_y) = if r.one_in(2) { (from_x + long, from_y) } else { (from_x, from_y + long) };
            stroke(&mut picture, from_x, from_y, to_x, to_y, 1);
        }
    }
    if r.one_in(2) {
        dotted(r, &mut picture);
    }
    turned(r, picture)
}
