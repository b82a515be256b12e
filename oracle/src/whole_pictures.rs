//! Bitmaps for detect, by kind: what it finds grids in, what it finds stones in, and what it is to refuse.
use crate::mark_pictures::{self, draw_mark, noise, skewed, speckle, straight, stroke, white};
use crate::pictures::{bitmap, frame, slate, Picture};
use crate::random::Random;
use crate::symbols::seen;
use theirs::prepare::reach;

/// A kind of picture: how many of the pictures asked for it has (one in `rare`), and how one is made.
pub struct Kind {
    pub name: &'static str,
    pub rare: u64,
    pub make: fn(&mut Random) -> Picture,
}

/// Every kind.
pub const KINDS: [Kind; 20] = [
    Kind { name: "of many kinds, up to 30 x 30", rare: 1, make: small },
    Kind { name: "noise", rare: 1, make: noises },
    Kind { name: "one to six marks", rare: 1, make: marks },
    Kind { name: "three marks with hooks", rare: 10, make: hooked },
    Kind { name: "three marks with tails", rare: 10, make: tailed },
    Kind { name: "three marks, pulled", rare: 10, make: pulled },
    Kind { name: "three marks, a bar along one: a turn may be flat", rare: 10, make: barred },
    Kind { name: "three marks, hooks around one place: timing may count 0", rare: 10, make: pocketed },
    Kind { name: "three marks, long hooks: lines may hardly meet", rare: 40, make: drawn_out },
    Kind { name: "flat or tall", rare: 4, make: flat },
    Kind { name: "shapes", rare: 4, make: shapes },
    Kind { name: "marks and what is nearly one", rare: 4, make: nearly },
    Kind { name: "dashes", rare: 20, make: dashes },
    Kind { name: "rows of marks, up to 65 and more", rare: 40, make: rows },
    Kind { name: "one symbol", rare: 20, make: symbol },
    Kind { name: "a damaged symbol", rare: 20, make: damaged },
    Kind { name: "several symbols", rare: 100, make: several },
    Kind { name: "frames that the Rust has prepared", rare: 100, make: prepared },
    Kind { name: "400 to 800 a side: symbols", rare: 220, make: large_symbols },
    Kind { name: "400 to 800 a side: all else", rare: 220, make: large },
];

fn sides(r: &mut Random, least: usize, most: usize) -> (usize, usize) {
    (least + r.below(most - least + 1), least + r.below(most - least + 1))
}

// ---------------------------------------------------------------- small ones

fn small(r: &mut Random) -> Picture {
    let (width, height) = sides(r, 1, 30);
    mark_pictures::drawn(r, width, height)
}

fn noises(r: &mut Random) -> Picture {
    let most = r.pick(&[12, 25, 40, 60]);
    let (width, height) = sides(r, 1, most);
    noise(r, width, height)
}

fn marks(r: &mut Random) -> Picture {
    let (n, most) = (r.below(6) + 1, r.pick(&[30, 60, 90]));
    let (width, height) = sides(r, 12, most);
    if r.one_in(5) {
        skewed(r, width, height, n.min(3))
    } else {
        straight(r, width, height, n)
    }
}

fn flat(r: &mut Random) -> Picture {
    let (long, short) = (r.pick(&[60, 200, 800]), r.below(24) + 1);
    let long = r.below(long) + 1;
    if r.one_in(2) {
        mark_pictures::drawn(r, long, short)
    } else {
        mark_pictures::drawn(r, short, long)
    }
}

/// White, black, spirals, combs, boards, mazes.
fn shapes(r: &mut Random) -> Picture {
    let (width, height) = sides(r, 1, 70);
    if r.one_in(20) {
        return white("white", width, height);
    }
    bitmap(r, width, height)
}

fn nearly(r: &mut Random) -> Picture {
    let most = r.pick(&[40, 60, 90]);
    let (width, height) = sides(r, 9, most);
    mark_pictures::drawn(r, width, height)
}

fn dashes(r: &mut Random) -> Picture {
    let (width, height) = sides(r, 20, 120);
    mark_pictures::dashes(r, width, height)
}

/// Small marks in rows and columns, about as many as there may be.
fn rows(r: &mut Random) -> Picture {
    let (width, height) = sides(r, 40, 84);
    mark_pictures::many(r, width, height)
}

// ---------------------------------------------------------------- three marks

/// Three marks as a symbol has them: their modules, and the left upper corners of the one between, of the one beside it and of the one below.
struct Trio {
    picture: Picture,
    module: i32,
    at: [(i32, i32); 3],
}

/// Marks of this module, whose corners are this far apart; a few pixels off now and then.
fn trio(r: &mut Random, kind: &'static str, module: i32, apart: i32) -> Trio {
    let side = 7 * module;
    let down = if r.one_in(3) { apart + r.between(-module, module) } else { apart };
    let margin = r.between(0, 6 * module);
    let mut off = || r.pick(&[0, 0, 0, 1, -1, 2]);
    let at = [(margin, margin), (margin + apart, margin + off()), (margin + off(), margin + down.max(side + 1))];
    let at = at.map(|(x, y)| (x.max(0), y.max(0)));
    let reach = |f: fn(&(i32, i32)) -> i32| (at.iter().map(f).max().unwrap() + side + margin).min(800) as usize;
    let mut picture = white(kind, reach(|p| p.0), reach(|p| p.1));
    at.iter().for_each(|(x, y)| draw_mark(&mut picture, *x, *y, module, module));
    Trio { picture, module, at }
}

fn some_trio(r: &mut Random, kind: &'static str) -> Trio {
    let module = r.pick(&[1, 1, 2, 2, 3, 4]);
    let apart = 7 * module + r.between(module, 14 * module);
    trio(r, kind, module, apart)
}

/// Single black pixels with white around them: timing scans count them.
fn dotted(r: &mut Random, p: &mut Picture) {
    let rare = r.below(12) + 2;
    for y in 1..p.height.saturating_sub(1) {
        for x in 1..p.width.saturating_sub(1) {
            let around = |dy: usize| p.pixels[(y + dy - 1) * p.width + x - 1..][..3].iter().all(|b| *b == 0);
            if r.one_in(rare) && (0..3).all(around) {
                p.pixels[y * p.width + x] = 1;
            }
        }
    }
}

/// Turned by quarters and mirrored, some pixels flipped now and then.
fn turned(r: &mut Random, p: Picture) -> Picture {
    let (swap, right, low) = (r.one_in(2), r.one_in(2), r.one_in(2));
    let (width, height) = if swap { (p.height, p.width) } else { (p.width, p.height) };
    let mut q = Picture::new(p.kind, width, height, |x, y| {
        let (x, y) = if swap { (y, x) } else { (x, y) };
        let (x, y) = (if right { p.width - 1 - x } else { x }, if low { p.height - 1 - y } else { y });
        p.pixels[y * p.width + x]
    });
    if r.one_in(8) {
        speckle(r, &mut q, 150);
    }
    q
}

/// A hook from a place: so far across and so far down, across first or down first.
fn hook(p: &mut Picture, (x, y): (i32, i32), across: i32, down: i32, across_first: bool) {
    let (to_x, to_y) = (x + across, y + down);
    let (elbow_x, elbow_y) = if across_first { (to_x, y) } else { (x, to_y) };
    stroke(p, x, y, elbow_x, elbow_y, 1);
    stroke(p, elbow_x, elbow_y, to_x, to_y, 1);
}

/// Rings with a hook, mostly at the corner that looks inwards.
fn hooked(r: &mut Random) -> Picture {
    let Trio { mut picture, module, at } = some_trio(r, "hooked");
    let last = 7 * module - 1;
    let longest = r.pick(&[2, 4, 8, 16, 40]);
    for (k, (x, y)) in at.into_iter().enumerate() {
        let inward = [(1, 1), (-1, 1), (1, -1)][k];
        let (right, low) = if r.one_in(4) { (r.pick(&[1, -1]), r.pick(&[1, -1])) } else { inward };
        let from = (if right > 0 { x + last } else { x }, if low > 0 { y + last } else { y });
        hook(&mut picture, from, right * r.between(0, longest), low * r.between(0, longest), r.one_in(2));
    }
    turned(r, picture)
}

/// Rings with tails in all directions, and with pieces bitten off: corners far out, close together, on a line.
fn tailed(r: &mut Random) -> Picture {
    let Trio { mut picture, module, at } = some_trio(r, "tailed");
    let last = 7 * module - 1;
    for (x, y) in at {
        for _ in 0..r.below(3) {
            let (from_x, from_y) = (x + r.between(0, last), y + r.pick(&[0, last]));
            let (to_x, to_y) = (from_x + r.between(-20, 20), from_y + r.between(-20, 20));
            stroke(&mut picture, from_x, from_y, to_x, to_y, 1);
        }
        if r.one_in(3) {
            let (from_x, from_y) = (x + r.pick(&[0, last]), y + r.pick(&[0, last]));
            stroke(&mut picture, from_x, from_y, from_x + r.between(-2, 2), from_y + r.between(-2, 2), 0);
        }
    }
    turned(r, picture)
}

/// A ring, beside or below, with a bar along one of its sides that is longer at both ends: three of its corners on a line.
fn barred(r: &mut Random) -> Picture {
    let module = r.pick(&[1, 1, 2, 3]);
    let apart = module * r.between(13, 24);
    let Trio { mut picture, module, at } = trio(r, "barred", module, apart);
    let last = 7 * module - 1;
    for (x, y) in at.into_iter().skip(1) {
        if r.one_in(3) {
            continue;
        }
        let (short, long) = (r.between(0, 3 * module), r.between(1, 9 * module));
        let (before, after) = if r.one_in(2) { (short, long) } else { (long, short) };
        let along = r.pick(&[0, last]);
        if r.one_in(2) {
            stroke(&mut picture, x + along, y - before, x + along, y + last + after, 1);
        } else {
            stroke(&mut picture, x - before, y + along, x + last + after, y + along, 1);
        }
    }
    turned(r, picture)
}

/// Rings with a hook at the corner that looks inwards, such that all three reach around one white place: the timing ends lie in it.
fn pocketed(r: &mut Random) -> Picture {
    let module = r.pick(&[2, 2, 3, 4, 5]);
    let apart = module * r.between(9, 13) + r.between(0, module);
    let Trio { mut picture, module, at } = trio(r, "pocketed", module, apart);
    let (last, gap) = (7 * module - 1, apart - 7 * module);
    let middle = gap / 2 + r.between(0, 2 * module);
    let near = |r: &mut Random| (r.between(-module, module), r.between(-module, module));
    let [between, beside, below] = at;
    let (a, b) = near(r);
    hook(&mut picture, (between.0 + last, between.1 + last), middle + a, middle + b, true);
    let (a, b) = near(r);
    hook(&mut picture, (beside.0, beside.1 + last), -(gap - middle + 2 * module + a), middle + module + b, false);
    let (a, b) = near(r);
    hook(&mut picture, (below.0 + last, below.1), middle - module + a, -(gap - middle + 2 * module + b), false);
    turned(r, picture)
}

/// Large rings with long hooks at the corners that the fourth corner is worked out from, and dots between them.
fn drawn_out(r: &mut Random) -> Picture {
    let module = r.between(2, 10);
    let apart = module * r.between(10, 22);
    let Trio { mut picture, module, at } = trio(r, "drawn out", module, apart);
    let last = 7 * module - 1;
    let long = |r: &mut Random| {
        let most = module * r.pick(&[2, 5, 9]);
        r.between(0, most)
    };
    let [_, beside, below] = at;
    hook(&mut picture, (beside.0, beside.1 + last), -long(r), long(r) / 2, r.one_in(2));
    hook(&mut picture, (below.0 + last, below.1), long(r) / 2, -long(r), r.one_in(2));
    if r.one_in(2) {
        dotted(r, &mut picture);
    }
    turned(r, picture)
}

/// Rings with straight tails along their sides: corners that are pulled far.
fn pulled(r: &mut Random) -> Picture {
    let Trio { mut picture, module, at } = some_trio(r, "pulled");
    let last = 7 * module - 1;
    let longest = r.pick(&[6, 20, 60]);
    for (x, y) in at {
        for _ in 0..r.below(3) {
            let (from_x, from_y) = (x + r.pick(&[0, last]), y + r.pick(&[0, last]));
            let long = r.between(-longest, longest);
            let (to_x, to_y) = if r.one_in(2) { (from_x + long, from_y) } else { (from_x, from_y + long) };
            stroke(&mut picture, from_x, from_y, to_x, to_y, 1);
        }
    }
    if r.one_in(2) {
        dotted(r, &mut picture);
    }
    turned(r, picture)
}

// ---------------------------------------------------------------- symbols

fn symbol(r: &mut Random) -> Picture {
    seen(r).picture
}

/// A symbol with holes, with pixels flipped, or with a part cut off.
fn damaged(r: &mut Random) -> Picture {
    let mut p = symbol(r);
    for _ in 0..r.below(4) {
        let (wide, high) = (r.below(p.width / 3 + 1) + 1, r.below(p.height / 3 + 1) + 1);
        let (left, top) = (r.below(p.width), r.below(p.height));
        let byte = r.below(2) as u8;
        for y in top..(top + high).min(p.height) {
            p.pixels[y * p.width + left..y * p.width + (left + wide).min(p.width)].fill(byte);
        }
    }
    if r.one_in(2) {
        let rare = r.pick(&[20, 50, 200]);
        speckle(r, &mut p, rare);
    }
    if r.one_in(2) {
        return cut(r, &p);
    }
    p
}

/// What is left of a picture when strips of its sides are taken away.
fn cut(r: &mut Random, p: &Picture) -> Picture {
    let (left, top) = (r.below(p.width / 5 + 1), r.below(p.height / 5 + 1));
    let (width, height) = (p.width - left - r.below(p.width / 5 + 1), p.height - top - r.below(p.height / 5 + 1));
    Picture::new(p.kind, width, height, |x, y| p.pixels[(y + top) * p.width + x + left])
}

/// Two to nine symbols, each where there is room or over another.
fn several(r: &mut Random) -> Picture {
    if r.one_in(3) {
        let (width, height) = sides(r, 60, 300);
        return mark_pictures::several(r, width, height);
    }
    let symbols: Vec<Picture> = (0..r.below(8) + 2).map(|_| symbol(r)).filter(|p| p.width.max(p.height) <= 160).collect();
    let largest = symbols.iter().map(|p| p.width.max(p.height)).max().unwrap_or(30);
    let (across, step) = (r.below(3) + 1, largest + r.below(9));
    let down = symbols.len().div_ceil(across).max(1);
    let mut picture = white("several symbols", (across * step).min(800), (down * step).min(800));
    for (k, p) in symbols.iter().enumerate() {
        let (left, top) = (k % across * step, k / across * step);
        for (at, byte) in p.pixels.iter().enumerate() {
            let (x, y) = (left + at % p.width, top + at / p.width);
            if x < picture.width && y < picture.height {
                picture.pixels[y * picture.width + x] |= byte;
            }
        }
    }
    picture
}

/// What the Rust's threshold makes of a frame.
fn threshold(r: &mut Random, width: usize, height: usize) -> Picture {
    let grey = frame(r, width, height);
    let img = reach::prepare(width, height, grey.pixels.into());
    Picture { kind: "prepared", width, height, pixels: reach::pixels(&img).to_vec() }
}

fn prepared(r: &mut Random) -> Picture {
    let (width, height) = sides(r, 60, 260);
    threshold(r, width, height)
}

// ---------------------------------------------------------------- large ones

fn large_symbols(r: &mut Random) -> Picture {
    let (width, height) = sides(r, 400, 800);
    match r.below(5) {
        0 | 1 => slate(r, width, height),
        2 => mark_pictures::several(r, width, height),
        3 => threshold(r, width, height),
        _ => {
            let p = symbol(r);
            let scale = (width.min(height) / p.width.max(p.height)).max(1);
            Picture::new("symbol", width, height, |x, y| {
                let (x, y) = (x / scale, y / scale);
                if x < p.width && y < p.height { p.pixels[y * p.width + x] } else { 0 }
            })
        }
    }
}

fn large(r: &mut Random) -> Picture {
    let (width, height) = sides(r, 400, 800);
    mark_pictures::drawn(r, width, height)
}
