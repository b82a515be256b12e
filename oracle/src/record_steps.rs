//! Cases of the operations below detect. Refusals 1, 2, 3, 5, 8, 9, a lookup's 6, and 12 and 16 where a caller's own numbers meet them are document
//! 01's: the Rust is not asked. The others are the Rust's panics, with 01's limits built in.
use crate::fill::counts_of;
use crate::mark_pictures;
use crate::pictures::{bitmap, frame, grey, painted, Picture};
use crate::random::Random;
use crate::recorded::{asked, Case, NONE, NO_TABLE};
use crate::report::unless_panic;
use crate::scores::score;
use crate::symbols::{seen, Seen};
use theirs::detect::{capstones_from_image, CapStone};
use theirs::geometry::Perspective;
use theirs::identify::match_capstones::{find_and_rank_possible_neighbors, CapStoneGroup};
use theirs::limits;
use theirs::prepare::{reach, ColoredRegion};
use theirs::{BitGrid, Point, SkewedGridLocation};

const FAR: u64 = 12;
const INDEX: u64 = 16;

/// Sides and a length that are refused, with 1 or 2.
pub const REFUSED: [(usize, usize, usize, u64); 8] =
    [(0, 3, 0, 1), (3, 0, 0, 1), (801, 1, 801, 1), (1, 801, 801, 1), (3, 3, 8, 2), (3, 3, 10, 2), (1, 800, 799, 2), (5, 1, 0, 2)];

// ---------------------------------------------------------------- prepare and accept

pub fn prepares(r: &mut Random) {
    for k in 0..40 {
        let reach = [20, 40, 60, 90][k % 4];
        let (width, height) = (16 + r.below(reach), 1 + r.below(reach));
        let picture = if k % 4 == 0 { frame(r, width, height) } else { grey(r, width, height) };
        prepare_one('p', &picture);
    }
    let line = Picture::new("line", 16, 1, |x, _| if x == 8 { 0 } else { 200 });
    prepare_one('p', &line);
    for (width, height, length, number) in REFUSED {
        let bytes: Vec<u8> = (0..length).map(|_| r.below(256) as u8).collect();
        Case::new('p').picture(width, height, &bytes).word(number).sums(&bytes).end();
    }
    for width in 1..=15 {
        for height in [1, 9, 40] {
            let picture = if height == 40 { Picture::new("noise", width, height, |_, _| r.pick(&[0, 255])) } else { grey(r, width, height) };
            let left = prepare_one('w', &picture);
            assert!(left.iter().all(|b| *b == 0), "a picture of width 15 or less becomes white");
        }
    }
}

fn prepare_one(kind: char, picture: &Picture) -> Vec<u8> {
    let img = reach::prepare(picture.width, picture.height, picture.pixels.clone().into());
    let left = reach::pixels(&img).to_vec();
    Case::new(kind).drawn(picture).word(0).sums(&left).end();
    left
}

pub fn accepts(r: &mut Random) {
    for k in 0..30 {
        let (width, height) = (1 + r.below(40), 1 + r.below(40));
        let mut picture = bitmap(r, width, height);
        if k % 2 == 0 {
            let at = r.below(width * height);
            picture.pixels[at] = r.pick(&[2, 3, 5, 127, 255]);
        }
        let taken = unless_panic(|| reach::accept(width, height, picture.pixels.clone().into())).is_some();
        Case::new('a').drawn(&picture).word(if taken { 0 } else { 4 }).end();
    }
    for (width, height, length, number) in REFUSED {
        Case::new('a').picture(width, height, &vec![2; length]).word(number).end();
    }
}

// ---------------------------------------------------------------- claims and lookups

/// A claim on the Rust's side: what it answers, as words.
fn claim(img: &mut reach::Picture, byte: u8, x: usize, y: usize, target: u8) -> Vec<usize> {
    let mut rows = vec![];
    match unless_panic(|| reach::claim(img, x, y, target, |row| rows.push(row))) {
        Some(()) => [0].into_iter().chain(counts_of(&rows)).collect(),
        None => vec![if byte == 0 { 6 } else { 7 }],
    }
}

pub fn claims(r: &mut Random) {
    for k in 0..80 {
        let reach = [6, 12, 30, 60][k % 4];
        let (width, height) = (1 + r.below(reach), 1 + r.below(reach));
        let picture = if k % 3 == 0 { bitmap(r, width, height) } else { painted(r, width, height) };
        let (x, y, target) = (r.below(width), r.below(height), r.pick(&[2, 3, 4]));
        let mut img = reach::picture(width, height, &picture.pixels);
        let answer = claim(&mut img, picture.pixels[y * width + x], x, y, target);
        Case::new('c').drawn(&picture).words(&[width * height, x, y, target as usize]).words(&answer).sums(reach::pixels(&img)).end();
    }
    let bytes = [1, 0, 2, 3, 4, 1, 1, 0, 5, 255, 1, 1];
    let refused = |sides: (usize, usize), bytes: &[u8], entries: usize, at: [usize; 3], number: u64| {
        Case::new('c').picture(sides.0, sides.1, bytes).words(&[entries]).words(&at).word(number).sums(bytes).end();
    };
    for (width, height, length, number) in REFUSED {
        refused((width, height), &vec![1; length], 0, [0, 0, 2], number);
    }
    refused((4, 3), &bytes, 11, [9, 9, 9], 3);
    refused((4, 3), &bytes, 12, [4, 0, 9], 5);
    refused((4, 3), &bytes, 12, [0, 3, 9], 5);
    refused((4, 3), &bytes, 12, [usize::MAX, usize::MAX, 2], 5);
    for target in [0, 1, 5, 255] {
        refused((4, 3), &bytes, 12, [1, 0, target], 8);
    }
}

/// What a lookup answers, as words.
fn looked(region: ColoredRegion) -> Vec<usize> {
    match region {
        ColoredRegion::CapStone => vec![NONE as usize + 2],
        ColoredRegion::Alignment => vec![NONE as usize + 3],
        ColoredRegion::Tmp1 => vec![NONE as usize + 4],
        ColoredRegion::Unclaimed { color, src_x, src_y, pixel_count } => vec![0, u8::from(color) as usize - 5, src_x, src_y, pixel_count],
    }
}

/// One lookup, or one claim with its target: its words, and what it answers.
fn call(case: &mut Case, img: &mut reach::Picture, (width, height): (usize, usize), (x, y): (usize, usize), target: Option<usize>) {
    case.words(&[usize::from(target.is_some()), x, y]).words(&target.into_iter().collect::<Vec<_>>());
    if x >= width || y >= height {
        case.word(5);
        return;
    }
    let byte = reach::pixels(img)[y * width + x];
    match target {
        Some(target) if !(2..=4).contains(&target) => case.word(8),
        Some(target) => case.words(&claim(img, byte, x, y, target as u8)),
        None if byte == 0 => case.word(6),
        None => match asked(|| looked(reach::look_up(img, x, y))) {
            Ok(answer) => case.words(&answer),
            Err(number) => case.word(u64::from(number)),
        },
    };
}

pub fn lookups(r: &mut Random) {
    for k in 0..50 {
        let many = k % 8 == 0;
        let (width, height) = if many { (40 + r.below(40), 16 + r.below(12)) } else { (1 + r.below(14), 1 + r.below(14)) };
        let density = 1 + r.below(9);
        let board = many && r.one_in(2);
        let mut picture = Picture::new("noise", width, height, |x, y| u8::from(if board { (x + y) % 2 == 0 } else { r.below(10) < density }));
        if k % 10 == 9 {
            let strays: Vec<usize> = (0..4).map(|_| r.below(width * height)).collect();
            strays.iter().for_each(|at| picture.pixels[*at] = 5 + r.below(251) as u8);
        }
        let count = if many { 300 + r.below(300) } else { 1 + r.below(60) };
        let mut img = reach::picture(width, height, &picture.pixels);
        let mut case = Case::new('l');
        case.drawn(&picture).words(&NO_TABLE).words(&[width * height, count]);
        for _ in 0..count {
            let (x, y) = (r.below(width + usize::from(k % 4 == 1)), r.below(height + usize::from(k % 4 == 1)));
            let target = r.one_in(8).then(|| r.pick(&[2, 3, 4, 2, 3, 4, 0, 5, 255]));
            call(&mut case, &mut img, (width, height), (x, y), target);
        }
        case.leaves(&img).end();
    }
    refused_lookups(r);
    strip();
}

/// Lookups that are refused at once. A table is written as it is lent: its count, and as many places as are listed.
fn refused_lookups(r: &mut Random) {
    for (width, height, length, number) in REFUSED {
        let bytes = vec![1; length];
        Case::new('l').picture(width, height, &bytes).words(&NO_TABLE).words(&[0, 1, 0, 0, 0]).word(number).sums(&bytes).word(0).end();
    }
    let bytes: Vec<u8> = (0..12).map(|_| r.below(7) as u8).collect();
    let refused = |n: usize, places: &[[usize; 4]], entries: usize, at: [usize; 2], number: u64| {
        let mut case = Case::new('l');
        case.picture(4, 3, &bytes).words(&[n, places.len()]);
        places.iter().for_each(|place| {
            case.words(place);
        });
        case.words(&[entries, 1, 0]).words(&at).word(number).sums(&bytes).words(&[n]);
        let blank = [[0; 4]; 251];
        places.iter().chain(&blank).take(n.min(251)).for_each(|place| {
            case.words(place);
        });
        case.end();
    };
    refused(0, &[], 11, [9, 9], 3);
    refused(252, &[], 12, [4, 0], 5);
    refused(252, &[], 12, [0, 0], 9);
    refused(usize::MAX, &[], 12, [0, 0], 9);
    refused(1, &[[1, 0, 0, 1]], 12, [0, 0], 9);
    refused(1, &[[0, 4, 0, 1]], 12, [0, 0], 9);
    refused(1, &[[0, 0, 3, 1]], 12, [0, 0], 9);
    refused(2, &[[0, 0, 0, 1], [0, 1, 0, 1]], 12, [0, 0], 9);
    refused(2, &[[2, 0, 0, 1], [1, 1, 0, 1]], 12, [0, 0], 9);
}

/// Document 01's example of a full table: black at even x, looked up from left to right.
fn strip() {
    let picture = Picture::new("strip", 503, 1, |x, _| u8::from(x % 2 == 0));
    let mut img = reach::picture(503, 1, &picture.pixels);
    let mut case = Case::new('s');
    case.drawn(&picture).words(&NO_TABLE).words(&[503, 252]);
    for k in 0..252 {
        call(&mut case, &mut img, (503, 1), (2 * k, 0), None);
    }
    let pixels = reach::pixels(&img);
    assert!(pixels[502] == 5 && pixels[0] == 1, "the 252nd lookup gets byte 5, and x = 0 is 1 again");
    case.leaves(&img).end();
}

// ---------------------------------------------------------------- rank

/// A stone seen straight on, with modules of this size.
fn straight(x: i32, y: i32, module: f64) -> CapStone {
    let c = Perspective([module, 0.0, f64::from(x) - 3.5 * module, 0.0, module, f64::from(y) - 3.5 * module, 0.0, 0.0]);
    CapStone { corners: [Point { x, y }; 4], center: Point { x, y }, c }
}

fn some_stones(r: &mut Random, k: usize) -> Vec<CapStone> {
    let n = 1 + r.below([3, 6, 9, 20, 64][k % 5]);
    let (step, module, wide) = (r.between(1, 90), r.within(0.5, 4.0), r.between(1, 8));
    let at = |k: usize| straight(100 + step * (k as i32 % wide), 100 + step * (k as i32 / wide), module);
    match k % 3 {
        0 => (0..n).map(|_| straight(r.between(0, 799), r.between(0, 799), r.within(0.5, 9.0))).collect(),
        1 => (0..n).map(at).collect(),
        _ => (0..n).map(|_| straight(r.between(0, 3), r.between(0, 3), 1.0)).collect(),
    }
}

pub fn ranks(r: &mut Random) {
    for k in 0..60 {
        let stones = some_stones(r, k);
        let idx = r.below(stones.len() + usize::from(k % 10 == 9));
        let mut case = Case::new('r');
        case.words(&[stones.len(), idx, stones.len()]);
        stones.iter().for_each(|s| {
            case.point(&s.center).floats(&s.c.0);
        });
        match unless_panic(|| find_and_rank_possible_neighbors(&stones, idx)) {
            Some(pairs) => {
                assert!(pairs.iter().all(|p| !score(&stones, idx, *p).is_nan()), "every pair has a score");
                case.words(&[0, pairs.len()]);
                pairs.iter().for_each(|(h, v)| {
                    case.words(&[*h, *v]);
                });
            }
            None => {
                assert!(idx >= stones.len(), "the Rust panics at an index outside the list");
                case.word(INDEX);
            }
        }
        case.end();
    }
    for (n, idx, number) in [(65, 0, 11), (65, 65, 11), (usize::MAX, 3, 11), (64, 64, INDEX), (0, 0, INDEX), (3, usize::MAX, INDEX)] {
        Case::new('r').words(&[n, idx, 0]).word(number).end();
    }
}

// ---------------------------------------------------------------- fit

/// A stone of these corners, whose perspective is not to matter.
fn stone(corners: [Point; 4], center: Point) -> CapStone {
    CapStone { corners, center, c: Perspective([f64::NAN; 8]) }
}

/// The same picture and table.
fn copy(w: usize, h: usize, pixels: &[u8], table: &[(u8, ColoredRegion)]) -> reach::Picture {
    let mut img = reach::picture(w, h, pixels);
    for (number, region) in table.iter().rev() {
        let [x, y, px] = crate::tables::entry(region);
        reach::put(&mut img, *number, x, y, px);
    }
    img
}

/// Fits a group on a picture in some state. The number, where it is refused.
fn fit_one(img: &reach::Picture, (w, h): (usize, usize), group: &[CapStone; 3]) -> u64 {
    let (pixels, table) = (reach::pixels(img).to_vec(), reach::table(img));
    let mut case = Case::new('f');
    case.picture(w, h, &pixels).given(&table).words(&[w * h, w * h]);
    group.iter().for_each(|s| {
        case.corners(s);
    });
    let out = |p: &Point| !(-10_000..=10_000).contains(&p.x) || !(-10_000..=10_000).contains(&p.y);
    let off = |p: &Point| !(0..w as i32).contains(&p.x) || !(0..h as i32).contains(&p.y);
    let [a, b, c] = group.clone();
    let mut left = copy(w, h, &pixels, &table);
    let found = match group.iter().any(|s| out(&s.center) || s.corners.iter().any(off)) {
        true => Err(FAR as u8),
        false => asked(|| SkewedGridLocation::from_group(&mut left, CapStoneGroup(a, b, c))),
    };
    let number = match &found {
        Ok(Some(grid)) => {
            case.words(&[0, grid.grid_size]).floats(&grid.c.0).leaves(&left);
            0
        }
        Ok(None) => {
            case.word(NONE).leaves(&left);
            NONE
        }
        Err(number) => {
            case.word(u64::from(*number)).sums(&pixels).left(&table);
            u64::from(*number)
        }
    };
    case.end();
    number
}

/// A symbol with a stone near each of its true corners.
fn near_true(r: &mut Random, of: &Seen, off: i32) -> [CapStone; 3] {
    let (w, h) = (of.picture.width as i32, of.picture.height as i32);
    let far = (of.size - 7) as f64;
    [(far, 0.0), (0.0, 0.0), (0.0, far)].map(|(u, v)| {
        let mut at = |u: f64, v: f64| {
            let p = of.c.map(u, v);
            Point { x: (p.x + r.between(-off, off)).clamp(0, w - 1), y: (p.y + r.between(-off, off)).clamp(0, h - 1) }
        };
        stone([at(u, v), at(u + 7.0, v), at(u + 7.0, v + 7.0), at(u, v + 7.0)], at(u + 3.5, v + 3.5))
    })
}

/// Three stones anywhere in the picture.
fn anywhere(r: &mut Random, w: usize, h: usize) -> [CapStone; 3] {
    [0; 3].map(|_| {
        let mut p = || Point { x: r.below(w) as i32, y: r.below(h) as i32 };
        stone([p(), p(), p(), p()], p())
    })
}

/// A symbol in a picture that is not large.
fn some_symbol(r: &mut Random, most: usize) -> Seen {
    loop {
        let of = seen(r);
        if of.picture.width * of.picture.height <= most {
            return of;
        }
    }
}

/// Groups on fresh pictures and, one in eight, on pictures as the search for stones leaves them.
pub fn fits(r: &mut Random) {
    let mut counts = [0; 17];
    let mut cases = 0;
    while cases < 80 || [12, 13, 14, 15].iter().any(|k| counts[*k] < 2) {
        let of = some_symbol(r, 5000);
        let (w, h) = (of.picture.width, of.picture.height);
        let mut img = reach::picture(w, h, &of.picture.pixels);
        limits::begin();
        let stones = unless_panic(|| capstones_from_image(&mut img)).unwrap_or_default();
        if cases % 8 > 0 {
            img = reach::picture(w, h, &of.picture.pixels);
        }
        let ranked = (0..stones.len()).find_map(|k| find_and_rank_possible_neighbors(&stones, k).first().map(|(h, v)| [*h, k, *v]));
        let group = match (ranked, r.below(4)) {
            (Some(ranked), 0 | 1) => ranked.map(|k| stones[k].clone()),
            (_, 2) => near_true(r, &of, 0),
            (_, 3) => near_true(r, &of, 3),
            _ => anywhere(r, w, h),
        };
        // a limit of document 01's is met where the stones are wild; such groups are drawn until there are enough of each number
        let group = if cases >= 74 { anywhere(r, w, h) } else { group };
        let wanted = cases < 80 || wanted_of(&copy(w, h, reach::pixels(&img), &reach::table(&img)), &group, (w, h)).is_some_and(|k| counts[k] < 2);
        if wanted {
            let number = fit_one(&img, (w, h), &group) as usize;
            counts[number.min(16)] += 1;
            cases += 1;
        }
    }
    stray_fit(r);
    refused_fits(r);
}

/// The number that a group is refused with.
fn wanted_of(img: &reach::Picture, group: &[CapStone; 3], (w, h): (usize, usize)) -> Option<usize> {
    let mut left = copy(w, h, reach::pixels(img), &reach::table(img));
    let [a, b, c] = group.clone();
    asked(|| SkewedGridLocation::from_group(&mut left, CapStoneGroup(a, b, c))).err().map(usize::from)
}

/// A symbol whose pieces all have a number that the table does not know.
fn stray_fit(r: &mut Random) {
    loop {
        let of = some_symbol(r, 3000);
        let (w, h) = (of.picture.width, of.picture.height);
        let pixels: Vec<u8> = of.picture.pixels.iter().map(|b| b * 77).collect();
        let (img, group) = (reach::picture(w, h, &pixels), near_true(r, &of, 0));
        if wanted_of(&img, &group, (w, h)) == Some(10) {
            fit_one(&img, (w, h), &group);
            return;
        }
    }
}

/// Groups that are refused before the first step.
fn refused_fits(r: &mut Random) {
    let point = Point { x: 0, y: 0 };
    let group = [0; 3].map(|_| stone([point; 4], point));
    let write = |sides: (usize, usize), bytes: &[u8], table: &[usize], rooms: [usize; 2], group: &[CapStone; 3], number: u64, left: &[usize]| {
        let mut case = Case::new('f');
        case.picture(sides.0, sides.1, bytes).words(table).words(&rooms);
        group.iter().for_each(|s| {
            case.corners(s);
        });
        case.word(number).sums(bytes).words(left).end();
    };
    for (width, height, length, number) in REFUSED {
        write((width, height), &vec![1; length], &NO_TABLE, [0, 0], &group, number, &[0]);
    }
    let bytes: Vec<u8> = (0..81).map(|_| r.below(2) as u8).collect();
    write((9, 9), &bytes, &NO_TABLE, [80, 81], &group, 3, &[0]);
    write((9, 9), &bytes, &NO_TABLE, [81, 80], &group, 3, &[0]);
    write((9, 9), &bytes, &[1, 1, 0, 9, 0, 1], [81, 81], &group, 9, &[1, 0, 9, 0, 1]);
    for (corner, center) in [((-1, 0), (0, 0)), ((9, 0), (0, 0)), ((0, 9), (0, 0)), ((0, 0), (0, 10_001)), ((0, 0), (i32::MIN, 0))] {
        let mut group = group.clone();
        group[r.below(3)].corners[r.below(4)] = Point { x: corner.0, y: corner.1 };
        group[r.below(3)].center = Point { x: center.0, y: center.1 };
        write((9, 9), &bytes, &NO_TABLE, [81, 81], &group, FAR, &[0]);
    }
}

// ---------------------------------------------------------------- cells

/// A perspective of corners near the picture, or of floats that may place nothing.
fn perspective(r: &mut Random, w: usize, h: usize, size: u8) -> Perspective {
    let (w, h) = (w as i32, h as i32);
    let corners = [(0, 0), (w, 0), (w, h), (0, h)].map(|(x, y)| Point { x: x + r.between(-w, w) / 3, y: y + r.between(-h, h) / 3 });
    match Perspective::create(&corners, f64::from(size), f64::from(size)) {
        Some(c) if !r.one_in(4) => c,
        _ if r.one_in(2) => Perspective([0; 8].map(|_| r.within(-3.0, 3.0))),
        _ => Perspective([0; 8].map(|_| r.any_float())),
    }
}

pub fn cells(r: &mut Random) {
    for k in 0..40 {
        let (width, height) = (r.below(40) + 1, r.below(40) + 1);
        let mut picture = mark_pictures::drawn(r, width, height);
        if k % 4 == 0 {
            picture.pixels.iter_mut().for_each(|b| *b *= r.below(256) as u8);
        }
        let size = r.pick(&[0, 1, 17, 21, 25, 101, 177, 255]);
        let c = perspective(r, width, height, size);
        let grid = SkewedGridLocation { grid_size: size as usize, c: c.clone() };
        let img = reach::picture(width, height, &picture.pixels);
        let image = grid.into_grid_image(&img);
        let mut case = Case::new('b');
        case.drawn(&picture).word(u64::from(size)).floats(&c.0).word(25);
        for _ in 0..25 {
            let past = r.one_in(8);
            let mut at = || if past { r.below(256) } else { r.below((size as usize).max(1)) };
            let (y, x) = (at(), at());
            let answer = match () {
                _ if x >= size as usize || y >= size as usize => INDEX,
                _ => asked(|| image.bit(y, x)).map_or_else(u64::from, |dark| NONE + u64::from(dark)),
            };
            case.words(&[y, x]).word(answer);
        }
        case.end();
    }
    for (width, height, length, number) in REFUSED {
        Case::new('b').picture(width, height, &vec![1; length]).word(17).floats(&[0.0; 8]).words(&[1, 200, 200]).word(number).end();
    }
}
