//! Claims: the picture, the rows in the order met, and the counts of rows, pixels and pushes.
use crate::ours::{self, Seed, SAME, WHITE};
use crate::pictures::{bitmap, checkerboard, comb, maze, nth, painted, rings, spiral, Picture};
use crate::random::Random;
use crate::report::{unless_panic, Report};
use theirs::prepare::{reach, Row};

/// What stands in the counts before a call.
const BEFORE: usize = 77;

pub fn compare(seed: u64, count: u64) -> bool {
    let mut lent = Lent { stack: vec![0; 640_000], rows: vec![0; 3 * 640_000] };
    let reports = [
        small(&mut lent),
        coloured(&mut lent, &mut Random::new(seed, "coloured"), count),
        large(&mut lent, &mut Random::new(seed, "large")),
        other_sides(&mut lent),
        refusals(&mut lent),
    ];
    let fills: u64 = reports.iter().map(Report::cases).sum();
    let agreed = reports.into_iter().map(Report::close).fold(true, |a, b| a && b);
    println!("claim: {fills} fills in all");
    agreed
}

/// What every claim borrows; it is never cleared.
struct Lent {
    stack: Vec<u32>,
    rows: Vec<usize>,
}

/// Rows, pixels, and 1 plus the pairs of rows that overlap in a column and lie on neighbouring lines.
pub fn counts_of(rows: &[Row]) -> [usize; 3] {
    let pixels = rows.iter().map(|r| r.right - r.left + 1).sum();
    let mut sorted = rows.to_vec();
    sorted.sort_by_key(|r| (r.y, r.left));
    let (mut pairs, mut first) = (0, 0);
    for (k, r) in sorted.iter().enumerate() {
        while first < k && (sorted[first].y + 1 < r.y || (sorted[first].y + 1 == r.y && sorted[first].right < r.left)) {
            first += 1;
        }
        let overlaps = |q: &&Row| q.y + 1 == r.y && q.left <= r.right;
        pairs += sorted[first..k].iter().take_while(overlaps).count();
    }
    [rows.len(), pixels, 1 + pairs]
}

/// One claim on both sides, ours with its counts and again with its rows. What it leaves replaces the picture.
fn claim_one(report: &mut Report, lent: &mut Lent, picture: &mut Picture, seed: Seed) {
    let (w, h) = (picture.width, picture.height);
    let byte = picture.pixels[seed.y * w + seed.x];
    let mut rows = vec![];
    let mut img = reach::picture(w, h, &picture.pixels);
    let painted = unless_panic(|| reach::claim(&mut img, seed.x, seed.y, seed.target, |row| rows.push(row)));
    let (theirs, kind) = match painted {
        Some(()) => ((0, counts_of(&rows)), picture.kind),
        None if byte == 0 => ((WHITE, [BEFORE; 3]), "6, the Rust panics"),
        None => ((SAME, [BEFORE; 3]), "7, the Rust panics"),
    };
    let (mut pixels, mut again) = (picture.pixels.clone(), picture.pixels.clone());
    let (mut counts, mut listed) = ([BEFORE; 3], [0]);
    let stack = &mut lent.stack[..w * h];
    let ours = (ours::claim(&mut pixels, w, h, stack, seed, &mut counts), counts);
    let status = ours::rows(&mut again, w, h, stack, seed, &mut lent.rows[..3 * w * h], &mut listed);
    let in_order = lent.rows.chunks(3).take(listed[0]).eq(rows.iter().map(|r| [r.left, r.right, r.y]));
    let same_rows = status == theirs.0 && listed[0] == rows.len() && in_order;
    let same_pixels = pixels == reach::pixels(&img) && again == reach::pixels(&img);
    report.case(ours == theirs && same_rows && same_pixels, kind, (w * h) as u64, || {
        format!(
            "claim of {seed:?} in {}: ours {ours:?}, Rust {theirs:?}; same rows in order: {same_rows}, same pixels: {same_pixels}",
            picture.told()
        )
    });
    picture.pixels = pixels;
}

/// Every bitmap of up to 4 x 4, from every seed.
fn small(lent: &mut Lent) -> Report {
    let mut report = Report::new("claims in every bitmap up to 4 x 4");
    for width in 1..=4 {
        for height in 1..=4 {
            for k in 0..1 << (width * height) {
                let picture = nth("painted", width, height, &[0, 1], k);
                for at in 0..width * height {
                    let seed = Seed { x: at % width, y: at / width, target: (k as usize + at) as u8 % 3 + 2 };
                    claim_one(&mut report, lent, &mut picture.clone(), seed);
                }
            }
        }
    }
    report
}

/// A seed that is seldom white, and a target.
fn some_seed(r: &mut Random, picture: &Picture) -> Seed {
    let mut at = r.below(picture.pixels.len());
    for _ in 0..6 {
        if picture.pixels[at] == 0 {
            at = r.below(picture.pixels.len());
        }
    }
    Seed { x: at % picture.width, y: at / picture.width, target: r.pick(&[2, 3, 4]) }
}

/// Several claims, one after the other, in pictures of many bytes.
fn coloured(lent: &mut Lent, r: &mut Random, count: u64) -> Report {
    let mut report = Report::new("claims in pictures of many bytes");
    while report.cases() < count {
        let reach = r.pick(&[3, 6, 12, 12, 30, 60]);
        let (width, height) = (r.below(reach) + 1, r.below(reach) + 1);
        let mut picture = painted(r, width, height);
        for _ in 0..8 {
            let seed = some_seed(r, &picture);
            claim_one(&mut report, lent, &mut picture, seed);
        }
    }
    report
}

/// Shapes that are hard on a fill, up to 800 x 800, each from several seeds.
fn large(lent: &mut Lent, r: &mut Random) -> Report {
    let mut report = Report::new("claims in large pictures");
    for side in [37, 100, 255, 400, 799, 800] {
        let mut shapes = vec![spiral(side, side), checkerboard(side, side), rings(side, side)];
        shapes.push(Picture::new("black", side, side, |_, _| 1));
        shapes.extend((1..4).map(|tooth| comb(side, side, tooth)));
        shapes.extend((0..4).map(|_| maze(r, side, side)));
        shapes.extend((0..12).map(|_| bitmap(r, side, side / 2 + 1)));
        shapes.extend((0..12).map(|_| painted(r, side / 2 + 1, side)));
        for mut shape in shapes {
            for _ in 0..6 {
                let seed = some_seed(r, &shape);
                claim_one(&mut report, lent, &mut shape, seed);
            }
        }
    }
    report
}

/// The same bytes under every pair of sides with their product.
fn other_sides(lent: &mut Lent) -> Report {
    let mut report = Report::new("claims at other sides of the same product");
    for k in 0..1 << 12 {
        let bytes = nth("painted", 12, 1, &[0, 1], k).pixels;
        for width in [1, 2, 3, 4, 6, 12] {
            let mut picture = Picture { kind: "painted", width, height: 12 / width, pixels: bytes.clone() };
            claim_one(&mut report, lent, &mut picture, Seed { x: 0, y: 0, target: 2 });
        }
    }
    report
}

/// What document 01 refuses, in its order; the Rust isn't asked. Picture and counts stay as they were.
fn refusals(lent: &mut Lent) -> Report {
    let mut report = Report::new("claims that are refused");
    let sides = [0, 1, 3, 4, 800, 801, usize::MAX];
    let places = [0, 1, 2, 3, 4, usize::MAX];
    let bytes = [1, 0, 2, 3, 4, 1, 1, 0, 5, 255, 1, 1];
    for (width, height) in sides.iter().flat_map(|w| sides.iter().map(move |h| (*w, *h))) {
        for (x, y) in places.iter().flat_map(|x| places.iter().map(move |y| (*x, *y))) {
            for target in [0, 1, 2, 3, 4, 5, 255] {
                for (entries, room) in [(12, 3), (11, 3), (0, 3), (12, 2), (12, 0)] {
                    let expected = first_refusal(&bytes, width, height, entries, room, Seed { x, y, target });
                    let mut pixels = bytes.to_vec();
                    let mut counts = vec![BEFORE; room];
                    let ours = ours::claim(&mut pixels, width, height, &mut lent.stack[..entries], Seed { x, y, target }, &mut counts);
                    let kept = expected == 0 || (pixels == bytes && counts == vec![BEFORE; room]);
                    report.case(ours == expected && kept, &format!("{expected}"), 12, || {
                        format!("{width} x {height}, ({x}, {y}), target {target}, {entries} entries, room {room}: ours {ours}, expected {expected}")
                    });
                }
            }
        }
    }
    report
}

fn first_refusal(bytes: &[u8], width: usize, height: usize, entries: usize, room: usize, seed: Seed) -> u8 {
    let side = |n| (1..=800).contains(&n);
    if room < 3 {
        return 3;
    }
    if !side(width) || !side(height) {
        return 1;
    }
    if width * height != bytes.len() {
        return 2;
    }
    if entries < bytes.len() {
        return 3;
    }
    if seed.x >= width || seed.y >= height {
        return 5;
    }
    if !(2..=4).contains(&seed.target) {
        return 8;
    }
    match bytes[seed.y * width + seed.x] {
        0 => WHITE,
        b if b == seed.target => SAME,
        _ => 0,
    }
}
