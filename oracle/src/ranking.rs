//! Holds our ranking of neighbours against the Rust's `find_and_rank_possible_neighbors`. `oracle/run ranking` builds and starts it.
mod asked;
mod ours;
mod random;
mod report;
mod scores;

use asked::{end, Asked};
use ours::{INDEX, STONES};
use random::Random;
use report::{unless_panic, Report};
use scores::score;
use theirs::detect::CapStone;
use theirs::geometry::Perspective;
use theirs::identify::match_capstones::find_and_rank_possible_neighbors;
use theirs::Point;

fn main() {
    let asked = Asked::read();
    end(compare(asked.seed, asked.count(400_000)))
}

/// What every call borrows.
struct Lent {
    centers: Vec<i32>,
    floats: Vec<f64>,
    pairs: Vec<usize>,
}

impl Lent {
    /// Ranks, and answers the number and the pairs told. Past the stones stand numbers that are not to matter.
    fn rank(&mut self, stones: &[CapStone], n: usize, idx: usize) -> (u8, Vec<(usize, usize)>) {
        self.centers.fill(5);
        self.floats.fill(0.5);
        self.pairs.fill(77);
        for (k, stone) in stones.iter().take(64).enumerate() {
            self.centers[2 * k..2 * k + 2].copy_from_slice(&[stone.center.x, stone.center.y]);
            self.floats[8 * k..8 * k + 8].copy_from_slice(&stone.c.0);
        }
        let number = ours::rank(&self.centers, &self.floats, n, idx, &mut self.pairs);
        let told = if number == 0 { self.pairs[1984] } else { 0 };
        (number, self.pairs.chunks(2).take(told.min(992)).map(|p| (p[0], p[1])).collect())
    }

    fn blank_from(&self, k: usize) -> bool {
        self.pairs[2 * k..1984].iter().all(|n| *n == 0)
    }
}

fn compare(seed: u64, count: u64) -> bool {
    let mut lent = Lent { centers: vec![0; 128], floats: vec![0.0; 512], pairs: vec![0; 1985] };
    let mut r = Random::new(seed, "ranking");
    let mut report = Report::new("rankings");
    let mut pairs = 0;
    while report.cases() < count {
        let (kind, stones) = drawn(&mut r);
        for _ in 0..4 {
            let past = usize::from(r.one_in(20));
            let idx = r.below(stones.len() + past);
            pairs += rank_one(&mut report, &mut lent, kind, &stones, idx);
        }
    }
    for n in [65, 66, 1 << 32, usize::MAX] {
        for idx in [0, 64, n, usize::MAX] {
            let (number, _) = lent.rank(&[], n, idx);
            report.case(number == STONES && lent.blank_from(0), "11", 0, || format!("{n} stones, index {idx}: ours {number}"));
        }
    }
    println!("rankings: {pairs} pairs in all");
    report.close()
}

fn rank_one(report: &mut Report, lent: &mut Lent, kind: &str, stones: &[CapStone], idx: usize) -> usize {
    let theirs = unless_panic(|| find_and_rank_possible_neighbors(stones, idx));
    let (number, ours) = lent.rank(stones, stones.len(), idx);
    let blank = lent.blank_from(ours.len());
    let (same, told) = match &theirs {
        None => (idx >= stones.len() && number == INDEX && blank, "16, the Rust panics".to_string()),
        Some(ranked) if *ranked == ours => {
            let size = match ours.len() {
                0 => "no pair",
                1 => "one pair",
                _ if scores::ties(stones, idx, &ours) => "pairs, some with equal scores",
                _ => "pairs",
            };
            (number == 0 && blank, size.to_string())
        }
        Some(ranked) => {
            let kept = ours.get(ranked.len()..).unwrap_or(&[]);
            let nan = !kept.is_empty() && kept.iter().all(|p| score(stones, idx, *p).is_nan());
            (number == 0 && blank && nan && ours.starts_with(ranked), "pairs with no score are kept, last".to_string())
        }
    };
    report.case(same, &format!("{kind}: {told}"), stones.len() as u64, || {
        let told: Vec<_> = stones.iter().map(|s| (s.center.x, s.center.y, s.c.0)).collect();
        format!("index {idx} of {told:?}: ours {number} {ours:?}, Rust {theirs:?}")
    });
    ours.len()
}

fn stone(x: i32, y: i32, c: [f64; 8]) -> CapStone {
    CapStone { corners: [Point { x, y }; 4], center: Point { x, y }, c: Perspective(c) }
}

/// A stone seen straight on, with modules of this size.
fn straight(x: i32, y: i32, module: f64) -> CapStone {
    stone(x, y, [module, 0.0, f64::from(x) - 3.5 * module, 0.0, module, f64::from(y) - 3.5 * module, 0.0, 0.0])
}

/// Stones of one of many kinds.
fn drawn(r: &mut Random) -> (&'static str, Vec<CapStone>) {
    let n = r.pick(&[1, 2, 3, 3, 6, 9, 20, 64]);
    let n = r.below(n) + 1;
    match r.below(7) {
        0 => ("scattered", (0..n).map(|_| straight(r.between(0, 799), r.between(0, 799), r.within(0.5, 9.0))).collect()),
        1 => {
            let (step, module, wide) = (r.between(1, 90), r.within(0.5, 4.0), r.between(1, 8));
            let at = |k: usize| straight(100 + step * (k as i32 % wide), 100 + step * (k as i32 / wide), module);
            ("in rows and columns", (0..n).map(at).collect())
        }
        2 => ("of whole corners", (0..n).filter_map(|_| cornered(r)).chain([straight(9, 9, 1.0)]).take(64).collect()),
        3 => {
            let (wide, high) = (r.between(1, 3), r.between(1, 3));
            ("close together", (0..n).map(|_| straight(r.between(0, wide), r.between(0, high), 1.0)).collect())
        }
        4 => {
            let wild = [0.0, -0.0, 1.0, -1.0, 1e-300, 1e300, f64::INFINITY, f64::NEG_INFINITY, f64::NAN];
            ("of any coefficients", (0..n).map(|_| stone(r.between(-9, 9), r.between(-9, 9), std::array::from_fn(|_| r.pick(&wild)))).collect())
        }
        5 => {
            let mut stones: Vec<CapStone> = (0..n).map(|_| straight(r.between(0, 9), r.between(0, 9), 1.0)).collect();
            for stone in &mut stones {
                stone.c.0[r.below(8)] = r.pick(&[0.0, 1e-308, 1e300, -1e300, f64::INFINITY, f64::NAN]);
            }
            ("with one coefficient of their own", stones)
        }
        _ => ("of any floats", (0..n).map(|_| stone(r.between(i32::MIN, i32::MAX), r.between(-99, 99), std::array::from_fn(|_| r.any_float()))).collect()),
    }
}

/// A stone of four corners in a picture.
fn cornered(r: &mut Random) -> Option<CapStone> {
    let (x, y, side, lean) = (r.between(0, 700), r.between(0, 700), r.between(7, 60), r.between(-5, 5));
    let corners = [
        Point { x, y },
        Point { x: x + side, y: y + lean },
        Point { x: x + side - lean, y: y + side + r.between(-3, 3) },
        Point { x: x - lean, y: y + side },
    ];
    let c = Perspective::create(&corners, 7.0, 7.0)?;
    Some(CapStone { corners, center: unless_panic(|| c.map(3.5, 3.5))?, c })
}
