//! Bitmaps with three marks of which the outer two lean towards each other: the lines from which the fourth corner is worked out meet far out,
//! and the horizon of their grid lies near it, or runs through it.
use crate::mark_pictures::{draw_mark, in_mark, white};
use crate::pictures::Picture;
use crate::random::Random;
use theirs::detect::capstones_from_image;
use theirs::geometry::{line_intersect, BresenhamScan, Perspective};
use theirs::panics::asked;
use theirs::prepare::reach;
use theirs::{limits, Point};

/// The point that lies so far to the right and so far down.
pub fn by(p: Point, x: i32, y: i32) -> Point {
    Point { x: p.x + x, y: p.y + y }
}

// ---------------------------------------------------------------- a group's stones

/// Three stones as the Rust finds and turns them: the one between, the one beside it, the one below. Their corners begin at the left upper one.
pub struct Group {
    corners: [[Point; 4]; 3],
    seen: [Perspective; 3],
}

impl Group {
    /// The stones of a picture that has three, upright ones.
    pub fn of(picture: &Picture) -> Option<Group> {
        let mut img = reach::picture(picture.width, picture.height, &picture.pixels);
        limits::begin();
        let mut stones = asked(|| capstones_from_image(&mut img)).ok().filter(|stones| stones.len() == 3)?;
        stones.sort_by_key(|s| s.center.x + s.center.y);
        stones[1..].sort_by_key(|s| s.center.y - s.center.x);
        let line = by(stones[1].center, -stones[2].center.x, -stones[2].center.y);
        let corners = [0, 1, 2].map(|k| {
            let mut corners = stones[k].corners;
            let first = (0..4).min_by_key(|i| corners[*i].y * line.x - corners[*i].x * line.y).unwrap();
            corners.rotate_left(first);
            corners
        });
        let [a, b, c] = corners.map(|corners| Perspective::create(&corners, 7.0, 7.0));
        Some(Group { corners, seen: [a?, b?, c?] })
    }

    /// The ends of the timing scans: both start at the first.
    pub fn ends(&self) -> Option<[Point; 3]> {
        asked(|| [self.seen[0].map(6.5, 6.5), self.seen[1].map(0.5, 6.5), self.seen[2].map(6.5, 0.5)]).ok()
    }

    /// Where the lines meet from which the fourth corner is worked out.
    pub fn meeting(&self) -> Option<Point> {
        let [_, beside, below] = self.corners;
        line_intersect(&below[0], &below[1], &beside[0], &beside[3])
    }

    /// The size estimate of an alignment pattern there.
    pub fn estimate(&self, meeting: Point) -> Option<i64> {
        let [_, beside, below] = &self.seen;
        let guessed = asked(|| {
            let ((u, v), (s, t)) = (below.unmap(&meeting), beside.unmap(&meeting));
            [below.map(u, v + 1.0), beside.map(s + 1.0, t)].map(|p| (i64::from(p.x) - i64::from(meeting.x), i64::from(p.y) - i64::from(meeting.y)))
        });
        guessed.ok().map(|[a, c]| (a.1 * c.0 - a.0 * c.1).abs())
    }

    /// The perspective of a grid of this size before it is refined, if this is its fourth corner.
    pub fn grid(&self, size: i32, fourth: Point) -> Option<Perspective> {
        let [between, beside, below] = self.corners;
        let side = f64::from(size - 7);
        Perspective::create(&[between[0], beside[0], fourth, below[0]], side, side)
    }
}

/// How often a scan over a bitmap changes between white and black.
pub fn changes(p: &Picture, from: Point, to: Point) -> usize {
    let bytes: Vec<Option<u8>> = BresenhamScan::new(&from, &to).map(|q| p.at(q.x, q.y)).collect();
    bytes.windows(2).filter(|two| two[0] != two[1]).count()
}

/// Makes so many points of a scan black, every second one, where all is white around them: each is two changes more.
pub fn dash(p: &mut Picture, from: Point, to: Point, most: usize) {
    let every_second = BresenhamScan::new(&from, &to).step_by(2).filter(|q| is_free(p, *q)).take(most);
    every_second.collect::<Vec<_>>().iter().for_each(|q| p.set(q.x, q.y, 1));
}

/// Whether a place and all places around it are white.
pub fn is_free(p: &Picture, q: Point) -> bool {
    (0..9).all(|k| p.at(q.x - 1 + k % 3, q.y - 1 + k / 3).unwrap_or(0) == 0)
}

// ---------------------------------------------------------------- pictures

/// A mark whose left upper corner is here, turned around it.
fn draw_turned(p: &mut Picture, corner: Point, module: i32, turn: f64) {
    let far = 10 * module;
    let (sin, cos) = turn.sin_cos();
    for (dx, dy) in (-far..=far).flat_map(|dy| (-far..=far).map(move |dx| (dx, dy))) {
        let (a, b) = ((f64::from(dx) + 0.5) / f64::from(module), (f64::from(dy) + 0.5) / f64::from(module));
        let (u, v) = (a * cos + b * sin, b * cos - a * sin);
        if (0.0..7.0).contains(&u) && (0.0..7.0).contains(&v) && in_mark(u, v) {
            p.set(corner.x + dx, corner.y + dy, 1);
        }
    }
}

/// Three marks: the left upper corner of the one between, how far the others are from it, how far they are moved inwards, and how they lean.
struct Leaning {
    module: i32,
    first: Point,
    apart: i32,
    inwards: i32,
    leans: [f64; 2],
}

impl Leaning {
    /// These marks on a square picture.
    fn drawn(&self, kind: &'static str, side: i32) -> Picture {
        let Leaning { module, first, apart, inwards, leans } = *self;
        let mut p = white(kind, side as usize, side as usize);
        draw_mark(&mut p, first.x, first.y, module, module);
        draw_turned(&mut p, by(first, apart, inwards), module, -leans[0]);
        draw_turned(&mut p, by(first, inwards, apart), module, leans[1]);
        p
    }
}

/// No alignment pattern is looked for, and the horizon runs through the grid: a point that counts for its fitness may lie nowhere.
pub fn point_nowhere(r: &mut Random) -> Picture {
    let module = r.pick(&[2, 2, 3]);
    let apart = r.pick(&[24, 30, 36, 40, 48]).max(7 * module + 4);
    let lean = r.within(0.62, 0.76);
    let first = Point { x: 3 * module + r.between(1, 4), y: 3 * module + r.between(1, 4) };
    let leans = [lean, lean + r.within(-0.02, 0.02)];
    Leaning { module, first, apart, inwards: 2 * module, leans }.drawn("a point nowhere", apart + 14 * module)
}

/// Marks that are cut by the edges, and lean so much that the lines hardly meet.
pub fn hardly_meeting(r: &mut Random, modules: &[i32]) -> Picture {
    let module = r.pick(modules);
    let apart = 7 * module + r.between(14, 6 * module + 4);
    let first = Point { x: 5 * module / 2 + r.between(0, 1), y: 5 * module / 2 + r.between(0, 1) };
    let leans = [r.within(0.7, 0.785), r.within(0.7, 0.785)];
    Leaning { module, first, apart, inwards: module, leans }.drawn("lines that hardly meet", apart + 12 * module)
}

/// The same with a timing pattern, so that an alignment pattern is looked for: its size estimate may be far too large.
pub fn estimate_far(r: &mut Random) -> Picture {
    let mut p = hardly_meeting(r, &[2, 3, 3, 4]);
    if let Some([a, b, c]) = Group::of(&p).and_then(|group| group.ends()) {
        dash(&mut p, a, b, 6);
        dash(&mut p, a, c, 6);
    }
    p
}

/// Marks with a timing and an alignment pattern such that a bound of their grid lies on its horizon, unless the grid is refined.
pub fn bound_nowhere(r: &mut Random) -> Picture {
    let module = r.pick(&[3, 4]);
    let apart = 7 * module + r.between(10, 2 * module + 6);
    let lean = r.within(0.4, 0.56);
    let first = Point { x: 3 * module + r.between(1, 4), y: 3 * module + r.between(1, 4) };
    let leans = [lean, lean + r.within(-0.03, 0.03)];
    let mut p = Leaning { module, first, apart, inwards: 0, leans }.drawn("a bound nowhere", 3 * apart + 10 * module);
    align(r, &mut p);
    p
}

/// Draws the patterns, for the first size that has a fourth corner near enough which puts a bound on the horizon; none where there is no such.
fn align(r: &mut Random, p: &mut Picture) -> Option<()> {
    let group = Group::of(p)?;
    let [a, b, c] = group.ends()?;
    let meeting = group.meeting()?;
    let module = (group.estimate(meeting).filter(|n| (2..=10_000).contains(n))? as f64).sqrt();
    let (reach, side) = ((4.5 * module) as i32, module.round() as i32);
    let near: Vec<Point> = (-reach..=reach).flat_map(|dy| (-reach..=reach).map(move |dx| by(meeting, dx, dy))).collect();
    let near: Vec<Point> = near.into_iter().filter(|q| p.at(q.x, q.y).is_some() && p.at(q.x + side, q.y + side).is_some()).collect();
    let start = r.below(near.len().max(1));
    let room = (b.x - a.x).min(c.y - a.y) - 4;
    let sizes = (25..=41).step_by(4).take_while(|size| size - 14 <= room);
    let mut corners = sizes.flat_map(|size| near.iter().cycle().skip(start).take(near.len()).map(move |q| (size, *q)));
    let (size, fourth) = corners.find(|(size, q)| group.grid(*size, *q).is_some_and(|c| bound_on_horizon(&c, *size)))?;
    let dots = (size - 15) as usize / 2;
    dash(p, a, b, dots);
    dash(p, a, c, dots);
    for k in 0..side * side {
        p.set(fourth.x + k % side, fourth.y + k / side, 1);
    }
    Some(())
}

/// Whether a bound of a grid of this size lies on the horizon.
fn bound_on_horizon(c: &Perspective, size: i32) -> bool {
    let far = f64::from(size + 1);
    [(far, 0.0), (far, far), (0.0, far)].iter().any(|(u, v)| (c.0[6] * u + c.0[7] * v + 1.0).abs() < 1e-10)
}
