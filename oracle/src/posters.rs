//! Bitmaps with several groups of marks: posters, on which groups are dropped beside a symbol, and groups that are dropped in the final pass,
//! because an earlier one's paint changes what their timing scans count.
use crate::leaning::{self, by, changes, dash, hardly_meeting, is_free, Group};
use crate::mark_pictures::{dashes, draw_mark, white};
use crate::pictures::{symbol, viewed, Picture, View};
use crate::random::Random;
use crate::trios::{self, hook};
use theirs::geometry::BresenhamScan;
use theirs::prepare::{reach, ColoredRegion};
use theirs::Point;

/// The marks of a symbol whose lines meet at a point, and a timing pattern: upright, or turned by a quarter to the right. The mark between is so
/// much further up that it is found first.
fn draw_around(p: &mut Picture, meeting: Point, module: i32, apart: i32, up: i32, upright: bool) {
    let last = 7 * module - 1;
    let (way, moved) = if upright { (1, 0) } else { (-1, last) };
    let (between, beside) = (by(meeting, -way * apart, -apart - up), by(meeting, 0, -apart));
    for corner in [between, beside, by(meeting, -way * apart, 0)] {
        draw_mark(p, corner.x - moved, corner.y, module, module);
    }
    // the ends of a timing scan lie half a module inside the marks
    let (near, far) = ((last + 7) / 14, (13 * last + 7) / 14);
    dash(p, by(between, way * far, far), by(beside, way * near, far), 5);
}

// ---------------------------------------------------------------- dropped in the final pass

/// A symbol's marks, and below them three whose lines hardly meet. A timing scan of these runs over black pieces that touch at their corners,
/// where the first group looks for its alignment pattern: once they have numbers of their own, the scan counts more, an alignment pattern is
/// looked for here too, and its size estimate is far too large.
pub fn crossed(r: &mut Random) -> Picture {
    let found = (0..60).find_map(|_| {
        let tile = hardly_meeting(r, &[3, 3, 4]);
        scan_to_cross(&tile).map(|points| (tile, points))
    });
    let Some((tile, points)) = found else { return hardly_meeting(r, &[3]) };
    let (dots, pieces) = ([points[0], points[2]], &points[4..]);
    let (module, middle) = (4, pieces[pieces.len() / 2]);
    let apart = 7 * module + middle.x - points[0].x + 30 + r.between(0, 6);
    let (left, top) = ((apart - middle.x + 2).max(0), (apart - middle.y + 2).max(0));
    let mut p = white("crossed", tile.width + left as usize, tile.height + top as usize);
    p.paste(&tile, left, top);
    draw_around(&mut p, by(middle, left, top), module, apart, 0, true);
    dots.iter().chain(pieces).for_each(|q| p.set(q.x + left, q.y + top, 1));
    let pattern = by(middle, left + r.between(0, 6), top + r.between(8, 10));
    for k in 0..16 {
        p.set(pattern.x + k % 4, pattern.y + k / 4, 1);
    }
    p
}

/// The free points of a timing scan, if they are enough, the group has a grid while no alignment pattern is looked for, and 12 else.
fn scan_to_cross(tile: &Picture) -> Option<Vec<Point>> {
    let group = Group::of(tile)?;
    let meeting = group.meeting().filter(|p| p.x.abs().max(p.y.abs()) <= 10_000)?;
    group.grid(21, meeting)?;
    let far = group.estimate(meeting).map_or(true, |n| n > 10_000);
    let [from, to, _] = group.ends()?;
    let points: Vec<Point> = BresenhamScan::new(&from, &to).filter(|q| is_free(tile, *q)).collect();
    (far && points.len() >= 12).then_some(points)
}

/// A pocket in which the timing scans run over two black pieces that touch at a corner; the search for marks looks one of them up. Both are
/// alignment patterns of other groups: once these have claimed them, the scans count 0.
pub fn claimed(r: &mut Random) -> Picture {
    let Some((tile, [one, other])) = (0..200).find_map(|_| two_pieces(r)) else { return trios::pocket(r) };
    let (module, side) = (3, tile.width as i32);
    let past = 7 * module + 3 + r.between(0, 4);
    let (apart, across) = (one.x.max(one.y) + past, (side - other.x).max(other.y) + past);
    let (left, top) = (apart - one.x + 2, (apart - one.y + 4).max(across - other.y + 6));
    let (right, low) = ((other.x + across + 3).max(side), side.max(other.y + past));
    let mut p = white("claimed", (left + right) as usize, (top + low) as usize);
    p.paste(&tile, left, top);
    draw_around(&mut p, by(one, left, top), module, apart, 2, true);
    draw_around(&mut p, by(other, left, top), module, across, 4, false);
    p
}

/// Such a pocket, if it turns out so, and a place of each piece.
fn two_pieces(r: &mut Random) -> Option<(Picture, [Point; 2])> {
    let mut p = trios::pocket(r);
    let [a, b, c] = Group::of(&p)?.ends()?;
    if changes(&p, a, b) + changes(&p, a, c) > 0 {
        return None;
    }
    let points: Vec<Point> = BresenhamScan::new(&a, &b).chain(BresenhamScan::new(&a, &c)).collect();
    points.iter().for_each(|q| p.set(q.x, q.y, 1));
    // a leg down to a line where the hook to the left, a dash and the leg look like the cut of a mark
    let (line, hook_at) = (c.y + r.between(2, 5), (0..c.x).rev().find(|x| p.at(*x, c.y + 2) == Some(1))?);
    hook(&mut p, (c.x, c.y), hook_at + 6 - c.x, line - c.y, true);
    (2..5).for_each(|x| p.set(hook_at + x, line, 1));
    let mut img = reach::picture(p.width, p.height, &p.pixels);
    let mut pixels = |q: Point| match reach::look_up(&mut img, q.x as usize, q.y as usize) {
        ColoredRegion::Unclaimed { pixel_count, .. } => pixel_count,
        _ => 0,
    };
    let patterns = [a, c].iter().all(|q| (4..=18).contains(&pixels(*q)));
    let bytes: Vec<u8> = points.iter().map(|q| reach::pixels(&img)[q.y as usize * p.width + q.x as usize]).collect();
    (patterns && bytes.contains(&6) && bytes.iter().all(|b| [5, 6].contains(b))).then_some((p, [a, c]))
}

// ---------------------------------------------------------------- posters

/// A symbol of one of these versions, a little turned now and then.
fn small_symbol(r: &mut Random, versions: &[usize]) -> Picture {
    let version = r.pick(versions);
    let modules = symbol(r, version);
    let side = 2 * modules.0 + 8;
    let turn = r.pick(&[0.0, 0.0, 0.05]);
    viewed(r, &modules, side, side, &View { side: 2.0 * modules.0 as f64 / side as f64, turn, pull: (0.0, 0.0), noise: 0 })
}

/// Pictures in rows of so many.
fn in_rows(kind: &'static str, tiles: &[Picture], across: usize) -> Picture {
    let width = |row: &[Picture]| row.iter().map(|tile| tile.width + 3).sum::<usize>();
    let height = |row: &[Picture]| row.iter().map(|tile| tile.height + 3).fold(0, usize::max);
    let rows = || tiles.chunks(across);
    let mut picture = white(kind, rows().map(width).fold(0, usize::max), rows().map(height).sum());
    let mut top = 0;
    for row in rows() {
        for (k, tile) in row.iter().enumerate() {
            picture.paste(tile, width(&row[..k]) as i32, top as i32);
        }
        top += height(row);
    }
    picture
}

/// One or two symbols among groups that are to be dropped; now and then among dashes that fill the table.
pub fn poster(r: &mut Random) -> Picture {
    let bad: [fn(&mut Random) -> Picture; 6] =
        [trios::flat_turn, trios::pocket, trios::pocketed, leaning::point_nowhere, leaning::bound_nowhere, leaning::estimate_far];
    let mut tiles: Vec<Picture> = (0..r.below(4) + 1).map(|_| r.pick(&bad)(r)).filter(|tile| tile.width.max(tile.height) <= 160).collect();
    for _ in 0..r.pick(&[1, 1, 2]) {
        tiles.insert(r.below(tiles.len() + 1), small_symbol(r, &[1, 1, 2, 3]));
    }
    if r.one_in(4) {
        tiles.insert(r.below(tiles.len() + 1), dashes(r, 70, 70));
    }
    in_rows("poster", &tiles, 2)
}

/// Dashes that fill the table, then a group of which a bound may lie nowhere, and before or after it a symbol with an alignment pattern: where
/// the group is dropped, its lookups have given a number up, and the symbol's lookups come before or after them.
pub fn full_table(r: &mut Random) -> Picture {
    let mut tiles = [dashes(r, 70, 70), leaning::bound_nowhere(r), small_symbol(r, &[2, 3])];
    if r.one_in(2) {
        tiles.swap(1, 2);
    }
    in_rows("full table", &tiles, 1)
}
