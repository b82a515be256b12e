//! Our library, called through its C face. Each wrapper lends what the call asks for; a program uses those of the crate that it is linked with.
use theirs::Point;

/// What a call returns when it has written its values.
pub const FOUND: u8 = 0;
/// What it returns when there is nothing to be found: a flat perspective, lines that never cross, no grid.
pub const NOTHING: u8 = 255;
/// Document 01's numbers of refusals.
pub const SIZE: u8 = 1;
pub const LENGTH: u8 = 2;
pub const ROOM: u8 = 3;
pub const BYTE: u8 = 4;
pub const WHITE: u8 = 6;
pub const SAME: u8 = 7;
pub const TABLE: u8 = 9;
pub const NUMBER: u8 = 10;
pub const STONES: u8 = 11;
pub const FAR: u8 = 12;
pub const UNPLACED: u8 = 13;
pub const TIMING: u8 = 14;
pub const TURNED: u8 = 15;
pub const INDEX: u8 = 16;

#[path = "../../callers/calls.rs"]
mod calls;
use calls::*;

/// The whole number nearest to x.
pub fn round(x: f64, out: &mut [i32]) -> u8 {
    unsafe { elmetzhur_round(x, out.as_mut_ptr(), out.len()) }
}

/// The perspective of four corners, x before y, as eight coefficients.
pub fn create(corners: &[i32], w: f64, h: f64, out: &mut [f64]) -> u8 {
    unsafe { elmetzhur_create(corners.as_ptr(), corners.len(), w, h, out.as_mut_ptr(), out.len()) }
}

/// Where (u, v) lies under a perspective: x, y.
pub fn map(c: &[f64], u: f64, v: f64, out: &mut [i32]) -> u8 {
    unsafe { elmetzhur_map(c.as_ptr(), c.len(), u, v, out.as_mut_ptr(), out.len()) }
}

/// What lies at a point under a perspective: u, v.
pub fn unmap(c: &[f64], p: Point, out: &mut [f64]) -> u8 {
    unsafe { elmetzhur_unmap(c.as_ptr(), c.len(), p.x, p.y, out.as_mut_ptr(), out.len()) }
}

/// Where the line through the first two points crosses the line through the last two.
pub fn line_intersect(points: &[i32], out: &mut [i32]) -> u8 {
    unsafe { elmetzhur_line_intersect(points.as_ptr(), points.len(), out.as_mut_ptr(), out.len()) }
}

/// The points of a scan, x before y.
pub fn scan(from: Point, to: Point, out: &mut [i32]) -> u8 {
    unsafe { elmetzhur_scan(from.x, from.y, to.x, to.y, out.as_mut_ptr(), out.len()) }
}

/// Whether a picture is a bitmap.
pub fn accept(pic: &[u8], width: usize, height: usize) -> u8 {
    unsafe { elmetzhur_accept(pic.as_ptr(), pic.len(), width, height) }
}

/// Thresholds a grey picture in place.
pub fn prepare(pic: &mut [u8], width: usize, height: usize) -> u8 {
    unsafe { elmetzhur_prepare(pic.as_mut_ptr(), pic.len(), width, height) }
}

/// A seed, and the byte to paint its piece with.
#[derive(Clone, Copy, Debug)]
pub struct Seed {
    pub x: usize,
    pub y: usize,
    pub target: u8,
}

/// Claims a piece: rows, pixels and pushes.
pub fn claim(pic: &mut [u8], width: usize, height: usize, stack: &mut [u32], seed: Seed, counts: &mut [usize]) -> u8 {
    let (pixels, entries, room) = (pic.len(), stack.len(), counts.len());
    unsafe {
        elmetzhur_claim(
            pic.as_mut_ptr(),
            pixels,
            width,
            height,
            stack.as_mut_ptr(),
            entries,
            seed.x,
            seed.y,
            seed.target,
            counts.as_mut_ptr(),
            room,
        )
    }
}

/// Claims a piece: its rows in the order met, left, right and line of each, and how many they are.
pub fn rows(pic: &mut [u8], width: usize, height: usize, stack: &mut [u32], seed: Seed, rows: &mut [usize], count: &mut [usize]) -> u8 {
    let (pixels, entries, places, room) = (pic.len(), stack.len(), rows.len(), count.len());
    unsafe {
        elmetzhur_rows(
            pic.as_mut_ptr(),
            pixels,
            width,
            height,
            stack.as_mut_ptr(),
            entries,
            seed.x,
            seed.y,
            seed.target,
            rows.as_mut_ptr(),
            places,
            count.as_mut_ptr(),
            room,
        )
    }
}

/// Finds all marks of a bitmap: the stones' points, their coefficients, and the table with two counts behind it.
pub fn capstones(pic: &mut [u8], width: usize, height: usize, stack: &mut [u32], places: &mut [i32], floats: &mut [f64], counts: &mut [usize]) -> u8 {
    unsafe {
        elmetzhur_capstones(
            pic.as_mut_ptr(),
            pic.len(),
            width,
            height,
            stack.as_mut_ptr(),
            stack.len(),
            places.as_mut_ptr(),
            places.len(),
            floats.as_mut_ptr(),
            floats.len(),
            counts.as_mut_ptr(),
            counts.len(),
        )
    }
}

/// Ranks the pairs of a stone's neighbours, n stones by centres and coefficients.
pub fn rank(centers: &[i32], floats: &[f64], n: usize, idx: usize, pairs: &mut [usize]) -> u8 {
    unsafe { elmetzhur_rank(centers.as_ptr(), centers.len(), floats.as_ptr(), floats.len(), n, idx, pairs.as_mut_ptr(), pairs.len()) }
}

/// What a call that works on a picture for a while borrows: a stack and a scratch, with an entry and a byte for each pixel.
pub struct Room<'a> {
    pub stack: &'a mut [u32],
    pub scratch: &'a mut [u8],
}

/// Fits a group of three stones, five points each, on a picture and a table.
pub fn fit(pic: &mut [u8], width: usize, height: usize, room: Room, counts: &mut [usize], places: &[i32], floats: &mut [f64]) -> u8 {
    unsafe {
        elmetzhur_fit(
            pic.as_mut_ptr(),
            pic.len(),
            width,
            height,
            room.stack.as_mut_ptr(),
            room.stack.len(),
            room.scratch.as_mut_ptr(),
            room.scratch.len(),
            counts.as_mut_ptr(),
            counts.len(),
            places.as_ptr(),
            places.len(),
            floats.as_mut_ptr(),
            floats.len(),
        )
    }
}

/// Reads the cell of line y and column x of a grid.
pub fn read_cell(pic: &[u8], width: usize, height: usize, size: u8, c: &[f64], y: u8, x: u8) -> u8 {
    unsafe { elmetzhur_read_cell(pic.as_ptr(), pic.len(), width, height, size, c.as_ptr(), c.len(), y, x) }
}

/// Detects the grids of a bitmap: the table with three counts behind it, the grids' sizes and bounds, and their coefficients.
pub fn detect(pic: &mut [u8], width: usize, height: usize, room: Room, counts: &mut [usize], places: &mut [i32], floats: &mut [f64]) -> u8 {
    unsafe {
        elmetzhur_detect(
            pic.as_mut_ptr(),
            pic.len(),
            width,
            height,
            room.stack.as_mut_ptr(),
            room.stack.len(),
            room.scratch.as_mut_ptr(),
            room.scratch.len(),
            counts.as_mut_ptr(),
            counts.len(),
            places.as_mut_ptr(),
            places.len(),
            floats.as_mut_ptr(),
            floats.len(),
        )
    }
}
