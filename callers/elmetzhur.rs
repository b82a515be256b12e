//! Elmetzhur, for callers in Rust: from a grey frame to the cells of each grid. Every buffer is the caller's, and no function here can panic
//! or touch memory that it was not lent: the calls behind it are proved for every input.
#[allow(dead_code)]
#[path = "calls.rs"]
mod calls;
use calls::{elmetzhur_accept, elmetzhur_detect, elmetzhur_prepare, elmetzhur_read_cell};

const DARK: u8 = 254;
const LIGHT: u8 = 255;

/// A refusal's number, 1 to 16: this picture was not judged. It says nothing about what the picture shows.
#[derive(Clone, Copy, Debug, PartialEq, Eq)]
pub struct Refused(pub u8);

/// A picture, a byte for each pixel, line by line.
pub struct Picture<'a> {
    pub pixels: &'a mut [u8],
    pub width: usize,
    pub height: usize,
}

/// The rooms that detect works in: an entry for each pixel in the first two.
pub struct Rooms<'a> {
    pub stack: &'a mut [u32],
    pub scratch: &'a mut [u8],
    pub counts: &'a mut [usize; 1007],
    pub places: &'a mut [i32; 279],
    pub floats: &'a mut [f64; 248],
}

/// A located grid: how many cells it has along a side, its perspective, and its bounds.
#[derive(Clone, Copy, Debug)]
pub struct Grid {
    pub size: u8,
    pub c: [f64; 8],
    pub bounds: [(i32, i32); 4],
}

/// What detect found, in the rooms that it was lent. No grids means that none was located in this picture, and nothing else.
pub struct Findings<'a> {
    pub stones: usize,
    grids: usize,
    places: &'a [i32; 279],
    floats: &'a [f64; 248],
}

/// The cells of a grid, all of them read: the shape that rqrr's decoder takes.
pub struct Cells<'a> {
    size: usize,
    dark: &'a [bool],
}

fn told(status: u8) -> Result<(), Refused> {
    if status == 0 {
        Ok(())
    } else {
        Err(Refused(status))
    }
}

impl Picture<'_> {
    /// Whether it is a bitmap: 1, 2, 4.
    pub fn accept(&self) -> Result<(), Refused> {
        told(unsafe { elmetzhur_accept(self.pixels.as_ptr(), self.pixels.len(), self.width, self.height) })
    }

    /// Makes a grey picture a bitmap, in place: 1, 2.
    pub fn prepare(&mut self) -> Result<(), Refused> {
        told(unsafe { elmetzhur_prepare(self.pixels.as_mut_ptr(), self.pixels.len(), self.width, self.height) })
    }

    /// Finds stones and grids, and paints: 1, 2, 3, 4, and then as its stages meet them. A refusal leaves the picture as it was.
    pub fn detect<'r>(&mut self, rooms: &'r mut Rooms<'_>) -> Result<Findings<'r>, Refused> {
        told(unsafe {
            elmetzhur_detect(
                self.pixels.as_mut_ptr(),
                self.pixels.len(),
                self.width,
                self.height,
                rooms.stack.as_mut_ptr(),
                rooms.stack.len(),
                rooms.scratch.as_mut_ptr(),
                rooms.scratch.len(),
                rooms.counts.as_mut_ptr(),
                rooms.counts.len(),
                rooms.places.as_mut_ptr(),
                rooms.places.len(),
                rooms.floats.as_mut_ptr(),
                rooms.floats.len(),
            )
        })?;
        Ok(Findings { stones: rooms.counts[1005], grids: rooms.counts[1006], places: rooms.places, floats: rooms.floats })
    }

    /// One cell: 1, 2, 16, 13.
    pub fn cell(&self, grid: &Grid, y: u8, x: u8) -> Result<bool, Refused> {
        match unsafe {
            elmetzhur_read_cell(
                self.pixels.as_ptr(),
                self.pixels.len(),
                self.width,
                self.height,
                grid.size,
                grid.c.as_ptr(),
                grid.c.len(),
                y,
                x,
            )
        } {
            DARK => Ok(true),
            LIGHT => Ok(false),
            number => Err(Refused(number)),
        }
    }

    /// Reads all cells of a grid into a room with a place for each: 3 where it is shorter, else as the cells meet them.
    pub fn cells<'r>(&self, grid: &Grid, room: &'r mut [bool]) -> Result<Cells<'r>, Refused> {
        let size = usize::from(grid.size);
        if room.len() < size * size {
            return Err(Refused(3));
        }
        for y in 0..grid.size {
            for x in 0..grid.size {
                room[usize::from(y) * size + usize::from(x)] = self.cell(grid, y, x)?;
            }
        }
        Ok(Cells { size, dark: &room[..size * size] })
    }
}

impl Findings<'_> {
    /// The grids, in the order found.
    pub fn grids(&self) -> impl Iterator<Item = Grid> + '_ {
        let numbers = self.places.chunks_exact(9).zip(self.floats.chunks_exact(8));
        numbers.take(self.grids).map(|(n, f)| Grid {
            size: n[0] as u8,
            c: [f[0], f[1], f[2], f[3], f[4], f[5], f[6], f[7]],
            bounds: [(n[1], n[2]), (n[3], n[4]), (n[5], n[6]), (n[7], n[8])],
        })
    }
}

impl Cells<'_> {
    /// How many cells there are along a side.
    pub fn size(&self) -> usize {
        self.size
    }

    /// Whether the cell in column x of line y is dark; a cell outside the grid is not.
    pub fn bit(&self, y: usize, x: usize) -> bool {
        y < self.size && x < self.size && self.dark[y * self.size + x]
    }
}
