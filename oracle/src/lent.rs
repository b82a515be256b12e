//! Our detect: what its calls borrow, and what they tell.
#[cfg(not(served))]
use crate::ours::{self, Room};
use crate::report::same_float;
#[cfg(served)]
use crate::served;
use theirs::written_rule::Dropped;
use theirs::{Point, SkewedGridLocation};

/// Where our counts say how many stones and how many grids there are, and where the groups dropped in trials and in the final pass begin, four numbers each.
const STONES_FOUND: usize = 1005;
const GRIDS_FOUND: usize = 1006;
const DROPPED_IN_TRIALS: usize = 1007;
const DROPPED_IN_FINALS: usize = 1011;

/// How many counts, places and floats detect tells in.
pub const TOLD: [usize; 3] = [1015, 279, 248];

/// A grid that was found: its size, its eight coefficients, and its bounds, x before y.
#[derive(Debug)]
pub struct Found {
    pub size: usize,
    c: [f64; 8],
    bounds: [i32; 8],
}

impl Found {
    /// A grid of the Rust's.
    pub fn of(at: &SkewedGridLocation, bounds: &[Point; 4]) -> Found {
        let bounds = std::array::from_fn(|i| if i % 2 == 0 { bounds[i / 2].x } else { bounds[i / 2].y });
        Found { size: at.grid_size, c: at.c.0, bounds }
    }

    fn same(&self, other: &Found) -> bool {
        self.size == other.size && self.bounds == other.bounds && self.c.iter().zip(&other.c).all(|(a, b)| same_float(*a, *b))
    }
}

/// Whether two lists have the same grids in the same order.
pub fn same_grids<'a>(some: impl IntoIterator<Item = &'a Found>, others: impl IntoIterator<Item = &'a Found>) -> bool {
    let (mut some, mut others) = (some.into_iter(), others.into_iter());
    loop {
        match (some.next(), others.next()) {
            (None, None) => return true,
            (Some(a), Some(b)) if a.same(b) => (),
            _ => return false,
        }
    }
}

/// What every call borrows. The stack and the scratch are never cleared. Where our side is a process of its own, it has them.
pub struct Lent {
    #[cfg(not(served))]
    stack: Vec<u32>,
    #[cfg(not(served))]
    scratch: Vec<u8>,
    #[cfg(served)]
    side: served::Served,
    pub counts: Vec<usize>,
    places: Vec<i32>,
    floats: Vec<f64>,
}

impl Lent {
    pub fn new() -> Lent {
        Lent {
            #[cfg(not(served))]
            stack: vec![77; 640_000],
            #[cfg(not(served))]
            scratch: vec![77; 640_000],
            #[cfg(served)]
            side: served::Served::start(),
            counts: vec![77; TOLD[0]],
            places: vec![77; TOLD[1]],
            floats: vec![7.7; TOLD[2]],
        }
    }

    /// Hands a picture over, where our side is a process of its own.
    #[allow(unused_variables)]
    pub fn ask(&mut self, pixels: &[u8], width: usize, height: usize, room: usize) {
        #[cfg(served)]
        self.side.ask(pixels, width, height, room);
    }

    /// What detect makes of it, with `room` entries of stack and bytes of scratch.
    #[cfg(served)]
    pub fn answer(&mut self, pixels: &mut [u8], _width: usize, _height: usize, _room: usize) -> u8 {
        self.side.answer(pixels, &mut self.counts, &mut self.places, &mut self.floats)
    }

    /// What detect makes of it, with `room` entries of stack and bytes of scratch. What it tells replaces what stands in its places.
    #[cfg(not(served))]
    pub fn answer(&mut self, pixels: &mut [u8], width: usize, height: usize, room: usize) -> u8 {
        self.answer_in(pixels, width, height, room, TOLD)
    }

    /// The same, told in the first so many counts, places and floats.
    #[cfg(not(served))]
    pub fn answer_in(&mut self, pixels: &mut [u8], width: usize, height: usize, room: usize, [counts, places, floats]: [usize; 3]) -> u8 {
        self.counts.fill(77);
        self.places.fill(77);
        self.floats.fill(7.7);
        let room = Room { stack: &mut self.stack[..room], scratch: &mut self.scratch[..room] };
        ours::detect(pixels, width, height, room, &mut self.counts[..counts], &mut self.places[..places], &mut self.floats[..floats])
    }

    /// Both at once.
    pub fn detect(&mut self, pixels: &mut [u8], width: usize, height: usize, room: usize) -> u8 {
        self.ask(pixels, width, height, room);
        self.answer(pixels, width, height, room)
    }

    /// Nothing was told.
    pub fn kept(&self) -> bool {
        self.counts.iter().all(|n| *n == 77) && self.places.iter().all(|z| *z == 77) && self.floats.iter().all(|x| *x == 7.7)
    }

    pub fn stones(&self) -> usize {
        self.counts[STONES_FOUND]
    }

    pub fn grids(&self) -> usize {
        self.counts[GRIDS_FOUND]
    }

    /// The groups dropped in trials and in the final pass.
    pub fn dropped(&self) -> [Dropped; 2] {
        [DROPPED_IN_TRIALS, DROPPED_IN_FINALS].map(|first| std::array::from_fn(|k| self.counts[first + k]))
    }

    fn grid(&self, k: usize) -> Found {
        let floats = &self.floats[8 * k..8 * k + 8];
        let places = &self.places[9 * k..9 * k + 9];
        Found { size: places[0] as usize, c: std::array::from_fn(|i| floats[i]), bounds: std::array::from_fn(|i| places[i + 1]) }
    }

    /// The grids told, if there are as many as may be, and the places past them are blank.
    pub fn told(&self) -> Option<Vec<Found>> {
        let n = self.grids();
        let blank = |n: usize| self.places[9 * n..].iter().all(|z| *z == 0) && self.floats[8 * n..].iter().all(|x| x.is_nan());
        (n <= 31 && blank(n)).then(|| (0..n).map(|k| self.grid(k)).collect())
    }
}
