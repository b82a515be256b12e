//! Holds our detect against the Rust's `detect_grids`, on whole pictures, and measures both. `oracle/run detect` builds and starts it.
mod asked;
#[cfg(not(served))]
mod detect_speed;
mod mark_pictures;
mod ours;
mod panics;
mod pictures;
mod random;
mod report;
mod scores;
#[cfg(served)]
mod served;
mod symbols;
mod tables;
#[cfg(not(served))]
mod turns;
mod whole_pictures;

use asked::{end, said, Asked};
#[cfg(not(served))]
use ours::Room;
use ours::{BYTE, LENGTH, ROOM, SIZE, UNPLACED};
use pictures::Picture;
use random::Random;
use report::{same_float, unless_panic, Report};
use theirs::detect::capstones_from_image;
use theirs::identify::grid::reach::location;
use theirs::identify::match_capstones::find_and_rank_possible_neighbors;
use theirs::limits;
use theirs::prepare::reach;
use theirs::version_db::VERSION_DATA_BASE;
use whole_pictures::{Kind, KINDS};

/// Where our counts say how many stones and how many grids there are.
const STONES_FOUND: usize = 1005;
const GRIDS_FOUND: usize = 1006;

fn main() {
    let asked = Asked::read();
    end(match asked.what.as_str() {
        "detect" => compare(asked.seed, asked.count(240_000)),
        #[cfg(not(served))]
        "detect-speed" => detect_speed::measure(asked.seed, asked.turns()),
        _ => asked.unknown(),
    })
}

/// A grid that was found: its size, its eight coefficients, and its bounds, x before y.
#[derive(Debug)]
pub struct Found {
    size: usize,
    c: [f64; 8],
    bounds: [i32; 8],
}

impl Found {
    fn same(&self, other: &Found) -> bool {
        self.size == other.size && self.bounds == other.bounds && self.c.iter().zip(&other.c).all(|(a, b)| same_float(*a, *b))
    }
}

// ---------------------------------------------------------------- ours

/// What every call borrows. The stack and the scratch are never cleared. Where our side is a process of its own, it has them.
pub struct Lent {
    #[cfg(not(served))]
    stack: Vec<u32>,
    #[cfg(not(served))]
    scratch: Vec<u8>,
    #[cfg(served)]
    side: served::Served,
    counts: Vec<usize>,
    places: Vec<i32>,
    floats: Vec<f64>,
}

impl Lent {
    pub fn new() -> Lent {
        Lent {
            #[cfg(not(served))]
            stack: vec![77; 640_000],
            #[cfg(not(served))]
            scratch: vec![77; 640_000],
            #[cfg(served)]
            side: served::Served::start(),
            counts: vec![77; 1007],
            places: vec![77; 279],
            floats: vec![7.7; 248],
        }
    }

    /// Hands a picture over, where our side is a process of its own.
    #[allow(unused_variables)]
    fn ask(&mut self, pixels: &[u8], width: usize, height: usize, room: usize) {
        #[cfg(served)]
        self.side.ask(pixels, width, height, room);
    }

    /// What detect makes of it, with `room` entries of stack and bytes of scratch.
    #[cfg(served)]
    fn answer(&mut self, pixels: &mut [u8], _width: usize, _height: usize, _room: usize) -> u8 {
        self.side.answer(pixels, &mut self.counts, &mut self.places, &mut self.floats)
    }

    /// What detect makes of it, with `room` entries of stack and bytes of scratch. What it tells replaces what stands in its places.
    #[cfg(not(served))]
    fn answer(&mut self, pixels: &mut [u8], width: usize, height: usize, room: usize) -> u8 {
        self.counts.fill(77);
        self.places.fill(77);
        self.floats.fill(7.7);
        let room = Room { stack: &mut self.stack[..room], scratch: &mut self.scratch[..room] };
        ours::detect(pixels, width, height, room, &mut self.counts, &mut self.places, &mut self.floats)
    }

    /// Both at once.
    pub fn detect(&mut self, pixels: &mut [u8], width: usize, height: usize, room: usize) -> u8 {
        self.ask(pixels, width, height, room);
        self.answer(pixels, width, height, room)
    }

    /// Nothing was told.
    fn kept(&self) -> bool {
        self.counts.iter().all(|n| *n == 77) && self.places.iter().all(|z| *z == 77) && self.floats.iter().all(|x| *x == 7.7)
    }

    pub fn stones(&self) -> usize {
        self.counts[STONES_FOUND]
    }

    pub fn grids(&self) -> usize {
        self.counts[GRIDS_FOUND]
    }

    fn grid(&self, k: usize) -> Found {
        let floats = &self.floats[8 * k..8 * k + 8];
        let places = &self.places[9 * k..9 * k + 9];
        Found { size: places[0] as usize, c: std::array::from_fn(|i| floats[i]), bounds: std::array::from_fn(|i| places[i + 1]) }
    }

    /// The grids told, if there are as many as may be, and the places past them are blank.
    fn told(&self) -> Option<Vec<Found>> {
        let n = self.grids();
        let blank = |n: usize| self.places[9 * n..].iter().all(|z| *z == 0) && self.floats[8 * n..].iter().all(|x| x.is_nan());
        (n <= 31 && blank(n)).then(|| (0..n).map(|k| self.grid(k)).collect())
    }
}

// ---------------------------------------------------------------- the Rust

/// What the Rust comes to: stones and grids, or the number that document 01 gives its panic.
enum Theirs {
    Found(usize, Vec<Found>),
    Refused(u8, String),
}

/// Detects, and leaves the paint.
fn detect_theirs(img: &mut reach::Picture) -> Theirs {
    limits::begin();
    let found = unless_panic(|| {
        let grids = img.detect_grids();
        let told = |g: &theirs::Grid<_>| {
            let at = location(&g.grid);
            Found { size: at.grid_size, c: at.c.0, bounds: std::array::from_fn(|i| if i % 2 == 0 { g.bounds[i / 2].x } else { g.bounds[i / 2].y }) }
        };
        grids.iter().map(told).collect()
    });
    match found {
        Some(grids) => Theirs::Found(limits::stones(), grids),
        None => Theirs::Refused(panics::number_of(&said()), said()),
    }
}

/// Whether a stone's neighbours have equal scores, so that the order of their pairs is document 01's.
fn ties(picture: &Picture) -> bool {
    let mut img = reach::picture(picture.width, picture.height, &picture.pixels);
    limits::begin();
    let stones = unless_panic(|| capstones_from_image(&mut img)).unwrap_or_default();
    (0..stones.len()).any(|idx| scores::ties(&stones, idx, &find_and_rank_possible_neighbors(&stones, idx)))
}

// ---------------------------------------------------------------- comparison

/// Pictures of every kind, or of those whose name has KIND in it.
fn compare(seed: u64, count: u64) -> bool {
    let mut lent = Lent::new();
    let mut agreed = true;
    let mut pictures = 0;
    let only = std::env::var("KIND").unwrap_or_default();
    for kind in KINDS.iter().filter(|kind| kind.name.contains(&only)) {
        let of_kind = pictures_of(&mut lent, &mut Random::new(seed, kind.name), kind, count.div_ceil(kind.rare));
        pictures += of_kind.report.cases();
        agreed &= of_kind.close();
    }
    agreed &= refusals(&mut lent, &mut Random::new(seed, "refusals")).close();
    println!("detect: {pictures} whole pictures in all");
    agreed
}

/// What the pictures of a kind came to.
struct Tally {
    report: Report,
    stones: u64,
    grids: u64,
    tied: u64,
    full: u64,
}

impl Tally {
    /// Prints its line.
    fn close(self) -> bool {
        let (stones, grids, tied, full) = (self.stones, self.grids, self.tied, self.full);
        self.report.line(&format!("{stones} stones, {grids} grids; equal scores in {tied}, a full table in {full}"))
    }
}

fn pictures_of(lent: &mut Lent, r: &mut Random, kind: &Kind, count: u64) -> Tally {
    let mut tally = Tally { report: Report::new(kind.name), stones: 0, grids: 0, tied: 0, full: 0 };
    while tally.report.cases() < count {
        detect_one(&mut tally, lent, &(kind.make)(r));
    }
    tally
}

/// One picture on both sides: stones, grids, paint and table, or a refusal's number with all as it was.
fn detect_one(tally: &mut Tally, lent: &mut Lent, picture: &Picture) {
    let (w, h) = (picture.width, picture.height);
    let mut img = reach::picture(w, h, &picture.pixels);
    lent.ask(&picture.pixels, w, h, w * h);
    let theirs = detect_theirs(&mut img);
    let mut pixels = picture.pixels.clone();
    let ours = lent.answer(&mut pixels, w, h, w * h);
    let left = || pixels == reach::pixels(&img) && tables::same(&lent.counts, &img) && tables::holds_past(&lent.counts, 0);
    let told = if ours == 0 { lent.told() } else { None };
    let same_grids = |grids: &[Found]| told.as_ref().is_some_and(|ours| ours.len() == grids.len() && ours.iter().zip(grids).all(|(a, b)| a.same(b)));
    let (same, outcome) = match &theirs {
        Theirs::Found(stones, grids) => {
            let kind = match (stones, grids.len()) {
                (0, _) => "no stone",
                (_, 0) => "no grid",
                (_, 1) => "one grid",
                _ => "two grids or more",
            };
            (ours == 0 && lent.stones() == *stones && same_grids(grids) && left(), kind.to_string())
        }
        Theirs::Refused(number, _) => (ours == *number && pixels == picture.pixels && lent.kept(), format!("refused {number}")),
    };
    if let Theirs::Found(stones, grids) = &theirs {
        tally.stones += *stones as u64;
        tally.grids += grids.len() as u64;
        tally.full += u64::from(reach::table(&img).len() == 251);
        tally.tied += u64::from(*stones > 3 && ties(picture));
    }
    if !same && of_101(&theirs, ours, told.as_deref()) {
        return tally.report.agree("DIFFERS in a grid of 101, as the table's entry 21 does");
    }
    tally.report.case(same, &outcome, (w * h) as u64, || {
        let rust = match &theirs {
            Theirs::Found(stones, grids) => format!("{stones} stones, {grids:?}"),
            Theirs::Refused(number, said) => format!("{number}: {said}"),
        };
        let (painted, table) = (pixels == reach::pixels(&img), ours == 0 && tables::same(&lent.counts, &img));
        format!("{}\n    ours {ours}: {} stones, {told:?}\n    the Rust {rust}\n    same paint {painted}, same table {table}", picture.told(), lent.stones())
    });
}

/// Whether a difference is one of the version table's, run as the Rust has it: in a grid of 101 cells a side, or a 13 met while one is refined.
fn of_101(theirs: &Theirs, ours: u8, told: Option<&[Found]>) -> bool {
    let has = |grids: &[Found]| grids.iter().any(|g| g.size == 101);
    let unmended = VERSION_DATA_BASE[21].apat[4] == 92;
    unmended
        && match (theirs, told) {
            (Theirs::Found(_, grids), Some(told)) => {
                grids.len() == told.len() && grids.iter().zip(told).all(|(a, b)| a.size == b.size && (a.size == 101 || a.same(b)))
            }
            (Theirs::Found(_, grids), None) => ours == UNPLACED && has(grids),
            (Theirs::Refused(number, _), Some(told)) => *number == UNPLACED && has(told),
            _ => false,
        }
}

/// What document 01 refuses before the first step, in its order; the Rust isn't asked. All stays as it was.
fn refusals(lent: &mut Lent, r: &mut Random) -> Report {
    let mut report = Report::new("pictures that are refused at once");
    let ends = [0, 1, 2, 3, 6, 799, 800, 801, 65_536, 1 << 32, usize::MAX];
    for (width, height) in ends.iter().flat_map(|w| ends.iter().map(move |h| (*w, *h))) {
        for length in [0usize, 1, 2, 6, 9, 12, 18, 800, 1600] {
            for (room, top) in [(length, 1), (length, 2), (length + 5, 255), (length.saturating_sub(1), 1), (0, 2)] {
                let bytes: Vec<u8> = (0..length).map(|k| if k + 1 == length { top } else { r.below(2) as u8 }).collect();
                let side = |n| (1..=800).contains(&n);
                let expected = match () {
                    _ if !side(width) || !side(height) => SIZE,
                    _ if width * height != length => LENGTH,
                    _ if room < length => ROOM,
                    _ if top > 1 => BYTE,
                    _ => 0,
                };
                let mut pixels = bytes.clone();
                let ours = lent.detect(&mut pixels, width, height, room);
                let kept = expected == 0 || (pixels == bytes && lent.kept());
                report.case(ours == expected && kept, &format!("{expected}"), length as u64, || {
                    format!("{width} x {height}, {length} bytes, room {room}, last {top}: ours {ours}, expected {expected}, kept {kept}")
                });
            }
        }
    }
    report
}
