//! Records answers of the Rust, case by case, for the program `vectors`. `oracle/run record` builds and starts it.
mod fill;
mod mark_pictures;
mod ours;
mod panics;
mod pictures;
mod random;
mod record_steps;
mod recorded;
mod report;
mod scores;
mod symbols;
mod tables;
mod whole_pictures;

use pictures::Picture;
use random::Random;
use recorded::{asked, Case, NO_TABLE};
use theirs::identify::grid::reach::location;
use theirs::limits;
use theirs::prepare::reach;
use whole_pictures::{Kind, KINDS};

fn main() {
    let seed = std::env::var("SEED").ok().and_then(|s| s.parse().ok()).unwrap_or(1);
    std::panic::set_hook(Box::new(|_| ()));
    let r = &mut Random::new(seed, "record");
    record_steps::prepares(r);
    record_steps::accepts(r);
    record_steps::claims(r);
    record_steps::lookups(r);
    record_steps::ranks(r);
    record_steps::fits(r);
    record_steps::cells(r);
    whole(r);
}

// ---------------------------------------------------------------- whole pictures

/// How many pictures of an outcome there are still to be, and with how many stones at most.
struct Wanted {
    stones: usize,
    one: usize,
    several: usize,
    none: usize,
    refused: [usize; 17],
}

impl Wanted {
    /// The count of an outcome: a refusal, or so many grids.
    fn of(&mut self, outcome: Result<usize, u8>) -> &mut usize {
        match outcome {
            Ok(0) => &mut self.none,
            Ok(1) => &mut self.one,
            Ok(_) => &mut self.several,
            Err(number) => &mut self.refused[number as usize],
        }
    }

    fn left(&self) -> usize {
        self.one + self.several + self.none + self.refused.iter().sum::<usize>()
    }
}

/// Pictures of each kind and of each outcome: small ones, some of 400 to 800 a side, what is refused at once, and document 01's.
fn whole(r: &mut Random) {
    let found = |one, several, none| Wanted { stones: 16, one, several, none, refused: [0; 17] };
    let refused = |numbers: &[(usize, usize)]| {
        let mut wanted = Wanted { stones: 65, ..found(0, 0, 0) };
        numbers.iter().for_each(|(number, count)| wanted.refused[*number] = *count);
        wanted
    };
    gather(r, "", 8_000, found(80, 20, 80));
    gather(r, "several symbols", 14_000, found(0, 8, 0));
    gather(r, "rows of marks", 8_000, Wanted { stones: 64, ..found(0, 2, 0) });
    gather(r, "rows of marks", 8_000, refused(&[(11, 6)]));
    gather(r, "lines may hardly meet", 70_000, refused(&[(12, 3)]));
    gather(r, "a turn may be flat", 20_000, refused(&[(13, 3), (15, 3)]));
    gather(r, "timing may count 0", 20_000, refused(&[(14, 6)]));
    gather(r, "400 to 800", 200_000, found(2, 2, 1));
    let mut wanted = found(1, 0, 1);
    while wanted.left() > 0 {
        let picture = if wanted.one > 0 { pictures::slate(r, 800, 800) } else { mark_pictures::straight(r, 800, 800, 2) };
        detect_one(r, &mut wanted, &picture);
    }
    mark();
    refused_at_once(r);
}

/// Pictures of the kinds whose name has these words in it, with so many pixels at most, until there are as many as wanted. Without words they are of every
/// kind but the large ones.
fn gather(r: &mut Random, words: &str, most: usize, mut wanted: Wanted) {
    let kinds: Vec<&Kind> = KINDS.iter().filter(|kind| kind.name.contains(words) && (!words.is_empty() || !kind.name.contains("400"))).collect();
    for kind in kinds.iter().cycle() {
        if wanted.left() == 0 {
            return;
        }
        let picture = (kind.make)(r);
        if picture.pixels.len() <= most {
            detect_one(r, &mut wanted, &picture);
        }
    }
}

/// One whole picture, if it is of an outcome that is wanted. A table that is lent is emptied, or comes back with a refusal.
fn detect_one(r: &mut Random, wanted: &mut Wanted, picture: &Picture) {
    let (w, h) = (picture.width, picture.height);
    let mut img = reach::picture(w, h, &picture.pixels);
    limits::begin();
    let found = asked(|| {
        let grids = img.detect_grids();
        grids.iter().map(|g| (location(&g.grid).clone(), g.bounds)).collect::<Vec<_>>()
    });
    let many = limits::stones() > wanted.stones;
    let count = wanted.of(found.as_ref().map(Vec::len).map_err(|number| *number));
    if *count == 0 || many {
        return;
    }
    *count -= 1;
    let kind = match &found {
        Ok(grids) if grids.is_empty() => 'n',
        Ok(grids) if grids.len() == 1 => 'g',
        Ok(_) => 'm',
        Err(_) => 'x',
    };
    let lent: Vec<usize> = if r.one_in(3) { vec![1, 1, 0, 3, 4, 5] } else { NO_TABLE.to_vec() };
    let mut case = Case::new(kind);
    case.drawn(picture).words(&lent).words(&[w * h, w * h]);
    match found {
        Ok(grids) => {
            case.words(&[0, limits::stones(), grids.len()]);
            for (at, bounds) in &grids {
                case.words(&[at.grid_size]).floats(&at.c.0);
                bounds.iter().for_each(|p| {
                    case.point(p);
                });
            }
            case.leaves(&img);
        }
        Err(number) => {
            case.word(u64::from(number)).sums(&picture.pixels).words(&lent[..1]).words(&lent[2..]);
        }
    }
    case.end();
}

/// Document 01's example: 9 x 9, with one mark at (1, 1).
fn mark() {
    let dark = |x: usize, y: usize| {
        let far = x.abs_diff(4).max(y.abs_diff(4));
        far < 2 || far == 3
    };
    let picture = Picture::new("mark", 9, 9, |x, y| u8::from(dark(x, y)));
    let mut img = reach::picture(9, 9, &picture.pixels);
    limits::begin();
    let grids = asked(|| img.detect_grids().len());
    assert!(grids == Ok(0) && limits::stones() == 1, "one stone, and no grid");
    Case::new('e').drawn(&picture).words(&NO_TABLE).words(&[81, 81]).words(&[0, 1, 0]).leaves(&img).end();
}

/// What is refused at once, by document 01; the Rust is not asked.
fn refused_at_once(r: &mut Random) {
    let mut refused = |sides: (usize, usize), bytes: &[u8], rooms: [usize; 2], number: u64| {
        let lent: &[usize] = if r.one_in(2) { &[2, 2, 1, 3, 4, 5, 0, 6, 7, 8] } else { &NO_TABLE };
        let mut case = Case::new('x');
        case.picture(sides.0, sides.1, bytes).words(lent).words(&rooms).word(number).sums(bytes).words(&lent[..1]).words(&lent[2..]).end();
    };
    for (width, height, length, number) in record_steps::REFUSED {
        refused((width, height), &vec![2; length], [0, 0], number);
    }
    for (stack, scratch) in [(80, 81), (81, 80), (0, 0)] {
        refused((9, 9), &[2; 81], [stack, scratch], 3);
    }
    for byte in [2, 5, 255] {
        let mut bytes = [1; 81];
        bytes[80] = byte;
        refused((9, 9), &bytes, [81, 81], 4);
    }
}
