//! The form of a recorded case, which the program `vectors` reads: a letter for its kind, five hex digits for the number of bytes behind them,
//! and then words, each a space and up to 16 hex digits; a line feed ends it.
use crate::panics::number_of;
use crate::pictures::Picture;
use crate::tables::entry;
use std::panic::{catch_unwind, AssertUnwindSafe};
use theirs::detect::CapStone;
use theirs::prepare::{reach, ColoredRegion};
use theirs::Point;

/// What says that there is no grid, and that a cell is light; a dark one is one more, and a claimed piece's colour is added.
pub const NONE: u64 = 256;
/// The words of the empty table.
pub const NO_TABLE: [usize; 2] = [0, 0];

pub struct Case {
    kind: char,
    text: String,
}

impl Case {
    pub fn new(kind: char) -> Case {
        Case { kind, text: String::new() }
    }

    pub fn word(&mut self, n: u64) -> &mut Case {
        self.text += &format!(" {n:x}");
        self
    }

    pub fn words(&mut self, numbers: &[usize]) -> &mut Case {
        numbers.iter().for_each(|n| {
            self.word(*n as u64);
        });
        self
    }

    /// A whole number, with 2^31 added.
    pub fn point(&mut self, p: &Point) -> &mut Case {
        self.word((i64::from(p.x) + (1 << 31)) as u64).word((i64::from(p.y) + (1 << 31)) as u64)
    }

    /// The bits of floats. A NaN's are those of the quiet one that has nothing else set.
    pub fn floats(&mut self, c: &[f64; 8]) -> &mut Case {
        c.iter().for_each(|x| {
            self.word(if x.is_nan() { 0x7ff8 << 48 } else { x.to_bits() });
        });
        self
    }

    /// A picture: its sides, the number of its bytes, 1 and four pixels to a digit where it is a bitmap, or else 8 and two digits to a byte.
    pub fn picture(&mut self, width: usize, height: usize, bytes: &[u8]) -> &mut Case {
        let bits = bytes.iter().all(|b| *b < 2);
        self.words(&[width, height, bytes.len(), if bits { 1 } else { 8 }]);
        self.text.push(' ');
        if bits {
            let digit = |four: &[u8]| four.iter().chain(&[0; 3]).take(4).fold(0, |n, b| 2 * n + b);
            bytes.chunks(4).for_each(|four| self.text += &format!("{:x}", digit(four)));
        } else {
            bytes.iter().for_each(|b| self.text += &format!("{b:02x}"));
        }
        self
    }

    pub fn drawn(&mut self, p: &Picture) -> &mut Case {
        self.picture(p.width, p.height, &p.pixels)
    }

    /// The two sums of a picture.
    pub fn sums(&mut self, bytes: &[u8]) -> &mut Case {
        let sum = |factor: u64| bytes.iter().fold(0, |n, b| (n * factor + u64::from(*b) + 1) % 281_474_976_710_597);
        self.word(sum(65521)).word(sum(64661))
    }

    /// The places of a table: its numbers by age, and the entry of each number.
    fn places(&mut self, table: &[(u8, ColoredRegion)]) -> &mut Case {
        for (k, (age, _)) in table.iter().enumerate() {
            let (_, region) = table.iter().find(|(number, _)| *number as usize == k).expect("the numbers are 0..n");
            self.word(u64::from(*age)).words(&entry(region));
        }
        self
    }

    /// A table that a call is given.
    pub fn given(&mut self, table: &[(u8, ColoredRegion)]) -> &mut Case {
        self.words(&[table.len(), table.len()]).places(table)
    }

    /// A table that a call leaves.
    pub fn left(&mut self, table: &[(u8, ColoredRegion)]) -> &mut Case {
        self.words(&[table.len()]).places(table)
    }

    /// What a call leaves: a picture and a table.
    pub fn leaves(&mut self, img: &reach::Picture) -> &mut Case {
        self.sums(reach::pixels(img)).left(&reach::table(img))
    }

    /// A stone to be fitted: its corners and its centre.
    pub fn corners(&mut self, stone: &CapStone) -> &mut Case {
        stone.corners.iter().chain([&stone.center]).for_each(|p| {
            self.point(p);
        });
        self
    }

    /// Writes the case.
    pub fn end(&mut self) {
        println!("{}{:05x}{}", self.kind, self.text.len() + 1, self.text);
    }
}

/// What the Rust answers, or the number that document 01 gives its panic.
pub fn asked<T>(f: impl FnOnce() -> T) -> Result<T, u8> {
    catch_unwind(AssertUnwindSafe(f)).map_err(|panic| {
        let said = panic.downcast_ref::<String>().cloned().or(panic.downcast_ref::<&str>().map(|s| s.to_string())).unwrap_or_default();
        match number_of(&said) {
            0 => {
                eprintln!("oracle: document 01 has no number for '{said}'");
                std::process::exit(2)
            }
            number => number,
        }
    })
}
