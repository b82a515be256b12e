//! The region table as our calls tell it: four numbers for each of its 251 places, the number that is the k-th newest and the entry of
//! number k, and behind them how many entries there are.
use theirs::prepare::{reach, ColoredRegion};

/// Where the number of entries stands.
pub const ENTRIES: usize = 1004;

/// An entry's column, line and pixels.
pub fn entry(region: &ColoredRegion) -> [usize; 3] {
    match region {
        ColoredRegion::Unclaimed { src_x, src_y, pixel_count, .. } => [*src_x, *src_y, *pixel_count],
        _ => [usize::MAX; 3],
    }
}

/// The table is the Rust's: the numbers by age, and the entry of each.
pub fn same(counts: &[usize], img: &reach::Picture) -> bool {
    let table = reach::table(img);
    let held = |(k, (age, region)): (usize, &(u8, ColoredRegion))| {
        let at = 4 * *age as usize;
        counts[4 * k] == *age as usize && counts[at + 1..at + 4] == entry(region)
    };
    counts[ENTRIES] == table.len() && table.iter().enumerate().all(held)
}

/// The places past its entries hold this number.
pub fn holds_past(counts: &[usize], number: usize) -> bool {
    counts[4 * counts[ENTRIES]..ENTRIES].iter().all(|z| *z == number)
}
