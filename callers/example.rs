//! From a grey frame to the cells of each grid. The frame is a binary grey picture (P5, 255 greys) on standard input.
#[allow(dead_code)]
mod elmetzhur;

use elmetzhur::{Picture, Refused, Rooms};
use std::io::Read;

/// The next word of a header, and what follows it.
fn word(text: &[u8]) -> Option<(usize, &[u8])> {
    let start = text.iter().position(|b| !b.is_ascii_whitespace())?;
    let end = start + text[start..].iter().position(|b| b.is_ascii_whitespace())?;
    let number = std::str::from_utf8(&text[start..end]).ok()?.parse().ok()?;
    Some((number, &text[end..]))
}

/// The sides and the pixels of a frame.
fn frame(file: &[u8]) -> Option<(usize, usize, &[u8])> {
    let (width, rest) = word(file.strip_prefix(b"P5")?)?;
    let (height, rest) = word(rest)?;
    let (greys, rest) = word(rest)?;
    if greys == 255 {
        Some((width, height, &rest[1..]))
    } else {
        None
    }
}

/// What a log may say of the frame.
fn tell(picture: &mut Picture, rooms: &mut Rooms, room: &mut [bool]) -> Result<(), Refused> {
    picture.prepare()?;
    let found = picture.detect(rooms)?;
    println!("{} marks", found.stones);
    for grid in found.grids() {
        println!("a grid of {} cells a side, bounds {:?}", grid.size, grid.bounds);
        match picture.cells(&grid, room) {
            Ok(cells) => {
                for y in 0..cells.size() {
                    let line: String = (0..cells.size()).map(|x| if cells.bit(y, x) { "##" } else { "  " }).collect();
                    println!("{}", line.trim_end());
                }
            }
            Err(Refused(number)) => println!("its cells can't be read: refused {number}"),
        }
    }
    Ok(())
}

fn main() {
    let mut file = Vec::new();
    std::io::stdin().read_to_end(&mut file).expect("standard input can be read");
    let (width, height, grey) = match frame(&file) {
        Some(parts) => parts,
        None => return println!("not a grey picture"),
    };
    let mut pixels = grey.to_vec();
    let (mut stack, mut scratch) = (vec![0; pixels.len()], vec![0; pixels.len()]);
    let (mut counts, mut places, mut floats) = ([0; 1007], [0; 279], [0.0; 248]);
    let mut rooms = Rooms { stack: &mut stack, scratch: &mut scratch, counts: &mut counts, places: &mut places, floats: &mut floats };
    let mut picture = Picture { pixels: &mut pixels, width, height };
    let mut room = [false; 177 * 177];
    if let Err(Refused(number)) = tell(&mut picture, &mut rooms, &mut room) {
        println!("refused {number}");
    }
}
