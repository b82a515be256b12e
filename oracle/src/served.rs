//! Our detect in a process of its own (`served.c`), where the library can't be linked: `SERVED` is the command that starts it. What is
//! asked and what is answered can be taken apart, so that both sides work at the same time.
use std::io::{Read, Write};
use std::process::{exit, Child, Command, Stdio};

pub struct Served(Child);

/// Panics are the Rust's here: what goes wrong with our side ends the program.
fn or_end<T>(done: std::io::Result<T>) -> T {
    done.unwrap_or_else(|why| {
        eprintln!("oracle: our side (SERVED) does not answer: {why}");
        exit(2)
    })
}

impl Served {
    pub fn start() -> Served {
        let command = std::env::var("SERVED").unwrap_or_default();
        let mut words = command.split_whitespace();
        let program = words.next().unwrap_or_default();
        Served(or_end(Command::new(program).args(words).stdin(Stdio::piped()).stdout(Stdio::piped()).spawn()))
    }

    /// Hands a picture over.
    pub fn ask(&mut self, pic: &[u8], width: usize, height: usize, room: usize) {
        let to = self.0.stdin.as_mut().expect("it is listened to");
        let head: Vec<u8> = [width, height, pic.len(), room].iter().flat_map(|n| (*n as u64).to_le_bytes()).collect();
        or_end(to.write_all(&head).and_then(|()| to.write_all(pic)).and_then(|()| to.flush()));
    }

    /// Takes what detect told of it.
    pub fn answer(&mut self, pic: &mut [u8], counts: &mut [usize], places: &mut [i32], floats: &mut [f64]) -> u8 {
        let from = self.0.stdout.as_mut().expect("it answers");
        let mut number = [0];
        let mut told = vec![0; 8 * counts.len() + 4 * places.len() + 8 * floats.len()];
        or_end(from.read_exact(&mut number).and_then(|()| from.read_exact(pic)).and_then(|()| from.read_exact(&mut told)));
        let (first, rest) = told.split_at(8 * counts.len());
        let (second, third) = rest.split_at(4 * places.len());
        counts.iter_mut().zip(first.chunks(8)).for_each(|(n, bytes)| *n = u64::from_le_bytes(bytes.try_into().unwrap()) as usize);
        places.iter_mut().zip(second.chunks(4)).for_each(|(z, bytes)| *z = i32::from_le_bytes(bytes.try_into().unwrap()));
        floats.iter_mut().zip(third.chunks(8)).for_each(|(x, bytes)| *x = f64::from_le_bytes(bytes.try_into().unwrap()));
        number[0]
    }
}

impl Drop for Served {
    fn drop(&mut self) {
        drop(self.0.stdin.take());
        let _ = self.0.wait();
    }
}
