//! Runs of lookups and claims from an accepted bitmap and an empty table: every answer, and picture and table at the end. Our side is the
//! program `replay`, which takes runs on its standard input; `REPLAY` says where it stands.
use crate::random::Random;
use crate::report::{unless_panic, Report};
use std::io::{Read, Write};
use std::process::{Child, Command, Stdio};
use theirs::prepare::{reach, ColoredRegion};

const CLAIMED: u8 = 0;
const UNCLAIMED: u8 = 1;
const REFUSED: u8 = 2;
const DONE: u8 = 3;

/// A call: a lookup, or a claim with its target.
#[derive(Clone, Copy, Debug)]
struct Call {
    claim: bool,
    x: u8,
    y: u8,
    target: u8,
}

struct Run {
    kind: &'static str,
    width: usize,
    height: usize,
    pixels: Vec<u8>,
    calls: Vec<Call>,
}

pub fn compare(seed: u64, count: u64) -> bool {
    let path = std::env::var("REPLAY").expect("REPLAY says where the program replay stands");
    let mut report = Report::new("runs of lookups and claims");
    let mut r = Random::new(seed, "runs");
    let mut calls = 0;
    for start in (0..count).step_by(2000) {
        let runs: Vec<Run> = (start..count.min(start + 2000)).map(|k| drawn(&mut r, k)).collect();
        let ours = replayed(&path, &runs);
        let mut at = 0;
        for run in &runs {
            let theirs = answers(run);
            let same = ours.get(at..at + theirs.len()) == Some(&theirs[..]);
            at += theirs.len();
            calls += run.calls.len();
            report.case(same, run.kind, (run.pixels.len() + run.calls.len()) as u64, || {
                format!("{} {} x {} {:?}\n    {:?}", run.kind, run.width, run.height, run.pixels, run.calls)
            });
        }
    }
    println!("runs: {calls} calls in all");
    report.close()
}

/// A run: small pictures with many calls, and pictures of more pieces than there are numbers.
fn drawn(r: &mut Random, k: u64) -> Run {
    let many = k % 8 == 0;
    let (width, height) = if many { (40 + r.below(60), 16 + r.below(12)) } else { (1 + r.below(14), 1 + r.below(14)) };
    let dots = many && r.one_in(2);
    let density = 1 + r.below(9);
    let pixels = (0..width * height)
        .map(|i| {
            let (x, y) = (i % width, i / width);
            if dots { u8::from((x + y) % 2 == 0) } else { u8::from(r.below(10) < density) }
        })
        .collect();
    let claims = if r.one_in(3) { 0 } else { 2 + r.below(20) };
    let outside = r.one_in(4);
    let count = if many { 300 + r.below(1200) } else { 1 + r.below(200) };
    let calls = (0..count)
        .map(|_| Call {
            claim: claims > 0 && r.one_in(claims),
            x: r.below(width + usize::from(outside)) as u8,
            y: r.below(height + usize::from(outside)) as u8,
            target: r.pick(&[2, 3, 4, 2, 3, 4, 2, 3, 4, 0, 1, 5, 255]),
        })
        .collect();
    let kind = match (many, claims > 0) {
        (true, true) => "many pieces, lookups and claims",
        (true, false) => "many pieces, lookups alone",
        (false, true) => "small picture, lookups and claims",
        (false, false) => "small picture, lookups alone",
    };
    Run { kind, width, height, pixels, calls }
}

/// What `replay` writes for these runs.
fn replayed(path: &str, runs: &[Run]) -> Vec<u8> {
    let mut child: Child = Command::new(path).stdin(Stdio::piped()).stdout(Stdio::piped()).spawn().expect("replay starts");
    let mut input = child.stdin.take().unwrap();
    let mut script = vec![];
    for run in runs {
        script.extend([run.width as u8, run.height as u8, run.calls.len() as u8, (run.calls.len() >> 8) as u8]);
        script.extend(&run.pixels);
        for c in &run.calls {
            script.extend([u8::from(c.claim), c.x, c.y, c.target]);
        }
    }
    let writer = std::thread::spawn(move || input.write_all(&script));
    let mut output = vec![];
    child.stdout.take().unwrap().read_to_end(&mut output).expect("replay is read");
    writer.join().unwrap().expect("replay reads its input");
    child.wait().expect("replay ends");
    output
}

fn answer(out: &mut Vec<u8>, kind: u8, numbers: [usize; 3]) {
    out.push(kind);
    for n in numbers {
        out.extend((n as u32).to_le_bytes());
    }
}

/// What the Rust answers, in the form of `replay`, with document 01's number wherever a call is refused.
fn answers(run: &Run) -> Vec<u8> {
    let (w, h) = (run.width, run.height);
    let mut img = reach::picture(w, h, &run.pixels);
    let mut out = vec![];
    for c in &run.calls {
        let (x, y) = (c.x as usize, c.y as usize);
        if x >= w || y >= h {
            answer(&mut out, REFUSED, [5, 0, 0]);
        } else if c.claim {
            claimed(&mut out, &mut img, run, c);
        } else if reach::pixels(&img)[y * w + x] == 0 {
            answer(&mut out, REFUSED, [6, 0, 0]);
        } else {
            looked(&mut out, reach::look_up(&mut img, x, y));
        }
    }
    out.extend(reach::pixels(&img));
    listed(&mut out, &reach::table(&img));
    out
}

fn looked(out: &mut Vec<u8>, region: ColoredRegion) {
    match region {
        ColoredRegion::CapStone => answer(out, CLAIMED, [2, 0, 0]),
        ColoredRegion::Alignment => answer(out, CLAIMED, [3, 0, 0]),
        ColoredRegion::Tmp1 => answer(out, CLAIMED, [4, 0, 0]),
        ColoredRegion::Unclaimed { color, src_x, src_y, pixel_count } => {
            let number = u8::from(color) as usize - 5;
            answer(out, UNCLAIMED, [number, src_y * 65536 + src_x, pixel_count])
        }
    }
}

fn claimed(out: &mut Vec<u8>, img: &mut reach::Picture, run: &Run, c: &Call) {
    let (x, y) = (c.x as usize, c.y as usize);
    let byte = reach::pixels(img)[y * run.width + x];
    if !(2..=4).contains(&c.target) {
        return answer(out, REFUSED, [8, 0, 0]);
    }
    let mut rows = vec![];
    match unless_panic(|| reach::claim(img, x, y, c.target, |row| rows.push(row))) {
        Some(()) => answer(out, DONE, crate::fill::counts_of(&rows)),
        None if byte == 0 => answer(out, REFUSED, [6, 0, 0]),
        None => answer(out, REFUSED, [7, 0, 0]),
    }
}

/// The table's count, and for each place its age and the entry of that number.
fn listed(out: &mut Vec<u8>, table: &[(u8, ColoredRegion)]) {
    out.push(table.len() as u8);
    for (k, (age, _)) in table.iter().enumerate() {
        let (_, region) = table.iter().find(|(n, _)| *n as usize == k).expect("the numbers are 0..n");
        let ColoredRegion::Unclaimed { src_x, src_y, pixel_count, .. } = region else { panic!("an entry is unclaimed") };
        out.push(*age);
        for n in [*src_x, *src_y, *pixel_count] {
            out.extend((n as u32).to_le_bytes());
        }
    }
}
