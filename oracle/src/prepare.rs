//! Thresholding and accepting: pictures byte for byte, and what is refused.
use crate::ours::{self, BYTE, LENGTH, SIZE};
use crate::pictures::{frame, grey, nth, Picture};
use crate::random::Random;
use crate::report::{unless_panic, Report};
use theirs::prepare::reach;

pub fn compare(seed: u64, count: u64) -> bool {
    let reports = [
        thresholds(&mut Random::new(seed, "prepare"), count),
        accepts(&mut Random::new(seed, "accept"), count),
        refusals(&mut Random::new(seed, "sides")),
    ];
    reports.into_iter().map(Report::close).fold(true, |a, b| a && b)
}

// ---------------------------------------------------------------- prepare

/// Every picture of up to 3 x 3 of four greys, every width from 1 to 800 at small heights, and random sides up to the largest.
fn thresholds(r: &mut Random, count: u64) -> Report {
    let mut report = Report::new("prepare");
    let palette = [0, 90, 180, 255];
    for width in 1..=3 {
        for height in 1..=3 {
            for k in 0..4u64.pow((width * height) as u32) {
                threshold_one(&mut report, &nth("small", width, height, &palette, k));
            }
        }
    }
    for width in 1..=800 {
        for _ in 0..8 {
            let height = r.below(12) + 1;
            threshold_one(&mut report, &grey(r, width, height));
        }
    }
    let random = report.cases() + count;
    while report.cases() < random {
        let reach = r.pick(&[20, 60, 60, 200, 200, 400, 800]);
        let (width, height) = (r.below(reach) + 1, r.below(reach) + 1);
        let picture = if r.one_in(4) { frame(r, width, height) } else { grey(r, width, height) };
        threshold_one(&mut report, &picture);
    }
    for side in [400, 799, 800] {
        threshold_one(&mut report, &frame(r, side, side));
        threshold_one(&mut report, &grey(r, side, side));
    }
    report
}

fn threshold_one(report: &mut Report, picture: &Picture) {
    let (w, h) = (picture.width, picture.height);
    let theirs = reach::prepare(w, h, picture.pixels.clone().into());
    let mut pixels = picture.pixels.clone();
    let ours = ours::prepare(&mut pixels, w, h);
    let same = ours == 0 && pixels == reach::pixels(&theirs) && ours::accept(&pixels, w, h) == 0;
    report.case(same, picture.kind, (w * h) as u64, || {
        let at = pixels.iter().zip(reach::pixels(&theirs)).position(|(a, b)| a != b);
        format!("prepare of {}: ours {ours}, first at byte {at:?}", picture.told())
    });
}

// ---------------------------------------------------------------- accept

/// Bitmaps, and bitmaps with a byte above 1, at which the Rust panics.
fn accepts(r: &mut Random, count: u64) -> Report {
    let mut report = Report::new("accept");
    for width in 1..=3 {
        for height in 1..=3 {
            for k in 0..3u64.pow((width * height) as u32) {
                accept_one(&mut report, &nth("small", width, height, &[0, 1, 2], k));
            }
        }
    }
    let random = report.cases() + count;
    while report.cases() < random {
        let (width, height) = (r.below(60) + 1, r.below(60) + 1);
        let mut picture = Picture::new("bytes", width, height, |_, _| r.below(2) as u8);
        if r.one_in(2) {
            picture.pixels[r.below(width * height)] = r.pick(&[0, 1, 2, 3, 127, 255]);
        }
        accept_one(&mut report, &picture);
    }
    report
}

fn accept_one(report: &mut Report, picture: &Picture) {
    let (w, h) = (picture.width, picture.height);
    let theirs = unless_panic(|| reach::accept(w, h, picture.pixels.clone().into())).is_some();
    let ours = ours::accept(&picture.pixels, w, h);
    let kind = if theirs { "bitmap" } else { "4, the Rust panics" };
    report.case(ours == if theirs { 0 } else { BYTE }, kind, (w * h) as u64, || {
        format!("accept of {}: ours {ours}, Rust {theirs}", picture.told())
    });
}

// ---------------------------------------------------------------- refusals

/// Sides and lengths that document 01 refuses, up to the largest numbers; the Rust isn't asked. The picture stays as it was.
fn refusals(r: &mut Random) -> Report {
    let mut report = Report::new("sides");
    let ends = [0, 1, 2, 3, 6, 799, 800, 801, 65_536, 1 << 32, usize::MAX / 2 + 1, usize::MAX - 1, usize::MAX];
    let lengths = [0, 1, 2, 5, 6, 7, 12, 800, 1600];
    for width in ends {
        for height in ends {
            for length in lengths {
                let bytes: Vec<u8> = (0..length).map(|_| r.below(2) as u8).collect();
                let side = |n| (1..=800).contains(&n);
                let expected = if !side(width) || !side(height) {
                    SIZE
                } else if width * height != length {
                    LENGTH
                } else {
                    0
                };
                let mut pixels = bytes.clone();
                let (prepared, accepted) = (ours::prepare(&mut pixels, width, height), ours::accept(&bytes, width, height));
                let kept = expected == 0 || pixels == bytes;
                report.case(prepared == expected && accepted == expected && kept, &format!("{expected}"), length as u64, || {
                    format!("{width} x {height}, {length} bytes: ours {prepared} and {accepted}, expected {expected}, kept {kept}")
                });
            }
        }
    }
    report
}
