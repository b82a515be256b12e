//! The Rust's side of whole pictures: the written rule, held against the Rust's own `detect_grids`.
use crate::lent::{same_grids, Found};
use crate::ours::{FAR, TURNED};
use crate::pictures::Picture;
use theirs::identify::grid::reach::location;
use theirs::limits;
use theirs::panics::{asked, Panic};
use theirs::prepare::reach;
use theirs::written_rule::{self, Findings};

/// A picture as the Rust's side has it.
pub struct Theirs {
    /// What the written rule comes to, the paint and the cache that it leaves, and its grids.
    pub rule: Result<Findings, Panic>,
    pub img: reach::Picture,
    pub grids: Vec<Found>,
    /// Whether `detect_grids` panics at a group.
    pub panics: bool,
    /// Whether the rule is what `detect_grids` does: the same refusals by the search for stones; the same stones, grids, paint and cache
    /// where nothing is dropped; and something is dropped exactly where `detect_grids` panics at a group.
    pub followed: bool,
}

impl Theirs {
    /// Runs the written rule, and `detect_grids` on a fresh picture.
    pub fn of(picture: &Picture) -> Theirs {
        let (mut img, mut own_img) = (fresh(picture), fresh(picture));
        let rule = written_rule::detect_grids(&mut img);
        let grids: Vec<Found> = rule.iter().flat_map(|found| &found.grids).map(|g| Found::of(&g.grid, &g.bounds)).collect();
        let own = detect_theirs(&mut own_img);
        let left = || reach::pixels(&img) == reach::pixels(&own_img) && reach::table(&img) == reach::table(&own_img);
        let (panics, followed) = match (&rule, &own) {
            (Ok(found), Ok(own)) => (false, !found.drops() && found.stones == limits::stones() && same_grids(&grids, own) && left()),
            (Ok(found), Err(panic)) => (true, found.drops() && (FAR..=TURNED).contains(&panic.number)),
            (Err(rule), Err(own)) => (false, rule.number == own.number),
            (Err(_), Ok(_)) => (false, false),
        };
        Theirs { rule, img, grids, panics, followed }
    }
}

/// The picture, with an empty cache.
pub fn fresh(picture: &Picture) -> reach::Picture {
    reach::picture(picture.width, picture.height, &picture.pixels)
}

/// What the Rust's own `detect_grids` finds, or its panic. It leaves the paint.
fn detect_theirs(img: &mut reach::Picture) -> Result<Vec<Found>, Panic> {
    limits::begin();
    asked(|| img.detect_grids().iter().map(|g| Found::of(location(&g.grid), &g.bounds)).collect())
}
