//! What whole pictures came to, counted by kind and in all.
use theirs::written_rule::{Dropped, Findings};

#[derive(Default)]
pub struct Tally {
    pictures: u64,
    refused: u64,
    stones: u64,
    grids: u64,
    /// Pictures in which two pairs of a stone's neighbours have equal scores, and pictures that leave a full table.
    pub tied: u64,
    pub full: u64,
    /// Groups dropped, and pictures in which one is.
    trials: [u64; 4],
    finals: [u64; 4],
    dropped: u64,
    /// Pictures on which `detect_grids` panics at a group, and those of them that have a grid by the written rule.
    panicked: u64,
    gained: u64,
}

impl Tally {
    /// One picture that is refused.
    pub fn refuse(&mut self) {
        self.pictures += 1;
        self.refused += 1;
    }

    /// One picture in which this is found; whether `detect_grids` panics on it.
    pub fn find(&mut self, found: &Findings, panics: bool) {
        let dropped = |of: &Dropped| of.map(|n| n as u64);
        self.add(&Tally {
            pictures: 1,
            stones: found.stones as u64,
            grids: found.grids.len() as u64,
            trials: dropped(&found.trials),
            finals: dropped(&found.finals),
            dropped: u64::from(found.drops()),
            panicked: u64::from(panics),
            gained: u64::from(panics && !found.grids.is_empty()),
            ..Tally::default()
        });
    }

    /// What was counted elsewhere, as well.
    pub fn add(&mut self, more: &Tally) {
        let each = |a: [u64; 4], b: [u64; 4]| std::array::from_fn(|k| a[k] + b[k]);
        self.pictures += more.pictures;
        self.refused += more.refused;
        self.stones += more.stones;
        self.grids += more.grids;
        self.tied += more.tied;
        self.full += more.full;
        self.trials = each(self.trials, more.trials);
        self.finals = each(self.finals, more.finals);
        self.dropped += more.dropped;
        self.panicked += more.panicked;
        self.gained += more.gained;
    }

    /// The counts in words.
    pub fn told(&self) -> String {
        let Tally { pictures, refused, stones, grids, tied, full, dropped, panicked, gained, .. } = self;
        let reasons = |of: &[u64; 4]| of.iter().zip(12..).map(|(n, reason)| format!("{reason}: {n}")).collect::<Vec<_>>().join(", ");
        let (trials, finals) = (reasons(&self.trials), reasons(&self.finals));
        format!(
            "{pictures} pictures, {refused} refused; {stones} stones, {grids} grids; equal scores in {tied}, a full table in {full}; \
             dropped in trials {trials}; in final passes {finals}; in {dropped} pictures; \
             detect_grids panics at a group in {panicked}, {gained} of them have a grid"
        )
    }
}
