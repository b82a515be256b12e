//! The written rule of detect (document 02, P2), over the Rust's own steps: `PreparedImage::detect_grids` and `find_groupings` of prepare.rs,
//! but that a group which meets 12, 13, 14 or 15 is dropped and counted, where the Rust panics, and that bounds are worked out with their group.
use crate::identify::match_capstones::{find_and_rank_possible_neighbors, CapStoneGroup};
use crate::limits;
use crate::panics::{asked, Panic};
use crate::prepare::reach::{self, Picture};
use crate::{capstones_from_image, CapStone, Grid, SkewedGridLocation};

/// How many groups were dropped for 12, 13, 14 and 15.
pub type Dropped = [usize; 4];

/// What detect tells: the number of stones, the grids, and the groups dropped in trials and in the final pass.
pub struct Findings {
    pub stones: usize,
    pub grids: Vec<Grid<SkewedGridLocation>>,
    pub trials: Dropped,
    pub finals: Dropped,
}

impl Findings {
    /// Whether a group was dropped.
    pub fn drops(&self) -> bool {
        self.trials != [0; 4] || self.finals != [0; 4]
    }
}

/// Detects, and leaves the paint. A panic that drops no group is detect's refusal: the search for stones meets 11, and 12 and 13 at a stone's centre.
pub fn detect_grids(img: &mut Picture) -> Result<Findings, Panic> {
    limits::begin();
    let stones = asked(|| capstones_from_image(img))?;
    let (groups, trials) = find_groupings(img, &stones)?;
    let (grids, finals) = final_pass(img, groups)?;
    Ok(Findings { stones: stones.len(), grids, trials, finals })
}

/// The groups whose trial gives a grid, in the order found. One that is dropped is as one without a grid: its stones stay unused, and the next pair is tried.
fn find_groupings(img: &Picture, stones: &[CapStone]) -> Result<(Vec<CapStoneGroup>, Dropped), Panic> {
    let (mut groups, mut used, mut dropped) = (vec![], vec![], [0; 4]);
    for idx in 0..stones.len() {
        if used.contains(&idx) {
            continue;
        }
        for (h, v) in find_and_rank_possible_neighbors(stones, idx) {
            if used.contains(&h) || used.contains(&v) {
                continue;
            }
            let group = CapStoneGroup(stones[h].clone(), stones[idx].clone(), stones[v].clone());
            let mut image_copy = img.clone();
            match asked(|| SkewedGridLocation::from_group(&mut image_copy, group.clone())) {
                Ok(Some(_)) => {
                    groups.push(group);
                    used.extend([h, idx, v]);
                }
                Ok(None) => (),
                Err(panic) => count(&mut dropped, panic)?,
            }
        }
    }
    Ok((groups, dropped))
}

/// The grids of the groups. One that is dropped leaves picture and cache exactly as they were before it.
fn final_pass(img: &mut Picture, groups: Vec<CapStoneGroup>) -> Result<(Vec<Grid<SkewedGridLocation>>, Dropped), Panic> {
    let (mut grids, mut dropped) = (vec![], [0; 4]);
    for group in groups {
        let before = reach::exact_copy(img);
        match asked(|| bounded(img, group)) {
            Ok(Some(grid)) => grids.push(grid),
            Ok(None) => (),
            Err(panic) => {
                count(&mut dropped, panic)?;
                *img = before;
            }
        }
    }
    Ok((grids, dropped))
}

/// A group's grid, if it has one, and then its bounds.
fn bounded(img: &mut Picture, group: CapStoneGroup) -> Option<Grid<SkewedGridLocation>> {
    let grid = SkewedGridLocation::from_group(img, group)?;
    let far = grid.grid_size as f64 + 1.0;
    let bounds = [(0.0, 0.0), (far, 0.0), (far, far), (0.0, far)].map(|(u, v)| grid.c.map(u, v));
    Some(Grid { grid, bounds })
}

/// Counts a group that meets one of the four; any other panic is detect's own.
fn count(dropped: &mut Dropped, panic: Panic) -> Result<(), Panic> {
    match panic.number {
        12..=15 => dropped[panic.number as usize - 12] += 1,
        _ => return Err(panic),
    }
    Ok(())
}
