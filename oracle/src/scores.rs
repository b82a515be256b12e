//! The scores by which the Rust ranks a stone's neighbours.
use theirs::detect::CapStone;

/// The score of a pair.
pub fn score(stones: &[CapStone], idx: usize, (h, v): (usize, usize)) -> f64 {
    let along = |k: usize| {
        let (u, v) = stones[idx].c.unmap(&stones[k].center);
        ((u - 3.5).abs(), (v - 3.5).abs())
    };
    let (a, b) = (along(h).1, along(v).0);
    if a < b { (1.0 - a / b).abs() } else { (1.0 - b / a).abs() }
}

/// Whether two of the ranked pairs have equal scores.
pub fn ties(stones: &[CapStone], idx: usize, ranked: &[(usize, usize)]) -> bool {
    let scores: Vec<f64> = ranked.iter().map(|p| score(stones, idx, *p)).collect();
    scores.windows(2).any(|s| s[0] == s[1])
}
