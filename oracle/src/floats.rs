//! Floats to try, and when two are the same.
use crate::random::Random;

/// Bit for bit; any NaN is the same as any other, since the logic has one.
pub fn same(a: f64, b: f64) -> bool {
    a.to_bits() == b.to_bits() || (a.is_nan() && b.is_nan())
}

pub fn all_same(a: &[f64], b: &[f64]) -> bool {
    a.len() == b.len() && a.iter().zip(b).all(|(x, y)| same(*x, *y))
}

/// Zeros, infinities, NaN, the smallest and the largest, and places about which rounding turns.
pub const SPECIAL: [f64; 24] = [
    0.0,
    -0.0,
    f64::INFINITY,
    f64::NEG_INFINITY,
    f64::NAN,
    f64::MIN_POSITIVE,
    5e-324,
    f64::MAX,
    f64::MIN,
    f64::EPSILON,
    0.5,
    -0.5,
    0.499_999_999_999_999_94,
    -0.499_999_999_999_999_94,
    1.0,
    -1.0,
    4_503_599_627_370_495.5,
    9_007_199_254_740_991.0,
    2_147_483_647.5,
    -2_147_483_648.5,
    2_147_483_647.0,
    -2_147_483_648.0,
    4_294_967_296.0,
    1e300,
];

/// x, or a float at most three steps from it.
pub fn near(x: f64, r: &mut Random) -> f64 {
    let mut y = x;
    for _ in 0..r.below(4) {
        y = if r.one_in(2) { y.next_up() } else { y.next_down() };
    }
    y
}

/// Floats of every kind.
pub fn any(r: &mut Random) -> f64 {
    match r.below(8) {
        0 => r.pick(&SPECIAL),
        1 => r.any_float(),
        2 => f64::from(r.between(-1000, 1000)),
        3 => f64::from(r.between(-1000, 1000)) + 0.5,
        4 => r.within(-10.0, 10.0),
        5 => r.within(-3e9, 3e9),
        6 => near(f64::from(r.between(-1000, 1000)) + 0.5, r),
        _ => r.within(-1.0, 1.0) * 2f64.powi(r.between(-1074, 1023)),
    }
}
