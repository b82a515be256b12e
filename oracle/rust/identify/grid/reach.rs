//! Reaches what `grid` keeps private: where a grid that was found lies.
use super::*;

/// The grid's size and perspective.
pub fn location<'b, S>(image: &'b RefGridImage<'_, S>) -> &'b SkewedGridLocation {
    &image.grid
}
