//! Stands for the Rust's lib.rs, which can't be built without its decoder: the modules, and what they name of their root.
pub use self::detect::{capstones_from_image, CapStone};
pub use self::identify::{Point, SkewedGridLocation};
pub use self::prepare::PreparedImage;

pub mod detect;
pub mod geometry;
pub mod identify;
pub mod limits;
pub mod prepare;
pub mod version_db;

/// A grid that was found, and its four bounds.
pub struct Grid<G> {
    pub grid: G,
    pub bounds: [Point; 4],
}

/// A square of cells.
pub trait BitGrid {
    /// Cells on a side.
    fn size(&self) -> usize;
    /// Whether the cell is black.
    fn bit(&self, y: usize, x: usize) -> bool;
}
