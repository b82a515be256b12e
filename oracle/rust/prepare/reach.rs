//! Reaches what `prepare` keeps private: a picture's bytes, its table of regions, a lookup and a claim.
use super::*;

/// The picture that the Rust's own callers have.
pub type Picture = PreparedImage<BasicImageBuffer>;

/// A picture of these bytes, whatever they are, with an empty table.
pub fn picture(w: usize, h: usize, pixels: &[u8]) -> Picture {
    PreparedImage {
        buffer: BasicImageBuffer { w, h, pixels: pixels.into() },
        cache: LruCache::new(NonZeroUsize::new(251).unwrap()),
    }
}

/// The picture's bytes.
pub fn pixels(img: &Picture) -> &[u8] {
    &img.buffer.pixels
}

/// Puts other bytes in their place.
pub fn restore(img: &mut Picture, pixels: &[u8]) {
    img.buffer.pixels.copy_from_slice(pixels)
}

/// Thresholds grey bytes, as `prepare_from_greyscale` does once it has gathered them.
pub fn prepare(w: usize, h: usize, pixels: Box<[u8]>) -> Picture {
    PreparedImage::prepare(BasicImageBuffer { w, h, pixels })
}

/// Takes a bitmap; a byte above 1 panics.
pub fn accept(w: usize, h: usize, pixels: Box<[u8]>) -> Picture {
    PreparedImage::without_preparation(BasicImageBuffer { w, h, pixels })
}

/// Repaints the piece at (x, y), and hands each row over as it is met.
pub fn claim(img: &mut Picture, x: usize, y: usize, target: u8, met: impl FnMut(Row)) {
    img.repaint_and_apply((x, y), target.into(), met);
}

/// Looks up the region at (x, y).
pub fn look_up(img: &mut Picture, x: usize, y: usize) -> ColoredRegion {
    img.get_region((x, y))
}

/// The table's numbers and regions, the newest first.
pub fn table(img: &Picture) -> Vec<(u8, ColoredRegion)> {
    img.cache.iter().map(|(n, region)| (*n, *region)).collect()
}

/// Puts an entry into the table, as the newest.
pub fn put(img: &mut Picture, number: u8, src_x: usize, src_y: usize, pixel_count: usize) {
    let color = PixelColor::Discarded(number);
    img.cache.put(number, ColoredRegion::Unclaimed { color, src_x, src_y, pixel_count });
}
