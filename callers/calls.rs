//! The library's calls, as C has them: `elmetzhur.h` says what each answers. A slice goes as its start and its length.
extern "C" {
    pub fn elmetzhur_round(x: f64, out: *mut i32, room: usize) -> u8;
    pub fn elmetzhur_create(corners: *const i32, n: usize, w: f64, h: f64, out: *mut f64, room: usize) -> u8;
    pub fn elmetzhur_map(c: *const f64, n: usize, u: f64, v: f64, out: *mut i32, room: usize) -> u8;
    pub fn elmetzhur_unmap(c: *const f64, n: usize, x: i32, y: i32, out: *mut f64, room: usize) -> u8;
    pub fn elmetzhur_line_intersect(points: *const i32, n: usize, out: *mut i32, room: usize) -> u8;
    pub fn elmetzhur_scan(x0: i32, y0: i32, x1: i32, y1: i32, out: *mut i32, room: usize) -> u8;
    pub fn elmetzhur_accept(pic: *const u8, n: usize, width: usize, height: usize) -> u8;
    pub fn elmetzhur_prepare(pic: *mut u8, n: usize, width: usize, height: usize) -> u8;
    pub fn elmetzhur_claim(
        pic: *mut u8,
        n: usize,
        width: usize,
        height: usize,
        stack: *mut u32,
        entries: usize,
        x: usize,
        y: usize,
        target: u8,
        counts: *mut usize,
        room: usize,
    ) -> u8;
    pub fn elmetzhur_rows(
        pic: *mut u8,
        n: usize,
        width: usize,
        height: usize,
        stack: *mut u32,
        entries: usize,
        x: usize,
        y: usize,
        target: u8,
        rows: *mut usize,
        places: usize,
        count: *mut usize,
        room: usize,
    ) -> u8;
    pub fn elmetzhur_capstones(
        pic: *mut u8,
        n: usize,
        width: usize,
        height: usize,
        stack: *mut u32,
        entries: usize,
        places: *mut i32,
        numbers: usize,
        floats: *mut f64,
        coefficients: usize,
        counts: *mut usize,
        room: usize,
    ) -> u8;
    pub fn elmetzhur_rank(
        centers: *const i32,
        numbers: usize,
        floats: *const f64,
        coefficients: usize,
        n: usize,
        idx: usize,
        pairs: *mut usize,
        room: usize,
    ) -> u8;
    pub fn elmetzhur_fit(
        pic: *mut u8,
        n: usize,
        width: usize,
        height: usize,
        stack: *mut u32,
        entries: usize,
        scratch: *mut u8,
        kept: usize,
        counts: *mut usize,
        room: usize,
        places: *const i32,
        numbers: usize,
        floats: *mut f64,
        coefficients: usize,
    ) -> u8;
    pub fn elmetzhur_read_cell(pic: *const u8, n: usize, width: usize, height: usize, size: u8, c: *const f64, coefficients: usize, y: u8, x: u8) -> u8;
    pub fn elmetzhur_detect(
        pic: *mut u8,
        n: usize,
        width: usize,
        height: usize,
        stack: *mut u32,
        entries: usize,
        scratch: *mut u8,
        kept: usize,
        counts: *mut usize,
        room: usize,
        places: *mut i32,
        numbers: usize,
        floats: *mut f64,
        coefficients: usize,
    ) -> u8;
    pub fn elmetzhur_look_up(
        pic: *mut u8,
        n: usize,
        width: usize,
        height: usize,
        stack: *mut u32,
        entries: usize,
        x: usize,
        y: usize,
        counts: *mut usize,
        room: usize,
    ) -> u8;
}
