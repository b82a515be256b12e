//! Pictures to try: grey ones for the threshold, black and white ones with shapes that are hard on a fill, and drawn symbols.
use crate::random::Random;

/// Bytes with their sides, and what they show.
#[derive(Clone)]
pub struct Picture {
    pub kind: &'static str,
    pub width: usize,
    pub height: usize,
    pub pixels: Vec<u8>,
}

impl Picture {
    pub fn new(kind: &'static str, width: usize, height: usize, mut at: impl FnMut(usize, usize) -> u8) -> Picture {
        let mut pixels = Vec::with_capacity(width * height);
        for y in 0..height {
            for x in 0..width {
                pixels.push(at(x, y));
            }
        }
        Picture { kind, width, height, pixels }
    }

    /// As text, for a difference that is reported: small ones whole.
    pub fn told(&self) -> String {
        let head = format!("{} {} x {}", self.kind, self.width, self.height);
        if self.pixels.len() > 4096 {
            return head;
        }
        let lines: Vec<String> = self.pixels.chunks(self.width.max(1)).map(|line| format!("    {line:?}")).collect();
        format!("{head}\n{}", lines.join("\n"))
    }
}

/// The k-th picture of these sides whose bytes are of a palette, in a fixed order.
pub fn nth(kind: &'static str, width: usize, height: usize, palette: &[u8], mut k: u64) -> Picture {
    Picture::new(kind, width, height, |_, _| {
        let byte = palette[(k % palette.len() as u64) as usize];
        k /= palette.len() as u64;
        byte
    })
}

// ---------------------------------------------------------------- grey

/// A grey picture of these sides, of one of many kinds.
pub fn grey(r: &mut Random, width: usize, height: usize) -> Picture {
    match r.below(9) {
        0 => {
            let byte = r.below(256) as u8;
            Picture::new("one grey", width, height, |_, _| byte)
        }
        1 => Picture::new("noise", width, height, |_, _| r.below(256) as u8),
        2 => Picture::new("black and white noise", width, height, |_, _| r.pick(&[0, 255])),
        3 => {
            let (a, b, c) = (r.within(-1.0, 1.0), r.within(-1.0, 1.0), r.within(0.0, 255.0));
            Picture::new("gradient", width, height, |x, y| (c + a * x as f64 + b * y as f64).clamp(0.0, 255.0) as u8)
        }
        4 => {
            let (a, b) = (r.below(7) + 1, r.below(7) + 1);
            Picture::new("sawtooth", width, height, |x, y| (a * x + b * y) as u8)
        }
        5 => {
            let (step, low, high) = (r.below(20) + 1, r.below(128) as u8, r.below(128) as u8 + 128);
            Picture::new("checks", width, height, |x, y| if (x / step + y / step) % 2 == 0 { low } else { high })
        }
        6 => {
            let (paper, ink) = (r.below(100) as u8 + 120, r.below(100) as u8);
            let rare = r.below(40) + 2;
            Picture::new("spots", width, height, |_, _| if r.one_in(rare) { ink } else { paper })
        }
        7 => {
            let mut byte = 128;
            Picture::new("wandering", width, height, |_, _| {
                byte = (byte + r.between(-9, 9)).clamp(0, 255);
                byte as u8
            })
        }
        _ => frame(r, width, height),
    }
}

/// What a camera sees: uneven light, a symbol on paper, and noise.
pub fn frame(r: &mut Random, width: usize, height: usize) -> Picture {
    let bitmap = slate(r, width, height);
    let (light, slope, fall) = (r.within(120.0, 250.0), r.within(-0.15, 0.15), r.within(-0.15, 0.15));
    let (ink, noise) = (r.within(0.05, 0.5), r.below(25) as i32);
    Picture::new("frame", width, height, |x, y| {
        let lit = light + slope * x as f64 + fall * y as f64;
        let seen = if bitmap.pixels[y * width + x] == 0 { lit } else { lit * ink };
        (seen as i32 + r.between(-noise, noise)).clamp(0, 255) as u8
    })
}

// ---------------------------------------------------------------- black and white

/// A bitmap of these sides, of one of many kinds.
pub fn bitmap(r: &mut Random, width: usize, height: usize) -> Picture {
    match r.below(10) {
        0 => {
            let black = r.below(100) + 1;
            Picture::new("noise", width, height, |_, _| u8::from(r.below(100) < black))
        }
        1 => Picture::new("black", width, height, |_, _| 1),
        2 => spiral(width, height),
        3 => comb(width, height, r.below(4) + 1),
        4 => checkerboard(width, height),
        5 => rings(width, height),
        6 => maze(r, width, height),
        7 => {
            let (a, b) = (r.below(5) + 1, r.below(5) + 1);
            Picture::new("slopes", width, height, |x, y| u8::from((a * x + b * y) % 7 < 4))
        }
        8 => {
            let gap = r.below(6) + 2;
            Picture::new("grate", width, height, |x, y| u8::from(x % gap == 0 || y % gap == 0))
        }
        _ => slate(r, width, height),
    }
}

/// Pixels that touch at their corners only: as many pieces as there are black pixels.
pub fn checkerboard(width: usize, height: usize) -> Picture {
    Picture::new("checkerboard", width, height, |x, y| ((x + y) % 2) as u8)
}

/// One path that winds inwards, a pixel wide.
pub fn spiral(width: usize, height: usize) -> Picture {
    let mut p = Picture::new("spiral", width, height, |_, _| 0);
    let (mut left, mut top, mut right, mut bottom) = (0isize, 0isize, width as isize - 1, height as isize - 1);
    let (mut x, mut y, mut way) = (0isize, 0isize, 0);
    while left <= right && top <= bottom {
        p.pixels[y as usize * width + x as usize] = 1;
        let (nx, ny) = [(x + 1, y), (x, y + 1), (x - 1, y), (x, y - 1)][way];
        if nx < left || nx > right || ny < top || ny > bottom {
            match way {
                0 => top += 2,
                1 => right -= 2,
                2 => bottom -= 2,
                _ => left += 2,
            }
            way = (way + 1) % 4;
            let (tx, ty) = [(x + 1, y), (x, y + 1), (x - 1, y), (x, y - 1)][way];
            if tx < 0 || ty < 0 || tx >= width as isize || ty >= height as isize || p.pixels[ty as usize * width + tx as usize] == 1 {
                break;
            }
            (x, y) = (tx, ty);
        } else {
            (x, y) = (nx, ny);
        }
    }
    p
}

/// A back with teeth: many entries on the stack at a time.
pub fn comb(width: usize, height: usize, tooth: usize) -> Picture {
    let back = height / 2;
    Picture::new("comb", width, height, |x, y| u8::from(y == back || x % (tooth + 1) == 0))
}

/// Squares in squares.
pub fn rings(width: usize, height: usize) -> Picture {
    Picture::new("rings", width, height, |x, y| u8::from(x.min(y).min(width - 1 - x).min(height - 1 - y) % 2 == 0))
}

/// Corridors with random walls.
pub fn maze(r: &mut Random, width: usize, height: usize) -> Picture {
    let mut p = Picture::new("maze", width, height, |x, y| u8::from(x % 2 == 0 || y % 2 == 0));
    for y in (0..height).step_by(2) {
        for x in (0..width).step_by(2) {
            let (wx, wy) = if r.one_in(2) { (x + 1, y) } else { (x, y + 1) };
            if wx < width && wy < height && r.below(3) > 0 {
                p.pixels[wy * width + wx] = 0;
            }
        }
    }
    p
}

/// A picture that claims and lookups have painted: whole pieces in bytes from 1 to 255, and now and then a stray byte.
pub fn painted(r: &mut Random, width: usize, height: usize) -> Picture {
    let mut p = bitmap(r, width, height);
    let colours = [1, 2, 3, 4, 5, 6, 100, 255];
    let (few, block) = (r.below(3) + 2, r.below(9) + 1);
    let shades: Vec<u8> = (0..few).map(|_| r.pick(&colours)).collect();
    let across = width / block + 1;
    let picks: Vec<u8> = (0..across * (height / block + 1)).map(|_| r.pick(&shades)).collect();
    for y in 0..height {
        for x in 0..width {
            let at = &mut p.pixels[y * width + x];
            if *at != 0 {
                *at = picks[y / block * across + x / block];
            }
            if r.one_in(200) {
                *at = r.pick(&[0, 1, 2, 3, 4, 7, 200]);
            }
        }
    }
    p
}

// ---------------------------------------------------------------- symbols

/// Where alignment patterns stand in a symbol of this version (ISO/IEC 18004, Annex E).
pub fn alignment(version: usize) -> Vec<usize> {
    if version < 2 {
        return vec![];
    }
    let n = version / 7 + 2;
    let apart = if version == 32 { 26 } else { 2 * ((4 * version + 2 * n + 1) / (2 * n - 2)) };
    let mut places: Vec<usize> = (0..n - 1).map(|k| 4 * version + 10 - k * apart).collect();
    places.push(6);
    places.reverse();
    places
}

/// A symbol's modules, true for black: marks, timing and alignment patterns, and random data.
pub fn symbol(r: &mut Random, version: usize) -> (usize, Vec<bool>) {
    let size = 17 + 4 * version;
    let mut m: Vec<bool> = (0..size * size).map(|_| r.one_in(2)).collect();
    for i in 0..size {
        m[6 * size + i] = i % 2 == 0;
        m[i * size + 6] = i % 2 == 0;
    }
    let ring = |m: &mut Vec<bool>, cx: usize, cy: usize, reach: usize, white: &[usize]| {
        for dy in 0..=2 * reach {
            for dx in 0..=2 * reach {
                let (x, y) = ((cx + dx).wrapping_sub(reach), (cy + dy).wrapping_sub(reach));
                if x < size && y < size {
                    m[y * size + x] = !white.contains(&dx.abs_diff(reach).max(dy.abs_diff(reach)));
                }
            }
        }
    };
    let places = alignment(version);
    for &y in &places {
        for &x in &places {
            if !((x == 6 && y == 6) || (x == 6 && y == size - 7) || (x == size - 7 && y == 6)) {
                ring(&mut m, x, y, 2, &[1]);
            }
        }
    }
    for (x, y) in [(3, 3), (size - 4, 3), (3, size - 4)] {
        ring(&mut m, x, y, 4, &[2, 4]);
    }
    (size, m)
}

/// How a symbol is seen: its side as a part of the picture's, its turn, the pull of its perspective, and one pixel in how many is flipped (0: none).
pub struct View {
    pub side: f64,
    pub turn: f64,
    pub pull: (f64, f64),
    pub noise: usize,
}

/// A symbol in the middle of a white picture.
pub fn viewed(r: &mut Random, (size, modules): &(usize, Vec<bool>), width: usize, height: usize, view: &View) -> Picture {
    let size = *size;
    let (cx, cy) = (width as f64 / 2.0, height as f64 / 2.0);
    let scale = size as f64 / (view.side * width.min(height) as f64);
    Picture::new("slate", width, height, |x, y| {
        let (dx, dy) = (x as f64 + 0.5 - cx, y as f64 + 0.5 - cy);
        let den = 1.0 + view.pull.0 * dx + view.pull.1 * dy;
        let (c, s) = (view.turn.cos() / den, view.turn.sin() / den);
        let (u, v) = ((c * dx + s * dy) * scale + size as f64 / 2.0, (c * dy - s * dx) * scale + size as f64 / 2.0);
        let inside = u >= 0.0 && v >= 0.0 && u < size as f64 && v < size as f64;
        let black = inside && modules[v as usize * size + u as usize];
        u8::from(black != (view.noise > 0 && r.one_in(view.noise)))
    })
}

/// A symbol on white, turned and pulled a little, where there is room for one; with some pixels flipped now and then.
pub fn slate(r: &mut Random, width: usize, height: usize) -> Picture {
    let version = r.below(10) + 1;
    let symbol = symbol(r, version);
    let side = r.within(0.5, 0.95);
    let turn = if r.one_in(2) { 0.0 } else { r.within(0.0, 6.3) };
    let pull = (r.within(-0.0004, 0.0004), r.within(-0.0004, 0.0004));
    let noise = if r.one_in(3) { r.below(300) + 20 } else { 0 };
    let shrink = if turn == 0.0 { 1.0 } else { 0.7 };
    viewed(r, &symbol, width, height, &View { side: side * shrink, turn, pull, noise })
}
