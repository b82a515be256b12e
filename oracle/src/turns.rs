//! Both sides by turns: what is measured, and how it is printed.
use std::hint::black_box;
use std::time::Duration;

/// The middle of several turns on each side, printed as a line of a table.
pub struct Table {
    turns: usize,
}

impl Table {
    pub fn new(turns: usize) -> Table {
        println!("The middle of {turns} turns a side, by turns in one process: the processor's time, both built for release.\n");
        println!("| operation | input | Rust | ours | ours / Rust |\n|---|---|---|---|---|");
        Table { turns }
    }

    pub fn line(&self, operation: &str, input: &str, mut theirs: impl FnMut() -> Duration, mut ours: impl FnMut() -> Duration) {
        let (mut a, mut b) = (vec![], vec![]);
        for turn in 0..=self.turns {
            let (x, y) = if turn % 2 == 0 {
                let x = theirs();
                (x, ours())
            } else {
                let y = ours();
                (theirs(), y)
            };
            if turn > 0 {
                a.push(x);
                b.push(y);
            }
        }
        a.sort();
        b.sort();
        let (a, b) = (a[a.len() / 2], b[b.len() / 2]);
        println!("| {operation} | {input} | {} | {} | {:.2} |", told(a), told(b), b.as_secs_f64() / a.as_secs_f64());
    }
}

fn told(t: Duration) -> String {
    let ns = t.as_nanos();
    match ns {
        0..=9_999 => format!("{ns} ns"),
        10_000..=9_999_999 => format!("{} us", ns / 1000),
        _ => format!("{} ms", ns / 1_000_000),
    }
}

/// The processor's time that f takes: what else runs on the machine isn't counted.
pub fn timed<T>(f: impl FnOnce() -> T) -> Duration {
    let start = thread_time();
    black_box(f());
    thread_time() - start
}

#[repr(C)]
struct Timespec {
    seconds: i64,
    nanoseconds: i64,
}

extern "C" {
    fn clock_gettime(clock: i32, time: *mut Timespec) -> i32;
}

fn thread_time() -> Duration {
    const CLOCK_THREAD_CPUTIME_ID: i32 = 3;
    let mut t = Timespec { seconds: 0, nanoseconds: 0 };
    unsafe { clock_gettime(CLOCK_THREAD_CPUTIME_ID, &mut t) };
    Duration::new(t.seconds as u64, t.nanoseconds as u32)
}
