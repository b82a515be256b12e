//! What a comparison counts: agreements by kind, and differences, of which the smallest is kept.
use std::collections::BTreeMap;
use std::panic::{catch_unwind, AssertUnwindSafe};

pub struct Report {
    title: &'static str,
    kinds: BTreeMap<String, u64>,
    differences: u64,
    smallest: Option<(u64, String)>,
}

impl Report {
    pub fn new(title: &'static str) -> Report {
        Report { title, kinds: BTreeMap::new(), differences: 0, smallest: None }
    }

    /// One case, of this kind, on which both sides agree.
    pub fn agree(&mut self, kind: &str) {
        match self.kinds.get_mut(kind) {
            Some(n) => *n += 1,
            None => {
                self.kinds.insert(kind.to_string(), 1);
            }
        }
    }

    /// One case on which they don't. `size` says how small its input is.
    pub fn differ(&mut self, size: u64, told: impl FnOnce() -> String) {
        self.differences += 1;
        if self.smallest.as_ref().map_or(true, |(s, _)| size < *s) {
            self.smallest = Some((size, told()));
        }
    }

    /// A case: agreed where `same`, and a difference otherwise.
    pub fn case(&mut self, same: bool, kind: &str, size: u64, told: impl FnOnce() -> String) {
        if same {
            self.agree(kind)
        } else {
            self.differ(size, told)
        }
    }

    pub fn cases(&self) -> u64 {
        self.kinds.values().sum::<u64>() + self.differences
    }

    /// Prints the counts in one line, and what else there is to say. Whether there was no difference.
    pub fn line(self, more: &str) -> bool {
        let kinds: Vec<String> = self.kinds.iter().map(|(kind, n)| format!("{kind} {n}")).collect();
        println!("{}: {} cases, {} differences; {}; {more}", self.title, self.cases(), self.differences, kinds.join(", "));
        self.close_differences()
    }

    /// Prints the counts. Whether there was no difference.
    pub fn close(self) -> bool {
        println!("{}: {} cases, {} differences", self.title, self.cases(), self.differences);
        for (kind, n) in &self.kinds {
            println!("    {n:>12}  {kind}");
        }
        self.close_differences()
    }

    /// Prints the smallest difference. Whether there was none.
    fn close_differences(self) -> bool {
        if let Some((_, told)) = &self.smallest {
            println!("    the smallest difference:\n{told}");
        }
        self.differences == 0
    }
}

/// What the Rust answers, or nothing where it panics.
pub fn unless_panic<T>(f: impl FnOnce() -> T) -> Option<T> {
    catch_unwind(AssertUnwindSafe(f)).ok()
}

/// Whether two floats have the same bits, or are both NaN.
pub fn same_float(a: f64, b: f64) -> bool {
    a.to_bits() == b.to_bits() || (a.is_nan() && b.is_nan())
}
