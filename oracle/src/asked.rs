//! What a program is asked: `WHAT [COUNT]` in its arguments, and SEED in its environment.
use std::cell::RefCell;
use std::process::exit;

thread_local! {
    /// What the last panic said.
    static SAID: RefCell<String> = const { RefCell::new(String::new()) };
}

pub struct Asked {
    pub what: String,
    pub seed: u64,
    count: Option<u64>,
}

impl Asked {
    /// Reads what is asked, and says where the random numbers start. From here on a panic prints nothing, and what it says is kept.
    pub fn read() -> Asked {
        let words: Vec<String> = std::env::args().skip(1).collect();
        let seed = std::env::var("SEED").ok().and_then(|s| s.parse().ok()).unwrap_or(1);
        std::panic::set_hook(Box::new(|info| SAID.with(|said| *said.borrow_mut() = info.to_string())));
        println!("seed {seed}");
        Asked { what: words.first().cloned().unwrap_or_default(), seed, count: words.get(1).and_then(|s| s.parse().ok()) }
    }

    /// How many cases, or the usual number of them.
    pub fn count(&self, usual: u64) -> u64 {
        self.count.unwrap_or(usual)
    }

    /// How many turns a side.
    pub fn turns(&self) -> usize {
        self.count(25) as usize
    }

    /// Nothing here goes by that name.
    pub fn unknown(&self) -> ! {
        eprintln!("oracle: nothing here is called '{}'", self.what);
        exit(2)
    }
}

/// Ends the program, with a status other than 0 unless both sides agreed.
pub fn end(agreed: bool) -> ! {
    exit(i32::from(!agreed))
}

/// What the last panic said.
pub fn said() -> String {
    SAID.with(|said| said.borrow().clone())
}
