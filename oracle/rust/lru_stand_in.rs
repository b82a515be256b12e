//! A cache with the behaviour that document 01 takes over: `get` and `put` make an entry the newest, `iter` starts at the newest, and
//! the oldest goes when there is no room.
use std::num::NonZeroUsize;

pub struct LruCache<K, V> {
    cap: NonZeroUsize,
    newest_first: Vec<(K, V)>,
}

impl<K: Eq, V> LruCache<K, V> {
    pub fn new(cap: NonZeroUsize) -> Self {
        LruCache { cap, newest_first: Vec::with_capacity(cap.get()) }
    }

    pub fn cap(&self) -> NonZeroUsize {
        self.cap
    }

    pub fn len(&self) -> usize {
        self.newest_first.len()
    }

    fn take(&mut self, k: &K) -> Option<(K, V)> {
        let at = self.newest_first.iter().position(|e| e.0 == *k)?;
        Some(self.newest_first.remove(at))
    }

    pub fn get(&mut self, k: &K) -> Option<&V> {
        let entry = self.take(k)?;
        self.newest_first.insert(0, entry);
        Some(&self.newest_first[0].1)
    }

    pub fn put(&mut self, k: K, v: V) -> Option<V> {
        let old = self.take(&k).map(|e| e.1);
        if self.len() == self.cap.get() {
            self.pop_lru();
        }
        self.newest_first.insert(0, (k, v));
        old
    }

    pub fn pop_lru(&mut self) -> Option<(K, V)> {
        self.newest_first.pop()
    }

    pub fn iter(&self) -> impl Iterator<Item = (&K, &V)> {
        self.newest_first.iter().map(|e| (&e.0, &e.1))
    }
}
