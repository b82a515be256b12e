//! The cache that the Rust uses, over an older edition of the same crate: sizes are not 0 by their type, and bytes are hashed by one product.
use std::hash::{BuildHasherDefault, Hasher};
use std::num::NonZeroUsize;

#[derive(Default)]
pub struct Spread(u64);

impl Hasher for Spread {
    fn finish(&self) -> u64 {
        self.0
    }

    fn write(&mut self, bytes: &[u8]) {
        for b in bytes {
            self.0 = (self.0 ^ u64::from(*b)).wrapping_mul(0x9e37_79b9_7f4a_7c15);
        }
    }
}

pub struct LruCache<K, V>(packaged_lru::LruCache<K, V, BuildHasherDefault<Spread>>);

impl<K: std::hash::Hash + Eq, V> LruCache<K, V> {
    pub fn new(cap: NonZeroUsize) -> Self {
        LruCache(packaged_lru::LruCache::with_hasher(cap.get(), Default::default()))
    }

    pub fn cap(&self) -> NonZeroUsize {
        NonZeroUsize::new(self.0.cap()).unwrap()
    }

    pub fn len(&self) -> usize {
        self.0.len()
    }

    pub fn get(&mut self, k: &K) -> Option<&V> {
        self.0.get(k)
    }

    pub fn put(&mut self, k: K, v: V) -> Option<V> {
        self.0.put(k, v)
    }

    pub fn pop_lru(&mut self) -> Option<(K, V)> {
        self.0.pop_lru()
    }

    pub fn iter(&self) -> impl Iterator<Item = (&K, &V)> {
        self.0.iter()
    }
}
