//! Maps by ID.

use std::collections::HashMap;
use std::hash::{BuildHasherDefault, Hasher};

/// A hasher for IDs: one multiplication.
#[derive(Default)]
pub struct IdHasher(u64);

impl Hasher for IdHasher {
    fn finish(&self) -> u64 {
        self.0
    }

    fn write(&mut self, _: &[u8]) {
        unreachable!("only IDs are hashed")
    }

    fn write_u64(&mut self, id: u64) {
        let product = id.wrapping_mul(0x9E37_79B9_7F4A_7C15);
        self.0 = product ^ (product >> 32);
    }
}

pub type ById<T> = HashMap<u64, T, BuildHasherDefault<IdHasher>>;
