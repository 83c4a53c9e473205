//! Tables of rows that are found by a key. Rows are added and never taken away, as groups,
//! symbols and places are not given up during the day.
//!
//! Rows stand in order of arrival. Beside them is a hash index with one word a slot: 32
//! bits of hash above the number of the row. The hash is keyed once a process, so that a
//! hostile state cannot choose keys that fall together.

use std::hash::{BuildHasher, RandomState};
use std::ops::{Deref, DerefMut};
use std::sync::OnceLock;

/// Three words that tell a row from all others of its table.
pub type Key = [u64; 3];

/// A row that knows its key. The key of a row that stands in a table must not change.
pub trait Keyed {
    /// The key.
    fn key(&self) -> Key;
}

/// Where a key that is not in the table would stand.
pub struct Free {
    hash: u32,
    slot: usize,
}

/// Rows in order of arrival, found by key.
#[derive(Clone)]
pub struct Table<T> {
    rows: Vec<T>,
    /// A power of two of them, never more than half in use.
    slots: Vec<u64>,
    seed: [u64; 2],
}

const EMPTY: u64 = u64::MAX;

fn seed() -> [u64; 2] {
    static SEED: OnceLock<[u64; 2]> = OnceLock::new();
    *SEED.get_or_init(|| {
        let keys = RandomState::new();
        [keys.hash_one(0), keys.hash_one(1)]
    })
}

/// The two halves of the product, folded together.
fn fold(a: u64, b: u64) -> u64 {
    let product = u128::from(a) * u128::from(b);
    (product as u64) ^ (product >> 64) as u64
}

impl<T: Keyed> Table<T> {
    /// An empty table that takes this many rows without growing.
    pub fn new(rows: usize) -> Table<T> {
        Table {
            rows: Vec::with_capacity(rows),
            slots: vec![EMPTY; (2 * rows).next_power_of_two().max(8)],
            seed: seed(),
        }
    }

    /// The row with this key, or where it would stand.
    #[inline]
    pub fn find(&self, key: Key) -> Result<usize, Free> {
        let half = fold(key[0] ^ self.seed[0], key[1] ^ self.seed[1]);
        let hash = fold(half ^ key[2], self.seed[0] | 1) as u32;
        let mask = self.slots.len() - 1;
        let mut slot = hash as usize & mask;
        loop {
            let word = self.slots[slot];
            if word == EMPTY {
                return Err(Free { hash, slot });
            }
            let row = word as u32 as usize;
            if (word >> 32) as u32 == hash && self.rows[row].key() == key {
                return Ok(row);
            }
            slot = (slot + 1) & mask;
        }
    }

    /// Adds a row where `find` has just said that its key would stand.
    #[inline]
    pub fn add(&mut self, free: Free, row: T) {
        self.slots[free.slot] = u64::from(free.hash) << 32 | self.rows.len() as u64;
        self.rows.push(row);
        if 2 * self.rows.len() > self.slots.len() {
            self.grow();
        }
    }

    #[cold]
    fn grow(&mut self) {
        let wider = vec![EMPTY; 2 * self.slots.len()];
        let mask = wider.len() - 1;
        let used = std::mem::replace(&mut self.slots, wider).into_iter().filter(|&w| w != EMPTY);
        for word in used {
            let mut slot = (word >> 32) as usize & mask;
            while self.slots[slot] != EMPTY {
                slot = (slot + 1) & mask;
            }
            self.slots[slot] = word;
        }
    }
}

impl<T> Deref for Table<T> {
    type Target = [T];

    fn deref(&self) -> &[T] {
        &self.rows
    }
}

impl<T> DerefMut for Table<T> {
    fn deref_mut(&mut self) -> &mut [T] {
        &mut self.rows
    }
}
