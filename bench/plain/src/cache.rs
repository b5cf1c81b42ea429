//! A worker's cache.

use crate::CACHE_KEYS;
use crate::account::{Interval, Reading};

/// At most eight entries, one for a key. An entry stays where it lies; `used` says when it was used.
#[derive(Clone, Copy)]
pub struct Cache {
    held: u64,
    len: usize,
    uses: u64,
    keys: [u8; CACHE_KEYS],
    used: [u64; CACHE_KEYS],
    readings: [Reading; CACHE_KEYS],
}

impl Cache {
    pub const EMPTY: Self = Self {
        held: 0,
        len: 0,
        uses: 0,
        keys: [u8::MAX; CACHE_KEYS],
        used: [0; CACHE_KEYS],
        readings: [Reading { value: 0, timestamp: 0, promise: 0 }; CACHE_KEYS],
    };

    /// The key is below 64.
    pub fn holds(&self, key: u8) -> bool {
        self.held >> key & 1 == 1
    }

    fn place_of(&self, key: u8) -> Option<usize> {
        if !self.holds(key) {
            return None;
        }
        self.keys.iter().position(|&held| held == key)
    }

    fn use_now(&mut self, place: usize) {
        self.uses += 1;
        self.used[place] = self.uses;
    }

    /// The entry that answers a leg with this interval, which becomes the latest used; else what is asked of `ask`, as far as
    /// the cache keeps it.
    pub fn read<E>(&mut self, key: u8, interval: Interval, ask: impl FnOnce() -> Result<Reading, E>) -> Result<Reading, E> {
        if let Some(place) = self.place_of(key) {
            let entry = self.readings[place];
            if interval.meets(&entry) {
                self.use_now(place);
                return Ok(entry);
            }
            let answer = ask()?;
            if entry.timestamp <= interval.high {
                self.readings[place] = answer;
                self.use_now(place);
            }
            Ok(answer)
        } else {
            let answer = ask()?;
            self.add(key, answer);
            Ok(answer)
        }
    }

    /// Adds an entry of a key that has none; a ninth takes the place of the one used longest ago.
    fn add(&mut self, key: u8, reading: Reading) {
        let place = if self.len < CACHE_KEYS {
            self.len += 1;
            self.len - 1
        } else {
            let oldest = (0..CACHE_KEYS).min_by_key(|&i| self.used[i]).unwrap_or(0);
            self.held &= !(1 << self.keys[oldest]);
            oldest
        };
        self.held |= 1 << key;
        self.keys[place] = key;
        self.readings[place] = reading;
        self.use_now(place);
    }

    /// Shows a notice to the entry of its key.
    pub fn take_notice(&mut self, key: u8, value: u32, timestamp: u64) {
        if let Some(place) = self.place_of(key) {
            let entry = &mut self.readings[place];
            if entry.timestamp < timestamp {
                *entry = Reading { value, timestamp, promise: timestamp };
            } else if entry.timestamp == timestamp {
                entry.promise = entry.promise.max(timestamp);
            }
        }
    }
}
