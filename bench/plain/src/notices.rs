//! Notices that wait.

use crate::cache::Cache;
use crate::write_set::WriteSet;
use crate::{WAITING_NOTICES, WORKERS};

/// A notice's timestamp is its promise too.
#[derive(Clone, Copy, Default)]
pub struct Notice {
    pub worker: u8,
    pub key: u8,
    pub value: u32,
    pub timestamp: u64,
}

pub struct Notices {
    waiting: [Notice; WAITING_NOTICES],
    len: usize,
    lost: u64,
}

impl Default for Notices {
    fn default() -> Self {
        Self { waiting: [Notice::default(); WAITING_NOTICES], len: 0, lost: 0 }
    }
}

impl Notices {
    pub fn count(&self) -> (usize, u64) {
        (self.len, self.lost)
    }

    pub fn get(&self, position: u64) -> Option<Notice> {
        let position = usize::try_from(position).ok()?;
        self.waiting[..self.len].get(position).copied()
    }

    pub fn discard(&mut self, position: u64) -> bool {
        if position >= self.len as u64 {
            return false;
        }
        self.waiting.copy_within(position as usize + 1..self.len, position as usize);
        self.len -= 1;
        true
    }

    fn raise(&mut self, notice: Notice) {
        if let Some(free) = self.waiting.get_mut(self.len) {
            *free = notice;
            self.len += 1;
        } else {
            self.lost = self.lost.saturating_add(1);
        }
    }

    /// One for each write and each worker whose cache has its key.
    pub fn raise_for(&mut self, caches: &[Cache; WORKERS as usize], writes: &WriteSet, timestamp: u64) {
        for write in writes.iter() {
            for (worker, cache) in (0..).zip(caches) {
                if cache.holds(write.key) {
                    self.raise(Notice { worker, key: write.key, value: write.value, timestamp });
                }
            }
        }
    }
}
