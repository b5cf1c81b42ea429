//! The table store: up to 16 versions of a key, in memory of 64 to 1,024 records that a caller lends.

use crate::account::Reading;
use crate::fault::Refusal;
use crate::store::{Store, issue};
use crate::write_set::WriteSet;
use crate::{KEYS, LEAST_RECORDS, MOST_RECORDS};

#[derive(Clone, Copy, Default, PartialEq, Eq, Debug)]
#[repr(C)]
pub struct Record {
    pub timestamp: u64,
    pub value: u32,
    pub key: u8,
}

const DEPTH: u8 = 16;

/// The kept versions lie from the start by timestamp, then key, and zeros after them. In unfit memory, which is left alone,
/// each key has its first version.
pub struct Table<'a> {
    memory: &'a mut [Record],
    kept: usize,
    last: u64,
    /// How many versions of each key are kept.
    counts: [u8; KEYS as usize],
}

fn is_fit(memory: &[Record]) -> bool {
    (LEAST_RECORDS..=MOST_RECORDS).contains(&memory.len())
}

impl<'a> Table<'a> {
    pub fn check(memory: &[Record]) -> Result<(), Refusal> {
        if is_fit(memory) { Ok(()) } else { Err(Refusal::UnfitMemory) }
    }

    pub fn new(memory: &'a mut [Record]) -> Self {
        let mut kept = 0;
        if is_fit(memory) {
            memory.fill(Record::default());
            for (key, record) in (0..KEYS).zip(&mut *memory) {
                record.key = key;
            }
            kept = usize::from(KEYS);
        }
        Self { memory, kept, last: 0, counts: [1; KEYS as usize] }
    }

    pub fn records(&self) -> &[Record] {
        self.memory
    }

    /// Drops the oldest record of each of these keys, of which each has one, and moves the runs between them down.
    fn drop_oldest(&mut self, mut keys: u64) {
        let kept = &mut self.memory[..self.kept];
        let (mut to, mut run) = (0, 0);
        while keys != 0 {
            let Some(size) = kept[run..].iter().position(|record| keys >> (record.key & 63) & 1 == 1) else {
                break;
            };
            let place = run + size;
            keys &= !(1 << (kept[place].key & 63));
            if to != run {
                kept.copy_within(run..place, to);
            }
            to += size;
            run = place + 1;
        }
        kept.copy_within(run.., to);
        self.kept -= run - to;
    }
}

/// How many records are compared before a branch.
const AT_ONCE: usize = 8;

fn have(records: &[Record; AT_ONCE], key: u8) -> bool {
    records.iter().fold(false, |found, record| found | (record.key == key))
}

/// The last record of the key.
fn last_of(records: &[Record], key: u8) -> Option<&Record> {
    let (start, chunks) = records.as_rchunks();
    let chunk = chunks.iter().rev().find(|chunk| have(chunk, key));
    chunk.map_or(start, |chunk| chunk.as_slice()).iter().rev().find(|record| record.key == key)
}

/// The first record of the key.
fn first_of(records: &[Record], key: u8) -> Option<&Record> {
    let (chunks, end) = records.as_chunks();
    let chunk = chunks.iter().find(|chunk| have(chunk, key));
    chunk.map_or(end, |chunk| chunk.as_slice()).iter().find(|record| record.key == key)
}

impl Store for Table<'_> {
    fn version(&self, key: u8, time: u64) -> Result<Reading, Refusal> {
        let kept = &self.memory[..self.kept];
        if kept.is_empty() {
            return Ok(Reading { value: 0, timestamp: 0, promise: self.last });
        }
        if time >= self.last {
            let newest = last_of(kept, key).ok_or(Refusal::VersionGone)?;
            return Ok(Reading { value: newest.value, timestamp: newest.timestamp, promise: self.last });
        }
        let (until, after) = kept.split_at(kept.partition_point(|record| record.timestamp <= time));
        let newest = last_of(until, key).ok_or(Refusal::VersionGone)?;
        let next = first_of(after, key);
        let promise = next.map_or(self.last, |record| record.timestamp - 1);
        Ok(Reading { value: newest.value, timestamp: newest.timestamp, promise })
    }

    fn commit(&mut self, clock: u64, writes: &WriteSet) -> Result<u64, Refusal> {
        let timestamp = issue(clock, self.last)?;
        let mut full = 0;
        let mut dropped = 0;
        for write in writes.iter() {
            if self.counts[usize::from(write.key)] == DEPTH {
                full |= 1 << write.key;
                dropped += 1;
            }
        }
        let room = if self.kept == 0 { 0 } else { self.memory.len() };
        if self.kept - dropped.min(self.kept) + writes.len() > room {
            return Err(Refusal::CapacityExceeded);
        }
        if full != 0 {
            self.drop_oldest(full);
        }
        for (write, record) in writes.iter().zip(&mut self.memory[self.kept..]) {
            *record = Record { key: write.key, timestamp, value: write.value };
            let count = &mut self.counts[usize::from(write.key)];
            *count = (*count + 1).min(DEPTH);
        }
        self.kept += writes.len();
        self.last = timestamp;
        Ok(timestamp)
    }

    fn prune(&mut self, horizon: u64) {
        let horizon = horizon.min(self.last);
        let until = self.memory[..self.kept].partition_point(|record| record.timestamp <= horizon);
        // from the newest end: the first record of a key stays, and those that stay move up
        let mut seen: u64 = 0;
        let mut to = until;
        for place in (0..until).rev() {
            let record = self.memory[place];
            let key = record.key & 63;
            if seen >> key & 1 == 0 {
                seen |= 1 << key;
                to -= 1;
                if to != place {
                    self.memory[to] = record;
                }
            } else {
                self.counts[usize::from(key)] -= 1;
            }
        }
        if to != 0 {
            self.memory.copy_within(to..self.kept, 0);
            self.memory[self.kept - to..self.kept].fill(Record::default());
            self.kept -= to;
        }
    }
}
