//! What an engine asks of a store, and the store that keeps the newest version of each key.

use crate::account::Reading;
use crate::fault::Refusal;
use crate::write_set::WriteSet;
use crate::{KEYS, OPEN_END};

pub trait Store {
    /// The newest kept version of the key, which is below 64, that is not later than the time.
    fn version(&self, key: u8, time: u64) -> Result<Reading, Refusal>;

    /// Gives each written key a version at one new timestamp. There is at least one write.
    fn commit(&mut self, clock: u64, writes: &WriteSet) -> Result<u64, Refusal>;

    /// Drops of each key what is older than its newest version that is above neither the horizon nor the last timestamp.
    fn prune(&mut self, horizon: u64);
}

/// The timestamp of a commit.
pub fn issue(clock: u64, last: u64) -> Result<u64, Refusal> {
    if clock >= OPEN_END {
        Err(Refusal::ClockTooHigh)
    } else if last == OPEN_END - 1 {
        Err(Refusal::NoTimeLeft)
    } else {
        Ok(clock.max(last + 1))
    }
}

#[derive(Clone, Copy, Default)]
struct Version {
    value: u32,
    timestamp: u64,
}

pub struct Newest {
    last: u64,
    versions: [Version; KEYS as usize],
}

impl Default for Newest {
    fn default() -> Self {
        Self { last: 0, versions: [Version::default(); KEYS as usize] }
    }
}

impl Store for Newest {
    fn version(&self, key: u8, time: u64) -> Result<Reading, Refusal> {
        let Version { value, timestamp } = self.versions[usize::from(key)];
        if timestamp <= time { Ok(Reading { value, timestamp, promise: self.last }) } else { Err(Refusal::VersionGone) }
    }

    fn commit(&mut self, clock: u64, writes: &WriteSet) -> Result<u64, Refusal> {
        let timestamp = issue(clock, self.last)?;
        for write in writes.iter() {
            self.versions[usize::from(write.key)] = Version { value: write.value, timestamp };
        }
        self.last = timestamp;
        Ok(timestamp)
    }

    fn prune(&mut self, _horizon: u64) {}
}
