//! What is read, written and accounted for.

use crate::OPEN_END;

/// A version's value, its timestamp, and the last time at which it is known to be current.
#[derive(Clone, Copy, Default, PartialEq, Eq, Debug)]
pub struct Reading {
    pub value: u32,
    pub timestamp: u64,
    pub promise: u64,
}

/// A reading that a chain made.
#[derive(Clone, Copy, Default, PartialEq, Eq, Debug)]
pub struct ChainReading {
    pub worker: u8,
    pub key: u8,
    pub value: u32,
    pub timestamp: u64,
    pub promise: u64,
}

#[derive(Clone, Copy, Default, PartialEq, Eq, Debug)]
pub struct Write {
    pub key: u8,
    pub value: u32,
}

/// An interval of times, both ends included.
#[derive(Clone, Copy, PartialEq, Eq, Debug)]
pub struct Interval {
    pub low: u64,
    pub high: u64,
}

impl Interval {
    pub const ALL_TIMES: Self = Self { low: 0, high: OPEN_END };

    pub fn meets(self, reading: &Reading) -> bool {
        reading.promise >= self.low && reading.timestamp <= self.high
    }

    pub fn narrow(self, low: u64, high: u64) -> Self {
        Self { low: self.low.max(low), high: self.high.min(high) }
    }
}

/// An account's five numbers.
#[derive(Clone, Copy, PartialEq, Eq, Debug)]
pub struct AccountHead {
    pub interval: Interval,
    pub timestamp: u64,
    pub readings: usize,
    pub writes: usize,
}
