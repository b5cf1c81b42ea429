//! A chain: its legs by their numbers, and its readings in order.

use crate::account::{AccountHead, ChainReading, Interval, Write};
use crate::cache::Cache;
use crate::fault::{Fault, Layer, Named, Refusal};
use crate::store::Store;
use crate::write_set::WriteSet;
use crate::{CHAIN_READINGS, LEGS, WORKERS};

#[derive(Clone, Copy)]
pub struct Leg {
    pub worker: u8,
    pub interval: Interval,
    pub writes: WriteSet,
    /// A bit for each key that the leg has read itself.
    read: u64,
}

impl Leg {
    const NEW: Self = Self { worker: 0, interval: Interval::ALL_TIMES, writes: WriteSet::EMPTY, read: 0 };
}

/// A place for a chain. It is free where no leg is open.
pub struct Chain {
    /// A bit for each open leg.
    open: u16,
    opened: u8,
    read: u8,
    legs: [Leg; LEGS as usize],
    readings: [ChainReading; CHAIN_READINGS],
    read_by: [u8; CHAIN_READINGS],
}

impl Chain {
    pub const FREE: Self = Self {
        open: 0,
        opened: 0,
        read: 0,
        legs: [Leg::NEW; LEGS as usize],
        readings: [ChainReading { worker: 0, key: 0, value: 0, timestamp: 0, promise: 0 }; CHAIN_READINGS],
        read_by: [0; CHAIN_READINGS],
    };

    pub fn is_free(&self) -> bool {
        self.open == 0
    }

    pub fn begin(&mut self, worker: u8) {
        self.open = 1;
        self.opened = 1;
        self.read = 0;
        self.legs[0] = Leg { worker, ..Leg::NEW };
    }

    pub fn free(&mut self) {
        self.open = 0;
    }

    /// The number is below 16.
    fn is_open(&self, leg: u8) -> bool {
        self.open >> leg & 1 == 1
    }

    fn check_open(&self, named: Named) -> Result<(), Fault> {
        if self.is_open(named.leg) { Ok(()) } else { Err(named.refused(Refusal::NotOpen)) }
    }

    fn open_next(&mut self, worker: u8, from: Leg) -> u8 {
        let number = self.opened;
        self.legs[usize::from(number & 15)] = Leg { worker, read: 0, ..from };
        self.open |= 1 << number;
        self.opened = number + 1;
        number
    }

    fn end(&mut self, leg: u8) {
        self.open &= !(1 << leg);
    }

    pub fn hand(&mut self, named: Named, worker: u8) -> Result<u8, Fault> {
        self.check_open(named)?;
        if self.opened >= LEGS {
            return Err(named.refused(Refusal::TooManyLegs));
        }
        self.end(named.leg);
        Ok(self.open_next(worker, self.legs[usize::from(named.leg)]))
    }

    pub fn fork(&mut self, named: Named, first: u8, second: u8) -> Result<(u8, u8), Fault> {
        self.check_open(named)?;
        if self.opened >= LEGS - 1 {
            return Err(named.refused(Refusal::TooManyLegs));
        }
        self.end(named.leg);
        let leg = usize::from(named.leg);
        Ok((self.open_next(first, self.legs[leg]), self.open_next(second, self.legs[leg])))
    }

    pub fn join(&mut self, named: Named, second: u8, worker: u8) -> Result<u8, Fault> {
        self.check_open(named)?;
        if !self.is_open(second) {
            return Err(named.refused(Refusal::NotOpen));
        }
        if named.leg == second {
            return Err(named.refused(Refusal::SameLeg));
        }
        if self.opened >= LEGS {
            return Err(named.refused(Refusal::TooManyLegs));
        }
        let (one, other) = (&self.legs[usize::from(named.leg)], &self.legs[usize::from(second)]);
        let interval = one.interval.narrow(other.interval.low, other.interval.high);
        if interval.low > interval.high {
            return Err(named.refused(Refusal::IntervalsApart));
        }
        let writes = one.writes.join(&other.writes).map_err(|refusal| named.refused(refusal))?;
        self.end(named.leg);
        self.end(second);
        Ok(self.open_next(worker, Leg { worker, interval, writes, read: 0 }))
    }

    pub fn write(&mut self, named: Named, value: u32) -> Result<(), Fault> {
        self.check_open(named)?;
        let writes = &mut self.legs[usize::from(named.leg)].writes;
        writes.write(named.key, value).map_err(|refusal| named.refused(refusal))
    }

    pub fn read<S: Store>(&mut self, named: Named, caches: &mut [Cache; WORKERS as usize], store: &S) -> Result<u32, Fault> {
        self.check_open(named)?;
        let Named { leg: number, key, .. } = named;
        let leg = &mut self.legs[usize::from(number)];
        if let Some(value) = leg.writes.value_of(key) {
            return Ok(value);
        }
        let read = usize::from(self.read);
        if leg.read >> key & 1 == 1 {
            let own =
                self.readings[..read].iter().zip(&self.read_by).find(|&(reading, &by)| reading.key == key && by == number);
            if let Some((reading, _)) = own {
                return Ok(reading.value);
            }
        }
        if read == CHAIN_READINGS {
            return Err(named.refused(Refusal::ReadingsFull));
        }
        let worker = leg.worker;
        let interval = leg.interval;
        let reading = caches[usize::from(worker)]
            .read(key, interval, || store.version(key, interval.high))
            .map_err(|refusal| named.refused_by(Layer::Store, refusal))?;
        leg.interval = interval.narrow(reading.timestamp, reading.promise);
        leg.read |= 1 << key;
        self.readings[read] =
            ChainReading { worker, key, value: reading.value, timestamp: reading.timestamp, promise: reading.promise };
        self.read_by[read] = number;
        self.read += 1;
        Ok(reading.value)
    }

    /// The leg that commits into lists of these lengths.
    pub fn committing(&self, named: Named, readings: usize, writes: usize) -> Result<&Leg, Fault> {
        self.check_open(named)?;
        if self.open != 1 << named.leg {
            return Err(named.refused(Refusal::AnotherLegOpen));
        }
        let leg = &self.legs[usize::from(named.leg)];
        if readings < usize::from(self.read) || writes < leg.writes.len() {
            return Err(named.refused(Refusal::TooShort));
        }
        Ok(leg)
    }

    /// The lists have room for the account.
    pub fn account(&self, leg: &Leg, timestamp: u64, readings: &mut [ChainReading], writes: &mut [Write]) -> AccountHead {
        let read = usize::from(self.read);
        readings[..read].copy_from_slice(&self.readings[..read]);
        for (room, write) in writes.iter_mut().zip(leg.writes.iter()) {
            *room = write;
        }
        AccountHead { interval: leg.interval, timestamp, readings: read, writes: leg.writes.len() }
    }
}
