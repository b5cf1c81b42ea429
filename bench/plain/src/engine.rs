//! The engine: chains at four places, workers' caches and notices over a store.

use crate::account::{AccountHead, ChainReading, Write};
use crate::cache::Cache;
use crate::chain::Chain;
use crate::fault::{Fault, Layer, NOT_NAMED, Named, Refusal};
use crate::notices::Notices;
use crate::store::Store;
use crate::{KEYS, LEGS, PLACES, WORKERS};

pub struct Engine<S> {
    chains: [Chain; PLACES as usize],
    caches: [Cache; WORKERS as usize],
    notices: Notices,
    store: S,
}

const NO_SUCH_NOTICE: Fault =
    Fault { refusal: Refusal::NoSuchNotice, layer: Layer::Notices, place: NOT_NAMED, leg: NOT_NAMED, key: NOT_NAMED };

fn check(named: Named, in_range: bool) -> Result<(), Fault> {
    if in_range { Ok(()) } else { Err(named.refused(Refusal::OutOfRange)) }
}

impl<S: Store> Engine<S> {
    pub fn new(store: S) -> Self {
        Self {
            chains: [Chain::FREE; PLACES as usize],
            caches: [Cache::EMPTY; WORKERS as usize],
            notices: Notices::default(),
            store,
        }
    }

    pub fn store(&self) -> &S {
        &self.store
    }

    pub fn begin(&mut self, place: u8, worker: u8) -> Result<u8, Fault> {
        let named = Named::place(place);
        check(named, place < PLACES && worker < WORKERS)?;
        let chain = &mut self.chains[usize::from(place)];
        if !chain.is_free() {
            return Err(named.refused(Refusal::PlaceOccupied));
        }
        chain.begin(worker);
        Ok(0)
    }

    pub fn hand(&mut self, place: u8, leg: u8, worker: u8) -> Result<u8, Fault> {
        let named = Named::leg(place, leg);
        check(named, place < PLACES && leg < LEGS && worker < WORKERS)?;
        self.chains[usize::from(place)].hand(named, worker)
    }

    pub fn fork(&mut self, place: u8, leg: u8, first: u8, second: u8) -> Result<(u8, u8), Fault> {
        let named = Named::leg(place, leg);
        check(named, place < PLACES && leg < LEGS && first < WORKERS && second < WORKERS)?;
        self.chains[usize::from(place)].fork(named, first, second)
    }

    pub fn join(&mut self, place: u8, leg: u8, second: u8, worker: u8) -> Result<u8, Fault> {
        let named = Named::leg(place, leg);
        check(named, place < PLACES && leg < LEGS && second < LEGS && worker < WORKERS)?;
        self.chains[usize::from(place)].join(named, second, worker)
    }

    pub fn read(&mut self, place: u8, leg: u8, key: u8) -> Result<u32, Fault> {
        let named = Named { place, leg, key };
        check(named, place < PLACES && leg < LEGS && key < KEYS)?;
        self.chains[usize::from(place)].read(named, &mut self.caches, &self.store)
    }

    pub fn write(&mut self, place: u8, leg: u8, key: u8, value: u32) -> Result<(), Fault> {
        let named = Named { place, leg, key };
        check(named, place < PLACES && leg < LEGS && key < KEYS)?;
        self.chains[usize::from(place)].write(named, value)
    }

    pub fn commit(
        &mut self,
        place: u8,
        leg: u8,
        clock: u64,
        readings: &mut [ChainReading],
        writes: &mut [Write],
    ) -> Result<AccountHead, Fault> {
        self.commit_into(place, leg, clock, (readings.len(), writes.len()), readings, writes)
    }

    /// Commits into lists that count as having this room; each has it, or room for all that an account can have.
    pub fn commit_into(
        &mut self,
        place: u8,
        leg: u8,
        clock: u64,
        room: (usize, usize),
        readings: &mut [ChainReading],
        writes: &mut [Write],
    ) -> Result<AccountHead, Fault> {
        let named = Named::leg(place, leg);
        check(named, place < PLACES && leg < LEGS)?;
        let chain = &mut self.chains[usize::from(place)];
        let committing = chain.committing(named, room.0, room.1)?;
        let mut timestamp = 0;
        if !committing.writes.is_empty() {
            timestamp =
                self.store.commit(clock, &committing.writes).map_err(|refusal| named.refused_by(Layer::Store, refusal))?;
            self.notices.raise_for(&self.caches, &committing.writes, timestamp);
        }
        let head = chain.account(committing, timestamp, readings, writes);
        chain.free();
        Ok(head)
    }

    pub fn abandon(&mut self, place: u8) -> Result<(), Fault> {
        let named = Named::place(place);
        check(named, place < PLACES)?;
        let chain = &mut self.chains[usize::from(place)];
        if chain.is_free() {
            return Err(named.refused(Refusal::NotOpen));
        }
        chain.free();
        Ok(())
    }

    pub fn deliver(&mut self, position: u64) -> Result<(), Fault> {
        let notice = self.notices.get(position).ok_or(NO_SUCH_NOTICE)?;
        self.caches[usize::from(notice.worker)].take_notice(notice.key, notice.value, notice.timestamp);
        Ok(())
    }

    pub fn discard(&mut self, position: u64) -> Result<(), Fault> {
        if self.notices.discard(position) { Ok(()) } else { Err(NO_SUCH_NOTICE) }
    }

    pub fn count(&self) -> (usize, u64) {
        self.notices.count()
    }

    pub fn prune(&mut self, horizon: u64) {
        self.store.prune(horizon);
    }
}
