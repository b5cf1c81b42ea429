//! Lists of calls on a new engine: the same calls and the same sums as those of the crate `bench_calls`.

use crate::account::{AccountHead, ChainReading, Write};
use crate::engine::Engine;
use crate::fault::Fault;
use crate::script::Call;
use crate::store::{Newest, Store};
use crate::table::{Record, Table};
use crate::{CHAIN_READINGS, MOST_RECORDS, WRITE_KEYS};

/// A call by its kind's number: `other` is a second leg or a first worker, `last` a worker or a key, `number` a clock reading, a
/// position or a horizon. The struct of the same name in `bench_calls` has the same fields.
#[repr(C)]
#[derive(Clone, Copy, Default, Debug)]
pub struct NumberedCall {
    pub kind: u8,
    pub place: u8,
    pub leg: u8,
    pub other: u8,
    pub last: u8,
    pub value: u32,
    pub number: u64,
}

pub const BEGIN: u8 = 0;
pub const HAND: u8 = 1;
pub const FORK: u8 = 2;
pub const JOIN: u8 = 3;
pub const READ: u8 = 4;
pub const WRITE: u8 = 5;
pub const COMMIT: u8 = 6;
pub const ABANDON: u8 = 7;
pub const DELIVER: u8 = 8;
pub const DISCARD: u8 = 9;
pub const COUNT: u8 = 10;
pub const PRUNE: u8 = 11;

impl From<NumberedCall> for Call {
    fn from(call: NumberedCall) -> Self {
        let NumberedCall { kind, place, leg, other, last, value, number } = call;
        match kind {
            BEGIN => Call::Begin { place, worker: last },
            HAND => Call::Hand { place, leg, worker: last },
            FORK => Call::Fork { place, leg, first: other, second: last },
            JOIN => Call::Join { place, leg, second: other, worker: last },
            READ => Call::Read { place, leg, key: last },
            WRITE => Call::Write { place, leg, key: last, value },
            COMMIT => Call::Commit { place, leg, clock: number, rooms: None },
            ABANDON => Call::Abandon { place },
            DELIVER => Call::Deliver { position: number },
            DISCARD => Call::Discard { position: number },
            COUNT => Call::Count,
            _ => Call::Prune { horizon: number },
        }
    }
}

/// A commit's rooms are left out.
impl From<Call> for NumberedCall {
    fn from(call: Call) -> Self {
        let none = Self::default();
        match call {
            Call::Begin { place, worker } => Self { kind: BEGIN, place, last: worker, ..none },
            Call::Hand { place, leg, worker } => Self { kind: HAND, place, leg, last: worker, ..none },
            Call::Fork { place, leg, first, second } => Self { kind: FORK, place, leg, other: first, last: second, ..none },
            Call::Join { place, leg, second, worker } => Self { kind: JOIN, place, leg, other: second, last: worker, ..none },
            Call::Read { place, leg, key } => Self { kind: READ, place, leg, last: key, ..none },
            Call::Write { place, leg, key, value } => Self { kind: WRITE, place, leg, last: key, value, ..none },
            Call::Commit { place, leg, clock, .. } => Self { kind: COMMIT, place, leg, number: clock, ..none },
            Call::Abandon { place } => Self { kind: ABANDON, place, ..none },
            Call::Deliver { position } => Self { kind: DELIVER, number: position, ..none },
            Call::Discard { position } => Self { kind: DISCARD, number: position, ..none },
            Call::Count => Self { kind: COUNT, ..none },
            Call::Prune { horizon } => Self { kind: PRUNE, number: horizon, ..none },
        }
    }
}

pub struct Lists {
    pub readings: [ChainReading; CHAIN_READINGS],
    pub writes: [Write; WRITE_KEYS],
}

impl Default for Lists {
    fn default() -> Self {
        Self { readings: [ChainReading::default(); CHAIN_READINGS], writes: [Write::default(); WRITE_KEYS] }
    }
}

#[inline(never)]
pub fn calls_on_table(records: usize, calls: &[NumberedCall]) -> u64 {
    let mut memory = [Record::default(); MOST_RECORDS];
    make_all(&mut Engine::new(Table::new(&mut memory[..records.min(MOST_RECORDS)])), calls)
}

#[inline(never)]
pub fn calls_on_newest(calls: &[NumberedCall]) -> u64 {
    make_all(&mut Engine::new(Newest::default()), calls)
}

fn make_all<S: Store>(engine: &mut Engine<S>, calls: &[NumberedCall]) -> u64 {
    let mut lists = Lists::default();
    let mut sum: u64 = 0;
    for call in calls {
        let answered = make(engine, *call, &mut lists);
        sum = sum.wrapping_add(answered.unwrap_or_else(|fault| u64::from(fault.refusal.number())));
    }
    sum
}

/// Makes the call, and sums the numbers of its answer.
pub fn make<S: Store>(engine: &mut Engine<S>, call: NumberedCall, lists: &mut Lists) -> Result<u64, Fault> {
    let NumberedCall { kind, place, leg, other, last, value, number } = call;
    match kind {
        BEGIN => engine.begin(place, last).map(u64::from),
        HAND => engine.hand(place, leg, last).map(u64::from),
        FORK => engine.fork(place, leg, other, last).map(|(first, second)| u64::from(first) + u64::from(second)),
        JOIN => engine.join(place, leg, other, last).map(u64::from),
        READ => engine.read(place, leg, last).map(u64::from),
        WRITE => engine.write(place, leg, last, value).map(|()| 0),
        COMMIT => {
            let head = engine.commit(place, leg, number, &mut lists.readings, &mut lists.writes)?;
            Ok(sum_of_account(head, &lists.readings, &lists.writes))
        }
        ABANDON => engine.abandon(place).map(|()| 0),
        DELIVER => engine.deliver(number).map(|()| 0),
        DISCARD => engine.discard(number).map(|()| 0),
        COUNT => {
            let (waiting, lost) = engine.count();
            Ok((waiting as u64).wrapping_add(lost))
        }
        _ => {
            engine.prune(number);
            Ok(0)
        }
    }
}

pub fn sum_of_account(head: AccountHead, readings: &[ChainReading], writes: &[Write]) -> u64 {
    let numbers = [head.interval.low, head.interval.high, head.timestamp, head.readings as u64, head.writes as u64];
    let of_readings = readings.iter().take(head.readings).map(|made| {
        let named = u64::from(made.worker) + u64::from(made.key);
        named.wrapping_add(u64::from(made.value)).wrapping_add(made.timestamp).wrapping_add(made.promise)
    });
    let of_writes = writes.iter().take(head.writes).map(|write| u64::from(write.key) + u64::from(write.value));
    numbers.into_iter().chain(of_readings).chain(of_writes).fold(0, u64::wrapping_add)
}
