//! The playing of a script: each call on one engine over one store, printed with what it came to.

use crate::account::{AccountHead, ChainReading, Write};
use crate::book::{LONGEST_ACCOUNT, write_account};
use crate::calls::Lists;
use crate::engine::Engine;
use crate::fault::{Fault, Layer, NOT_NAMED};
use crate::script::{Call, Line, StoreKind, parse};
use crate::store::{Newest, Store};
use crate::table::{Record, Table};
use crate::{CHAIN_READINGS, MOST_RECORDS, WRITE_KEYS};

pub type Memory = [Record; MOST_RECORDS];

pub const NEW_MEMORY: Memory = [Record { key: 0, timestamp: 0, value: 0 }; MOST_RECORDS];

enum AnyEngine<'a> {
    Newest(Box<Engine<Newest>>),
    Table(Box<Engine<Table<'a>>>),
}

/// Plays a script line by line. The memory for a table's records is taken by the line that makes the engine.
pub struct Player<'a> {
    memory: Option<&'a mut Memory>,
    engine: Option<AnyEngine<'a>>,
    lines: u64,
    lists: Lists,
}

impl<'a> Player<'a> {
    pub fn new(memory: &'a mut Memory) -> Self {
        Self { memory: Some(memory), engine: None, lines: 0, lists: Lists::default() }
    }

    /// Does what the line says, and adds what is printed of it.
    pub fn play_line(&mut self, line: &[u8], out: &mut Vec<u8>) {
        self.lines += 1;
        match parse(line) {
            Line::Blank => {}
            Line::Bad => self.put_bad(out),
            Line::Store(kind) => match self.memory.take() {
                Some(memory) => self.engine = Some(play_store(kind, memory, out)),
                None => self.put_bad(out),
            },
            Line::Call(call) => self.play_call(&call, out),
        }
    }

    fn play_call(&mut self, call: &Call, out: &mut Vec<u8>) {
        if let Some(memory) = self.memory.take() {
            self.engine = Some(AnyEngine::Table(Box::new(Engine::new(Table::new(memory)))));
        }
        put_request(out, call);
        out.extend_from_slice(b" -> ");
        match &mut self.engine {
            Some(AnyEngine::Newest(engine)) => make(engine.as_mut(), call, &mut self.lists, out),
            Some(AnyEngine::Table(engine)) => make(engine.as_mut(), call, &mut self.lists, out),
            None => unreachable!("the first call or store line makes the engine"),
        }
        .unwrap_or_else(|fault| put_fault(out, fault));
        out.push(b'\n');
    }

    fn put_bad(&self, out: &mut Vec<u8>) {
        put_words(out, b"bad", &[self.lines]);
        out.push(b'\n');
    }
}

/// What a whole script prints.
pub fn play(script: &[u8]) -> Vec<u8> {
    let mut memory = NEW_MEMORY;
    let mut player = Player::new(&mut memory);
    let mut out = Vec::new();
    for line in script.split_inclusive(|&byte| byte == b'\n') {
        player.play_line(line, &mut out);
    }
    out
}

fn play_store<'a>(kind: StoreKind, memory: &'a mut Memory, out: &mut Vec<u8>) -> AnyEngine<'a> {
    match kind {
        StoreKind::Newest => {
            out.extend_from_slice(b"store newest -> done\n");
            AnyEngine::Newest(Box::new(Engine::new(Newest::default())))
        }
        StoreKind::Table(records) => {
            put_words(out, b"store table", &[records as u64]);
            out.extend_from_slice(b" -> ");
            let memory = &mut memory[..records];
            match Table::check(memory) {
                Ok(()) => out.extend_from_slice(b"done"),
                Err(refusal) => {
                    put_fault(out, Fault { refusal, layer: Layer::Store, place: NOT_NAMED, leg: NOT_NAMED, key: NOT_NAMED })
                }
            }
            out.push(b'\n');
            AnyEngine::Table(Box::new(Engine::new(Table::new(memory))))
        }
    }
}

/// Makes the call, and adds its answer.
fn make<S: Store>(engine: &mut Engine<S>, call: &Call, lists: &mut Lists, out: &mut Vec<u8>) -> Result<(), Fault> {
    let mut leg = |number: u8| put_words(out, b"leg", &[u64::from(number)]);
    match *call {
        Call::Begin { place, worker } => leg(engine.begin(place, worker)?),
        Call::Hand { place, leg: ended, worker } => leg(engine.hand(place, ended, worker)?),
        Call::Join { place, leg: ended, second, worker } => leg(engine.join(place, ended, second, worker)?),
        Call::Fork { place, leg, first, second } => {
            let (one, other) = engine.fork(place, leg, first, second)?;
            put_words(out, b"legs", &[u64::from(one), u64::from(other)]);
        }
        Call::Read { place, leg, key } => put_words(out, b"value", &[u64::from(engine.read(place, leg, key)?)]),
        Call::Count => {
            let (waiting, lost) = engine.count();
            put_words(out, b"waiting", &[waiting as u64]);
            put_words(out, b" lost", &[lost]);
        }
        Call::Commit { place, leg, clock, rooms } => {
            let Lists { readings, writes } = lists;
            let rooms = rooms.unwrap_or((CHAIN_READINGS, WRITE_KEYS));
            let head = engine.commit_into(place, leg, clock, rooms, readings, writes)?;
            put_account(out, &head, &readings[..head.readings], &writes[..head.writes]);
        }
        Call::Write { place, leg, key, value } => {
            engine.write(place, leg, key, value)?;
            out.extend_from_slice(b"done");
        }
        Call::Abandon { place } => {
            engine.abandon(place)?;
            out.extend_from_slice(b"done");
        }
        Call::Deliver { position } => {
            engine.deliver(position)?;
            out.extend_from_slice(b"done");
        }
        Call::Discard { position } => {
            engine.discard(position)?;
            out.extend_from_slice(b"done");
        }
        Call::Prune { horizon } => {
            engine.prune(horizon);
            out.extend_from_slice(b"done");
        }
    }
    Ok(())
}

/// The call's word and numbers.
pub fn put_request(out: &mut Vec<u8>, call: &Call) {
    let bytes = |out: &mut Vec<u8>, word: &[u8], numbers: &[u8]| {
        out.extend_from_slice(word);
        for &number in numbers {
            out.push(b' ');
            put_number(out, u64::from(number));
        }
    };
    match *call {
        Call::Begin { place, worker } => bytes(out, b"begin", &[place, worker]),
        Call::Hand { place, leg, worker } => bytes(out, b"hand", &[place, leg, worker]),
        Call::Fork { place, leg, first, second } => bytes(out, b"fork", &[place, leg, first, second]),
        Call::Join { place, leg, second, worker } => bytes(out, b"join", &[place, leg, second, worker]),
        Call::Read { place, leg, key } => bytes(out, b"read", &[place, leg, key]),
        Call::Write { place, leg, key, value } => {
            bytes(out, b"write", &[place, leg, key]);
            put_words(out, b"", &[u64::from(value)]);
        }
        Call::Commit { place, leg, clock, rooms } => {
            bytes(out, b"commit", &[place, leg]);
            put_words(out, b"", &[clock]);
            if let Some((readings, writes)) = rooms {
                put_words(out, b"", &[readings as u64, writes as u64]);
            }
        }
        Call::Abandon { place } => bytes(out, b"abandon", &[place]),
        Call::Deliver { position } => put_words(out, b"deliver", &[position]),
        Call::Discard { position } => put_words(out, b"discard", &[position]),
        Call::Count => out.extend_from_slice(b"count"),
        Call::Prune { horizon } => put_words(out, b"prune", &[horizon]),
    }
}

fn put_fault(out: &mut Vec<u8>, fault: Fault) {
    let layer: &[u8] = match fault.layer {
        Layer::Chain => b" chain",
        Layer::Store => b" store",
        Layer::Notices => b" notices",
        Layer::Book => b" book",
    };
    put_words(out, b"refused", &[u64::from(fault.refusal.number())]);
    put_words(out, layer, &[fault.place, fault.leg, fault.key].map(u64::from));
}

fn put_account(out: &mut Vec<u8>, head: &AccountHead, readings: &[ChainReading], writes: &[Write]) {
    let AccountHead { interval, timestamp, .. } = *head;
    let counts = [readings.len() as u64, writes.len() as u64];
    put_words(out, b"account", &[interval.low, interval.high, timestamp]);
    put_words(out, b"", &counts);
    for made in readings {
        put_words(out, b"\n  reading", &[made.worker.into(), made.key.into(), made.value.into()]);
        put_words(out, b"", &[made.timestamp, made.promise]);
    }
    for write in writes {
        put_words(out, b"\n  write", &[write.key.into(), write.value.into()]);
    }
    out.extend_from_slice(b"\n  book ");
    let mut buffer = [0; LONGEST_ACCOUNT];
    match write_account(head, readings, writes, &mut buffer) {
        Ok(size) => put_hexadecimal(out, &buffer[..size]),
        Err(refusal) => put_fault(out, Fault { refusal, layer: Layer::Book, place: NOT_NAMED, leg: NOT_NAMED, key: NOT_NAMED }),
    }
}

fn put_hexadecimal(out: &mut Vec<u8>, bytes: &[u8]) {
    const DIGITS: &[u8; 16] = b"0123456789abcdef";
    out.extend(bytes.iter().flat_map(|byte| [DIGITS[usize::from(byte >> 4)], DIGITS[usize::from(byte & 15)]]));
}

/// The word, and each number after a space.
fn put_words(out: &mut Vec<u8>, word: &[u8], numbers: &[u64]) {
    out.extend_from_slice(word);
    for &number in numbers {
        out.push(b' ');
        put_number(out, number);
    }
}

fn put_number(out: &mut Vec<u8>, mut number: u64) {
    let mut digits = [0; 20];
    let mut start = digits.len();
    loop {
        start -= 1;
        digits[start] = b'0' + (number % 10) as u8;
        number /= 10;
        if number == 0 {
            break;
        }
    }
    out.extend_from_slice(&digits[start..]);
}
