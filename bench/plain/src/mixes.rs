//! The lists of calls that are measured. Each begins with the commits that fill a table of 1,024 records, 16 versions of each of
//! the 64 keys.

use crate::book::{LONGEST_ACCOUNT, write_account};
use crate::calls::*;
use crate::chance::Chance;
use crate::engine::Engine;
use crate::fault::Fault;
use crate::play::put_request;
use crate::script::Call;
use crate::table::{Record, Table};
use crate::{KEYS, LEGS, MOST_RECORDS, PLACES, WORKERS};

const DEPTH: u8 = 16;

/// A list of calls in the making. A plain engine over a table makes each call too, so that the next can go by its answer.
struct List {
    chance: Chance,
    engine: Engine<Table<'static>>,
    lists: Lists,
    calls: Vec<NumberedCall>,
    clock: u64,
    /// The timestamp of each commit with writes.
    timestamps: Vec<u64>,
    accounts: Vec<Vec<u8>>,
}

impl List {
    fn new(seed: u64) -> Self {
        let memory: &'static mut [Record] = Box::leak(vec![Record::default(); MOST_RECORDS].into_boxed_slice());
        Self {
            chance: Chance::new(seed),
            engine: Engine::new(Table::new(memory)),
            lists: Lists::default(),
            calls: Vec::new(),
            clock: 0,
            timestamps: Vec::new(),
            accounts: Vec::new(),
        }
    }

    fn call(&mut self, call: NumberedCall) -> Result<u64, Fault> {
        self.calls.push(call);
        make(&mut self.engine, call, &mut self.lists)
    }

    fn begin(&mut self, place: u8, worker: u8) {
        let _ = self.call(NumberedCall { kind: BEGIN, place, last: worker, ..NumberedCall::default() });
    }

    fn hand(&mut self, place: u8, leg: u8, worker: u8) -> Result<u64, Fault> {
        self.call(NumberedCall { kind: HAND, place, leg, last: worker, ..NumberedCall::default() })
    }

    fn fork(&mut self, place: u8, leg: u8, first: u8, second: u8) -> Result<u64, Fault> {
        self.call(NumberedCall { kind: FORK, place, leg, other: first, last: second, ..NumberedCall::default() })
    }

    fn join(&mut self, place: u8, leg: u8, second: u8, worker: u8) -> Result<u64, Fault> {
        self.call(NumberedCall { kind: JOIN, place, leg, other: second, last: worker, ..NumberedCall::default() })
    }

    fn read(&mut self, place: u8, leg: u8, key: u8) {
        let _ = self.call(NumberedCall { kind: READ, place, leg, last: key, ..NumberedCall::default() });
    }

    fn write(&mut self, place: u8, leg: u8, key: u8) {
        let value = self.chance.number() as u32;
        let _ = self.call(NumberedCall { kind: WRITE, place, leg, last: key, value, ..NumberedCall::default() });
    }

    fn commit(&mut self, place: u8, leg: u8) {
        self.clock += 1 + self.chance.below(9);
        let call = NumberedCall { kind: COMMIT, place, leg, number: self.clock, ..NumberedCall::default() };
        self.calls.push(call);
        let Lists { readings, writes } = &mut self.lists;
        if let Ok(head) = self.engine.commit(place, leg, self.clock, readings, writes) {
            if head.timestamp > 0 {
                self.timestamps.push(head.timestamp);
                self.clock = self.clock.max(head.timestamp);
            }
            let mut bytes = vec![0; LONGEST_ACCOUNT];
            let size = write_account(&head, &readings[..head.readings], &writes[..head.writes], &mut bytes);
            bytes.truncate(size.expect("an engine's account is lawful"));
            self.accounts.push(bytes);
        }
    }

    fn abandon(&mut self, place: u8) {
        let _ = self.call(NumberedCall { kind: ABANDON, place, ..NumberedCall::default() });
    }

    fn of_kind(&mut self, kind: u8, number: u64) {
        let _ = self.call(NumberedCall { kind, number, ..NumberedCall::default() });
    }

    /// A chain of one leg that writes these keys and commits.
    fn write_keys(&mut self, place: u8, worker: u8, keys: impl IntoIterator<Item = u8>) {
        self.begin(place, worker);
        for key in keys {
            self.write(place, 0, key);
        }
        self.commit(place, 0);
    }

    /// Gives each of the first keys as many versions as the depth.
    fn fill(&mut self, keys: u8) {
        self.add_versions(keys, DEPTH - 1);
    }

    /// Gives each of the first keys so many versions more.
    fn add_versions(&mut self, keys: u8, versions: u8) {
        let all: Vec<u8> = (0..keys).collect();
        for _ in 0..versions {
            for some in all.chunks(8) {
                self.write_keys(0, 0, some.iter().copied());
            }
        }
    }

    /// Three of four times one of eight keys, else any.
    fn key(&mut self) -> u8 {
        if self.chance.percent(75) { 3 + 8 * self.chance.byte_below(8) } else { self.chance.byte_below(KEYS) }
    }

    fn worker(&mut self) -> u8 {
        self.chance.byte_below(WORKERS)
    }
}

/// A list of calls by name.
pub struct Mix {
    pub name: &'static str,
    pub calls: Vec<NumberedCall>,
}

/// Adds some more calls to a list.
type More = fn(&mut List);

/// The six lists, each of about so many calls.
pub fn mixes(calls: usize) -> Vec<Mix> {
    let makers: [(&str, More); 5] =
        [("reads", reads), ("writes", writes), ("fork and join", forks), ("notices", notices), ("prunes", prunes)];
    let mut mixes: Vec<Mix> = makers
        .into_iter()
        .map(|(name, more)| {
            let mut list = List::new(1);
            list.fill(KEYS);
            while list.calls.len() < calls {
                more(&mut list);
            }
            Mix { name, calls: list.calls }
        })
        .collect();
    mixes.push(Mix { name: "typical chains", calls: typical(calls).calls });
    mixes
}

/// Three chains read in turn, and while they do, others commit.
fn reads(list: &mut List) {
    for place in 0..3 {
        let worker = list.worker();
        list.begin(place, worker);
    }
    for round in 0..30 {
        for place in 0..3 {
            let key = list.key();
            list.read(place, 0, key);
        }
        if round % 10 == 5 {
            let keys = [list.key(), list.key()];
            list.write_keys(3, 0, keys);
        }
    }
    for place in 0..3 {
        list.commit(place, 0);
    }
}

/// A chain that writes one to eight keys and commits.
fn writes(list: &mut List) {
    let count = 1 + list.chance.below(8);
    let keys: Vec<u8> = (0..count).map(|_| list.key()).collect();
    let worker = list.worker();
    list.write_keys(0, worker, keys);
}

/// A chain that splits into four legs, which are joined again, and in one of four cases commits.
fn forks(list: &mut List) {
    let worker = list.worker();
    list.begin(1, worker);
    let key = list.key();
    list.write(1, 0, key);
    let _ = list.fork(1, 0, 1, 2);
    let _ = list.fork(1, 1, 3, 4);
    let _ = list.fork(1, 2, 5, 6);
    let key = list.key();
    list.write(1, 4, key);
    let key = list.key();
    list.read(1, 5, key);
    let _ = list.join(1, 3, 4, 0);
    let _ = list.join(1, 5, 6, 7);
    let _ = list.hand(1, 7, 2);
    let _ = list.join(1, 9, 8, 1);
    if list.chance.percent(25) {
        list.commit(1, 10);
    } else {
        list.abandon(1);
    }
}

/// Readings fill a cache, a commit raises notices, and those that wait are delivered and discarded.
fn notices(list: &mut List) {
    let worker = list.worker();
    list.begin(2, worker);
    for _ in 0..3 {
        let key = list.key();
        list.read(2, 0, key);
    }
    list.commit(2, 0);
    let keys = [list.key(), list.key()];
    list.write_keys(3, 0, keys);
    list.of_kind(COUNT, 0);
    while list.engine.count().0 > 4 {
        let position = list.chance.below(list.engine.count().0 as u64);
        list.of_kind(DELIVER, position);
        list.of_kind(DELIVER, 0);
        list.of_kind(DISCARD, 0);
    }
}

/// A commit of one key, and a prune, which in three of four cases drops what is older than the last 900 commits.
fn prunes(list: &mut List) {
    let key = list.chance.byte_below(KEYS);
    list.write_keys(0, 0, [key]);
    let old = list.timestamps.len().saturating_sub(900);
    let horizon = if list.chance.percent(75) { list.timestamps[old] } else { 0 };
    list.of_kind(PRUNE, horizon);
}

/// What is known of the chain at a place.
#[derive(Clone, Default)]
struct Open {
    legs: Vec<u8>,
    opened: u8,
    steps: u32,
}

/// Chains at four places in turn, which read and write, split and join, are handed on and commit; with notices, and a prune now
/// and then.
fn typical(calls: usize) -> List {
    let mut list = List::new(2);
    list.fill(KEYS);
    let mut places = vec![Open::default(); PLACES.into()];
    while list.calls.len() < calls {
        let place = list.chance.byte_below(PLACES);
        step(&mut list, place, &mut places[usize::from(place)]);
        if list.chance.percent(8) && list.engine.count().0 > 0 {
            list.of_kind(DELIVER, 0);
            list.of_kind(DISCARD, 0);
        }
        if list.chance.below(500) == 0 {
            list.of_kind(COUNT, 0);
            let old = list.timestamps.len().saturating_sub(900);
            let horizon = list.timestamps[old];
            list.of_kind(PRUNE, horizon);
        }
    }
    list
}

fn step(list: &mut List, place: u8, open: &mut Open) {
    if open.legs.is_empty() {
        let worker = list.worker();
        list.begin(place, worker);
        *open = Open { legs: vec![0], opened: 1, steps: 0 };
        return;
    }
    open.steps += 1;
    let at = list.chance.below(open.legs.len() as u64) as usize;
    let leg = open.legs[at];
    let (worker, key) = (list.worker(), list.key());
    let ending = open.steps > 14;
    if ending && open.legs.len() == 1 {
        list.commit(place, leg);
        *open = Open::default();
        return;
    }
    match list.chance.below(100) {
        0..50 if !ending => list.read(place, leg, key),
        50..70 if !ending => list.write(place, leg, key),
        70..80 if open.opened + 4 < LEGS => {
            let second = list.worker();
            let _ = list.fork(place, leg, worker, second);
            open.legs.swap_remove(at);
            open.legs.extend([open.opened, open.opened + 1]);
            open.opened += 2;
        }
        80..88 if open.opened + 2 < LEGS => {
            let _ = list.hand(place, leg, worker);
            open.legs[at] = open.opened;
            open.opened += 1;
        }
        _ if open.legs.len() > 1 => {
            let second = open.legs[(at + 1) % open.legs.len()];
            if list.join(place, leg, second, worker).is_ok() {
                open.legs.retain(|&open| open != leg && open != second);
                open.legs.push(open.opened);
                open.opened += 1;
            } else {
                list.abandon(place);
                *open = Open::default();
            }
        }
        _ => list.read(place, leg, key),
    }
}

/// Short chains over and over, so many of each kind, which show what a call costs.
pub fn short_chains(count: usize) -> Vec<Mix> {
    let makers: [(&str, More); 11] = [
        ("begin, abandon", |list| {
            list.begin(0, 0);
            list.abandon(0);
        }),
        ("begin, 15 hands, abandon", |list| {
            list.begin(0, 0);
            for leg in 0..15 {
                let _ = list.hand(0, leg, 1);
            }
            list.abandon(0);
        }),
        ("begin, 7 forks, abandon", |list| {
            list.begin(0, 0);
            for leg in 0..7 {
                let _ = list.fork(0, leg, 1, 2);
            }
            list.abandon(0);
        }),
        ("begin, 5 forks and joins, abandon", |list| {
            list.begin(0, 0);
            for leg in [0, 3, 6, 9, 12] {
                let _ = list.fork(0, leg, 1, 2);
                let _ = list.join(0, leg + 1, leg + 2, 3);
            }
            list.abandon(0);
        }),
        ("begin, 8 writes in falling order, abandon", |list| {
            list.begin(0, 0);
            for key in (0..8).rev() {
                list.write(0, 0, key);
            }
            list.abandon(0);
        }),
        ("begin, 32 reads of two cached keys, abandon", |list| {
            list.begin(0, 0);
            for key in 0..32 {
                list.read(0, 0, key % 2);
            }
            list.abandon(0);
        }),
        ("begin, 8 reads from the cache, abandon", |list| {
            list.begin(0, 0);
            for key in 0..8 {
                list.read(0, 0, key);
            }
            list.abandon(0);
        }),
        ("begin, 32 reads from the store, abandon", |list| {
            list.begin(0, 0);
            for key in 0..32 {
                list.read(0, 0, key);
            }
            list.abandon(0);
        }),
        ("begin, 32 reads from the store, commit", |list| {
            list.begin(0, 0);
            for key in 0..32 {
                list.read(0, 0, key);
            }
            list.commit(0, 0);
        }),
        ("begin, a write, commit", |list| list.write_keys(0, 0, [5])),
        ("begin, 8 writes, commit", |list| list.write_keys(0, 0, 0..8)),
    ];
    makers
        .into_iter()
        .map(|(name, more)| {
            let mut list = List::new(4);
            for _ in 0..count {
                more(&mut list);
            }
            Mix { name, calls: list.calls }
        })
        .collect()
}

/// What fills a table with `keys` keys at their depth, and one version of each other key.
pub fn filling(keys: u8) -> Vec<NumberedCall> {
    let mut list = List::new(3);
    list.fill(keys);
    list.calls
}

/// The same, and behind it so many commits, each of one write to one of those keys.
pub fn commits(keys: u8, count: usize) -> Vec<NumberedCall> {
    let mut list = List::new(3);
    list.fill(keys);
    for key in (0..keys).cycle().take(count) {
        list.write_keys(0, 0, [key]);
    }
    list.calls
}

/// The same, and behind it so many reads of all 64 keys in turn, which no cache answers, 32 to a chain.
pub fn store_reads(keys: u8, count: usize) -> Vec<NumberedCall> {
    let mut list = List::new(3);
    list.fill(keys);
    let reads: Vec<u8> = (0..KEYS).cycle().take(count).collect();
    for some in reads.chunks(32) {
        list.begin(0, 0);
        for &key in some {
            list.read(0, 0, key);
        }
        list.commit(0, 0);
    }
    list.calls
}

/// The same at a time when half of the versions had been written. A worker's cache has a reading of that time, which each chain
/// reads before it is handed to another worker. That reading is made in the midst of the filling, by three calls more.
pub fn old_reads(keys: u8, count: usize) -> Vec<NumberedCall> {
    let mut list = List::new(3);
    list.add_versions(keys, DEPTH / 2);
    list.begin(0, 6);
    list.read(0, 0, 0);
    list.commit(0, 0);
    list.add_versions(keys, DEPTH / 2 - 1);
    let reads: Vec<u8> = (0..KEYS).cycle().take(count).collect();
    for some in reads.chunks(31) {
        list.begin(0, 6);
        list.read(0, 0, 0);
        let _ = list.hand(0, 0, 7);
        for &key in some {
            list.read(0, 1, key);
        }
        list.commit(0, 1);
    }
    list.calls
}

/// A book of the accounts of typical chains, at most so many bytes.
pub fn book(most: usize) -> Vec<u8> {
    let mut book = Vec::new();
    for account in typical(100_000).accounts {
        if book.len() + account.len() <= most {
            book.extend(account);
        }
    }
    book
}

/// Typical chains as a script of so many lines.
pub fn script(lines: usize) -> Vec<u8> {
    let mut text = Vec::new();
    for call in typical(lines).calls.iter().take(lines) {
        put_request(&mut text, &Call::from(*call));
        text.push(b'\n');
    }
    text
}
