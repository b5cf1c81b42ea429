//! What a line of a script says.

use crate::{CHAIN_READINGS, MOST_RECORDS, WRITE_KEYS};

#[derive(Clone, Copy, PartialEq, Eq, Debug)]
pub enum StoreKind {
    Newest,
    Table(usize),
}

/// How many readings and how many writes a commit's lists have room for.
pub type Rooms = (usize, usize);

#[derive(Clone, Copy, PartialEq, Eq, Debug)]
pub enum Call {
    Begin { place: u8, worker: u8 },
    Hand { place: u8, leg: u8, worker: u8 },
    Fork { place: u8, leg: u8, first: u8, second: u8 },
    Join { place: u8, leg: u8, second: u8, worker: u8 },
    Read { place: u8, leg: u8, key: u8 },
    Write { place: u8, leg: u8, key: u8, value: u32 },
    Commit { place: u8, leg: u8, clock: u64, rooms: Option<Rooms> },
    Abandon { place: u8 },
    Deliver { position: u64 },
    Discard { position: u64 },
    Count,
    Prune { horizon: u64 },
}

#[derive(Clone, Copy, PartialEq, Eq, Debug)]
pub enum Line {
    Blank,
    Bad,
    Store(StoreKind),
    Call(Call),
}

/// The most words that a line has that is not bad.
const MOST_WORDS: usize = 6;

/// What the line says; a newline may end it.
pub fn parse(line: &[u8]) -> Line {
    let line = match line {
        [rest @ .., b'\r', b'\n'] | [rest @ .., b'\n'] => rest,
        _ => line,
    };
    let mut words = line.split(|byte| matches!(byte, b' ' | b'\t')).filter(|word| !word.is_empty());
    let Some(first) = words.next() else {
        return Line::Blank;
    };
    if first[0] == b'#' {
        return Line::Blank;
    }
    let mut others = [&[][..]; MOST_WORDS - 1];
    let mut count = 0;
    for word in words {
        let Some(room) = others.get_mut(count) else {
            return Line::Bad;
        };
        *room = word;
        count += 1;
    }
    store_or_call(first, &others[..count]).unwrap_or(Line::Bad)
}

fn store_or_call(first: &[u8], others: &[&[u8]]) -> Option<Line> {
    if first == b"store" {
        return match others {
            [b"newest"] => Some(Line::Store(StoreKind::Newest)),
            [b"table", records] => Some(Line::Store(StoreKind::Table(room(number(records)?, MOST_RECORDS)?))),
            _ => None,
        };
    }
    let mut numbers = [0; MOST_WORDS - 1];
    for (room, word) in numbers.iter_mut().zip(others) {
        *room = number(word)?;
    }
    call(first, &numbers[..others.len()]).map(Line::Call)
}

fn call(word: &[u8], numbers: &[u64]) -> Option<Call> {
    let byte = |number: u64| u8::try_from(number).ok();
    Some(match (word, numbers) {
        (b"begin", &[place, worker]) => Call::Begin { place: byte(place)?, worker: byte(worker)? },
        (b"hand", &[place, leg, worker]) => Call::Hand { place: byte(place)?, leg: byte(leg)?, worker: byte(worker)? },
        (b"fork", &[place, leg, first, second]) => {
            Call::Fork { place: byte(place)?, leg: byte(leg)?, first: byte(first)?, second: byte(second)? }
        }
        (b"join", &[place, leg, second, worker]) => {
            Call::Join { place: byte(place)?, leg: byte(leg)?, second: byte(second)?, worker: byte(worker)? }
        }
        (b"read", &[place, leg, key]) => Call::Read { place: byte(place)?, leg: byte(leg)?, key: byte(key)? },
        (b"write", &[place, leg, key, value]) => {
            Call::Write { place: byte(place)?, leg: byte(leg)?, key: byte(key)?, value: u32::try_from(value).ok()? }
        }
        (b"commit", &[place, leg, clock]) => Call::Commit { place: byte(place)?, leg: byte(leg)?, clock, rooms: None },
        (b"commit", &[place, leg, clock, readings, writes]) => {
            let rooms = Some((room(readings, CHAIN_READINGS)?, room(writes, WRITE_KEYS)?));
            Call::Commit { place: byte(place)?, leg: byte(leg)?, clock, rooms }
        }
        (b"abandon", &[place]) => Call::Abandon { place: byte(place)? },
        (b"deliver", &[position]) => Call::Deliver { position },
        (b"discard", &[position]) => Call::Discard { position },
        (b"count", &[]) => Call::Count,
        (b"prune", &[horizon]) => Call::Prune { horizon },
        _ => return None,
    })
}

fn room(number: u64, most: usize) -> Option<usize> {
    usize::try_from(number).ok().filter(|&room| room <= most)
}

/// A word of decimal digits alone, up to 2^64 − 1.
fn number(word: &[u8]) -> Option<u64> {
    let digit = |byte: &u8| byte.is_ascii_digit().then(|| u64::from(byte - b'0'));
    if word.len() < 20 {
        // cannot pass 2^64 − 1
        return word.iter().try_fold(0, |number, byte| Some(number * 10 + digit(byte)?));
    }
    word.iter().try_fold(0_u64, |number, byte| number.checked_mul(10)?.checked_add(digit(byte)?))
}
