//! Accounts as bytes.

use crate::account::{AccountHead, ChainReading, Interval, Write};
use crate::calls::sum_of_account;
use crate::fault::Refusal;
use crate::{CHAIN_READINGS, KEYS, OPEN_END, WORKERS, WRITE_KEYS};

const MARK: [u8; 2] = [0xC3, 0x3C];
const HEAD: usize = 28;
const READING: usize = 22;
const WRITE: usize = 5;
pub const LONGEST_ACCOUNT: usize = HEAD + READING * CHAIN_READINGS + WRITE * WRITE_KEYS + 1;

fn is_lawful(head: &AccountHead, readings: &[ChainReading], writes: &[Write]) -> bool {
    let sound = |made: &ChainReading| {
        made.worker < WORKERS && made.key < KEYS && made.timestamp <= made.promise && made.promise < OPEN_END
    };
    let agreed = readings.iter().fold(Interval::ALL_TIMES, |agreed, made| agreed.narrow(made.timestamp, made.promise));
    let timestamp_fits = if writes.is_empty() {
        head.timestamp == 0
    } else {
        (1..OPEN_END).contains(&head.timestamp) && readings.iter().all(|made| made.promise < head.timestamp)
    };
    readings.len() <= CHAIN_READINGS
        && writes.len() <= WRITE_KEYS
        && readings.iter().all(sound)
        && writes.last().is_none_or(|write| write.key < KEYS)
        && writes.windows(2).all(|pair| pair[0].key < pair[1].key)
        && head.interval == agreed
        && agreed.low <= agreed.high
        && timestamp_fits
}

fn sum_of(bytes: &[u8]) -> u8 {
    bytes.iter().fold(0, |sum, byte| sum ^ byte)
}

/// Writes the account to the start of the buffer, and answers how many bytes it has.
pub fn write_account(
    head: &AccountHead,
    readings: &[ChainReading],
    writes: &[Write],
    buffer: &mut [u8],
) -> Result<usize, Refusal> {
    if !is_lawful(head, readings, writes) {
        return Err(Refusal::Unlawful);
    }
    let size = HEAD + READING * readings.len() + WRITE * writes.len() + 1;
    let bytes = buffer.get_mut(..size).ok_or(Refusal::TooShort)?;
    let (start, rest) = bytes.split_at_mut(HEAD);
    start[..2].copy_from_slice(&MARK);
    start[2] = readings.len() as u8;
    start[3] = writes.len() as u8;
    start[4..12].copy_from_slice(&head.interval.low.to_be_bytes());
    start[12..20].copy_from_slice(&head.interval.high.to_be_bytes());
    start[20..28].copy_from_slice(&head.timestamp.to_be_bytes());
    let (of_readings, of_writes) = rest.split_at_mut(READING * readings.len());
    for (room, made) in of_readings.chunks_exact_mut(READING).zip(readings) {
        room[0] = made.worker;
        room[1] = made.key;
        room[2..6].copy_from_slice(&made.value.to_be_bytes());
        room[6..14].copy_from_slice(&made.timestamp.to_be_bytes());
        room[14..22].copy_from_slice(&made.promise.to_be_bytes());
    }
    for (room, write) in of_writes.chunks_exact_mut(WRITE).zip(writes) {
        room[0] = write.key;
        room[1..5].copy_from_slice(&write.value.to_be_bytes());
    }
    bytes[size - 1] = sum_of(&bytes[..size - 1]);
    Ok(size)
}

fn u64_at(bytes: &[u8], at: usize) -> u64 {
    u64::from_be_bytes(bytes[at..at + 8].try_into().unwrap())
}

fn u32_at(bytes: &[u8], at: usize) -> u32 {
    u32::from_be_bytes(bytes[at..at + 4].try_into().unwrap())
}

/// Reads the account at this place of the book into the starts of the two lists, and answers its five numbers and the place after
/// it. After a refusal both lists are as they were.
pub fn read_account(
    book: &[u8],
    start: usize,
    readings: &mut [ChainReading],
    writes: &mut [Write],
) -> Result<(AccountHead, usize), Refusal> {
    let bytes = book.get(start..).unwrap_or(&[]);
    let [first, second, n, m, ..] = *bytes else {
        return Err(Refusal::AccountCut);
    };
    if [first, second] != MARK {
        return Err(Refusal::WrongMark);
    }
    let (n, m) = (usize::from(n), usize::from(m));
    if n > CHAIN_READINGS || m > WRITE_KEYS {
        return Err(Refusal::Unlawful);
    }
    let size = HEAD + READING * n + WRITE * m + 1;
    let bytes = bytes.get(..size).ok_or(Refusal::AccountCut)?;
    if sum_of(bytes) != 0 {
        return Err(Refusal::WrongLastByte);
    }
    let interval = Interval { low: u64_at(bytes, 4), high: u64_at(bytes, 12) };
    let head = AccountHead { interval, timestamp: u64_at(bytes, 20), readings: n, writes: m };
    let (of_readings, rest) = bytes[HEAD..].split_at(READING * n);
    let mut found_readings = [ChainReading::default(); CHAIN_READINGS];
    for (made, bytes) in found_readings.iter_mut().zip(of_readings.chunks_exact(READING)) {
        *made = ChainReading {
            worker: bytes[0],
            key: bytes[1],
            value: u32_at(bytes, 2),
            timestamp: u64_at(bytes, 6),
            promise: u64_at(bytes, 14),
        };
    }
    let mut found_writes = [Write::default(); WRITE_KEYS];
    for (write, bytes) in found_writes.iter_mut().zip(rest.chunks_exact(WRITE).take(m)) {
        *write = Write { key: bytes[0], value: u32_at(bytes, 1) };
    }
    let (found_readings, found_writes) = (&found_readings[..n], &found_writes[..m]);
    if !is_lawful(&head, found_readings, found_writes) {
        return Err(Refusal::Unlawful);
    }
    if readings.len() < n || writes.len() < m {
        return Err(Refusal::TooShort);
    }
    readings[..n].copy_from_slice(found_readings);
    writes[..m].copy_from_slice(found_writes);
    Ok((head, start + size))
}

/// Reads account after account, to the end of the book or to the first one that is refused, whose refusal and place it answers;
/// and sums their numbers.
#[inline(always)]
pub fn read_accounts(book: &[u8]) -> (u64, Option<(Refusal, usize)>) {
    let mut readings = [ChainReading::default(); CHAIN_READINGS];
    let mut writes = [Write::default(); WRITE_KEYS];
    let mut sum: u64 = 0;
    let mut start = 0;
    while start < book.len() {
        match read_account(book, start, &mut readings, &mut writes) {
            Ok((head, end)) => {
                sum = sum.wrapping_add(sum_of_account(head, &readings, &writes));
                start = end;
            }
            Err(refusal) => return (sum, Some((refusal, start))),
        }
    }
    (sum, None)
}

/// The sum of all that is read, as the crate `bench_calls` has it.
#[inline(never)]
pub fn read_book(book: &[u8]) -> u64 {
    let (sum, ending) = read_accounts(book);
    let of_ending = ending.map_or(0, |(refusal, start)| u64::from(refusal.number()).wrapping_add(start as u64));
    sum.wrapping_add(of_ending)
}
