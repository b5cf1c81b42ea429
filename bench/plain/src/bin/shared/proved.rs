//! The functions of the static library `bench_calls`.

use plain::calls::NumberedCall;

#[link(name = "bench_calls", kind = "static")]
unsafe extern "C" {
    fn bench_calls_on_table(records: usize, calls: *const NumberedCall, count: usize) -> u64;
    fn bench_calls_on_newest(calls: *const NumberedCall, count: usize) -> u64;
    fn bench_read_book(book: *const u8, size: usize) -> u64;
}

pub fn calls_on_table(records: usize, calls: &[NumberedCall]) -> u64 {
    // SAFETY: the function takes any number of records and any slice of calls, which it only reads
    unsafe { bench_calls_on_table(records, calls.as_ptr(), calls.len()) }
}

pub fn calls_on_newest(calls: &[NumberedCall]) -> u64 {
    // SAFETY: the function takes any slice of calls, which it only reads
    unsafe { bench_calls_on_newest(calls.as_ptr(), calls.len()) }
}

pub fn read_book(book: &[u8]) -> u64 {
    // SAFETY: the function takes any slice of bytes, which it only reads
    unsafe { bench_read_book(book.as_ptr(), book.len()) }
}
