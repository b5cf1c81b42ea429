//! The engine's rules (docs/RULES.md, docs/REFUSALS.md, docs/BOOK.md, docs/CONTROL_ROOM.md) written anew in plain Rust, apart
//! from the proved code and its definitions, and made to be fast: what the proved engine is measured and compared with.

pub mod account;
pub mod book;
pub mod cache;
pub mod calls;
pub mod chain;
pub mod chance;
pub mod engine;
pub mod fault;
pub mod mixes;
pub mod notices;
pub mod play;
pub mod random_scripts;
pub mod script;
pub mod store;
pub mod table;
pub mod write_set;

/// The open end: the last time.
pub const OPEN_END: u64 = 1 << 48;
pub const KEYS: u8 = 64;
pub const WORKERS: u8 = 8;
pub const PLACES: u8 = 4;
pub const LEGS: u8 = 16;
pub const WRITE_KEYS: usize = 8;
pub const CHAIN_READINGS: usize = 32;
pub const CACHE_KEYS: usize = 8;
pub const WAITING_NOTICES: usize = 32;
pub const LEAST_RECORDS: usize = 64;
pub const MOST_RECORDS: usize = 1024;
