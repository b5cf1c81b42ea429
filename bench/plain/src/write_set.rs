//! A leg's write set.

use crate::WRITE_KEYS;
use crate::account::Write;
use crate::fault::Refusal;

/// At most eight writes: a bit for each key that is written, and the values in rising order of the keys.
#[derive(Clone, Copy)]
pub struct WriteSet {
    keys: u64,
    values: [u32; WRITE_KEYS],
}

impl WriteSet {
    pub const EMPTY: Self = Self { keys: 0, values: [0; WRITE_KEYS] };

    /// The key is below 64.
    pub fn value_of(&self, key: u8) -> Option<u32> {
        (self.keys >> key & 1 == 1).then(|| self.values[self.place_of(key)])
    }

    fn place_of(&self, key: u8) -> usize {
        (self.keys & ((1 << key) - 1)).count_ones() as usize & (WRITE_KEYS - 1)
    }

    /// The key is below 64.
    pub fn write(&mut self, key: u8, value: u32) -> Result<(), Refusal> {
        let bit = 1 << key;
        if self.keys & bit == 0 {
            let len = self.len();
            if len == WRITE_KEYS {
                return Err(Refusal::WriteSetFull);
            }
            let place = self.place_of(key);
            self.values.copy_within(place..len, place + 1);
            self.keys |= bit;
            self.values[place] = value;
        } else {
            let place = self.place_of(key);
            self.values[place] = value;
        }
        Ok(())
    }

    /// This set and a later one, whose values go before this one's.
    pub fn join(&self, later: &Self) -> Result<Self, Refusal> {
        let keys = self.keys | later.keys;
        if keys.count_ones() as usize > WRITE_KEYS {
            return Err(Refusal::WriteSetFull);
        }
        let mut both = Self { keys, values: [0; WRITE_KEYS] };
        let (mut rest, mut of_self, mut of_later) = (keys, self.values.iter(), later.values.iter());
        for value in &mut both.values {
            if rest == 0 {
                break;
            }
            let bit = rest & rest.wrapping_neg();
            rest ^= bit;
            if self.keys & bit != 0 {
                *value = *of_self.next().unwrap();
            }
            if later.keys & bit != 0 {
                *value = *of_later.next().unwrap();
            }
        }
        Ok(both)
    }

    pub fn is_empty(&self) -> bool {
        self.keys == 0
    }

    pub fn len(&self) -> usize {
        self.keys.count_ones() as usize
    }

    /// A bit for each key that is written.
    pub fn keys(&self) -> u64 {
        self.keys
    }

    /// The writes in rising order of their keys.
    pub fn iter(&self) -> impl Iterator<Item = Write> + '_ {
        let mut rest = self.keys;
        self.values.iter().map_while(move |&value| {
            if rest == 0 {
                return None;
            }
            let key = rest.trailing_zeros() as u8;
            rest &= rest - 1;
            Some(Write { key, value })
        })
    }
}
