//! Random scripts for the control room: stores of all kinds, every call, lines that are odd or bad, numbers at and beyond their
//! limits. What is likely differs from script to script.

use crate::calls::NumberedCall;
use crate::chance::Chance;
use crate::play::{Memory, NEW_MEMORY, Player};
use crate::script::{Line, parse};
use crate::{CHAIN_READINGS, KEYS, LEGS, OPEN_END, PLACES, WORKERS, WRITE_KEYS};
use std::fmt::Write;

/// How commits' clock readings are chosen.
#[derive(Clone, Copy)]
enum Clock {
    Rising,
    Zero,
    Any,
    Late,
}

/// A script in the making, and the plain control room that plays it, so that the next line can go by the answers before it.
struct Making<'a> {
    chance: Chance,
    player: Player<'a>,
    script: Vec<u8>,
    printed: Vec<u8>,
    /// The open legs of the chain at each place.
    open: [Vec<u8>; PLACES as usize],
    places: u8,
    workers: u8,
    keys: Vec<u8>,
    clock: Clock,
    now: u64,
    /// In how many of a hundred numbers one is out of range, and in how many of a hundred lines something is odd.
    wrong: u64,
    odd: u64,
    /// How likely each kind of step is.
    weights: [u64; 16],
}

/// The script of this seed.
pub fn script(seed: u64) -> Vec<u8> {
    let mut memory: Memory = NEW_MEMORY;
    let mut chance = Chance::new(seed);
    let keys = match chance.below(4) {
        0 => vec![chance.byte_below(KEYS)],
        1 => (0..3).map(|_| chance.byte_below(KEYS)).collect(),
        2 => (0..12).map(|_| chance.byte_below(KEYS)).collect(),
        _ => (0..KEYS).collect(),
    };
    let mut making = Making {
        player: Player::new(&mut memory),
        script: Vec::new(),
        printed: Vec::new(),
        open: Default::default(),
        places: chance.pick(&[1, 2, PLACES]),
        workers: chance.pick(&[1, 2, WORKERS]),
        keys,
        clock: chance.pick(&[Clock::Rising, Clock::Rising, Clock::Zero, Clock::Any, Clock::Late]),
        now: chance.below(100),
        wrong: chance.pick(&[0, 1, 5]),
        odd: chance.pick(&[0, 2, 20]),
        weights: std::array::from_fn(|_| 1 + chance.below(4) * chance.below(10)),
        chance,
    };
    making.store();
    let steps = 10 + making.chance.below(150);
    for _ in 0..steps {
        making.step();
    }
    if making.chance.percent(10) {
        making.script.pop();
    }
    making.script
}

impl Making<'_> {
    /// Adds a line, at times an odd one before it, and answers what the line printed.
    fn line(&mut self, words: &str) -> String {
        if self.chance.percent(self.odd) {
            let odd = self.odd_line();
            self.add(&odd);
        }
        let mut line = words.to_string();
        if self.chance.percent(self.odd) {
            line = self.with_odd_spaces(&line);
        }
        self.add(&line)
    }

    fn add(&mut self, line: &str) -> String {
        let start = self.script.len();
        self.script.extend_from_slice(line.as_bytes());
        self.script.push(b'\n');
        self.printed.clear();
        self.player.play_line(&self.script[start..], &mut self.printed);
        String::from_utf8_lossy(&self.printed).into_owned()
    }

    /// A blank line, a comment, or a bad line.
    fn odd_line(&mut self) -> String {
        let lines = [
            "",
            " ",
            "\t",
            "\r",
            " \t \r",
            "#",
            "# begin 0 0",
            "  # read",
            "#begin 0 0",
            "begin",
            "begin 0",
            "begin 0 0 0",
            "begin 0 x",
            "begin 0 -1",
            "begin 0 +1",
            "begin 0 1.0",
            "begin 256 0",
            "begin 0 256",
            "Begin 0 0",
            "begin\r0 0",
            "begin 0 0 #",
            "hand 0 0",
            "fork 0 0 1",
            "join 0 0 1",
            "write 0 0 1",
            "write 0 0 1 4294967296",
            "read 0 0",
            "read 0 0 300",
            "commit 0 0",
            "commit 0 0 18446744073709551616",
            "commit 0 0 1 33 8",
            "commit 0 0 1 32 9",
            "commit 0 0 1 2",
            "commit 0 0 1 2 3 4",
            "abandon",
            "abandon 0 0",
            "deliver",
            "deliver 18446744073709551616",
            "deliver 99999999999999999999",
            "discard x",
            "count 0",
            "prune",
            "prune 184467440737095516150",
            "store",
            "store newest",
            "store table 64",
            "store table 1025",
            "store table",
            "store other",
            "store newest 1",
            "x",
            "0",
            "\u{e9} 0",
            "count\u{a0}",
            "a b c d e f g h i",
            "begin 0 0 0 0 0 0 0",
            "begin \r 0",
        ];
        self.chance.pick(&lines).to_string()
    }

    fn with_odd_spaces(&mut self, line: &str) -> String {
        let mut odd = String::new();
        for word in line.split(' ') {
            odd.push_str(self.chance.pick(&[" ", "  ", "\t", " \t "]));
            if word.bytes().all(|byte| byte.is_ascii_digit()) {
                odd.push_str(self.chance.pick(&["", "", "0", "00000000000000000000000000"]));
            }
            odd.push_str(word);
        }
        odd.push_str(self.chance.pick(&["", " ", "\t", "\r", " \r", "\r\r"]));
        odd
    }

    fn store(&mut self) {
        let records = match self.chance.below(10) {
            0 | 1 => return,
            2 | 3 => {
                self.line("store newest");
                return;
            }
            4 => self.chance.below(64),
            5 | 6 => 64 + self.chance.below(20),
            7 | 8 => 64 + self.chance.below(961),
            _ => self.chance.pick(&[0, 63, 64, 1024, 1025]),
        };
        self.line(&format!("store table {records}"));
    }

    fn wrong(&mut self) -> bool {
        self.chance.percent(self.wrong)
    }

    fn place(&mut self) -> u8 {
        if self.wrong() { self.chance.pick(&[PLACES, 5, 128, 255]) } else { self.chance.byte_below(self.places) }
    }

    /// Mostly an open leg of the place.
    fn leg(&mut self, place: u8) -> u8 {
        if self.wrong() {
            return self.chance.pick(&[LEGS, 17, 255]);
        }
        match self.open.get(usize::from(place)) {
            Some(legs) if !legs.is_empty() && self.chance.percent(97 - self.wrong) => self.chance.pick(legs),
            _ => self.chance.byte_below(LEGS),
        }
    }

    fn worker(&mut self) -> u8 {
        if self.wrong() { self.chance.pick(&[WORKERS, 9, 255]) } else { self.chance.byte_below(self.workers) }
    }

    fn key(&mut self) -> u8 {
        if self.wrong() { self.chance.pick(&[KEYS, 65, 255]) } else { self.chance.pick(&self.keys) }
    }

    fn value(&mut self) -> u32 {
        match self.chance.below(4) {
            0 => self.chance.pick(&[0, 1, u32::MAX]),
            1 => self.chance.number() as u32,
            _ => self.chance.below(10) as u32,
        }
    }

    fn time(&mut self) -> u64 {
        if self.wrong() {
            return self.chance.pick(&[OPEN_END - 1, OPEN_END, OPEN_END + 1, u64::MAX, 0]);
        }
        match self.clock {
            Clock::Rising => {
                self.now += self.chance.below(12);
                self.now.saturating_sub(self.chance.below(4))
            }
            Clock::Zero => 0,
            Clock::Any => self.chance.below(OPEN_END),
            Clock::Late => OPEN_END.saturating_sub(1 + self.chance.below(20)),
        }
    }

    fn horizon(&mut self) -> u64 {
        match self.chance.below(8) {
            0 => self.chance.pick(&[0, 1, OPEN_END - 1, OPEN_END, u64::MAX]),
            1 => self.time(),
            _ => self.now.saturating_sub(self.chance.below(60)),
        }
    }

    fn position(&mut self) -> u64 {
        match self.chance.below(10) {
            0 => self.chance.pick(&[31, 32, 33, 1 << 32, u64::MAX]),
            1..4 => self.chance.below(34),
            _ => self.chance.below(4),
        }
    }

    fn legs_of(&mut self, place: u8) -> Option<&mut Vec<u8>> {
        self.open.get_mut(usize::from(place))
    }

    /// One step, mostly one call.
    fn step(&mut self) {
        let mut at = self.chance.below(self.weights.iter().sum());
        let mut kind = 0;
        while at >= self.weights[kind] {
            at -= self.weights[kind];
            kind += 1;
        }
        let place = self.place();
        if kind != 0 && self.chance.percent(90) && self.legs_of(place).is_some_and(|legs| legs.is_empty()) {
            self.begin(place);
        }
        match kind {
            0 => self.begin(place),
            1 => self.hand(place),
            2 => self.fork(place),
            3 => self.join(place),
            4 | 5 => self.read(place),
            6 => self.write(place),
            7 => self.commit(place),
            8 if self.chance.percent(50) => self.abandon(place),
            9 => self.numbered("deliver"),
            10 => self.numbered("discard"),
            11 => {
                self.line("count");
            }
            12 => {
                let horizon = self.horizon();
                self.line(&format!("prune {horizon}"));
            }
            13 => self.many_reads(place),
            14 => self.read_on_both_legs(place),
            _ => self.many_commits(),
        }
    }

    fn begin(&mut self, place: u8) {
        let worker = self.worker();
        let printed = self.line(&format!("begin {place} {worker}"));
        if printed.contains("-> leg")
            && let Some(legs) = self.legs_of(place)
        {
            *legs = vec![0];
        }
    }

    /// Takes the ended legs out, and puts those in that the line printed.
    fn follow(&mut self, place: u8, ended: &[u8], printed: &str) {
        let Some((_, answer)) = printed.split_once("-> leg") else {
            return;
        };
        let new: Vec<u8> = answer.split_ascii_whitespace().filter_map(|word| word.parse().ok()).collect();
        if let Some(legs) = self.legs_of(place) {
            legs.retain(|leg| !ended.contains(leg));
            legs.extend(new);
        }
    }

    fn hand(&mut self, place: u8) {
        let (leg, worker) = (self.leg(place), self.worker());
        let printed = self.line(&format!("hand {place} {leg} {worker}"));
        self.follow(place, &[leg], &printed);
    }

    fn fork(&mut self, place: u8) {
        let (leg, one, other) = (self.leg(place), self.worker(), self.worker());
        let printed = self.line(&format!("fork {place} {leg} {one} {other}"));
        self.follow(place, &[leg], &printed);
    }

    fn join(&mut self, place: u8) {
        let leg = self.leg(place);
        let mut second = self.leg(place);
        if second == leg && self.chance.percent(80) {
            second = self.leg(place);
        }
        let worker = self.worker();
        let printed = self.line(&format!("join {place} {leg} {second} {worker}"));
        self.follow(place, &[leg, second], &printed);
    }

    fn read(&mut self, place: u8) {
        let (leg, key) = (self.leg(place), self.key());
        self.line(&format!("read {place} {leg} {key}"));
    }

    fn write(&mut self, place: u8) {
        let (leg, key, value) = (self.leg(place), self.key(), self.value());
        self.line(&format!("write {place} {leg} {key} {value}"));
    }

    fn commit(&mut self, place: u8) {
        let (leg, clock) = (self.leg(place), self.time());
        let mut words = format!("commit {place} {leg} {clock}");
        if self.chance.percent(20) {
            let readings = self.chance.below(CHAIN_READINGS as u64 + 1).min(self.chance.below(40));
            let _ = write!(words, " {readings} {}", self.chance.below(WRITE_KEYS as u64 + 1));
        }
        let printed = self.line(&words);
        self.follow_end(place, &printed);
    }

    fn abandon(&mut self, place: u8) {
        let printed = self.line(&format!("abandon {place}"));
        self.follow_end(place, &printed);
    }

    fn follow_end(&mut self, place: u8, printed: &str) {
        if (printed.contains("-> account") || printed.contains("-> done"))
            && let Some(legs) = self.legs_of(place)
        {
            legs.clear();
        }
    }

    fn numbered(&mut self, word: &str) {
        let position = self.position();
        self.line(&format!("{word} {position}"));
    }

    fn many_reads(&mut self, place: u8) {
        for _ in 0..self.chance.below(12) {
            self.read(place);
        }
    }

    /// Splits a leg, reads on the one half before others commit and on the other after it, and joins them.
    fn read_on_both_legs(&mut self, place: u8) {
        self.fork(place);
        let Some(&[.., one, other]) = self.legs_of(place).map(|legs| legs.as_slice()) else {
            return;
        };
        for leg in [one, other] {
            for _ in 0..1 + self.chance.below(3) {
                let key = self.key();
                self.line(&format!("read {place} {leg} {key}"));
            }
            self.many_commits();
        }
        let worker = self.worker();
        let printed = self.line(&format!("join {place} {one} {other} {worker}"));
        self.follow(place, &[one, other], &printed);
    }

    /// Chains that write a few keys and commit at once.
    fn many_commits(&mut self) {
        for _ in 0..self.chance.below(6) {
            let place = self.place();
            self.begin(place);
            for _ in 0..1 + self.chance.below(3) {
                self.write(place);
            }
            self.commit(place);
        }
    }
}

/// The calls of a script, but for its bad lines and the rooms of its commits.
pub fn calls(script: &[u8]) -> Vec<NumberedCall> {
    let lines = script.split_inclusive(|&byte| byte == b'\n').map(parse);
    let call = |line| if let Line::Call(call) = line { Some(NumberedCall::from(call)) } else { None };
    lines.filter_map(call).collect()
}

/// A book of the accounts that a script printed, which may be damaged.
pub fn book(seed: u64, printed: &[u8]) -> Vec<u8> {
    let mut chance = Chance::new(!seed);
    let mut accounts: Vec<Vec<u8>> =
        printed.split(|&byte| byte == b'\n').filter_map(|line| line.strip_prefix(b"  book ")).map(bytes_of).collect();
    if !accounts.is_empty() && chance.percent(80) {
        let at = chance.below(accounts.len() as u64) as usize;
        damage(&mut chance, &mut accounts[at]);
    }
    accounts.concat()
}

fn bytes_of(digits: &[u8]) -> Vec<u8> {
    let digit = |byte: u8| (byte as char).to_digit(16).unwrap_or(0) as u8;
    digits.chunks(2).map(|pair| pair.iter().fold(0, |byte, &next| byte << 4 | digit(next))).collect()
}

/// Changes a byte, mostly so that the last byte is right again; or cuts the account, or adds to it.
fn damage(chance: &mut Chance, account: &mut Vec<u8>) {
    let size = account.len() as u64;
    match chance.below(10) {
        0 => account.truncate(chance.below(size) as usize),
        1 => account.push(chance.number() as u8),
        kind => {
            let change = if chance.percent(50) { 1 << chance.below(8) } else { chance.number() as u8 };
            account[chance.below(size) as usize] ^= change;
            if kind > 3 {
                account[size as usize - 1] ^= change;
            }
        }
    }
}
