//! Why a call is refused.

#[derive(Clone, Copy, PartialEq, Eq, Debug)]
#[repr(u8)]
pub enum Refusal {
    OutOfRange = 1,
    PlaceOccupied = 2,
    NotOpen = 3,
    SameLeg = 4,
    TooManyLegs = 5,
    IntervalsApart = 6,
    WriteSetFull = 7,
    ReadingsFull = 8,
    AnotherLegOpen = 9,
    TooShort = 10,
    UnfitWrites = 11,
    ClockTooHigh = 12,
    NoTimeLeft = 13,
    CapacityExceeded = 14,
    VersionGone = 15,
    NoSuchNotice = 16,
    UnfitMemory = 17,
    AccountCut = 18,
    WrongMark = 19,
    WrongLastByte = 20,
    Unlawful = 21,
}

impl Refusal {
    pub fn number(self) -> u8 {
        self as u8
    }
}

#[derive(Clone, Copy, PartialEq, Eq, Debug)]
pub enum Layer {
    Chain,
    Store,
    Notices,
    Book,
}

/// Stands for a place, leg or key that a call lacks or has several of.
pub const NOT_NAMED: u8 = 255;

/// A refusal, the layer that refused first, and the place, leg and key as the call named them.
#[derive(Clone, Copy, PartialEq, Eq, Debug)]
pub struct Fault {
    pub refusal: Refusal,
    pub layer: Layer,
    pub place: u8,
    pub leg: u8,
    pub key: u8,
}

/// What a call named.
#[derive(Clone, Copy)]
pub struct Named {
    pub place: u8,
    pub leg: u8,
    pub key: u8,
}

impl Named {
    pub fn place(place: u8) -> Self {
        Self::leg(place, NOT_NAMED)
    }

    pub fn leg(place: u8, leg: u8) -> Self {
        Self { place, leg, key: NOT_NAMED }
    }

    pub fn refused(self, refusal: Refusal) -> Fault {
        self.refused_by(Layer::Chain, refusal)
    }

    pub fn refused_by(self, layer: Layer, refusal: Refusal) -> Fault {
        let Self { place, leg, key } = self;
        Fault { refusal, layer, place, leg, key }
    }
}
