//! What is asked of a core, and what it tells.

/// How many endpoint ids a device has.
pub const IDS: usize = 32;

/// A user's name for its grip on a device, 0 to 63.
pub type Name = u8;

/// A device's number, 0 to 3.
pub type DeviceNo = u8;

/// An endpoint's address: its number, and 128 more for IN.
#[derive(Clone, Copy, PartialEq, Eq)]
pub struct Address(pub u8);

impl Address {
    /// Whether it moves bytes to the host.
    pub fn is_in(self) -> bool {
        self.0 & 0x80 != 0
    }

    /// Twice its number, and one more for IN.
    pub fn id(self) -> u8 {
        (self.0 & 15) * 2 + u8::from(self.is_in())
    }
}

#[derive(Clone, Copy, PartialEq, Eq)]
pub enum Kind {
    Control,
    Isochronous,
    Bulk,
    Interrupt,
}

/// The most bytes that a read takes, or the bytes of a write.
pub enum Body {
    In(u32),
    Out(Vec<u8>),
}

impl Body {
    /// How many bytes there are to move.
    pub fn length(&self) -> u32 {
        match self {
            Body::In(length) => *length,
            Body::Out(bytes) => bytes.len() as u32,
        }
    }
}

/// A short read is an error.
pub const SHORT_NOT_OK: u8 = 1;

/// Whole packets are followed by an empty one.
pub const ADD_ZERO_PACKET: u8 = 8;

pub struct Request {
    pub endpoint: Address,
    pub kind: Kind,
    pub flags: u8,
    pub timeout: u32,
    pub body: Body,
}

/// How a transfer ended.
#[derive(Clone, Copy, PartialEq, Eq)]
pub enum Status {
    Completed,
    Error,
    TimedOut,
    Cancelled,
    Stall,
    NoDevice,
    Overflow,
}

/// Who wants a transfer to end.
#[derive(Clone, Copy, PartialEq, Eq)]
pub enum Ask {
    Cancel,
    Time,
}

/// Why a call is refused.
#[derive(Clone, Copy, PartialEq, Eq)]
pub enum Refused {
    InvalidParam,
    NoDevice,
    NotFound,
    Busy,
    NotSupported,
}

/// What a callback is given.
pub struct Returned {
    pub name: Name,
    pub number: u64,
    pub endpoint: Address,
    pub round: u64,
    pub status: Status,
    pub actual: u32,
    pub bytes: Vec<u8>,
}

impl Returned {
    /// A number that depends on all of it.
    pub fn weight(&self, payload: u64) -> u64 {
        let last = self.bytes.last().map_or(0, |last| u64::from(*last));
        let ending = u64::from(self.actual) << 8 | self.status as u64;
        payload
            ^ ending
            ^ last << 40
            ^ (self.bytes.len() as u64).wrapping_mul(3)
            ^ self.number.wrapping_mul(5)
            ^ self.round
            ^ u64::from(self.endpoint.0)
            ^ u64::from(self.name)
    }
}
