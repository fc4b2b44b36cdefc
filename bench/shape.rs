//! What devices there are, and what is asked of them: both sides of a row are given the same.

/// The devices, all alike, and the transfers through them. crates/check_parts has the same struct.
#[derive(Clone, Copy)]
pub struct Shape {
    /// How many transfers are in flight at once.
    pub at_once: u64,
    /// How many times so many are in their callbacks at once.
    pub groups: u64,
    /// The first of the endpoints that are used, counted over all devices.
    pub first: u64,
    /// The bytes of a transfer.
    pub length: u32,
    /// The answers of an endpoint before it is reset: whole packets, or the packets that it takes.
    pub answers: u32,
    /// The bytes of a packet.
    pub size: u16,
    /// How many devices, 1 to 4.
    pub devices: u8,
    /// How many endpoints each has, 1 to 30: 81, 01, 82, 02 and so on, all bulk, of interface 0.
    pub endpoints: u8,
}

impl Shape {
    /// How many packets a transfer has.
    pub fn packets(&self) -> u32 {
        (self.length / u32::from(self.size)).max(1)
    }

    /// Its numbers, in the order in which `bin/check_parts bench` takes them.
    pub fn numbers(&self) -> [u64; 8] {
        [
            self.at_once,
            self.groups,
            self.first,
            self.length.into(),
            self.answers.into(),
            self.size.into(),
            self.devices.into(),
            self.endpoints.into(),
        ]
    }

    /// How many transfers are in callbacks at once.
    pub fn round(&self) -> u64 {
        self.at_once * self.groups
    }
}

/// A read of 8 bytes, one at a time, from the only endpoint.
pub const READ: Shape = Shape {
    at_once: 1,
    groups: 1,
    first: 0,
    length: 8,
    answers: 4_096,
    size: 8,
    devices: 1,
    endpoints: 1,
};

/// A write of 8 bytes: the endpoint is 01, the second of two.
pub const WRITE: Shape = Shape {
    endpoints: 2,
    first: 1,
    ..READ
};

/// A read of 64 bytes in 8 packets.
pub const PACKETS: Shape = Shape { length: 64, ..READ };

/// A read of 65,536 bytes in 128 packets.
pub const LONG: Shape = Shape {
    size: 512,
    length: 65_536,
    ..READ
};

/// A read of 262,144 bytes in 512 packets, the most that there is.
pub const LONGEST: Shape = Shape {
    size: 512,
    length: 262_144,
    ..READ
};

/// Reads of 8 bytes, 16 in flight.
pub const SIXTEEN: Shape = Shape {
    at_once: 16,
    ..READ
};

/// Reads and writes of 8 bytes, one in flight at each of 120 endpoints.
pub const EVERYWHERE: Shape = Shape {
    devices: 4,
    endpoints: 30,
    at_once: 120,
    ..READ
};

/// Reads of 8 bytes, of which 1,000 are in callbacks before they are ended.
pub const CALLED: Shape = Shape {
    groups: 1_000,
    ..READ
};

/// A device of 30 endpoints with 4,096 answers each.
pub const WIDE: Shape = Shape {
    endpoints: 30,
    ..READ
};
