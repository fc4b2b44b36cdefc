//! A journal: small entries, and the bytes of all results in one buffer.

use super::core::{Entry, Reply};
use super::model::{Address, DeviceNo, Kind, Name, Refused, Request, Returned, Status};

/// What was asked for.
#[derive(Clone, Copy)]
pub enum Asked {
    Submit {
        name: Name,
        endpoint: Address,
        kind: Kind,
        flags: u8,
        timeout: u32,
        length: u32,
    },
    Serve(DeviceNo, Address),
    Deliver,
    Take,
    Stop(Name, u64),
    Reset(Name),
}

impl Asked {
    /// What a submission asks for.
    pub fn submit(name: Name, request: &Request) -> Asked {
        Asked::Submit {
            name,
            endpoint: request.endpoint,
            kind: request.kind,
            flags: request.flags,
            timeout: request.timeout,
            length: request.body.length(),
        }
    }
}

/// What was replied.
#[derive(Clone, Copy)]
pub enum Told {
    Number(u64),
    Refused(Refused),
    Replied(Reply),
    /// The bytes stand in the buffer from this index on.
    Called {
        number: u64,
        round: u64,
        endpoint: Address,
        status: Status,
        actual: u32,
        from: usize,
    },
}

/// A place of the journal.
struct Place {
    asked: Asked,
    told: Told,
    owner: Option<Name>,
    caller: u32,
    moment: u64,
}

#[derive(Default)]
pub struct Journal {
    places: Vec<Place>,
    bytes: Vec<u8>,
}

impl Journal {
    /// Room for a place more, and for so many bytes.
    pub fn reserve(&mut self, bytes: usize) {
        self.places.reserve(1);
        self.bytes.reserve(bytes);
    }

    /// Keeps a reply.
    pub fn keep(&mut self, asked: Asked, owner: Option<Name>, told: Told) {
        self.places.push(Place {
            asked,
            told,
            owner,
            caller: 0,
            moment: 0,
        });
    }

    /// Keeps an entry.
    pub fn keep_entry(&mut self, asked: Asked, entry: Entry) {
        self.keep(asked, entry.owner, Told::Replied(entry.reply));
    }

    /// Keeps a result that goes out.
    pub fn keep_called(&mut self, returned: &Returned) {
        let from = self.bytes.len();
        self.bytes.extend_from_slice(&returned.bytes);
        let told = Told::Called {
            number: returned.number,
            round: returned.round,
            endpoint: returned.endpoint,
            status: returned.status,
            actual: returned.actual,
            from,
        };
        self.keep(Asked::Take, Some(returned.name), told);
    }
}
