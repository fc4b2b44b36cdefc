//! A core on rings: it has what `usb_core` has of these calls, and none of the others.

use super::device::Pipe;
use super::endpoint::{Endpoint, Packet};
use super::event_ring::EventRing;
use super::model::{
    Address, Ask, Body, DeviceNo, Kind, Name, Refused, Request, Returned, Status, ADD_ZERO_PACKET,
    IDS, SHORT_NOT_OK,
};
use super::store::Store;
use super::trb;
use std::collections::{HashMap, VecDeque};

/// How many names, devices, and interfaces a device there are.
const NAMES: usize = 64;
const DEVICES: usize = 4;
const INTERFACES: usize = 256;

/// The most bytes of a transfer, and the places of an endpoint.
const MOST_BYTES: u32 = 262_144;
const PLACES: usize = 16;

/// What is replied.
#[derive(Clone, Copy)]
pub enum Reply {
    Done,
    Refused(Refused),
    Idle,
    Nak(u64),
    Moved(u64, u32),
    Ended(u64, u8),
    Finished(u64),
}

/// A name where there is one, and the reply.
#[derive(Clone, Copy)]
pub struct Entry {
    pub owner: Option<Name>,
    pub reply: Reply,
}

/// The entry of nobody, of nothing.
pub const IDLE: Entry = Entry {
    owner: None,
    reply: Reply::Idle,
};

/// A transfer.
pub struct Transfer {
    pub number: u64,
    pub round: u64,
    pub request: Request,
    pub bytes: Vec<u8>,
    pub payload: u64,
    pub ask: Option<Ask>,
    pub name: Name,
}

/// A transfer that ended and isn't taken yet.
struct Waiting {
    key: usize,
    status: Status,
    actual: u32,
}

/// A transfer in its callback.
struct InCallback {
    request: Request,
    round: u64,
    status: Status,
}

/// What is kept of a name.
struct Caller {
    next: u64,
    results: [usize; IDS],
    callbacks: [usize; IDS],
    running: HashMap<u64, InCallback>,
}

impl Caller {
    fn new() -> Caller {
        Caller {
            next: 0,
            results: [0; IDS],
            callbacks: [0; IDS],
            running: HashMap::new(),
        }
    }

    /// The callback of a transfer ends, where there is one.
    fn end(&mut self, number: u64) -> Option<InCallback> {
        let called = self.running.remove(&number)?;
        self.callbacks[usize::from(called.request.endpoint.id())] -= 1;
        Some(called)
    }
}

/// What an event tells of a transfer.
struct Told {
    lane: usize,
    address: Address,
    owner: Name,
    at: usize,
    key: usize,
    number: u64,
    status: Status,
    actual: u32,
}

pub struct Core {
    endpoints: Vec<Option<Endpoint>>,
    pipes: Vec<Option<Pipe>>,
    gone: [bool; DEVICES],
    opened: Vec<Option<DeviceNo>>,
    owners: Vec<Option<Name>>,
    store: Store<Transfer>,
    results: VecDeque<Waiting>,
    callers: Vec<Caller>,
    events: EventRing,
    orders: u64,
}

/// The place of a device's endpoint.
fn lane_of(device: DeviceNo, address: Address) -> usize {
    usize::from(device) * IDS + usize::from(address.id())
}

/// The place of a device's interface.
fn claim_of(device: DeviceNo, interface: u8) -> usize {
    usize::from(device) * INTERFACES + usize::from(interface)
}

/// The status by a code.
fn status_of(gone: bool, code: u8, is_short: bool) -> Status {
    match code {
        1 | 13 if is_short => Status::Error,
        1 | 13 => Status::Completed,
        3 => Status::Overflow,
        4 if gone => Status::NoDevice,
        6 => Status::Stall,
        _ => Status::Error,
    }
}

impl Core {
    pub fn new() -> Core {
        Core {
            endpoints: (0..DEVICES * IDS).map(|_| None).collect(),
            pipes: (0..DEVICES * IDS).map(|_| None).collect(),
            gone: [false; DEVICES],
            opened: vec![None; NAMES],
            owners: vec![None; DEVICES * INTERFACES],
            store: Store::new(),
            results: VecDeque::new(),
            callers: (0..NAMES).map(|_| Caller::new()).collect(),
            events: EventRing::new(),
            orders: 0,
        }
    }

    /// An endpoint of a device.
    pub fn add(&mut self, device: DeviceNo, endpoint: Endpoint, pipe: Pipe) {
        let lane = lane_of(device, endpoint.address);
        self.endpoints[lane] = Some(endpoint);
        self.pipes[lane] = Some(pipe);
    }

    /// A name opens a device, and claims its interface 0.
    pub fn open(&mut self, name: Name, device: DeviceNo) {
        self.opened[usize::from(name)] = Some(device);
        self.owners[claim_of(device, 0)] = Some(name);
    }

    /// The name that holds an endpoint.
    fn holder(&self, device: DeviceNo, endpoint: &Endpoint) -> Option<Name> {
        self.owners[claim_of(device, endpoint.interface)]
    }

    /// The lane where a request is to go, or what it is refused for.
    fn place(&self, name: Name, request: &Request) -> Result<usize, Refused> {
        let device = self.opened.get(usize::from(name)).copied().flatten();
        let device = device.ok_or(Refused::NotFound)?;
        let lane = lane_of(device, request.endpoint);
        let endpoint = self.endpoints[lane].as_ref().ok_or(Refused::NotFound)?;
        if endpoint.address != request.endpoint || self.holder(device, endpoint) != Some(name) {
            return Err(Refused::NotFound);
        }
        if self.gone[usize::from(device)] {
            return Err(Refused::NoDevice);
        }
        if matches!(endpoint.kind, Kind::Control | Kind::Isochronous) {
            return Err(Refused::NotSupported);
        }
        let inward = matches!(request.body, Body::In(_));
        if request.kind != endpoint.kind
            || inward != request.endpoint.is_in()
            || request.body.length() > MOST_BYTES
        {
            return Err(Refused::InvalidParam);
        }
        let caller = &self.callers[usize::from(name)];
        let results = caller.results[usize::from(request.endpoint.id())];
        if results + endpoint.len() >= PLACES || caller.next == u64::MAX {
            return Err(Refused::Busy);
        }
        Ok(lane)
    }

    /// Submits a transfer, and gives its number; where it is refused the payload comes back.
    pub fn submit(
        &mut self,
        name: Name,
        request: Request,
        payload: u64,
    ) -> Result<u64, (Refused, u64)> {
        let lane = match self.place(name, &request) {
            Ok(lane) => lane,
            Err(why) => return Err((why, payload)),
        };
        self.start(name, lane, request, payload)
            .ok_or((Refused::NotFound, payload))
    }

    fn start(&mut self, name: Name, lane: usize, request: Request, payload: u64) -> Option<u64> {
        let endpoint = self.endpoints[lane].as_mut()?;
        let caller = &mut self.callers[usize::from(name)];
        let number = caller.next;
        let inward = matches!(request.body, Body::In(_));
        let length = request.body.length();
        let room = if inward { length as usize } else { 0 };
        let extra = !inward && request.flags & ADD_ZERO_PACKET != 0 && endpoint.is_whole(length);
        let key = self.store.insert(Transfer {
            number,
            round: 0,
            request,
            bytes: Vec::with_capacity(room),
            payload,
            ask: None,
            name,
        });
        endpoint.push(key, length, inward, extra);
        caller.next += 1;
        Some(number)
    }

    /// The device answers one packet.
    pub fn serve(&mut self, device: DeviceNo, address: Address) -> Entry {
        let lane = lane_of(device, address);
        let (Some(endpoint), Some(pipe)) = (&mut self.endpoints[lane], &mut self.pipes[lane])
        else {
            return IDLE;
        };
        let owner = self.owners[claim_of(device, endpoint.interface)];
        if owner.is_none() || endpoint.address != address {
            return IDLE;
        }
        let reply = match endpoint.serve(pipe, &mut self.store, &mut self.events) {
            None => Reply::Idle,
            Some((number, Packet::Nak)) => Reply::Nak(number),
            Some((number, Packet::Moved(bytes))) => Reply::Moved(number, bytes),
            Some((number, Packet::Ended(code))) => Reply::Ended(number, code),
        };
        Entry { owner, reply }
    }

    /// The oldest event is handled.
    pub fn deliver(&mut self) -> Entry {
        let Some((_, event)) = self.events.take() else {
            return IDLE;
        };
        match self.told(&event) {
            Some((told, code)) => self.finish(told, code),
            None => IDLE,
        }
    }

    /// What an event tells, and by which code.
    fn told(&self, event: &trb::Kind) -> Option<(Told, u8)> {
        let trb::Kind::TransferEvent {
            pointer,
            residual,
            code,
            slot,
            id,
        } = *event
        else {
            return None;
        };
        let device = slot - 1;
        let lane = usize::from(device) * IDS + usize::from(id);
        let endpoint = self.endpoints.get(lane)?.as_ref()?;
        let owner = self.holder(device, endpoint)?;
        let (at, trb, key) = endpoint.place_at(pointer)?;
        let transfer = self.store.get(key)?;
        let length = transfer.request.body.length();
        let end = (trb as u32 + 1) * 65_536;
        let actual = end.min(length) - residual;
        let is_short = transfer.request.flags & SHORT_NOT_OK != 0 && actual < length;
        let told = Told {
            lane,
            address: endpoint.address,
            owner,
            at,
            key,
            number: transfer.number,
            status: status_of(self.gone[usize::from(device)], code, is_short),
            actual,
        };
        Some((told, code))
    }

    /// A transfer ended.
    fn finish(&mut self, told: Told, code: u8) -> Entry {
        let Told {
            key,
            status,
            actual,
            ..
        } = told;
        self.results.push_back(Waiting {
            key,
            status,
            actual,
        });
        self.callers[usize::from(told.owner)].results[usize::from(told.address.id())] += 1;
        if let Some(endpoint) = &mut self.endpoints[told.lane] {
            self.orders += u64::from(endpoint.finish(told.at, code));
        }
        Entry {
            owner: Some(told.owner),
            reply: Reply::Finished(told.number),
        }
    }

    /// How many bytes the next result has that is taken; 0 where none waits.
    pub fn next_len(&self) -> usize {
        let transfer = self
            .results
            .front()
            .and_then(|waiting| self.store.get(waiting.key));
        transfer.map_or(0, |transfer| transfer.bytes.len())
    }

    /// The oldest result goes out to its callback, with what was kept with it.
    pub fn take(&mut self) -> Option<(Returned, u64)> {
        let Waiting {
            key,
            status,
            actual,
        } = self.results.pop_front()?;
        let Transfer {
            number,
            round,
            request,
            bytes,
            payload,
            name,
            ..
        } = self.store.remove(key)?;
        let endpoint = request.endpoint;
        let caller = &mut self.callers[usize::from(name)];
        let id = usize::from(endpoint.id());
        caller.results[id] -= 1;
        caller.callbacks[id] += 1;
        caller.running.insert(
            number,
            InCallback {
                request,
                round,
                status,
            },
        );
        let returned = Returned {
            name,
            number,
            endpoint,
            round,
            status,
            actual,
            bytes,
        };
        Some((returned, payload))
    }

    /// Ends the callback of a transfer.
    pub fn stop(&mut self, name: Name, number: u64) -> Reply {
        match self.callers[usize::from(name)].end(number) {
            Some(_) => Reply::Done,
            None => Reply::Refused(Refused::NotFound),
        }
    }

    /// Whether nothing is under way at the endpoints that a name holds of a device.
    fn are_quiet(&self, name: Name, device: DeviceNo) -> bool {
        let caller = &self.callers[usize::from(name)];
        (0..IDS).all(|id| match &self.endpoints[usize::from(device) * IDS + id] {
            Some(endpoint) if self.holder(device, endpoint) == Some(name) => {
                endpoint.rests() && caller.results[id] == 0 && caller.callbacks[id] == 0
            }
            _ => true,
        })
    }

    /// Resets the name's device.
    pub fn reset(&mut self, name: Name) -> Reply {
        let Some(device) = self.opened[usize::from(name)] else {
            return Reply::Refused(Refused::NotFound);
        };
        if self.gone[usize::from(device)] {
            return Reply::Refused(Refused::NoDevice);
        }
        if !self.are_quiet(name, device) {
            return Reply::Refused(Refused::Busy);
        }
        let first = usize::from(device) * IDS;
        for lane in first..first + IDS {
            if let (Some(endpoint), Some(pipe)) = (&mut self.endpoints[lane], &mut self.pipes[lane])
            {
                if self.owners[claim_of(device, endpoint.interface)] == Some(name) {
                    endpoint.renew();
                    pipe.rewind();
                }
            }
        }
        Reply::Done
    }
}
