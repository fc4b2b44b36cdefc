//! An endpoint: its ring, its line, and how far the transfer at dequeue has come.

use super::core::Transfer;
use super::device::{Act, Pipe};
use super::event_ring::EventRing;
use super::model::{Address, Body, Kind};
use super::store::Store;
use super::transfer_ring::{Piece, TransferRing};
use super::trb;
use std::collections::VecDeque;

/// A TRB moves at most so many bytes.
const PIECE: u32 = 65_536;

/// Where the first transfer's buffer begins; each has so many bytes.
const BUFFERS: u64 = 0x1_0000_0000;
const BUFFER: u64 = 0x4_0000;

/// The codes of a transfer's end.
const SUCCESS: u8 = 1;
const BABBLE_DETECTED: u8 = 3;
const TRANSACTION_ERROR: u8 = 4;
const STALL_ERROR: u8 = 6;
const SHORT_PACKET: u8 = 13;

/// Whether a code halts the endpoint.
fn halts(code: u8) -> bool {
    matches!(code, BABBLE_DETECTED | TRANSACTION_ERROR | STALL_ERROR)
}

#[derive(Clone, Copy, PartialEq, Eq)]
enum State {
    Running,
    Halted,
}

/// What a packet did.
#[derive(Clone, Copy)]
pub enum Packet {
    Nak,
    Moved(u32),
    Ended(u8),
}

/// A transfer of a line by its key, none where it is a blank, and how many TRBs it has.
struct Item {
    key: Option<usize>,
    count: usize,
}

/// Where a transfer stands: at which TRB from dequeue on, how many of its bytes moved.
struct Standing {
    address: u64,
    piece: Piece,
    index: usize,
    within: u32,
}

pub struct Endpoint {
    ring: TransferRing,
    line: VecDeque<Item>,
    within: u32,
    pub address: Address,
    pub kind: Kind,
    size: u16,
    state: State,
    begun: bool,
    slot: u8,
    pub interface: u8,
    sent: bool,
}

impl Endpoint {
    /// A bulk endpoint of interface 0, at a slot.
    pub fn new(slot: u8, address: Address, size: u16) -> Endpoint {
        let place = u64::from(slot) * 32 + u64::from(address.id());
        Endpoint {
            ring: TransferRing::new(0x1000_0000 + place * 0x1000),
            line: VecDeque::with_capacity(16),
            within: 0,
            address,
            kind: Kind::Bulk,
            size,
            state: State::Running,
            begun: false,
            slot,
            interface: 0,
            sent: false,
        }
    }

    /// How many items its line has.
    pub fn len(&self) -> usize {
        self.line.len()
    }

    /// Whether so many bytes are whole packets.
    pub fn is_whole(&self, length: u32) -> bool {
        length > 0 && length % u32::from(self.size) == 0
    }

    /// Puts a transfer's TRBs on the ring, and the transfer behind the line.
    pub fn push(&mut self, key: usize, length: u32, inward: bool, extra: bool) {
        let mut buffer = BUFFERS + key as u64 * BUFFER;
        let mut left = length;
        let mut count = 1;
        while left > PIECE {
            self.put(buffer, PIECE, inward, true, false);
            buffer += u64::from(PIECE);
            left -= PIECE;
            count += 1;
        }
        self.put(buffer, left, inward, false, !extra);
        if extra {
            self.put(buffer + u64::from(left), 0, inward, false, true);
            count += 1;
        }
        self.line.push_back(Item {
            key: Some(key),
            count,
        });
    }

    fn put(&mut self, buffer: u64, length: u32, short: bool, chain: bool, done: bool) {
        self.ring.put(trb::Kind::Normal {
            buffer,
            length,
            short,
            chain,
            done,
        });
    }

    /// How many bytes are left from dequeue on, as far as a packet needs it, and whether an empty packet comes behind them.
    fn reach(&self, first: &Piece) -> (u32, bool) {
        let wanted = self.within + u32::from(self.size);
        let mut piece = *first;
        let mut sum = piece.length;
        let mut extra = false;
        for index in 1.. {
            if sum > wanted || piece.done {
                break;
            }
            let Some((_, next)) = self.ring.piece(index) else {
                break;
            };
            extra = extra || !piece.chain;
            piece = next;
            sum += piece.length;
        }
        (sum.saturating_sub(self.within), extra)
    }

    /// Where the transfer stands so many bytes on.
    fn standing(&self, address: u64, first: &Piece, count: u32) -> Standing {
        let mut at = Standing {
            address,
            piece: *first,
            index: 0,
            within: self.within + count,
        };
        while at.within >= at.piece.length && !at.piece.done {
            let Some((address, piece)) = self.ring.piece(at.index + 1) else {
                break;
            };
            at = Standing {
                address,
                piece,
                index: at.index + 1,
                within: at.within - at.piece.length,
            };
        }
        at
    }

    /// Past the transfer at dequeue, and the No Ops behind it.
    fn go_past(&mut self, first: &Piece) {
        let mut piece = *first;
        let mut count = 0;
        while !piece.done {
            let Some((_, next)) = self.ring.piece(count + 1) else {
                break;
            };
            piece = next;
            count += 1;
        }
        self.ring.pass(count);
        self.ring.advance();
        self.within = 0;
        self.begun = false;
    }

    fn go_on(&mut self, at: &Standing, count: u32) {
        self.ring.pass(at.index);
        self.within = at.within;
        self.begun |= count > 0;
    }

    /// One packet of the transfer at dequeue, and the transfer's number.
    pub fn serve(
        &mut self,
        pipe: &mut Pipe,
        store: &mut Store<Transfer>,
        events: &mut EventRing,
    ) -> Option<(u64, Packet)> {
        if self.state != State::Running {
            return None;
        }
        let (address, first) = self.ring.piece(0)?;
        let key = (first.buffer - BUFFERS) / BUFFER;
        let transfer = store.get_mut(key as usize)?;
        let (room, extra) = self.reach(&first);
        let most = room.min(u32::from(self.size));
        let act = answer(transfer, pipe, &first, self.within, most);
        let (count, code) = self.decide(room, extra, act);
        let at = self.standing(address, &first, count);
        let packet = match code {
            Some(code) => self.end(&at, &first, count, code, events),
            None => {
                self.go_on(&at, count);
                moved(act, count)
            }
        };
        Some((transfer.number, packet))
    }

    /// The transfer at dequeue ends by a code.
    fn end(
        &mut self,
        at: &Standing,
        first: &Piece,
        count: u32,
        code: u8,
        events: &mut EventRing,
    ) -> Packet {
        events.post(trb::Kind::TransferEvent {
            pointer: at.address,
            residual: at.piece.length.saturating_sub(at.within),
            code,
            slot: self.slot,
            id: self.address.id(),
        });
        if halts(code) {
            self.go_on(at, count);
            self.state = State::Halted;
        } else {
            self.go_past(first);
        }
        Packet::Ended(code)
    }

    /// How many bytes moved, and with which code the transfer ended.
    fn decide(&self, room: u32, extra: bool, act: Act) -> (u32, Option<u8>) {
        let size = u32::from(self.size);
        match act {
            Act::Data(count) if count > size.min(room) => (0, Some(BABBLE_DETECTED)),
            Act::Data(count) if count == room => (count, Some(SUCCESS)),
            Act::Data(count) if count < size => (count, Some(SHORT_PACKET)),
            Act::Data(count) => (count, None),
            Act::Ack if size < room || extra && room > 0 => (size.min(room), None),
            Act::Ack => (size.min(room), Some(SUCCESS)),
            Act::Nak => (0, None),
            Act::Stall => (0, Some(STALL_ERROR)),
        }
    }

    /// The item that has the TRB of an address, which of its TRBs that is, and its key.
    pub fn place_at(&self, address: u64) -> Option<(usize, usize, usize)> {
        let mut rest = self.ring.place_of(address);
        for (at, item) in self.line.iter().enumerate() {
            if rest < item.count {
                return Some((at, rest, item.key?));
            }
            rest -= item.count;
        }
        None
    }

    /// An item ended by a code: it leaves the line with those before it, and with the blanks behind it where the endpoint
    /// goes on. Whether an order is to be sent.
    pub fn finish(&mut self, at: usize, code: u8) -> bool {
        for _ in 0..=at {
            self.leave();
        }
        if !halts(code) {
            while let Some(Item { key: None, .. }) = self.line.front() {
                self.leave();
            }
        }
        let sends = halts(code) && !self.sent;
        self.sent |= sends;
        sends
    }

    /// The first item leaves the line.
    fn leave(&mut self) {
        if let Some(item) = self.line.pop_front() {
            self.ring.leave(item.count);
        }
    }

    /// Whether nothing is under way.
    pub fn rests(&self) -> bool {
        self.line.is_empty() && !self.sent
    }

    /// All is as it was made.
    pub fn renew(&mut self) {
        self.ring.clear();
        self.within = 0;
        self.begun = false;
        self.state = State::Running;
    }
}

/// The device's answer to a packet of so many bytes at most.
fn answer(transfer: &mut Transfer, pipe: &mut Pipe, first: &Piece, within: u32, most: u32) -> Act {
    match &transfer.request.body {
        Body::In(_) => pipe.read(most as usize, &mut transfer.bytes),
        Body::Out(bytes) => {
            let start = (first.buffer % BUFFER) as usize + within as usize;
            match bytes.get(start..start + most as usize) {
                Some(packet) => pipe.write(packet),
                None => Act::Nak,
            }
        }
    }
}

/// What is told of an act that didn't end the transfer.
fn moved(act: Act, count: u32) -> Packet {
    match act {
        Act::Nak => Packet::Nak,
        _ => Packet::Moved(count),
    }
}
