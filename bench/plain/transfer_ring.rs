//! A transfer ring.

use super::trb::{decode, encode, Kind, Trb};

/// The index of the Link.
const LINK: usize = 127;

/// So many places can be in use.
pub const ROOM: usize = 126;

/// What a Normal TRB says.
#[derive(Clone, Copy)]
pub struct Piece {
    pub buffer: u64,
    pub length: u32,
    pub chain: bool,
    pub done: bool,
}

/// 128 TRBs, the last a Link to the first.
pub struct TransferRing {
    base: u64,
    cells: Vec<[u8; 16]>,
    used: usize,
    waiting: usize,
    enqueue: usize,
    enqueue_cycle: bool,
    dequeue: usize,
    dequeue_cycle: bool,
}

/// The index so many behind another one, as far as the Link.
fn behind(index: usize, count: usize) -> usize {
    let sum = index + count;
    if sum < LINK {
        sum
    } else {
        sum - LINK
    }
}

impl TransferRing {
    pub fn new(base: u64) -> TransferRing {
        TransferRing {
            base,
            cells: vec![[0; 16]; LINK + 1],
            used: 0,
            waiting: 0,
            enqueue: 0,
            enqueue_cycle: true,
            dequeue: 0,
            dequeue_cycle: true,
        }
    }

    /// Whether one TRB more fits.
    pub fn fits(&self) -> bool {
        self.used < ROOM
    }

    fn write(&mut self, at: usize, kind: Kind) {
        self.cells[at] = encode(&Trb {
            kind,
            cycle: self.enqueue_cycle,
        });
    }

    /// Puts a TRB behind the others.
    pub fn put(&mut self, kind: Kind) {
        self.write(self.enqueue, kind);
        self.enqueue += 1;
        if self.enqueue == LINK {
            let chain = matches!(kind, Kind::Normal { chain: true, .. });
            self.write(
                LINK,
                Kind::Link {
                    segment: self.base,
                    toggle: true,
                    chain,
                },
            );
            self.enqueue = 0;
            self.enqueue_cycle = !self.enqueue_cycle;
        }
        self.used += 1;
        self.waiting += 1;
    }

    /// The TRB at dequeue, with its address.
    pub fn front(&self) -> Option<(u64, Trb)> {
        let trb = decode(&self.cells[self.dequeue])?;
        (trb.cycle == self.dequeue_cycle).then(|| (self.address(self.dequeue), trb))
    }

    /// The Normal TRB so many behind dequeue, with its address.
    pub fn piece(&self, count: usize) -> Option<(u64, Piece)> {
        if self.waiting <= count {
            return None;
        }
        let at = behind(self.dequeue, count);
        match decode(&self.cells[at])?.kind {
            Kind::Normal {
                buffer,
                length,
                chain,
                done,
                ..
            } => Some((
                self.address(at),
                Piece {
                    buffer,
                    length,
                    chain,
                    done,
                },
            )),
            _ => None,
        }
    }

    /// The address of a TRB.
    fn address(&self, index: usize) -> u64 {
        self.base + index as u64 * 16
    }

    /// How many places the TRB of an address stands behind the first that is in use.
    pub fn place_of(&self, address: u64) -> usize {
        let index = (address - self.base) as usize / 16;
        let first = behind(self.enqueue, LINK - self.used);
        behind(index, LINK - first)
    }

    /// Dequeue goes past so many TRBs.
    pub fn pass(&mut self, count: usize) {
        let sum = self.dequeue + count;
        self.waiting -= count;
        if sum < LINK {
            self.dequeue = sum;
        } else {
            self.dequeue = sum - LINK;
            self.dequeue_cycle = !self.dequeue_cycle;
        }
    }

    fn is_at_no_op(&self) -> bool {
        self.cells[self.dequeue][13] >> 2 == 8
    }

    /// Dequeue goes past its TRB, and the No Ops behind it.
    pub fn advance(&mut self) {
        self.pass(1);
        while self.waiting > 0 && self.is_at_no_op() {
            self.pass(1);
        }
    }

    /// The first TRBs that are in use aren't any more.
    pub fn leave(&mut self, count: usize) {
        self.used -= count;
    }

    /// All is as it was made.
    pub fn clear(&mut self) {
        self.cells.fill([0; 16]);
        self.used = 0;
        self.waiting = 0;
        self.enqueue = 0;
        self.enqueue_cycle = true;
        self.dequeue = 0;
        self.dequeue_cycle = true;
    }
}
