//! An event ring.

use super::trb::{decode, encode, Kind, Trb};

/// It has so many TRBs.
const SIZE: usize = 4096;

/// 4,096 TRBs, with no Link.
pub struct EventRing {
    cells: Vec<[u8; 16]>,
    waiting: usize,
    enqueue: usize,
    enqueue_cycle: bool,
    dequeue: usize,
    dequeue_cycle: bool,
}

/// The index behind one, and the cycle state there.
fn behind(index: usize, cycle: bool) -> (usize, bool) {
    if index < SIZE - 1 {
        (index + 1, cycle)
    } else {
        (0, !cycle)
    }
}

impl EventRing {
    pub fn new() -> EventRing {
        EventRing {
            cells: vec![[0; 16]; SIZE],
            waiting: 0,
            enqueue: 0,
            enqueue_cycle: true,
            dequeue: 0,
            dequeue_cycle: true,
        }
    }

    /// Whether one event more fits.
    pub fn fits(&self) -> bool {
        self.waiting < SIZE - 1
    }

    /// Puts an event behind the others, and gives its index.
    pub fn post(&mut self, kind: Kind) -> usize {
        let at = self.enqueue;
        self.cells[at] = encode(&Trb {
            kind,
            cycle: self.enqueue_cycle,
        });
        (self.enqueue, self.enqueue_cycle) = behind(at, self.enqueue_cycle);
        self.waiting += 1;
        at
    }

    /// Takes the first event, with its index.
    pub fn take(&mut self) -> Option<(usize, Kind)> {
        let at = self.dequeue;
        let trb = decode(&self.cells[at])?;
        if trb.cycle != self.dequeue_cycle {
            return None;
        }
        (self.dequeue, self.dequeue_cycle) = behind(at, self.dequeue_cycle);
        self.waiting -= 1;
        Some((at, trb.kind))
    }
}
