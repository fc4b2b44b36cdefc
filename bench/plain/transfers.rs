//! Transfers of one TRB put on a ring, read, passed and dropped.

use super::transfer_ring::{TransferRing, ROOM};
use super::trb::Kind;
use std::collections::VecDeque;

/// The address of the ring's first TRB.
const BASE: u64 = 0x1002_3000;

/// A transfer ring, and how many TRBs each of its transfers has.
struct Transfers {
    ring: TransferRing,
    counts: VecDeque<usize>,
}

impl Transfers {
    fn push(&mut self, kinds: &[Kind]) {
        for kind in kinds {
            self.ring.put(*kind);
        }
        self.counts.push_back(kinds.len());
    }

    /// A turn's transfer.
    fn turn(&mut self, turn: u64) -> u64 {
        let kind = Kind::Normal {
            buffer: turn,
            length: (turn % 65_536) as u32,
            short: turn % 2 == 0,
            chain: false,
            done: true,
        };
        if self.ring.fits() {
            self.push(&[kind]);
        }
        let mut sum = 0;
        if let Some((address, trb)) = self.ring.front() {
            sum = trb.weight() ^ address;
            self.ring.advance();
        }
        if let Some(count) = self.counts.pop_front() {
            self.ring.leave(count);
        }
        sum
    }
}

/// So many turns.
pub fn turn(turns: u64) -> u64 {
    let mut transfers = Transfers {
        ring: TransferRing::new(BASE),
        counts: VecDeque::with_capacity(ROOM),
    };
    (0..turns).fold(0, |sum: u64, turn| sum.wrapping_add(transfers.turn(turn)))
}
