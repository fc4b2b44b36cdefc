//! Events posted and taken.

use super::event_ring::EventRing;
use super::trb::{Kind, Trb};

/// A turn's event.
fn event(turn: u64) -> Kind {
    Kind::TransferEvent {
        pointer: turn & !15,
        residual: (turn % 256) as u32,
        code: (turn % 16) as u8,
        slot: 1,
        id: 3,
    }
}

/// Posts a turn's event, where there is room.
fn post(ring: &mut EventRing, turn: u64) -> u64 {
    if ring.fits() {
        ring.post(event(turn)) as u64
    } else {
        0
    }
}

/// Takes the first event.
fn take(ring: &mut EventRing) -> u64 {
    match ring.take() {
        Some((at, kind)) => Trb { kind, cycle: true }.weight() ^ at as u64,
        None => 0,
    }
}

/// So many turns.
pub fn turn(turns: u64) -> u64 {
    let mut ring = EventRing::new();
    let mut sum: u64 = 0;
    for turn in 0..turns {
        let posted = post(&mut ring, turn);
        sum = sum.wrapping_add(posted ^ take(&mut ring).wrapping_mul(3));
    }
    sum
}
