//! TRBs written to cells, and read from others.

use super::trb::{decode, encode, Kind, Trb};

/// So many cells are written and read in turn.
const CELLS: usize = 128;

/// A turn's Normal TRB.
fn normal(turn: u64) -> Trb {
    let kind = Kind::Normal {
        buffer: turn,
        length: (turn % 65_536) as u32,
        short: turn % 2 == 0,
        chain: turn % 3 == 0,
        done: turn % 5 == 0,
    };
    Trb {
        kind,
        cycle: turn % 7 == 0,
    }
}

/// So many turns.
pub fn turn(turns: u64) -> u64 {
    let mut cells = vec![[0; 16]; CELLS];
    let mut sum = 0;
    for turn in 0..turns {
        cells[turn as usize % CELLS] = encode(&normal(turn));
        if let Some(trb) = decode(&cells[turn as usize * 7 % CELLS]) {
            sum = trb.weight().wrapping_add(sum);
        }
    }
    sum
}
