//! TRBs, encoded and decoded by shifts and masks.

/// Eight kinds of TRB, their fields as bare numbers.
#[derive(Clone, Copy)]
pub enum Kind {
    Normal {
        buffer: u64,
        length: u32,
        short: bool,
        chain: bool,
        done: bool,
    },
    Link {
        segment: u64,
        toggle: bool,
        chain: bool,
    },
    NoOp,
    ResetEndpoint {
        slot: u8,
        id: u8,
    },
    StopEndpoint {
        slot: u8,
        id: u8,
    },
    SetDequeue {
        pointer: u64,
        state: bool,
        slot: u8,
        id: u8,
    },
    TransferEvent {
        pointer: u64,
        residual: u32,
        code: u8,
        slot: u8,
        id: u8,
    },
    CommandCompletion {
        pointer: u64,
        code: u8,
        slot: u8,
    },
}

#[derive(Clone, Copy)]
pub struct Trb {
    pub kind: Kind,
    pub cycle: bool,
}

impl Trb {
    /// A number that depends on it.
    pub fn weight(&self) -> u64 {
        match self.kind {
            Kind::Normal { buffer, length, .. } => buffer.wrapping_add(u64::from(length)),
            Kind::TransferEvent {
                pointer,
                residual,
                code,
                ..
            } => pointer ^ u64::from(residual) ^ u64::from(code),
            _ => 1,
        }
    }
}

fn bit(is_set: bool, place: u32) -> u32 {
    if is_set {
        place
    } else {
        0
    }
}

fn endpoint(slot: u8, id: u8) -> u32 {
    u32::from(slot) << 24 | u32::from(id) << 16
}

/// The three words of a TRB, without its cycle bit.
fn words(kind: &Kind) -> (u64, u32, u32) {
    match *kind {
        Kind::Normal {
            buffer,
            length,
            short,
            chain,
            done,
        } => (
            buffer,
            length,
            1 << 10 | bit(short, 4) | bit(chain, 16) | bit(done, 32),
        ),
        Kind::Link {
            segment,
            toggle,
            chain,
        } => (segment, 0, 6 << 10 | bit(toggle, 2) | bit(chain, 16)),
        Kind::NoOp => (0, 0, 8 << 10),
        Kind::ResetEndpoint { slot, id } => (0, 0, 14 << 10 | endpoint(slot, id)),
        Kind::StopEndpoint { slot, id } => (0, 0, 15 << 10 | endpoint(slot, id)),
        Kind::SetDequeue {
            pointer,
            state,
            slot,
            id,
        } => (pointer | u64::from(state), 0, 16 << 10 | endpoint(slot, id)),
        Kind::TransferEvent {
            pointer,
            residual,
            code,
            slot,
            id,
        } => (
            pointer,
            residual | u32::from(code) << 24,
            32 << 10 | endpoint(slot, id),
        ),
        Kind::CommandCompletion {
            pointer,
            code,
            slot,
        } => (pointer, u32::from(code) << 24, 33 << 10 | endpoint(slot, 0)),
    }
}

/// The bytes of a TRB.
pub fn encode(trb: &Trb) -> [u8; 16] {
    let (parameter, status, control) = words(&trb.kind);
    let mut bytes = [0; 16];
    bytes[..8].copy_from_slice(&parameter.to_le_bytes());
    bytes[8..12].copy_from_slice(&status.to_le_bytes());
    bytes[12..].copy_from_slice(&(control | bit(trb.cycle, 1)).to_le_bytes());
    bytes
}

/// What three words say, where no bit is set that no field has.
fn kind_of(parameter: u64, status: u32, control: u32) -> Option<Kind> {
    let (slot, id) = ((control >> 24) as u8, (control >> 16 & 31) as u8);
    let (pointer, code) = (parameter & !15, (status >> 24) as u8);
    let (is_quiet, is_whole) = (status == 0, parameter == pointer);
    let (endpoint, flags) = (control & 0x00e0_03fe, control & 0xffff_03fe);
    let is_named = slot != 0 && id != 0 && endpoint == 0;
    match control >> 10 & 63 {
        1 if status <= 65_536 && flags & !0x34 == 0 => Some(Kind::Normal {
            buffer: parameter,
            length: status,
            short: control & 4 != 0,
            chain: control & 16 != 0,
            done: control & 32 != 0,
        }),
        6 if is_quiet && is_whole && flags & !0x12 == 0 => Some(Kind::Link {
            segment: pointer,
            toggle: control & 2 != 0,
            chain: control & 16 != 0,
        }),
        8 if is_quiet && parameter == 0 && flags == 0 => Some(Kind::NoOp),
        14 if is_quiet && parameter == 0 && is_named => Some(Kind::ResetEndpoint { slot, id }),
        15 if is_quiet && parameter == 0 && is_named => Some(Kind::StopEndpoint { slot, id }),
        16 if is_quiet && parameter & 14 == 0 && is_named => Some(Kind::SetDequeue {
            pointer,
            state: parameter & 1 != 0,
            slot,
            id,
        }),
        32 if is_whole && is_named => Some(Kind::TransferEvent {
            pointer,
            residual: status & 0x00ff_ffff,
            code,
            slot,
            id,
        }),
        33 if is_whole && status & 0x00ff_ffff == 0 && slot != 0 && control & 0x00ff_03fe == 0 => {
            Some(Kind::CommandCompletion {
                pointer,
                code,
                slot,
            })
        }
        _ => None,
    }
}

/// The TRB that is written as these bytes.
pub fn decode(bytes: &[u8; 16]) -> Option<Trb> {
    let number = u128::from_le_bytes(*bytes);
    let (parameter, status, control) =
        (number as u64, (number >> 64) as u32, (number >> 96) as u32);
    Some(Trb {
        kind: kind_of(parameter, status, control)?,
        cycle: control & 1 != 0,
    })
}
