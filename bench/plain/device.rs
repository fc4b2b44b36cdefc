//! A device that answers by scripts.

/// One answer of a script.
#[derive(Clone)]
pub enum Answer {
    Data(Vec<u8>),
    Ack,
}

/// How a device met a packet.
#[derive(Clone, Copy)]
pub enum Act {
    Data(u32),
    Ack,
    Nak,
    Stall,
}

/// An endpoint of a device: its script, the place of the next answer, and the packets that it took.
pub struct Pipe {
    script: Vec<Answer>,
    place: usize,
    halted: bool,
    taken: Vec<u8>,
    ends: Vec<usize>,
}

impl Pipe {
    /// With room for so many packets of so many bytes.
    pub fn new(script: Vec<Answer>, places: usize, bytes: usize) -> Pipe {
        Pipe {
            script,
            place: 0,
            halted: false,
            taken: Vec::with_capacity(places * bytes),
            ends: Vec::with_capacity(places),
        }
    }

    /// A packet from the device joins the bytes, where there is room for it.
    pub fn read(&mut self, room: usize, bytes: &mut Vec<u8>) -> Act {
        if self.halted {
            return Act::Stall;
        }
        let Some(answer) = self.script.get(self.place) else {
            return Act::Nak;
        };
        self.place += 1;
        match answer {
            Answer::Data(packet) => {
                if packet.len() <= room {
                    bytes.extend_from_slice(packet);
                }
                Act::Data(packet.len() as u32)
            }
            Answer::Ack => Act::Ack,
        }
    }

    /// A packet to the device.
    pub fn write(&mut self, packet: &[u8]) -> Act {
        if self.halted {
            return Act::Stall;
        }
        let Some(answer) = self.script.get(self.place) else {
            return Act::Nak;
        };
        self.place += 1;
        match answer {
            Answer::Data(bytes) => Act::Data(bytes.len() as u32),
            Answer::Ack => {
                self.taken.extend_from_slice(packet);
                self.ends.push(self.taken.len());
                Act::Ack
            }
        }
    }

    /// Goes back to the beginning of the script.
    pub fn rewind(&mut self) {
        self.place = 0;
        self.halted = false;
        self.taken.clear();
        self.ends.clear();
    }
}
