//! Whole transfers through a core: submitted, served, delivered, taken, ended.

use super::core::Core;
use super::device::{Answer, Pipe};
use super::endpoint::Endpoint;
use super::model::{Address, Body, DeviceNo, Kind, Name, Request};
use crate::shape::Shape;

/// The calls of a core or of a library. They are kept out of line, so that a profile tells them apart.
pub trait Calls {
    /// Submits a transfer, and gives its number.
    fn submit(&mut self, name: Name, request: Request, payload: u64) -> Option<u64>;

    /// The device answers one packet.
    fn serve(&mut self, device: DeviceNo, endpoint: Address);

    /// The oldest event is handled.
    fn deliver(&mut self);

    /// The oldest result goes out; the number depends on all of it.
    fn take(&mut self) -> u64;

    /// The callback of a transfer ends.
    fn stop(&mut self, name: Name, number: u64);

    /// The name's device is reset.
    fn reset(&mut self, name: Name);
}

impl Calls for Core {
    #[inline(never)]
    fn submit(&mut self, name: Name, request: Request, payload: u64) -> Option<u64> {
        self.submit(name, request, payload).ok()
    }

    #[inline(never)]
    fn serve(&mut self, device: DeviceNo, endpoint: Address) {
        self.serve(device, endpoint);
    }

    #[inline(never)]
    fn deliver(&mut self) {
        self.deliver();
    }

    #[inline(never)]
    fn take(&mut self) -> u64 {
        self.take()
            .map_or(0, |(returned, payload)| returned.weight(payload))
    }

    #[inline(never)]
    fn stop(&mut self, name: Name, number: u64) {
        self.stop(name, number);
    }

    #[inline(never)]
    fn reset(&mut self, name: Name) {
        self.reset(name);
    }
}

/// An endpoint that is used, and the name that holds it.
#[derive(Clone, Copy)]
struct Target {
    name: Name,
    device: DeviceNo,
    endpoint: Address,
}

/// The address of the endpoint of this index, 0 to 29.
fn address(index: u8) -> Address {
    let number = index / 2 % 15 + 1;
    Address(if index % 2 == 0 { number + 128 } else { number })
}

/// The name that holds a device.
fn holder(device: DeviceNo) -> Name {
    device + 1
}

/// The script of an endpoint: packets whose bytes are numbered from 1 on, 255 followed by 0, or acknowledgements.
fn script(shape: &Shape, endpoint: Address) -> Vec<Answer> {
    if !endpoint.is_in() {
        return vec![Answer::Ack; shape.answers as usize];
    }
    let mut number: u8 = 0;
    let mut byte = || {
        number = number.wrapping_add(1);
        number
    };
    let mut packet = || (0..shape.size).map(|_| byte()).collect();
    (0..shape.answers).map(|_| Answer::Data(packet())).collect()
}

/// A device's part of an endpoint.
fn pipe(shape: &Shape, endpoint: Address) -> Pipe {
    let places = if endpoint.is_in() {
        0
    } else {
        shape.answers as usize
    };
    Pipe::new(script(shape, endpoint), places, usize::from(shape.size))
}

/// A core in which a name holds each device.
pub fn core(shape: &Shape) -> Core {
    let mut core = Core::new();
    for device in 0..shape.devices {
        for endpoint in (0..shape.endpoints).map(address) {
            core.add(
                device,
                Endpoint::new(device + 1, endpoint, shape.size),
                pipe(shape, endpoint),
            );
        }
        core.open(holder(device), device);
    }
    core
}

/// The endpoints of all devices, device by device.
fn targets(shape: &Shape) -> Vec<Target> {
    let of_device = |device| {
        (0..shape.endpoints).map(move |index| Target {
            name: holder(device),
            device,
            endpoint: address(index),
        })
    };
    (0..shape.devices).flat_map(of_device).collect()
}

/// A core, and what is asked of it. A turn is one transfer; as many as are in their callbacks at once are made together.
pub struct Traffic<C> {
    calls: C,
    shape: Shape,
    targets: Vec<Target>,
    numbers: Vec<(Name, u64)>,
    payload: u64,
    left: u32,
}

impl<C: Calls> Traffic<C> {
    /// Traffic through what was made of `core(shape)`.
    pub fn new(calls: C, shape: &Shape) -> Traffic<C> {
        Traffic {
            calls,
            shape: *shape,
            targets: targets(shape),
            numbers: Vec::new(),
            payload: 0,
            left: shape.answers,
        }
    }

    /// So many transfers.
    pub fn turn(&mut self, turns: u64) -> u64 {
        let answers = self.answers();
        let mut sum: u64 = 0;
        for _ in 0..turns / self.shape.round() {
            self.make_ready(answers);
            sum = sum.wrapping_add(self.round());
        }
        sum
    }

    /// How many answers a round takes from each endpoint that is used.
    fn answers(&self) -> u32 {
        let others = self.targets.len() as u64 - self.shape.first;
        let used = self.shape.at_once.min(others);
        self.shape.packets() * (self.shape.round() / used) as u32
    }

    /// The devices are reset where their scripts are too short for so many answers more.
    fn make_ready(&mut self, answers: u32) {
        if self.left < answers {
            for device in 0..self.shape.devices {
                self.calls.reset(holder(device));
            }
            self.left = self.shape.answers;
        }
        self.left -= answers;
    }

    /// As many transfers as are in their callbacks at once, to their ends.
    fn round(&mut self) -> u64 {
        let mut sum: u64 = 0;
        for _ in 0..self.shape.groups {
            sum = sum.wrapping_add(self.group());
        }
        for (name, number) in self.numbers.drain(..) {
            self.calls.stop(name, number);
        }
        sum
    }

    /// As many transfers as are in flight at once, up to their callbacks.
    fn group(&mut self) -> u64 {
        let mut sum: u64 = 0;
        for at in 0..self.shape.at_once {
            self.submit(at);
        }
        for at in 0..self.shape.at_once {
            self.serve(at);
        }
        for _ in 0..self.shape.at_once {
            self.calls.deliver();
        }
        for _ in 0..self.shape.at_once {
            sum = sum.wrapping_add(self.calls.take());
        }
        sum
    }

    /// The endpoint of a transfer.
    fn target(&self, at: u64) -> Target {
        let first = self.shape.first as usize;
        match self.targets.get(first + at as usize) {
            Some(target) => *target,
            None => self.targets[first],
        }
    }

    /// What is asked of an endpoint.
    fn request(&self, target: &Target) -> Request {
        let body = if target.endpoint.is_in() {
            Body::In(self.shape.length)
        } else {
            Body::Out(vec![7; self.shape.length as usize])
        };
        Request {
            endpoint: target.endpoint,
            kind: Kind::Bulk,
            flags: 0,
            timeout: 0,
            body,
        }
    }

    fn submit(&mut self, at: u64) {
        let target = self.target(at);
        let request = self.request(&target);
        self.payload += 1;
        if let Some(number) = self.calls.submit(target.name, request, self.payload) {
            self.numbers.push((target.name, number));
        }
    }

    fn serve(&mut self, at: u64) {
        let target = self.target(at);
        for _ in 0..self.shape.packets() {
            self.calls.serve(target.device, target.endpoint);
        }
    }
}

/// So many transfers of a shape through a core.
pub fn turn(shape: &Shape, turns: u64) -> u64 {
    Traffic::new(core(shape), shape).turn(turns)
}

/// So many resets of the first device of a shape.
pub fn reset(shape: &Shape, turns: u64) -> u64 {
    let mut core = core(shape);
    let mut sum: u64 = 0;
    for turn in 0..turns {
        Calls::reset(&mut core, holder(0));
        sum = sum.wrapping_add(turn);
    }
    sum
}
