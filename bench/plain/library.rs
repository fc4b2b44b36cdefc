//! A library: one lock around the core, with a journal or without one.

use super::core::{Core, IDLE};
use super::journal::{Asked, Journal, Told};
use super::model::{Address, DeviceNo, Name, Request};
use super::traffic::{core, Calls, Traffic};
use crate::shape::Shape;
use std::sync::{Mutex, MutexGuard, PoisonError};

/// What lies under the lock.
struct Desk {
    core: Core,
    journal: Option<Journal>,
}

struct Library {
    desk: Mutex<Desk>,
}

impl Library {
    fn lock(&self) -> MutexGuard<'_, Desk> {
        self.desk.lock().unwrap_or_else(PoisonError::into_inner)
    }
}

impl Desk {
    /// Room for a place more, whose reply has so many bytes.
    fn reserve(&mut self, bytes: usize) {
        if let Some(journal) = &mut self.journal {
            journal.reserve(bytes);
        }
    }

    fn submit(&mut self, name: Name, request: Request, payload: u64) -> Option<u64> {
        self.reserve(0);
        let asked = Asked::submit(name, &request);
        let answer = self.core.submit(name, request, payload);
        if let Some(journal) = &mut self.journal {
            let told = match answer {
                Ok(number) => Told::Number(number),
                Err((why, _)) => Told::Refused(why),
            };
            journal.keep(asked, Some(name), told);
        }
        answer.ok()
    }

    fn serve(&mut self, device: DeviceNo, endpoint: Address) {
        self.reserve(0);
        let entry = self.core.serve(device, endpoint);
        if let Some(journal) = &mut self.journal {
            journal.keep_entry(Asked::Serve(device, endpoint), entry);
        }
    }

    fn deliver(&mut self) {
        self.reserve(0);
        let entry = self.core.deliver();
        if let Some(journal) = &mut self.journal {
            journal.keep_entry(Asked::Deliver, entry);
        }
    }

    fn take(&mut self) -> Option<u64> {
        self.reserve(self.core.next_len());
        let taken = self.core.take();
        if let Some(journal) = &mut self.journal {
            match &taken {
                Some((returned, _)) => journal.keep_called(returned),
                None => journal.keep_entry(Asked::Take, IDLE),
            }
        }
        let (returned, payload) = taken?;
        Some(returned.weight(payload))
    }

    fn stop(&mut self, name: Name, number: u64) {
        self.reserve(0);
        let reply = self.core.stop(name, number);
        if let Some(journal) = &mut self.journal {
            journal.keep(Asked::Stop(name, number), Some(name), Told::Replied(reply));
        }
    }

    fn reset(&mut self, name: Name) {
        self.reserve(0);
        let reply = self.core.reset(name);
        if let Some(journal) = &mut self.journal {
            journal.keep(Asked::Reset(name), Some(name), Told::Replied(reply));
        }
    }
}

impl Calls for Library {
    #[inline(never)]
    fn submit(&mut self, name: Name, request: Request, payload: u64) -> Option<u64> {
        self.lock().submit(name, request, payload)
    }

    #[inline(never)]
    fn serve(&mut self, device: DeviceNo, endpoint: Address) {
        self.lock().serve(device, endpoint);
    }

    #[inline(never)]
    fn deliver(&mut self) {
        self.lock().deliver();
    }

    #[inline(never)]
    fn take(&mut self) -> u64 {
        self.lock().take().unwrap_or(0)
    }

    #[inline(never)]
    fn stop(&mut self, name: Name, number: u64) {
        self.lock().stop(name, number);
    }

    #[inline(never)]
    fn reset(&mut self, name: Name) {
        self.lock().reset(name);
    }
}

/// Traffic of a shape through a library.
fn traffic(shape: &Shape, journal: Option<Journal>) -> Traffic<impl Calls + use<>> {
    let desk = Mutex::new(Desk {
        core: core(shape),
        journal,
    });
    Traffic::new(Library { desk }, shape)
}

/// So many transfers through a library with a journal.
pub fn recorded(shape: &Shape, turns: u64) -> u64 {
    traffic(shape, Some(Journal::default())).turn(turns)
}

/// The same with none.
pub fn unrecorded(shape: &Shape, turns: u64) -> u64 {
    traffic(shape, None).turn(turns)
}
