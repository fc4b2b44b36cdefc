//! What the two workers do: three threads over two queues under one lock, each unparked by the one before it.

use std::collections::VecDeque;
use std::sync::atomic::{AtomicBool, AtomicU64, Ordering};
use std::sync::{Mutex, MutexGuard, PoisonError};
use std::thread::{self, Thread};
use std::time::Instant;

/// How many transfers there are, one after the other.
const TRANSFERS: u64 = 100_000;

/// What lies under the lock: the numbers of transfers that were submitted, and the bytes of those that were served.
#[derive(Default)]
struct Desk {
    submitted: VecDeque<u64>,
    served: VecDeque<[u8; 8]>,
}

/// What the threads share.
#[derive(Default)]
struct Shared {
    desk: Mutex<Desk>,
    stopping: AtomicBool,
    called: AtomicU64,
}

impl Shared {
    fn lock(&self) -> MutexGuard<'_, Desk> {
        self.desk.lock().unwrap_or_else(PoisonError::into_inner)
    }

    /// The oldest that was submitted is served, if there is one.
    fn serve(&self) -> bool {
        let mut desk = self.lock();
        let Some(number) = desk.submitted.pop_front() else {
            return false;
        };
        desk.served.push_back(number.to_le_bytes());
        true
    }

    /// The oldest that was served goes out to its callback, which counts, if there is one.
    fn call(&self) -> bool {
        let taken = self.lock().served.pop_front();
        if taken.is_some() {
            self.called.fetch_add(1, Ordering::SeqCst);
        }
        taken.is_some()
    }

    /// A worker: it does its part while there is something to do, tells who is next, and parks.
    fn work(&self, part: impl Fn(&Shared) -> bool, next: Option<&Thread>) {
        loop {
            let stopping = self.stopping.load(Ordering::SeqCst);
            if part(self) {
                next.into_iter().for_each(Thread::unpark);
            } else if stopping {
                break;
            } else {
                thread::park();
            }
        }
    }

    /// Transfers one after the other, each from its submission to its callback.
    fn transfer_all(&self, controller: &Thread) {
        for number in 0..TRANSFERS {
            self.lock().submitted.push_back(number);
            controller.unpark();
            while self.called.load(Ordering::SeqCst) <= number {
                thread::yield_now();
            }
        }
    }
}

/// The nanoseconds of a transfer.
pub fn nanoseconds() -> u128 {
    let shared = &Shared::default();
    let start = Instant::now();
    thread::scope(|scope| {
        let events = scope.spawn(move || shared.work(Shared::call, None));
        let next = events.thread().clone();
        let controller = scope.spawn(move || shared.work(Shared::serve, Some(&next)));
        shared.transfer_all(controller.thread());
        shared.stopping.store(true, Ordering::SeqCst);
        controller.thread().unpark();
        events.thread().unpark();
        let _ = (controller.join(), events.join());
    });
    start.elapsed().as_nanos() / u128::from(TRANSFERS)
}
