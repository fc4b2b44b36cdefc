//! What one lock costs two threads: each takes it as often as a transfer does, and holds it about as long.

use std::hint::black_box;
use std::sync::{Mutex, PoisonError};
use std::thread;
use std::time::Instant;

/// How many transfers a thread makes.
const TRANSFERS: u64 = 100_000;

/// How many times a transfer takes the lock: once for each of its five calls.
const CALLS: u64 = 5;

/// How many squares take about as long as a call holds the lock.
const HOLD: u64 = 120;

/// How many lines of a processor's cache a call writes to, about, and how many numbers such a line has.
const LINES: usize = 11;
const APART: usize = 8;

/// The last of a row of squares, each of which waits for the one before it.
fn far_from(number: u64) -> u64 {
    (0..HOLD).fold(number, |number, _| {
        number.wrapping_mul(number).wrapping_add(1)
    })
}

/// Takes a lock as often as a thread's transfers do, and writes to as much memory under it.
fn count(lock: &Mutex<Vec<u64>>) {
    let mut last = 0;
    for _ in 0..TRANSFERS * CALLS {
        let mut numbers = lock.lock().unwrap_or_else(PoisonError::into_inner);
        last = far_from(black_box(last));
        for number in numbers.iter_mut().step_by(APART) {
            *number = number.wrapping_add(last);
        }
    }
}

/// The nanoseconds of five such turns of a lock, of so many threads: a transfer, of all that they make together.
pub fn nanoseconds(threads: u64) -> u128 {
    let lock = Mutex::new(vec![0; LINES * APART]);
    let start = Instant::now();
    thread::scope(|scope| {
        for _ in 0..threads {
            scope.spawn(|| count(&lock));
        }
    });
    start.elapsed().as_nanos() / u128::from(TRANSFERS * threads)
}
