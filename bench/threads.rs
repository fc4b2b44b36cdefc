//! The library in threads, beside plain forms of what its threads do.

use crate::plain::{lock, workers};
use crate::run::load;
use std::io::{Error, Result};

/// The numbers that the library in threads prints for a word.
fn loaded<const N: usize>(word: &str) -> Result<[u64; N]> {
    let numbers = load(&[word])?;
    let count = numbers.len();
    let message = format!("{word}: {count} numbers");
    <[u64; N]>::try_from(numbers).map_err(|_| Error::other(message))
}

/// One transfer after the other, over both workers.
fn latency() -> Result<()> {
    let [here] = loaded("latency")?;
    let plain = workers::nanoseconds();
    println!(
        "latency: submission to callback, {here} ns; three threads in a plain form, {plain} ns"
    );
    Ok(())
}

/// As many in line as an endpoint has places for.
fn rate() -> Result<()> {
    let [here] = loaded("rate")?;
    println!("rate: 16 in line, {here} ns a transfer");
    Ok(())
}

/// One thread and two, each making all calls of its transfers itself.
fn pair() -> Result<()> {
    let [one, two] = loaded("pair")?;
    let (lock_one, lock_two) = (lock::nanoseconds(1), lock::nanoseconds(2));
    println!("pair: one thread, {one} ns a transfer; two, {two} ns");
    println!("pair: five turns of a lock by one thread, {lock_one} ns; by two, {lock_two} ns");
    Ok(())
}

/// Prints all of them.
pub fn print_all() -> Result<()> {
    latency()?;
    rate()?;
    pair()
}
