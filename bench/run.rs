//! One run of one side of a row: in this process, or in one of its own.

use std::hint::black_box;
use std::io::{Error, Result};
use std::process::Command;
use std::time::Instant;

/// The program of the library in threads, from the top of the repository.
const LOAD: &str = "bin/check_library";

/// That of the rings and the core.
const WORK: &str = "bin/check_parts";

/// What a run gave.
#[derive(Clone, Copy)]
pub struct Run {
    /// A number that depends on all that came out.
    pub sum: u64,
    pub nanoseconds: u64,
}

/// Makes a run here.
pub fn timed(turns: u64, work: impl Fn(u64) -> u64) -> Run {
    let start = Instant::now();
    let sum = black_box(work(black_box(turns)));
    Run {
        sum,
        nanoseconds: start.elapsed().as_nanos() as u64,
    }
}

/// The numbers that a program prints.
fn numbers(command: &mut Command) -> Result<Vec<u64>> {
    let output = command.output()?;
    let text = String::from_utf8_lossy(&output.stdout);
    if !output.status.success() {
        return Err(Error::other(format!("{command:?} failed: {text}")));
    }
    let words = text.split(|character: char| !character.is_ascii_digit());
    Ok(words.filter_map(|word| word.parse().ok()).collect())
}

/// The numbers that the library in threads prints for these words.
pub fn load(words: &[&str]) -> Result<Vec<u64>> {
    numbers(Command::new(LOAD).args(words))
}

/// A run in a process: the last two numbers that it prints are its sum and its nanoseconds.
fn apart(numbers: &[u64]) -> Result<Run> {
    match numbers {
        [.., sum, nanoseconds] => Ok(Run {
            sum: *sum,
            nanoseconds: *nanoseconds,
        }),
        _ => Err(Error::other("a run printed no numbers")),
    }
}

/// So many turns of work that has these numbers.
pub fn work_apart(word: &str, shape: &[u64], turns: u64) -> Result<Run> {
    let words = shape.iter().chain([&turns]).map(u64::to_string);
    apart(&numbers(
        Command::new(WORK).args(["bench", word]).args(words),
    )?)
}

/// So many reads by the library.
pub fn here_apart(word: &str, turns: u64) -> Result<Run> {
    apart(&load(&[word, &turns.to_string()])?)
}

/// So many turns of a plain form, by this program in a process of its own.
pub fn plain_apart(word: &str, turns: u64) -> Result<Run> {
    let program = std::env::current_exe()?;
    apart(&numbers(Command::new(program).args([
        word,
        "plain",
        &turns.to_string(),
    ]))?)
}
