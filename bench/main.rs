//! How fast the library is, each row beside a plain form of the same work (docs/BENCH.md). To be run at the top of the repository.

mod plain;
mod rows;
mod run;
mod shape;
mod table;
mod threads;

use rows::{rows, Row};
use run::Run;
use std::env;
use std::io::{Error, Result};
use std::process::ExitCode;

/// The words, and the names of the rows.
fn usage() -> Error {
    let rows: Vec<&str> = rows().iter().map(|row| row.word).collect();
    Error::other(format!(
        "bench; bench threads; bench ROW here TURNS; bench ROW plain TURNS; the rows: {}",
        rows.join(", ")
    ))
}

/// One side of a row alone.
fn alone(row: &Row, side: &str, turns: u64) -> Result<Run> {
    match side {
        "here" => row.here(turns),
        "plain" => Ok(row.plain(turns)),
        _ => Err(usage()),
    }
}

/// Makes so many turns of one side, and prints what came out.
fn print_alone(word: &str, side: &str, turns: &str) -> Result<()> {
    let row = rows().into_iter().find(|row| row.word == word);
    let row = row.ok_or_else(usage)?;
    let turns = turns.parse().map_err(|_| usage())?;
    let Run { sum, nanoseconds } = alone(&row, side, turns)?;
    println!("{word} {side}: {turns} turns, sum {sum}, {nanoseconds} ns");
    Ok(())
}

/// Does what the words ask for.
fn asked(words: &[&str]) -> Result<()> {
    match *words {
        [] if table::print_all()? => Ok(()),
        [] => Err(Error::other("what came out of a row differs")),
        ["threads"] => threads::print_all(),
        [word, side, turns] => print_alone(word, side, turns),
        _ => Err(usage()),
    }
}

fn main() -> ExitCode {
    let words: Vec<String> = env::args().skip(1).collect();
    let words: Vec<&str> = words.iter().map(String::as_str).collect();
    match asked(&words) {
        Ok(()) => ExitCode::SUCCESS,
        Err(error) => {
            eprintln!("{error}");
            ExitCode::FAILURE
        }
    }
}
