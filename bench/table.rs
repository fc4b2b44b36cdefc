//! The table: the nanoseconds of a turn, here and in the plain form.

use crate::rows::{rows, Row, Work};
use crate::run::{plain_apart, Run};
use std::io::Result;

/// So many runs are made of each side, of which the least time counts.
const RUNS: u32 = 5;

/// The least times of runs of one length, and what came out of each.
struct Least {
    sum: u64,
    nanoseconds: u64,
}

/// The least time of some runs. All give the same sum.
struct Side {
    once: Least,
    twice: Least,
}

impl Least {
    fn new() -> Least {
        Least {
            sum: 0,
            nanoseconds: u64::MAX,
        }
    }

    fn keep(&mut self, run: Run) {
        self.sum = run.sum;
        self.nanoseconds = self.nanoseconds.min(run.nanoseconds);
    }
}

impl Side {
    fn new() -> Side {
        Side {
            once: Least::new(),
            twice: Least::new(),
        }
    }

    /// The nanoseconds of a turn: so many turns take the difference of the two, and what is made before them counts in neither.
    fn of_a_turn(&self, turns: u64) -> f64 {
        let taken = self.twice.nanoseconds as f64 - self.once.nanoseconds as f64;
        taken / turns as f64
    }

    fn sums(&self) -> (u64, u64) {
        (self.once.sum, self.twice.sum)
    }
}

/// A run of the plain form: in a process of its own where it is so on the other side.
fn plainly(row: &Row, turns: u64) -> Result<Run> {
    match row.work {
        Work::Library(_) => plain_apart(row.word, turns),
        _ => Ok(row.plain(turns)),
    }
}

/// Both sides of a row, in turn.
fn both(row: &Row) -> Result<(Side, Side)> {
    let (mut here, mut plain) = (Side::new(), Side::new());
    for _ in 0..RUNS {
        here.once.keep(row.here(row.turns)?);
        plain.once.keep(plainly(row, row.turns)?);
        here.twice.keep(row.here(2 * row.turns)?);
        plain.twice.keep(plainly(row, 2 * row.turns)?);
    }
    Ok((here, plain))
}

/// The row of a core that isn't new: what a turn takes behind so many, beside a tenth of that.
fn both_ages(row: &Row) -> Result<(f64, f64)> {
    let (mut later, mut sooner) = (Side::new(), Side::new());
    let few = row.turns / 10;
    for _ in 0..RUNS {
        later.once.keep(row.here(row.turns)?);
        later.twice.keep(row.here(2 * row.turns)?);
        sooner.once.keep(row.here(few)?);
        sooner.twice.keep(row.here(2 * few)?);
    }
    Ok((later.of_a_turn(row.turns), sooner.of_a_turn(few)))
}

/// Prints a row.
fn print(title: &str, here: f64, plain: f64, remark: &str) {
    let ratio = here / plain;
    println!("{title:<46} {here:>8.1} {plain:>8.1} {ratio:>6.2}  {remark}");
}

/// Measures a row, and prints it. Whether what came out agrees.
fn measure(row: &Row) -> Result<bool> {
    if let Work::Later(_) = row.work {
        let (later, sooner) = both_ages(row)?;
        print(row.title, later, sooner, "beside the 5,000th");
        return Ok(true);
    }
    let (here, plain) = both(row)?;
    let agrees = here.sums() == plain.sums();
    let remark = if agrees { "agrees" } else { "DIFFERS" };
    let (ours, theirs) = (here.of_a_turn(row.turns), plain.of_a_turn(row.turns));
    print(row.title, ours, theirs, remark);
    Ok(agrees)
}

/// Prints the table. Whether what came out of both sides agrees in each row.
pub fn print_all() -> Result<bool> {
    println!(
        "nanoseconds a turn, of the least times of 5 runs   here    plain  ratio  what came out"
    );
    let mut agree = true;
    for row in rows() {
        agree &= measure(&row)?;
    }
    Ok(agree)
}
