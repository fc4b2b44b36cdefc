//! The rows of the table: what each does here, and in its plain form.

use crate::plain::{coding, events, library, traffic, transfers};
use crate::run::{here_apart, timed, work_apart, Run};
use crate::shape::{Shape, CALLED, EVERYWHERE, LONG, LONGEST, PACKETS, READ, SIXTEEN, WIDE, WRITE};
use std::io::Result;

/// What a row does.
#[derive(Clone, Copy)]
pub enum Work {
    /// A ring's work: crates/check_parts here, as of all but the library, and a function for the plain form.
    Part(fn(u64) -> u64),
    /// Transfers through the core.
    Traffic(Shape),
    /// Resets of a device.
    Resets(Shape),
    /// Transfers through a core that isn't new. The table shows no plain form.
    Later(Shape),
    /// Transfers through the library: crates/check_library here, and a function for the plain form.
    Library(fn(&Shape, u64) -> u64),
}

pub struct Row {
    /// Its name on the command line.
    pub word: &'static str,
    /// What a turn is.
    pub title: &'static str,
    /// How many turns are measured.
    pub turns: u64,
    pub work: Work,
}

impl Row {
    /// So many turns here.
    pub fn here(&self, turns: u64) -> Result<Run> {
        match self.work {
            Work::Part(_) => work_apart(self.word, &[], turns),
            Work::Traffic(shape) | Work::Later(shape) => {
                work_apart("traffic", &shape.numbers(), turns)
            }
            Work::Resets(shape) => work_apart("resets", &shape.numbers(), turns),
            Work::Library(_) => here_apart(self.word, turns),
        }
    }

    /// So many turns of the plain form.
    pub fn plain(&self, turns: u64) -> Run {
        match self.work {
            Work::Part(plain) => timed(turns, plain),
            Work::Traffic(shape) | Work::Later(shape) => {
                timed(turns, |turns| traffic::turn(&shape, turns))
            }
            Work::Resets(shape) => timed(turns, |turns| traffic::reset(&shape, turns)),
            Work::Library(plain) => timed(turns, |turns| plain(&READ, turns)),
        }
    }
}

/// So many turns of the rings and parts.
const MANY: u64 = 10_000_000;

fn part(word: &'static str, title: &'static str, plain: fn(u64) -> u64) -> Row {
    let work = Work::Part(plain);
    Row {
        word,
        title,
        turns: MANY,
        work,
    }
}

fn whole(word: &'static str, title: &'static str, turns: u64, work: Work) -> Row {
    Row {
        word,
        title,
        turns,
        work,
    }
}

/// The rings.
fn parts() -> Vec<Row> {
    vec![
        part("coding", "a TRB encoded and decoded", coding::turn),
        part(
            "transfers",
            "push, front, advance, drop_front of one TRB",
            transfers::turn,
        ),
        part("events", "an event posted and taken", events::turn),
    ]
}

/// Reads and writes, one at a time.
fn single() -> Vec<Row> {
    vec![
        whole(
            "read",
            "a read of 8 bytes, from submission to its end",
            1_000_000,
            Work::Traffic(READ),
        ),
        whole(
            "write",
            "a write of 8 bytes",
            1_000_000,
            Work::Traffic(WRITE),
        ),
        whole(
            "packets",
            "a read of 64 bytes in 8 packets",
            500_000,
            Work::Traffic(PACKETS),
        ),
        whole(
            "long",
            "a read of 65,536 bytes in packets of 512",
            20_000,
            Work::Traffic(LONG),
        ),
        whole(
            "longest",
            "a read of 262,144 bytes in packets of 512",
            5_000,
            Work::Traffic(LONGEST),
        ),
    ]
}

/// Many at once, much later, and what isn't a transfer.
fn others() -> Vec<Row> {
    vec![
        whole(
            "sixteen",
            "a read of 8 bytes, one of 16 in flight",
            1_000_000,
            Work::Traffic(SIXTEEN),
        ),
        whole(
            "everywhere",
            "8 bytes at each of 120 endpoints, one of them",
            600_000,
            Work::Traffic(EVERYWHERE),
        ),
        whole(
            "called",
            "a read of 8 bytes, one of 1,000 in callbacks",
            500_000,
            Work::Traffic(CALLED),
        ),
        whole(
            "later",
            "reads behind the 50,000th, beside the 5,000th",
            50_000,
            Work::Later(READ),
        ),
        whole(
            "resets",
            "a reset of 30 endpoints of 4,096 answers",
            20_000,
            Work::Resets(WIDE),
        ),
    ]
}

/// Through the library.
fn by_the_library() -> Vec<Row> {
    vec![
        whole(
            "library",
            "a read of 8 bytes by the library, with a journal",
            20_000,
            Work::Library(library::recorded),
        ),
        whole(
            "unrecorded",
            "a read of 8 bytes by the library, unrecorded",
            20_000,
            Work::Library(library::unrecorded),
        ),
    ]
}

/// All rows, in the order of the table.
pub fn rows() -> Vec<Row> {
    [parts(), single(), others(), by_the_library()]
        .into_iter()
        .flatten()
        .collect()
}
