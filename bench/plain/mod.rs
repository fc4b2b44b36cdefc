//! The same work as a Rust programmer would write it without proofs: docs/BENCH.md says what it has and what it leaves out.

// A core keeps more of a transfer and knows more cases than these rows read.
#![allow(dead_code)]

pub mod coding;
pub mod core;
mod device;
mod endpoint;
mod event_ring;
pub mod events;
mod journal;
pub mod library;
pub mod lock;
mod model;
mod store;
pub mod traffic;
mod transfer_ring;
pub mod transfers;
mod trb;
pub mod workers;
