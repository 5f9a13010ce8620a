//! A receiver for frames that arrive on two networks, and a sender of such frames, proved to do what document 01 says, with
//! orders 1, 3, 4, 5, 6, 7, 9, 10 and 11 of document 02 (order 2 changes no answer), and safe to use from Rust.
//!
//! [`Receiver`] owns a table of streams and its index, and decides each arrival: handed up, duplicate or rogue. Frames of AFDX
//! virtual links have a call of their own there, [`Receiver::link_arrival`]. A [`Batch`] is the answer to up to 32 frames in one
//! call, each decided as if it had come alone. The answers tell the [`Priority`] in a frame's VLAN tag, to sort commands by.
//! [`Sender`] numbers the frames of a stream, and writes each for both networks. [`tag`] puts the redundancy tag into a frame and
//! takes it out. [`prp`] turns the frames of a PRP line into tagged ones, and back. The work is done by the archive of the proved
//! crates `port` and `port_*`; this crate gives its calls the types that Rust's compiler checks, and adds only what packs and
//! unpacks a batch ([`batch`]) and what keeps a receiver's index.
//!
//! A call that can't do its work is refused with a [`Refusal`] and changes nothing: no record, no counter, no next number, no
//! output byte. No call panics, allocates or blocks.

#![deny(unsafe_code)]
#![warn(missing_docs)]

pub mod archive;
pub mod batch;
mod priority;
pub mod prp;
mod receiver;
mod record;
mod refusal;
mod sender;
pub mod tag;

pub use batch::Batch;
pub use priority::Priority;
pub use receiver::{Arrival, Receiver, Settings, Ticked, Verdict};
pub use record::{dest_of, Counts, State, Stream};
pub use refusal::Refusal;
pub use sender::{Sender, Sent};

/// The version of this crate.
pub const VERSION: &str = env!("CARGO_PKG_VERSION");
