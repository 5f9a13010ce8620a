//! A receiver for frames that arrive on two networks, a writer for the
//! redundancy tag, a sender, and the turn from PRP lines and to them.
//!
//! This is a second implementation. It was written from document 01 ("Exact
//! rules and what to build") and orders 1 to 11 of document 02 (README.md), so that
//! its answers can be compared with those of the first one. Section names in the
//! comments are those of document 01.

#![forbid(unsafe_code)]

pub mod batch;
pub mod event_file;
pub mod frame;
pub mod generate;
pub mod history;
pub mod index;
pub mod prp;
pub mod random;
pub mod sender;
pub mod stream;
pub mod table;
pub mod wrong;

pub use batch::Batch;
pub use frame::{take_tag, write_tag, Taken};
pub use index::{agrees, batch, close, follow, mixed, open, own_place, rebuild};
pub use prp::{from_prp, to_prp, Turned};
pub use sender::{Sender, Sent};
pub use stream::{Family, Stream};
pub use table::{arrival, link_arrival, reset, tick, Arrival, Settings, Ticked, Verdict};

/// Why a call was refused. The values are the numbers of the table in
/// "Calls and the order of checks", and those of orders 1, 3, 7 and 9.
#[derive(Clone, Copy, Debug, PartialEq, Eq, Hash, PartialOrd, Ord)]
#[repr(u8)]
pub enum Refusal {
    /// The table has more than 64 slots.
    TableTooLong = 1,
    /// The network is not 0 or 1.
    NoSuchNetwork = 2,
    /// The frame is too long.
    FrameTooLong = 3,
    /// The frame is short.
    FrameShort = 4,
    /// There is no F1C1 at the type field.
    NoTag = 5,
    /// No slot in use has the key.
    NoStream = 6,
    /// The record is damaged. For the reset call: its settings are out of
    /// range.
    Damaged = 7,
    /// The output is too small.
    OutputTooSmall = 8,
    /// A setting is outside the sizes.
    BadSetting = 9,
    /// A slot in use has the key.
    KeyInUse = 10,
    /// There is no free slot.
    NoFreeSlot = 11,
    /// The slot is beyond the table or free.
    NoSuchSlot = 12,
    /// The frame already carries F1C1.
    AlreadyTagged = 13,
    /// Group source address.
    GroupSource = 14,
    /// The count of a batch is above 32, or its lengths run past the buffer.
    BatchTooLong = 15,
    /// There is no trailer of the set kind with a fitting size and a LAN of A
    /// or B.
    NoTrailer = 16,
    /// The index has not 128 places or does not agree with the table.
    BadIndex = 18,
}

impl Refusal {
    /// The number that the documents give this refusal.
    pub const fn number(self) -> u8 {
        self as u8
    }
}
