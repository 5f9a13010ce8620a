//! Why a call was refused.

use std::fmt;

macro_rules! refusals {
    ($($(#[doc = $what:literal])+ $name:ident = $number:literal, $says:literal;)+) => {
        /// Why a call was refused (document 01, "Calls and the order of checks"; 14 is of order 1, 15 of order 3, 16 of order
        /// 7, 18 of order 9; 17 is never given). A refused call changes nothing.
        #[derive(Clone, Copy, Debug, PartialEq, Eq, Hash, PartialOrd, Ord)]
        #[repr(u8)]
        pub enum Refusal {
            $($(#[doc = $what])+ $name = $number,)+
        }

        impl Refusal {
            /// Every refusal, in the order of the numbers.
            pub const ALL: &'static [Refusal] = &[$(Refusal::$name,)+];

            /// The refusal with this number.
            pub fn of_number(number: u8) -> Option<Refusal> {
                match number {
                    $($number => Some(Refusal::$name),)+
                    _ => None,
                }
            }

            /// When this refusal is given, in the words of the documents.
            pub const fn words(self) -> &'static str {
                match self {
                    $(Refusal::$name => $says,)+
                }
            }
        }
    };
}

refusals! {
    /// The table has more than 64 slots.
    Table = 1, "the table has more than 64 slots";
    /// The network is not 0 or 1.
    Network = 2, "network is not 0 or 1";
    /// The frame is too long.
    Long = 3, "frame too long";
    /// The frame is short.
    Short = 4, "frame short";
    /// There is no F1C1 at the type field.
    Untagged = 5, "no F1C1 at the type field";
    /// No slot in use has the key.
    Unknown = 6, "no slot in use has the key";
    /// The record is damaged. For a reset: its settings are out of range.
    Damaged = 7, "the record is damaged";
    /// The output is too small. For a send: either of the two.
    Room = 8, "output too small";
    /// A setting is outside the sizes.
    Setting = 9, "a setting outside the sizes";
    /// A slot in use has the key.
    Taken = 10, "a slot in use has the key";
    /// There is no free slot.
    Full = 11, "no free slot";
    /// The slot is beyond the table or free.
    Slot = 12, "slot beyond the table or free";
    /// The frame already carries F1C1.
    Tagged = 13, "frame already carries F1C1";
    /// The source is a group address: the lowest bit of its first byte is set.
    Group = 14, "group source address";
    /// A batch has more than 32 frames, or lengths that run past its buffer.
    Batch = 15, "count above 32, or lengths that run past the buffer";
    /// There is no trailer of the set kind with a fitting size and a LAN of A or B.
    Trailer = 16, "no trailer of the set kind with a fitting size and a LAN of A or B";
    /// The index has not 128 places or is not in agreement with the table. A [`Receiver`](crate::Receiver) lends its own, and
    /// gives this only if its memory is damaged.
    Index = 18, "index not of 128 places or not in agreement with the table";
}

impl Refusal {
    /// The number that the documents give this refusal.
    pub const fn number(self) -> u8 {
        self as u8
    }

    /// What an answer's number says: 0 is no refusal. The archive is proved to answer no other number.
    pub(crate) fn check(number: u8) -> Result<(), Refusal> {
        if number == 0 {
            return Ok(());
        }
        Err(Refusal::of_number(number)
            .expect("an archive of another version: its refusal has no name here"))
    }
}

impl fmt::Display for Refusal {
    fn fmt(&self, f: &mut fmt::Formatter<'_>) -> fmt::Result {
        write!(f, "refused ({}): {}", self.number(), self.words())
    }
}

impl std::error::Error for Refusal {}
