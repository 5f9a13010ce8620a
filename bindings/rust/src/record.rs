//! The stream record, laid out as C lays it out (document 01, "The stream record" and "Sizes").

use std::mem::{align_of, size_of};

/// What an arrival and a tick change in a record.
#[repr(C)]
#[derive(Clone, Copy, Debug, Default, PartialEq, Eq)]
pub struct State {
    /// Eight words of 64 bits. Bit k of the history is bit k mod 64 of word k / 64, and stands for the number anchor - k. With the
    /// match rule and a virtual link: zeros.
    pub history: [u64; Stream::HISTORY_WORDS],
    /// The number that differences are taken from; of a virtual link: the last that was handed up.
    pub anchor: u16,
    /// Ticks left until the stream is reset.
    pub remaining: u16,
    /// So many places of the window still stand for numbers older than the first that was handed up since the open or the
    /// reset: L - 1 after that first, one less with each place that the window moves, then 0. They leave without being counted
    /// as lost. 0 in a fresh record, and with every rule but vector.
    pub early: u16,
    /// Take-any: 0 is no, every other value is yes.
    pub any: u16,
}

/// The counters of a stream. They wrap to zero after 2^64 - 1.
#[repr(C)]
#[derive(Clone, Copy, Debug, Default, PartialEq, Eq)]
pub struct Counts {
    /// Arrivals on network 0, whatever the verdict.
    pub arrivals0: u64,
    /// Arrivals on network 1.
    pub arrivals1: u64,
    /// Frames handed up.
    pub passed: u64,
    /// Duplicates.
    pub discarded: u64,
    /// Frames outside the window. Does not rise of a virtual link.
    pub rogue: u64,
    /// Frames handed up out of order. Does not rise of a virtual link.
    pub disorder: u64,
    /// Numbers that left the window and had not been handed up: what comes of them later is a rogue. Those older than the first
    /// since the open or the reset are not counted. Rises with the vector rule alone.
    pub lost: u64,
    /// How often the stream became fresh, by ticks or by a reset.
    pub resets: u64,
}

impl Counts {
    /// All eight, in the order of document 01.
    pub fn all(&self) -> [u64; 8] {
        [
            self.arrivals0,
            self.arrivals1,
            self.passed,
            self.discarded,
            self.rogue,
            self.disorder,
            self.lost,
            self.resets,
        ]
    }
}

/// One slot of a table.
///
/// Every value of every field is taken. A record in use that breaks the rules is damaged: an arrival for it is refused, a tick
/// counts it, and a reset mends it if its settings are in range. The default is a free slot.
#[repr(C)]
#[derive(Clone, Copy, Debug, Default, PartialEq, Eq)]
pub struct Stream {
    /// The key's destination: its six bytes as one number, high byte first.
    pub dest: u64,
    /// The key's VLAN id. 0 is also a frame with no VLAN tag.
    pub vlan: u16,
    /// The window L.
    pub window: u16,
    /// The reset time R, in ticks.
    pub time: u16,
    /// The rule: [`Stream::VECTOR_RULE`], [`Stream::MATCH_RULE`] or [`Stream::LINK_RULE`].
    pub rule: u8,
    /// 0 is a free slot, every other value a slot in use.
    pub used: u8,
    /// What an arrival and a tick change.
    pub state: State,
    /// The counters.
    pub counts: Counts,
}

impl Stream {
    /// Most slots in a table.
    pub const SLOTS_MOST: usize = 64;
    /// Longest frame, in bytes.
    pub const FRAME_MOST: usize = 2000;
    /// Longest frame before the tag is put in.
    pub const UNTAGGED_MOST: usize = 1994;
    /// Smallest window L.
    pub const WINDOW_LEAST: u16 = 2;
    /// Largest window L.
    pub const WINDOW_MOST: u16 = 512;
    /// The words of a history: one bit for each place of the largest window.
    pub const HISTORY_WORDS: usize = Stream::WINDOW_MOST as usize / 64;
    /// Smallest reset time R, in ticks.
    pub const TIME_LEAST: u16 = 1;
    /// Largest reset time R.
    pub const TIME_MOST: u16 = 65535;
    /// Largest VLAN id in a key.
    pub const VLAN_MOST: u16 = 4094;
    /// The vector rule.
    pub const VECTOR_RULE: u8 = 1;
    /// The match rule.
    pub const MATCH_RULE: u8 = 2;
    /// An AFDX virtual link. Its VLAN id is 0, and L is in range and not used.
    pub const LINK_RULE: u8 = 3;

    /// The record's bytes as they lie in memory, low byte first: for a file, or for another program. Since 0.6.0 the history has
    /// eight words: bytes that were kept from an earlier version are no record any more.
    pub fn to_bytes(&self) -> [u8; size_of::<Stream>()] {
        let state = &self.state;
        let mut bytes = Vec::with_capacity(size_of::<Stream>());
        bytes.extend_from_slice(&self.dest.to_le_bytes());
        for field in [self.vlan, self.window, self.time] {
            bytes.extend_from_slice(&field.to_le_bytes());
        }
        bytes.extend_from_slice(&[self.rule, self.used]);
        for word in state.history {
            bytes.extend_from_slice(&word.to_le_bytes());
        }
        for field in [state.anchor, state.remaining, state.early, state.any] {
            bytes.extend_from_slice(&field.to_le_bytes());
        }
        for counter in self.counts.all() {
            bytes.extend_from_slice(&counter.to_le_bytes());
        }
        bytes.try_into().unwrap()
    }

    /// Is the slot in use?
    pub fn is_used(&self) -> bool {
        self.used != 0
    }
}

/// A destination's six bytes as a record has them.
pub fn dest_of(six: [u8; 6]) -> u64 {
    u64::from_be_bytes([0, 0, six[0], six[1], six[2], six[3], six[4], six[5]])
}

// The order of the fields is C's. With these sizes there is no room for a field of another width.
const _: () = assert!(size_of::<State>() == 72 && align_of::<State>() == 8);
const _: () = assert!(size_of::<Counts>() == 64 && align_of::<Counts>() == 8);
const _: () = assert!(size_of::<Stream>() == 152 && align_of::<Stream>() == 8);
