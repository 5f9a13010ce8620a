//! The types that cross: those of the crate nippitsun, and what one decision answers.
pub use nippitsun::archive::{
    ArrivalAnswer, BatchAnswer, PrpAnswer, SlotAnswer, TagAnswer, TickAnswer, DUPLICATE,
    FRAMES_MOST, HANDED_UP, PLACES, ROGUE,
};
pub use nippitsun::{Counts, Sender, State, Stream};

/// A decision's verdict on a damaged record. In an arrival that is a refusal.
pub const DAMAGED: u8 = 0;

/// What one decision answers.
#[repr(C)]
#[derive(Clone, Copy, Debug, PartialEq)]
pub struct Decided {
    pub stream: Stream,
    pub verdict: u8,
}
