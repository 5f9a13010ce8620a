//! The proved side: the calls of the archives, with nothing added.
use crate::record::{Decided, Stream};
pub use nippitsun::archive::{
    arrival, batch, from_prp, link_arrival, open, rebuild, reset_sender, send, take_tag, tick,
    to_prp, write_tag,
};

mod archive {
    use crate::record::{Decided, Stream};

    extern "C" {
        pub fn timing_decide(s: Stream, number: u16, network: u8) -> Decided;
        pub fn timing_row(s: Stream, number: u16, step: u16, network: u8, times: u64) -> Stream;
    }
}

// Everything goes by value, so nothing is asked of the caller.
#[inline(always)]
pub fn decide(s: Stream, number: u16, network: u8) -> Decided {
    unsafe { archive::timing_decide(s, number, network) }
}

#[inline(always)]
pub fn row(s: Stream, number: u16, step: u16, network: u8, times: u64) -> Stream {
    unsafe { archive::timing_row(s, number, step, network, times) }
}
