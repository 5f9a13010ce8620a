//! The calls of the archive as they are: a table and its index are slices that the caller lends, and an answer has plain numbers.
//!
//! [`Receiver`](crate::Receiver), [`Sender`], [`tag`](crate::tag) and [`prp`](crate::prp) say the same with Rust's own types, and
//! are what a program needs.
//!
//! This is the only module with unsafe code. The proof of a call takes for granted that its areas are there in their whole
//! length, lie apart, and belong to the call while it runs. `&` and `&mut` on slices give just that, so the functions are
//! safe: the areas are slices, no two of which overlap if one is `&mut`; no call keeps a pointer; every length is below
//! `isize::MAX`; and every bit pattern is a value of [`Stream`], of [`Sender`] and of the answers, which hold only integers.
#![allow(unsafe_code)]

use crate::record::Stream;
use crate::sender::Sender;
use std::mem::{align_of, size_of};

/// What an arrival answers. Where it is refused, `refusal` is the number and the rest is 0.
#[repr(C)]
#[derive(Clone, Copy, Debug, Default, PartialEq, Eq)]
pub struct ArrivalAnswer {
    /// The slot of the stream.
    pub slot: usize,
    /// Bytes written to the output, 0 but for a frame handed up.
    pub length: usize,
    /// The number in the tag; of a virtual link: the frame's last byte.
    pub number: u16,
    /// [`HANDED_UP`], [`DUPLICATE`] or [`ROGUE`].
    pub verdict: u8,
    /// 0, or why the call was refused.
    pub refusal: u8,
    /// The priority in the VLAN tag of the frame as it came, 0 to 7; 0 where there is none, and of a virtual link.
    pub priority: u8,
    /// 1: a VLAN tag was there; 0: none, or a virtual link, whose arrival reads none.
    pub vlantag: u8,
}

/// What a batch answers. Where it is refused, `refusal` is the number and the rest is 0.
#[repr(C)]
#[derive(Clone, Copy, Debug, Default, PartialEq, Eq)]
pub struct BatchAnswer {
    /// The answer of each frame in its place; all 0, as no arrival answers, where the frame was not reached.
    pub answers: [ArrivalAnswer; FRAMES_MOST],
    /// How many frames came before one that was refused with 8, else the count.
    pub frames: usize,
    /// 0, or why the call was refused.
    pub refusal: u8,
}

/// What an open answers. Where it is refused, `refusal` is the number and the rest is 0.
#[repr(C)]
#[derive(Clone, Copy, Debug, Default, PartialEq, Eq)]
pub struct SlotAnswer {
    /// The slot that was filled.
    pub slot: usize,
    /// 0, or why the call was refused.
    pub refusal: u8,
}

/// What a tick answers. Where it is refused, `refusal` is the number and the rest is 0.
#[repr(C)]
#[derive(Clone, Copy, Debug, Default, PartialEq, Eq)]
pub struct TickAnswer {
    /// Streams that this tick reset.
    pub resets: u64,
    /// Records in use that are damaged.
    pub damaged: u64,
    /// 0, or why the call was refused.
    pub refusal: u8,
}

/// What a tag call and a send answer. Where it is refused, `refusal` is the number and the rest is 0.
#[repr(C)]
#[derive(Clone, Copy, Debug, Default, PartialEq, Eq)]
pub struct TagAnswer {
    /// Bytes written to the output; of a send: to each of its two.
    pub length: usize,
    /// The number in the tag.
    pub number: u16,
    /// 0, or why the call was refused.
    pub refusal: u8,
}

/// What a turn from PRP or to PRP answers. Where it is refused, `refusal` is the number and the rest is 0.
#[repr(C)]
#[derive(Clone, Copy, Debug, Default, PartialEq, Eq)]
pub struct PrpAnswer {
    /// Bytes written to the output.
    pub length: usize,
    /// The number in the trailer and in the tag.
    pub number: u16,
    /// 0 is LAN A, 1 is LAN B.
    pub network: u8,
    /// 0, or why the call was refused.
    pub refusal: u8,
}

/// Most frames in a batch.
pub const FRAMES_MOST: usize = 32;

/// Places of an index. A place is a byte: 0 is empty, and k + 1 names slot k.
///
/// An index of zeros agrees with a table of free slots. For any other table, and where a record's `dest`, `vlan` or `used` was
/// written to, [`rebuild`] makes one; [`open`], [`close`] and [`batch`] refuse with 18 where table and index do not agree.
pub const PLACES: usize = 128;

/// The verdict handed up.
pub const HANDED_UP: u8 = 1;
/// The verdict duplicate.
pub const DUPLICATE: u8 = 2;
/// The verdict rogue.
pub const ROGUE: u8 = 3;

const _: () = assert!(size_of::<ArrivalAnswer>() == 24 && align_of::<ArrivalAnswer>() == 8);
const _: () = assert!(size_of::<BatchAnswer>() == 784 && align_of::<BatchAnswer>() == 8);
const _: () = assert!(size_of::<SlotAnswer>() == 16 && align_of::<SlotAnswer>() == 8);
const _: () = assert!(size_of::<TickAnswer>() == 24 && align_of::<TickAnswer>() == 8);
const _: () = assert!(size_of::<TagAnswer>() == 16 && align_of::<TagAnswer>() == 8);
const _: () = assert!(size_of::<PrpAnswer>() == 16 && align_of::<PrpAnswer>() == 8);
const _: () = assert!(size_of::<Sender>() == 2 && align_of::<Sender>() == 2);

// A slice crosses as a pointer and a number of elements. bindings/check holds these to the crates port and port_*.
extern "C" {
    fn nippitsun_arrival(
        table: *mut Stream,
        table_len: usize,
        network: u8,
        frame: *const u8,
        frame_len: usize,
        out: *mut u8,
        out_len: usize,
    ) -> ArrivalAnswer;
    fn nippitsun_link_arrival(
        table: *mut Stream,
        table_len: usize,
        network: u8,
        frame: *const u8,
        frame_len: usize,
        out: *mut u8,
        out_len: usize,
    ) -> ArrivalAnswer;
    fn nippitsun_batch(
        table: *mut Stream,
        table_len: usize,
        index: *const u8,
        index_len: usize,
        network: u8,
        count: usize,
        frames: *const u8,
        frames_len: usize,
        out: *mut u8,
        out_len: usize,
    ) -> BatchAnswer;
    fn nippitsun_open(
        table: *mut Stream,
        table_len: usize,
        index: *mut u8,
        index_len: usize,
        dest: *const [u8; 6],
        vlan: u16,
        rule: u8,
        window: u16,
        time: u16,
    ) -> SlotAnswer;
    fn nippitsun_close(
        table: *mut Stream,
        table_len: usize,
        index: *mut u8,
        index_len: usize,
        slot: usize,
    ) -> u8;
    fn nippitsun_rebuild(
        table: *const Stream,
        table_len: usize,
        index: *mut u8,
        index_len: usize,
    ) -> u8;
    fn nippitsun_reset(table: *mut Stream, table_len: usize, slot: usize) -> u8;
    fn nippitsun_tick(table: *mut Stream, table_len: usize) -> TickAnswer;
    fn nippitsun_take_tag(
        frame: *const u8,
        frame_len: usize,
        out: *mut u8,
        out_len: usize,
    ) -> TagAnswer;
    fn nippitsun_write_tag(
        frame: *const u8,
        frame_len: usize,
        number: u16,
        out: *mut u8,
        out_len: usize,
    ) -> TagAnswer;
    fn nippitsun_send(
        sender: *mut Sender,
        frame: *const u8,
        frame_len: usize,
        out0: *mut u8,
        out0_len: usize,
        out1: *mut u8,
        out1_len: usize,
    ) -> TagAnswer;
    fn nippitsun_reset_sender(sender: *mut Sender);
    fn nippitsun_from_prp(
        frame: *const u8,
        frame_len: usize,
        kind: u8,
        out: *mut u8,
        out_len: usize,
    ) -> PrpAnswer;
    fn nippitsun_to_prp(
        frame: *const u8,
        frame_len: usize,
        network: u8,
        kind: u8,
        out: *mut u8,
        out_len: usize,
    ) -> PrpAnswer;
}

/// Arrival.
#[inline(always)]
pub fn arrival(table: &mut [Stream], network: u8, frame: &[u8], out: &mut [u8]) -> ArrivalAnswer {
    let (table, table_len) = (table.as_mut_ptr(), table.len());
    let (out, out_len) = (out.as_mut_ptr(), out.len());
    // SAFETY: three slices, two of them `&mut`, so they are whole and lie apart; they are borrowed until the call ends.
    unsafe {
        nippitsun_arrival(
            table,
            table_len,
            network,
            frame.as_ptr(),
            frame.len(),
            out,
            out_len,
        )
    }
}

/// Arrival of a virtual link.
#[inline(always)]
pub fn link_arrival(
    table: &mut [Stream],
    network: u8,
    frame: &[u8],
    out: &mut [u8],
) -> ArrivalAnswer {
    let (table, table_len) = (table.as_mut_ptr(), table.len());
    let (out, out_len) = (out.as_mut_ptr(), out.len());
    // SAFETY: three slices, two of them `&mut`, so they are whole and lie apart; they are borrowed until the call ends.
    unsafe {
        nippitsun_link_arrival(
            table,
            table_len,
            network,
            frame.as_ptr(),
            frame.len(),
            out,
            out_len,
        )
    }
}

/// Batch.
#[inline(always)]
pub fn batch(
    table: &mut [Stream],
    index: &[u8],
    network: u8,
    count: usize,
    frames: &[u8],
    out: &mut [u8],
) -> BatchAnswer {
    let (table, table_len) = (table.as_mut_ptr(), table.len());
    let (out, out_len) = (out.as_mut_ptr(), out.len());
    // SAFETY: four slices, two of them `&mut`, so they are whole, and these two lie apart from all others; they are borrowed until
    // the call ends. Any `count` is taken.
    unsafe {
        nippitsun_batch(
            table,
            table_len,
            index.as_ptr(),
            index.len(),
            network,
            count,
            frames.as_ptr(),
            frames.len(),
            out,
            out_len,
        )
    }
}

/// Open.
#[inline(always)]
pub fn open(
    table: &mut [Stream],
    index: &mut [u8],
    dest: &[u8; 6],
    vlan: u16,
    rule: u8,
    window: u16,
    time: u16,
) -> SlotAnswer {
    // SAFETY: table and index are `&mut` slices, so they are whole, lie apart, and no part of them is `dest`; all are borrowed
    // until the call ends.
    unsafe {
        nippitsun_open(
            table.as_mut_ptr(),
            table.len(),
            index.as_mut_ptr(),
            index.len(),
            dest,
            vlan,
            rule,
            window,
            time,
        )
    }
}

/// Close. Answers the refusal, or 0.
#[inline(always)]
pub fn close(table: &mut [Stream], index: &mut [u8], slot: usize) -> u8 {
    let (table, table_len) = (table.as_mut_ptr(), table.len());
    // SAFETY: two `&mut` slices, so they are whole and lie apart; they are borrowed until the call ends. Any `slot` is taken.
    unsafe { nippitsun_close(table, table_len, index.as_mut_ptr(), index.len(), slot) }
}

/// Makes the index anew from any table. Answers the refusal, or 0.
#[inline(always)]
pub fn rebuild(table: &[Stream], index: &mut [u8]) -> u8 {
    let (table, table_len) = (table.as_ptr(), table.len());
    // SAFETY: two slices, one of them `&mut`, so they are whole and lie apart; they are borrowed until the call ends.
    unsafe { nippitsun_rebuild(table, table_len, index.as_mut_ptr(), index.len()) }
}

/// Reset. Answers the refusal, or 0.
#[inline(always)]
pub fn reset(table: &mut [Stream], slot: usize) -> u8 {
    // SAFETY: the table is a `&mut` slice, whole and borrowed until the call ends; any `slot` is taken.
    unsafe { nippitsun_reset(table.as_mut_ptr(), table.len(), slot) }
}

/// Tick.
#[inline(always)]
pub fn tick(table: &mut [Stream]) -> TickAnswer {
    // SAFETY: the table is a `&mut` slice, whole and borrowed until the call ends.
    unsafe { nippitsun_tick(table.as_mut_ptr(), table.len()) }
}

/// Take a tag out.
#[inline(always)]
pub fn take_tag(frame: &[u8], out: &mut [u8]) -> TagAnswer {
    // SAFETY: two slices, one of them `&mut`, so they are whole and lie apart; they are borrowed until the call ends.
    unsafe { nippitsun_take_tag(frame.as_ptr(), frame.len(), out.as_mut_ptr(), out.len()) }
}

/// Write a tag.
#[inline(always)]
pub fn write_tag(frame: &[u8], number: u16, out: &mut [u8]) -> TagAnswer {
    // SAFETY: two slices, one of them `&mut`, so they are whole and lie apart; they are borrowed until the call ends.
    unsafe {
        nippitsun_write_tag(
            frame.as_ptr(),
            frame.len(),
            number,
            out.as_mut_ptr(),
            out.len(),
        )
    }
}

/// Send.
#[inline(always)]
pub fn send(sender: &mut Sender, frame: &[u8], out0: &mut [u8], out1: &mut [u8]) -> TagAnswer {
    let (out0, out0_len) = (out0.as_mut_ptr(), out0.len());
    let (out1, out1_len) = (out1.as_mut_ptr(), out1.len());
    // SAFETY: three slices, two of them `&mut`, and a `&mut` sender, so they are whole and lie apart; they are borrowed until
    // the call ends.
    unsafe {
        nippitsun_send(
            sender,
            frame.as_ptr(),
            frame.len(),
            out0,
            out0_len,
            out1,
            out1_len,
        )
    }
}

/// Reset of a sender.
#[inline(always)]
pub fn reset_sender(sender: &mut Sender) {
    // SAFETY: a `&mut` sender, borrowed until the call ends.
    unsafe { nippitsun_reset_sender(sender) }
}

/// From PRP.
#[inline(always)]
pub fn from_prp(frame: &[u8], kind: u8, out: &mut [u8]) -> PrpAnswer {
    let (out, out_len) = (out.as_mut_ptr(), out.len());
    // SAFETY: two slices, one of them `&mut`, so they are whole and lie apart; they are borrowed until the call ends. Any `kind`
    // is taken.
    unsafe { nippitsun_from_prp(frame.as_ptr(), frame.len(), kind, out, out_len) }
}

/// To PRP.
#[inline(always)]
pub fn to_prp(frame: &[u8], network: u8, kind: u8, out: &mut [u8]) -> PrpAnswer {
    let (out, out_len) = (out.as_mut_ptr(), out.len());
    // SAFETY: two slices, one of them `&mut`, so they are whole and lie apart; they are borrowed until the call ends. Any
    // `network` and `kind` are taken.
    unsafe { nippitsun_to_prp(frame.as_ptr(), frame.len(), network, kind, out, out_len) }
}
