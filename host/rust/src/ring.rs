//! The ring of a packet socket that is shared with the kernel (TPACKET_V2, packet(7)): each frame stands in a slot of its own
//! and is there as soon as the slot says so. The mapping, and the slots in it, are this module's only unsafe code. What the
//! kernel writes into a slot is read by safe code and checked, not believed.
#![allow(unsafe_code)]

use crate::frame::{VLAN_MARK, VLAN_TAG};
use crate::socket::{number, Seen, PACKET_OUTGOING};
use nippitsun::Stream;
use std::io;
use std::os::raw::{c_int, c_long, c_void};
use std::ptr::{self, NonNull};
use std::slice;
use std::sync::atomic::{AtomicU32, Ordering};

/// Bytes of a slot: a header, an address, room for a VLAN tag, and the frame.
pub const SLOT: usize = 2304;
/// Bytes that the kernel takes in one piece, and the slots in them.
pub const BLOCK: usize = 1 << 17;
pub const SLOTS_OF_BLOCK: usize = BLOCK / SLOT;
pub const SLOTS_MOST: usize = 65520;

/// What the kernel leaves free before a frame: enough for a VLAN tag.
pub const RESERVE: c_int = 16;

/// One more byte than a frame may have: a longer one is still too long for the library.
pub const FRAME_MOST: usize = Stream::FRAME_MOST + 1;

/// A small frame takes so many bytes of a socket's own room.
const SMALL: usize = 416;

/// `struct tpacket2_hdr` and, behind it, `struct sockaddr_ll`. Places in them; the status stands first.
const HEADER: usize = 32;
const ADDRESS: usize = 20;
const STATUS: usize = 4;
const LENGTH_AT: usize = 4;
const SNAPPED_AT: usize = 8;
const FRAME_AT: usize = 12;
const SECONDS_AT: usize = 16;
const NANOSECONDS_AT: usize = 20;
const TCI_AT: usize = 24;
const TPID_AT: usize = 26;
const PACKET_AT: usize = HEADER + 10;
const FIRST: usize = HEADER + ADDRESS + VLAN_TAG;

const TP_STATUS_KERNEL: u32 = 0;
const TP_STATUS_USER: u32 = 1;
pub const TP_STATUS_VLAN_VALID: u32 = 1 << 4;
pub const TP_STATUS_VLAN_TPID_VALID: u32 = 1 << 6;
const TP_STATUS_TS_SOFTWARE: u32 = 1 << 29;

const _: () = assert!(SLOT % 16 == 0 && FIRST + RESERVE as usize + FRAME_MOST <= SLOT);

/// Whole blocks for as many small frames as a socket's own room of so many bytes holds, and whether that is less than asked
/// for.
pub fn blocks(room: usize) -> (usize, bool) {
    let slots = room / SMALL;
    let blocks = slots.min(SLOTS_MOST) / SLOTS_OF_BLOCK;
    (blocks.max(1), slots > SLOTS_MOST)
}

extern "C" {
    fn mmap(
        at: *mut c_void,
        length: usize,
        protection: c_int,
        flags: c_int,
        file: c_int,
        offset: c_long,
    ) -> *mut c_void;
    fn munmap(at: *mut c_void, length: usize) -> c_int;
}

const PROT_READ: c_int = 1;
const PROT_WRITE: c_int = 2;
const MAP_SHARED: c_int = 1;

/// Where a ring stands.
///
/// # Safety
/// `length` bytes from `start` on are there for as long as this is, at a multiple of 4. Nobody uses them but the ring and,
/// where a slot's status says so, the kernel.
pub unsafe trait Memory {
    fn start(&self) -> NonNull<u8>;
    fn length(&self) -> usize;
}

/// Memory that a socket shares with this program.
pub struct Mapping {
    start: NonNull<u8>,
    length: usize,
}

impl Mapping {
    /// The file is a packet socket with a ring of so many bytes.
    pub fn new(file: c_int, length: usize) -> io::Result<Mapping> {
        // SAFETY: the kernel chooses where it stands, so nothing else is mapped over.
        let at = unsafe {
            mmap(
                ptr::null_mut(),
                length,
                PROT_READ | PROT_WRITE,
                MAP_SHARED,
                file,
                0,
            )
        };
        match NonNull::new(at.cast::<u8>()) {
            Some(start) if at as isize != -1 => Ok(Mapping { start, length }),
            _ => Err(io::Error::last_os_error()),
        }
    }
}

impl Drop for Mapping {
    fn drop(&mut self) {
        // SAFETY: it was mapped in this length, and whatever has lent of it is gone.
        unsafe { munmap(self.start.as_ptr().cast(), self.length) };
    }
}

// SAFETY: it is mapped until it is dropped, at the begin of a page, and is told to nobody but its ring.
unsafe impl Memory for Mapping {
    fn start(&self) -> NonNull<u8> {
        self.start
    }

    fn length(&self) -> usize {
        self.length
    }
}

pub struct Ring<M: Memory> {
    memory: M,
    slots: usize,
    /// The slot that the kernel fills next, as far as is known here.
    next: usize,
    /// So many slots before it are lent out: they were read and not yet given back.
    held: usize,
}

impl<M: Memory> Ring<M> {
    /// A ring of all blocks that the memory holds.
    pub fn new(memory: M) -> Ring<M> {
        let slots = memory.length() / BLOCK * SLOTS_OF_BLOCK;
        assert!(slots > 0, "a ring without a slot");
        Ring {
            memory,
            slots,
            next: 0,
            held: 0,
        }
    }

    fn at(&self, slot: usize) -> NonNull<u8> {
        assert!(slot < self.slots);
        let offset = slot / SLOTS_OF_BLOCK * BLOCK + slot % SLOTS_OF_BLOCK * SLOT;
        // SAFETY: the slot stands in one of the blocks that the memory was seen to hold.
        unsafe { NonNull::new_unchecked(self.memory.start().as_ptr().add(offset)) }
    }

    /// Whose the slot is, its first four bytes.
    fn status(&self, slot: usize) -> &AtomicU32 {
        // SAFETY: slots stand at multiples of 4. The kernel too writes these bytes as one, and nothing here in another way.
        unsafe { self.at(slot).cast().as_ref() }
    }

    /// A slot that is lent out, behind its status.
    fn bytes(&mut self, slot: usize) -> &mut [u8] {
        let start = self.at(slot).as_ptr();
        // SAFETY: the bytes of one slot behind its status. The kernel has given it out of its hand, and does not write there
        // until the status is set back, for which the ring is borrowed anew.
        unsafe { slice::from_raw_parts_mut(start.add(STATUS), SLOT - STATUS) }
    }

    /// Are all slots lent out? Then it can't be told whether a frame waits.
    pub fn is_lent_out(&self) -> bool {
        self.held == self.slots
    }

    /// The next frame, if one is there. Its slot is lent out from here on. Not all are.
    pub fn take(&mut self) -> Option<Seen> {
        assert!(!self.is_lent_out(), "a slot that is lent out");
        let slot = self.next;
        let status = self.status(slot).load(Ordering::Acquire);
        if status & TP_STATUS_USER == 0 {
            return None;
        }
        self.next = (slot + 1) % self.slots;
        self.held += 1;
        Some(read_slot(status, self.bytes(slot)))
    }

    /// The room of the so many-th frame that is lent out: the frame of this length behind `VLAN_TAG` free bytes.
    pub fn room(&mut self, place: usize, length: usize) -> &mut [u8] {
        assert!(place < self.held, "a slot that is not lent out");
        let slot = (self.next + self.slots - self.held + place) % self.slots;
        let bytes = self.bytes(slot);
        let (at, _) = bounds(bytes);
        &mut bytes[at - STATUS - VLAN_TAG..at - STATUS + length]
    }

    /// Gives the first of the slots that are lent out back to the kernel.
    pub fn give_back(&mut self, slots: usize) {
        assert!(slots <= self.held, "a slot that is not lent out");
        for _ in 0..slots {
            let slot = (self.next + self.slots - self.held) % self.slots;
            self.status(slot).store(TP_STATUS_KERNEL, Ordering::Release);
            self.held -= 1;
        }
    }
}

/// Where the frame begins in a slot, and how many bytes of it are there. What does not fit is no frame.
fn bounds(slot: &[u8]) -> (usize, usize) {
    let at = number(slot, FRAME_AT - STATUS, 2) as usize;
    let length = (number(slot, SNAPPED_AT - STATUS, 4) as usize).min(FRAME_MOST);
    if at >= FIRST && at + length <= SLOT {
        (at, length)
    } else {
        (FIRST, 0)
    }
}

/// What stands in a slot behind its status.
fn read_slot(status: u32, slot: &[u8]) -> Seen {
    let field = |at: usize, length| number(slot, at - STATUS, length);
    let (_, length) = bounds(slot);
    let real = field(SECONDS_AT, 4) as i64 * 1_000_000_000 + field(NANOSECONDS_AT, 4) as i64;
    let mark = match status & TP_STATUS_VLAN_TPID_VALID {
        0 => VLAN_MARK,
        _ => field(TPID_AT, 2) as u16,
    };
    let (mark, tci) = (mark.to_be_bytes(), (field(TCI_AT, 2) as u16).to_be_bytes());
    Seen {
        length,
        whole: field(LENGTH_AT, 4) as usize,
        outgoing: field(PACKET_AT, 1) as u8 == PACKET_OUTGOING,
        vlan: (status & TP_STATUS_VLAN_VALID != 0).then(|| [mark[0], mark[1], tci[0], tci[1]]),
        // Without this bit it is the time of the copy, which says nothing of the order.
        stamp: (status & TP_STATUS_TS_SOFTWARE != 0).then_some(real),
    }
}

#[cfg(test)]
mod tests {
    use super::*;

    /// Plain memory.
    struct Plain {
        words: NonNull<[u32]>,
    }

    impl Plain {
        fn new(bytes: usize) -> Plain {
            let words = vec![0; bytes / 4].into_boxed_slice();
            let words = NonNull::from(Box::leak(words));
            Plain { words }
        }
    }

    impl Drop for Plain {
        fn drop(&mut self) {
            // SAFETY: it is the box that was leaked, and whatever has lent of it is gone.
            drop(unsafe { Box::from_raw(self.words.as_ptr()) });
        }
    }

    // SAFETY: a box of numbers of four bytes that nobody else has, until it is dropped.
    unsafe impl Memory for Plain {
        fn start(&self) -> NonNull<u8> {
            self.words.cast()
        }

        fn length(&self) -> usize {
            self.words.len() * 4
        }
    }

    fn ring(blocks: usize) -> Ring<Plain> {
        Ring::new(Plain::new(blocks * BLOCK))
    }

    struct Kernel {
        status: u32,
        length: u32,
        snapped: u32,
        at: u16,
        tci: u16,
        tpid: u16,
    }

    const FRAME: Kernel = Kernel {
        status: TP_STATUS_USER | TP_STATUS_TS_SOFTWARE,
        length: 60,
        snapped: 60,
        at: 82,
        tci: 0xE064,
        tpid: 0x88A8,
    };

    /// Does the kernel's part: fills a slot, and says so.
    fn fill(ring: &mut Ring<Plain>, slot: usize, kernel: &Kernel, byte: u8) {
        let bytes = ring.bytes(slot);
        let mut put = |at: usize, value: &[u8]| {
            bytes[at - STATUS..at - STATUS + value.len()].copy_from_slice(value)
        };
        put(LENGTH_AT, &kernel.length.to_le_bytes());
        put(SNAPPED_AT, &kernel.snapped.to_le_bytes());
        put(FRAME_AT, &kernel.at.to_le_bytes());
        put(SECONDS_AT, &4_000_000_000_u32.to_le_bytes());
        put(NANOSECONDS_AT, &7_u32.to_le_bytes());
        put(TCI_AT, &kernel.tci.to_le_bytes());
        put(TPID_AT, &kernel.tpid.to_le_bytes());
        put(PACKET_AT, &[byte % 5]);
        let end = (usize::from(kernel.at) + kernel.snapped as usize).min(SLOT);
        let begin = usize::from(kernel.at).clamp(HEADER + ADDRESS, end.max(HEADER + ADDRESS));
        bytes[begin - STATUS..end.max(begin) - STATUS].fill(byte);
        ring.status(slot).store(kernel.status, Ordering::Release);
    }

    #[test]
    fn frames_in_their_order_over_the_wrap() {
        let mut r = ring(2);
        assert_eq!(r.slots, 112);
        let mut filled = 0_usize;
        for turn in 0..100 {
            // Between one slot and all of them.
            let count = 1 + turn * 31 % 112;
            for i in 0..count {
                fill(&mut r, (filled + i) % 112, &FRAME, (filled + i) as u8);
            }
            for i in 0..count {
                let seen = r.take().unwrap();
                let outgoing = (filled + i) as u8 % 5 == PACKET_OUTGOING;
                assert_eq!((seen.length, seen.outgoing), (60, outgoing));
            }
            assert!(r.is_lent_out() == (count == 112) && (count == 112 || r.take().is_none()));
            // The first ones go back before the rest is used.
            let early = count / 3;
            r.give_back(early);
            for i in early..count {
                let room = r.room(i - early, 60);
                assert_eq!(room.len(), VLAN_TAG + 60);
                assert!(room[VLAN_TAG..].iter().all(|b| *b == (filled + i) as u8));
            }
            r.give_back(count - early);
            filled += count;
            assert!((0..112).all(|slot| r.status(slot).load(Ordering::Relaxed) == 0));
        }
    }

    #[test]
    #[should_panic(expected = "lent out")]
    fn slots_that_are_lent_out_are_not_taken_again() {
        let mut r = ring(1);
        for slot in 0..r.slots {
            fill(&mut r, slot, &FRAME, 1);
        }
        for _ in 0..r.slots {
            assert!(!r.is_lent_out() && r.take().is_some());
        }
        // The next slot is the first one, whose status is still that of a frame.
        assert!(r.is_lent_out());
        r.take();
    }

    #[test]
    #[should_panic(expected = "not lent out")]
    fn no_slot_goes_back_twice() {
        let mut r = ring(1);
        fill(&mut r, 0, &FRAME, 1);
        r.take();
        r.give_back(1);
        r.give_back(1);
    }

    #[test]
    #[should_panic(expected = "not lent out")]
    fn no_frame_beyond_those_lent_out() {
        let mut r = ring(1);
        fill(&mut r, 0, &FRAME, 1);
        r.take();
        r.room(1, 60);
    }

    #[test]
    fn slots_stand_apart_in_their_blocks() {
        let r = ring(3);
        let start = r.memory.start().as_ptr() as usize;
        let mut last = 0;
        for slot in 0..r.slots {
            let at = r.at(slot).as_ptr() as usize - start;
            assert!(at % 16 == 0 && at / BLOCK == (at + SLOT - 1) / BLOCK);
            assert!(at + SLOT <= r.memory.length() && (slot == 0 || at >= last + SLOT));
            last = at;
        }
    }

    /// What the kernel is believed to write, and whatever else: none of it leads out of the slot.
    #[test]
    fn lengths_and_places_are_checked() {
        for (length, snapped, at, expected) in [
            (60, 60, 82, 60),
            (2001, 2001, 82, 2001),
            (2002, 2002, 82, 2001),
            (9000, 2222, 82, 2001),
            (2001, 2001, 303, 2001),
            (2001, 2001, 304, 0),
            (60, u32::MAX, 82, 2001),
            (60, u32::MAX, u16::MAX, 0),
            (60, 60, 2244, 60),
            (60, 60, 2245, 0),
            (60, 60, FIRST as u16, 60),
            (60, 60, FIRST as u16 - 1, 0),
            (60, 60, 0, 0),
            (0, 0, 82, 0),
        ] {
            let mut r = ring(1);
            let kernel = Kernel {
                length,
                snapped,
                at,
                ..FRAME
            };
            // The last slot: a slot behind it would be beyond the memory in use.
            r.next = r.slots - 1;
            let slot = r.next;
            fill(&mut r, slot, &kernel, 3);
            let seen = r.take().unwrap();
            assert_eq!((seen.length, seen.whole), (expected, length as usize));
            assert_eq!(r.room(0, seen.length).len(), VLAN_TAG + expected);
        }
    }

    #[test]
    fn stamps_and_tags() {
        let seen = |status| {
            let mut r = ring(1);
            fill(&mut r, 0, &Kernel { status, ..FRAME }, 0);
            r.take().map(|seen| (seen.stamp, seen.vlan))
        };
        let stamp = Some(4_000_000_000_000_000_007);
        assert_eq!(seen(TP_STATUS_KERNEL), None);
        assert_eq!(seen(TP_STATUS_USER), Some((None, None)));
        let stamped = TP_STATUS_USER | TP_STATUS_TS_SOFTWARE;
        assert_eq!(seen(stamped), Some((stamp, None)));
        let tagged = stamped | TP_STATUS_VLAN_VALID;
        assert_eq!(seen(tagged), Some((stamp, Some([0x81, 0, 0xE0, 0x64]))));
        let marked = tagged | TP_STATUS_VLAN_TPID_VALID;
        assert_eq!(seen(marked), Some((stamp, Some([0x88, 0xA8, 0xE0, 0x64]))));
    }

    /// Priority, the bit behind it and VLAN id: all of what the kernel says. Zeros are a tag if it says so, and none if not.
    #[test]
    fn every_bit_of_a_tag() {
        let valid = TP_STATUS_VLAN_VALID | TP_STATUS_VLAN_TPID_VALID;
        let mut r = ring(1);
        for tci in 0..=u16::MAX {
            for status in [0, TP_STATUS_VLAN_VALID, valid] {
                let kernel = Kernel {
                    status: FRAME.status | status,
                    tci,
                    tpid: VLAN_MARK,
                    ..FRAME
                };
                let slot = r.next;
                fill(&mut r, slot, &kernel, 0);
                let bits = tci.to_be_bytes();
                let tag = (status != 0).then_some([0x81, 0x00, bits[0], bits[1]]);
                assert_eq!(r.take().unwrap().vlan, tag);
                r.give_back(1);
            }
        }
    }

    #[test]
    fn as_many_blocks_as_the_room_asks_for() {
        assert_eq!(blocks(1 << 10), (1, false));
        assert_eq!(blocks(0), (1, false));
        assert_eq!(blocks(1024 << 10), (45, false));
        assert_eq!(blocks(111 * SMALL), (1, false));
        assert_eq!(blocks(112 * SMALL), (2, false));
        assert_eq!(blocks(SLOTS_MOST * SMALL), (1170, false));
        assert_eq!(blocks((SLOTS_MOST + 1) * SMALL), (1170, true));
        assert_eq!(blocks(1 << 30), (1170, true));
    }
}
