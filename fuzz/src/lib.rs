//! The harness for libFuzzer: an input is a run of calls, and each call is made on the compiled product and on the second
//! program. Answers, whole tables and indexes, the senders' next numbers and whole outputs must be the same after each. The second
//! program is built with the fuzzer's counters in it, so its branches guide the fuzzer.
//!
//! An input is an event file (document 01, "Event file and the program `events`"), read as `events` reads it, so every event
//! file is a seed. A first byte other than 1 is no end but the number of slots, and fifteen kinds are added for what `events`
//! can't reach:
//!
//! | kind | body |
//! |---|---|
//! | 240 arrival with less room | room 2, network 1, frame |
//! | 241 write a tag | room 2, number 2, frame |
//! | 242 take a tag out | room 2, frame |
//! | 243 set a record | slot 1, its 152 bytes as they lie in memory, low bytes first |
//! | 244 change one byte of a record | slot 1, place 1, value 1 |
//! | 245 batch | room 2, network 1, count 1, frames with their lengths |
//! | 246 send | room 2, room 2, frame |
//! | 247 reset a sender | nothing more |
//! | 248 set a sender's next number | number 2 |
//! | 249 from PRP | room 2, kind 1, frame |
//! | 250 to PRP | room 2, network 1, kind 1, frame |
//! | 251 rebuild the index | nothing more |
//! | 252 lend another index | its places, so many as there are |
//! | 253 change one place of the index | place 1, value 1 |
//! | 254 arrival of a virtual link | room 2, network 1, frame |
//!
//! The index is carried on from call to call. At first it is of zeros, as the slots are free.

use compare::{Call, Product, Second, Settings, Side, NOBODY};
use nippitsun::{Counts, State, Stream};
use second::event_file::kind;

const LESS_ROOM: u8 = 240;
const WRITE_TAG: u8 = 241;
const TAKE_TAG: u8 = 242;
const SET_RECORD: u8 = 243;
const CHANGE_RECORD: u8 = 244;
const BATCH: u8 = 245;
const SEND: u8 = 246;
const RESET_SENDER: u8 = 247;
const SET_NEXT: u8 = 248;
const FROM_PRP: u8 = 249;
const TO_PRP: u8 = 250;
const REBUILD: u8 = 251;
const SET_INDEX: u8 = 252;
const CHANGE_INDEX: u8 = 253;
const LINK_ARRIVAL: u8 = 254;

/// Bytes of a record.
const RECORD: usize = std::mem::size_of::<Stream>();

/// Slots of `events`, which the version byte stands for.
const EVENTS_SLOTS: usize = 8;

/// One slot more than a table may have, so that refusal 1 is met.
const SLOTS_TRIED: usize = Stream::SLOTS_MOST + 1;

/// From here on the comparison takes destinations for ones of more than six bytes. So no record has such a one here.
const STAND_INS: [u8; 6] = [NOBODY[0], NOBODY[1], 0, 0, 0, 0];

fn from_bytes(b: &[u8; RECORD]) -> Stream {
    let two = |at: usize| u16::from_le_bytes([b[at], b[at + 1]]);
    let eight = |at: usize| u64::from_le_bytes(b[at..at + 8].try_into().expect("eight bytes"));
    Stream {
        dest: eight(0),
        vlan: two(8),
        window: two(10),
        time: two(12),
        rule: b[14],
        used: b[15],
        state: State {
            history: std::array::from_fn(|word| eight(16 + 8 * word)),
            anchor: two(80),
            remaining: two(82),
            early: two(84),
            any: two(86),
        },
        counts: Counts {
            arrivals0: eight(88),
            arrivals1: eight(96),
            passed: eight(104),
            discarded: eight(112),
            rogue: eight(120),
            disorder: eight(128),
            lost: eight(136),
            resets: eight(144),
        },
    }
}

/// The record with one of its bytes changed.
fn changed(s: Stream, place: usize, value: u8) -> Stream {
    let mut b = s.to_bytes();
    b[place % RECORD] = value;
    from_bytes(&b)
}

/// What an open sets, but for a destination that is a stand-in.
fn settings(destination: [u8; 6], vlan: u16, rule: u8, window: u16, time: u16) -> Option<Settings> {
    let settings = Settings {
        destination,
        vlan,
        rule,
        window,
        time,
    };
    (destination < STAND_INS).then_some(settings)
}

/// A body as the rooms of its outputs and the call; none, where `events` would find it bad and where it is no call.
fn call_of(body: &[u8]) -> Option<([usize; 2], Call<'_>)> {
    let all = Stream::FRAME_MOST;
    let two = |high, low| u16::from_be_bytes([high, low]);
    let room = |high, low| usize::from(two(high, low)).min(all);
    let (room, call) = match *body {
        [kind::OPEN, d0, d1, d2, d3, d4, d5, v0, v1, rule, window, r0, r1] => {
            let destination = [d0, d1, d2, d3, d4, d5];
            let settings = settings(destination, two(v0, v1), rule, window.into(), two(r0, r1))?;
            (all, Call::Open(settings))
        }
        [kind::OPEN_WIDE, d0, d1, d2, d3, d4, d5, v0, v1, rule, w0, w1, r0, r1] => {
            let destination = [d0, d1, d2, d3, d4, d5];
            let settings = settings(destination, two(v0, v1), rule, two(w0, w1), two(r0, r1))?;
            (all, Call::Open(settings))
        }
        [kind::CLOSE, slot] => (all, Call::Close(slot.into())),
        [kind::RESET, slot] => (all, Call::Reset(slot.into())),
        [kind::ARRIVAL, network, ref frame @ ..] => (all, Call::Arrival { network, frame }),
        [kind::TICK] => (all, Call::Tick),
        [LESS_ROOM, r0, r1, network, ref frame @ ..] => {
            (room(r0, r1), Call::Arrival { network, frame })
        }
        [LINK_ARRIVAL, r0, r1, network, ref frame @ ..] => {
            (room(r0, r1), Call::LinkArrival { network, frame })
        }
        [WRITE_TAG, r0, r1, n0, n1, ref frame @ ..] => {
            let number = two(n0, n1);
            (room(r0, r1), Call::WriteTag { frame, number })
        }
        [TAKE_TAG, r0, r1, ref frame @ ..] => (room(r0, r1), Call::TakeTag { frame }),
        [BATCH, r0, r1, network, count, ref frames @ ..] => {
            let count = count.into();
            let call = Call::Batch {
                network,
                count,
                frames,
            };
            (room(r0, r1), call)
        }
        [SEND, r0, r1, s0, s1, ref frame @ ..] => {
            let rooms = [room(r0, r1), room(s0, s1)];
            return Some((rooms, Call::Send { frame }));
        }
        [RESET_SENDER] => (0, Call::ResetSender),
        [REBUILD] => (0, Call::Rebuild),
        [FROM_PRP, r0, r1, kind, ref frame @ ..] => (room(r0, r1), Call::FromPrp { frame, kind }),
        [TO_PRP, r0, r1, network, kind, ref frame @ ..] => {
            let call = Call::ToPrp {
                frame,
                network,
                kind,
            };
            (room(r0, r1), call)
        }
        _ => return None,
    };
    Some(([room, 0], call))
}

/// A body that writes to a slot, as the owner of a table may: the slot and its new record.
fn written(product: &Product, slots: usize, body: &[u8]) -> Option<(usize, Stream)> {
    let (slot, record) = match *body {
        [SET_RECORD, slot, ref bytes @ ..] => (slot, from_bytes(bytes.try_into().ok()?)),
        [CHANGE_RECORD, slot, place, value] if usize::from(slot) < slots => {
            let before = product.record(slot.into());
            (slot, changed(before, place.into(), value))
        }
        _ => return None,
    };
    let known = record.dest < nippitsun::dest_of(STAND_INS);
    (usize::from(slot) < slots && known).then_some((slot.into(), record))
}

/// A body that lends another index.
fn index_of(product: &Product, body: &[u8]) -> Option<Vec<u8>> {
    match *body {
        [SET_INDEX, ref index @ ..] => Some(index.to_vec()),
        [CHANGE_INDEX, place, value] => {
            let mut index = product.index().to_vec();
            *index.get_mut(usize::from(place))? = value;
            Some(index)
        }
        _ => None,
    }
}

/// As much of both outputs as a call may have.
fn lent(outs: &mut [[u8; Stream::FRAME_MOST]; 2], rooms: [usize; 2]) -> [&mut [u8]; 2] {
    let [first, second] = outs;
    [&mut first[..rooms[0]], &mut second[..rooms[1]]]
}

fn run(input: &[u8]) {
    let (first, mut rest) = match input {
        [first, rest @ ..] => (*first, rest),
        [] => return,
    };
    let slots = match first {
        second::event_file::VERSION => EVENTS_SLOTS,
        other => usize::from(other) % (SLOTS_TRIED + 1),
    };
    let free = vec![Stream::default(); slots];
    let (mut product, mut second) = (Product::new(&free), Second::new(&free));
    // The two outputs of each side.
    let mut outs = [[[0; Stream::FRAME_MOST]; 2]; 2];
    while let [high, low, behind @ ..] = rest {
        let length = usize::from(u16::from_be_bytes([*high, *low]));
        if behind.len() < length {
            return;
        }
        let (body, after) = behind.split_at(length);
        rest = after;
        if let Some((slot, record)) = written(&product, slots, body) {
            product.set(slot, record);
            second.set(slot, record);
        } else if let Some(index) = index_of(&product, body) {
            product.set_index(&index);
            second.set_index(&index);
        } else if let [SET_NEXT, high, low] = *body {
            let next = u16::from_be_bytes([high, low]);
            product.set_next(next);
            second.set_next(next);
        } else if let Some((rooms, call)) = call_of(body) {
            let [product_outs, second_outs] = &mut outs;
            let a = product.call(call, lent(product_outs, rooms));
            let b = second.call(call, lent(second_outs, rooms));
            assert!(a == b, "{call:02x?}: answers {a:?} and {b:?}");
            let (a, b) = (product.next(), second.next());
            assert!(a == b, "{call:02x?}: next numbers {a} and {b}");
            let (a, b) = (product.index(), second.index());
            assert!(a == b, "{call:02x?}: indexes {a:02x?} and {b:02x?}");
            for slot in 0..slots {
                let (a, b) = (product.record(slot), second.record(slot));
                assert!(a == b, "{call:02x?}: slot {slot} is {a:?} and {b:?}");
            }
            assert!(outs[0] == outs[1], "{call:02x?}: the outputs differ");
        }
    }
}

/// Called once by libFuzzer. FUZZ_WRONG names a wrong variant of the second program, which the fuzzer then has to find.
#[no_mangle]
pub extern "C" fn LLVMFuzzerInitialize(_count: *const i32, _words: *const *const *const u8) -> i32 {
    if let Ok(text) = std::env::var("FUZZ_WRONG") {
        let number: usize = text.parse().expect("FUZZ_WRONG is the number of a variant");
        second::wrong::set(Some(second::wrong::VARIANTS[number - 1].wrong));
    }
    0
}

/// Called by libFuzzer for each input.
///
/// # Safety
/// The pointer is to so many bytes, which libFuzzer lends for the call.
#[no_mangle]
pub unsafe extern "C" fn LLVMFuzzerTestOneInput(input: *const u8, length: usize) -> i32 {
    // libFuzzer may give a null pointer where there are no bytes.
    if length > 0 {
        run(std::slice::from_raw_parts(input, length));
    }
    0
}
