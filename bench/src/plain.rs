//! The plain side: the same calls in safe Rust, written from documents 01 and 02 alone. Each is kept a call of its own, as the
//! archive's are, so that both sides pay for one; tag calls, sends, turns of PRP frames and decisions have C's convention, by
//! which the answer comes back in registers.
use crate::record::{
    ArrivalAnswer, BatchAnswer, Decided, PrpAnswer, Sender, Stream, TagAnswer, DAMAGED, DUPLICATE,
    FRAMES_MOST, HANDED_UP, PLACES, ROGUE,
};

const SLOTS_MOST: usize = 64;
const FRAME_MOST: usize = 2000;
const UNTAGGED_MOST: usize = 1994;
const WINDOW_MOST: u16 = 512;
const VLAN_TAG: u16 = 0x8100;
const TAG: u16 = 0xF1C1;
/// The rule of a virtual link.
const LINK: u8 = 3;
/// The shortest frame of a virtual link: a header, and the number behind it.
const LINK_LEAST: usize = 15;
/// What the trailer of 2012 ends in.
const SUFFIX: u16 = 0x88FB;
const TABLE: u8 = 1;
const NETWORK: u8 = 2;
const LONG: u8 = 3;
const SHORT: u8 = 4;
const UNTAGGED: u8 = 5;
const UNKNOWN: u8 = 6;
const HURT: u8 = 7;
pub const ROOM: u8 = 8;
const TAGGED: u8 = 13;
const GROUP: u8 = 14;
const BATCH: u8 = 15;
const TRAILER: u8 = 16;
const INDEX: u8 = 18;

/// The first byte of the source; its lowest bit marks a group.
const SOURCE: usize = 6;

fn word(s: &[u8], at: usize) -> u16 {
    u16::from_be_bytes([s[at], s[at + 1]])
}

fn refused(refusal: u8) -> TagAnswer {
    TagAnswer {
        length: 0,
        number: 0,
        refusal,
    }
}

/// The place of the type field; None for a frame that is short.
fn type_place(frame: &[u8]) -> Option<usize> {
    if frame.len() < 14 {
        return None;
    }
    if word(frame, 12) != VLAN_TAG {
        return Some(12);
    }
    if frame.len() < 18 {
        return None;
    }
    Some(16)
}

// With the place as a constant the front's copy is a few moves and no call. This makes the plain side faster.
#[inline(always)]
fn taken(frame: &[u8], at: usize, out: &mut [u8]) -> TagAnswer {
    let length = frame.len() - 6;
    out[..at].copy_from_slice(&frame[..at]);
    out[at..length].copy_from_slice(&frame[at + 6..]);
    TagAnswer {
        length,
        number: word(frame, at + 4),
        refusal: 0,
    }
}

#[inline(never)]
#[allow(improper_ctypes_definitions)]
pub extern "C" fn take_tag(frame: &[u8], out: &mut [u8]) -> TagAnswer {
    if frame.len() > FRAME_MOST {
        return refused(LONG);
    }
    let at = match type_place(frame) {
        Some(at) => at,
        None => return refused(SHORT),
    };
    if word(frame, at) != TAG {
        return refused(UNTAGGED);
    }
    if frame.len() < at + 8 {
        return refused(SHORT);
    }
    if out.len() < frame.len() - 6 {
        return refused(ROOM);
    }
    if at == 12 {
        taken(frame, 12, out)
    } else {
        taken(frame, 16, out)
    }
}

#[inline(always)]
fn written(frame: &[u8], at: usize, number: u16, out: &mut [u8]) -> TagAnswer {
    let length = frame.len() + 6;
    out[..at].copy_from_slice(&frame[..at]);
    out[at..at + 2].copy_from_slice(&TAG.to_be_bytes());
    out[at + 2..at + 4].copy_from_slice(&[0, 0]);
    out[at + 4..at + 6].copy_from_slice(&number.to_be_bytes());
    out[at + 6..length].copy_from_slice(&frame[at..]);
    TagAnswer {
        length,
        number,
        refusal: 0,
    }
}

/// Why no tag is put in at this place, or 0. Each output has so much room, or more.
#[inline(always)]
fn tag_refusal(frame: &[u8], at: usize, room: usize) -> u8 {
    if word(frame, at) == TAG {
        return TAGGED;
    }
    if frame[SOURCE] & 1 != 0 {
        return GROUP;
    }
    if room < frame.len() + 6 {
        return ROOM;
    }
    0
}

#[inline(never)]
#[allow(improper_ctypes_definitions)]
pub extern "C" fn write_tag(frame: &[u8], number: u16, out: &mut [u8]) -> TagAnswer {
    if frame.len() > UNTAGGED_MOST {
        return refused(LONG);
    }
    let at = match type_place(frame) {
        Some(at) => at,
        None => return refused(SHORT),
    };
    let refusal = tag_refusal(frame, at, out.len());
    if refusal != 0 {
        return refused(refusal);
    }
    if at == 12 {
        written(frame, 12, number, out)
    } else {
        written(frame, 16, number, out)
    }
}

/// The send behind 3 and 4. Both outputs are written from the frame: a copy of the first would read the tag just after it was
/// written in smaller pieces, and wait.
#[inline(always)]
fn sent(
    sender: &mut Sender,
    frame: &[u8],
    at: usize,
    out0: &mut [u8],
    out1: &mut [u8],
) -> TagAnswer {
    let refusal = tag_refusal(frame, at, out0.len().min(out1.len()));
    if refusal != 0 {
        return refused(refusal);
    }
    let number = sender.next;
    sender.next = number.wrapping_add(1);
    written(frame, at, number, out0);
    written(frame, at, number, out1)
}

// With the place as a constant from here on, no check of the frame's bounds is left. This makes the plain side faster.
#[inline(never)]
#[allow(improper_ctypes_definitions)]
pub extern "C" fn send(
    sender: &mut Sender,
    frame: &[u8],
    out0: &mut [u8],
    out1: &mut [u8],
) -> TagAnswer {
    if frame.len() > UNTAGGED_MOST {
        return refused(LONG);
    }
    match type_place(frame) {
        Some(12) => sent(sender, frame, 12, out0, out1),
        Some(_) => sent(sender, frame, 16, out0, out1),
        None => refused(SHORT),
    }
}

fn not_turned(refusal: u8) -> PrpAnswer {
    PrpAnswer {
        refusal,
        ..PrpAnswer::default()
    }
}

/// The turn from PRP behind 3 and 4.
#[inline(always)]
fn from_line(frame: &[u8], at: usize, width: usize, out: &mut [u8]) -> PrpAnswer {
    if word(frame, at) == TAG {
        return not_turned(TAGGED);
    }
    let (bare, trailer) = frame.split_at(frame.len() - width);
    let lan_and_size = word(trailer, 2);
    // LAN A and LAN B differ in this bit alone.
    let fits = lan_and_size & !0x1000 == 0xA000 | (frame.len() - at - 2) as u16;
    if !fits || width == 6 && word(trailer, 4) != SUFFIX {
        return not_turned(TRAILER);
    }
    if out.len() < bare.len() + 6 {
        return not_turned(ROOM);
    }
    let told = written(bare, at, word(trailer, 0), out);
    PrpAnswer {
        length: told.length,
        number: told.number,
        network: (lan_and_size >> 12 & 1) as u8,
        refusal: 0,
    }
}

// With the place and the width as constants from here on, no check of the frame's bounds is left. This makes the plain side
// faster.
#[inline(never)]
#[allow(improper_ctypes_definitions)]
pub extern "C" fn from_prp(frame: &[u8], kind: u8, out: &mut [u8]) -> PrpAnswer {
    let width = if kind == 0 { 4 } else { 6 };
    if frame.len() > UNTAGGED_MOST + width {
        return not_turned(LONG);
    }
    match (type_place(frame), kind) {
        (Some(12), 0) if frame.len() >= 14 + 4 => from_line(frame, 12, 4, out),
        (Some(12), 1..) if frame.len() >= 14 + 6 => from_line(frame, 12, 6, out),
        (Some(16), 0) if frame.len() >= 18 + 4 => from_line(frame, 16, 4, out),
        (Some(16), 1..) if frame.len() >= 18 + 6 => from_line(frame, 16, 6, out),
        _ => not_turned(SHORT),
    }
}

/// The turn to PRP behind 2, 3 and the first 4.
#[inline(always)]
fn to_line(frame: &[u8], at: usize, network: u8, width: usize, out: &mut [u8]) -> PrpAnswer {
    if word(frame, at) != TAG {
        return not_turned(UNTAGGED);
    }
    if frame.len() < at + 8 {
        return not_turned(SHORT);
    }
    let length = frame.len() - 6;
    let mut header = at + 2;
    // What stood behind the tag is at 12 then.
    if at == 12 && word(frame, 18) == VLAN_TAG {
        header = 18;
    }
    if length < header {
        return not_turned(SHORT);
    }
    if out.len() < length + width {
        return not_turned(ROOM);
    }
    let (start, trailer) = out[..length + width].split_at_mut(length);
    let number = taken(frame, at, start).number;
    let lan_and_size = 0xA000 | (network as u16) << 12 | (length + width - header) as u16;
    trailer[..2].copy_from_slice(&number.to_be_bytes());
    trailer[2..4].copy_from_slice(&lan_and_size.to_be_bytes());
    if width == 6 {
        trailer[4..].copy_from_slice(&SUFFIX.to_be_bytes());
    }
    PrpAnswer {
        length: length + width,
        number,
        network,
        refusal: 0,
    }
}

#[inline(never)]
#[allow(improper_ctypes_definitions)]
pub extern "C" fn to_prp(frame: &[u8], network: u8, kind: u8, out: &mut [u8]) -> PrpAnswer {
    if network > 1 {
        return not_turned(NETWORK);
    }
    if frame.len() > FRAME_MOST {
        return not_turned(LONG);
    }
    match (type_place(frame), kind) {
        (Some(12), 0) => to_line(frame, 12, network, 4, out),
        (Some(12), 1..) => to_line(frame, 12, network, 6, out),
        (Some(_), 0) => to_line(frame, 16, network, 4, out),
        (Some(_), 1..) => to_line(frame, 16, network, 6, out),
        (None, _) => not_turned(SHORT),
    }
}

/// Bit k of the history is bit k % 64 of word k / 64.
type History = [u64; Stream::HISTORY_WORDS];

/// The word of the window's last place, and that place in the word.
#[inline(always)]
fn last(window: u16) -> (usize, u32) {
    let k = window as usize - 1;
    (k / 64, k as u32 % 64)
}

/// Is a bit set?
#[inline(always)]
fn is_set(history: &History, k: usize) -> bool {
    history[k / 64] >> (k % 64) & 1 != 0
}

#[inline(always)]
fn is_empty(history: &History) -> bool {
    history.iter().fold(0, |all, w| all | w) == 0
}

/// Is no bit set behind the window's last place?
#[inline(always)]
fn within(history: &History, window: u16) -> bool {
    let (top, place) = last(window);
    if history[top] >> place > 1 {
        return false;
    }
    // Most windows have one word, and then the number of the others is known here.
    if top == 0 {
        history[1..].iter().fold(0, |all, w| all | w) == 0
    } else {
        history[top + 1..].iter().all(|&w| w == 0)
    }
}

/// Is a record lawful that is no virtual link's?
#[inline(always)]
fn lawful(s: &Stream) -> bool {
    if s.used == 0
        || (s.rule != 1 && s.rule != 2)
        || s.window < 2
        || s.window > WINDOW_MOST
        || s.time == 0
        || s.vlan > 4094
    {
        return false;
    }
    let t = &s.state;
    if !is_timed(s) {
        return false;
    }
    if t.any != 0 || s.rule == 2 {
        return (t.any == 0 || t.anchor == 65535) && is_empty(&t.history) && t.early == 0;
    }
    if t.history[0] & 1 == 0 || !within(&t.history, s.window) {
        return false;
    }
    // Most often no place is left for numbers older than the first.
    t.early == 0 || first_stands(s)
}

/// Are the ticks those of the reset time and take-any?
#[inline(always)]
fn is_timed(s: &Stream) -> bool {
    let t = &s.state;
    t.remaining <= s.time && (t.remaining == 0) == (t.any != 0)
}

/// The same of a virtual link. What is asked of the VLAN id the search has asked before.
#[inline(always)]
fn link_lawful(s: &Stream) -> bool {
    let t = &s.state;
    s.used != 0
        && s.vlan == 0
        && s.window >= 2
        && s.window <= WINDOW_MOST
        && s.time != 0
        && is_timed(s)
        && (t.anchor <= 255 && t.any == 0 || t.anchor == 65535 && t.any != 0)
        && is_empty(&t.history)
        && t.early == 0
}

/// The first number stands next to the places for older ones. Asked for the first L numbers of a stream only.
#[cold]
fn first_stands(s: &Stream) -> bool {
    let t = &s.state;
    t.early < s.window && is_set(&t.history, (s.window - 1 - t.early) as usize)
}

/// The decision in place: what a program in Rust would write. A record that is not lawful stays as it is.
#[inline(always)]
fn decide_in(s: &mut Stream, number: u16, network: u8) -> u8 {
    if s.rule == LINK {
        if !link_lawful(s) {
            return DAMAGED;
        }
        return decide_link(s, number as u8, network);
    }
    if !lawful(s) {
        return DAMAGED;
    }
    decide_lawful(s, number, network)
}

/// How many bits are set at a place and above.
#[inline(always)]
fn ones_from(history: &[u64], k: usize) -> u64 {
    let first = (history[k / 64] >> (k % 64)).count_ones();
    let more: u32 = history[k / 64 + 1..].iter().map(|w| w.count_ones()).sum();
    (first + more) as u64
}

/// Moves words up by 1 to 63 places, and cuts the last one. A bit comes in at place 0.
#[inline(always)]
fn shift(words: &mut [u64], d: u32, cut: u64) {
    let mut carry = 1;
    if let Some((last, others)) = words.split_last_mut() {
        for w in others {
            let out = *w >> (64 - d);
            *w = *w << d | carry;
            carry = out;
        }
        *last = (*last << d | carry) & cut;
    }
}

// The moves: the history goes up d places, 1 to L - 1, and place 0 is marked. The d places below L leave, and each zero bit
// among them is lost. Each is a call of its own, so that it keeps no registers from the common case, which is the next number
// in a window of one word.

/// In a window of one word.
#[inline(never)]
fn move_word(s: &mut Stream, d: u16) {
    let word = &mut s.state.history[0];
    let leaving = *word >> (s.window - d);
    *word = (*word << d) & (u64::MAX >> (64 - s.window)) | 1;
    let lost = d as u64 - leaving.count_ones() as u64;
    s.counts.lost = s.counts.lost.wrapping_add(lost);
}

/// By one place, in a window of any size. Only the words that it has are read and written.
#[inline(never)]
fn step_words(s: &mut Stream) {
    let (top, place) = last(s.window);
    let words = &mut s.state.history[..=top];
    s.counts.lost = s.counts.lost.wrapping_add(1 - (words[top] >> place));
    shift(words, 1, u64::MAX >> (63 - place));
}

/// In a window of any size.
#[inline(never)]
fn move_words(s: &mut Stream, d: u16) {
    let (top, place) = last(s.window);
    let words = &mut s.state.history[..=top];
    let cut = u64::MAX >> (63 - place);
    let lost = d as u64 - ones_from(words, (s.window - d) as usize);
    s.counts.lost = s.counts.lost.wrapping_add(lost);
    if d < 64 {
        shift(words, d as u32, cut);
    } else {
        // Whole words first, from the highest on; those that nothing comes to are empty.
        let (whole, rest) = (d as usize / 64, d as u32 % 64);
        for i in (whole + 1..=top).rev() {
            words[i] = words[i - whole] << rest | words[i - whole - 1] >> 1 >> (63 - rest);
        }
        words[whole] = words[0] << rest;
        words[..whole].fill(0);
        words[0] = 1;
        words[top] &= cut;
    }
}

/// While there are places for numbers older than the first: those leave before the others and are not lost.
#[cold]
fn move_at_start(s: &mut Stream, d: u16) {
    let (window, early) = (s.window as usize, s.state.early);
    let mut lost = s.counts.lost;
    if d > early {
        let (from, to) = (window - d as usize, window - early as usize);
        let ones = ones_from(&s.state.history, from) - ones_from(&s.state.history, to);
        lost = lost.wrapping_add((to - from) as u64 - ones);
    }
    move_words(s, d);
    s.counts.lost = lost;
    s.state.early = early.saturating_sub(d);
}

#[inline(always)]
fn count_arrival(s: &mut Stream, network: u8) {
    if network == 0 {
        s.counts.arrivals0 = s.counts.arrivals0.wrapping_add(1);
    } else {
        s.counts.arrivals1 = s.counts.arrivals1.wrapping_add(1);
    }
}

#[inline(always)]
fn decide_lawful(s: &mut Stream, number: u16, network: u8) -> u8 {
    let d = number.wrapping_sub(s.state.anchor) as i16 as i32;
    let window = s.window as i32;
    count_arrival(s, network);
    if s.state.any != 0 {
        s.state.any = 0;
        s.state.anchor = number;
        if s.rule == 1 {
            s.state.history[0] = 1;
            s.state.early = s.window - 1;
        }
    } else if s.rule == 1 {
        if d >= window || d <= -window {
            s.counts.rogue = s.counts.rogue.wrapping_add(1);
            return ROGUE;
        }
        if d <= 0 {
            let k = -d as usize;
            let (word, bit) = (&mut s.state.history[k / 64], 1 << (k % 64));
            if *word & bit != 0 {
                s.counts.discarded = s.counts.discarded.wrapping_add(1);
                return DUPLICATE;
            }
            *word |= bit;
            s.counts.disorder = s.counts.disorder.wrapping_add(1);
        } else {
            if s.state.early != 0 {
                move_at_start(s, d as u16);
            } else if window > 64 {
                if d == 1 {
                    step_words(s);
                } else {
                    move_words(s, d as u16);
                }
            } else if d == 1 {
                let word = &mut s.state.history[0];
                s.counts.lost = s.counts.lost.wrapping_add(1 - (*word >> (window - 1)));
                *word = (*word << 1) & (u64::MAX >> (64 - window)) | 1;
            } else {
                move_word(s, d as u16);
            }
            s.state.anchor = number;
            if d != 1 {
                s.counts.disorder = s.counts.disorder.wrapping_add(1);
            }
        }
    } else {
        if d == 0 {
            s.counts.discarded = s.counts.discarded.wrapping_add(1);
            return DUPLICATE;
        }
        if d != 1 {
            s.counts.disorder = s.counts.disorder.wrapping_add(1);
        }
        s.state.anchor = number;
    }
    s.counts.passed = s.counts.passed.wrapping_add(1);
    s.state.remaining = s.time;
    HANDED_UP
}

/// Is a virtual link's number handed up behind the last one? Behind 255 comes 1, so a difference that goes below 0 is one step
/// fewer than its byte. From 0 the steps are those from 255: both have 1 behind them.
#[inline(always)]
fn is_ahead(last: u8, number: u8) -> bool {
    if number == 0 {
        return last != 0;
    }
    let (byte, below) = number.overflowing_sub(last);
    let steps = byte.wrapping_sub(below as u8);
    (1..=127).contains(&steps)
}

/// The decision of a virtual link whose record is lawful.
#[inline(always)]
fn decide_link(s: &mut Stream, number: u8, network: u8) -> u8 {
    count_arrival(s, network);
    if s.state.any == 0 && !is_ahead(s.state.anchor as u8, number) {
        s.counts.discarded = s.counts.discarded.wrapping_add(1);
        return DUPLICATE;
    }
    s.state.any = 0;
    s.state.anchor = number as u16;
    s.counts.passed = s.counts.passed.wrapping_add(1);
    s.state.remaining = s.time;
    HANDED_UP
}

/// By value, with the interface of the archive's call.
#[inline(never)]
pub extern "C" fn decide(s: Stream, number: u16, network: u8) -> Decided {
    let mut stream = s;
    let verdict = decide_in(&mut stream, number, network);
    Decided { stream, verdict }
}

/// By reference.
#[inline(never)]
pub fn decide_at(s: &mut Stream, number: u16, network: u8) -> u8 {
    decide_in(s, number, network)
}

#[inline(never)]
pub extern "C" fn row(s: Stream, number: u16, step: u16, network: u8, times: u64) -> Stream {
    let mut t = s;
    let mut n = number;
    for _ in 0..times {
        decide_in(&mut t, n, network);
        n = n.wrapping_add(step);
    }
    t
}

#[inline(never)]
pub fn row_at(t: &mut Stream, number: u16, step: u16, network: u8, times: u64) {
    let mut n = number;
    for _ in 0..times {
        decide_in(t, n, network);
        n = n.wrapping_add(step);
    }
}

/// A call with an arrival's arguments that does nothing.
pub type Bare = fn(&mut [Stream], u8, &[u8], &mut [u8]) -> u64;

pub fn nothing(_: &mut [Stream], _: u8, _: &[u8], _: &mut [u8]) -> u64 {
    0
}

/// The frame's bytes copied, and nothing else: the floor of a frame that is handed up.
#[inline(never)]
pub fn copy(frame: &[u8], out: &mut [u8]) {
    out[..frame.len()].copy_from_slice(frame);
}

/// The arrival of the second program, as it is.
#[inline(never)]
pub fn arrival(
    table: &mut [second::Stream],
    network: u8,
    frame: &[u8],
    out: &mut [u8],
) -> Result<second::Arrival, second::Refusal> {
    second::arrival(table, network, frame, out)
}

/// The arrival of a virtual link of the second program, as it is.
#[inline(never)]
pub fn link_arrival(
    table: &mut [second::Stream],
    network: u8,
    frame: &[u8],
    out: &mut [u8],
) -> Result<second::Arrival, second::Refusal> {
    second::link_arrival(table, network, frame, out)
}

fn not_taken(refusal: u8) -> ArrivalAnswer {
    ArrivalAnswer {
        refusal,
        ..ArrivalAnswer::default()
    }
}

/// The arrival with the record changed where it lies, written for speed.
#[inline(never)]
pub fn arrival_at(
    table: &mut [Stream],
    network: u8,
    frame: &[u8],
    out: &mut [u8],
) -> ArrivalAnswer {
    if table.len() > SLOTS_MOST {
        return not_taken(TABLE);
    }
    if network > 1 {
        return not_taken(NETWORK);
    }
    match read(frame) {
        Ok(asked) => {
            let slot = find(table, asked.vlan, asked.dest);
            arrive(table, slot, network, frame, asked, out)
        }
        Err(refusal) => not_taken(refusal),
    }
}

/// The arrival of a virtual link, in the same way. Every virtual link has VLAN id 0, so the destination tells two of them apart
/// at once.
#[inline(never)]
pub fn link_arrival_at(
    table: &mut [Stream],
    network: u8,
    frame: &[u8],
    out: &mut [u8],
) -> ArrivalAnswer {
    if table.len() > SLOTS_MOST {
        return not_taken(TABLE);
    }
    if network > 1 {
        return not_taken(NETWORK);
    }
    if frame.len() > FRAME_MOST {
        return not_taken(LONG);
    }
    if frame.len() < LINK_LEAST {
        return not_taken(SHORT);
    }
    if frame[SOURCE] & 1 != 0 {
        return not_taken(GROUP);
    }
    let dest = destination(frame);
    let hears = |s: &Stream| s.dest == dest && s.vlan == 0 && s.rule == LINK && s.used != 0;
    let slot = match table.iter().position(hears) {
        Some(slot) => slot,
        None => return not_taken(UNKNOWN),
    };
    let s = &mut table[slot];
    if !link_lawful(s) {
        return not_taken(HURT);
    }
    let length = frame.len() - 1;
    if out.len() < length {
        return not_taken(ROOM);
    }
    let number = frame[length];
    let verdict = decide_link(s, number, network);
    let mut written = 0;
    if verdict == HANDED_UP {
        out[..length].copy_from_slice(&frame[..length]);
        written = length;
    }
    ArrivalAnswer {
        slot,
        length: written,
        number: number as u16,
        verdict,
        ..ArrivalAnswer::default()
    }
}

#[inline(always)]
fn destination(frame: &[u8]) -> u64 {
    (u32::from_be_bytes([frame[0], frame[1], frame[2], frame[3]]) as u64) << 16
        | word(frame, 4) as u64
}

/// Has a slot the key, and is it a virtual link's or not, as is asked?
#[inline(always)]
fn hears(s: &Stream, vlan: u16, dest: u64, link: bool) -> bool {
    s.vlan == vlan && s.dest == dest && s.used != 0 && (s.rule == LINK) == link
}

/// The slot of a stream that is no virtual link, by its VLAN id and destination.
#[inline(always)]
fn find(table: &[Stream], vlan: u16, dest: u64) -> Option<usize> {
    table.iter().position(|s| hears(s, vlan, dest, false))
}

type Index = [u8; PLACES];

/// A key's own place: the highest seven bits of what mixes its bytes.
#[inline(always)]
fn home(vlan: u16, dest: u64) -> usize {
    let high = ((dest >> 20) as u32).wrapping_add((vlan as u32) << 16);
    let mixed = (dest as u32)
        .wrapping_mul(1_234_164_911)
        .wrapping_add(high.wrapping_mul(557_513_737));
    (mixed >> 25) as usize
}

/// What the places hold from one on, round the end.
#[inline(always)]
fn names(index: &Index, from: usize) -> impl Iterator<Item = usize> + '_ {
    let (before, behind) = index.split_at(from);
    behind.iter().chain(before).map(|&name| name as usize)
}

/// The slot that hears of a key, by the index: places that name none such are passed over, until an empty one.
#[inline(always)]
fn follow(index: &Index, table: &[Stream], vlan: u16, dest: u64, link: bool) -> Option<usize> {
    names(index, home(vlan, dest))
        .take_while(|&name| name != 0)
        .map(|name| name - 1)
        .find(|&slot| {
            table
                .get(slot)
                .map_or(false, |s| hears(s, vlan, dest, link))
        })
}

/// Does following find the lowest slot in use with the key, from every key, among virtual links and among the rest? It does if
/// it finds none above a slot that has the key and is of the same kind. Where lower names alone stand before a slot's, no key
/// has to be compared: so it is in a rebuilt index.
#[inline(always)]
fn agrees(index: &Index, table: &[Stream]) -> bool {
    table.iter().enumerate().all(|(slot, s)| {
        s.used == 0
            || names(index, home(s.vlan, s.dest)).find(|&name| name == 0 || name > slot)
                == Some(slot + 1)
            || follow(index, table, s.vlan, s.dest, s.rule == LINK)
                .map_or(false, |found| found <= slot)
    })
}

/// What a tagged frame asks for, and where its tag is.
struct Asked {
    at: usize,
    vlan: u16,
    dest: u64,
    number: u16,
    /// The priority, and whether there is a VLAN tag.
    rank: [u8; 2],
}

/// Refusals 3, 4, 5 and 14 of an arrival.
#[inline(always)]
fn read(frame: &[u8]) -> Result<Asked, u8> {
    if frame.len() > FRAME_MOST {
        return Err(LONG);
    }
    let at = type_place(frame).ok_or(SHORT)?;
    // One check of the bounds for the whole tag and the type behind it.
    let tag = match frame.get(at..at + 8) {
        Some(tag) => tag,
        None if word(frame, at) == TAG => return Err(SHORT),
        None => return Err(UNTAGGED),
    };
    if word(tag, 0) != TAG {
        return Err(UNTAGGED);
    }
    if frame[SOURCE] & 1 != 0 {
        return Err(GROUP);
    }
    // The highest three bits are the priority, the lowest twelve the id. Priority and tag as one word: this makes the plain side
    // faster.
    let (vlan, rank) = if at == 16 {
        let bits = word(frame, 14);
        (bits & 0x0FFF, bits >> 13 | 0x0100)
    } else {
        (0, 0)
    };
    Ok(Asked {
        at,
        vlan,
        dest: destination(frame),
        number: word(tag, 4),
        rank: rank.to_le_bytes(),
    })
}

/// The rest of an arrival, once its slot is looked for: refusals 6, 7 and 8, then the decision.
#[inline(always)]
fn arrive(
    table: &mut [Stream],
    slot: Option<usize>,
    network: u8,
    frame: &[u8],
    asked: Asked,
    out: &mut [u8],
) -> ArrivalAnswer {
    let slot = match slot {
        Some(slot) => slot,
        None => return not_taken(UNKNOWN),
    };
    let s = &mut table[slot];
    if !lawful(s) {
        return not_taken(HURT);
    }
    if out.len() < frame.len() - 6 {
        return not_taken(ROOM);
    }
    let verdict = decide_lawful(s, asked.number, network);
    let mut length = 0;
    if verdict == HANDED_UP {
        length = if asked.at == 12 {
            taken(frame, 12, out).length
        } else {
            taken(frame, 16, out).length
        };
    }
    ArrivalAnswer {
        slot,
        length,
        number: asked.number,
        verdict,
        refusal: 0,
        priority: asked.rank[0],
        vlantag: asked.rank[1],
    }
}

fn none_taken(refusal: u8) -> BatchAnswer {
    BatchAnswer {
        refusal,
        ..BatchAnswer::default()
    }
}

/// Do the lengths run past the buffer?
fn runs_past(mut frames: &[u8], count: usize) -> bool {
    for _ in 0..count {
        if frames.len() < 2 {
            return true;
        }
        let length = word(frames, 0) as usize;
        match frames.get(2 + length..) {
            Some(behind) => frames = behind,
            None => return true,
        }
    }
    false
}

/// The batch, with the arrival above in its loop. No frame changes a key, so the index is asked once.
#[inline(never)]
pub fn batch(
    table: &mut [Stream],
    index: &[u8],
    network: u8,
    count: usize,
    mut frames: &[u8],
    out: &mut [u8],
) -> BatchAnswer {
    if table.len() > SLOTS_MOST {
        return none_taken(TABLE);
    }
    let index: &Index = match index.try_into() {
        Ok(index) if agrees(index, table) => index,
        _ => return none_taken(INDEX),
    };
    if network > 1 {
        return none_taken(NETWORK);
    }
    if count > FRAMES_MOST || runs_past(frames, count) {
        return none_taken(BATCH);
    }
    let mut answers = [ArrivalAnswer::default(); FRAMES_MOST];
    let mut before = 0;
    let mut used = 0;
    for answer in &mut answers[..count] {
        let (frame, behind) = frames[2..].split_at(word(frames, 0) as usize);
        frames = behind;
        let room = out[used..].get_mut(2..).unwrap_or(&mut []);
        let a = match read(frame) {
            Ok(asked) => {
                let slot = follow(index, table, asked.vlan, asked.dest, false);
                arrive(table, slot, network, frame, asked, room)
            }
            Err(refusal) => not_taken(refusal),
        };
        *answer = a;
        if a.refusal == ROOM {
            break;
        }
        if a.verdict == HANDED_UP {
            out[used..used + 2].copy_from_slice(&(a.length as u16).to_be_bytes());
            used += 2 + a.length;
        }
        before += 1;
    }
    BatchAnswer {
        answers,
        frames: before,
        refusal: 0,
    }
}
