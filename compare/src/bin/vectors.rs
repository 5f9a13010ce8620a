//! A fixed list of calls that are run and not proved, with what each answers and changes: document 01, "Run but not proved",
//! and the places where a slip is likely, orders 1, 3 to 7 and 9 to 11 of document 02 among them.
//!
//!     vectors product    the list on the compiled product
//!     vectors second     the list on the second program
//!     vectors cases      writes the list for compare/replay.c, with what the second program answers and leaves
//!
//! Both must write compare/vectors.out, byte for byte (compare/run). A line has the call, its answer, and all that changed.

#![forbid(unsafe_code)]

use compare::cases::{self, Areas};
use compare::{Answer, Call, Product, Second, Settings, Side, VlanTag};
use nippitsun::archive::PLACES;
use nippitsun::{dest_of, Counts, State, Stream};
use std::fmt::Write as _;
use std::io::{self, Write as _};
use std::process::ExitCode;

const DESTINATION: [u8; 6] = [2, 0, 0, 0, 0, 1];
const SOURCE: [u8; 6] = [2, 0, 0, 0, 0, 2];
/// A destination that is a group.
const GROUP: [u8; 6] = [3, 0, 0, 0, 0, 1];

/// What the output holds before each call. No frame of the list has this byte, so what is written can be seen.
const BLANK: u8 = 0xEE;

// ---- frames

/// The tags of a frame, in front of its former type 0800.
#[derive(Clone, Copy)]
struct Tags {
    /// 8100 and these two bytes.
    vlan: Option<u16>,
    /// F1C1, two reserved bytes, and the number.
    redundancy: Option<(u16, u16)>,
}

const PLAIN: Tags = Tags {
    vlan: None,
    redundancy: None,
};

fn tagged(number: u16) -> Tags {
    Tags {
        redundancy: Some((0, number)),
        ..PLAIN
    }
}

/// The same with a VLAN tag that has these 16 bits.
fn tagged_in(vlan: u16, number: u16) -> Tags {
    Tags {
        vlan: Some(vlan),
        ..tagged(number)
    }
}

/// A frame with this head, cut or filled up to the length.
fn frame(length: usize, tags: Tags) -> Vec<u8> {
    let mut f = [DESTINATION, SOURCE].concat();
    if let Some(vlan) = tags.vlan {
        f.extend_from_slice(&[0x81, 0x00]);
        f.extend_from_slice(&vlan.to_be_bytes());
    }
    if let Some((reserved, number)) = tags.redundancy {
        f.extend_from_slice(&[0xF1, 0xC1]);
        f.extend_from_slice(&reserved.to_be_bytes());
        f.extend_from_slice(&number.to_be_bytes());
    }
    f.extend_from_slice(&[0x08, 0x00]);
    filled(f, length)
}

/// The frame with another first byte of its source.
fn from_source(first: u8, mut frame: Vec<u8>) -> Vec<u8> {
    frame[6] = first;
    frame
}

/// The frame with another last byte, which is the number in a virtual link.
fn ending(number: u8, mut frame: Vec<u8>) -> Vec<u8> {
    if let Some(last) = frame.last_mut() {
        *last = number;
    }
    frame
}

/// Frames, each behind its length.
fn packed(frames: &[Vec<u8>]) -> Vec<u8> {
    let mut buffer = Vec::new();
    for f in frames {
        buffer.extend_from_slice(&(f.len() as u16).to_be_bytes());
        buffer.extend_from_slice(f);
    }
    buffer
}

/// Frames of 20 bytes with these numbers. Each takes 16 bytes of an output.
fn numbered(numbers: &[u16]) -> Vec<Vec<u8>> {
    numbers.iter().map(|&n| frame(20, tagged(n))).collect()
}

/// The frame with a PRP trailer of this kind behind it, whose size fits.
fn with_trailer(bare: &[u8], number: u16, lan: u8, kind: u8) -> Vec<u8> {
    let width = width(kind);
    let at = if bare[12..14] == [0x81, 0x00] { 16 } else { 12 };
    let size = (bare.len() - (at + 2) + width) as u16;
    let ends = [number, u16::from(lan) << 12 | size, 0x88FB].map(u16::to_be_bytes);
    [bare, &ends.concat()[..width]].concat()
}

/// Bytes of a PRP trailer.
fn width(kind: u8) -> usize {
    match kind {
        0 => 4,
        _ => 6,
    }
}

/// A frame with these bytes behind its addresses.
fn behind_addresses(bytes: &[u8]) -> Vec<u8> {
    [&DESTINATION, &SOURCE, bytes].concat()
}

fn filled(mut head: Vec<u8>, length: usize) -> Vec<u8> {
    head.truncate(length);
    while head.len() < length {
        head.push((head.len() % 200) as u8);
    }
    head
}

// ---- records

/// A history with these bits in its first word.
fn low(bits: u64) -> [u64; 8] {
    [bits, 0, 0, 0, 0, 0, 0, 0]
}

/// A history with these places marked.
fn marked(places: impl IntoIterator<Item = u16>) -> [u64; 8] {
    let mut history = [0; 8];
    for place in places {
        history[usize::from(place / 64)] |= 1 << (place % 64);
    }
    history
}

/// A fresh vector stream with L = 4 and R = 3.
fn fresh() -> Stream {
    Stream {
        dest: dest_of(DESTINATION),
        window: 4,
        time: 3,
        rule: Stream::VECTOR_RULE,
        used: 1,
        state: State {
            history: low(0),
            anchor: 65535,
            remaining: 0,
            early: 0,
            any: 1,
        },
        ..Stream::default()
    }
}

/// The same stream long after its first number: 98 and 100 came, and one tick since.
fn running() -> Stream {
    Stream {
        state: State {
            history: low(0b101),
            anchor: 100,
            remaining: 2,
            early: 0,
            any: 0,
        },
        ..fresh()
    }
}

/// The running stream with this window and these places marked.
fn wide(window: u16, places: impl IntoIterator<Item = u16>) -> Stream {
    Stream {
        window,
        state: State {
            history: marked(places),
            ..running().state
        },
        ..running()
    }
}

/// The record with so many places left for numbers older than the first.
fn with_early(mut record: Stream, early: u16) -> Stream {
    record.state.early = early;
    record
}

/// A virtual link that handed this number up last, and one tick since.
fn link(last: u16) -> Stream {
    Stream {
        rule: Stream::LINK_RULE,
        state: State {
            history: low(0),
            anchor: last,
            ..running().state
        },
        ..running()
    }
}

fn fresh_link() -> Stream {
    Stream {
        rule: Stream::LINK_RULE,
        ..fresh()
    }
}

fn settings(rule: u8, window: u16, time: u16) -> Settings {
    Settings {
        destination: DESTINATION,
        vlan: 0,
        rule,
        window,
        time,
    }
}

/// A destination whose own place in an index is this one, where there is no VLAN tag: the first one, the second and so on.
fn at_place(place: usize, nth: usize) -> [u8; 6] {
    let all = (0..=u16::MAX).map(|n| {
        let [high, low] = n.to_be_bytes();
        [2, 0, 0, 0, high, low]
    });
    let there = |six: &[u8; 6]| second::own_place(*six, 0) == place;
    all.filter(there).nth(nth).expect("each place has hundreds")
}

/// The running stream to another destination.
fn running_to(destination: [u8; 6]) -> Stream {
    Stream {
        dest: dest_of(destination),
        ..running()
    }
}

fn settings_to(destination: [u8; 6]) -> Settings {
    Settings {
        destination,
        ..settings(1, 4, 3)
    }
}

/// A frame of 20 bytes to another destination.
fn numbered_to(destination: [u8; 6], number: u16) -> Vec<u8> {
    let mut f = frame(20, tagged(number));
    f[..6].copy_from_slice(&destination);
    f
}

/// An index of 128 places that has this in all places but these.
fn index_of(rest: u8, places: &[(usize, u8)]) -> Vec<u8> {
    let mut index = vec![rest; PLACES];
    for &(place, name) in places {
        index[place] = name;
    }
    index
}

/// A record's fields, each as it is shown. Two that differ are shown differently.
fn fields(s: &Stream) -> Vec<(&'static str, String)> {
    let (state, counts) = (&s.state, &s.counts);
    let numbers = [
        ("in use", s.used.into()),
        ("VLAN", s.vlan.into()),
        ("rule", s.rule.into()),
        ("L", s.window.into()),
        ("R", s.time.into()),
        ("anchor", state.anchor.into()),
        ("take-any", state.any.into()),
        ("remaining", state.remaining.into()),
        ("n", state.early.into()),
        ("arrivals 0", counts.arrivals0),
        ("arrivals 1", counts.arrivals1),
        ("passed", counts.passed),
        ("discarded", counts.discarded),
        ("rogue", counts.rogue),
        ("out of order", counts.disorder),
        ("lost", counts.lost),
        ("resets", counts.resets),
    ];
    let mut shown: Vec<_> = numbers
        .into_iter()
        .map(|(name, value)| (name, value.to_string()))
        .collect();
    shown.insert(1, ("destination", format!("{:012x}", s.dest)));
    shown.insert(7, ("history", shown_history(&state.history)));
    shown
}

// ---- lines

/// The first word, and those above it up to the last that is not 0, the highest in front.
fn shown_history(history: &[u64; 8]) -> String {
    let words = history.iter().rposition(|&word| word != 0).unwrap_or(0) + 1;
    match history[..words] {
        [value] if value < 16 => format!("{:04b}", value),
        ref words => {
            let words: Vec<String> = words.iter().rev().map(|w| format!("{:x}", w)).collect();
            format!("0x{}", words.join("_"))
        }
    }
}

/// What is told of a VLAN tag; nothing, where that is 0 and no.
fn told_of(vlan: VlanTag) -> String {
    match (vlan.there, vlan.priority) {
        (0, 0) => String::new(),
        (1, priority) => format!(", priority {}", priority),
        (there, priority) => format!(", priority {}, VLAN tag {}", priority, there),
    }
}

fn told(answer: &Answer) -> String {
    match *answer {
        Answer::Refused(n) => format!("no {}", n),
        Answer::HandedUp {
            slot,
            number,
            length,
            vlan,
        } => {
            let told = format!("up, slot {}, number {}, length {}", slot, number, length);
            told + &told_of(vlan)
        }
        Answer::Duplicate { slot, number, vlan } => {
            format!("duplicate, slot {}, number {}", slot, number) + &told_of(vlan)
        }
        Answer::Rogue { slot, number, vlan } => {
            format!("rogue, slot {}, number {}", slot, number) + &told_of(vlan)
        }
        Answer::Strange(ref what) => what.clone(),
        Answer::Opened(slot) => format!("slot {}", slot),
        Answer::Done => String::from("ok"),
        Answer::Ticked { resets, damaged } => format!("{} reset, {} damaged", resets, damaged),
        Answer::Tag { number, length } => format!("number {}, length {}", number, length),
        Answer::Prp(ref a) => {
            let told = format!(
                "network {}, number {}, length {}",
                a.network, a.number, a.length
            );
            // A refused one has its number alone, and is told above.
            match a.refusal {
                0 => told,
                n => format!("no {}, and {}", n, told),
            }
        }
        Answer::Batch(ref batch) => {
            let frames = batch.answers.iter().map(Answer::of_frame);
            let frames: Vec<String> = frames
                .map(|frame| frame.as_ref().map_or(String::from("-"), told))
                .collect();
            // A mark is a dash. Those behind the last answer are left out.
            let answered = frames.iter().rposition(|f| f != "-").map_or(0, |n| n + 1);
            let answers = frames[..answered].join(" | ");
            format!("tells {}, answers [{}]", batch.frames, answers)
        }
    }
}

/// The bytes that were written: all of them if they are few, else the ends and a sum that changes with each byte and place.
fn written(bytes: &[u8]) -> String {
    let hex = |bytes: &[u8]| {
        bytes
            .iter()
            .map(|b| format!("{:02x}", b))
            .collect::<String>()
    };
    if bytes.len() <= 32 {
        return hex(bytes);
    }
    let sum = bytes.iter().fold(0u32, |sum, &b| {
        sum.wrapping_mul(31).wrapping_add(u32::from(b))
    });
    format!(
        "{}..{} (sum {:08x})",
        hex(&bytes[..24]),
        hex(&bytes[bytes.len() - 2..]),
        sum
    )
}

/// What became of an index: the places that changed, or where these are many, those that are not empty now.
fn changed_places(before: &[u8], after: &[u8]) -> String {
    let places = || before.iter().zip(after).enumerate();
    let changed: Vec<String> = places()
        .filter(|(_, (b, a))| b != a)
        .map(|(place, (b, a))| format!("{} {}>{}", place, b, a))
        .collect();
    let named: Vec<String> = places()
        .filter(|(_, (_, a))| **a != 0)
        .map(|(place, (_, a))| format!("{} {}", place, a))
        .collect();
    let few = 8;
    if changed.len() <= few {
        format!("places {}", changed.join(", "))
    } else if named.is_empty() {
        String::from("all places empty")
    } else if named.len() <= few {
        format!("all places empty but {}", named.join(", "))
    } else {
        format!("index {}", written(after))
    }
}

struct List<S> {
    side: S,
    slots: usize,
    lines: String,
    cases: Vec<u8>,
}

impl<S: Side> List<S> {
    fn section(&mut self, title: &str) {
        writeln!(self.lines, "\n# {}", title).unwrap();
    }

    fn table(&mut self, records: &[Stream]) {
        self.side = S::new(records);
        self.slots = records.len();
    }

    fn records(&self) -> Vec<Stream> {
        (0..self.slots).map(|slot| self.side.record(slot)).collect()
    }

    /// A table and an index beside it.
    fn table_with(&mut self, records: &[Stream], index: &[u8]) {
        self.table(records);
        self.side.set_index(index);
    }

    /// A table with one slot.
    fn one(&mut self, record: Stream) {
        self.table(&[record]);
    }

    /// Makes the call with an output of so many bytes, and writes its line.
    fn call(&mut self, what: &str, call: Call, room: usize) {
        self.call_with(what, call, [room, 0]);
    }

    /// The same with two outputs.
    fn call_with(&mut self, what: &str, call: Call, rooms: [usize; 2]) {
        let (before, next) = (self.records(), self.side.next());
        let index = self.side.index().to_vec();
        let blank = rooms.map(|room| vec![BLANK; room]);
        let mut outs = blank.clone();
        let [out, second_out] = &mut outs;
        let answer = self.side.call(call, [out, second_out]);
        let after = self.records();
        let given = Areas {
            table: &before,
            index: &index,
            outs: [&blank[0], &blank[1]],
            next,
        };
        let left = Areas {
            table: &after,
            index: self.side.index(),
            outs: [&outs[0], &outs[1]],
            next: self.side.next(),
        };
        cases::add(&mut self.cases, call, given, &answer, left);
        let mut changes = Vec::new();
        for (slot, (b, a)) in before.iter().zip(&after).enumerate() {
            let changed: Vec<String> = fields(b)
                .iter()
                .zip(fields(a))
                .filter(|((_, b), (_, a))| b != a)
                .map(|((name, b), (_, a))| format!("{} {}>{}", name, b, a))
                .collect();
            if !changed.is_empty() {
                changes.push(format!("slot {}: {}", slot, changed.join(", ")));
            }
        }
        if given.index != left.index {
            changes.push(changed_places(given.index, left.index));
        }
        if given.next != left.next {
            changes.push(format!("next number {}>{}", given.next, left.next));
        }
        for (name, out) in ["output", "second output"].iter().zip(left.outs) {
            if let Some(first) = out.iter().position(|&b| b != BLANK) {
                let end = out.iter().rposition(|&b| b != BLANK).unwrap() + 1;
                let bytes = written(&out[first..end]);
                changes.push(format!("{} {}..{}: {}", name, first, end, bytes));
            }
        }
        let changes = if changes.is_empty() {
            String::from("nothing changed")
        } else {
            changes.join("; ")
        };
        writeln!(self.lines, "{}: {}; {}", what, told(&answer), changes).unwrap();
    }

    fn arrival(&mut self, what: &str, network: u8, frame: &[u8]) {
        let what = format!("arrival, {}", what);
        self.call(&what, Call::Arrival { network, frame }, Stream::FRAME_MOST);
    }

    /// The arrival of a number on a network.
    fn number(&mut self, what: &str, network: u8, number: u16) {
        let f = frame(20, tagged(number));
        let what = format!("arrival of {} on {}, {}", number, network, what);
        self.call(
            &what,
            Call::Arrival { network, frame: &f },
            Stream::FRAME_MOST,
        );
    }

    fn link_arrival(&mut self, what: &str, network: u8, frame: &[u8], room: usize) {
        let what = format!("link arrival, {}", what);
        self.call(&what, Call::LinkArrival { network, frame }, room);
    }

    /// The arrival of a virtual link's number on a network.
    fn link_number(&mut self, what: &str, network: u8, number: u8) {
        let what = format!("{} on {}, {}", number, network, what);
        let f = ending(number, frame(20, PLAIN));
        self.link_arrival(&what, network, &f, Stream::FRAME_MOST);
    }

    /// A batch on a stream that runs (slot 0) and on a damaged one with VLAN 5 (slot 1).
    fn batch(&mut self, what: &str, network: u8, count: usize, frames: &[u8], room: usize) {
        let damaged = Stream {
            vlan: 5,
            window: 513,
            ..running()
        };
        self.table(&[running(), damaged]);
        self.batch_here(what, network, count, frames, room);
    }

    fn batch_here(&mut self, what: &str, network: u8, count: usize, frames: &[u8], room: usize) {
        let what = format!("batch, {}, output of {}", what, room);
        let call = Call::Batch {
            network,
            count,
            frames,
        };
        self.call(&what, call, room);
    }

    fn send(&mut self, what: &str, frame: &[u8], rooms: [usize; 2]) {
        let what = format!("send, {}, outputs of {} and {}", what, rooms[0], rooms[1]);
        self.call_with(&what, Call::Send { frame }, rooms);
    }

    fn turn_from_prp(&mut self, what: &str, kind: u8, frame: &[u8], room: usize) {
        let line = ["first edition", "2012"][usize::from(kind != 0)];
        let what = format!("from PRP, {}, {}, output of {}", line, what, room);
        self.call(&what, Call::FromPrp { frame, kind }, room);
    }

    fn turn_to_prp(&mut self, what: &str, network: u8, kind: u8, frame: &[u8], room: usize) {
        let line = ["first edition", "2012"][usize::from(kind != 0)];
        let what = format!("to PRP, {}, {}, output of {}", line, what, room);
        let call = Call::ToPrp {
            frame,
            network,
            kind,
        };
        self.call(&what, call, room);
    }

    // ---- the list

    fn frames(&mut self) {
        self.section("Frames: each length with and without 8100 and F1C1, on fresh streams with VLAN 0 (slot 0) and VLAN 5 (slot 1)");
        let number = Some((0, 7));
        let kinds = [
            ("plain", None, None),
            ("8100", Some(5), None),
            ("F1C1", None, number),
            ("8100 F1C1", Some(5), number),
        ];
        for length in [0, 13, 14, 17, 18, 19, 20, 23, 24, 1994, 1995, 2000, 2001] {
            for (kind, vlan, redundancy) in kinds {
                // Where a mark does not fit, the frame is the same without it.
                if (vlan.is_some() && length < 14)
                    || (redundancy.is_some() && length < if vlan.is_some() { 18 } else { 14 })
                {
                    continue;
                }
                let f = frame(length, Tags { vlan, redundancy });
                self.table(&[fresh(), Stream { vlan: 5, ..fresh() }]);
                let what = format!("{} bytes, {}", length, kind);
                self.frame_calls(&what, &f);
            }
        }
    }

    fn other_frames(&mut self) {
        self.section("Frames: where the marks stand, on fresh streams with VLAN 0, VLAN 5 and a damaged one with VLAN 4095");
        let front = [DESTINATION, SOURCE].concat();
        let cases: [(&str, &[u8]); 10] = [
            (
                "VLAN id 0 in a tag",
                &[0x81, 0, 0, 0, 0xF1, 0xC1, 0, 0, 0, 7, 8, 0],
            ),
            (
                "VLAN 5, priority and the bit below it set",
                &[0x81, 0, 0xF0, 5, 0xF1, 0xC1, 0, 0, 0, 7, 8, 0],
            ),
            ("VLAN 6", &[0x81, 0, 0, 6, 0xF1, 0xC1, 0, 0, 0, 7, 8, 0]),
            (
                "VLAN 4095",
                &[0x81, 0, 0x0F, 0xFF, 0xF1, 0xC1, 0, 0, 0, 7, 8, 0],
            ),
            (
                "8100 twice, then F1C1",
                &[0x81, 0, 0, 5, 0x81, 0, 0, 5, 0xF1, 0xC1, 0, 0, 0, 7, 8, 0],
            ),
            ("F1C1 at 14", &[0x08, 0, 0xF1, 0xC1, 0, 0, 0, 7, 8, 0]),
            (
                "F1C1 at 12, then 8100 and VLAN 5",
                &[0xF1, 0xC1, 0, 0, 0, 7, 0x81, 0, 0, 5, 8, 0],
            ),
            (
                "F1C1 at 12, then F1C1",
                &[0xF1, 0xC1, 0, 0, 0, 7, 0xF1, 0xC1, 0, 0, 0, 8, 8, 0],
            ),
            (
                "reserved bytes 8100",
                &[0xF1, 0xC1, 0x81, 0, 0x01, 0x02, 8, 0],
            ),
            ("number 65535", &[0xF1, 0xC1, 0, 0, 0xFF, 0xFF, 8, 0]),
        ];
        for (what, rest) in cases {
            let f = filled([&front[..], rest].concat(), 30);
            self.table(&[
                fresh(),
                Stream { vlan: 5, ..fresh() },
                Stream {
                    vlan: 4095,
                    ..fresh()
                },
            ]);
            self.arrival(what, 1, &f);
            self.call(
                &format!("write a tag, {}", what),
                Call::WriteTag {
                    frame: &f,
                    number: 258,
                },
                2000,
            );
        }
        self.one(fresh());
        for network in [0, 1, 2, 255] {
            self.number("one number on each network", network, 9);
        }
        let mut stranger = frame(20, tagged(7));
        stranger[5] = 9;
        self.arrival("another destination", 0, &stranger);
    }

    /// Each call that takes a frame.
    fn frame_calls(&mut self, what: &str, frame: &[u8]) {
        self.arrival(what, 0, frame);
        let call = Call::TakeTag { frame };
        self.call(&format!("take a tag out, {}", what), call, 2000);
        let number = 258;
        let call = Call::WriteTag { frame, number };
        self.call(&format!("write a tag, {}", what), call, 2000);
        self.side.set_next(number);
        self.send(what, frame, [2000, 2000]);
    }

    fn sources(&mut self) {
        self.section("Frames of 20 bytes: the first byte of the source, on fresh streams with an ordinary destination (slot 0) and a group (slot 1)");
        let streams = [
            fresh(),
            Stream {
                dest: dest_of(GROUP),
                ..fresh()
            },
        ];
        for first in [0x00, 0x01, 0x02, 0x03, 0x80, 0xFE, 0xFF] {
            for (kind, tags) in [("plain", PLAIN), ("F1C1", tagged(7))] {
                let mut f = from_source(first, frame(20, tags));
                let what = format!("source {:02x}.., {}", first, kind);
                self.table(&streams);
                self.frame_calls(&what, &f);
                f[..6].copy_from_slice(&GROUP);
                self.arrival(&format!("{}, to the group", what), 1, &f);
            }
        }
    }

    fn tables(&mut self) {
        let mut other = settings(1, 4, 3);
        other.destination[5] = 9;
        for slots in [0, 64, 65] {
            let free = if slots > 0 {
                ", all free but the last"
            } else {
                ""
            };
            self.section(&format!("A table of {} slots{}", slots, free));
            let mut records = vec![Stream::default(); slots];
            if let Some(last) = records.last_mut() {
                *last = running();
            }
            self.table(&records);
            self.number("outside the window", 0, 7);
            self.number("next", 0, 101);
            self.arrival("2001 bytes on network 2", 2, &frame(2001, PLAIN));
            self.call("tick", Call::Tick, 0);
            self.call("open the last one's key", Call::Open(settings(1, 4, 3)), 0);
            self.call("open with rule 4", Call::Open(settings(4, 4, 3)), 0);
            self.call("open another key", Call::Open(other), 0);
            for slot in [63, 64, 65, usize::MAX] {
                self.call(&format!("reset slot {}", slot), Call::Reset(slot), 0);
                self.call(&format!("close slot {}", slot), Call::Close(slot), 0);
            }
        }
        self.section("A full table of 64 slots");
        let full: Vec<Stream> = (0..64)
            .map(|i| Stream {
                dest: dest_of([4, 0, 0, 0, 0, i]),
                ..fresh()
            })
            .collect();
        self.table(&full);
        self.call("open", Call::Open(settings(1, 4, 3)), 0);
        self.call("close slot 63", Call::Close(63), 0);
        self.call("close slot 63", Call::Close(63), 0);
        self.call("reset slot 63", Call::Reset(63), 0);
        self.call("open", Call::Open(settings(2, 64, 65535)), 0);
        self.call("open the same key", Call::Open(settings(2, 64, 65535)), 0);
        self.call("tick", Call::Tick, 0);
    }

    fn windows(&mut self) {
        for window in [1, 2, 64, 65, 127, 128, 511, 512, 513] {
            self.section(&format!("L = {}", window));
            self.table(&[Stream::default()]);
            self.call("open", Call::Open(settings(1, window, 3)), 0);
            let lent = Stream {
                window,
                state: State {
                    history: low(1),
                    ..running().state
                },
                ..running()
            };
            let ends = window as i32;
            let mut differences = vec![
                -ends - 1,
                -ends,
                1 - ends,
                -1,
                0,
                1,
                ends - 1,
                ends,
                ends + 1,
            ];
            differences.sort_unstable();
            differences.dedup();
            for d in differences {
                self.one(lent);
                self.number(&format!("d = {}", d), 0, (100 + d) as u16);
            }
            self.one(lent);
            self.call("tick", Call::Tick, 0);
            self.call("reset", Call::Reset(0), 0);
            self.call("close", Call::Close(0), 0);
        }
        self.section("A whole window of 64 that came: a move by 63, then by 1");
        self.one(Stream {
            window: 64,
            state: State {
                history: low(u64::MAX),
                ..running().state
            },
            ..running()
        });
        self.number("d = 63", 0, 163);
        self.number("d = 1", 0, 164);
        self.number("d = -63, the oldest", 1, 101);
        self.number("the same again", 0, 101);
    }

    fn wide_windows(&mut self) {
        self.section("L = 128 and 512: the test of one place, at the ends of the words");
        let places = [0, 1, 62, 63, 64, 65, 127, 128, 447, 448, 510, 511];
        for window in [128, 512] {
            for place in places.into_iter().filter(|p| (1..window).contains(p)) {
                let number = 100_u16.wrapping_sub(place);
                self.one(wide(window, 0..window));
                let what = format!("L = {}, d = -{}, all came", window, place);
                self.number(&what, 0, number);
                self.one(wide(window, (0..window).filter(|&p| p != place)));
                let what = format!("L = {}, d = -{}, all others came", window, place);
                self.number(&what, 0, number);
            }
        }

        self.section("Moves across the words of a history");
        let moves = [1, 2, 62, 63, 64, 65, 127, 128, 192, 447, 448, 449, 510, 511];
        for window in [65, 128, 511, 512] {
            let set = places.into_iter().filter(|&place| place < window);
            for d in moves.into_iter().filter(|&d| d < window) {
                self.one(wide(window, set.clone()));
                self.number(&format!("L = {}, d = {}", window, d), 1, 100 + d);
            }
        }
        for window in [65, 128, 512] {
            self.one(wide(window, 0..window));
            let what = format!("L = {}, all came, d = L - 1", window);
            self.number(&what, 0, 100 + window - 1);
            self.number("d = 1", 0, 100 + window);
            self.number("d = -(L - 1), not come", 1, 101);
            self.number("the same again", 0, 101);
            self.number("d = -L", 0, 100);
        }

        self.section("L = 512: the wrap inside the window");
        self.table(&[Stream::default()]);
        self.call("open", Call::Open(settings(1, 512, 3)), 0);
        for (what, number) in [
            ("the first", 65500),
            ("d = 511", 475),
            ("its twin", 475),
            ("d = -511", 65500),
            ("d = -512", 65499),
            ("d = 512", 987),
            ("d = -475", 0),
            ("d = -476", 65535),
            ("d = 64", 539),
            ("d = -511", 28),
            ("d = -540, the number 65535 again", 65535),
            ("d = 511", 1050),
            ("d = -511, the last anchor", 539),
        ] {
            self.number(what, 0, number);
        }

        self.section("L = 512: n up to 511");
        for (n, d) in [
            (511, 1),
            (511, 511),
            (448, 447),
            (448, 448),
            (447, 64),
            (1, 511),
        ] {
            self.one(with_early(wide(512, [0, 511 - n]), n));
            self.number(&format!("n = {}, d = {}", n, d), 0, 100 + d);
        }
        self.one(Stream {
            counts: full_counts(),
            ..with_early(wide(512, [0, 64]), 447)
        });
        self.number("n = 447, d = 511, lost is 2^64 - 1", 0, 611);

        self.section("L = 512: resets, a close, an open, and a batch");
        for (what, reset) in [
            ("reset", Call::Reset(0)),
            ("tick where 1 remains", Call::Tick),
        ] {
            let mut last = with_early(wide(512, 0..512), 447);
            last.state.remaining = 1;
            self.one(last);
            self.call(what, reset, 0);
            self.number("the next first", 0, 5000);
        }
        self.one(wide(512, 0..512));
        self.call("close", Call::Close(0), 0);
        self.call("open", Call::Open(settings(1, 64, 3)), 0);
        self.number("the first", 0, 100);
        self.one(Stream {
            window: 512,
            ..fresh()
        });
        let frames = packed(&numbered(&[100, 611, 100, 99, 99, 1123, 674]));
        let what = "the first, d = 511, a duplicate, two rogues, a rogue, d = 63";
        self.batch_here(what, 0, 7, &frames, 64);
    }

    fn times(&mut self) {
        for time in [0, 1] {
            self.section(&format!("R = {}", time));
            self.table(&[Stream::default()]);
            self.call("open", Call::Open(settings(1, 4, time)), 0);
            self.number("first", 0, 7);
            self.number("twin", 1, 7);
            self.call("tick", Call::Tick, 0);
            self.number("after the tick", 1, 7);
            self.one(Stream { time, ..running() });
            self.call("tick where 2 remain", Call::Tick, 0);
            self.number("where 2 remain", 0, 101);
            self.call("reset where 2 remain", Call::Reset(0), 0);
        }
        self.section("R = 3: a hand-up renews the ticks, a discard does not");
        self.one(running());
        self.call("tick", Call::Tick, 0);
        self.number("late", 0, 99);
        self.call("tick", Call::Tick, 0);
        self.number("its twin", 1, 99);
        self.call("tick", Call::Tick, 0);
        self.number("outside the window", 1, 900);
        self.call("tick", Call::Tick, 0);
        self.call("tick", Call::Tick, 0);
        self.number("the restarted sender", 1, 900);
    }

    fn settings(&mut self) {
        self.section("Settings of an open, and the order of its checks");
        let with_vlan = |vlan| Settings {
            vlan,
            ..settings(1, 4, 3)
        };
        let list = [
            ("rule 0", settings(0, 4, 3)),
            ("rule 4", settings(4, 4, 3)),
            ("rule 255", settings(255, 4, 3)),
            ("L = 0", settings(1, 0, 3)),
            ("L = 260", settings(1, 260, 3)),
            ("match, L = 65", settings(2, 65, 3)),
            ("match, L = 512", settings(2, 512, 3)),
            ("match, L = 513", settings(2, 513, 3)),
            ("L = 255", settings(1, 255, 3)),
            ("L = 256", settings(1, 256, 3)),
            ("L = 768", settings(1, 768, 3)),
            ("L = 65535", settings(1, 65535, 3)),
            ("R = 65535", settings(1, 4, 65535)),
            ("VLAN 4094", with_vlan(4094)),
            ("VLAN 4095", with_vlan(4095)),
            ("VLAN 65535", with_vlan(65535)),
        ];
        for (what, s) in list {
            self.table(&[Stream::default()]);
            self.call(&format!("open, {}", what), Call::Open(s), 0);
        }
        self.one(running());
        self.call(
            "open, L = 513, key in use, table full",
            Call::Open(settings(1, 513, 3)),
            0,
        );
        self.call(
            "open, key in use, table full",
            Call::Open(settings(1, 512, 3)),
            0,
        );
        self.call("open, another key, table full", Call::Open(with_vlan(5)), 0);
        self.one(Stream {
            used: 0,
            counts: full_counts(),
            ..running()
        });
        self.call("open over a closed slot", Call::Open(settings(2, 64, 9)), 0);
    }

    fn order(&mut self) {
        self.section(
            "The order of checks: each call has every later fault too, and an output of 0 bytes",
        );
        let mut stranger = frame(20, tagged(7));
        stranger[5] = 9;
        let group = |frame| from_source(3, frame);
        let (long, short) = (group(frame(2001, PLAIN)), group(frame(19, tagged(7))));
        let (plain, known) = (frame(20, PLAIN), frame(20, tagged(101)));
        let (plain_group, known_group) = (group(plain.clone()), group(known.clone()));
        let stranger_group = group(stranger.clone());
        self.one(Stream {
            rule: 0,
            ..running()
        });
        for (what, network, frame) in [
            ("network 2", 2, &long),
            ("2001 bytes", 1, &long),
            ("19 bytes", 1, &short),
            ("no tag", 1, &plain_group),
            ("group source", 1, &stranger_group),
            ("another destination", 1, &stranger),
            ("damaged", 1, &known),
        ] {
            self.call(
                &format!("arrival, {}", what),
                Call::Arrival { network, frame },
                0,
            );
        }
        for (what, frame) in [
            ("2001 bytes", &long),
            ("19 bytes", &short),
            ("no tag", &plain),
            ("no tag, group source", &plain_group),
            ("tagged", &known),
            ("tagged, group source", &known_group),
        ] {
            self.call(
                &format!("take a tag out, {}", what),
                Call::TakeTag { frame },
                0,
            );
            let number = 258;
            self.call(
                &format!("write a tag, {}", what),
                Call::WriteTag { frame, number },
                0,
            );
            self.send(what, frame, [0, 0]);
        }
    }

    fn matching_and_ticks(&mut self) {
        self.section("The match rule, L = 4: no difference is a rogue");
        let s = Stream {
            rule: Stream::MATCH_RULE,
            state: State {
                history: low(0),
                ..running().state
            },
            ..running()
        };
        for d in [-32768, -900, -4, -1, 0, 1, 2, 4, 900, 32767] {
            self.one(s);
            self.number(&format!("d = {}", d), 0, (100 + d) as u16);
        }
        self.section("A tick of four streams: one ages, two are reset, one is damaged");
        let last = |vlan| {
            let mut s = Stream { vlan, ..running() };
            s.state.remaining = 1;
            s
        };
        self.table(&[
            last(1),
            running(),
            Stream {
                window: 513,
                ..last(2)
            },
            last(3),
        ]);
        self.call("tick", Call::Tick, 0);
        self.call("tick", Call::Tick, 0);
    }

    fn small_outputs(&mut self) {
        self.section("Outputs of just the size, and one byte too small");
        for (what, number) in [("new", 101), ("duplicate", 100), ("rogue", 900)] {
            let f = frame(24, tagged(number));
            for room in [18, 17, 0] {
                self.one(running());
                self.call(
                    &format!("arrival, {}, 24 bytes, output of {}", what, room),
                    Call::Arrival {
                        network: 0,
                        frame: &f,
                    },
                    room,
                );
            }
        }
        self.table(&[]);
        for room in [18, 17] {
            let f = frame(24, tagged(101));
            let what = format!("take a tag out, 24 bytes, output of {}", room);
            self.call(&what, Call::TakeTag { frame: &f }, room);
        }
        for room in [30, 29] {
            let call = Call::WriteTag {
                frame: &frame(24, PLAIN),
                number: 258,
            };
            self.call(
                &format!("write a tag, 24 bytes, output of {}", room),
                call,
                room,
            );
        }
    }

    fn batches(&mut self) {
        self.section("Batches: verdicts, and refused frames in their places, on a running stream (slot 0) and a damaged one with VLAN 5 (slot 1)");
        let all = Stream::FRAME_MOST;
        for network in [0, 1] {
            let frames = numbered(&[101, 100, 900, 99, 102]);
            let what = format!("new, duplicate, rogue, late, new on {}", network);
            self.batch(&what, network, 5, &packed(&frames), all);
        }
        let vlan = |vlan| Tags {
            vlan: Some(vlan),
            ..tagged(101)
        };
        let refused = [
            ("2001 bytes", frame(2001, tagged(101))),
            ("60000 bytes", frame(60000, tagged(101))),
            ("0 bytes", Vec::new()),
            ("19 bytes", frame(19, tagged(101))),
            ("no F1C1", frame(24, PLAIN)),
            ("group source", from_source(3, frame(24, tagged(101)))),
            ("no such VLAN", frame(24, vlan(6))),
            ("damaged", frame(24, vlan(5))),
        ];
        for (what, f) in &refused {
            let frames = [frame(20, tagged(101)), f.clone(), frame(20, tagged(102))];
            let what = format!("{} between two new ones", what);
            // Room for the two and no byte more.
            self.batch(&what, 0, 3, &packed(&frames), 32);
        }
        let frames: Vec<Vec<u8>> = refused
            .into_iter()
            .map(|(_, f)| f)
            .filter(|f| f.len() < 60000)
            .collect();
        for room in [0, 1, 2] {
            self.batch("all of these but the longest", 0, 7, &packed(&frames), room);
        }
        self.batch(
            "2000 bytes",
            0,
            1,
            &packed(&[frame(2000, tagged(101))]),
            1996,
        );
        self.batch(
            "2000 bytes",
            0,
            1,
            &packed(&[frame(2000, tagged(101))]),
            1995,
        );

        self.section("Batches: the output at its edges");
        for room in [0, 1, 2, 15, 16, 17, 18, 31, 32, 33] {
            let input = packed(&numbered(&[101, 102]));
            self.batch("two new ones", 0, 2, &input, room);
        }
        for (what, number) in [("duplicate", 101), ("rogue", 900), ("late", 99)] {
            let input = packed(&numbered(&[101, number, 102]));
            for room in [16, 17, 31, 32, 33] {
                self.batch(&format!("new, {}, new", what), 0, 3, &input, room);
            }
        }
        let long = frame(60, tagged(101));
        for (what, behind) in [
            ("a short one", frame(20, tagged(101))),
            ("an empty one", Vec::new()),
        ] {
            let input = packed(&[long.clone(), behind]);
            let what = format!("a long one and {} behind it", what);
            self.batch(&what, 0, 2, &input, 40);
        }

        self.section("Batches: counts, lengths and the order of checks");
        let two = packed(&numbered(&[101, 102]));
        self.batch("0 frames, no input", 0, 0, &[], 0);
        self.batch("0 frames, input of two", 0, 0, &two, all);
        self.batch("0 frames on network 2", 2, 0, &[], all);
        let many: Vec<u16> = (101..134).collect();
        let many = packed(&numbered(&many));
        for count in [31, 32, 33, 256, 1 << 32, usize::MAX] {
            let what = format!("{} frames, input of 33", count);
            self.batch(&what, 0, count, &many, all);
        }
        self.batch("32 frames", 0, 32, &many, 511);
        for network in [2, 255] {
            for count in [2, 3, 33] {
                let what = format!("{} frames on network {}, input of two", count, network);
                self.batch(&what, network, count, &two, all);
            }
        }
        for (what, end) in [
            ("no input", 0),
            ("one length byte", 1),
            ("a length alone", 2),
            ("the first without its last byte", 21),
            ("the first alone", 22),
            ("the first and one length byte", 23),
            ("the first and a length", 24),
            ("the second without its last byte", 43),
            ("both", 44),
        ] {
            self.batch(&format!("2 frames, {}", what), 0, 2, &two[..end], all);
        }
        // Where an 8 would come first.
        self.batch("2 frames, without the last byte", 0, 2, &two[..43], 0);
        self.batch("the length 65535", 0, 1, &[0xFF; 100], all);
        for (what, behind) in [
            ("00", &[0][..]),
            ("FF", &[0xFF]),
            ("FFFFFF", &[0xFF; 3]),
            ("the first once more", &two[..22]),
        ] {
            let input = [&two[..], behind].concat();
            self.batch(
                &format!("2 frames, {} behind them", what),
                0,
                2,
                &input,
                all,
            );
        }

        self.section("Batches: tables of 0, 64 and 65 slots, the stream in the last one, and counters at 2^64 - 1");
        for slots in [0, 64, 65] {
            for (network, count) in [(0, 2), (2, 2), (0, 33), (2, 33)] {
                let mut table = vec![Stream::default(); slots];
                if let Some(last) = table.last_mut() {
                    *last = running();
                }
                self.table(&table);
                let what = format!("{} slots, {} frames on network {}", slots, count, network);
                self.batch_here(&what, network, count, &two, all);
            }
        }
        self.one(Stream {
            counts: full_counts(),
            ..running()
        });
        let frames = numbered(&[101, 101, 900, 104]);
        self.batch_here(
            "new, duplicate, rogue, out of order",
            0,
            4,
            &packed(&frames),
            all,
        );
    }

    fn sends(&mut self) {
        self.section("Sends: the next number, from a sender at first");
        let ample = [60, 60];
        let plain = frame(14, PLAIN);
        let group = from_source(3, plain.clone());
        self.table(&[]);
        self.send("the first", &plain, ample);
        self.send("the second", &plain, ample);
        self.call("reset the sender", Call::ResetSender, 0);
        self.call("reset it again", Call::ResetSender, 0);
        self.send("after the reset", &plain, ample);
        self.side.set_next(65534);
        self.send("65534 is next", &plain, ample);
        self.send("65535 is next, 13 bytes", &plain[..13], ample);
        self.send("65535 is next, group source", &group, ample);
        self.send("65535 is next", &plain, [20, 19]);
        self.send("65535 is next", &plain, ample);
        self.send("0 is next, tagged", &frame(20, tagged(7)), ample);
        self.send("0 is next", &plain, [19, 20]);
        self.send("0 is next", &plain, ample);
        self.send("1 is next", &plain, ample);
        self.side.set_next(65535);
        self.call("reset where 65535 is next", Call::ResetSender, 0);

        self.section("Sends: the two outputs, each of just the size, one byte too small, larger, or of no bytes");
        self.side.set_next(258);
        let vlan = Tags {
            vlan: Some(5),
            ..PLAIN
        };
        for (kind, length, tags) in [
            ("plain", 14, PLAIN),
            ("8100", 18, vlan),
            ("plain", 1994, PLAIN),
        ] {
            let f = frame(length, tags);
            let (just, less, more) = (length + 6, length + 5, length + 7);
            let what = format!("{} bytes, {}", length, kind);
            for rooms in [
                [less, just],
                [just, less],
                [less, less],
                [less, 3000],
                [3000, less],
                [0, just],
                [just, 0],
                [0, 0],
                [just, just],
                [just, more],
                [3000, just],
            ] {
                self.send(&what, &f, rooms);
            }
        }

        self.section("Sends: one output too small, and a fault that comes before");
        for (what, f) in [
            ("1995 bytes", frame(1995, PLAIN)),
            ("13 bytes", frame(13, PLAIN)),
            ("17 bytes, 8100", frame(17, vlan)),
            ("14 bytes, F1C1", frame(14, tagged(7))),
            ("group source", group),
        ] {
            let just = f.len() + 6;
            self.send(what, &f, [just, just - 1]);
            self.send(what, &f, [just - 1, just]);
        }
        self.send("14 bytes, plain", &plain, ample);
    }

    fn prp_frames(&mut self) {
        self.table(&[]);
        let vlan = Tags {
            vlan: Some(5),
            ..PLAIN
        };
        let heads = [("plain", PLAIN), ("8100", vlan)];
        self.section(
            "PRP: both kinds, with and without 8100, and both networks, from PRP and to PRP",
        );
        for kind in [0, 1] {
            for (name, tags) in heads {
                for network in [0, 1] {
                    let bare = frame(20, tags);
                    let prp = with_trailer(&bare, 258, 0xA + network, kind);
                    let what = format!("LAN {:X}, {}", 0xA + network, name);
                    self.turn_from_prp(&what, kind, &prp, 40);
                    let redundancy = Some((0, 258));
                    let tagged = frame(26, Tags { redundancy, ..tags });
                    let what = format!("network {}, {}", network, name);
                    self.turn_to_prp(&what, network, kind, &tagged, 40);
                }
            }
        }

        self.section(
            "PRP: lengths, with a good trailer where there is room for one, from PRP and to PRP",
        );
        for kind in [0, 1] {
            for (name, tags) in heads {
                let shortest = if tags.vlan.is_some() { 18 } else { 14 };
                let short = [0, 3, 6, 13, 14, 16];
                let edges = [0, 1, 2].map(|more| shortest + width(kind) + more - 1);
                // A size of one byte, and of more.
                let sizes = [255, 256].map(|size| shortest + size);
                let long = [1994, 1995, 1997, 1998, 1999, 2000, 2001];
                let lengths = short.into_iter().chain(edges).chain(sizes).chain(long);
                for length in lengths {
                    let prp = match length.checked_sub(width(kind)) {
                        Some(bare) if bare >= shortest => {
                            with_trailer(&frame(bare, tags), 7, 0xA, kind)
                        }
                        _ => frame(length, tags),
                    };
                    let what = format!("{} bytes, {}", length, name);
                    self.turn_from_prp(&what, kind, &prp, 3000);
                    let redundancy = Some((0, 7));
                    let tagged = frame(length, Tags { redundancy, ..tags });
                    self.turn_to_prp(&what, 0, kind, &tagged, 3000);
                }
            }
        }

        self.section(
            "PRP: the trailer. The fitting size is 7 for the first edition and 9 for 2012",
        );
        let head = behind_addresses(&[8, 0, 1, 2, 3]);
        for (what, kind, trailer) in [
            ("LAN 0", 0, &[1, 2, 0x00, 7][..]),
            ("LAN 8", 0, &[1, 2, 0x80, 7]),
            ("LAN 9", 0, &[1, 2, 0x90, 7]),
            ("LAN C", 0, &[1, 2, 0xC0, 7]),
            ("LAN F", 0, &[1, 2, 0xF0, 7]),
            ("size 6", 0, &[1, 2, 0xA0, 6]),
            ("size 7", 0, &[1, 2, 0xA0, 7]),
            ("size 8", 0, &[1, 2, 0xA0, 8]),
            ("size 3, without the trailer", 0, &[1, 2, 0xA0, 3]),
            ("size 9, with the type field", 0, &[1, 2, 0xA0, 9]),
            ("size 21, the whole frame", 0, &[1, 2, 0xA0, 21]),
            ("size 263", 0, &[1, 2, 0xA1, 7]),
            ("size 2055", 0, &[1, 2, 0xA8, 7]),
            ("low byte first", 0, &[1, 2, 7, 0xA0]),
            ("a trailer of 2012", 0, &[1, 2, 0xA0, 9, 0x88, 0xFB]),
            ("88FB as LAN and size", 0, &[1, 2, 0x88, 0xFB]),
            ("LAN 9", 1, &[1, 2, 0x90, 9, 0x88, 0xFB]),
            ("LAN B", 1, &[1, 2, 0xB0, 9, 0x88, 0xFB]),
            ("LAN C", 1, &[1, 2, 0xC0, 9, 0x88, 0xFB]),
            ("size 8", 1, &[1, 2, 0xA0, 8, 0x88, 0xFB]),
            ("size 9", 1, &[1, 2, 0xA0, 9, 0x88, 0xFB]),
            ("size 10", 1, &[1, 2, 0xA0, 10, 0x88, 0xFB]),
            ("size 7, without 88FB", 1, &[1, 2, 0xA0, 7, 0x88, 0xFB]),
            (
                "size 3, without the trailer",
                1,
                &[1, 2, 0xA0, 3, 0x88, 0xFB],
            ),
            ("88FA at the end", 1, &[1, 2, 0xA0, 9, 0x88, 0xFA]),
            ("89FB at the end", 1, &[1, 2, 0xA0, 9, 0x89, 0xFB]),
            ("FB88 at the end", 1, &[1, 2, 0xA0, 9, 0xFB, 0x88]),
            ("88FB in front", 1, &[0x88, 0xFB, 1, 2, 0xA0, 9]),
            ("a trailer of the first edition", 1, &[1, 2, 0xA0, 7]),
            ("the number F1C1", 1, &[0xF1, 0xC1, 0xA0, 9, 0x88, 0xFB]),
        ] {
            let prp = [&head[..], trailer].concat();
            self.turn_from_prp(what, kind, &prp, 40);
        }
        let counted = [8, 0, 1, 2, 3, 0x70, 0x71, 0xA0];
        for size in [3, 7, 11] {
            let mut bytes = vec![0x81, 0, 0, 5];
            bytes.extend_from_slice(&counted);
            bytes.push(size);
            let what = format!("8100, size {}", size);
            self.turn_from_prp(&what, 0, &behind_addresses(&bytes), 40);
        }

        self.section("PRP: every setting is one of the two kinds");
        let bare = frame(20, PLAIN);
        for kind in [0, 1, 2, 128, 254, 255] {
            let prp = with_trailer(&bare, 7, 0xB, kind);
            let what = format!("setting {}", kind);
            self.turn_from_prp(&what, kind, &prp, 40);
            self.turn_to_prp(&what, 1, kind, &frame(26, tagged(7)), 40);
        }
    }

    fn prp_edges(&mut self) {
        self.table(&[]);
        self.section("PRP: what stands behind the tag, to PRP and back");
        for (what, bytes) in [
            ("8100, 20 bytes", &[0xF1, 0xC1, 0, 0, 1, 2, 0x81, 0][..]),
            (
                "8100, 23 bytes",
                &[0xF1, 0xC1, 0, 0, 1, 2, 0x81, 0, 0, 5, 8],
            ),
            (
                "8100, 24 bytes",
                &[0xF1, 0xC1, 0, 0, 1, 2, 0x81, 0, 0, 5, 8, 0],
            ),
            (
                "8100 and F1C1",
                &[0xF1, 0xC1, 0, 0, 1, 2, 0x81, 0, 0, 5, 0xF1, 0xC1],
            ),
            ("F1C1", &[0xF1, 0xC1, 0, 0, 1, 2, 0xF1, 0xC1]),
            (
                "8100 behind 8100",
                &[0x81, 0, 0, 5, 0xF1, 0xC1, 0, 0, 1, 2, 0x81, 0],
            ),
            (
                "F1C1 behind 8100",
                &[0x81, 0, 0, 5, 0xF1, 0xC1, 0, 0, 1, 2, 0xF1, 0xC1],
            ),
            (
                "0800, and reserved bytes",
                &[0xF1, 0xC1, 0x81, 0, 1, 2, 8, 0],
            ),
        ] {
            let f = behind_addresses(bytes);
            for kind in [0, 1] {
                self.turn_to_prp(what, 1, kind, &f, 40);
                // What the call wrote, and back again.
                let mut out = [BLANK; 40];
                let call = Call::ToPrp {
                    frame: &f,
                    network: 1,
                    kind,
                };
                if let Answer::Prp(told) = self.side.call(call, [&mut out, &mut []]) {
                    let what = format!("{}, back", what);
                    self.turn_from_prp(&what, kind, &out[..told.length], 40);
                }
            }
        }

        self.section("PRP: any source passes both ways");
        for first in [0x00, 0x01, 0x03, 0xFE, 0xFF] {
            let prp = with_trailer(&from_source(first, frame(14, PLAIN)), 7, 0xA, 1);
            let what = format!("source {:02x}..", first);
            self.turn_from_prp(&what, 1, &prp, 40);
            self.turn_to_prp(&what, 0, 1, &from_source(first, frame(20, tagged(7))), 40);
        }

        self.section("PRP: outputs of just the size, one byte too small, larger, or of no bytes");
        for kind in [0, 1] {
            for length in [14, 1994] {
                let bare = frame(length, PLAIN);
                let prp = with_trailer(&bare, 7, 0xA, kind);
                let what = format!("{} bytes", prp.len());
                let needed = length + 6;
                for room in [0, needed - 1, needed, needed + 1, 3000] {
                    self.turn_from_prp(&what, kind, &prp, room);
                }
                let what = format!("{} bytes", needed);
                let needed = prp.len();
                for room in [0, needed - 1, needed, needed + 1, 3000] {
                    self.turn_to_prp(&what, 0, kind, &frame(length + 6, tagged(7)), room);
                }
            }
        }

        self.section("PRP: each refusal with others that come behind it, and no room");
        let f1c1 = [0xF1, 0xC1];
        let with = |head: &[u8], length: usize| filled(behind_addresses(head), length);
        for (what, kind, f) in [
            ("3 and 13 and 16", 0, with(&f1c1, 1999)),
            ("3 and 13 and 16", 1, with(&f1c1, 2001)),
            ("3 and 16", 1, with(&[8, 0], 2001)),
            ("4 and 13", 0, with(&f1c1, 17)),
            ("4 and 13", 1, with(&f1c1, 19)),
            ("4 and 13, 8100", 0, with(&[0x81, 0, 0, 5, 0xF1, 0xC1], 21)),
            ("4 and 13, 8100", 1, with(&[0x81, 0, 0, 5, 0xF1, 0xC1], 23)),
            (
                "4 and a trailer over the type",
                0,
                behind_addresses(&[0, 7, 0xA0, 2]),
            ),
            (
                "4 and a trailer over the VLAN tag",
                0,
                behind_addresses(&[0x81, 0, 0, 7, 0xA0, 4]),
            ),
            ("13 and 16", 0, with(&f1c1, 18)),
            ("13 and 16", 1, with(&f1c1, 20)),
            ("13 and 16, 8100", 1, with(&[0x81, 0, 0, 5, 0xF1, 0xC1], 24)),
            ("13", 0, with_trailer(&with(&f1c1, 14), 7, 0xA, 0)),
            ("16", 0, with(&[8, 0], 18)),
            ("16", 1, with(&[8, 0], 20)),
        ] {
            self.turn_from_prp(what, kind, &f, 0);
            self.turn_from_prp(what, kind, &f, 3000);
        }
        let tagged_head = [0xF1, 0xC1, 0, 0, 0, 7, 8, 0];
        for (what, f) in [
            ("3 and 5", with(&[8, 0], 2001)),
            ("3", with(&tagged_head, 2001)),
            ("4", with(&tagged_head, 13)),
            ("4 and 5, 8100", with(&[0x81, 0, 0, 5, 8, 0], 17)),
            ("4 and F1C1", with(&tagged_head, 19)),
            ("5", with(&[8, 0], 14)),
            ("the second 4", with(&[0xF1, 0xC1, 0, 0, 0, 7, 0x81, 0], 20)),
            ("no other", with(&tagged_head, 20)),
        ] {
            for network in [0, 2, 255] {
                for room in [0, 3000] {
                    let what = format!("network {}, {}", network, what);
                    self.turn_to_prp(&what, network, 1, &f, room);
                }
            }
        }
    }

    /// Each call that takes an index, from the same table and index: an open of a third key, a close of each of two slots, a batch
    /// for each, and a rebuild.
    fn index_calls(&mut self, what: &str, records: &[Stream], index: &[u8], keys: [[u8; 6]; 3]) {
        let [first, second, third] = keys;
        let frames = packed(&[numbered_to(first, 101), numbered_to(second, 102)]);
        let batch = Call::Batch {
            network: 0,
            count: 2,
            frames: &frames,
        };
        for (name, call) in [
            ("open", Call::Open(settings_to(third))),
            ("close slot 0", Call::Close(0)),
            ("close slot 2", Call::Close(2)),
            ("batch", batch),
            ("rebuild", Call::Rebuild),
        ] {
            self.table_with(records, index);
            self.call(&format!("{}: {}", what, name), call, 60);
        }
    }

    fn indexes(&mut self) {
        self.section("An index beside slots 0 and 2, slot 1 is free; both keys have place 127 for their own, and the key to open too");
        let keys = [0, 1, 2].map(|nth| at_place(127, nth));
        let [first, second, _] = keys;
        let free = Stream {
            used: 0,
            ..running()
        };
        let records = [running_to(first), free, running_to(second)];
        for (what, index) in [
            ("the rebuilt one", index_of(0, &[(127, 1), (0, 3)])),
            ("in the other order", index_of(0, &[(127, 3), (0, 1)])),
            (
                "over a name beyond the table",
                index_of(0, &[(127, 4), (0, 1), (1, 3)]),
            ),
            (
                "over names 65 and 255",
                index_of(0, &[(127, 255), (0, 65), (1, 3), (2, 1)]),
            ),
            (
                "over the name of a free slot",
                index_of(0, &[(127, 2), (0, 2), (1, 1), (2, 3)]),
            ),
            (
                "each named twice",
                index_of(0, &[(127, 1), (0, 1), (1, 3), (2, 3)]),
            ),
            (
                "no empty place, one name each",
                index_of(2, &[(125, 1), (126, 3)]),
            ),
            (
                "no empty place, all name slot 0 but one",
                index_of(1, &[(64, 3)]),
            ),
            (
                "other names behind the end",
                index_of(0, &[(127, 1), (0, 3), (2, 3), (3, 2), (4, 9)]),
            ),
            ("zeros", index_of(0, &[])),
            ("all name slot 0", index_of(1, &[])),
            ("all name the free slot", index_of(2, &[])),
            ("slot 2 is not named", index_of(0, &[(127, 1)])),
            ("slot 0 is not named", index_of(0, &[(127, 3)])),
            (
                "an empty place before slot 2",
                index_of(0, &[(127, 1), (1, 3)]),
            ),
            ("an empty own place", index_of(0, &[(0, 1), (1, 3)])),
            (
                "slot 2 before its own place",
                index_of(0, &[(127, 1), (126, 3)]),
            ),
        ] {
            self.index_calls(what, &records, &index, keys);
        }
        let rebuilt = index_of(0, &[(127, 1), (0, 3)]);
        let long = [&rebuilt[..], &[0]].concat();
        for index in [&rebuilt[..0], &rebuilt[..127], &long] {
            let what = format!("{} places", index.len());
            self.index_calls(&what, &records, index, keys);
        }

        self.section("An index carried on from call to call: keys whose own places are 126, 127 and 127, and slots that their owner wrote to");
        let keys = [at_place(126, 0), at_place(127, 0), at_place(127, 1)];
        self.table(&[Stream::default(); 3]);
        for key in keys {
            self.call("open", Call::Open(settings_to(key)), 0);
        }
        self.call("close slot 1", Call::Close(1), 0);
        self.call("close slot 0", Call::Close(0), 0);
        self.call("open", Call::Open(settings_to(keys[1])), 0);
        let frames = packed(&keys.map(|key| numbered_to(key, 7)));
        self.batch_here("one of each", 0, 3, &frames, 60);
        let mut record = self.side.record(0);
        record.vlan = 5;
        self.side.set(0, record);
        self.batch_here("slot 0 has VLAN 5 now", 0, 3, &frames, 60);
        self.call("close slot 2", Call::Close(2), 0);
        self.call("tick", Call::Tick, 0);
        self.call("reset slot 0", Call::Reset(0), 0);
        self.call("rebuild", Call::Rebuild, 0);
        self.call("rebuild", Call::Rebuild, 0);
        self.batch_here("the same", 0, 3, &frames, 60);
        record.used = 0;
        self.side.set(0, record);
        self.call("close slot 2, slot 0 is free now", Call::Close(2), 0);
        self.call("open", Call::Open(settings_to(keys[0])), 0);
    }

    fn shared_names(&mut self) {
        self.section(
            "An index beside slots 0 and 2 with one key, whose own place is 127; slot 1 is free",
        );
        let (key, other) = (at_place(127, 0), at_place(127, 1));
        let free = Stream {
            used: 0,
            ..running()
        };
        let records = [running_to(key), free, running_to(key)];
        for (what, index) in [
            ("the rebuilt one", index_of(0, &[(127, 1), (0, 3)])),
            ("the lower alone", index_of(0, &[(127, 1)])),
            ("all name the lower", index_of(1, &[])),
            ("the higher first", index_of(0, &[(127, 3), (0, 1)])),
            ("the higher alone", index_of(0, &[(127, 3)])),
            ("all name the higher", index_of(3, &[])),
        ] {
            self.index_calls(what, &records, &index, [key, key, other]);
        }
        for (what, index) in [
            ("the lower alone", index_of(0, &[(127, 1)])),
            ("all name the lower", index_of(1, &[])),
        ] {
            self.table_with(&records, &index);
            self.call(&format!("{}: close the lower", what), Call::Close(0), 0);
            let frames = packed(&[numbered_to(key, 101)]);
            self.batch_here("the higher has it", 0, 1, &frames, 60);
            self.call("open its key", Call::Open(settings_to(key)), 0);
            self.call("open another", Call::Open(settings_to(other)), 0);
            self.call("close the higher", Call::Close(2), 0);
        }

        self.section("An index beside slots 0 and 2 whose keys differ above the sixth byte alone; slot 1 is free");
        let mut records = records;
        records[0].dest |= 1 << 48;
        for (what, index) in [
            ("the rebuilt one", index_of(0, &[(127, 1), (0, 3)])),
            ("in the other order", index_of(0, &[(127, 3), (0, 1)])),
            ("slot 0 alone", index_of(0, &[(127, 1)])),
            ("slot 2 alone", index_of(0, &[(127, 3)])),
        ] {
            self.index_calls(what, &records, &index, [key, key, other]);
        }
    }

    fn index_tables(&mut self) {
        let key = at_place(127, 0);
        let frames = packed(&[numbered_to(key, 101)]);
        let batch = Call::Batch {
            network: 0,
            count: 1,
            frames: &frames,
        };
        let calls = [
            ("open", Call::Open(settings_to(key))),
            ("close slot 0", Call::Close(0)),
            ("batch", batch),
            ("rebuild", Call::Rebuild),
        ];
        for slots in [0, 1, 65] {
            self.section(&format!("An index beside a table of free slots: {}", slots));
            let free = vec![Stream::default(); slots];
            for (what, index) in [
                ("zeros", vec![0; PLACES]),
                ("any bytes", filled(Vec::new(), PLACES)),
                ("all name slot 0", vec![1; PLACES]),
                ("127 places", vec![0; 127]),
                ("129 places", vec![0; 129]),
                ("0 places", Vec::new()),
            ] {
                for (name, call) in calls {
                    self.table_with(&free, &index);
                    self.call(&format!("{}: {}", what, name), call, 60);
                }
            }
        }
        for slots in [64, 65] {
            self.section(&format!(
                "An index beside {} slots, free but the last, which all places name",
                slots
            ));
            let mut records = vec![Stream::default(); slots];
            records[slots - 1] = running_to(key);
            for (name, call) in [
                ("open", Call::Open(settings_to(at_place(127, 1)))),
                ("open its key", Call::Open(settings_to(key))),
                ("close it", Call::Close(slots - 1)),
                ("batch", batch),
                ("rebuild", Call::Rebuild),
            ] {
                self.table_with(&records, &[slots as u8; PLACES]);
                self.call(name, call, 60);
            }
        }
        self.section("A full index at an open: 63 keys with the same own place in 64 slots, and all other places name slot 62");
        let keys: Vec<[u8; 6]> = (0..64).map(|nth| at_place(100, nth)).collect();
        let mut records: Vec<Stream> = keys.iter().map(|&key| running_to(key)).collect();
        records[63].used = 0;
        let mut full = vec![63; PLACES];
        for (place, name) in full.iter_mut().zip(1..=62) {
            *place = name;
        }
        self.table_with(&records, &full);
        let frames = packed(&[0, 31, 62, 63].map(|n| numbered_to(keys[n], 101)));
        self.batch_here("slots 0, 31, 62 and 63", 0, 4, &frames, 80);
        self.call("open", Call::Open(settings_to(keys[63])), 0);
        self.batch_here("the same on 1", 1, 4, &frames, 80);
        self.call("open another", Call::Open(settings(1, 4, 3)), 0);
        self.call("close slot 31", Call::Close(31), 0);
        self.call("open it again", Call::Open(settings_to(keys[31])), 0);
    }

    fn index_order(&mut self) {
        self.section("The order of checks with an index, on one stream in a full table: every place names it, no place does, and 127 places");
        let calls = [
            ("open with rule 4", Call::Open(settings(4, 4, 3))),
            ("open with L = 513", Call::Open(settings(1, 513, 3))),
            ("open its key", Call::Open(settings(1, 4, 3))),
            ("open another", Call::Open(settings_to(GROUP))),
            ("close slot 1", Call::Close(1)),
            ("close slot 128", Call::Close(128)),
        ];
        let two = packed(&numbered(&[101, 102]));
        let batches = [(2, 2), (255, 33), (0, 33), (1, 3)].map(|(network, count)| {
            let what = format!("batch of {} of 2 frames on network {}", count, network);
            let call = Call::Batch {
                network,
                count,
                frames: &two,
            };
            (what, call)
        });
        for (what, index) in [
            ("all name it", vec![1; PLACES]),
            ("zeros", vec![0; PLACES]),
            ("127 places", vec![1; 127]),
        ] {
            self.table_with(&[running()], &index);
            for (name, call) in calls {
                self.call(&format!("{}: {}", what, name), call, 60);
            }
            for (name, call) in &batches {
                self.call(&format!("{}: {}", what, name), *call, 60);
            }
        }
        self.section("The order of checks with an index, on 65 slots: no place names the stream, and 127 places");
        for (what, index) in [("zeros", vec![0; PLACES]), ("127 places", vec![0; 127])] {
            let mut records = vec![Stream::default(); 65];
            records[0] = running();
            self.table_with(&records, &index);
            for (name, call) in calls {
                self.call(&format!("{}: {}", what, name), call, 60);
            }
            for (name, call) in &batches {
                self.call(&format!("{}: {}", what, name), *call, 60);
            }
            self.call(&format!("{}: rebuild", what), Call::Rebuild, 0);
        }
    }

    fn damage(&mut self) {
        self.section("Damaged records of every kind: each call on a table with that record alone");
        let state = |change: fn(&mut State)| {
            let mut s = running();
            change(&mut s.state);
            s
        };
        let fresh_state = |change: fn(&mut State)| {
            let mut s = fresh();
            change(&mut s.state);
            s
        };
        let matching = Stream {
            rule: Stream::MATCH_RULE,
            ..state(|s| s.history = low(0))
        };
        let cases = [
            (
                "rule 0",
                Stream {
                    rule: 0,
                    ..running()
                },
            ),
            (
                "rule 4",
                Stream {
                    rule: 4,
                    ..running()
                },
            ),
            (
                "rule 255",
                Stream {
                    rule: 255,
                    ..running()
                },
            ),
            (
                "L = 0",
                Stream {
                    window: 0,
                    ..running()
                },
            ),
            (
                "L = 1",
                Stream {
                    window: 1,
                    ..running()
                },
            ),
            (
                "L = 513",
                Stream {
                    window: 513,
                    ..running()
                },
            ),
            (
                "L = 65535",
                Stream {
                    window: 65535,
                    ..running()
                },
            ),
            (
                "R = 0",
                Stream {
                    time: 0,
                    ..running()
                },
            ),
            (
                "VLAN 4095",
                Stream {
                    vlan: 4095,
                    ..running()
                },
            ),
            ("remaining above R", state(|s| s.remaining = 4)),
            ("remaining 0 without take-any", state(|s| s.remaining = 0)),
            ("take-any with remaining", fresh_state(|s| s.remaining = 1)),
            (
                "take-any with another anchor",
                fresh_state(|s| s.anchor = 65534),
            ),
            (
                "take-any with a history",
                fresh_state(|s| s.history = low(1)),
            ),
            ("vector without bit 0", state(|s| s.history = low(0b100))),
            ("vector with bit L", state(|s| s.history = low(0b10101))),
            (
                "vector with bit 63",
                state(|s| s.history = low(1 << 63 | 1)),
            ),
            (
                "match with a history",
                Stream {
                    rule: Stream::MATCH_RULE,
                    ..running()
                },
            ),
            ("n = L", state(|s| s.early = 4)),
            ("n above L", state(|s| s.early = 5)),
            ("n = 65535", state(|s| s.early = 65535)),
            ("n = 2, bit 1 clear", state(|s| s.early = 2)),
            (
                "n = L = 64",
                Stream {
                    window: 64,
                    ..state(|s| {
                        s.history = low(u64::MAX);
                        s.early = 64;
                    })
                },
            ),
            ("L = 64, bit 64", wide(64, [0, 64])),
            ("L = 65, bit 65", wide(65, [0, 65])),
            ("L = 128, bit 128", wide(128, [0, 128])),
            ("L = 128, bit 511", wide(128, [0, 511])),
            ("L = 511, bit 511", wide(511, [0, 511])),
            ("vector with bit 64", wide(4, [0, 64])),
            ("vector with bit 511", wide(4, [0, 511])),
            ("L = 512 without bit 0", wide(512, 1..512)),
            ("n = L = 512", with_early(wide(512, 0..512), 512)),
            (
                "L = 512, n = 1, bit 510 clear",
                with_early(wide(512, (0..510).chain([511])), 1),
            ),
            (
                "L = 512, n = 447, bit 64 clear",
                with_early(wide(512, [0, 511]), 447),
            ),
            (
                "match with bit 511",
                Stream {
                    rule: Stream::MATCH_RULE,
                    ..wide(512, [511])
                },
            ),
            (
                "take-any with bit 64",
                fresh_state(|s| s.history = marked([64])),
            ),
            ("match with n = 1", with_early(matching, 1)),
            ("match with n = L - 1", with_early(matching, 3)),
            ("take-any with n = 1", fresh_state(|s| s.early = 1)),
            ("take-any with n = L - 1", fresh_state(|s| s.early = 3)),
            // Not damaged, beside those that are.
            ("lawful: vector", running()),
            ("lawful: n = 1, bit 2 set", state(|s| s.early = 1)),
            ("lawful: n = 3, bit 0 set", state(|s| s.early = 3)),
            ("lawful: L = 65, bit 64", wide(65, [0, 64])),
            ("lawful: L = 512, bit 511", wide(512, [0, 511])),
            ("lawful: L = 512, all bits", wide(512, 0..512)),
            ("lawful: L = 512, n = 511", with_early(wide(512, [0]), 511)),
            (
                "lawful: L = 512, n = 447, bit 64 set",
                with_early(wide(512, [0, 64]), 447),
            ),
            ("lawful: match", matching),
            ("lawful: fresh", fresh()),
            (
                "lawful: in use 2, take-any 256",
                Stream {
                    used: 2,
                    ..fresh_state(|s| s.any = 256)
                },
            ),
            (
                "lawful: a destination of seven bytes",
                Stream {
                    dest: 1 << 48 | dest_of(DESTINATION),
                    ..running()
                },
            ),
            (
                "free: rule 4",
                Stream {
                    used: 0,
                    rule: 4,
                    ..running()
                },
            ),
            (
                "free: bit 511",
                Stream {
                    used: 0,
                    ..wide(4, [0, 511])
                },
            ),
            (
                "free: n = 65535",
                Stream {
                    used: 0,
                    ..state(|s| s.early = 65535)
                },
            ),
        ];
        for (what, record) in cases {
            self.record_calls(what, record);
        }
    }

    /// Each call on a table with that record alone.
    fn record_calls(&mut self, what: &str, record: Stream) {
        let tags = Tags {
            vlan: Some(record.vlan),
            ..tagged(101)
        };
        let key = Settings {
            vlan: record.vlan,
            ..settings(1, 4, 3)
        };
        let (network, f) = (0, &frame(24, tags));
        for (name, call) in [
            ("tick", Call::Tick),
            ("arrival", Call::Arrival { network, frame: f }),
            ("link arrival", Call::LinkArrival { network, frame: f }),
            ("open its key", Call::Open(key)),
            ("reset", Call::Reset(0)),
            ("close", Call::Close(0)),
        ] {
            self.one(record);
            self.call(&format!("{}: {}", what, name), call, 2000);
        }
    }

    fn wrapping(&mut self) {
        self.section("Counters at 2^64 - 1");
        let s = Stream {
            counts: full_counts(),
            ..running()
        };
        for (what, network, number) in [
            ("d = 3", 0, 103),
            ("d = -1", 1, 99),
            ("d = 0", 0, 100),
            ("d = 4", 1, 104),
        ] {
            self.one(s);
            self.number(what, network, number);
        }
        self.one(Stream {
            state: State {
                remaining: 1,
                ..s.state
            },
            ..s
        });
        self.call("tick where 1 remains", Call::Tick, 0);
        self.one(s);
        self.call("reset", Call::Reset(0), 0);
        self.one(s);
        self.call("close", Call::Close(0), 0);
    }

    fn shared_key(&mut self) {
        self.section("Two slots with one key, behind a free one that has it too");
        let both = [
            Stream {
                used: 0,
                ..running()
            },
            running(),
            Stream {
                rule: Stream::MATCH_RULE,
                ..fresh()
            },
        ];
        self.table(&both);
        self.number("the lower has it", 0, 101);
        self.number("and its twin", 1, 101);
        self.call("open the key", Call::Open(settings(1, 4, 3)), 0);
        self.call("close the lower", Call::Close(1), 0);
        self.number("the higher has it", 0, 101);
        let mut hurt = both;
        hurt[1].window = 513;
        self.table(&hurt);
        self.number("the lower is damaged", 0, 101);
        self.call("tick", Call::Tick, 0);
        self.call("open the key", Call::Open(settings(1, 4, 3)), 0);
        self.call("reset the lower", Call::Reset(1), 0);
        self.call("close the lower", Call::Close(1), 0);
        self.number("the higher has it", 0, 101);
    }

    fn wrap_run(&mut self) {
        self.section("A run at the wrap: a to i");
        self.one(fresh());
        for (step, number) in [
            ("a", 65534),
            ("b", 65535),
            ("c", 65534),
            ("d", 1),
            ("e", 0),
            ("f", 5),
            ("g", 65533),
            ("h", 65534),
            ("i", 4),
        ] {
            self.number(step, 0, number);
        }
        self.section("j, k, l");
        let mut s = running();
        s.state.anchor = 0;
        s.state.history = low(1);
        self.one(s);
        self.number("j", 0, 32768);
        s.rule = Stream::MATCH_RULE;
        s.state.anchor = 9;
        s.state.history = low(0);
        self.one(s);
        self.number("k", 0, 9);
        self.number("k", 0, 8);
        s.state.remaining = 1;
        self.one(s);
        self.call("l: tick", Call::Tick, 0);
    }

    fn older_than_the_first(&mut self) {
        self.section(
            "Numbers older than the first: n places are left for them, which are no loss when they leave",
        );
        for window in [2, 64, 65, 512] {
            self.table(&[Stream::default()]);
            let what = format!("open, L = {}", window);
            self.call(&what, Call::Open(settings(1, window, 3)), 0);
            self.number("the first", 0, 100);
            let most = window - 1;
            self.number("d = L - 1", 0, 100 + most);
            self.number("d = L - 1", 0, 100 + 2 * most);
            self.number("d = L - 1", 0, 100 + 3 * most);
        }
        let mut whole = with_early(running(), 63);
        whole.window = 64;
        whole.state.history = low(u64::MAX);
        self.one(whole);
        self.number("L = 64, n = 63, all came, d = 62", 0, 162);
        self.number("d = 1", 0, 163);
        self.number("d = 1", 0, 164);

        self.one(fresh());
        for (what, number) in [
            ("the first", 100),
            ("late, before the first", 98),
            ("its twin", 98),
            ("d = 2", 102),
            ("late, before the first", 99),
            ("late, behind the first", 101),
            ("a rogue", 98),
            ("d = 3, n = 1", 105),
            ("d = 3, two are lost", 108),
        ] {
            self.number(what, 0, number);
        }
        for (d, number) in [(1, 101), (2, 102), (3, 103)] {
            for early in [0, 1, 3] {
                self.one(with_early(running(), early));
                self.number(&format!("d = {}, n = {}", d, early), 0, number);
            }
        }
        self.one(Stream {
            counts: full_counts(),
            ..with_early(running(), 1)
        });
        self.number("d = 3, n = 1, lost is 2^64 - 1", 0, 103);
        self.one(fresh());
        let frames = packed(&numbered(&[100, 98, 103, 106]));
        self.batch_here("the first, one before it, d = 3, d = 3", 0, 4, &frames, 64);

        self.section("Numbers older than the first: resets, a close, an open, and the match rule");
        for (what, reset) in [
            ("reset", Call::Reset(0)),
            ("tick where 1 remains", Call::Tick),
        ] {
            let mut last = with_early(running(), 1);
            last.state.remaining = 1;
            self.one(last);
            self.call(what, reset, 0);
            self.number("the next first", 0, 5000);
            self.number("d = 3", 0, 5003);
        }
        self.one(with_early(running(), 1));
        self.call("tick where 2 remain", Call::Tick, 0);
        self.call("close", Call::Close(0), 0);
        self.call("open", Call::Open(settings(2, 4, 3)), 0);
        self.number("the first, match", 0, 100);
        self.number("d = 3, match", 0, 103);
    }

    fn link_numbers(&mut self) {
        self.section("Virtual links: a number behind another, and the first");
        let edges = [0, 1, 126, 127, 128, 129, 254, 255];
        self.link_row(&[0, 1, 126, 127, 128, 129, 254, 255], None);
        for last in [0, 1, 2, 126, 127, 128, 129, 254, 255] {
            let mut numbers = edges.to_vec();
            for steps in [0, 1, 2, 126, 127, 128, 129, 253, 254] {
                numbers.push(((u16::from(last) + steps + 254) % 255 + 1) as u8);
            }
            numbers.sort_unstable();
            numbers.dedup();
            self.link_row(&numbers, Some(last));
        }

        self.section("Virtual links: a sender that starts again, on two networks");
        self.table(&[Stream::default()]);
        self.call("open", Call::Open(settings(3, 2, 3)), 0);
        for (what, network, number) in [
            ("the first", 0, 0),
            ("its twin", 1, 0),
            ("one step", 1, 1),
            ("its twin", 0, 1),
            ("three steps", 0, 4),
            ("passed over", 1, 3),
            ("127 steps", 0, 131),
            ("128 steps", 0, 4),
            ("124 steps", 1, 255),
            ("one step round the end", 1, 1),
            ("its twin", 0, 1),
            ("the sender starts again", 0, 0),
            ("one behind it", 0, 1),
            ("the slower network's last", 1, 1),
            ("the slower network's 0", 1, 0),
            ("its 1", 1, 1),
        ] {
            self.link_number(what, network, number);
        }

        self.section("Virtual links: ticks, a reset, a close, and an open");
        self.one(link(200));
        self.call("tick where 2 remain", Call::Tick, 0);
        self.link_number("127 steps", 0, 72);
        self.call("tick where 3 remain", Call::Tick, 0);
        self.link_number("128 steps", 1, 200);
        self.call("tick", Call::Tick, 0);
        self.link_number("its twin", 1, 72);
        self.call("tick", Call::Tick, 0);
        self.call("tick of a fresh one", Call::Tick, 0);
        self.link_number("any number", 1, 200);
        self.call("reset", Call::Reset(0), 0);
        self.link_number("the same again", 0, 200);
        self.call("close", Call::Close(0), 0);
        self.link_number("after the close", 0, 201);
        self.call("open", Call::Open(settings(3, 512, 1)), 0);
        self.link_number("the same again", 0, 200);
        self.call("tick", Call::Tick, 0);

        self.section("Virtual links: counters at 2^64 - 1");
        for (what, network, number) in [
            ("one step", 0, 101),
            ("127 steps", 1, 227),
            ("128 steps", 0, 228),
            ("a 0", 1, 0),
        ] {
            self.one(Stream {
                counts: full_counts(),
                ..link(100)
            });
            self.link_number(what, network, number);
        }
    }

    /// Each number in a link that had this one last, or in a fresh one.
    fn link_row(&mut self, numbers: &[u8], last: Option<u8>) {
        for &number in numbers {
            self.one(last.map_or(fresh_link(), |last| link(last.into())));
            let what = last.map_or(String::from("first"), |last| format!("behind {}", last));
            self.link_number(&what, number % 2, number);
        }
    }

    fn link_frames(&mut self) {
        self.section("Virtual links: each length with and without 8100 and F1C1, beside a stream with VLAN 5 (slot 1)");
        let vlan = Some(5);
        let number = Some((0, 7));
        let kinds = [
            ("plain", None, None),
            ("8100", vlan, None),
            ("F1C1", None, number),
            ("8100 F1C1", vlan, number),
        ];
        let other = Stream { vlan: 5, ..fresh() };
        for length in [
            0, 1, 13, 14, 15, 16, 17, 18, 19, 22, 1994, 1995, 1999, 2000, 2001,
        ] {
            for (kind, vlan, redundancy) in kinds {
                // Where a mark does not fit before the last byte, the frame is the same without it.
                if (vlan.is_some() && length < 15)
                    || (redundancy.is_some() && length < if vlan.is_some() { 19 } else { 15 })
                {
                    continue;
                }
                let f = ending(9, frame(length, Tags { vlan, redundancy }));
                self.table(&[link(8), other]);
                let what = format!("{} bytes, {}", length, kind);
                self.link_arrival(&what, 0, &f, 2000);
                self.arrival(&what, 0, &f);
            }
        }

        self.section("Virtual links: outputs of just the size, and one byte too small");
        for length in [15, 24, 2000] {
            for (what, number) in [("new", 9), ("duplicate", 8), ("128 steps", 136)] {
                let f = ending(number, frame(length, PLAIN));
                for room in [0, length - 7, length - 2, length - 1, length, length + 1] {
                    self.one(link(8));
                    let what = format!("{}, {} bytes, output of {}", what, length, room);
                    self.link_arrival(&what, 0, &f, room);
                }
            }
        }

        self.section(
            "Virtual links: the first byte of the source, and a group for a destination (slot 1)",
        );
        let to_group = Stream {
            dest: dest_of(GROUP),
            ..link(8)
        };
        for first in [0x00, 0x01, 0x02, 0x03, 0x80, 0xFE, 0xFF] {
            let mut f = from_source(first, ending(9, frame(20, PLAIN)));
            let what = format!("source {:02x}..", first);
            self.table(&[link(8), to_group]);
            self.link_arrival(&what, 0, &f, 2000);
            f[..6].copy_from_slice(&GROUP);
            self.link_arrival(&format!("{}, to the group", what), 1, &f, 2000);
        }

        self.section("Virtual links: the order of checks: each call has every later fault too, and an output of 0 bytes");
        let group = |length| from_source(3, ending(9, frame(length, PLAIN)));
        let (mut stranger, known) = (group(20), ending(9, frame(20, PLAIN)));
        stranger[5] = 9;
        let unknown = from_source(2, stranger.clone());
        let damaged = link(256);
        let calls = [
            ("network 2, 2001 bytes", 2, group(2001)),
            ("network 255, 14 bytes", 255, group(14)),
            ("2001 bytes", 1, group(2001)),
            ("14 bytes", 1, group(14)),
            ("group source", 1, stranger),
            ("another destination", 1, unknown),
            ("damaged", 1, known),
        ];
        let mut long = vec![Stream::default(); 65];
        long[0] = damaged;
        for (slots, table) in [("1 slot", &[damaged][..]), ("65 slots", &long)] {
            self.table(table);
            for (what, network, f) in &calls {
                self.link_arrival(&format!("{}, {}", slots, what), *network, f, 0);
            }
        }

        self.section("Virtual links: tables of 0, 64 and 65 slots, the link in the last one");
        for slots in [0, 64, 65] {
            let mut records = vec![Stream::default(); slots];
            if let Some(last) = records.last_mut() {
                *last = link(8);
            }
            self.table(&records);
            self.link_number(&format!("{} slots", slots), 0, 9);
            self.call("open its key", Call::Open(settings(3, 4, 3)), 0);
            self.call("tick", Call::Tick, 0);
        }
    }

    fn link_records(&mut self) {
        self.section("Virtual links: settings of an open");
        let with_vlan = |vlan| Settings {
            vlan,
            ..settings(3, 4, 3)
        };
        for (what, s) in [
            ("L = 1", settings(3, 1, 3)),
            ("L = 2", settings(3, 2, 3)),
            ("L = 512", settings(3, 512, 3)),
            ("L = 513", settings(3, 513, 3)),
            ("R = 0", settings(3, 4, 0)),
            ("R = 65535", settings(3, 4, 65535)),
            ("VLAN 1", with_vlan(1)),
            ("VLAN 5", with_vlan(5)),
            ("VLAN 4094", with_vlan(4094)),
            ("VLAN 4095", with_vlan(4095)),
            ("VLAN 65535", with_vlan(65535)),
        ] {
            self.table(&[Stream::default()]);
            self.call(&format!("open a link, {}", what), Call::Open(s), 0);
        }
        self.one(running());
        let open = Call::Open(with_vlan(5));
        self.call("open a link, VLAN 5, table full", open, 0);
        let open = Call::Open(settings(3, 4, 3));
        self.call("open a link, key in use, table full", open, 0);

        self.section("Virtual links: damaged records of every kind, and lawful ones");
        let state = |change: fn(&mut State)| {
            let mut s = link(100);
            change(&mut s.state);
            s
        };
        let fresh_state = |change: fn(&mut State)| {
            let mut s = fresh_link();
            change(&mut s.state);
            s
        };
        let vlan = |vlan| Stream { vlan, ..link(100) };
        let window = |window| Stream {
            window,
            ..link(100)
        };
        for (what, record) in [
            ("anchor 256", link(256)),
            ("anchor 257", link(257)),
            ("anchor 356", link(356)),
            ("anchor 65535", link(65535)),
            ("bit 0", state(|s| s.history = low(1))),
            ("bit 511", state(|s| s.history = marked([511]))),
            ("n = 1", state(|s| s.early = 1)),
            ("n = L - 1, bit 0", {
                let mut s = with_early(link(100), 3);
                s.state.history = low(1);
                s
            }),
            ("remaining 0", state(|s| s.remaining = 0)),
            ("remaining above R", state(|s| s.remaining = 4)),
            ("take-any, anchor 0", fresh_state(|s| s.anchor = 0)),
            ("take-any, anchor 255", fresh_state(|s| s.anchor = 255)),
            (
                "take-any, bit 64",
                fresh_state(|s| s.history = marked([64])),
            ),
            ("take-any, remaining 1", fresh_state(|s| s.remaining = 1)),
            ("take-any, n = 1", fresh_state(|s| s.early = 1)),
            ("L = 1", window(1)),
            ("L = 513", window(513)),
            (
                "R = 0",
                Stream {
                    time: 0,
                    ..link(100)
                },
            ),
            ("VLAN 1", vlan(1)),
            ("VLAN 5", vlan(5)),
            ("VLAN 4094", vlan(4094)),
            ("VLAN 4095", vlan(4095)),
            (
                "fresh, VLAN 5",
                Stream {
                    vlan: 5,
                    ..fresh_link()
                },
            ),
            ("lawful: anchor 0", link(0)),
            ("lawful: anchor 100", link(100)),
            ("lawful: anchor 255", link(255)),
            ("lawful: L = 2", window(2)),
            ("lawful: L = 512", window(512)),
            ("lawful: fresh", fresh_link()),
            (
                "lawful: in use 2, take-any 256",
                Stream {
                    used: 2,
                    ..fresh_state(|s| s.any = 256)
                },
            ),
            (
                "lawful: a destination of seven bytes",
                Stream {
                    dest: 1 << 48 | dest_of(DESTINATION),
                    ..link(100)
                },
            ),
            (
                "free: anchor 256",
                Stream {
                    used: 0,
                    ..link(256)
                },
            ),
        ] {
            self.record_calls(what, record);
        }
    }

    fn families(&mut self) {
        self.section("A virtual link and another stream with one key, side by side: each call looks at its own, and an open at both");
        let batch = packed(&numbered(&[101, 101]));
        let damaged = Stream {
            window: 513,
            ..running()
        };
        let none = Stream {
            rule: 4,
            ..running()
        };
        for (what, records) in [
            ("the link first", [link(100), running()]),
            ("the link last", [running(), link(100)]),
            ("a damaged link first", [link(256), running()]),
            ("a damaged one first", [damaged, link(100)]),
            ("a rule that is none first", [none, link(100)]),
            ("a rule that is none last", [link(100), none]),
            ("two links, the lower damaged", [link(256), link(100)]),
            ("two links", [link(100), link(200)]),
            (
                "a free link first",
                [
                    Stream {
                        used: 0,
                        ..link(100)
                    },
                    running(),
                ],
            ),
            (
                "a free one first",
                [
                    Stream {
                        used: 0,
                        ..running()
                    },
                    link(100),
                ],
            ),
        ] {
            self.table(&[records[0], records[1], Stream::default()]);
            self.link_number(what, 0, 101);
            self.number(what, 0, 101);
            self.batch_here(what, 1, 2, &batch, 60);
            self.call("open its key", Call::Open(settings(1, 4, 3)), 0);
            self.call("open its key for a link", Call::Open(settings(3, 4, 3)), 0);
            self.call("tick", Call::Tick, 0);
            self.call("close slot 0", Call::Close(0), 0);
            self.link_number("the same", 1, 102);
            self.number("the same", 1, 102);
            self.call("close slot 1", Call::Close(1), 0);
            self.call("open its key for a link", Call::Open(settings(3, 4, 3)), 0);
            self.batch_here("to the link", 0, 2, &batch, 60);
        }

        self.section("A virtual link and another stream with one key, whose own place is 127, in slots 0 and 2; slot 1 is free");
        let (key, other) = (at_place(127, 0), at_place(127, 1));
        let a_link = Stream {
            dest: dest_of(key),
            ..link(100)
        };
        let free = Stream {
            used: 0,
            ..running()
        };
        for (order, records) in [
            ("link, other", [a_link, free, running_to(key)]),
            ("other, link", [running_to(key), free, a_link]),
            ("link, link", [a_link, free, a_link]),
        ] {
            for (what, index) in [
                ("the rebuilt one", index_of(0, &[(127, 1), (0, 3)])),
                ("the higher first", index_of(0, &[(127, 3), (0, 1)])),
                ("the lower alone", index_of(0, &[(127, 1)])),
                ("the higher alone", index_of(0, &[(127, 3)])),
                ("an empty place between", index_of(0, &[(127, 1), (1, 3)])),
                ("all name the lower", index_of(1, &[])),
                ("all name the higher", index_of(3, &[])),
                (
                    "no empty place, all name the lower but one",
                    index_of(1, &[(64, 3)]),
                ),
                (
                    "no empty place, all name the higher but one",
                    index_of(3, &[(64, 1)]),
                ),
            ] {
                let what = format!("{}, {}", order, what);
                self.index_calls(&what, &records, &index, [key, key, other]);
            }
        }
    }

    /// Each verdict on what comes of frames, where 100 is the last number: 101, 100 and 104.
    fn each_verdict(&mut self, what: &str, records: &[Stream], frame: impl Fn(u16) -> Vec<u8>) {
        for number in [101, 100, 104] {
            self.table(records);
            self.arrival(&format!("{}, {}", number, what), 0, &frame(number));
        }
    }

    fn priorities(&mut self) {
        let streams = [
            running(),
            Stream {
                vlan: 5,
                ..running()
            },
        ];
        self.section("Priorities: the four bits above the id, in VLAN tags with id 5 and id 0, with each verdict, on running streams with VLAN 0 (slot 0) and VLAN 5 (slot 1)");
        for id in [5, 0] {
            for high in 0..16 {
                let bits = high << 12 | id;
                let what = format!("8100 {:04x}", bits);
                self.each_verdict(&what, &streams, |n| frame(30, tagged_in(bits, n)));
            }
        }

        self.section("Priorities: no bit of the id is one");
        for id in [1, 7, 0x00E0, 0x00FF, 0x0100, 0x0800, 0x0E00, 4094] {
            let record = Stream {
                vlan: id,
                ..running()
            };
            for bits in [id, id | 0x1000, id | 0x4000] {
                let what = format!("8100 {:04x}", bits);
                self.each_verdict(&what, &[record], |n| frame(30, tagged_in(bits, n)));
            }
        }

        self.section("Priorities: F1C1 at 12, and so no VLAN tag, on the streams of the first of these lists");
        let behind: [(&str, &[u8]); 9] = [
            ("0800", &[8, 0]),
            ("8100 a005 0800", &[0x81, 0, 0xA0, 5, 8, 0]),
            ("8100 e000 0800", &[0x81, 0, 0xE0, 0, 8, 0]),
            ("8100 f005 0800", &[0x81, 0, 0xF0, 5, 8, 0]),
            ("8100 0005 0800", &[0x81, 0, 0, 5, 8, 0]),
            ("8100 and the frame's end", &[0x81, 0]),
            ("8100 a0 and the frame's end", &[0x81, 0, 0xA0]),
            ("88a8 a005 0800", &[0x88, 0xA8, 0xA0, 5, 8, 0]),
            ("8100 a005 8100 e005", &[0x81, 0, 0xA0, 5, 0x81, 0, 0xE0, 5]),
        ];
        for (what, behind) in behind {
            let what = format!("F1C1 at 12, then {}", what);
            self.each_verdict(&what, &streams, |n| {
                let [high, low] = n.to_be_bytes();
                let head = [0xF1, 0xC1, 0, 0, high, low];
                behind_addresses(&[&head, behind].concat())
            });
        }
        for reserved in [0x8100, 0xE000] {
            let what = format!("reserved bytes {:04x}", reserved);
            let redundancy = |n| Some((reserved, n));
            self.each_verdict(&what, &streams, |n| {
                let redundancy = redundancy(n);
                frame(
                    30,
                    Tags {
                        redundancy,
                        ..PLAIN
                    },
                )
            });
        }

        self.section("Priorities: what stands behind both tags is not told, on the same streams");
        let behind: [(&str, &[u8]); 3] = [
            ("8100 e005", &[0x81, 0, 0xE0, 5, 8, 0]),
            ("F1C1", &[0xF1, 0xC1, 0xE0, 0, 0xE0, 0, 8, 0]),
            ("0800", &[8, 0]),
        ];
        for (what, behind) in behind {
            let what = format!("8100 a005 F1C1, then {}", what);
            self.each_verdict(&what, &streams, |n| {
                let [high, low] = n.to_be_bytes();
                let head = [0x81, 0, 0xA0, 5, 0xF1, 0xC1, 0xFF, 0xFF, high, low];
                behind_addresses(&[&head, behind].concat())
            });
        }

        self.section("Priorities: each copy tells its own, where the two differ");
        let tags = [
            ("no tag", tagged(101)),
            ("8100 0000", tagged_in(0, 101)),
            ("8100 a000", tagged_in(0xA000, 101)),
            ("8100 f000", tagged_in(0xF000, 101)),
        ];
        let matching = Stream {
            rule: Stream::MATCH_RULE,
            state: State {
                history: low(0),
                ..running().state
            },
            ..running()
        };
        for (which, record) in [
            ("vector", running()),
            ("match", matching),
            ("fresh", fresh()),
        ] {
            for (place, (what, first)) in tags.iter().enumerate() {
                self.one(record);
                self.arrival(&format!("{}, {}", which, what), 0, &frame(30, *first));
                let (what, second) = tags[(place + 1) % tags.len()];
                self.arrival(&format!("then {}", what), 1, &frame(30, second));
            }
        }

        self.section("Priorities: refused frames with a VLAN tag tell none; the last ones have an output one byte too small, and of just the size");
        let damaged = [Stream {
            vlan: 5,
            window: 513,
            ..running()
        }];
        let bits = tagged_in(0xE005, 101);
        let plain = Tags {
            redundancy: None,
            ..bits
        };
        let mut long = vec![Stream::default(); 65];
        long[0] = streams[1];
        let sources = from_source(3, frame(30, bits));
        for (what, table, network, f) in [
            ("65 slots", &long[..], 0, frame(30, bits)),
            ("network 2", &streams[..], 2, frame(30, bits)),
            ("2001 bytes", &streams, 0, frame(2001, bits)),
            ("15 bytes", &streams, 0, frame(15, bits)),
            ("16 bytes", &streams, 0, frame(16, bits)),
            ("18 bytes", &streams, 0, frame(18, bits)),
            ("23 bytes", &streams, 0, frame(23, bits)),
            ("no F1C1", &streams, 0, frame(30, plain)),
            ("group source", &streams, 0, sources),
            ("VLAN 6", &streams, 0, frame(30, tagged_in(0xE006, 101))),
            ("VLAN 4095", &streams, 0, frame(30, tagged_in(0xEFFF, 101))),
            ("damaged", &damaged, 0, frame(30, bits)),
        ] {
            self.table(table);
            self.arrival(what, network, &f);
        }
        for number in [101, 100, 104] {
            let f = frame(30, tagged_in(0xA005, number));
            for room in [23, 24] {
                self.table(&streams);
                let what = format!("arrival, {}, 30 bytes, output of {}", number, room);
                let call = Call::Arrival {
                    network: 0,
                    frame: &f,
                };
                self.call(&what, call, room);
            }
        }
    }

    fn priorities_in_batches(&mut self) {
        self.section("Priorities: in batches each frame tells its own, on running streams with VLAN 0 (slot 0), VLAN 5 (slot 1) and a damaged one with VLAN 6");
        let streams = [
            running(),
            Stream {
                vlan: 5,
                ..running()
            },
            Stream {
                vlan: 6,
                window: 513,
                ..running()
            },
        ];
        let hidden = behind_addresses(&[0xF1, 0xC1, 0, 0, 0, 103, 0x81, 0, 0xE0, 5, 8, 0]);
        let without = Tags {
            redundancy: None,
            ..tagged_in(0xE005, 0)
        };
        let group = from_source(3, frame(24, tagged_in(0xE005, 103)));
        let mixed = [
            ("5", frame(24, tagged_in(0xA005, 101))),
            ("none", frame(24, tagged(101))),
            ("3, and the first number", frame(24, tagged_in(0x6005, 101))),
            ("0", frame(24, tagged_in(0x0005, 102))),
            ("7, and no F1C1", frame(24, without)),
            ("none", frame(24, tagged(102))),
            ("7, and a group source", group),
            (
                "2 and the bit below, VLAN 0",
                frame(24, tagged_in(0x5000, 102)),
            ),
            ("7, and a damaged stream", frame(24, tagged_in(0xE006, 103))),
            ("1, and a rogue", frame(24, tagged_in(0x2005, 900))),
            ("none, 8100 behind F1C1", hidden),
            ("none, and a rogue", frame(24, tagged(900))),
            ("7, and 23 bytes", frame(23, tagged_in(0xE005, 103))),
            ("4 and the bit below", frame(24, tagged_in(0x9005, 103))),
        ];
        for (what, f) in &mixed {
            self.table(&streams);
            self.batch_here(what, 1, 1, &packed(std::slice::from_ref(f)), 60);
        }
        let frames = mixed.map(|(_, f)| f);
        let (count, input) = (frames.len(), packed(&frames));
        // What is handed up takes 20 bytes each.
        for room in [120, 119, 60, 59, 20, 19, 0] {
            self.table(&streams);
            self.batch_here("all of these in turn", 0, count, &input, room);
        }
        let all: Vec<Vec<u8>> = (0..32)
            .map(|n| frame(24, tagged_in(n << 12 | 5, 101 + n)))
            .collect();
        for room in [700, 600, 30] {
            self.table(&streams);
            let what = "32 frames, the four bits above the id from 0 on, twice";
            self.batch_here(what, 0, 32, &packed(&all), room);
        }
        self.section("Priorities: batches that are refused tell none");
        for (what, network, count, input) in [
            ("network 2", 2, count, &input[..]),
            ("33 frames", 0, 33, &input),
            ("one byte cut", 0, count, &input[..input.len() - 1]),
        ] {
            self.table(&streams);
            self.batch_here(what, network, count, input, 200);
        }
        self.table_with(&streams, &index_of(0, &[]));
        self.batch_here("an index of zeros", 0, count, &input, 200);
        self.table(&vec![streams[1]; 65]);
        self.batch_here("65 slots", 0, count, &input, 200);
    }

    fn priorities_in_links(&mut self) {
        self.section("Priorities: a virtual link's arrival tells none, beside a running stream with VLAN 5 (slot 1)");
        let other = Stream {
            vlan: 5,
            ..running()
        };
        for bits in [0x0005, 0x1005, 0xA005, 0xE000, 0xF005] {
            let vlan = Some(bits);
            for (kind, redundancy) in [("8100", None), ("8100 F1C1", Some((0, 101)))] {
                for (verdict, number) in [("new", 9), ("duplicate", 8)] {
                    let f = ending(number, frame(30, Tags { vlan, redundancy }));
                    self.table(&[link(8), other]);
                    let what = format!("{}, {} with {:04x}", verdict, kind, bits);
                    self.link_arrival(&what, 0, &f, 2000);
                }
            }
            let f = frame(30, tagged_in(bits, 101));
            self.table(&[link(8), other]);
            self.arrival(&format!("8100 F1C1 with {:04x}", bits), 0, &f);
        }
        // The number stands where a priority would.
        for number in [0x20, 0x80, 0xA0, 0xE0, 0xFF] {
            let f = behind_addresses(&[0x81, 0, number]);
            self.one(link(8));
            let what = format!("15 bytes, 8100 and the number {}", number);
            self.link_arrival(&what, 0, &f, 2000);
        }
        let tags = Tags {
            redundancy: None,
            ..tagged_in(0xE000, 0)
        };
        for (what, table, network, f, room) in [
            ("65 slots", &vec![link(8); 65][..], 0, frame(30, tags), 2000),
            ("network 2", &[link(8)], 2, frame(30, tags), 2000),
            ("2001 bytes", &[link(8)], 0, frame(2001, tags), 2000),
            ("14 bytes", &[link(8)], 0, frame(14, tags), 2000),
            (
                "group source",
                &[link(8)],
                0,
                from_source(3, frame(30, tags)),
                2000,
            ),
            ("no such link", &[other], 0, frame(30, tags), 2000),
            ("damaged", &[link(256)], 0, frame(30, tags), 2000),
            ("output of 28", &[link(8)], 0, frame(30, tags), 28),
        ] {
            self.table(table);
            self.link_arrival(&format!("8100 e000, {}", what), network, &f, room);
        }
    }
}

fn full_counts() -> Counts {
    Counts {
        arrivals0: u64::MAX,
        arrivals1: u64::MAX,
        passed: u64::MAX,
        discarded: u64::MAX,
        rogue: u64::MAX,
        disorder: u64::MAX,
        lost: u64::MAX,
        resets: u64::MAX,
    }
}

fn run<S: Side>() -> List<S> {
    let mut list = List {
        side: S::new(&[]),
        slots: 0,
        cases: Vec::new(),
        lines: String::from("# A call, its answer, and all that it changed; A>B: the field was A and is B. A stream has L = 4 and R = 3 where nothing else is said. A history is shown by the words that it needs, the highest in front. The index is the rebuilt one where nothing else is said, with its places from 0 to 127; 0 is an empty place, and k + 1 names slot k. An arrival whose answer has no priority tells 0, and that no VLAN tag was there; with one, that a tag was.\n"),
    };
    list.frames();
    list.other_frames();
    list.sources();
    list.tables();
    list.windows();
    list.wide_windows();
    list.times();
    list.settings();
    list.order();
    list.matching_and_ticks();
    list.small_outputs();
    list.damage();
    list.wrapping();
    list.shared_key();
    list.wrap_run();
    list.older_than_the_first();
    list.batches();
    list.sends();
    list.prp_frames();
    list.prp_edges();
    list.indexes();
    list.shared_names();
    list.index_tables();
    list.index_order();
    list.link_numbers();
    list.link_frames();
    list.link_records();
    list.families();
    list.priorities();
    list.priorities_in_batches();
    list.priorities_in_links();
    list
}

fn main() -> ExitCode {
    let words: Vec<String> = std::env::args().skip(1).collect();
    let words: Vec<&str> = words.iter().map(String::as_str).collect();
    let bytes = match words[..] {
        ["product"] => run::<Product>().lines.into_bytes(),
        ["second"] => run::<Second>().lines.into_bytes(),
        ["cases"] => run::<Second>().cases,
        _ => {
            eprintln!("usage: vectors product | second | cases");
            return ExitCode::from(2);
        }
    };
    match io::stdout().write_all(&bytes) {
        Ok(()) => ExitCode::SUCCESS,
        Err(why) => {
            eprintln!("vectors: {}", why);
            ExitCode::FAILURE
        }
    }
}
