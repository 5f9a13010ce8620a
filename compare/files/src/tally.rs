//! How often each answer was seen. A comparison in which an answer hardly ever
//! occurs says nothing about it, so one that can occur and was seen fewer than
//! [`LEAST`] times is a failure.
//!
//! Of the refusals `events` can print 2 to 6, 9 to 12 and 14. The others can't
//! occur, because
//!
//! - 1 needs more than 64 slots, and the table has 8;
//! - 7 needs a damaged record: open refuses settings outside the sizes, every
//!   other call keeps a lawful record lawful, and nothing else writes to the
//!   table. So the second number of a tick is always 0, too;
//! - 8 needs an output shorter than length - 6, and the output has 2000 bytes
//!   while a longer frame has been refused with 3;
//! - 13 is the tag writer's, which no event calls.
//!
//! No event gives a frame to a virtual link. So such a stream is opened, reset,
//! closed, and in the way of another with its key, and an arrival passes it over.
//!
//! A line of a frame that was handed up ends in the priority that the frame's own
//! bytes say. One with another priority can't occur.
//!
//! A line of any other shape is a failure as well.

use std::collections::BTreeMap;

use second::event_file::{kind, SLOTS};
use second::frame::{TAG_MARK, VLAN_MARK};
use second::Stream;

use crate::records;

/// Fewer are too few.
pub const LEAST: u64 = 100;

/// Counts by shape.
pub struct Tally {
    seen: BTreeMap<String, u64>,
    /// Lines whose shape can't occur.
    strange: Vec<String>,
    /// Lines with a record number.
    pub records: u64,
}

/// Every answer that can occur, then the inputs that must not be missing.
fn expected() -> Vec<String> {
    let mut all: Vec<String> = Vec::new();
    all.extend((0..SLOTS).map(|slot| format!("O {slot}")));
    all.extend(["vector", "match", "link"].map(|rule| format!("O, rule {rule}")));
    all.extend([9, 10, 11].map(|n| format!("O no {n}")));
    all.extend(["C ok", "C no 12", "R ok", "R no 12"].map(String::from));
    all.extend(LINKS.map(String::from));
    all.extend(["up", "dup", "rogue"].map(|verdict| format!("A {verdict} vector")));
    // The match rule has no rogue.
    all.extend(["up", "dup"].map(|verdict| format!("A {verdict} match")));
    all.extend(["vector", "match"].map(|rule| format!("A up {rule}, through the wrap")));
    all.extend((0..16).map(|high| up_with(Some(high))));
    all.push(up_with(None));
    all.extend(TAGS.map(String::from));
    all.extend([2, 3, 4, 5, 14, 6].map(|n| format!("A no {n}")));
    all.extend(["T 0 0", "T 1 0", "T 2.. 0", "bad"].map(String::from));
    all.extend(["version", "cut", "end"].map(String::from));
    all.extend(INPUTS.map(|input| format!("input: {input}")));
    let windows = Stream::MIN_WINDOW..=Stream::MAX_WINDOW;
    all.extend(windows.map(|window| format!("input: L = {window}")));
    all
}

/// What is handed up, by the four bits above the id of its VLAN tag: the priority,
/// and the bit below it.
fn up_with(high: Option<u8>) -> String {
    match high {
        Some(high) => format!("A up {}, bits {high:04b} in a VLAN tag", high / 2),
        None => "A up 0, no VLAN tag".into(),
    }
}

/// What is answered to frames with a priority above 0 in a VLAN tag, or in what
/// looks like one.
const TAGS: [&str; 5] = [
    "A up, a priority and VLAN id 0",
    "A up, a priority behind F1C1",
    "A dup, a priority",
    "A rogue, a priority",
    "A no, a priority",
];

/// What is answered where a virtual link is there.
const LINKS: [&str; 5] = [
    "C ok, of a link",
    "R ok, of a link",
    "O no 10, a link has the key",
    "O no 10, for a link",
    "A no 6, a link has the key",
];

const INPUTS: [&str; 21] = [
    "a body of length 0",
    "a body of 32768 bytes or more",
    "a frame of 2000 bytes",
    "a frame of 2001 bytes",
    "a group source and destination",
    "a group source without F1C1",
    "a group destination alone",
    "a VLAN tag with id 0",
    "a VLAN tag with id 4095",
    "a VLAN tag with high bits",
    "reserved bytes not zero",
    "F1C1 behind F1C1",
    "8100 behind F1C1",
    "an open with VLAN 4095",
    "an open of a link with a VLAN id",
    "R of 32768 or more",
    "L above 64 in an open of kind 1",
    "L up to 255 in an open of kind 6",
    "L above 512 in an open of kind 6",
    "kind 1 with 14 bytes",
    "kind 6 with 13 bytes",
];

impl Default for Tally {
    fn default() -> Tally {
        Tally {
            seen: expected().into_iter().map(|shape| (shape, 0)).collect(),
            strange: Vec::new(),
            records: 0,
        }
    }
}

impl Tally {
    fn count(&mut self, shape: &str, line: &str) {
        match self.seen.get_mut(shape) {
            Some(count) => *count += 1,
            None => self.strange.push(line.into()),
        }
    }

    /// Counts a file's lines, which stand beside its records.
    pub fn file(&mut self, file: &[u8], lines: &str) {
        let mut bodies = records(file);
        // The rule in each slot, and the number that was last handed up.
        let mut slots = [(0, 0); SLOTS];
        // The destination of each slot that is a virtual link's.
        let mut links = [None; SLOTS];
        for line in lines.lines() {
            let words: Vec<&str> = line.split(' ').collect();
            if words.len() == 1 {
                self.count(line, line);
                continue;
            }
            self.records += 1;
            // Every line with a number has its record.
            let body = bodies.next().unwrap_or_default();
            self.input(body);
            if let Some(shape) = of_links(&words[1..], body, &links) {
                self.count(shape, line);
            }
            if let Some(shape) = of_tags(&words[1..], body) {
                self.count(shape, line);
            }
            let shape = match words[1..] {
                [letter, "no", number] => format!("{letter} no {number}"),
                ["C", "ok"] => {
                    links[usize::from(body[1]) % SLOTS] = None;
                    words[1..].join(" ")
                }
                ["O", slot] => {
                    let rule = body[9];
                    self.count(&format!("O, rule {}", name(rule)), line);
                    let window = window(body).unwrap_or(0);
                    self.count(&format!("input: L = {window}"), line);
                    let at = slot.parse::<usize>().unwrap_or(0) % SLOTS;
                    slots[at] = (rule, 0);
                    links[at] = (rule == Stream::LINK).then(|| destination(&body[1..]));
                    format!("O {slot}")
                }
                ["A", "up", slot, number, priority] => {
                    let (rule, last) = &mut slots[slot.parse::<usize>().unwrap_or(0) % SLOTS];
                    let (rule, number) = (name(*rule), number.parse::<i32>().unwrap_or(0));
                    let d = number - std::mem::replace(last, number);
                    let through_the_wrap = d.abs() > 65536 - 512;
                    if through_the_wrap {
                        self.count(&format!("A up {rule}, through the wrap"), line);
                    }
                    let high = high_bits(&body[2..]);
                    let own = high.map_or(0, |high| high / 2).to_string();
                    let known = own == priority;
                    let with = if known { up_with(high) } else { line.into() };
                    self.count(&with, line);
                    format!("A up {rule}")
                }
                ["A", verdict @ ("dup" | "rogue"), slot, _] => {
                    let (rule, _) = slots[slot.parse::<usize>().unwrap_or(0) % SLOTS];
                    format!("A {verdict} {}", name(rule))
                }
                ["T", "0" | "1", _] => words[1..].join(" "),
                ["T", _, damaged] => format!("T 2.. {damaged}"),
                _ => words[1..].join(" "),
            };
            self.count(&shape, line);
        }
    }

    /// Counts what a body has in it.
    fn input(&mut self, body: &[u8]) {
        let mut has = |yes: bool, input: &str| {
            if yes {
                self.count(&format!("input: {input}"), input);
            }
        };
        has(body.is_empty(), "a body of length 0");
        has(body.len() >= 32768, "a body of 32768 bytes or more");
        if let Some(window) = window(body) {
            has(body[7..9] == [0x0F, 0xFF], "an open with VLAN 4095");
            has(
                body[9] == Stream::LINK && body[7..9] != [0, 0],
                "an open of a link with a VLAN id",
            );
            has(body[body.len() - 2] >= 128, "R of 32768 or more");
            if body[0] == kind::OPEN {
                has(window > 64, "L above 64 in an open of kind 1");
            } else {
                has(window <= 255, "L up to 255 in an open of kind 6");
                has(window > 512, "L above 512 in an open of kind 6");
            }
        }
        let first = body.first().copied().unwrap_or(0);
        has(
            first == kind::OPEN && body.len() == 14,
            "kind 1 with 14 bytes",
        );
        has(
            first == kind::OPEN_WIDE && body.len() == 13,
            "kind 6 with 13 bytes",
        );
        let frame = match body {
            [kind::ARRIVAL, _, frame @ ..] => frame,
            _ => return,
        };
        has(frame.len() == 2000, "a frame of 2000 bytes");
        has(frame.len() == 2001, "a frame of 2001 bytes");
        let (mut mark, mut rest) = match frame.get(12..14) {
            Some(mark) => (mark, &frame[14..]),
            None => return,
        };
        if mark == VLAN_MARK && rest.len() >= 4 {
            let id = u16::from_be_bytes([rest[0], rest[1]]);
            has(id % 4096 == 0, "a VLAN tag with id 0");
            has(id % 4096 == 4095, "a VLAN tag with id 4095");
            has(id >= 4096, "a VLAN tag with high bits");
            (mark, rest) = (&rest[2..4], &rest[4..]);
        }
        let [to_group, from_group] = [frame[0], frame[6]].map(|first| first & 1 == 1);
        has(to_group && from_group, "a group source and destination");
        has(to_group && !from_group, "a group destination alone");
        has(
            from_group && mark != TAG_MARK,
            "a group source without F1C1",
        );
        if mark == TAG_MARK && rest.len() >= 6 {
            has(rest[..2] != [0, 0], "reserved bytes not zero");
            has(rest[4..6] == TAG_MARK, "F1C1 behind F1C1");
            has(
                rest[4..6] == VLAN_MARK && frame[12..14] == TAG_MARK,
                "8100 behind F1C1",
            );
        }
    }

    /// What is seen too rarely, and what can't occur.
    pub fn faults(&self) -> Vec<String> {
        let rare = self.seen.iter().filter(|(_, &count)| count < LEAST);
        let rare = rare.map(|(shape, count)| format!("'{shape}' was seen {count} times"));
        let strange = self.strange.iter().take(3);
        rare.chain(strange.map(|line| format!("this can't occur: {line}")))
            .collect()
    }

    /// One line for each answer; inputs are only counted.
    pub fn print(&self) {
        for (shape, count) in &self.seen {
            if !shape.starts_with("input: L") {
                println!("{count:9} {shape}");
            }
        }
    }
}

/// Which of [`LINKS`] a line is, where the virtual links in the slots have these
/// destinations.
fn of_links(words: &[&str], body: &[u8], links: &[Option<[u8; 6]>; SLOTS]) -> Option<&'static str> {
    let is_link = |slot: u8| links[usize::from(slot) % SLOTS].is_some();
    let is_to_link = |bytes: &[u8]| links.contains(&Some(destination(bytes)));
    match *words {
        ["C", "ok"] if is_link(body[1]) => Some("C ok, of a link"),
        ["R", "ok"] if is_link(body[1]) => Some("R ok, of a link"),
        ["O", "no", "10"] if body[9] == Stream::LINK => Some("O no 10, for a link"),
        // A link's VLAN id is 0.
        ["O", "no", "10"] if body[7..9] == [0, 0] && is_to_link(&body[1..]) => {
            Some("O no 10, a link has the key")
        }
        ["A", "no", "6"] if body[14..16] != VLAN_MARK && is_to_link(&body[2..]) => {
            Some("A no 6, a link has the key")
        }
        _ => None,
    }
}

/// Which of [`TAGS`] a line is.
fn of_tags(words: &[&str], body: &[u8]) -> Option<&'static str> {
    let frame = match *body {
        [kind::ARRIVAL, _, ref frame @ ..] => frame,
        _ => return None,
    };
    let has = high_bits(frame).map_or(false, |high| high > 1);
    match *words {
        ["A", "up", ..] if has => {
            let id_0 = frame[14] % 16 == 0 && frame[15] == 0;
            id_0.then_some("A up, a priority and VLAN id 0")
        }
        ["A", "up", ..] => {
            let behind = frame[12..14] == TAG_MARK && frame[18..20] == VLAN_MARK;
            let has = frame.get(20).map_or(false, |high| *high >= 32);
            (behind && has).then_some("A up, a priority behind F1C1")
        }
        ["A", "dup", ..] if has => Some("A dup, a priority"),
        ["A", "rogue", ..] if has => Some("A rogue, a priority"),
        ["A", "no", _] if has => Some("A no, a priority"),
        _ => None,
    }
}

/// The four bits above the id of a frame's VLAN tag.
fn high_bits(frame: &[u8]) -> Option<u8> {
    match frame {
        [_, _, _, _, _, _, _, _, _, _, _, _, 0x81, 0x00, high, ..] => Some(high / 16),
        _ => None,
    }
}

/// The destination that stands first in these bytes.
fn destination(bytes: &[u8]) -> [u8; 6] {
    let mut six = [0; 6];
    six.copy_from_slice(&bytes[..6]);
    six
}

/// The L of a body that is an open of the right length.
fn window(body: &[u8]) -> Option<u16> {
    match *body {
        [kind::OPEN, _, _, _, _, _, _, _, _, _, window, _, _] => Some(window.into()),
        [kind::OPEN_WIDE, _, _, _, _, _, _, _, _, _, high, low, _, _] => {
            Some(u16::from_be_bytes([high, low]))
        }
        _ => None,
    }
}

fn name(rule: u8) -> &'static str {
    match rule {
        Stream::VECTOR => "vector",
        Stream::MATCH => "match",
        Stream::LINK => "link",
        _ => "none",
    }
}
