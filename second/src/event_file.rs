//! Runs an event file through the library. Document 01: "Event file and the
//! program `events`". Kind 6 is of order 5 of document 02, the priority on `up`
//! lines of order 11. The index of order 9 shows in no line.

use std::io::{self, ErrorKind, Read, Write};

use crate::wrong::{self, rule};
use crate::{arrival, close, open, reset, tick, Arrival, Refusal, Settings, Stream, Verdict};

/// The version byte of an event file.
pub const VERSION: u8 = 1;
/// Slots in the program's table.
pub const SLOTS: usize = 8;
/// Longest body that two length bytes can name.
pub const MAX_BODY: usize = u16::MAX as usize;

/// The first byte of a body.
pub mod kind {
    /// Open a stream, with L in one byte.
    pub const OPEN: u8 = 1;
    /// Close a slot.
    pub const CLOSE: u8 = 2;
    /// Reset a slot.
    pub const RESET: u8 = 3;
    /// A frame came in.
    pub const ARRIVAL: u8 = 4;
    /// A tick.
    pub const TICK: u8 = 5;
    /// Open a stream, with L in two bytes.
    pub const OPEN_WIDE: u8 = 6;
}

/// Input or output failed. Both end the run.
#[derive(Debug)]
pub enum Failure {
    /// The input could not be read. The lines written so far are good.
    Read(io::Error),
    /// A line could not be written.
    Write(io::Error),
}

/// The table, its index and the output buffer of one run.
pub struct Receiver {
    /// Eight slots, free at first.
    pub table: [Stream; SLOTS],
    /// Beside the table. Only the calls change either, so that they agree.
    index: [u8; Stream::INDEX_PLACES],
    output: [u8; Stream::MAX_FRAME],
}

impl Receiver {
    /// All slots free.
    pub fn new() -> Receiver {
        Receiver {
            table: [Stream::FREE; SLOTS],
            // With all slots free, all places are empty.
            index: [0; Stream::INDEX_PLACES],
            output: [0; Stream::MAX_FRAME],
        }
    }

    /// Carries out one record and writes its line. `number` counts the records
    /// from 1.
    pub fn record<W: Write>(&mut self, number: u64, body: &[u8], lines: &mut W) -> io::Result<()> {
        let other = rule!(
            None,
            KindOneOf14: wrong::as_kind(kind::OPEN_WIDE, kind::OPEN, 14, body),
            KindSixOf13: wrong::as_kind(kind::OPEN, kind::OPEN_WIDE, 13, body),
            KindSixUnknown: wrong::as_kind(0, kind::OPEN_WIDE, 14, body)
        );
        let body = other.as_deref().unwrap_or(body);
        match *body {
            [kind::OPEN, d0, d1, d2, d3, d4, d5, v0, v1, rule, window, r0, r1] => {
                let settings = Settings {
                    destination: [d0, d1, d2, d3, d4, d5],
                    vlan: u16::from_be_bytes([v0, v1]),
                    rule,
                    window: rule!(window, KindOneMost64: window * u8::from(window <= 64)).into(),
                    reset_time: u16::from_be_bytes([r0, r1]),
                };
                self.open(number, settings, lines)
            }
            [kind::OPEN_WIDE, d0, d1, d2, d3, d4, d5, v0, v1, rule, w0, w1, r0, r1] => {
                let window = rule!([w0, w1], KindSixLowFirst: [w1, w0]);
                let settings = Settings {
                    destination: [d0, d1, d2, d3, d4, d5],
                    vlan: u16::from_be_bytes([v0, v1]),
                    rule,
                    window: u16::from_be_bytes(window),
                    reset_time: u16::from_be_bytes([r0, r1]),
                };
                self.open(number, settings, lines)
            }
            [kind::CLOSE, slot] => match close(&mut self.table, &mut self.index, slot.into()) {
                Ok(()) => writeln!(lines, "{number} C ok"),
                Err(refusal) => refused(lines, number, 'C', refusal),
            },
            [kind::RESET, slot] => match reset(&mut self.table, usize::from(slot)) {
                Ok(()) => writeln!(lines, "{number} R ok"),
                Err(refusal) => refused(lines, number, 'R', refusal),
            },
            [kind::ARRIVAL, network, ref frame @ ..] => {
                match arrival(&mut self.table, network, frame, &mut self.output) {
                    Ok(answer) => arrived(lines, number, answer),
                    Err(refusal) => refused(lines, number, 'A', refusal),
                }
            }
            [kind::TICK] => match tick(&mut self.table) {
                Ok(t) => writeln!(lines, "{number} T {} {}", t.reset, t.damaged),
                Err(refusal) => refused(lines, number, 'T', refusal),
            },
            // Length 0, an unknown kind, or a wrong length for its kind.
            _ => writeln!(lines, "{number} bad"),
        }
    }

    /// An open of either kind.
    fn open<W: Write>(&mut self, number: u64, settings: Settings, lines: &mut W) -> io::Result<()> {
        match open(&mut self.table, &mut self.index, settings) {
            Ok(slot) => writeln!(lines, "{number} O {slot}"),
            Err(refusal) => refused(lines, number, 'O', refusal),
        }
    }
}

impl Default for Receiver {
    fn default() -> Receiver {
        Receiver::new()
    }
}

/// The line of an arrival that was not refused. What was handed up has its
/// priority last; whether a VLAN tag was there is in no line.
fn arrived<W: Write>(lines: &mut W, number: u64, answer: Arrival) -> io::Result<()> {
    let priority = usize::from(answer.priority);
    let (word, last) = match answer.verdict {
        Verdict::HandedUp { .. } => (
            "up",
            rule!(
                Some(priority),
                UpPrintsNone: None,
                UntaggedPrintsNone: answer.vlan_tag.then_some(priority),
                PrintsVlanTag: Some(answer.vlan_tag.into())
            ),
        ),
        Verdict::Duplicate => ("dup", rule!(None, DupPrintsPriority: Some(priority))),
        Verdict::Rogue => ("rogue", rule!(None, RoguePrintsPriority: Some(priority))),
    };
    let (slot, of_frame) = (answer.slot, usize::from(answer.number));
    match last {
        Some(last) => {
            let [first, second, third] = rule!(
                [slot, of_frame, last],
                PriorityBeforeNumber: [slot, last, of_frame],
                PriorityBeforeSlot: [last, slot, of_frame]
            );
            writeln!(lines, "{number} A {word} {first} {second} {third}")
        }
        None => writeln!(lines, "{number} A {word} {slot} {of_frame}"),
    }
}

fn refused<W: Write>(lines: &mut W, number: u64, letter: char, refusal: Refusal) -> io::Result<()> {
    writeln!(lines, "{number} {letter} no {}", refusal.number())
}

/// Reads until the buffer is full or the input ends, and says how many bytes
/// came. A pipe may hand out fewer bytes than were asked for; that is not the
/// end of input.
fn fill<R: Read>(input: &mut R, buffer: &mut [u8]) -> Result<usize, Failure> {
    let mut have = 0;
    while have < buffer.len() {
        match input.read(&mut buffer[have..]) {
            Ok(0) => break,
            Ok(more) => have += more,
            Err(e) if e.kind() == ErrorKind::Interrupted => {}
            Err(e) => return Err(Failure::Read(e)),
        }
    }
    Ok(have)
}

/// Runs a whole event file. Only one record is held at a time, so the memory
/// does not grow with the file.
pub fn run<R: Read, W: Write>(input: &mut R, lines: &mut W) -> Result<(), Failure> {
    let mut version = [0; 1];
    if fill(input, &mut version)? == 0 || version[0] != VERSION {
        return writeln!(lines, "version").map_err(Failure::Write);
    }
    let mut receiver = Receiver::new();
    let mut body = vec![0; MAX_BODY];
    let mut number: u64 = 0;
    loop {
        let mut length = [0; 2];
        let last_line = match fill(input, &mut length)? {
            0 => Some("end"),
            1 => Some(rule!("cut", CutLengthEnds: "end")),
            _ => None,
        };
        if let Some(last_line) = last_line {
            return writeln!(lines, "{last_line}").map_err(Failure::Write);
        }
        let length = u16::from_be_bytes(length) & rule!(u16::MAX, LengthOf15Bits: 0x7FFF);
        let body = &mut body[..usize::from(length)];
        if fill(input, body)? < body.len() {
            return writeln!(lines, "cut").map_err(Failure::Write);
        }
        number += 1;
        receiver
            .record(number, body, lines)
            .map_err(Failure::Write)?;
        let stop = rule!(
            false,
            UnknownKindEnds: matches!(*body, [0 | 7.., ..]),
            EmptyBodyEnds: body.is_empty()
        );
        if stop {
            return writeln!(lines, "end").map_err(Failure::Write);
        }
    }
}
