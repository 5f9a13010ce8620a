//! Event file to text.

use crate::{Frame, LastOpened, ARRIVAL, CLOSE, OPEN, OPEN_LONG, RESET, TICK};
use crate::{SOURCE, TAG_MARK, TYPE, VERSION, VLAN_MARK};

/// Turns any bytes into a text that `encode` turns into the same bytes.
pub fn decode(file: &[u8]) -> String {
    let (version, mut rest) = match file {
        [version, rest @ ..] => (*version, rest),
        [] => return "empty\n".into(),
    };
    let mut lines = Lines::default();
    if version != VERSION {
        lines.push(format!("version {version}"));
    }
    loop {
        match split_record(rest) {
            Some((body, behind)) => {
                lines.body(body);
                rest = behind;
            }
            None if rest.is_empty() => break,
            None => {
                lines.push(format!("cut {}", hex(rest)));
                break;
            }
        }
    }
    lines.push_ticks();
    lines.text
}

/// The body of the record that bytes behind the version byte begin with, and
/// what follows it; nothing, if the record is not whole.
pub fn split_record(bytes: &[u8]) -> Option<(&[u8], &[u8])> {
    let (length, rest) = split(bytes, 2)?;
    split(rest, u16::from_be_bytes([length[0], length[1]]).into())
}

/// The first bytes and those behind them, if there are so many.
fn split(bytes: &[u8], length: usize) -> Option<(&[u8], &[u8])> {
    Some((bytes.get(..length)?, &bytes[length..]))
}

#[derive(Default)]
struct Lines {
    text: String,
    last_opened: LastOpened,
    /// Ticks in a row that have no line yet.
    ticks: u32,
}

impl Lines {
    fn push(&mut self, line: String) {
        self.push_ticks();
        self.text += &line;
        self.text.push('\n');
    }

    fn push_ticks(&mut self) {
        match std::mem::take(&mut self.ticks) {
            0 => {}
            1 => self.text += "tick\n",
            more => self.text += &format!("tick {more}\n"),
        }
    }

    fn body(&mut self, body: &[u8]) {
        match *body {
            [TICK] => self.ticks += 1,
            [CLOSE, slot] => self.push(format!("close {slot}")),
            [RESET, slot] => self.push(format!("reset {slot}")),
            [OPEN, ref key @ .., rule, window, r0, r1] if key.len() == 8 => {
                self.open(key, rule, &format!("L {window}"), [r0, r1]);
            }
            [OPEN_LONG, ref key @ .., rule, l0, l1, r0, r1] if key.len() == 8 => {
                let window = u16::from_be_bytes([l0, l1]);
                // One byte would hold it too: that would be the other kind.
                let long = if window < 256 { " long" } else { "" };
                self.open(key, rule, &format!("L {window}{long}"), [r0, r1]);
            }
            [ARRIVAL, network, ref bytes @ ..] => match parse(bytes) {
                Some(frame) => {
                    let words = self.frame(&frame);
                    self.push(format!("net {network} {words}"));
                }
                None => self.push(raw(body)),
            },
            _ => self.push(raw(body)),
        }
    }

    /// The key is the six bytes of the destination and the two of the VLAN id.
    fn open(&mut self, key: &[u8], rule: u8, window: &str, reset_time: [u8; 2]) {
        let mut to = [0; 6];
        to.copy_from_slice(&key[..6]);
        let vlan = u16::from_be_bytes([key[6], key[7]]);
        let rule = match rule {
            1 => "vector".into(),
            2 => "match".into(),
            _ => format!("rule {rule}"),
        };
        let reset_time = u16::from_be_bytes(reset_time);
        self.last_opened = LastOpened { to: Some(to), vlan };
        let to = address(to);
        self.push(format!(
            "open {to} vlan {vlan} {rule} {window} R {reset_time}"
        ));
    }

    /// Only what differs from the defaults is said.
    fn frame(&self, frame: &Frame) -> String {
        let mut words = match frame.tag {
            Some((_, number)) => format!("number {number}"),
            None => "untagged".into(),
        };
        if self.last_opened.to != Some(frame.to) {
            words += &format!(" to {}", address(frame.to));
        }
        if frame.from != SOURCE {
            words += &format!(" from {}", address(frame.from));
        }
        if frame.tci != self.last_opened.tci() {
            words += &match frame.tci {
                None => " vlan none".into(),
                Some(id) if id < 4096 => format!(" vlan {id}"),
                Some(tci) => format!(" tci {tci:04X}"),
            };
        }
        if let Some((reserved, _)) = frame.tag.filter(|tag| tag.0 != [0, 0]) {
            words += &format!(" reserved {}", hex(&reserved));
        }
        if frame.kind != TYPE {
            words += &format!(" type {}", hex(&frame.kind));
        }
        if frame.data.iter().any(|&byte| byte != 0) {
            words += &format!(" data {}", hex(&frame.data));
        } else if !frame.data.is_empty() {
            words += &format!(" size {}", frame.bytes().len());
        }
        words
    }
}

/// The parts of a frame that has them all; a frame that lacks one is written as
/// a raw body.
fn parse(bytes: &[u8]) -> Option<Frame> {
    let (addresses, mut rest) = split(bytes, 12)?;
    let mut tci = None;
    if rest.starts_with(&VLAN_MARK) {
        tci = Some(u16::from_be_bytes([*rest.get(2)?, *rest.get(3)?]));
        rest = &rest[4..];
    }
    let mut tag = None;
    if rest.starts_with(&TAG_MARK) {
        let (bytes, behind) = split(rest, 6)?;
        let number = u16::from_be_bytes([bytes[4], bytes[5]]);
        tag = Some(([bytes[2], bytes[3]], number));
        rest = behind;
    }
    let (kind, data) = split(rest, 2)?;
    Some(Frame {
        to: addresses[..6].try_into().ok()?,
        from: addresses[6..].try_into().ok()?,
        tci,
        tag,
        kind: [kind[0], kind[1]],
        data: data.to_vec(),
    })
}

fn raw(body: &[u8]) -> String {
    format!("raw {}", hex(body)).trim_end().into()
}

fn hex(bytes: &[u8]) -> String {
    bytes.iter().map(|byte| format!("{byte:02X}")).collect()
}

fn address(bytes: [u8; 6]) -> String {
    bytes.map(|byte| format!("{byte:02x}")).join(":")
}
