//! Text to event file.

use std::fmt;

use crate::{Frame, LastOpened, ARRIVAL, CLOSE, MAX_BODY, OPEN, OPEN_LONG, RESET, TICK};
use crate::{SOURCE, TYPE, VERSION};

/// What is wrong with a text, and in which line.
#[derive(Debug, PartialEq, Eq)]
pub struct Fault {
    /// Lines count from 1.
    pub line: usize,
    /// What is wrong.
    pub message: String,
}

impl fmt::Display for Fault {
    fn fmt(&self, f: &mut fmt::Formatter<'_>) -> fmt::Result {
        write!(f, "line {}: {}", self.line, self.message)
    }
}

/// An event file, and where its records come from.
#[derive(Debug, PartialEq, Eq)]
pub struct Encoded {
    /// The event file.
    pub bytes: Vec<u8>,
    /// For each line of the text, how many whole records it gave.
    pub records: Vec<usize>,
}

/// Turns a text into an event file.
pub fn encode(text: &str) -> Result<Encoded, Fault> {
    let mut writer = Writer {
        bytes: vec![VERSION],
        records: 0,
        last_opened: LastOpened::default(),
        state: State::Start,
    };
    let mut records = Vec::new();
    for (at, line) in text.lines().enumerate() {
        let before = writer.records;
        let words: Vec<&str> = line
            .split('#')
            .next()
            .unwrap_or_default()
            .split_whitespace()
            .collect();
        if let Some((verb, rest)) = words.split_first() {
            let words = Words(rest.iter());
            writer.statement(verb, words).map_err(|message| Fault {
                line: at + 1,
                message,
            })?;
        }
        records.push(writer.records - before);
    }
    Ok(Encoded {
        bytes: writer.bytes,
        records,
    })
}

/// What may still come.
#[derive(PartialEq)]
enum State {
    Start,
    Records,
    /// After `cut` or `empty`.
    Ended,
}

struct Writer {
    bytes: Vec<u8>,
    records: usize,
    last_opened: LastOpened,
    state: State,
}

impl Writer {
    fn statement(&mut self, verb: &str, mut words: Words) -> Result<(), String> {
        if self.state == State::Ended {
            return Err("nothing may follow 'cut' or 'empty'".into());
        }
        let start = self.state == State::Start;
        self.state = State::Records;
        match verb {
            "version" if start => self.bytes = vec![words.number("the version byte", 255)? as u8],
            "empty" if start => {
                self.bytes.clear();
                self.state = State::Ended;
            }
            "version" | "empty" => return Err(format!("'{verb}' may only be the first statement")),
            "open" => self.open(&mut words)?,
            "close" => self.record(&[CLOSE, words.number("the slot", 255)? as u8])?,
            "reset" => self.record(&[RESET, words.number("the slot", 255)? as u8])?,
            "net" => self.net(&mut words)?,
            "tick" => {
                let count = match words.next() {
                    Some(count) => number("the number of ticks", count, u64::from(u32::MAX))?,
                    None => 1,
                };
                for _ in 0..count {
                    self.record(&[TICK])?;
                }
            }
            "raw" => {
                let body = words.rest_hex()?;
                self.record(&body)?;
            }
            "cut" => {
                let tail = words.rest_hex()?;
                check_tail(&tail)?;
                self.bytes.extend(tail);
                self.state = State::Ended;
            }
            _ => return Err(format!("'{verb}' is no statement")),
        }
        match words.next() {
            Some(word) => Err(format!("'{word}' is too much here")),
            None => Ok(()),
        }
    }

    fn record(&mut self, body: &[u8]) -> Result<(), String> {
        let length = body.len();
        if length > MAX_BODY {
            return Err(format!(
                "the body has {length} bytes, and {MAX_BODY} is the most"
            ));
        }
        self.bytes.extend((length as u16).to_be_bytes());
        self.bytes.extend(body);
        self.records += 1;
        Ok(())
    }

    fn open(&mut self, words: &mut Words) -> Result<(), String> {
        let to = address(words.need("the destination")?)?;
        let (mut vlan, mut rule, mut window, mut reset_time) = (0, None, None, None);
        let mut long = false;
        while let Some(word) = words.next() {
            match word {
                "vlan" => vlan = words.number("the VLAN id", 65535)? as u16,
                "vector" => rule = Some(1),
                "match" => rule = Some(2),
                "rule" => rule = Some(words.number("the rule", 255)? as u8),
                "L" => window = Some(words.number("L", 65535)? as u16),
                "long" => long = true,
                "R" => reset_time = Some(words.number("R", 65535)? as u16),
                _ => return Err(format!("'{word}' means nothing in an open")),
            }
        }
        let rule = rule.ok_or("the rule is missing: 'vector', 'match' or 'rule N'")?;
        let window = window.ok_or("the window is missing: 'L N'")?;
        let reset_time = reset_time.ok_or("the reset time is missing: 'R N'")?;
        self.last_opened = LastOpened { to: Some(to), vlan };
        let short = u8::try_from(window).ok().filter(|_| !long);
        let mut body = vec![if short.is_some() { OPEN } else { OPEN_LONG }];
        body.extend(to);
        body.extend(vlan.to_be_bytes());
        body.push(rule);
        match short {
            Some(window) => body.push(window),
            None => body.extend(window.to_be_bytes()),
        }
        body.extend(reset_time.to_be_bytes());
        self.record(&body)
    }

    fn net(&mut self, words: &mut Words) -> Result<(), String> {
        let network = words.number("the network", 255)? as u8;
        let numbers = match words.need("'number' or 'untagged'")? {
            "number" => Some(numbers(words.need("the number")?)?),
            "untagged" => None,
            word => return Err(format!("'number' or 'untagged' is due, not '{word}'")),
        };
        let (mut to, mut tci) = (self.last_opened.to, self.last_opened.tci());
        let (mut from, mut kind, mut data) = (SOURCE, TYPE, Vec::new());
        let (mut reserved, mut size) = ([0, 0], None);
        while let Some(word) = words.next() {
            match word {
                "to" => to = Some(address(words.need("the destination")?)?),
                "from" => from = address(words.need("the source")?)?,
                "vlan" => {
                    tci = match words.need("the VLAN id")? {
                        "none" => None,
                        id => Some(number("the VLAN id", id, 4095)? as u16),
                    }
                }
                "tci" => tci = Some(u16::from_be_bytes(words.two_bytes("tci")?)),
                "reserved" if numbers.is_some() => reserved = words.two_bytes("reserved")?,
                "type" => kind = words.two_bytes("type")?,
                "data" => data = hex(words.need("the data in hex")?)?,
                "size" => size = Some(words.number("the size", 65533)? as usize),
                _ => return Err(format!("'{word}' means nothing in such a frame")),
            }
        }
        let to = to.ok_or("no destination: nothing was opened above, so say 'to ADDRESS'")?;
        let tags: Vec<_> = match numbers {
            Some((first, last)) => {
                let count = u32::from(last.wrapping_sub(first)) + 1;
                let number = |k| first.wrapping_add(k as u16);
                (0..count).map(|k| Some((reserved, number(k)))).collect()
            }
            None => vec![None],
        };
        for tag in tags {
            let data = data.clone();
            let frame = Frame {
                to,
                from,
                tci,
                tag,
                kind,
                data,
            };
            let mut body = vec![ARRIVAL, network];
            body.extend(frame.bytes());
            if let Some(size) = size {
                body.resize(2 + size, 0);
            }
            self.record(&body)?;
        }
        Ok(())
    }
}

/// A tail must not be a whole record, or the text would not say what the file
/// holds.
fn check_tail(tail: &[u8]) -> Result<(), String> {
    match *tail {
        [] => Err("the bytes in hex are missing".into()),
        [high, low, ref body @ ..] if body.len() >= u16::from_be_bytes([high, low]).into() => {
            Err("these bytes begin with a whole record: write it as 'raw'".into())
        }
        _ => Ok(()),
    }
}

/// The words of a line that were not read yet.
struct Words<'a>(std::slice::Iter<'a, &'a str>);

impl<'a> Words<'a> {
    fn next(&mut self) -> Option<&'a str> {
        self.0.next().copied()
    }

    fn need(&mut self, what: &str) -> Result<&'a str, String> {
        self.next().ok_or_else(|| format!("{what} is missing"))
    }

    fn number(&mut self, what: &str, most: u64) -> Result<u64, String> {
        number(what, self.need(what)?, most)
    }

    fn two_bytes(&mut self, what: &str) -> Result<[u8; 2], String> {
        let word = self.need(what)?;
        let bytes = hex(word)?;
        <[u8; 2]>::try_from(bytes)
            .map_err(|_| format!("{what} takes four hex digits, not '{word}'"))
    }

    /// All that is left, as hex; spaces may stand between bytes.
    fn rest_hex(&mut self) -> Result<Vec<u8>, String> {
        let mut bytes = Vec::new();
        while let Some(word) = self.next() {
            bytes.extend(hex(word)?);
        }
        Ok(bytes)
    }
}

fn number(what: &str, word: &str, most: u64) -> Result<u64, String> {
    word.parse()
        .ok()
        .filter(|&n| n <= most)
        .ok_or_else(|| format!("{what} must be a number from 0 to {most}, not '{word}'"))
}

/// `7`, or `7..9` for 7, 8, 9.
fn numbers(word: &str) -> Result<(u16, u16), String> {
    let (first, last) = word.split_once("..").unwrap_or((word, word));
    Ok((
        number("the number", first, 65535)? as u16,
        number("the number", last, 65535)? as u16,
    ))
}

fn hex(word: &str) -> Result<Vec<u8>, String> {
    let digits: Option<Vec<u32>> = word.chars().map(|c| c.to_digit(16)).collect();
    let digits = digits.ok_or_else(|| format!("'{word}' is not hex"))?;
    if digits.len() % 2 != 0 {
        return Err(format!("'{word}' has an odd number of hex digits"));
    }
    Ok(digits
        .chunks(2)
        .map(|pair| (pair[0] << 4 | pair[1]) as u8)
        .collect())
}

fn address(word: &str) -> Result<[u8; 6], String> {
    let parts: Vec<&str> = word.split(':').collect();
    let bytes: Option<Vec<u8>> = parts
        .iter()
        .map(|part| hex(part).ok().filter(|b| b.len() == 1).map(|b| b[0]))
        .collect();
    bytes
        .and_then(|bytes| <[u8; 6]>::try_from(bytes).ok())
        .ok_or_else(|| format!("'{word}' is no address: six bytes in hex with colons between"))
}
