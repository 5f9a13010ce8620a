//! Makes random event files. The same seed and count give the same bytes.
//!
//! Two makers take turns. `Walk` sends anything at all, and keeps a receiver
//! of its own beside the file, so that it knows which streams are open and
//! where their windows stand. Without that, numbers would almost never fall at
//! the edge of a window. `Traffic` is two networks between senders and the
//! receiver, with skew, loss, duplicates, silence, restarts and reflected
//! frames.

use std::collections::VecDeque;
use std::io;

use crate::event_file::{kind, Receiver, MAX_BODY, VERSION};
use crate::frame::{TAG_MARK, VLAN_MARK};
use crate::random::Random;
use crate::Stream;

/// Destination and VLAN id.
pub type Key = ([u8; 6], u16);

/// More keys than slots, so that the table fills. Two share a destination and
/// two share a VLAN id, so that both halves of the key count.
const KEYS: [Key; 12] = [
    ([2, 0, 0, 0, 0, 1], 0),
    ([2, 0, 0, 0, 0, 1], 1),
    ([2, 0, 0, 0, 0, 2], 0),
    ([2, 0, 0, 0, 0, 2], 4094),
    ([3, 0, 0, 0, 0, 1], 0),
    ([3, 0, 0, 0, 0, 1], 256),
    ([0, 0, 0, 0, 0, 0], 0),
    ([255, 255, 255, 255, 255, 255], 0),
    ([255, 255, 255, 255, 255, 255], 4094),
    ([3, 0, 0, 0, 0, 7], 5),
    ([3, 0, 0, 0, 0, 8], 5),
    ([3, 0, 0, 0, 0, 9], 0),
];

/// Any bodies, most of them near the edge of something.
struct Walk {
    random: Random,
    receiver: Receiver,
    /// Ticks still to come in a row, so that long reset times run out too.
    ticks_ahead: u64,
    written: u64,
}

impl Walk {
    fn new(random: Random) -> Walk {
        Walk {
            random,
            receiver: Receiver::new(),
            ticks_ahead: 0,
            written: 0,
        }
    }

    /// The next body. It is also given to the receiver.
    fn body(&mut self) -> Vec<u8> {
        let body = self.choose();
        self.written += 1;
        // The line goes nowhere; a sink takes every write.
        let _ = self.receiver.record(self.written, &body, &mut io::sink());
        body
    }

    fn choose(&mut self) -> Vec<u8> {
        if self.ticks_ahead > 0 {
            self.ticks_ahead -= 1;
            return vec![kind::TICK];
        }
        let in_use = self.slots_in_use().len();
        // Few streams are dull, so an empty table is filled faster.
        let opens = if in_use < 4 { 300 } else { 70 };
        match self.random.below(1000 + opens) {
            0..=14 => vec![kind::CLOSE, self.slot()],
            15..=34 => vec![kind::RESET, self.slot()],
            35..=134 => {
                if self.random.chance(1, 12) {
                    self.ticks_ahead = self.random.below(12);
                }
                vec![kind::TICK]
            }
            135..=184 => self.bad(),
            185..=999 => self.arrival(),
            _ => self.open(),
        }
    }

    fn slots_in_use(&self) -> Vec<usize> {
        (0..self.receiver.table.len())
            .filter(|&slot| self.receiver.table[slot].is_in_use())
            .collect()
    }

    /// A slot for close and reset: mostly in the table, sometimes free or
    /// beyond it.
    fn slot(&mut self) -> u8 {
        if self.random.chance(1, 8) {
            self.random.pick(&[7, 8, 9, 63, 64, 65, 255])
        } else {
            self.random.below(8) as u8
        }
    }

    fn open(&mut self) -> Vec<u8> {
        let random = &mut self.random;
        let (destination, mut vlan) = random.pick(&KEYS);
        let mut rule = any_rule(random);
        // Few enough of them, for no arrival reaches a virtual link.
        if random.chance(1, 8) {
            rule = Stream::LINK;
            vlan = 0;
        }
        let mut window = match random.below(8) {
            0 => random.pick(&[2, 3, 63, 64]),
            1 => random.pick(&[65, 127, 128, 129, 255, 256, 257, 511, 512]),
            2 => random.between(2, 64) as u16,
            3 => random.between(65, 512) as u16,
            _ => random.between(2, 8) as u16,
        };
        let mut reset_time = match random.below(8) {
            0 => random.pick(&[255, 256, 65534, 65535]),
            1 => random.between(1, 65535) as u16,
            _ => random.between(1, 8) as u16,
        };
        if random.chance(1, 6) {
            // One setting outside the sizes.
            match random.below(5) {
                0 => vlan = random.pick(&[4095, 4096, 65535]),
                1 => rule = random.pick(&[0, 4, 255]),
                2 => {
                    rule = Stream::LINK;
                    vlan = random.pick(&[1, 256, 4094]);
                }
                3 => window = random.pick(&[0, 1, 513, 514, 768, 65535]),
                _ => reset_time = 0,
            }
        }
        any_open(random, (destination, vlan), rule, window, reset_time)
    }

    /// A key of an open stream, else of the list, else a random one.
    fn key(&mut self) -> Key {
        let in_use = self.slots_in_use();
        match self.random.below(40) {
            0 => {
                let mut destination = [0; 6];
                self.random.fill(&mut destination);
                (destination, self.random.word() & 0x0FFF)
            }
            1 => (self.random.pick(&KEYS).0, 4095),
            2..=36 if !in_use.is_empty() => {
                let stream = self.receiver.table[self.random.pick(&in_use)];
                (stream.destination, stream.vlan)
            }
            _ => self.random.pick(&KEYS),
        }
    }

    /// A number for this key, mostly near the window of its stream.
    fn number(&mut self, key: Key) -> u16 {
        let found = self
            .receiver
            .table
            .iter()
            .find(|stream| stream.has_key(key.0, key.1));
        let (anchor, window, fresh) = match found {
            Some(stream) => (stream.anchor, i64::from(stream.window), stream.takes_any()),
            None => (0, 4, true),
        };
        let random = &mut self.random;
        if fresh {
            // Just before the wrap, just after it, or anywhere.
            return match random.below(4) {
                0 | 1 => random.between(65520, 65535) as u16,
                2 => random.between(0, 3) as u16,
                _ => random.word(),
            };
        }
        let d = match random.below(22) {
            0..=6 => 1,
            7..=8 => 0,
            9..=12 => -random.between(0, window - 1),
            13..=15 => random.between(1, window - 1),
            16 => random.pick(&[window - 1, 1 - window, window - 2, 2 - window]),
            17 => random.pick(&[window, -window, window + 1, -window - 1]),
            18 => random.pick(&[32767, -32768, -32767, 2 * window, 64, -64]),
            // At the end of a word of the history.
            19 | 20 => {
                let words = random.between(1, 1 + window / 64);
                random.pick(&[1, -1]) * (64 * words + random.between(-1, 1))
            }
            _ => random.between(-32768, 32767),
        };
        (i64::from(anchor) + d).rem_euclid(65536) as u16
    }

    fn arrival(&mut self) -> Vec<u8> {
        let key = self.key();
        let number = self.number(key);
        let random = &mut self.random;
        let network = if random.chance(1, 40) {
            random.pick(&[2, 3, 128, 255])
        } else {
            random.below(2) as u8
        };
        let mut body = vec![kind::ARRIVAL, network];
        body.extend(key.0);
        body.extend(source(random));
        let tci = any_tci(random, key.1);
        if let Some(tci) = tci {
            body.extend(VLAN_MARK);
            body.extend(tci.to_be_bytes());
        }
        if random.chance(1, 25) {
            // No tag, or one that is nearly right.
            body.extend(random.pick(&[
                [0x08, 0x00],
                [0x88, 0xA8],
                VLAN_MARK,
                [0xF1, 0xC0],
                [0xC1, 0xF1],
            ]));
            body.extend([0, 0]);
        } else {
            body.extend(TAG_MARK);
            // Reserved bytes are ignored on reading.
            if random.chance(1, 4) {
                body.extend([random.byte(), random.byte()]);
            } else {
                body.extend([0, 0]);
            }
        }
        body.extend(number.to_be_bytes());
        match random.below(5) {
            0 | 1 => body.extend([0x08, 0x00]),
            2 => body.extend([0x86, 0xDD]),
            3 => body.extend(TAG_MARK),
            _ => body.extend(inner_vlan(random)),
        }
        self.payload(&mut body);
        body
    }

    /// Gives the frame its length. Two bytes of the body are no part of it.
    fn payload(&mut self, body: &mut Vec<u8>) {
        let random = &mut self.random;
        let length = match random.below(400) {
            // Around the 14, 18, 20 and 24 byte rules, and anywhere below.
            0..=11 => random.pick(&[13, 14, 15, 17, 18, 19, 20, 21, 23, 24]),
            12..=16 => random.below(26) as usize,
            // Around the longest frame.
            17..=19 => random.between(1998, 2003) as usize,
            20 if random.chance(1, 8) => random.between(2001, MAX_BODY as i64 - 2) as usize,
            21 if random.chance(1, 32) => MAX_BODY - 2,
            22..=80 => 60,
            _ => body.len() - 2 + random.below(8) as usize,
        };
        let end = length + 2;
        while body.len() < end {
            body.push(random.byte());
        }
        body.truncate(end);
    }

    /// A body that must print `bad`.
    fn bad(&mut self) -> Vec<u8> {
        let random = &mut self.random;
        let (kind, length) = match random.below(8) {
            0 => return Vec::new(),
            1 => match random.below(2) {
                0 => (kind::OPEN, random.pick(&[1, 2, 12, 14, 269])),
                _ => (kind::OPEN_WIDE, random.pick(&[1, 2, 12, 13, 15, 270])),
            },
            2 => (kind::CLOSE, random.pick(&[1, 3, 258])),
            3 => (kind::RESET, random.pick(&[1, 3, 258])),
            4 => (kind::ARRIVAL, 1),
            5 => (kind::TICK, random.pick(&[2, 3, 257])),
            6 => (
                random.pick(&[0, 7, 8, 255]),
                random.pick(&[1, 2, 13, 14, 22]),
            ),
            _ => {
                let longest = if random.chance(1, 64) { MAX_BODY } else { 40 };
                let length = 1 + random.below(longest as u64) as usize;
                (random.between(7, 255) as u8, length)
            }
        };
        let mut body = vec![0; length];
        random.fill(&mut body);
        body[0] = kind;
        body
    }
}

/// Senders, two networks, and the frames that are under way.
struct Traffic {
    random: Random,
    senders: Vec<Sender>,
    networks: [Network; 2],
    time: u64,
    /// Frames under way: when they are due, and their bodies.
    under_way: Vec<(u64, Vec<u8>)>,
    /// Bodies that were made and not handed out yet.
    ready: VecDeque<Vec<u8>>,
}

struct Sender {
    key: Key,
    /// The window and the reset time of its stream.
    window: u16,
    reset_time: u16,
    next: u16,
}

struct Network {
    delay: u64,
    /// Most that a frame is late beyond the delay. Above 0 it may overtake.
    jitter: u64,
    /// Of 100 frames so many are lost, and so many come twice.
    lost: u64,
    doubled: u64,
    silent: bool,
}

impl Traffic {
    fn new(mut random: Random) -> Traffic {
        let mut ready = VecDeque::new();
        let mut senders = Vec::new();
        for key in &KEYS[..random.between(1, 8) as usize] {
            let sender = Sender::new(&mut random, *key);
            ready.push_back(sender.open(&mut random));
            senders.push(sender);
        }
        let window = u64::from(senders[0].window);
        let slow = random.pick(&[0, 1, 3, window - 1, window, window + 2]);
        let mut network = |delay| Network {
            delay,
            jitter: random.pick(&[0, 0, 1, 4]),
            lost: random.pick(&[0, 0, 2, 10, 40]),
            doubled: random.pick(&[0, 0, 5]),
            silent: false,
        };
        let networks = [network(0), network(slow)];
        Traffic {
            random,
            senders,
            networks,
            time: 0,
            under_way: Vec::new(),
            ready,
        }
    }

    fn body(&mut self) -> Vec<u8> {
        loop {
            if let Some(body) = self.ready.pop_front() {
                return body;
            }
            self.step();
        }
    }

    /// Each sender may send one frame, what is due comes in, and now and then
    /// something else happens.
    fn step(&mut self) {
        self.time += 1;
        for sender in &mut self.senders {
            if self.random.chance(1, 4) {
                continue;
            }
            // The copies of a frame are alike, the frames of a sender are not.
            let tci = any_tci(&mut self.random, sender.key.1);
            let behind = match self.random.below(16) {
                0 => inner_vlan(&mut self.random),
                _ => vec![0x08, 0x00],
            };
            for (at, network) in self.networks.iter().enumerate() {
                let random = &mut self.random;
                let copies = 1 + u64::from(random.chance(network.doubled, 100));
                for _ in 0..copies {
                    let due = self.time + network.delay + random.below(network.jitter + 1);
                    if !network.silent && !random.chance(network.lost, 100) {
                        let (to, number) = (sender.key.0, sender.next);
                        let body = tagged_with(at as u8, to, tci, number, &behind);
                        self.under_way.push((due, body));
                    }
                }
            }
            sender.next = sender.next.wrapping_add(1);
        }
        // Stable: what was sent first comes first among frames due together.
        self.under_way.sort_by_key(|frame| frame.0);
        let due = self.under_way.partition_point(|frame| frame.0 <= self.time);
        for (_, body) in self.under_way.drain(..due) {
            // A faulty tap reflects a frame before the frame itself comes. The
            // body's byte 8 is the first of the source.
            if self.random.chance(1, 50) {
                let mut reflected = body.clone();
                reflected[8] |= 1;
                self.ready.push_back(reflected);
            }
            self.ready.push_back(body);
        }
        self.incident();
    }

    fn incident(&mut self) {
        let random = &mut self.random;
        let at = random.below(self.senders.len() as u64) as usize;
        match random.below(60) {
            0..=11 => self.ready.push_back(vec![kind::TICK]),
            // Silence until this stream is reset, one tick more or less.
            12 => {
                let reset_time = i64::from(self.senders[at].reset_time.min(40));
                for _ in 0..reset_time + random.between(-1, 1) {
                    self.ready.push_back(vec![kind::TICK]);
                }
            }
            // A restart, at a low number, at any, or within the window.
            13 => {
                let sender = &mut self.senders[at];
                sender.next = match random.below(3) {
                    0 => random.below(3) as u16,
                    1 => random.word(),
                    _ => sender
                        .next
                        .wrapping_sub(random.below(sender.window as u64 + 6) as u16),
                };
            }
            14 | 15 => {
                let network = &mut self.networks[random.below(2) as usize];
                network.silent = !network.silent;
            }
            16 => self.ready.push_back(vec![kind::RESET, at as u8]),
            // The stream is opened again with other settings. Slots are filled
            // from the lowest, so sender and slot have one number.
            17..=19 => {
                let sender = Sender::new(random, self.senders[at].key);
                self.ready.push_back(vec![kind::CLOSE, at as u8]);
                self.ready.push_back(sender.open(random));
                self.senders[at] = sender;
            }
            _ => {}
        }
    }
}

impl Sender {
    fn new(random: &mut Random, key: Key) -> Sender {
        Sender {
            key,
            window: match random.below(4) {
                0 => random.between(65, 512) as u16,
                1 => random.pick(&[64, 65, 127, 128, 511, 512]),
                _ => random.between(2, 64) as u16,
            },
            reset_time: match random.below(4) {
                0 => random.between(1, 65535) as u16,
                _ => random.between(1, 20) as u16,
            },
            next: random.pick(&[0, 65500, 65535, 32767]),
        }
    }

    fn open(&self, random: &mut Random) -> Vec<u8> {
        let mut rule = any_rule(random);
        // A stream that is deaf to its sender. With another VLAN id it would not
        // be opened, and the slots would go to other senders.
        if self.key.1 == 0 && random.chance(1, 16) {
            rule = Stream::LINK;
        }
        any_open(random, self.key, rule, self.window, self.reset_time)
    }
}

/// A source. One in 16 is a group; random bytes would make it every second one.
fn source(random: &mut Random) -> [u8; 6] {
    let mut source = [2, 0, 0, 0, 0, random.byte()];
    if random.chance(1, 4) {
        random.fill(&mut source);
    }
    source[0] = source[0] & 0xFE | u8::from(random.chance(1, 16));
    source
}

/// The 16 bits behind 8100 of a frame with this VLAN id. The four high ones, the
/// priority and the bit below it, are no part of the id. A tag with id 0 has the
/// same key as no tag.
fn any_tci(random: &mut Random, vlan: u16) -> Option<u16> {
    let high = (random.below(16) as u16) << 12;
    (vlan != 0 || random.chance(1, 3)).then_some(high | vlan)
}

/// A VLAN tag with any bits, and mostly a type, to stand behind the redundancy tag.
/// There it is none, though it may look like one in what is handed up.
fn inner_vlan(random: &mut Random) -> Vec<u8> {
    let mut bytes = VLAN_MARK.to_vec();
    if random.chance(3, 4) {
        let id = random.pick(&[0, 1, 5, 256, 4094]);
        let high = (random.below(16) as u16) << 12;
        bytes.extend((high | id).to_be_bytes());
        bytes.extend([0x08, 0x00]);
    }
    bytes
}

/// A rule whose streams hear arrivals.
fn any_rule(random: &mut Random) -> u8 {
    random.pick(&[Stream::VECTOR, Stream::VECTOR, Stream::MATCH])
}

/// An open of either kind. L above 255 has no room in the first one.
fn any_open(random: &mut Random, key: Key, rule: u8, window: u16, reset_time: u16) -> Vec<u8> {
    match u8::try_from(window) {
        Ok(window) if random.chance(1, 2) => open_body(key, rule, window, reset_time),
        _ => open_wide_body(key, rule, window, reset_time),
    }
}

/// The body of an open with L in one byte.
pub fn open_body(key: Key, rule: u8, window: u8, reset_time: u16) -> Vec<u8> {
    open_of(kind::OPEN, key, rule, &[window], reset_time)
}

/// The body of an open with L in two bytes.
pub fn open_wide_body(key: Key, rule: u8, window: u16, reset_time: u16) -> Vec<u8> {
    let window = &window.to_be_bytes();
    open_of(kind::OPEN_WIDE, key, rule, window, reset_time)
}

fn open_of(kind: u8, key: Key, rule: u8, window: &[u8], reset_time: u16) -> Vec<u8> {
    let mut body = vec![kind];
    body.extend(key.0);
    body.extend(key.1.to_be_bytes());
    body.push(rule);
    body.extend(window);
    body.extend(reset_time.to_be_bytes());
    body
}

/// The body of an arrival: a tagged frame with nothing behind its type field. It
/// has a VLAN tag, of priority 0, if the key's id is not 0.
pub fn tagged(network: u8, key: Key, number: u16) -> Vec<u8> {
    let tci = (key.1 != 0).then_some(key.1);
    tagged_with(network, key.0, tci, number, &[0x08, 0x00])
}

/// The body of an arrival: a tagged frame with a VLAN tag that has these 16 bits
/// behind 8100, or with none, and with these bytes behind the redundancy tag.
pub fn tagged_with(
    network: u8,
    destination: [u8; 6],
    tci: Option<u16>,
    number: u16,
    behind: &[u8],
) -> Vec<u8> {
    let mut body = vec![kind::ARRIVAL, network];
    body.extend(destination);
    body.extend([2, 0, 0, 0, 0, 2]);
    if let Some(tci) = tci {
        body.extend(VLAN_MARK);
        body.extend(tci.to_be_bytes());
    }
    body.extend(TAG_MARK);
    body.extend([0, 0]);
    body.extend(number.to_be_bytes());
    body.extend(behind);
    body
}

/// Puts a record with this body behind the file.
pub fn push_record(file: &mut Vec<u8>, body: &[u8]) {
    // Every body made here is at most MAX_BODY bytes long.
    file.extend((body.len() as u16).to_be_bytes());
    file.extend(body);
}

/// An event file with `count` records. About one in six has a record more that
/// is cut, one in thirty has a wrong version byte, and one in sixty is empty.
pub fn file(seed: u64, count: u64) -> Vec<u8> {
    let mut random = Random::new(seed);
    let mut file = match random.below(64) {
        // No version byte at all.
        0 => return Vec::new(),
        // A different one; the records follow all the same.
        1 | 2 => vec![random.pick(&[0, 2, 3, 49, 128, 255])],
        _ => vec![VERSION],
    };
    let cut = random.chance(1, 6);
    let mut next: Box<dyn FnMut() -> Vec<u8>> = if random.chance(1, 3) {
        let mut traffic = Traffic::new(random.clone());
        Box::new(move || traffic.body())
    } else {
        let mut walk = Walk::new(random.clone());
        Box::new(move || walk.body())
    };
    for _ in 0..count {
        push_record(&mut file, &next());
    }
    if cut {
        // Anywhere from after the first length byte to before the last byte.
        let mut whole = Vec::new();
        push_record(&mut whole, &next());
        let keep = 1 + random.below(whole.len() as u64 - 1) as usize;
        file.extend(&whole[..keep]);
    }
    file
}
