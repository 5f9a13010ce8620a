//! Both sides on many random inputs: answers, records and every output byte must be equal. Each answer that there is must
//! have come up, or the inputs have shown too little.
use crate::record::{Counts, State, Stream};
use crate::{plain, proved};

/// A small generator of random numbers (xorshift), the same at every run.
pub struct Dice(u64);

impl Dice {
    pub fn new() -> Dice {
        Dice(0x9E37_79B9_7F4A_7C15)
    }

    pub fn next(&mut self) -> u64 {
        self.0 ^= self.0 << 13;
        self.0 ^= self.0 >> 7;
        self.0 ^= self.0 << 17;
        self.0
    }

    pub fn below(&mut self, n: u64) -> u64 {
        (self.next() >> 11) % n
    }

    pub fn one_in(&mut self, n: u64) -> bool {
        self.below(n) == 0
    }
}

/// Decisions with what the plain side made of them, for bench/replay.c to hold the archives to.
pub struct Cases(pub Option<Vec<u8>>);

impl Cases {
    fn add(&mut self, parts: &[&[u8]]) {
        if let Some(kept) = &mut self.0 {
            for part in parts {
                kept.extend_from_slice(part);
            }
        }
    }
}

pub fn wrong(what: &str, case: u64) -> String {
    format!("DIFFERENT: {} at random case {}", what, case)
}

pub fn all_seen(what: &str, seen: &[u64], wanted: &[usize]) -> Result<(), String> {
    for &n in wanted {
        if seen[n] == 0 {
            return Err(format!("{}: answer {} never came up", what, n));
        }
    }
    Ok(())
}

/// Most often a source that is no group's, so that the checks behind it are met.
pub fn individual(dice: &mut Dice, frame: &mut [u8]) {
    if let (Some(first), false) = (frame.get_mut(6), dice.one_in(16)) {
        *first &= 0xFE;
    }
}

/// A random frame: short, long or too long; with and without 8100 and F1C1, at the places that count and at others.
pub fn frame(dice: &mut Dice, pool: &[u8]) -> Vec<u8> {
    let length = match dice.below(8) {
        0 => dice.below(26),
        1 => 1988 + dice.below(20),
        2 => dice.below(2100),
        3 => 64,
        _ => 14 + dice.below(300),
    } as usize;
    let from = dice.below((pool.len() - length) as u64) as usize;
    let mut f = pool[from..from + length].to_vec();
    individual(dice, &mut f);
    let mut put = |at: usize, bytes: [u8; 2]| {
        if at + 2 <= length {
            f[at..at + 2].copy_from_slice(&bytes);
        }
    };
    let vlan = dice.one_in(2);
    if vlan {
        put(12, [0x81, 0x00]);
    }
    let at = if vlan { 16 } else { 12 };
    match dice.below(5) {
        0 => put(at, [0x81, 0x00]),
        1 => {}
        _ => put(at, [0xF1, 0xC1]),
    }
    if dice.one_in(2) {
        put(at + 2, [0, 0]);
    }
    match dice.below(4) {
        0 => put(at + 6, [0x81, 0x00]),
        1 => put(at + 6, [0xF1, 0xC1]),
        _ => {}
    }
    f
}

pub fn tags(cases: u64) -> Result<u64, String> {
    let mut dice = Dice::new();
    let pool: Vec<u8> = (0..10_000).map(|_| dice.next() as u8).collect();
    let mut taken = [0u64; 256];
    let mut written = [0u64; 256];
    for case in 0..cases {
        let f = frame(&mut dice, &pool);
        let number = dice.next() as u16;
        let room = match dice.below(6) {
            0 => f.len().saturating_sub(7),
            1 => f.len().saturating_sub(6),
            2 => f.len() + 5,
            3 => f.len() + 6,
            4 => dice.below(2100) as usize,
            _ => 2100,
        };
        let from = dice.below((pool.len() - room) as u64) as usize;
        let start = &pool[from..from + room];
        let (mut a, mut b) = (start.to_vec(), start.to_vec());
        let (x, y) = (plain::take_tag(&f, &mut a), proved::take_tag(&f, &mut b));
        if x != y || a != b {
            return Err(wrong("take a tag out", case));
        }
        taken[x.refusal as usize] += 1;
        a.copy_from_slice(start);
        b.copy_from_slice(start);
        let (x, y) = (
            plain::write_tag(&f, number, &mut a),
            proved::write_tag(&f, number, &mut b),
        );
        if x != y || a != b {
            return Err(wrong("write a tag", case));
        }
        written[x.refusal as usize] += 1;
    }
    all_seen("take a tag out", &taken, &[0, 3, 4, 5, 8])?;
    all_seen("write a tag", &written, &[0, 3, 4, 8, 13, 14])?;
    Ok(2 * cases)
}

/// The windows at the ends of their range and of a history's words.
pub const WINDOWS: [u16; 7] = [2, 64, 65, 127, 128, 511, 512];

/// A window: one of these, one of a single word, or any.
pub fn window(dice: &mut Dice) -> u16 {
    match dice.below(4) {
        0 => 2 + dice.below(63) as u16,
        1 => 2 + dice.below(511) as u16,
        _ => WINDOWS[dice.below(WINDOWS.len() as u64) as usize],
    }
}

pub type History = [u64; Stream::HISTORY_WORDS];

/// A history that may stand in such a window: with many bits set or with few, all within it, and the first among them.
pub fn history(dice: &mut Dice, window: u16) -> History {
    let few = dice.one_in(2);
    let mut words: History = std::array::from_fn(|i| {
        let mut word = dice.next() | dice.next() & dice.next();
        if few {
            word &= dice.next();
        }
        match (window as usize).saturating_sub(64 * i) {
            0 => 0,
            places => word & u64::MAX >> (64 - places.min(64)),
        }
    });
    words[0] |= 1;
    words
}

/// Sets a bit.
pub fn mark(history: &mut History, place: u16) {
    history[place as usize / 64] |= 1 << (place % 64);
}

/// The places left for numbers older than the first: none, or as many as are lawful, with the first marked next to them.
pub fn early(dice: &mut Dice, window: u16, history: &mut History) -> u16 {
    if dice.one_in(2) {
        return 0;
    }
    let early = dice.below(window as u64) as u16;
    mark(history, window - 1 - early);
    early
}

/// A bit at L or above, if the window leaves a place for it: at exactly L, at the last place of all, or anywhere.
pub fn mark_behind(dice: &mut Dice, window: u16, history: &mut History) {
    if window < Stream::WINDOW_MOST {
        let places = Stream::WINDOW_MOST - window;
        let behind = match dice.below(3) {
            0 => 0,
            1 => places - 1,
            _ => dice.below(places as u64) as u16,
        };
        mark(history, window + behind);
    }
}

/// A number near the window's ends, near a border of the history's words, or in the window.
pub fn number(dice: &mut Dice, anchor: u16, window: u16) -> u16 {
    let border = [1, 63, 64, 65, 127, 128, 448, 511][dice.below(8) as usize];
    let d = match dice.below(8) {
        0 => dice.next() as u16,
        1 => 32768,
        2 => window.wrapping_add(dice.below(3) as u16).wrapping_sub(1),
        3 => dice.below(3) as u16,
        4 => border,
        _ => dice.below(window as u64 + 4) as u16,
    };
    if dice.one_in(2) {
        anchor.wrapping_sub(d)
    } else {
        anchor.wrapping_add(d)
    }
}

/// A virtual link's number: near the last one, near what is no longer ahead of it, 0, or any.
pub fn link_number(dice: &mut Dice, last: u16) -> u8 {
    let d = match dice.below(4) {
        0 => dice.below(3) as u8,
        1 => 126 + dice.below(4) as u8,
        2 => return [0, 1, 127, 128, 255][dice.below(5) as usize],
        _ => return dice.next() as u8,
    };
    if dice.one_in(2) {
        (last as u8).wrapping_sub(d)
    } else {
        (last as u8).wrapping_add(d)
    }
}

/// A random record: most often lawful, in all states; else damaged in one way or in all.
fn record(dice: &mut Dice) -> Stream {
    let window = window(dice);
    let time = 1 + dice.below(65535) as u16;
    let rule = 1 + dice.below(3) as u8;
    let mut history = history(dice, window);
    let early = early(dice, window, &mut history);
    let mut s = Stream {
        dest: dice.next(),
        vlan: if rule == 3 {
            0
        } else {
            dice.below(4095) as u16
        },
        window,
        time,
        rule,
        used: 1 + dice.below(255) as u8,
        state: State {
            history: if rule == 1 { history } else { [0; 8] },
            anchor: if rule == 3 {
                dice.below(256) as u16
            } else {
                dice.next() as u16
            },
            remaining: 1 + dice.below(time as u64) as u16,
            early: if rule == 1 { early } else { 0 },
            any: 0,
        },
        counts: Counts {
            arrivals0: dice.next(),
            arrivals1: dice.next(),
            passed: dice.next(),
            discarded: dice.next(),
            rogue: dice.next(),
            disorder: dice.next(),
            lost: u64::MAX - dice.below(40),
            resets: dice.next(),
        },
    };
    if dice.one_in(8) {
        s.state = State {
            history: [0; 8],
            anchor: 65535,
            remaining: 0,
            early: 0,
            any: 1 + dice.below(65535) as u16,
        };
    }
    if dice.one_in(20) {
        s.counts.passed = u64::MAX;
        s.counts.arrivals1 = u64::MAX;
    }
    let place = dice.below(8) as usize;
    match dice.below(40) {
        0 => s.used = 0,
        1 => s.rule = dice.next() as u8,
        2 => s.window = dice.next() as u16,
        3 => s.time = dice.below(3) as u16,
        4 => s.vlan = dice.next() as u16,
        5 => s.state.any = dice.below(3) as u16 * 128,
        6 => s.state.remaining = dice.below(2) as u16,
        7 => s.state.history[place] = dice.next(),
        8 => s.window = 513,
        9 => s.window = 1,
        10 => s.state.remaining = s.time.wrapping_add(1),
        11 => s.state.anchor = [255, 256, 65534][dice.below(3) as usize],
        12 => s.state.early = 1 + dice.below(512) as u16,
        13 => s.state.early = s.window,
        14 => s.state.early = dice.next() as u16,
        15 | 16 => mark_behind(dice, s.window, &mut s.state.history),
        17 => s.state.history[0] &= !1,
        _ => {}
    }
    s
}

pub fn decisions(cases: u64, kept: &mut Cases) -> Result<u64, String> {
    let mut dice = Dice::new();
    let mut seen = [[0u64; 4]; 2];
    let mut of_window = [[0u64; 4]; WINDOWS.len()];
    for case in 0..cases {
        let s = record(&mut dice);
        // A virtual link's number is a byte.
        let number = if s.rule == 3 {
            link_number(&mut dice, s.state.anchor) as u16
        } else {
            number(&mut dice, s.state.anchor, s.window)
        };
        let network = match dice.below(5) {
            0 => dice.next() as u8,
            n => (n % 2) as u8,
        };
        let x = plain::decide(s, number, network);
        let y = proved::decide(s, number, network);
        let mut t = s;
        let z = plain::decide_at(&mut t, number, network);
        if x != y || x.stream != t || x.verdict != z {
            return Err(wrong("one decision", case));
        }
        seen[(s.rule == 3) as usize][x.verdict as usize] += 1;
        if let Some(n) = WINDOWS.iter().position(|&w| w == s.window) {
            of_window[n][x.verdict as usize] += 1;
        }
        kept.add(&[
            &[3],
            &s.to_bytes(),
            &number.to_le_bytes(),
            &[network],
            &x.stream.to_bytes(),
            &[x.verdict],
        ]);
        let step = match dice.below(8) {
            _ if s.rule == 3 => 0,
            0 | 1 => 1,
            2 => 0,
            3 => 63,
            4 => 64,
            5 => s.window.wrapping_sub(1),
            6 => dice.below(512) as u16,
            _ => dice.next() as u16,
        };
        let times = dice.below(20);
        let r = plain::row(s, number, step, network, times);
        let mut t = s;
        plain::row_at(&mut t, number, step, network, times);
        if r != proved::row(s, number, step, network, times) || r != t {
            return Err(wrong("decisions in a row", case));
        }
        kept.add(&[
            &[4],
            &s.to_bytes(),
            &number.to_le_bytes(),
            &step.to_le_bytes(),
            &[network],
            &times.to_le_bytes(),
            &r.to_bytes(),
        ]);
    }
    all_seen("one decision", &seen[0], &[0, 1, 2, 3])?;
    all_seen("one decision of a virtual link", &seen[1], &[0, 1, 2])?;
    for (w, seen) in WINDOWS.iter().zip(&of_window) {
        all_seen(&format!("one decision with L = {}", w), seen, &[0, 1, 2, 3])?;
    }
    Ok(2 * cases)
}
