//! Makes a run: frames are given to the sender, and the networks and the ticks
//! say when the receiver is called.

use second::random::Random;
use second::{Sender, Stream};

use crate::common::*;
use crate::line::{Line, ROUND};
use crate::run::{Call, Other, Run, Sent, OWN};

/// Makes a run.
pub struct Maker<'a> {
    name: &'a str,
    seed: u64,
    pub random: &'a mut Random,
    line: Line,
    vlan: u16,
    sender: Sender,
    /// The index of the next frame.
    pub next: i64,
    /// The times at which the frames were sent.
    pub times: Vec<i64>,
    pub frames: Vec<Sent>,
    /// Each with its time; those of one time in the order of what stands behind.
    pub calls: Vec<(i64, u64, Call)>,
}

impl<'a> Maker<'a> {
    /// The first frame's number is that of this index.
    pub fn new(
        name: &'a str,
        seed: u64,
        random: &'a mut Random,
        line: Line,
        first: i64,
    ) -> Maker<'a> {
        Maker {
            name,
            seed,
            line,
            vlan: random.pick(&[0, 5]),
            random,
            sender: Sender {
                next: number(first),
            },
            next: first,
            times: Vec::new(),
            frames: Vec::new(),
            calls: Vec::new(),
        }
    }

    /// A frame for the sender. Nearly all differ.
    fn frame(&mut self) -> Vec<u8> {
        let random = &mut *self.random;
        let mut frame = [OWN, SOURCE].concat();
        let vlan_tag = self.vlan != 0 || random.chance(1, 4);
        if vlan_tag {
            frame.extend([0x81, 0x00]);
            frame.extend((self.vlan | (random.word() & 0xF000)).to_be_bytes());
        }
        let types = [[0x08, 0x00], [0x88, 0xB5], [0x00, 0x2E], [0x81, 0x00]];
        // Without a VLAN tag 8100 would be one.
        frame.extend(random.pick(&types[..3 + usize::from(vlan_tag)]));
        let length = match random.below(64) {
            0 => Stream::MAX_UNTAGGED,
            1 => frame.len(),
            _ => frame.len() + random.below(30) as usize,
        };
        let mark = random.pick(&[[0xF1, 0xC1, 0, 0, 0, 7], [0; 6], [0x33; 6]]);
        frame.extend(random.bits().to_be_bytes());
        frame.extend(mark);
        frame.resize(length, 0x44);
        frame
    }

    /// A frame that the sender refuses: it uses up no number.
    fn refused(&mut self) {
        let frame = self.frame();
        let mut rooms = [[0; 2100]; 2];
        let [first, second] = &mut rooms;
        let answer = match self.random.below(4) {
            0 => self.sender.send(&with_tag(&frame, 9), first, second),
            1 => self.sender.send(&from_source(3, &frame), first, second),
            2 => self
                .sender
                .send(&frame, &mut first[..frame.len() + 5], second),
            _ => self
                .sender
                .send(&frame, first, &mut second[..frame.len() + 5]),
        };
        assert!(answer.is_err(), "{}, seed {}", self.name, self.seed);
    }

    /// Sends a frame at this time. Answers its place among the frames.
    pub fn send(&mut self, time: i64) -> usize {
        if self.random.chance(1, 16) {
            self.refused();
        }
        let bare = self.frame();
        let mut copies = [0; 2].map(|_| {
            let more = self.random.pick(&[0, 9]);
            vec![FILL; bare.len() + 6 + more]
        });
        let [first, second] = &mut copies;
        let sent = self.sender.send(&bare, first, second);
        let sent = sent.unwrap_or_else(|why| panic!("{}, seed {}: {why:?}", self.name, self.seed));
        copies
            .iter_mut()
            .for_each(|copy| copy.truncate(sent.length));
        self.times.push(time);
        self.frames.push(Sent {
            index: self.next,
            bare,
            copies,
        });
        self.next += 1;
        self.frames.len() - 1
    }

    /// So many frames are sent and lost on both networks. Nobody sees their
    /// bytes, so they are not made.
    pub fn skip(&mut self, count: i64) {
        self.next += count;
        self.sender.next = number(self.next);
    }

    /// The count begins anew.
    pub fn restart(&mut self) {
        self.sender.reset();
        self.next = 0;
    }

    /// A call behind all that were put to this time before.
    pub fn at(&mut self, time: i64, call: Call) {
        let order = 1 << 40 | self.calls.len() as u64;
        self.calls.push((time, order, call));
    }

    /// A copy with the smallest delay.
    pub fn fast(&mut self, frame: usize) {
        let (network, delay) = self.line.fast();
        self.at(self.times[frame] + delay, Call::Copy(network, frame));
    }

    /// A copy with the largest delay.
    pub fn slow(&mut self, frame: usize) {
        let (network, delay) = self.line.slow();
        self.at(self.times[frame] + delay, Call::Copy(network, frame));
    }

    /// Ticks from this time on, until no copy can come any more.
    pub fn ticks(&mut self, from: i64) {
        let (least, most) = self.line.ticks;
        let end = self.times.last().unwrap() + self.line.slow().1 + 1;
        let mut time = from - self.random.between(0, most);
        let ties = self.random.below(3);
        while time <= end {
            let order = match ties {
                0 => 0,
                1 => u64::MAX,
                _ => self.random.below(1 << 32),
            };
            self.calls.push((time, order, Call::Tick));
            time += match self.random.below(3) {
                0 => self.random.between(least, most),
                1 => most,
                _ => least,
            };
        }
    }

    /// What the networks make of these frames: rows of up to so many are lost
    /// on both, between two that come; any row may be lost in front.
    pub fn networks(&mut self, from: usize, losses: i64) {
        let line = self.line;
        let random = &mut *self.random;
        let mut row = random.pick(&[0, 0, 0, 1, losses + 1, 3 * losses + 9]);
        // Once in so many frames the networks change their ways.
        let stays = random.pick(&[1, 3, line.behind() as u64 + 1, 1000]);
        let (mut on, mut ways) = ([1; 2], 0);
        // Frames since the last row that was lost.
        let mut since = 0;
        let ties = random.below(3);
        for frame in from..self.frames.len() {
            if row > 0 {
                (row, since) = (row - 1, 0);
                continue;
            }
            since += 1;
            if random.chance(1, 5) {
                let any = random.between(0, losses);
                row = random.pick(&[losses, any]);
            }
            if random.chance(1, stays) {
                on = random.pick(&[[1, 1], [1, 1], [1, 0], [0, 1], [1, 2], [3, 1]]);
                ways = random.below(5);
            }
            let mut some = on;
            if random.chance(1, 4) {
                some[random.below(2) as usize] = 0;
            }
            if some == [0; 2] {
                some = on;
            }
            for network in 0..2 {
                let (least, most) = line.delays[network as usize];
                for _ in 0..some[network as usize] {
                    let delay = match (ways, random.below(8)) {
                        (_, 0) | (3, _) => random.between(least, most),
                        (0, _) => least,
                        (1, _) => most,
                        (2, _) => random.pick(&[least, most]),
                        // The worst: those behind a row are overtaken.
                        _ if since <= line.behind() => most,
                        _ => least,
                    };
                    let order = match ties {
                        0 => frame as u64,
                        1 => (1 << 32) - frame as u64,
                        _ => random.below(1 << 32),
                    };
                    let time = self.times[frame] + delay;
                    let copy = Call::Copy(network, frame);
                    self.calls.push((time, order, copy));
                    if random.chance(1, 16) {
                        let other = random.pick(&[Other::Group, Other::Cut, Other::Elsewhere]);
                        let other = Call::Other(network, frame, other);
                        self.calls.push((time, random.below(1 << 32), other));
                    }
                }
            }
        }
    }

    /// The run, with this L and R.
    pub fn run(mut self, window: i64, time: i64) -> Run {
        let (name, seed, line) = (self.name, self.seed, self.line);
        self.calls.sort_by_key(|&(time, order, _)| (time, order));
        Run {
            name: format!("{name}, seed {seed}, {line:?}, L {window}, R {time}"),
            seed,
            prp: None,
            vlan: self.vlan,
            window,
            time,
            frames: self.frames,
            calls: self.calls.into_iter().map(|(_, _, call)| call).collect(),
        }
    }
}

/// Near the wrap, at first, or anywhere.
pub fn any_first(random: &mut Random) -> i64 {
    match random.below(4) {
        0 => random.between(0, 2),
        1 => ROUND - random.between(0, 3),
        2 => ROUND - random.between(0, 200),
        _ => random.between(0, ROUND - 1),
    }
}
