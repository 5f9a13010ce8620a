//! A run: the frames that were sent and the calls of the receiver. What the page
//! promises of them, and whether the receiver does that.

use std::collections::HashSet;

use second::random::Random;
use second::{Refusal, Stream};

use crate::common::*;
use crate::prp::Prp;
use crate::receiver::Receiver;

/// The stream's destination. Another stream has it with another VLAN id.
pub const OWN: [u8; 6] = [2, 0, 0, 0, 0, 7];
pub const OTHER_VLAN: u16 = 6;

/// A frame as it was given to the sender, and its copies as they go out on
/// network 0 and on 1.
pub struct Sent {
    pub index: i64,
    pub bare: Vec<u8>,
    pub copies: [Vec<u8>; 2],
}

/// A call of the receiver.
#[derive(Clone, Copy, Debug)]
pub enum Call {
    /// The stream is opened; one that is open is reset, or closed and opened.
    Fresh,
    /// A copy of a frame comes on the card of a network.
    Copy(u8, usize),
    /// So does a frame that is none of the stream's, made from a copy.
    Other(u8, usize, Other),
    Tick,
}

#[derive(Clone, Copy, Debug)]
pub enum Other {
    /// As a faulty tap reflects it.
    Group,
    Cut,
    /// To the stream with the other VLAN id, with the same number.
    Elsewhere,
    /// On a PRP line: it has a tag in place of a trailer.
    Tagged,
    /// On a PRP line: this bit is another, so far from the end.
    Spoilt(usize, u8),
}

/// What a call did.
#[derive(Clone, Debug, PartialEq)]
pub enum Did {
    Up(Vec<u8>),
    Duplicate,
    Rogue,
    Refused(Refusal),
    /// It was no arrival of the stream.
    Apart,
}

/// The frames of a run and the calls of its receiver, in their order.
pub struct Run {
    /// What is printed where the run fails: the test, the seed and the setting.
    pub name: String,
    pub seed: u64,
    /// The line, where it is one with PRP.
    pub prp: Option<Prp>,
    pub vlan: u16,
    pub window: i64,
    pub time: i64,
    pub frames: Vec<Sent>,
    pub calls: Vec<Call>,
}

impl Run {
    /// The frame with a number, as the line has it for a network. It is put
    /// together from its parts.
    pub fn carried(&self, bare: &[u8], number: u16, network: u8) -> Vec<u8> {
        match self.prp {
            None => with_tag(bare, number),
            Some(prp) => with_trailer(bare, number, 0xA + network, prp.width()),
        }
    }

    /// The bytes that come on a card.
    fn comes(&self, card: u8, frame: usize, other: Option<Other>) -> Vec<u8> {
        let sent = &self.frames[frame];
        let number = number(sent.index);
        let network = self.prp.map_or(card, |prp| prp.network(card, frame));
        let copy = &sent.copies[usize::from(network)];
        match other {
            None => copy.clone(),
            Some(Other::Group) => from_source(3, copy),
            Some(Other::Cut) => {
                // One byte too few for a header and a tag, or a trailer.
                let width = self.prp.map_or(6, Prp::width);
                copy[..type_place(copy) + 2 + width - 1].to_vec()
            }
            Some(Other::Elsewhere) => {
                self.carried(&untagged_to(OWN, Some(OTHER_VLAN)), number, network)
            }
            Some(Other::Tagged) => tagged_to(OWN, Some(self.vlan), number),
            Some(Other::Spoilt(back, bit)) => {
                let mut spoilt = copy.clone();
                spoilt[copy.len() - back] ^= bit;
                spoilt
            }
        }
    }

    /// The network of an arrival and its tagged frame. On a PRP line the turn
    /// tells both, or refuses the frame, and then no arrival is called.
    fn arrives(&self, call: Call) -> Option<Result<(u8, Vec<u8>), Refusal>> {
        let (card, frame) = match call {
            Call::Fresh | Call::Tick => return None,
            Call::Copy(card, frame) => (card, self.comes(card, frame, None)),
            Call::Other(card, frame, other) => (card, self.comes(card, frame, Some(other))),
        };
        Some(match self.prp {
            None => Ok((card, frame)),
            Some(prp) => prp.turned_back(&frame),
        })
    }

    /// What each call does, with this L and R.
    fn does(&self, window: i64, time: i64, in_batches: bool) -> (Vec<Did>, Stream) {
        let random = &mut Random::new(self.seed);
        let mut receiver = Receiver::new(self, window, time);
        let mut did = Vec::new();
        while let Some(&call) = self.calls.get(did.len()) {
            match self.arrives(call) {
                Some(Err(why)) => did.push(Did::Refused(why)),
                Some(Ok((network, _))) if in_batches => {
                    let behind = self.calls[did.len()..].iter();
                    let frames: Vec<_> = behind
                        .map_while(|&call| self.arrives(call)?.ok())
                        .take_while(|&(on, _)| on == network)
                        .map(|(_, frame)| frame)
                        .collect();
                    did.extend(receiver.batches(network, &frames, random));
                }
                Some(Ok((network, frame))) => did.push(receiver.single(network, &frame)),
                None => {
                    match call {
                        Call::Fresh => receiver.make_fresh(),
                        _ => receiver.tick(),
                    }
                    did.push(Did::Apart);
                }
            }
        }
        (did, receiver.stream())
    }

    /// What a frame does that is none of the stream's.
    fn other_does(other: Other) -> Did {
        match other {
            Other::Group => Did::Refused(Refusal::GroupSource),
            Other::Cut => Did::Refused(Refusal::FrameShort),
            Other::Elsewhere => Did::Apart,
            Other::Tagged => Did::Refused(Refusal::AlreadyTagged),
            Other::Spoilt(..) => Did::Refused(Refusal::NoTrailer),
        }
    }

    /// What the page promises: each frame is handed up at its first copy since
    /// the stream was opened or reset by call, as it was given to the sender.
    pub fn once_each(&self) -> Vec<Did> {
        let mut came: Option<HashSet<usize>> = None;
        let does = |&call: &Call| match call {
            Call::Fresh => {
                came = Some(HashSet::new());
                Did::Apart
            }
            Call::Tick => Did::Apart,
            Call::Other(_, _, other) => Run::other_does(other),
            Call::Copy(_, frame) => match came.as_mut().map(|came| came.insert(frame)) {
                None => Did::Refused(Refusal::NoStream),
                Some(true) => Did::Up(self.frames[frame].bare.clone()),
                Some(false) => Did::Duplicate,
            },
        };
        self.calls.iter().map(does).collect()
    }

    /// What it promises in outages: each copy is judged by its index against
    /// the highest that was handed up since the last reset.
    pub fn by_index(&self) -> Vec<Did> {
        // The highest, those handed up, and the ticks left.
        let mut since: Option<(i64, HashSet<i64>, i64)> = None;
        let does = |&call: &Call| match call {
            Call::Fresh => {
                since = None;
                Did::Apart
            }
            Call::Tick => {
                if let Some((_, _, left)) = &mut since {
                    *left -= 1;
                    if *left == 0 {
                        since = None;
                    }
                }
                Did::Apart
            }
            Call::Other(_, _, other) => Run::other_does(other),
            Call::Copy(_, frame) => {
                let Sent { index, bare, .. } = &self.frames[frame];
                let none = || (*index, HashSet::new(), 0);
                let (highest, up, left) = since.get_or_insert_with(none);
                if (index - *highest).abs() >= self.window {
                    Did::Rogue
                } else if up.insert(*index) {
                    *highest = (*highest).max(*index);
                    *left = self.time;
                    Did::Up(bare.clone())
                } else {
                    Did::Duplicate
                }
            }
        };
        self.calls.iter().map(does).collect()
    }

    /// Where the receiver does not do what is expected of the calls that are
    /// asked for, if anywhere. Both ways of calling must agree in all.
    fn differs(
        &self,
        (window, time): (i64, i64),
        expected: &[Did],
        asked: impl Fn(Call) -> bool,
    ) -> (Option<String>, Stream) {
        let (did, stream) = self.does(window, time, false);
        let in_batches = self.does(window, time, true);
        assert!(in_batches.0 == did, "{}: batches differ", self.name);
        assert_eq!(in_batches.1, stream, "{}: batches differ", self.name);
        let wrong = |&at: &usize| did[at] != expected[at] && asked(self.calls[at]);
        let differs = (0..did.len()).find(wrong).map(|at| {
            let (call, did, expected) = (self.calls[at], &did[at], &expected[at]);
            format!("call {at} {call:?}: {did:?}, expected {expected:?}")
        });
        (differs, stream)
    }

    /// The receiver does what is expected. Answers its record at the end.
    pub fn does_as(&self, expected: &[Did], asked: impl Fn(Call) -> bool) -> Stream {
        let (differs, stream) = self.differs((self.window, self.time), expected, asked);
        if let Some(differs) = differs {
            panic!("{}: {differs}", self.name);
        }
        stream
    }

    /// Does it not hand up each frame once with these?
    pub fn goes_wrong(&self, window: i64, time: i64) -> bool {
        let (differs, _) = self.differs((window, time), &self.once_each(), |_| true);
        differs.is_some()
    }

    /// With this L and R, this becomes of a frame's copies.
    pub fn becomes(&self, frame: usize, window: i64, time: i64, expected: &[Did]) {
        let of = |(call, did): (&Call, Did)| match *call {
            Call::Copy(_, copy) if copy == frame => Some(did),
            _ => None,
        };
        for in_batches in [false, true] {
            let (did, _) = self.does(window, time, in_batches);
            let did: Vec<Did> = self.calls.iter().zip(did).filter_map(of).collect();
            assert_eq!(did, expected, "{}: L {window}, R {time}", self.name);
        }
    }
}

/// Runs that met too little show nothing.
pub fn enough<const N: usize>(met: [u64; N], least: [u64; N]) {
    let all = met.iter().zip(least).all(|(&met, least)| met >= least);
    assert!(all, "{met:?}");
}
