//! PRP lines: order 7 of document 02, and "PRP lines" in docs/INTEGRATION.md.
//! Each copy is turned to PRP for the network that it goes out on. Where it
//! comes it is turned back, and its LAN says which network it is of, not the
//! card.

use second::random::Random;
use second::{from_prp, to_prp, Refusal, Stream};

use crate::common::*;
use crate::run::{Call, Other, Run};

/// What the frames of the lines have their numbers in.
#[derive(Clone, Copy)]
pub enum Lines {
    Tags,
    Prp,
}

/// A PRP line.
#[derive(Clone, Copy, Debug)]
pub struct Prp {
    /// The kind of trailer: 0 is the first edition's, any other that of 2012.
    pub setting: u8,
    pub cables: Cables,
}

#[derive(Clone, Copy, Debug)]
pub enum Cables {
    Straight,
    /// A copy for one network comes on the card of the other.
    Crossed,
    /// The LANs are joined: every other frame comes so.
    Joined,
}

impl Prp {
    fn any(random: &mut Random) -> Prp {
        Prp {
            setting: random.pick(&[0, 0, 1, 2]),
            cables: random.pick(&[Cables::Straight, Cables::Crossed, Cables::Joined]),
        }
    }

    /// Bytes of a trailer.
    pub fn width(self) -> usize {
        match self.setting {
            0 => 4,
            _ => 6,
        }
    }

    /// The network for which the copy went out that comes on this card.
    pub fn network(self, card: u8, frame: usize) -> u8 {
        match self.cables {
            Cables::Straight => card,
            Cables::Crossed => 1 - card,
            Cables::Joined => card ^ (frame % 2) as u8,
        }
    }

    /// What the sending host makes of a copy for a network.
    fn turned(self, tagged: &[u8], network: u8) -> Result<Vec<u8>, Refusal> {
        let mut line = vec![FILL; Stream::MAX_FRAME];
        let turned = to_prp(tagged, network, self.setting, &mut line)?;
        line.truncate(turned.length);
        Ok(line)
    }

    /// What the receiving host makes of a frame: its network and the tagged
    /// frame.
    pub fn turned_back(self, line: &[u8]) -> Result<(u8, Vec<u8>), Refusal> {
        let mut tagged = vec![FILL; Stream::MAX_FRAME];
        let turned = from_prp(line, self.setting, &mut tagged)?;
        tagged.truncate(turned.length);
        Ok((turned.network, tagged))
    }

    /// A frame that is none of the stream's.
    fn any_other(self, random: &mut Random) -> Other {
        // In LAN, in size or in 88FB. Not LAN's lowest bit: that would make it
        // the other network's copy.
        let back = random.between(1, self.width() as i64 - 2) as usize;
        let spoilt = Other::Spoilt(back, random.pick(&[0x01, 0x40]));
        random.pick(&[
            Other::Group,
            Other::Cut,
            Other::Elsewhere,
            Other::Tagged,
            spoilt,
            spoilt,
        ])
    }
}

impl Run {
    /// The same run over such lines.
    pub fn over(self, lines: Lines) -> Run {
        match lines {
            Lines::Tags => self,
            Lines::Prp => self.over_prp(),
        }
    }

    /// The kind of trailer and the cables go by the seed, and so do the frames
    /// that are none of the stream's.
    fn over_prp(mut self) -> Run {
        let random = &mut Random::new(!self.seed);
        let prp = Prp::any(random);
        self.prp = Some(prp);
        self.name = format!("{}, {prp:?}", self.name);
        for frame in 0..self.frames.len() {
            let sent = &self.frames[frame];
            let copies = [0, 1].map(|network| {
                let copy = prp.turned(&sent.copies[usize::from(network)], network);
                // A slip that both turns have cancels out. So the line itself is
                // held to order 7.
                let right = self.carried(&sent.bare, number(sent.index), network);
                assert_eq!(copy, Ok(right), "{}: frame {frame}", self.name);
                copy.unwrap()
            });
            self.frames[frame].copies = copies;
        }
        for call in &mut self.calls {
            if let Call::Other(_, _, other) = call {
                *other = prp.any_other(random);
            }
        }
        self
    }
}
