//! The receiver of a run: the calls that its host makes, one by one or in batches.

use second::random::Random;
use second::{arrival, batch, close, open, reset, tick};
use second::{Arrival, Refusal, Settings, Stream, Verdict};

use crate::common::*;
use crate::run::{Did, Run, OTHER_VLAN, OWN};

/// The stream in a table with another one and a closed one with its key.
pub struct Receiver<'a> {
    run: &'a Run,
    table: Vec<Stream>,
    /// Beside the table, made once and then kept by the calls.
    index: [u8; 128],
    own: Option<usize>,
    settings: Settings,
    output: Vec<u8>,
}

impl Receiver<'_> {
    pub fn new(run: &Run, window: i64, time: i64) -> Receiver<'_> {
        let other = Stream {
            destination: OWN,
            vlan: OTHER_VLAN,
            ..fresh(Stream::VECTOR, 512, 3)
        };
        let closed = Stream {
            in_use: 0,
            destination: OWN,
            vlan: run.vlan,
            ..running(Stream::VECTOR, 8, 9, 65535, 0xFF)
        };
        let table = vec![other, closed, Stream::FREE];
        Receiver {
            run,
            index: index_of(&table),
            table,
            own: None,
            settings: Settings {
                destination: OWN,
                vlan: run.vlan,
                ..settings(Stream::VECTOR, window as u16, time as u16)
            },
            // What the page asks of a batch's output.
            output: vec![FILL; Stream::MAX_BATCH * (2 + Stream::MAX_UNTAGGED)],
        }
    }

    /// The stream's record. It was opened.
    pub fn stream(&self) -> Stream {
        self.table[self.own.unwrap()]
    }

    /// The answer of a call that is not refused.
    fn taken<T>(&self, answer: Result<T, Refusal>) -> T {
        answer.unwrap_or_else(|why| panic!("{}: {why:?}", self.run.name))
    }

    pub fn make_fresh(&mut self) {
        if let Some(slot) = self.own {
            if self.run.seed % 2 == 0 {
                let answer = reset(&mut self.table, slot);
                return self.taken(answer);
            }
            let answer = close(&mut self.table, &mut self.index, slot);
            self.taken(answer);
        }
        let answer = open(&mut self.table, &mut self.index, self.settings);
        self.own = Some(self.taken(answer));
    }

    pub fn tick(&mut self) {
        let answer = tick(&mut self.table);
        let damaged = self.taken(answer).damaged;
        assert_eq!(damaged, 0, "{}: damaged", self.run.name);
    }

    /// What an arrival did. It wrote this if it handed a frame up.
    fn did(&self, answer: Result<Arrival, Refusal>, written: &[u8]) -> Did {
        match answer {
            Err(why) => Did::Refused(why),
            Ok(arrival) if Some(arrival.slot) != self.own => Did::Apart,
            Ok(arrival) => match arrival.verdict {
                Verdict::HandedUp { length } => Did::Up(written[..length].to_vec()),
                Verdict::Duplicate => Did::Duplicate,
                Verdict::Rogue => Did::Rogue,
            },
        }
    }

    pub fn single(&mut self, network: u8, frame: &[u8]) -> Did {
        let answer = arrival(&mut self.table, network, frame, &mut self.output);
        self.did(answer, &self.output)
    }

    /// Frames of one network in batches. Where one lacks room the next call
    /// begins with it.
    pub fn batches(&mut self, network: u8, frames: &[Vec<u8>], random: &mut Random) -> Vec<Did> {
        let mut did = Vec::new();
        while did.len() < frames.len() {
            let left = &frames[did.len()..];
            let count = left.len().min(random.pick(&[1, 2, 5, 32, 32]));
            // With 1996 bytes each call gets on.
            let room = random.pick(&[1996, 2050, self.output.len()]);
            let input = packed(&left[..count]);
            let output = &mut self.output[..room];
            let done = batch(&mut self.table, &self.index, network, count, &input, output);
            let done = self.taken(done);
            assert!(done.frames > 0, "{}: no room", self.run.name);
            let mut from = 0;
            for answer in &done.answers[..done.frames] {
                let answer = answer.unwrap();
                let mut written = &[][..];
                if let Ok(Arrival {
                    verdict: Verdict::HandedUp { .. },
                    ..
                }) = answer
                {
                    // The length is read where the frame stands.
                    let length = [self.output[from], self.output[from + 1]];
                    let length = usize::from(u16::from_be_bytes(length));
                    written = &self.output[from + 2..][..length];
                    from += 2 + length;
                }
                did.push(self.did(answer, written));
            }
            if done.frames < count {
                let answer = done.answers[done.frames];
                let no_room = Some(Err(Refusal::OutputTooSmall));
                assert_eq!(answer, no_room, "{}", self.run.name);
            }
        }
        did
    }
}
