//! The product and the second program behind one trait, so that both can be given the same calls.
//!
//! The product is called through the crate `nippitsun`, and so through the compiled archive. Records are compared in its
//! form, field by field.

#![forbid(unsafe_code)]

pub mod cases;

use nippitsun::archive::{self, ArrivalAnswer, BatchAnswer, PrpAnswer, SlotAnswer, PLACES};
use nippitsun::{tag, Counts, Receiver, Sender, State, Stream};
use second::Verdict;

pub use nippitsun::Settings;

/// One call. The outputs, the table, its index and the sender stand beside it.
#[derive(Clone, Copy, Debug)]
pub enum Call<'a> {
    Arrival {
        network: u8,
        frame: &'a [u8],
    },
    /// Of a virtual link's frame.
    LinkArrival {
        network: u8,
        frame: &'a [u8],
    },
    Open(Settings),
    Close(usize),
    Reset(usize),
    Tick,
    TakeTag {
        frame: &'a [u8],
    },
    WriteTag {
        frame: &'a [u8],
        number: u16,
    },
    Batch {
        network: u8,
        count: usize,
        frames: &'a [u8],
    },
    Send {
        frame: &'a [u8],
    },
    ResetSender,
    /// The kind is the line's setting.
    FromPrp {
        frame: &'a [u8],
        kind: u8,
    },
    ToPrp {
        frame: &'a [u8],
        network: u8,
        kind: u8,
    },
    /// Makes the index anew.
    Rebuild,
}

impl Call<'_> {
    /// Does the call take the index too?
    pub fn takes_index(&self) -> bool {
        matches!(
            self,
            Call::Open(_) | Call::Close(_) | Call::Batch { .. } | Call::Rebuild
        )
    }
}

/// What an arrival's answer tells of a VLAN tag, as the archive has it.
#[derive(Clone, Copy, Debug, PartialEq, Eq)]
pub struct VlanTag {
    pub priority: u8,
    /// 1, or 0 for none.
    pub there: u8,
}

impl VlanTag {
    pub const NONE: VlanTag = VlanTag {
        priority: 0,
        there: 0,
    };
}

/// What a call answers, in one form for both sides.
#[derive(Clone, Debug, PartialEq, Eq)]
pub enum Answer {
    /// The number, and nothing beside it.
    Refused(u8),
    HandedUp {
        slot: usize,
        number: u16,
        length: usize,
        vlan: VlanTag,
    },
    Duplicate {
        slot: usize,
        number: u16,
        vlan: VlanTag,
    },
    Rogue {
        slot: usize,
        number: u16,
        vlan: VlanTag,
    },
    Opened(usize),
    Done,
    Ticked {
        resets: u64,
        damaged: u64,
    },
    Tag {
        number: u16,
        length: usize,
    },
    /// Field by field as the archive has it, marks and all.
    Batch(Box<BatchAnswer>),
    /// The same.
    Prp(PrpAnswer),
    /// What no arrival may answer, in words. The second program has none of these.
    Strange(String),
}

impl From<second::Arrival> for Answer {
    fn from(a: second::Arrival) -> Answer {
        let (slot, number) = (a.slot, a.number);
        let vlan = VlanTag {
            priority: a.priority,
            there: a.vlan_tag.into(),
        };
        match a.verdict {
            Verdict::HandedUp { length } => Answer::HandedUp {
                slot,
                number,
                length,
                vlan,
            },
            Verdict::Duplicate => Answer::Duplicate { slot, number, vlan },
            Verdict::Rogue => Answer::Rogue { slot, number, vlan },
        }
    }
}

impl Answer {
    /// Of an arrival. A refusal that has more than its number is strange, and so are other verdicts than the three, a length where
    /// nothing was handed up, and a priority above 7.
    fn of_arrival(told: ArrivalAnswer) -> Answer {
        let (slot, number, length, refusal) = (told.slot, told.number, told.length, told.refusal);
        let vlan = VlanTag {
            priority: told.priority,
            there: told.vlantag,
        };
        let alone = ArrivalAnswer {
            refusal,
            ..ArrivalAnswer::default()
        };
        match (told.verdict, refusal, length) {
            _ if vlan.priority > 7 => Answer::Strange(format!("{:?}", told)),
            (0, 1.., _) if told == alone => Answer::Refused(refusal),
            (archive::HANDED_UP, 0, _) => Answer::HandedUp {
                slot,
                number,
                length,
                vlan,
            },
            (archive::DUPLICATE, 0, 0) => Answer::Duplicate { slot, number, vlan },
            (archive::ROGUE, 0, 0) => Answer::Rogue { slot, number, vlan },
            _ => Answer::Strange(format!("{:?}", told)),
        }
    }

    /// The answer to one frame of a batch; none, where it was not reached and all is 0.
    pub fn of_frame(told: &ArrivalAnswer) -> Option<Answer> {
        (*told != ArrivalAnswer::default()).then(|| Answer::of_arrival(*told))
    }

    /// A refused open that has a slot is no refusal here, so that it differs from one.
    fn of_open(told: SlotAnswer) -> Answer {
        match told {
            SlotAnswer {
                slot: 0,
                refusal: n @ 1..,
            } => Answer::Refused(n),
            SlotAnswer { slot, .. } => Answer::Opened(slot),
        }
    }

    /// Of a call that answers its refusal alone.
    fn of_refusal(refusal: u8) -> Answer {
        match refusal {
            0 => Answer::Done,
            n => Answer::Refused(n),
        }
    }

    /// A refused batch that has more than its number is no refusal here, so that it differs from one.
    fn of_batch(told: BatchAnswer) -> Answer {
        let refusal = told.refusal;
        let alone = BatchAnswer {
            refusal,
            ..BatchAnswer::default()
        };
        if refusal != 0 && told == alone {
            Answer::Refused(refusal)
        } else {
            Answer::Batch(Box::new(told))
        }
    }

    /// The same of a turn from PRP or to PRP.
    fn of_prp(told: PrpAnswer) -> Answer {
        let refusal = told.refusal;
        let alone = PrpAnswer {
            refusal,
            ..PrpAnswer::default()
        };
        if refusal != 0 && told == alone {
            Answer::Refused(refusal)
        } else {
            Answer::Prp(told)
        }
    }
}

/// One of the two programs, with a table, its index and a sender.
pub trait Side {
    /// A table with these records, the index that a rebuild makes of it, and a sender at first. A table of more than 64 slots has
    /// an index of zeros.
    fn new(records: &[Stream]) -> Self;
    /// Writes to a slot, as the owner of a table may.
    fn set(&mut self, slot: usize, record: Stream);
    /// The record in a slot of the table.
    fn record(&self, slot: usize) -> Stream;
    /// Lends another index from now on, of any length.
    fn set_index(&mut self, index: &[u8]);
    /// The index beside the table.
    fn index(&self) -> &[u8];
    /// Writes the sender's next number, as its owner may.
    fn set_next(&mut self, next: u16);
    /// The sender's next number.
    fn next(&self) -> u16;
    /// Makes the call. Only a send has the second output.
    fn call(&mut self, call: Call, outs: [&mut [u8]; 2]) -> Answer;
}

/// The compiled product. A receiver lends no index but its own, so the calls that take one are the archive's.
pub struct Product {
    receiver: Receiver,
    index: Vec<u8>,
    sender: Sender,
}

/// The two forms of an arrival: the archive's own call, and the receiver's.
type ByArchive = fn(&mut [Stream], u8, &[u8], &mut [u8]) -> ArrivalAnswer;
type ByReceiver =
    fn(&mut Receiver, u8, &[u8], &mut [u8]) -> Result<nippitsun::Arrival, nippitsun::Refusal>;

impl Product {
    /// The whole table.
    pub fn records(&self) -> &[Stream] {
        self.receiver.records()
    }

    /// An arrival by the archive's own call, which tells every field. The receiver's must say and do the same: it has a copy.
    fn arrived(
        &mut self,
        (by_archive, by_receiver): (ByArchive, ByReceiver),
        network: u8,
        frame: &[u8],
        out: &mut [u8],
    ) -> Answer {
        let (mut copy, mut other_out) = (self.receiver.clone(), out.to_vec());
        let told = by_archive(self.receiver.records_mut(), network, frame, out);
        let answer = Answer::of_arrival(told);
        // The receiver panics at an answer that is none.
        if let Answer::Strange(_) = answer {
            return answer;
        }
        let said = by_receiver(&mut copy, network, frame, &mut other_out);
        if by_crate(said) != told || copy != self.receiver || other_out != out {
            let (records, others) = (self.records(), copy.records());
            let slot = (0..records.len()).find(|&slot| records[slot] != others[slot]);
            let what = format!("the archive {:?}, the receiver {:?}", told, said);
            return Answer::Strange(format!("{}, slot {:?} or the output", what, slot));
        }
        answer
    }
}

/// What a receiver says of an arrival, as the archive has it.
fn by_crate(said: Result<nippitsun::Arrival, nippitsun::Refusal>) -> ArrivalAnswer {
    let mut told = ArrivalAnswer::default();
    match said {
        Ok(a) => {
            told.slot = a.slot;
            told.number = a.number;
            (told.verdict, told.length) = match a.verdict {
                nippitsun::Verdict::HandedUp { length } => (archive::HANDED_UP, length),
                nippitsun::Verdict::Duplicate => (archive::DUPLICATE, 0),
                nippitsun::Verdict::Rogue => (archive::ROGUE, 0),
            };
            if let Some(priority) = a.priority {
                (told.priority, told.vlantag) = (priority.get(), 1);
            }
        }
        Err(why) => told.refusal = why.number(),
    }
    told
}

impl Side for Product {
    fn new(records: &[Stream]) -> Product {
        let mut index = vec![0; PLACES];
        archive::rebuild(records, &mut index);
        Product {
            receiver: Receiver::from_records(records.to_vec()),
            index,
            sender: Sender::new(),
        }
    }

    fn set(&mut self, slot: usize, record: Stream) {
        self.receiver.records_mut()[slot] = record;
    }

    fn record(&self, slot: usize) -> Stream {
        self.receiver.records()[slot]
    }

    fn set_index(&mut self, index: &[u8]) {
        self.index = index.to_vec();
    }

    fn index(&self) -> &[u8] {
        &self.index
    }

    fn set_next(&mut self, next: u16) {
        self.sender.next = next;
    }

    fn next(&self) -> u16 {
        self.sender.next
    }

    fn call(&mut self, call: Call, [out, second_out]: [&mut [u8]; 2]) -> Answer {
        let (r, index) = (&mut self.receiver, &mut self.index);
        let answer = match call {
            Call::Arrival { network, frame } => {
                let by: (ByArchive, ByReceiver) = (archive::arrival, Receiver::arrival);
                Ok(self.arrived(by, network, frame, out))
            }
            Call::LinkArrival { network, frame } => {
                let by: (ByArchive, ByReceiver) = (archive::link_arrival, Receiver::link_arrival);
                Ok(self.arrived(by, network, frame, out))
            }
            Call::Open(s) => Ok(Answer::of_open(archive::open(
                r.records_mut(),
                index,
                &s.destination,
                s.vlan,
                s.rule,
                s.window,
                s.time,
            ))),
            Call::Close(slot) => {
                let refusal = archive::close(r.records_mut(), index, slot);
                Ok(Answer::of_refusal(refusal))
            }
            Call::Rebuild => Ok(Answer::of_refusal(archive::rebuild(r.records(), index))),
            Call::Reset(slot) => r.reset(slot).map(|()| Answer::Done),
            Call::Tick => r.tick().map(|t| Answer::Ticked {
                resets: t.resets,
                damaged: t.damaged,
            }),
            Call::TakeTag { frame } => tag::take(frame, out).map(|t| Answer::Tag {
                number: t.number,
                length: t.length,
            }),
            Call::WriteTag { frame, number } => {
                tag::put(frame, number, out).map(|length| Answer::Tag { number, length })
            }
            // A receiver's own answer leaves the marks out, too.
            Call::Batch {
                network,
                count,
                frames,
            } => {
                let told = archive::batch(r.records_mut(), index, network, count, frames, out);
                Ok(Answer::of_batch(told))
            }
            Call::Send { frame } => {
                self.sender
                    .send(frame, out, second_out)
                    .map(|sent| Answer::Tag {
                        number: sent.number,
                        length: sent.length,
                    })
            }
            Call::ResetSender => {
                self.sender.reset();
                Ok(Answer::Done)
            }
            Call::FromPrp { frame, kind } => {
                Ok(Answer::of_prp(archive::from_prp(frame, kind, out)))
            }
            Call::ToPrp {
                frame,
                network,
                kind,
            } => Ok(Answer::of_prp(archive::to_prp(frame, network, kind, out))),
        };
        answer.unwrap_or_else(|why| Answer::Refused(why.number()))
    }
}

/// The second program. Its record has no room for a destination of more than six bytes. Such a record has a stand-in here: a
/// destination that no call may name, with the same own place in an index. The real one is kept beside it.
pub struct Second {
    table: Vec<second::Stream>,
    index: Vec<u8>,
    real: Vec<u64>,
    /// The real keys, each with what stands in for its destination.
    stand_ins: Vec<((u64, u16), [u8; 6])>,
    sender: second::Sender,
}

/// What stands in for a destination of more than six bytes begins so. No other destination may.
pub const NOBODY: [u8; 2] = [0xFF; 2];

impl Second {
    /// The stand-in of a key. A key keeps it, and no two have one.
    fn stand_in(&mut self, dest: u64, vlan: u16) -> [u8; 6] {
        let known = &self.stand_ins;
        if let Some(&(_, six)) = known.iter().find(|(key, _)| *key == (dest, vlan)) {
            return six;
        }
        let own = (second::mixed(dest, vlan) >> 25) as usize;
        let six = (0..=u32::MAX)
            .map(|n| {
                let [a, b, c, d] = n.to_be_bytes();
                [NOBODY[0], NOBODY[1], a, b, c, d]
            })
            .filter(|&six| second::own_place(six, vlan) == own)
            .find(|six| !known.iter().any(|(_, other)| other == six))
            .expect("a table has few keys");
        self.stand_ins.push(((dest, vlan), six));
        six
    }
}

/// What the second program answers to one frame of a batch, as the archive has it. The mark is all zeros.
fn plain(answer: Option<Result<second::Arrival, second::Refusal>>) -> ArrivalAnswer {
    let mut told = ArrivalAnswer::default();
    match answer {
        Some(Ok(a)) => {
            told.slot = a.slot;
            told.number = a.number;
            (told.verdict, told.length) = match a.verdict {
                Verdict::HandedUp { length } => (archive::HANDED_UP, length),
                Verdict::Duplicate => (archive::DUPLICATE, 0),
                Verdict::Rogue => (archive::ROGUE, 0),
            };
            (told.priority, told.vlantag) = (a.priority, a.vlan_tag.into());
        }
        Some(Err(why)) => told.refusal = why.number(),
        None => {}
    }
    told
}

/// The same of a turn from PRP or to PRP.
fn turned(answer: second::Turned) -> Answer {
    Answer::Prp(PrpAnswer {
        length: answer.length,
        number: answer.number,
        network: answer.network,
        refusal: 0,
    })
}

impl Side for Second {
    fn new(records: &[Stream]) -> Second {
        let mut side = Second {
            table: vec![second::Stream::FREE; records.len()],
            index: vec![0; PLACES],
            real: vec![0; records.len()],
            stand_ins: Vec::new(),
            sender: second::Sender::default(),
        };
        for (slot, &record) in records.iter().enumerate() {
            side.set(slot, record);
        }
        // Refused with 1, it leaves the zeros.
        let _ = second::rebuild(&side.table, &mut side.index);
        side
    }

    fn set(&mut self, slot: usize, s: Stream) {
        let [_, _, destination @ ..] = s.dest.to_be_bytes();
        let destination = if s.dest >> 48 == 0 {
            destination
        } else {
            self.stand_in(s.dest, s.vlan)
        };
        self.real[slot] = s.dest;
        self.table[slot] = second::Stream {
            in_use: s.used,
            destination,
            vlan: s.vlan,
            rule: s.rule,
            window: s.window,
            reset_time: s.time,
            anchor: s.state.anchor,
            history: s.state.history,
            take_any: s.state.any,
            remaining: s.state.remaining,
            early: s.state.early,
            arrivals: [s.counts.arrivals0, s.counts.arrivals1],
            passed: s.counts.passed,
            discarded: s.counts.discarded,
            rogue: s.counts.rogue,
            out_of_order: s.counts.disorder,
            lost: s.counts.lost,
            resets: s.counts.resets,
        };
    }

    fn record(&self, slot: usize) -> Stream {
        let s = &self.table[slot];
        Stream {
            dest: if s.destination[..2] == NOBODY {
                self.real[slot]
            } else {
                nippitsun::dest_of(s.destination)
            },
            vlan: s.vlan,
            window: s.window,
            time: s.reset_time,
            rule: s.rule,
            used: s.in_use,
            state: State {
                history: s.history,
                anchor: s.anchor,
                remaining: s.remaining,
                early: s.early,
                any: s.take_any,
            },
            counts: Counts {
                arrivals0: s.arrivals[0],
                arrivals1: s.arrivals[1],
                passed: s.passed,
                discarded: s.discarded,
                rogue: s.rogue,
                disorder: s.out_of_order,
                lost: s.lost,
                resets: s.resets,
            },
        }
    }

    fn set_index(&mut self, index: &[u8]) {
        self.index = index.to_vec();
    }

    fn index(&self) -> &[u8] {
        &self.index
    }

    fn set_next(&mut self, next: u16) {
        self.sender.next = next;
    }

    fn next(&self) -> u16 {
        self.sender.next
    }

    fn call(&mut self, call: Call, [out, second_out]: [&mut [u8]; 2]) -> Answer {
        let (table, index) = (&mut self.table, &mut self.index);
        let answer = match call {
            Call::Arrival { network, frame } => {
                second::arrival(table, network, frame, out).map(Answer::from)
            }
            Call::LinkArrival { network, frame } => {
                second::link_arrival(table, network, frame, out).map(Answer::from)
            }
            Call::Open(s) => second::open(
                table,
                index,
                second::Settings {
                    destination: s.destination,
                    vlan: s.vlan,
                    rule: s.rule,
                    window: s.window,
                    reset_time: s.time,
                },
            )
            .map(Answer::Opened),
            Call::Close(slot) => second::close(table, index, slot).map(|()| Answer::Done),
            Call::Rebuild => second::rebuild(table, index).map(|()| Answer::Done),
            Call::Reset(slot) => second::reset(table, slot).map(|()| Answer::Done),
            Call::Tick => second::tick(table).map(|t| Answer::Ticked {
                resets: t.reset as u64,
                damaged: t.damaged as u64,
            }),
            Call::TakeTag { frame } => second::take_tag(frame, out).map(|t| Answer::Tag {
                number: t.number,
                length: t.length,
            }),
            Call::WriteTag { frame, number } => {
                second::write_tag(frame, number, out).map(|length| Answer::Tag { number, length })
            }
            Call::Batch {
                network,
                count,
                frames,
            } => second::batch(table, index, network, count, frames, out).map(|done| {
                Answer::Batch(Box::new(BatchAnswer {
                    answers: done.answers.map(plain),
                    frames: done.frames,
                    refusal: 0,
                }))
            }),
            Call::Send { frame } => {
                self.sender
                    .send(frame, out, second_out)
                    .map(|sent| Answer::Tag {
                        number: sent.number,
                        length: sent.length,
                    })
            }
            Call::ResetSender => {
                self.sender.reset();
                Ok(Answer::Done)
            }
            Call::FromPrp { frame, kind } => second::from_prp(frame, kind, out).map(turned),
            Call::ToPrp {
                frame,
                network,
                kind,
            } => second::to_prp(frame, network, kind, out).map(turned),
        };
        answer.unwrap_or_else(|why| Answer::Refused(why.number()))
    }
}
