//! Calls with what they should answer and leave, written for compare/replay.c, which gives them to the archives as the kit leaves
//! them.

use crate::{Answer, Call, VlanTag};
use nippitsun::archive::{self, BatchAnswer};
use nippitsun::Stream;

/// What a call starts from or leaves: the table, its index, the outputs, and the sender's next number.
#[derive(Clone, Copy, PartialEq, Eq)]
pub struct Areas<'a> {
    pub table: &'a [Stream],
    pub index: &'a [u8],
    pub outs: [&'a [u8]; 2],
    pub next: u16,
}

/// The arguments of all calls together. A call has those that it does not take as 0.
#[derive(Default)]
struct Arguments<'a> {
    kind: u8,
    frame: &'a [u8],
    network: u8,
    number: u16,
    slot: u64,
    count: u64,
    dest: [u8; 6],
    vlan: u16,
    rule: u8,
    window: u16,
    time: u16,
    /// The kind of a PRP trailer.
    prp: u8,
}

/// The fields of all answers together.
#[derive(Default)]
struct Fields {
    slot: u64,
    length: u64,
    resets: u64,
    damaged: u64,
    frames: u64,
    number: u16,
    verdict: u8,
    network: u8,
    refusal: u8,
    priority: u8,
    vlantag: u8,
}

impl Fields {
    /// What an arrival has with each verdict.
    fn arrived(&mut self, verdict: u8, slot: usize, number: u16, vlan: VlanTag) {
        self.verdict = verdict;
        self.slot = slot as u64;
        self.number = number;
        (self.priority, self.vlantag) = (vlan.priority, vlan.there);
    }
}

fn arguments(call: Call) -> Arguments {
    let mut a = Arguments::default();
    match call {
        Call::Arrival { network, frame } => {
            a.kind = 5;
            a.network = network;
            a.frame = frame;
        }
        Call::LinkArrival { network, frame } => {
            a.kind = 16;
            a.network = network;
            a.frame = frame;
        }
        Call::Open(s) => {
            a.kind = 6;
            a.dest = s.destination;
            a.vlan = s.vlan;
            a.rule = s.rule;
            a.window = s.window;
            a.time = s.time;
        }
        Call::Close(slot) => {
            a.kind = 7;
            a.slot = slot as u64;
        }
        Call::Reset(slot) => {
            a.kind = 8;
            a.slot = slot as u64;
        }
        Call::Tick => a.kind = 9,
        Call::TakeTag { frame } => {
            a.kind = 1;
            a.frame = frame;
        }
        Call::WriteTag { frame, number } => {
            a.kind = 2;
            a.frame = frame;
            a.number = number;
        }
        Call::Batch {
            network,
            count,
            frames,
        } => {
            a.kind = 10;
            a.network = network;
            a.count = count as u64;
            a.frame = frames;
        }
        Call::Send { frame } => {
            a.kind = 11;
            a.frame = frame;
        }
        Call::ResetSender => a.kind = 12,
        Call::FromPrp { frame, kind } => {
            a.kind = 13;
            a.frame = frame;
            a.prp = kind;
        }
        Call::ToPrp {
            frame,
            network,
            kind,
        } => {
            a.kind = 14;
            a.frame = frame;
            a.network = network;
            a.prp = kind;
        }
        Call::Rebuild => a.kind = 15,
    }
    a
}

fn fields(answer: &Answer) -> Fields {
    let mut f = Fields::default();
    match *answer {
        Answer::Refused(n) => f.refusal = n,
        Answer::HandedUp {
            slot,
            number,
            length,
            vlan,
        } => {
            f.arrived(archive::HANDED_UP, slot, number, vlan);
            f.length = length as u64;
        }
        Answer::Duplicate { slot, number, vlan } => {
            f.arrived(archive::DUPLICATE, slot, number, vlan)
        }
        Answer::Rogue { slot, number, vlan } => f.arrived(archive::ROGUE, slot, number, vlan),
        Answer::Opened(slot) => f.slot = slot as u64,
        Answer::Done => {}
        Answer::Ticked { resets, damaged } => {
            f.resets = resets;
            f.damaged = damaged;
        }
        Answer::Tag { number, length } => {
            f.number = number;
            f.length = length as u64;
        }
        Answer::Batch(ref told) => {
            f.frames = told.frames as u64;
            f.refusal = told.refusal;
        }
        Answer::Prp(told) => {
            f.length = told.length as u64;
            f.number = told.number;
            f.network = told.network;
            f.refusal = told.refusal;
        }
        // The second program has none, so no case has one.
        Answer::Strange(_) => {}
    }
    f
}

/// The answers of a batch's frames. A refused batch has marks alone.
fn add_frames(to: &mut Vec<u8>, answer: &Answer) {
    let told = match answer {
        Answer::Batch(told) => **told,
        _ => BatchAnswer::default(),
    };
    for a in told.answers {
        for x in [a.slot, a.length] {
            to.extend_from_slice(&(x as u64).to_le_bytes());
        }
        to.extend_from_slice(&a.number.to_le_bytes());
        to.extend_from_slice(&[a.verdict, a.refusal, a.priority, a.vlantag]);
    }
}

fn add_areas(to: &mut Vec<u8>, areas: Areas) {
    for s in areas.table {
        to.extend_from_slice(&s.to_bytes());
    }
    to.extend_from_slice(areas.index);
    for out in areas.outs {
        to.extend_from_slice(out);
    }
    to.extend_from_slice(&areas.next.to_le_bytes());
}

/// Adds one case.
pub fn add(to: &mut Vec<u8>, call: Call, before: Areas, answer: &Answer, after: Areas) {
    let a = arguments(call);
    to.extend_from_slice(&[a.kind, before.table.len() as u8]);
    for area in [before.index, before.outs[0], before.outs[1], a.frame] {
        to.extend_from_slice(&(area.len() as u16).to_le_bytes());
    }
    add_areas(to, before);
    to.extend_from_slice(a.frame);
    for x in [a.slot, a.count] {
        to.extend_from_slice(&x.to_le_bytes());
    }
    for x in [a.number, a.vlan, a.window, a.time] {
        to.extend_from_slice(&x.to_le_bytes());
    }
    to.extend_from_slice(&[a.network, a.rule, a.prp]);
    to.extend_from_slice(&a.dest);
    let f = fields(answer);
    for x in [f.slot, f.length, f.resets, f.damaged, f.frames] {
        to.extend_from_slice(&x.to_le_bytes());
    }
    to.extend_from_slice(&f.number.to_le_bytes());
    to.extend_from_slice(&[f.verdict, f.network, f.refusal, f.priority, f.vlantag]);
    if let Call::Batch { .. } = call {
        add_frames(to, answer);
    }
    add_areas(to, after);
}
