//! The cells of a batch: one call, and as many single arrivals in turn. Every side sees the same frames on the same table, all
//! new.
use crate::cells::{frame, hidden, Cell, Group, Work};
use crate::cells_arrivals::{records, Mix, Sum, NEW, VLANS};
use crate::compare::Dice;
use crate::record::{ArrivalAnswer, BatchAnswer, Stream, FRAMES_MOST, HANDED_UP, PLACES};
use crate::{plain, proved};

/// What a cell is of.
#[derive(Clone, Copy)]
struct Load {
    /// A batch has so many frames.
    count: usize,
    size: usize,
    /// A power of 2.
    streams: usize,
    /// In each turn the streams come in another order, which no processor foresees.
    random: bool,
    /// All new, with a VLAN tag or without.
    mix: Mix,
}

/// So many frames come before the order is that of the first again.
const ORDER: usize = 65536;

impl Load {
    /// The streams as they come, in whole turns.
    fn order(&self) -> Vec<u8> {
        let mut turn: Vec<u8> = (0..self.streams as u8).collect();
        if !self.random {
            return turn;
        }
        let mut dice = Dice::new();
        let mut order = Vec::new();
        while order.len() < ORDER {
            for i in (1..turn.len()).rev() {
                turn.swap(i, dice.below(i as u64 + 1) as usize);
            }
            order.extend_from_slice(&turn);
        }
        order
    }
}

/// The largest batch, in whole pages.
const PACKED: usize = 12 * 4096;

/// What one side reads and writes, at the same places of a page on every side, as in `Room`.
#[repr(C, align(4096))]
struct Room {
    ring: [u8; PACKED],
    /// With it a frame's output has no place in common with the next frame's header.
    between: [u8; 2048],
    out: [u8; PACKED],
}

/// The batches to come: 32 frames in all, each behind its length. A batch that was used is written anew for its next turn.
struct Traffic {
    room: Box<Room>,
    /// The first byte of the next batch.
    place: usize,
    load: Load,
    /// A frame takes so many bytes with its length.
    step: usize,
    order: Vec<u8>,
    /// The place of the next frame's stream in the order.
    turn: usize,
    /// The number of this turn.
    number: u16,
}

impl Traffic {
    fn new(load: Load) -> Traffic {
        let first = records(load.mix).0[0];
        let mut t = Traffic {
            room: Box::new(Room {
                ring: [0; PACKED],
                between: [0; 2048],
                out: [0; PACKED],
            }),
            place: 0,
            load,
            step: 2 + load.size,
            order: load.order(),
            turn: 0,
            number: first.state.anchor.wrapping_add(1),
        };
        let mut shape = frame(load.size, load.mix.tagged(), true);
        shape[..6].copy_from_slice(&first.dest.to_be_bytes()[2..]);
        for f in t.room.ring.chunks_exact_mut(t.step).take(FRAMES_MOST) {
            f[..2].copy_from_slice(&(load.size as u16).to_be_bytes());
            f[2..].copy_from_slice(&shape);
        }
        for _ in 0..FRAMES_MOST / load.count {
            t.renew();
        }
        t
    }

    /// The next batch, and the output.
    #[inline(always)]
    fn next(&mut self) -> (&[u8], &mut [u8]) {
        let room = &mut *self.room;
        let frames = &room.ring[self.place..self.place + self.load.count * self.step];
        (frames, &mut room.out)
    }

    /// Writes the next batch to its place, and goes on to the next place.
    #[inline(always)]
    fn renew(&mut self) {
        let end = self.place + self.load.count * self.step;
        for f in self.room.ring[self.place..end].chunks_exact_mut(self.step) {
            let stream = self.order[self.turn];
            f[2 + 5] = stream;
            let mut at = 2 + 16;
            if self.load.mix.tagged() {
                let bits = self.load.mix.bits(stream, self.number);
                f[2 + 14..][..2].copy_from_slice(&bits.to_be_bytes());
                at = 2 + 20;
            }
            f[at..][..2].copy_from_slice(&self.number.to_be_bytes());
            self.turn += 1;
            if self.turn & (self.load.streams - 1) == 0 {
                self.number = self.number.wrapping_add(1);
                if self.turn == self.order.len() {
                    self.turn = 0;
                }
            }
        }
        self.place = if end == FRAMES_MOST * self.step {
            0
        } else {
            end
        };
    }

    /// The last byte of a batch that is handed up.
    fn last(&self) -> u64 {
        self.room.out[self.load.count * (self.step - 6) - 1] as u64
    }
}

/// The same frames in single calls, each from the packed buffer, handed up behind the last one: what a driver does that has no
/// batch. Tells each answer, and answers how many frames came before one that was refused with 8.
#[inline(always)]
pub fn in_turn<T>(
    arrival: impl Fn(&mut [T], u8, &[u8], &mut [u8]) -> ArrivalAnswer,
    table: &mut [T],
    network: u8,
    count: usize,
    mut frames: &[u8],
    out: &mut [u8],
    mut tell: impl FnMut(ArrivalAnswer),
) -> usize {
    let mut used = 0;
    for before in 0..count {
        let length = u16::from_be_bytes([frames[0], frames[1]]) as usize;
        let (frame, behind) = frames[2..].split_at(length);
        frames = behind;
        let room = out[used..].get_mut(2..).unwrap_or(&mut []);
        let a = arrival(table, network, frame, room);
        tell(a);
        if a.refusal == plain::ROOM {
            return before;
        }
        if a.verdict == HANDED_UP {
            out[used..used + 2].copy_from_slice(&(a.length as u16).to_be_bytes());
            used += 2 + a.length;
        }
    }
    count
}

/// The index begins with a page, as the table does.
#[repr(align(4096))]
struct Places([u8; PLACES]);

fn batching(
    call: impl Fn(&mut [Stream], &[u8], u8, usize, &[u8], &mut [u8]) -> BatchAnswer + 'static,
    load: Load,
) -> Work {
    let mut table = records(load.mix);
    let mut traffic = Traffic::new(load);
    let mut index = Box::new(Places([0; PLACES]));
    proved::rebuild(&table.0[..load.streams], &mut index.0);
    Box::new(move |calls| {
        let table = &mut table.0[..load.streams];
        let count = hidden(load.count);
        let mut sum = 0u64;
        for _ in 0..calls {
            let (frames, out) = traffic.next();
            let b = call(table, &index.0, 0, count, frames, out);
            for a in &b.answers[..count] {
                sum = sum.wrapping_add(a.sum());
            }
            sum = sum.wrapping_add(b.frames as u64 + b.refusal as u64);
            traffic.renew();
        }
        sum.wrapping_add(traffic.last())
    })
}

fn single(load: Load) -> Work {
    let mut table = records(load.mix);
    let mut traffic = Traffic::new(load);
    Box::new(move |calls| {
        let table = &mut table.0[..load.streams];
        let count = hidden(load.count);
        let mut sum = 0u64;
        for _ in 0..calls {
            let (frames, out) = traffic.next();
            let tell = |a: ArrivalAnswer| sum = sum.wrapping_add(a.sum());
            let before = in_turn(proved::arrival, table, 0, count, frames, out, tell);
            sum = sum.wrapping_add(before as u64);
            traffic.renew();
        }
        sum.wrapping_add(traffic.last())
    })
}

/// The frames written and nothing else: what the loop costs.
fn writing(load: Load) -> Work {
    let mut traffic = Traffic::new(load);
    Box::new(move |calls| {
        for _ in 0..calls {
            traffic.renew();
        }
        hidden(traffic.room.ring[20] as u64)
    })
}

/// In turn, without a VLAN tag.
fn load(count: usize, size: usize, streams: usize) -> Load {
    Load {
        count,
        size,
        streams,
        random: false,
        mix: NEW,
    }
}

fn cell(order: &str, load: Load) -> Cell {
    Cell {
        name: format!(
            "batch-{}-{}-{}-{}",
            load.count, load.size, load.streams, order
        ),
        each: load.count as u64,
        works: vec![
            batching(proved::batch, load),
            batching(plain::batch, load),
            single(load),
            writing(load),
        ],
    }
}

pub fn batches() -> Group {
    let mut cells = Vec::new();
    for count in [8, 16, FRAMES_MOST] {
        for streams in [1, 8, 32, 64] {
            let in_turn = load(count, 64, streams);
            cells.push(cell("turn", in_turn));
            if streams > 1 {
                let random = true;
                cells.push(cell("random", Load { random, ..in_turn }));
            }
        }
    }
    for count in [8, FRAMES_MOST] {
        for size in [256, 1500] {
            for streams in [1, 8, 64] {
                cells.push(cell("turn", load(count, size, streams)));
            }
        }
    }
    for streams in [1, 8, 64] {
        let mix = VLANS;
        let in_turn = load(FRAMES_MOST, 64, streams);
        cells.push(cell("vlans", Load { mix, ..in_turn }));
    }
    for size in [64, 256, 1500] {
        for streams in [1, 8, 64] {
            cells.push(cell("turn", load(1, size, streams)));
        }
    }
    Group {
        sides: &["batch", "plain", "single", "loop"],
        alike: 3,
        aim: 1.0,
        cells,
    }
}
