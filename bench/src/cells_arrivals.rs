//! The cells of the whole arrival, and of a virtual link's. Every side sees the same frames on the same table: the streams come
//! in turn.
use crate::cells::{frame, hidden, Cell, Group, Room, Work, RING};
use crate::compare_arrivals::record_of;
use crate::record::{ArrivalAnswer, Stream};
use crate::{plain, proved};
use second::{Arrival, Refusal, Verdict};

/// How the streams' keys differ. All destinations share their first five bytes.
#[derive(Clone, Copy, PartialEq)]
enum Keys {
    /// By the destination. The frames have no VLAN tag, so every VLAN id is 0.
    Destinations,
    /// By the destination and by the VLAN id.
    Both,
    /// By the VLAN id. The destination is one.
    Vlans,
    /// By the destination, and the streams are virtual links: the frames have no tag, and their last byte is the number.
    Links,
}

impl Keys {
    /// The last byte of the stream's destination.
    fn last(self, stream: u8) -> u8 {
        match self {
            Keys::Vlans => 0,
            _ => stream,
        }
    }

    /// The VLAN id of the stream.
    fn vlan(self, stream: u8) -> u16 {
        match self {
            Keys::Destinations | Keys::Links => 0,
            _ => stream as u16 + 1,
        }
    }

    /// How many bytes a frame has more than what is handed up of it.
    fn taken(self) -> usize {
        match self {
            Keys::Links => 1,
            _ => 6,
        }
    }

    /// The number that each stream has had last when a cell starts.
    fn anchor(self) -> u16 {
        match self {
            Keys::Links => 200,
            _ => 65000,
        }
    }
}

/// What comes. `ahead` is how far the first number of each stream is ahead of its anchor, `step` how the number goes on when
/// every stream has had its turn, and `pair` whether each frame comes on network 0 and then on network 1. Behind each number
/// come `late` older ones, from the highest on.
#[derive(Clone, Copy)]
pub struct Mix {
    name: &'static str,
    window: u16,
    ahead: u16,
    step: u16,
    late: u16,
    pair: bool,
    network: u8,
    keys: Keys,
}

const fn mix(name: &'static str, ahead: u16, step: u16) -> Mix {
    Mix {
        name,
        window: 64,
        ahead,
        step,
        late: 0,
        pair: false,
        network: 0,
        keys: Keys::Destinations,
    }
}

/// Every frame is new.
pub const NEW: Mix = mix("new", 1, 1);

/// Those that are timed in every size and with every number of streams.
const MIXES: [Mix; 3] = [
    NEW,
    Mix {
        pair: true,
        ..mix("pair", 1, 1)
    },
    mix("duplicate", 0, 0),
];

/// Those of 64 bytes and one stream alone.
const SINGLE: [Mix; 4] = [
    mix("gap8", 8, 8),
    mix("gap63", 63, 63),
    mix("rogue", 1000, 0),
    REFUSED,
];

/// There is no network 2: that arrival is refused before its frame is read, so it is the call and little else.
const REFUSED: Mix = Mix {
    network: 2,
    ..mix("refused", 1, 1)
};

/// Those of the largest window, of 64 bytes and one stream alone. Of the late ones every frame but one in 511 is late, by 1 to
/// 510 places.
const LARGEST: [Mix; 6] = [
    wide(NEW),
    wide(MIXES[1]),
    wide(MIXES[2]),
    wide(Mix {
        late: 510,
        ..mix("late", 511, 511)
    }),
    wide(mix("gap63", 63, 63)),
    wide(mix("gap511", 511, 511)),
];

const fn wide(mix: Mix) -> Mix {
    Mix { window: 512, ..mix }
}

/// Those of frames with a VLAN tag, all new. With one stream they are the same.
pub const VLANS: Mix = Mix {
    keys: Keys::Both,
    ..mix("vlans", 1, 1)
};
const SHARED: Mix = Mix {
    keys: Keys::Vlans,
    ..mix("shared", 1, 1)
};

/// The same mix with virtual links.
const fn linked(mix: Mix) -> Mix {
    Mix {
        keys: Keys::Links,
        ..mix
    }
}

impl Mix {
    /// Do the frames have a VLAN tag?
    pub fn tagged(&self) -> bool {
        self.keys == Keys::Both || self.keys == Keys::Vlans
    }

    /// What stands behind 8100 in a VLAN tag: the priority, another one from frame to frame, and the VLAN id.
    #[inline(always)]
    pub fn bits(&self, stream: u8, number: u16) -> u16 {
        number.wrapping_add(stream as u16) << 13 | self.keys.vlan(stream)
    }
}

/// The frame that comes next.
struct Coming {
    mix: Mix,
    streams: u8,
    stream: u8,
    number: u16,
    /// How many older ones have come behind the last number that was ahead.
    behind: u16,
    second: bool,
}

impl Coming {
    fn new(streams: u8, mix: Mix) -> Coming {
        Coming {
            mix,
            streams,
            stream: 0,
            number: mix.keys.anchor().wrapping_add(mix.ahead),
            behind: 0,
            second: false,
        }
    }

    /// A frame of the mix, but for what `write` puts into it.
    fn shape(&self, size: usize) -> Vec<u8> {
        let keys = self.mix.keys;
        let mut f = frame(size, self.mix.tagged(), keys != Keys::Links);
        f[..6].copy_from_slice(&[2, 0, 0, 0, 0, 0]);
        f
    }

    /// Goes on to the number of the next turn.
    #[inline(always)]
    fn turn(&mut self) {
        if self.behind != self.mix.late {
            self.behind += 1;
            self.number = self.number.wrapping_sub(1);
        } else {
            let back = std::mem::take(&mut self.behind);
            self.number = self.number.wrapping_add(back).wrapping_add(self.mix.step);
            // Behind 255 comes 1.
            if self.mix.keys == Keys::Links && self.number > 255 {
                self.number -= 255;
            }
        }
    }

    /// Writes the frame's key and number, and goes on to the next. Nothing stands behind the frame.
    #[inline(always)]
    fn write(&mut self, f: &mut [u8]) {
        let keys = self.mix.keys;
        f[5] = keys.last(self.stream);
        let mut at = 16;
        if self.mix.tagged() {
            let bits = self.mix.bits(self.stream, self.number);
            f[14..16].copy_from_slice(&bits.to_be_bytes());
            at = 20;
        }
        if keys == Keys::Links {
            f[f.len() - 1] = self.number as u8;
        } else {
            f[at..at + 2].copy_from_slice(&self.number.to_be_bytes());
        }
        if self.mix.pair && !self.second {
            self.second = true;
            return;
        }
        self.second = false;
        self.stream += 1;
        if self.stream == self.streams {
            self.stream = 0;
            self.turn();
        }
    }
}

/// The frames to come. One that was used is written anew for its next turn, so no frame is read just after it is written.
struct Traffic {
    room: Box<Room>,
    size: usize,
    place: usize,
    coming: Coming,
}

impl Traffic {
    fn new(size: usize, streams: u8, mix: Mix) -> Traffic {
        let mut t = Traffic {
            room: Room::new(),
            size,
            place: 0,
            coming: Coming::new(streams, mix),
        };
        for f in t.room.ring.iter_mut() {
            f[..size].copy_from_slice(&t.coming.shape(size));
        }
        for _ in 0..RING {
            t.renew();
        }
        t
    }

    /// Writes the next frame to its place, and goes on to the next place.
    #[inline(always)]
    fn renew(&mut self) {
        self.coming
            .write(&mut self.room.ring[self.place][..self.size]);
        self.place = (self.place + 1) % RING;
    }

    #[inline(always)]
    fn network(&self) -> u8 {
        let mix = &self.coming.mix;
        if mix.pair {
            (self.place % 2) as u8
        } else {
            mix.network
        }
    }

    /// The last byte of a frame that is handed up.
    fn last(&self) -> u64 {
        self.room.out[self.size - self.coming.mix.keys.taken() - 1] as u64
    }
}

/// A table begins with a page, on every side.
#[repr(align(4096))]
pub struct Slots<T>(pub [T; 64]);

/// The streams, each in the middle of its life: virtual links, or of the vector rule, and then the whole window came.
fn table(mix: Mix) -> Box<Slots<second::Stream>> {
    let (rule, history) = match mix.keys {
        Keys::Links => (3, [0; 8]),
        _ => (1, whole(mix.window)),
    };
    Box::new(Slots(std::array::from_fn(|i| second::Stream {
        in_use: 1,
        destination: [2, 0, 0, 0, 0, mix.keys.last(i as u8)],
        vlan: mix.keys.vlan(i as u8),
        rule,
        window: mix.window,
        reset_time: 100,
        anchor: mix.keys.anchor(),
        history,
        take_any: 0,
        remaining: 100,
        ..second::Stream::FREE
    })))
}

/// A history in which the whole window came. The window has whole words.
fn whole(window: u16) -> [u64; 8] {
    std::array::from_fn(|i| {
        if 64 * i < window as usize {
            u64::MAX
        } else {
            0
        }
    })
}

pub fn records(mix: Mix) -> Box<Slots<Stream>> {
    let table = table(mix);
    Box::new(Slots(std::array::from_fn(|i| record_of(&table.0[i]))))
}

/// What is summed of an answer, the same for all sides.
pub trait Sum {
    fn sum(&self) -> u64;
}

impl Sum for ArrivalAnswer {
    #[inline(always)]
    fn sum(&self) -> u64 {
        let of_tag = self.priority as u64 + self.vlantag as u64;
        self.slot as u64 + self.number as u64 + self.length as u64 + self.refusal as u64 + of_tag
    }
}

impl Sum for Result<Arrival, Refusal> {
    #[inline(always)]
    fn sum(&self) -> u64 {
        match self {
            Err(why) => why.number() as u64,
            Ok(a) => {
                let length = match a.verdict {
                    Verdict::HandedUp { length } => length,
                    _ => 0,
                };
                let of_tag = a.priority as u64 + a.vlan_tag as u64;
                a.slot as u64 + a.number as u64 + length as u64 + of_tag
            }
        }
    }
}

macro_rules! arriving {
    ($call:path, $table:expr, $size:expr, $streams:expr, $mix:expr) => {{
        let mut table = $table;
        let mut traffic = Traffic::new($size, $streams, $mix);
        Box::new(move |calls| {
            let size = hidden($size);
            let table = &mut table.0[..$streams as usize];
            let mut sum = 0u64;
            for _ in 0..calls {
                let network = traffic.network();
                let room = &mut *traffic.room;
                let f = &room.ring[traffic.place][..size];
                sum = sum.wrapping_add($call(table, network, f, &mut room.out).sum());
                traffic.renew();
            }
            sum.wrapping_add(traffic.last())
        })
    }};
}

/// The same frames, each copied whole and nothing else done.
fn copying(size: usize, streams: u8, mix: Mix) -> Work {
    let mut traffic = Traffic::new(size, streams, mix);
    Box::new(move |calls| {
        let size = hidden(size);
        for _ in 0..calls {
            let room = &mut *traffic.room;
            plain::copy(&room.ring[traffic.place][..size], &mut room.out);
            traffic.renew();
        }
        traffic.last()
    })
}

/// The same frames and a call that does nothing: what the loop and the bare call cost. The call goes through a pointer that the
/// compiler does not know, or it would leave the call out.
fn calling(size: usize, streams: u8, mix: Mix) -> Work {
    let mut table = records(mix);
    let mut traffic = Traffic::new(size, streams, mix);
    Box::new(move |calls| {
        let size = hidden(size);
        let table = &mut table.0[..streams as usize];
        let call: plain::Bare = hidden(plain::nothing);
        let mut sum = 0u64;
        for _ in 0..calls {
            let network = traffic.network();
            let room = &mut *traffic.room;
            let f = &room.ring[traffic.place][..size];
            sum = sum.wrapping_add(call(table, network, f, &mut room.out));
            traffic.renew();
        }
        sum
    })
}

fn cell(group: &str, size: usize, streams: u8, mix: Mix) -> Cell {
    let mut works: Vec<Work> = if mix.keys == Keys::Links {
        vec![
            arriving!(proved::link_arrival, records(mix), size, streams, mix),
            arriving!(plain::link_arrival_at, records(mix), size, streams, mix),
            arriving!(plain::link_arrival, table(mix), size, streams, mix),
        ]
    } else {
        vec![
            arriving!(proved::arrival, records(mix), size, streams, mix),
            arriving!(plain::arrival_at, records(mix), size, streams, mix),
            arriving!(plain::arrival, table(mix), size, streams, mix),
        ]
    };
    works.push(copying(size, streams, mix));
    works.push(calling(size, streams, mix));
    Cell {
        name: format!("{}-{}-{}-{}", group, size, streams, mix.name),
        each: 1,
        works,
    }
}

/// The mixes that are timed in every size and with every number of streams.
fn in_all_sizes(group: &str, mixes: [Mix; 3]) -> Vec<Cell> {
    let mut cells = Vec::new();
    for size in [64, 256, 1500] {
        for streams in [1, 8, 64] {
            for mix in mixes {
                cells.push(cell(group, size, streams, mix));
            }
        }
    }
    cells
}

pub fn arrivals() -> Group {
    let mut cells = in_all_sizes("arrival", MIXES);
    for size in [64, 1500] {
        cells.push(cell("arrival", size, 1, VLANS));
        for streams in [8, 64] {
            cells.push(cell("arrival", size, streams, VLANS));
            cells.push(cell("arrival", size, streams, SHARED));
        }
    }
    for mix in SINGLE {
        cells.push(cell("arrival", 64, 1, mix));
    }
    group(cells)
}

/// The same calls with L = 512.
pub fn windows() -> Group {
    let cells = LARGEST.map(|mix| cell("window", 64, 1, mix));
    group(cells.into_iter().collect())
}

/// The arrivals of virtual links.
pub fn links() -> Group {
    let mut cells = in_all_sizes("link", MIXES.map(linked));
    cells.push(cell("link", 64, 1, linked(REFUSED)));
    group(cells)
}

fn group(cells: Vec<Cell>) -> Group {
    Group {
        sides: &["product", "plain", "second", "memcpy", "bare"],
        alike: 3,
        aim: 1.0,
        cells,
    }
}
