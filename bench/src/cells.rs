//! What is timed and counted: each cell is the same calls on several sides.
use crate::cells_arrivals::Sum;
use crate::record::{State, Stream, TagAnswer};
use crate::{cells_arrivals, cells_batches, cells_prp, cells_sends, plain, proved};

/// Makes so many calls and gives a sum of what they answered.
pub type Work = Box<dyn FnMut(u64) -> u64>;

pub struct Cell {
    pub name: String,
    /// How many decisions, tag calls, sends, turns, arrivals or frames one call is.
    pub each: u64,
    /// The work of each of the group's sides.
    pub works: Vec<Work>,
}

/// Cells with the same sides.
pub struct Group {
    /// The product's side is the first.
    pub sides: &'static [&'static str],
    /// So many sides, from the first on, must answer the same.
    pub alike: usize,
    /// The product's time is to be at most so many times the plain one's, which is the second side.
    pub aim: f64,
    pub cells: Vec<Cell>,
}

/// A value that the compiler knows nothing of.
pub fn hidden<T: Copy>(x: T) -> T {
    unsafe { std::ptr::read_volatile(&x) }
}

/// A frame that is taken: the byte at 6 is even, so its source is no group's.
pub fn frame(size: usize, vlan: bool, tagged: bool) -> Vec<u8> {
    let mut f: Vec<u8> = (0..size).map(|i| (i * 7 + 2) as u8).collect();
    let mut at = 12;
    if vlan {
        f[12..16].copy_from_slice(&[0x81, 0x00, 0x20, 0x05]);
        at = 16;
    }
    if tagged {
        f[at..at + 6].copy_from_slice(&[0xF1, 0xC1, 0, 0, 0x12, 0x34]);
    }
    let kind = if tagged { at + 6 } else { at };
    f[kind..kind + 2].copy_from_slice(&[0x08, 0x00]);
    f
}

/// Frames in a ring. Even, so that a place is always of the same network.
pub const RING: usize = 8;

/// What one side reads and writes lies at the same places of a page on every side. Otherwise a time hangs on where the memory
/// happens to be: a read may wait for an earlier write that has the same place in another page.
#[repr(C, align(4096))]
pub struct Room {
    pub ring: [[u8; 1536]; RING],
    /// With it the output has no place in common with a frame of up to 256 bytes.
    between: [u8; 256],
    pub out: [u8; 2048],
}

impl Room {
    pub fn new() -> Box<Room> {
        Box::new(Room {
            ring: [[0; 1536]; RING],
            between: [0; 256],
            out: [0; 2048],
        })
    }

    /// With this frame as the first.
    fn with(frame: &[u8]) -> Box<Room> {
        let mut room = Room::new();
        room.ring[0][..frame.len()].copy_from_slice(frame);
        room
    }
}

impl Sum for TagAnswer {
    #[inline(always)]
    fn sum(&self) -> u64 {
        self.length as u64 + self.number as u64 + self.refusal as u64
    }
}

macro_rules! taking {
    ($side:ident, $size:expr, $vlan:expr) => {{
        let mut room = Room::with(&frame($size, $vlan, true));
        Box::new(move |calls| {
            let Room { ring, out, .. } = &mut *room;
            let mut sum = 0u64;
            for _ in 0..calls {
                let r = $side::take_tag(hidden(&ring[0][..$size]), out);
                sum = sum.wrapping_add(r.sum());
            }
            sum.wrapping_add(out[$size - 7] as u64)
        })
    }};
}

macro_rules! writing {
    ($side:ident, $size:expr, $vlan:expr) => {{
        let mut room = Room::with(&frame($size, $vlan, false));
        Box::new(move |calls| {
            let Room { ring, out, .. } = &mut *room;
            let mut sum = 0u64;
            for n in 0..calls {
                let r = $side::write_tag(hidden(&ring[0][..$size]), n as u16, out);
                sum = sum.wrapping_add(r.sum());
            }
            sum.wrapping_add(out[$size + 5] as u64)
        })
    }};
}

fn tags() -> Group {
    let mut cells = Vec::new();
    for vlan in [false, true] {
        for size in [64, 256, 1500] {
            let with = if vlan { "-vlan" } else { "" };
            let name = format!("take-{}{}", size, with);
            cells.push(Cell {
                name,
                each: 1,
                works: vec![taking!(proved, size, vlan), taking!(plain, size, vlan)],
            });
            let name = format!("write-{}{}", size, with);
            cells.push(Cell {
                name,
                each: 1,
                works: vec![writing!(proved, size, vlan), writing!(plain, size, vlan)],
            });
        }
    }
    Group {
        sides: &["product", "plain"],
        alike: 2,
        aim: 1.1,
        cells,
    }
}

/// A record without take-any, in the middle of its life.
fn record(rule: u8) -> Stream {
    Stream {
        dest: 0x0200_0000_0001,
        vlan: 5,
        window: 64,
        time: 100,
        rule,
        used: 1,
        state: State {
            history: [
                if rule == 1 { 0x5555_5555_5555_5555 } else { 0 },
                0,
                0,
                0,
                0,
                0,
                0,
                0,
            ],
            anchor: 65000,
            remaining: 100,
            early: 0,
            any: 0,
        },
        ..Stream::default()
    }
}

macro_rules! by_value {
    ($side:ident, $rule:expr, $d:expr) => {{
        let mut s = record($rule);
        let mut n = s.state.anchor;
        Box::new(move |calls| {
            let d = hidden($d);
            let mut sum = 0u64;
            for _ in 0..calls {
                n = n.wrapping_add(d);
                let r = $side::decide(s, n, 0);
                s = r.stream;
                sum = sum.wrapping_add(r.verdict as u64);
            }
            sum.wrapping_add(s.counts.lost)
        })
    }};
}

fn by_reference(rule: u8, d: u16) -> Work {
    let mut s = record(rule);
    let mut n = s.state.anchor;
    Box::new(move |calls| {
        let d = hidden(d);
        let mut sum = 0u64;
        for _ in 0..calls {
            n = n.wrapping_add(d);
            sum = sum.wrapping_add(plain::decide_at(&mut s, n, 0) as u64);
        }
        sum.wrapping_add(s.counts.lost)
    })
}

/// How many decisions one call of a row makes.
const ROW: u64 = 1000;

macro_rules! in_row {
    ($side:ident, $rule:expr, $d:expr) => {{
        let mut s = record($rule);
        let mut n = s.state.anchor.wrapping_add($d);
        Box::new(move |calls| {
            let d = hidden($d);
            for _ in 0..calls {
                s = $side::row(s, n, d, 0, ROW);
                n = n.wrapping_add(d.wrapping_mul(ROW as u16));
            }
            s.counts.lost.wrapping_add(s.counts.passed)
        })
    }};
}

fn in_row_by_reference(rule: u8, d: u16) -> Work {
    let mut s = record(rule);
    let mut n = s.state.anchor.wrapping_add(d);
    Box::new(move |calls| {
        let d = hidden(d);
        for _ in 0..calls {
            plain::row_at(&mut s, n, d, 0, ROW);
            n = n.wrapping_add(d.wrapping_mul(ROW as u16));
        }
        s.counts.lost.wrapping_add(s.counts.passed)
    })
}

fn decisions() -> Group {
    // The arrival, the rule, and d.
    let arrivals: [(&str, u8, u16); 5] = [
        ("new", 1, 1),
        ("duplicate", 1, 0),
        ("gap63", 1, 63),
        ("match-new", 2, 1),
        ("match-duplicate", 2, 0),
    ];
    let mut cells = Vec::new();
    for (name, rule, d) in arrivals {
        let works: Vec<Work> = vec![
            by_value!(proved, rule, d),
            by_value!(plain, rule, d),
            by_reference(rule, d),
        ];
        cells.push(Cell {
            name: format!("decide-{}", name),
            each: 1,
            works,
        });
    }
    for (name, rule, d) in arrivals {
        let works: Vec<Work> = vec![
            in_row!(proved, rule, d),
            in_row!(plain, rule, d),
            in_row_by_reference(rule, d),
        ];
        cells.push(Cell {
            name: format!("row-{}", name),
            each: ROW,
            works,
        });
    }
    Group {
        sides: &["product", "plain", "in-place"],
        alike: 3,
        aim: 1.0,
        cells,
    }
}

/// The arrivals first: they are the one table.
pub fn all() -> [Group; 8] {
    [
        cells_arrivals::arrivals(),
        cells_arrivals::windows(),
        cells_arrivals::links(),
        cells_batches::batches(),
        tags(),
        cells_sends::sends(),
        cells_prp::turns(),
        decisions(),
    ]
}
