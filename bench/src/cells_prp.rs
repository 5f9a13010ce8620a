//! The cells of PRP frames that are turned, and of tagged ones that are turned back: every side sees the same frame.
use crate::cells::{frame, hidden, Cell, Group, Work};
use crate::cells_arrivals::Sum;
use crate::record::PrpAnswer;
use crate::{plain, proved};

/// The two kinds of trailer.
const FIRST: u8 = 0;
const OF_2012: u8 = 1;

/// What one side reads and writes, at the same places of a page on every side, as in `cells::Room`. Both fit into one page, so
/// the output has no place in common with the frame.
#[repr(C, align(4096))]
struct Room {
    frame: [u8; 2048],
    out: [u8; 2048],
}

impl Sum for PrpAnswer {
    #[inline(always)]
    fn sum(&self) -> u64 {
        self.length as u64 + self.number as u64 + self.network as u64 + self.refusal as u64
    }
}

/// A frame, its kind of trailer, and the length of what it is turned into.
type Turn<'a> = (&'a [u8], u8, usize);

/// Makes this call for each turn. It tells what is summed of the answer.
fn turning(
    call: impl Fn(&[u8], u8, &mut [u8]) -> u64 + 'static,
    (given, kind, result): Turn,
) -> Work {
    let size = given.len();
    let mut room = Box::new(Room {
        frame: [0; 2048],
        out: [0; 2048],
    });
    room.frame[..size].copy_from_slice(given);
    Box::new(move |calls| {
        let Room { frame, out } = &mut *room;
        let kind = hidden(kind);
        let mut sum = 0u64;
        for _ in 0..calls {
            sum = sum.wrapping_add(call(hidden(&frame[..size]), kind, out));
        }
        sum.wrapping_add(out[result - 1] as u64)
    })
}

/// The network of every turn.
const NETWORK: u8 = 1;

/// A PRP frame of this size, and the tagged one that it is turned into.
fn pair(size: usize, vlan: bool, kind: u8) -> [Vec<u8>; 2] {
    let mut line = vec![0; size];
    let width = if kind == FIRST { 4 } else { 6 };
    let tagged = frame(size + 6 - width, vlan, true);
    let there = plain::to_prp(&tagged, NETWORK, kind, &mut line);
    let mut again = vec![0; tagged.len()];
    let back = plain::from_prp(&line, kind, &mut again);
    assert!(there.length == size && back.length == tagged.len() && again == tagged);
    [line, tagged]
}

/// The frame copied whole, and nothing else done.
#[inline(always)]
fn copied(frame: &[u8], _: u8, out: &mut [u8]) -> u64 {
    plain::copy(frame, out);
    0
}

pub fn turns() -> Group {
    let mut cells = Vec::new();
    for (vlan, kind, with) in [
        (false, OF_2012, ""),
        (true, OF_2012, "-vlan"),
        (false, FIRST, "-first"),
    ] {
        for size in [64, 256, 1500] {
            let [line, tagged] = pair(size, vlan, kind);
            let from = (&line[..], kind, tagged.len());
            cells.push(Cell {
                name: format!("prp-from-{}{}", size, with),
                each: 1,
                works: vec![
                    turning(|f, k, o| proved::from_prp(f, k, o).sum(), from),
                    turning(|f, k, o| plain::from_prp(f, k, o).sum(), from),
                    turning(copied, from),
                ],
            });
            let to = (&tagged[..], kind, size);
            cells.push(Cell {
                name: format!("prp-to-{}{}", size, with),
                each: 1,
                works: vec![
                    turning(|f, k, o| proved::to_prp(f, NETWORK, k, o).sum(), to),
                    turning(|f, k, o| plain::to_prp(f, NETWORK, k, o).sum(), to),
                    turning(copied, to),
                ],
            });
        }
    }
    Group {
        sides: &["product", "plain", "memcpy"],
        alike: 2,
        aim: 1.1,
        cells,
    }
}
