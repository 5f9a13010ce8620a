//! The cells of a send: every side sees the same frame and the same numbers, and writes to two outputs.
use crate::cells::{frame, hidden, Cell, Group, Work};
use crate::cells_arrivals::Sum;
use crate::record::Sender;
use crate::{plain, proved};

/// The largest frame.
const MOST: usize = 1500;

/// What one side reads and writes, at the same places of a page on every side, as in `cells::Room`. No output has a place in
/// common with the frame or the sender, which are read soon after both were written. They have places in common with each
/// other, as three such frames do not fit into a page.
#[repr(C, align(4096))]
struct Room {
    frame: [u8; MOST],
    sender: Sender,
    between: [u8; 1058],
    out0: [u8; 1536],
    /// With it a copy of the first output to the second would read no place that it wrote before.
    apart: [u8; 1536],
    out1: [u8; 1536],
}

impl Room {
    /// With this frame, and a sender at first.
    fn with(given: &[u8]) -> Box<Room> {
        let mut room = Box::new(Room {
            frame: [0; MOST],
            sender: Sender::new(),
            between: [0; 1058],
            out0: [0; 1536],
            apart: [0; 1536],
            out1: [0; 1536],
        });
        room.frame[..given.len()].copy_from_slice(given);
        room
    }
}

/// Makes this call for each send. It tells what is summed of the answer.
fn sending(
    call: impl Fn(&mut Sender, &[u8], &mut [u8], &mut [u8]) -> u64 + 'static,
    size: usize,
    vlan: bool,
) -> Work {
    let mut room = Room::with(&frame(size, vlan, false));
    Box::new(move |calls| {
        let Room {
            frame,
            sender,
            out0,
            out1,
            ..
        } = &mut *room;
        let mut sum = 0u64;
        for _ in 0..calls {
            sum = sum.wrapping_add(call(sender, hidden(&frame[..size]), out0, out1));
        }
        let last = [out0, out1].map(|out| out[size + 5] as u64);
        sum.wrapping_add(sender.next as u64 + last[0] + 256 * last[1])
    })
}

/// The frame copied whole to both outputs, and nothing else done.
#[inline(always)]
fn copied(frame: &[u8], out0: &mut [u8], out1: &mut [u8]) -> u64 {
    plain::copy(frame, out0);
    plain::copy(frame, out1);
    0
}

pub fn sends() -> Group {
    let mut cells = Vec::new();
    for (vlan, with) in [(false, ""), (true, "-vlan")] {
        for size in [64, 256, MOST] {
            cells.push(Cell {
                name: format!("send-{}{}", size, with),
                each: 1,
                works: vec![
                    sending(|s, f, a, b| proved::send(s, f, a, b).sum(), size, vlan),
                    sending(|s, f, a, b| plain::send(s, f, a, b).sum(), size, vlan),
                    sending(|_, f, a, b| copied(f, a, b), size, vlan),
                ],
            });
        }
    }
    Group {
        sides: &["product", "plain", "memcpy"],
        alike: 2,
        aim: 1.1,
        cells,
    }
}
