//! What was handed up and waits for standard output: a buffer of a fixed size, so that a reader that stands still holds up
//! nothing but itself. No system call stands here.

use crate::options::Give;
use nippitsun::{Priority, Stream};
use std::collections::VecDeque;
use std::io::{self, ErrorKind, Write};

/// The standard library's formatter, byte by byte, would take longer than all the rest of this program's own work.
const DIGITS: &[u8; 16] = b"0123456789abcdef";

/// The longest form of one frame. In front of a line's digits stand a slot, a number and a length, and behind them a priority.
const LINE_MOST: usize = 2 * Stream::FRAME_MOST + 32;
const RAW_MOST: usize = Stream::FRAME_MOST + 2;

const ENOMEM: i32 = 12;

/// No frame has less than two addresses and a type.
const RAW_LEAST: usize = 14 + 2;

pub struct Up {
    give: Give,
    buffer: Vec<u8>,
    /// Where the first byte that waits stands, and how many wait. Behind the buffer's end they go on at its begin.
    first: usize,
    waiting: usize,
    /// How many bytes of each frame that waits are still to be given, the first one first.
    frames: VecDeque<u16>,
    /// Where a frame's form is made.
    form: Vec<u8>,
}

impl Up {
    pub fn new(give: Give, bytes: usize) -> io::Result<Up> {
        let bytes = if give == Give::Nothing { 0 } else { bytes };
        let (mut buffer, mut frames) = (Vec::new(), VecDeque::new());
        let reserved = buffer.try_reserve_exact(bytes);
        let reserved = reserved.and_then(|()| frames.try_reserve_exact(bytes / RAW_LEAST));
        reserved.map_err(|_| io::Error::from_raw_os_error(ENOMEM))?;
        // Each page is written to, so that it is there before memory is locked.
        buffer.resize(bytes, 1);
        frames.resize(bytes / RAW_LEAST, 1);
        frames.clear();
        Ok(Up {
            give,
            buffer,
            first: 0,
            waiting: 0,
            frames,
            form: Vec::with_capacity(LINE_MOST),
        })
    }

    /// Bytes that wait.
    pub fn waiting(&self) -> usize {
        self.waiting
    }

    /// Frames that were not given whole.
    pub fn frames(&self) -> usize {
        self.frames.len()
    }

    /// There may be no room for one more frame.
    pub fn is_full(&self) -> bool {
        let most = match self.give {
            Give::Lines => LINE_MOST,
            Give::Raw => RAW_MOST,
            Give::Nothing => 0,
        };
        self.buffer.len() - self.waiting < most
    }

    /// Once full, it is filled again only when half of it has been given: else a slow reader would make it full at every frame.
    pub fn is_half_full(&self) -> bool {
        self.waiting > self.buffer.len() / 2
    }

    /// Puts a frame behind those that wait, in the form that was asked for. The buffer is not full.
    pub fn hand_up(&mut self, slot: usize, number: u16, priority: Option<Priority>, frame: &[u8]) {
        self.form.clear();
        match self.give {
            Give::Lines => {
                // Writing to memory does not fail.
                let _ = write!(self.form, "{slot} {number} {} ", frame.len());
                for byte in frame {
                    let (high, low) = (usize::from(byte >> 4), usize::from(byte & 15));
                    self.form.extend_from_slice(&[DIGITS[high], DIGITS[low]]);
                }
                // Last, so that whoever takes the first four fields goes on as before.
                let priority = priority.map_or(b'-', |priority| b'0' + priority.get());
                self.form.extend_from_slice(&[b' ', priority, b'\n']);
            }
            Give::Raw => {
                let length = frame.len() as u16;
                self.form.extend_from_slice(&length.to_be_bytes());
                self.form.extend_from_slice(frame);
            }
            Give::Nothing => return,
        }
        self.put();
    }

    fn put(&mut self) {
        let (length, most) = (self.form.len(), self.buffer.len());
        assert!(length <= most - self.waiting, "no room for a frame");
        let at = (self.first + self.waiting) % most;
        let (before, behind) = self.form.split_at(length.min(most - at));
        self.buffer[at..at + before.len()].copy_from_slice(before);
        self.buffer[..behind.len()].copy_from_slice(behind);
        self.waiting += length;
        self.frames.push_back(length as u16);
    }

    /// Writes what waits, as far as it is taken without a wait.
    pub fn give(&mut self, to: &mut impl Write) -> io::Result<()> {
        while self.waiting > 0 {
            let end = (self.first + self.waiting).min(self.buffer.len());
            match to.write(&self.buffer[self.first..end]) {
                Ok(0) => return Err(ErrorKind::WriteZero.into()),
                Ok(taken) => self.given(taken),
                Err(e) if e.kind() == ErrorKind::WouldBlock => break,
                Err(e) if e.kind() == ErrorKind::Interrupted => {}
                Err(e) => return Err(e),
            }
        }
        Ok(())
    }

    fn given(&mut self, mut taken: usize) {
        self.first = (self.first + taken) % self.buffer.len();
        self.waiting -= taken;
        while let Some(left) = self.frames.front_mut() {
            let part = taken.min(usize::from(*left));
            taken -= part;
            *left -= part as u16;
            if *left > 0 {
                break;
            }
            self.frames.pop_front();
        }
    }
}

#[cfg(test)]
mod tests {
    use super::*;

    const BYTES: usize = 8 << 10;

    /// A reader that takes so many bytes of each write, and then so many writes more.
    #[derive(Default)]
    struct Reader {
        most: usize,
        writes: usize,
        broken: bool,
        has: Vec<u8>,
    }

    impl Write for Reader {
        fn write(&mut self, bytes: &[u8]) -> io::Result<usize> {
            if self.broken {
                return Err(ErrorKind::BrokenPipe.into());
            }
            if self.writes == 0 {
                return Err(ErrorKind::WouldBlock.into());
            }
            self.writes -= 1;
            let taken = bytes.len().min(self.most);
            self.has.extend_from_slice(&bytes[..taken]);
            Ok(taken)
        }

        fn flush(&mut self) -> io::Result<()> {
            Ok(())
        }
    }

    fn reader(most: usize, writes: usize) -> Reader {
        Reader {
            most,
            writes,
            ..Reader::default()
        }
    }

    #[test]
    fn forms() {
        for (give, priority, expected) in [
            (Give::Lines, None, &b"3 65535 3 00ab7f -\n"[..]),
            (Give::Lines, Some(0), b"3 65535 3 00ab7f 0\n"),
            (Give::Lines, Some(7), b"3 65535 3 00ab7f 7\n"),
            // The VLAN tag stands in the frame itself.
            (Give::Raw, None, b"\x00\x03\x00\xab\x7f"),
            (Give::Raw, Some(7), b"\x00\x03\x00\xab\x7f"),
            (Give::Nothing, Some(7), b""),
        ] {
            let mut up = Up::new(give, BYTES).unwrap();
            up.hand_up(3, 65535, priority.and_then(Priority::new), &[0, 0xAB, 0x7F]);
            let mut all = reader(BYTES, 9);
            up.give(&mut all).unwrap();
            assert_eq!(all.has, expected);
            assert_eq!((up.waiting(), up.frames()), (0, 0));
        }
    }

    #[test]
    fn the_longest_forms_have_room() {
        for (give, most) in [(Give::Lines, LINE_MOST), (Give::Raw, RAW_MOST)] {
            let mut up = Up::new(give, BYTES).unwrap();
            let (slot, frame) = (Stream::SLOTS_MOST, [7; Stream::FRAME_MOST]);
            up.hand_up(slot, u16::MAX, Priority::new(7), &frame);
            assert!(up.waiting() <= most);
        }
    }

    /// Each line has the priority of its own frame, whatever waits before it and wherever the buffer wraps.
    #[test]
    fn priorities_stay_with_their_frames() {
        let mut up = Up::new(Give::Lines, BYTES).unwrap();
        let (mut slow, mut handed_up) = (reader(777, 0), 0_usize);
        // Up to the longest frame that a tag was in.
        let length = |n: usize| 14 + n * 331 % (Stream::UNTAGGED_MOST - 13);
        let priority = |n: usize| Priority::new((n % 9) as u8);
        while handed_up < 3000 {
            while !up.is_full() {
                let n = handed_up;
                let frame = vec![n as u8; length(n)];
                up.hand_up(n % Stream::SLOTS_MOST, n as u16, priority(n), &frame);
                handed_up += 1;
            }
            slow.writes = 7;
            up.give(&mut slow).unwrap();
        }
        slow.writes = usize::MAX;
        up.give(&mut slow).unwrap();
        let text = String::from_utf8(slow.has).unwrap();
        assert_eq!(text.lines().count(), handed_up);
        assert!((0..handed_up).any(|n| length(n) == Stream::UNTAGGED_MOST));
        for (n, line) in text.lines().enumerate() {
            let (slot, bytes) = (n % Stream::SLOTS_MOST, length(n));
            let hex = format!("{:02x}", n as u8).repeat(bytes);
            let last = priority(n).map_or("-".to_string(), |p| p.to_string());
            assert_eq!(line, format!("{slot} {n} {bytes} {hex} {last}"));
        }
    }

    #[test]
    fn full_and_half() {
        let mut up = Up::new(Give::Raw, BYTES).unwrap();
        let frame = [5; 1998];
        for _ in 0..3 {
            assert!(!up.is_full());
            up.hand_up(0, 1, None, &frame);
        }
        assert!(up.is_half_full() && !up.is_full());
        up.hand_up(0, 1, None, &frame);
        assert!(up.is_full());
        let mut slow = reader(BYTES / 2 - 193, 1);
        up.give(&mut slow).unwrap();
        assert!(up.waiting() == BYTES / 2 + 1 && up.is_half_full());
        up.give(&mut reader(1, 1)).unwrap();
        assert!(!up.is_half_full());
        let nothing = Up::new(Give::Nothing, BYTES).unwrap();
        assert!(!nothing.is_full() && !nothing.is_half_full());
    }

    /// Whatever the reader takes of each write, it has every frame in order, also where the buffer wraps.
    #[test]
    fn a_buffer_that_wraps_and_writes_that_take_a_part() {
        for most in [1, 7, 1000, 5000, BYTES] {
            let mut up = Up::new(Give::Raw, BYTES).unwrap();
            let (mut slow, mut expected) = (reader(most, 0), Vec::new());
            let mut handed_up = 0_usize;
            while expected.len() < 20 * BYTES {
                while !up.is_full() {
                    let frame = vec![handed_up as u8; 14 + handed_up * 37 % 1980];
                    up.hand_up(0, 0, None, &frame);
                    expected.extend_from_slice(&(frame.len() as u16).to_be_bytes());
                    expected.extend_from_slice(&frame);
                    handed_up += 1;
                }
                slow.writes = 1 + BYTES / 2 / most;
                up.give(&mut slow).unwrap();
                // What is not given whole is counted.
                let (mut whole, mut at) = (0, 0);
                while at < slow.has.len() {
                    at += 2 + usize::from(u16::from_be_bytes([expected[at], expected[at + 1]]));
                    whole += usize::from(at <= slow.has.len());
                }
                assert_eq!(up.frames(), handed_up - whole);
                assert_eq!(up.waiting(), expected.len() - slow.has.len());
            }
            slow.writes = usize::MAX;
            up.give(&mut slow).unwrap();
            assert!(slow.has == expected && up.frames() == 0);
        }
    }

    #[test]
    fn a_reader_that_dies_leaves_its_frames() {
        let mut up = Up::new(Give::Lines, BYTES).unwrap();
        for _ in 0..5 {
            up.hand_up(0, 1, None, &[1; 20]);
        }
        // One whole line and a part of the next.
        up.give(&mut reader(60, 1)).unwrap();
        assert_eq!(up.frames(), 4);
        let mut dead = reader(0, 0);
        dead.broken = true;
        assert_eq!(
            up.give(&mut dead).unwrap_err().kind(),
            ErrorKind::BrokenPipe
        );
        assert_eq!(up.frames(), 4);
        // One that takes nothing and says so by a zero is no endless loop.
        assert!(up.give(&mut reader(0, 1)).is_err());
    }
}
