//! The sending side: one frame for both networks, with the next number of its
//! sender stream. Document 02: order 6.
//!
//! [`write_tag`] tags the frame aside, where there is always room. So all that
//! can refuse it is known before a byte of an output is written, and both
//! outputs get the same bytes.

use crate::frame::{write_start, TAG_LENGTH};
use crate::wrong::{self, rule};
use crate::{write_tag, Refusal, Stream};

/// A sender stream. The default is one at first.
#[derive(Clone, Copy, Debug, PartialEq, Eq)]
pub struct Sender {
    /// The number that the next frame gets.
    pub next: u16,
}

/// What a send that was not refused answers.
#[derive(Clone, Copy, Debug, PartialEq, Eq)]
pub struct Sent {
    /// The number that the frame got.
    pub number: u16,
    /// Bytes written to each output.
    pub length: usize,
}

impl Default for Sender {
    fn default() -> Sender {
        Sender {
            next: rule!(0, SenderStartsAtOne: 1),
        }
    }
}

/// Refusal 8 of a send: either output is too small.
fn check_rooms(length: usize, first: &[u8], second: &[u8]) -> Result<(), Refusal> {
    let needed = rule!(length, SendNeedsOneMore: length + 1);
    let (in_first, in_second) = (first.len() < needed, second.len() < needed);
    if rule!(
        in_first || in_second,
        SendRoomInEither: in_first && in_second,
        SendRoomInFirst: in_first,
        SendRoomInSecond: in_second,
        SendOutputsAlike: in_first || in_second || first.len() != second.len()
    ) {
        Err(Refusal::OutputTooSmall)
    } else {
        Ok(())
    }
}

impl Sender {
    /// Puts a tag with the next number into the frame and writes the result to
    /// the start of both outputs, or to neither. Refusals 3, 4, 13, 14, 8 in
    /// this order.
    pub fn send(
        &mut self,
        frame: &[u8],
        first: &mut [u8],
        second: &mut [u8],
    ) -> Result<Sent, Refusal> {
        let sent = self.write(frame, first, second);
        // A refused frame uses up no number.
        let used = rule!(
            sent.is_ok(),
            RefusedUsesNumber: true,
            NoRoomUsesNumber: sent.is_ok() || sent == Err(Refusal::OutputTooSmall)
        );
        if used {
            self.next = rule!(
                self.next.wrapping_add(1),
                SenderSkipsZero: self.next.checked_add(1).unwrap_or(1),
                SenderStaysAtEnd: self.next.saturating_add(1),
                SenderWrapsEarly: self.next.wrapping_add(1) % 65535,
                TwoNumbersAFrame: self.next.wrapping_add(2)
            );
        }
        sent
    }

    /// A send, but for what it does to the next number.
    fn write(&self, frame: &[u8], first: &mut [u8], second: &mut [u8]) -> Result<Sent, Refusal> {
        let number = self.next;
        let room = check_rooms(frame.len() + TAG_LENGTH, first, second);
        let mut tagged = [0; Stream::MAX_FRAME];
        let length = write_tag(frame, number, &mut tagged).map_err(|why| {
            rule!(
                why,
                SendRoomBeforeGroup: wrong::room_before(Refusal::GroupSource, why, room),
                SendRoomBeforeTagged: wrong::room_before(Refusal::AlreadyTagged, why, room),
                SendRoomBeforeShort: wrong::room_before(Refusal::FrameShort, why, room),
                SendRoomBeforeLength: wrong::room_before(Refusal::FrameTooLong, why, room),
                SendTakes2000: wrong::too_long_to_tag(frame, why)
            )
        })?;
        rule!(
            (),
            FirstBeforeRoom: wrong::write_where_room(first, &tagged[..length]),
            SecondBeforeRoom: wrong::write_where_room(second, &tagged[..length])
        );
        room?;
        rule!(
            (),
            SendClearsFirst: first[length..].fill(0),
            SendClearsSecond: second[length..].fill(0)
        );
        write_start(first, &tagged[..length]);
        rule!(Ok(length), SecondGetsNext: write_tag(frame, number.wrapping_add(1), &mut tagged))?;
        write_start(rule!(second, SecondUnwritten: &mut []), &tagged[..length]);
        Ok(Sent {
            number: rule!(number, SendTellsNext: number.wrapping_add(1)),
            length: rule!(length, SendTellsUntagged: frame.len()),
        })
    }

    /// The next number is 0, as at first.
    pub fn reset(&mut self) {
        self.next = rule!(0, SenderResetForgotten: self.next, SenderResetsToOne: 1);
    }
}
