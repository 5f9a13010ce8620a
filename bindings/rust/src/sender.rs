//! The sending side: the same tagged frame for both networks, with the next number of its stream.

use crate::archive;
use crate::refusal::Refusal;

/// A sender stream: it makes a pair of each frame, one for each network, with the next number in both.
///
/// One sender for each stream: for all frames to one destination and VLAN id, and for no others. A receiver follows the numbers
/// of each such key by themselves. The default is a sender at first, and every value is a sender. It is not `Clone`: two of one
/// count would give two frames one number.
///
/// ```
/// use nippitsun::{Receiver, Refusal, Sender, Settings, Stream, Verdict};
///
/// let mut receiver = Receiver::new(8);
/// receiver.open(Settings {
///     destination: [2, 0, 0, 0, 0, 1],
///     vlan: 0,
///     rule: Stream::VECTOR_RULE,
///     window: 4,
///     time: 3,
/// })?;
///
/// let mut sender = Sender::new();
/// let frame = [2, 0, 0, 0, 0, 1, 2, 0, 0, 0, 0, 2, 0x08, 0x00, 0xAB];
/// let (mut out0, mut out1) = ([0; Stream::FRAME_MOST], [0; Stream::FRAME_MOST]);
/// let mut out = [0; Stream::FRAME_MOST];
/// for number in 0..10 {
///     let sent = sender.send(&frame, &mut out0, &mut out1)?;
///     assert_eq!((sent.number, sent.length), (number, 21));
///
///     // Each pair is received exactly once.
///     let first = receiver.arrival(0, &out0[..sent.length], &mut out)?;
///     assert_eq!(first.verdict, Verdict::HandedUp { length: 15 });
///     assert_eq!(out[..15], frame);
///     let twin = receiver.arrival(1, &out1[..sent.length], &mut out)?;
///     assert_eq!(twin.verdict, Verdict::Duplicate);
/// }
///
/// // A refused frame uses up no number, and goes out on neither network.
/// assert_eq!(sender.send(&frame, &mut out0, &mut out1[..20]), Err(Refusal::Room));
/// assert_eq!(sender.next, 10);
/// # Ok::<(), Refusal>(())
/// ```
#[repr(C)]
#[derive(Debug, Default, PartialEq, Eq)]
pub struct Sender {
    /// The number that the next frame gets: 0 at first and after a reset, and 0 again after 65535.
    pub next: u16,
}

/// What a send that was not refused answers.
#[derive(Clone, Copy, Debug, PartialEq, Eq)]
pub struct Sent {
    /// The number that the frame got.
    pub number: u16,
    /// Bytes written to each of the two outputs.
    pub length: usize,
}

impl Sender {
    /// A sender at first: its next number is 0.
    pub fn new() -> Sender {
        Sender::default()
    }

    /// Puts a tag with the next number into the frame, and writes the same tagged frame to the start of both outputs, one for
    /// each network, or to neither. The next number then rises by 1, and 65535 is followed by 0.
    ///
    /// Refusals 3, 4, 13, 14, 8 in this order, as of [`tag::put`](crate::tag::put): then no byte of either output has changed,
    /// and no number is used up. 8 is given if either output holds fewer than `frame.len() + 6` bytes. The two may differ in
    /// length, and [`Stream::FRAME_MOST`](crate::Stream::FRAME_MOST) bytes are always enough.
    pub fn send(
        &mut self,
        frame: &[u8],
        out0: &mut [u8],
        out1: &mut [u8],
    ) -> Result<Sent, Refusal> {
        let a = archive::send(self, frame, out0, out1);
        Refusal::check(a.refusal)?;
        Ok(Sent {
            number: a.number,
            length: a.length,
        })
    }

    /// The next number is 0, as at first.
    ///
    /// To the receivers it is as if the sender's program started anew: they follow the new numbers once their streams are reset,
    /// by R ticks with nothing handed up or by call. Until then they may take what is sent for duplicates or rogues.
    pub fn reset(&mut self) {
        archive::reset_sender(self);
    }
}
