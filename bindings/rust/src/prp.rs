//! PRP lines: a frame with PRP's trailer turned into one with the redundancy tag, and back. No table is needed.
//!
//! A frame of a PRP line has no tag. It ends in a trailer, high bytes first: the number in 16 bits, LAN in 4 bits (A or B hex), the
//! size in 12 bits, and 88FB if the [kind](Kind) is that of 2012. The size counts the bytes after the type field, the trailer's
//! too.

use crate::archive;
use crate::refusal::Refusal;

/// The kind of trailer on a PRP line: it is set for the line, and no frame is taken as both.
///
/// The first edition's is told from other bytes by LAN and size alone: where a frame without a trailer ends in random bytes, one of
/// 32768 is taken for one.
#[derive(Clone, Copy, Debug, PartialEq, Eq, Hash)]
#[repr(u8)]
pub enum Kind {
    /// The first edition's: number, LAN and size.
    First = 0,
    /// That of 2012: the same, then 88FB.
    Of2012 = 1,
}

impl Kind {
    /// Bytes of the trailer.
    pub const fn width(self) -> usize {
        match self {
            Kind::First => 4,
            Kind::Of2012 => 6,
        }
    }
}

/// What a turn from PRP or to PRP answers.
#[derive(Clone, Copy, Debug, PartialEq, Eq)]
pub struct Turned {
    /// 0 is LAN A, 1 is LAN B.
    pub network: u8,
    /// The number in the trailer and in the tag.
    pub number: u16,
    /// Bytes written to the output.
    pub length: usize,
}

/// Turns a PRP frame into a tagged one with the same number, and writes it to the start of the output. The answer tells the
/// network that LAN gives: it is the one of the frame's [arrival](crate::Receiver::arrival).
///
/// Refusals 3 (the tagged frame would have more than 2000 bytes), 4 (shorter than its header and trailer together), 13, 16, 8 in
/// this order. Any source is taken, but an arrival then refuses a group's. The output must hold `frame.len() + 6 - kind.width()`
/// bytes, and [`Stream::FRAME_MOST`](crate::Stream::FRAME_MOST) bytes are always enough.
///
/// ```
/// use nippitsun::prp::{self, Kind, Turned};
/// use nippitsun::{Receiver, Refusal, Settings, Stream, Verdict};
///
/// // Number 7, once from LAN A and once from LAN B. Behind the type stand 7 bytes: one of the command, and the trailer.
/// let a = [2, 0, 0, 0, 0, 1, 2, 0, 0, 0, 0, 2, 0x08, 0x00, 0xAB, 0, 7, 0xA0, 7, 0x88, 0xFB];
/// let b = [2, 0, 0, 0, 0, 1, 2, 0, 0, 0, 0, 2, 0x08, 0x00, 0xAB, 0, 7, 0xB0, 7, 0x88, 0xFB];
/// let mut tagged = [0; Stream::FRAME_MOST];
/// let turned = prp::from(&b, Kind::Of2012, &mut tagged)?;
/// assert_eq!(turned, Turned { network: 1, number: 7, length: 21 });
/// assert_eq!(tagged[..12], b[..12]);
/// assert_eq!(tagged[12..21], [0xF1, 0xC1, 0, 0, 0, 7, 0x08, 0x00, 0xAB]);
///
/// // With the wrong setting there is no trailer.
/// assert_eq!(prp::from(&b, Kind::First, &mut tagged), Err(Refusal::Trailer));
///
/// // A receiver hands each pair up once.
/// let mut receiver = Receiver::new(8);
/// receiver.open(Settings {
///     destination: [2, 0, 0, 0, 0, 1],
///     vlan: 0,
///     rule: Stream::VECTOR_RULE,
///     window: 4,
///     time: 3,
/// })?;
/// let mut out = [0; Stream::FRAME_MOST];
/// let mut receive = |frame: &[u8]| -> Result<Verdict, Refusal> {
///     let turned = prp::from(frame, Kind::Of2012, &mut tagged)?;
///     Ok(receiver.arrival(turned.network, &tagged[..turned.length], &mut out)?.verdict)
/// };
/// assert_eq!(receive(&a)?, Verdict::HandedUp { length: 15 });
/// assert_eq!(receive(&b)?, Verdict::Duplicate);
/// assert_eq!(out[..15], a[..15]);
/// # Ok::<(), Refusal>(())
/// ```
pub fn from(frame: &[u8], kind: Kind, out: &mut [u8]) -> Result<Turned, Refusal> {
    turned(archive::from_prp(frame, kind as u8, out))
}

/// Turns a tagged frame into a PRP frame for a network, with the tag's number and the LAN of the network, and writes it to the
/// start of the output. What [`from`] wrote becomes the PRP frame that it was, with the same kind and the network that was told.
///
/// Refusals 2, 3, 4, 5, then 4 again (the frame without its tag is short: 8100 then stands at 12, and fewer than 18 bytes are
/// left), 8 in this order. Any source is taken, and any type behind the tag: if that is F1C1, [`from`] refuses what comes of it
/// with 13. The output must hold `frame.len() - 6 + kind.width()` bytes, and [`Stream::FRAME_MOST`](crate::Stream::FRAME_MOST)
/// bytes are always enough.
///
/// ```
/// use nippitsun::prp::{self, Kind, Turned};
/// use nippitsun::{Refusal, Sender};
///
/// // One number for both networks, and for each its own trailer.
/// let frame = [2, 0, 0, 0, 0, 1, 2, 0, 0, 0, 0, 2, 0x08, 0x00, 0xAB];
/// let (mut out0, mut out1) = ([0; 21], [0; 21]);
/// let sent = Sender { next: 7 }.send(&frame, &mut out0, &mut out1)?;
///
/// let mut line = [0; 21];
/// let turned = prp::to(&out0[..sent.length], 0, Kind::Of2012, &mut line)?;
/// assert_eq!(turned, Turned { network: 0, number: 7, length: 21 });
/// assert_eq!(line[..15], frame);
/// assert_eq!(line[15..], [0, 7, 0xA0, 7, 0x88, 0xFB]);
///
/// let turned = prp::to(&out1[..sent.length], 1, Kind::First, &mut line)?;
/// assert_eq!(turned, Turned { network: 1, number: 7, length: 19 });
/// assert_eq!(line[15..19], [0, 7, 0xB0, 5]);
///
/// assert_eq!(prp::to(&frame, 0, Kind::First, &mut line), Err(Refusal::Untagged));
/// # Ok::<(), Refusal>(())
/// ```
pub fn to(frame: &[u8], network: u8, kind: Kind, out: &mut [u8]) -> Result<Turned, Refusal> {
    turned(archive::to_prp(frame, network, kind as u8, out))
}

fn turned(a: archive::PrpAnswer) -> Result<Turned, Refusal> {
    Refusal::check(a.refusal)?;
    Ok(Turned {
        network: a.network,
        number: a.number,
        length: a.length,
    })
}
