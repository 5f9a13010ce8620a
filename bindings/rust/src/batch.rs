//! Up to 32 frames in one call: how they are packed, and what the call answers.

use crate::archive::{ArrivalAnswer, BatchAnswer, FRAMES_MOST, HANDED_UP};
use crate::priority::Priority;
use crate::receiver::Arrival;
use crate::record::Stream;
use crate::refusal::Refusal;

/// Bytes of the length before each frame.
pub const LENGTH: usize = 2;

/// Bytes of output in which no batch lacks room: 32 of the longest frames, each without its tag and behind its length.
pub const ROOM_ENOUGH: usize = FRAMES_MOST * (LENGTH + Stream::UNTAGGED_MOST);

/// What a batch that was not refused answers.
///
/// ```
/// use nippitsun::{batch, Receiver, Refusal, Settings, Stream};
///
/// let mut receiver = Receiver::new(8);
/// let slot = receiver.open(Settings {
///     destination: [2, 0, 0, 0, 0, 1],
///     vlan: 0,
///     rule: Stream::VECTOR_RULE,
///     window: 64,
///     time: 3,
/// })?;
///
/// // What a network's ring held: the number 7, its twin, a frame with no tag, and the number 8.
/// let mut frame = [
///     2, 0, 0, 0, 0, 1, 2, 0, 0, 0, 0, 2, 0xF1, 0xC1, 0, 0, 0, 7, 0x08, 0x00, 0xAB,
/// ];
/// let mut buffer = [0; 1000];
/// let mut frames = batch::Frames::new(&mut buffer);
/// frames.push(&frame)?;
/// frames.push(&frame)?;
/// frames.push(&[0; 60])?;
/// frame[17] = 8;
/// frames.push(&frame)?;
///
/// let mut out = vec![0; batch::ROOM_ENOUGH];
/// let answer = receiver.batch(0, frames.count(), frames.bytes(), &mut out)?;
/// assert_eq!(answer.frames(), 4);
/// let refusals: Vec<_> = answer.answers().map(|a| a.err()).collect();
/// assert_eq!(refusals, [None, None, Some(Refusal::Untagged), None]);
///
/// // The commands to carry out.
/// let up: Vec<_> = answer.handed_up().collect();
/// assert_eq!(up.len(), 2);
/// assert_eq!((up[0].place, up[0].slot, up[0].number), (0, slot, 7));
/// assert_eq!((up[1].place, up[1].slot, up[1].number), (3, slot, 8));
/// assert_eq!(up[1].frame[12..], [0x08, 0x00, 0xAB]);
/// assert_eq!(up[1].priority, None); // no VLAN tag
/// # Ok::<(), Refusal>(())
/// ```
#[derive(Clone, Debug)]
pub struct Batch<'o> {
    told: BatchAnswer,
    out: &'o [u8],
}

/// A frame that a batch handed up.
#[derive(Clone, Copy, Debug, PartialEq, Eq)]
pub struct HandedUp<'o> {
    /// Its place in the batch, from 0.
    pub place: usize,
    /// The slot of its stream.
    pub slot: usize,
    /// The number in its tag.
    pub number: u16,
    /// The priority in its VLAN tag as it came; `None` if it had none.
    pub priority: Option<Priority>,
    /// The frame without its tag, as it stands in the output.
    pub frame: &'o [u8],
}

impl<'o> Batch<'o> {
    pub(crate) fn new(told: BatchAnswer, out: &'o [u8]) -> Batch<'o> {
        Batch { told, out }
    }

    /// How many frames came before one that was refused with 8 ([`Refusal::Room`]), else the count. That one is answered too,
    /// and [`behind`] leads to it.
    pub fn frames(&self) -> usize {
        self.told.frames
    }

    /// The answers of the frames that the call reached, each in its place. There is none for a frame behind one that was refused
    /// with 8.
    pub fn answers(&self) -> impl Iterator<Item = Result<Arrival, Refusal>> + '_ {
        let mark = ArrivalAnswer::default();
        let reached = self.told.answers.iter().take_while(move |&&a| a != mark);
        reached.map(Arrival::told)
    }

    /// The frames handed up, in the order in which they came. These, and no others, are the commands to carry out.
    pub fn handed_up(&self) -> impl Iterator<Item = HandedUp<'o>> + '_ {
        let mut packed = 0;
        let answers = self.told.answers.iter().enumerate();
        answers
            .filter(|(_, a)| a.verdict == HANDED_UP)
            .map(move |(place, a)| {
                let start = packed + LENGTH;
                packed = start + a.length;
                HandedUp {
                    place,
                    slot: a.slot,
                    number: a.number,
                    priority: Priority::told(a),
                    frame: &self.out[start..packed],
                }
            })
    }
}

/// The buffer of a batch behind so many frames: what to call again when 8 has ended a batch. Empty if the lengths run past it.
///
/// ```
/// use nippitsun::{batch, Receiver, Refusal};
///
/// /// All frames of a buffer, through an output of any size that holds one frame (1996 bytes are enough).
/// fn receive(receiver: &mut Receiver, mut count: usize, mut frames: &[u8], out: &mut [u8]) -> Result<(), Refusal> {
///     while count > 0 {
///         let answer = receiver.batch(0, count, frames, out)?;
///         for up in answer.handed_up() {
///             println!("carry out {} bytes of slot {}", up.frame.len(), up.slot);
///         }
///         if answer.frames() == 0 {
///             return Err(Refusal::Room);
///         }
///         count -= answer.frames();
///         frames = batch::behind(frames, answer.frames());
///     }
///     Ok(())
/// }
/// # let mut buffer = [0; 100];
/// # let mut frames = batch::Frames::new(&mut buffer);
/// # frames.push(&[7; 60])?;
/// # receive(&mut Receiver::new(1), frames.count(), frames.bytes(), &mut [])?;
/// # Ok::<(), Refusal>(())
/// ```
pub fn behind(frames: &[u8], count: usize) -> &[u8] {
    let mut rest = frames;
    for _ in 0..count {
        let length = match rest {
            [high, low, ..] => usize::from(u16::from_be_bytes([*high, *low])),
            _ => return &[],
        };
        rest = rest.get(LENGTH + length..).unwrap_or(&[]);
    }
    rest
}

/// Packs frames into a buffer as a batch takes them: each behind its length in two bytes, high byte first.
#[derive(Debug)]
pub struct Frames<'b> {
    buffer: &'b mut [u8],
    used: usize,
    count: usize,
}

impl<'b> Frames<'b> {
    /// No frames yet, and this buffer for them.
    pub fn new(buffer: &'b mut [u8]) -> Frames<'b> {
        Frames {
            buffer,
            used: 0,
            count: 0,
        }
    }

    /// One frame more. Refused with 15 if it is the 33rd, with 3 if it is longer than two bytes can say (65535), and with 8 if
    /// the buffer has no room for it and its length: then nothing has changed. What the frame holds is not looked at.
    pub fn push(&mut self, frame: &[u8]) -> Result<(), Refusal> {
        if self.count == FRAMES_MOST {
            return Err(Refusal::Batch);
        }
        let length = u16::try_from(frame.len()).map_err(|_| Refusal::Long)?;
        let end = self.used + LENGTH + frame.len();
        let place = self.buffer.get_mut(self.used..end).ok_or(Refusal::Room)?;
        let (before, bytes) = place.split_at_mut(LENGTH);
        before.copy_from_slice(&length.to_be_bytes());
        bytes.copy_from_slice(frame);
        self.used = end;
        self.count += 1;
        Ok(())
    }

    /// How many frames there are.
    pub fn count(&self) -> usize {
        self.count
    }

    /// The frames with their lengths.
    pub fn bytes(&self) -> &[u8] {
        &self.buffer[..self.used]
    }
}
