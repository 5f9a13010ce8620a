//! A receiver that owns its table and the index beside it.

use crate::archive::{self, PLACES};
use crate::batch::Batch;
use crate::priority::Priority;
use crate::record::{Counts, Stream};
use crate::refusal::Refusal;

/// Key and settings of a stream to open.
#[derive(Clone, Copy, Debug, PartialEq, Eq)]
pub struct Settings {
    /// The key's destination, as it stands in a frame.
    pub destination: [u8; 6],
    /// The key's VLAN id, 0 to 4094. 0 is also a frame with no VLAN tag, and the only one of a virtual link.
    pub vlan: u16,
    /// [`Stream::VECTOR_RULE`] or [`Stream::MATCH_RULE`], or [`Stream::LINK_RULE`] for a virtual link.
    pub rule: u8,
    /// The window L, 2 to 512. A virtual link has none, but the number is in this range too.
    pub window: u16,
    /// The reset time R, 1 to 65535 ticks.
    pub time: u16,
}

/// What an arrival that was not refused answers.
#[derive(Clone, Copy, Debug, PartialEq, Eq)]
pub struct Arrival {
    /// The slot of the stream.
    pub slot: usize,
    /// The number in the tag; of a virtual link: the frame's last byte.
    pub number: u16,
    /// The priority in the VLAN tag of the frame as it came, whatever the verdict. `None`: it had no VLAN tag, or it is a virtual
    /// link's, whose arrival reads none.
    pub priority: Option<Priority>,
    /// What became of the frame.
    pub verdict: Verdict,
}

impl Arrival {
    /// What an answer says.
    #[inline]
    pub(crate) fn told(a: &archive::ArrivalAnswer) -> Result<Arrival, Refusal> {
        Refusal::check(a.refusal)?;
        let verdict = match a.verdict {
            archive::HANDED_UP => Verdict::HandedUp { length: a.length },
            archive::DUPLICATE => Verdict::Duplicate,
            archive::ROGUE => Verdict::Rogue,
            _ => unreachable!("an archive of another version: its verdict has no name here"),
        };
        Ok(Arrival {
            slot: a.slot,
            number: a.number,
            priority: Priority::told(a),
            verdict,
        })
    }
}

/// The three verdicts.
#[derive(Clone, Copy, Debug, PartialEq, Eq)]
pub enum Verdict {
    /// The frame without its tag, or a virtual link's without its last byte, stands at the start of the output, or in a batch
    /// at its place there. This one, and no other, is the command to carry out.
    HandedUp {
        /// Bytes written to the output.
        length: usize,
    },
    /// The number came before; of a virtual link: it is not handed up after the last one. Nothing was written.
    Duplicate,
    /// The number is outside the window. Nothing was written. A virtual link has none.
    Rogue,
}

/// What a tick answers.
#[derive(Clone, Copy, Debug, PartialEq, Eq)]
pub struct Ticked {
    /// Streams that this tick reset.
    pub resets: u64,
    /// Records in use that are damaged.
    pub damaged: u64,
}

/// A table of streams with its index, and the calls on both.
///
/// They belong to the receiver, and every call takes `&mut self`: so a table has one caller at a time, as the proof
/// assumes. Two ports that share a receiver share it by a [`Mutex`](std::sync::Mutex), locked for one call at a time.
///
/// The index, by which an open, a close and a batch find a key's slot, is the receiver's own concern. It is made anew before the
/// next of these calls when the records were given or lent to be written to. So 18 is not given, unless memory is damaged.
///
/// ```
/// use nippitsun::{Receiver, Refusal, Settings, Stream, Verdict};
///
/// let mut receiver = Receiver::new(8);
/// let slot = receiver.open(Settings {
///     destination: [2, 0, 0, 0, 0, 1],
///     vlan: 0,
///     rule: Stream::VECTOR_RULE,
///     window: 4,
///     time: 3,
/// })?;
///
/// // A frame with the number 7, as it comes on both networks.
/// let frame = [
///     2, 0, 0, 0, 0, 1, 2, 0, 0, 0, 0, 2, 0xF1, 0xC1, 0, 0, 0, 7, 0x08, 0x00, 0xAB,
/// ];
/// let mut out = [0; Stream::FRAME_MOST];
/// let first = receiver.arrival(0, &frame, &mut out)?;
/// assert_eq!((first.slot, first.number), (slot, 7));
/// assert_eq!(first.verdict, Verdict::HandedUp { length: 15 });
/// assert_eq!(out[12..15], [0x08, 0x00, 0xAB]);
///
/// let twin = receiver.arrival(1, &frame, &mut out)?;
/// assert_eq!(twin.verdict, Verdict::Duplicate);
/// assert_eq!(receiver.counts(slot).unwrap().discarded, 1);
///
/// assert_eq!(receiver.arrival(2, &frame, &mut out), Err(Refusal::Network));
///
/// // A tap that is faulty has set the lowest bit of the first source byte: a group address, which is no sender's.
/// let mut reflected = frame;
/// reflected[6] |= 1;
/// assert_eq!(receiver.arrival(0, &reflected, &mut out), Err(Refusal::Group));
/// # Ok::<(), Refusal>(())
/// ```
#[derive(Clone, Debug)]
pub struct Receiver {
    table: Vec<Stream>,
    index: [u8; PLACES],
    /// Somebody else may have written to the table since the index was made.
    index_is_old: bool,
}

impl Default for Receiver {
    /// With no slots.
    fn default() -> Receiver {
        Receiver::new(0)
    }
}

/// By their records: the index follows from them.
impl PartialEq for Receiver {
    fn eq(&self, other: &Receiver) -> bool {
        self.table == other.table
    }
}

impl Eq for Receiver {}

impl Receiver {
    /// A receiver with so many free slots. With more than [`Stream::SLOTS_MOST`] every call is refused.
    ///
    /// ```
    /// use nippitsun::{Receiver, Refusal};
    ///
    /// assert!(Receiver::new(64).tick().is_ok());
    /// assert_eq!(Receiver::new(65).tick(), Err(Refusal::Table));
    /// ```
    pub fn new(slots: usize) -> Receiver {
        Receiver::from_records(vec![Stream::default(); slots])
    }

    /// A receiver with these records, whatever they hold. The calls themselves tell damaged records from lawful ones.
    ///
    /// ```
    /// use nippitsun::{Receiver, Refusal, Stream};
    ///
    /// // In use, with settings that no stream has.
    /// let damaged = Stream { used: 1, ..Stream::default() };
    /// let mut receiver = Receiver::from_records(vec![damaged]);
    /// assert_eq!(receiver.tick()?.damaged, 1);
    /// assert_eq!(receiver.reset(0), Err(Refusal::Damaged));
    /// receiver.close(0)?;
    /// assert_eq!(receiver.tick()?.damaged, 0);
    /// # Ok::<(), Refusal>(())
    /// ```
    pub fn from_records(records: Vec<Stream>) -> Receiver {
        Receiver {
            table: records,
            index: [0; PLACES],
            index_is_old: true,
        }
    }

    /// The records, slot by slot.
    pub fn records(&self) -> &[Stream] {
        &self.table
    }

    /// The records, to write to. Anything may be written, keys too; a record in use that is not lawful then is damaged.
    pub fn records_mut(&mut self) -> &mut [Stream] {
        self.index_is_old = true;
        &mut self.table
    }

    /// Makes the index anew if it may be old. A table of more than 64 slots has none, and the call itself refuses it.
    fn renew_index(&mut self) {
        if self.index_is_old {
            archive::rebuild(&self.table, &mut self.index);
            self.index_is_old = false;
        }
    }

    /// The counters of a slot, free or in use; `None` beyond the table.
    pub fn counts(&self, slot: usize) -> Option<&Counts> {
        self.table.get(slot).map(|s| &s.counts)
    }

    /// A frame came in on a network, 0 or 1. Refusals 1, 2, 3, 4, 5, 14, 6, 7, 8 in this order. Virtual links are not looked at:
    /// those have [`Receiver::link_arrival`].
    ///
    /// The output must hold the frame without its tag for every verdict: [`Stream::FRAME_MOST`] bytes are always enough.
    /// Its bytes after a frame handed up keep their values. [`Priority`] shows how commands are sorted by what the answer tells.
    pub fn arrival(
        &mut self,
        network: u8,
        frame: &[u8],
        out: &mut [u8],
    ) -> Result<Arrival, Refusal> {
        Arrival::told(&archive::arrival(&mut self.table, network, frame, out))
    }

    /// A frame of an AFDX virtual link came in on a network, 0 or 1. Refusals 1, 2, 3, 4 (below 15 bytes), 14, 6, 7, 8 in this
    /// order. Only streams of [`Stream::LINK_RULE`] are looked at.
    ///
    /// The frame's last byte is its number, 0 to 255, and the key is its destination with VLAN id 0: no type and no VLAN tag is
    /// read, and no priority told. So it ends in the number as it is given here, without its frame check sequence and without
    /// padding that a card has put behind it.
    ///
    /// A sender numbers its first frame 0, then 1 to 255, and 1 again. After one of 1 to 255 the numbers one to 127 steps forward
    /// in that ring are handed up, and 0, with which a sender starts anew; after 0 the numbers 1 to 127; by a fresh stream any. All
    /// else is a duplicate. Numbers that are passed over are not noticed.
    ///
    /// The output must hold the frame without its last byte for both verdicts: [`Stream::FRAME_MOST`] bytes are always enough.
    /// Its bytes after a frame handed up keep their values.
    ///
    /// ```
    /// use nippitsun::{Receiver, Refusal, Settings, Stream, Verdict};
    ///
    /// let mut receiver = Receiver::new(1);
    /// let link = Settings {
    ///     destination: [3, 0, 0, 0, 0, 7],
    ///     vlan: 0,
    ///     rule: Stream::LINK_RULE,
    ///     window: 2,
    ///     time: 3,
    /// };
    /// receiver.open(link)?;
    ///
    /// // The first frame of a sender ends in 0.
    /// let first = [3, 0, 0, 0, 0, 7, 2, 0, 0, 0, 0, 32, 0x08, 0x00, 0xAB, 0];
    /// let mut out = [0; Stream::FRAME_MOST];
    /// let up = receiver.link_arrival(0, &first, &mut out)?;
    /// assert_eq!((up.number, up.verdict), (0, Verdict::HandedUp { length: 15 }));
    /// assert_eq!(out[..15], first[..15]);
    /// assert_eq!(receiver.link_arrival(1, &first, &mut out)?.verdict, Verdict::Duplicate);
    /// // An arrival of the other kind does not look at it.
    /// assert_eq!(receiver.arrival(0, &first, &mut out), Err(Refusal::Untagged));
    ///
    /// let other = Settings { vlan: 5, ..link };
    /// assert_eq!(Receiver::new(1).open(other), Err(Refusal::Setting));
    /// # Ok::<(), Refusal>(())
    /// ```
    pub fn link_arrival(
        &mut self,
        network: u8,
        frame: &[u8],
        out: &mut [u8],
    ) -> Result<Arrival, Refusal> {
        Arrival::told(&archive::link_arrival(&mut self.table, network, frame, out))
    }

    /// Up to [`FRAMES_MOST`](archive::FRAMES_MOST) frames came in on a network. They stand in one buffer, each behind its length
    /// in two bytes, high byte first, as [`batch::Frames`](crate::batch::Frames) packs them; what stands behind the last is
    /// ignored. Refusals 1, 18, 2 and 15, before any frame is looked at: then nothing has changed.
    ///
    /// Each frame is decided as a single [`Receiver::arrival`] in its turn, and what is handed up is packed into the output in the same form.
    /// A frame that is refused is answered in its place and the rest go on; but 8, no room, ends the call, and the frames from
    /// that one on can be called again. [`batch::ROOM_ENOUGH`](crate::batch::ROOM_ENOUGH) bytes of output are always enough.
    pub fn batch<'o>(
        &mut self,
        network: u8,
        count: usize,
        frames: &[u8],
        out: &'o mut [u8],
    ) -> Result<Batch<'o>, Refusal> {
        self.renew_index();
        let told = archive::batch(&mut self.table, &self.index, network, count, frames, out);
        Refusal::check(told.refusal)?;
        Ok(Batch::new(told, out))
    }

    /// Opens a stream in the lowest free slot and answers the slot. Refusals 1, 18, 9, 10, 11 in this order. A stream with the key
    /// refuses it whatever its rule, so a key has one at most.
    pub fn open(&mut self, s: Settings) -> Result<usize, Refusal> {
        self.renew_index();
        let a = archive::open(
            &mut self.table,
            &mut self.index,
            &s.destination,
            s.vlan,
            s.rule,
            s.window,
            s.time,
        );
        Refusal::check(a.refusal)?;
        Ok(a.slot)
    }

    /// Frees a slot. Its other fields stay, and a damaged record can be closed. Refusals 1, 18, 12.
    pub fn close(&mut self, slot: usize) -> Result<(), Refusal> {
        self.renew_index();
        Refusal::check(archive::close(&mut self.table, &mut self.index, slot))
    }

    /// Makes a stream fresh, which mends a damaged record. Refusals 1, 12, and 7 if its settings are out of range.
    pub fn reset(&mut self, slot: usize) -> Result<(), Refusal> {
        Refusal::check(archive::reset(&mut self.table, slot))
    }

    /// One tick for the whole table. Refusal 1.
    pub fn tick(&mut self) -> Result<Ticked, Refusal> {
        let a = archive::tick(&mut self.table);
        Refusal::check(a.refusal)?;
        Ok(Ticked {
            resets: a.resets,
            damaged: a.damaged,
        })
    }
}
