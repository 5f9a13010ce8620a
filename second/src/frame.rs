//! Reading a frame's header, and putting the redundancy tag in and taking it
//! out. Document 01: "The frame" and the last two calls of "Calls and the order
//! of checks". Document 02: order 1; order 10 for the frames of virtual links;
//! order 11 for the priority.

use crate::wrong::{self, rule};
use crate::{Refusal, Stream};

/// Bytes of the redundancy tag.
pub const TAG_LENGTH: usize = 6;
/// Marks the redundancy tag.
pub const TAG_MARK: [u8; 2] = [0xF1, 0xC1];
/// Marks a VLAN tag.
pub const VLAN_MARK: [u8; 2] = [0x81, 0x00];

/// The first source byte.
const SOURCE: usize = 6;
/// Where the two addresses end.
const AFTER_ADDRESSES: usize = 12;
/// Where the VLAN tag ends, if there is one.
const AFTER_VLAN: usize = 16;
/// Fewest bytes of a virtual link's frame: addresses, type field and number.
const SHORTEST_LINK: usize = 15;

/// What stands before the type field.
#[derive(Clone, Copy)]
pub(crate) struct Header {
    destination: [u8; 6],
    vlan: u16,
    /// The VLAN tag's three priority bits, 0 with no such tag.
    priority: u8,
    /// Does a VLAN tag stand at 12? One of priority 0 is another thing than none.
    vlan_tag: bool,
    /// Where the type field is. At least two bytes stand there.
    pub type_place: usize,
}

/// What an arrival reads in a frame: the key, what it tells of the VLAN tag, the
/// number, and where the bytes stand that are not handed up, and how many.
#[derive(Clone, Copy)]
pub(crate) struct Numbered {
    pub destination: [u8; 6],
    pub vlan: u16,
    pub priority: u8,
    pub vlan_tag: bool,
    pub number: u16,
    pub place: usize,
    pub width: usize,
}

/// What taking a tag out answers.
#[derive(Clone, Copy, Debug, PartialEq, Eq)]
pub struct Taken {
    /// The number in the tag.
    pub number: u16,
    /// Bytes written to the output.
    pub length: usize,
}

/// The frame's first six bytes. It is not short.
fn destination(frame: &[u8]) -> [u8; 6] {
    let mut destination = [0; 6];
    destination.copy_from_slice(&frame[..6]);
    destination
}

/// The three highest of the 16 bits behind 8100. The bit below them is no part of
/// the priority, nor of the id.
fn priority(tci: u16) -> u8 {
    let bits = rule!(
        tci >> 13,
        PriorityOneLow: tci >> 12 & 7,
        PriorityFourBits: tci >> 12,
        PriorityOfId: tci & 7,
        PriorityOfByte15: tci >> 5 & 7,
        PriorityTwoBits: tci >> 13 & 3,
        PriorityFrom7: 7 - (tci >> 13),
        PriorityTurned: (tci & 0xE000).reverse_bits()
    );
    bits as u8
}

/// The 14 and 18 byte rules, and what can be read once they hold. A VLAN tag is
/// looked for at 12 of the frame as it came: 8100 behind the redundancy tag is
/// none, though it stands at 12 of what is handed up.
pub(crate) fn header(frame: &[u8]) -> Result<Header, Refusal> {
    if frame.len() < AFTER_ADDRESSES + 2 {
        return Err(Refusal::FrameShort);
    }
    let destination = destination(frame);
    if frame[AFTER_ADDRESSES..AFTER_ADDRESSES + 2] != VLAN_MARK {
        return Ok(Header {
            destination,
            vlan: rule!(
                0,
                VlanBehindTag: wrong::tci_behind_tag(frame).map_or(0, |tci| tci & 0x0FFF)
            ),
            priority: rule!(
                0,
                PriorityAsWritten: wrong::tci_behind_tag(frame).map_or(0, priority)
            ),
            vlan_tag: rule!(
                false,
                PriorityAsWritten: wrong::tci_behind_tag(frame).is_some(),
                TagAsWritten: wrong::tci_behind_tag(frame).is_some(),
                UntaggedSaysTag: true
            ),
            type_place: AFTER_ADDRESSES,
        });
    }
    if frame.len() < AFTER_VLAN + 2 {
        return Err(rule!(
            Refusal::FrameShort,
            ShortAt17: if frame.len() == 17 { Refusal::NoTag } else { Refusal::FrameShort }
        ));
    }
    let tci = u16::from_be_bytes([frame[14], frame[15]]);
    // The four high bits are no part of the id.
    let vlan = tci & rule!(0x0FFF, VlanUnmasked: 0xFFFF);
    Ok(Header {
        destination,
        vlan: rule!(vlan, VlanZeroApart: if vlan == 0 { 4095 } else { vlan }),
        // Id 0 gives the key of no tag, and the tag is there all the same.
        priority: rule!(
            priority(tci),
            VlanZeroUntagged: if vlan == 0 { 0 } else { priority(tci) }
        ),
        vlan_tag: rule!(
            true,
            TagUntold: false,
            PriorityZeroSaysNone: priority(tci) != 0,
            VlanZeroSaysNone: vlan != 0,
            VlanZeroUntagged: vlan != 0
        ),
        type_place: AFTER_VLAN,
    })
}

/// Does F1C1 stand at the type field?
pub(crate) fn carries_tag(frame: &[u8], header: Header) -> bool {
    let place = header.type_place;
    let reserved = frame.get(place + 2..place + 4);
    frame[place..place + 2] == TAG_MARK && rule!(true, ReservedRead: reserved == Some(&[0, 0]))
}

/// Refusal 3: the frame has more bytes than this.
fn at_most(longest: usize, frame: &[u8]) -> Result<(), Refusal> {
    if frame.len() > longest {
        Err(Refusal::FrameTooLong)
    } else {
        Ok(())
    }
}

/// Refusal 3 of an arrival and of taking a tag out.
pub(crate) fn check_length(frame: &[u8]) -> Result<(), Refusal> {
    at_most(rule!(Stream::MAX_FRAME, Longest1999: 1999), frame)
}

/// Reads a frame that should carry a tag: refusals 3, 4, 5 in this order.
pub(crate) fn read_tagged(frame: &[u8]) -> Result<Numbered, Refusal> {
    check_length(frame)?;
    let header = header(frame)?;
    let place = header.type_place;
    if !carries_tag(frame, header) {
        return Err(Refusal::NoTag);
    }
    // Once the mark is found, the tag and the former type field must be whole.
    if frame.len() < place + TAG_LENGTH + rule!(2, ShortBehindTag: 0) {
        return Err(Refusal::FrameShort);
    }
    // The reserved bytes at place + 2 and place + 3 are not looked at.
    let number = [frame[place + 4], frame[place + 5]];
    Ok(Numbered {
        destination: header.destination,
        vlan: header.vlan,
        priority: header.priority,
        vlan_tag: header.vlan_tag,
        number: rule!(u16::from_be_bytes(number), NumberLowFirst: u16::from_le_bytes(number)),
        place,
        width: TAG_LENGTH,
    })
}

/// Reads a frame of a virtual link: refusals 3, 4. Its last byte is the number,
/// and its key has VLAN id 0. Neither 8100 nor F1C1 means anything here, so it
/// has no VLAN tag and no priority.
pub(crate) fn read_link(frame: &[u8]) -> Result<Numbered, Refusal> {
    let longest = rule!(Stream::MAX_FRAME, LinkLongest1994: 1994, LinkLongest2001: 2001);
    at_most(longest, frame)?;
    if frame.len() < rule!(SHORTEST_LINK, LinkShortAt14: 14) {
        let why = Refusal::FrameShort;
        return Err(rule!(why, LinkGroupBeforeShort: wrong::group_before(why, frame, why)));
    }
    rule!(
        Ok(()),
        LinkShortWithVlan: header(frame).map(drop),
        LinkGives5: read_tagged(frame).map(drop),
        LinkRefusesTagged: header(frame).map_or(Ok(()), |h| wrong::refuse_tagged(frame, h))
    )?;
    let last = frame.len() - 1;
    Ok(Numbered {
        destination: destination(frame),
        vlan: rule!(0, LinkReadsVlan: header(frame)?.vlan),
        priority: rule!(0, LinkHasPriority: header(frame).map_or(0, |h| h.priority)),
        vlan_tag: rule!(
            false,
            LinkHasPriority: header(frame).map_or(false, |h| h.vlan_tag),
            LinkSaysTag: true
        ),
        number: frame[last].into(),
        place: last,
        width: rule!(1, LinkKeepsLastByte: 0),
    })
}

/// Refusal 14 of an arrival and of the tag writer. The frame is not short.
pub(crate) fn check_source(frame: &[u8]) -> Result<(), Refusal> {
    let first = frame[rule!(SOURCE, GroupOfDestination: 0)];
    // The lowest bit marks a group; the others say nothing about it.
    if first & rule!(0x01, GroupHighBit: 0x80, GroupAnyBit: 0xFF) != 0 {
        Err(Refusal::GroupSource)
    } else {
        Ok(())
    }
}

/// Refusal 8: the output has no room for so many bytes.
pub(crate) fn check_room(length: usize, output: &[u8]) -> Result<(), Refusal> {
    if output.len() < length {
        Err(Refusal::OutputTooSmall)
    } else {
        Ok(())
    }
}

/// Writes these bytes to the start of the output. The room was checked before.
pub(crate) fn write_start(output: &mut [u8], bytes: &[u8]) {
    for (to, byte) in output.iter_mut().zip(bytes) {
        *to = *byte;
    }
}

/// Writes what is handed up of the frame. The room was checked before.
pub(crate) fn write_bare(frame: &[u8], read: Numbered, output: &mut [u8]) -> usize {
    let place = read.place;
    let length = frame.len() - read.width;
    output[..place].copy_from_slice(&frame[..place]);
    output[place..length].copy_from_slice(&frame[place + read.width..]);
    rule!((), ClearsRest: output[length..].fill(0));
    length
}

/// Writes the frame with a tag at the place. The room was checked before.
pub(crate) fn write_with_tag(frame: &[u8], place: usize, number: u16, output: &mut [u8]) -> usize {
    let length = frame.len() + TAG_LENGTH;
    output[..place].copy_from_slice(&frame[..place]);
    output[place..place + 2].copy_from_slice(&TAG_MARK);
    // Reserved bytes are written zero.
    output[place + 2..place + 4].copy_from_slice(&[0, 0]);
    output[place + 4..place + TAG_LENGTH].copy_from_slice(&number.to_be_bytes());
    output[place + TAG_LENGTH..length].copy_from_slice(&frame[place..]);
    length
}

/// Puts a tag with this number into the frame and writes the result to the
/// start of the output. Answers the length written. Refusals 3, 4, 13, 14, 8
/// in this order.
pub fn write_tag(frame: &[u8], number: u16, output: &mut [u8]) -> Result<usize, Refusal> {
    if frame.len() > Stream::MAX_UNTAGGED {
        return Err(Refusal::FrameTooLong);
    }
    let header = header(frame)?;
    let room = check_room(frame.len() + TAG_LENGTH, output);
    let source = check_source(frame);
    rule!(Ok(()), RoomBeforeTagged: room, GroupBeforeTagged: source)?;
    if carries_tag(frame, header) {
        return Err(Refusal::AlreadyTagged);
    }
    rule!(source, WriterTakesGroup: Ok(()), RoomBeforeGroup: room.and(source))?;
    room?;
    Ok(write_with_tag(frame, header.type_place, number, output))
}

/// Takes the tag out of the frame and writes the rest to the start of the
/// output. Refusals 3, 4, 5, 8 in this order. A group source is not
/// refused here.
pub fn take_tag(frame: &[u8], output: &mut [u8]) -> Result<Taken, Refusal> {
    let tagged = read_tagged(frame)?;
    rule!(Ok(()), TakeRefusesGroup: check_source(frame))?;
    check_room(frame.len() - tagged.width, output)?;
    let length = write_bare(frame, tagged, output);
    Ok(Taken {
        number: tagged.number,
        length,
    })
}
