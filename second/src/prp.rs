//! PRP lines: a frame with a trailer at its end turned into a tagged one, and
//! back. Document 02: order 7.
//!
//! Each call puts its result together aside, where there is always room. So all
//! that can refuse it is known before a byte of the output is written.

use crate::frame::{
    carries_tag, check_length, check_room, check_source, header, read_tagged, write_bare,
    write_start, write_with_tag, TAG_LENGTH,
};
use crate::table::check_network;
use crate::wrong::{self, rule};
use crate::{Refusal, Stream};

/// Bytes of the type field.
const TYPE_LENGTH: usize = 2;
/// The last two bytes of a trailer of 2012.
const SUFFIX: [u8; 2] = [0x88, 0xFB];
/// LAN A in a trailer. LAN B is the number behind it.
const LAN_A: u8 = 0xA;

/// The trailer that a line uses.
#[derive(Clone, Copy, Debug, PartialEq, Eq)]
pub enum Trailer {
    /// The first edition's.
    First,
    /// That of 2012, with 88FB at its end.
    Of2012,
}

/// What a turn from PRP or to PRP answers.
#[derive(Clone, Copy, Debug, PartialEq, Eq)]
pub struct Turned {
    /// The number in the trailer and in the tag.
    pub number: u16,
    /// 0 is LAN A, 1 is LAN B.
    pub network: u8,
    /// Bytes written to the output.
    pub length: usize,
}

impl Trailer {
    /// What the line's setting means. Every byte is one of the two.
    pub fn of_setting(setting: u8) -> Trailer {
        let first = rule!(
            setting == 0,
            PrpOneIs2012: setting != 1,
            PrpKindByLowBit: setting & 1 == 0,
            PrpKindsExchanged: setting != 0
        );
        if first {
            Trailer::First
        } else {
            Trailer::Of2012
        }
    }

    /// Its bytes: number, LAN and size, and with 2012 the suffix.
    fn width(self) -> usize {
        match self {
            Trailer::First => 4,
            Trailer::Of2012 => 4 + SUFFIX.len(),
        }
    }

    /// What the trailer must have as its size, in a frame of this length, the
    /// trailer included, with its type field at the place.
    fn fitting_size(self, length: usize, type_place: usize) -> u16 {
        let size = length - (type_place + TYPE_LENGTH);
        let size = rule!(
            size,
            PrpSizeBare: size - self.width(),
            PrpSizeForgetsSuffix: size - (self.width() - 4),
            PrpSizeForgetsVlan: length - 14,
            PrpSizeWithType: size + TYPE_LENGTH,
            PrpSizeWhole: length
        );
        size as u16
    }

    /// The trailer for a frame that goes out on this network.
    fn written(self, number: u16, network: u8, size: u16) -> Vec<u8> {
        let number = rule!(number, PrpNumberLowFirst: number.swap_bytes());
        let lan = rule!(LAN_A + network, PrpLanExchanged: LAN_A + 1 - network);
        let lan_and_size = u16::from(lan) << 12 | size;
        let mut trailer = [number.to_be_bytes(), lan_and_size.to_be_bytes()].concat();
        if self == Trailer::Of2012 {
            trailer.extend(SUFFIX);
        }
        trailer
    }

    /// The number and the network that this trailer gives, if it is one of this
    /// kind, with the fitting size and a LAN of A or B.
    fn read(self, trailer: &[u8], fitting: u16) -> Option<(u16, u8)> {
        let number = u16::from_be_bytes([trailer[0], trailer[1]]);
        let lan = trailer[2] >> 4;
        let size = u16::from_be_bytes([trailer[2] & 0x0F, trailer[3]]);
        let network = match lan {
            0xA => 0,
            0xB => 1,
            _ => rule!(
                return None,
                PrpLanByLowBit: lan & 1,
                PrpLanFromA: if lan > 0xB { 1 } else { return None },
                PrpLanNotA: 1
            ),
        };
        let suffix = match self {
            Trailer::First => true,
            Trailer::Of2012 => rule!(
                trailer[4..] == SUFFIX,
                PrpSuffixUnread: true,
                PrpSuffixHalf: trailer[4] == SUFFIX[0]
            ),
        };
        let fits = rule!(
            size == fitting,
            PrpSizeUnread: true,
            PrpSizeAtMost: size <= fitting,
            PrpSizeAtLeast: size >= fitting,
            PrpSizeLowByte: size & 0xFF == fitting & 0xFF
        );
        (suffix && fits).then(|| {
            (
                rule!(number, PrpNumberLowFirst: number.swap_bytes()),
                rule!(network, PrpLanExchanged: 1 - network),
            )
        })
    }
}

/// A PRP frame without its trailer, and what the trailer gives.
struct Read<'a> {
    bare: &'a [u8],
    type_place: usize,
    number: u16,
    network: u8,
}

/// Reads a PRP frame: refusals 3, 4, 13, 16 in this order.
fn read(frame: &[u8], kind: Trailer) -> Result<Read<'_>, Refusal> {
    let width = kind.width();
    // The tagged frame has the tag in place of the trailer. Added before taken
    // away, so that no length is below zero.
    let tagged = frame.len() + TAG_LENGTH - width;
    if rule!(
        tagged > Stream::MAX_FRAME,
        PrpLongest1994: frame.len() > Stream::MAX_UNTAGGED,
        PrpLongest2000: frame.len() > Stream::MAX_FRAME,
        PrpLongest1998: frame.len() > 1998,
        PrpLongestTagged: tagged >= Stream::MAX_FRAME
    ) {
        return Err(Refusal::FrameTooLong);
    }
    let header = header(frame)?;
    let type_place = header.type_place;
    let shortest = type_place + TYPE_LENGTH + width;
    if frame.len() < rule!(shortest, PrpShortByOne: shortest + 1) {
        return Err(rule!(
            Refusal::FrameShort,
            PrpShortByHeader: Refusal::NoTrailer,
            PrpShortForgetsVlan: wrong::short_without_vlan(frame, width)
        ));
    }
    let (bare, trailer) = frame.split_at(frame.len() - width);
    let given = kind
        .read(trailer, kind.fitting_size(frame.len(), type_place))
        .ok_or(Refusal::NoTrailer);
    rule!(Ok(()), PrpTrailerBeforeTagged: given.map(drop))?;
    if rule!(carries_tag(frame, header), PrpTakesTagged: false) {
        return Err(Refusal::AlreadyTagged);
    }
    let (number, network) = given?;
    rule!(Ok(()), FromPrpRefusesGroup: check_source(frame))?;
    Ok(Read {
        bare: rule!(bare, PrpTrailerStays: frame),
        type_place,
        number,
        network,
    })
}

/// Writes the frame that was put together aside: refusal 8.
fn write(turned: &[u8], output: &mut [u8]) -> Result<usize, Refusal> {
    let length = turned.len();
    rule!((), PrpWritesBeforeRoom: write_start(output, turned));
    check_room(rule!(length, PrpNeedsOneMore: length + 1), output)?;
    rule!((), PrpClearsRest: output[length..].fill(0));
    write_start(output, turned);
    Ok(length)
}

/// Turns a PRP frame into a tagged one and writes it to the start of the
/// output. Refusals 3, 4, 13, 16, 8 in this order. A group source is not
/// refused here.
pub fn from_prp(frame: &[u8], setting: u8, output: &mut [u8]) -> Result<Turned, Refusal> {
    let kind = Trailer::of_setting(setting);
    let kind = rule!(kind, PrpKindGuessed: wrong::kind_by_suffix(frame));
    let prp = read(frame, kind).map_err(|why| {
        let room = check_room(frame.len() + TAG_LENGTH - kind.width(), output);
        rule!(
            why,
            PrpRoomBeforeTrailer: wrong::room_before(Refusal::NoTrailer, why, room),
            PrpRoomBeforeTagged: wrong::room_before(Refusal::AlreadyTagged, why, room),
            PrpRoomBeforeShort: wrong::room_before(Refusal::FrameShort, why, room),
            PrpRoomBeforeLength: wrong::room_before(Refusal::FrameTooLong, why, room)
        )
    })?;
    let place = rule!(prp.type_place, PrpTagAtEnd: prp.bare.len(), PrpTagAt12: 12);
    let mut tagged = vec![0; prp.bare.len() + TAG_LENGTH];
    write_with_tag(prp.bare, place, prp.number, &mut tagged);
    let length = write(&tagged, output)?;
    Ok(Turned {
        number: prp.number,
        network: rule!(prp.network, PrpTellsLan: LAN_A + prp.network),
        length: rule!(length, PrpTellsGivenLength: frame.len()),
    })
}

/// Turns a tagged frame into a PRP frame for this network and writes it to the
/// start of the output. Refusals 2, 3, 4, 5, then 4 if the frame without its
/// tag is short, then 8. A group source is not refused here, nor F1C1 as the
/// type of the frame without its tag.
pub fn to_prp(
    frame: &[u8],
    network: u8,
    setting: u8,
    output: &mut [u8],
) -> Result<Turned, Refusal> {
    let kind = Trailer::of_setting(setting);
    let room = check_room(
        frame.len().saturating_sub(TAG_LENGTH) + kind.width(),
        output,
    );
    rule!(Ok(()), ToPrpRoomFirst: room, ToPrpLengthBeforeNetwork: check_length(frame))?;
    rule!(check_network(network), ToPrpNetworkByLowBit: Ok(()))?;
    let network = rule!(network, ToPrpNetworkByLowBit: network & 1);
    let tagged = read_tagged(frame)?;
    rule!(Ok(()), ToPrpRefusesGroup: check_source(frame), ToPrpRoomBeforeBare: room)?;

    let mut bare = vec![0; frame.len() - TAG_LENGTH];
    write_bare(frame, tagged, &mut bare);
    // Where the type field is without the tag: with F1C1 at 12 and 8100 behind
    // the tag it is at 16, which a frame may be too short for.
    let type_place = match header(&bare) {
        Ok(header) => {
            rule!(Ok(()), ToPrpRefusesTagged: wrong::refuse_tagged(&bare, header))?;
            rule!(header.type_place, ToPrpSizeFromTag: tagged.place)
        }
        Err(short) => rule!(return Err(short), ToPrpBareUnchecked: tagged.place),
    };
    let size = kind.fitting_size(bare.len() + kind.width(), type_place);
    let trailer = kind.written(tagged.number, network, size);
    let length = write(&[bare, trailer].concat(), output)?;
    Ok(Turned {
        number: tagged.number,
        network: rule!(network, PrpTellsLan: LAN_A + network),
        length: rule!(length, PrpTellsGivenLength: frame.len()),
    })
}
