//! Frames of PRP lines turned into tagged ones and back: order 7's own words as a reference, and each case that is easily missed.

use super::{from, in_vlan, settings, tagged, typed, untagged, Dice, DESTINATION};
use nippitsun::archive::{self, PrpAnswer};
use nippitsun::prp::{self, Kind, Turned};
use nippitsun::{Receiver, Refusal, Stream, Verdict};

const KINDS: [Kind; 2] = [Kind::First, Kind::Of2012];

/// What is answered, and the frame in the output.
type Said = Result<(Turned, Vec<u8>), Refusal>;

/// Bytes of a frame's header: 8100 at 12 makes it longer by four. A frame that is shorter than one has no type there.
fn header(frame: &[u8]) -> usize {
    if frame.get(12..14) == Some(&[0x81, 0x00]) {
        18
    } else {
        14
    }
}

fn has_tag(frame: &[u8]) -> bool {
    let header = header(frame);
    frame[header - 2..header] == [0xF1, 0xC1]
}

/// A trailer behind a frame that has none.
fn trailer(kind: Kind, lan: u16, number: u16, bare: &[u8]) -> Vec<u8> {
    let size = bare.len() - header(bare) + kind.width();
    let mut bytes = [number, lan << 12 | size as u16, 0x88FB]
        .map(u16::to_be_bytes)
        .concat();
    bytes.truncate(kind.width());
    bytes
}

/// A PRP frame: this one with a trailer behind it.
fn on_lan(kind: Kind, lan: u16, number: u16, bare: Vec<u8>) -> Vec<u8> {
    let end = trailer(kind, lan, number, &bare);
    [bare, end].concat()
}

fn from_words(frame: &[u8], kind: Kind, room: usize) -> Said {
    let width = kind.width();
    if frame.len() + 6 > 2000 + width {
        return Err(Refusal::Long);
    }
    if frame.len() < header(frame) + width {
        return Err(Refusal::Short);
    }
    if has_tag(frame) {
        return Err(Refusal::Tagged);
    }
    let (bare, end) = frame.split_at(frame.len() - width);
    let number = u16::from_be_bytes([end[0], end[1]]);
    let network = [0xA, 0xB]
        .iter()
        .position(|&lan| trailer(kind, lan, number, bare) == end)
        .ok_or(Refusal::Trailer)? as u8;
    let at = header(bare) - 2;
    let tag = [0xF1, 0xC1, 0, 0, end[0], end[1]];
    let written = [&bare[..at], &tag, &bare[at..]].concat();
    told(network, number, written, room)
}

fn to_words(frame: &[u8], network: u8, kind: Kind, room: usize) -> Said {
    if network > 1 {
        return Err(Refusal::Network);
    }
    if frame.len() > 2000 {
        return Err(Refusal::Long);
    }
    if frame.len() < header(frame) {
        return Err(Refusal::Short);
    }
    if !has_tag(frame) {
        return Err(Refusal::Untagged);
    }
    let at = header(frame) - 2;
    if frame.len() < at + 8 {
        return Err(Refusal::Short);
    }
    let bare = [&frame[..at], &frame[at + 6..]].concat();
    if bare.len() < header(&bare) {
        return Err(Refusal::Short);
    }
    let number = u16::from_be_bytes([frame[at + 4], frame[at + 5]]);
    let written = on_lan(kind, 0xA + u16::from(network), number, bare);
    told(network, number, written, room)
}

fn told(network: u8, number: u16, written: Vec<u8>, room: usize) -> Said {
    if room < written.len() {
        return Err(Refusal::Room);
    }
    let length = written.len();
    Ok((
        Turned {
            network,
            number,
            length,
        },
        written,
    ))
}

/// A call into an output of this length, held to order 7's words: the bytes behind the result are as they were, and so is all of
/// it where the call is refused. The archive's answer is 0 but for the refusal then.
fn held(
    want: Said,
    room: usize,
    call: impl Fn(&mut [u8]) -> Result<Turned, Refusal>,
    plain: impl Fn(&mut [u8]) -> PrpAnswer,
) -> Said {
    let (turned, mut bytes) = match &want {
        Ok((turned, written)) => (Ok(*turned), written.clone()),
        Err(why) => (Err(*why), Vec::new()),
    };
    bytes.resize(room, 0xA5);
    let mut out = vec![0xA5; room];
    assert_eq!(call(&mut out), turned);
    assert_eq!(out, bytes);

    let answer = match turned {
        Ok(t) => PrpAnswer {
            length: t.length,
            number: t.number,
            network: t.network,
            refusal: 0,
        },
        Err(why) => PrpAnswer {
            refusal: why.number(),
            ..PrpAnswer::default()
        },
    };
    out.fill(0xA5);
    assert_eq!(plain(&mut out), answer);
    assert_eq!(out, bytes);
    want
}

fn from_prp(frame: &[u8], kind: Kind, room: usize) -> Said {
    held(
        from_words(frame, kind, room),
        room,
        |out| prp::from(frame, kind, out),
        |out| archive::from_prp(frame, kind as u8, out),
    )
}

fn to_prp(frame: &[u8], network: u8, kind: Kind, room: usize) -> Said {
    held(
        to_words(frame, network, kind, room),
        room,
        |out| prp::to(frame, network, kind, out),
        |out| archive::to_prp(frame, network, kind as u8, out),
    )
}

/// A tagged frame with a VLAN tag.
fn tagged_in_vlan(length: usize, number: u16) -> Vec<u8> {
    let tag = tagged(18, number).split_off(12);
    let bare = in_vlan(length.max(22) - 6);
    let mut f = [&bare[..16], &tag, &bare[16..]].concat();
    f.truncate(length);
    f
}

#[test]
fn a_kind_has_its_bytes() {
    assert_eq!(KINDS.map(Kind::width), [4, 6]);
    assert_eq!(KINDS.map(|kind| kind as u8), [0, 1]);
}

/// Byte by byte, with no help of the words above.
#[test]
fn both_kinds_in_bytes() {
    let head = [2, 3, 4, 5, 6, 7, 2, 9, 9, 9, 9, 1];
    let vlan = [0x81, 0x00, 0xA1, 0x23];
    let rest = [0x08, 0x00, 0xC1, 0xC2, 0xC3];
    let tag = [0xF1, 0xC1, 0, 0, 0xAB, 0xCD];
    for (kind, end) in [
        (Kind::First, &[0xAB, 0xCD, 0xB0, 7][..]),
        (Kind::Of2012, &[0xAB, 0xCD, 0xB0, 9, 0x88, 0xFB]),
    ] {
        for vlan in [&vlan[..0], &vlan] {
            let line = [&head, vlan, &rest, end].concat();
            let with_tag = [&head, vlan, &tag, &rest].concat();
            let turned = |length| Turned {
                network: 1,
                number: 0xABCD,
                length,
            };
            let said = from_prp(&line, kind, 100).unwrap();
            assert_eq!(said, (turned(with_tag.len()), with_tag.clone()));
            let said = to_prp(&with_tag, 1, kind, 100).unwrap();
            assert_eq!(said, (turned(line.len()), line));
        }
    }
}

/// Each with all the later ones wrong too.
#[test]
fn refusals_from_prp_in_their_order() {
    for (kind, over) in [(Kind::First, 1999), (Kind::Of2012, 2001)] {
        let width = kind.width();
        for (frame, why) in [
            (tagged(2100, 1), Refusal::Long),
            (tagged(over, 1), Refusal::Long),
            (tagged(13 + width, 1), Refusal::Short),
            (tagged_in_vlan(17 + width, 1), Refusal::Short),
            (tagged(3, 1), Refusal::Short),
            (tagged(14 + width, 1), Refusal::Tagged),
            (tagged_in_vlan(18 + width, 1), Refusal::Tagged),
            (tagged(over - 1, 1), Refusal::Tagged),
            (on_lan(kind, 0xA, 5, tagged(60, 1)), Refusal::Tagged),
            (untagged(60), Refusal::Trailer),
            (in_vlan(60), Refusal::Trailer),
            (untagged(over - 1), Refusal::Trailer),
            (on_lan(kind, 0xB, 5, untagged(60)), Refusal::Room),
            (on_lan(kind, 0xA, 5, in_vlan(60)), Refusal::Room),
        ] {
            for room in [0, 1, 65] {
                assert_eq!(from_prp(&frame, kind, room), Err(why));
            }
            // With room for all of them, 8 alone is gone.
            let with_room = from_prp(&frame, kind, 2100);
            assert_eq!(with_room.err(), (why != Refusal::Room).then_some(why));
        }
    }
}

/// Each with all the later ones wrong too.
#[test]
fn refusals_to_prp_in_their_order() {
    for kind in KINDS {
        for (network, frame, why) in [
            (2, untagged(2001), Refusal::Network),
            (255, untagged(3), Refusal::Network),
            (0, untagged(2001), Refusal::Long),
            (1, tagged(2001, 1), Refusal::Long),
            (0, untagged(13), Refusal::Short),
            (1, in_vlan(17), Refusal::Short),
            (0, untagged(14), Refusal::Untagged),
            (1, untagged(19), Refusal::Untagged),
            (0, in_vlan(18), Refusal::Untagged),
            (1, in_vlan(60), Refusal::Untagged),
            (0, tagged(14, 1), Refusal::Short),
            (1, tagged(19, 1), Refusal::Short),
            (0, tagged_in_vlan(23, 1), Refusal::Short),
            // The second one: without its tag it would have a VLAN tag, and no type behind it.
            (1, typed(18, 0x8100, tagged(20, 1)), Refusal::Short),
            (0, typed(18, 0x8100, tagged(23, 1)), Refusal::Short),
            (1, typed(18, 0x8100, tagged(24, 1)), Refusal::Room),
            (0, tagged(60, 1), Refusal::Room),
            (1, tagged_in_vlan(60, 1), Refusal::Room),
            (0, tagged(2000, 1), Refusal::Room),
        ] {
            for room in [0, 1, 17] {
                assert_eq!(to_prp(&frame, network, kind, room), Err(why));
            }
            let with_room = to_prp(&frame, network, kind, 2100);
            assert_eq!(with_room.err(), (why != Refusal::Room).then_some(why));
        }
    }
}

/// Every length about the shortest and the longest. The result of none is longer than 2000 bytes.
#[test]
fn lengths() {
    let lengths = || (0..40usize).chain(1980..2010);
    for kind in KINDS {
        let width = kind.width();
        for (bare, least) in [(untagged as fn(usize) -> _, 14), (in_vlan, 18)] {
            for length in lengths() {
                let frame = match length.checked_sub(width) {
                    Some(rest) if rest >= least => on_lan(kind, 0xB, 9, bare(rest)),
                    _ => bare(length),
                };
                let said = from_prp(&frame, kind, Stream::FRAME_MOST);
                let longest = if kind == Kind::First { 1998 } else { 2000 };
                let want = if length > longest {
                    Err(Refusal::Long)
                } else if length < least + width {
                    Err(Refusal::Short)
                } else {
                    Ok(length + 6 - width)
                };
                assert_eq!(said.map(|s| s.0.length), want, "{} {:?}", length, kind);
            }
        }
        for (made, least) in [(tagged as fn(usize, u16) -> _, 20), (tagged_in_vlan, 24)] {
            for length in lengths() {
                let said = to_prp(&made(length, 9), 1, kind, Stream::FRAME_MOST);
                let want = if length > 2000 {
                    Err(Refusal::Long)
                } else if length < least {
                    Err(Refusal::Short)
                } else {
                    Ok(length - 6 + width)
                };
                assert_eq!(said.map(|s| s.0.length), want, "{} {:?}", length, kind);
            }
        }
    }
}

#[test]
fn the_output_holds_the_result_or_is_not_written() {
    for kind in KINDS {
        let width = kind.width();
        for length in [18, 60, 300, 1994] {
            let frame = on_lan(kind, 0xA, 9, in_vlan(length));
            for room in [0, length, length + 5, length + 6, length + 7, 2100] {
                let said = from_prp(&frame, kind, room);
                let lacks = room < length + 6;
                assert_eq!(said.err(), lacks.then_some(Refusal::Room));
            }
            let frame = tagged_in_vlan(length + 6, 9);
            let result = length + width;
            for room in [0, length, result - 1, result, result + 1, 2100] {
                let said = to_prp(&frame, 0, kind, room);
                let lacks = room < result;
                assert_eq!(said.err(), lacks.then_some(Refusal::Room));
            }
        }
    }
}

/// A trailer in each way that is not one: every LAN, every size, every bit of 88FB.
#[test]
fn a_trailer_fits_or_is_none() {
    for kind in KINDS {
        for bare in [untagged(60), in_vlan(60)] {
            let size = bare.len() - header(&bare) + kind.width();
            let place = bare.len() + 2;
            for lan in 0..16 {
                let said = from_prp(&on_lan(kind, lan, 9, bare.clone()), kind, 100);
                let network = [0xA, 0xB].iter().position(|&l| l == lan);
                let told = said.map(|s| usize::from(s.0.network));
                assert_eq!(told, network.ok_or(Refusal::Trailer));
                for other in 0..4096 {
                    let end = lan << 12 | other;
                    let frame = typed(place, end, on_lan(kind, lan, 9, bare.clone()));
                    let fits = usize::from(other) == size && network.is_some();
                    let mut out = [0xA5; 100];
                    assert_eq!(prp::from(&frame, kind, &mut out).is_ok(), fits);
                    assert!(fits || out == [0xA5; 100]);
                }
            }
        }
    }
    let line = on_lan(Kind::Of2012, 0xA, 9, untagged(60));
    for bit in 0..16 {
        let frame = typed(64, 0x88FB ^ 1 << bit, line.clone());
        let said = from_prp(&frame, Kind::Of2012, 100);
        assert_eq!(said, Err(Refusal::Trailer));
    }
}

/// 88FB in the first edition's place of LAN and size is LAN 8.
#[test]
fn no_frame_has_both_kinds() {
    for length in 14..1995 {
        for kind in KINDS {
            let line = on_lan(kind, 0xB, 9, untagged(length));
            let other = KINDS[1 - kind as usize];
            assert!(from_prp(&line, kind, 2000).is_ok());
            // Two bytes more are too many for the first edition.
            let why = if other == Kind::First && line.len() > 1998 {
                Refusal::Long
            } else if length + kind.width() < 14 + other.width() {
                Refusal::Short
            } else {
                Refusal::Trailer
            };
            assert_eq!(from_prp(&line, other, 2000), Err(why));
        }
    }
}

/// The bytes of a call are the setting's: 0 is the first edition, and every other value is 2012.
#[test]
fn every_byte_is_a_kind() {
    for byte in 0..=255u8 {
        let kind = KINDS[usize::from(byte != 0)];
        let line = on_lan(kind, 0xA, 9, untagged(60));
        let (mut out, mut want) = ([0; 100], [0; 100]);
        let turned = prp::from(&line, kind, &mut want).unwrap();
        let a = archive::from_prp(&line, byte, &mut out);
        assert_eq!((a.refusal, a.length, out), (0, turned.length, want));

        let with_tag = want[..turned.length].to_vec();
        let a = archive::to_prp(&with_tag, 0, byte, &mut out);
        assert_eq!((a.refusal, &out[..a.length]), (0, &line[..]));

        let other = on_lan(KINDS[usize::from(byte == 0)], 0xA, 9, untagged(60));
        let a = archive::from_prp(&other, byte, &mut out);
        assert_eq!(a.refusal, Refusal::Trailer.number());
    }
}

#[test]
fn every_network_byte() {
    for network in 0..=255 {
        for kind in KINDS {
            let said = to_prp(&tagged(60, 9), network, kind, 60).map(|s| s.0.network);
            let want = if network < 2 {
                Ok(network)
            } else {
                Err(Refusal::Network)
            };
            assert_eq!(said, want);
        }
    }
}

/// 14 is in neither list.
#[test]
fn any_source_is_turned() {
    for first in 0..=255 {
        for kind in KINDS {
            let line = from(first, on_lan(kind, 0xA, 9, untagged(60)));
            let (_, with_tag) = from_prp(&line, kind, 66).unwrap();
            assert_eq!(with_tag[6], first);
            assert_eq!(to_prp(&with_tag, 0, kind, 66).unwrap().1, line);
        }
    }
}

/// The type field of the frame without its tag is where its size counts from.
#[test]
fn what_the_tag_stood_before() {
    for kind in KINDS {
        let width = kind.width();
        // A VLAN tag: four bytes fewer.
        let (_, line) = to_prp(&typed(18, 0x8100, tagged(60, 9)), 0, kind, 60).unwrap();
        let size = 60 - 6 + width - 18;
        assert_eq!(line[56..58], [0xA0, size as u8]);
        // Its tag comes behind the VLAN tag when it is turned again, and then it is the same PRP frame.
        let (_, with_tag) = from_prp(&line, kind, 60).unwrap();
        assert_eq!(
            with_tag[12..18],
            [0x81, 0x00, line[14], line[15], 0xF1, 0xC1]
        );
        assert_eq!(to_prp(&with_tag, 0, kind, 60).unwrap().1, line);
        // A second VLAN tag is no part of the header.
        let (_, line) = to_prp(&typed(22, 0x8100, tagged_in_vlan(60, 9)), 0, kind, 60).unwrap();
        assert_eq!(line[56..58], [0xA0, size as u8]);

        // F1C1: it is turned, and can't be turned back.
        for frame in [
            typed(18, 0xF1C1, tagged(60, 9)),
            typed(22, 0xF1C1, tagged_in_vlan(60, 9)),
        ] {
            let (_, line) = to_prp(&frame, 1, kind, 60).unwrap();
            assert_eq!(from_prp(&line, kind, 100), Err(Refusal::Tagged));
        }
        // F1C1 behind the type field is no tag.
        let line = on_lan(kind, 0xA, 9, typed(16, 0xF1C1, untagged(60)));
        assert!(from_prp(&line, kind, 66).is_ok());
    }
}

/// Frames of all kinds, each held to order 7's words. What comes from a PRP frame gives that frame again; what comes from a
/// tagged one gives it too, with zeros in its reserved bytes, unless its former type is 8100 or F1C1.
#[test]
fn there_and_back() {
    let mut dice = Dice(7);
    let (mut turned, mut refused) = ([0; 2], [0; 17]);
    for _ in 0..200_000 {
        let kind = KINDS[dice.below(2) as usize];
        let width = kind.width();
        let near = 1980 + dice.below(22) as usize;
        let length = [0, 13, 14, 17, 18, 19, 60, 300, near][dice.below(9) as usize];
        let number = dice.below(65536) as u16;
        let vlan = dice.below(2) == 0;
        let mut bare = if vlan {
            in_vlan(length)
        } else {
            untagged(length)
        };
        let at = if vlan { 16 } else { 12 };
        match dice.below(8) {
            0 => bare = typed(at, 0xF1C1, bare),
            1 => bare = typed(at, 0x8100, bare),
            _ => {}
        }
        let room = length + dice.below(12) as usize;

        let mut line = bare.clone();
        if length >= header(&bare) {
            let lan = 9 + dice.below(4) as u16;
            line = on_lan(kind, lan, number, bare.clone());
            if dice.below(8) == 0 {
                let place = line.len() - 1 - dice.below(width as u64) as usize;
                line[place] ^= 1 << dice.below(8);
            }
        }
        match from_prp(&line, kind, room) {
            Ok((t, with_tag)) => {
                let (_, again) = to_prp(&with_tag, t.network, kind, line.len()).unwrap();
                assert_eq!(again, line);
                turned[0] += 1;
            }
            Err(why) => refused[usize::from(why.number())] += 1,
        }

        let tag = [0xF1, 0xC1, 9, 9, (number >> 8) as u8, number as u8];
        let at = at.min(length);
        let mut with_tag = [&bare[..at], &tag, &bare[at..]].concat();
        if dice.below(16) == 0 {
            with_tag = typed(at, 0x0800, with_tag);
        }
        let network = [0, 1, 0, 1, 0, 1, 0, 2][dice.below(8) as usize];
        match to_prp(&with_tag, network, kind, room) {
            Ok((t, line)) => {
                turned[1] += 1;
                assert_eq!((t.network, t.number), (network, number));
                let former = [with_tag[at + 6], with_tag[at + 7]];
                if former != [0xF1, 0xC1] && (vlan || former != [0x81, 0x00]) {
                    let zeros = typed(at + 2, 0, with_tag);
                    let again = from_prp(&line, kind, zeros.len()).unwrap();
                    assert_eq!((again.0.network, again.1), (network, zeros));
                }
            }
            Err(why) => refused[usize::from(why.number())] += 1,
        }
    }
    assert!(turned.iter().all(|&n| n > 10_000));
    for why in [2, 3, 4, 5, 8, 13, 16] {
        assert!(refused[why] > 500, "{}: {}", why, refused[why]);
    }
}

/// Each command comes on both lines with the one number, and is handed up from the one where it comes first.
#[test]
fn what_comes_on_prp_lines_is_received_once() {
    for kind in KINDS {
        let frame = untagged(60);
        assert_eq!(frame[..6], DESTINATION);
        let mut receiver = Receiver::new(1);
        receiver.open(settings(0)).unwrap();
        let (mut with_tag, mut out) = ([0; 66], [0; 66]);
        for index in 0..1000u16 {
            let number = index.wrapping_add(65000);
            let mut verdict = |lan: u16| {
                let line = on_lan(kind, lan, number, frame.clone());
                let t = prp::from(&line, kind, &mut with_tag).unwrap();
                assert_eq!(u16::from(t.network), lan - 0xA);
                let a = receiver.arrival(t.network, &with_tag[..t.length], &mut out);
                assert_eq!(a.map(|a| a.number), Ok(number));
                (a.unwrap().verdict, out[..60] == frame)
            };
            let up = Verdict::HandedUp { length: 60 };
            assert_eq!(verdict(0xA + index % 2), (up, true));
            assert_eq!(verdict(0xB - index % 2).0, Verdict::Duplicate);
        }
        let counts = *receiver.counts(0).unwrap();
        assert_eq!(counts.all(), [1000, 1000, 1000, 1000, 0, 0, 0, 0]);
    }
}
