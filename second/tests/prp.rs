//! Order 7 of document 02: PRP lines. Each sentence of the order as a case with
//! its bytes, the places where a slip is likely, and the round trips.

mod common;

use common::*;
use second::random::Random;
use second::{arrival, from_prp, to_prp, Refusal, Stream, Turned};

/// The two settings of a line, and the bytes of their trailers.
const FIRST: u8 = 0;
const OF_2012: u8 = 1;
const KINDS: [(u8, usize); 2] = [(FIRST, 4), (OF_2012, 6)];
/// An output with room for every frame.
const AMPLE: usize = 3000;

/// The bytes of a text: hex digits, and blanks between them.
fn bytes(text: &str) -> Vec<u8> {
    let digits: Vec<u8> = text
        .chars()
        .filter(|c| *c != ' ')
        .map(|c| c.to_digit(16).unwrap() as u8)
        .collect();
    digits.chunks(2).map(|two| two[0] << 4 | two[1]).collect()
}

/// The bytes of a frame behind its addresses.
fn frame(behind: &str) -> Vec<u8> {
    [&DESTINATION[..], &SOURCE, &bytes(behind)].concat()
}

/// The answer of a turn, and the output behind it.
type Answer = (Result<Turned, Refusal>, Vec<u8>);

fn from(frame: &[u8], setting: u8, room: usize) -> Answer {
    let mut output = vec![FILL; room];
    (from_prp(frame, setting, &mut output), output)
}

fn to(frame: &[u8], network: u8, setting: u8, room: usize) -> Answer {
    let mut output = vec![FILL; room];
    (to_prp(frame, network, setting, &mut output), output)
}

/// The turn gave this frame, and wrote nothing behind it.
fn gave(answer: Answer, result: &[u8], number: u16, network: u8) {
    let (answer, output) = answer;
    let length = result.len();
    let turned = Turned {
        number,
        network,
        length,
    };
    assert_eq!(answer, Ok(turned));
    assert_eq!(output[..length], *result);
    assert!(output[length..].iter().all(|&byte| byte == FILL));
}

/// The turn was refused, and changed no byte.
fn refused(answer: Answer, why: u8) {
    assert_eq!(number_of(answer.0), why);
    assert!(answer.1.iter().all(|&byte| byte == FILL));
}

/// The PRP frame and the tagged one are turned into each other.
fn both_ways(setting: u8, network: u8, number: u16, prp: &[u8], tagged: &[u8]) {
    for room in [0, 1, 10] {
        let more = tagged.len() + room;
        gave(from(prp, setting, more), tagged, number, network);
        let more = prp.len() + room;
        gave(to(tagged, network, setting, more), prp, number, network);
    }
    refused(from(prp, setting, tagged.len() - 1), 8);
    refused(from(prp, setting, 0), 8);
    refused(to(tagged, network, setting, prp.len() - 1), 8);
    refused(to(tagged, network, setting, 0), 8);
}

#[test]
fn both_trailers_with_and_without_vlan() {
    // One byte behind the type field, and the trailer: 7 bytes, or 5.
    for (setting, network, prp, tagged) in [
        (
            OF_2012,
            0,
            "0800 77 0102 A007 88FB",
            "F1C1 0000 0102 0800 77",
        ),
        (
            OF_2012,
            1,
            "0800 77 0102 B007 88FB",
            "F1C1 0000 0102 0800 77",
        ),
        (FIRST, 0, "0800 77 0102 A005", "F1C1 0000 0102 0800 77"),
        (FIRST, 1, "0800 77 0102 B005", "F1C1 0000 0102 0800 77"),
        (
            OF_2012,
            1,
            "8100 E005 0800 77 0102 B007 88FB",
            "8100 E005 F1C1 0000 0102 0800 77",
        ),
        (
            FIRST,
            0,
            "8100 E005 0800 77 0102 A005",
            "8100 E005 F1C1 0000 0102 0800 77",
        ),
    ] {
        both_ways(setting, network, 0x0102, &frame(prp), &frame(tagged));
    }
}

#[test]
fn the_shortest_frames_are_header_and_trailer() {
    for (setting, prp, tagged) in [
        (FIRST, "0800 0007 A004", "F1C1 0000 0007 0800"),
        (OF_2012, "0800 0007 A006 88FB", "F1C1 0000 0007 0800"),
        (
            FIRST,
            "8100 0000 0800 0007 A004",
            "8100 0000 F1C1 0000 0007 0800",
        ),
        (
            OF_2012,
            "8100 0000 0800 0007 A006 88FB",
            "8100 0000 F1C1 0000 0007 0800",
        ),
    ] {
        let prp = frame(prp);
        both_ways(setting, 0, 7, &prp, &frame(tagged));
        // Whatever is left out, it is short, not without a trailer.
        for length in 0..prp.len() {
            refused(from(&prp[..length], setting, AMPLE), 4);
        }
    }
    // 8100 at 12: with 14 bytes and the trailer it is short, though the trailer
    // fits to a frame whose type is 8100.
    refused(from(&frame("8100 0007 A004"), FIRST, AMPLE), 4);
    refused(from(&frame("8100 0007 A006 88FB"), OF_2012, AMPLE), 4);
    refused(from(&frame("8100 00 0007 A005"), FIRST, AMPLE), 4);
    refused(from(&frame("8100 000000 0007 A007"), FIRST, AMPLE), 4);
    refused(from(&frame("8100 000000 0007 A003"), FIRST, AMPLE), 4);
}

#[test]
fn the_longest_tagged_frame_has_2000_bytes() {
    let vlan = frame("8100 0005 0800");
    for head in [frame("0800"), vlan] {
        for length in 1990..=2010 {
            for (setting, width) in KINDS {
                let mut bare = head.clone();
                bare.resize(length - width, 0x33);
                let prp = with_trailer(&bare, 9, 0xB, width);
                assert_eq!(prp.len(), length);
                let tagged = with_tag(&bare, 9);
                if length <= if setting == FIRST { 1998 } else { 2000 } {
                    both_ways(setting, 1, 9, &prp, &tagged);
                } else {
                    refused(from(&prp, setting, AMPLE), 3);
                    // The tagged frame is too long as well.
                    assert!(tagged.len() > 2000);
                    refused(to(&tagged, 1, setting, AMPLE), 3);
                }
            }
        }
    }
}

#[test]
fn every_length_with_the_best_trailer_there_is_room_for() {
    for head in ["0800", "8100 0005 0800", "8100 0005 8100", "88FB"] {
        let head = frame(head);
        for length in 0..60 {
            for (setting, width) in KINDS {
                let mut bare = head.clone();
                bare.resize(length.max(width) - width, 0x33);
                let shortest = type_place(&bare) + 2;
                if bare.len() >= shortest {
                    let prp = with_trailer(&bare, 0xFFFF, 0xA, width);
                    both_ways(setting, 0, 0xFFFF, &prp, &with_tag(&bare, 0xFFFF));
                } else {
                    let mut short = bare.clone();
                    short.resize(length, 0xA0);
                    refused(from(&short, setting, AMPLE), 4);
                }
            }
        }
    }
}

#[test]
fn the_size_fits_exactly() {
    // One off either way, the trailer left out, 88FB left out, the type field
    // counted, the whole frame, one bit more, nothing.
    for lan_and_size in [
        "A006", "A008", "A001", "A005", "A009", "A015", "A107", "A807", "A000", "AFFF",
    ] {
        let prp = frame(&format!("0800 77 0102 {lan_and_size} 88FB"));
        refused(from(&prp, OF_2012, AMPLE), 16);
    }
    for lan_and_size in ["A004", "A006", "A001", "A007", "A013", "A105", "AFFF"] {
        let prp = frame(&format!("0800 77 0102 {lan_and_size}"));
        refused(from(&prp, FIRST, AMPLE), 16);
    }
    // With a VLAN tag, counted as if there were none.
    for lan_and_size in ["A009", "A005", "A006", "A008", "A00B"] {
        let prp = frame(&format!("8100 0005 0800 77 0102 {lan_and_size} 88FB"));
        refused(from(&prp, OF_2012, AMPLE), 16);
    }
    // More than a byte has: 300 bytes and the trailer.
    let mut bare = frame("0800");
    bare.resize(314, 0x33);
    let end = |text: &str| [&bare[..], &bytes(text)].concat();
    let tagged = with_tag(&bare, 0x0102);
    both_ways(OF_2012, 0, 0x0102, &end("0102 A132 88FB"), &tagged);
    both_ways(FIRST, 1, 0x0102, &end("0102 B130"), &tagged);
    for text in [
        "0102 A032 88FB",
        "0102 A131 88FB",
        "0102 A133 88FB",
        "0102 A232 88FB",
    ] {
        refused(from(&end(text), OF_2012, AMPLE), 16);
    }
}

#[test]
fn lan_is_a_or_b() {
    for lan in 0..16_u8 {
        let second = frame(&format!("0800 77 0102 {lan:X}007 88FB"));
        let first = frame(&format!("0800 77 0102 {lan:X}005"));
        let tagged = frame("F1C1 0000 0102 0800 77");
        for (setting, prp) in [(OF_2012, second), (FIRST, first)] {
            match lan {
                0xA => gave(from(&prp, setting, 21), &tagged, 0x0102, 0),
                0xB => gave(from(&prp, setting, 21), &tagged, 0x0102, 1),
                // 9 and C among them.
                _ => refused(from(&prp, setting, 21), 16),
            }
        }
    }
}

#[test]
fn a_trailer_of_2012_ends_with_88fb() {
    for end in ["", "88FA", "89FB", "FB88", "0000", "88", "88FB00"] {
        let prp = frame(&format!("0800 777777 0102 A009 {end}"));
        refused(from(&prp, OF_2012, AMPLE), 16);
    }
    // In another place.
    let prp = frame("0800 777777 88FB 0102 A009");
    refused(from(&prp, OF_2012, AMPLE), 16);
}

#[test]
fn the_kind_is_the_lines() {
    let second = frame("0800 777777 0102 A009 88FB");
    let first = frame("0800 777777 0102 A007");
    // Where 88FB stands, the other kind finds LAN 8.
    refused(from(&second, FIRST, AMPLE), 16);
    refused(from(&first, OF_2012, AMPLE), 16);
    // Every byte is one of the two.
    for setting in 1..=255 {
        let tagged = frame("F1C1 0000 0102 0800 777777");
        gave(from(&second, setting, 23), &tagged, 0x0102, 0);
        gave(to(&tagged, 0, setting, 23), &second, 0x0102, 0);
    }
    let mut random = Random::new(21);
    let mut accepted = [0; 2];
    for _ in 0..100_000 {
        let prp = any_prp(&mut random);
        let taken = KINDS.map(|(setting, _)| from(&prp, setting, AMPLE).0.is_ok());
        assert_ne!(taken, [true; 2]);
        for (n, taken) in accepted.iter_mut().zip(taken) {
            *n += u32::from(taken);
        }
    }
    assert!(accepted.iter().all(|&n| n > 10_000), "{accepted:?}");
}

#[test]
fn the_number_has_its_high_byte_first() {
    for number in [0, 1, 255, 256, 0x1234, 32768, 65534, 65535] {
        let bare = frame("0800 77");
        for (setting, width) in KINDS {
            let prp = with_trailer(&bare, number, 0xA, width);
            both_ways(setting, 0, number, &prp, &with_tag(&bare, number));
        }
    }
}

#[test]
fn f1c1_and_8100_behind_the_type_field_say_nothing() {
    for inside in ["F1C1 8100 0005", "8100 F1C1", "88FB A000", "F1C1 F1C1 F1C1"] {
        for head in ["0800", "8100 F1C1 0800", "8100 0005 8100"] {
            let bare = frame(&format!("{head} {inside}"));
            for (setting, width) in KINDS {
                // The number too.
                let prp = with_trailer(&bare, 0xF1C1, 0xB, width);
                both_ways(setting, 1, 0xF1C1, &prp, &with_tag(&bare, 0xF1C1));
            }
        }
    }
    // 8100 as the number at 14, in a frame with nothing behind its type.
    let prp = frame("0800 8100 A004");
    both_ways(FIRST, 0, 0x8100, &prp, &frame("F1C1 0000 8100 0800"));
}

#[test]
fn a_frame_that_carries_f1c1_is_13() {
    for (setting, width) in KINDS {
        for head in ["F1C1", "8100 0005 F1C1", "F1C1 0000 0001 0800"] {
            let prp = with_trailer(&frame(head), 7, 0xA, width);
            refused(from(&prp, setting, AMPLE), 13);
        }
    }
}

#[test]
fn f1c1_as_the_former_type_goes_to_prp_and_not_back() {
    for (setting, tagged, prp) in [
        (OF_2012, "F1C1 0000 0102 F1C1 77", "F1C1 77 0102 A007 88FB"),
        (FIRST, "F1C1 0000 0102 F1C1", "F1C1 0102 A004"),
        (
            FIRST,
            "8100 0005 F1C1 0000 0102 F1C1",
            "8100 0005 F1C1 0102 A004",
        ),
    ] {
        let prp = frame(prp);
        gave(to(&frame(tagged), 0, setting, AMPLE), &prp, 0x0102, 0);
        refused(from(&prp, setting, AMPLE), 13);
    }
}

#[test]
fn the_size_counts_from_the_type_field_without_the_tag() {
    // Without its tag the frame has 8100 at 12.
    let tagged = frame("F1C1 0000 0102 8100 0005 0800 77");
    let back = frame("8100 0005 F1C1 0000 0102 0800 77");
    for (setting, prp) in [
        (FIRST, "8100 0005 0800 77 0102 B005"),
        (OF_2012, "8100 0005 0800 77 0102 B007 88FB"),
    ] {
        let prp = frame(prp);
        gave(to(&tagged, 1, setting, AMPLE), &prp, 0x0102, 1);
        // Four bytes later, and from there on it stays.
        both_ways(setting, 1, 0x0102, &prp, &back);
    }
    // 24 bytes are the fewest.
    let tagged = frame("F1C1 0000 0102 8100 0005 0800");
    let prp = frame("8100 0005 0800 0102 A006 88FB");
    gave(to(&tagged, 0, OF_2012, AMPLE), &prp, 0x0102, 0);
    for length in 20..24 {
        for (setting, _) in KINDS {
            refused(to(&tagged[..length], 0, setting, AMPLE), 4);
        }
    }
    // Behind a VLAN tag 8100 is an ordinary type.
    let tagged = frame("8100 0005 F1C1 0000 0102 8100");
    both_ways(
        FIRST,
        0,
        0x0102,
        &frame("8100 0005 8100 0102 A004"),
        &tagged,
    );
    // And F1C1 behind 8100 comes back as 13.
    let tagged = frame("F1C1 0000 0102 8100 0005 F1C1");
    let prp = frame("8100 0005 F1C1 0102 A004");
    gave(to(&tagged, 0, FIRST, AMPLE), &prp, 0x0102, 0);
    refused(from(&prp, FIRST, AMPLE), 13);
}

#[test]
fn reserved_bytes_are_lost() {
    for reserved in ["0001", "F1C1", "8100", "FFFF"] {
        let tagged = frame(&format!("F1C1 {reserved} 0102 0800 77"));
        let prp = frame("0800 77 0102 A005");
        gave(to(&tagged, 0, FIRST, AMPLE), &prp, 0x0102, 0);
        gave(
            from(&prp, FIRST, AMPLE),
            &frame("F1C1 0000 0102 0800 77"),
            0x0102,
            0,
        );
    }
}

#[test]
fn any_source_passes_both_ways() {
    for first in [0, 1, 2, 3, 0x80, 0xFE, 0xFF] {
        let prp = from_source(first, &frame("0800 77 0102 A007 88FB"));
        let tagged = from_source(first, &frame("F1C1 0000 0102 0800 77"));
        both_ways(OF_2012, 0, 0x0102, &prp, &tagged);
    }
    // An arrival then refuses the group.
    let (_, tagged) = from(&from_source(3, &frame("0800 0007 A004")), FIRST, 20);
    let mut table = [fresh(Stream::VECTOR, 4, 3)];
    assert_eq!(number_of(arrival(&mut table, 0, &tagged, &mut [0; 40])), 14);
}

#[test]
fn from_prp_refusals_come_in_their_order() {
    let padded = |head: &str, length| {
        let mut frame = frame(head);
        frame.resize(length, 0x33);
        frame
    };
    let long = |head| padded(head, 2001);
    let good = with_trailer(&padded("0800", 1997), 7, 0xA, 4);
    for (setting, why, frame) in [
        // 3 before 13 and 16, before 16, and with a good trailer.
        (OF_2012, 3, long("F1C1")),
        (OF_2012, 3, long("0800")),
        (OF_2012, 3, long("8100 0005 F1C1")),
        (FIRST, 3, padded("F1C1", 1999)),
        (FIRST, 3, good),
        // 4 before 13 and 16, and with what would be a trailer.
        (FIRST, 4, frame("F1C1")),
        (FIRST, 4, frame("F1C1 000000")),
        (OF_2012, 4, frame("F1C1 0000000000")),
        (FIRST, 4, frame("8100 0005 F1C1")),
        (OF_2012, 4, frame("8100 0005 F1C1 00000000 00")),
        (FIRST, 4, frame("0800 A0")),
        (FIRST, 4, frame("0007 A002")),
        (OF_2012, 4, frame("0007 A004 88FB")),
        (FIRST, 4, Vec::new()),
        (OF_2012, 4, bytes("88FB")),
        // 13 before 16, and with a good trailer.
        (FIRST, 13, frame("F1C1 0007 C004")),
        (FIRST, 13, frame("F1C1 0007 A005")),
        (OF_2012, 13, frame("F1C1 0007 A006 0000")),
        (OF_2012, 13, frame("8100 0005 F1C1 0007 A006 0000")),
        (FIRST, 13, frame("F1C1 0007 A004")),
        // 16.
        (FIRST, 16, frame("0800 0007 C004")),
        (FIRST, 16, frame("0800 0007 A005")),
        (OF_2012, 16, frame("0800 0007 A006 88FA")),
    ] {
        // Each before 8.
        for room in [0, 1, frame.len(), AMPLE] {
            refused(from(&frame, setting, room), why);
        }
    }
}

#[test]
fn to_prp_refusals_come_in_their_order() {
    let mut long = frame("0800");
    long.resize(2001, 0x33);
    let mut long_tagged = frame("F1C1 0000 0007 0800");
    long_tagged.resize(2001, 0x33);
    for (why, frame) in [
        // 3 before 5, and alone.
        (3, long),
        (3, long_tagged),
        // 4 before 5, and with F1C1.
        (4, Vec::new()),
        (4, frame("08")),
        (4, frame("8100 0005 08")),
        (4, frame("F1C1 0000 0007 08")),
        (4, frame("8100 0005 F1C1 0000 0007 08")),
        // 5, not 4.
        (5, frame("0800")),
        (5, frame("0800 000000")),
        (5, frame("8100 0005 0800")),
        (5, frame("8100 0005 8100 F1C1 0000 0007 0800")),
        // The second 4.
        (4, frame("F1C1 0000 0007 8100")),
        (4, frame("F1C1 0000 0007 8100 0005 08")),
    ] {
        for (setting, _) in KINDS {
            // Each before 8, and 2 before each.
            for room in [0, 1, frame.len(), AMPLE] {
                refused(to(&frame, 0, setting, room), why);
                refused(to(&frame, 2, setting, room), 2);
            }
        }
    }
    let tagged = frame("F1C1 0000 0007 0800");
    for network in 2..=255 {
        for room in [0, AMPLE] {
            refused(to(&tagged, network, OF_2012, room), 2);
        }
    }
}

#[test]
fn from_prp_and_back_is_the_same_frame() {
    let mut random = Random::new(22);
    let mut met = [[0; 2]; 2];
    for _ in 0..100_000 {
        let prp = any_prp(&mut random);
        for (setting, _) in KINDS {
            let (turned, tagged) = match from(&prp, setting, 2000) {
                (Ok(turned), tagged) => (turned, tagged),
                _ => continue,
            };
            let tagged = &tagged[..turned.length];
            let back = to(tagged, turned.network, setting, AMPLE);
            gave(back, &prp, turned.number, turned.network);
            let vlan = type_place(&prp) == 16;
            met[usize::from(setting)][usize::from(vlan)] += 1;
        }
    }
    let met_often = met.iter().flatten().all(|&n| n > 2_000);
    assert!(met_often, "{met:?}");
}

#[test]
fn to_prp_and_back_is_the_same_frame_where_the_tag_comes_to_its_place() {
    let mut random = Random::new(23);
    let (mut same, mut later, mut tagged_twice) = (0, 0, 0);
    for _ in 0..100_000 {
        let mut tagged = any_frame(&mut random);
        let setting = random.below(2) as u8;
        let network = random.below(2) as u8;
        let (turned, prp) = match to(&tagged, network, setting, 2000) {
            (Ok(turned), prp) => (turned, prp),
            _ => continue,
        };
        let prp = &prp[..turned.length];
        let back = from(prp, setting, AMPLE);
        let place = type_place(&tagged);
        if at(prp, type_place(prp), [0xF1, 0xC1]) {
            refused(back, 13);
            tagged_twice += 1;
        } else if type_place(prp) != place {
            let bare = [&tagged[..12], &tagged[18..]].concat();
            gave(
                back,
                &with_tag(&bare, turned.number),
                turned.number,
                network,
            );
            later += 1;
        } else {
            tagged[place + 2..place + 4].copy_from_slice(&[0, 0]);
            gave(back, &tagged, turned.number, network);
            same += 1;
        }
    }
    let met = [same, later, tagged_twice];
    assert!(met.iter().all(|&n| n > 1_000), "{met:?}");
}

#[test]
fn what_comes_from_prp_is_received_once() {
    let mut table = [fresh(Stream::VECTOR, 4, 3)];
    let bare = frame("0800 77");
    for number in 0..100 {
        for (network, verdict) in [(0, "up"), (1, "duplicate")] {
            let prp = with_trailer(&bare, number, 0xA + network, 6);
            let mut tagged = [0; 40];
            let turned = from_prp(&prp, OF_2012, &mut tagged).unwrap();
            assert_eq!((turned.number, turned.network), (number, network));
            let tagged = &tagged[..turned.length];
            let answer = arrival(&mut table, turned.network, tagged, &mut [0; 40]);
            assert_eq!(word(answer.unwrap()), verdict);
        }
    }
    assert_eq!((table[0].passed, table[0].discarded), (100, 100));
}
