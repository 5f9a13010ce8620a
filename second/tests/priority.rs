//! Order 11: priority and VLAN tag in the answers of arrivals, of batches and of
//! link arrivals, and on the lines of `events`.

mod common;

use common::*;
use second::event_file::run;
use second::generate::{file, open_body, push_record};
use second::random::Random;
use second::wrong::{self, Seen as Shows, Wrong, VARIANTS};
use second::{
    arrival, link_arrival, take_tag, to_prp, write_tag, Arrival, Batch, Refusal, Stream, Taken,
    Verdict,
};

/// What each value of the byte at 14 gives where it is not obvious: the priority is
/// its three highest bits, the bit below is no part of it.
const PRIORITIES: [(u8, u8); 24] = [
    (0x00, 0),
    (0x0F, 0),
    (0x10, 0),
    (0x1F, 0),
    (0x20, 1),
    (0x2F, 1),
    (0x30, 1),
    (0x3F, 1),
    (0x40, 2),
    (0x50, 2),
    (0x5F, 2),
    (0x60, 3),
    (0x70, 3),
    (0x7F, 3),
    (0x80, 4),
    (0x90, 4),
    (0x9F, 4),
    (0xA0, 5),
    (0xB0, 5),
    (0xC0, 6),
    (0xD0, 6),
    (0xE0, 7),
    (0xF0, 7),
    (0xFF, 7),
];

fn bytes(hex: &str) -> Vec<u8> {
    let digits: Vec<u8> = hex
        .chars()
        .filter(|c| !c.is_whitespace())
        .map(|c| c.to_digit(16).unwrap() as u8)
        .collect();
    digits.chunks(2).map(|c| c[0] << 4 | c[1]).collect()
}

/// A fresh stream with this VLAN id.
fn stream_of(vlan: u16) -> Stream {
    Stream {
        vlan,
        ..fresh(Stream::VECTOR, 4, 9)
    }
}

/// An arrival on network 0 with room enough.
fn arrived(table: &mut [Stream], frame: &[u8]) -> Result<Arrival, Refusal> {
    arrival(table, 0, frame, &mut [FILL; Stream::MAX_FRAME])
}

/// What an answer tells: the verdict's word, the priority, and the VLAN tag.
fn told(answer: Result<Arrival, Refusal>) -> (&'static str, u8, bool) {
    let answer = answer.unwrap();
    (word(answer), answer.priority, answer.vlan_tag)
}

/// What an answer of a batch carries. One that is a refusal, or that was not
/// reached, has no place for either: 0 and no.
fn carried(answer: Option<Result<Arrival, Refusal>>) -> (u8, bool) {
    match answer {
        Some(Ok(arrival)) => (arrival.priority, arrival.vlan_tag),
        Some(Err(_)) | None => (0, false),
    }
}

fn frames_as_bytes() {
    let tagged = bytes("020000000001 020000000002 8100 6005 F1C1 0000 0007 0800 77");
    let bare = bytes("020000000001 020000000002 8100 6005 0800 77");
    let mut table = [Stream::FREE, stream_of(5)];
    let mut output = [FILL; 40];
    let answer = arrival(&mut table, 1, &tagged, &mut output);
    let expected = Arrival {
        slot: 1,
        number: 7,
        verdict: Verdict::HandedUp { length: bare.len() },
        priority: 3,
        vlan_tag: true,
    };
    assert_eq!(answer, Ok(expected));
    // The VLAN tag stays in what is handed up.
    assert_eq!(output[..bare.len()], bare);
    assert!(output[bare.len()..].iter().all(|&byte| byte == FILL));

    // An untagged frame gives 0 and no.
    let tagged = bytes("020000000001 020000000002 F1C1 0000 0007 0800 77");
    let answer = arrived(&mut [stream_of(0)], &tagged);
    let expected = Arrival {
        slot: 0,
        number: 7,
        verdict: Verdict::HandedUp {
            length: tagged.len() - 6,
        },
        priority: 0,
        vlan_tag: false,
    };
    assert_eq!(answer, Ok(expected));
}

#[test]
fn two_frames_as_bytes() {
    frames_as_bytes();
}

fn bytes_at_14() {
    for (high, priority) in PRIORITIES {
        let tci = u16::from_be_bytes([high, 0x05]);
        let frame = tagged_to(DESTINATION, Some(tci), 7);
        let mut table = [Stream {
            vlan: tci % 4096,
            ..fresh(Stream::MATCH, 4, 9)
        }];
        assert_eq!(told(arrived(&mut table, &frame)), ("up", priority, true));
        assert_eq!(priority_of(&frame), (priority, true));
    }
}

#[test]
fn the_three_highest_bits() {
    bytes_at_14();
}

/// All values of the two bytes behind 8100, in single calls: priority, tag and
/// key. VLAN id 4095 is met by a damaged record alone.
fn every_value() {
    for tci in 0..=65535u16 {
        let [high, low] = tci.to_be_bytes();
        let (priority, vlan) = (high / 32, u16::from(high % 16) * 256 + u16::from(low));
        let frame = tagged_to(DESTINATION, Some(tci), 7);
        let answer = arrived(&mut [stream_of(vlan)], &frame);
        match vlan {
            4095 => assert_eq!(answer, Err(Refusal::Damaged), "{tci:04X}"),
            _ => assert_eq!(told(answer), ("up", priority, true), "{tci:04X}"),
        }
        // No other id is met, the whole of the 16 bits among them.
        for other in [vlan ^ 1, vlan ^ 0x800, vlan ^ 0xFFF, tci, 4094, 0] {
            if other != vlan {
                let answer = arrived(&mut [stream_of(other)], &frame);
                assert_eq!(answer, Err(Refusal::NoStream), "{tci:04X}, {other}");
            }
        }
    }
}

#[test]
fn every_value_of_the_two_bytes() {
    every_value();
}

/// The same in batches of 32, each to a table of 32 streams.
fn every_value_in_batches() {
    for first in (0..=65535u16).step_by(32) {
        let values: Vec<u16> = (first..=first + 31).collect();
        let mut table: Vec<Stream> = values.iter().map(|tci| stream_of(tci % 4096)).collect();
        let frames: Vec<Vec<u8>> = values
            .iter()
            .map(|&tci| tagged_to(DESTINATION, Some(tci), 7))
            .collect();
        let done = batch(&mut table, 0, 32, &packed(&frames), &mut [0; 2000]).unwrap();
        for (place, tci) in values.into_iter().enumerate() {
            let answer = done.answers[place].unwrap();
            if tci % 4096 == 4095 {
                assert_eq!(answer, Err(Refusal::Damaged));
                continue;
            }
            assert_eq!(told(answer), ("up", (tci / 8192) as u8, true), "{tci:04X}");
            assert_eq!(answer.unwrap().slot, place);
        }
    }
}

#[test]
fn every_value_of_the_two_bytes_in_batches() {
    every_value_in_batches();
}

/// The same frames for a virtual link, which is met by all of them.
fn every_value_in_links() {
    for tci in 0..=65535u16 {
        let mut frame = untagged_to(DESTINATION, Some(tci));
        frame.push(9);
        let mut table = [fresh(Stream::LINK, 4, 9)];
        let answer = link_arrival(&mut table, 0, &frame, &mut [0; 40]);
        assert_eq!(told(answer), ("up", 0, false), "{tci:04X}");
        let answer = link_arrival(&mut table, 1, &frame, &mut [0; 40]);
        assert_eq!(told(answer), ("duplicate", 0, false), "{tci:04X}");
    }
    let frame = numbered(9);
    let answer = link_arrival(&mut [fresh(Stream::LINK, 4, 9)], 0, &frame, &mut [0; 40]);
    assert_eq!(told(answer), ("up", 0, false));
    // Also with what an arrival would read, or find short.
    for frame in [
        tagged_to(DESTINATION, Some(0xE000), 7),
        tagged_before_vlan(DESTINATION, 0xE000, 7),
        untagged_to(DESTINATION, Some(0xE000))[..15].to_vec(),
        untagged_to(DESTINATION, Some(0xE000))[..17].to_vec(),
    ] {
        let answer = link_arrival(&mut [fresh(Stream::LINK, 4, 9)], 0, &frame, &mut [0; 40]);
        assert_eq!(told(answer), ("up", 0, false));
    }
}

#[test]
fn a_link_arrival_reads_no_vlan_tag() {
    every_value_in_links();
}

/// Each answer has what its own frame says, whatever its twin said.
fn three_verdicts() {
    let mut table = [stream_of(5)];
    for (tci, number, expected) in [
        (0xA005, 7, ("up", 5, true)),
        (0xA005, 7, ("duplicate", 5, true)),
        (0x6005, 7, ("duplicate", 3, true)),
        (0x1005, 7, ("duplicate", 0, true)),
        (0xD005, 11, ("rogue", 6, true)),
        (0x0005, 12, ("rogue", 0, true)),
        (0x2005, 3, ("rogue", 1, true)),
        (0xE005, 10, ("up", 7, true)),
        (0x8005, 8, ("up", 4, true)),
        (0x4005, 8, ("duplicate", 2, true)),
    ] {
        let frame = tagged_to(DESTINATION, Some(tci), number);
        assert_eq!(told(arrived(&mut table, &frame)), expected);
    }
    let mut table = [stream_of(0)];
    for (number, verdict) in [(7, "up"), (7, "duplicate"), (11, "rogue")] {
        let answer = arrived(&mut table, &tagged(number));
        assert_eq!(told(answer), (verdict, 0, false));
    }
    // By the match rule too.
    let mut table = [Stream {
        vlan: 5,
        ..fresh(Stream::MATCH, 4, 9)
    }];
    for (tci, expected) in [
        (0xE005, ("up", 7, true)),
        (0x8005, ("duplicate", 4, true)),
        (0x2005, ("duplicate", 1, true)),
    ] {
        let frame = tagged_to(DESTINATION, Some(tci), 7);
        assert_eq!(told(arrived(&mut table, &frame)), expected);
    }
}

#[test]
fn all_three_verdicts_carry_both() {
    three_verdicts();
}

/// A tag with VLAN id 0 has the key of no tag, and is a tag all the same. One of
/// priority 0 differs from none in the VLAN tag alone.
fn vlan_id_0() {
    let mut table = [stream_of(0), stream_of(5)];
    for (tci, number, expected) in [
        (None, 7, ("up", 0, false)),
        (Some(0x0000), 7, ("duplicate", 0, true)),
        (Some(0x0000), 8, ("up", 0, true)),
        (Some(0x1000), 8, ("duplicate", 0, true)),
        (Some(0xC000), 9, ("up", 6, true)),
        (None, 9, ("duplicate", 0, false)),
        (Some(0xF000), 10, ("up", 7, true)),
        (Some(0x2000), 14, ("rogue", 1, true)),
        (None, 14, ("rogue", 0, false)),
    ] {
        let answer = arrived(&mut table, &tagged_to(DESTINATION, tci, number));
        assert_eq!(answer.unwrap().slot, 0);
        assert_eq!(told(answer), expected);
    }
    for (tci, number, expected) in [
        (0x0005, 7, ("up", 0, true)),
        (0x1005, 8, ("up", 0, true)),
        (0x3005, 9, ("up", 1, true)),
    ] {
        let answer = arrived(&mut table, &tagged_to(DESTINATION, Some(tci), number));
        assert_eq!(answer.unwrap().slot, 1);
        assert_eq!(told(answer), expected);
    }
}

#[test]
fn a_tag_with_vlan_id_0_and_one_with_priority_0() {
    vlan_id_0();
}

/// F1C1 at 12 and 8100 behind it: no VLAN tag, though there is one at 12 of what
/// is handed up.
fn behind_the_tag() {
    for high in 0..16u16 {
        for vlan in [0, 5, 4094, 4095] {
            let tci = high << 12 | vlan;
            let frame = tagged_before_vlan(DESTINATION, tci, 7);
            let mut table = [stream_of(5), stream_of(0)];
            let mut output = [FILL; 40];
            let answer = arrival(&mut table, 0, &frame, &mut output);
            assert_eq!(answer.unwrap().slot, 1);
            assert_eq!(told(answer), ("up", 0, false), "{tci:04X}");
            let up = untagged_to(DESTINATION, Some(tci));
            assert_eq!(output[..up.len()], up);
            assert_eq!(priority_of(&up), ((high / 2) as u8, true));
            // Also where that tag is not whole.
            for length in 20..frame.len() {
                let answer = arrived(&mut [stream_of(0)], &frame[..length]);
                assert_eq!(told(answer), ("up", 0, false));
            }
            // As a duplicate and as a rogue.
            assert_eq!(
                told(arrived(&mut table, &frame)),
                ("duplicate", 0, false),
                "{tci:04X}"
            );
            let far = tagged_before_vlan(DESTINATION, tci, 11);
            assert_eq!(told(arrived(&mut table, &far)), ("rogue", 0, false));
        }
    }
    // Reserved bytes that look like a VLAN tag's mark.
    let mut frame = tagged(7);
    frame[14..16].copy_from_slice(&[0x81, 0x00]);
    assert_eq!(told(arrived(&mut [stream_of(0)], &frame)), ("up", 0, false));
    // A VLAN tag in front and another behind: that in front.
    let mut frame = tagged_to(DESTINATION, Some(0x6005), 7);
    frame.truncate(22);
    frame.extend([0x81, 0x00, 0xE0, 0x05, 0x08, 0x00]);
    assert_eq!(told(arrived(&mut [stream_of(5)], &frame)), ("up", 3, true));
    // 8100 at 12 and again at 16 is no tagged frame.
    let frame = bytes("020000000001 020000000002 8100 6005 8100 E005 F1C1 0000 0007 0800");
    let answer = arrived(&mut [stream_of(5)], &frame);
    assert_eq!(answer, Err(Refusal::NoTag));
    // Only 8100 marks a VLAN tag.
    for mark in [[0x88, 0xA8], [0x81, 0x01], [0x91, 0x00], [0x00, 0x81]] {
        let mut frame = tagged_to(DESTINATION, Some(0xE000), 7);
        frame[12..14].copy_from_slice(&mark);
        let answer = arrived(&mut [stream_of(0)], &frame);
        assert_eq!(answer, Err(Refusal::NoTag));
    }
}

#[test]
fn a_vlan_tag_behind_the_tag_is_none() {
    behind_the_tag();
}

/// A refused arrival carries its number alone, and leaves nothing for the next.
#[test]
fn refused_arrivals() {
    let urgent = tagged_to(DESTINATION, Some(0xE005), 7);
    let mut long = urgent.clone();
    long.resize(2001, 0);
    let damaged = Stream {
        remaining: 1,
        ..stream_of(5)
    };
    let untagged = untagged_to(DESTINATION, Some(0xE005));
    let group = from_source(3, &urgent);
    let room = urgent.len() - 6;
    let cases = [
        (vec![stream_of(5); 65], 0, &urgent[..], room, 1),
        (vec![stream_of(5)], 2, &urgent, room, 2),
        (vec![stream_of(5)], 0, &long, 2001, 3),
        (vec![stream_of(5)], 0, &urgent[..23], room, 4),
        (vec![stream_of(5)], 0, &untagged, room, 5),
        (vec![stream_of(5)], 0, &group, room, 14),
        (vec![stream_of(0)], 0, &urgent, room, 6),
        (vec![damaged], 0, &urgent, room, 7),
        (vec![stream_of(5)], 0, &urgent, room - 1, 8),
    ];
    for (mut table, network, frame, room, number) in cases {
        let before = table.clone();
        let mut output = vec![FILL; room];
        let refusal: Refusal = arrival(&mut table, network, frame, &mut output).unwrap_err();
        assert_eq!(refusal.number(), number);
        assert_eq!(table, before);
        assert!(output.iter().all(|&byte| byte == FILL));
        let next = arrived(&mut [stream_of(0)], &tagged(7));
        assert_eq!(told(next), ("up", 0, false));
    }
}

/// Each frame of a batch has its own, refused ones between them have none.
fn own_in_batches() {
    let frames = [
        tagged_to(DESTINATION, Some(0xA005), 7),
        tagged(7),
        tagged_to(DESTINATION, Some(0x6005), 7),
        untagged_to(DESTINATION, Some(0xE005)),
        tagged(8),
        tagged_to(DESTINATION, Some(0xE006), 7),
        tagged_before_vlan(DESTINATION, 0xE005, 9),
        tagged_to(DESTINATION, Some(0xD000), 10),
        tagged_to(DESTINATION, Some(0x0005), 11),
        Vec::new(),
        tagged_to(DESTINATION, Some(0x3000), 20),
        tagged(10),
        tagged_to(DESTINATION, Some(0x1000), 11),
    ];
    let mut table = [stream_of(0), stream_of(5)];
    let input = packed(&frames);
    let done = batch(&mut table, 1, frames.len(), &input, &mut [0; 400]).unwrap();
    let expected = [
        Ok(("up", 5, true)),
        Ok(("up", 0, false)),
        Ok(("duplicate", 3, true)),
        Err(Refusal::NoTag),
        Ok(("up", 0, false)),
        Err(Refusal::NoStream),
        Ok(("up", 0, false)),
        Ok(("up", 6, true)),
        Ok(("rogue", 0, true)),
        Err(Refusal::FrameShort),
        Ok(("rogue", 1, true)),
        Ok(("duplicate", 0, false)),
        Ok(("up", 0, true)),
    ];
    for (place, expected) in expected.into_iter().enumerate() {
        let answer = done.answers[place].unwrap();
        assert_eq!(answer.map(|_| told(answer)), expected, "{place}");
    }
    assert_eq!(done.answers[expected.len()..], [None; 32][expected.len()..]);
    assert!(done.answers[expected.len()..]
        .iter()
        .all(|&answer| carried(answer) == (0, false)));
}

#[test]
fn each_frame_of_a_batch_has_its_own() {
    own_in_batches();
}

/// Behind an 8 no frame is reached, and what it would have told is not told.
fn batch_that_ends() {
    let frames: Vec<Vec<u8>> = (0..6)
        .map(|k| tagged_to(DESTINATION, Some((k + 1) << 13 | 5), 7 + k))
        .collect();
    let input = packed(&frames);
    let bare = frames[0].len() - 6;
    for fit in 0..=6 {
        let mut table = [stream_of(5)];
        let mut output = vec![FILL; fit * (bare + 2) + bare + 1];
        let done = batch(&mut table, 0, 6, &input, &mut output).unwrap();
        assert_eq!(done.frames, fit);
        for (place, &answer) in done.answers.iter().enumerate() {
            let expected = match place {
                _ if place < fit => (place as u8 + 1, true),
                _ => (0, false),
            };
            assert_eq!(carried(answer), expected, "{fit}, {place}");
            match answer {
                Some(answer) if place == fit => assert_eq!(answer, Err(Refusal::OutputTooSmall)),
                Some(answer) => assert_eq!(told(answer), ("up", place as u8 + 1, true)),
                None => assert!(place > fit || place >= 6),
            }
        }
    }
    // A batch that is refused has its number alone.
    let answer: Result<Batch, Refusal> = batch(&mut [stream_of(5)], 0, 7, &input, &mut [0; 400]);
    assert_eq!(answer, Err(Refusal::BatchTooLong));
    // No frames, no answers.
    let done = batch(&mut [stream_of(5)], 0, 0, &input, &mut [0; 400]).unwrap();
    assert_eq!(done.answers, [None; 32]);
}

#[test]
fn a_batch_that_ends_with_8() {
    batch_that_ends();
}

/// They answer as before: the patterns have every field.
#[test]
fn the_other_calls_carry_neither() {
    let bare = untagged_to(DESTINATION, Some(0xE005));
    let tagged = tagged_to(DESTINATION, Some(0xE005), 7);
    let mut output = [0; 60];
    let Taken { number, length } = take_tag(&tagged, &mut output).unwrap();
    assert_eq!((number, length), (7, bare.len()));
    assert_eq!(output[..length], bare);
    assert_eq!(write_tag(&bare, 7, &mut output), Ok(tagged.len()));
    assert_eq!(output[..tagged.len()], tagged);
    let second::Turned {
        number,
        network,
        length,
    } = to_prp(&tagged, 1, 1, &mut output).unwrap();
    assert_eq!((number, network, length), (7, 1, bare.len() + 6));
    let second::Sent { number, length } = second::Sender { next: 7 }
        .send(&bare, &mut output, &mut [0; 60])
        .unwrap();
    assert_eq!((number, length), (7, tagged.len()));
}

fn lines_of(file: &[u8]) -> String {
    let mut lines = Vec::new();
    run(&mut &file[..], &mut lines).unwrap();
    String::from_utf8(lines).unwrap()
}

/// Document 01's example, and records with VLAN tags, as bytes.
fn event_lines() {
    let file = bytes(
        "01 000D 01 020000000001 0000 01 04 0003
         0016 04 00 020000000001 020000000002 F1C1 0000 0007 0800
         0016 04 01 020000000001 020000000002 F1C1 0000 0007 0800
         0001 05  0001 05  0001 05
         0016 04 01 020000000001 020000000002 F1C1 0000 0007 0800
         000D 01 020000000001 0005 01 04 0003
         001A 04 00 020000000001 020000000002 8100 6005 F1C1 0000 0009 0800
         001A 04 01 020000000001 020000000002 8100 E005 F1C1 0000 0009 0800
         001A 04 01 020000000001 020000000002 8100 E005 F1C1 0000 0109 0800
         001A 04 01 020000000001 020000000002 8100 F005 F1C1 0000 000A 0800
         001A 04 01 020000000001 020000000002 8100 1005 F1C1 0000 000B 0800
         001A 04 01 020000000001 020000000002 8100 8005 F1C1 0000 0004 0800
         001A 04 00 020000000001 020000000002 8100 A000 F1C1 0000 0008 0800
         001A 04 00 020000000001 020000000002 F1C1 0000 0009 8100 C000 0800
         001A 04 00 020000000001 020000000002 8100 E006 F1C1 0000 0009 0800
         001A 04 00 020000000001 030000000002 8100 E005 F1C1 0000 0009 0800
         0014 04 00 020000000001 020000000002 8100 E005 0800",
    );
    let expected = "1 O 0\n2 A up 0 7 0\n3 A dup 0 7\n4 T 0 0\n5 T 0 0\n6 T 1 0\n7 A up 0 7 0\n\
        8 O 1\n9 A up 1 9 3\n10 A dup 1 9\n11 A rogue 1 265\n12 A up 1 10 7\n13 A up 1 11 0\n\
        14 A rogue 1 4\n15 A up 0 8 5\n16 A up 0 9 0\n17 A no 6\n18 A no 14\n19 A no 5\nend\n";
    assert_eq!(lines_of(&file), expected);
}

#[test]
fn lines_of_events() {
    event_lines();
}

/// The bits of a VLAN tag in lines: every priority with and without the bit below,
/// with VLAN id 0 and 5.
fn every_priority_in_lines() {
    for vlan in [0, 5] {
        let mut file = vec![1];
        push_record(&mut file, &open_body((DESTINATION, vlan), 2, 4, 3));
        let mut expected = String::from("1 O 0\n");
        for high in 0..16u16 {
            let frame = tagged_to(DESTINATION, Some(high << 12 | vlan), high);
            push_record(&mut file, &[&[4, 0], &frame[..]].concat());
            push_record(&mut file, &[&[4, 1], &frame[..]].concat());
            let record = 2 * high + 2;
            expected += &format!("{record} A up 0 {high} {}\n", high / 2);
            expected += &format!("{} A dup 0 {high}\n", record + 1);
        }
        assert_eq!(lines_of(&file), expected + "end\n");
    }
}

#[test]
fn every_priority_is_printed() {
    every_priority_in_lines();
}

/// A frame for such a table as the random runs have, with any bits in its VLAN
/// tag and often with 8100 behind the tag.
fn frame_with_any_bits(random: &mut Random) -> Vec<u8> {
    let mut frame = any_frame(random);
    if random.chance(1, 6) {
        let number = random.pick(&[0, 1, 2, 7, 65535]);
        frame = tagged_before_vlan(random.pick(&DESTINATIONS), random.word(), number);
    }
    frame
}

/// The frame with other high bits in the byte at 14, if it has a VLAN tag there.
fn with_high_bits(frame: &[u8], high: u8) -> Vec<u8> {
    let mut frame = frame.to_vec();
    if at(&frame, 12, [0x81, 0x00]) && frame.len() > 14 {
        frame[14] = frame[14] % 16 + 16 * high;
    }
    frame
}

/// An answer as if its frame had had no VLAN tag.
fn apart_from_tag(answer: Result<Arrival, Refusal>) -> Result<Arrival, Refusal> {
    answer.map(|answer| Arrival {
        priority: 0,
        vlan_tag: false,
        ..answer
    })
}

/// Random single arrivals: each answer tells what its frame says. With other
/// priorities in the frame all else stays: the verdict, the record, the output but
/// for those bits.
fn random_arrivals() {
    let mut seen = Seen::default();
    let mut priorities = Seen::default();
    for seed in 0..6000 {
        let random = &mut Random::new(seed);
        let mut table = any_table(random);
        let mut frame = Vec::new();
        for _ in 0..12 {
            // A twin often has another priority.
            frame = match random.below(3) {
                0 => with_high_bits(&frame, random.below(16) as u8),
                _ => frame_with_any_bits(random),
            };
            let network = random.pick(&[0, 0, 1, 1, 2]);
            let room = random.pick(&[frame.len().saturating_sub(7), 2000, 2000]);
            let (mut twin, before) = (table.clone(), table.clone());
            let mut output = vec![FILL; room];
            let answer = arrival(&mut table, network, &frame, &mut output);
            match answer {
                Ok(answer) => {
                    let of_frame = priority_of(&frame);
                    assert_eq!((answer.priority, answer.vlan_tag), of_frame, "{seed}");
                    seen.note(word(answer), u8::from(of_frame.1));
                    priorities.note(word(answer), of_frame.0);
                }
                Err(_) => assert_eq!(table, before),
            }
            let other = with_high_bits(&frame, random.below(16) as u8);
            let mut twin_output = vec![FILL; room];
            let twin_answer = arrival(&mut twin, network, &other, &mut twin_output);
            assert_eq!(apart_from_tag(twin_answer), apart_from_tag(answer));
            assert_eq!(twin, table);
            if let Ok(Verdict::HandedUp { length }) = answer.map(|answer| answer.verdict) {
                // What the frame has at 14, the output has.
                if priority_of(&frame).1 {
                    let (up, other_up) = (&output[..length], &twin_output[..length]);
                    assert_eq!(with_high_bits(up, other[14] / 16), other_up);
                    assert_eq!((up[14], other_up[14]), (frame[14], other[14]));
                }
            }
        }
    }
    for word in ["up", "duplicate", "rogue"] {
        seen.all_met(word, &[0, 1]);
        priorities.all_met(word, &[0, 1, 2, 3, 4, 5, 6, 7]);
    }
}

#[test]
fn random_single_arrivals() {
    random_arrivals();
}

/// Random batches: the same of each frame, in its place.
fn random_batches() {
    let mut seen = Seen::default();
    for seed in 0..4000 {
        let random = &mut Random::new(seed);
        let mut table = any_table(random);
        table.truncate(64);
        for _ in 0..3 {
            let count = random.pick(&[0, 1, 2, 5, 9, 32]);
            let frames: Vec<Vec<u8>> = (0..count).map(|_| frame_with_any_bits(random)).collect();
            let room = random.pick(&[40, 100, 66000]);
            let input = packed(&frames);
            let done = batch(&mut table, 0, count, &input, &mut vec![0; room]).unwrap();
            for (place, &answer) in done.answers.iter().enumerate() {
                match answer {
                    Some(Ok(answer)) => {
                        let of_frame = priority_of(&frames[place]);
                        assert_eq!((answer.priority, answer.vlan_tag), of_frame, "{seed}");
                        seen.note(word(answer), u8::from(of_frame.1));
                    }
                    Some(Err(Refusal::OutputTooSmall)) => {
                        assert_eq!(done.frames, place);
                        seen.note("ends", u8::from(place + 1 < count));
                    }
                    Some(Err(_)) => assert!(place < done.frames),
                    None => assert!(place >= count || place > done.frames),
                }
            }
        }
    }
    seen.all_met("ends", &[0, 1]);
    for word in ["up", "duplicate", "rogue"] {
        seen.all_met(word, &[0, 1]);
    }
}

#[test]
fn random_batches_have_each_frame_s_own() {
    random_batches();
}

/// Random link arrivals, with frames that have VLAN tags: 0 and no.
fn random_links() {
    let mut seen = Seen::default();
    for seed in 0..6000 {
        let random = &mut Random::new(seed);
        let mut table = any_table(random);
        for _ in 0..6 {
            let frame = any_numbered(random);
            let answer = link_arrival(&mut table, 0, &frame, &mut [0; 2000]);
            if let Ok(answer) = answer {
                assert_eq!((answer.priority, answer.vlan_tag), (0, false), "{seed}");
                let looks_tagged = frame.len() > 15 && at(&frame, 12, [0x81, 0x00]);
                seen.note(word(answer), u8::from(looks_tagged));
            }
        }
    }
    seen.all_met("up", &[0, 1]);
    seen.all_met("duplicate", &[0, 1]);
}

#[test]
fn random_link_arrivals() {
    random_links();
}

/// The up lines of random files end with what their frames say, the other lines
/// of arrivals with the number.
fn random_files() {
    let mut seen = Seen::default();
    for seed in 0..200 {
        let file = file(seed, 300);
        let lines = lines_of(&file);
        if lines == "version\n" {
            continue;
        }
        let mut rest = &file[1..];
        for line in lines.lines() {
            let words: Vec<&str> = line.split(' ').collect();
            if words.len() == 1 {
                // The last line.
                break;
            }
            let (length, behind) = rest.split_at(2);
            let length = usize::from(u16::from_be_bytes([length[0], length[1]]));
            let body = &behind[..length];
            rest = &behind[length..];
            let frame = match body {
                [4, _, frame @ ..] if words[1] == "A" && words[2] != "no" => frame,
                _ => continue,
            };
            let place = type_place(frame);
            let number = u16::from_be_bytes([frame[place + 4], frame[place + 5]]).to_string();
            let (priority, vlan_tag) = priority_of(frame);
            match words[2..] {
                ["up", _, of_frame, last] => {
                    assert_eq!(of_frame, number, "{seed}, {line}");
                    assert_eq!(last, priority.to_string(), "{seed}, {line}");
                    seen.note("up", priority);
                    seen.note("up of VLAN tag", vlan_tag.into());
                }
                ["dup" | "rogue", _, of_frame] => {
                    assert_eq!(of_frame, number, "{seed}, {line}");
                    seen.note("not up", priority);
                }
                _ => panic!("{seed}, {line}"),
            }
        }
    }
    seen.all_met("up", &[0, 1, 2, 3, 4, 5, 6, 7]);
    seen.all_met("not up", &[0, 1, 2, 3, 4, 5, 6, 7]);
    seen.all_met("up of VLAN tag", &[0, 1]);
}

#[test]
fn lines_of_random_files() {
    random_files();
}

/// The variants of this order, which are the last of the list.
fn variants() -> &'static [wrong::Variant] {
    let first = VARIANTS
        .iter()
        .position(|v| v.wrong == Wrong::PriorityOneLow);
    &VARIANTS[first.unwrap()..]
}

/// Random files show those that are for files, most of them in many files, and
/// none of the others.
#[test]
fn generated_files_show_the_slips_that_they_can() {
    let files: Vec<Vec<u8>> = (0..100).map(|seed| file(seed, 300)).collect();
    let right: Vec<String> = files.iter().map(|file| lines_of(file)).collect();
    for variant in variants() {
        wrong::set(Some(variant.wrong));
        let shown = files
            .iter()
            .zip(&right)
            .filter(|(file, right)| lines_of(file) != **right)
            .count();
        wrong::set(None);
        match variant.seen {
            Shows::Files => assert!(shown >= 20, "{:?} in {shown} files", variant.wrong),
            Shows::CallsOnly => assert_eq!(shown, 0, "{:?}", variant.wrong),
        }
    }
}

#[test]
fn wrong_priorities_are_found() {
    use Wrong::*;
    // Where the bits are.
    let bits = [
        PriorityOneLow,
        PriorityFourBits,
        PriorityOfId,
        PriorityOfByte15,
        PriorityTwoBits,
        PriorityFrom7,
        PriorityTurned,
    ];
    finds(every_value, &bits);
    finds(every_value_in_batches, &bits);
    finds(random_arrivals, &bits);
    finds(random_batches, &bits);
    finds(random_files, &bits);
    finds(every_priority_in_lines, &bits);
    finds(event_lines, &bits);
    finds(
        bytes_at_14,
        &[
            PriorityOneLow,
            PriorityFourBits,
            PriorityOfId,
            PriorityOfByte15,
            PriorityTwoBits,
            PriorityFrom7,
            PriorityTurned,
            TagUntold,
            PriorityZeroSaysNone,
        ],
    );
    // Whether a tag was there.
    let tags = [
        UntaggedSaysTag,
        TagUntold,
        PriorityZeroSaysNone,
        VlanZeroSaysNone,
        VlanZeroUntagged,
    ];
    finds(vlan_id_0, &tags);
    finds(random_arrivals, &tags);
    finds(random_batches, &tags);
    finds(frames_as_bytes, &[UntaggedSaysTag, TagUntold]);
    finds(behind_the_tag, &[PriorityAsWritten, TagAsWritten]);
    finds(random_arrivals, &[PriorityAsWritten, TagAsWritten]);
    finds(random_batches, &[PriorityAsWritten, TagAsWritten]);
    // The verdicts.
    let verdicts = [OnlyUpHasPriority, DuplicateHasNone, RogueHasNone];
    finds(three_verdicts, &verdicts);
    finds(random_arrivals, &verdicts);
    finds(random_batches, &verdicts);
    // Batches.
    let batches = [
        BatchHasNone,
        BatchOfFirst,
        BatchOfLast,
        BatchOfBefore,
        BatchKeepsLastTag,
    ];
    finds(own_in_batches, &batches);
    finds(random_batches, &batches);
    finds(
        batch_that_ends,
        &[BatchHasNone, BatchOfFirst, BatchOfLast, BatchOfBefore],
    );
    // Links.
    finds(every_value_in_links, &[LinkHasPriority, LinkSaysTag]);
    finds(random_links, &[LinkHasPriority, LinkSaysTag]);
    // Lines.
    let lines = [
        PriorityAsWritten,
        VlanZeroUntagged,
        UpPrintsNone,
        UntaggedPrintsNone,
        PrintsVlanTag,
        DupPrintsPriority,
        RoguePrintsPriority,
        PriorityBeforeNumber,
        PriorityBeforeSlot,
    ];
    finds(event_lines, &lines);
    finds(random_files, &lines);
}
