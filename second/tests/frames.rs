//! "The frame": lengths at every edge, the tag put in and taken out, and the
//! room in the output. Order 1: group sources.

mod common;

use common::*;
use second::random::Random;
use second::{arrival, take_tag, write_tag, Arrival, Stream, Taken, Verdict};

/// A frame of this length. Its type field holds `kind`; everything behind is
/// zero. Shorter lengths cut it off.
fn frame_of(length: usize, vlan: bool, kind: [u8; 2]) -> Vec<u8> {
    let mut frame = Vec::new();
    frame.extend(DESTINATION);
    frame.extend(SOURCE);
    if vlan {
        frame.extend([0x81, 0x00, 0x00, 0x00]);
    }
    frame.extend(kind);
    frame.resize(length.max(frame.len()), 0);
    frame.truncate(length);
    frame
}

const TAG: [u8; 2] = [0xF1, 0xC1];
const PLAIN: [u8; 2] = [0x08, 0x00];

/// Length, then the refusal of an arrival and of taking a tag out, then that
/// of writing a tag; 0 is no refusal.
type Row = (usize, u8, u8);

fn check(rows: &[Row], vlan: bool, kind: [u8; 2]) {
    for &(length, reading, writing) in rows {
        let frame = frame_of(length, vlan, kind);
        let mut output = vec![FILL; 3000];
        let mut table = [fresh(Stream::VECTOR, 4, 3)];
        let taken = take_tag(&frame, &mut output);
        assert_eq!(number_of(taken), reading, "take {length}");
        let arrived = arrival(&mut table, 0, &frame, &mut output);
        assert_eq!(number_of(arrived), reading, "arrival {length}");
        let written = write_tag(&frame, 7, &mut output);
        assert_eq!(number_of(written), writing, "write {length}");
    }
}

#[test]
fn lengths_without_vlan_with_tag() {
    let rows = [
        (0, 4, 4),
        (12, 4, 4),
        (13, 4, 4),
        (14, 4, 13),
        (17, 4, 13),
        (18, 4, 13),
        (19, 4, 13),
        (20, 0, 13),
        (1994, 0, 13),
        (1995, 0, 3),
        (2000, 0, 3),
        (2001, 3, 3),
    ];
    check(&rows, false, TAG);
}

#[test]
fn lengths_without_vlan_without_tag() {
    let rows = [
        (0, 4, 4),
        (13, 4, 4),
        (14, 5, 0),
        (17, 5, 0),
        (18, 5, 0),
        (19, 5, 0),
        (20, 5, 0),
        (1994, 5, 0),
        (1995, 5, 3),
        (2000, 5, 3),
        (2001, 3, 3),
    ];
    check(&rows, false, PLAIN);
}

#[test]
fn lengths_with_vlan_with_tag() {
    let rows = [
        (13, 4, 4),
        (14, 4, 4),
        (17, 4, 4),
        (18, 4, 13),
        (19, 4, 13),
        (20, 4, 13),
        (23, 4, 13),
        (24, 0, 13),
        (1994, 0, 13),
        (1995, 0, 3),
        (2000, 0, 3),
        (2001, 3, 3),
    ];
    check(&rows, true, TAG);
}

#[test]
fn lengths_with_vlan_without_tag() {
    let rows = [
        (13, 4, 4),
        (14, 4, 4),
        (17, 4, 4),
        (18, 5, 0),
        (19, 5, 0),
        (20, 5, 0),
        (1994, 5, 0),
        (1995, 5, 3),
        (2000, 5, 3),
        (2001, 3, 3),
    ];
    check(&rows, true, PLAIN);
}

#[test]
fn the_mark_is_sought_at_the_type_field_only() {
    let mut output = [FILL; 100];
    // 8100 behind 8100 is an ordinary type; F1C1 behind it is not looked at.
    let mut frame = frame_of(18, true, [0x81, 0x00]);
    frame.extend([0, 0, 0xF1, 0xC1, 0, 0, 0, 7, 8, 0]);
    assert_eq!(number_of(take_tag(&frame, &mut output)), 5);
    // A near miss in either byte.
    for kind in [[0xF1, 0xC0], [0xF0, 0xC1], [0xC1, 0xF1]] {
        let frame = frame_of(30, false, kind);
        assert_eq!(number_of(take_tag(&frame, &mut output)), 5);
    }
    // 8100 must be whole, too.
    for mark in [[0x81, 0x01], [0x80, 0x00], [0x88, 0xA8]] {
        let mut frame = frame_of(40, true, TAG);
        frame[12..14].copy_from_slice(&mark);
        assert_eq!(number_of(take_tag(&frame, &mut output)), 5);
    }
}

#[test]
fn the_key_of_a_frame() {
    let lookup = |tci: Option<u16>, vlan: u16| {
        let mut table = [Stream {
            vlan,
            ..fresh(Stream::VECTOR, 4, 3)
        }];
        let mut output = [0; 100];
        let frame = tagged_to(DESTINATION, tci, 7);
        number_of(arrival(&mut table, 0, &frame, &mut output))
    };
    // The four high bits are no part of the id.
    for high in 0..16 {
        assert_eq!(lookup(Some(high << 12 | 5), 5), 0);
        assert_eq!(lookup(Some(high << 12 | 4094), 4094), 0);
        assert_eq!(lookup(Some(high << 12 | 5), 6), 6);
        // A tag with VLAN id 0 has the same key as no tag.
        assert_eq!(lookup(Some(high << 12), 0), 0);
    }
    assert_eq!(lookup(None, 0), 0);
    assert_eq!(lookup(None, 5), 6);
    // No lawful stream has 4095, but a damaged one may.
    assert_eq!(lookup(Some(4095), 4094), 6);
    assert_eq!(lookup(Some(4095), 4095), 7);
    // 8100 behind the redundancy tag is the former type, not a VLAN tag.
    let mut frame = tagged(7);
    frame.truncate(18);
    frame.extend([0x81, 0x00, 0x00, 0x05, 0x08, 0x00]);
    let mut table = [fresh(Stream::VECTOR, 4, 3)];
    let mut output = [0; 100];
    assert_eq!(number_of(arrival(&mut table, 0, &frame, &mut output)), 0);
    table[0].vlan = 5;
    assert_eq!(number_of(arrival(&mut table, 0, &frame, &mut output)), 6);
    // Every byte of the destination counts.
    for byte in 0..6 {
        let mut destination = DESTINATION;
        destination[byte] ^= 0x10;
        let frame = tagged_to(destination, None, 7);
        let mut table = [fresh(Stream::VECTOR, 4, 3)];
        assert_eq!(number_of(arrival(&mut table, 0, &frame, &mut output)), 6);
    }
}

#[test]
fn what_is_written_and_what_is_kept() {
    for tci in [None, Some(0), Some(0xE005)] {
        let plain = untagged_to(DESTINATION, tci);
        let full = tagged_to(DESTINATION, tci, 0x1234);
        let mut output = [FILL; 60];
        assert_eq!(write_tag(&plain, 0x1234, &mut output), Ok(full.len()));
        assert_eq!(output[..full.len()], full[..]);
        assert!(output[full.len()..].iter().all(|&b| b == FILL));

        let mut output = [FILL; 60];
        let taken = Taken {
            number: 0x1234,
            length: plain.len(),
        };
        assert_eq!(take_tag(&full, &mut output), Ok(taken));
        assert_eq!(output[..plain.len()], plain[..]);
        assert!(output[plain.len()..].iter().all(|&b| b == FILL));

        let mut output = [FILL; 60];
        let vlan = tci.unwrap_or(0) & 0x0FFF;
        let mut table = [Stream {
            vlan,
            ..fresh(Stream::VECTOR, 4, 3)
        }];
        let up = Arrival {
            slot: 0,
            number: 0x1234,
            verdict: Verdict::HandedUp {
                length: plain.len(),
            },
            priority: (tci.unwrap_or(0) >> 13) as u8,
            vlan_tag: tci.is_some(),
        };
        assert_eq!(arrival(&mut table, 1, &full, &mut output), Ok(up));
        assert_eq!(output[..plain.len()], plain[..]);
        assert!(output[plain.len()..].iter().all(|&b| b == FILL));

        // Duplicate and rogue write nothing.
        let mut output = [FILL; 60];
        let twin = arrival(&mut table, 0, &full, &mut output).unwrap();
        assert_eq!(twin.verdict, Verdict::Duplicate);
        let far = tagged_to(DESTINATION, tci, 0x4321);
        let far = arrival(&mut table, 0, &far, &mut output).unwrap();
        assert_eq!(far.verdict, Verdict::Rogue);
        assert_eq!(output, [FILL; 60]);
    }
}

#[test]
fn reserved_bytes_are_ignored_and_written_zero() {
    for reserved in [[0, 1], [0xFF, 0xFF], [0x81, 0x00], [0xF1, 0xC1]] {
        let mut frame = tagged(9);
        frame[14..16].copy_from_slice(&reserved);
        let mut bare = [0; 60];
        let taken = take_tag(&frame, &mut bare).unwrap();
        assert_eq!(taken.number, 9);
        let mut again = [0; 60];
        let length = write_tag(&bare[..taken.length], 9, &mut again).unwrap();
        assert_eq!(again[..length], tagged(9)[..]);
        assert_ne!(again[..length], frame[..]);
    }
}

#[test]
fn outputs_one_byte_too_small() {
    let plain = untagged_to(DESTINATION, None);
    let full = tagged(7);

    let mut output = vec![FILL; full.len() - 1];
    assert_eq!(number_of(write_tag(&plain, 7, &mut output)), 8);
    assert!(output.iter().all(|&b| b == FILL));
    let mut output = vec![FILL; full.len()];
    assert_eq!(write_tag(&plain, 7, &mut output), Ok(full.len()));
    assert_eq!(output, full);

    let mut output = vec![FILL; plain.len() - 1];
    assert_eq!(number_of(take_tag(&full, &mut output)), 8);
    assert!(output.iter().all(|&b| b == FILL));
    let mut output = vec![FILL; plain.len()];
    assert_eq!(number_of(take_tag(&full, &mut output)), 0);
    assert_eq!(output, plain);

    // The room is asked for with every verdict, and nothing is marked. The
    // frame that found no room must not turn its twin into a duplicate.
    let mut table = [fresh(Stream::VECTOR, 4, 3)];
    let mut small = vec![FILL; plain.len() - 1];
    let mut exact = vec![FILL; plain.len()];
    for (number, verdict) in [(7, "up"), (7, "duplicate"), (1000, "rogue")] {
        let frame = tagged(number);
        let before = table;
        assert_eq!(number_of(arrival(&mut table, 0, &frame, &mut small)), 8);
        assert_eq!(table, before);
        assert!(small.iter().all(|&b| b == FILL));
        let a = arrival(&mut table, 1, &frame, &mut exact).unwrap();
        assert_eq!(word(a), verdict);
    }
    assert_eq!(number_of(arrival(&mut table, 0, &full, &mut [])), 8);
}

#[test]
fn the_longest_frames() {
    let plain = frame_of(Stream::MAX_UNTAGGED, false, PLAIN);
    let mut full = vec![0; Stream::MAX_FRAME];
    assert_eq!(write_tag(&plain, 65535, &mut full), Ok(2000));
    let mut bare = vec![0; Stream::MAX_UNTAGGED];
    let taken = take_tag(&full, &mut bare).unwrap();
    assert_eq!((taken.number, taken.length), (65535, 1994));
    assert_eq!(bare, plain);
}

/// The refusals of an arrival for a fresh stream with this key, of taking a tag
/// out and of writing a tag; `frame` has the tag and `plain` has none.
fn refusals(key: ([u8; 6], u16), frame: &[u8], plain: &[u8]) -> [u8; 3] {
    let mut table = [Stream {
        destination: key.0,
        vlan: key.1,
        ..fresh(Stream::VECTOR, 4, 3)
    }];
    let mut output = [0; 100];
    [
        number_of(arrival(&mut table, 0, frame, &mut output)),
        number_of(take_tag(frame, &mut output)),
        number_of(write_tag(plain, 7, &mut output)),
    ]
}

#[test]
fn the_lowest_bit_of_the_first_source_byte_marks_a_group() {
    // A group destination is an ordinary key.
    for destination in [DESTINATION, [3, 0, 0, 0, 0, 1], [255; 6]] {
        for (tci, vlan) in [(None, 0), (Some(0xF005), 5)] {
            let full = tagged_to(destination, tci, 7);
            let plain = untagged_to(destination, tci);
            for first in 0..=255 {
                let [full, plain] = [&full, &plain].map(|frame| from_source(first, frame));
                // FE is no group, 01 and FF are.
                let group = if first % 2 == 1 { 14 } else { 0 };
                let met = refusals((destination, vlan), &full, &plain);
                assert_eq!(met, [group, 0, group], "{first}");
            }
        }
    }
    // The other bytes of the source say nothing.
    let mut frames = [tagged(7), untagged_to(DESTINATION, None)];
    for frame in &mut frames {
        frame[7..12].fill(0xFF);
    }
    let met = refusals((DESTINATION, 0), &frames[0], &frames[1]);
    assert_eq!(met, [0, 0, 0]);
}

#[test]
fn a_group_source_among_the_other_checks() {
    let full = from_source(1, &tagged(7));
    let plain = from_source(1, &untagged_to(DESTINATION, None));
    let mut long = full.clone();
    long.resize(2001, 0);
    let mut long_plain = plain.clone();
    long_plain.resize(1995, 0);
    let no_room: &mut [u8] = &mut [];

    let lawful = fresh(Stream::VECTOR, 4, 3);
    let damaged = Stream { rule: 4, ..lawful };
    // 14 before 6, 7 and 8.
    for record in [Stream::FREE, damaged, lawful] {
        let mut table = [record];
        let mut arrive = |frame: &[u8]| number_of(arrival(&mut table, 0, frame, no_room));
        assert_eq!(arrive(&long), 3);
        assert_eq!(arrive(&full[..6]), 4);
        assert_eq!(arrive(&full[..13]), 4);
        assert_eq!(arrive(&full[..19]), 4);
        assert_eq!(arrive(&plain), 5);
        assert_eq!(arrive(&full), 14);
        assert_eq!(table, [record]);
    }

    let mut write = |frame: &[u8]| number_of(write_tag(frame, 7, no_room));
    assert_eq!(write(&long_plain), 3);
    assert_eq!(write(&plain[..13]), 4);
    assert_eq!(write(&full), 13);
    assert_eq!(write(&plain), 14);

    let mut take = |frame: &[u8]| number_of(take_tag(frame, no_room));
    assert_eq!(take(&full[..19]), 4);
    assert_eq!(take(&plain), 5);
    assert_eq!(take(&full), 8);
}

#[test]
fn a_group_source_changes_nothing() {
    let mut table = [fresh(Stream::VECTOR, 4, 3)];
    let mut output = [FILL; 60];
    let group = from_source(3, &tagged(7));
    assert_eq!(number_of(arrival(&mut table, 0, &group, &mut output)), 14);
    let plain = from_source(3, &untagged_to(DESTINATION, None));
    assert_eq!(number_of(write_tag(&plain, 7, &mut output)), 14);
    assert_eq!(table, [fresh(Stream::VECTOR, 4, 3)]);
    assert_eq!(output, [FILL; 60]);
    // The frame itself is no duplicate of what was reflected.
    assert_eq!(arrive(&mut table, 7), "up");
    // The tag can be taken out, and not be put in again.
    let mut bare = [FILL; 60];
    let taken = take_tag(&group, &mut bare).unwrap();
    assert_eq!((taken.number, taken.length), (7, plain.len()));
    let bare = &bare[..taken.length];
    assert_eq!(bare, plain);
    assert_eq!(number_of(write_tag(bare, 7, &mut output)), 14);
}

/// A random frame of 10 to 59 bytes, with the marks at telling places. Its
/// source is no group: the round trips are read for these frames.
fn any_frame(random: &mut Random) -> Vec<u8> {
    let mut frame = vec![0; random.between(10, 59) as usize];
    random.fill(&mut frame);
    frame[6] &= 0xFE;
    for place in [12, 14, 16, 18, 20, 22] {
        let mark = random.pick(&[[0xF1, 0xC1], [0x81, 0x00], [0, 0]]);
        if frame.len() >= place + 2 && random.chance(1, 2) {
            frame[place..place + 2].copy_from_slice(&mark);
        }
    }
    frame
}

#[test]
fn put_then_take_gives_frame_and_number_back() {
    let mut random = Random::new(1);
    let mut done = 0;
    for _ in 0..100_000 {
        let frame = any_frame(&mut random);
        let number = random.word();
        let mut full = [FILL; 80];
        let length = match write_tag(&frame, number, &mut full) {
            Ok(length) => length,
            Err(_) => continue,
        };
        let mut bare = [FILL; 80];
        let taken = take_tag(&full[..length], &mut bare).unwrap();
        assert_eq!(taken.number, number);
        assert_eq!(bare[..taken.length], frame[..]);
        done += 1;
    }
    assert!(done > 10_000);
}

#[test]
fn take_then_put_and_its_special_cases() {
    let mut random = Random::new(2);
    let mut same = 0;
    let mut refused_mark = 0;
    let mut refused_short = 0;
    let mut refused_later = 0;
    let mut moved = 0;
    let mut reserved_lost = 0;
    for _ in 0..400_000 {
        let frame = any_frame(&mut random);
        let mut bare = [FILL; 80];
        let taken = match take_tag(&frame, &mut bare) {
            Ok(taken) => taken,
            Err(_) => continue,
        };
        let mut again = [FILL; 80];
        let put = write_tag(&bare[..taken.length], taken.number, &mut again);

        let vlan = frame[12..14] == [0x81, 0x00];
        let place = if vlan { 16 } else { 12 };
        let reserved_zero = frame[place + 2..place + 4] == [0, 0];
        let former = &frame[place + 6..place + 8];
        if former == [0xF1, 0xC1] {
            assert_eq!(number_of(put), 13);
            refused_mark += 1;
        } else if former == [0x81, 0x00] && !vlan {
            if frame.len() < 24 {
                assert_eq!(number_of(put), 4);
                refused_short += 1;
            } else if frame[22..24] == [0xF1, 0xC1] {
                assert_eq!(number_of(put), 13);
                refused_later += 1;
            } else {
                // The tag stands four bytes later than before.
                assert_eq!(put, Ok(frame.len()));
                assert_eq!(again[..12], frame[..12]);
                assert_eq!(again[12..16], frame[18..22]);
                assert_eq!(again[16..20], [0xF1, 0xC1, 0, 0]);
                assert_eq!(again[20..22], taken.number.to_be_bytes());
                assert_eq!(again[22..frame.len()], frame[22..]);
                assert_ne!(again[..frame.len()], frame[..]);
                moved += 1;
            }
        } else {
            assert_eq!(put, Ok(frame.len()));
            assert_eq!(again[..frame.len()] == frame[..], reserved_zero);
            if reserved_zero {
                same += 1;
            } else {
                reserved_lost += 1;
            }
        }
    }
    for seen in [
        same,
        refused_mark,
        refused_short,
        refused_later,
        moved,
        reserved_lost,
    ] {
        assert!(seen > 100, "a case was hardly met");
    }
}
