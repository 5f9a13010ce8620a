//! Text to file, file to text, and what is wrong with a text.

use event_text::{decode, encode};

const EXAMPLE: &str = "# document 01's example
open 02:00:00:00:00:01 vlan 0 vector L 4 R 3
net 0 number 7
net 1 number 7   # the twin

tick 3
net 1 number 7
";

const EXAMPLE_HEX: &str = "
    01 000D 01 020000000001 0000 01 04 0003
    0016 04 00 020000000001 020000000002 F1C1 0000 0007 0800
    0016 04 01 020000000001 020000000002 F1C1 0000 0007 0800
    0001 05  0001 05  0001 05
    0016 04 01 020000000001 020000000002 F1C1 0000 0007 0800
";

fn bytes(hex: &str) -> Vec<u8> {
    let digits: Vec<u8> = hex
        .chars()
        .filter_map(|c| c.to_digit(16))
        .map(|d| d as u8)
        .collect();
    digits.chunks(2).map(|c| c[0] << 4 | c[1]).collect()
}

fn file(text: &str) -> Vec<u8> {
    encode(text).unwrap_or_else(|fault| panic!("{fault}")).bytes
}

/// File to text to file is the identity.
fn comes_back(bytes: &[u8]) {
    let text = decode(bytes);
    assert!(file(&text) == bytes, "{bytes:02X?}\n{text}");
}

#[test]
fn the_example() {
    let encoded = encode(EXAMPLE).unwrap();
    assert_eq!(encoded.bytes, bytes(EXAMPLE_HEX));
    assert_eq!(encoded.records, [0, 1, 1, 1, 0, 3, 1]);
    let text = "open 02:00:00:00:00:01 vlan 0 vector L 4 R 3\n\
        net 0 number 7\nnet 1 number 7\ntick 3\nnet 1 number 7\n";
    assert_eq!(decode(&encoded.bytes), text);
}

#[test]
fn every_statement() {
    for (text, hex) in [
        ("", "01"),
        ("# only this", "01"),
        ("empty", ""),
        ("version 2", "02"),
        ("version 1\ntick", "01 0001 05"),
        ("tick 0", "01"),
        ("close 255\nreset 8", "01 0002 02FF 0002 0308"),
        ("raw", "01 0000"),
        ("raw 06 0708 ab", "01 0004 060708AB"),
        ("raw 07", "01 0001 07"),
        ("tick\ncut 00", "01 0001 05 00"),
        ("cut 0003 05 05", "01 0003 0505"),
        (
            "open aA:00:00:00:00:01 rule 9 L 255 R 65535 vlan 65535",
            "01 000D 01 AA0000000001 FFFF 09 FF FFFF",
        ),
        // One byte for L where it fits, else two, the high one first.
        (
            "open 01:02:03:04:05:06 vlan 7 vector L 256 R 3",
            "01 000E 06 010203040506 0007 01 0100 0003",
        ),
        (
            "open 01:02:03:04:05:06 match L 513 R 772",
            "01 000E 06 010203040506 0000 02 0201 0304",
        ),
        (
            "open 01:02:03:04:05:06 vector L 65535 R 1",
            "01 000E 06 010203040506 0000 01 FFFF 0001",
        ),
        (
            "open 01:02:03:04:05:06 vector long L 4 R 3",
            "01 000E 06 010203040506 0000 01 0004 0003",
        ),
        (
            "open 01:02:03:04:05:06 vector L 300 R 3 long",
            "01 000E 06 010203040506 0000 01 012C 0003",
        ),
        (
            "net 255 untagged to 01:02:03:04:05:06 from 11:12:13:14:15:16 type 88B5 data 0102",
            "01 0012 04 FF 010203040506 111213141516 88B5 0102",
        ),
        (
            "net 0 number 258 to 01:02:03:04:05:06 vlan 0 reserved 8100 size 26",
            "01 001C 04 00 010203040506 020000000002 8100 0000 F1C1 8100 0102 0800 0000",
        ),
        (
            "net 0 number 1 to 01:02:03:04:05:06 tci E005 size 13",
            "01 000F 04 00 010203040506 020000000002 81",
        ),
        (
            "net 0 number 65535..0 to 01:02:03:04:05:06",
            "01 0016 04 00 010203040506 020000000002 F1C1 0000 FFFF 0800
             0016 04 00 010203040506 020000000002 F1C1 0000 0000 0800",
        ),
    ] {
        assert_eq!(file(text), bytes(hex), "{text}");
        comes_back(&bytes(hex));
    }
}

#[test]
fn the_kind_of_an_open_comes_back() {
    let short = "open 01:00:00:00:00:01 vlan 5 match L 255 R 1\nnet 0 number 1\n";
    let long = "open 01:00:00:00:00:01 vlan 5 match L 255 long R 1\nnet 0 number 1\n";
    let above = "open 01:00:00:00:00:01 vlan 5 match L 256 R 1\nnet 0 number 1\n";
    for (text, kind, length) in [(short, 1, 13), (long, 6, 14), (above, 6, 14)] {
        let bytes = file(text);
        assert_eq!(bytes[1..4], [0, length, kind], "{text}");
        assert_eq!(decode(&bytes), text);
    }
    // A kind with the other one's length is no open.
    for hex in [
        "01 000E 01 010203040506 0007 01 0100 0003",
        "01 000D 06 010203040506 0007 01 04 0003",
        "01 000F 06 010203040506 0007 01 0100 000300",
    ] {
        assert!(decode(&bytes(hex)).starts_with("raw "), "{hex}");
        comes_back(&bytes(hex));
    }
}

#[test]
fn a_frame_has_the_key_last_opened() {
    let text = "open 01:00:00:00:00:01 vlan 5 match L 2 R 1\n\
        net 0 number 1\nnet 0 number 1 vlan none\n\
        open 01:00:00:00:00:02 vlan 4096 match L 2 R 1\nnet 0 number 1\n";
    let hex = "01 000D 01 010000000001 0005 02 02 0001
        001A 04 00 010000000001 020000000002 8100 0005 F1C1 0000 0001 0800
        0016 04 00 010000000001 020000000002 F1C1 0000 0001 0800
        000D 01 010000000002 1000 02 02 0001
        0016 04 00 010000000002 020000000002 F1C1 0000 0001 0800";
    assert_eq!(file(text), bytes(hex));
    assert_eq!(decode(&bytes(hex)), text);
}

#[test]
fn any_bytes_come_back() {
    let example = bytes(EXAMPLE_HEX);
    for keep in 0..=example.len() {
        comes_back(&example[..keep]);
    }
    // Every single byte changed to some values, lengths among them.
    for at in 0..example.len() {
        for value in [0, 1, 2, 4, 5, 6, 0x12, 0x16, 0x81, 0xF1, 0xFF] {
            let mut changed = example.clone();
            changed[at] = value;
            comes_back(&changed);
        }
    }
    // Bytes drawn from few values, so that marks and kinds come up.
    let mut state: u64 = 1;
    let mut below = |end: u64| {
        state = state
            .wrapping_mul(6364136223846793005)
            .wrapping_add(1442695040888963407);
        (state >> 33) % end
    };
    for _ in 0..5_000 {
        let length = below(80);
        let any: Vec<u8> = (0..length)
            .map(|_| {
                let few = [0, 0, 0, 1, 2, 4, 5, 6, 13, 14, 0x16, 0x81, 0xF1, 0xC1];
                few[below(few.len() as u64) as usize]
            })
            .collect();
        comes_back(&any);
        // As the body of an arrival, so that frames of every length are met.
        let mut arrival = vec![1, 0, length as u8 + 2, 4, 0];
        arrival.extend(&any);
        comes_back(&arrival);
        for (place, mark) in [(17, [0x81, 0]), (17, [0xF1, 0xC1]), (21, [0xF1, 0xC1])] {
            if let Some(two) = arrival.get_mut(place..place + 2) {
                two.copy_from_slice(&mark);
                comes_back(&arrival);
            }
        }
    }
    // The longest body.
    comes_back(&[&[1, 255, 255, 4][..], &[7; 65534]].concat());
}

#[test]
fn faults_name_their_line() {
    for (text, line, part) in [
        ("tick\n\nfly 3", 3, "'fly' is no statement"),
        ("tick x", 1, "the number of ticks must be a number"),
        ("close 256", 1, "from 0 to 255, not '256'"),
        ("close", 1, "the slot is missing"),
        ("reset 1 2", 1, "'2' is too much here"),
        ("tick\nversion 1", 2, "may only be the first"),
        ("empty\ntick", 2, "nothing may follow"),
        ("cut 01\ntick", 2, "nothing may follow"),
        ("cut", 1, "the bytes in hex are missing"),
        ("cut 0001 05", 1, "begin with a whole record"),
        ("raw 0", 1, "odd number of hex digits"),
        ("raw 0g", 1, "not hex"),
        ("net 0 number 1", 1, "nothing was opened above"),
        ("net 0", 1, "'number' or 'untagged' is missing"),
        ("net 0 numbr 1", 1, "is due, not 'numbr'"),
        ("net 0 number 65536", 1, "from 0 to 65535"),
        ("net 0 number 1..x", 1, "not 'x'"),
        (
            "net 0 untagged reserved 0000",
            1,
            "'reserved' means nothing",
        ),
        ("net 0 number 1 to 01:02:03:04:05", 1, "no address"),
        ("net 0 number 1 vlan 4096", 1, "from 0 to 4095"),
        ("net 0 number 1 type 0", 1, "odd number"),
        ("net 0 number 1 type 000000", 1, "four hex digits"),
        ("open 01:02:03:04:05:06 L 4 R 3", 1, "the rule is missing"),
        (
            "open 01:02:03:04:05:06 vector R 3",
            1,
            "the window is missing",
        ),
        (
            "open 01:02:03:04:05:06 vector L 4",
            1,
            "the reset time is missing",
        ),
        ("open 01:02:03:04:05:06 vector l 4", 1, "'l' means nothing"),
        (
            "open 01:02:03:04:05:06 vector L 65536",
            1,
            "from 0 to 65535",
        ),
        ("open 01:02:03:04:05:0600 vector", 1, "no address"),
    ] {
        let fault = encode(text).unwrap_err();
        assert_eq!(fault.line, line, "{text}: {fault}");
        assert!(fault.message.contains(part), "{text}: {fault}");
    }
    let body = "00".repeat(65536);
    let fault = encode(&format!("raw {body}")).unwrap_err();
    assert!(fault.to_string().starts_with("line 1: the body has 65536"));
}
