//! "Event file and the program `events`": the example, every way to end, bad
//! records, every refusal that the program can give, and the program itself.

mod common;

use std::io::{self, ErrorKind, Read, Write};
use std::process::{Command, Stdio};

use common::*;
use second::event_file::{run, Failure};

const EXAMPLE: &str = "
    01 000D 01 020000000001 0000 01 04 0003
    0016 04 00 020000000001 020000000002 F1C1 0000 0007 0800
    0016 04 01 020000000001 020000000002 F1C1 0000 0007 0800
    0001 05  0001 05  0001 05
    0016 04 01 020000000001 020000000002 F1C1 0000 0007 0800
";

const EXAMPLE_LINES: &str = "1 O 0
2 A up 0 7 0
3 A dup 0 7
4 T 0 0
5 T 0 0
6 T 1 0
7 A up 0 7 0
end
";

fn bytes(hex: &str) -> Vec<u8> {
    let digits: Vec<u8> = hex
        .chars()
        .filter(|c| !c.is_whitespace())
        .map(|c| c.to_digit(16).unwrap() as u8)
        .collect();
    digits.chunks(2).map(|c| c[0] << 4 | c[1]).collect()
}

fn lines_of(file: &[u8]) -> String {
    let mut lines = Vec::new();
    run(&mut &file[..], &mut lines).unwrap();
    String::from_utf8(lines).unwrap()
}

/// An event file from bodies.
fn file_of(bodies: &[Vec<u8>]) -> Vec<u8> {
    let mut file = vec![1];
    for body in bodies {
        file.extend((body.len() as u16).to_be_bytes());
        file.extend(body);
    }
    file
}

fn open_body(last: u8, vlan: u16, rule: u8, window: u8, reset_time: u16) -> Vec<u8> {
    let mut body = vec![1, 2, 0, 0, 0, 0, last];
    body.extend(vlan.to_be_bytes());
    body.extend([rule, window]);
    body.extend(reset_time.to_be_bytes());
    body
}

/// Kind 6: the same, with L in two bytes.
fn open_wide_body(last: u8, vlan: u16, rule: u8, window: u16, reset_time: u16) -> Vec<u8> {
    let [w0, w1] = window.to_be_bytes();
    let mut body = open_body(last, vlan, rule, w0, reset_time);
    body[0] = 6;
    body.insert(11, w1);
    body
}

fn arrival_body(network: u8, frame: &[u8]) -> Vec<u8> {
    [&[4, network], frame].concat()
}

#[test]
fn the_example() {
    assert_eq!(lines_of(&bytes(EXAMPLE)), EXAMPLE_LINES);
}

#[test]
fn the_example_cut_at_every_place() {
    let file = bytes(EXAMPLE);
    // Where each record ends.
    let mut ends = vec![1];
    while let Some(&[high, low]) = file.get(ends[ends.len() - 1]..ends[ends.len() - 1] + 2) {
        ends.push(ends[ends.len() - 1] + 2 + usize::from(u16::from_be_bytes([high, low])));
    }
    assert_eq!(ends.len(), 8);
    assert_eq!(lines_of(&[]), "version\n");
    for keep in 1..=file.len() {
        let whole = ends.iter().filter(|&&end| end <= keep).count() - 1;
        let mut expected: String = EXAMPLE_LINES
            .lines()
            .take(whole)
            .map(|line| format!("{line}\n"))
            .collect();
        expected += if ends.contains(&keep) {
            "end\n"
        } else {
            "cut\n"
        };
        assert_eq!(lines_of(&file[..keep]), expected, "{keep} bytes");
    }
}

#[test]
fn version_bytes() {
    let mut file = bytes(EXAMPLE);
    for version in 0..=255 {
        file[0] = version;
        let lines = lines_of(&file);
        assert_eq!(
            lines,
            if version == 1 {
                EXAMPLE_LINES
            } else {
                "version\n"
            }
        );
    }
    assert_eq!(lines_of(&[1]), "end\n");
    assert_eq!(lines_of(&[2]), "version\n");
}

#[test]
fn bad_records_use_up_a_number_and_reading_goes_on() {
    let mut bodies = vec![vec![]];
    // Every length but the right one, for the kinds with one right length.
    for (kind, right) in [(1, 13), (2, 2), (3, 2), (5, 1), (6, 14)] {
        for length in (1..40).chain([right + 256, 65535]) {
            if length != right {
                let mut body = vec![0; length];
                body[0] = kind;
                bodies.push(body);
            }
        }
    }
    // An arrival without its network.
    bodies.push(vec![4]);
    // Unknown kinds, with the lengths of known ones.
    for kind in [0].into_iter().chain(7..=255) {
        for length in [1, 2, 13, 14, 22] {
            let mut body = vec![0; length];
            body[0] = kind;
            bodies.push(body);
        }
    }
    let count = bodies.len();
    bodies.push(vec![5]);
    bodies.push(vec![]);
    let mut expected: String = (1..=count).map(|n| format!("{n} bad\n")).collect();
    expected += &format!("{} T 0 0\n{} bad\nend\n", count + 1, count + 2);
    assert_eq!(lines_of(&file_of(&bodies)), expected);
}

#[test]
fn cut_comes_before_bad() {
    for tail in [
        "00",
        "0001",
        "0003 06 00",
        "000E 06 020000000001 0000 01 0200 00",
        "0003 07 00",
        "0002 05",
        "FFFF 01",
        "0003 0000",
    ] {
        let mut file = vec![1];
        file.extend(bytes(tail));
        assert_eq!(lines_of(&file), "cut\n", "{tail}");
    }
    assert_eq!(lines_of(&bytes("01 0000")), "1 bad\nend\n");
    assert_eq!(lines_of(&bytes("01 0000 00")), "1 bad\ncut\n");
}

#[test]
fn refusals_of_open() {
    let mut bodies: Vec<Vec<u8>> = (0..8).map(|k| open_body(k, 0, 1, 4, 3)).collect();
    bodies.push(open_body(8, 0, 1, 4, 3));
    bodies.push(open_body(7, 0, 1, 4, 3));
    bodies.push(open_body(7, 0, 0, 4, 3));
    bodies.push(open_body(7, 0, 4, 4, 3));
    bodies.push(open_body(7, 0, 1, 1, 3));
    bodies.push(open_wide_body(7, 0, 1, 513, 3));
    bodies.push(open_body(7, 0, 1, 4, 0));
    bodies.push(open_body(7, 4095, 1, 4, 3));
    bodies.push(open_body(7, 4094, 2, 64, 65535));
    bodies.push(vec![2, 3]);
    bodies.push(open_body(7, 4094, 2, 64, 65535));
    bodies.push(open_body(7, 4096, 2, 2, 1));
    let expected = "1 O 0\n2 O 1\n3 O 2\n4 O 3\n5 O 4\n6 O 5\n7 O 6\n8 O 7\n\
        9 O no 11\n10 O no 10\n11 O no 9\n12 O no 9\n13 O no 9\n14 O no 9\n\
        15 O no 9\n16 O no 9\n17 O no 11\n18 C ok\n19 O 3\n20 O no 9\nend\n";
    assert_eq!(lines_of(&file_of(&bodies)), expected);
}

#[test]
fn opens_of_both_kinds() {
    // An open and a close of each: what it prints.
    let opens = [
        (open_body(1, 0, 1, 0, 3), "no 9"),
        (open_body(1, 0, 1, 1, 3), "no 9"),
        (open_body(1, 0, 1, 2, 3), "0"),
        (open_body(1, 0, 1, 64, 3), "0"),
        (open_body(1, 0, 1, 65, 3), "0"),
        (open_body(1, 0, 2, 127, 3), "0"),
        (open_body(1, 0, 1, 128, 3), "0"),
        (open_body(1, 0, 2, 255, 3), "0"),
        (open_wide_body(1, 0, 1, 0, 3), "no 9"),
        (open_wide_body(1, 0, 1, 1, 3), "no 9"),
        (open_wide_body(1, 0, 2, 2, 3), "0"),
        (open_wide_body(1, 0, 1, 64, 3), "0"),
        (open_wide_body(1, 0, 1, 65, 3), "0"),
        (open_wide_body(1, 0, 1, 255, 3), "0"),
        (open_wide_body(1, 0, 1, 256, 3), "0"),
        (open_wide_body(1, 4094, 2, 511, 65535), "0"),
        (open_wide_body(1, 0, 1, 512, 1), "0"),
        (open_wide_body(1, 0, 1, 513, 3), "no 9"),
        (open_wide_body(1, 0, 2, 513, 3), "no 9"),
        (open_wide_body(1, 0, 1, 768, 3), "no 9"),
        (open_wide_body(1, 0, 1, 65535, 3), "no 9"),
        (open_wide_body(1, 4095, 1, 4, 3), "no 9"),
        (open_wide_body(1, 0, 0, 4, 3), "no 9"),
        (open_wide_body(1, 0, 4, 4, 3), "no 9"),
        (open_wide_body(1, 0, 1, 4, 0), "no 9"),
    ];
    let mut bodies = Vec::new();
    let mut expected = String::new();
    for (at, (body, answer)) in opens.iter().enumerate() {
        bodies.extend([body.clone(), vec![2, 0]]);
        let closed = if *answer == "0" { "ok" } else { "no 12" };
        expected += &format!("{} O {answer}\n{} C {closed}\n", 2 * at + 1, 2 * at + 2);
    }
    assert_eq!(lines_of(&file_of(&bodies)), expected + "end\n");
}

#[test]
fn kind_6_as_bytes() {
    // L = 513, then 512, in front of R = 3; then 12, 13, 15 and 16 bytes, and
    // kind 1 with the 14 bytes of kind 6.
    let file = bytes(
        "01 000E 06 020000000001 0000 01 0201 0003
         000E 06 020000000001 0000 01 0200 0003
         000C 06 020000000002 0000 01 02 00
         000D 06 020000000002 0000 01 04 0003
         000F 06 020000000002 0000 01 0004 0003 00
         0010 06 020000000002 0000 01 0004 0003 0000
         000E 01 020000000002 0000 01 0004 0003
         000D 01 020000000002 0000 01 FF 0003
         000E 06 020000000002 0000 01 0004 0003
         000E 06 020000000003 0000 01 0003 0400
         000E 06 020000000004 0000 01 0400 0003",
    );
    let expected = "1 O no 9\n2 O 0\n3 bad\n4 bad\n5 bad\n6 bad\n7 bad\n8 O 1\n9 O no 10\n\
        10 O 2\n11 O no 9\nend\n";
    assert_eq!(lines_of(&file), expected);
}

#[test]
fn a_window_of_512_in_an_event_file() {
    // d of 511, -511, 512 and -512, through the wrap.
    let mut bodies = vec![open_wide_body(1, 0, 1, 512, 3)];
    for number in [65500, 475, 65500, 65499, 988, 476, 986, 474, 65036] {
        bodies.push(arrival_body(0, &tagged(number)));
    }
    let expected = "1 O 0\n2 A up 0 65500 0\n3 A up 0 475 0\n4 A dup 0 65500\n5 A rogue 0 65499\n\
        6 A rogue 0 988\n7 A up 0 476 0\n8 A up 0 986 0\n9 A rogue 0 474\n10 A rogue 0 65036\n\
        end\n";
    assert_eq!(lines_of(&file_of(&bodies)), expected);
}

#[test]
fn refusals_of_close_reset_and_arrival() {
    let mut long = tagged(1);
    long.resize(2001, 0);
    let mut longest = tagged(2);
    longest.resize(2000, 0);
    let bodies = [
        vec![2, 0],
        vec![3, 0],
        open_body(1, 0, 1, 4, 3),
        vec![2, 1],
        vec![3, 8],
        vec![2, 255],
        vec![3, 0],
        arrival_body(2, &tagged(1)),
        arrival_body(255, &[]),
        arrival_body(0, &long),
        arrival_body(0, &[0; 65533]),
        arrival_body(2, &[0; 65533]),
        arrival_body(0, &[]),
        arrival_body(0, &tagged(1)[..19]),
        arrival_body(0, &untagged_to(DESTINATION, None)),
        arrival_body(0, &tagged_to(DESTINATION, Some(1), 1)),
        arrival_body(0, &longest),
        arrival_body(1, &tagged_to(DESTINATION, Some(0xF000), 3)),
        arrival_body(1, &tagged(6)),
        arrival_body(1, &tagged(7)),
        vec![2, 0],
        arrival_body(1, &tagged(7)),
    ];
    let expected = "1 C no 12\n2 R no 12\n3 O 0\n4 C no 12\n5 R no 12\n6 C no 12\n7 R ok\n\
        8 A no 2\n9 A no 2\n10 A no 3\n11 A no 3\n12 A no 2\n13 A no 4\n14 A no 4\n15 A no 5\n\
        16 A no 6\n17 A up 0 2 0\n18 A up 0 3 7\n19 A up 0 6 0\n20 A up 0 7 0\n21 C ok\n\
        22 A no 6\nend\n";
    assert_eq!(lines_of(&file_of(&bodies)), expected);
}

#[test]
fn group_sources_of_arrivals() {
    let group = |frame: &[u8]| from_source(3, frame);
    let mut long = group(&tagged(7));
    long.resize(2001, 0);
    let bodies = [
        open_body(1, 0, 1, 4, 3),
        arrival_body(0, &group(&tagged(7))),
        // Nothing was marked.
        arrival_body(1, &tagged(7)),
        arrival_body(1, &group(&tagged(7))),
        // No stream has this key, and none is asked for.
        arrival_body(0, &group(&tagged_to(DESTINATION, Some(1), 8))),
        arrival_body(0, &group(&untagged_to(DESTINATION, None))),
        arrival_body(0, &group(&tagged(8))[..19]),
        arrival_body(0, &long),
        arrival_body(2, &group(&tagged(8))),
    ];
    let expected = "1 O 0\n2 A no 14\n3 A up 0 7 0\n4 A no 14\n5 A no 14\n6 A no 5\n7 A no 4\n\
        8 A no 3\n9 A no 2\nend\n";
    assert_eq!(lines_of(&file_of(&bodies)), expected);
}

#[test]
fn numbers_and_rogues_at_the_wrap() {
    let mut bodies = vec![open_body(1, 0, 1, 4, 65535)];
    for number in [65534, 65535, 65534, 1, 0, 5, 65533, 65534, 4] {
        bodies.push(arrival_body(0, &tagged(number)));
    }
    let expected = "1 O 0\n2 A up 0 65534 0\n3 A up 0 65535 0\n4 A dup 0 65534\n5 A up 0 1 0\n\
        6 A up 0 0 0\n7 A rogue 0 5\n8 A rogue 0 65533\n9 A dup 0 65534\n10 A up 0 4 0\nend\n";
    assert_eq!(lines_of(&file_of(&bodies)), expected);
}

/// Gives one byte at a time, with interruptions, as a slow pipe might.
struct Slowly<'a> {
    rest: &'a [u8],
    interrupt: bool,
}

impl Read for Slowly<'_> {
    fn read(&mut self, buffer: &mut [u8]) -> io::Result<usize> {
        self.interrupt = !self.interrupt;
        if self.interrupt {
            return Err(ErrorKind::Interrupted.into());
        }
        match self.rest {
            [] => Ok(0),
            [byte, rest @ ..] => {
                buffer[0] = *byte;
                self.rest = rest;
                Ok(1)
            }
        }
    }
}

#[test]
fn short_reads() {
    let file = bytes(EXAMPLE);
    let mut lines = Vec::new();
    let mut input = Slowly {
        rest: &file,
        interrupt: false,
    };
    run(&mut input, &mut lines).unwrap();
    assert_eq!(lines, EXAMPLE_LINES.as_bytes());
}

/// Fails after some bytes.
struct Full {
    room: usize,
}

impl Write for Full {
    fn write(&mut self, bytes: &[u8]) -> io::Result<usize> {
        if self.room == 0 {
            return Err(ErrorKind::Other.into());
        }
        let taken = bytes.len().min(self.room);
        self.room -= taken;
        Ok(taken)
    }

    fn flush(&mut self) -> io::Result<()> {
        Ok(())
    }
}

/// Fails after the bytes it has.
struct Broken<'a>(&'a [u8]);

impl Read for Broken<'_> {
    fn read(&mut self, buffer: &mut [u8]) -> io::Result<usize> {
        match self.0.read(buffer) {
            Ok(0) => Err(ErrorKind::Other.into()),
            other => other,
        }
    }
}

#[test]
fn a_failing_write_ends_the_run() {
    let file = bytes(EXAMPLE);
    for room in 0..EXAMPLE_LINES.len() {
        let answer = run(&mut &file[..], &mut Full { room });
        assert!(matches!(answer, Err(Failure::Write(_))), "{room}");
    }
    let room = EXAMPLE_LINES.len();
    assert!(run(&mut &file[..], &mut Full { room }).is_ok());
    assert!(run(&mut &[][..], &mut Full { room: 7 }).is_err());
}

#[test]
fn a_failing_read_is_not_the_end_of_input() {
    let file = bytes(EXAMPLE);
    let mut lines = Vec::new();
    let answer = run(&mut Broken(&file), &mut lines);
    assert!(matches!(answer, Err(Failure::Read(_))));
    let so_far = EXAMPLE_LINES.trim_end_matches("end\n");
    assert_eq!(lines, so_far.as_bytes());
}

fn events() -> Command {
    let mut command = Command::new(env!("CARGO_BIN_EXE_events"));
    command
        .stdin(Stdio::piped())
        .stdout(Stdio::piped())
        .stderr(Stdio::piped());
    command
}

#[test]
fn the_program_on_a_pipe() {
    let file = bytes(EXAMPLE);
    let mut child = events().spawn().unwrap();
    let mut input = child.stdin.take().unwrap();
    for piece in file.chunks(5) {
        input.write_all(piece).unwrap();
        input.flush().unwrap();
    }
    drop(input);
    let done = child.wait_with_output().unwrap();
    assert!(done.status.success());
    assert_eq!(String::from_utf8(done.stdout).unwrap(), EXAMPLE_LINES);
    assert!(done.stderr.is_empty());
}

#[test]
fn the_program_ends_when_nobody_reads() {
    // Without an end of input, only the failing write can end it.
    let mut child = events().spawn().unwrap();
    drop(child.stdout.take());
    let mut input = child.stdin.take().unwrap();
    input.write_all(&[1]).unwrap();
    let piece = [0, 1, 5].repeat(1000);
    // The pipe breaks once the program is gone.
    while input.write_all(&piece).is_ok() {}
    let status = child.wait().unwrap();
    assert!(!status.success());
}
