//! The program `generate`: the same seed gives the same file, and the files
//! meet every kind of line.

use std::collections::HashSet;
use std::process::Command;

use second::event_file::run;
use second::generate::file;

fn generate(seed: u64, count: u64) -> Vec<u8> {
    let done = Command::new(env!("CARGO_BIN_EXE_generate"))
        .args([seed.to_string(), count.to_string()])
        .output()
        .unwrap();
    assert!(done.status.success());
    done.stdout
}

fn lines_of(file: &[u8]) -> Vec<String> {
    let mut lines = Vec::new();
    run(&mut &file[..], &mut lines).unwrap();
    let lines = String::from_utf8(lines).unwrap();
    lines.lines().map(String::from).collect()
}

#[test]
fn the_same_seed_gives_the_same_file() {
    for seed in [0, 1, 2, u64::MAX] {
        assert_eq!(generate(seed, 500), generate(seed, 500));
    }
    assert_ne!(generate(1, 500), generate(2, 500));
}

#[test]
fn every_kind_of_line_is_met() {
    let mut met = HashSet::new();
    for seed in 0..200 {
        let lines = lines_of(&generate(seed, 400));
        let last = lines.last().unwrap().as_str();
        assert!(["version", "cut", "end"].contains(&last));
        assert!(last == "version" || lines.len() == 401, "{}", lines.len());
        met.insert(last.to_string());
        for line in &lines[..lines.len() - 1] {
            let words: Vec<&str> = line.split(' ').collect();
            // The record number and the slot and number of an arrival differ
            // too much to be listed. Only what was handed up has a priority.
            let shape = match words[1..] {
                [letter, "no", refusal] => format!("{letter} no {refusal}"),
                ["A", "up", _, _, priority] => format!("A up {priority}"),
                ["A", verdict @ ("dup" | "rogue"), _, _] => format!("A {verdict}"),
                ["T", reset, damaged] => {
                    assert_eq!(damaged, "0");
                    format!("T {}", reset.parse::<u64>().unwrap().min(2))
                }
                [letter, answer] => format!("{letter} {answer}"),
                _ => words[1].to_string(),
            };
            met.insert(shape);
        }
    }
    let mut wanted: Vec<String> = (0..8).map(|slot| format!("O {slot}")).collect();
    wanted.extend((0..8).map(|priority| format!("A up {priority}")));
    for shape in [
        "O no 9", "O no 10", "O no 11", "C ok", "C no 12", "R ok", "R no 12", "A dup", "A rogue",
        "A no 2", "A no 3", "A no 4", "A no 5", "A no 6", "A no 14", "T 0", "T 1", "T 2", "bad",
        "version", "cut", "end",
    ] {
        wanted.push(shape.to_string());
    }
    let wanted: HashSet<String> = wanted.into_iter().collect();
    // Nothing is missing, and no line has a shape that cannot be.
    assert_eq!(met, wanted);
}

/// The bodies of a file's whole records.
fn bodies_of(file: &[u8]) -> Vec<&[u8]> {
    let mut bodies = Vec::new();
    let mut rest = file.get(1..).unwrap_or_default();
    while let [high, low, behind @ ..] = rest {
        let length = usize::from(u16::from_be_bytes([*high, *low]));
        if length > behind.len() {
            break;
        }
        bodies.push(&behind[..length]);
        rest = &behind[length..];
    }
    bodies
}

#[test]
fn opens_of_both_kinds_are_met_at_every_edge() {
    let mut met = HashSet::new();
    for seed in 0..200 {
        for body in bodies_of(&file(seed, 400)) {
            match *body {
                [1, .., window, _, _] if body.len() == 13 => met.insert((1, window.into())),
                [6, .., w0, w1, _, _] if body.len() == 14 => {
                    met.insert((6, u16::from_be_bytes([w0, w1])))
                }
                // Of a wrong length: the length in place of L, above all windows.
                [kind @ (1 | 6), ..] => met.insert((kind, 1000 + body.len() as u16)),
                _ => false,
            };
        }
    }
    for window in [0, 1, 2, 63, 64, 65, 127, 128, 129, 255] {
        assert!(met.contains(&(1, window)), "kind 1, L {window}");
        assert!(met.contains(&(6, window)), "kind 6, L {window}");
    }
    for window in [256, 257, 511, 512, 513, 514, 768, 65535] {
        assert!(met.contains(&(6, window)), "kind 6, L {window}");
    }
    for (kind, length) in [(1, 12), (1, 14), (6, 13), (6, 15)] {
        let bad = met.contains(&(kind, 1000 + length));
        assert!(bad, "kind {kind} with {length} bytes");
    }
}

/// What stands behind the redundancy tag of a frame that has one.
fn behind_tag(frame: &[u8], place: usize) -> Option<&[u8]> {
    match frame.get(place..)? {
        [0xF1, 0xC1, _, _, _, _, behind @ ..] => Some(behind),
        _ => None,
    }
}

/// The frames that are handed up have VLAN tags with every priority, with and
/// without the bit below it, with VLAN id 0 and with others; and all of these
/// bits stand where no VLAN tag is, behind F1C1 at 12.
#[test]
fn every_priority_is_met() {
    let mut met = HashSet::new();
    for seed in 0..200 {
        let file = file(seed, 400);
        let lines = lines_of(&file);
        if lines == ["version"] {
            continue;
        }
        for (body, line) in bodies_of(&file).into_iter().zip(&lines) {
            let words: Vec<&str> = line.split(' ').collect();
            let priority: u8 = match words[1..] {
                ["A", "up", _, _, priority] => priority.parse().unwrap(),
                _ => continue,
            };
            let frame = &body[2..];
            let (what, bits) = match (&frame[12..], behind_tag(frame, 12)) {
                ([0x81, 0x00, high, low, ..], _) if (high & 15, *low) == (0, 0) => {
                    ("VLAN id 0", high >> 4)
                }
                ([0x81, 0x00, high, ..], _) => ("other VLAN ids", high >> 4),
                (_, Some([0x81, 0x00, high, _, ..])) => ("behind the tag", high >> 4),
                _ => ("none", 0),
            };
            let expected = match what {
                "none" | "behind the tag" => 0,
                _ => bits / 2,
            };
            assert_eq!(priority, expected, "{seed}, {line}");
            met.insert((what, bits));
        }
    }
    let mut wanted = HashSet::from([("none", 0)]);
    for bits in 0..16 {
        wanted.extend(["VLAN id 0", "other VLAN ids", "behind the tag"].map(|what| (what, bits)));
    }
    assert_eq!(met, wanted);
}

#[test]
fn wrong_use_is_told() {
    for arguments in [&[][..], &["1"], &["1", "x"], &["1", "2", "3"], &["-1", "2"]] {
        let done = Command::new(env!("CARGO_BIN_EXE_generate"))
            .args(arguments)
            .output()
            .unwrap();
        assert_eq!(done.status.code(), Some(2));
        assert!(done.stdout.is_empty());
    }
}
