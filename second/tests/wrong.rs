//! The switch for wrong variants. A variant that changes nothing could not be
//! caught by anyone, so each one that is only seen in calls must be seen in
//! these calls. Those that are seen in event files are tried by the comparison
//! of event files.

mod common;

use std::process::Command;

use common::*;
use second::random::Random;
use second::wrong::{self, Seen, Wrong, VARIANTS};
use second::{
    arrival, from_prp, link_arrival, rebuild, reset, take_tag, tick, to_prp, write_tag, Sender,
    Settings, Stream,
};

const DESTINATIONS: [[u8; 6]; 2] = [DESTINATION, [2, 0, 0, 0, 0, 2]];

/// Count and input of a batch: this frame and its twins among others, at times
/// cut, at times with more behind the last one.
fn frames(random: &mut Random, tagged: &[u8]) -> (usize, Vec<u8>) {
    let mut input = Vec::new();
    let count = random.pick(&[0, 1, 3, 4, 4, 4, 32, 33]);
    for _ in 0..count {
        let frame = match random.below(8) {
            0 => Vec::new(),
            1 => untagged_to(DESTINATION, None),
            2 | 3 => {
                let tci = random.pick(&[None, None, Some(0), Some(0x6000)]);
                tagged_to(DESTINATION, tci, random.below(6) as u16)
            }
            _ => tagged.to_vec(),
        };
        input.extend((frame.len() as u16).to_be_bytes());
        input.extend(frame);
    }
    match random.below(4) {
        0 => input.truncate(input.len().saturating_sub(random.pick(&[1, 22, 30]))),
        1 => input.push(0),
        _ => {}
    }
    (count, input)
}

/// Random calls on a random table: every answer, and table and output after
/// each call. What is called does not depend on the answers.
fn calls(seed: u64) -> Vec<(String, Vec<Stream>, Vec<u8>)> {
    let mut random = Random::new(seed);
    let mut table: Vec<Stream> = (0..6)
        .map(|_| any_stream(&mut random, &DESTINATIONS, &[0, 5]))
        .collect();
    let mut output = vec![FILL; 40];
    let mut seen = Vec::new();
    for _ in 0..60 {
        let slot = random.below(7) as usize;
        let room = random.pick(&[10, 15, 40, 40]);
        let number = random.pick(&[0, 1, 2, 3, 5, 8, 65533, 65534, 65535]);
        let destination = random.pick(&DESTINATIONS);
        let tci = random.pick(&[None, None, Some(5), Some(0x9005), Some(0), Some(0xC000)]);
        let network = random.below(2) as u8;
        let source = random.pick(&[2, 2, 2, 3]);
        let tagged = match random.below(8) {
            0 => tagged_before_vlan(destination, 0xA005, number),
            _ => tagged_to(destination, tci, number),
        };
        let tagged = from_source(source, &tagged);
        let answer = match random.below(16) {
            0 => format!("{:?}", open(&mut table, settings(1, 4, 2))),
            1 => format!("{:?}", close(&mut table, slot)),
            2 => format!("{:?}", reset(&mut table, slot)),
            3 => format!("{:?}", tick(&mut table)),
            4 => {
                let frame = match random.below(2) {
                    0 => tagged,
                    _ => from_source(source, &untagged_to(destination, tci)),
                };
                format!("{:?}", write_tag(&frame, number, &mut output[..room]))
            }
            5 => format!("{:?}", take_tag(&tagged, &mut output[..room])),
            6..=8 => {
                let (count, input) = frames(&mut random, &tagged);
                let network = random.pick(&[0, 1, 1, 2]);
                let room = &mut output[..random.pick(&[0, 1, 17, 18, 34, 40])];
                format!("{:?}", batch(&mut table, network, count, &input, room))
            }
            _ => {
                let answer = arrival(&mut table, network, &tagged, &mut output[..room]);
                format!("{answer:?}")
            }
        };
        seen.push((answer, table.clone(), output.clone()));
    }
    seen
}

/// Random link arrivals and ticks, and batches and plain arrivals among them, on a
/// table of virtual links and others: every answer, and table and output after
/// each.
fn links(seed: u64) -> Vec<(String, Vec<Stream>, Vec<u8>)> {
    let mut random = Random::new(seed);
    let mut table: Vec<Stream> = (0..6)
        .map(|_| {
            let stream = any_stream(&mut random, &DESTINATIONS, &[0, 0, 0, 5]);
            let rule = random.pick(&[3, 3, stream.rule]);
            Stream { rule, ..stream }
        })
        .collect();
    let mut output = vec![FILL; 2003];
    let mut seen = Vec::new();
    for _ in 0..40 {
        let number = random.pick(&[0, 1, 2, 3, 126, 127, 128, 129, 130, 255]);
        let destination = random.pick(&DESTINATIONS);
        let tci = random.pick(&[None, None, Some(0), Some(5), Some(0xE000)]);
        let network = random.pick(&[0, 1, 0, 1, 2]);
        let mut frame = match random.below(4) {
            0 => tagged_to(destination, tci, 7),
            _ => untagged_to(destination, tci),
        };
        match random.below(8) {
            0 => frame.truncate(random.pick(&[13, 14, 15, 16])),
            1 => frame.resize(random.pick(&[1994, 1995, 2000, 2001, 2002]), 0),
            _ => {}
        }
        *frame.last_mut().unwrap() = number;
        let frame = from_source(random.pick(&[2, 2, 2, 2, 3]), &frame);
        let room = random.pick(&[frame.len() - 2, frame.len() - 1, frame.len() - 1, 2003]);
        let answer = match random.below(8) {
            0 => format!("{:?}", tick(&mut table)),
            1 => {
                let input = packed(&[frame]);
                format!("{:?}", batch(&mut table, 0, 1, &input, &mut output))
            }
            2 => format!("{:?}", arrival(&mut table, network, &frame, &mut output)),
            _ => {
                let answer = link_arrival(&mut table, network, &frame, &mut output[..room]);
                format!("{answer:?}")
            }
        };
        seen.push((answer, table.clone(), output.clone()));
    }
    seen
}

/// Random calls that take an index: every answer, and table and index after each.
/// The keys share places, at the end of the index too, and some slots a key.
fn indexed(seed: u64) -> Vec<(String, Vec<Stream>, Vec<u8>)> {
    let mut random = Random::new(seed);
    let keys = [keys_at(127), keys_at(5)].concat();
    let mut table: Vec<Stream> = (0..6)
        .map(|_| {
            let (destination, vlan) = random.pick(&keys);
            any_stream(&mut random, &[destination], &[vlan])
        })
        .collect();
    let mut index = any_index(&mut random, &table);
    let mut seen = Vec::new();
    for _ in 0..20 {
        if random.chance(1, 3) {
            index = any_index(&mut random, &table);
        }
        let (destination, vlan) = random.pick(&keys);
        let answer = match random.below(4) {
            0 => {
                let rule = random.pick(&[1, 3]);
                let settings = Settings {
                    destination,
                    vlan,
                    ..settings(rule, random.pick(&[1, 4, 4]), 2)
                };
                format!("{:?}", second::open(&mut table, &mut index, settings))
            }
            1 => {
                let slot = random.below(7) as usize;
                format!("{:?}", second::close(&mut table, &mut index, slot))
            }
            2 => {
                let input = packed(&[tagged_to(destination, Some(vlan), 7)]);
                let answer = second::batch(&mut table, &index, 0, 1, &input, &mut [0; 40]);
                format!("{answer:?}")
            }
            _ => format!("{:?}", rebuild(&table, &mut index)),
        };
        seen.push((answer, table.clone(), index.clone()));
    }
    seen
}

/// Random sends: every answer, and the next number and both outputs after each.
fn sends(seed: u64) -> Vec<(String, u16, [Vec<u8>; 2])> {
    let mut random = Random::new(seed);
    let mut sender = Sender::default();
    let mut seen = Vec::new();
    for _ in 0..20 {
        match random.below(8) {
            0 => sender.reset(),
            1 => sender.next = random.pick(&[65534, 65535]),
            _ => {}
        }
        let frame = any_frame(&mut random);
        let needed = frame.len() + 6;
        let mut outputs = [0; 2].map(|_| {
            let room = random.pick(&[needed - 1, needed, needed, needed + 9]);
            vec![FILL; room]
        });
        let [first, second] = &mut outputs;
        let answer = format!("{:?}", sender.send(&frame, first, second));
        seen.push((answer, sender.next, outputs));
    }
    seen
}

/// Random turns from PRP and to PRP: every answer, and the output after each.
fn turns(seed: u64) -> Vec<(String, Vec<u8>)> {
    let mut random = Random::new(seed);
    let mut seen = Vec::new();
    for _ in 0..20 {
        let setting = random.pick(&[0, 0, 1, 1, 2, 3]);
        let width = if setting == 0 { 4 } else { 6 };
        let from = random.chance(1, 2);
        let (frame, needed) = if from {
            let frame = any_prp(&mut random);
            let needed = frame.len() + 6 - width;
            (frame, needed)
        } else {
            let frame = any_frame(&mut random);
            let needed = frame.len().saturating_sub(6) + width;
            (frame, needed)
        };
        let room = random.pick(&[needed.saturating_sub(1), needed, needed, needed + 9]);
        let mut output = vec![FILL; room];
        let answer = if from {
            from_prp(&frame, setting, &mut output)
        } else {
            let network = random.pick(&[0, 0, 1, 1, 2, 3]);
            to_prp(&frame, network, setting, &mut output)
        };
        seen.push((format!("{answer:?}"), output));
    }
    seen
}

#[test]
fn every_variant_for_calls_is_seen_in_calls() {
    let all = |seed| {
        let tables = (calls(seed), links(seed), indexed(seed));
        (tables, sends(seed), turns(seed))
    };
    for variant in VARIANTS.iter().filter(|v| v.seen == Seen::CallsOnly) {
        let differs = (0..2000).any(|seed| {
            let right = all(seed);
            wrong::set(Some(variant.wrong));
            let wrong = all(seed);
            wrong::set(None);
            right != wrong
        });
        assert!(differs, "{:?}", variant.wrong);
    }
}

#[test]
fn a_variant_holds_for_its_thread_until_it_is_taken_back() {
    let mut table = [fresh(1, 4, 9)];
    let mut after_four = || {
        table[0] = running(1, 4, 9, 10, 1);
        arrive(&mut table, 14)
    };
    assert_eq!(after_four(), "rogue");
    wrong::set(Some(Wrong::TakesL));
    assert_eq!(after_four(), "up");
    let other = std::thread::spawn(wrong::now).join().unwrap();
    assert_eq!(other, None);
    wrong::set(None);
    assert_eq!(after_four(), "rogue");
}

#[test]
fn the_program_has_the_switch() {
    let events = |words: &[&str]| {
        let done = Command::new(env!("CARGO_BIN_EXE_events"))
            .args(words)
            .stdin(std::process::Stdio::null())
            .output()
            .unwrap();
        (done.status.code(), String::from_utf8(done.stdout).unwrap())
    };
    let (status, list) = events(&["--wrong-list"]);
    assert_eq!(status, Some(0));
    assert_eq!(list.lines().count(), VARIANTS.len());
    assert!(list.starts_with(" 1 PlainComparison "));
    // No input at all prints version, whatever is wrong.
    let last = VARIANTS.len().to_string();
    assert_eq!(events(&["--wrong", &last]), (Some(0), "version\n".into()));
    let beyond = (VARIANTS.len() + 1).to_string();
    for words in [
        &["--wrong"][..],
        &["--wrong", "0"],
        &["--wrong", &beyond],
        &["x"],
    ] {
        assert_eq!(events(words), (Some(2), String::new()));
    }
}
