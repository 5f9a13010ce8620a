//! Random calls on random tables, damaged ones among them.
//!
//! The answer is compared with a list: each refusal number has its own
//! condition, and the first number in the call's order whose condition holds
//! must be the answer ("Calls and the order of checks", orders 6 and 7 for sends
//! and for turns from PRP and to PRP, order 9 for opens and closes, and order 10
//! for link arrivals).
//! A refused call must change no byte of table, index, sender and outputs; any
//! other call only its own slot, and opens and closes the index.

mod common;

use common::*;
use second::random::Random;
use second::{
    arrival, close, from_prp, link_arrival, open, reset, take_tag, tick, to_prp, write_tag,
    Arrival, Family, Sender, Sent, Settings, Stream, Turned, Verdict,
};

/// The first number in the order whose condition holds, else 0.
fn first(order: &[(u8, bool)]) -> u8 {
    order.iter().find(|c| c.1).map_or(0, |c| c.0)
}

fn short_for_writing(frame: &[u8]) -> bool {
    frame.len() < 14 || (at(frame, 12, [0x81, 0x00]) && frame.len() < 18)
}

fn has_mark(frame: &[u8]) -> bool {
    at(frame, type_place(frame), [0xF1, 0xC1])
}

fn short_for_reading(frame: &[u8]) -> bool {
    short_for_writing(frame) || (has_mark(frame) && frame.len() < type_place(frame) + 8)
}

fn group_source(frame: &[u8]) -> bool {
    frame.get(6).map_or(false, |first| first % 2 == 1)
}

/// The key of a virtual link's frame.
fn key_of(frame: &[u8]) -> Option<Key> {
    Some((frame.get(..6)?.try_into().ok()?, 0))
}

/// The slot that a tagged frame is for.
fn slot_of(table: &[Stream], frame: &[u8]) -> Option<usize> {
    let (destination, mut vlan) = key_of(frame)?;
    if at(frame, 12, [0x81, 0x00]) {
        vlan = u16::from_be_bytes([*frame.get(14)?, *frame.get(15)?]) % 4096;
    }
    lowest(table, (destination, vlan), Family::Rest)
}

/// The slot that a virtual link's frame is for.
fn link_of(table: &[Stream], frame: &[u8]) -> Option<usize> {
    lowest(table, key_of(frame)?, Family::Links)
}

fn settings_bad(s: &Stream) -> bool {
    !(1..=3).contains(&s.rule)
        || (s.rule == 3 && s.vlan != 0)
        || !(2..=512).contains(&s.window)
        || !(1..=65535).contains(&s.reset_time)
        || !(0..=4094).contains(&s.vlan)
}

/// Lawful, said again and bit by bit.
fn is_damaged(s: &Stream) -> bool {
    if settings_bad(s) || s.remaining > s.reset_time {
        return true;
    }
    let bits = places(&s.history);
    // Where the first number stands as long as there are places before it.
    let (last, early) = (usize::from(s.window) - 1, usize::from(s.early));
    if early > last || (early > 0 && !bits.contains(&(last - early))) {
        return true;
    }
    match (s.take_any != 0, s.remaining) {
        (true, 0) => s.anchor != 65535 || !bits.is_empty(),
        (false, 1..) if s.rule == 1 => {
            !bits.contains(&0) || bits.iter().any(|&k| k >= usize::from(s.window))
        }
        (false, 1..) if s.rule == 3 => s.anchor > 255 || !bits.is_empty(),
        (false, 1..) => !bits.is_empty(),
        _ => true,
    }
}

fn any_output(random: &mut Random, need: usize) -> Vec<u8> {
    let room = match random.below(4) {
        0 => need.saturating_sub(1),
        1 => need,
        2 => need + 1,
        _ => random.pick(&[0, 2000, 3000]),
    };
    let mut output = vec![0; room];
    random.fill(&mut output);
    output
}

/// All slots but one are as they were.
fn others_same(before: &[Stream], after: &[Stream], slot: usize) -> bool {
    before.len() == after.len()
        && (0..before.len()).all(|other| other == slot || before[other] == after[other])
}

/// What an arrival call must leave that was not refused: `bare` is the frame as it
/// is handed up.
fn changed_rightly(
    a: Arrival,
    network: u8,
    bare: &[u8],
    before: (&[Stream], &[u8]),
    after: (&[Stream], &[u8]),
) {
    assert!(others_same(before.0, after.0, a.slot));
    let (old, new) = (before.0[a.slot], after.0[a.slot]);
    assert!(!is_damaged(&new));
    // Whatever the verdict, key, settings and resets stay and exactly one
    // arrival counter rises.
    let mut arrivals = old.arrivals;
    let counter = &mut arrivals[usize::from(network)];
    *counter = counter.wrapping_add(1);
    let same = Stream {
        in_use: old.in_use,
        destination: old.destination,
        vlan: old.vlan,
        rule: old.rule,
        window: old.window,
        reset_time: old.reset_time,
        resets: old.resets,
        arrivals,
        ..new
    };
    assert_eq!(new, same);
    match a.verdict {
        Verdict::HandedUp { length } => {
            assert_eq!(length, bare.len());
            assert_eq!(after.1[..length], *bare);
            assert_eq!(after.1[length..], before.1[length..]);
            assert_eq!(new.passed, old.passed.wrapping_add(1));
            assert_eq!(new.remaining, new.reset_time);
            assert_eq!((new.discarded, new.rogue), (old.discarded, old.rogue));
        }
        Verdict::Duplicate => {
            assert_eq!(after.1, before.1);
            let discarded = old.discarded.wrapping_add(1);
            let expected = Stream {
                arrivals,
                discarded,
                ..old
            };
            assert_eq!(new, expected);
        }
        Verdict::Rogue => {
            assert_eq!(after.1, before.1);
            let rogue = old.rogue.wrapping_add(1);
            let expected = Stream {
                arrivals,
                rogue,
                ..old
            };
            assert_eq!(new, expected);
        }
    }
}

#[test]
fn arrivals() {
    let mut random = Random::new(11);
    let mut seen = Seen::default();
    for _ in 0..60_000 {
        let mut table = any_table(&mut random);
        let network = random.pick(&[0, 1, 0, 1, 0, 1, 2, 255]);
        let frame = any_frame(&mut random);
        let need = frame.len().saturating_sub(6);
        let mut output = any_output(&mut random, need);
        let (table_before, output_before) = (table.clone(), output.clone());

        let slot = slot_of(&table, &frame);
        let expected = first(&[
            (1, table.len() > 64),
            (2, network > 1),
            (3, frame.len() > 2000),
            (4, short_for_reading(&frame)),
            (5, !has_mark(&frame)),
            (14, group_source(&frame)),
            (6, slot.is_none()),
            (7, slot.map_or(false, |slot| is_damaged(&table[slot]))),
            (8, output.len() < need),
        ]);
        let answer = arrival(&mut table, network, &frame, &mut output);
        assert_eq!(number_of(answer), expected);
        seen.note("arrival", expected);
        if group_source(&frame) {
            seen.note("arrival of a group", expected);
        }
        if slot.is_none() && link_of(&table, &frame).is_some() {
            seen.note("arrival for a link", expected);
        }
        let before = (&table_before[..], &output_before[..]);
        let after = (&table[..], &output[..]);
        if let Ok(a) = answer {
            assert_eq!(Some(a.slot), slot);
            let place = type_place(&frame);
            let bare = [&frame[..place], &frame[place + 6..]].concat();
            changed_rightly(a, network, &bare, before, after);
            seen.note(word(a), 0);
        } else {
            assert_eq!(after, before);
        }
    }
    seen.all_met("arrival", &[0, 1, 2, 3, 4, 5, 14, 6, 7, 8]);
    seen.all_met("arrival of a group", &[1, 2, 3, 4, 5, 14]);
    seen.all_met("arrival for a link", &[6]);
    seen.all_met("up", &[0]);
    seen.all_met("duplicate", &[0]);
    seen.all_met("rogue", &[0]);
}

#[test]
fn link_arrivals() {
    let mut random = Random::new(19);
    let mut seen = Seen::default();
    for _ in 0..60_000 {
        let mut table = any_table(&mut random);
        let network = random.pick(&[0, 1, 0, 1, 0, 1, 2, 255]);
        let frame = any_numbered(&mut random);
        let need = frame.len().saturating_sub(1);
        let mut output = any_output(&mut random, need);
        let (table_before, output_before) = (table.clone(), output.clone());

        let slot = link_of(&table, &frame);
        let expected = first(&[
            (1, table.len() > 64),
            (2, network > 1),
            (3, frame.len() > 2000),
            (4, frame.len() < 15),
            (14, group_source(&frame)),
            (6, slot.is_none()),
            (7, slot.map_or(false, |slot| is_damaged(&table[slot]))),
            (8, output.len() < need),
        ]);
        let answer = link_arrival(&mut table, network, &frame, &mut output);
        assert_eq!(number_of(answer), expected);
        seen.note("arrival", expected);
        if group_source(&frame) {
            seen.note("arrival of a group", expected);
        }
        if slot.is_none()
            && key_of(&frame)
                .and_then(|key| lowest(&table, key, Family::Rest))
                .is_some()
        {
            seen.note("arrival for another rule", expected);
        }
        if at(&frame, 12, [0x81, 0x00]) {
            seen.note("arrival with 8100", expected);
        }
        if has_mark(&frame) {
            seen.note("arrival with F1C1", expected);
        }
        let before = (&table_before[..], &output_before[..]);
        let after = (&table[..], &output[..]);
        if let Ok(a) = answer {
            assert_eq!(Some(a.slot), slot);
            let (number, bare) = frame.split_last().unwrap();
            assert_eq!(a.number, u16::from(*number));
            changed_rightly(a, network, bare, before, after);
            let (old, new) = (table_before[a.slot], table[a.slot]);
            // Of what the record knows only the last number moves.
            let up = Stream {
                arrivals: new.arrivals,
                passed: new.passed,
                anchor: a.number,
                take_any: 0,
                remaining: old.reset_time,
                ..old
            };
            match a.verdict {
                Verdict::HandedUp { .. } => assert_eq!(new, up),
                Verdict::Duplicate => assert_eq!(old.take_any, 0),
                Verdict::Rogue => panic!("a link has no rogue"),
            }
            seen.note(word(a), 0);
        } else {
            assert_eq!(after, before);
        }
    }
    let all = [0, 1, 2, 3, 4, 14, 6, 7, 8];
    seen.all_met("arrival", &all);
    seen.all_met("arrival of a group", &[1, 2, 3, 4, 14]);
    seen.all_met("arrival for another rule", &[6]);
    seen.all_met("arrival with 8100", &all);
    seen.all_met("arrival with F1C1", &[0, 1, 2, 3, 14, 6, 7, 8]);
    seen.all_met("up", &[0]);
    seen.all_met("duplicate", &[0]);
}

#[test]
fn opens() {
    let mut random = Random::new(12);
    let mut seen = Seen::default();
    for _ in 0..20_000 {
        let mut table = any_table(&mut random);
        let before = table.clone();
        let s = any_stream(&mut random, &DESTINATIONS, &VLANS);
        let settings = Settings {
            destination: random.pick(&[s.destination, [7; 6]]),
            vlan: s.vlan,
            rule: s.rule,
            window: s.window,
            reset_time: s.reset_time,
        };
        let wanted = Stream {
            in_use: 1,
            destination: settings.destination,
            vlan: settings.vlan,
            ..fresh(settings.rule, settings.window, settings.reset_time)
        };
        let taken = table
            .iter()
            .any(|s| s.in_use != 0 && s.destination == wanted.destination && s.vlan == wanted.vlan);
        let free = (0..table.len()).find(|&slot| table[slot].in_use == 0);
        let mut index = any_index(&mut random, &table);
        let index_before = index.clone();
        let expected = first(&[
            (1, table.len() > 64),
            (18, !agree(&table, &index)),
            (9, settings_bad(&wanted)),
            (10, taken),
            (11, free.is_none()),
        ]);
        let answer = open(&mut table, &mut index, settings);
        assert_eq!(number_of(answer), expected);
        seen.note("open", expected);
        match answer {
            Ok(slot) => {
                assert_eq!(Some(slot), free);
                assert_eq!(table[slot], wanted);
                assert!(others_same(&before, &table, slot));
                assert_eq!(index, rebuilt(&table));
            }
            Err(_) => assert_eq!((table, index), (before, index_before)),
        }
    }
    seen.all_met("open", &[0, 1, 18, 9, 10, 11]);
}

#[test]
fn closes_and_resets() {
    let mut random = Random::new(13);
    let mut seen = Seen::default();
    for _ in 0..20_000 {
        let mut table = any_table(&mut random);
        let before = table.clone();
        let slot = random.pick(&[0, 1, 2, 4, 7, 8, 62, 63, 64, 65, 255, usize::MAX]);
        let absent = table.get(slot).map_or(true, |s| s.in_use == 0);

        let mut index = any_index(&mut random, &table);
        let index_before = index.clone();
        let bad_index = !agree(&table, &index);
        let expected = first(&[(1, table.len() > 64), (18, bad_index), (12, absent)]);
        let answer = close(&mut table, &mut index, slot);
        assert_eq!(number_of(answer), expected);
        seen.note("close", expected);
        if answer.is_ok() {
            let closed = Stream {
                in_use: 0,
                ..before[slot]
            };
            assert_eq!(table[slot], closed);
            assert!(others_same(&before, &table, slot));
            assert_eq!(index, rebuilt(&table));
        } else {
            assert_eq!((&table, index), (&before, index_before));
        }

        let mut table = before.clone();
        let bad = !absent && settings_bad(&table[slot]);
        let expected = first(&[(1, table.len() > 64), (12, absent), (7, bad)]);
        let answer = reset(&mut table, slot);
        assert_eq!(number_of(answer), expected);
        seen.note("reset", expected);
        if answer.is_ok() {
            let mended = Stream {
                anchor: 65535,
                history: [0; 8],
                take_any: 1,
                remaining: 0,
                early: 0,
                resets: before[slot].resets.wrapping_add(1),
                ..before[slot]
            };
            assert_eq!(table[slot], mended);
            assert!(!is_damaged(&table[slot]));
            assert!(others_same(&before, &table, slot));
        } else {
            assert_eq!(table, before);
        }
    }
    seen.all_met("close", &[0, 1, 18, 12]);
    seen.all_met("reset", &[0, 1, 7, 12]);
}

#[test]
fn ticks() {
    let mut random = Random::new(14);
    let mut seen = Seen::default();
    for _ in 0..10_000 {
        let mut table = any_table(&mut random);
        let before = table.clone();
        let expected = first(&[(1, table.len() > 64)]);
        let answer = tick(&mut table);
        assert_eq!(number_of(answer), expected);
        seen.note("tick", expected);
        let ticked = match answer {
            Ok(ticked) => ticked,
            Err(_) => {
                assert_eq!(table, before);
                continue;
            }
        };
        let (mut resets, mut damaged) = (0, 0);
        for (old, new) in before.iter().zip(&table) {
            let mut wanted = *old;
            if old.in_use != 0 && is_damaged(old) {
                damaged += 1;
            } else if old.in_use != 0 && old.remaining > 0 {
                wanted.remaining -= 1;
                if wanted.remaining == 0 {
                    wanted.anchor = 65535;
                    wanted.history = [0; 8];
                    wanted.take_any = 1;
                    wanted.early = 0;
                    wanted.resets = old.resets.wrapping_add(1);
                    resets += 1;
                }
            }
            assert_eq!(*new, wanted);
        }
        assert_eq!((ticked.reset, ticked.damaged), (resets, damaged));
    }
    seen.all_met("tick", &[0, 1]);
}

#[test]
fn tags() {
    let mut random = Random::new(15);
    let mut seen = Seen::default();
    for _ in 0..60_000 {
        let frame = any_frame(&mut random);

        let need = frame.len() + 6;
        let mut output = any_output(&mut random, need);
        let before = output.clone();
        let expected = first(&[
            (3, frame.len() > 1994),
            (4, short_for_writing(&frame)),
            (13, has_mark(&frame)),
            (14, group_source(&frame)),
            (8, output.len() < need),
        ]);
        let number = random.word();
        let answer = write_tag(&frame, number, &mut output);
        assert_eq!(number_of(answer), expected);
        seen.note("write", expected);
        if group_source(&frame) {
            seen.note("write a group", expected);
        }
        if answer.is_ok() {
            assert_eq!(answer, Ok(need));
            assert_eq!(output[..need], with_tag(&frame, number));
            assert_eq!(output[need..], before[need..]);
        } else {
            assert_eq!(output, before);
        }

        let need = frame.len().saturating_sub(6);
        let mut output = any_output(&mut random, need);
        let before = output.clone();
        let expected = first(&[
            (3, frame.len() > 2000),
            (4, short_for_reading(&frame)),
            (5, !has_mark(&frame)),
            (8, output.len() < need),
        ]);
        let answer = take_tag(&frame, &mut output);
        assert_eq!(number_of(answer), expected);
        seen.note("take", expected);
        if group_source(&frame) {
            seen.note("take a group", expected);
        }
        if let Ok(taken) = answer {
            let place = type_place(&frame);
            let bare = [&frame[..place], &frame[place + 6..]].concat();
            assert_eq!(taken.length, need);
            assert_eq!(taken.number.to_be_bytes(), frame[place + 4..place + 6]);
            assert_eq!(output[..need], bare[..]);
            assert_eq!(output[need..], before[need..]);
        } else {
            assert_eq!(output, before);
        }
    }
    seen.all_met("write", &[0, 3, 4, 8, 13, 14]);
    seen.all_met("write a group", &[3, 4, 13, 14]);
    seen.all_met("take", &[0, 3, 4, 5, 8]);
    seen.all_met("take a group", &[0, 3, 4, 5, 8]);
}

#[test]
fn sends() {
    let mut random = Random::new(16);
    let mut seen = Seen::default();
    let mut sender = Sender::default();
    let mut next = 0_u32;
    for _ in 0..60_000 {
        if random.chance(1, 50) {
            next = random.pick(&[0, 1, 65534, 65535, 65535]);
            sender.next = next as u16;
        }
        if random.chance(1, 50) {
            sender.reset();
            next = 0;
        }
        let frame = any_frame(&mut random);
        let need = frame.len() + 6;
        let mut outputs = [0; 2].map(|_| any_output(&mut random, need));
        let before = outputs.clone();
        let expected = first(&[
            (3, frame.len() > 1994),
            (4, short_for_writing(&frame)),
            (13, has_mark(&frame)),
            (14, group_source(&frame)),
            (8, outputs.iter().any(|output| output.len() < need)),
        ]);
        let [one, other] = &mut outputs;
        let answer = sender.send(&frame, one, other);
        assert_eq!(number_of(answer), expected);
        seen.note("send", expected);
        if before.iter().all(|output| output.len() < need) {
            seen.note("send without room", expected);
        }
        if answer.is_ok() {
            let (number, length) = (next as u16, need);
            assert_eq!(answer, Ok(Sent { number, length }));
            for (output, before) in outputs.iter().zip(&before) {
                assert_eq!(output[..need], with_tag(&frame, number));
                assert_eq!(output[need..], before[need..]);
            }
            next = (next + 1) % 65536;
            seen.note("wrap", u8::from(next == 0));
        } else {
            assert_eq!(outputs, before);
        }
        assert_eq!(u32::from(sender.next), next);
    }
    seen.all_met("send", &[0, 3, 4, 8, 13, 14]);
    seen.all_met("send without room", &[3, 4, 8, 13, 14]);
    seen.all_met("wrap", &[0, 1]);
}

/// The network that the trailer at the frame's end gives, with as many bytes as
/// the line's kind has.
fn network_of(frame: &[u8], width: usize) -> Option<u8> {
    let (network, lan) = match frame[frame.len() - width + 2] >> 4 {
        0xA => (0, 0xA),
        0xB => (1, 0xB),
        _ => return None,
    };
    let (bare, trailer) = frame.split_at(frame.len() - width);
    let number = u16::from_be_bytes([trailer[0], trailer[1]]);
    (with_trailer(bare, number, lan, width) == frame).then_some(network)
}

#[test]
fn turns_from_prp() {
    let mut random = Random::new(17);
    let mut seen = Seen::default();
    for _ in 0..100_000 {
        let frame = match random.below(8) {
            0 => any_frame(&mut random),
            _ => any_prp(&mut random),
        };
        let setting = random.pick(&[0, 0, 0, 1, 1, 2, 255]);
        let width = if setting == 0 { 4 } else { 6 };
        let need = (frame.len() + 6).saturating_sub(width);
        let mut output = any_output(&mut random, need);
        let before = output.clone();
        let short = short_for_writing(&frame) || frame.len() < type_place(&frame) + 2 + width;
        let network = if short {
            None
        } else {
            network_of(&frame, width)
        };
        let expected = first(&[
            (3, need > 2000),
            (4, short),
            (13, has_mark(&frame)),
            (16, network.is_none()),
            (8, output.len() < need),
        ]);
        let answer = from_prp(&frame, setting, &mut output);
        assert_eq!(number_of(answer), expected);
        let call = match (setting, type_place(&frame)) {
            (0, 12) => "first edition",
            (0, _) => "first edition, VLAN",
            (_, 12) => "2012",
            _ => "2012, VLAN",
        };
        seen.note(call, expected);
        if group_source(&frame) {
            seen.note("from a group", expected);
        }
        if let Ok(turned) = answer {
            let (bare, trailer) = frame.split_at(frame.len() - width);
            let number = u16::from_be_bytes([trailer[0], trailer[1]]);
            let wanted = Turned {
                number,
                network: network.unwrap(),
                length: need,
            };
            assert_eq!(turned, wanted);
            assert_eq!(output[..need], with_tag(bare, number));
            assert_eq!(output[need..], before[need..]);
        } else {
            assert_eq!(output, before);
        }
    }
    for call in ["first edition", "first edition, VLAN", "2012", "2012, VLAN"] {
        seen.all_met(call, &[0, 3, 4, 13, 16, 8]);
    }
    seen.all_met("from a group", &[0, 3, 4, 13, 16, 8]);
}

#[test]
fn turns_to_prp() {
    let mut random = Random::new(18);
    let mut seen = Seen::default();
    for _ in 0..100_000 {
        let frame = any_frame(&mut random);
        let network = random.pick(&[0, 1, 0, 1, 0, 1, 2, 255]);
        let setting = random.pick(&[0, 0, 0, 1, 1, 2, 255]);
        let width = if setting == 0 { 4 } else { 6 };
        let need = frame.len().saturating_sub(6) + width;
        let mut output = any_output(&mut random, need);
        let before = output.clone();
        let place = type_place(&frame);
        let bare = match frame.get(place + 6..) {
            Some(behind) => [&frame[..place], behind].concat(),
            None => Vec::new(),
        };
        let as_arrival = first(&[
            (2, network > 1),
            (3, frame.len() > 2000),
            (4, short_for_reading(&frame)),
            (5, !has_mark(&frame)),
        ]);
        let expected = match as_arrival {
            0 => first(&[(4, short_for_writing(&bare)), (8, output.len() < need)]),
            _ => as_arrival,
        };
        let answer = to_prp(&frame, network, setting, &mut output);
        assert_eq!(number_of(answer), expected);
        let call = match (setting, place) {
            (0, 12) => "first edition",
            (0, _) => "first edition, VLAN",
            (_, 12) => "2012",
            _ => "2012, VLAN",
        };
        seen.note(call, expected);
        if as_arrival == 0 && expected == 4 {
            seen.note("short without its tag", setting);
        }
        if group_source(&frame) {
            seen.note("from a group", expected);
        }
        if let Ok(turned) = answer {
            let number = u16::from_be_bytes([frame[place + 4], frame[place + 5]]);
            let wanted = Turned {
                number,
                network,
                length: need,
            };
            assert_eq!(turned, wanted);
            let prp = with_trailer(&bare, number, 0xA + network, width);
            assert_eq!(output[..need], prp);
            assert_eq!(output[need..], before[need..]);
            // 8100 behind a tag at 12, and F1C1 as the type that is left.
            seen.note("VLAN behind the tag", u8::from(type_place(&bare) != place));
            seen.note("tagged twice", u8::from(has_mark(&bare)));
        } else {
            assert_eq!(output, before);
        }
    }
    for call in ["first edition", "first edition, VLAN", "2012", "2012, VLAN"] {
        seen.all_met(call, &[0, 2, 3, 4, 5, 8]);
    }
    seen.all_met("short without its tag", &[0, 1, 2, 255]);
    seen.all_met("from a group", &[0, 2, 3, 4, 5, 8]);
    seen.all_met("VLAN behind the tag", &[0, 1]);
    seen.all_met("tagged twice", &[0, 1]);
}
