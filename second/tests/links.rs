//! Order 10 of document 02: virtual links of ARINC 664 part 7. Each sentence of
//! the order as a case, the places where a slip is likely, and random runs beside
//! a receiver that walks the ring step by step.

mod common;

use common::*;
use second::event_file::run;
use second::generate::{file, open_body, open_wide_body, push_record, tagged as tagged_body};
use second::random::Random;
use second::wrong::{self, Seen as Shows, Wrong, VARIANTS};
use second::{
    agrees, arrival, follow, link_arrival, rebuild, reset, tick, Family, Refusal, Settings, Stream,
    Ticked, Verdict,
};
use Family::{Links, Rest};

const LINK: u8 = 3;

/// A link that handed up this number last.
fn behind(last: u16) -> Stream {
    running(LINK, 4, 3, last, 0)
}

/// One arrival on network 0 with room enough; only the verdict's kind.
fn arrive_link(table: &mut [Stream], number: u8) -> &'static str {
    let a = link_arrival(table, 0, &numbered(number), &mut [0; 100]).unwrap();
    assert_eq!(a.number, u16::from(number));
    word(a)
}

/// The number behind this one, as a sender counts that does not start again.
fn next(number: u8) -> u8 {
    match number {
        255 => 1,
        _ => number + 1,
    }
}

/// The numbers that one to 127 steps forward lead to.
fn ahead(last: u8) -> Vec<u8> {
    let mut numbers = vec![next(last)];
    while numbers.len() < 127 {
        numbers.push(next(numbers[numbers.len() - 1]));
    }
    numbers
}

fn every_pair_of_numbers() {
    for last in 0..=255u8 {
        let ahead = ahead(last);
        for number in 0..=255u8 {
            let up = match number {
                0 => last != 0,
                _ => ahead.contains(&number),
            };
            let old = behind(last.into());
            let mut table = [old];
            let told = arrive_link(&mut table, number);
            assert_eq!(told == "up", up, "{last}, {number}");
            let new = if up {
                Stream {
                    anchor: number.into(),
                    arrivals: [1, 0],
                    passed: 1,
                    ..old
                }
            } else {
                assert_eq!(told, "duplicate");
                Stream {
                    arrivals: [1, 0],
                    discarded: 1,
                    ..old
                }
            };
            assert_eq!(table, [new], "{last}, {number}");
        }
    }
}

#[test]
fn every_pair_of_numbers_step_by_step() {
    every_pair_of_numbers();
    assert_eq!(ahead(0), (1..=127).collect::<Vec<u8>>());
    assert_eq!(ahead(255), ahead(0));
    assert_eq!(ahead(128), (129..=255).collect::<Vec<u8>>());
    assert_eq!(ahead(129)[126], 1);
}

#[test]
fn pairs_where_a_slip_is_likely() {
    for (last, number, told) in [
        (254, 255, "up"),
        (255, 1, "up"),
        (255, 127, "up"),
        (255, 128, "duplicate"),
        (255, 254, "duplicate"),
        (255, 255, "duplicate"),
        (255, 0, "up"),
        (1, 0, "up"),
        (1, 1, "duplicate"),
        (1, 2, "up"),
        (1, 128, "up"),
        (1, 129, "duplicate"),
        (1, 255, "duplicate"),
        (2, 1, "duplicate"),
        (127, 0, "up"),
        (128, 255, "up"),
        (128, 1, "duplicate"),
        (129, 1, "up"),
        (0, 0, "duplicate"),
        (0, 1, "up"),
        (0, 127, "up"),
        (0, 128, "duplicate"),
        (0, 255, "duplicate"),
    ] {
        let mut table = [behind(last)];
        assert_eq!(arrive_link(&mut table, number), told, "{last}, {number}");
    }
}

fn fresh_takes_all() {
    for number in 0..=255u8 {
        let mut table = [fresh(LINK, 4, 3)];
        assert_eq!(arrive_link(&mut table, number), "up");
        let new = Stream {
            arrivals: [1, 0],
            passed: 1,
            ..behind(number.into())
        };
        assert_eq!(table, [new], "{number}");
        assert!(new.is_lawful());
    }
}

#[test]
fn a_fresh_stream_hands_up_any_number() {
    fresh_takes_all();
}

#[test]
fn a_sender_that_starts_again() {
    let mut table = [behind(200)];
    // 0 once, its twin not; then as behind a 0.
    for (number, told) in [(0, "up"), (0, "duplicate"), (1, "up"), (0, "up"), (1, "up")] {
        assert_eq!(arrive_link(&mut table, number), told);
    }
    // The steps are counted from what was handed up, not from what came.
    for (number, told) in [
        (130, "duplicate"),
        (131, "duplicate"),
        (129, "duplicate"),
        (128, "up"),
        (1, "duplicate"),
        (255, "up"),
    ] {
        assert_eq!(arrive_link(&mut table, number), told);
    }
}

fn a_record_after_each_verdict() {
    let old = Stream {
        window: 512,
        reset_time: 9,
        remaining: 2,
        arrivals: [u64::MAX, 7],
        passed: u64::MAX,
        discarded: u64::MAX,
        rogue: 5,
        out_of_order: 6,
        lost: 8,
        resets: 4,
        ..behind(10)
    };
    assert!(old.is_lawful());
    for (number, network) in [(11, 0), (13, 1), (137, 0), (0, 1)] {
        let mut table = [old];
        let mut output = [FILL; 20];
        let told = link_arrival(&mut table, network, &numbered(number), &mut output).unwrap();
        assert_eq!(told.verdict, Verdict::HandedUp { length: 15 });
        let mut arrivals = old.arrivals;
        arrivals[usize::from(network)] = [0, 8][usize::from(network)];
        // Counters wrap, and out of order and lost stay.
        let new = Stream {
            anchor: number.into(),
            remaining: 9,
            arrivals,
            passed: 0,
            ..old
        };
        assert_eq!(table, [new]);
        assert_eq!(output[..15], untagged_to(DESTINATION, None));
        assert_eq!(output[15..], [FILL; 5]);
    }
    for number in [10, 138, 9, 255] {
        let mut table = [old];
        let mut output = [FILL; 20];
        let told = link_arrival(&mut table, 1, &numbered(number), &mut output).unwrap();
        assert_eq!(told.verdict, Verdict::Duplicate);
        let new = Stream {
            arrivals: [u64::MAX, 8],
            discarded: 0,
            ..old
        };
        assert_eq!((table, output), ([new], [FILL; 20]));
    }
}

#[test]
fn what_a_verdict_changes() {
    a_record_after_each_verdict();
}

fn frames_at_the_edges() {
    for vlan_mark in [false, true] {
        for length in (0..=24).chain(1990..=2005) {
            let mut frame = [&DESTINATION[..], &SOURCE].concat();
            if vlan_mark {
                // Were it a VLAN tag, its id would be 5.
                frame.extend([0x81, 0x00, 0x00, 0x05]);
            }
            frame.resize(length, 0x55);
            if let Some(last) = frame.last_mut() {
                *last = 200;
            }
            let old = fresh(LINK, 4, 3);
            let number = match length {
                0..=14 => 4,
                2001.. => 3,
                _ => 0,
            };
            for room in [length.saturating_sub(2), length.saturating_sub(1), 3000] {
                let number = match number {
                    0 if room + 1 < length => 8,
                    number => number,
                };
                let mut table = [old];
                let mut output = vec![FILL; room];
                let answer = link_arrival(&mut table, 0, &frame, &mut output);
                assert_eq!(number_of(answer), number, "{length}, {room}");
                if number != 0 {
                    assert_eq!((table, output), ([old], vec![FILL; room]));
                    continue;
                }
                let up = Verdict::HandedUp { length: length - 1 };
                assert_eq!(answer.unwrap().verdict, up);
                assert_eq!(answer.unwrap().number, 200);
                assert_eq!(output[..length - 1], frame[..length - 1]);
                assert!(output[length - 1..].iter().all(|&byte| byte == FILL));
            }
        }
    }
}

#[test]
fn lengths_and_rooms_at_the_edges() {
    frames_at_the_edges();
}

fn no_tag_means_anything() {
    // A tagged frame with and without a VLAN tag, 8100 twice, a VLAN tag behind
    // the tag, tags that are cut, and nothing but 8100 or F1C1 behind the
    // addresses: the number is the last byte, and the key has VLAN id 0.
    for behind_addresses in [
        &[0xF1, 0xC1, 0, 0, 0, 7, 8, 0][..],
        &[0x81, 0, 0, 5, 0xF1, 0xC1, 0, 0, 0, 7, 8, 0],
        &[0x81, 0, 0x0F, 0xFF, 8, 0],
        &[0x81, 0, 0, 5, 0x81, 0, 0, 6, 8, 0],
        &[0xF1, 0xC1, 0, 0, 0, 7, 0x81, 0, 0, 5],
        &[0xF1, 0xC1, 0xFF],
        &[0x81, 0x00, 0xFF],
        &[0xF1, 0xC1],
        &[0x81, 0x00],
        &[0, 0],
    ] {
        let bare = [&DESTINATION[..], &SOURCE, behind_addresses].concat();
        let frame = [&bare[..], &[99]].concat();
        let other = Stream {
            vlan: 5,
            ..fresh(Stream::VECTOR, 4, 3)
        };
        let mut table = [other, fresh(LINK, 4, 3)];
        let mut output = vec![FILL; bare.len()];
        let a = link_arrival(&mut table, 0, &frame, &mut output).unwrap();
        assert_eq!((a.slot, a.number, word(a)), (1, 99, "up"));
        assert_eq!(output, bare);
        assert_eq!(table[0], other);
        let a = link_arrival(&mut table, 1, &frame, &mut output).unwrap();
        assert_eq!((a.slot, a.number, word(a)), (1, 99, "duplicate"));
    }
}

#[test]
fn tags_mean_nothing_to_a_link() {
    no_tag_means_anything();
}

fn one_fault_after_the_other() {
    let damaged = behind(256);
    let mut tables = [vec![damaged; 65], vec![damaged]];
    let mut long = from_source(1, &numbered(1));
    long.resize(2001, 0);
    let no_room: &mut [u8] = &mut [];
    let mut call = |table: &mut [Stream], network, frame: &[u8]| {
        number_of(link_arrival(table, network, frame, no_room))
    };
    assert_eq!(call(&mut tables[0], 2, &long), 1);
    let table = &mut tables[1];
    assert_eq!(call(table, 2, &long), 2);
    assert_eq!(call(table, 2, &[]), 2);
    for network in [3, 128, 255] {
        assert_eq!(call(table, network, &numbered(1)), 2);
    }
    assert_eq!(call(table, 1, &long), 3);
    let stranger = numbered_to([9; 6], 1);
    let group = from_source(1, &stranger);
    for length in [0, 6, 7, 12, 13, 14] {
        assert_eq!(call(table, 1, &group[..length]), 4);
    }
    // No 5 and no 13, whatever stands at 12.
    assert_eq!(call(table, 1, &group), 14);
    assert_eq!(call(table, 1, &from_source(0xFF, &numbered(1))), 14);
    assert_eq!(call(table, 1, &from_source(0xFE, &stranger)), 6);
    assert_eq!(call(table, 1, &stranger), 6);
    assert_eq!(call(table, 1, &numbered(1)), 7);
    assert_eq!(table, &[damaged]);
    for last in [1, 255] {
        table[0] = behind(last);
        // For every verdict.
        for number in [0, 1, 2, 200] {
            assert_eq!(call(table, 1, &numbered(number)), 8);
        }
        assert_eq!(table, &[behind(last)]);
    }
    table[0].in_use = 0;
    assert_eq!(call(table, 1, &numbered(1)), 6);
    assert_eq!(call(&mut [], 1, &numbered(1)), 6);
}

#[test]
fn refusals_in_their_order() {
    one_fault_after_the_other();
}

fn both_of_one_key() {
    let (plain, link) = (fresh(Stream::VECTOR, 4, 3), fresh(LINK, 4, 3));
    for (mut table, plain_slot, link_slot) in [
        (vec![plain, link], 0, 1),
        (vec![link, plain], 1, 0),
        (vec![Stream::FREE, link, plain, plain, link], 2, 1),
    ] {
        let others = table.clone();
        let mut output = [0; 100];
        // A tagged frame reaches the one, a frame of a link the other, though
        // either could be read both ways.
        let frame = tagged(7);
        let a = arrival(&mut table, 0, &frame, &mut output).unwrap();
        assert_eq!((a.slot, a.number, word(a)), (plain_slot, 7, "up"));
        let a = link_arrival(&mut table, 1, &frame, &mut output).unwrap();
        assert_eq!((a.slot, a.number, word(a)), (link_slot, 0x77, "up"));
        let done = batch(&mut table, 1, 1, &packed(&[frame]), &mut output).unwrap();
        let a = done.answers[0].unwrap().unwrap();
        assert_eq!((a.slot, a.number, word(a)), (plain_slot, 7, "duplicate"));
        let a = link_arrival(&mut table, 0, &numbered(0x78), &mut output).unwrap();
        assert_eq!((a.slot, word(a)), (link_slot, "up"));
        assert_eq!(table[plain_slot].arrivals, [1, 1]);
        assert_eq!(table[link_slot].arrivals, [1, 1]);
        for slot in 0..table.len() {
            if slot != plain_slot && slot != link_slot {
                assert_eq!(table[slot], others[slot]);
            }
        }
        // Open looks at all of them.
        for rule in [Stream::VECTOR, Stream::MATCH, LINK] {
            assert_eq!(number_of(open(&mut table, settings(rule, 4, 3))), 10);
        }
    }
    // Each alone is not heard by the other's call, and its key is in use.
    let mut output = [0; 100];
    let mut table = [plain, Stream::FREE];
    let answer = link_arrival(&mut table, 0, &numbered(7), &mut output);
    assert_eq!(answer, Err(Refusal::NoStream));
    assert_eq!(number_of(open(&mut table, settings(LINK, 4, 3))), 10);
    let mut table = [link, Stream::FREE];
    let answer = arrival(&mut table, 0, &tagged(7), &mut output);
    assert_eq!(answer, Err(Refusal::NoStream));
    let done = batch(&mut table, 0, 1, &packed(&[tagged(7)]), &mut output).unwrap();
    assert_eq!(done.answers[0], Some(Err(Refusal::NoStream)));
    assert_eq!(number_of(open(&mut table, settings(1, 4, 3))), 10);
    assert_eq!(table, [link, Stream::FREE]);
}

#[test]
fn a_link_and_another_stream_of_one_key_side_by_side() {
    both_of_one_key();
}

fn rules_that_are_none() {
    // Such a slot is one of the rest: damaged for an arrival, not there for a
    // link's.
    for rule in [0, 4, 255] {
        let record = fresh(rule, 4, 3);
        let mut table = [record, fresh(Stream::VECTOR, 4, 3), fresh(LINK, 4, 3)];
        let mut output = [0; 100];
        let answer = arrival(&mut table, 0, &tagged(7), &mut output);
        assert_eq!(answer, Err(Refusal::Damaged));
        let done = batch(&mut table, 0, 1, &packed(&[tagged(7)]), &mut output).unwrap();
        assert_eq!(done.answers[0], Some(Err(Refusal::Damaged)));
        let a = link_arrival(&mut table, 0, &numbered(7), &mut output).unwrap();
        assert_eq!(a.slot, 2);
        let answer = link_arrival(&mut table[..2], 0, &numbered(7), &mut output);
        assert_eq!(answer, Err(Refusal::NoStream));
    }
}

#[test]
fn a_rule_that_is_none_is_among_the_rest() {
    rules_that_are_none();
}

fn other_vlan_ids() {
    for vlan in [1, 5, 4094, 4095, 4096, 65535] {
        let record = Stream {
            vlan,
            ..fresh(LINK, 4, 3)
        };
        let wanted = Settings {
            vlan,
            ..settings(LINK, 4, 3)
        };
        assert_eq!(number_of(open(&mut [Stream::FREE], wanted)), 9);
        assert!(!record.is_lawful() && !record.settings_in_range());
        // Lent, it is damaged and heard by no arrival.
        let mut table = [record, Stream::FREE];
        let mut output = [FILL; 100];
        let frame = tagged_to(DESTINATION, Some(vlan & 0x0FFF), 7);
        let answer = arrival(&mut table, 0, &frame, &mut output);
        assert_eq!(answer, Err(Refusal::NoStream));
        let input = packed(std::slice::from_ref(&frame));
        let done = batch(&mut table, 0, 1, &input, &mut output).unwrap();
        assert_eq!(done.answers[0], Some(Err(Refusal::NoStream)));
        for frame in [frame, numbered(7)] {
            let answer = link_arrival(&mut table, 0, &frame, &mut output);
            assert_eq!(answer, Err(Refusal::NoStream));
        }
        let damaged = Ticked {
            reset: 0,
            damaged: 1,
        };
        assert_eq!(tick(&mut table), Ok(damaged));
        assert_eq!(reset(&mut table, 0), Err(Refusal::Damaged));
        // It refuses an open of its key, where that could be opened at all.
        let plain = Settings {
            vlan,
            ..settings(Stream::VECTOR, 4, 3)
        };
        let number = if vlan <= 4094 { 10 } else { 9 };
        assert_eq!(number_of(open(&mut table, plain)), number);
        assert_eq!((table, output), ([record, Stream::FREE], [FILL; 100]));
        // A slot with VLAN id 0 behind it has the link's arrivals.
        table[1] = fresh(LINK, 4, 3);
        let a = link_arrival(&mut table, 0, &numbered(7), &mut output).unwrap();
        assert_eq!(a.slot, 1);
        assert_eq!(close(&mut table, 0), Ok(()));
    }
}

#[test]
fn rule_3_with_another_vlan_id() {
    other_vlan_ids();
}

fn settings_of_a_link() {
    let try_open = |settings| number_of(open(&mut [Stream::FREE], settings));
    // L is unused and yet must be in range.
    for (window, number) in [(0, 9), (1, 9), (2, 0), (64, 0), (512, 0), (513, 9)] {
        assert_eq!(try_open(settings(LINK, window, 3)), number);
        let record = fresh(LINK, window, 3);
        assert_eq!(record.is_lawful(), number == 0);
    }
    for (reset_time, number) in [(0, 9), (1, 0), (65535, 0)] {
        assert_eq!(try_open(settings(LINK, 4, reset_time)), number);
    }
    let mut table = [Stream::FREE; 2];
    assert_eq!(open(&mut table, settings(LINK, 4, 3)), Ok(0));
    assert_eq!(table, [fresh(LINK, 4, 3), Stream::FREE]);
}

#[test]
fn settings_at_their_edges() {
    settings_of_a_link();
}

fn lawful_and_damaged() {
    for record in [
        fresh(LINK, 2, 1),
        fresh(LINK, 512, 65535),
        behind(0),
        behind(1),
        behind(255),
        Stream {
            remaining: 1,
            ..behind(127)
        },
    ] {
        assert!(record.is_lawful(), "{record:?}");
        let mut table = [record];
        assert_eq!(tick(&mut table).unwrap().damaged, 0);
    }
    for record in [
        behind(256),
        behind(257),
        behind(32768),
        behind(65535),
        running(LINK, 4, 3, 7, 1),
        with_places(behind(7), [63]),
        with_places(behind(7), [511]),
        with_early(behind(7), 1),
        with_early(behind(7), 3),
        with_early(behind(7), 4),
        Stream {
            remaining: 0,
            ..behind(7)
        },
        Stream {
            remaining: 4,
            ..behind(7)
        },
        Stream {
            take_any: 1,
            ..behind(7)
        },
        Stream {
            anchor: 255,
            ..fresh(LINK, 4, 3)
        },
        Stream {
            anchor: 0,
            ..fresh(LINK, 4, 3)
        },
        Stream {
            remaining: 1,
            ..fresh(LINK, 4, 3)
        },
        with_early(fresh(LINK, 4, 3), 1),
        with_places(fresh(LINK, 4, 3), [0]),
    ] {
        assert!(!record.is_lawful(), "{record:?}");
        assert!(record.settings_in_range());
        let mut table = [record, fresh(LINK, 4, 3)];
        let mut output = [FILL; 100];
        for number in [0, 7, 8, 255] {
            // A sound slot behind it is not tried.
            let answer = link_arrival(&mut table, 0, &numbered(number), &mut output);
            assert_eq!(answer, Err(Refusal::Damaged));
        }
        assert_eq!(tick(&mut table).unwrap().damaged, 1);
        assert_eq!(table[0], record);
        // A reset mends it.
        assert_eq!(reset(&mut table, 0), Ok(()));
        let mended = Stream {
            resets: 1,
            ..fresh(LINK, 4, 3)
        };
        assert_eq!(table[0], mended);
    }
}

#[test]
fn lawful_and_damaged_records() {
    lawful_and_damaged();
}

fn ticks_of_a_link() {
    let mut table = [fresh(LINK, 4, 3)];
    let resets = |table: &mut [Stream]| tick(table).unwrap().reset;
    assert_eq!(resets(&mut table), 0);
    assert_eq!(arrive_link(&mut table, 9), "up");
    assert_eq!((resets(&mut table), resets(&mut table)), (0, 0));
    // A duplicate does not renew the ticks, and after the third the stream takes
    // any number, the same one too.
    assert_eq!(arrive_link(&mut table, 9), "duplicate");
    assert_eq!(table[0].remaining, 1);
    assert_eq!(resets(&mut table), 1);
    let expected = Stream {
        arrivals: [2, 0],
        passed: 1,
        discarded: 1,
        resets: 1,
        ..fresh(LINK, 4, 3)
    };
    assert_eq!(table, [expected]);
    assert_eq!(arrive_link(&mut table, 9), "up");
    // What is handed up renews them, and the reset call takes them away.
    assert_eq!((resets(&mut table), resets(&mut table)), (0, 0));
    assert_eq!(arrive_link(&mut table, 10), "up");
    assert_eq!(table[0].remaining, 3);
    assert_eq!(reset(&mut table, 0), Ok(()));
    assert_eq!(arrive_link(&mut table, 10), "up");
    assert_eq!(table[0].resets, 2);
}

#[test]
fn a_link_ages_as_other_streams_do() {
    ticks_of_a_link();
}

/// Random traffic of a sender that starts again now and then, on two networks, with
/// loss, twins and stale numbers, beside a receiver that knows the last number and
/// the ticks since.
fn random_runs() {
    let mut seen = Seen::default();
    for seed in 0..200 {
        let random = &mut Random::new(seed);
        let reset_time = random.between(1, 6) as u16;
        let mut table = [fresh(Stream::MATCH, 4, 3), fresh(LINK, 4, reset_time)];
        let other = table[0];
        let mut sent = random.byte();
        let (mut last, mut silent) = (None, 0);
        let (mut up, mut duplicates, mut resets) = (0, 0, 0);
        for _ in 0..300 {
            match random.below(16) {
                0 => {
                    silent += 1;
                    let runs_out = last.is_some() && silent == reset_time;
                    assert_eq!(tick(&mut table).unwrap().reset, usize::from(runs_out));
                    if runs_out {
                        (last, resets) = (None, resets + 1);
                    }
                    continue;
                }
                1 => sent = 0,
                2 => (0..random.below(140)).for_each(|_| sent = next(sent)),
                _ => sent = next(sent),
            }
            for network in 0..2 {
                let number = match random.below(8) {
                    0 => continue,
                    1 => random.byte(),
                    _ => sent,
                };
                let mut output = [FILL; 40];
                let a = link_arrival(&mut table, network, &numbered(number), &mut output).unwrap();
                let handed_up = match last {
                    None => true,
                    Some(last) if number == 0 => last != 0,
                    Some(last) => ahead(last).contains(&number),
                };
                assert_eq!((a.slot, a.number), (1, number.into()));
                if handed_up {
                    assert_eq!(a.verdict, Verdict::HandedUp { length: 15 });
                    (last, silent, up) = (Some(number), 0, up + 1);
                } else {
                    assert_eq!(a.verdict, Verdict::Duplicate);
                    duplicates += 1;
                }
                seen.note(word(a), u8::from(number == 0));
            }
        }
        assert_eq!(table[0], other);
        let link = table[1];
        let counted = (link.passed, link.discarded, link.resets);
        assert_eq!(counted, (up, duplicates, resets));
        assert_eq!(link.arrivals[0] + link.arrivals[1], up + duplicates);
        assert_eq!((link.rogue, link.out_of_order, link.lost), (0, 0, 0));
        seen.note("resets", u8::from(resets > 0));
    }
    seen.all_met("up", &[0, 1]);
    seen.all_met("duplicate", &[0, 1]);
    seen.all_met("resets", &[1]);
}

#[test]
fn random_runs_beside_a_slow_receiver() {
    random_runs();
}

/// An index with these names from the key's own place on.
fn names(key: Key, named: &[u8]) -> Vec<u8> {
    let mut index = vec![0; 128];
    for (step, &name) in named.iter().enumerate() {
        index[(place_of(key) + step) % 128] = name;
    }
    index
}

fn the_agreement_is_asked_twice() {
    let key = (DESTINATION, 0);
    let (plain, link) = (fresh(Stream::VECTOR, 4, 3), fresh(LINK, 4, 3));
    let start = [link, plain, link, plain, Stream::FREE];
    // Each family's lowest must be found: slots 0 and 1, named 1 and 2.
    for (named, good) in [
        (&[1, 2][..], true),
        (&[2, 1], true),
        (&[1, 2, 3, 4], true),
        (&[2, 4, 1, 3], true),
        (&[5, 1, 9, 2], true),
        (&[1, 1, 2], true),
        (&[1], false),
        (&[2], false),
        (&[1, 4, 2], false),
        (&[2, 3, 1], false),
        (&[1, 0, 2], false),
        (&[3, 4], false),
        (&[], false),
    ] {
        let mut table = start;
        let mut index = names(key, named);
        assert_eq!(agrees(&table, &index), good, "{named:?}");
        assert_eq!(agree(&table, &index), good, "{named:?}");
        let found = [Links, Rest].map(|family| follow(&table, &index, DESTINATION, 0, family));
        assert_eq!(found == [Some(0), Some(1)], good);
        let before = index.clone();
        let input = packed(&[tagged(7)]);
        let mut output = [0; 100];
        let answer = second::batch(&mut table, &index, 0, 1, &input, &mut output);
        let answer = answer.map(|done| done.answers[0].unwrap().unwrap().slot);
        if !good {
            assert_eq!(answer, Err(Refusal::BadIndex));
            let answer = second::close(&mut table, &mut index, 0);
            assert_eq!(answer, Err(Refusal::BadIndex));
            let answer = second::open(&mut table, &mut index, settings(LINK, 4, 3));
            assert_eq!(answer, Err(Refusal::BadIndex));
            assert_eq!((table, index), (start, before));
            // An arrival of either kind takes no index.
            assert_eq!(arrive(&mut table, 7), "up");
            assert_eq!(arrive_link(&mut table, 7), "up");
            continue;
        }
        assert_eq!(answer, Ok(1));
        let answer = second::open(&mut table, &mut index, settings(LINK, 4, 3));
        assert_eq!(answer, Err(Refusal::KeyInUse));
        assert_eq!(index, before);
        // With the lower of either family closed, the higher is found.
        assert_eq!(second::close(&mut table, &mut index, 0), Ok(()));
        assert_eq!(index, names(key, &[2, 3, 4]));
        assert!(agrees(&table, &index));
        assert_eq!(follow(&table, &index, DESTINATION, 0, Links), Some(2));
        assert_eq!(follow(&table, &index, DESTINATION, 0, Rest), Some(1));
        assert_eq!(second::close(&mut table, &mut index, 1), Ok(()));
        assert_eq!(index, names(key, &[3, 4]));
        assert!(agrees(&table, &index));
    }
    let mut index = [FILL; 128];
    assert_eq!(rebuild(&start, &mut index), Ok(()));
    assert_eq!(index[..], names(key, &[1, 2, 3, 4]));
    // A rule that changes in a lent table changes the family of its slot.
    let mut table = [link, plain];
    let index = names(key, &[1]);
    assert!(!agrees(&table, &index));
    table[1].rule = LINK;
    assert!(agrees(&table, &index));
    table[0].rule = 0;
    assert!(!agrees(&table, &index));
    table[1].rule = 4;
    assert!(agrees(&table, &index));
}

#[test]
fn the_index_and_both_families() {
    the_agreement_is_asked_twice();
}

fn lines_of(file: &[u8]) -> String {
    let mut lines = Vec::new();
    run(&mut &file[..], &mut lines).unwrap();
    String::from_utf8(lines).unwrap()
}

fn an_event_file() {
    let key = (DESTINATION, 0);
    let mut file = vec![1];
    for body in [
        &open_body(key, LINK, 4, 1)[..],
        // No kind of record gives a link a frame.
        &tagged_body(0, key, 7),
        &tagged_body(1, key, 7),
        &[5],
        &open_body(key, 1, 4, 1),
        &open_wide_body(key, LINK, 4, 1),
        &open_wide_body((DESTINATION, 5), LINK, 4, 1),
        &open_body((DESTINATION, 5), 1, 4, 1),
        &open_wide_body(([7; 6], 0), LINK, 1, 1),
        &open_wide_body(([7; 6], 0), LINK, 513, 1),
        &open_wide_body(([7; 6], 0), LINK, 512, 65535),
        &open_body(([8; 6], 0), 4, 4, 1),
        &[3, 0],
        &[2, 0],
        &open_body(key, 1, 4, 1),
        &tagged_body(0, key, 7),
    ] {
        push_record(&mut file, body);
    }
    let expected = "1 O 0\n2 A no 6\n3 A no 6\n4 T 0 0\n5 O no 10\n6 O no 10\n7 O no 9\n8 O 1\n\
        9 O no 9\n10 O no 9\n11 O 2\n12 O no 9\n13 R ok\n14 C ok\n15 O 0\n16 A up 0 7 0\nend\n";
    assert_eq!(lines_of(&file), expected);
}

#[test]
fn links_in_an_event_file() {
    an_event_file();
}

/// The variants of this order, which stand together in the list.
fn variants() -> &'static [wrong::Variant] {
    let place = |wrong| VARIANTS.iter().position(|v| v.wrong == wrong).unwrap();
    &VARIANTS[place(Wrong::LinkUnknown)..=place(Wrong::FollowStopsAtFamily)]
}

/// Random files show those that are for files, and none of the others.
#[test]
fn generated_files_show_the_slips_that_they_can() {
    let files: Vec<Vec<u8>> = (0..300).map(|seed| file(seed, 300)).collect();
    let right: Vec<String> = files.iter().map(|file| lines_of(file)).collect();
    for variant in variants() {
        wrong::set(Some(variant.wrong));
        let shown = files
            .iter()
            .zip(&right)
            .any(|(file, right)| lines_of(file) != *right);
        wrong::set(None);
        assert_eq!(shown, variant.seen == Shows::Files, "{:?}", variant.wrong);
    }
}

#[test]
fn wrong_links_are_found() {
    use Wrong::*;
    finds(
        every_pair_of_numbers,
        &[
            LinkRingOf256,
            LinkZeroAfterZero,
            LinkZeroOnRing,
            LinkTakes128,
            LinkLeaves127,
            LinkAfterZeroAll,
            LinkDuplicateMoves,
            LinkHasRogue,
            LinkCountsDisorder,
            LinkCountsLost,
        ],
    );
    finds(
        fresh_takes_all,
        &[LinkFreshAsZero, LinkMarksHistory, LinkHasEarly],
    );
    finds(
        a_record_after_each_verdict,
        &[LinkCountsDisorder, LinkCountsLost, LinkKeepsLastByte],
    );
    finds(
        frames_at_the_edges,
        &[
            LinkLongest1994,
            LinkLongest2001,
            LinkShortAt14,
            LinkShortWithVlan,
            LinkReadsVlan,
            LinkNeedsWhole,
        ],
    );
    finds(
        no_tag_means_anything,
        &[
            LinkShortWithVlan,
            LinkReadsVlan,
            LinkGives5,
            LinkRefusesTagged,
        ],
    );
    finds(
        one_fault_after_the_other,
        &[
            LinkLengthBeforeNetwork,
            LinkGroupBeforeShort,
            LinkTakesGroup,
            LinkStreamBeforeGroup,
            LinkRoomBeforeDamage,
            LinkDuplicateNoRoom,
            LinkAnyAnchor,
            LinkAnchor256,
        ],
    );
    finds(
        both_of_one_key,
        &[
            ArrivalHearsLinks,
            BatchHearsLinks,
            LinkHearsOthers,
            OpenLooksAtOwn,
        ],
    );
    finds(rules_that_are_none, &[ArrivalHearsTwoRules]);
    finds(other_vlan_ids, &[LinkAnyVlan, LinkOfAnyVlan]);
    finds(settings_of_a_link, &[LinkUnknown, LinkWiderL]);
    finds(
        lawful_and_damaged,
        &[
            FreshLinkDamaged,
            LinkAnyAnchor,
            LinkAnchor256,
            LinkAnyHistory,
            EarlyInLink,
            LinkPassesDamage,
        ],
    );
    finds(ticks_of_a_link, &[LinkNeverAges]);
    finds(
        random_runs,
        &[
            LinkRingOf256,
            LinkZeroAfterZero,
            LinkZeroOnRing,
            LinkTakes128,
            LinkLeaves127,
            LinkAfterZeroAll,
            LinkFreshAsZero,
            LinkDuplicateMoves,
            LinkNeverAges,
        ],
    );
    finds(
        the_agreement_is_asked_twice,
        &[
            AgreementOnce,
            AgreementOfRest,
            FollowStopsAtFamily,
            RebuildLeavesLinks,
        ],
    );
    finds(
        an_event_file,
        &[
            LinkUnknown,
            LinkAnyVlan,
            LinkWiderL,
            FreshLinkDamaged,
            ArrivalHearsLinks,
            OpenLooksAtOwn,
            RebuildLeavesLinks,
        ],
    );
}
