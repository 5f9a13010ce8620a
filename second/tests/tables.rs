//! "Sizes" and the calls on tables: edges of every size, which slot is taken,
//! and counters at their end.

mod common;

use common::*;
use second::{arrival, reset, tick, Settings, Stream, Ticked, Verdict};

fn with_key(last: u8) -> Settings {
    Settings {
        destination: [2, 0, 0, 0, 0, last],
        ..settings(Stream::VECTOR, 4, 3)
    }
}

fn ticked(reset: usize, damaged: usize) -> Ticked {
    Ticked { reset, damaged }
}

#[test]
fn a_table_of_no_slots() {
    let mut output = [0; 100];
    assert_eq!(number_of(arrival(&mut [], 0, &tagged(1), &mut output)), 6);
    assert_eq!(number_of(open(&mut [], with_key(1))), 11);
    assert_eq!(number_of(close(&mut [], 0)), 12);
    assert_eq!(number_of(reset(&mut [], 0)), 12);
    assert_eq!(tick(&mut []), Ok(ticked(0, 0)));
}

#[test]
fn a_table_of_64_slots() {
    let mut table = [Stream::FREE; 64];
    for slot in 0..64 {
        assert_eq!(open(&mut table, with_key(slot as u8)), Ok(slot));
    }
    assert_eq!(number_of(open(&mut table, with_key(64))), 11);
    // A full table with the key in use gives 10, not 11.
    assert_eq!(number_of(open(&mut table, with_key(63))), 10);
    let mut output = [0; 100];
    let frame = tagged_to([2, 0, 0, 0, 0, 63], None, 5);
    let a = arrival(&mut table, 0, &frame, &mut output).unwrap();
    assert_eq!((a.slot, word(a)), (63, "up"));
    assert_eq!(reset(&mut table, 63), Ok(()));
    assert_eq!(number_of(reset(&mut table, 64)), 12);
    assert_eq!(close(&mut table, 63), Ok(()));
    assert_eq!(number_of(close(&mut table, 63)), 12);
    assert_eq!(number_of(close(&mut table, 64)), 12);
    assert_eq!(number_of(close(&mut table, usize::MAX)), 12);
    assert_eq!(tick(&mut table), Ok(ticked(0, 0)));
}

#[test]
fn a_table_of_65_slots_is_refused_first() {
    for slots in [65, 66, 200] {
        let mut table = vec![fresh(Stream::VECTOR, 4, 3); slots];
        // A second slot with a free one, so that nothing else is wrong.
        table[1] = Stream::FREE;
        let before = table.clone();
        let mut output = [FILL; 100];
        assert_eq!(
            number_of(arrival(&mut table, 0, &tagged(1), &mut output)),
            1
        );
        // 1 comes before everything else that is wrong.
        assert_eq!(number_of(arrival(&mut table, 9, &[], &mut [])), 1);
        assert_eq!(number_of(open(&mut table, with_key(9))), 1);
        assert_eq!(number_of(open(&mut table, settings(0, 0, 0))), 1);
        assert_eq!(number_of(close(&mut table, 0)), 1);
        assert_eq!(number_of(close(&mut table, 1000)), 1);
        assert_eq!(number_of(reset(&mut table, 0)), 1);
        assert_eq!(number_of(reset(&mut table, 1000)), 1);
        assert_eq!(number_of(tick(&mut table)), 1);
        assert_eq!(table, before);
        assert_eq!(output, [FILL; 100]);
    }
}

#[test]
fn settings_at_their_edges() {
    let try_open = |settings| {
        let mut table = [Stream::FREE; 2];
        let answer = number_of(open(&mut table, settings));
        if answer != 0 {
            assert_eq!(table, [Stream::FREE; 2]);
        }
        answer
    };
    for rule in [1, 2] {
        for (window, answer) in [
            (0, 9),
            (1, 9),
            (2, 0),
            (64, 0),
            (65, 0),
            (255, 0),
            (256, 0),
            (511, 0),
            (512, 0),
            (513, 9),
            (514, 9),
            (768, 9),
            (65535, 9),
        ] {
            assert_eq!(try_open(settings(rule, window, 3)), answer);
        }
        for (reset_time, answer) in [(0, 9), (1, 0), (65535, 0)] {
            assert_eq!(try_open(settings(rule, 4, reset_time)), answer);
        }
        for (vlan, answer) in [(0, 0), (1, 0), (4094, 0), (4095, 9), (4096, 9), (65535, 9)] {
            let settings = Settings {
                vlan,
                ..settings(rule, 4, 3)
            };
            assert_eq!(try_open(settings), answer);
        }
    }
    for (rule, answer) in [(0, 9), (1, 0), (2, 0), (3, 0), (4, 9), (255, 9)] {
        assert_eq!(try_open(settings(rule, 4, 3)), answer);
    }
}

#[test]
fn the_smallest_and_the_largest_window() {
    for window in [2u16, 3, 63, 64, 65, 127, 128, 129, 511, 512] {
        let l = window;
        let all = marked(0..usize::from(l));
        let ends = marked([0, usize::from(l) - 1]);
        // Every place of the window is clear but the anchor's.
        let one = running(Stream::VECTOR, window, 3, 5, 1);
        for (d, verdict) in [(l - 1, "up"), (l, "rogue"), (l + 1, "rogue")] {
            let mut table = [one];
            assert_eq!(arrive(&mut table, 5u16.wrapping_add(d)), verdict);
            if verdict == "up" {
                // L - 1 zeros stood above bit 0 and all of them left.
                assert_eq!(table[0].lost, u64::from(l) - 1);
                assert_eq!(table[0].history, ends);
            }
            let mut table = [one];
            assert_eq!(arrive(&mut table, 5u16.wrapping_sub(d)), verdict);
            if verdict == "up" {
                assert_eq!((table[0].lost, table[0].anchor), (0, 5));
                assert_eq!(table[0].history, ends);
            }
        }
        // Every place is set: nothing is lost, and old numbers are duplicates.
        let full = with_places(one, 0..usize::from(l));
        let mut table = [full];
        assert_eq!(arrive(&mut table, 5u16.wrapping_sub(l - 1)), "duplicate");
        assert_eq!(arrive(&mut table, 5u16.wrapping_sub(l)), "rogue");
        assert_eq!(arrive(&mut table, 6), "up");
        assert_eq!((table[0].lost, table[0].history), (0, all));
        assert!(table[0].is_lawful());
    }
}

#[test]
fn reset_time_of_1() {
    let mut table = [fresh(Stream::VECTOR, 4, 1)];
    assert_eq!(tick(&mut table), Ok(ticked(0, 0)));
    assert_eq!(table[0], fresh(Stream::VECTOR, 4, 1));
    assert_eq!(arrive(&mut table, 9), "up");
    assert_eq!(table[0].remaining, 1);
    assert_eq!(tick(&mut table), Ok(ticked(1, 0)));
    assert_eq!(tick(&mut table), Ok(ticked(0, 0)));
    assert_eq!(table[0].resets, 1);
    // After the reset the same number is taken again.
    assert_eq!(arrive(&mut table, 9), "up");
}

#[test]
fn only_what_is_handed_up_renews_the_ticks() {
    let mut table = [fresh(Stream::VECTOR, 4, 3)];
    assert_eq!(arrive(&mut table, 100), "up");
    assert_eq!(tick(&mut table), Ok(ticked(0, 0)));
    assert_eq!(arrive(&mut table, 100), "duplicate");
    assert_eq!(arrive(&mut table, 5000), "rogue");
    assert_eq!(table[0].remaining, 2);
    // A late one does renew them.
    assert_eq!(arrive(&mut table, 98), "up");
    assert_eq!(table[0].remaining, 3);
    for reset in [0, 0, 1] {
        assert_eq!(arrive(&mut table, 5000), "rogue");
        assert_eq!(tick(&mut table), Ok(ticked(reset, 0)));
    }
    // The restarted sender gets through.
    assert_eq!(arrive(&mut table, 5000), "up");
}

#[test]
fn match_rule() {
    let mut table = [fresh(Stream::MATCH, 2, 3)];
    // The first number may be any, also the fresh anchor.
    assert_eq!(arrive(&mut table, 65535), "up");
    assert_eq!(
        (table[0].anchor, table[0].history, table[0].take_any),
        (65535, [0; 8], 0)
    );
    assert_eq!(arrive(&mut table, 65535), "duplicate");
    assert_eq!(arrive(&mut table, 0), "up");
    assert_eq!(table[0].out_of_order, 0);
    assert_eq!(arrive(&mut table, 32768), "up");
    assert_eq!(arrive(&mut table, 0), "up");
    assert_eq!(table[0].out_of_order, 2);
    assert_eq!(
        (table[0].rogue, table[0].lost, table[0].history),
        (0, 0, [0; 8])
    );
    assert_eq!((table[0].passed, table[0].discarded), (4, 1));
    assert_eq!(table[0].remaining, 3);
}

#[test]
fn the_first_number_may_be_any() {
    for number in [0, 1, 7, 32767, 32768, 65534, 65535] {
        let mut table = [fresh(Stream::VECTOR, 4, 3)];
        assert_eq!(arrive(&mut table, number), "up");
        let expected = Stream {
            early: 3,
            arrivals: [1, 0],
            passed: 1,
            ..running(Stream::VECTOR, 4, 3, number, 1)
        };
        assert_eq!(table[0], expected);
    }
}

#[test]
fn open_takes_the_lowest_free_slot_and_writes_all_of_it() {
    let mut table = [Stream::FREE; 4];
    for slot in 0..3 {
        assert_eq!(open(&mut table, with_key(slot as u8)), Ok(slot));
    }
    let mut output = [0; 100];
    let frame = tagged_to([2, 0, 0, 0, 0, 1], None, 5);
    arrival(&mut table, 0, &frame, &mut output).unwrap();
    let used = table[1];
    assert_eq!(close(&mut table, 1), Ok(()));
    // Only the flag changes.
    assert_eq!(table[1], Stream { in_use: 0, ..used });
    assert_eq!(number_of(arrival(&mut table, 0, &frame, &mut output)), 6);
    assert_eq!(open(&mut table, with_key(9)), Ok(1));
    let expected = Stream {
        destination: [2, 0, 0, 0, 0, 9],
        ..fresh(Stream::VECTOR, 4, 3)
    };
    assert_eq!(table[1], expected);
    // The key of the closed stream is free again.
    assert_eq!(open(&mut table, with_key(1)), Ok(3));
}

#[test]
fn same_destination_with_another_vlan_is_another_key() {
    let mut table = [Stream::FREE; 3];
    assert_eq!(open(&mut table, with_key(1)), Ok(0));
    let other = Settings {
        vlan: 5,
        ..with_key(1)
    };
    assert_eq!(open(&mut table, other), Ok(1));
    assert_eq!(number_of(open(&mut table, other)), 10);
    let mut output = [0; 100];
    let a = arrival(
        &mut table,
        0,
        &tagged_to([2, 0, 0, 0, 0, 1], Some(5), 3),
        &mut output,
    );
    assert_eq!(a.unwrap().slot, 1);
}

#[test]
fn open_checks_in_order() {
    let mut table = [fresh(Stream::VECTOR, 4, 3)];
    // Bad setting, key in use and no free slot at once.
    assert_eq!(number_of(open(&mut table, settings(1, 513, 3))), 9);
    assert_eq!(number_of(open(&mut table, settings(1, 512, 3))), 10);
    assert_eq!(number_of(open(&mut table, with_key(77))), 11);
}

#[test]
fn arrival_checks_in_order() {
    let mut damaged = fresh(Stream::VECTOR, 4, 3);
    damaged.rule = 4;
    let mut tables = [vec![damaged; 65], vec![damaged]];
    let mut long = tagged(1);
    long.resize(2001, 0);
    let no_room: &mut [u8] = &mut [];
    // One fault after the other is mended.
    assert_eq!(number_of(arrival(&mut tables[0], 2, &long, no_room)), 1);
    let table = &mut tables[1];
    assert_eq!(number_of(arrival(table, 2, &long, no_room)), 2);
    assert_eq!(number_of(arrival(table, 1, &long, no_room)), 3);
    assert_eq!(number_of(arrival(table, 1, &tagged(1)[..19], no_room)), 4);
    assert_eq!(number_of(arrival(table, 1, &[7; 20], no_room)), 5);
    let stranger = tagged_to([9; 6], None, 1);
    let group = from_source(7, &stranger);
    assert_eq!(number_of(arrival(table, 1, &group, no_room)), 14);
    assert_eq!(number_of(arrival(table, 1, &stranger, no_room)), 6);
    assert_eq!(number_of(arrival(table, 1, &tagged(1), no_room)), 7);
    table[0].rule = 1;
    assert_eq!(number_of(arrival(table, 1, &tagged(1), no_room)), 8);
    assert_eq!(table[0], fresh(Stream::VECTOR, 4, 3));
    for network in [2, 3, 255] {
        let mut output = [0; 100];
        assert_eq!(
            number_of(arrival(table, network, &tagged(1), &mut output)),
            2
        );
    }
}

#[test]
fn two_slots_with_one_key() {
    let mut table = [
        Stream {
            in_use: 0,
            ..fresh(Stream::VECTOR, 4, 3)
        },
        fresh(Stream::VECTOR, 4, 3),
        fresh(Stream::MATCH, 8, 9),
    ];
    let before = table;
    // The lowest slot in use has the arrivals, and only that one.
    assert_eq!(arrive(&mut table, 5), "up");
    assert_eq!(arrive(&mut table, 5), "duplicate");
    assert_eq!((table[0], table[2]), (before[0], before[2]));
    assert_eq!(table[1].arrivals, [2, 0]);
    // A damaged one in front is not passed over.
    table[1].window = 1;
    let damaged = table;
    let mut output = [0; 100];
    assert_eq!(
        number_of(arrival(&mut table, 0, &tagged(6), &mut output)),
        7
    );
    assert_eq!(table, damaged);
    // The key is in use even if only a damaged slot has it.
    table[2].in_use = 0;
    assert_eq!(number_of(open(&mut table, settings(1, 4, 3))), 10);
    table[2].in_use = 1;
    // Once it is closed, the next one is the lowest.
    assert_eq!(close(&mut table, 1), Ok(()));
    let a = arrival(&mut table, 0, &tagged(6), &mut output).unwrap();
    assert_eq!((a.slot, a.verdict), (2, Verdict::HandedUp { length: 15 }));
}

#[test]
fn counters_wrap() {
    let full = |stream: Stream| Stream {
        arrivals: [u64::MAX; 2],
        passed: u64::MAX,
        discarded: u64::MAX,
        rogue: u64::MAX,
        out_of_order: u64::MAX,
        lost: u64::MAX,
        resets: u64::MAX,
        ..stream
    };
    let start = full(running(Stream::VECTOR, 4, 3, 10, 0b0001));
    assert!(start.is_lawful());
    let mut output = [0; 100];

    // Three places up: three zeros leave.
    let mut table = [start];
    arrival(&mut table, 0, &tagged(13), &mut output).unwrap();
    let expected = Stream {
        arrivals: [0, u64::MAX],
        passed: 0,
        out_of_order: 0,
        lost: 2,
        anchor: 13,
        history: low(0b1001),
        ..start
    };
    assert_eq!(table[0], expected);

    let mut table = [start];
    arrival(&mut table, 1, &tagged(10), &mut output).unwrap();
    let expected = Stream {
        arrivals: [u64::MAX, 0],
        discarded: 0,
        ..start
    };
    assert_eq!(table[0], expected);

    let mut table = [start];
    arrival(&mut table, 1, &tagged(14), &mut output).unwrap();
    let expected = Stream {
        arrivals: [u64::MAX, 0],
        rogue: 0,
        ..start
    };
    assert_eq!(table[0], expected);

    let mut table = [Stream {
        remaining: 1,
        ..start
    }];
    assert_eq!(tick(&mut table), Ok(ticked(1, 0)));
    assert_eq!(table[0].resets, 0);
    table[0].resets = u64::MAX;
    assert_eq!(reset(&mut table, 0), Ok(()));
    assert_eq!(table[0].resets, 0);
    assert_eq!(table[0].passed, u64::MAX);
}

#[test]
fn reset_keeps_key_settings_and_counters() {
    let mut table = [fresh(Stream::VECTOR, 4, 3)];
    arrive(&mut table, 5);
    arrive(&mut table, 5);
    let before = table[0];
    assert_eq!(reset(&mut table, 0), Ok(()));
    let expected = Stream {
        anchor: 65535,
        history: [0; 8],
        take_any: 1,
        remaining: 0,
        early: 0,
        resets: 1,
        ..before
    };
    assert_eq!(table[0], expected);
    // A fresh stream can be reset again.
    assert_eq!(reset(&mut table, 0), Ok(()));
    assert_eq!(table[0].resets, 2);
}
