//! Order 4 of document 02: what is older than the first number handed up since
//! the reset is no loss. One case for each place where a slip is likely; the
//! damaged records are in damaged.rs, windows above 64 in wide.rs.

mod common;

use common::*;
use second::{arrival, reset, tick, Stream, Ticked};

/// A vector stream with R = 3 that has just taken its first number.
fn started(window: u16, first: u16) -> [Stream; 1] {
    let mut table = [fresh(Stream::VECTOR, window, 3)];
    assert_eq!(arrive(&mut table, first), "up");
    table
}

/// A lent vector stream with L = 4, R = 3 and anchor 100.
fn lent(history: u64, early: u16) -> [Stream; 1] {
    [with_early(
        running(Stream::VECTOR, 4, 3, 100, history),
        early,
    )]
}

/// What order 4 is about.
fn early_and_lost(table: &[Stream]) -> (u16, u64) {
    (table[0].early, table[0].lost)
}

/// The numbers come in turn and are handed up; n and lost behind each.
fn hands_up(table: &mut [Stream], steps: &[(u16, u16, u64)]) {
    for &(number, early, lost) in steps {
        assert_eq!(arrive(table, number), "up", "{number}");
        assert_eq!(early_and_lost(table), (early, lost), "{number}");
        assert!(table[0].is_lawful(), "{number}");
    }
}

#[test]
fn the_first_number_leaves_l_minus_1_places() {
    for window in 2..=512 {
        let table = started(window, 7);
        assert_eq!(early_and_lost(&table), (window - 1, 0));
        assert!(table[0].is_lawful());
    }
    // A match record has no places.
    let mut table = [fresh(Stream::MATCH, 4, 3)];
    for number in [7, 8, 20] {
        assert_eq!(arrive(&mut table, number), "up");
        assert_eq!(early_and_lost(&table), (0, 0));
    }
}

#[test]
fn a_start_shows_no_loss() {
    for window in (2..=66).chain([127, 128, 129, 255, 256, 257, 511, 512]) {
        let mut table = started(window, 65500);
        for step in 1..600u16 {
            assert_eq!(arrive(&mut table, 65500u16.wrapping_add(step)), "up");
            let left = (window - 1).saturating_sub(step);
            assert_eq!(early_and_lost(&table), (left, 0));
            assert!(table[0].is_lawful());
        }
    }
}

#[test]
fn the_smallest_window() {
    // The one place before the first leaves; then each place that leaves counts.
    hands_up(&mut started(2, 9), &[(10, 0, 0), (11, 0, 0)]);
    hands_up(&mut started(2, 9), &[(8, 1, 0), (10, 0, 0)]);
    // A record with its older place clear and none left: the zero counts.
    let mut table = [running(Stream::VECTOR, 2, 3, 9, 0b01)];
    hands_up(&mut table, &[(10, 0, 1)]);
}

#[test]
fn a_window_of_one_word() {
    // 63 places in one move, and in 63.
    hands_up(&mut started(64, 100), &[(163, 0, 0), (226, 0, 62)]);
    let mut table = started(64, 100);
    for number in 101..=163 {
        hands_up(&mut table, &[(number, 163 - number, 0)]);
    }
    hands_up(&mut table, &[(164, 0, 0)]);
    // The first stands at place 63, the 62 behind it are clear.
    hands_up(
        &mut started(64, 100),
        &[(163, 0, 0), (164, 0, 0), (165, 0, 1)],
    );
    // One place left, and the first at place 62.
    hands_up(&mut started(64, 100), &[(162, 1, 0), (163, 0, 0)]);
}

#[test]
fn a_move_by_more_places_than_are_left() {
    // Places 3 to 1 leave. One of them is older than 98, the first; 98 itself is
    // at place 2 and came; 99 at place 1 did not.
    let mut table = lent(0b0101, 1);
    assert!(table[0].is_lawful());
    hands_up(&mut table, &[(103, 0, 1)]);
    // The same where 99 came, and where no place is left for older ones.
    hands_up(&mut lent(0b0111, 1), &[(103, 0, 0)]);
    hands_up(&mut lent(0b0101, 0), &[(103, 0, 2)]);
    // Just as many as are left, and fewer.
    hands_up(&mut lent(0b0101, 1), &[(101, 0, 0)]);
    hands_up(&mut lent(0b0011, 2), &[(102, 0, 0)]);
    hands_up(&mut lent(0b0011, 2), &[(101, 1, 0)]);
    hands_up(&mut lent(0b0001, 3), &[(102, 1, 0), (105, 0, 1)]);
}

#[test]
fn a_late_number_older_than_the_first() {
    // It is handed up and marked, and n stays; its place then leaves without a
    // loss, as its neighbours do.
    let mut table = started(4, 100);
    hands_up(&mut table, &[(98, 3, 0)]);
    assert_eq!(table[0].history, low(0b0101));
    assert_eq!(arrive(&mut table, 98), "duplicate");
    assert_eq!(early_and_lost(&table), (3, 0));
    hands_up(
        &mut table,
        &[(99, 3, 0), (97, 3, 0), (101, 2, 0), (103, 0, 0)],
    );
    // By number and not by time: 102 comes after the first, and is lost.
    hands_up(&mut table, &[(106, 0, 1)]);
}

#[test]
fn a_late_number_after_the_first_is_no_loss() {
    let mut table = started(4, 100);
    hands_up(
        &mut table,
        &[(102, 1, 0), (101, 1, 0), (105, 0, 0), (108, 0, 2)],
    );
}

#[test]
fn duplicates_and_rogues_leave_n() {
    let mut table = started(4, 100);
    hands_up(&mut table, &[(101, 2, 0)]);
    for (number, verdict) in [
        (101, "duplicate"),
        (100, "duplicate"),
        (105, "rogue"),
        (97, "rogue"),
    ] {
        assert_eq!(arrive(&mut table, number), verdict);
        assert_eq!(early_and_lost(&table), (2, 0));
    }
}

#[test]
fn the_wrap_between_the_first_and_now() {
    // The first is 65534; the highest is 0, then 1, 4.
    hands_up(
        &mut started(4, 65534),
        &[(0, 1, 0), (65533, 1, 0), (1, 0, 0), (4, 0, 1)],
    );
    // The older ones are beyond the wrap, the first is not.
    hands_up(&mut started(4, 1), &[(65535, 3, 0), (4, 0, 0), (5, 0, 0)]);
}

#[test]
fn a_reset_takes_n_to_0_and_the_next_first_sets_it() {
    let by_tick = |table: &mut [Stream]| {
        let resets: Vec<usize> = (0..3).map(|_| tick(table).unwrap().reset).collect();
        assert_eq!(resets, [0, 0, 1]);
    };
    let by_call = |table: &mut [Stream]| assert_eq!(reset(table, 0), Ok(()));
    for way in [&by_tick as &dyn Fn(&mut [Stream]), &by_call] {
        for moved in [false, true] {
            let mut table = started(4, 100);
            if moved {
                hands_up(&mut table, &[(101, 2, 0)]);
            }
            way(&mut table);
            assert_eq!(early_and_lost(&table), (0, 0));
            assert!(table[0].is_lawful());
            // Far away, so that it could be no other than a first one.
            hands_up(&mut table, &[(5000, 3, 0), (5003, 0, 0), (5006, 0, 2)]);
            // What was lost before stays.
            way(&mut table);
            hands_up(&mut table, &[(9, 3, 2), (12, 0, 2)]);
        }
    }
}

#[test]
fn ticks_leave_n_until_r_expires() {
    let mut table = started(4, 100);
    for (remaining, early, reset) in [(2, 3, 0), (1, 3, 0), (0, 0, 1), (0, 0, 0)] {
        assert_eq!(tick(&mut table), Ok(Ticked { reset, damaged: 0 }));
        assert_eq!((table[0].remaining, table[0].early), (remaining, early));
    }
    let expected = Stream {
        arrivals: [1, 0],
        passed: 1,
        resets: 1,
        ..fresh(Stream::VECTOR, 4, 3)
    };
    assert_eq!(table, [expected]);
}

#[test]
fn a_free_record_may_hold_any_n() {
    let with_vlan = |vlan| second::Settings {
        vlan,
        ..settings(Stream::VECTOR, 4, 3)
    };
    let mut output = [FILL; 100];
    for early in [0, 1, 3, 4, 5, 64, 65535] {
        for record in [
            Stream::FREE,
            running(Stream::VECTOR, 4, 3, 100, 0b0101),
            running(Stream::MATCH, 4, 3, 100, 0),
            fresh(Stream::VECTOR, 4, 3),
        ] {
            let free = Stream {
                in_use: 0,
                early,
                ..record
            };
            let mut table = [free];
            let nothing = Ticked {
                reset: 0,
                damaged: 0,
            };
            assert_eq!(tick(&mut table), Ok(nothing));
            let answer = arrival(&mut table, 0, &tagged(101), &mut output);
            assert_eq!(number_of(answer), 6);
            assert_eq!(number_of(reset(&mut table, 0)), 12);
            assert_eq!(number_of(close(&mut table, 0)), 12);
            assert_eq!(table, [free]);
            // An open writes n too.
            assert_eq!(open(&mut table, with_vlan(5)), Ok(0));
            assert_eq!((table[0].early, table[0].is_lawful()), (0, true));
        }
    }
}

#[test]
fn close_keeps_n() {
    let mut table = started(4, 100);
    assert_eq!(close(&mut table, 0), Ok(()));
    assert_eq!(early_and_lost(&table), (3, 0));
    assert_eq!(open(&mut table, settings(Stream::VECTOR, 4, 3)), Ok(0));
    assert_eq!(table, [fresh(Stream::VECTOR, 4, 3)]);
}
