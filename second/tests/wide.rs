//! Order 5 of document 02: windows up to 512, and a history of eight words. The
//! kind of event that opens such a stream is in event_files.rs, the damaged
//! records are in damaged.rs.

mod common;

use common::*;
use second::history::{any_marked, clear, is_marked, mark, marked_from, move_up, History};
use second::random::Random;
use second::{reset, tick, Stream};

/// Windows at the ends of the words, and at the ends of the range.
const WINDOWS: [u16; 16] = [
    2, 63, 64, 65, 127, 128, 129, 191, 192, 255, 256, 257, 448, 449, 511, 512,
];

/// Every border between two words, with the places beside it, and both ends.
fn borders() -> Vec<usize> {
    let inner = (1..8).flat_map(|word| 64 * word - 2..=64 * word + 1);
    [0, 1].into_iter().chain(inner).chain([510, 511]).collect()
}

/// A lent vector stream with R = 3 and anchor 1000.
fn lent(window: u16, places: impl IntoIterator<Item = usize>) -> [Stream; 1] {
    [with_places(
        running(Stream::VECTOR, window, 3, 1000, 0),
        places,
    )]
}

/// The number so far from the anchor 1000.
fn at(d: i32) -> u16 {
    (1000 + d) as u16
}

#[test]
fn the_history_beside_512_flags() {
    let mut random = Random::new(31);
    let mut flags = vec![false; 512];
    let mut history: History = [0; 8];
    for _ in 0..20_000 {
        let place = random.below(512) as usize;
        match random.below(4) {
            0 => {
                flags[place] = true;
                mark(&mut history, place);
            }
            1 => {
                flags[place] = false;
                clear(&mut history, place);
            }
            _ => {
                flags.pop();
                flags.insert(0, false);
                move_up(&mut history);
            }
        }
        assert_eq!(is_marked(&history, place), flags[place]);
        let from = random.below(513) as usize;
        assert_eq!(marked_from(&history, from), flags[from..].contains(&true));
        assert_eq!(any_marked(&history), flags.contains(&true));
        let wanted: Vec<usize> = (0..512).filter(|&place| flags[place]).collect();
        assert_eq!(places(&history), wanted);
    }
}

#[test]
fn every_place_of_a_window_is_apart() {
    // One number came beside the anchor's: it is a duplicate, and no other is.
    for window in WINDOWS {
        let mut tried = borders();
        tried.extend([usize::from(window) - 1, usize::from(window) / 2]);
        tried.retain(|&place| place < window.into());
        for &came in &tried {
            for &place in &tried {
                let mut table = lent(window, [0, came]);
                let verdict = arrive(&mut table, at(-(place as i32)));
                if place == 0 || place == came {
                    assert_eq!(verdict, "duplicate");
                    assert_eq!(table[0].history, marked([0, came]));
                } else {
                    assert_eq!(verdict, "up");
                    assert_eq!(table[0].history, marked([0, came, place]));
                }
                assert_eq!((table[0].anchor, table[0].lost), (1000, 0));
                assert!(table[0].is_lawful());
            }
        }
    }
}

#[test]
fn every_place_moves_across_every_border() {
    for window in [512, 511, 449, 257, 128, 65] {
        let moves = borders().into_iter().filter(|&d| d > 0);
        for d in moves.filter(|&d| d < window.into()) {
            for place in borders() {
                if place >= window.into() {
                    continue;
                }
                let mut table = lent(window, [0, place]);
                assert_eq!(arrive(&mut table, at(d as i32)), "up");
                // The anchor's bit and this one moved; what is beyond L is gone.
                let moved = [0, d, place + d];
                let kept = moved.into_iter().filter(|&p| p < window.into());
                assert_eq!(table[0].history, marked(kept));
                // Of the d highest places all but a marked one are lost.
                let left = place + d >= window.into();
                assert_eq!(table[0].lost, d as u64 - u64::from(left));
                assert_eq!(table[0].anchor, at(d as i32));
                assert_eq!(table[0].out_of_order, u64::from(d != 1));
                assert!(table[0].is_lawful());
            }
        }
    }
}

#[test]
fn the_edges_of_each_window() {
    for window in WINDOWS {
        let l = i32::from(window);
        for (d, verdict) in [
            (l - 1, "up"),
            (l, "rogue"),
            (l + 1, "rogue"),
            (1 - l, "up"),
            (-l, "rogue"),
            (-l - 1, "rogue"),
            (-32768, "rogue"),
            (32767, "rogue"),
        ] {
            let mut table = lent(window, [0]);
            assert_eq!(arrive(&mut table, at(d)), verdict, "L {window}, d {d}");
            assert!(table[0].is_lawful());
            if verdict == "up" {
                assert_eq!(places(&table[0].history), [0, usize::from(window) - 1]);
                assert_eq!(arrive(&mut table, at(d)), "duplicate");
            }
        }
        // d = -(L - 1) where it came.
        let mut table = lent(window, [0, usize::from(window) - 1]);
        assert_eq!(arrive(&mut table, at(1 - l)), "duplicate");
    }
}

#[test]
fn a_bit_at_l_is_damage_and_one_below_is_none() {
    for window in WINDOWS {
        let l = usize::from(window);
        let [whole] = lent(window, 0..l);
        assert!(whole.is_lawful(), "L {window}");
        for place in borders().into_iter().chain([l - 1, l, l + 1]) {
            if place < 512 {
                let [record] = lent(window, [0, place]);
                assert_eq!(record.is_lawful(), place < l, "L {window}, bit {place}");
                let [alone] = lent(window, [place]);
                assert_eq!(alone.is_lawful(), place == 0, "L {window}, bit {place}");
            }
        }
    }
}

#[test]
fn a_whole_window_that_came() {
    for window in WINDOWS {
        let l = usize::from(window);
        for d in borders().into_iter().filter(|&d| d > 0 && d < l) {
            let mut table = lent(window, 0..l);
            assert_eq!(arrive(&mut table, at(d as i32)), "up");
            // Nothing is lost, and the d - 1 between them have not come.
            assert_eq!(table[0].lost, 0);
            assert_eq!(table[0].history, marked([0].into_iter().chain(d..l)));
        }
    }
}

#[test]
fn a_window_that_holds_the_wrap() {
    for first in [65535, 0, 100, 511] {
        let mut table = [fresh(Stream::VECTOR, 512, 3)];
        assert_eq!(arrive(&mut table, first), "up");
        // The oldest place and the one behind it are across the wrap.
        assert_eq!(arrive(&mut table, first.wrapping_sub(511)), "up");
        assert_eq!(arrive(&mut table, first.wrapping_sub(511)), "duplicate");
        assert_eq!(arrive(&mut table, first.wrapping_sub(512)), "rogue");
        assert_eq!(places(&table[0].history), [0, 511]);
        assert_eq!(arrive(&mut table, first.wrapping_add(511)), "up");
        assert_eq!(places(&table[0].history), [0, 511]);
        assert_eq!(arrive(&mut table, first), "duplicate");
        assert_eq!(arrive(&mut table, first.wrapping_sub(1)), "rogue");
        assert_eq!((table[0].lost, table[0].early), (0, 0));
    }
}

#[test]
fn numbers_older_than_the_first_in_a_wide_window() {
    for window in [64, 65, 128, 256, 511, 512] {
        let most = window - 1;
        // All places in one move, and then a window of which one number came.
        let mut table = [fresh(Stream::VECTOR, window, 3)];
        assert_eq!(arrive(&mut table, 100), "up");
        assert_eq!((table[0].early, table[0].lost), (most, 0));
        assert_eq!(arrive(&mut table, 100 + most), "up");
        assert_eq!((table[0].early, table[0].lost), (0, 0));
        assert_eq!(arrive(&mut table, 100 + 2 * most), "up");
        assert_eq!(
            (table[0].early, table[0].lost),
            (0, u64::from(most) - 1),
            "L {window}"
        );
        // In two moves, the first of any length.
        for d in borders() {
            let d = d as u16;
            if d == 0 || d >= most {
                continue;
            }
            let mut table = [fresh(Stream::VECTOR, window, 3)];
            assert_eq!(arrive(&mut table, 100), "up");
            assert_eq!(arrive(&mut table, 100 + d), "up");
            assert_eq!((table[0].early, table[0].lost), (most - d, 0));
            assert!(table[0].is_lawful());
            assert_eq!(arrive(&mut table, 100 + most), "up");
            assert_eq!((table[0].early, table[0].lost), (0, 0));
            assert!(table[0].is_lawful());
            assert_eq!(arrive(&mut table, 101 + most), "up");
            assert_eq!((table[0].early, table[0].lost), (0, 0));
            assert_eq!(arrive(&mut table, 102 + most), "up");
            assert_eq!(table[0].lost, u64::from(d != 1));
        }
        // Every n with its bit, and with its bit alone missing.
        for early in 0..=most {
            let first = usize::from(most - early);
            let record = with_early(lent(window, [0, first])[0], early);
            assert!(record.is_lawful(), "L {window}, n {early}");
            let others = (0..usize::from(window)).filter(|&place| place != first);
            let record = with_early(lent(window, others)[0], early);
            let damaged = early > 0;
            assert_eq!(record.is_lawful(), !damaged && first != 0);
        }
        let record = with_early(lent(window, 0..usize::from(window))[0], window);
        assert!(!record.is_lawful());
    }
}

#[test]
fn resets_close_and_open_with_bits_in_all_words() {
    let by_call = |table: &mut [Stream]| assert_eq!(reset(table, 0), Ok(()));
    let by_tick = |table: &mut [Stream]| (0..3).for_each(|_| assert!(tick(table).is_ok()));
    for way in [&by_call as &dyn Fn(&mut [Stream]), &by_tick] {
        let mut table = lent(512, 0..512);
        way(&mut table);
        let expected = Stream {
            resets: 1,
            ..fresh(Stream::VECTOR, 512, 3)
        };
        assert_eq!(table, [expected]);
        assert_eq!(arrive(&mut table, 5), "up");
        assert_eq!(places(&table[0].history), [0]);
    }
    let mut table = lent(512, (0..512).step_by(3));
    let [used] = table;
    assert_eq!(close(&mut table, 0), Ok(()));
    assert_eq!(table, [Stream { in_use: 0, ..used }]);
    let settings = settings(Stream::MATCH, 512, 9);
    assert_eq!(open(&mut table, settings), Ok(0));
    assert_eq!(table, [fresh(Stream::MATCH, 512, 9)]);
}

#[test]
fn the_match_rule_takes_wide_windows_and_leaves_them_unused() {
    for window in [65, 512] {
        let mut table = [fresh(Stream::MATCH, window, 3)];
        for number in [7, 8, 7, 600, 33_000] {
            assert_eq!(arrive(&mut table, number), "up");
        }
        assert_eq!(arrive(&mut table, 33_000), "duplicate");
        assert_eq!((table[0].history, table[0].early), ([0; 8], 0));
        assert_eq!((table[0].lost, table[0].rogue), (0, 0));
    }
}
