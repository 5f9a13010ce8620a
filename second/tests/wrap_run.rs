//! "A run at the wrap": steps a to l.

mod common;

use common::*;
use second::{arrival, tick, Stream, Ticked};

#[test]
fn steps_a_to_i_with_totals() {
    let steps = [
        ("a", 65534, "up", 0b0001, 3),
        ("b", 65535, "up", 0b0011, 2),
        ("c", 65534, "duplicate", 0b0011, 2),
        ("d", 1, "up", 0b1101, 0),
        ("e", 0, "up", 0b1111, 0),
        ("f", 5, "rogue", 0b1111, 0),
        ("g", 65533, "rogue", 0b1111, 0),
        ("h", 65534, "duplicate", 0b1111, 0),
        ("i", 4, "up", 0b1001, 0),
    ];
    let mut table = [fresh(Stream::VECTOR, 4, 9)];
    let mut output = [0; Stream::MAX_FRAME];
    for (place, (step, number, verdict, history, early)) in steps.into_iter().enumerate() {
        // The networks take turns, so that both arrival counters are seen.
        let network = (place % 2) as u8;
        let a = arrival(&mut table, network, &tagged(number), &mut output).unwrap();
        assert_eq!(word(a), verdict, "step {step}");
        assert_eq!((a.slot, a.number), (0, number), "step {step}");
        assert_eq!(table[0].history, low(history), "step {step}");
        assert_eq!(table[0].early, early, "step {step}");
        // Order 4: throughout.
        assert_eq!(table[0].lost, 0, "step {step}");
    }
    let expected = Stream {
        take_any: 0,
        anchor: 4,
        history: low(0b1001),
        remaining: 9,
        arrivals: [5, 4],
        passed: 5,
        discarded: 2,
        rogue: 2,
        out_of_order: 3,
        lost: 0,
        resets: 0,
        ..fresh(Stream::VECTOR, 4, 9)
    };
    assert_eq!(table[0], expected);
}

#[test]
fn step_j_half_the_circle_away_is_rogue() {
    let mut table = [running(Stream::VECTOR, 4, 9, 0, 1)];
    assert_eq!(arrive(&mut table, 32768), "rogue");
    assert_eq!(
        (table[0].rogue, table[0].anchor, table[0].history),
        (1, 0, low(1))
    );
}

#[test]
fn step_k_match() {
    let mut table = [running(Stream::MATCH, 4, 9, 9, 0)];
    assert_eq!(arrive(&mut table, 9), "duplicate");
    assert_eq!(table[0].discarded, 1);
    assert_eq!(table[0].out_of_order, 0);
    assert_eq!(arrive(&mut table, 8), "up");
    assert_eq!(table[0].out_of_order, 1);
    assert_eq!(
        (table[0].anchor, table[0].history, table[0].rogue),
        (8, low(0), 0)
    );
}

#[test]
fn step_l_the_last_tick_resets() {
    let mut table = [Stream {
        remaining: 1,
        ..running(Stream::VECTOR, 4, 9, 7, 0b1011)
    }];
    assert_eq!(
        tick(&mut table),
        Ok(Ticked {
            reset: 1,
            damaged: 0
        })
    );
    let expected = Stream {
        resets: 1,
        ..fresh(Stream::VECTOR, 4, 9)
    };
    assert_eq!(table[0], expected);
}
