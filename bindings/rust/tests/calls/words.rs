//! Windows of more than one word (document 02, order 5): what the calls make of a history, held to a history place by place.

use super::{running, settings, tagged, FRESH};
use nippitsun::{Receiver, Refusal, Settings, State, Stream, Ticked, Verdict};

fn mark(history: &mut [u64; Stream::HISTORY_WORDS], place: usize) {
    history[place / 64] |= 1 << (place % 64);
}

fn of_window(window: u16) -> Settings {
    Settings {
        window,
        time: 9,
        ..settings(0)
    }
}

/// A stream, and beside it what came: one value for each place of the window, moved one place at a time.
struct Beside {
    receiver: Receiver,
    came: Vec<bool>,
    early: usize,
    lost: u64,
}

impl Beside {
    fn new(window: u16, first: u16) -> Beside {
        let mut receiver = Receiver::new(1);
        assert_eq!(receiver.open(of_window(window)), Ok(0));
        let a = receiver
            .arrival(0, &tagged(60, first), &mut [0; 60])
            .unwrap();
        assert_eq!(a.verdict, Verdict::HandedUp { length: 54 });
        let mut came = vec![false; window as usize];
        came[0] = true;
        let early = came.len() - 1;
        assert_eq!(receiver.records()[0].state.early as usize, early);
        Beside {
            receiver,
            came,
            early,
            lost: 0,
        }
    }

    fn state(&self) -> &State {
        &self.receiver.records()[0].state
    }

    /// The number that is d from the anchor arrives.
    fn arrives(&mut self, d: i32) -> Verdict {
        let window = self.came.len() as i32;
        let mut anchor = self.state().anchor;
        let number = anchor.wrapping_add(d as u16);
        let mut want = Verdict::HandedUp { length: 54 };
        if d.abs() >= window {
            want = Verdict::Rogue;
        } else if d <= 0 {
            if std::mem::replace(&mut self.came[-d as usize], true) {
                want = Verdict::Duplicate;
            }
        } else {
            for _ in 0..d {
                let left = self.came.pop().unwrap();
                self.came.insert(0, false);
                if self.early > 0 {
                    self.early -= 1;
                } else {
                    self.lost += u64::from(!left);
                }
            }
            self.came[0] = true;
            anchor = number;
        }
        let a = self
            .receiver
            .arrival(0, &tagged(60, number), &mut [0; 60])
            .unwrap();
        assert_eq!((a.verdict, a.number), (want, number));
        let mut history = [0; Stream::HISTORY_WORDS];
        for (place, _) in self.came.iter().enumerate().filter(|(_, &came)| came) {
            mark(&mut history, place);
        }
        let state = State {
            history,
            anchor,
            remaining: 9,
            early: self.early as u16,
            any: 0,
        };
        assert_eq!(*self.state(), state, "L = {}, d = {}", window, d);
        assert_eq!(self.receiver.counts(0).unwrap().lost, self.lost);
        want
    }
}

#[test]
fn every_window_has_its_places() {
    let ds = [
        1, -1, 0, 63, -64, -63, 64, -65, -63, 65, -127, -128, 2, 127, -126, 128, -64, -447, -448,
        -449, 447, -510, 448, -511, -512, 511, -511, -510, 512, -512, 510, 1, -510, -511, 1, -64,
        -128, 63, 1, 64, -256, 256, -32768,
    ];
    for window in [2, 64, 65, 127, 128, 511, 512] {
        // At the wrap, and across it.
        for first in [0, 65024, 65100, 65535] {
            let mut b = Beside::new(window, first);
            let last = window as i32 - 1;
            for d in ds {
                b.arrives(d);
                b.arrives(-last);
                b.arrives(if d % 2 == 0 { last + 1 } else { -last - 1 });
            }
            // As many as leave nothing of what was before.
            for d in [last, 1, last - 1, 1, 1, last] {
                b.arrives(d);
            }
        }
    }
}

#[test]
fn a_window_is_at_most_512() {
    for (window, taken) in [
        (0, false),
        (1, false),
        (2, true),
        (64, true),
        (65, true),
        (255, true),
        (256, true),
        (512, true),
        (513, false),
        (514, false),
        (65535, false),
    ] {
        let want = if taken { Ok(0) } else { Err(Refusal::Setting) };
        assert_eq!(Receiver::new(1).open(of_window(window)), want, "{}", window);
    }
    assert_eq!(Stream::WINDOW_MOST, 512);
}

#[test]
fn a_bit_moves_across_every_border() {
    for border in (64..512).step_by(64) {
        let mut b = Beside::new(512, 65500);
        b.arrives(border as i32 - 1);
        assert_eq!(b.state().history[border / 64 - 1] >> 63, 1);
        b.arrives(1);
        assert_eq!(b.state().history[border / 64 - 1] >> 63, 0);
        assert_eq!(b.state().history[border / 64], 1);
    }
}

#[test]
fn the_largest_window_from_end_to_end() {
    let mut b = Beside::new(512, 65400);
    b.arrives(511);
    assert_eq!(b.state().history, [1, 0, 0, 0, 0, 0, 0, 1 << 63]);
    assert_eq!(b.arrives(-511), Verdict::Duplicate);
    assert_eq!(b.arrives(-512), Verdict::Rogue);
    assert_eq!(b.arrives(512), Verdict::Rogue);
    assert_eq!(b.arrives(-510), Verdict::HandedUp { length: 54 });
    // The first leaves, and the one behind it, which came late; the next one never came.
    b.arrives(1);
    b.arrives(1);
    assert_eq!(b.lost, 0);
    b.arrives(1);
    assert_eq!(b.lost, 1);
}

#[test]
fn a_bit_beyond_the_window_is_damage() {
    for window in [2, 4, 63, 64, 65, 127, 128, 448, 511, 512] {
        for place in 0..512 {
            let mut s = running();
            s.window = window;
            s.state.history = [1, 0, 0, 0, 0, 0, 0, 0];
            mark(&mut s.state.history, place);
            let lawful = place < window as usize;
            let mut r = Receiver::from_records(vec![s]);
            let damaged = u64::from(!lawful);
            assert_eq!(r.tick(), Ok(Ticked { resets: 0, damaged }));
            let arrives = r.arrival(0, &tagged(60, 101), &mut [0; 60]);
            assert_eq!(arrives.err(), (!lawful).then(|| Refusal::Damaged));
            assert_eq!(r.reset(0), Ok(()));
            assert_eq!(r.records()[0].state, FRESH);
        }
    }
}

/// A fresh record, and one with the match rule, has no bit in any word.
#[test]
fn an_empty_history_is_empty_in_every_word() {
    for place in 0..512 {
        let mut fresh = running();
        fresh.state = FRESH;
        let mut match_rule = running();
        match_rule.rule = Stream::MATCH_RULE;
        match_rule.state.history = [0; 8];
        for mut s in [fresh, match_rule] {
            s.window = 512;
            let mut r = Receiver::from_records(vec![s]);
            assert_eq!(r.tick().unwrap().damaged, 0);
            mark(&mut r.records_mut()[0].state.history, place);
            assert_eq!(r.tick().unwrap().damaged, 1);
        }
    }
}

/// At most L - 1 places for older numbers, and the first stands next to them, in whichever word.
#[test]
fn places_for_older_numbers_in_every_word() {
    for window in [65, 128, 511, 512] {
        for early in (0..=window).chain([513, 65535]) {
            for first in [0, 63, 64, 127, 255, 256, 447, 448, 510] {
                let mut s = running();
                s.window = window;
                s.state.early = early;
                s.state.history = [1, 0, 0, 0, 0, 0, 0, 0];
                if first < window as usize {
                    mark(&mut s.state.history, first);
                }
                let place = (window as usize - 1).checked_sub(early as usize);
                let lawful = early == 0 || place.map_or(false, |p| p == 0 || p == first);
                let mut r = Receiver::from_records(vec![s]);
                assert_eq!(r.tick().unwrap().damaged, u64::from(!lawful));
            }
        }
    }
}
