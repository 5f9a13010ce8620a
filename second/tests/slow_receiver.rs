//! The vector rule against a slow receiver with unlimited memory.
//!
//! The slow receiver is given the true index of each frame, not the number, and
//! keeps every index that it handed up. So it needs no wrap, no history bits
//! and no anchor. The two must agree as long as each arrival after the first is
//! at most 65536 - L away from the highest index handed up; the number is the
//! index modulo 65536.

mod common;

use std::collections::{BTreeSet, HashSet};

use common::*;
use second::random::Random;
use second::{arrival, reset, tick, Stream};

struct Slow {
    window: i64,
    first: i64,
    highest: i64,
    seen: BTreeSet<i64>,
    discarded: u64,
    rogue: u64,
    out_of_order: u64,
}

impl Slow {
    fn new(window: i64, first: i64) -> Slow {
        Slow {
            window,
            first,
            highest: first,
            seen: BTreeSet::from([first]),
            discarded: 0,
            rogue: 0,
            out_of_order: 0,
        }
    }

    fn arrive(&mut self, index: i64) -> &'static str {
        if (index - self.highest).abs() >= self.window {
            self.rogue += 1;
            return "rogue";
        }
        if !self.seen.insert(index) {
            self.discarded += 1;
            return "duplicate";
        }
        if index != self.highest + 1 {
            self.out_of_order += 1;
        }
        self.highest = self.highest.max(index);
        "up"
    }

    /// Indices after the first one that the window has left behind and that
    /// were never handed up. Those before the first are no loss (order 4).
    fn lost(&self) -> u64 {
        let to = self.highest - self.window;
        if to <= self.first {
            return 0;
        }
        let handed_up = self.seen.range(self.first + 1..=to).count() as u64;
        (to - self.first) as u64 - handed_up
    }

    /// Indices in the window that are older than the first one.
    fn early(&self) -> u16 {
        let from = self.highest - (self.window - 1);
        (from..self.first).count() as u16
    }

    /// The places of the window, counted back from the highest index.
    fn history(&self) -> Vec<usize> {
        let window = self.seen.range(self.highest - self.window + 1..);
        window.rev().map(|i| (self.highest - i) as usize).collect()
    }
}

fn compare(table: &[Stream], slow: &Slow) {
    let stream = table[0];
    assert_eq!(stream.anchor, number(slow.highest));
    assert_eq!(places(&stream.history), slow.history());
    assert_eq!(stream.early, slow.early());
    assert_eq!(stream.passed, slow.seen.len() as u64);
    assert_eq!(stream.discarded, slow.discarded);
    assert_eq!(stream.rogue, slow.rogue);
    assert_eq!(stream.out_of_order, slow.out_of_order);
    assert_eq!(stream.arrivals[1], 0);
    assert_eq!(
        stream.arrivals[0],
        stream.passed + stream.discarded + stream.rogue
    );
    assert!(stream.is_lawful());
}

/// How far the next index is from the highest one.
fn distance(random: &mut Random, window: i64) -> i64 {
    let far = 65536 - window;
    match random.below(16) {
        0..=5 => 1,
        6..=7 => -random.between(0, window - 1),
        8..=10 => random.between(1, window - 1),
        11 => random.between(1 - window, window - 1),
        12 => random.pick(&[window - 1, 1 - window, window, -window]),
        13 => random.pick(&[far, -far, far - 1, 1 - far]),
        14 => random.pick(&[32767, -32767, 32768, -32768, 32769, -32769, 64, -64]),
        _ => random.between(-far, far),
    }
}

/// Every fourth one is at an end of its range.
fn any_window(random: &mut Random, run: u32) -> i64 {
    match run % 4 {
        0 => random.pick(&[2, 3, 4, 63, 64]),
        1 => random.pick(&[65, 127, 128, 129, 255, 256, 511, 512]),
        2 => random.between(65, 512),
        _ => random.between(2, 64),
    }
}

/// Around a wrap at the start of the run, or anywhere.
fn any_first(random: &mut Random) -> i64 {
    match random.below(3) {
        0 => random.between(65500, 65540),
        1 => random.between(-3, 3),
        _ => random.between(0, 1_000_000),
    }
}

#[test]
fn random_runs_agree() {
    let mut random = Random::new(21);
    let mut up = 0;
    let mut other = 0;
    for run in 0..300 {
        let window = any_window(&mut random, run);
        let mut table = [fresh(Stream::VECTOR, window as u16, 3)];
        let first = any_first(&mut random);
        assert_eq!(arrive(&mut table, number(first)), "up");
        let mut slow = Slow::new(window, first);
        for step in 0..2000 {
            let index = slow.highest + distance(&mut random, window);
            assert!((index - slow.highest).abs() <= 65536 - window);
            let old_highest = slow.highest;
            let verdict = slow.arrive(index);
            assert_eq!(
                arrive(&mut table, number(index)),
                verdict,
                "L {window}, highest {old_highest}, index {index}"
            );
            if verdict == "up" {
                up += 1;
            } else {
                other += 1;
            }
            compare(&table, &slow);
            if step % 100 == 0 {
                assert_eq!(table[0].lost, slow.lost());
            }
        }
        assert_eq!(table[0].lost, slow.lost());
    }
    assert!(up > 100_000 && other > 50_000);
}

#[test]
fn lost_since_each_reset() {
    // Order 4, said without n: since the fresh state lost has risen, modulo
    // 2^64, by the indices after the first and at most highest - L that were
    // never handed up. Those that the counter had before stay in it.
    let mut random = Random::new(24);
    let (mut rises, mut wraps) = (0, 0);
    for run in 0..200 {
        let window = any_window(&mut random, run);
        let mut table = [fresh(Stream::VECTOR, window as u16, 3)];
        table[0].lost = random.pick(&[0, 5, u64::MAX, u64::MAX - 20]);
        for _ in 0..4 {
            let before = table[0].lost;
            let first = any_first(&mut random);
            assert_eq!(arrive(&mut table, number(first)), "up");
            let mut slow = Slow::new(window, first);
            for _ in 0..random.below(60) {
                let index = slow.highest + distance(&mut random, window);
                let verdict = slow.arrive(index);
                assert_eq!(arrive(&mut table, number(index)), verdict);
                assert_eq!(table[0].lost, before.wrapping_add(slow.lost()));
                assert_eq!(table[0].early, slow.early());
            }
            rises += u32::from(table[0].lost != before);
            wraps += u32::from(table[0].lost < before);
            match random.below(2) {
                0 => assert_eq!(reset(&mut table, 0), Ok(())),
                _ => (0..3).for_each(|_| assert_eq!(tick(&mut table).unwrap().damaged, 0)),
            }
            assert!(table[0].takes_any());
        }
    }
    assert!(rises > 300 && wraps > 50, "{rises} {wraps}");
}

#[test]
fn two_networks_with_loss_delay_and_wraps() {
    // As in use: a sender's indices come over two networks that lose and delay
    // frames. The run is long enough to wrap several times.
    let mut random = Random::new(22);
    for window in [2, 8, 64, 65, 512] {
        let mut table = [fresh(Stream::VECTOR, window as u16, 3)];
        let mut output = [0; 100];
        let mut slow: Option<Slow> = None;
        let (mut up, mut wraps) = (0u64, 0);
        let mut next = [0i64; 2];
        while next[0] < 200_000 {
            let network = if (next[1] - next[0]).abs() > window * 2 {
                // The one behind catches up.
                usize::from(next[1] < next[0])
            } else {
                random.below(2) as usize
            };
            let index = next[network];
            next[network] += 1;
            // With L = 2 one loss in front closes the window for good, since
            // no tick resets the stream here. So nothing is lost then.
            if window > 2 && random.chance(1, 50) {
                continue;
            }
            let frame = tagged(number(index));
            let a = arrival(&mut table, network as u8, &frame, &mut output).unwrap();
            let verdict = match &mut slow {
                None => {
                    slow = Some(Slow::new(window, index));
                    "up"
                }
                Some(slow) => {
                    let before = slow.highest;
                    assert!((index - before).abs() <= 65536 - window);
                    let verdict = slow.arrive(index);
                    wraps += i32::from(before >> 16 != slow.highest >> 16);
                    verdict
                }
            };
            assert_eq!(word(a), verdict);
            up += u64::from(verdict == "up");
        }
        let slow = slow.unwrap();
        assert!(wraps >= 3);
        assert_eq!(table[0].passed, up);
        assert_eq!(table[0].lost, slow.lost());
    }
}

#[test]
fn no_index_is_handed_up_twice() {
    // The slow receiver's own promise, said without its rules: the list of
    // indices that the library handed up has no index twice.
    let mut random = Random::new(23);
    for window in [2, 5, 64, 65, 512] {
        let mut table = [fresh(Stream::VECTOR, window as u16, 3)];
        let mut handed_up = HashSet::new();
        let mut highest: Option<i64> = None;
        for _ in 0..100_000 {
            let index = highest.map_or(65000, |h| h + distance(&mut random, window));
            if arrive(&mut table, number(index)) == "up" {
                assert!(handed_up.insert(index));
                highest = Some(highest.map_or(index, |h| h.max(index)));
            }
        }
        assert!(handed_up.len() > 20_000);
    }
}

#[test]
fn one_step_further_the_number_is_ambiguous() {
    // Why the premise is 65536 - L: one further on, the number falls into the
    // window from the other side, and no receiver could tell.
    let highest = 100;
    for window in [2, 4, 64, 65, 128, 512] {
        let index = highest + 65536 - (window - 1);
        let lent = running(Stream::VECTOR, window as u16, 3, number(highest), 1);
        let mut table = [lent];
        assert_eq!(arrive(&mut table, number(index)), "up");
        assert_eq!(table[0].anchor, number(highest));
        let mut table = [lent];
        assert_eq!(arrive(&mut table, number(index - 1)), "rogue");
    }
}
