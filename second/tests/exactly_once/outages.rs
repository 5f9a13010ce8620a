//! Outages: more frames in a row are lost on both networks than m allows for.

use std::collections::HashSet;

use second::random::Random;

use crate::line::*;
use crate::maker::{any_first, Maker};
use crate::prp::Lines;
use crate::run::{enough, Call, Did, Run};

/// A run with outages of any length. The numbers do not come round: R ticks and
/// J last for at most 65536 - L frames, and often for just so many.
fn run_with_outages(seed: u64) -> Run {
    let random = &mut Random::new(seed);
    let behind = random.between(0, 9);
    let mut line = Line::any(random, behind);
    let spread = line.spread();
    // Bursts of so many frames in one instant, so far apart.
    let burst = random.pick(&[1, 1, 4]);
    let apart = burst * line.spacing;
    let most_within = |span: i64| (span / apart + 1) * burst - 1;
    let window = random.pick(&[least_window, traffic_window]);
    let window = window(most_within(spread), line.losses);
    let mut time = least_time(spread, line.ticks.0);
    if random.chance(2, 3) {
        // The longest ticks with which the third formula holds, or shorter ones.
        time = random.between(2, 6);
        let longest = (ROUND - window + 1) / burst * apart - 1;
        let most = (longest - spread) / time / random.pick(&[1, 1, 2]);
        line.ticks = (random.pick(&[most, most / 4]), most);
        assert!(least_time(spread, line.ticks.0) <= time);
    }
    let most = most_within(silence(time, line.ticks.1, spread));
    assert!(most <= ROUND - window);
    let first = any_first(random);
    let mut maker = Maker::new("outages", seed, random, line, first);
    maker.at(i64::MIN, Call::Fresh);
    for _ in 0..12 {
        let from = maker.frames.len();
        for _ in 0..maker.random.between(1, 8) {
            maker.send((maker.next - first) / burst * apart);
        }
        maker.networks(from, line.losses);
        let random = &mut *maker.random;
        let (near, any) = (random.between(1, 3 * window), random.between(1, 2 * ROUND));
        let lost = match random.below(8) {
            0..=2 => near,
            3 => most - near % 9,
            4 => most + near,
            5 => ROUND - near,
            6 => ROUND + near,
            _ => any,
        };
        // Where ticks are short, a long outage only has more of them.
        maker.skip(lost.clamp(1, 60 * most + 60));
    }
    maker.ticks(0);
    maker.run(window, time)
}

/// Outages of any length, as long as the numbers do not come round.
pub fn by_index(lines: Lines) {
    let (mut up, mut rogue, mut resets) = (0, 0, 0);
    for seed in 0..1000 {
        let run = run_with_outages(seed).over(lines);
        let expected = run.by_index();
        let stream = run.does_as(&expected, |_| true);
        let mut seen = HashSet::new();
        for (call, did) in run.calls.iter().zip(&expected) {
            if let (Call::Copy(_, frame), Did::Up(_)) = (call, did) {
                assert!(seen.insert(*frame), "{}: frame {frame} twice", run.name);
            }
        }
        up += stream.passed;
        rogue += stream.rogue;
        resets += stream.resets;
    }
    enough([up, rogue, resets], [20_000, 8_000, 5_000]);
}

/// The third formula is sharp.
pub fn come_round(lines: Lines) {
    for seed in 0..300 {
        let random = &mut Random::new(seed);
        let behind = any_behind(random);
        let mut line = Line::any(random, behind);
        let window = random.pick(&[least_window, traffic_window])(behind, line.losses);
        let time = random.between(2, 9);
        // T is not below R, so that any count of frames can be met.
        let by = random.between(time, 20);
        line.spacing *= by;
        line.delays = line.delays.map(|(least, most)| (least * by, most * by));
        let spread = line.spread();
        let first = any_first(random);
        for more in [0, 1] {
            let count = ROUND - window + more;
            let tick = (count * line.spacing - spread + time - 1) / time;
            assert_eq!(silence(time, tick, spread) / line.spacing, count);
            assert!(least_time(spread, tick) <= time);
            line.ticks = (tick, tick);
            let mut maker = Maker::new("the numbers come round", seed, random, line, first);
            maker.at(i64::MIN, Call::Fresh);
            let old = maker.send(0);
            let then = line.slow().1;
            maker.at(then, Call::Tick);
            maker.slow(old);
            maker.skip(count - 1);
            let new = maker.send(count * line.spacing);
            (1..time).for_each(|ticks| maker.at(then + ticks * tick, Call::Tick));
            maker.fast(new);
            maker.at(then + time * tick, Call::Tick);
            let run = maker.run(window, time).over(lines);
            let expected = run.by_index();
            if more == 0 {
                run.does_as(&expected, |_| true);
            }
            // One further it is taken for a late one.
            let did = match more {
                0 => Did::Rogue,
                _ => Did::Up(run.frames[new].bare.clone()),
            };
            run.becomes(new, window, time, &[did]);
        }
    }
}

/// Behind the reset by tick the larger L is enough again.
pub fn behind_the_reset(lines: Lines) {
    let mut rogues = 0;
    for seed in 0..600 {
        let random = &mut Random::new(seed);
        let behind = any_behind(random);
        let line = Line::any(random, behind);
        let time = least_time(line.spread(), line.ticks.0);
        let window = traffic_window(behind, line.losses);
        let first = any_first(random);
        let mut maker = Maker::new("behind an outage", seed, random, line, first);
        maker.at(i64::MIN, Call::Fresh);
        let lost = window + maker.random.between(0, window);
        let mut now = 0;
        let count = 5 + (silence(time, line.ticks.1, line.spread()) / line.spacing) as usize;
        for (frames, lost) in [(5, lost), (count.min(900), 0)] {
            let from = maker.frames.len();
            for _ in 0..frames {
                maker.send(now);
                now += line.spacing;
            }
            maker.networks(from, line.losses);
            maker.skip(lost);
            now += lost * line.spacing;
        }
        maker.ticks(0);
        let run = maker.run(window, time).over(lines);
        let expected = run.by_index();
        let stream = run.does_as(&expected, |_| true);
        rogues += stream.rogue;
        // A rogue comes before the reset only: none behind a hand-up.
        let mut newer = false;
        for (call, did) in run.calls.iter().zip(&expected) {
            if let Call::Copy(_, frame) = call {
                newer |= *frame >= 5 && matches!(did, Did::Up(_));
                assert!(!newer || *did != Did::Rogue, "{}: {call:?}", run.name);
            }
        }
    }
    enough([rogues], [2_000]);
}
