//! A sender that begins its count anew.

use second::random::Random;

use crate::line::*;
use crate::maker::Maker;
use crate::prp::Lines;
use crate::run::{enough, Call, Did};

/// Where the old count of a sender ends: near the new one, or anywhere.
fn any_last(random: &mut Random, window: i64) -> i64 {
    match random.below(3) {
        0 => ROUND + random.between(-window, window),
        1 => ROUND - 1,
        _ => ROUND + random.between(0, ROUND - 1),
    }
}

/// A sender that was silent long enough: each of its new frames comes once.
pub fn after_a_silence(lines: Lines) {
    let mut outages = 0;
    for seed in 0..1500 {
        let random = &mut Random::new(seed);
        let behind = any_behind(random) % 60;
        let line = Line::any(random, behind);
        let spread = line.spread();
        let time = least_time(spread, line.ticks.0);
        let bursts = random.chance(1, 3);
        let [olds, news] = [0; 2].map(|_| 5 + random.below(30 + 2 * behind as u64) as usize);
        let old = any_times(random, &line, olds, bursts, 0);
        // Just more than the silence, or well more.
        let more = random.pick(&[1, 1, 1, 500]);
        let from = old[olds - 1] + silence(time, line.ticks.1, spread) + more;
        let new = any_times(random, &line, news, bursts, from);
        let behind = match bursts {
            true => most_within(&old, spread).max(most_within(&new, spread)),
            false => behind,
        };
        let window = least_window(behind, line.losses);
        let first = any_last(random, window) - (olds as i64 - 1);
        let mut maker = Maker::new("restart", seed, random, line, first);
        maker.at(i64::MIN, Call::Fresh);
        for time in old {
            maker.send(time);
        }
        // The old count may end in an outage.
        let outage = maker.random.chance(1, 2);
        maker.networks(0, if outage { 2 * window } else { line.losses });
        maker.restart();
        for time in new {
            maker.send(time);
        }
        maker.networks(olds, line.losses);
        maker.ticks(0);
        let run = maker.run(window, time).over(lines);
        let new = |call| matches!(call, Call::Copy(_, frame) if frame >= olds);
        run.does_as(&run.once_each(), |call| !outage || new(call));
        outages += u64::from(outage);
    }
    enough([outages], [500]);
}

/// The silence cannot be shorter.
pub fn shorter_silence(lines: Lines) {
    for seed in 0..600 {
        let random = &mut Random::new(seed);
        let (mut line, behind, _) = worst_line(random);
        let tick = line.ticks.0;
        line.ticks = (tick, tick);
        let spread = line.spread();
        let (window, time) = (least_window(behind, line.losses), least_time(spread, tick));
        // The new number is far from the old one, or the old count has it too.
        let near = random.chance(1, 2);
        let last = match near {
            true => random.between(0, window.min(6) - 1),
            false => random.between(window, ROUND - window),
        };
        let first = if near { 0 } else { last };
        for more in [0, 1] {
            let mut maker = Maker::new("worst silence", seed, random, line, first);
            maker.at(i64::MIN, Call::Fresh);
            // From first to last, and the last comes as late as it can.
            for index in first..last {
                let frame = maker.send((index - last) * line.spacing);
                maker.fast(frame);
            }
            let old = maker.send(0);
            let then = line.slow().1;
            maker.at(then, Call::Tick);
            maker.slow(old);
            maker.restart();
            let new = maker.send(silence(time, tick, spread) + more);
            (1..time).for_each(|ticks| maker.at(then + ticks * tick, Call::Tick));
            maker.fast(new);
            maker.at(then + time * tick, Call::Tick);
            let run = maker.run(window, time).over(lines);
            let did = match (more, near) {
                (0, true) => Did::Duplicate,
                (0, false) => Did::Rogue,
                _ => Did::Up(run.frames[new].bare.clone()),
            };
            run.becomes(new, window, time, &[did]);
        }
    }
}
