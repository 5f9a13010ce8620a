//! Worst runs: they hold with L and R by the formulas, and go wrong with one less.

use second::random::Random;

use crate::line::*;
use crate::maker::{any_first, Maker};
use crate::prp::Lines;
use crate::run::{Call, Did};

/// Times at which a burst of so many frames is sent within J, beginning now,
/// and when the next frame may be sent so that no more lie within J.
fn burst(random: &mut Random, count: i64, spread: i64, now: i64) -> (Vec<i64>, i64) {
    let mut times: Vec<i64> = (1..count)
        .map(|_| now + random.between(0, spread))
        .collect();
    times.push(now);
    times.sort_unstable();
    let next = times.last().unwrap() + spread + 1;
    (times, next)
}

/// Times of sends: so many frames within J, then m that will be lost, then as
/// many within J as `behind` allows.
fn worst_times(
    random: &mut Random,
    line: &Line,
    before: i64,
    behind: i64,
    bursts: bool,
) -> Vec<i64> {
    if !bursts {
        let count = before + line.losses + behind + 1;
        return (0..count).map(|frame| frame * line.spacing).collect();
    }
    let (mut times, mut now) = burst(random, before, line.spread(), 0);
    for _ in 0..line.losses {
        times.push(now);
        now += line.spread() + 1;
    }
    times.extend(burst(random, behind + 1, line.spread(), now).0);
    assert!(most_within(&times, line.spread()) <= behind);
    times
}

/// The smaller L is just enough.
pub fn window(lines: Lines) {
    for seed in 0..600 {
        let random = &mut Random::new(seed);
        let (line, behind, bursts) = worst_line(random);
        let times = worst_times(random, &line, 1, behind, bursts);
        let first = any_first(random);
        let mut maker = Maker::new("worst for L", seed, random, line, first);
        maker.at(-1, Call::Fresh);
        for time in times {
            maker.send(time);
        }
        // The first comes; then m are lost; the last overtakes all between.
        let last = maker.frames.len() - 1;
        maker.fast(0);
        maker.fast(last);
        (last - behind as usize..last).for_each(|frame| maker.slow(frame));
        let window = least_window(behind, line.losses);
        let time = least_time(line.spread(), line.ticks.0);
        let run = maker.run(window, time).over(lines);
        run.does_as(&run.once_each(), |_| true);
        if window > 2 {
            run.becomes(last, window - 1, time, &[Did::Rogue]);
        }
    }
}

/// So is the larger L, for a stream that is opened or reset in traffic.
pub fn window_in_traffic(lines: Lines) {
    for seed in 0..900 {
        let random = &mut Random::new(seed);
        let (line, behind, bursts) = worst_line(random);
        let spread = line.spread();
        let window = traffic_window(behind, line.losses);
        let time = least_time(spread, line.ticks.0);
        let times = worst_times(random, &line, behind + 1, behind, bursts);
        let first = any_first(random);
        let mut maker = Maker::new("worst for L in traffic", seed, random, line, first);
        // Opened only then; open before; or reset then by the tick that follows
        // an outage.
        let way = seed % 3;
        let (_, least) = line.fast();
        let then = times[0] + line.slow().1;
        if way > 0 {
            maker.at(i64::MIN, Call::Fresh);
        }
        let mut old = 0;
        if way == 2 {
            let ticks = (time - 1) * line.ticks.0;
            let lost = window.max(ticks / line.spacing + 1);
            maker.send(times[0] - lost * line.spacing);
            maker.skip(lost - 1);
            maker.fast(0);
            (1..time).for_each(|left| maker.at(then - (time - left) * line.ticks.0, Call::Tick));
            old = 1;
        }
        for time in times {
            maker.send(time);
        }
        let last = maker.frames.len() - 1;
        let overtaken = behind as usize;
        // Those behind the first come before the stream is fresh, the first
        // then. m are lost, and the last overtakes all between.
        (old + 1..=old + overtaken).for_each(|frame| maker.fast(frame));
        maker.at(then, if way == 2 { Call::Tick } else { Call::Fresh });
        maker.slow(old);
        maker.fast(last);
        (last - overtaken..last).for_each(|frame| maker.slow(frame));
        assert!(maker.times[last] + least > then);
        let run = maker.run(window, time).over(lines);
        let expected = if way == 2 {
            run.by_index()
        } else {
            run.once_each()
        };
        run.does_as(&expected, |_| true);
        let up = Did::Up(run.frames[last].bare.clone());
        run.becomes(last, window, time, &[up]);
        if window > 2 {
            run.becomes(last, window - 1, time, &[Did::Rogue]);
        }
    }
}

/// So is R.
pub fn reset_time(lines: Lines) {
    for seed in 0..600 {
        let random = &mut Random::new(seed);
        let (line, behind, _) = worst_line(random);
        let (spread, tick) = (line.spread(), line.ticks.0);
        let first = any_first(random);
        let mut maker = Maker::new("worst for R", seed, random, line, first);
        maker.at(i64::MIN, Call::Fresh);
        // Some come before it, and their twins.
        for back in (1..maker.random.between(1, 4)).rev() {
            let frame = maker.send(-back * line.spacing);
            maker.fast(frame);
            maker.slow(frame);
        }
        let frame = maker.send(0);
        let (network, least) = line.fast();
        maker.at(least, Call::Copy(network, frame));
        for ticks in 0..=spread / tick {
            maker.at(least + ticks * tick, Call::Tick);
        }
        maker.slow(frame);
        let time = least_time(spread, tick);
        let run = maker
            .run(least_window(behind, line.losses), time)
            .over(lines);
        run.does_as(&run.once_each(), |_| true);
        let up = Did::Up(run.frames[frame].bare.clone());
        run.becomes(frame, run.window, time - 1, &[up.clone(), up]);
    }
}
