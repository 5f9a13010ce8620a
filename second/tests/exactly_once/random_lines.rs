//! Random lines: with L and R by the formulas each frame of which a copy comes is
//! handed up once.

use std::ops::Range;

use second::random::Random;
use second::Stream;

use crate::line::*;
use crate::maker::{any_first, Maker};
use crate::prp::Lines;
use crate::run::{enough, Call, Run};

/// A run of the line as the page has it. `traffic`: the stream is opened, or
/// reset by call, in its middle, up to three times.
fn any_run(seed: u64, traffic: bool) -> Run {
    let random = &mut Random::new(seed);
    let behind = any_behind(random);
    let line = Line::any(random, behind);
    let spread = line.spread();
    let bursts = behind < 100 && random.chance(1, 3);
    let count = 10 + random.below(40 + 3 * behind as u64) as usize;
    let times = any_times(random, &line, count, bursts, 0);
    let behind = if bursts {
        most_within(&times, spread)
    } else {
        line.behind()
    };
    let first = any_first(random);
    let name = if traffic {
        "in traffic"
    } else {
        "from the start"
    };
    let mut maker = Maker::new(name, seed, random, line, first);
    for &time in &times {
        maker.send(time);
    }
    maker.networks(0, line.losses);
    maker.ticks(0);
    let window = if traffic {
        let end = times[count - 1] + line.slow().1;
        for _ in 0..maker.random.between(1, 3) {
            let time = maker.random.between(0, end);
            let order = maker.random.below(1 << 32);
            maker.calls.push((time, order, Call::Fresh));
        }
        traffic_window(behind, line.losses)
    } else {
        maker.calls.push((-1, 0, Call::Fresh));
        least_window(behind, line.losses)
    };
    maker.run(window, least_time(spread, line.ticks.0))
}

/// Random runs hold with L and R. Answers what they met: passed, discarded, out
/// of order, resets, and how many go wrong with L - 1 and with R - 1.
fn random_runs(lines: Lines, seeds: Range<u64>, traffic: bool) -> [u64; 6] {
    let mut met = [0; 6];
    for seed in seeds {
        let run = any_run(seed, traffic).over(lines);
        let stream = run.does_as(&run.once_each(), |_| true);
        let mut less = [false; 2];
        if seed % 4 == 0 {
            less[0] = run.window > 2 && run.goes_wrong(run.window - 1, run.time);
            less[1] = run.goes_wrong(run.window, run.time - 1);
        }
        let [less_window, less_time] = less.map(u64::from);
        let Stream {
            passed,
            discarded,
            out_of_order,
            resets,
            ..
        } = stream;
        let here = [
            passed,
            discarded,
            out_of_order,
            resets,
            less_window,
            less_time,
        ];
        met.iter_mut()
            .zip(here)
            .for_each(|(met, here)| *met += here);
    }
    met
}

/// With the smaller L.
pub fn from_the_start(lines: Lines) {
    let met = random_runs(lines, 0..3000, false);
    enough(met, [100_000, 80_000, 30_000, 12_000, 25, 250]);
}

/// With the larger L.
pub fn in_traffic(lines: Lines) {
    let met = random_runs(lines, 0..3000, true);
    enough(met, [50_000, 40_000, 20_000, 8_000, 5, 200]);
}

/// The record of a run over PRP is that of the same run with tags. Only arrivals
/// are counted by LAN, whatever card they came on. Every sort of line is met.
pub fn same_record() {
    // By the kind of trailer, the cables, and whether the key has a VLAN id.
    let mut met = [[[0; 2]; 3]; 2];
    for seed in 0..600 {
        let tags = any_run(seed, false);
        let over = any_run(seed, false).over(Lines::Prp);
        let prp = over.prp.unwrap();
        let mut arrivals = [0; 2];
        for call in &over.calls {
            if let Call::Copy(card, frame) = *call {
                arrivals[usize::from(prp.network(card, frame))] += 1;
            }
        }
        let expected = Stream {
            arrivals,
            ..tags.does_as(&tags.once_each(), |_| true)
        };
        let stream = over.does_as(&over.once_each(), |_| true);
        assert_eq!(stream, expected, "{}", over.name);
        let [of_2012, vlan] = [prp.setting != 0, over.vlan != 0].map(usize::from);
        met[of_2012][prp.cables as usize][vlan] += 1;
    }
    let all = met.iter().flatten().flatten().all(|&met| met >= 20);
    assert!(all, "{met:?}");
}
