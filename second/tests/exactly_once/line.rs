//! What is known of a line, what docs/INTEGRATION.md makes of it, random lines
//! and random times of sends. Times are whole numbers of any unit.

use second::random::Random;

/// Indices between two frames with one number.
pub const ROUND: i64 = 65536;

/// The page's first formula, for a stream that is open before its sender sends.
/// `behind` is floor(J / T), or with bursts the most frames within J, less one.
pub fn least_window(behind: i64, losses: i64) -> i64 {
    behind + losses + 2
}

/// The first formula for a stream that is opened in the middle of traffic.
pub fn traffic_window(behind: i64, losses: i64) -> i64 {
    2 * behind + losses + 2
}

/// The second formula, where ticks are exact.
pub fn least_time(spread: i64, tick: i64) -> i64 {
    spread / tick + 2
}

/// A sender that restarts is silent for longer than this. The third formula has
/// this time too.
pub fn silence(time: i64, tick: i64, spread: i64) -> i64 {
    time * tick + spread
}

/// The most frames that are sent within this time, both ends counted, less one.
pub fn most_within(times: &[i64], span: i64) -> i64 {
    let mut first = 0;
    let mut most = 0;
    for (last, time) in times.iter().enumerate() {
        while time - times[first] > span {
            first += 1;
        }
        most = most.max(last - first);
    }
    most as i64
}

/// What is known of a line.
#[derive(Clone, Copy, Debug)]
pub struct Line {
    /// T, of a sender that is even.
    pub spacing: i64,
    /// The smallest and the largest delay on each network.
    pub delays: [(i64, i64); 2],
    /// m.
    pub losses: i64,
    /// tau, the least and the most.
    pub ticks: (i64, i64),
}

impl Line {
    /// The line's J is `behind` times T and a rest, often none: then ties count.
    pub fn any(random: &mut Random, behind: i64) -> Line {
        let spacing = random.between(1, 12);
        let rest = random.between(0, spacing - 1);
        let spread = behind * spacing + random.pick(&[0, rest, spacing - 1]);
        let least = random.pick(&[0, 1, 40]);
        let most = least + spread;
        let inner = [0; 2].map(|_| random.between(least, most));
        let inner = (inner[0].min(inner[1]), inner[0].max(inner[1]));
        let mut delays = random.pick(&[
            [(least, most), (least, most)],
            [(least, most), inner],
            [(least, inner.0), (inner.1, most)],
            [(least, least), (most, most)],
        ]);
        if random.chance(1, 2) {
            delays.reverse();
        }
        // J is often whole ticks too.
        let part = spread / random.pick(&[1, 2, 3, 5, 40]);
        let tick = random.pick(&[part, part, part + 1, spread + 1, 2 * spread]);
        let tick = tick.max(1);
        let any = random.between(0, 30);
        Line {
            spacing,
            delays,
            losses: random.pick(&[0, 0, 1, 1, 2, 3, any]),
            ticks: (tick, random.pick(&[tick, tick, tick + 1, 4 * tick])),
        }
    }

    /// A network with the smallest delay, and that delay.
    pub fn fast(&self) -> (u8, i64) {
        let [(zero, _), (one, _)] = self.delays;
        (u8::from(one < zero), zero.min(one))
    }

    /// A network with the largest delay, and that delay.
    pub fn slow(&self) -> (u8, i64) {
        let [(_, zero), (_, one)] = self.delays;
        (u8::from(one > zero), zero.max(one))
    }

    /// J.
    pub fn spread(&self) -> i64 {
        self.slow().1 - self.fast().1
    }

    /// floor(J / T).
    pub fn behind(&self) -> i64 {
        self.spread() / self.spacing
    }
}

/// How many frames can be overtaken: mostly few, at times more than a word of
/// the history has places.
pub fn any_behind(random: &mut Random) -> i64 {
    match random.below(16) {
        0 => random.between(20, 240),
        1..=3 => 0,
        _ => random.between(0, 9),
    }
}

/// A line for a worst run, how many frames can be overtaken on it, and whether
/// its sender sends in bursts.
pub fn worst_line(random: &mut Random) -> (Line, i64, bool) {
    let behind = any_behind(random);
    let line = Line::any(random, behind);
    (line, behind, random.chance(1, 3))
}

/// Times of sends: at least T apart, or in bursts, with pauses in which the
/// stream is reset, or nearly.
pub fn any_times(
    random: &mut Random,
    line: &Line,
    count: usize,
    bursts: bool,
    from: i64,
) -> Vec<i64> {
    let time = least_time(line.spread(), line.ticks.0);
    let pause = silence(time, line.ticks.1, line.spread());
    let pauses = random.pick(&[8, 30, 1000]);
    let late = random.pick(&[0, 0, line.spacing]);
    let (most, inner) = match bursts {
        true => (random.between(2, 9), random.between(0, line.spacing - 1)),
        false => (1, 0),
    };
    let mut left = most;
    let mut now = from;
    let mut times = Vec::new();
    while times.len() < count {
        times.push(now);
        left -= 1;
        now += if left > 0 {
            inner
        } else {
            left = random.between(1, most);
            most * line.spacing + random.between(0, late)
        };
        if random.chance(1, pauses) {
            now += random.between(0, 2 * pause);
        }
    }
    times
}
