//! Order 8 of document 02: nothing is missed. Random runs that meet its
//! premises are held against a set of the true indices that arrived, which
//! knows no window. Then the premises broken by one: an arrival one place too
//! far, a refused one, a frame that a batch does not reach.

mod common;

use std::collections::HashSet;

use common::*;
use second::random::Random;
use second::wrong::Wrong;
use second::{arrival, reset, tick, Arrival, Refusal, Settings, Stream, Verdict};

/// The stream's destination. Other streams and frames have it with VLAN 6 only.
const OWN: [u8; 6] = [2, 0, 0, 0, 0, 7];
/// The windows that are surely tried.
const WINDOWS: [i64; 7] = [2, 3, 63, 64, 65, 511, 512];

/// An arrival of the stream.
struct Own {
    index: i64,
    /// Did no arrival before it have its index?
    new: bool,
    tagged: Vec<u8>,
    bare: Vec<u8>,
}

/// A run of one stream from the fresh state, and what is known of it without
/// the receiver's rules.
struct Run {
    table: Vec<Stream>,
    slot: usize,
    /// The record in the fresh state, for its counters.
    fresh: Stream,
    window: i64,
    /// The indices that arrived, the first of them and the highest.
    came: HashSet<i64>,
    ends: Option<(i64, i64)>,
    /// The indices that were handed up, by the answers.
    up: Vec<i64>,
    arrivals: [u64; 2],
    /// First arrivals below the highest, and below the first one of all.
    late: u64,
    older: u64,
    /// Ticks since the last first arrival, and all.
    idle: u16,
    ticks: u64,
}

impl Run {
    /// The stream among others, opened or reset a moment ago.
    fn new(random: &mut Random, window: i64) -> Run {
        let slots = random.pick(&[1, 2, 8, 64]);
        let vlan = random.pick(&[0, 5]);
        let mut table: Vec<Stream> = (0..slots)
            .map(|_| match random.below(4) {
                0 => any_stream(random, &[OWN], &[6]),
                _ => any_stream(random, &DESTINATIONS, &VLANS),
            })
            .collect();
        table[random.below(slots) as usize].in_use = 0;
        if random.chance(1, 2) {
            // Closed streams with the key are not the stream.
            for closed in table.iter_mut().filter(|s| !s.is_in_use()) {
                (closed.destination, closed.vlan) = (OWN, vlan);
            }
        }
        let settings = Settings {
            destination: OWN,
            vlan,
            ..settings(
                Stream::VECTOR,
                window as u16,
                random.pick(&[1, 2, 3, 50, 65535]),
            )
        };
        let slot = open(&mut table, settings).unwrap();
        if random.chance(1, 2) {
            let old = &mut table[slot];
            (old.take_any, old.anchor, old.remaining) = (0, random.word(), 1);
            old.early = random.below(window as u64) as u16;
            old.history = marked(0..window as usize);
            for counter in [&mut old.passed, &mut old.rogue, &mut old.lost] {
                *counter = u64::MAX - random.below(60);
            }
            match random.below(2) {
                0 => reset(&mut table, slot).unwrap(),
                _ => assert!(tick(&mut table).unwrap().reset > 0),
            }
        }
        // Above the stream another slot may have the key.
        if slot + 1 < table.len() && random.chance(1, 4) {
            table[slot + 1] = Stream {
                destination: OWN,
                vlan,
                ..running(Stream::VECTOR, 8, 9, random.word(), 0xFF)
            };
        }
        Run {
            fresh: table[slot],
            table,
            slot,
            window,
            came: HashSet::new(),
            ends: None,
            up: Vec::new(),
            arrivals: [0; 2],
            late: 0,
            older: 0,
            idle: 0,
            ticks: 0,
        }
    }

    /// The highest index that arrived.
    fn highest(&self) -> i64 {
        self.ends.unwrap().1
    }

    /// An arrival with this index, noted before the call. Its bytes are drawn,
    /// so that the output tells it from its twin.
    fn own(&mut self, random: &mut Random, network: u8, index: i64) -> Own {
        let (first, highest) = self.ends.unwrap_or((index, index));
        // The order's premise.
        assert!(index >= 0 && (index - highest).abs() < self.window);
        self.ends = Some((first, highest.max(index)));
        self.arrivals[usize::from(network)] += 1;
        let new = self.came.insert(index);
        if new {
            self.idle = 0;
            self.late += u64::from(index < highest);
            self.older += u64::from(index < first);
        }
        let (tagged, bare) = self.frame(random, index);
        Own {
            index,
            new,
            tagged,
            bare,
        }
    }

    /// A frame with this index, with its tag and without.
    fn frame(&self, random: &mut Random, index: i64) -> (Vec<u8>, Vec<u8>) {
        let vlan = self.fresh.vlan;
        let mut front = [OWN, SOURCE].concat();
        if vlan != 0 || random.chance(1, 4) {
            front.extend([0x81, 0x00]);
            front.extend((vlan | (random.word() & 0xF000)).to_be_bytes());
        }
        let mut behind = random
            .pick(&[[0x08, 0x00], [0x88, 0xB5], [0x81, 0x00]])
            .to_vec();
        behind.extend(random.bits().to_be_bytes());
        match random.below(64) {
            0 => behind.resize(Stream::MAX_UNTAGGED - front.len(), 0x44),
            1 => behind.truncate(2),
            _ => {}
        }
        let [high, low] = number(index).to_be_bytes();
        let tag = [0xF1, 0xC1, random.byte(), 0, high, low];
        (
            [&front, &tag[..], &behind].concat(),
            [&front[..], &behind].concat(),
        )
    }

    /// A frame that is no arrival of the stream, often nearly one.
    fn other_frame(&self, random: &mut Random) -> Vec<u8> {
        let index = self.ends.map_or(7, |(_, highest)| highest + 1);
        let (mut tagged, _) = self.frame(random, index);
        match random.below(8) {
            0 => untagged_to(OWN, (self.fresh.vlan != 0).then_some(self.fresh.vlan)),
            1 => from_source(3, &tagged),
            2 => {
                tagged.truncate(type_place(&tagged) + 7);
                tagged
            }
            3 => {
                tagged.resize(Stream::MAX_FRAME + 1, 0x44);
                tagged
            }
            4 => tagged_to(OWN, Some(6), number(index)),
            _ => any_frame(random),
        }
    }

    /// A call that is no arrival of the stream, refused or not. Only a tick
    /// touches its record.
    fn other_call(&mut self, random: &mut Random) {
        let mut expected = self.table[self.slot];
        let slot = random.below(66) as usize;
        let table = &mut self.table;
        match random.below(8) {
            0 | 1 => {
                // Until the next one would reset the stream.
                let left = match self.ends {
                    Some(_) => expected.reset_time - 1 - self.idle,
                    None => 60,
                };
                for _ in 0..left.min(random.pick(&[1, 1, 60])) {
                    tick(table).unwrap();
                    expected.remaining = expected.remaining.saturating_sub(1);
                    self.idle += u16::from(self.ends.is_some());
                    self.ticks += 1;
                }
            }
            2 if slot != self.slot => _ = close(table, slot),
            3 if slot != self.slot => _ = reset(table, slot),
            4 => {
                let again = Settings {
                    destination: OWN,
                    vlan: random.pick(&[expected.vlan, 6]),
                    ..settings(Stream::VECTOR, 8, 9)
                };
                let answer = open(table, again);
                assert!(again.vlan == 6 || answer == Err(Refusal::KeyInUse));
            }
            5 => {
                // A batch that is refused looks at no frame.
                let (tagged, _) = self.frame(random, self.ends.map_or(7, |ends| ends.1 + 1));
                let input = packed(&[tagged.clone(), tagged]);
                let (network, count, cut) = random.pick(&[(2, 2, 0), (0, 33, 0), (1, 2, 1)]);
                let input = &input[..input.len() - cut];
                assert!(batch(&mut self.table, network, count, input, &mut [0; 4100]).is_err());
            }
            _ => {
                let frame = self.other_frame(random);
                let network = random.pick(&[0, 1, 2]);
                let answer = arrival(&mut self.table, network, &frame, &mut [0; 2000]);
                assert!(answer.map_or(true, |answer| answer.slot != self.slot));
            }
        }
        assert_eq!(self.table[self.slot], expected);
    }

    /// One arrival in a call of its own.
    fn arrive(&mut self, random: &mut Random, network: u8, index: i64) {
        let own = self.own(random, network, index);
        let mut output = vec![FILL; own.bare.len() + random.pick(&[0, 9])];
        let answer = arrival(&mut self.table, network, &own.tagged, &mut output);
        let (written, behind) = output.split_at(if own.new { own.bare.len() } else { 0 });
        self.hold(&own, answer, written);
        assert!(behind.iter().all(|&byte| byte == FILL));
    }

    /// Arrivals in one call, among other frames. The room is enough for all.
    fn arrive_in_batch(&mut self, random: &mut Random, network: u8, traffic: &mut Traffic) {
        let (mut frames, mut own) = (Vec::new(), Vec::new());
        for _ in 0..random.pick(&[0, 1, 4, 9, 32]) {
            let index = match random.below(6) {
                0 => None,
                _ => traffic.next(random, network, self.ends),
            };
            let one = index.map(|index| self.own(random, network, index));
            frames.push(match &one {
                Some(own) => own.tagged.clone(),
                None => self.other_frame(random),
            });
            own.push(one);
        }
        let input = packed(&frames);
        let mut output = vec![FILL; input.len()];
        let done = batch(&mut self.table, network, frames.len(), &input, &mut output).unwrap();
        assert_eq!(done.frames, frames.len());
        let mut left = &output[..];
        for (own, answer) in own.iter().zip(done.answers) {
            let answer = answer.unwrap();
            let mut written = &[][..];
            if let Ok(Arrival {
                verdict: Verdict::HandedUp { length },
                ..
            }) = answer
            {
                assert_eq!(left[..2], (length as u16).to_be_bytes());
                (written, left) = left[2..].split_at(length);
            }
            match own {
                Some(own) => self.hold(own, answer, written),
                None => assert!(answer.map_or(true, |answer| answer.slot != self.slot)),
            }
        }
        assert!(left.iter().all(|&byte| byte == FILL));
    }

    /// Handed up exactly if no arrival before it had its index, and then
    /// written without its tag.
    fn hold(&mut self, own: &Own, answer: Result<Arrival, Refusal>, written: &[u8]) {
        let (index, window, ends) = (own.index, self.window, self.ends);
        let length = own.bare.len();
        let (priority, vlan_tag) = priority_of(&own.tagged);
        let expected = Arrival {
            slot: self.slot,
            number: number(index),
            verdict: match own.new {
                true => Verdict::HandedUp { length },
                false => Verdict::Duplicate,
            },
            priority,
            vlan_tag,
        };
        assert_eq!(answer, Ok(expected), "L {window}, index {index}, {ends:?}");
        if let Verdict::HandedUp { .. } = answer.unwrap().verdict {
            assert_eq!(written, own.bare);
            self.up.push(index);
        }
    }

    /// The indices above the first and at most highest - L that never came.
    fn lost(&self) -> u64 {
        let (first, highest) = self.ends.unwrap();
        let left = first + 1..=highest - self.window;
        left.filter(|index| !self.came.contains(index)).count() as u64
    }

    /// Every index that arrived was handed up exactly once, and the counters
    /// say so.
    fn nothing_missed(&self) {
        let (mut up, mut came) = (self.up.clone(), Vec::from_iter(self.came.iter().copied()));
        up.sort_unstable();
        came.sort_unstable();
        assert_eq!(up, came);
        let (now, then) = (self.table[self.slot], self.fresh);
        let all: u64 = self.arrivals.iter().sum();
        let expected = Stream {
            arrivals: self.arrivals,
            passed: then.passed.wrapping_add(came.len() as u64),
            discarded: all - came.len() as u64,
            lost: then.lost.wrapping_add(self.lost()),
            anchor: number(self.highest()),
            take_any: 0,
            remaining: now.reset_time - self.idle,
            // Order 8 says nothing of these.
            history: now.history,
            early: now.early,
            out_of_order: now.out_of_order,
            ..then
        };
        assert_eq!(now, expected);
    }
}

/// What the lines bring: indices that keep the premise.
struct Traffic {
    window: i64,
    /// Jumps in the window, ahead by so many at most; or else what two networks
    /// make of a sender's frames.
    jumps: Option<i64>,
    first: i64,
    next: [i64; 2],
    /// The half of a swapped pair that is still to come.
    swapped: [Option<i64>; 2],
    network: u8,
    /// The network changes once in so many steps; 0 is never, so that the
    /// other one is dead.
    stays: u64,
}

impl Traffic {
    fn new(random: &mut Random, window: i64) -> Traffic {
        let first = match random.below(4) {
            0 => random.between(0, 3),
            1 | 2 => 65536 * random.between(1, 3) + random.between(-window, window),
            _ => random.between(0, 1_000_000),
        };
        Traffic {
            window,
            jumps: random.pick(&[None, Some(1), Some(window / 2), Some(window - 1)]),
            first,
            next: [first; 2],
            swapped: [None; 2],
            network: random.below(2) as u8,
            stays: random.pick(&[0, 1, 2, 8, window as u64, 2 * window as u64]),
        }
    }

    /// The network of the next call.
    fn network(&mut self, random: &mut Random) -> u8 {
        if self.stays > 0 && random.chance(1, self.stays) {
            self.network = random.below(2) as u8;
        }
        self.network
    }

    /// The next index on this network, if it brings one that is near enough.
    fn next(&mut self, random: &mut Random, network: u8, ends: Option<(i64, i64)>) -> Option<i64> {
        let most = self.window - 1;
        let highest = ends.map_or(self.first, |(_, highest)| highest);
        let near = |&index: &i64| index >= 0 && (index - highest).abs() <= most;
        if let (Some(ahead), Some(_)) = (self.jumps, ends) {
            let d = match random.below(64) {
                0..=15 => 1,
                16..=23 => random.between(1, ahead),
                24..=31 => -most,
                32 => most,
                _ => -random.between(0, most),
            };
            return Some(highest + d).filter(near);
        }
        let network = usize::from(network);
        if let Some(late) = self.swapped[network].take() {
            return Some(late).filter(near);
        }
        // Frames that are too late by now are lost on this network.
        let next = self.next[network].max(highest - most);
        let room = near(&(next + 1));
        let (index, then) = match random.below(16) {
            0 if room => (next + 1, next + 2),
            1 if room => {
                self.swapped[network] = Some(next);
                (next + 1, next + 2)
            }
            2 => (next - 1, next),
            _ => (next, next + 1),
        };
        self.next[network] = then;
        Some(index).filter(near)
    }
}

/// A run of so many steps, with a window that is one of those surely tried or,
/// three times in ten, any.
fn random_run(random: &mut Random, seed: u64, steps: u32) -> Run {
    let window = WINDOWS.get(seed as usize % 10).copied();
    let window = window.unwrap_or_else(|| random.between(2, 512));
    let mut run = Run::new(random, window);
    let mut traffic = Traffic::new(random, window);
    for _ in 0..steps {
        let network = traffic.network(random);
        match random.below(24) {
            0..=3 => run.other_call(random),
            4 => run.arrive_in_batch(random, network, &mut traffic),
            _ => {
                if let Some(index) = traffic.next(random, network, run.ends) {
                    run.arrive(random, network, index);
                }
            }
        }
    }
    run
}

#[test]
fn random_runs_miss_nothing() {
    let (mut up, mut again, mut late, mut older, mut lost, mut ticks) = (0, 0, 0, 0, 0, 0);
    for seed in 0..1500 {
        let run = random_run(&mut Random::new(seed), seed, 600);
        run.nothing_missed();
        up += run.up.len() as u64;
        again += run.arrivals.iter().sum::<u64>() - run.up.len() as u64;
        late += run.late;
        older += run.older;
        lost += run.lost();
        ticks += run.ticks;
    }
    assert!(up > 500_000 && again > 150_000 && late > 200_000 && older > 5_000);
    assert!(lost > 1_000_000 && ticks > 100_000);
}

#[test]
fn long_runs_miss_nothing() {
    // Every number comes again, several times.
    for window in [2, 64, 512] {
        let mut random = Random::new(81);
        let mut run = Run::new(&mut random, window);
        let mut traffic = Traffic {
            jumps: None,
            stays: 8,
            ..Traffic::new(&mut random, window)
        };
        while run.came.len() < 200_000 {
            let network = traffic.network(&mut random);
            if let Some(index) = traffic.next(&mut random, network, run.ends) {
                run.arrive(&mut random, network, index);
            }
        }
        run.nothing_missed();
    }
}

#[test]
fn one_place_too_far_is_a_rogue() {
    for seed in 0..40 {
        let random = &mut Random::new(seed);
        let mut run = random_run(random, seed, 100);
        let (highest, window) = (run.highest(), run.window);
        // No frame has an index below 0.
        let sent = |index: &i64| *index >= 0;
        for index in [highest + window, highest - window]
            .into_iter()
            .filter(sent)
        {
            let (tagged, bare) = run.frame(random, index);
            let mut output = vec![FILL; bare.len()];
            let mut expected = run.table.clone();
            let record = &mut expected[run.slot];
            record.arrivals[1] += 1;
            record.rogue = record.rogue.wrapping_add(1);
            let answer = arrival(&mut run.table, 1, &tagged, &mut output).unwrap();
            assert_eq!(word(answer), "rogue", "L {window}, {index} at {highest}");
            assert_eq!(run.table, expected);
            assert_eq!(output, vec![FILL; bare.len()]);
        }
        // One place nearer none is, and then the one ahead is near too.
        let near = [highest - window + 1, highest + window - 1, highest + window];
        for index in near.into_iter().filter(sent) {
            run.arrive(random, 0, index);
        }
    }
}

#[test]
fn a_refused_arrival_is_a_hole_unless_its_twin_comes() {
    for seed in 0..60 {
        let random = &mut Random::new(seed);
        let mut run = random_run(random, seed, 100);
        let (index, window) = (run.highest() + 1, run.window);
        let (tagged, bare) = run.frame(random, index);
        let mut output = vec![FILL; bare.len()];
        let before = run.table.clone();
        let refused = arrival(&mut run.table, 0, &tagged, &mut output[1..]);
        assert_eq!(refused, Err(Refusal::OutputTooSmall));
        let refused = arrival(&mut run.table, 2, &tagged, &mut output);
        assert_eq!(refused, Err(Refusal::NoSuchNetwork));
        assert_eq!(run.table, before);
        assert_eq!(output, vec![FILL; bare.len()]);
        // Never, and lost tells of it; late; or next. With L = 2 it must be next.
        let then = match seed % 3 {
            0 if window > 2 => Vec::from_iter(index + 1..=index + window),
            1 if window > 2 => vec![index + 1, index],
            _ => vec![index],
        };
        for index in then {
            run.arrive(random, 1, index);
        }
        run.nothing_missed();
    }
}

#[test]
fn a_frame_that_a_batch_does_not_reach_is_a_hole_unless_its_twin_comes() {
    for seed in 0..60 {
        let random = &mut Random::new(seed);
        let mut run = random_run(random, seed, 100);
        let (highest, window) = (run.highest(), run.window);
        let reached = run.own(random, 0, highest + 1);
        let [no_room, behind] = [2, 3].map(|ahead| run.frame(random, highest + ahead));
        let input = packed(&[reached.tagged.clone(), no_room.0, behind.0]);
        let length = reached.bare.len();
        let mut output = vec![FILL; 2 + length + 2 + no_room.1.len() - 1];
        let done = batch(&mut run.table, 0, 3, &input, &mut output).unwrap();
        let [first, others @ ..] = done.answers;
        run.hold(&reached, first.unwrap(), &output[2..2 + length]);
        assert_eq!(others[..2], [Some(Err(Refusal::OutputTooSmall)), None]);
        let then = match seed % 3 {
            0 if window > 3 => highest + 4..=highest + 3 + window,
            _ => highest + 2..=highest + 3,
        };
        for index in then {
            run.arrive(random, 1, index);
        }
        run.nothing_missed();
    }
}

#[test]
fn wrong_receivers_are_found() {
    use Wrong::*;
    finds(
        random_runs_miss_nothing,
        &[
            PlainComparison,
            LateUnmarked,
            LateFromZero,
            LastIsRogue,
            AnchorGoesBack,
            HistoryStays,
            ResetsEarly,
            TestsFirstWord,
            MarksFirstWord,
            CarryForgotten,
            CarryAround,
            CarryFromMoved,
            MovesMod64,
            MovesAtMost64,
            LeaverStays,
        ],
    );
    finds(one_place_too_far_is_a_rogue, &[TakesL, TakesMinusL]);
    finds(
        a_refused_arrival_is_a_hole_unless_its_twin_comes,
        &[MarksBeforeRoom],
    );
    finds(
        a_frame_that_a_batch_does_not_reach_is_a_hole_unless_its_twin_comes,
        &[GoesOnBehind8],
    );
}
