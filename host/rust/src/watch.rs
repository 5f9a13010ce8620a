//! What nobody notices who looks at the frames that were handed up alone: a network that has no arrival of a stream while the
//! other has, arrivals that lead to nothing, no arrivals at all, second copies that are missing, and counts that rise.
//!
//! Times are those of the order: up to there every frame has been called.

use crate::order::{Time, NETWORKS};
use nippitsun::{Counts, Stream, Verdict};

/// Hand-ups of a block, of which it is counted how many had a second copy. By the formulas the window is twice as wide as
/// networks that are in order lie apart: so at least half of as many frames have their second copies within them, however the
/// networks change places. A virtual link has no window, and its L is for this alone.
pub fn block_of(stream: &Stream) -> u64 {
    u64::from(stream.window).max(16)
}

const MILLISECOND: Time = 1_000_000;

#[derive(Clone, Copy, Debug, PartialEq, Eq)]
pub struct News {
    pub slot: usize,
    pub what: What,
}

/// An alarm of a stream, and behind it how it ends.
#[derive(Clone, Copy, Debug, PartialEq, Eq)]
pub enum What {
    Silent {
        network: usize,
    },
    Heard {
        network: usize,
    },
    NothingHandedUp,
    HandedUpAgain,
    NoArrival,
    Arrivals,
    NothingYet,
    First,
    Single {
        doubled: u64,
    },
    Double,
    Rogues {
        count: u64,
        /// How long nothing has been handed up.
        since_ms: Time,
    },
    NoMoreRogues,
    Lost {
        count: u64,
    },
    NoneLost,
}

/// A count that is looked at each second.
#[derive(Clone, Copy, Default)]
pub struct Rise {
    known: u64,
    said: bool,
}

#[derive(Clone, Copy, Debug, PartialEq, Eq)]
pub enum Rose {
    By(u64),
    NoMore,
}

impl Rise {
    pub fn look(&mut self, count: u64) -> Option<Rose> {
        let more = count.saturating_sub(self.known);
        let said = self.said;
        self.known = count;
        self.said = more > 0;
        match more {
            0 => said.then_some(Rose::NoMore),
            more => Some(Rose::By(more)),
        }
    }
}

/// One stream on one network.
///
/// A copy comes behind its twin, so an arrival on one network alone says nothing of the other. Where the other has had none
/// for half the limit by then, its silence begins, and after as long again it is said. So neither a sender that is slow nor
/// one that stops is a silence.
#[derive(Clone, Copy)]
pub struct Side {
    /// The last arrival, or when watching began.
    last: Time,
    /// An arrival on the other network with which a silence began.
    since: Option<Time>,
    pub silent: bool,
    pub silences: u64,
    pub returns: u64,
}

/// How many of the frames that were handed up had a second copy.
#[derive(Clone, Copy, Default)]
struct Share {
    /// The stream's resets as they were last seen. Behind one, as at the start, copies of what came before may be missing: so
    /// many hand-ups as the window has belong to no block.
    resets: Option<u64>,
    skip: u64,
    handed_up: u64,
    doubled: u64,
    /// Of the poor blocks, the fewest second copies, and when the last one was complete.
    poor: Option<(u64, Time)>,
    /// A block with enough was complete in this second.
    good: bool,
    said: bool,
}

impl Share {
    fn arrival(&mut self, verdict: Verdict, stream: &Stream, time: Time) {
        if self.resets != Some(stream.counts.resets) {
            self.resets = Some(stream.counts.resets);
            self.skip = stream.window.into();
            (self.handed_up, self.doubled) = (0, 0);
        }
        match verdict {
            Verdict::HandedUp { .. } if self.skip > 0 => self.skip -= 1,
            Verdict::HandedUp { .. } => self.handed_up += 1,
            Verdict::Duplicate if self.skip == 0 => self.doubled += 1,
            Verdict::Duplicate | Verdict::Rogue => {}
        }
        let block = block_of(stream);
        if self.handed_up < block {
            return;
        }
        if 2 * self.doubled < block {
            let least = self.poor.map_or(self.doubled, |(n, _)| n.min(self.doubled));
            self.poor = Some((least, time));
        } else {
            self.good = true;
        }
        (self.handed_up, self.doubled) = (0, 0);
    }

    /// Each second. What is missing while a network is silent is that network's, which is said already; and it falls silent
    /// only a while behind its last arrival, so a poor block counts once both networks have had an arrival behind it.
    fn look(&mut self, sides: &[Side; NETWORKS]) -> Option<What> {
        let good = std::mem::take(&mut self.good);
        if sides.iter().any(|side| side.silent) {
            self.poor = None;
            return None;
        }
        match self.poor {
            Some((doubled, time)) if sides.iter().all(|side| side.last > time) => {
                self.poor = None;
                let news = (!self.said).then_some(What::Single { doubled });
                self.said = true;
                news
            }
            None if good && self.said => {
                self.said = false;
                Some(What::Double)
            }
            _ => None,
        }
    }
}

struct Watch {
    sides: [Side; NETWORKS],
    began: Time,
    /// The last arrival on either network.
    last: Option<Time>,
    /// The last hand-up, or when watching began.
    handed_up: Time,
    /// Which alarms are said: arrivals without a hand-up, no arrival any more, none yet.
    starved: bool,
    ceased: bool,
    awaited: bool,
    share: Share,
    rogues: Rise,
    lost: Rise,
}

impl Watch {
    fn new(now: Time) -> Watch {
        let side = Side {
            last: now,
            since: None,
            silent: false,
            silences: 0,
            returns: 0,
        };
        Watch {
            sides: [side; NETWORKS],
            began: now,
            last: None,
            handed_up: now,
            starved: false,
            ceased: false,
            awaited: false,
            share: Share::default(),
            rogues: Rise::default(),
            lost: Rise::default(),
        }
    }

    /// An arrival on this network. Answers whether it was silent.
    fn hear(&mut self, network: usize, time: Time, limit: Time) -> bool {
        let own = &mut self.sides[network];
        own.since = None;
        own.last = time;
        let back = std::mem::take(&mut own.silent);
        own.returns += u64::from(back);
        if back {
            // The copies that were missing were this network's, which was said.
            self.share.poor = None;
            (self.share.handed_up, self.share.doubled) = (0, 0);
        }
        let other = &mut self.sides[1 - network];
        if other.since.is_none() && time - other.last > limit / 2 {
            other.since = Some(time);
        }
        back
    }

    /// Is this network found to be silent now?
    fn falls_silent(&mut self, network: usize, now: Time, limit: Time) -> bool {
        let side = &mut self.sides[network];
        let over = |since| now - since >= limit / 2;
        if side.silent || !side.since.map_or(false, over) {
            return false;
        }
        side.silent = true;
        side.silences += 1;
        true
    }

    /// No arrival on either network, for the first time: none any more, or none yet.
    fn misses_all(&mut self, now: Time, limit: Time) -> Option<What> {
        let (last, said, what) = match self.last {
            Some(last) => (last, &mut self.ceased, What::NoArrival),
            None => (self.began, &mut self.awaited, What::NothingYet),
        };
        if *said || now - last < limit {
            return None;
        }
        *said = true;
        Some(what)
    }

    /// What has risen in this second.
    fn rises(&mut self, counts: &Counts, now: Time) -> [Option<What>; 2] {
        let since_ms = (now - self.handed_up) / MILLISECOND;
        let rogues = self.rogues.look(counts.rogue).map(|rose| match rose {
            Rose::By(count) => What::Rogues { count, since_ms },
            Rose::NoMore => What::NoMoreRogues,
        });
        let lost = self.lost.look(counts.lost).map(|rose| match rose {
            Rose::By(count) => What::Lost { count },
            Rose::NoMore => What::NoneLost,
        });
        [rogues, lost]
    }
}

pub struct Watches {
    /// How long something is missing when it is said; `None` is never.
    limit: Option<Time>,
    streams: Vec<Watch>,
}

impl Watches {
    /// Watches the streams of so many slots from now on.
    pub fn new(slots: usize, limit: Option<Time>, now: Time) -> Watches {
        let streams = (0..slots).map(|_| Watch::new(now)).collect();
        Watches { limit, streams }
    }

    pub fn of(&self, slot: usize) -> &[Side; NETWORKS] {
        &self.streams[slot].sides
    }

    /// An arrival, and the stream's record behind it.
    pub fn arrival(
        &mut self,
        slot: usize,
        network: usize,
        verdict: Verdict,
        stream: &Stream,
        time: Time,
    ) -> Vec<News> {
        let watch = &mut self.streams[slot];
        let is_up = matches!(verdict, Verdict::HandedUp { .. });
        let without = time - watch.handed_up;
        if is_up {
            watch.handed_up = time;
        }
        let limit = match self.limit {
            Some(limit) => limit,
            None => return Vec::new(),
        };
        let back = watch.hear(network, time, limit);
        let starves = !is_up && !watch.starved && without >= limit;
        let fed = is_up && watch.starved;
        watch.starved = (watch.starved || starves) && !is_up;
        watch.last = Some(time);
        let again = std::mem::take(&mut watch.ceased);
        let first = std::mem::take(&mut watch.awaited);
        watch.share.arrival(verdict, stream, time);
        // Most arrivals are no news, and an empty list takes no memory.
        let news = [
            (back, What::Heard { network }),
            (starves, What::NothingHandedUp),
            (fed, What::HandedUpAgain),
            (again, What::Arrivals),
            (first, What::First),
        ];
        let news = news.into_iter().filter(|(is_so, _)| *is_so);
        news.map(|(_, what)| News { slot, what }).collect()
    }

    /// All arrivals up to now are known: what is missing?
    pub fn found_by(&mut self, now: Time) -> Vec<News> {
        let mut found = Vec::new();
        let limit = match self.limit {
            Some(limit) => limit,
            None => return found,
        };
        for (slot, watch) in self.streams.iter_mut().enumerate() {
            for network in 0..NETWORKS {
                if watch.falls_silent(network, now, limit) {
                    let what = What::Silent { network };
                    found.push(News { slot, what });
                }
            }
            let all = watch.misses_all(now, limit);
            found.extend(all.map(|what| News { slot, what }));
        }
        found
    }

    /// Each second: what of the streams' counters has risen, and whether second copies come.
    pub fn look(&mut self, records: &[Stream], now: Time) -> Vec<News> {
        let mut found = Vec::new();
        let both = self.streams.iter_mut().zip(records).enumerate();
        for (slot, (watch, stream)) in both {
            let share = watch.share.look(&watch.sides);
            let [rogues, lost] = watch.rises(&stream.counts, now);
            let news = [share, rogues, lost].into_iter().flatten();
            found.extend(news.map(|what| News { slot, what }));
        }
        found
    }
}

#[cfg(test)]
mod tests {
    use super::*;

    const LIMIT: Time = 1000;
    const UP: Verdict = Verdict::HandedUp { length: 60 };

    fn watching() -> Watches {
        Watches::new(2, Some(LIMIT), 0)
    }

    fn stream(window: u16) -> Stream {
        Stream {
            window,
            ..Stream::default()
        }
    }

    fn arrive(w: &mut Watches, slot: usize, network: usize, time: Time) -> Vec<What> {
        what(w.arrival(slot, network, UP, &stream(5), time))
    }

    fn what(news: Vec<News>) -> Vec<What> {
        news.into_iter().map(|news| news.what).collect()
    }

    fn in_slot(slot: usize, what: What) -> News {
        News { slot, what }
    }

    fn silent(network: usize) -> What {
        What::Silent { network }
    }

    /// What is found of one slot.
    fn found_of(w: &mut Watches, slot: usize, now: Time) -> Vec<What> {
        let mut found = w.found_by(now);
        found.retain(|news| news.slot == slot);
        what(found)
    }

    #[test]
    fn a_network_falls_silent_and_comes_back() {
        let mut w = watching();
        for time in (0..1000).step_by(10) {
            assert_eq!(arrive(&mut w, 1, 0, time), []);
            assert_eq!(found_of(&mut w, 1, time), []);
        }
        // Its silence began with the arrival at 510.
        assert_eq!(found_of(&mut w, 1, 1009), []);
        assert_eq!(found_of(&mut w, 1, 1010), [silent(1)]);
        assert_eq!(found_of(&mut w, 1, 1900), []);
        assert!(w.of(1)[1].silent && !w.of(1)[0].silent && !w.of(0)[1].silent);
        let back = What::Heard { network: 1 };
        assert_eq!(arrive(&mut w, 1, 1, 1901), [back]);
        assert_eq!(arrive(&mut w, 1, 1, 1902), []);
        // Now the other one, which was there last at 990.
        assert_eq!(found_of(&mut w, 1, 2400), []);
        assert_eq!(found_of(&mut w, 1, 2401), [silent(0)]);
        let counts = w.of(1).map(|side| (side.silences, side.returns));
        assert_eq!(counts, [(1, 0), (1, 1)]);
    }

    #[test]
    fn a_slow_sender_is_no_silence_of_a_network() {
        let mut w = watching();
        for command in 0..100 {
            let time = command * 50 * LIMIT;
            let first = usize::from(command % 3 == 0);
            arrive(&mut w, 0, first, time);
            assert_eq!(found_of(&mut w, 0, time + 3), []);
            assert_eq!(arrive(&mut w, 0, 1 - first, time + 3), []);
            let later = found_of(&mut w, 0, time + 50 * LIMIT - 1);
            assert_eq!(later, [What::NoArrival]);
        }
        assert!(w.of(0).iter().all(|side| side.silences == 0));
    }

    #[test]
    fn streams_are_apart() {
        let mut w = watching();
        arrive(&mut w, 0, 0, 600);
        arrive(&mut w, 1, 1, 600);
        arrive(&mut w, 1, 0, 700);
        assert_eq!(w.found_by(1100), [in_slot(0, silent(1))]);
        arrive(&mut w, 1, 1, 1300);
        arrive(&mut w, 0, 0, 1300);
        assert_eq!(w.found_by(1800), [in_slot(1, silent(0))]);
    }

    #[test]
    fn no_arrival_any_more() {
        let mut w = watching();
        arrive(&mut w, 0, 0, 10);
        arrive(&mut w, 0, 1, 12);
        assert_eq!(found_of(&mut w, 0, 1011), []);
        assert_eq!(found_of(&mut w, 0, 1012), [What::NoArrival]);
        assert_eq!(found_of(&mut w, 0, 9000), []);
        assert_eq!(arrive(&mut w, 0, 1, 9001), [What::Arrivals]);
        assert_eq!(arrive(&mut w, 0, 0, 9002), []);
        assert_eq!(found_of(&mut w, 0, 10_002), [What::NoArrival]);
    }

    #[test]
    fn nothing_yet() {
        let mut w = Watches::new(1, Some(LIMIT), 500);
        assert_eq!(w.found_by(1499), []);
        assert_eq!(what(w.found_by(1500)), [What::NothingYet]);
        assert_eq!(w.found_by(9000), []);
        assert_eq!(arrive(&mut w, 0, 0, 9001), [What::First]);
        assert_eq!(arrive(&mut w, 0, 1, 9002), []);
    }

    #[test]
    fn arrivals_but_nothing_handed_up() {
        let mut w = watching();
        let mut arrive = |verdict, time| what(w.arrival(0, 0, verdict, &stream(5), time));
        assert_eq!(arrive(Verdict::Rogue, 999), []);
        assert_eq!(arrive(Verdict::Rogue, 1000), [What::NothingHandedUp]);
        assert_eq!(arrive(Verdict::Duplicate, 1001), []);
        assert_eq!(arrive(UP, 3000), [What::HandedUpAgain]);
        // A slow sender's hand-up is none, and its second copy is close.
        assert_eq!(arrive(UP, 90_000), []);
        assert_eq!(arrive(Verdict::Duplicate, 90_999), []);
        assert_eq!(arrive(Verdict::Duplicate, 91_000), [What::NothingHandedUp]);
    }

    /// So many hand-ups on network 0, the first ones with a second copy on network 1. Answers the time behind them.
    fn hand_up(w: &mut Watches, s: &Stream, count: u64, doubled: u64, mut time: Time) -> Time {
        for i in 0..count {
            time += 1;
            w.arrival(0, 0, UP, s, time);
            if i < doubled {
                w.arrival(0, 1, Verdict::Duplicate, s, time);
            }
        }
        time
    }

    #[test]
    fn second_copies_are_missing_and_come_again() {
        let mut w = watching();
        let mut s = stream(5);
        // The window's first hand-ups belong to no block, nor do their copies.
        let time = hand_up(&mut w, &s, 5, 0, 0);
        let time = hand_up(&mut w, &s, 16, 7, time);
        // Both networks have to be heard behind it.
        assert_eq!(w.look(&[s], time), []);
        let time = hand_up(&mut w, &s, 16, 9, time);
        let single = What::Single { doubled: 7 };
        assert_eq!(what(w.look(&[s], time)), [single]);
        // It is said once, and a good block beside a poor one ends nothing.
        let time = hand_up(&mut w, &s, 32, 1, time);
        let time = hand_up(&mut w, &s, 16, 16, time);
        assert_eq!(w.look(&[s], time), []);
        assert_eq!(w.look(&[s], time), []);
        let time = hand_up(&mut w, &s, 16, 8, time);
        assert_eq!(what(w.look(&[s], time)), [What::Double]);
        assert_eq!(w.look(&[s], time), []);
        // A reset begins anew in the middle of a block, with hand-ups that do not count.
        let time = hand_up(&mut w, &s, 15, 0, time);
        s.counts.resets += 1;
        let time = hand_up(&mut w, &s, 5, 0, time);
        let time = hand_up(&mut w, &s, 15, 0, time);
        let time = hand_up(&mut w, &s, 1, 1, time);
        let time = hand_up(&mut w, &s, 1, 1, time);
        let none = What::Single { doubled: 0 };
        assert_eq!(what(w.look(&[s], time)), [none]);
    }

    #[test]
    fn what_is_missing_on_a_silent_network_is_said_of_that_alone() {
        let mut w = watching();
        let s = stream(5);
        let time = hand_up(&mut w, &s, 5, 5, 0);
        let time = hand_up(&mut w, &s, 600, 0, time);
        assert_eq!(w.look(&[s], time), []);
        let time = hand_up(&mut w, &s, 600, 0, time);
        assert_eq!(found_of(&mut w, 0, time), [silent(1)]);
        assert_eq!(w.look(&[s], time), []);
        // Blocks since the last second, the last one half of it before the return, are its silence too.
        let time = hand_up(&mut w, &s, 40, 0, time);
        let back = What::Heard { network: 1 };
        let heard = w.arrival(0, 1, Verdict::Duplicate, &s, time + 1);
        assert_eq!(what(heard), [back]);
        let time = hand_up(&mut w, &s, 17, 17, time + 1);
        assert_eq!(w.look(&[s], time), []);
    }

    #[test]
    fn counts_that_rise() {
        let mut w = Watches::new(1, None, 0);
        let mut s = stream(5);
        let ms = MILLISECOND;
        assert_eq!(w.look(&[s], ms), []);
        s.counts.rogue = 4;
        s.counts.lost = 2;
        w.arrival(0, 0, UP, &s, 3 * ms);
        let news = [
            What::Rogues {
                count: 4,
                since_ms: 7,
            },
            What::Lost { count: 2 },
        ];
        assert_eq!(what(w.look(&[s], 10 * ms)), news);
        s.counts.rogue = 5;
        let news = [
            What::Rogues {
                count: 1,
                since_ms: 8,
            },
            What::NoneLost,
        ];
        assert_eq!(what(w.look(&[s], 12 * ms - 1)), news);
        assert_eq!(what(w.look(&[s], 13 * ms)), [What::NoMoreRogues]);
        assert_eq!(w.look(&[s], 14 * ms), []);
    }

    #[test]
    fn never_if_so_asked() {
        let mut w = Watches::new(1, None, 0);
        for time in [0, LIMIT, 1000 * LIMIT] {
            assert_eq!(w.arrival(0, 0, Verdict::Rogue, &stream(5), time), []);
            assert_eq!(w.found_by(time), []);
        }
        assert_eq!(hand_up(&mut w, &stream(5), 100, 0, 9), 109);
        assert_eq!(w.look(&[stream(5)], 200), []);
    }
}
