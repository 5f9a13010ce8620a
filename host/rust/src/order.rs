//! In which order frames and ticks are called: that of their times, however late this program comes to them. No system call
//! stands here; times are nanoseconds of the monotonic clock, and whoever calls has read it.
//!
//! A turn: the clock is read first (`begin`), then each port until it says that it is empty or the batch is full (`read`,
//! `empty`), then the clocks once more (`known`); `next` then answers the calls one by one.

/// Nanoseconds of the monotonic clock.
pub type Time = i64;

pub const NETWORKS: usize = 2;

/// Frames that are read from a port in one turn.
pub const BATCH: usize = 64;

#[derive(Clone, Copy, Debug, PartialEq, Eq)]
pub enum Call {
    /// The frame that was read so many-th in the last batch of this network, and the order's time at its call.
    Frame {
        network: usize,
        place: usize,
        time: Time,
    },
    Tick,
}

/// What is known of one port.
struct Lane {
    /// Stamps that were read in this turn.
    stamps: Vec<Option<i64>>,
    /// Times of the last batch's frames, and how many of them have been called.
    times: Vec<Time>,
    called: usize,
    /// The latest stamp read.
    newest: Time,
    /// Every frame that was queued before this has been read.
    horizon: Time,
    /// The port said in this turn that it is empty.
    empty: bool,
    /// The port may hold frames that were stamped before a step of the clock.
    mixed: bool,
}

impl Lane {
    fn first(&self) -> Option<Time> {
        self.times.get(self.called).copied()
    }
}

pub struct Order {
    period: Time,
    /// Real time less monotonic time. Stamps are real time.
    ahead: i64,
    lanes: [Lane; NETWORKS],
    /// The clock, read before the ports of this turn.
    clock: Time,
    /// When the next turn was to begin at the latest.
    awake: Time,
    /// The time of the next tick.
    tick: Time,
    /// The stamps of this turn can't be compared: the ports take turns, and this one is next.
    by_turns: bool,
    turn_of: usize,
    /// Up to here all frames and ticks have been called. It never goes back, and never runs ahead of the clock.
    pub time: Time,
    pub ticks: u64,
    pub late: u64,
    pub steps: u64,
}

impl Order {
    /// The ports were opened behind the first time, and ticks count from the second on.
    pub fn new(period: Time, opened: Time, now: Time, ahead: i64) -> Order {
        let lane = || Lane {
            stamps: Vec::with_capacity(BATCH),
            times: Vec::with_capacity(BATCH),
            called: 0,
            newest: opened,
            horizon: opened,
            empty: false,
            mixed: false,
        };
        Order {
            period,
            ahead,
            lanes: [lane(), lane()],
            clock: now,
            awake: now,
            tick: now + period,
            by_turns: false,
            turn_of: 0,
            time: now,
            ticks: 0,
            late: 0,
            steps: 0,
        }
    }

    /// Are there frames that were read and not yet called?
    pub fn has_frames(&self) -> bool {
        (0..NETWORKS).any(|network| self.has_frames_of(network))
    }

    pub fn has_frames_of(&self, network: usize) -> bool {
        self.lanes[network].first().is_some()
    }

    /// How many frames of this network's last batch have been called.
    pub fn called(&self, network: usize) -> usize {
        self.lanes[network].called
    }

    /// How long to wait for a frame before the next turn: until the next tick or until this time at most.
    pub fn pause(&mut self, now: Time, until: Time) -> Time {
        let until = until.min(self.tick);
        if self.has_frames() || until <= now {
            return 0;
        }
        self.awake = until;
        until - now
    }

    /// A turn begins. The clock was read before any port: then "empty" says that all that was queued by this time has been
    /// read. A clock that is read behind it would let a tick overtake what was queued in between.
    pub fn begin(&mut self, clock: Time) {
        // The thread stood still, and perhaps the kernel too: then twins wait in the cards' rings, without a stamp. The time
        // since the turn before does not count.
        if clock - self.awake > self.period / 4 {
            self.tick += clock - self.clock;
            self.late += 1;
        }
        self.clock = clock;
        self.awake = clock;
        // What was read meanwhile has no comparable time either.
        let left = self.by_turns && self.has_frames();
        self.by_turns = left || self.lanes.iter().any(|lane| lane.mixed);
        for lane in &mut self.lanes {
            lane.empty = false;
        }
    }

    /// May the next batch of this port be read? Not over frames that are still to be called. If so, the last one is over.
    pub fn wants(&mut self, network: usize) -> bool {
        let lane = &mut self.lanes[network];
        if lane.first().is_some() {
            return false;
        }
        lane.times.clear();
        lane.called = 0;
        true
    }

    /// A frame was read, with the kernel's stamp in real time if it has one.
    pub fn read(&mut self, network: usize, stamp: Option<i64>) {
        self.lanes[network].stamps.push(stamp);
    }

    /// The port said that it is empty. That fewer frames came than were asked for is no proof of it.
    pub fn empty(&mut self, network: usize) {
        self.lanes[network].empty = true;
    }

    /// Real time less monotonic time, as it was known last.
    pub fn ahead(&self) -> i64 {
        self.ahead
    }

    /// The clock, and real time less monotonic time, both behind the ports' reading: so no frame of this turn was stamped by
    /// a step that is not known. Both clocks are slewed alike, so they move apart by a step alone. Stamps from before and
    /// behind it can't be compared: until each port has said that it is empty they take turns, and there is no tick.
    pub fn known(&mut self, now: Time, ahead: i64) {
        let stepped = ahead != self.ahead;
        self.ahead = ahead;
        self.steps += u64::from(stepped);
        self.by_turns |= stepped;
        for lane in &mut self.lanes {
            lane.mixed |= stepped;
            for stamp in lane.stamps.drain(..) {
                // One without a stamp came behind all that was read. None was stamped behind its reading: one that says so,
                // since a step came between its stamp and its queue, would wait for that time.
                let unknown = lane.newest.max(lane.horizon);
                let time = stamp.map_or(unknown, |real| (real - ahead).min(now));
                lane.times.push(time);
                if !lane.mixed {
                    lane.newest = lane.newest.max(time);
                }
            }
            // In the turn of the step itself the port may have said so before the step.
            if lane.empty && !stepped {
                lane.mixed = false;
                lane.horizon = self.clock;
            }
        }
    }

    /// Up to here every frame is known.
    fn horizon(&self) -> Time {
        self.lanes.iter().fold(self.clock, |least, lane| {
            least.min(lane.horizon.max(lane.newest))
        })
    }

    /// The next call of this turn.
    pub fn next(&mut self) -> Option<Call> {
        if self.by_turns {
            return self.next_by_turns();
        }
        let horizon = self.horizon();
        let times = [0, 1].map(|network: usize| self.lanes[network].first().unwrap_or(Time::MAX));
        let network = usize::from(times[1] < times[0]);
        let time = times[network];
        if self.tick <= time && self.tick <= horizon {
            self.time = self.time.max(self.tick);
            self.tick += self.period;
            self.ticks += 1;
            return Some(Call::Tick);
        }
        self.time = self.time.max(time.min(horizon));
        (time <= horizon).then(|| self.take(network))
    }

    fn next_by_turns(&mut self) -> Option<Call> {
        self.tick = self.clock + self.period;
        // A port without a frame that is not known to be empty is read first.
        if self
            .lanes
            .iter()
            .any(|lane| lane.first().is_none() && !lane.empty)
        {
            return None;
        }
        let waiting = [self.turn_of, 1 - self.turn_of]
            .into_iter()
            .find(|&network| self.has_frames_of(network));
        match waiting {
            Some(network) => {
                self.turn_of = 1 - network;
                Some(self.take(network))
            }
            None => {
                // All that was queued by the clock has been called. Time goes on, however often real time steps.
                self.time = self.time.max(self.clock);
                None
            }
        }
    }

    fn take(&mut self, network: usize) -> Call {
        let place = self.lanes[network].called;
        self.lanes[network].called += 1;
        Call::Frame {
            network,
            place,
            time: self.time,
        }
    }
}

#[cfg(test)]
mod tests {
    use super::*;
    use nippitsun::{tag, Receiver, Settings, Stream, Verdict};
    use std::collections::{BTreeMap, VecDeque};

    const MS: Time = 1_000_000;
    const TICK: Time = 10 * MS;

    fn order() -> Order {
        Order::new(TICK, 0, 0, 0)
    }

    /// One turn at this time: what each port has, and whether it then says that it is empty.
    fn turn(order: &mut Order, clock: Time, ports: [(&[Time], bool); 2]) -> Vec<Call> {
        order.begin(clock);
        for (network, (stamps, empty)) in ports.into_iter().enumerate() {
            if !order.wants(network) {
                assert!(stamps.is_empty(), "a batch over frames still to be called");
                continue;
            }
            stamps
                .iter()
                .for_each(|&stamp| order.read(network, Some(stamp)));
            if empty {
                order.empty(network);
            }
        }
        order.known(clock + 500, order.ahead);
        std::iter::from_fn(|| order.next()).collect()
    }

    fn frame(network: usize, place: usize, time: Time) -> Call {
        Call::Frame {
            network,
            place,
            time,
        }
    }

    #[test]
    fn by_time_and_the_tick_first_on_a_tie() {
        let mut o = order();
        o.pause(0, TICK);
        let calls = turn(&mut o, TICK, [(&[3, TICK], true), (&[1, 4], true)]);
        let expected = [
            frame(1, 0, 1),
            frame(0, 0, 3),
            frame(1, 1, 4),
            Call::Tick,
            frame(0, 1, TICK),
        ];
        assert_eq!(calls, expected);
        assert_eq!((o.ticks, o.late), (1, 0));
    }

    #[test]
    fn a_full_batch_holds_the_other_port_back_and_no_tick_overtakes() {
        let mut o = order();
        o.pause(0, TICK);
        // Port 1 has more than it gave: what is behind its newest frame is not known.
        let calls = turn(&mut o, TICK + 1, [(&[2, 9], true), (&[1, 5], false)]);
        assert_eq!(calls, [frame(1, 0, 1), frame(0, 0, 2), frame(1, 1, 5)]);
        assert!(o.has_frames());
        assert_eq!(o.pause(TICK + 1, 2 * TICK), 0);
        let calls = turn(&mut o, TICK + 2, [(&[], false), (&[8, TICK], true)]);
        let expected = [
            frame(1, 0, 8),
            frame(0, 1, 9),
            Call::Tick,
            frame(1, 1, TICK),
        ];
        assert_eq!(calls, expected);
    }

    #[test]
    fn what_comes_behind_the_clock_waits_for_the_next_turn() {
        let mut o = order();
        // Stamped behind the clock: something older may come into port 0, which was seen empty before.
        let calls = turn(&mut o, 100, [(&[], true), (&[150], true)]);
        assert_eq!(calls, []);
        assert_eq!(o.pause(110, TICK), 0);
        let calls = turn(&mut o, 200, [(&[140], true), (&[], false)]);
        assert_eq!(calls, [frame(0, 0, 140), frame(1, 0, 150)]);
    }

    #[test]
    fn an_empty_port_holds_nothing_back() {
        let mut o = order();
        let calls = turn(&mut o, 100, [(&[7], true), (&[], true)]);
        assert_eq!(calls, [frame(0, 0, 7)]);
        assert_eq!(o.time, 100);
    }

    #[test]
    fn a_frame_without_a_stamp_is_called_at_once() {
        let mut o = order();
        turn(&mut o, 100, [(&[], true), (&[], true)]);
        o.begin(200);
        assert!(o.wants(0) && o.wants(1));
        o.read(0, None);
        o.read(0, Some(150));
        o.read(0, None);
        o.empty(0);
        o.empty(1);
        o.known(201, 0);
        let calls: Vec<Call> = std::iter::from_fn(|| o.next()).collect();
        let expected = [frame(0, 0, 100), frame(0, 1, 150), frame(0, 2, 150)];
        assert_eq!(calls, expected);
    }

    #[test]
    fn a_late_turn_moves_the_tick_by_the_whole_delay() {
        let nothing: [(&[Time], bool); 2] = [(&[], true), (&[], true)];
        let mut o = order();
        assert_eq!(o.pause(0, Time::MAX), TICK);
        // Late by just a quarter: the tick is called.
        assert_eq!(turn(&mut o, TICK + TICK / 4, nothing), [Call::Tick]);
        assert_eq!((o.tick, o.late), (2 * TICK, 0));
        // Late by more: all the time since the turn before is left out.
        let before = TICK + TICK / 4;
        o.pause(before, Time::MAX);
        let now = 2 * TICK + TICK / 4 + 1;
        assert_eq!(turn(&mut o, now, nothing), []);
        assert_eq!((o.tick, o.late), (2 * TICK + now - before, 1));
        // Without a sleep it is the turn itself that took long.
        assert_eq!(turn(&mut o, now + TICK, nothing), []);
        assert_eq!((o.tick, o.late), (3 * TICK + now - before, 2));
        // A sleep that a frame ends is not late.
        o.pause(now + TICK, Time::MAX);
        turn(&mut o, now + TICK + 5, nothing);
        assert_eq!(o.late, 2);
    }

    #[test]
    fn behind_a_step_ports_take_turns_and_no_tick_comes() {
        for step in [3_600_000 * MS, -3_600_000 * MS, 5 * MS, -700 * MS] {
            let mut o = order();
            o.pause(0, TICK);
            turn(&mut o, MS, [(&[], true), (&[], true)]);
            // The clock steps while the ports are read: the second frame has the new clock's stamp.
            o.begin(2 * MS);
            assert!(o.wants(0) && o.wants(1));
            for stamp in [MS + 1, MS + 2 + step] {
                o.read(0, Some(stamp));
            }
            o.empty(0);
            o.read(1, Some(MS + 3 + step));
            o.empty(1);
            o.known(2 * MS + 1, step);
            let calls: Vec<Call> = std::iter::from_fn(|| o.next()).collect();
            let expected = [frame(0, 0, MS), frame(1, 0, MS), frame(0, 1, MS)];
            assert_eq!(calls, expected);
            // Nothing waits any more, so time goes on, though the stamps can't be compared yet.
            let at = 2 * MS;
            assert_eq!((o.steps, o.tick, o.time), (1, at + TICK, at));

            // Frames of the old clock wait in port 1: no tick, however long that lasts.
            let mut clock = 3 * MS;
            for _ in 0..20 {
                let calls = turn(&mut o, clock, [(&[], true), (&[MS, MS + 5], false)]);
                assert_eq!(calls, [frame(1, 0, at), frame(1, 1, at)]);
                clock += 2 * MS;
            }
            // Port 0 has more than port 1: what is left behind does not wait for the time of an old stamp.
            let calls = turn(&mut o, clock, [(&[MS, MS, MS], true), (&[MS], false)]);
            assert_eq!(calls.len(), 2);
            assert!(o.has_frames());
            let calls = turn(&mut o, clock + 1, [(&[], false), (&[], true)]);
            assert_eq!(calls.len(), 2);
            // Both were seen empty, and nothing is left: the order is that of the new stamps again.
            clock += 2 * MS;
            let stamps = [clock + step - 1, clock + step - 2];
            let calls = turn(&mut o, clock, [(&stamps[..1], true), (&stamps[1..], true)]);
            assert_eq!(calls, [frame(1, 0, clock - 2), frame(0, 0, clock - 1)]);
            assert_eq!((o.ticks, o.steps), (0, 1));
            assert_eq!(o.tick, clock - 2 * MS + 1 + TICK);
        }
    }

    #[test]
    fn time_goes_on_however_often_the_clock_steps() {
        let mut o = order();
        for i in 1..100 {
            o.begin(i * MS);
            assert!(o.wants(0) && o.wants(1));
            o.read(0, Some(i));
            o.empty(0);
            o.empty(1);
            o.known(i * MS, i * MS);
            let calls: Vec<Call> = std::iter::from_fn(|| o.next()).collect();
            assert_eq!(calls, [frame(0, 0, (i - 1) * MS)]);
            assert_eq!(o.time, i * MS);
        }
    }

    #[test]
    fn time_stays_where_the_calls_stop() {
        let mut o = order();
        o.pause(0, TICK);
        o.begin(TICK);
        assert!(o.wants(0) && o.wants(1));
        o.read(0, Some(3));
        o.read(0, Some(5));
        o.empty(0);
        o.empty(1);
        o.known(TICK, 0);
        assert_eq!(o.next(), Some(frame(0, 0, 3)));
        assert_eq!((o.time, o.called(0), o.has_frames()), (3, 1, true));
        // The next turn goes on there.
        assert_eq!(
            turn(&mut o, TICK + 1, [(&[], true), (&[], true)]),
            [frame(0, 1, 5), Call::Tick]
        );
        assert_eq!(o.time, TICK);
    }

    #[test]
    fn a_frame_left_behind_a_step_does_not_wait_for_its_stamp() {
        let mut o = order();
        // Port 0 holds port 1 back, so a frame of port 1 is left.
        turn(&mut o, MS, [(&[5], false), (&[7, 8], true)]);
        assert!(o.has_frames());
        o.begin(2 * MS);
        assert!(o.wants(0) && !o.wants(1));
        o.empty(0);
        let step = -3_600_000 * MS;
        o.known(2 * MS, step);
        while o.next().is_some() {}
        // Old stamps, an hour ahead by the new clock. Port 0 is seen empty, and port 1 runs out before it.
        turn(&mut o, 3 * MS, [(&[MS, MS, MS, MS], true), (&[MS], false)]);
        assert!(o.has_frames());
        turn(&mut o, 4 * MS, [(&[], false), (&[], true)]);
        turn(&mut o, 5 * MS, [(&[], true), (&[], true)]);
        assert!(!o.has_frames());
        // One that was queued behind all this with an old stamp waits for no more than its own reading.
        turn(&mut o, 6 * MS, [(&[MS], true), (&[], true)]);
        let calls = turn(&mut o, 7 * MS, [(&[], true), (&[], true)]);
        assert_eq!(calls, [frame(0, 0, 6 * MS + 500)]);
    }

    #[test]
    fn an_old_stamp_is_no_horizon() {
        let mut o = order();
        let step = -3_600_000 * MS;
        turn(&mut o, MS, [(&[], true), (&[], true)]);
        o.known(MS, step);
        // The last frame of the old clock, an hour ahead by the new one, and the thread is held up behind its reading.
        o.begin(2 * MS);
        assert!(o.wants(0) && o.wants(1));
        o.read(0, Some(MS));
        o.empty(0);
        o.empty(1);
        o.known(20 * MS, step);
        while o.next().is_some() {}
        // What was queued meanwhile in port 0 has not all been read: port 1 waits for it.
        let stamps = [5 * MS + step, 10 * MS + step];
        let calls = turn(
            &mut o,
            20 * MS,
            [(&stamps[..1], false), (&stamps[1..], true)],
        );
        assert_eq!(calls, [frame(0, 0, 5 * MS)]);
    }

    /// A network of made-up time: commands, each with a copy on both networks, and a program that is held up.
    struct World {
        state: u64,
        now: Time,
        /// Real time less monotonic time.
        ahead: i64,
        /// Copies on their way: when they come, network, index.
        coming: BTreeMap<(Time, u64), usize>,
        /// Until then the cards take frames and nobody stamps them.
        stamps_from: Time,
        /// What waits in the sockets: stamp, index, and the time of the stamp.
        sockets: [VecDeque<(i64, u64, Time)>; NETWORKS],
    }

    impl World {
        fn draw(&mut self, most: u64) -> u64 {
            self.state ^= self.state << 13;
            self.state ^= self.state >> 7;
            self.state ^= self.state << 17;
            (self.state >> 16) % most
        }

        fn pass_until(&mut self, now: Time) {
            assert!(now >= self.now);
            self.now = now;
            while let Some((&(at, index), &network)) = self.coming.iter().next() {
                let at_stamp = at.max(self.stamps_from);
                if at > now || at_stamp > now {
                    break;
                }
                self.coming.remove(&(at, index));
                let stamp = at_stamp + self.ahead;
                self.sockets[network].push_back((stamp, index / 2, at_stamp));
            }
        }
    }

    /// How the program or the machine is held up in a run.
    #[derive(Clone, Copy, Default)]
    struct Trials {
        thread_stands: bool,
        machine_stands: bool,
        clock_steps: bool,
    }

    /// Runs commands through the order and the library. J is 2.3 ms, so R is 3 with what can hide in a sleep. No index may be
    /// handed up twice, none may be missing, no tick may overtake a frame that was queued before it.
    fn run(seed: u64, trials: Trials) -> [u64; 4] {
        const J: u64 = 2_300_000;
        let mut w = World {
            state: seed,
            now: 0,
            ahead: 1_700_000_000 * 1_000 * MS,
            coming: BTreeMap::new(),
            stamps_from: 0,
            sockets: Default::default(),
        };
        let indices = 200;
        let mut at = 0;
        for index in 0..indices {
            // Some come close together, some farther apart than R ticks.
            at += 3 * MS + w.draw(60_000_000) as Time;
            for network in 0..NETWORKS {
                let delay = w.draw(J) as Time;
                w.coming
                    .insert((at + delay, 2 * index + network as u64), network);
            }
        }
        let end = at + 50 * MS;
        let mut receiver = Receiver::new(1);
        let settings = Settings {
            destination: [2, 0, 0, 0, 0, 1],
            vlan: 0,
            rule: Stream::VECTOR_RULE,
            window: 5,
            time: 3,
        };
        receiver.open(settings).unwrap();
        let mut o = Order::new(TICK, 0, 0, w.ahead);
        let mut read: [Vec<(u64, Time)>; NETWORKS] = Default::default();
        let mut up = vec![0_u64; indices as usize];
        let mut last_tick = 0;
        while w.now < end || up.iter().sum::<u64>() < indices {
            assert!(w.now < 4 * end, "a frame waits for ever");
            // The wait: until a frame comes, or for the pause.
            let now = w.now;
            let pause = o.pause(now, now + 1000 * MS);
            let first = w
                .coming
                .keys()
                .next()
                .map_or(Time::MAX, |&(at, _)| at.max(w.stamps_from));
            let waits = w.sockets.iter().any(|socket| !socket.is_empty());
            let wake = if waits {
                now
            } else {
                first.clamp(now, now + pause)
            };
            w.pass_until(wake);
            if w.draw(10) == 0 {
                let stall = match w.draw(3) {
                    0 => 300 * MS,
                    _ => 4 * MS + w.draw(12_000_000) as Time,
                };
                if trials.machine_stands {
                    w.stamps_from = w.now + stall;
                    w.now += stall;
                    // What came meanwhile is stamped at the end, in the order in which it came.
                    let now = w.now;
                    w.pass_until(now);
                } else if trials.thread_stands {
                    let now = w.now + stall;
                    w.pass_until(now);
                }
            }
            let clock = w.now;
            o.begin(clock);
            for (network, batch) in read.iter_mut().enumerate() {
                if !o.wants(network) {
                    continue;
                }
                batch.clear();
                // Few rooms, so that batches are full.
                while batch.len() < 3 {
                    let held = if trials.thread_stands && w.draw(50) == 0 {
                        20 * MS
                    } else {
                        1000
                    };
                    let now = w.now + held;
                    w.pass_until(now);
                    match w.sockets[network].pop_front() {
                        Some((stamp, index, time)) => {
                            o.read(network, Some(stamp));
                            batch.push((index, time));
                        }
                        None => {
                            o.empty(network);
                            break;
                        }
                    }
                }
                if trials.clock_steps && w.draw(40) == 0 {
                    w.ahead += [5 * MS, -5 * MS, 3_600_000 * MS, -700 * MS][w.draw(4) as usize];
                }
            }
            o.known(w.now, w.ahead);
            loop {
                let tick = o.tick;
                match o.next() {
                    None => break,
                    Some(Call::Tick) => {
                        assert!(tick - last_tick >= TICK && tick <= clock);
                        last_tick = tick;
                        receiver.tick().unwrap();
                        let waiting = w.sockets.iter().flatten().map(|&(_, _, time)| time);
                        let uncalled = (0..NETWORKS).flat_map(|n| &read[n][o.lanes[n].called..]);
                        let earliest = waiting.chain(uncalled.map(|&(_, time)| time)).min();
                        assert!(
                            earliest.map_or(true, |time| time >= tick),
                            "a tick overtakes"
                        );
                    }
                    Some(Call::Frame { network, place, .. }) => {
                        let (index, _) = read[network][place];
                        let mut bare = [0; 60];
                        bare[..6].copy_from_slice(&settings.destination);
                        bare[12] = 8;
                        let mut tagged = [0; 66];
                        tag::put(&bare, index as u16, &mut tagged).unwrap();
                        let a = receiver.arrival(network as u8, &tagged, &mut bare).unwrap();
                        if matches!(a.verdict, Verdict::HandedUp { .. }) {
                            up[index as usize] += 1;
                        }
                    }
                }
            }
            // Nothing that was queued by the clock waits where both ports were seen empty.
            if o.lanes.iter().all(|lane| lane.empty) {
                assert!(o
                    .lanes
                    .iter()
                    .all(|lane| lane.first().map_or(true, |time| time > clock)));
            }
            w.now += 1000;
        }
        assert!(up.iter().all(|&times| times == 1), "seed {seed}: {up:?}");
        let resets = receiver.records()[0].counts.resets;
        [o.ticks, o.late, o.steps, resets]
    }

    /// What happened in all runs: ticks, late turns, steps of the clock, resets.
    fn runs(trials: Trials) -> [u64; 4] {
        let mut sum = [0; 4];
        for seed in 1..=100 {
            let one = run(seed, trials);
            sum.iter_mut().zip(one).for_each(|(sum, n)| *sum += n);
        }
        sum
    }

    #[test]
    fn runs_with_nothing_in_the_way() {
        let [ticks, late, steps, resets] = runs(Trials::default());
        assert!(ticks > 10_000 && late == 0 && steps == 0 && resets > 1000);
    }

    #[test]
    fn runs_with_a_thread_that_is_held_up() {
        let [ticks, late, steps, resets] = runs(Trials {
            thread_stands: true,
            ..Trials::default()
        });
        assert!(ticks > 10_000 && late > 1000 && steps == 0 && resets > 1000);
    }

    #[test]
    fn runs_with_a_machine_that_stands_still() {
        let [ticks, late, steps, resets] = runs(Trials {
            machine_stands: true,
            ..Trials::default()
        });
        assert!(ticks > 10_000 && late > 1000 && steps == 0 && resets > 1000);
    }

    #[test]
    fn runs_with_steps_of_the_clock() {
        let [ticks, late, steps, resets] = runs(Trials {
            thread_stands: true,
            clock_steps: true,
            ..Trials::default()
        });
        assert!(ticks > 10_000 && late > 1000 && steps > 1000 && resets > 1000);
    }
}
