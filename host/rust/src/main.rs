//! Two network interfaces, the proved receiver, one stream of frames on standard output: host/receive.c once more, in Rust.
//! host/README.md says how to run it, and why it does what it does.
#![deny(unsafe_code)]

mod clock;
mod filter;
mod frame;
mod options;
mod order;
mod port;
mod report;
mod ring;
mod say;
mod socket;
mod trouble;
mod up;
mod watch;

use clock::Clock;
use filter::Key;
use nippitsun::{dest_of, prp, Arrival, Receiver, Stream, Verdict};
use options::{Asked, Give, Options};
use order::{Call, Order, Time, NETWORKS};
use port::{Port, Setup};
use report::{About, Network, Refused, Report};
use say::{say, say_now};
use socket::{Came, Output, Signal, Signals};
use std::ffi::OsString;
use std::fs::{File, OpenOptions};
use std::io::{self, Write};
use std::process::ExitCode;
use trouble::{failed, words, Trouble};
use up::Up;
use watch::{News, Rise, Watches};

const MILLISECOND: Time = 1_000_000;
const SECOND: Time = 1_000_000_000;

/// Longer than any program runs, and times can still be added to it.
const NEVER: Time = Time::MAX / 2;

/// How long frames are still taken and given after a signal, if they do not stop, or their reader does.
const LAST_TURNS: Time = 5 * SECOND;

/// Standard output takes nothing, and there is no more room for what is handed up.
struct Stall {
    since: Time,
    /// What the kernel had dropped by then.
    dropped: [u64; NETWORKS],
    said: bool,
}

struct Host {
    options: Options,
    setup: Setup,
    clock: Clock,
    order: Order,
    ports: Vec<Port>,
    /// So many ticks of the wait at the start are left. Until then the table is empty, and nothing is called.
    ticks_to_wait: u64,
    receiver: Receiver,
    /// The destinations of virtual links. All frames that go there are theirs: no other stream has one of these.
    links: Vec<u64>,
    watches: Watches,
    drops: [Rise; NETWORKS],
    refused: Refused,
    damaged: u64,
    /// Where the library writes a frame of a PRP line that it has turned, and one that it hands up.
    tagged: Box<[u8; Stream::FRAME_MOST]>,
    out: Box<[u8; Stream::FRAME_MOST]>,
    up: Up,
    output: Option<Output>,
    stalled: Option<Stall>,
    stalls: u64,
    stall_last_said: Time,
    /// The last turn with a frame, and when the next second is over.
    last: Time,
    second: Time,
    /// When all must be done, once it has been asked for.
    end: Option<Time>,
    /// No port is read any more: what waits for standard output is given, and no more.
    closing: bool,
    stats_failed: bool,
}

impl Host {
    /// One turn: reads the ports, and makes the calls whose time has come, as long as there is room for what they hand up.
    /// Answers how many frames there were.
    fn turn(&mut self) -> Result<u64, Trouble> {
        self.order.begin(self.clock.now());
        for port in &mut self.ports {
            port.fill(&mut self.order)?;
        }
        let ahead = self.clock.ahead(self.order.ahead());
        self.order.known(self.clock.now(), ahead);
        let mut taken = 0;
        while !self.up.is_full() {
            match self.order.next() {
                None => break,
                Some(Call::Tick) => self.tick()?,
                Some(Call::Frame {
                    network: port,
                    place,
                    time,
                }) => {
                    taken += 1;
                    match self.ticks_to_wait {
                        0 => self.arrival(port, place, time)?,
                        _ => self.ports[port].count_early(place),
                    }
                }
            }
        }
        for port in &mut self.ports {
            port.free(&self.order);
        }
        if self.ticks_to_wait == 0 {
            let found = self.watches.found_by(self.order.time);
            self.tell(&found)?;
        }
        Ok(taken)
    }

    fn tick(&mut self) -> Result<(), Trouble> {
        let refused = |refusal: nippitsun::Refusal| Trouble::Failed(refusal.to_string());
        if self.ticks_to_wait == 0 {
            self.damaged = self.receiver.tick().map_err(refused)?.damaged;
            return Ok(());
        }
        self.ticks_to_wait -= 1;
        match self.ticks_to_wait {
            0 => self.listen(),
            _ => Ok(()),
        }
    }

    /// The wait is over: from here on the streams are open.
    fn listen(&mut self) -> Result<(), Trouble> {
        for &settings in &self.options.streams {
            let opened = self.receiver.open(settings);
            opened.map_err(|refusal| Trouble::Failed(refusal.to_string()))?;
        }
        let alarm = match self.options.alarm_ms {
            0 => None,
            ms => Some(ms * MILLISECOND),
        };
        self.watches = Watches::new(self.options.streams.len(), alarm, self.order.time);
        self.last = self.clock.now();
        let [first, second] = &self.options.interfaces;
        say(&format!("listening on {first} and {second}"));
        Ok(())
    }

    /// A frame of a port. One of a PRP line is turned here and no earlier: the order goes by the port that it came on, and the
    /// arrival is on the network that LAN gives.
    fn arrival(&mut self, port: usize, place: usize, time: Time) -> Result<(), Trouble> {
        let frame = match self.ports[port].frame(place) {
            Some(frame) => frame,
            None => return Ok(()),
        };
        let (network, frame) = match self.options.prp {
            None => (port, frame),
            Some(kind) => {
                let turned = match prp::from(frame, kind, &mut self.tagged[..]) {
                    Ok(turned) => turned,
                    Err(refusal) => {
                        self.refused[usize::from(refusal.number())] += 1;
                        return Ok(());
                    }
                };
                let network = usize::from(turned.network);
                if network != port {
                    self.ports[port].count_crossed(network);
                }
                (network, &self.tagged[..turned.length])
            }
        };
        let (number, out) = (network as u8, &mut self.out[..]);
        let answer = match goes_to(&self.links, frame) {
            true => self.receiver.link_arrival(number, frame, out),
            false => self.receiver.arrival(number, frame, out),
        };
        let Arrival {
            slot,
            number,
            priority,
            verdict,
        } = match answer {
            Ok(arrival) => arrival,
            Err(refusal) => {
                self.refused[usize::from(refusal.number())] += 1;
                return Ok(());
            }
        };
        if let Verdict::HandedUp { length } = verdict {
            let frame = &self.out[..length];
            self.up.hand_up(slot, number, priority, frame);
        }
        let stream = &self.receiver.records()[slot];
        let news = self.watches.arrival(slot, network, verdict, stream, time);
        self.tell(&news)
    }

    fn tell(&self, news: &[News]) -> Result<(), Trouble> {
        if news.is_empty() {
            return Ok(());
        }
        let about = About {
            alarm_ms: self.options.alarm_ms,
            interfaces: &self.options.interfaces,
            states: [self.ports[0].state()?, self.ports[1].state()?],
        };
        for &news in news {
            let stream = &self.receiver.records()[news.slot];
            say_now(&report::news_line(news, stream, &about));
        }
        Ok(())
    }

    fn count_dropped(&mut self) -> Result<[u64; NETWORKS], Trouble> {
        for port in &mut self.ports {
            port.count_dropped()?;
        }
        Ok([0, 1].map(|network: usize| self.ports[network].counts.dropped))
    }

    fn report(&mut self) -> Result<Report<'_>, Trouble> {
        self.count_dropped()?;
        let states = [self.ports[0].state()?, self.ports[1].state()?];
        Ok(Report {
            listening: self.ticks_to_wait == 0,
            records: self.receiver.records(),
            watches: &self.watches,
            refused: &self.refused,
            damaged: self.damaged,
            networks: [0, 1].map(|network: usize| Network {
                interface: &self.options.interfaces[network],
                counts: self.ports[network].counts,
                state: states[network],
            }),
            prp: self.options.prp.is_some(),
            waiting: self.up.frames() as u64,
            stalls: self.stalls,
            // Those of the wait were not called.
            ticks: self.order.ticks + self.ticks_to_wait - self.options.ticks_of_wait(),
            late: self.order.late,
            steps: self.order.steps,
        })
    }

    fn say_counters(&mut self) -> Result<(), Trouble> {
        say(&self.report()?.lines());
        Ok(())
    }

    fn write_stats(&mut self) -> Result<(), Trouble> {
        let file = match self.options.stats.clone() {
            Some(file) => file,
            None => return Ok(()),
        };
        let written = report::write_over(&file, &self.report()?.prometheus());
        let (name, failed) = (file.display(), written.is_err());
        match written {
            Err(e) if !self.stats_failed => say(&format!("warning: {name}: {}", words(&e))),
            Ok(()) if self.stats_failed => {
                say_now(&format!("again: {name}: counters are written again"))
            }
            _ => {}
        }
        self.stats_failed = failed;
        Ok(())
    }

    /// What has risen since this was last asked for, and whether second copies come.
    fn look_at_counters(&mut self) -> Result<(), Trouble> {
        let found = self.watches.look(self.receiver.records(), self.order.time);
        self.tell(&found)?;
        let dropped = self.count_dropped()?;
        for (network, interface) in self.options.interfaces.iter().enumerate() {
            if let Some(rose) = self.drops[network].look(dropped[network]) {
                say_now(&report::drops_line(rose, network, interface));
            }
        }
        Ok(())
    }

    /// Are the ports read? Not while there is no room for what is handed up: frames and ticks stay in their order, so neither
    /// is called then.
    fn reads(&self) -> bool {
        self.stalled.is_none() && !self.closing
    }

    fn wait(&mut self, signals: &Signals) -> Result<Came, Trouble> {
        let now = self.clock.now();
        let mut sockets = [None; NETWORKS];
        let pause = if self.reads() {
            sockets = [self.ports[0].socket(), self.ports[1].socket()];
            let quiet = self.last + self.options.quiet.unwrap_or(NEVER);
            let until = self.end.map_or(self.second.min(quiet), |_| now);
            self.order.pause(now, until)
        } else {
            let until = self.end.map_or(self.second, |end| end.min(self.second));
            (until - now).max(0)
        };
        let waiting = self.up.waiting() > 0;
        let output = self.output.as_ref().filter(|_| waiting);
        socket::wait(sockets, signals, output, pause).map_err(failed("ppoll"))
    }

    /// Gives what waits, as far as it is taken, and sees whether that stops the turns or lets them go on.
    fn give(&mut self) -> Result<io::Result<()>, Trouble> {
        if let Some(output) = &mut self.output {
            if let Err(e) = self.up.give(output) {
                return Ok(Err(e));
            }
        }
        let now = self.clock.now();
        match &self.stalled {
            None if self.up.is_full() => {
                let dropped = self.count_dropped()?;
                let said = self.say_stall(now);
                self.stalled = Some(Stall {
                    since: now,
                    dropped,
                    said,
                });
                self.stalls += 1;
            }
            Some(stall) if !self.up.is_half_full() => {
                let (ms, before) = ((now - stall.since) / MILLISECOND, stall.dropped);
                let said = stall.said;
                self.stalled = None;
                if !said {
                    return Ok(Ok(()));
                }
                let dropped = self.count_dropped()?;
                let [first, second] = &self.options.interfaces;
                say_now(&format!(
                    "again: standard output takes frames after {ms} ms; dropped by the kernel meanwhile on network 0 ({first}): \
                     {}, on network 1 ({second}): {}",
                    dropped[0] - before[0],
                    dropped[1] - before[1]
                ));
            }
            Some(stall) if !stall.said => {
                let (since, dropped) = (stall.since, stall.dropped);
                let said = self.say_stall(now);
                self.stalled = Some(Stall {
                    since,
                    dropped,
                    said,
                });
            }
            _ => {}
        }
        Ok(Ok(()))
    }

    /// At most once a second: a small backlog may fill and empty many times. Answers whether it was said.
    fn say_stall(&mut self, now: Time) -> bool {
        if now - self.stall_last_said < SECOND {
            return false;
        }
        self.stall_last_said = now;
        let kb = self.options.backlog_kb;
        say_now(&format!(
            "stalled: standard output takes nothing, and the backlog of {kb} KB is full: nothing more is read, and ticks stop"
        ));
        true
    }

    fn look_after_ports(&mut self, each_second: bool) -> Result<(), Trouble> {
        if let [one, other] = &mut self.ports[..] {
            one.look(other, &self.order, &self.setup, each_second)?;
            other.look(one, &self.order, &self.setup, each_second)?;
        }
        Ok(())
    }

    /// Turns, until a signal, a long quiet or standard output ends them. Answers why nothing more could be given, if that is so.
    fn run(&mut self, signals: &mut Signals) -> Result<Option<io::Error>, Trouble> {
        loop {
            let came = self.wait(signals)?;
            for (port, error) in self.ports.iter_mut().zip(came.errors) {
                if error {
                    port.went_down()?;
                }
            }
            let taken = match self.reads() {
                true => Some(self.turn()?),
                false => None,
            };
            // Whoever reads standard output has each frame before the next wait.
            if let Err(e) = self.give()? {
                return Ok(Some(e));
            }
            let now = self.clock.now();
            if self.ticks_to_wait > 0 || taken.map_or(false, |taken| taken > 0) {
                self.last = now;
            }
            let each_second = now >= self.second;
            if taken.is_some() {
                self.look_after_ports(each_second)?;
            }
            if each_second {
                self.second = now + SECOND;
                self.look_at_counters()?;
                self.write_stats()?;
            }
            if came.signal {
                match signals.next().map_err(failed("signals"))? {
                    Signal::Say => self.say_counters()?,
                    Signal::End if self.ticks_to_wait > 0 => return Ok(None),
                    Signal::End => self.end = self.end.or(Some(now + LAST_TURNS)),
                }
            }
            if self.is_over(taken, now) {
                return Ok(None);
            }
        }
    }

    /// Behind a turn, or a wait without one: is all done that is to be done before the end?
    fn is_over(&mut self, taken: Option<u64>, now: Time) -> bool {
        if taken.is_some() && self.reads() && !self.order.has_frames() {
            let quiet = self.options.quiet.unwrap_or(NEVER);
            let is_quiet = now - self.last >= quiet;
            let is_last = self.end.is_some() && taken == Some(0);
            self.closing = is_quiet || is_last;
            if self.closing {
                self.end = self.end.or(Some(now + LAST_TURNS));
            }
        }
        let given = self.closing && self.up.waiting() == 0;
        given || self.end.map_or(false, |end| now >= end)
    }

    /// The last words. What was handed up and not given is a failure.
    fn close(&mut self, why: Option<io::Error>) -> Result<(), Trouble> {
        self.look_at_counters()?;
        self.write_stats()?;
        self.say_counters()?;
        self.all_given(why)
    }

    fn all_given(&self, why: Option<io::Error>) -> Result<(), Trouble> {
        let reason = why.map_or("its reader takes nothing".to_string(), |e| words(&e));
        match self.up.frames() {
            0 => Ok(()),
            frames => Err(Trouble::Failed(format!(
                "standard output: {reason}; {frames} frames that were handed up were not given"
            ))),
        }
    }

    /// The machine has failed. What was handed up before that is given as far as it is taken, and the rest is said.
    fn give_up(&mut self) {
        let given = self.give();
        let why = given.map_or(None, Result::err);
        if let Err(Trouble::Failed(what)) = self.all_given(why) {
            say(&format!("failed: {what}"));
        }
    }
}

/// Does a frame go to one of these destinations?
fn goes_to(links: &[u64], frame: &[u8]) -> bool {
    match frame.get(..6) {
        Some(&[a, b, c, d, e, f]) => links.contains(&dest_of([a, b, c, d, e, f])),
        _ => false,
    }
}

/// The destinations of virtual links, and the keys of all other streams.
fn links_and_keys(receiver: &Receiver) -> (Vec<u64>, Vec<Key>) {
    let used = receiver.records().iter().filter(|stream| stream.is_used());
    let (links, others): (Vec<&Stream>, Vec<&Stream>) =
        used.partition(|stream| stream.rule == Stream::LINK_RULE);
    let keys = others.iter().map(|stream| (stream.dest, stream.vlan));
    (links.iter().map(|link| link.dest).collect(), keys.collect())
}

/// The lock beside the file of counters, held for as long as it is open.
fn lock_stats(options: &Options) -> Result<Option<File>, Trouble> {
    let file = match &options.stats {
        Some(file) => file,
        None => return Ok(None),
    };
    let mut open = OpenOptions::new();
    let lock = open.write(true).create(true);
    match lock.open(report::beside(file, ".lock")) {
        Ok(lock) if socket::is_locked_by_another(&lock) => {
            let what = format!("--stats {}: another receiver writes it", file.display());
            Err(Trouble::Refused(what))
        }
        Ok(lock) => Ok(Some(lock)),
        Err(e) => {
            let name = report::beside(file, ".lock");
            say(&format!("warning: {}: {}", name.display(), words(&e)));
            Ok(None)
        }
    }
}

fn say_how_it_begins(options: &Options) {
    let (ticks, ms, all) = (options.ticks_of_wait(), options.tick_ms, options.wait_ms());
    say(&format!(
        "waiting for {ticks} ticks of {ms} ms, {all} ms in all: copies of what was handed up before may still come"
    ));
}

fn receive(options: Options) -> Result<(), Trouble> {
    let gives = options.give != Give::Nothing;
    if gives && socket::output_is_closed() {
        return Err(Trouble::Refused(CLOSED.to_string()));
    }
    let numbers = port::find_all(&options.interfaces)?;
    let _lock = lock_stats(&options)?;
    let (links, keys) = links_and_keys(&options.asked);
    let setup = Setup {
        filter: (!options.all).then(|| filter::program(&links, &keys, options.prp)),
        room: options.room_kb << 10,
        ring: options.ring,
    };
    let mut signals = Signals::hold().map_err(failed("signals"))?;
    let clock = Clock::new();
    let rooms = port::rooms();
    let tagged = Box::new([0; Stream::FRAME_MOST]);
    let out = Box::new([0; Stream::FRAME_MOST]);
    let up = Up::new(options.give, options.backlog_kb << 10).map_err(failed("the backlog"))?;
    let output = match gives {
        true => Some(Output::open().map_err(failed("standard output"))?),
        false => None,
    };
    // The first time asks for the time zone, which is read from a file.
    socket::local_time();
    // A page that has to be fetched back from the disk is a stall. Without the right to lock so much the program goes on. Rings
    // are the kernel's memory and are not swapped, but would count against the limit: so they come later.
    if let Err(e) = socket::lock_memory() {
        say(&format!("warning: memory is not locked: {}", words(&e)));
    }
    let opened = clock.now();
    let ports = port::open_all(&options.interfaces, numbers, &setup, rooms)?;
    let now = clock.now();
    let period = options.tick_ms * MILLISECOND;
    let mut host = Host {
        order: Order::new(period, opened, now, clock.measure_ahead()),
        ticks_to_wait: options.ticks_of_wait(),
        receiver: Receiver::new(Stream::SLOTS_MOST),
        links,
        watches: Watches::new(0, None, now),
        drops: [Rise::default(); NETWORKS],
        options,
        setup,
        clock,
        ports,
        refused: [0; report::NUMBERS],
        damaged: 0,
        tagged,
        out,
        up,
        output,
        stalled: None,
        stalls: 0,
        stall_last_said: -NEVER,
        last: now,
        second: now + SECOND,
        end: None,
        closing: false,
        stats_failed: false,
    };
    match host.ticks_to_wait {
        0 => host.listen()?,
        _ => say_how_it_begins(&host.options),
    }
    match host.run(&mut signals) {
        Ok(why) => host.close(why),
        Err(trouble) => {
            host.give_up();
            Err(trouble)
        }
    }
}

const CLOSED: &str = "standard output is closed";

fn run() -> Result<(), Trouble> {
    let words = std::env::args_os().skip(1).map(|word| {
        let no_text = |word: OsString| format!("'{}' is no text", word.to_string_lossy());
        word.into_string().map_err(no_text)
    });
    let words = words.collect::<Result<Vec<String>, String>>()?;
    let warn = |what| say(&format!("warning: {what}"));
    let text = match options::read(words, warn)? {
        Asked::Run(options) => return receive(*options),
        Asked::Text(_) if socket::output_is_closed() => {
            return Err(Trouble::Refused(CLOSED.to_string()))
        }
        Asked::Text(text) => text,
    };
    let written = io::stdout().write_all(text.as_bytes());
    written.map_err(failed("standard output"))
}

fn main() -> ExitCode {
    let (said, status) = match run() {
        Ok(()) => return ExitCode::SUCCESS,
        Err(Trouble::Failed(what)) => (format!("failed: {what}"), 1),
        Err(Trouble::Refused(what)) => (format!("refused: {what}"), 2),
        Err(Trouble::Misused(what)) => (what + options::USAGE, 2),
    };
    say(&said);
    ExitCode::from(status)
}
