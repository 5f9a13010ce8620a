//! What the program tells of itself: the counters in lines and in the text form that Prometheus reads, and alarms.

use crate::options;
use crate::order::NETWORKS;
use crate::port;
use crate::socket::State;
use crate::watch::{self, News, Rose, Side, Watches, What};
use nippitsun::{Counts, Refusal, Stream};
use std::ffi::OsString;
use std::fmt::{Display, Write as _};
use std::fs;
use std::io;
use std::path::{Path, PathBuf};

/// One of the counters of each stream: name, words, which field.
type OfStream = (&'static str, &'static str, fn(&Counts) -> u64);
/// One of the figures of each stream on each network.
type OfSide = (&'static str, &'static str, &'static str, fn(&Side) -> u64);
/// One of the figures of each network.
type OfNetwork = (
    &'static str,
    &'static str,
    &'static str,
    fn(&Network) -> u64,
);

pub struct Network<'a> {
    pub interface: &'a str,
    pub counts: port::Counts,
    pub state: State,
}

/// How many numbers a refusal can have: it is told in a byte, and not every one below the greatest is given.
pub const NUMBERS: usize = 1 << u8::BITS;
/// How often each refusal was given, by its number.
pub type Refused = [u64; NUMBERS];

/// All counters at one time.
pub struct Report<'a> {
    /// The wait at the start is over.
    pub listening: bool,
    pub records: &'a [Stream],
    pub watches: &'a Watches,
    pub refused: &'a Refused,
    pub damaged: u64,
    pub networks: [Network<'a>; NETWORKS],
    /// The line is a PRP line.
    pub prp: bool,
    /// Frames that wait for standard output, and how often there was no room for more.
    pub waiting: u64,
    pub stalls: u64,
    pub ticks: u64,
    pub late: u64,
    pub steps: u64,
}

const STREAM_COUNTERS: [OfStream; 6] = [
    ("passed_total", "Frames handed up.", |c| c.passed),
    ("discarded_total", "Duplicates.", |c| c.discarded),
    ("rogue_total", "Frames outside the window.", |c| c.rogue),
    (
        "out_of_order_total",
        "Frames handed up out of order.",
        |c| c.disorder,
    ),
    (
        "lost_total",
        "Numbers after the first that left the window and were not handed up.",
        |c| c.lost,
    ),
    ("resets_total", "Times the stream became fresh.", |c| {
        c.resets
    }),
];

const SIDES: [OfSide; 3] = [
    (
        "silent",
        "gauge",
        "1 while a network has no arrivals of a stream and the other has.",
        |w| w.silent.into(),
    ),
    (
        "silences_total",
        "counter",
        "Times a network fell silent for a stream.",
        |w| w.silences,
    ),
    (
        "returns_total",
        "counter",
        "Times a silent network had arrivals again.",
        |w| w.returns,
    ),
];

/// On a PRP line alone.
const CROSSED: OfNetwork = (
    "crossed_total",
    "counter",
    "Frames with the other network's LAN in their trailer.",
    |n| n.counts.crossed,
);

const STATES: [OfNetwork; 2] = [
    (
        "open",
        "gauge",
        "1 while the interface is there, open and administratively up.",
        |n| matches!(n.state, State::Up | State::NoCarrier).into(),
    ),
    (
        "carrier",
        "gauge",
        "1 while the interface has a carrier.",
        |n| (n.state == State::Up).into(),
    ),
];

const NETWORK_COUNTERS: [OfNetwork; 7] = [
    (
        "frames_total",
        "counter",
        "Frames read from a network.",
        |n| n.counts.frames,
    ),
    (
        "early_total",
        "counter",
        "Frames read in the wait at the start, and not called.",
        |n| n.counts.early,
    ),
    (
        "outgoing_total",
        "counter",
        "Frames read that this machine sent.",
        |n| n.counts.outgoing,
    ),
    (
        "dropped_total",
        "counter",
        "Frames that the kernel dropped for want of room.",
        |n| n.counts.dropped,
    ),
    (
        "unstamped_total",
        "counter",
        "Frames without the kernel's time stamp.",
        |n| n.counts.unstamped,
    ),
    (
        "cut_total",
        "counter",
        "Frames longer than a place that frames are read into.",
        |n| n.counts.cut,
    ),
    (
        "reopened_total",
        "counter",
        "Times an interface was there again.",
        |n| n.counts.reopened,
    ),
];

/// Text that grows. Writing to a string does not fail.
struct Text(String);

impl Text {
    /// The head of a family.
    fn family(&mut self, name: &str, kind: &str, what: &str) {
        let _ = writeln!(self.0, "# HELP nippitsun_{name} {what}");
        let _ = writeln!(self.0, "# TYPE nippitsun_{name} {kind}");
    }

    /// One value of a family, with its labels in braces if it has some.
    fn value(&mut self, name: &str, labels: &dyn Display, value: u64) {
        let _ = writeln!(self.0, "nippitsun_{name}{labels} {value}");
    }

    /// A family of one value.
    fn alone(&mut self, name: &str, kind: &str, what: &str, value: u64) {
        self.family(name, kind, what);
        self.value(name, &"", value);
    }
}

impl Report<'_> {
    fn streams(&self) -> Vec<(usize, &Stream)> {
        let records = self.records.iter().enumerate();
        records.filter(|(_, stream)| stream.is_used()).collect()
    }

    /// A line a stream, a line a refusal that was given, a line a network, one of standard output, and one of the turns.
    pub fn lines(&self) -> String {
        let mut text = String::new();
        for (slot, s) in self.streams() {
            let (c, [side0, side1]) = (&s.counts, self.watches.of(slot));
            let _ = writeln!(
                text,
                "{} rule {} L {} R {} arrivals0 {} arrivals1 {} passed {} discarded {} rogue {} out_of_order {} lost {} \
                 resets {} silences0 {} returns0 {} silences1 {} returns1 {}",
                name_of(slot, s),
                options::rule_words(s.rule),
                s.window,
                s.time,
                c.arrivals0,
                c.arrivals1,
                c.passed,
                c.discarded,
                c.rogue,
                c.disorder,
                c.lost,
                c.resets,
                side0.silences,
                side0.returns,
                side1.silences,
                side1.returns,
            );
        }
        for refusal in Refusal::ALL {
            let (number, words) = (refusal.number(), refusal.words());
            match self.refused[usize::from(number)] {
                0 => {}
                count => {
                    let _ = writeln!(text, "refused {number} ({words}) {count}");
                }
            }
        }
        if self.damaged != 0 {
            let _ = writeln!(text, "damaged {}", self.damaged);
        }
        for (i, network) in self.networks.iter().enumerate() {
            let c = &network.counts;
            let crossed = match self.prp {
                true => format!(" crossed {}", c.crossed),
                false => String::new(),
            };
            let _ = writeln!(
                text,
                "network {i} ({}) frames {} early {} outgoing {} dropped {} unstamped {} cut {} reopened {}{crossed}",
                network.interface,
                c.frames,
                c.early,
                c.outgoing,
                c.dropped,
                c.unstamped,
                c.cut,
                c.reopened
            );
        }
        let (waiting, stalls) = (self.waiting, self.stalls);
        let _ = writeln!(text, "output waiting {waiting} stalls {stalls}");
        let (ticks, late, steps) = (self.ticks, self.late, self.steps);
        let turns = format!("ticks {ticks} late_turns {late} clock_steps {steps}");
        text + &turns
    }

    /// The same in the text form that Prometheus reads.
    pub fn prometheus(&self) -> String {
        let mut text = Text(String::new());
        text.alone(
            "listening",
            "gauge",
            "1 once the wait at the start is over and the streams are open.",
            self.listening.into(),
        );
        let name = "arrivals_total";
        let what = "Arrivals of a stream on a network.";
        text.family(name, "counter", what);
        for (slot, s) in self.streams() {
            let arrivals = [s.counts.arrivals0, s.counts.arrivals1];
            for (network, count) in arrivals.into_iter().enumerate() {
                text.value(name, &labels(slot, s, Some(network)), count);
            }
        }
        for (name, what, field) in STREAM_COUNTERS {
            text.family(name, "counter", what);
            for (slot, s) in self.streams() {
                text.value(name, &labels(slot, s, None), field(&s.counts));
            }
        }
        for (name, kind, what, field) in SIDES {
            text.family(name, kind, what);
            for (slot, s) in self.streams() {
                for (network, side) in self.watches.of(slot).iter().enumerate() {
                    text.value(name, &labels(slot, s, Some(network)), field(side));
                }
            }
        }
        text.family(
            "refused_total",
            "counter",
            "Frames that the receiver refused, by number.",
        );
        for refusal in Refusal::ALL {
            let number = refusal.number();
            let labels = format!("{{number=\"{number}\"}}");
            text.value("refused_total", &labels, self.refused[usize::from(number)]);
        }
        text.alone(
            "damaged",
            "gauge",
            "Records in use that are damaged, at the last tick.",
            self.damaged,
        );
        let crossed = self.prp.then_some(CROSSED);
        let figures = NETWORK_COUNTERS.into_iter().chain(crossed).chain(STATES);
        for (name, kind, what, field) in figures {
            text.family(name, kind, what);
            for (i, network) in self.networks.iter().enumerate() {
                text.value(name, &format!("{{network=\"{i}\"}}"), field(network));
            }
        }
        for (name, kind, what, count) in [
            (
                "output_waiting",
                "gauge",
                "Frames handed up that wait for standard output.",
                self.waiting,
            ),
            (
                "stalls_total",
                "counter",
                "Times the backlog for standard output was full.",
                self.stalls,
            ),
            ("ticks_total", "counter", "Ticks.", self.ticks),
            (
                "late_turns_total",
                "counter",
                "Turns that came late by more than a quarter of a tick.",
                self.late,
            ),
            (
                "clock_steps_total",
                "counter",
                "Steps of real time.",
                self.steps,
            ),
        ] {
            text.alone(name, kind, what, count);
        }
        text.0
    }
}

/// What lines call a stream.
fn name_of(slot: usize, stream: &Stream) -> String {
    format!(
        "slot {slot} dest {} vlan {}",
        address_of(stream),
        stream.vlan
    )
}

fn address_of(stream: &Stream) -> String {
    let bytes = stream.dest.to_be_bytes();
    let six: Vec<String> = bytes[2..].iter().map(|b| format!("{b:02x}")).collect();
    six.join(":")
}

/// The labels of a stream, and of one network behind them.
fn labels(slot: usize, stream: &Stream, network: Option<usize>) -> String {
    let (dest, vlan) = (address_of(stream), stream.vlan);
    let network = network.map_or(String::new(), |n| format!(",network=\"{n}\""));
    format!("{{slot=\"{slot}\",dest=\"{dest}\",vlan=\"{vlan}\"{network}}}")
}

fn state_words(state: State) -> &'static str {
    match state {
        State::Up => "up",
        State::Down => "down",
        State::NoCarrier => "no carrier",
        State::NotThere => "not there",
    }
}

/// What the lines about a stream need to know of its networks.
pub struct About<'a> {
    pub alarm_ms: i64,
    pub interfaces: &'a [String; NETWORKS],
    pub states: [State; NETWORKS],
}

/// News of a stream, without the time.
pub fn news_line(news: News, stream: &Stream, about: &About) -> String {
    let ms = about.alarm_ms;
    let interface = |network: usize| &about.interfaces[network];
    let either = [0, 1].map(|network: usize| {
        let (own, state) = (interface(network), state_words(about.states[network]));
        format!("network {network} ({own}, {state})")
    });
    let either = either.join(" or ");
    let (word, what) = match news.what {
        What::Silent { network } => {
            let (own, state) = (interface(network), state_words(about.states[network]));
            let (other, others) = (1 - network, interface(1 - network));
            let what = format!(
                "no arrival on network {network} ({own}, {state}) for {ms} ms, while network {other} ({others}) has arrivals"
            );
            ("alarm", what)
        }
        What::Heard { network } => {
            let own = interface(network);
            (
                "back",
                format!("arrivals on network {network} ({own}) again"),
            )
        }
        What::NothingHandedUp => (
            "alarm",
            format!("arrivals, but nothing handed up for {ms} ms"),
        ),
        What::HandedUpAgain => ("back", "frames are handed up again".to_string()),
        What::NoArrival => ("alarm", format!("no arrival on {either} for {ms} ms")),
        What::Arrivals => ("back", "arrivals again".to_string()),
        What::NothingYet => ("alarm", format!("nothing has come yet on {either}")),
        What::First => ("back", "the first frame has come".to_string()),
        What::Single { doubled } => (
            "alarm",
            format!(
                "of {} handed up in a row {doubled} had a second copy",
                watch::block_of(stream)
            ),
        ),
        What::Double => ("back", "second copies come again".to_string()),
        What::Rogues { count, since_ms } => (
            "rogues",
            format!("{count} in the last second, nothing handed up for {since_ms} ms"),
        ),
        What::NoMoreRogues => ("over", "no more rogues".to_string()),
        What::Lost { count } => ("lost", format!("{count} in the last second")),
        What::NoneLost => ("over", "none lost any more".to_string()),
    };
    format!("{word}: {}: {what}", name_of(news.slot, stream))
}

/// The kernel drops frames of a network, or no more, without the time.
pub fn drops_line(rose: Rose, network: usize, interface: &str) -> String {
    match rose {
        Rose::By(count) => format!(
            "dropped by the kernel on network {network} ({interface}): {count} in the last second"
        ),
        Rose::NoMore => format!("over: no more dropped on network {network} ({interface})"),
    }
}

/// A name beside the file.
pub fn beside(file: &Path, end: &str) -> PathBuf {
    let mut name: OsString = file.into();
    name.push(end);
    name.into()
}

/// Writes the text beside the file and renames it over it, so that no reader sees half of it.
pub fn write_over(file: &Path, text: &str) -> io::Result<()> {
    let new = beside(file, ".new");
    fs::write(&new, text)?;
    fs::rename(&new, file)
}

#[cfg(test)]
mod tests {
    use super::*;
    use nippitsun::Verdict;
    use std::collections::BTreeSet;

    /// Streams in slots 0 and 2, network 1 silent for the second.
    fn with_report(prp: bool, look: impl Fn(&Report)) {
        let stream = |dest, vlan, rule, passed| Stream {
            dest,
            vlan,
            window: 5,
            time: 3,
            rule,
            used: 1,
            counts: Counts {
                arrivals0: passed,
                passed,
                ..Counts::default()
            },
            ..Stream::default()
        };
        let records = [
            stream(0x0100_5E00_0007, 100, Stream::VECTOR_RULE, 7),
            Stream::default(),
            stream(0x0200_0000_0001, 0, Stream::MATCH_RULE, 9),
        ];
        let mut watches = Watches::new(3, Some(10), 0);
        watches.arrival(2, 0, Verdict::Rogue, &records[2], 6);
        watches.found_by(11);
        let mut refused = [0; NUMBERS];
        refused[3] = 4;
        refused[usize::from(Refusal::Group.number())] = 8;
        let network = |interface, frames, state| Network {
            interface,
            counts: port::Counts {
                frames,
                early: 6,
                outgoing: 1,
                dropped: 2,
                unstamped: 3,
                cut: 7,
                reopened: 4,
                crossed: 5,
            },
            state,
        };
        look(&Report {
            listening: true,
            records: &records,
            watches: &watches,
            refused: &refused,
            damaged: 1,
            networks: [
                network("eth1", 20, State::NoCarrier),
                network("eth2", 30, State::Down),
            ],
            prp,
            waiting: 12,
            stalls: 3,
            ticks: 50,
            late: 6,
            steps: 1,
        });
    }

    #[test]
    fn lines() {
        let expected = "\
slot 0 dest 01:00:5e:00:00:07 vlan 100 rule vector L 5 R 3 arrivals0 7 arrivals1 0 passed 7 discarded 0 rogue 0 out_of_order 0 lost 0 resets 0 silences0 0 returns0 0 silences1 0 returns1 0
slot 2 dest 02:00:00:00:00:01 vlan 0 rule match L 5 R 3 arrivals0 9 arrivals1 0 passed 9 discarded 0 rogue 0 out_of_order 0 lost 0 resets 0 silences0 0 returns0 0 silences1 1 returns1 0
refused 3 (frame too long) 4
refused 14 (group source address) 8
damaged 1
network 0 (eth1) frames 20 early 6 outgoing 1 dropped 2 unstamped 3 cut 7 reopened 4
network 1 (eth2) frames 30 early 6 outgoing 1 dropped 2 unstamped 3 cut 7 reopened 4
output waiting 12 stalls 3
ticks 50 late_turns 6 clock_steps 1";
        with_report(false, |report| assert_eq!(report.lines(), expected));
        let on_prp = expected.replace("reopened 4\n", "reopened 4 crossed 5\n");
        with_report(true, |report| assert_eq!(report.lines(), on_prp));
    }

    /// The text form: for each family what it is and its type, once, then its values, each once.
    #[test]
    fn prometheus() {
        for prp in [false, true] {
            with_report(prp, |report| prometheus_of(report, prp));
        }
    }

    fn prometheus_of(report: &Report, prp: bool) {
        let text = report.prometheus();
        let (mut families, mut values) = (BTreeSet::new(), BTreeSet::new());
        let mut family = String::new();
        let mut lines = text.lines();
        while let Some(line) = lines.next() {
            if let Some(rest) = line.strip_prefix("# HELP ") {
                family = rest.split(' ').next().unwrap().to_string();
                assert!(family.starts_with("nippitsun_") && families.insert(family.clone()));
                let counter = family.ends_with("_total");
                let kind = if counter { "counter" } else { "gauge" };
                assert_eq!(lines.next(), Some(&*format!("# TYPE {family} {kind}")));
                continue;
            }
            let (name, value) = line.rsplit_once(' ').unwrap();
            assert_eq!(name.split('{').next(), Some(&*family));
            assert!(value.parse::<u64>().is_ok() && values.insert(name.to_string()));
        }
        // Four families by stream and network, six by stream, one by refusal, nine by network and one more on a PRP line, seven
        // alone.
        let by_network = 9 + usize::from(prp);
        assert_eq!(families.len(), 18 + by_network);
        assert_eq!(
            values.len(),
            4 * 4 + 6 * 2 + Refusal::ALL.len() + by_network * 2 + 7
        );
        let crossed = "nippitsun_crossed_total{network=\"1\"} 5";
        assert_eq!(text.lines().any(|one| one == crossed), prp);
        for line in [
                "nippitsun_arrivals_total{slot=\"0\",dest=\"01:00:5e:00:00:07\",vlan=\"100\",network=\"0\"} 7",
                "nippitsun_passed_total{slot=\"2\",dest=\"02:00:00:00:00:01\",vlan=\"0\"} 9",
                "nippitsun_silent{slot=\"2\",dest=\"02:00:00:00:00:01\",vlan=\"0\",network=\"1\"} 1",
                "nippitsun_refused_total{number=\"3\"} 4",
                "nippitsun_refused_total{number=\"14\"} 8",
                "nippitsun_open{network=\"0\"} 1",
                "nippitsun_open{network=\"1\"} 0",
                "nippitsun_carrier{network=\"0\"} 0",
                "nippitsun_early_total{network=\"0\"} 6",
                "nippitsun_cut_total{network=\"1\"} 7",
                "nippitsun_output_waiting 12",
                "nippitsun_stalls_total 3",
                "nippitsun_listening 1",
                "nippitsun_clock_steps_total 1",
            ] {
                assert!(text.lines().any(|one| one == line), "{line}");
            }
    }

    #[test]
    fn news() {
        let stream = Stream {
            dest: 0x0100_5E00_0007,
            vlan: 100,
            ..Stream::default()
        };
        let about = About {
            alarm_ms: 1000,
            interfaces: &["eth1".to_string(), "eth2".to_string()],
            states: [State::Up, State::NoCarrier],
        };
        for (what, expected) in [
            (
                What::Silent { network: 1 },
                "alarm: S: no arrival on network 1 (eth2, no carrier) for 1000 ms, while network 0 (eth1) has arrivals",
            ),
            (What::Heard { network: 1 }, "back: S: arrivals on network 1 (eth2) again"),
            (What::NothingHandedUp, "alarm: S: arrivals, but nothing handed up for 1000 ms"),
            (What::HandedUpAgain, "back: S: frames are handed up again"),
            (What::NoArrival, "alarm: S: no arrival on network 0 (eth1, up) or network 1 (eth2, no carrier) for 1000 ms"),
            (What::Arrivals, "back: S: arrivals again"),
            (What::NothingYet, "alarm: S: nothing has come yet on network 0 (eth1, up) or network 1 (eth2, no carrier)"),
            (What::First, "back: S: the first frame has come"),
            (What::Single { doubled: 3 }, "alarm: S: of 16 handed up in a row 3 had a second copy"),
            (What::Double, "back: S: second copies come again"),
            (
                What::Rogues { count: 4, since_ms: 70 },
                "rogues: S: 4 in the last second, nothing handed up for 70 ms",
            ),
            (What::NoMoreRogues, "over: S: no more rogues"),
            (What::Lost { count: 4 }, "lost: S: 4 in the last second"),
            (What::NoneLost, "over: S: none lost any more"),
        ] {
            let name = "slot 3 dest 01:00:5e:00:00:07 vlan 100";
            let line = news_line(News { slot: 3, what }, &stream, &about);
            assert_eq!(line, expected.replace('S', name));
        }
        let line = |rose| drops_line(rose, 1, "eth2");
        assert_eq!(
            line(Rose::By(9)),
            "dropped by the kernel on network 1 (eth2): 9 in the last second"
        );
        assert_eq!(
            line(Rose::NoMore),
            "over: no more dropped on network 1 (eth2)"
        );
    }

    #[test]
    fn a_file_is_written_over_whole() {
        let folder = std::env::temp_dir().join(format!("receive-rust-{}", std::process::id()));
        fs::create_dir(&folder).unwrap();
        let file = folder.join("stats");
        for text in ["one\n", "two\n"] {
            write_over(&file, text).unwrap();
            assert_eq!(fs::read_to_string(&file).unwrap(), text);
        }
        assert_eq!(fs::read_dir(&folder).unwrap().count(), 1);
        assert!(write_over(&folder.join("no/stats"), "").is_err());
        fs::remove_dir_all(&folder).unwrap();
    }
}
