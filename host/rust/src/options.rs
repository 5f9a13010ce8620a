//! The words of the command line. The library judges a stream's settings; here only what no such field can hold is refused.

use crate::order::{Time, NETWORKS};
use crate::port;
use crate::trouble::{words, Trouble};
use nippitsun::prp::Kind;
use nippitsun::{Receiver, Refusal, Settings, Stream};
use std::collections::VecDeque;
use std::fs;
use std::path::PathBuf;
use std::str::FromStr;

pub const USAGE: &str = "usage: receive-rust [OPTION].. INTERFACE0 INTERFACE1
  --open DEST,VLAN,RULE,L,R   a stream: address in hex, id, vector or match, window, reset time in ticks; again for more. DEST,0,afdx,L,R is an AFDX virtual link
  --conf FILE                 the words of FILE in this place: a line OPTIONS=WORDS and a line INTERFACES=WORDS
  --tick MS                   a tick every MS milliseconds (100)
  --at-once                   no wait at the start. Without this it lasts R ticks, the largest R, and nothing is handed up in it: copies of what was handed up before a restart may still come
  --room KB                   room for waiting frames of a port, in kilobytes (1024): one frame for each 416 bytes
  --no-ring                   read frames by system calls and not from a ring that is shared with the kernel
  --backlog KB                what may wait for standard output, in kilobytes (4096); when it is full nothing more is read, and ticks stop
  --prp first|2012            a PRP line, with trailers of the first edition or of 2012 in place of tags
  --all                       no filter in the kernel: foreign frames are counted as refusals 5 and 6 (16 and 6 with --prp), or 14 with a group source; to look for a wrong key
  --alarm MS                  say so when a stream has arrivals on one network and for MS milliseconds none on the other, none on either, or none that is handed up; or when few second copies come (1000; 0: never)
  --stats FILE                write all counters to FILE each second, in the text form that Prometheus reads
  --quiet MS                  end after MS milliseconds without a frame
  --give lines|raw|nothing    frames handed up: 'SLOT NUMBER LENGTH HEX PRIORITY', PRIORITY being the VLAN tag's, 0 to 7, or - where there is none; or two bytes of length and the frame (lines)
  --check                     read all words, say whether they are good, and open nothing
  --version                   print the version
  --help                      print this text
";

const MILLISECOND: Time = 1_000_000;
const HOUR_IN_MS: Time = 3_600_000;

#[derive(Clone, Copy, Debug, PartialEq, Eq)]
pub enum Give {
    Lines,
    Raw,
    Nothing,
}

#[derive(Debug)]
pub struct Options {
    /// The streams in their order, and a table in which they are open: it is never called.
    pub streams: Vec<Settings>,
    pub asked: Receiver,
    pub tick_ms: Time,
    pub at_once: bool,
    pub room_kb: i32,
    pub ring: bool,
    pub backlog_kb: usize,
    /// The trailer of a PRP line; none is a line with tags.
    pub prp: Option<Kind>,
    pub all: bool,
    /// In milliseconds; 0 is never.
    pub alarm_ms: Time,
    pub stats: Option<PathBuf>,
    pub quiet: Option<Time>,
    pub give: Give,
    pub interfaces: [String; NETWORKS],
}

impl Options {
    /// For so many ticks at the start nothing is called: the largest reset time, in which copies of what was handed up before
    /// a restart may still come.
    pub fn ticks_of_wait(&self) -> u64 {
        let most = self.streams.iter().map(|stream| stream.time).max();
        match (self.at_once, most) {
            (false, Some(most)) => most.into(),
            _ => 0,
        }
    }

    pub fn wait_ms(&self) -> Time {
        self.ticks_of_wait() as Time * self.tick_ms
    }

    /// What is said of words that are good.
    fn good(&self) -> String {
        let ([first, second], streams) = (&self.interfaces, self.streams.len());
        let wait = self.wait_ms();
        format!(
            "good: {streams} streams on {first} and {second}, a wait of {wait} ms at the start\n"
        )
    }
}

/// What the words ask for.
#[derive(Debug)]
pub enum Asked {
    Run(Box<Options>),
    /// Words to be read, and no more.
    Text(String),
}

/// Reads the words in their order. A setting that is taken but is not safe is said at once.
pub fn read(
    words: impl IntoIterator<Item = String>,
    mut warn: impl FnMut(String),
) -> Result<Asked, Trouble> {
    let mut words = Words::new(words.into_iter().collect());
    let mut streams = Vec::new();
    let mut asked = Receiver::new(Stream::SLOTS_MOST);
    let mut only_interfaces = false;
    let mut tick_ms = 100;
    let mut at_once = false;
    let mut room_kb = 1024;
    let mut ring = true;
    let mut backlog_kb = 4096;
    let mut prp = None;
    let mut all = false;
    let mut alarm_ms = 1000;
    let mut stats = None;
    let mut quiet = None;
    let mut give = Give::Lines;
    let mut check = false;
    let mut interfaces = Vec::new();
    while let Some(word) = words.next() {
        let own_file = words.file();
        if only_interfaces || word == "-" || !word.starts_with('-') {
            interfaces.push(word);
            continue;
        }
        if word == "--" {
            only_interfaces = true;
            continue;
        }
        let (name, mut given) = match word.split_once('=') {
            Some((name, value)) => (name, Some(value.to_string())),
            None => (word.as_str(), None),
        };
        if given.is_some() && WITHOUT_VALUE.contains(&name) {
            return Err(misused(&format!(
                "option '{name}' doesn't allow an argument"
            )));
        }
        let mut value = || match given.take().or_else(|| words.next()) {
            Some(value) => Ok(value),
            None => Err(misused(&format!("option '{name}' requires an argument"))),
        };
        match name {
            "--open" => streams.push(open(&mut asked, &streams, &value()?, &mut warn)?),
            "--conf" => {
                let file = value()?;
                if let Some(own) = own_file {
                    return Err(format!("{own} names a --conf of its own").into());
                }
                words.put(read_conf(&file)?, file);
            }
            "--tick" => tick_ms = read_number("tick", &value()?, 1, HOUR_IN_MS)?,
            "--at-once" => at_once = true,
            "--room" => room_kb = read_number("room", &value()?, 1, 1 << 20)?,
            "--no-ring" => ring = false,
            "--backlog" => backlog_kb = read_number("backlog", &value()?, 8, 1 << 20)?,
            "--prp" => prp = Some(read_prp(&value()?)?),
            "--all" => all = true,
            "--alarm" => alarm_ms = read_number("alarm", &value()?, 0, HOUR_IN_MS)?,
            "--stats" => stats = Some(value()?.into()),
            "--quiet" => {
                quiet = Some(read_number("quiet", &value()?, 1, HOUR_IN_MS)? * MILLISECOND)
            }
            "--give" => give = read_give(&value()?)?,
            "--check" => check = true,
            "--version" => return Ok(Asked::Text(format!("nippitsun {}\n", nippitsun::VERSION))),
            "--help" => return Ok(Asked::Text(USAGE.to_string())),
            _ => return Err(misused(&format!("unrecognized option '{name}'"))),
        }
    }
    let interfaces = <[String; NETWORKS]>::try_from(interfaces).map_err(|given| {
        let given = given.len();
        misused(&format!(
            "interfaces given: {given}, needed: 2, for network 0 and network 1"
        ))
    })?;
    if streams.is_empty() {
        return Err("no stream: --open names one".to_string().into());
    }
    if prp.is_some() && streams.iter().any(is_link) {
        let what = "--prp holds for all streams, and frames of an afdx stream have no trailer";
        return Err(what.to_string().into());
    }
    let options = Options {
        streams,
        asked,
        tick_ms,
        at_once,
        room_kb,
        ring,
        backlog_kb,
        prp,
        all,
        alarm_ms,
        stats,
        quiet,
        give,
        interfaces,
    };
    if !check {
        return Ok(Asked::Run(Box::new(options)));
    }
    // Whether the interfaces are there is not looked at, but one name is one wire.
    match &options.interfaces {
        [first, second] if first == second => Err(port::both_on(first)),
        _ => Ok(Asked::Text(options.good())),
    }
}

const WITHOUT_VALUE: [&str; 6] = [
    "--at-once",
    "--no-ring",
    "--all",
    "--check",
    "--version",
    "--help",
];

fn misused(what: &str) -> Trouble {
    Trouble::Misused(format!("receive-rust: {what}\n"))
}

/// Words that are not read yet.
struct Words {
    rest: VecDeque<String>,
    /// So many of the first ones are of this file, and so is the one that was read last.
    of_file: usize,
    file: Option<String>,
}

impl Words {
    fn new(rest: VecDeque<String>) -> Words {
        Words {
            rest,
            of_file: 0,
            file: None,
        }
    }

    fn next(&mut self) -> Option<String> {
        if self.of_file == 0 {
            self.file = None;
        }
        self.of_file = self.of_file.saturating_sub(1);
        self.rest.pop_front()
    }

    /// The file that the word is of which was read last.
    fn file(&self) -> Option<String> {
        self.file.clone()
    }

    /// The words of a file come next.
    fn put(&mut self, words: Vec<String>, file: String) {
        self.of_file = words.len();
        self.file = Some(file);
        for word in words.into_iter().rev() {
            self.rest.push_front(word);
        }
    }
}

/// The words of a file that the unit reads too.
fn read_conf(file: &str) -> Result<Vec<String>, String> {
    let bytes = fs::read(file).map_err(|e| format!("{file}: {}", words(&e)))?;
    read_conf_text(file, &String::from_utf8_lossy(&bytes))
}

fn read_conf_text(file: &str, text: &str) -> Result<Vec<String>, String> {
    let mut values = [None, None];
    for (line, i) in text.split('\n').zip(1..) {
        if is_blank(line) || line.starts_with(&['#', ';'][..]) {
            continue;
        }
        let (which, words) = conf_line(line)
            .ok_or_else(|| format!("{file}, line {i}: neither OPTIONS= nor INTERFACES="))?;
        if values[which].replace(words).is_some() {
            let name = NAMES[which];
            return Err(format!("{file}, line {i}: {name} stands there already"));
        }
    }
    Ok(values.into_iter().flatten().flatten().collect())
}

/// Options first, interfaces last, whatever the order of lines.
const NAMES: [&str; 2] = ["OPTIONS", "INTERFACES"];

/// Which of the names a line has, and its words.
fn conf_line(line: &str) -> Option<(usize, Vec<String>)> {
    let (name, value) = line.split_once('=')?;
    let which = NAMES.iter().position(|one| *one == name)?;
    Some((which, conf_words(value)?))
}

const BLANKS: [char; 2] = [' ', '\t'];

fn is_blank(line: &str) -> bool {
    line.trim_matches(&BLANKS[..]).is_empty()
}

/// Words that are parted by blanks, all of them in one pair of quotes or not. None: a quote that does not end.
fn conf_words(value: &str) -> Option<Vec<String>> {
    let value = value.trim_matches(&BLANKS[..]);
    let inner = match value.chars().next() {
        Some(quote @ ('"' | '\'')) => value[1..].strip_suffix(quote)?,
        _ => value,
    };
    let words = inner.split(&BLANKS[..]).filter(|word| !word.is_empty());
    Some(words.map(str::to_string).collect())
}

fn is_link(s: &Settings) -> bool {
    s.rule == Stream::LINK_RULE
}

fn open(
    asked: &mut Receiver,
    before: &[Settings],
    text: &str,
    warn: &mut impl FnMut(String),
) -> Result<Settings, String> {
    let settings = read_settings(text)?;
    asked.open(settings).map_err(|refusal| {
        let (number, words) = (refusal.number(), refusal.words());
        let outside = match refusal {
            Refusal::Setting => outside(&settings),
            _ => Vec::new(),
        };
        let colon = if outside.is_empty() { "" } else { ": " };
        let outside = outside.join(", ");
        format!("open {text}: {number}, {words}{colon}{outside}")
    })?;
    // A frame of a virtual link has nothing but its destination to be known by: no type, and no VLAN tag that means something.
    let is_mixed = |other: &Settings| {
        is_link(other) != is_link(&settings) && other.destination == settings.destination
    };
    if before.iter().any(is_mixed) {
        let why = "an afdx stream and another one have this destination, and frames are told apart by it alone";
        return Err(format!("open {text}: {why}"));
    }
    if settings.time == 1 {
        let why = "R = 1 is never safe: a tick may fall between two copies";
        warn(format!("open {text}: {why}"));
    }
    Ok(settings)
}

/// How the rules are called; afdx is a virtual link.
const RULES: [(&str, u8); 3] = [
    ("vector", Stream::VECTOR_RULE),
    ("match", Stream::MATCH_RULE),
    ("afdx", Stream::LINK_RULE),
];

pub fn rule_words(rule: u8) -> &'static str {
    let found = RULES.iter().find(|&&(_, one)| one == rule);
    found.map_or("none", |(name, _)| name)
}

/// Which settings are outside the sizes.
fn outside(s: &Settings) -> Vec<String> {
    let range = |name: &str, n: u16, least: u16, most: u16| {
        (n < least || n > most).then(|| format!("{name} {n} is not from {least} to {most}"))
    };
    let vlan = match is_link(s) {
        true => (s.vlan != 0).then(|| format!("VLAN id {} is not 0, as afdx asks", s.vlan)),
        false => range("VLAN id", s.vlan, 0, Stream::VLAN_MOST),
    };
    let is_rule = RULES.iter().any(|&(_, rule)| rule == s.rule);
    let rule = (!is_rule).then(|| {
        let [first, second, last] = RULES.map(|(name, rule)| format!("{rule} ({name})"));
        format!("rule {} is not {first}, {second} or {last}", s.rule)
    });
    let found = [
        vlan,
        rule,
        range("L", s.window, Stream::WINDOW_LEAST, Stream::WINDOW_MOST),
        range("R", s.time, Stream::TIME_LEAST, Stream::TIME_MOST),
    ];
    found.into_iter().flatten().collect()
}

fn read_settings(text: &str) -> Result<Settings, String> {
    let form = || format!("'{text}' is not DEST,VLAN,RULE,L,R");
    let parts: Vec<&str> = text.split(',').collect();
    if parts.contains(&"") {
        return Err(form());
    }
    let [dest, vlan, rule, window, time] = <[&str; 5]>::try_from(parts).map_err(|_| form())?;
    Ok(Settings {
        destination: read_address(dest)?,
        vlan: read_field("VLAN id", vlan, 0, Stream::VLAN_MOST)?,
        rule: match RULES.iter().find(|(name, _)| *name == rule) {
            Some(&(_, rule)) => rule,
            None => read_number("rule", rule, 0, u8::MAX)
                .map_err(|_| format!("rule '{rule}' is not vector, match or afdx"))?,
        },
        window: read_field(
            "window L",
            window,
            Stream::WINDOW_LEAST,
            Stream::WINDOW_MOST,
        )?,
        time: read_field("reset time R", time, Stream::TIME_LEAST, Stream::TIME_MOST)?,
    })
}

/// Six bytes in hex, with or without colons between them.
fn read_address(text: &str) -> Result<[u8; 6], String> {
    let mut six = [0; 6];
    let mut rest = text;
    for (i, byte) in six.iter_mut().enumerate() {
        if i > 0 {
            rest = rest.strip_prefix(':').unwrap_or(rest);
        }
        // A sign is no digit, though a number may have one.
        let digits = rest
            .get(..2)
            .filter(|d| d.bytes().all(|b| b.is_ascii_hexdigit()));
        *byte = digits
            .and_then(|digits| u8::from_str_radix(digits, 16).ok())
            .ok_or(format!("'{text}' is no address of six bytes in hex"))?;
        rest = &rest[2..];
    }
    match rest {
        "" => Ok(six),
        _ => Err(format!("'{text}' is no address of six bytes in hex")),
    }
}

fn read_prp(text: &str) -> Result<Kind, String> {
    match text {
        "first" => Ok(Kind::First),
        "2012" => Ok(Kind::Of2012),
        _ => Err("--prp is first or 2012".to_string()),
    }
}

fn read_give(text: &str) -> Result<Give, String> {
    match text {
        "lines" => Ok(Give::Lines),
        "raw" => Ok(Give::Raw),
        "nothing" => Ok(Give::Nothing),
        _ => Err("--give is lines, raw or nothing".to_string()),
    }
}

/// A field of a record, which may hold more than the library takes: what does not fit into it is refused here, with the sizes that it has.
fn read_field(what: &str, text: &str, least: u16, most: u16) -> Result<u16, String> {
    let fits = read_number(what, text, 0, u16::MAX);
    fits.map_err(|_| format!("{what} '{text}' is no number from {least} to {most}"))
}

fn read_number<N>(what: &str, text: &str, least: N, most: N) -> Result<N, String>
where
    N: FromStr + PartialOrd + std::fmt::Display,
{
    match text.parse() {
        Ok(n) if !text.starts_with('+') && least <= n && n <= most => Ok(n),
        _ => Err(format!(
            "{what} '{text}' is no number from {least} to {most}"
        )),
    }
}

#[cfg(test)]
mod tests {
    use super::*;

    fn run(line: &str) -> Result<Asked, Trouble> {
        read(line.split_whitespace().map(str::to_string), |_| {})
    }

    fn options(line: &str) -> Options {
        match run(line) {
            Ok(Asked::Run(options)) => *options,
            other => panic!("{line}: {other:?}"),
        }
    }

    fn refused(line: &str) -> String {
        match run(line) {
            Err(Trouble::Refused(what)) => what,
            other => panic!("{line}: {other:?}"),
        }
    }

    const OPEN: &str = "--open 01:00:5e:00:00:07,100,vector,5,3";

    #[test]
    fn what_is_not_given() {
        let o = options(&format!("{OPEN} a b"));
        assert_eq!((o.tick_ms, o.room_kb, o.alarm_ms), (100, 1024, 1000));
        assert_eq!((o.at_once, o.ring, o.backlog_kb), (false, true, 4096));
        assert_eq!(
            (o.prp, o.all, o.give, o.stats, o.quiet),
            (None, false, Give::Lines, None, None)
        );
        assert_eq!(o.interfaces, ["a", "b"]);
        assert_eq!(o.streams.len(), 1);
        let stream = o.asked.records()[0];
        assert_eq!((stream.dest, stream.vlan), (0x0100_5E00_0007, 100));
    }

    #[test]
    fn every_option() {
        let o = options(&format!(
            "a {OPEN} --open 020000000001,0,match,2,1 --tick=10 --room 8 --prp 2012 --all --alarm 0 b --stats f --quiet 9 \
             --give raw --at-once --no-ring --backlog 8"
        ));
        assert_eq!((o.tick_ms, o.room_kb, o.alarm_ms), (10, 8, 0));
        assert_eq!((o.at_once, o.ring, o.backlog_kb), (true, false, 8));
        assert_eq!((o.all, o.give, o.quiet), (true, Give::Raw, Some(9_000_000)));
        assert_eq!(o.prp, Some(Kind::Of2012));
        assert_eq!(
            (o.stats, o.interfaces),
            (Some("f".into()), ["a".into(), "b".into()])
        );
        assert_eq!(o.streams.len(), 2);
        let first = options(&format!("{OPEN} --prp=first a b"));
        assert_eq!(first.prp, Some(Kind::First));
    }

    #[test]
    fn the_wait_is_the_largest_reset_time() {
        let more = "--open 020000000001,0,match,2,50 --open 020000000002,0,match,2,7";
        let o = options(&format!("{OPEN} {more} --tick 10 a b"));
        assert_eq!((o.ticks_of_wait(), o.wait_ms()), (50, 500));
        let o = options(&format!("{OPEN} {more} --at-once a b"));
        assert_eq!((o.ticks_of_wait(), o.wait_ms()), (0, 0));
    }

    #[test]
    fn words_that_are_checked_only() {
        let text = |line: &str| match run(line) {
            Ok(Asked::Text(text)) => text,
            other => panic!("{line}: {other:?}"),
        };
        let good = "good: 1 streams on a and b, a wait of 300 ms at the start\n";
        assert_eq!(text(&format!("--check {OPEN} a b")), good);
        let at_once = "good: 1 streams on a and b, a wait of 0 ms at the start\n";
        assert_eq!(text(&format!("a b {OPEN} --at-once --check")), at_once);
        let one = "both networks are on interface 'a'";
        assert_eq!(refused(&format!("--check {OPEN} a a")), one);
        assert_eq!(refused("--check a b"), "no stream: --open names one");
    }

    #[test]
    fn a_file_of_words() {
        let words = |text: &str| read_conf_text("f", text).map(|words| words.join("|"));
        let text =
            "# comment\n; another\n \t\nINTERFACES=eth1\t eth2 \n\nOPTIONS= '--tick 10  --all'\n";
        assert_eq!(words(text).unwrap(), "--tick|10|--all|eth1|eth2");
        assert_eq!(words("OPTIONS=\"--tick=10\"").unwrap(), "--tick=10");
        assert_eq!(words("OPTIONS=\nINTERFACES=''\n").unwrap(), "");
        assert_eq!(words("").unwrap(), "");
        for (text, said) in [
            ("\n\nOTHER=1", "f, line 3: neither OPTIONS= nor INTERFACES="),
            (" OPTIONS=", "f, line 1: neither OPTIONS= nor INTERFACES="),
            ("OPTIONS", "f, line 1: neither OPTIONS= nor INTERFACES="),
            ("OPTIONS =a", "f, line 1: neither OPTIONS= nor INTERFACES="),
            (
                "OPTIONS=\n#\nOPTIONS=",
                "f, line 3: OPTIONS stands there already",
            ),
            (
                "INTERFACES=a\nINTERFACES=b",
                "f, line 2: INTERFACES stands there already",
            ),
            (
                "OPTIONS=\"--all",
                "f, line 1: neither OPTIONS= nor INTERFACES=",
            ),
            (
                "INTERFACES='a b\"",
                "f, line 1: neither OPTIONS= nor INTERFACES=",
            ),
            ("OPTIONS='", "f, line 1: neither OPTIONS= nor INTERFACES="),
        ] {
            assert_eq!(words(text).unwrap_err(), said);
        }
    }

    #[test]
    fn a_file_stands_in_the_place_of_its_words() {
        let file = std::env::temp_dir().join(format!("receive-rust-{}.conf", std::process::id()));
        fs::write(
            &file,
            format!("INTERFACES=a b\nOPTIONS={OPEN} --tick 5 --all\n"),
        )
        .unwrap();
        let o = options(&format!("--tick 3 --conf {} --room 9", file.display()));
        assert_eq!((o.tick_ms, o.all, o.room_kb), (5, true, 9));
        assert_eq!(o.interfaces, ["a", "b"]);
        let o = options(&format!("--conf={} --tick 3", file.display()));
        assert_eq!(o.tick_ms, 3);
        // A file in a file is refused, one behind it is not.
        for word in ["--conf x", "--conf=x"] {
            fs::write(&file, format!("OPTIONS=--all {word}\n")).unwrap();
            let said = format!("{} names a --conf of its own", file.display());
            assert_eq!(refused(&format!("--conf {}", file.display())), said);
        }
        fs::write(&file, "OPTIONS=--stats --conf").unwrap();
        let o = options(&format!("--conf {} {OPEN} a b", file.display()));
        assert_eq!(o.stats, Some("--conf".into()));
        fs::write(&file, "OPTIONS=--all").unwrap();
        let said = "no: No such file or directory";
        assert_eq!(
            refused(&format!("--conf {} --conf no", file.display())),
            said
        );
        fs::remove_file(&file).unwrap();
        let said = format!("{}: No such file or directory", file.display());
        assert_eq!(refused(&format!("--conf {}", file.display())), said);
    }

    #[test]
    fn a_reset_time_that_is_not_safe_is_said() {
        let mut said = Vec::new();
        let words = ["--open=020000000001,0,match,2,1", "--tick", "0"];
        let refused = read(words.map(str::to_string), |what| said.push(what));
        assert!(refused.is_err());
        let warning = "open 020000000001,0,match,2,1: R = 1 is never safe: a tick may fall between two copies";
        assert_eq!(said, [warning]);
    }

    #[test]
    fn help_and_version_where_they_stand_first() {
        assert!(matches!(run("--help --no"), Ok(Asked::Text(text)) if text == USAGE));
        assert!(
            matches!(run("--version"), Ok(Asked::Text(text)) if text.starts_with("nippitsun "))
        );
        for (line, said) in [
            ("--no --help", "receive-rust: unrecognized option '--no'\n"),
            ("--=x", "receive-rust: unrecognized option '--'\n"),
            (
                "a b --open",
                "receive-rust: option '--open' requires an argument\n",
            ),
            (
                "--all=x",
                "receive-rust: option '--all' doesn't allow an argument\n",
            ),
            (
                "--check=",
                "receive-rust: option '--check' doesn't allow an argument\n",
            ),
            (
                "a",
                "receive-rust: interfaces given: 1, needed: 2, for network 0 and network 1\n",
            ),
            (
                "a b c",
                "receive-rust: interfaces given: 3, needed: 2, for network 0 and network 1\n",
            ),
        ] {
            match run(line) {
                Err(Trouble::Misused(what)) => assert_eq!(what, said),
                other => panic!("{line}: {other:?}"),
            }
        }
    }

    #[test]
    fn what_is_refused() {
        for (line, said) in [
            ("a b", "no stream: --open names one"),
            ("--give x", "--give is lines, raw or nothing"),
            ("--prp 2010", "--prp is first or 2012"),
            ("--prp=", "--prp is first or 2012"),
            ("--tick 0", "tick '0' is no number from 1 to 3600000"),
            ("--tick +1", "tick '+1' is no number from 1 to 3600000"),
            ("--alarm -1", "alarm '-1' is no number from 0 to 3600000"),
            (
                "--room 1048577",
                "room '1048577' is no number from 1 to 1048576",
            ),
            ("--backlog 7", "backlog '7' is no number from 8 to 1048576"),
            (
                "--open 020000000001,0,vektor,5,3",
                "rule 'vektor' is not vector, match or afdx",
            ),
            (
                "--open 020000000001,0,256,5,3",
                "rule '256' is not vector, match or afdx",
            ),
            ("--open 1", "'1' is not DEST,VLAN,RULE,L,R"),
            ("--open ,,,,", "',,,,' is not DEST,VLAN,RULE,L,R"),
            ("-- --tick -", "no stream: --open names one"),
            (
                "--open 02,0,vector,5,3",
                "'02' is no address of six bytes in hex",
            ),
        ] {
            assert_eq!(refused(line), said);
        }
        for (settings, outside) in [
            ("0,vector,513,3", "L 513 is not from 2 to 512"),
            ("4095,vector,5,3", "VLAN id 4095 is not from 0 to 4094"),
            (
                "9999,4,1,0",
                "VLAN id 9999 is not from 0 to 4094, rule 4 is not 1 (vector), 2 (match) or 3 (afdx), L 1 is not from 2 to 512, \
                 R 0 is not from 1 to 65535",
            ),
            ("5,afdx,2,3", "VLAN id 5 is not 0, as afdx asks"),
            (
                "4095,3,1,3",
                "VLAN id 4095 is not 0, as afdx asks, L 1 is not from 2 to 512",
            ),
        ] {
            let text = format!("020000000001,{settings}");
            let said = format!("open {text}: 9, a setting outside the sizes: {outside}");
            assert_eq!(refused(&format!("--open {text}")), said);
        }
        let twice = "open 01:00:5e:00:00:07,100,vector,5,3: 10, a slot in use has the key";
        assert_eq!(refused(&format!("{OPEN} {OPEN}")), twice);
    }

    #[test]
    fn virtual_links() {
        let link = "--open 030000000007,0,afdx,2,3";
        let o = options(&format!("{link} {OPEN} --open 030000000008,0,3,2,3 a b"));
        let rules: Vec<u8> = o.streams.iter().map(|s| s.rule).collect();
        assert_eq!(rules, [3, 1, 3]);
        assert_eq!([1, 2, 3].map(rule_words), ["vector", "match", "afdx"]);
        let prp = "--prp holds for all streams, and frames of an afdx stream have no trailer";
        assert_eq!(refused(&format!("{link} --prp first a b")), prp);
        assert_eq!(refused(&format!("--prp 2012 {OPEN} {link} a b")), prp);
        // One destination for both kinds: by the library where the VLAN id is 0 too.
        for (first, second) in [
            ("0,afdx,2,3", "9,vector,5,3"),
            ("9,match,5,3", "0,afdx,2,3"),
        ] {
            let words = format!("--open 030000000007,{first} --open 030000000007,{second} a b");
            let why = "an afdx stream and another one have this destination, and frames are told apart by it alone";
            assert_eq!(
                refused(&words),
                format!("open 030000000007,{second}: {why}")
            );
        }
        let words = format!("{link} --open 030000000007,0,vector,5,3 a b");
        let taken = "open 030000000007,0,vector,5,3: 10, a slot in use has the key";
        assert_eq!(refused(&words), taken);
    }

    #[test]
    fn addresses() {
        let good = [0x01, 0x00, 0x5E, 0x00, 0x00, 0x07];
        for text in ["01005e000007", "01:00:5E:00:00:07", "01005e:00:0007"] {
            assert_eq!(read_address(text), Ok(good));
        }
        for text in [
            "",
            "01",
            ":01005e000007",
            "01::005e000007",
            "01005e0000070",
            "01005e000007:",
            "+1005e000007",
            "0 005e000007",
            "é1005e00007",
        ] {
            let said = format!("'{text}' is no address of six bytes in hex");
            assert_eq!(read_address(text), Err(said));
        }
    }
}
