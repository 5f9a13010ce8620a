//! Every refusal and every verdict through the safe calls, and every field of a record in both directions.

#[path = "calls/batch.rs"]
mod batch;
#[path = "calls/index.rs"]
mod index;
#[path = "calls/lines.rs"]
mod lines;
#[path = "calls/links.rs"]
mod links;
#[path = "calls/priority.rs"]
mod priority;
#[path = "calls/sender.rs"]
mod sender;
#[path = "calls/words.rs"]
mod words;

use nippitsun::archive::{self, ArrivalAnswer};
use nippitsun::prp::{self, Kind};
use nippitsun::{
    dest_of, tag, Arrival, Counts, Priority, Receiver, Refusal, Settings, State, Stream, Ticked,
    Verdict,
};

const FRESH: State = State {
    history: [0; 8],
    anchor: 65535,
    remaining: 0,
    early: 0,
    any: 1,
};

/// A distinct value in each field.
const DISTINCT: Stream = Stream {
    dest: 0x0102030405060708,
    vlan: 0x1112,
    window: 0x1314,
    time: 0x1516,
    rule: 0x17,
    used: 0x18,
    state: State {
        history: [
            0x2122232425262728,
            0xB1B2B3B4B5B6B7B8,
            0xC1C2C3C4C5C6C7C8,
            0xD1D2D3D4D5D6D7D8,
            0xE1E2E3E4E5E6E7E8,
            0xF1F2F3F4F5F6F7F8,
            0x191A1B1C1D1E1F20,
            0x393A3B3C3D3E3F40,
        ],
        anchor: 0x292A,
        remaining: 0x2B2C,
        early: 0x2D2E,
        any: 0x2F30,
    },
    counts: Counts {
        arrivals0: 0x3132333435363738,
        arrivals1: 0x4142434445464748,
        passed: 0x5152535455565758,
        discarded: 0x6162636465666768,
        rogue: 0x7172737475767778,
        disorder: 0x8182838485868788,
        lost: 0x9192939495969798,
        resets: 0xA1A2A3A4A5A6A7A8,
    },
};

const DESTINATION: [u8; 6] = [2, 3, 4, 5, 6, 7];

/// A history whose bits are all in the first word.
fn history(first: u64) -> [u64; Stream::HISTORY_WORDS] {
    [first, 0, 0, 0, 0, 0, 0, 0]
}

/// A lawful record of the vector rule with distinct counters: the numbers 100 and 98 came, and older ones before.
fn running() -> Stream {
    Stream {
        dest: dest_of(DESTINATION),
        vlan: 0,
        window: 4,
        time: 9,
        rule: Stream::VECTOR_RULE,
        used: 1,
        state: State {
            history: history(5),
            anchor: 100,
            remaining: 6,
            early: 0,
            any: 0,
        },
        ..DISTINCT
    }
}

fn settings(vlan: u16) -> Settings {
    Settings {
        destination: DESTINATION,
        vlan,
        rule: Stream::VECTOR_RULE,
        window: 4,
        time: 3,
    }
}

fn tagged(length: usize, number: u16) -> Vec<u8> {
    let mut f: Vec<u8> = (0..length).map(|i| (3 + 37 * i) as u8).collect();
    let [high, low] = number.to_be_bytes();
    let head = [&DESTINATION[..], &[0; 6], &[0xF1, 0xC1, 9, 9, high, low]].concat();
    let n = head.len().min(length);
    f[..n].copy_from_slice(&head[..n]);
    f
}

/// A frame of so many bytes that has no tag.
fn untagged(length: usize) -> Vec<u8> {
    let mut f = tagged(length.max(12) + tag::LENGTH, 0);
    f.drain(12..18);
    f.truncate(length);
    f
}

/// The frame with these two bytes at a place where it has some.
fn typed(place: usize, kind: u16, mut frame: Vec<u8>) -> Vec<u8> {
    for (byte, new) in frame.iter_mut().skip(place).zip(kind.to_be_bytes()) {
        *byte = new;
    }
    frame
}

fn in_vlan(length: usize) -> Vec<u8> {
    typed(12, 0x8100, untagged(length))
}

/// The frame with a VLAN tag put in, whose two bytes are these: priority, one bit more, VLAN id.
fn with_vlan_tag(control: u16, mut frame: Vec<u8>) -> Vec<u8> {
    let [high, low] = control.to_be_bytes();
    frame.splice(12..12, [0x81, 0x00, high, low]);
    frame
}

/// Order 11's own words, of a frame that is not refused.
fn priority_of(frame: &[u8]) -> Option<Priority> {
    match frame[12..14] {
        [0x81, 0x00] => Priority::new(frame[14] / 32),
        _ => None,
    }
}

/// The frame with this first byte of its source.
fn from(first: u8, mut frame: Vec<u8>) -> Vec<u8> {
    frame[6] = first;
    frame
}

/// A small generator, so that every run has the same cases.
struct Dice(u64);

impl Dice {
    fn below(&mut self, n: u64) -> u64 {
        self.0 = self.0.wrapping_mul(6364136223846793005).wrapping_add(1);
        (self.0 >> 33) % n
    }
}

/// An arrival that is refused changes nothing, and its answer is 0 but for the number.
fn refused(r: &mut Receiver, network: u8, frame: &[u8], room: usize) -> Option<Refusal> {
    let before = r.clone();
    let mut out = vec![0xA5; room];
    let why = r.arrival(network, frame, &mut out).err();
    let told = archive::arrival(r.records_mut(), network, frame, &mut out);
    assert!(*r == before && out == vec![0xA5; room]);
    assert_eq!(told, only(why));
    why
}

fn only(why: Option<Refusal>) -> ArrivalAnswer {
    ArrivalAnswer {
        refusal: why.map_or(0, Refusal::number),
        ..ArrivalAnswer::default()
    }
}

#[test]
fn arrivals_change_the_fields_that_they_should() {
    let mut r = Receiver::from_records(vec![DISTINCT, running()]);
    let mut want = running();
    let mut out = [0xA5; 60];
    let at = |number, verdict| Arrival {
        slot: 1,
        number,
        priority: None,
        verdict,
    };

    let a = r.arrival(0, &tagged(60, 100), &mut out);
    assert_eq!(a, Ok(at(100, Verdict::Duplicate)));
    want.counts.arrivals0 += 1;
    want.counts.discarded += 1;
    assert_eq!(r.records(), [DISTINCT, want]);

    let a = r.arrival(1, &tagged(60, 104), &mut out);
    assert_eq!(a, Ok(at(104, Verdict::Rogue)));
    want.counts.arrivals1 += 1;
    want.counts.rogue += 1;
    assert_eq!(r.records(), [DISTINCT, want]);
    assert_eq!(out, [0xA5; 60]);

    // Two places up: 97 and 98 leave the window, 97 never came.
    let frame = tagged(60, 102);
    let a = r.arrival(1, &frame, &mut out);
    assert_eq!(a, Ok(at(102, Verdict::HandedUp { length: 54 })));
    want.counts.arrivals1 += 1;
    want.counts.passed += 1;
    want.counts.disorder += 1;
    want.counts.lost += 1;
    want.state = State {
        history: history(5),
        anchor: 102,
        remaining: 9,
        early: 0,
        any: 0,
    };
    assert_eq!(r.records(), [DISTINCT, want]);
    assert_eq!(out[..12], frame[..12]);
    assert_eq!(out[12..54], frame[18..]);
    assert_eq!(out[54..], [0xA5; 6]);
    assert_eq!(r.counts(1), Some(&want.counts));
    assert_eq!(r.counts(2), None);
}

/// The places before the first number are not lost when they leave; what is missing behind it is.
#[test]
fn a_start_loses_nothing() {
    let mut r = Receiver::new(1);
    assert_eq!(r.open(settings(0)), Ok(0));
    // The number, and the places for older ones and lost behind it. 99 is older than the first and comes late; 102 never comes.
    let steps = [
        (100, 3, 0),
        (101, 2, 0),
        (99, 2, 0),
        (103, 0, 0),
        (104, 0, 0),
        (105, 0, 0),
        (106, 0, 1),
    ];
    for (number, early, lost) in steps {
        let a = r.arrival(0, &tagged(60, number), &mut [0; 60]).unwrap();
        assert_eq!(a.verdict, Verdict::HandedUp { length: 54 });
        let s = r.records()[0];
        assert_eq!((s.state.early, s.counts.lost), (early, lost));
    }
}

/// At most L - 1 places, and the first stands next to them.
#[test]
fn places_for_older_numbers_are_looked_at() {
    let vector = running().state;
    let match_rule = Stream {
        rule: Stream::MATCH_RULE,
        state: State {
            history: [0; 8],
            ..vector
        },
        ..running()
    };
    let fresh = Stream {
        state: FRESH,
        ..running()
    };
    for (s, lawful) in [
        (running(), [0, 1, 3].as_slice()),
        (match_rule, &[0]),
        (fresh, &[0]),
    ] {
        for early in (0..=s.window).chain([256, 65535]) {
            let mut s = s;
            s.state.early = early;
            let free = Stream { used: 0, ..s };
            let is_lawful = lawful.contains(&early);
            let mut r = Receiver::from_records(vec![s, free]);
            let damaged = u64::from(!is_lawful);
            assert_eq!(r.tick(), Ok(Ticked { resets: 0, damaged }));
            assert_eq!(r.records()[0].state.early, early);
            assert_eq!(r.records()[1], free);
            let arrives = |r: &mut Receiver| r.arrival(0, &tagged(60, 101), &mut [0; 60]).err();
            let why = if is_lawful {
                None
            } else {
                Some(Refusal::Damaged)
            };
            assert_eq!(arrives(&mut r), why);
            assert_eq!(r.reset(0), Ok(()));
            assert_eq!(r.records()[0].state, FRESH);
            assert_eq!(arrives(&mut r), None);
            // By a tick too.
            r.records_mut()[0].state.remaining = 1;
            assert_eq!(r.tick().unwrap().resets, 1);
            assert_eq!(r.records()[0].state, FRESH);
        }
    }
}

#[test]
fn open_writes_every_field_and_close_keeps_all_but_one() {
    let free = Stream {
        used: 0,
        ..DISTINCT
    };
    let mut r = Receiver::from_records(vec![DISTINCT, free]);
    let s = Settings {
        destination: [0xC1, 0xC2, 0xC3, 0xC4, 0xC5, 0xC6],
        vlan: 0x0321,
        rule: Stream::MATCH_RULE,
        window: 63,
        time: 0xB1B2,
    };
    assert_eq!(r.open(s), Ok(1));
    let opened = Stream {
        dest: 0xC1C2C3C4C5C6,
        vlan: 0x0321,
        window: 63,
        time: 0xB1B2,
        rule: 2,
        used: 1,
        state: FRESH,
        counts: Counts::default(),
    };
    assert_eq!(r.records(), [DISTINCT, opened]);
    assert_eq!(r.close(0), Ok(()));
    assert_eq!(r.records(), [free, opened]);
}

#[test]
fn a_reset_mends_and_a_tick_ages() {
    let mut hurt = running();
    hurt.state = DISTINCT.state;
    let mut last = running();
    last.state.remaining = 1;
    let mut r = Receiver::from_records(vec![running(), hurt, last]);
    assert_eq!(
        r.tick(),
        Ok(Ticked {
            resets: 1,
            damaged: 1
        })
    );
    let mut older = running();
    older.state.remaining = 5;
    let mut fresh = running();
    fresh.state = FRESH;
    fresh.counts.resets += 1;
    assert_eq!(r.records(), [older, hurt, fresh]);
    assert_eq!(r.reset(1), Ok(()));
    assert_eq!(r.records(), [older, fresh, fresh]);
}

#[test]
fn every_refusal() {
    let mut long = Receiver::new(65);
    let mut r = Receiver::from_records(vec![Stream {
        rule: 4,
        ..running()
    }]);
    let mut out = [0; 2000];
    let bare = [6; 60];
    let group = from(1, bare.to_vec());
    let mut seen = vec![
        refused(&mut long, 2, &from(1, tagged(2001, 1)), 0),
        refused(&mut r, 2, &from(1, tagged(2001, 1)), 0),
        refused(&mut r, 1, &from(1, tagged(2001, 1)), 0),
        refused(&mut r, 1, &from(1, tagged(19, 1)), 0),
        refused(&mut r, 1, &group, 0),
        refused(&mut Receiver::new(1), 1, &tagged(60, 1), 0),
        refused(&mut r, 1, &tagged(60, 1), 0),
    ];
    r.records_mut()[0].rule = 1;
    seen.push(refused(&mut r, 1, &tagged(60, 1), 53));
    seen.push(r.open(settings(4095)).err());
    seen.push(r.open(settings(0)).err());
    seen.push(r.open(settings(1)).err());
    seen.push(r.close(1).err());
    seen.push(tag::put(&from(1, tagged(60, 1)), 2, &mut out).err());
    seen.push(tag::put(&group, 2, &mut []).err());
    seen.push(r.batch(1, 33, &[], &mut []).err());
    seen.push(prp::from(&group, Kind::Of2012, &mut []).err());
    seen.push(Refusal::of_number(archive::rebuild(&[], &mut [0; 127])));
    assert_eq!(
        seen,
        Refusal::ALL.iter().map(|&n| Some(n)).collect::<Vec<_>>()
    );

    // The other calls that give them.
    assert_eq!(long.link_arrival(0, &bare, &mut out), Err(Refusal::Table));
    assert_eq!(long.open(settings(4095)), Err(Refusal::Table));
    assert_eq!(long.close(99), Err(Refusal::Table));
    assert_eq!(long.reset(99), Err(Refusal::Table));
    assert_eq!(long.tick(), Err(Refusal::Table));
    assert_eq!(r.reset(1), Err(Refusal::Slot));
    r.records_mut()[0].window = 513;
    assert_eq!(r.reset(0), Err(Refusal::Damaged));
    assert_eq!(tag::put(&[1; 1995], 2, &mut out), Err(Refusal::Long));
    assert_eq!(tag::put(&group[..13], 2, &mut out), Err(Refusal::Short));
    assert_eq!(tag::put(&bare, 2, &mut out[..65]), Err(Refusal::Room));
    assert_eq!(tag::take(&[0; 2001], &mut out), Err(Refusal::Long));
    assert_eq!(tag::take(&tagged(19, 1), &mut out), Err(Refusal::Short));
    assert_eq!(tag::take(&bare, &mut out), Err(Refusal::Untagged));
    assert_eq!(
        tag::take(&tagged(60, 1), &mut out[..53]),
        Err(Refusal::Room)
    );
}

#[test]
fn a_group_source_reaches_no_stream() {
    let group = Err(Refusal::Group);
    let mut out = [0; 100];
    for first in 0..=255 {
        let frame = from(first, tagged(60, 101));
        let bare = from(first, vec![6; 60]);
        let is_group = first % 2 == 1;
        let mut r = Receiver::from_records(vec![running()]);
        if is_group {
            assert_eq!(refused(&mut r, 0, &frame, 60), Some(Refusal::Group));
        } else {
            assert!(r.arrival(0, &frame, &mut out).is_ok());
        }
        assert_eq!(
            tag::put(&bare, 7, &mut out),
            if is_group { group } else { Ok(66) }
        );
        // Taking a tag out does not look at the source.
        assert_eq!(tag::take(&frame, &mut out).map(|t| t.number), Ok(101));
    }

    // Before an unknown key, a damaged record and an output that is too small.
    let frame = from(0xFF, tagged(60, 1));
    let damaged = Receiver::from_records(vec![Stream {
        rule: 4,
        ..running()
    }]);
    for mut r in [Receiver::new(1), damaged] {
        assert_eq!(refused(&mut r, 1, &frame, 0), Some(Refusal::Group));
    }

    // A group destination is a key as any other.
    let mut r = Receiver::new(1);
    let destination = [0x01, 0x00, 0x5E, 0x00, 0x00, 0x07];
    let opened = r.open(Settings {
        destination,
        ..settings(0)
    });
    assert_eq!(opened, Ok(0));
    let mut frame = tagged(60, 1);
    frame[..6].copy_from_slice(&destination);
    assert!(r.arrival(0, &from(0xFE, frame), &mut out).is_ok());
}

#[test]
fn nothing_is_lent() {
    let mut r = Receiver::new(0);
    assert_eq!(r.arrival(0, &[], &mut []), Err(Refusal::Short));
    assert_eq!(r.arrival(0, &tagged(60, 1), &mut []), Err(Refusal::Unknown));
    assert_eq!(r.link_arrival(0, &[], &mut []), Err(Refusal::Short));
    assert_eq!(r.link_arrival(0, &[2; 15], &mut []), Err(Refusal::Unknown));
    assert_eq!(r.open(settings(0)), Err(Refusal::Full));
    assert_eq!(r.close(0), Err(Refusal::Slot));
    assert_eq!(
        r.tick(),
        Ok(Ticked {
            resets: 0,
            damaged: 0
        })
    );
    assert_eq!(tag::take(&[], &mut []), Err(Refusal::Short));
    assert_eq!(tag::put(&[], 1, &mut []), Err(Refusal::Short));
    for kind in [Kind::First, Kind::Of2012] {
        assert_eq!(prp::from(&[], kind, &mut []), Err(Refusal::Short));
        assert_eq!(prp::to(&[], 0, kind, &mut []), Err(Refusal::Short));
    }
}

#[test]
fn refusals_have_their_numbers_and_say_why() {
    let numbers: Vec<u8> = Refusal::ALL.iter().map(|r| r.number()).collect();
    assert_eq!(numbers, (1..=16).chain([18]).collect::<Vec<_>>());
    for &refusal in Refusal::ALL {
        assert_eq!(Refusal::of_number(refusal.number()), Some(refusal));
    }
    for no_refusal in [0, 17, 19, 255] {
        assert_eq!(Refusal::of_number(no_refusal), None);
    }
    let why: Box<dyn std::error::Error> = Box::new(Refusal::Room);
    assert_eq!(why.to_string(), "refused (8): output too small");
}

#[test]
fn a_record_as_bytes() {
    let bytes = DISTINCT.to_bytes();
    assert_eq!(bytes.len(), 152);
    // Each field of DISTINCT is written with its high byte first, so in memory it stands backwards.
    assert_eq!(bytes[..8], [8, 7, 6, 5, 4, 3, 2, 1]);
    assert_eq!(
        bytes[8..16],
        [0x12, 0x11, 0x14, 0x13, 0x16, 0x15, 0x17, 0x18]
    );
    assert_eq!(bytes[16..24], 0x2122232425262728u64.to_le_bytes());
    assert_eq!(bytes[24..32], 0xB1B2B3B4B5B6B7B8u64.to_le_bytes());
    assert_eq!(bytes[72..80], 0x393A3B3C3D3E3F40u64.to_le_bytes());
    assert_eq!(
        bytes[80..88],
        [0x2A, 0x29, 0x2C, 0x2B, 0x2E, 0x2D, 0x30, 0x2F]
    );
    assert_eq!(bytes[88..96], 0x3132333435363738u64.to_le_bytes());
    assert_eq!(bytes[144..], 0xA1A2A3A4A5A6A7A8u64.to_le_bytes());
}
