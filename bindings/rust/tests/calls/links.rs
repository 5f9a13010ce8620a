//! Virtual links (document 02, order 10): every verdict, refusal and number, and streams of both families in one table.

use super::{from, only, running, settings, tagged, typed, with_vlan_tag, DISTINCT, FRESH};
use nippitsun::{archive, Arrival, Receiver, Refusal, Settings, State, Stream, Verdict};

const UP: Verdict = Verdict::HandedUp { length: 59 };

/// A lawful record of a virtual link with this last number and distinct counters.
fn link(last: u16) -> Stream {
    Stream {
        rule: Stream::LINK_RULE,
        state: State {
            history: [0; 8],
            anchor: last,
            ..running().state
        },
        ..running()
    }
}

fn fresh_link() -> Stream {
    Stream {
        state: FRESH,
        ..link(0)
    }
}

/// A frame of so many bytes that ends in this number.
fn frame(length: usize, number: u8) -> Vec<u8> {
    let mut f = tagged(length, 0);
    f[length - 1] = number;
    f
}

/// The order's own words: the steps are taken one by one, and 1 follows 0 and 255.
fn is_up(last: u8, number: u8) -> bool {
    if number == 0 {
        return last != 0;
    }
    let next = |&n: &u8| Some(if n == 255 { 1 } else { n + 1 });
    let mut steps = std::iter::successors(next(&last), next).take(127);
    steps.any(|n| n == number)
}

/// What a record is behind an arrival.
fn behind(mut s: Stream, network: u8, number: u8) -> (Stream, Verdict) {
    let up = s.state.any != 0 || is_up(s.state.anchor as u8, number);
    match network {
        0 => s.counts.arrivals0 += 1,
        _ => s.counts.arrivals1 += 1,
    }
    if !up {
        s.counts.discarded += 1;
        return (s, Verdict::Duplicate);
    }
    s.counts.passed += 1;
    s.state = State {
        anchor: number.into(),
        remaining: s.time,
        any: 0,
        ..FRESH
    };
    (s, UP)
}

/// An arrival that is refused changes nothing, and its answer is 0 but for the number.
fn refused(r: &mut Receiver, network: u8, frame: &[u8], room: usize) -> Option<Refusal> {
    let before = r.clone();
    let mut out = vec![0xA5; room];
    let why = r.link_arrival(network, frame, &mut out).err();
    let told = archive::link_arrival(r.records_mut(), network, frame, &mut out);
    assert!(*r == before && out == vec![0xA5; room]);
    assert_eq!(told, only(why));
    why
}

#[test]
fn every_number_after_every_last_one() {
    let lasts = (0..=255).map(link).chain([fresh_link()]);
    for last in lasts {
        for number in 0..=255 {
            let mut r = Receiver::from_records(vec![DISTINCT, last]);
            let network = number % 2;
            let (want, verdict) = behind(last, network, number);
            let given = frame(60, number);
            let mut out = [0xA5; 62];
            let slot = 1;
            let number = number.into();
            let answer = r.link_arrival(network, &given, &mut out);
            assert_eq!(
                answer,
                Ok(Arrival {
                    slot,
                    number,
                    priority: None,
                    verdict
                })
            );
            assert_eq!(r.records(), [DISTINCT, want]);
            let written = if verdict == UP { 59 } else { 0 };
            assert_eq!(out[..written], given[..written]);
            assert_eq!(out[written..], [0xA5; 62][written..]);
        }
    }
    // By hand.
    for (last, number, up) in [
        (255, 1, true),
        (255, 127, true),
        (255, 128, false),
        (9, 0, true),
        (0, 0, false),
        (0, 127, true),
        (0, 128, false),
        (1, 255, false),
        (1, 128, true),
        (1, 129, false),
    ] {
        assert_eq!(behind(link(last), 0, number).1 == UP, up, "{last} {number}");
    }
}

/// A sender over its wraps and a restart, on both networks.
#[test]
fn a_sender_in_lockstep() {
    let mut r = Receiver::new(1);
    let opened = r.open(Settings {
        rule: Stream::LINK_RULE,
        ..settings(0)
    });
    assert_eq!(opened, Ok(0));
    for index in (0..700).chain(0..300) {
        let number = if index == 0 { 0 } else { (index - 1) % 255 + 1 };
        let given = frame(60, number as u8);
        let mut arrives = |network| r.link_arrival(network, &given, &mut [0; 60]).unwrap();
        assert_eq!(arrives(index as u8 % 2).verdict, UP);
        assert_eq!(arrives(1 - index as u8 % 2).verdict, Verdict::Duplicate);
    }
    let counts = r.counts(0).unwrap().all();
    assert_eq!(counts, [1000, 1000, 1000, 1000, 0, 0, 0, 0]);
    // Three ticks, and any number is new.
    for resets in [0, 0, 1] {
        assert_eq!(r.tick().unwrap().resets, resets);
    }
    let last = r.link_arrival(0, &frame(60, 45), &mut [0; 60]).unwrap();
    assert_eq!(last.verdict, UP);
}

#[test]
fn lengths_and_types() {
    // What stands at the type field means nothing.
    for kind in [0x8100, 0xF1C1, 0x88A8, 0x0800, 0] {
        for length in [15, 16, 18, 60, 1999, 2000] {
            let given = typed(12, kind, frame(length, 8));
            let mut r = Receiver::from_records(vec![link(7)]);
            let mut out = vec![0; length - 1];
            assert_eq!(refused(&mut r, 0, &given, length - 2), Some(Refusal::Room));
            let a = r.link_arrival(0, &given, &mut out).unwrap();
            let up = Verdict::HandedUp { length: length - 1 };
            assert_eq!((a.number, a.verdict), (8, up));
            assert_eq!(out, given[..length - 1]);
        }
    }
}

/// Each with all the later ones wrong too.
#[test]
fn every_refusal_in_its_order() {
    let hurt = Stream { time: 5, ..link(1) };
    let group = from(1, frame(60, 2));
    let mut long = Receiver::new(65);
    assert_eq!(refused(&mut long, 2, &[1; 2001], 0), Some(Refusal::Table));
    let mut r = Receiver::from_records(vec![hurt]);
    assert_eq!(refused(&mut r, 2, &[1; 2001], 0), Some(Refusal::Network));
    assert_eq!(refused(&mut r, 1, &[1; 2001], 0), Some(Refusal::Long));
    for length in 0..15 {
        assert_eq!(
            refused(&mut r, 1, &vec![1; length], 0),
            Some(Refusal::Short)
        );
    }
    assert_eq!(refused(&mut r, 1, &[1; 15], 0), Some(Refusal::Group));
    assert_eq!(refused(&mut r, 1, &group, 0), Some(Refusal::Group));
    assert_eq!(refused(&mut r, 1, &[2; 15], 0), Some(Refusal::Unknown));
    assert_eq!(refused(&mut r, 1, &frame(60, 2), 0), Some(Refusal::Damaged));
    r.records_mut()[0].time = 9;
    // A duplicate needs the room too.
    for number in [1, 2] {
        let given = frame(60, number);
        assert_eq!(refused(&mut r, 1, &given, 58), Some(Refusal::Room));
    }
}

#[test]
fn which_records_are_lawful() {
    let state = link(0).state;
    let lawful = [link(0), link(255), fresh_link()];
    let damaged = [
        link(256),
        Stream {
            state: State { early: 1, ..state },
            ..link(0)
        },
        Stream {
            state: State {
                history: [0, 0, 0, 0, 0, 0, 0, 1],
                ..state
            },
            ..link(0)
        },
        Stream {
            state: State { any: 1, ..state },
            ..link(0)
        },
        Stream {
            window: 513,
            ..link(0)
        },
    ];
    let both = [(&lawful[..], true), (&damaged[..], false)];
    for (records, is_lawful) in both {
        for &record in records {
            let mut r = Receiver::from_records(vec![record]);
            assert_eq!(r.tick().unwrap().damaged, u64::from(!is_lawful));
            let answer = r.link_arrival(0, &frame(60, 1), &mut [0; 60]);
            let why = if is_lawful {
                None
            } else {
                Some(Refusal::Damaged)
            };
            assert_eq!(answer.err(), why, "{record:?}");
        }
    }
}

#[test]
fn each_arrival_looks_at_its_own_family() {
    for place in [0, 1] {
        let mut records = vec![running(); 2];
        records[place] = link(100);
        let mut r = Receiver::from_records(records);
        let mut out = [0; 60];
        for rule in [Stream::VECTOR_RULE, Stream::MATCH_RULE, Stream::LINK_RULE] {
            let s = Settings {
                rule,
                ..settings(0)
            };
            assert_eq!(r.open(s), Err(Refusal::Taken));
        }
        let a = r.link_arrival(0, &frame(60, 101), &mut out).unwrap();
        assert_eq!((a.slot, a.number), (place, 101));
        let a = r.arrival(0, &tagged(60, 101), &mut out).unwrap();
        assert_eq!((a.slot, a.number), (1 - place, 101));
        // A batch is plain arrivals.
        let mut buffer = vec![0, 60];
        buffer.extend(tagged(60, 102));
        let mut packed = [0; 60];
        let told = r.batch(0, 1, &buffer, &mut packed).unwrap();
        let slots: Vec<_> = told.answers().map(|a| a.unwrap().slot).collect();
        assert_eq!(slots, [1 - place]);
        // Alone, it is still unknown to the other calls, and an open is refused.
        assert_eq!(r.close(1 - place), Ok(()));
        let plain = tagged(60, 103);
        assert_eq!(r.arrival(0, &plain, &mut out), Err(Refusal::Unknown));
        let told = r.batch(0, 1, &buffer, &mut packed).unwrap();
        assert_eq!(told.answers().next(), Some(Err(Refusal::Unknown)));
        assert_eq!(r.open(settings(0)), Err(Refusal::Taken));
    }
}

/// With a VLAN id it is damaged, and no arrival hears it.
#[test]
fn a_link_has_no_vlan_id() {
    let bad = Settings {
        rule: Stream::LINK_RULE,
        ..settings(5)
    };
    assert_eq!(Receiver::new(1).open(bad), Err(Refusal::Setting));
    let lent = Stream {
        vlan: 5,
        ..link(100)
    };
    let mut r = Receiver::from_records(vec![lent, Stream::default()]);
    let in_vlan = with_vlan_tag(5, tagged(60, 101));
    let mut out = [0; 64];
    assert_eq!(r.arrival(0, &in_vlan, &mut out), Err(Refusal::Unknown));
    for given in [in_vlan, frame(60, 101)] {
        assert_eq!(refused(&mut r, 0, &given, 64), Some(Refusal::Unknown));
    }
    assert_eq!(r.open(settings(5)), Err(Refusal::Taken));
    assert_eq!(r.tick().unwrap().damaged, 1);
    assert_eq!(r.reset(0), Err(Refusal::Damaged));
    // Rules that are none are of the rest.
    for rule in [0, 4, 255] {
        r.records_mut()[0] = Stream { rule, ..link(100) };
        let given = tagged(60, 101);
        assert_eq!(r.arrival(0, &given, &mut out), Err(Refusal::Damaged));
        assert_eq!(refused(&mut r, 0, &given, 64), Some(Refusal::Unknown));
    }
}
