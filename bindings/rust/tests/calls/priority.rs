//! The priority in a VLAN tag (document 02, order 11): every value of the tag, every verdict and refusal, and what is no VLAN tag.

use super::{
    from, history, in_vlan, only, refused, running, settings, tagged, typed, untagged,
    with_vlan_tag, DESTINATION,
};
use nippitsun::archive::{self, ArrivalAnswer, PLACES};
use nippitsun::batch::Frames;
use nippitsun::prp::{self, Kind};
use nippitsun::{Arrival, Priority, Receiver, Refusal, Sender, Settings, Stream, Verdict};

/// The frames here have 60 bytes, and 64 with a VLAN tag.
const UP: Verdict = Verdict::HandedUp { length: 58 };
const BARE_UP: Verdict = Verdict::HandedUp { length: 54 };

/// Numbers with each verdict of the record `running`.
const NUMBERS: [u16; 3] = [101, 100, 110];

/// The record behind the first arrival of such a number, on network 0.
fn behind(number: u16, mut s: Stream) -> Stream {
    s.counts.arrivals0 += 1;
    match number {
        100 => s.counts.discarded += 1,
        110 => s.counts.rogue += 1,
        _ => {
            s.counts.passed += 1;
            s.counts.lost += 1;
            s.state.history = history(11);
            s.state.anchor = number;
            s.state.remaining = s.time;
        }
    }
    s
}

/// The plain answer's two fields.
fn plain(a: &ArrivalAnswer) -> (u8, u8) {
    (a.priority, a.vlantag)
}

/// Output and record are what they would be with any other priority.
#[test]
fn every_value_of_a_vlan_tag() {
    for control in 0..=65535u16 {
        let vlan = control % 4096;
        let lent = Stream { vlan, ..running() };
        for (number, verdict) in NUMBERS
            .into_iter()
            .zip([UP, Verdict::Duplicate, Verdict::Rogue])
        {
            let frame = with_vlan_tag(control, tagged(60, number));
            let mut r = Receiver::from_records(vec![lent]);
            if vlan > Stream::VLAN_MOST {
                // No stream has this id.
                assert_eq!(refused(&mut r, 0, &frame, 60), Some(Refusal::Damaged));
                continue;
            }
            let mut out = [0xA5; 60];
            let priority = Some(Priority::ALL[usize::from(control / 8192)]);
            let slot = 0;
            let want = Arrival {
                slot,
                number,
                priority,
                verdict,
            };
            assert_eq!(r.arrival(0, &frame, &mut out), Ok(want));
            assert_eq!(r.records(), [behind(number, lent)]);
            let mut written = [&frame[..16], &frame[22..], &[0xA5; 2]].concat();
            if verdict != UP {
                written.fill(0xA5);
            }
            assert_eq!(out[..], written);

            let told = archive::arrival(&mut [lent], 0, &frame, &mut out);
            assert_eq!(plain(&told), ((control / 8192) as u8, 1));
        }
    }
}

#[test]
fn frames_of_every_length() {
    let mut out = [0; Stream::UNTAGGED_MOST];
    for length in 24..=Stream::FRAME_MOST {
        let control = (length % 16 << 12) as u16;
        let frame = with_vlan_tag(control, tagged(length - 4, 101));
        let mut r = Receiver::from_records(vec![running()]);
        let a = r.arrival(0, &frame, &mut out).unwrap();
        assert_eq!(a.priority, Some(Priority::ALL[usize::from(control / 8192)]));
        let up = Verdict::HandedUp { length: length - 6 };
        assert_eq!(a.verdict, up);
    }
}

/// Where F1C1 stands at 12 there is no VLAN tag, though one may follow, with which the frame handed up begins. And of two VLAN tags
/// the first counts.
#[test]
fn what_stands_behind_the_tag_does_not_count() {
    for control in 0..=65535u16 {
        let frame = typed(20, control, typed(18, 0x8100, tagged(60, 101)));
        let mut out = [0; 60];
        let mut r = Receiver::from_records(vec![running()]);
        let a = r.arrival(0, &frame, &mut out).unwrap();
        assert_eq!((a.priority, a.verdict), (None, BARE_UP));
        assert_eq!(out[12..16], frame[18..22]);
        assert_eq!(r.records(), [behind(101, running())]);
        let told = archive::arrival(&mut [running()], 0, &frame, &mut out);
        assert_eq!(plain(&told), (0, 0));

        let first = control.rotate_left(5) & 0xF000;
        let frame = with_vlan_tag(first, frame);
        let mut r = Receiver::from_records(vec![running()]);
        let a = r.arrival(0, &frame, &mut out).unwrap();
        assert_eq!(a.priority, Priority::new((first >> 13) as u8));
        assert_eq!(r.records(), [behind(101, running())]);
    }
}

/// A tag with VLAN id 0 has the key of no tag: the two copies of a command may differ, and each answer tells its own.
#[test]
fn priority_0_is_not_the_same_as_none() {
    for control in [0x0000, 0x1000, 0xA000, 0xF000] {
        let own = Priority::new((control >> 13) as u8);
        let mut r = Receiver::from_records(vec![running()]);
        for number in 101..=110 {
            let bare = tagged(60, number);
            let in_tag = with_vlan_tag(control, bare.clone());
            let copies = [(in_tag, own, UP), (bare, None, BARE_UP)];
            let first = usize::from(number % 2);
            let mut arrives = |i: usize| {
                let (frame, priority, up) = &copies[i];
                let a = r.arrival(i as u8, frame, &mut [0; 60]).unwrap();
                assert_eq!((a.number, a.priority), (number, *priority));
                (a.verdict, *up)
            };
            let (verdict, up) = arrives(first);
            assert_eq!(verdict, up);
            assert_eq!(arrives(1 - first).0, Verdict::Duplicate);
        }
    }
}

/// Each refusal of a frame whose tag says 7, behind one that was taken.
#[test]
fn a_refused_frame_has_none() {
    let in_tag = |frame| with_vlan_tag(0xE005, frame);
    let good = Stream {
        vlan: 5,
        ..running()
    };
    let hurt = Stream { rule: 4, ..good };
    let many = vec![Stream::default(); 65];
    for (why, records, network, frame, room) in [
        (Refusal::Table, many, 0, in_tag(tagged(60, 101)), 60),
        (Refusal::Network, vec![good], 2, in_tag(tagged(60, 101)), 60),
        (Refusal::Long, vec![good], 0, in_tag(tagged(1997, 1)), 2000),
        (Refusal::Short, vec![good], 0, in_tag(tagged(19, 101)), 60),
        (Refusal::Untagged, vec![good], 0, in_tag(untagged(60)), 60),
        (
            Refusal::Untagged,
            vec![good],
            0,
            in_tag(in_tag(tagged(60, 101))),
            64,
        ),
        (
            Refusal::Group,
            vec![good],
            0,
            from(1, in_tag(tagged(60, 101))),
            60,
        ),
        (
            Refusal::Unknown,
            vec![running()],
            0,
            in_tag(tagged(60, 101)),
            60,
        ),
        (Refusal::Damaged, vec![hurt], 0, in_tag(tagged(60, 101)), 60),
        (Refusal::Room, vec![good], 0, in_tag(tagged(60, 101)), 57),
        (Refusal::Room, vec![good], 0, in_tag(tagged(60, 100)), 57),
    ] {
        let taken = archive::arrival(&mut [good], 0, &in_tag(tagged(60, 101)), &mut [0; 60]);
        assert_eq!(plain(&taken), (7, 1));
        let mut r = Receiver::from_records(records);
        assert_eq!(refused(&mut r, network, &frame, room), Some(why));
    }
    // Nor has one without a VLAN tag.
    let none = archive::arrival(&mut [running()], 0, &tagged(60, 101), &mut [0; 60]);
    assert_eq!(plain(&none), (0, 0));
}

/// Every priority in its place, frames without a VLAN tag and refused ones between, and all verdicts.
#[test]
fn a_batch_tells_it_in_each_place() {
    let none = |number| (tagged(60, number), None);
    let some = |control: u16, number| {
        let frame = with_vlan_tag(control, tagged(60, number));
        (frame, Priority::new((control >> 13) as u8))
    };
    let mut frames = vec![none(101)];
    for priority in 0..8 {
        frames.push(some(priority << 13 | 0x1000, 102 + priority));
        frames.push(some((7 - priority) << 13, 102 + priority));
        frames.push(none(102 + priority));
    }
    frames.push(some(0xA000, 500));
    let refused_at = frames.len();
    frames.push((with_vlan_tag(0xE006, tagged(60, 110)), None));
    frames.push((with_vlan_tag(0xE000, untagged(60)), None));
    frames.push(some(0xC000, 110));
    assert!(frames.len() < 32);

    let mut buffer = vec![0; 4000];
    let mut packed = Frames::new(&mut buffer);
    for (frame, _) in &frames {
        packed.push(frame).unwrap();
    }
    let (count, bytes) = (packed.count(), packed.bytes());
    let mut r = Receiver::from_records(vec![running()]);
    let mut out = vec![0; 4000];
    let answer = r.batch(0, count, bytes, &mut out).unwrap();
    assert_eq!(answer.frames(), count);
    for (place, (a, (_, priority))) in answer.answers().zip(&frames).enumerate() {
        match place.wrapping_sub(refused_at) {
            0 => assert_eq!(a, Err(Refusal::Unknown)),
            1 => assert_eq!(a, Err(Refusal::Untagged)),
            _ => assert_eq!(a.unwrap().priority, *priority, "{place}"),
        }
    }
    // The first of each three is handed up, and the last of all.
    let up: Vec<_> = answer.handed_up().map(|u| (u.place, u.priority)).collect();
    let mut want = vec![(0, None)];
    want.extend((0..8).map(|i| (1 + 3 * i, Some(Priority::ALL[i]))));
    want.push((count - 1, Priority::new(6)));
    assert_eq!(up, want);

    // The plain answers, with so much room that 8 ends the call at each place where it can: that frame and those behind it have
    // none.
    let mut index = [0; PLACES];
    assert_eq!(archive::rebuild(&[running()], &mut index), 0);
    let mut ends = Vec::new();
    for room in 0..700 {
        let told = archive::batch(&mut [running()], &index, 0, count, bytes, &mut out[..room]);
        assert_eq!(told.refusal, 0);
        for (place, a) in told.answers.iter().enumerate() {
            let decided = place < told.frames && a.refusal == 0;
            let priority = match frames.get(place) {
                Some((_, priority)) if decided => *priority,
                _ => None,
            };
            let want = priority.map_or((0, 0), |p| (p.get(), 1));
            assert_eq!(plain(a), want, "{room} {place}");
        }
        for a in told.answers.iter().skip(told.frames + 1) {
            assert_eq!(*a, ArrivalAnswer::default());
        }
        if told.frames < count {
            assert_eq!(told.answers[told.frames], only(Some(Refusal::Room)));
            ends.push(told.frames);
        }
    }
    ends.dedup();
    assert!(ends.len() > 8, "{ends:?}");

    // A call that is refused says nothing of any frame.
    for (network, count) in [(2, count), (0, 33)] {
        let told = archive::batch(&mut [running()], &index, network, count, bytes, &mut out);
        assert_ne!(told.refusal, 0);
        assert_eq!(told.answers, [ArrivalAnswer::default(); 32]);
    }
}

/// Its arrival reads no VLAN tag, whatever stands at 12. Nor does it tell what another arrival read before.
#[test]
fn a_virtual_link_has_none() {
    let mut r = Receiver::new(1);
    let opened = r.open(Settings {
        rule: Stream::LINK_RULE,
        ..settings(0)
    });
    assert_eq!(opened, Ok(0));
    let plainly = r.records()[0];
    for control in (0..=65535u16).step_by(251) {
        let frame = with_vlan_tag(control, untagged(60));
        for verdict in [Verdict::HandedUp { length: 63 }, Verdict::Duplicate] {
            let urgent = with_vlan_tag(0xE000, tagged(60, 101));
            let before = archive::arrival(&mut [running()], 0, &urgent, &mut [0; 60]);
            assert_eq!(plain(&before), (7, 1));
            let a = r.link_arrival(0, &frame, &mut [0; 63]).unwrap();
            assert_eq!((a.priority, a.verdict), (None, verdict));
        }
        r.reset(0).unwrap();
        let told = archive::link_arrival(&mut [plainly], 0, &frame, &mut [0; 63]);
        assert_eq!((plain(&told), told.verdict), ((0, 0), archive::HANDED_UP));
    }
}

/// What is sent with a priority is received with it, on both networks and over PRP lines.
#[test]
fn from_the_sender_to_the_receiver() {
    let mut out = [0; 100];
    for control in (0..=65535u16).step_by(4099).filter(|c| c % 4096 != 4095) {
        let frame = typed(14, control, in_vlan(60));
        assert_eq!(frame[..6], DESTINATION);
        let own = Priority::new((control >> 13) as u8);
        let (mut out0, mut out1) = ([0; 66], [0; 66]);
        let sent = Sender::new().send(&frame, &mut out0, &mut out1).unwrap();
        assert_eq!(sent.length, 66);
        let mut r = Receiver::new(1);
        r.open(settings(control % 4096)).unwrap();
        for (network, copy) in [(0, &out0), (1, &out1)] {
            let a = r.arrival(network, copy, &mut out).unwrap();
            assert_eq!(a.priority, own);
            for kind in [Kind::First, Kind::Of2012] {
                let (mut line, mut again) = ([0; 66], [0; 66]);
                let on_line = prp::to(copy, network, kind, &mut line).unwrap();
                let turned = prp::from(&line[..on_line.length], kind, &mut again).unwrap();
                let a = r.arrival(turned.network, &again[..turned.length], &mut out);
                assert_eq!(a.unwrap().priority, own);
            }
        }
    }
}

#[test]
fn a_priority_is_0_to_7() {
    for number in 0..=255 {
        let priority = Priority::new(number);
        assert_eq!(priority.is_some(), number < 8);
        assert_eq!(priority, Priority::ALL.get(usize::from(number)).copied());
        if let Some(p) = priority {
            assert_eq!((p.get(), p.index()), (number, usize::from(number)));
            assert_eq!(p.to_string(), number.to_string());
        }
    }
    assert!(Priority::ALL.windows(2).all(|two| two[0] < two[1]));
    assert_eq!(Priority::default(), Priority::ALL[0]);
}
