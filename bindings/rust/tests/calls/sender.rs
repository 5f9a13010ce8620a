//! A send is the tag writer with the next number and two outputs: order 6's own words as a reference, and each case that is
//! easily missed.

use super::{from, in_vlan, settings, tagged, typed, untagged, Dice, DESTINATION};
use nippitsun::archive::{self, TagAnswer};
use nippitsun::{tag, Receiver, Refusal, Sender, Sent, Stream, Verdict};

fn at(next: u16) -> Sender {
    Sender { next }
}

/// A send into outputs of these lengths, held to the tag writer: it has the next number and as much room as the smaller output,
/// and what it writes stands in both. The bytes behind it are as they were, and so is all of it where it is refused. Answers the
/// tagged frame too.
fn send(sender: &mut Sender, frame: &[u8], rooms: [usize; 2]) -> Result<(u16, Vec<u8>), Refusal> {
    let number = sender.next;
    let mut smaller = vec![0xA5; rooms[0].min(rooms[1])];
    let written = tag::put(frame, number, &mut smaller);
    smaller.truncate(written.unwrap_or(0));
    let want = rooms.map(|room| [&smaller[..], &vec![0xA5; room - smaller.len()]].concat());

    let mut outs = rooms.map(|room| vec![0xA5; room]);
    let [out0, out1] = &mut outs;
    let mut again = Sender { next: sender.next };
    let sent = sender.send(frame, out0, out1);
    assert_eq!(sent, written.map(|length| Sent { number, length }));
    assert_eq!(outs, want);
    let used = u16::from(written.is_ok());
    assert_eq!(sender.next, number.wrapping_add(used));

    // The call as it is: where it is refused, the answer is 0 but for the number.
    let [out0, out1] = &mut outs;
    let told = archive::send(&mut again, frame, out0, out1);
    let plain = match written {
        Ok(length) => TagAnswer {
            length,
            number,
            refusal: 0,
        },
        Err(why) => TagAnswer {
            refusal: why.number(),
            ..TagAnswer::default()
        },
    };
    assert_eq!((told, &again), (plain, &*sender));
    sent.map(|s| (s.number, smaller))
}

/// A send with room for the frame and its tag.
fn fits(sender: &mut Sender, frame: &[u8]) -> (u16, Vec<u8>) {
    let room = frame.len() + tag::LENGTH;
    send(sender, frame, [room, room]).unwrap()
}

#[test]
fn a_pair_has_the_next_number() {
    let frame = untagged(60);
    let mut sender = Sender::new();
    assert_eq!(sender, at(0));
    for number in 0..300 {
        let (told, pair) = send(&mut sender, &frame, [100, 67]).unwrap();
        let tag = [0xF1, 0xC1, 0, 0, (number >> 8) as u8, number as u8];
        assert_eq!(pair, [&frame[..12], &tag, &frame[12..]].concat());
        assert_eq!((told, sender.next), (number, number + 1));
    }
}

#[test]
fn the_tag_stands_behind_a_vlan_tag() {
    let tag = [0xF1, 0xC1, 0, 0, 0xAB, 0xCD];
    // Whatever type follows it; and F1C1 that is not at the type field is no tag.
    for (frame, place) in [
        (in_vlan(60), 16),
        (typed(16, 0x8100, in_vlan(60)), 16),
        (typed(20, 0xF1C1, in_vlan(60)), 16),
        (typed(16, 0xF1C1, untagged(60)), 12),
    ] {
        let (_, pair) = fits(&mut at(0xABCD), &frame);
        assert_eq!(pair, [&frame[..place], &tag, &frame[place..]].concat());
    }
}

#[test]
fn zero_again_after_65535_and_after_a_reset() {
    let mut sender = at(65534);
    let numbers = [0; 4].map(|_| fits(&mut sender, &untagged(60)).0);
    assert_eq!(numbers, [65534, 65535, 0, 1]);
    for next in [0, 1, 2, 255, 256, 0x8000, 65535] {
        let mut sender = at(next);
        sender.reset();
        assert_eq!(sender, Sender::new());
        assert_eq!(fits(&mut sender, &untagged(60)).0, 0);
    }
}

/// Each with all the later ones wrong too, whichever output is too small.
#[test]
fn refusals_in_their_order() {
    for rooms in [[0, 0], [0, 2000], [2000, 0], [1, 65], [65, 66], [66, 65]] {
        for (frame, why) in [
            (from(1, tagged(2100, 1)), Refusal::Long),
            (from(1, tagged(1995, 1)), Refusal::Long),
            (from(1, tagged(13, 1)), Refusal::Short),
            (from(1, in_vlan(17)), Refusal::Short),
            (from(1, tagged(14, 1)), Refusal::Tagged),
            (from(1, typed(16, 0xF1C1, in_vlan(18))), Refusal::Tagged),
            (from(1, tagged(1994, 1)), Refusal::Tagged),
            (from(1, untagged(60)), Refusal::Group),
            (from(0xFF, in_vlan(60)), Refusal::Group),
            (untagged(60), Refusal::Room),
            (in_vlan(60), Refusal::Room),
        ] {
            assert_eq!(send(&mut at(77), &frame, rooms), Err(why));
            // With room for all of them, 8 alone is gone.
            let with_room = send(&mut at(77), &frame, [2000, 2001]);
            assert_eq!(with_room.err(), (why != Refusal::Room).then_some(why));
        }
    }
}

#[test]
fn lengths() {
    let rooms = [Stream::FRAME_MOST, Stream::FRAME_MOST];
    for length in 0..20 {
        let plain = send(&mut Sender::new(), &untagged(length), rooms);
        let vlan = send(&mut Sender::new(), &in_vlan(length), rooms);
        let short = |least| (length < least).then_some(Refusal::Short);
        assert_eq!((plain.err(), vlan.err()), (short(14), short(18)));
    }
    let longest = untagged(Stream::UNTAGGED_MOST);
    let (_, pair) = send(&mut Sender::new(), &longest, rooms).unwrap();
    assert_eq!(pair.len(), 2000);
    assert_eq!(
        send(&mut Sender::new(), &untagged(1995), [3000, 3000]),
        Err(Refusal::Long)
    );
}

#[test]
fn both_outputs_have_room_or_neither_is_written() {
    for length in [14, 60, 300, 1994] {
        let frame = untagged(length);
        let more = [0, 1, 5, 6, 7, 50];
        for (more0, more1) in more.into_iter().flat_map(|a| more.map(|b| (a, b))) {
            let sent = send(&mut at(9), &frame, [length + more0, length + more1]);
            let fits = more0 >= tag::LENGTH && more1 >= tag::LENGTH;
            assert_eq!(sent.err(), (!fits).then_some(Refusal::Room));
        }
        assert_eq!(send(&mut at(9), &frame, [0, 2000]), Err(Refusal::Room));
        assert_eq!(send(&mut at(9), &frame, [2000, 0]), Err(Refusal::Room));
    }
    let nothing = Sender::new().send(&[], &mut [], &mut []);
    assert_eq!(nothing, Err(Refusal::Short));
}

#[test]
fn a_refused_frame_uses_up_no_number() {
    for first in [0, 65535] {
        let mut sender = at(first);
        assert_eq!(fits(&mut sender, &untagged(60)).0, first);
        for (frame, why) in [
            (untagged(1995), Refusal::Long),
            (untagged(13), Refusal::Short),
            (tagged(60, 1), Refusal::Tagged),
            (from(1, untagged(60)), Refusal::Group),
            (untagged(61), Refusal::Room),
        ] {
            assert_eq!(send(&mut sender, &frame, [66, 100]), Err(why));
            assert_eq!(send(&mut sender, &frame, [100, 66]), Err(why));
        }
        let second = first.wrapping_add(1);
        assert_eq!(fits(&mut sender, &untagged(60)).0, second);
    }
}

/// Frames of all kinds. Without a reset a frame carries how many were sent before it, modulo 65536.
#[test]
fn numbers_are_indices() {
    let mut dice = Dice(6);
    let (mut sender, mut index, mut refusals) = (Sender::new(), 0, 0);
    while index < 2 * 65536 + 2 {
        let length = [0, 13, 14, 17, 18, 60, 300, 1994, 1995][dice.below(9) as usize];
        let mut frame = untagged(length);
        if dice.below(3) == 0 {
            frame = typed(12, 0x8100, frame);
        }
        if dice.below(8) == 0 {
            frame = typed([12, 16][dice.below(2) as usize], 0xF1C1, frame);
        }
        if length > 6 && dice.below(8) == 0 {
            frame = from(1, frame);
        }
        let rooms = [0; 2].map(|_| length + 4 + dice.below(40) as usize);
        match send(&mut sender, &frame, rooms) {
            Ok((number, _)) => {
                assert_eq!(usize::from(number), index % 65536);
                index += 1;
            }
            Err(_) => refusals += 1,
        }
    }
    assert!(refusals > 10_000);
    assert_eq!(sender, at(2));
}

#[test]
fn what_is_sent_is_received_once() {
    let frame = untagged(60);
    let (mut out0, mut out1, mut out) = ([0; 66], [0; 70], [0; 66]);
    let mut receiver = Receiver::new(1);
    receiver.open(settings(0)).unwrap();
    assert_eq!(frame[..6], DESTINATION);
    let mut sender = at(65000);
    for index in 0..1000 {
        let sent = sender.send(&frame, &mut out0, &mut out1).unwrap();
        let networks = [&out0[..sent.length], &out1[..sent.length]];
        let taken = tag::take(networks[index % 2], &mut out).unwrap();
        assert_eq!((taken.number, &out[..60]), (sent.number, &frame[..]));

        // From the network where it comes first.
        let mut verdict = |network: usize| {
            let a = receiver.arrival(network as u8, networks[network], &mut out);
            assert_eq!(a.map(|a| a.number), Ok(sent.number));
            (a.unwrap().verdict, out[..60] == frame)
        };
        let up = Verdict::HandedUp { length: 60 };
        assert_eq!(verdict(index % 2), (up, true));
        assert_eq!(verdict(1 - index % 2).0, Verdict::Duplicate);
    }
    let counts = *receiver.counts(0).unwrap();
    assert_eq!(counts.all(), [1000, 1000, 1000, 1000, 0, 0, 0, 0]);

    // The stream stands at 463. A sender that is reset is a rogue to it, until R ticks have passed with nothing handed up.
    sender.reset();
    let sent = sender.send(&frame, &mut out0, &mut out1).unwrap();
    let mut arrives = |r: &mut Receiver| {
        r.arrival(0, &out0[..sent.length], &mut out)
            .unwrap()
            .verdict
    };
    assert_eq!(arrives(&mut receiver), Verdict::Rogue);
    let resets = [0; 3].map(|_| receiver.tick().unwrap().resets);
    assert_eq!(resets, [0, 0, 1]);
    assert_eq!(arrives(&mut receiver), Verdict::HandedUp { length: 60 });
}
