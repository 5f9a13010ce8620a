//! Order 6 of document 02: a sender. Each sentence of the order as a case, the
//! wrap, and what a receiver makes of the frames sent.

mod common;

use common::*;
use second::{arrival, take_tag, Refusal, Sender, Sent, Stream};

/// Bytes of [`frame`] with its tag.
const NEEDED: usize = 21;
/// Outputs with room for every frame.
const AMPLE: [usize; 2] = [Stream::MAX_FRAME; 2];

fn frame() -> Vec<u8> {
    untagged_to(DESTINATION, None)
}

fn of_length(length: usize) -> Vec<u8> {
    let mut frame = frame();
    frame.resize(length, 0x33);
    frame
}

fn at_next(next: u16) -> Sender {
    Sender { next }
}

/// A frame for each refusal but 8. Each has every later fault too.
fn refused() -> Vec<(u8, Vec<u8>)> {
    let group = |frame: &[u8]| from_source(3, frame);
    let mut long = group(&tagged(7));
    long.resize(1995, 0);
    let vlan = group(&tagged_to(DESTINATION, Some(5), 7));
    vec![
        (3, long),
        (4, Vec::new()),
        (4, group(&tagged(7)[..13])),
        (4, vlan[..17].to_vec()),
        (13, group(&tagged(7)[..14])),
        (13, vlan),
        (14, group(&frame())),
    ]
}

/// A send with outputs of these sizes: its answer, and the outputs behind it.
fn send(
    sender: &mut Sender,
    frame: &[u8],
    rooms: [usize; 2],
) -> (Result<Sent, Refusal>, [Vec<u8>; 2]) {
    let mut outputs = rooms.map(|room| vec![FILL; room]);
    let [first, second] = &mut outputs;
    let answer = sender.send(frame, first, second);
    (answer, outputs)
}

/// The frame is sent with this number: it stands at the start of both outputs,
/// and nothing is written behind it.
fn is_sent(number: u16, sender: &mut Sender, frame: &[u8], rooms: [usize; 2]) {
    let (answer, outputs) = send(sender, frame, rooms);
    let sent = with_tag(frame, number);
    let length = sent.len();
    assert_eq!(answer, Ok(Sent { number, length }));
    for output in outputs {
        assert_eq!(output[..length], sent);
        assert!(output[length..].iter().all(|&byte| byte == FILL));
    }
}

/// The frame is refused: neither output changes, and no number is used up.
fn is_refused(why: u8, sender: &mut Sender, frame: &[u8], rooms: [usize; 2]) {
    let next = sender.next;
    let (answer, outputs) = send(sender, frame, rooms);
    assert_eq!(number_of(answer), why, "{} bytes to {rooms:?}", frame.len());
    assert_eq!(sender.next, next);
    assert!(outputs.iter().flatten().all(|&byte| byte == FILL));
}

#[test]
fn the_next_number_is_0_at_first_and_rises_by_one() {
    let mut sender = Sender::default();
    for number in 0..5 {
        assert_eq!(sender.next, number);
        is_sent(number, &mut sender, &frame(), AMPLE);
    }
}

#[test]
fn the_tag_stands_at_the_type_field() {
    for tci in [None, Some(0), Some(0xE005)] {
        let frame = untagged_to(DESTINATION, tci);
        is_sent(0x0102, &mut at_next(0x0102), &frame, AMPLE);
    }
    // What stands behind the type field says nothing.
    let mut inside = frame();
    inside.extend([0xF1, 0xC1, 0x81, 0x00]);
    is_sent(7, &mut at_next(7), &inside, AMPLE);
}

#[test]
fn after_65535_comes_0_whatever_is_refused_between() {
    for (why, bad) in refused() {
        let mut sender = at_next(65534);
        for number in [65534, 65535, 0, 1] {
            is_refused(why, &mut sender, &bad, AMPLE);
            is_refused(8, &mut sender, &frame(), [NEEDED, NEEDED - 1]);
            is_sent(number, &mut sender, &frame(), AMPLE);
        }
    }
}

#[test]
fn both_outputs_must_have_room() {
    let mut sender = Sender::default();
    let (just, less) = (NEEDED, NEEDED - 1);
    for rooms in [
        [less, just],
        [just, less],
        [less, less],
        [less, 2000],
        [2000, less],
        [0, just],
        [just, 0],
        [0, 2000],
        [2000, 0],
        [0, 0],
    ] {
        is_refused(8, &mut sender, &frame(), rooms);
    }
    is_sent(0, &mut sender, &frame(), [just, just]);
}

#[test]
fn the_outputs_may_differ_in_length() {
    let mut sender = Sender::default();
    let rooms = [[NEEDED, 2000], [2000, NEEDED], [NEEDED, 22], [40, 3000]];
    for (number, rooms) in (0..).zip(rooms) {
        is_sent(number, &mut sender, &frame(), rooms);
    }
}

#[test]
fn a_frame_has_up_to_1994_bytes() {
    let mut sender = Sender::default();
    is_sent(0, &mut sender, &of_length(1994), AMPLE);
    is_refused(8, &mut sender, &of_length(1994), [1999, 2000]);
    is_refused(8, &mut sender, &of_length(1994), [2000, 1999]);
    for length in [1995, 2000, 2001] {
        is_refused(3, &mut sender, &of_length(length), [3000, 3000]);
    }
    is_sent(1, &mut sender, &of_length(14), [20, 20]);
    is_refused(4, &mut sender, &of_length(13), AMPLE);
}

#[test]
fn refusals_come_in_the_tag_writers_order_with_8_behind() {
    for (why, bad) in refused() {
        let just = bad.len() + 6;
        for rooms in [[0, 0], [just, 0], [0, just], [just, just], [3000, 3000]] {
            is_refused(why, &mut at_next(9), &bad, rooms);
        }
    }
}

#[test]
fn after_a_reset_comes_0() {
    let mut sender = Sender::default();
    for sent in [3, 0, 1, 2] {
        for number in 0..sent {
            is_sent(number, &mut sender, &frame(), AMPLE);
        }
        is_refused(8, &mut sender, &frame(), [0, 0]);
        sender.reset();
        assert_eq!(sender, Sender::default());
    }
    for next in [1, 32768, 65535] {
        sender = at_next(next);
        sender.reset();
        is_sent(0, &mut sender, &frame(), AMPLE);
    }
}

#[test]
fn without_a_reset_the_number_is_the_index_modulo_65536() {
    let mut sender = Sender::default();
    let bad = refused();
    for index in 0..65536 * 2 + 3 {
        if index % 1000 == 999 {
            let (why, bad) = &bad[index / 1000 % bad.len()];
            is_refused(*why, &mut sender, bad, [40, 40]);
        }
        let (answer, [first, second]) = send(&mut sender, &frame(), [NEEDED; 2]);
        assert!(answer.is_ok());
        assert_eq!(first, second);
        let taken = take_tag(&first, &mut [0; 40]).unwrap();
        assert_eq!(usize::from(taken.number), index % 65536);
    }
}

#[test]
fn a_receiver_hands_up_each_frame_once() {
    let mut sender = at_next(65000);
    let mut table = [fresh(Stream::VECTOR, 4, 3)];
    let sent = 1000;
    for _ in 0..sent {
        let (_, outputs) = send(&mut sender, &frame(), [NEEDED; 2]);
        for (network, verdict) in [(0, "up"), (1, "duplicate")] {
            let output = &outputs[usize::from(network)];
            let answer = arrival(&mut table, network, output, &mut [0; 40]);
            assert_eq!(word(answer.unwrap()), verdict);
        }
    }
    let stream = &table[0];
    assert_eq!(stream.arrivals, [sent, sent]);
    assert_eq!((stream.passed, stream.discarded), (sent, sent));
    assert_eq!((stream.out_of_order, stream.lost), (0, 0));
}
