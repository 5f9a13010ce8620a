//! A batch is its frames as single arrivals in turn: order 3's own words as a reference, and each case that is easily missed.

use super::{from, priority_of, running, settings, tagged, with_vlan_tag, Dice};
use nippitsun::archive::{self, ArrivalAnswer, BatchAnswer, FRAMES_MOST, PLACES};
use nippitsun::batch::{behind, Frames, ROOM_ENOUGH};
use nippitsun::{Arrival, Receiver, Refusal, State, Stream, Verdict};

type Answer = Result<Arrival, Refusal>;

/// The frames as a batch takes them, by hand: `Frames` refuses some of what is wanted here.
fn packed(frames: &[Vec<u8>]) -> Vec<u8> {
    let mut bytes = Vec::new();
    for frame in frames {
        bytes.extend_from_slice(&(frame.len() as u16).to_be_bytes());
        bytes.extend_from_slice(frame);
    }
    bytes
}

/// Order 3 with single arrivals: each has the room then left after its two length bytes, or none if fewer than two are left.
fn in_turn(
    r: &mut Receiver,
    network: u8,
    frames: &[Vec<u8>],
    out: &mut [u8],
) -> (usize, Vec<Answer>) {
    let (mut used, mut answers) = (0, Vec::new());
    for (place, frame) in frames.iter().enumerate() {
        let start = out.len().min(used + 2);
        let room = if out.len() - used < 2 {
            &mut []
        } else {
            &mut out[start..]
        };
        let answer = r.arrival(network, frame, room);
        if let Ok(a) = answer {
            assert_eq!(a.priority, priority_of(frame));
        }
        answers.push(answer);
        match answer.map(|a| a.verdict) {
            Ok(Verdict::HandedUp { length }) => {
                out[used..start].copy_from_slice(&(length as u16).to_be_bytes());
                used = start + length;
            }
            Err(Refusal::Room) => return (place, answers),
            _ => {}
        }
    }
    (frames.len(), answers)
}

/// A batch, held to the single arrivals in turn: answers, table and every byte of the output. Trailing bytes are ignored.
fn batch(
    r: &mut Receiver,
    network: u8,
    frames: &[Vec<u8>],
    room: usize,
) -> (usize, Vec<Answer>, Vec<u8>) {
    let mut single = r.clone();
    let (mut out, mut want_out) = (vec![0xA5; room], vec![0xA5; room]);
    let want = in_turn(&mut single, network, frames, &mut want_out);
    let buffer = [packed(frames), vec![0xFF; 5]].concat();

    let answer = r.batch(network, frames.len(), &buffer, &mut out).unwrap();
    let got = (answer.frames(), answer.answers().collect::<Vec<_>>());
    assert_eq!(got, want);
    // The frames handed up are those whose answers say so, and stand in the output without their tags: six bytes at 12, or behind
    // a VLAN tag.
    let up: Vec<_> = answer.handed_up().collect();
    let places = (0..got.1.len())
        .filter(|&i| matches!(got.1[i], Ok(a) if matches!(a.verdict, Verdict::HandedUp { .. })));
    assert_eq!(
        up.iter().map(|u| u.place).collect::<Vec<_>>(),
        places.collect::<Vec<_>>()
    );
    for u in up {
        let frame = &frames[u.place];
        let a = got.1[u.place].unwrap();
        assert_eq!((u.slot, u.number), (a.slot, a.number));
        assert_eq!(u.priority, a.priority);
        let at = if u.priority.is_some() { 16 } else { 12 };
        assert_eq!(u.frame, [&frame[..at], &frame[at + 6..]].concat());
    }
    assert_eq!(out, want_out);
    assert_eq!(*r, single);
    (got.0, got.1, out)
}

/// The batch with plain numbers as its answer.
fn told(r: &mut Receiver, network: u8, count: usize, frames: &[u8], out: &mut [u8]) -> BatchAnswer {
    let mut index = [0; PLACES];
    archive::rebuild(r.records(), &mut index);
    archive::batch(r.records_mut(), &index, network, count, frames, out)
}

/// A batch that is refused changes nothing, and its answer is 0 but for the number.
fn refused(r: &mut Receiver, network: u8, count: usize, frames: &[u8]) -> Refusal {
    let before = r.clone();
    let mut out = [0xA5; 100];
    let told = told(r, network, count, frames, &mut out);
    let why = r.batch(network, count, frames, &mut out).err().unwrap();
    assert!(*r == before && out == [0xA5; 100]);
    let only = BatchAnswer {
        refusal: why.number(),
        ..BatchAnswer::default()
    };
    assert_eq!(told, only);
    why
}

fn receiver() -> Receiver {
    Receiver::from_records(vec![running()])
}

fn up(number: u16, length: usize) -> Answer {
    said(number, Verdict::HandedUp { length })
}

fn said(number: u16, verdict: Verdict) -> Answer {
    Ok(Arrival {
        slot: 0,
        number,
        priority: None,
        verdict,
    })
}

const NO_ROOM: Answer = Err(Refusal::Room);

#[test]
fn each_verdict_stands_in_its_place() {
    let frames = [100, 101, 101, 110, 99].map(|n| tagged(60, n));
    let (frames, answers, out) = batch(&mut receiver(), 1, &frames, 200);
    assert_eq!(frames, 5);
    let duplicate = |n| said(n, Verdict::Duplicate);
    assert_eq!(
        answers,
        [
            duplicate(100),
            up(101, 54),
            duplicate(101),
            said(110, Verdict::Rogue),
            up(99, 54)
        ]
    );
    // Packed one behind the other, with nothing for the other three.
    assert_eq!((&out[..2], &out[56..58]), (&[0, 54][..], &[0, 54][..]));
    assert_eq!(out[112..], [0xA5; 88]);
}

#[test]
fn the_length_has_its_high_byte_first() {
    let (_, answers, out) = batch(&mut receiver(), 0, &[tagged(2000, 101)], 1996);
    assert_eq!(answers, [up(101, 1994)]);
    assert_eq!(out[..2], [0x07, 0xCA]);
    // 300 bytes, low byte first, would be 11265.
    let mut buffer = vec![0x01, 0x2C];
    buffer.extend(tagged(300, 101));
    let mut out = [0; 400];
    let a = receiver().batch(0, 1, &buffer, &mut out).unwrap();
    assert_eq!(a.answers().collect::<Vec<_>>(), [up(101, 294)]);
}

#[test]
fn no_room_ends_the_call_and_is_answered_too() {
    // The first and its twin into an output that fits just one: the twin is no duplicate here.
    let twins = vec![tagged(60, 101); 3];
    let (frames, answers, _) = batch(&mut receiver(), 0, &twins, 56);
    assert_eq!((frames, answers), (1, vec![up(101, 54), NO_ROOM]));
    // A rogue too.
    let rogue = [tagged(60, 101), tagged(60, 500), tagged(60, 102)];
    let (frames, answers, _) = batch(&mut receiver(), 0, &rogue, 100);
    assert_eq!((frames, answers), (1, vec![up(101, 54), NO_ROOM]));
    // Where the last frame lacks room, the number is not the count.
    let last = [tagged(60, 101), tagged(60, 102)];
    let (frames, answers, _) = batch(&mut receiver(), 0, &last, 111);
    assert_eq!((frames, answers), (1, vec![up(101, 54), NO_ROOM]));
    assert_eq!(batch(&mut receiver(), 0, &last, 112).0, 2);
    // A later frame that would fit is not reached.
    let smaller = [tagged(60, 101), tagged(20, 102)];
    let (frames, answers, _) = batch(&mut receiver(), 0, &smaller, 55);
    assert_eq!((frames, answers), (0, vec![NO_ROOM]));
}

#[test]
fn small_outputs() {
    for (room, fits) in [
        (0, 0),
        (1, 0),
        (2, 0),
        (15, 0),
        (16, 1),
        (17, 1),
        (31, 1),
        (32, 2),
    ] {
        let frames = [tagged(20, 101), tagged(20, 102)];
        assert_eq!(batch(&mut receiver(), 0, &frames, room).0, fits, "{room}");
    }
}

#[test]
fn other_refusals_go_on_even_with_no_room() {
    let mut records = vec![running(); 2];
    records[0].vlan = 5;
    records[1].rule = 4;
    let frames = [
        vec![1; 2001],
        vec![1; 65535],
        vec![],
        tagged(19, 1),
        vec![6; 60],
        from(1, tagged(60, 101)),
        with_vlan_tag(6, tagged(60, 101)),
        tagged(60, 101),
    ];
    for room in [0, 1, 2, 100] {
        let mut r = Receiver::from_records(records.clone());
        let (reached, answers, _) = batch(&mut r, 0, &frames, room);
        let numbers: Vec<_> = answers.iter().map(|a| a.unwrap_err().number()).collect();
        assert_eq!((reached, numbers), (8, vec![3, 3, 4, 4, 5, 14, 6, 7]));
        assert_eq!(r.records(), records);
    }
    // And then one is refused for its room, or decided.
    records[1].rule = 1;
    let mut r = Receiver::from_records(records);
    assert_eq!(batch(&mut r, 0, &frames, 0).0, 7);
    assert_eq!(batch(&mut r, 0, &frames, 56).0, 8);
}

#[test]
fn no_frames_are_a_good_call() {
    for frames in [&[][..], &[9], &[0xFF; 100]] {
        let mut r = receiver();
        let answer = r.batch(0, 0, frames, &mut []).unwrap();
        assert_eq!((answer.frames(), answer.answers().count()), (0, 0));
        assert_eq!(answer.handed_up().count(), 0);
        assert_eq!(r, receiver());
    }
    assert!(Receiver::new(0).batch(1, 0, &[], &mut []).is_ok());
}

#[test]
fn a_call_is_refused_before_any_frame_is_looked_at() {
    let mut r = receiver();
    let good = packed(&[tagged(60, 101)]);
    // 1 before 2 before 15.
    assert_eq!(refused(&mut Receiver::new(65), 2, 33, &[]), Refusal::Table);
    assert_eq!(refused(&mut r, 2, 33, &[]), Refusal::Network);
    assert_eq!(refused(&mut r, 255, 1, &good), Refusal::Network);
    // The count.
    let many = packed(&vec![vec![]; 40]);
    assert_eq!(refused(&mut r, 0, 33, &many), Refusal::Batch);
    assert_eq!(refused(&mut r, 0, usize::MAX, &many), Refusal::Batch);
    assert_eq!(refused(&mut r, 0, 1 << 32, &good), Refusal::Batch);
    assert!(r.batch(0, 32, &many, &mut []).is_ok());
    // Lengths that run past the buffer, and cut ones.
    for cut in 0..good.len() {
        assert_eq!(refused(&mut r, 0, 1, &good[..cut]), Refusal::Batch);
    }
    // The first is good, the last is not there, or its length is cut, or it runs one byte past the end.
    for tail in [&[][..], &[0], &[0, 1], &[0, 4, 1, 2, 3]] {
        let buffer = [&good[..], tail].concat();
        assert_eq!(refused(&mut r, 0, 2, &buffer), Refusal::Batch);
        let mut alone = receiver();
        assert_eq!(
            alone.batch(0, 1, &buffer, &mut [0; 56]).unwrap().frames(),
            1
        );
    }
}

#[test]
fn thirty_two_of_the_longest_fit_into_the_room_that_is_enough() {
    assert_eq!(ROOM_ENOUGH, 63872);
    let frames: Vec<_> = (101..101 + FRAMES_MOST as u16)
        .map(|n| tagged(Stream::FRAME_MOST, n))
        .collect();
    let (reached, answers, _) = batch(&mut receiver(), 0, &frames, ROOM_ENOUGH);
    assert_eq!((reached, answers.len()), (32, 32));
    assert!(answers.iter().all(Result::is_ok));
    assert_eq!(batch(&mut receiver(), 0, &frames, ROOM_ENOUGH - 1).0, 31);
}

#[test]
fn batches_are_single_arrivals_in_turn() {
    let mut dice = Dice(3);
    let (mut ended, mut whole, mut handed_up) = (0, 0, 0);
    for _ in 0..20_000 {
        let mut r = Receiver::from_records(vec![running(), running()]);
        r.records_mut()[0].vlan = 7;
        r.records_mut()[1].window = [4, 64, 65, 512][dice.below(4) as usize];
        if dice.below(3) == 0 {
            r.records_mut()[1].state = State::default();
        }
        let frames: Vec<_> = (0..dice.below(FRAMES_MOST as u64 + 1))
            .map(|_| {
                let number = 90 + dice.below(40) as u16;
                let length = [0, 13, 19, 20, 21, 64, 300, 2001][dice.below(8) as usize];
                let mut frame = tagged(length, number);
                match dice.below(12) {
                    0 if length > 13 => frame[13] = 0,
                    1 if length > 13 => frame[6] |= 1,
                    2 if length > 13 => frame[5] ^= 1,
                    _ => {}
                }
                // Any priority, and the id of the one stream, of the other, or of neither.
                match dice.below(3) {
                    0 if length > 13 => {
                        let id = [0, 0, 7, 5][dice.below(4) as usize];
                        with_vlan_tag((dice.below(16) << 12 | id) as u16, frame)
                    }
                    _ => frame,
                }
            })
            .collect();
        let most = [20, 100, 4000][dice.below(3) as usize];
        let room = dice.below(most) as usize;
        let before = r.counts(1).unwrap().passed;
        let (reached, ..) = batch(&mut r, dice.below(2) as u8, &frames, room);
        if reached < frames.len() {
            ended += 1;
        } else {
            whole += 1;
        }
        handed_up += r.counts(1).unwrap().passed - before;
    }
    assert!(ended > 1000 && whole > 1000 && handed_up > 1000);
}

/// What 8 left over is called again with a new output, from the frame that was refused on: together that is one batch.
#[test]
fn the_rest_can_be_called_again() {
    let frames: Vec<_> = (101..=120)
        .map(|n| tagged(20 + usize::from(n), n))
        .collect();
    let buffer = packed(&frames);
    let (mut at_once, mut in_parts) = (receiver(), receiver());
    let (reached, want, _) = batch(&mut at_once, 0, &frames, ROOM_ENOUGH);
    assert_eq!(reached, 20);

    let (mut rest, mut count, mut answers, mut calls) = (&buffer[..], frames.len(), vec![], 0);
    while count > 0 {
        let mut out = [0; 500];
        let answer = in_parts.batch(0, count, rest, &mut out).unwrap();
        assert!(answer.frames() > 0);
        answers.extend(answer.answers().take(answer.frames()));
        count -= answer.frames();
        rest = behind(rest, answer.frames());
        calls += 1;
    }
    assert!(calls > 3 && rest.is_empty());
    assert_eq!((answers, in_parts), (want, at_once));
}

#[test]
fn not_reached_is_all_zero() {
    let buffer = packed(&[tagged(60, 101), tagged(60, 102), tagged(60, 103)]);
    let told = told(&mut receiver(), 0, 3, &buffer, &mut [0; 60]);
    assert_eq!((told.frames, told.refusal), (1, 0));
    assert_eq!(told.answers[1].refusal, 8);
    assert_eq!(told.answers[2..], [ArrivalAnswer::default(); 30]);
}

#[test]
fn frames_are_packed() {
    let mut buffer = [0xA5; 100];
    let mut frames = Frames::new(&mut buffer);
    assert_eq!((frames.count(), frames.bytes()), (0, &[][..]));
    assert_eq!(frames.push(&[1; 65536]), Err(Refusal::Long));
    assert_eq!(frames.push(&[1; 99]), Err(Refusal::Room));
    assert_eq!(frames.push(&[]), Ok(()));
    assert_eq!(frames.push(&[7, 8]), Ok(()));
    assert_eq!(frames.push(&[9; 93]), Err(Refusal::Room));
    assert_eq!(
        (frames.count(), frames.bytes()),
        (2, &[0, 0, 0, 2, 7, 8][..])
    );
    assert_eq!(frames.push(&[9; 92]), Ok(()));
    assert_eq!(frames.push(&[]), Err(Refusal::Room));
    assert_eq!(behind(frames.bytes(), 2)[..3], [0, 92, 9]);
    for past in [3, 4, usize::MAX] {
        assert!(behind(frames.bytes(), past).is_empty());
    }
    assert!(behind(&[0, 5, 1], 1).is_empty());
    assert_eq!(buffer[6..9], [0, 92, 9]);

    // 32 and no more, and 65535 bytes at most.
    let mut buffer = vec![0; 70_000];
    let mut frames = Frames::new(&mut buffer);
    assert_eq!(frames.push(&[1; 65535]), Ok(()));
    for _ in 1..32 {
        assert_eq!(frames.push(&[1]), Ok(()));
    }
    assert_eq!(frames.push(&[1]), Err(Refusal::Batch));
    assert_eq!(frames.count(), 32);
    let mut r = Receiver::new(1);
    r.open(settings(0)).unwrap();
    let answer = r.batch(0, frames.count(), frames.bytes(), &mut []).unwrap();
    let numbers: Vec<_> = answer.answers().map(|a| a.unwrap_err().number()).collect();
    assert_eq!((numbers[0], &numbers[1..]), (3, &[4; 31][..]));
}
