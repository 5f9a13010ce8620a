//! Order 3 of document 02: up to 32 frames in one call. Each sentence of the
//! order as a case, and random batches beside single arrivals made in turn.

mod common;

use common::*;
use second::random::Random;
use second::{arrival, Arrival, Batch, Refusal, Stream, Verdict};

/// What one frame of a batch is answered, and the mark of one not reached.
type Answer = Option<Result<Arrival, Refusal>>;

/// Bytes of a frame that takes 16 of the output. No frame takes fewer.
const SMALLEST: usize = 20;
/// What `tagged(..)` takes of the output.
const TAKES: usize = 17;

fn smallest(number: u16) -> Vec<u8> {
    let mut frame = tagged(number);
    frame.truncate(SMALLEST);
    frame
}

fn bare(frame: &[u8]) -> Vec<u8> {
    [&frame[..12], &frame[18..]].concat()
}

/// A frame for each refusal that lets a batch go on, with a table that gives
/// it: slot 0 is sound, slot 1 is damaged.
fn refused() -> (Vec<Stream>, Vec<(u8, Vec<u8>)>) {
    let other = [2, 0, 0, 0, 0, 9];
    let damaged = Stream {
        destination: other,
        ..fresh(Stream::VECTOR, 513, 3)
    };
    let mut long = tagged(7);
    long.resize(2001, 0);
    let frames = vec![
        (3, long),
        (4, Vec::new()),
        (4, tagged(7)[..19].to_vec()),
        (5, untagged_to(DESTINATION, None)),
        (14, from_source(3, &tagged(7))),
        (6, tagged_to([2; 6], None, 7)),
        (7, tagged_to(other, None, 7)),
    ];
    (vec![fresh(Stream::VECTOR, 4, 3), damaged], frames)
}

/// The answers as words and numbers, up to the last that was reached.
fn told(answers: &[Answer]) -> String {
    let reached = answers.iter().take_while(|a| a.is_some()).count();
    assert!(answers[reached..].iter().all(Option::is_none));
    let one = |answer: &Answer| match answer.unwrap() {
        Ok(arrival) => word(arrival).to_string(),
        Err(why) => why.number().to_string(),
    };
    let words: Vec<String> = answers[..reached].iter().map(one).collect();
    words.join(" ")
}

/// A batch on network 0 that is not refused: how many frames it tells, and what
/// they were answered.
fn told_of(table: &mut [Stream], frames: &[Vec<u8>], output: &mut [u8]) -> (usize, String) {
    let done = batch(table, 0, frames.len(), &packed(frames), output).unwrap();
    (done.frames, told(&done.answers))
}

/// The batch is refused with this number and changes nothing.
fn is_refused(number: u8, table: &mut [Stream], network: u8, count: usize, input: &[u8]) {
    let before = table.to_vec();
    let mut output = [FILL; 100];
    let answer = batch(table, network, count, input, &mut output);
    assert_eq!(number_of(answer), number, "{count} frames");
    assert_eq!(table, before);
    assert_eq!(output, [FILL; 100]);
}

#[test]
fn the_number_is_that_of_the_order() {
    assert_eq!(Refusal::BatchTooLong.number(), 15);
    assert_eq!(Stream::MAX_BATCH, 32);
}

#[test]
fn frames_handed_up_are_packed_in_the_same_form() {
    let mut table = [fresh(Stream::VECTOR, 4, 3)];
    let mut output = [FILL; 60];
    let frames = [7, 7, 8, 100, 6].map(tagged).to_vec();
    assert_eq!(
        told_of(&mut table, &frames, &mut output),
        (5, "up duplicate up rogue up".into())
    );
    // Duplicate and rogue write nothing, not even a length.
    let up = packed(&[7, 8, 6].map(|number| bare(&tagged(number))));
    assert_eq!(up[..2], [0, 15]);
    assert_eq!(output[..up.len()], up);
    assert_eq!(output[up.len()..], [FILL; 9]);
    assert_eq!(table[0].arrivals, [5, 0]);
}

#[test]
fn the_answer_is_that_of_the_single_arrival() {
    let mut table = [fresh(Stream::VECTOR, 4, 3)];
    let done = batch(&mut table, 1, 1, &packed(&[tagged(7)]), &mut [0; 40]).unwrap();
    let single = arrival(
        &mut [fresh(Stream::VECTOR, 4, 3)],
        1,
        &tagged(7),
        &mut [0; 40],
    );
    assert_eq!(done.answers[0], Some(single));
    assert_eq!(table[0].arrivals, [0, 1]);
}

#[test]
fn a_refused_frame_is_answered_in_its_place_and_the_rest_go_on() {
    let (table, cases) = refused();
    for (number, frame) in cases {
        let mut table = table.clone();
        let mut output = [FILL; 2 * TAKES];
        let frames = [tagged(7), frame, tagged(8)];
        let expected = (3, format!("up {number} up"));
        assert_eq!(told_of(&mut table, &frames, &mut output), expected);
        let up = packed(&[bare(&tagged(7)), bare(&tagged(8))]);
        assert_eq!(output[..], up);
    }
}

#[test]
fn frames_refused_for_other_reasons_need_no_room() {
    let (table, cases) = refused();
    let (numbers, frames): (Vec<u8>, Vec<Vec<u8>>) = cases.into_iter().unzip();
    assert_eq!(numbers, [3, 4, 4, 5, 14, 6, 7]);
    for room in [0, 1, 2] {
        let mut after = table.clone();
        let mut output = vec![FILL; room];
        let expected = (7, "3 4 4 5 14 6 7".into());
        assert_eq!(told_of(&mut after, &frames, &mut output), expected);
        assert_eq!((after, output), (table.clone(), vec![FILL; room]));
    }
}

#[test]
fn an_8_is_answered_in_its_place_and_ends_the_call() {
    let mut table = [fresh(Stream::VECTOR, 4, 3)];
    let mut output = [FILL; 2 * TAKES - 1];
    let frames = [7, 8, 9].map(tagged).to_vec();
    // One frame came before it, though two have answers.
    let expected = (1, "up 8".into());
    assert_eq!(told_of(&mut table, &frames, &mut output), expected);
    assert_eq!((table[0].anchor, table[0].passed), (7, 1));
    assert_eq!(output[TAKES..], [FILL; TAKES - 1]);
    // The rest of the ring, with a new output, loses nothing.
    let mut output = [FILL; 2 * TAKES];
    let expected = (2, "up up".into());
    assert_eq!(told_of(&mut table, &frames[1..], &mut output), expected);
}

#[test]
fn a_frame_that_would_fit_behind_an_8_is_not_reached() {
    let mut table = [fresh(Stream::VECTOR, 4, 3)];
    let mut long = tagged(7);
    long.resize(200, 0);
    for later in [tagged(8), Vec::new()] {
        let got = told_of(&mut table, &[long.clone(), later], &mut [0; 50]);
        assert_eq!(got, (0, "8".into()));
    }
    assert_eq!(table[0], fresh(Stream::VECTOR, 4, 3));
}

#[test]
fn a_duplicate_or_a_rogue_without_room_ends_the_call_too() {
    for (second, word) in [(7, "duplicate"), (900, "rogue")] {
        let frames = [7, second, 8].map(tagged).to_vec();
        for (room, count, answers) in [
            (TAKES, 1, "up 8".to_string()),
            // The third has the room that the second had, which took none.
            (2 * TAKES - 1, 1, "up 8".to_string()),
            (2 * TAKES, 3, format!("up {word} up")),
        ] {
            let mut table = [fresh(Stream::VECTOR, 4, 3)];
            let got = told_of(&mut table, &frames, &mut vec![FILL; room]);
            assert_eq!(got, (count, answers));
            assert_eq!(table[0].arrivals, [count as u64, 0]);
        }
    }
}

#[test]
fn the_room_at_its_edges() {
    for room in 0..=40 {
        let mut table = [fresh(Stream::VECTOR, 4, 3)];
        let mut output = vec![FILL; room];
        let frames = [7, 8, 9].map(smallest).to_vec();
        let fit = room / 16;
        let expected = (fit, "up ".repeat(fit) + "8");
        assert_eq!(told_of(&mut table, &frames, &mut output), expected);
        let up = packed(&frames[..fit].iter().map(|f| bare(f)).collect::<Vec<_>>());
        assert_eq!(output[..up.len()], up);
        assert!(output[up.len()..].iter().all(|&b| b == FILL));
        assert_eq!(table[0].passed, fit as u64);
    }
}

#[test]
fn a_batch_of_no_frames_is_a_good_call() {
    for input in [&[][..], &[0], &[0, 5], &[0, 0, 1]] {
        let mut table = [fresh(Stream::VECTOR, 4, 3)];
        for output in [&mut [][..], &mut [FILL; 40]] {
            let done = batch(&mut table, 0, 0, input, output);
            let none = Batch {
                answers: [None; 32],
                frames: 0,
            };
            assert_eq!(done, Ok(none));
            assert!(output.iter().all(|&b| b == FILL));
        }
        assert_eq!(table[0], fresh(Stream::VECTOR, 4, 3));
    }
}

#[test]
fn up_to_32_frames() {
    let frames: Vec<Vec<u8>> = (0..33).map(tagged).collect();
    let input = packed(&frames);
    let mut table = [fresh(Stream::VECTOR, 4, 3)];
    // The frames behind the 32nd are input behind the last one.
    let done = batch(&mut table, 0, 32, &input, &mut [0; 32 * TAKES]).unwrap();
    assert_eq!(done.frames, 32);
    assert_eq!(told(&done.answers), ["up"; 32].join(" "));
    for count in [33, 34, 256, 1 << 16, usize::MAX] {
        is_refused(15, &mut [fresh(Stream::VECTOR, 4, 3)], 0, count, &input);
    }
}

#[test]
fn lengths_that_run_past_the_buffer() {
    let whole = packed(&[tagged(7), tagged(8)]);
    let table = &mut [fresh(Stream::VECTOR, 4, 3)];
    // The first frame is good, but no frame is looked at. Cut length bytes are
    // lengths past the end as well.
    for end in 0..whole.len() {
        is_refused(15, table, 0, 2, &whole[..end]);
    }
    is_refused(15, table, 0, 3, &whole);
    // One byte too many by the last length, and far too many by the first.
    let mut input = whole.clone();
    input[24] += 1;
    is_refused(15, table, 0, 2, &input);
    is_refused(15, table, 0, 1, &[0xFF; 65535]);
    // Read low byte first, the lengths would be within it.
    let mut input = vec![1, 0];
    input.resize(100, 0);
    is_refused(15, table, 0, 1, &input);
    // An 8 that comes first does not hide it.
    let answer = batch(table, 0, 2, &whole[..whole.len() - 1], &mut []);
    assert_eq!(number_of(answer), 15);
}

#[test]
fn refusals_1_and_2_come_before_15() {
    let good = packed(&[tagged(7)]);
    let mut table = vec![fresh(Stream::VECTOR, 4, 3); 65];
    for (network, count, input) in [(0, 1, &good[..]), (0, 0, &[]), (2, 33, &good), (0, 1, &[])] {
        is_refused(1, &mut table, network, count, input);
    }
    table.pop();
    for network in [2, 3, 255] {
        // No frame answers 2: the call does, also where it has no frames.
        for (count, input) in [(1, &good[..]), (0, &[]), (33, &good), (1, &[])] {
            is_refused(2, &mut table, network, count, input);
        }
    }
    is_refused(15, &mut table, 1, 33, &good);
    // The frames need no stream for the batch to be good.
    let done = batch(&mut [], 0, 1, &good, &mut []).unwrap();
    assert_eq!((done.frames, told(&done.answers)), (1, "6".into()));
}

#[test]
fn short_and_long_frames_are_no_15() {
    let mut table = [fresh(Stream::VECTOR, 4, 3)];
    let mut frames = vec![Vec::new(), vec![0; 13], vec![0; 2001], vec![0; 65535]];
    // The longest frame that is handed up.
    frames.push(tagged(7));
    frames[4].resize(2000, 0);
    let mut output = [0; 1996];
    let expected = (5, "4 4 3 3 up".into());
    assert_eq!(told_of(&mut table, &frames, &mut output), expected);
    assert_eq!(output[..2], [0x07, 0xCA]);
}

#[test]
fn input_behind_the_last_frame_is_ignored() {
    for behind in [
        &[0][..],
        &[0xFF],
        &[0, 0],
        &[0xFF, 0xFF, 0xFF],
        &packed(&[tagged(9)]),
    ] {
        let mut table = [fresh(Stream::VECTOR, 4, 3)];
        let input = [&packed(&[tagged(7), tagged(8)]), behind].concat();
        let done = batch(&mut table, 0, 2, &input, &mut [0; 100]).unwrap();
        assert_eq!((done.frames, told(&done.answers)), (2, "up up".into()));
        assert_eq!(table[0].anchor, 8);
    }
}

/// A batch said again, by places in the buffers: the refusal's number, how many
/// frames it tells, the answers, and the bytes of the output that were used.
/// Each arrival has an output of its own, which is as long as its room.
fn in_turn(
    table: &mut [Stream],
    index: &[u8],
    network: u8,
    count: usize,
    input: &[u8],
    output: &mut [u8],
) -> (u8, usize, [Answer; 32], usize) {
    let mut answers = [None; 32];
    let refused = |number| (number, 0, [None; 32], 0);
    if table.len() > 64 {
        return refused(1);
    }
    if !agree(table, index) {
        return refused(18);
    }
    if network != 0 && network != 1 {
        return refused(2);
    }
    if count > 32 {
        return refused(15);
    }
    let mut starts = vec![0];
    for frame in 0..count {
        let at = starts[frame];
        if at + 2 > input.len() {
            return refused(15);
        }
        let end = at + 2 + usize::from(input[at]) * 256 + usize::from(input[at + 1]);
        if end > input.len() {
            return refused(15);
        }
        starts.push(end);
    }
    let mut used = 0;
    for frame in 0..count {
        let room = (output.len() - used).saturating_sub(2);
        let mut own = vec![FILL; room];
        let answer = arrival(
            table,
            network,
            &input[starts[frame] + 2..starts[frame + 1]],
            &mut own,
        );
        answers[frame] = Some(answer);
        match answer {
            Err(Refusal::OutputTooSmall) => return (0, frame, answers, used),
            Ok(a) if word(a) == "up" => {
                // Two length bytes in front of it, and six of its tag.
                let length = starts[frame + 1] - starts[frame] - 2 - 6;
                assert_eq!(a.verdict, Verdict::HandedUp { length });
                output[used] = (length / 256) as u8;
                output[used + 1] = (length % 256) as u8;
                output[used + 2..used + 2 + length].copy_from_slice(&own[..length]);
                used += 2 + length;
            }
            _ => assert!(own.iter().all(|&b| b == FILL)),
        }
    }
    (0, count, answers, used)
}

/// A batch with anything in it: network, count and input.
fn any_batch(random: &mut Random) -> (u8, usize, Vec<u8>) {
    let network = random.pick(&[0, 1, 0, 1, 0, 1, 0, 1, 2, 255]);
    let count = random.below(41) as usize;
    // Long frames are rare, or there would be little but room for them.
    let mut frames = Vec::new();
    while frames.len() < count {
        let frame = any_frame(random);
        if frame.len() < 1000 || random.chance(1, 8) {
            frames.push(frame);
        }
    }
    let mut input = packed(&frames);
    match random.below(8) {
        // Cut, now and then within length bytes.
        0 => input.truncate(random.below(input.len() as u64 + 1) as usize),
        1 => input.truncate(input.len().saturating_sub(1)),
        // One frame more is asked for than there is.
        2 => return (network, count + 1, input),
        3 | 4 => input.extend(&[0xFF; 4][..random.below(5) as usize]),
        _ => {}
    }
    (network, count, input)
}

#[test]
fn random_batches_are_single_arrivals_made_in_turn() {
    let mut random = Random::new(31);
    let mut seen = Seen::default();
    for _ in 0..20_000 {
        let table = any_table(&mut random);
        let index = any_index(&mut random, &table);
        let (network, count, input) = any_batch(&mut random);
        // What the frames take of an output that is large enough: a frame
        // handed up takes less than it took of the input.
        let mut ample = vec![0; input.len()];
        let (.., all) = in_turn(
            &mut table.clone(),
            &index,
            network,
            count,
            &input,
            &mut ample,
        );
        let rooms = [
            0,
            1,
            2,
            15,
            16,
            all,
            all.saturating_sub(1),
            all + 1,
            all / 2,
        ];
        let mut output = vec![0; random.pick(&[&rooms[..], &[all + 2000; 4]].concat())];
        random.fill(&mut output);
        let (mut other, mut expected) = (table.clone(), output.clone());
        let (number, frames, answers, used) =
            in_turn(&mut other, &index, network, count, &input, &mut expected);

        let (mut after, before) = (table.clone(), output.clone());
        let answer = second::batch(&mut after, &index, network, count, &input, &mut output);
        assert_eq!(after, other);
        assert_eq!(output, expected);
        assert_eq!(output[used..], before[used..]);
        seen.note("batch", number_of(answer));
        let done = match answer {
            Ok(done) => done,
            Err(why) => {
                assert_eq!((why.number(), after), (number, table));
                continue;
            }
        };
        assert_eq!((number, done.frames, done.answers), (0, frames, answers));
        seen.note("frames", frames as u8);
        for answer in done.answers.iter().flatten() {
            match answer {
                Ok(a) => seen.note(word(*a), 0),
                Err(why) => seen.note("frame", why.number()),
            }
        }
        let full = output.len() - used < 2;
        let behind = done.answers.iter().flatten().count() > frames;
        seen.note("an 8 ends it", u8::from(behind));
        if full && !behind && count > 0 {
            seen.note("less than two bytes left at the end", 0);
        }
    }
    seen.all_met("batch", &[0, 1, 18, 2, 15]);
    seen.all_met("frame", &[3, 4, 5, 14, 6, 7, 8]);
    let counts: Vec<u8> = (0..=32).collect();
    seen.all_met("frames", &counts);
    for word in [
        "up",
        "duplicate",
        "rogue",
        "less than two bytes left at the end",
    ] {
        seen.all_met(word, &[0]);
    }
    seen.all_met("an 8 ends it", &[0, 1]);
}

/// A batch that is not refused is two batches in turn, where the first part did
/// not end with 8.
#[test]
fn a_batch_may_be_parted() {
    let mut random = Random::new(32);
    let mut parted = 0;
    while parted < 3_000 {
        let mut table = any_table(&mut random);
        let (network, count, input) = any_batch(&mut random);
        let mut output = vec![FILL; random.pick(&[30, 100, 300, 5000])];
        let (mut table_of_two, mut output_of_two) = (table.clone(), output.clone());
        let whole = match batch(&mut table, network, count, &input, &mut output) {
            Ok(whole) => whole,
            Err(_) => continue,
        };
        let first = random.below(whole.frames as u64 + 1) as usize;
        let one = batch(
            &mut table_of_two,
            network,
            first,
            &input,
            &mut output_of_two,
        );
        let one = one.unwrap();
        assert_eq!(one.frames, first);
        let (mut from, mut used) = (0, 0);
        for answer in &one.answers[..first] {
            from += 2 + usize::from(u16::from_be_bytes([input[from], input[from + 1]]));
            if answer.unwrap().map_or(false, |a| word(a) == "up") {
                let length = u16::from_be_bytes([output_of_two[used], output_of_two[used + 1]]);
                used += 2 + usize::from(length);
            }
        }
        let two = batch(
            &mut table_of_two,
            network,
            count - first,
            &input[from..],
            &mut output_of_two[used..],
        );
        let two = two.unwrap();
        assert_eq!(first + two.frames, whole.frames);
        let both = [&one.answers[..first], &two.answers[..32 - first]].concat();
        assert_eq!(both, whole.answers);
        assert_eq!((table_of_two, output_of_two), (table, output));
        parted += 1;
    }
}
