//! Up to 32 frames in one call, as without the index. Document 02: order 3. The
//! public call is that of order 9 (`index`).
//!
//! A batch is single arrivals made in turn, so that is what is written here:
//! [`arrival`] itself decides each frame. What is left to do is to find the
//! frames, to say what room each one has, and to stop behind an 8.

use crate::table::{check_network, check_table};
use crate::wrong::{self, rule};
use crate::{arrival, Arrival, Refusal, Stream, Verdict};

/// Bytes of the length in front of a frame, in the input and in the output.
pub(crate) const LENGTH_BYTES: usize = 2;

/// What a batch that was not refused answers.
#[derive(Clone, Copy, Debug, PartialEq, Eq)]
pub struct Batch {
    /// What each frame was answered, in its place. `None` marks a frame that
    /// was not reached.
    pub answers: [Option<Result<Arrival, Refusal>>; Stream::MAX_BATCH],
    /// How many frames came before one that was answered 8, else the count.
    pub frames: usize,
}

/// Refusal 15, as far as the count alone gives it.
fn check_count(count: usize) -> Result<(), Refusal> {
    if rule!(
        count > Stream::MAX_BATCH,
        Refuses32: count >= Stream::MAX_BATCH,
        RefusesNone: count > Stream::MAX_BATCH || count == 0
    ) {
        Err(Refusal::BatchTooLong)
    } else {
        Ok(())
    }
}

/// The first frame of the input, by the length in front of it, and what stands
/// behind it. Nothing, if the length runs past the end or is itself cut.
fn first_frame(input: &[u8]) -> Option<(&[u8], &[u8])> {
    let (length, behind) = match *input {
        [high, low, ref behind @ ..] => {
            let length = [high, low];
            let length =
                rule!(u16::from_be_bytes(length), LengthsLowFirst: u16::from_le_bytes(length));
            (usize::from(length), behind)
        }
        _ => rule!(None, CutLengthIsZero: Some((0, &[][..])))?,
    };
    // Any length will do here. An arrival refuses a frame that is short or too
    // long, in its place.
    let any = rule!(true, LengthsJudged: length != 0 && length <= Stream::MAX_FRAME);
    (any && length <= behind.len()).then(|| behind.split_at(length))
}

/// The frames of the input, until one is not whole, and refusal 15.
fn split(count: usize, mut input: &[u8]) -> (Vec<&[u8]>, Result<(), Refusal>) {
    let mut frames = Vec::new();
    if let Err(why) = check_count(count) {
        return (frames, Err(why));
    }
    while frames.len() < count {
        match first_frame(input) {
            Some((frame, behind)) => {
                frames.push(frame);
                input = behind;
            }
            None => return (frames, Err(Refusal::BatchTooLong)),
        }
    }
    // What stands behind the last frame is ignored.
    let ignored = rule!(true, TrailingRefused: input.is_empty());
    (frames, ignored.then_some(()).ok_or(Refusal::BatchTooLong))
}

/// One frame of a batch, with all that is left of the output: what the arrival
/// answers, and how many bytes of the output it took.
fn one(
    table: &mut [Stream],
    network: u8,
    frame: &[u8],
    left: &mut [u8],
) -> (Result<Arrival, Refusal>, usize) {
    // With fewer than two bytes left there is no room behind them.
    let (length_bytes, room) = left.split_at_mut(left.len().min(LENGTH_BYTES));
    let answer = rule!(
        arrival(table, network, frame, room),
        DuplicateNoRoom: wrong::duplicate_without_room(table, network, frame, room),
        BatchHearsLinks: wrong::links_heard(table, network, frame, room),
        NoRoomIs8: if length_bytes.len() < LENGTH_BYTES {
            Err(Refusal::OutputTooSmall)
        } else {
            arrival(table, network, frame, room)
        }
    );
    let taken = match answer {
        Ok(Arrival {
            verdict: Verdict::HandedUp { length },
            ..
        }) => {
            // A frame that is handed up has at most 1994 bytes.
            let told = rule!(length, LengthWithTag: length + 6) as u16;
            let told = rule!(told.to_be_bytes(), UpLengthLowFirst: told.to_le_bytes());
            length_bytes.copy_from_slice(&told);
            LENGTH_BYTES + length
        }
        // Nothing is written for the others, so they take nothing.
        Ok(Arrival {
            verdict: Verdict::Duplicate,
            ..
        }) => rule!(0, DuplicateHasLength: wrong::length_of_nothing(length_bytes)),
        Ok(_) | Err(_) => 0,
    };
    (answer, taken)
}

/// Frames that came in on a network, `count` of them, each behind its length in
/// two bytes, high byte first. Those handed up are packed into the output in
/// the same form. Refusals 1, 2, 15 in this order.
///
/// Every length is followed before the first frame is looked at. Then each
/// frame is answered in its place, and an 8 is the last answer.
pub(crate) fn batch(
    table: &mut [Stream],
    network: u8,
    count: usize,
    frames: &[u8],
    output: &mut [u8],
) -> Result<Batch, Refusal> {
    check_table(table)?;
    rule!(Ok(()), CountBeforeNetwork: check_count(count))?;
    check_network(network)?;
    let (frames, whole) = split(count, frames);
    rule!(whole, LengthsWhenReached: Ok(()))?;

    let mut done = Batch {
        answers: [None; Stream::MAX_BATCH],
        frames: count,
    };
    let mut used = 0;
    for (place, frame) in frames.into_iter().enumerate() {
        let left = &mut output[used..];
        let (answer, taken) = rule!(
            one(table, network, frame, left),
            RoomForgetsLength: wrong::forgets_length(table, network, frame, left)
        );
        used += rule!(taken, NotPacked: 0);
        done.answers[place] = Some(answer);
        let ends = match answer {
            Err(why) => rule!(
                why == Refusal::OutputTooSmall,
                GoesOnBehind8: false,
                AnyRefusalEnds: true
            ),
            Ok(_) => false,
        };
        if ends {
            done.frames = rule!(place, CountsThe8: place + 1);
            rule!((), RestAnswered8: done.answers[place..count].fill(Some(answer)));
            return Ok(done);
        }
    }
    rule!(Ok(()), LengthsWhenReached: whole)?;
    Ok(done)
}
