//! From bytes to bytes: frames given to the sender, two networks that lose,
//! delay, repeat and reorder their copies, ticks, and the receiver. L and R are
//! what docs/INTEGRATION.md makes of the delays. Then each frame of which a copy
//! comes is handed up exactly once, at its first copy, byte for byte. Worst
//! runs, in which one less goes wrong; outages; a sender that restarts.
//!
//! Here stand the tests by name, and the wrong variants that they find. What
//! they run stands beside: `random_lines`, `worst`, `outages` and `restarts`.
//! These take a line (`line`), make a run of it (`maker`), and hold what the
//! receiver does (`receiver`) against what the page promises (`run`). All of
//! them go over PRP lines too (`prp`), with tests of their own (`on_prp_lines`).
//!
//! Every run is made twice: with single arrivals, and with batches where copies
//! of one network come in a row.

#[path = "../common/mod.rs"]
mod common;
mod line;
mod maker;
mod on_prp_lines;
mod outages;
mod prp;
mod random_lines;
mod receiver;
mod restarts;
mod run;
mod worst;

use common::finds;
use prp::Lines;
use second::wrong::Wrong;

#[test]
fn a_stream_that_is_open_before_its_sender_sends() {
    random_lines::from_the_start(Lines::Tags);
}

#[test]
fn a_stream_that_is_opened_in_the_middle_of_traffic() {
    random_lines::in_traffic(Lines::Tags);
}

#[test]
fn no_smaller_window_will_do() {
    worst::window(Lines::Tags);
}

#[test]
fn no_smaller_window_will_do_in_the_middle_of_traffic() {
    worst::window_in_traffic(Lines::Tags);
}

#[test]
fn no_smaller_reset_time_will_do() {
    worst::reset_time(Lines::Tags);
}

#[test]
fn in_outages_each_is_judged_by_its_index_and_none_comes_twice() {
    outages::by_index(Lines::Tags);
}

#[test]
fn one_frame_more_and_the_numbers_come_round() {
    outages::come_round(Lines::Tags);
}

#[test]
fn behind_the_reset_that_follows_an_outage_each_comes_once_again() {
    outages::behind_the_reset(Lines::Tags);
}

#[test]
fn a_sender_that_restarts_after_a_silence() {
    restarts::after_a_silence(Lines::Tags);
}

#[test]
fn no_shorter_silence_will_do() {
    restarts::shorter_silence(Lines::Tags);
}

#[test]
fn wrong_receivers_and_senders_are_found() {
    use Wrong::*;
    finds(
        a_stream_that_is_open_before_its_sender_sends,
        &[
            PlainComparison,
            LateUnmarked,
            LateFromZero,
            AnchorGoesBack,
            HistoryStays,
            FindsClosed,
            NumberLowFirst,
            ResetsEarly,
            FreshKnows65535,
            Longest1999,
            MarksBeforeRoom,
            GoesOnBehind8,
            AnyRefusalEnds,
            DuplicateHasLength,
            RoomForgetsLength,
            LengthWithTag,
            NotPacked,
            CountsThe8,
            Refuses32,
            TestsFirstWord,
            MarksFirstWord,
            CarryForgotten,
            CarryAround,
            CarryFromMoved,
            MovesMod64,
            MovesAtMost64,
            LeaverStays,
            ResetFirstWord,
            RefusedUsesNumber,
            NoRoomUsesNumber,
            TwoNumbersAFrame,
            SenderSkipsZero,
            SenderStaysAtEnd,
            SenderWrapsEarly,
            SecondGetsNext,
            SecondUnwritten,
        ],
    );
    finds(
        a_stream_that_is_opened_in_the_middle_of_traffic,
        &[ResetForgotten, ReopenKeepsState, StreamBeforeGroup],
    );
    finds(no_smaller_window_will_do, &[TakesL]);
    finds(
        in_outages_each_is_judged_by_its_index_and_none_comes_twice,
        &[
            DuplicateRenews,
            RogueRenews,
            LateKeepsTicks,
            TickStopsAtReset,
        ],
    );
    finds(
        one_frame_more_and_the_numbers_come_round,
        &[TakesMinusL, LastIsRogue],
    );
    finds(
        no_shorter_silence_will_do,
        &[SenderResetForgotten, SenderResetsToOne],
    );
}
