//! The same tests over PRP lines. What is expected of them is what is expected
//! of lines with tags: each frame of which a copy comes is handed up exactly
//! once, byte for byte, and no smaller L, R or silence will do.

use second::wrong::Wrong;

use crate::common::finds;
use crate::prp::Lines;
use crate::{outages, random_lines, restarts, worst};

#[test]
fn a_stream_that_is_open_before_its_sender_sends() {
    random_lines::from_the_start(Lines::Prp);
}

#[test]
fn a_stream_that_is_opened_in_the_middle_of_traffic() {
    random_lines::in_traffic(Lines::Prp);
}

#[test]
fn the_record_is_that_of_a_line_with_tags() {
    random_lines::same_record();
}

#[test]
fn no_smaller_window_will_do() {
    worst::window(Lines::Prp);
}

#[test]
fn no_smaller_window_will_do_in_the_middle_of_traffic() {
    worst::window_in_traffic(Lines::Prp);
}

#[test]
fn no_smaller_reset_time_will_do() {
    worst::reset_time(Lines::Prp);
}

#[test]
fn in_outages_each_is_judged_by_its_index_and_none_comes_twice() {
    outages::by_index(Lines::Prp);
}

#[test]
fn one_frame_more_and_the_numbers_come_round() {
    outages::come_round(Lines::Prp);
}

#[test]
fn behind_the_reset_that_follows_an_outage_each_comes_once_again() {
    outages::behind_the_reset(Lines::Prp);
}

#[test]
fn a_sender_that_restarts_after_a_silence() {
    restarts::after_a_silence(Lines::Prp);
}

#[test]
fn no_shorter_silence_will_do() {
    restarts::shorter_silence(Lines::Prp);
}

#[test]
fn wrong_turns_are_found() {
    use Wrong::*;
    finds(
        a_stream_that_is_open_before_its_sender_sends,
        &[
            // Both turns have the slip, so only the line shows it.
            PrpLanExchanged,
            PrpSizeBare,
            PrpSizeForgetsSuffix,
            PrpSizeForgetsVlan,
            PrpSizeWithType,
            PrpSizeWhole,
            PrpNumberLowFirst,
            PrpOneIs2012,
            PrpKindByLowBit,
            PrpKindsExchanged,
            PrpNeedsOneMore,
            PrpTellsGivenLength,
            // A copy is lost, or is not what was given to the sender.
            PrpTrailerStays,
            PrpTagAtEnd,
            PrpTagAt12,
            PrpTellsLan,
            PrpShortByOne,
            PrpLongest1994,
            PrpLongest1998,
            PrpLongestTagged,
            // A frame that is none of the stream's is taken, or is refused with
            // another number.
            PrpLanByLowBit,
            PrpLanFromA,
            PrpLanNotA,
            PrpSizeUnread,
            PrpSizeAtMost,
            PrpSizeAtLeast,
            PrpSizeLowByte,
            PrpSuffixUnread,
            PrpSuffixHalf,
            PrpKindGuessed,
            PrpShortByHeader,
            PrpShortForgetsVlan,
            PrpTrailerBeforeTagged,
            PrpTakesTagged,
        ],
    );
    finds(the_record_is_that_of_a_line_with_tags, &[NetworkZeroCounts]);
}
