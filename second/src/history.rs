//! The history of a stream: 512 places in eight words. Document 02: order 5.
//!
//! Place k stands for the number anchor - k. It is bit k mod 64 of word k / 64.

use crate::wrong::rule;
use crate::Stream;

/// All places, the lowest 64 in the first word.
pub type History = [u64; Stream::HISTORY_WORDS];

/// No place is marked.
pub const EMPTY: History = [0; Stream::HISTORY_WORDS];

/// Places in a word.
const WORD: usize = u64::BITS as usize;

/// Is this place marked?
pub fn is_marked(history: &History, place: usize) -> bool {
    let word = rule!(place / WORD, TestsFirstWord: 0);
    history[word] >> (place % WORD) & 1 == 1
}

/// Marks this place.
pub fn mark(history: &mut History, place: usize) {
    let word = rule!(place / WORD, MarksFirstWord: 0);
    history[word] |= 1 << (place % WORD);
}

/// Takes the mark from this place.
pub fn clear(history: &mut History, place: usize) {
    history[place / WORD] &= !(1 << (place % WORD));
}

/// Is any place marked?
pub fn any_marked(history: &History) -> bool {
    history.iter().any(|&word| word != 0)
}

/// Is this place marked, or any above it? There may be none at all above.
pub fn marked_from(history: &History, place: usize) -> bool {
    (0..history.len()).any(|at| {
        // How many places of this word lie below. A shift by all 64 is not
        // allowed, and nothing would be left of the word.
        let below = place.saturating_sub(at * WORD).min(WORD);
        let below = rule!(
            below,
            EmptyFullWord: below % WORD,
            LastWordUncut: if below > 0 { WORD } else { 0 },
            HigherWordsUnseen: if below > 0 { below } else { WORD }
        );
        let rest = history[at].checked_shr(below as u32);
        rest.map_or(false, |rest| rest != 0)
    })
}

/// Every mark moves up by one place. The bit that leaves a word comes in at the
/// foot of the next one, and the one at the last place of all is gone.
pub fn move_up(history: &mut History) {
    let mut comes_in = 0;
    for word in history {
        let leaves = *word >> (WORD - 1);
        *word = *word << 1 | rule!(comes_in, CarryForgotten: 0, CarryAround: leaves);
        comes_in = rule!(leaves, CarryFromMoved: *word >> (WORD - 1));
    }
}
