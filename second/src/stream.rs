//! The stream record, when it is lawful, and the decision on one record.
//! Document 01: "Sizes", "The stream record", "Decisions". The size of a batch
//! is that of order 3 of document 02; what is no loss is order 4's; the largest
//! window and the history's words are order 5's, the places of an index order
//! 9's, and rule 3 is order 10's.

use crate::history::{self, History};
use crate::wrong::{self, rule};

/// One slot of a table.
///
/// The fields are open to the caller, so any value may stand in them. A record
/// that breaks the rules is found by [`Stream::is_lawful`]; nothing here relies
/// on a record being well formed before that was asked.
#[derive(Clone, Copy, Debug, PartialEq, Eq)]
pub struct Stream {
    /// 0 is free, every other value is in use.
    pub in_use: u8,
    /// First half of the key.
    pub destination: [u8; 6],
    /// Second half of the key.
    pub vlan: u16,
    /// 1 vector, 2 match, 3 virtual link.
    pub rule: u8,
    /// The window L.
    pub window: u16,
    /// The reset time R, in ticks.
    pub reset_time: u16,
    /// The number that the differences are taken from; in a virtual link the
    /// last one handed up.
    pub anchor: u16,
    /// Bit k stands for the number anchor - k. It is bit k mod 64 of word
    /// k / 64.
    pub history: History,
    /// 0 is no, every other value is yes.
    pub take_any: u16,
    /// Ticks left until the stream is reset.
    pub remaining: u16,
    /// n of order 4: the places left for numbers older than the first one
    /// handed up since the reset.
    pub early: u16,
    /// Arrivals on network 0 and on network 1.
    pub arrivals: [u64; 2],
    /// Frames handed up.
    pub passed: u64,
    /// Duplicates.
    pub discarded: u64,
    /// Frames outside the window.
    pub rogue: u64,
    /// Frames handed up that did not follow the anchor.
    pub out_of_order: u64,
    /// Numbers after the first one that left the window without having come.
    pub lost: u64,
    /// How often the stream went back to the fresh state.
    pub resets: u64,
}

/// What the rules make of one number. The caller of the library sees
/// `Verdict`, which also has the length.
#[derive(Clone, Copy, Debug, PartialEq, Eq)]
pub(crate) enum Decision {
    HandedUp,
    Duplicate,
    Rogue,
}

/// The slots that one kind of arrival call looks at (order 10).
#[derive(Clone, Copy, Debug, PartialEq, Eq)]
pub enum Family {
    /// Those of rule 3: virtual links.
    Links,
    /// All others, those with no known rule among them.
    Rest,
}

/// Counters wrap to zero after 2^64 - 1 ("Sizes").
fn rise(counter: &mut u64) {
    *counter = counter.wrapping_add(1);
}

/// How many steps forward lead from one number of the ring 1 to 255 to another:
/// behind 255 stands 1.
pub(crate) fn steps(last: u16, number: u16) -> u16 {
    let ring = i32::from(rule!(Stream::LINK_RING, LinkRingOf256: Stream::LINK_RING + 1));
    (i32::from(number) - i32::from(last)).rem_euclid(ring) as u16
}

/// Is a number of a virtual link handed up behind this last one?
fn is_ahead(last: u16, number: u16) -> bool {
    let most = rule!(Stream::LINK_STEPS, LinkTakes128: 128, LinkLeaves127: 126);
    let on_ring = |number| (1..=most).contains(&steps(last, number));
    match (last, number) {
        (0, 0) => rule!(false, LinkZeroAfterZero: true),
        // A sender sends 0 only after its restart, so it is new whatever came
        // before.
        (_, 0) => rule!(true, LinkZeroOnRing: on_ring(Stream::LINK_RING)),
        (0, _) => number <= rule!(most, LinkAfterZeroAll: Stream::LINK_RING),
        _ => on_ring(number),
    }
}

impl Stream {
    /// Most slots in a table.
    pub const MAX_SLOTS: usize = 64;
    /// Longest frame.
    pub const MAX_FRAME: usize = 2000;
    /// Longest frame before the tag is put in.
    pub const MAX_UNTAGGED: usize = 1994;
    /// Most frames in a batch.
    pub const MAX_BATCH: usize = 32;
    /// Places in an index beside a table.
    pub const INDEX_PLACES: usize = 128;
    /// Smallest window.
    pub const MIN_WINDOW: u16 = 2;
    /// Largest window.
    pub const MAX_WINDOW: u16 = 512;
    /// Words of 64 bits in the history.
    pub const HISTORY_WORDS: usize = 8;
    /// Smallest reset time. The largest, 65535, is the largest value of the
    /// field.
    pub const MIN_RESET_TIME: u16 = 1;
    /// Largest VLAN id in a key.
    pub const MAX_VLAN: u16 = 4094;
    /// The vector rule.
    pub const VECTOR: u8 = 1;
    /// The match rule.
    pub const MATCH: u8 = 2;
    /// The rule of a virtual link.
    pub const LINK: u8 = 3;
    /// Highest number of a virtual link. From 1 to this they stand in a ring.
    pub const LINK_RING: u16 = 255;
    /// Most steps forward on that ring that are handed up.
    pub const LINK_STEPS: u16 = 127;
    /// The anchor of the fresh state.
    pub const FRESH_ANCHOR: u16 = 65535;

    /// A slot that was never opened.
    pub const FREE: Stream = Stream {
        in_use: 0,
        destination: [0; 6],
        vlan: 0,
        rule: 0,
        window: 0,
        reset_time: 0,
        anchor: Stream::FRESH_ANCHOR,
        history: history::EMPTY,
        take_any: 1,
        remaining: 0,
        early: 0,
        arrivals: [0; 2],
        passed: 0,
        discarded: 0,
        rogue: 0,
        out_of_order: 0,
        lost: 0,
        resets: 0,
    };

    /// Is the slot in use?
    pub fn is_in_use(&self) -> bool {
        self.in_use != 0
    }

    /// Does the stream take any number next?
    pub fn takes_any(&self) -> bool {
        self.take_any != 0
    }

    /// Which arrival calls look at the slot?
    pub fn family(&self) -> Family {
        if self.rule == Stream::LINK {
            Family::Links
        } else {
            Family::Rest
        }
    }

    /// Is this slot in use with this key?
    pub fn has_key(&self, destination: [u8; 6], vlan: u16) -> bool {
        rule!(self.is_in_use(), FindsClosed: true)
            && rule!(
                self.destination == destination,
                KeyVlanAlone: true,
                KeyFiveBytes: self.destination[..5] == destination[..5]
            )
            && rule!(self.vlan == vlan, KeyWithoutVlan: true)
    }

    /// Are rule, L, R and VLAN id within the sizes? L is asked of a virtual link
    /// too, though nothing there uses it.
    pub fn settings_in_range(&self) -> bool {
        let (least, most) = (Stream::MIN_WINDOW, Stream::MAX_WINDOW);
        let least = rule!(least, LinkWiderL: wrong::if_link(*self, 1, least));
        let most = rule!(
            most,
            Most64: 64,
            Most511: 511,
            LinkWiderL: wrong::if_link(*self, 513, most)
        );
        let vlan = self.vlan <= rule!(Stream::MAX_VLAN, Opens4095: 4095);
        let by_rule = match self.rule {
            Stream::VECTOR | Stream::MATCH => vlan,
            Stream::LINK => rule!(self.vlan == 0, LinkAnyVlan: vlan, LinkUnknown: false),
            _ => false,
        };
        by_rule
            && (least..=most).contains(&self.window)
            && self.reset_time >= Stream::MIN_RESET_TIME
    }

    /// Is this record, taken as one in use, lawful? "The stream record" has
    /// the rules in the same order; order 10 adds that of a virtual link, and
    /// order 4 the last one.
    pub fn is_lawful(&self) -> bool {
        if !self.settings_in_range() || self.remaining > self.reset_time {
            return false;
        }
        if (self.remaining == 0) != self.takes_any() {
            return false;
        }
        let empty = || {
            rule!(
                !history::any_marked(&self.history),
                EmptyByFirstWord: self.history[0] == 0
            )
        };
        let shaped = if self.takes_any() {
            // Remaining is already known to be 0 here.
            let anchor = self.anchor == Stream::FRESH_ANCHOR;
            rule!(anchor, FreshLinkDamaged: anchor && self.rule != Stream::LINK) && empty()
        } else if self.rule == Stream::VECTOR {
            // With L = 512 there is no place at L or above.
            let outside = rule!(self.places(), BitAtLLawful: self.places() + 1);
            history::is_marked(&self.history, 0) && !history::marked_from(&self.history, outside)
        } else if self.rule == Stream::LINK {
            let most = rule!(Stream::LINK_RING, LinkAnyAnchor: u16::MAX, LinkAnchor256: 256);
            self.anchor <= most && rule!(empty(), LinkAnyHistory: true)
        } else {
            empty()
        };
        shaped && self.early_fits()
    }

    /// Does n fit to the window and the history? While it is above 0, the first
    /// number handed up still stands at place L - 1 - n. A history of zero, as
    /// all but running vector records have, has it nowhere, so n is 0 there. Only
    /// for records with L in range.
    fn early_fits(&self) -> bool {
        let some = self.early > 0;
        if !rule!(
            some,
            EarlyInMatch: some && self.rule != Stream::MATCH,
            EarlyInLink: some && self.rule != Stream::LINK,
            EarlyInFresh: some && !self.takes_any()
        ) {
            return true;
        }
        match self.most_early().checked_sub(self.early) {
            Some(first) => rule!(
                history::is_marked(&self.history, first.into()),
                EarlyWithoutBit: true,
                EarlyInFirstWord: history::is_marked(&self.history, usize::from(first) % 64)
            ),
            None => rule!(false, EarlyTooHigh: true),
        }
    }

    /// L - 1: all places of the window but that of the anchor.
    fn most_early(&self) -> u16 {
        self.window - 1
    }

    /// L, as a place of the history: the first one behind the window.
    fn places(&self) -> usize {
        usize::from(self.window)
    }

    /// Back to the fresh state. Key, settings and counters stay.
    pub(crate) fn refresh(&mut self) {
        self.anchor = Stream::FRESH_ANCHOR;
        self.history =
            rule!(history::EMPTY, ResetFirstWord: wrong::without_first_word(&self.history));
        self.take_any = 1;
        self.remaining = 0;
        rule!(self.early = 0, ResetKeepsEarly: ());
    }

    /// A reset: the fresh state, and resets rises.
    pub(crate) fn restart(&mut self) {
        self.refresh();
        rule!(rise(&mut self.resets), ResetsUncounted: ());
    }

    /// The decision on one lawful record, by value. `second_network` says
    /// which arrival counter rises.
    pub(crate) fn decide(mut self, second_network: bool, number: u16) -> (Stream, Decision) {
        // Every verdict counts the arrival ("Decisions").
        let network = usize::from(second_network);
        rise(&mut self.arrivals[rule!(network, NetworkZeroCounts: 0)]);
        let any = self.takes_any();
        let known = rule!(
            false,
            FreshKnows65535: number == self.anchor,
            LinkFreshAsZero: self.rule == Stream::LINK && number > Stream::LINK_STEPS
        );
        let decision = if any && known {
            Decision::Duplicate
        } else if any {
            self.take_any = 0;
            self.anchor = number;
            // The other rules keep the history zero, and n with it.
            let vector = self.rule == Stream::VECTOR;
            self.history = history::EMPTY;
            if rule!(vector, LinkMarksHistory: self.rule != Stream::MATCH) {
                history::mark(&mut self.history, 0);
            }
            if rule!(
                vector,
                MatchHasEarly: self.rule != Stream::LINK,
                LinkHasEarly: self.rule != Stream::MATCH
            ) {
                self.early = rule!(
                    self.most_early(),
                    EarlyIsL: self.window,
                    EarlyIsByte: self.most_early() % 256
                );
            }
            Decision::HandedUp
        } else if self.rule == Stream::LINK {
            self.decide_link(number)
        } else {
            // Modulo 65536, then read as signed. Comparing the numbers as
            // plain numbers is one of the "Errors that look right".
            let d = rule!(
                i32::from(number.wrapping_sub(self.anchor) as i16),
                PlainComparison: i32::from(number) - i32::from(self.anchor)
            );
            if rule!(false, LateFromZero: self.rule == Stream::VECTOR && d < 0 && second_network) {
                Decision::Duplicate
            } else if self.rule == Stream::VECTOR {
                self.decide_vector(d, number)
            } else {
                self.decide_match(d, number)
            }
        };
        match decision {
            Decision::HandedUp => {
                rise(&mut self.passed);
                self.remaining = rule!(
                    self.reset_time,
                    ResetsEarly: (self.reset_time - 1).max(1),
                    LateKeepsTicks: if self.anchor == number {
                        self.reset_time
                    } else {
                        self.remaining
                    }
                );
            }
            // A discard of either kind leaves the ticks alone. Otherwise a
            // restarted sender never gets through.
            Decision::Duplicate => {
                rise(&mut self.discarded);
                rule!(
                    (),
                    DuplicateRenews: self.remaining = self.reset_time,
                    DuplicateTakesEarly: self.early = self.early.saturating_sub(1)
                );
            }
            Decision::Rogue => {
                rise(&mut self.rogue);
                rule!((), RogueRenews: self.remaining = self.reset_time);
            }
        }
        (self, decision)
    }

    fn decide_vector(&mut self, d: i32, number: u16) -> Decision {
        let window = i32::from(self.window);
        if d >= rule!(window, TakesL: window + 1)
            || d <= rule!(-window, TakesMinusL: -window - 1, LastIsRogue: 1 - window)
        {
            return Decision::Rogue;
        }
        if d <= 0 {
            let place = d.unsigned_abs() as usize;
            // Behind the window there is nothing to test or to mark.
            let inside = rule!(true, TakesMinusL: place < self.places());
            if inside && history::is_marked(&self.history, place) {
                return Decision::Duplicate;
            }
            if inside && rule!(true, LateUnmarked: false) {
                history::mark(&mut self.history, place);
            }
            rule!(
                (),
                AnchorGoesBack: self.anchor = number,
                LateTakesEarly: self.early -= u16::from(wrong::is_older(self, d))
            );
            rise(&mut self.out_of_order);
            return Decision::HandedUp;
        }
        if d != 1 || rule!(false, OneOutOfOrder: true) {
            rise(&mut self.out_of_order);
        }
        let (lost_before, early_before) = (self.lost, self.early);
        let last = self.places() - 1;
        // One place at a time, so that each zero that leaves is one loss. While
        // n is above 0, the place that leaves is older than the first number.
        for _ in 0..rule!(d, HistoryStays: 0, MovesMod64: d % 64, MovesAtMost64: d.min(64)) {
            let leaves = rule!(
                history::is_marked(&self.history, last),
                LossFromFirstWord: history::is_marked(&self.history, last % 64)
            );
            let zero = rule!(!leaves, LostCountsMarked: leaves);
            let older = self.early > 0;
            let counts = rule!(
                !older,
                EarlyIsLost: true,
                LastEarlyIsLost: self.early <= 1,
                MoveWithoutLoss: early_before == 0
            );
            if zero && counts {
                rise(&mut self.lost);
            }
            if rule!(older, EarlyStays: false, ZerosTakeEarly: older && zero) {
                self.early -= 1;
            }
            self.move_up();
        }
        rule!(
            (),
            OneLossAMove: self.lost = self.lost.min(lost_before.wrapping_add(1)),
            OneEarlyAMove: self.early = early_before.saturating_sub(1)
        );
        history::mark(&mut self.history, 0);
        self.anchor = number;
        Decision::HandedUp
    }

    /// The history moves up one place, and what stood at L - 1 leaves. With
    /// L = 512 it has left the words.
    fn move_up(&mut self) {
        history::move_up(&mut self.history);
        if self.window < rule!(Stream::MAX_WINDOW, LeaverStays: 0) {
            let outside = self.places();
            history::clear(&mut self.history, outside);
        }
    }

    fn decide_match(&mut self, d: i32, number: u16) -> Decision {
        if d == 0 {
            return Decision::Duplicate;
        }
        if rule!(false, MatchHasRogue: d.abs() >= i32::from(self.window)) {
            return Decision::Rogue;
        }
        if d != 1 {
            rise(&mut self.out_of_order);
        }
        self.anchor = number;
        Decision::HandedUp
    }

    /// All that is not handed up is a duplicate; out of order and lost stay.
    fn decide_link(&mut self, number: u16) -> Decision {
        let last = self.anchor;
        if !is_ahead(last, number) {
            rule!((), LinkDuplicateMoves: self.anchor = number);
            return rule!(
                Decision::Duplicate,
                LinkHasRogue: if number == last { Decision::Duplicate } else { Decision::Rogue }
            );
        }
        rule!(
            (),
            LinkCountsDisorder: if wrong::passed_over(last, number) > 0 {
                rise(&mut self.out_of_order);
            },
            LinkCountsLost: self.lost = self.lost.wrapping_add(wrong::passed_over(last, number))
        );
        self.anchor = number;
        Decision::HandedUp
    }
}
