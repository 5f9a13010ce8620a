//! Random calls on random tables, indexes and senders, given to the product and to the second program. After every call the
//! answer, the whole table, the whole index, the sender's next number and the whole outputs must be equal, and a refused call must
//! have changed nothing.
//!
//!     calls                    the comparison, 4,000,000 calls, more sends in a row than there are numbers, every number of a
//!                              virtual link behind every other, every VLAN tag, and PRP frames turned into tagged ones and back
//!     calls SEED COUNT         the same from another seed, or with fewer or more calls
//!     calls wrong              each wrong variant of the second program that shows in calls alone must be found
//!     calls cases COUNT        writes so many calls for compare/replay.c, with what they answer and leave
//!
//! The inputs are only worth something if they reach everything, so the run counts what came up, and fails where something
//! came up fewer than 100 times.

#![forbid(unsafe_code)]

use compare::cases::{self, Areas};
use compare::{Answer, Call, Product, Second, Settings, Side, VlanTag};
use nippitsun::archive::{self, BatchAnswer, PrpAnswer, FRAMES_MOST};
use nippitsun::{Counts, State, Stream};
use second::random::Random;
use second::wrong::{self, Seen as Shows, VARIANTS};
use std::collections::BTreeMap;
use std::io::Write;
use std::ops::Range;
use std::process::ExitCode;

const SEED: u64 = 1;
const COUNT: u64 = 4_000_000;
/// Calls on one table.
const LIFE: u64 = 200;
/// Everything that is counted must come up so often.
const LEAST: u64 = 100;
/// A wrong variant must be found within so many calls.
const PATIENCE: u64 = 200_000;

/// The windows for which every difference and every n is counted.
const WINDOWS: [u16; 3] = [2, 4, 64];
/// The windows of more than one word for which those at the ends of the words are.
const WIDE: [u16; 5] = [65, 127, 128, 511, 512];
/// Words in a history.
const WORDS: usize = 8;
/// The first place behind all of them.
const PLACES: u16 = Stream::WINDOW_MOST;

/// Places of an index, and what an empty one has.
const INDEX: usize = archive::PLACES;
const EMPTY: u8 = 0;

/// Batches have up to so many frames, more than are taken.
const FRAMES_TRIED: u64 = 40;
/// Bytes of input that a batch has at most. compare/replay.c has room for 65535.
const INPUT_MOST: usize = 60_000;
/// Outputs that are too small for any frame of a batch, or for more than one.
const SMALL_ROOMS: [usize; 5] = [0, 1, 2, 15, 16];

/// Highest number of a virtual link, and the most steps forward that are handed up.
const RING: u16 = 255;
const STEPS: usize = 127;

/// Sends in a row without a reset: the numbers twice, and some more.
const IN_A_ROW: u32 = 2 * 65536 + 3;
/// PRP frames that are turned into tagged ones and back.
const THERE_AND_BACK: u64 = 100_000;

// ---- what is given

/// Few destinations, so that keys meet, and meet in an index: with VLAN id 0 five have the last place for their own, two the one
/// before it, two the first, and two place 64. The first three are groups, which are keys like others.
const DESTINATIONS: [[u8; 6]; 12] = [
    [3, 0, 0, 0, 3, 35],
    [3, 0, 0, 0, 3, 122],
    [3, 0, 0, 0, 0, 20],
    [2, 0, 0, 0, 0, 40],
    [2, 0, 0, 0, 0, 127],
    [2, 0, 0, 0, 0, 214],
    [2, 0, 0, 0, 0, 33],
    [2, 0, 0, 0, 0, 120],
    [2, 0, 0, 0, 1, 226],
    [2, 0, 0, 0, 0, 87],
    [2, 0, 0, 0, 0, 174],
    [2, 0, 0, 0, 0, 1],
];

/// One of these, and one of few ids.
fn key(random: &mut Random) -> ([u8; 6], u16) {
    let vlan = match random.below(16) {
        0..=8 => 0,
        9 => 4094,
        10 => 4095,
        _ => random.below(4) as u16,
    };
    (random.pick(&DESTINATIONS), vlan)
}

fn counter(random: &mut Random) -> u64 {
    match random.below(4) {
        0 => u64::MAX,
        1 => u64::MAX - random.below(8),
        2 => random.below(4),
        _ => random.bits(),
    }
}

fn counts(random: &mut Random) -> Counts {
    Counts {
        arrivals0: counter(random),
        arrivals1: counter(random),
        passed: counter(random),
        discarded: counter(random),
        rogue: counter(random),
        disorder: counter(random),
        lost: counter(random),
        resets: counter(random),
    }
}

fn window(random: &mut Random) -> u16 {
    match random.below(16) {
        0 => 2,
        1 => 4,
        2..=4 => 64,
        5 | 6 => random.pick(&[65, 127, 128]),
        7..=9 => 511,
        10..=12 => 512,
        13 => random.pick(&[63, 129, 192, 193, 255, 256, 257, 448, 449]),
        14 => 2 + random.below(63) as u16,
        _ => 65 + random.below(448) as u16,
    }
}

fn time(random: &mut Random) -> u16 {
    match random.below(4) {
        0 => 1,
        1 => 2 + random.below(3) as u16,
        2 => 65535,
        _ => 1 + random.below(65535) as u16,
    }
}

/// The places left for numbers older than the first, often none.
fn early(random: &mut Random, window: u16) -> u16 {
    match random.below(8) {
        0..=2 => 0,
        3 => 1,
        4 => window - 1,
        // The first number at an end of a word.
        5 if window > 64 => {
            let words = 64 * (1 + random.below(u64::from(window - 1) / 64)) as u16;
            window - 1 - random.pick(&[words - 1, words])
        }
        _ => random.below(window.into()) as u16,
    }
}

fn is_marked(history: &[u64; WORDS], place: u16) -> bool {
    history[usize::from(place / 64)] >> (place % 64) & 1 == 1
}

fn mark(history: &mut [u64; WORDS], place: u16) {
    history[usize::from(place / 64)] |= 1 << (place % 64);
}

fn clear(history: &mut [u64; WORDS], place: u16) {
    history[usize::from(place / 64)] &= !(1 << (place % 64));
}

/// How many of these places are marked.
fn marks(history: &[u64; WORDS], places: Range<u16>) -> u32 {
    places
        .map(|place| u32::from(is_marked(history, place)))
        .sum()
}

/// Marks in places of the window: every second one, fewer, or hardly any.
fn history(random: &mut Random, window: u16) -> [u64; WORDS] {
    let mut history = [0; WORDS];
    let kind = random.below(4);
    for (at, word) in (0..window.min(PLACES)).step_by(64).zip(&mut history) {
        let bits = match kind {
            0 | 1 => random.bits(),
            2 => random.bits() & random.bits(),
            _ => 0,
        };
        *word = bits >> (64 - (window - at).min(64));
    }
    for _ in 0..random.below(4) {
        mark(
            &mut history,
            random.below(window.clamp(1, PLACES).into()) as u16,
        );
    }
    history
}

/// Marks anywhere, in one word or in all of them.
fn any_history(random: &mut Random) -> [u64; WORDS] {
    let mut history = history(random, PLACES);
    if random.chance(1, 2) {
        history = [0; WORDS];
        history[random.below(WORDS as u64) as usize] = random.bits();
    }
    history
}

/// Is it a virtual link? One arrival call looks at those alone, the others at the rest.
fn is_link(s: &Stream) -> bool {
    s.rule == Stream::LINK_RULE
}

/// One of the three rules, most often vector, which has the most to show.
fn rule(random: &mut Random) -> u8 {
    match random.below(16) {
        0..=7 => Stream::VECTOR_RULE,
        8..=12 => Stream::MATCH_RULE,
        _ => Stream::LINK_RULE,
    }
}

/// The VLAN id that a stream of this rule may have in place of this one.
fn lawful_vlan(rule: u8, vlan: u16) -> u16 {
    match rule {
        Stream::LINK_RULE => 0,
        _ => vlan.min(Stream::VLAN_MOST),
    }
}

/// The last number of a virtual link, often one at an end.
fn link_anchor(random: &mut Random) -> u16 {
    let any = random.byte().into();
    random.pick(&[0, 1, 127, 128, 254, RING, any, any, any])
}

/// A lawful record in use.
fn lawful(random: &mut Random) -> Stream {
    let rule = rule(random);
    lawful_with(random, rule)
}

/// The same with this rule.
fn lawful_with(random: &mut Random, rule: u8) -> Stream {
    let (destination, vlan) = key(random);
    let (window, time) = (window(random), time(random));
    let state = if random.chance(1, 6) {
        State {
            history: [0; WORDS],
            anchor: 65535,
            remaining: 0,
            early: 0,
            any: random.pick(&[1, 1, 255, 256, 65535]),
        }
    } else {
        let (history, early) = if rule == Stream::VECTOR_RULE {
            let mut history = history(random, window);
            let early = early(random, window);
            mark(&mut history, 0);
            // The first number stands in the window as long as there are places for older ones.
            if early > 0 {
                mark(&mut history, window - 1 - early);
            }
            (history, early)
        } else {
            ([0; WORDS], 0)
        };
        State {
            history,
            anchor: if rule == Stream::LINK_RULE {
                link_anchor(random)
            } else if random.chance(1, 3) {
                random.pick(&[0, 1, 65535, 32768, 65534])
            } else {
                random.word()
            },
            remaining: if random.chance(1, 3) {
                1
            } else {
                1 + random.below(time.into()) as u16
            },
            early,
            any: 0,
        }
    };
    Stream {
        dest: nippitsun::dest_of(destination),
        vlan: lawful_vlan(rule, vlan),
        window,
        time,
        rule,
        used: if random.chance(1, 4) {
            1 + random.below(255) as u8
        } else {
            1
        },
        state,
        counts: counts(random),
    }
}

/// Windows that no stream may have.
const NO_WINDOWS: [u16; 8] = [0, 1, 513, 514, 576, 768, 1028, 65535];

/// The record of a virtual link with one fault.
fn damaged_link(random: &mut Random, mut s: Stream) -> Stream {
    let state = &mut s.state;
    match random.below(20) {
        // 0 and 255 are wrong in a fresh one alone, and 65535 in any other alone.
        0..=2 => state.anchor = random.pick(&[0, RING, 256, 256, 256, 257, 511, 65535]),
        3 => state.anchor = 256 | random.word(),
        4 => mark(&mut state.history, 0),
        5 => state.history = any_history(random),
        6 => state.early = random.pick(&[1, s.window - 1, s.window, 65535]),
        7..=11 => s.vlan = random.pick(&[1, 4094]),
        12 => s.vlan = random.pick(&[4095, 4096, 65535]),
        13 | 14 => s.window = random.pick(&NO_WINDOWS),
        15 => s.time = 0,
        16 => state.remaining = s.time.wrapping_add(1),
        17 => state.remaining = 0,
        18 => state.any = 1 - state.any.min(1),
        // No call can name such a key, but a tick and a reset find it sound.
        _ => s.dest |= random.pick(&[1, 2, 0xFFFF]) << 48,
    }
    s
}

/// A record with one fault, or with anything in it.
fn damaged(random: &mut Random) -> Stream {
    let mut s = lawful(random);
    if is_link(&s) {
        return damaged_link(random, s);
    }
    match random.below(26) {
        0 => s.rule = random.pick(&[0, 3, 4, 255]),
        1 => s.window = random.pick(&NO_WINDOWS),
        2 => s.time = 0,
        3 => s.vlan = random.pick(&[4095, 4096, 65535]),
        4 => s.state.remaining = s.time.wrapping_add(1),
        5 => s.state.remaining = 0,
        6 => s.state.any = 1 - s.state.any.min(1),
        7 => {
            s.state = State {
                history: [0; WORDS],
                anchor: random.word(),
                remaining: 0,
                early: 0,
                any: 1,
            }
        }
        8 => {
            s.state = State {
                history: any_history(random),
                anchor: 65535,
                remaining: 0,
                early: 0,
                any: 1,
            }
        }
        9 => clear(&mut s.state.history, 0),
        // At L, behind it, and in a higher word. With L = 512 there is no such place, and nothing is damaged.
        10 | 21 if s.window < PLACES => mark(&mut s.state.history, s.window),
        18 | 22..=24 if (1..63).contains(&(s.window % 64)) => {
            let behind = u64::from(63 - s.window % 64);
            let place = s.window + 1 + random.below(behind) as u16;
            mark(&mut s.state.history, place);
        }
        19 if s.window < PLACES => {
            let behind = u64::from(PLACES - s.window);
            mark(&mut s.state.history, s.window + random.below(behind) as u16);
        }
        20 | 25 if s.window <= PLACES - 64 => {
            let word = usize::from((s.window - 1) / 64) + 1;
            let word = word + random.below((WORDS - word) as u64) as usize;
            s.state.history[word] |= random.bits() & random.bits();
        }
        10 | 18..=25 => {}
        11 => s.state.history = any_history(random),
        12 => s.dest |= random.pick(&[1, 2, 0xFFFF]) << 48,
        13 => s.state.early = s.window,
        14 => s.state.early = s.window + 1 + random.below(8) as u16,
        15 => s.state.early = 65535,
        16 => {
            // No number is at the place of the first, but where that is the anchor's.
            let place = random.below(u64::from(s.window) - 1) as u16;
            s.state.early = s.window - 1 - place;
            if place > 0 {
                clear(&mut s.state.history, place);
            }
        }
        _ => {
            s.state = State {
                history: any_history(random),
                anchor: random.word(),
                remaining: random.word(),
                early: random.word(),
                any: random.word(),
            };
            s.window = random.word();
            s.time = random.word();
            s.rule = random.byte();
            s.vlan = random.word();
        }
    }
    s
}

fn record(random: &mut Random) -> Stream {
    let s = if random.chance(1, 4) {
        damaged(random)
    } else {
        lawful(random)
    };
    let used = if random.chance(1, 6) { 0 } else { s.used };
    Stream { used, ..s }
}

fn table(random: &mut Random) -> Vec<Stream> {
    let slots = match random.below(16) {
        0 => 0,
        1 => 65,
        2 => 64,
        3..=13 => 1 + random.below(6),
        _ => random.below(66),
    };
    let mut table: Vec<Stream> = (0..slots).map(|_| record(random)).collect();
    // One slot in use, one key alone, or pairs of a virtual link and another stream with its key.
    match random.below(16) {
        0 => table.iter_mut().skip(1).for_each(|s| s.used = 0),
        1 => {
            let (destination, vlan) = key(random);
            for s in &mut table {
                (s.dest, s.vlan) = (nippitsun::dest_of(destination), vlan);
            }
        }
        2 | 3 => {
            for pair in table.chunks_exact_mut(2) {
                let link = lawful_with(random, Stream::LINK_RULE);
                (pair[0].dest, pair[0].vlan) = (link.dest, link.vlan);
                pair[1] = link;
                if random.chance(1, 2) {
                    pair.swap(0, 1);
                }
            }
        }
        _ => {}
    }
    table
}

/// The place of a record's key in an index, from which following starts.
fn own_place(s: &Stream) -> usize {
    (second::mixed(s.dest, s.vlan) >> 25) as usize
}

/// What a place has that names the slot.
fn name(slot: usize) -> u8 {
    slot as u8 + 1
}

/// The index that a rebuild makes of the table; zeros, where the table has too many slots.
fn rebuilt(table: &[Stream]) -> Vec<u8> {
    let mut index = vec![EMPTY; INDEX];
    archive::rebuild(table, &mut index);
    index
}

/// Of each key, the lowest virtual link in use with it, and the lowest other slot.
fn lowest(table: &[Stream]) -> Vec<usize> {
    let is_lowest = |&slot: &usize| {
        let s = &table[slot];
        let mut lower = with_key(&table[..slot], Key::of(s));
        s.is_used() && lower.next().is_none()
    };
    (0..table.len()).filter(is_lowest).collect()
}

/// A name that can stand in any place that no key needs: of the lowest slot with its key, of a free slot, or beyond the table.
fn harmless(random: &mut Random, table: &[Stream], lowest: &[usize]) -> u8 {
    if !lowest.is_empty() && random.chance(1, 3) {
        return name(random.pick(lowest));
    }
    let slots = table.len() as u64;
    let slot = random.below(slots + 1) as usize;
    match table.get(slot) {
        Some(s) if !s.is_used() => name(slot),
        _ => (slots + 1 + random.below(255 - slots)) as u8,
    }
}

/// An index that agrees with the table and is hardly ever the rebuilt one: of slots with one key it names the lowest alone, and
/// following passes over names of other slots and beyond the table.
fn agreeing(random: &mut Random, table: &[Stream]) -> Vec<u8> {
    let mut index = vec![EMPTY; INDEX];
    let mut lowest = lowest(table);
    // In another order, and at their own places, near them, or anywhere.
    if !lowest.is_empty() {
        let first = random.below(lowest.len() as u64) as usize;
        lowest.rotate_left(first);
    }
    let far = random.pick(&[1, 1, 1, 3, 3, 3, 3, INDEX as u64]);
    for &slot in &lowest {
        let mut place = (own_place(&table[slot]) + random.below(far) as usize) % INDEX;
        while index[place] != EMPTY {
            place = (place + 1) % INDEX;
        }
        index[place] = name(slot);
    }
    for &slot in &lowest {
        let mut place = own_place(&table[slot]);
        while index[place] != name(slot) {
            if index[place] == EMPTY {
                index[place] = harmless(random, table, &lowest);
            }
            place = (place + 1) % INDEX;
        }
    }
    // The rest stays empty, or half of it, or nothing.
    let filled = random.pick(&[0, 0, 1, 2]);
    for place in &mut index {
        if filled > 0 && *place == EMPTY && random.chance(filled, 2) {
            *place = harmless(random, table, &lowest);
        }
    }
    index
}

/// A place at which some key of the table is likely to be looked for.
fn place_in(random: &mut Random, table: &[Stream]) -> usize {
    let from = match table {
        [] => random.below(INDEX as u64) as usize,
        table => own_place(&random.pick(table)),
    };
    (from + random.below(4) as usize) % INDEX
}

/// An index beside the table. Most often it agrees.
fn index(random: &mut Random, table: &[Stream]) -> Vec<u8> {
    let mut index = if random.chance(1, 2) {
        rebuilt(table)
    } else {
        agreeing(random, table)
    };
    let any_name = |random: &mut Random| random.below(table.len() as u64 + 2) as u8;
    match random.below(32) {
        0 | 1 => index[place_in(random, table)] = any_name(random),
        2 => index.swap(place_in(random, table), place_in(random, table)),
        3 => random.fill(&mut index),
        4 => index.fill_with(|| any_name(random)),
        5 => index.fill(EMPTY),
        6..=8 => index.fill(name(0)),
        9 => index.fill(any_name(random)),
        10 => index.truncate(INDEX - 1),
        11 => index.push(random.byte()),
        12 => index.clear(),
        // Another slot with its key stands where a slot was named, or none.
        13 | 14 if !table.is_empty() => {
            let slot = random.below(table.len() as u64) as usize;
            let key = |slot: usize| (table[slot].dest, table[slot].vlan);
            let is_other = |&other: &usize| other != slot && key(other) == key(slot);
            let other = (0..table.len()).find(is_other);
            for place in index.iter_mut().filter(|place| **place == name(slot)) {
                *place = other.map_or(EMPTY, name);
            }
        }
        _ => {}
    }
    index
}

/// Where the frames of calls are written.
struct Frames {
    single: [u8; 2100],
    packed: Vec<u8>,
}

/// A difference, most often one near the window's ends, which are counted.
fn difference(random: &mut Random, window: u16) -> i64 {
    let window = i64::from(window.min(PLACES));
    match random.below(16) {
        0 => random.between(-32768, 32767),
        1 => -32768,
        2 | 3 => 1,
        4 => 0,
        5 => random.between(-3, 3),
        // At the ends of the history's words, and of a window of several.
        6..=12 if window > 64 => {
            let words = random.below(window as u64 / 64 + 1) as i64 * 64;
            let d = random.pick(&[words, words, window]) + random.between(-1, 1);
            random.pick(&[d, -d])
        }
        _ => random.between(-window - 1, window + 1),
    }
}

/// Writes so many bytes of a frame to this destination, from a source that is seldom a group.
fn start(random: &mut Random, pool: &[u8], f: &mut [u8; 2100], length: usize, to: [u8; 6]) {
    let from = random.below((pool.len() - length) as u64) as usize;
    f[..length].copy_from_slice(&pool[from..from + length]);
    // Whole heads are written where there may be no room for them: f is long enough, and the length cuts them.
    f[..6].copy_from_slice(&to);
    // The pool's bytes alone would make every second source a group.
    f[6] = f[6] & 0xFE | u8::from(random.chance(1, 16));
}

/// Writes a frame and gives its length. Most often it is one that a slot of the table takes.
fn frame(random: &mut Random, pool: &[u8], table: &[Stream], f: &mut [u8; 2100]) -> usize {
    let length = match random.below(32) {
        0 | 1 => random.below(26),
        2 => random.pick(&[1993, 1994, 1995, 1999, 2000, 2001, 2002]),
        _ => 20 + random.below(28),
    } as usize;
    let (mut destination, mut vlan) = key(random);
    let mut number = random.word();
    if !table.is_empty() && !random.chance(1, 16) {
        let s = table[random.below(table.len() as u64) as usize];
        let [_, _, six @ ..] = s.dest.to_be_bytes();
        destination = six;
        vlan = s.vlan;
        number = s
            .state
            .anchor
            .wrapping_add(difference(random, s.window) as u16);
    }
    start(random, pool, f, length, destination);
    let mut at = 12;
    if vlan != 0 || random.chance(1, 4) {
        f[12..14].copy_from_slice(&[0x81, 0x00]);
        f[14..16].copy_from_slice(&(vlan & 0x0FFF | random.word() & 0xF000).to_be_bytes());
        at = 16;
    }
    if !random.chance(1, 16) {
        f[at..at + 2].copy_from_slice(&[0xF1, 0xC1]);
    }
    if random.chance(1, 2) {
        f[at + 2..at + 4].copy_from_slice(&[0, 0]);
    }
    f[at + 4..at + 6].copy_from_slice(&number.to_be_bytes());
    match random.below(12) {
        // A VLAN tag in what is handed up, where no other stands before it.
        0 => f[at + 6..at + 10].copy_from_slice(&[0x81, 0x00, random.byte() & 0xF0, 0x05]),
        1 => f[at + 6..at + 8].copy_from_slice(&[0xF1, 0xC1]),
        _ => {}
    }
    length
}

/// A number for a virtual link that had this one last, most often at an end of what is handed up then.
fn link_number(random: &mut Random, last: u16) -> u8 {
    match random.below(12) {
        0 => random.byte(),
        1 | 2 => random.pick(&[0, 0, 1, 126, 127, 128, 129, 254, 255]),
        3 => last as u8,
        // Round the ring of 256 too.
        4 => (last as u8).wrapping_add(random.pick(&[1, 127, 128])),
        _ => {
            let steps = random.pick(&[1, 1, 1, 2, 126, 127, 128, 129, RING - 2, RING - 1, RING]);
            ((last % 256 + steps + RING - 1) % RING + 1) as u8
        }
    }
}

/// Writes a frame for a virtual link and gives its length. Most often it is one that a slot of the table takes.
fn link_frame(random: &mut Random, pool: &[u8], table: &[Stream], f: &mut [u8; 2100]) -> usize {
    let length = match random.below(16) {
        0 => random.below(24),
        1 | 2 => random.pick(&[13, 14, 15, 16, 17, 18, 22]),
        3 => random.pick(&[1994, 1995, 1999, 2000, 2001, 2002]),
        _ => 15 + random.below(40),
    } as usize;
    let (mut destination, vlan) = key(random);
    let mut last = link_anchor(random);
    let links: Vec<&Stream> = table.iter().filter(|s| is_link(s)).collect();
    let s = match random.below(8) {
        0 => None,
        1 => table.get(random.below(64) as usize),
        _ if links.is_empty() => None,
        _ => Some(random.pick(&links)),
    };
    if let Some(s) = s {
        let [_, _, six @ ..] = s.dest.to_be_bytes();
        destination = six;
        last = s.state.anchor;
    }
    start(random, pool, f, length, destination);
    // Tags, which mean nothing here.
    let [high, low] = (vlan & 0x0FFF | random.word() & 0xF000).to_be_bytes();
    let head = [0x81, 0x00, high, low, 0xF1, 0xC1];
    match random.below(8) {
        0 | 1 => f[12..16].copy_from_slice(&head[..4]),
        2 => f[12..18].copy_from_slice(&head),
        3 => f[12..14].copy_from_slice(&head[4..]),
        _ => {}
    }
    if length > 0 {
        f[length - 1] = link_number(random, last);
    }
    length
}

/// A link arrival. Now and then its frame is one for the other streams.
fn link<'a>(
    random: &mut Random,
    pool: &[u8],
    table: &[Stream],
    f: &'a mut [u8; 2100],
) -> (Call<'a>, [usize; 2]) {
    let length = if random.chance(1, 16) {
        frame(random, pool, table, f)
    } else {
        link_frame(random, pool, table, f)
    };
    let call = Call::LinkArrival {
        network: network(random),
        frame: &f[..length],
    };
    (call, [room(random, length.saturating_sub(1)), 0])
}

fn settings(random: &mut Random, table: &[Stream]) -> Settings {
    let (destination, vlan) = key(random);
    let rule = rule(random);
    let mut s = Settings {
        destination,
        vlan: lawful_vlan(rule, vlan),
        rule,
        window: window(random),
        time: time(random),
    };
    match random.below(16) {
        0 => s.vlan = random.pick(&[4095, 4096, 65535]),
        1 => s.rule = random.pick(&[0, 3, 4, 255]),
        2 => s.window = random.pick(&NO_WINDOWS),
        3 => s.time = 0,
        // Wrong with a virtual link alone.
        4 => s.vlan = vlan.min(Stream::VLAN_MOST),
        // The key of a slot.
        5 if !table.is_empty() => {
            let of = random.pick(table);
            let [_, _, six @ ..] = of.dest.to_be_bytes();
            (s.destination, s.vlan) = (six, of.vlan);
        }
        _ => {}
    }
    s
}

fn slot(random: &mut Random, table: &[Stream]) -> usize {
    match random.below(16) {
        0 => table.len(),
        1 => random.bits() as usize,
        _ => random.below(table.len().max(1) as u64) as usize,
    }
}

fn network(random: &mut Random) -> u8 {
    if random.chance(1, 24) {
        random.pick(&[2, 3, 255])
    } else {
        random.below(2) as u8
    }
}

/// A batch, most often a good one, with an output at some edge of what its frames need.
fn batch<'a>(
    random: &mut Random,
    pool: &[u8],
    table: &[Stream],
    f: &'a mut Frames,
) -> (Call<'a>, [usize; 2]) {
    let mut count = random.below(FRAMES_TRIED + 1) as usize;
    f.packed.clear();
    let mut length = 0;
    for place in 0..count {
        // Now and then the frame before it comes again.
        if place == 0 || !random.chance(1, 4) {
            length = frame(random, pool, table, &mut f.single);
        }
        if f.packed.len() + length > INPUT_MOST {
            length = 0;
        }
        f.packed.extend_from_slice(&(length as u16).to_be_bytes());
        f.packed.extend_from_slice(&f.single[..length]);
    }
    let end = f.packed.len();
    match random.below(16) {
        0 => f.packed.truncate(random.below(end as u64 + 1) as usize),
        1 => f.packed.truncate(end.saturating_sub(1)),
        // One more than there are, or one byte of its length.
        2 => count += 1,
        3 => {
            count += 1;
            f.packed.push(0);
        }
        // Input behind the last frame.
        4..=7 => {
            let behind = 1 + random.below(4) as usize;
            f.packed.extend_from_slice(&pool[..behind]);
        }
        _ => {}
    }
    let call = Call::Batch {
        network: network(random),
        count,
        frames: &f.packed,
    };
    // What the frames take if there is enough: each takes less than it took of the input.
    let mut ample = vec![0; f.packed.len()];
    let all = match Product::new(table).call(call, [&mut ample, &mut []]) {
        Answer::Batch(told) => taken(&told),
        _ => 0,
    };
    let room = match random.below(16) {
        0..=4 => random.pick(&SMALL_ROOMS),
        5 => all,
        6 => all.saturating_sub(1),
        7 => all + 1,
        8 => random.below(all as u64 + 1) as usize,
        _ => all + random.below(60) as usize,
    };
    (call, [room, 0])
}

/// What a batch has written to its output.
fn taken(told: &BatchAnswer) -> usize {
    let lengths = told.answers.iter().map(|a| a.length);
    lengths.filter(|&length| length > 0).map(|n| n + 2).sum()
}

/// Where the type field of a frame is.
fn type_place(f: &[u8]) -> usize {
    match f.get(12..14) {
        Some([0x81, 0x00]) => 16,
        _ => 12,
    }
}

/// Another type in the place of the frame's mark, so that a tag can be put in.
fn unmark(f: &mut [u8; 2100]) {
    let at = type_place(f);
    f[at..at + 2].copy_from_slice(&[0x08, 0x00]);
}

/// How many bytes an output should have: a few more than are needed, just so many, one fewer, or none.
fn room(random: &mut Random, needed: usize) -> usize {
    match random.below(16) {
        0 => needed.saturating_sub(1),
        1 => 0,
        2 => needed,
        _ => needed + random.below(12) as usize,
    }
}

/// A send, most often of a frame without a tag, or now and then a reset of the sender.
fn send<'a>(
    random: &mut Random,
    pool: &[u8],
    table: &[Stream],
    f: &'a mut [u8; 2100],
) -> (Call<'a>, [usize; 2]) {
    if random.chance(1, 8) {
        return (Call::ResetSender, [0, 0]);
    }
    let length = frame(random, pool, table, f);
    if !random.chance(1, 8) {
        unmark(f);
    }
    let frame = &f[..length];
    let rooms = [0; 2].map(|_| room(random, length + 6));
    (Call::Send { frame }, rooms)
}

/// The setting of a PRP line, every value of which is one of two kinds.
fn kind(random: &mut Random) -> u8 {
    match random.below(8) {
        0..=3 => 0,
        4..=6 => 1,
        _ => random.byte(),
    }
}

/// Bytes of the trailer that a setting means.
fn width(kind: u8) -> usize {
    match kind {
        0 => 4,
        _ => 6,
    }
}

/// The size that fits to a PRP frame of this length, and 0 if it is too short to have one.
fn fitting(f: &[u8], length: usize) -> u16 {
    length.saturating_sub(type_place(f) + 2) as u16
}

/// Fills a frame that shall be longer than frame() made it.
fn fill_behind(random: &mut Random, pool: &[u8], f: &mut [u8; 2100], length: usize) {
    // The longest head.
    let head = 26;
    if let Some(behind) = f.get_mut(head..length) {
        let from = random.below((pool.len() - behind.len()) as u64) as usize;
        behind.copy_from_slice(&pool[from..from + behind.len()]);
    }
}

/// Writes a frame to be turned into a PRP frame and gives its length. Most often it is tagged.
fn frame_for_prp(random: &mut Random, pool: &[u8], table: &[Stream], f: &mut [u8; 2100]) -> usize {
    let length = frame(random, pool, table, f);
    match random.below(16) {
        0 | 1 => {
            let length = random.pick(&[2000, 2001, 2002, 2050]);
            fill_behind(random, pool, f, length);
            length
        }
        // Short without its tag, where that stands at 12.
        2 => {
            f[18..20].copy_from_slice(&[0x81, 0x00]);
            20 + random.below(4) as usize
        }
        _ => length,
    }
}

/// Writes a PRP frame for a line of this kind and gives its length. Most often it is a good one.
fn prp_frame(
    random: &mut Random,
    pool: &[u8],
    table: &[Stream],
    f: &mut [u8; 2100],
    kind: u8,
) -> usize {
    frame(random, pool, table, f);
    if !random.chance(1, 5) {
        unmark(f);
    }
    // Now and then it has the other kind's trailer.
    let width = match random.below(24) {
        0 => 10 - width(kind),
        _ => width(kind),
    };
    let shortest = type_place(f) + 2 + width;
    let length = match random.below(16) {
        0 => random.below(28) as usize,
        1 => random.pick(&[shortest - 1, shortest]),
        2 | 3 => random.between(1994, 2003) as usize,
        4 | 5 => random.between(260, 600) as usize,
        _ => shortest + random.below(24) as usize,
    };
    fill_behind(random, pool, f, length);
    // In a frame that is too short a trailer would stand over the type field.
    if length < width || length < shortest && random.chance(1, 2) {
        return length;
    }
    let (mut lan, mut size) = (random.pick(&[0xA, 0xB]), fitting(f, length));
    let mut suffix = [0x88, 0xFB];
    match random.below(32) {
        0 => lan = random.pick(&[0x9, 0xC]),
        1 => lan = random.below(16) as u16,
        2 => size = random.pick(&[size.wrapping_sub(1), size + 1]),
        3 => size ^= 0x100 << random.below(4),
        // Counted in another way: from elsewhere, or without the trailer.
        4 => size = random.pick(&[size + 2, size + 4, size.wrapping_sub(width as u16)]),
        5 => size = random.word(),
        6 => suffix[random.below(2) as usize] ^= 1 << random.below(8),
        _ => {}
    }
    let at = length - width;
    let number = random.word();
    f[at..at + 2].copy_from_slice(&number.to_be_bytes());
    f[at + 2..at + 4].copy_from_slice(&(lan << 12 | size & 0x0FFF).to_be_bytes());
    f[at + 4..length].copy_from_slice(&suffix[..width - 4]);
    length
}

/// A turn from PRP or to PRP.
fn turn<'a>(
    random: &mut Random,
    pool: &[u8],
    table: &[Stream],
    f: &'a mut [u8; 2100],
) -> (Call<'a>, [usize; 2]) {
    let kind = kind(random);
    let (call, needed) = if random.chance(1, 2) {
        let length = prp_frame(random, pool, table, f, kind);
        let frame = &f[..length];
        (Call::FromPrp { frame, kind }, length + 6 - width(kind))
    } else {
        let length = frame_for_prp(random, pool, table, f);
        let call = Call::ToPrp {
            frame: &f[..length],
            network: network(random),
            kind,
        };
        (call, length.saturating_sub(6) + width(kind))
    };
    (call, [room(random, needed), 0])
}

/// A next number, often one at the wrap.
fn next(random: &mut Random) -> u16 {
    let any = random.word();
    random.pick(&[0, 1, 65534, 65535, 65535, any])
}

/// A call, and how many bytes its outputs should have. Its index stands beside it.
fn call<'a>(
    random: &mut Random,
    pool: &[u8],
    table: &[Stream],
    f: &'a mut Frames,
) -> (Call<'a>, [usize; 2]) {
    match random.below(56) {
        0 => return batch(random, pool, table, f),
        1..=3 => return send(random, pool, table, &mut f.single),
        4..=6 => return turn(random, pool, table, &mut f.single),
        7 => return (Call::Rebuild, [0, 0]),
        8..=11 => return link(random, pool, table, &mut f.single),
        _ => {}
    }
    let f = &mut f.single;
    let kind = random.below(32);
    match kind {
        18..=21 => return (Call::Open(settings(random, table)), [0, 0]),
        22 | 23 => return (Call::Close(slot(random, table)), [0, 0]),
        24 | 25 => return (Call::Reset(slot(random, table)), [0, 0]),
        26 | 27 => return (Call::Tick, [0, 0]),
        _ => {}
    }
    let length = frame(random, pool, table, f);
    let write = kind >= 30;
    if write && random.chance(1, 2) {
        unmark(f);
    }
    let frame = &f[..length];
    let (call, needed) = if write {
        let number = random.word();
        (Call::WriteTag { frame, number }, length + 6)
    } else if kind >= 28 {
        (Call::TakeTag { frame }, length.saturating_sub(6))
    } else {
        let network = network(random);
        (Call::Arrival { network, frame }, length.saturating_sub(6))
    };
    (call, [room(random, needed), 0])
}

// ---- what came up

const CALLS: [&str; 14] = [
    "arrival",
    "open",
    "close",
    "reset",
    "tick",
    "take a tag out",
    "write a tag",
    "batch",
    "send",
    "reset of a sender",
    "from PRP",
    "to PRP",
    "rebuild",
    "link arrival",
];
/// The refusals that each call can give.
const REFUSALS: [&[u8]; CALLS.len()] = [
    &[1, 2, 3, 4, 5, 14, 6, 7, 8],
    &[1, 18, 9, 10, 11],
    &[1, 18, 12],
    &[1, 12, 7],
    &[1],
    &[3, 4, 5, 8],
    &[3, 4, 13, 14, 8],
    &[1, 18, 2, 15],
    &[3, 4, 13, 14, 8],
    &[],
    &[3, 4, 13, 16, 8],
    &[2, 3, 4, 5, 8],
    &[1, 18],
    &[1, 2, 3, 4, 14, 6, 7, 8],
];
/// The lengths that an index may not have.
const LENGTHS: [usize; 3] = [0, INDEX - 1, INDEX + 1];
const COUNTERS: [&str; 8] = [
    "arrivals on network 0",
    "arrivals on network 1",
    "passed",
    "discarded",
    "rogue",
    "out of order",
    "lost",
    "resets",
];

const VERDICTS: [&str; 3] = ["handed up", "duplicate", "rogue"];

/// What must come up with group sources, beside refusal 14.
const GROUPS: [&str; 5] = [
    "an arrival without a tag",
    "a tagged frame for the tag writer",
    "a tag taken out",
    "an arrival for a key that no slot has",
    "a tagged frame for a send",
];

/// What must come up in batches, beside their refusals.
#[derive(Default)]
struct Batches {
    /// By the number of frames, where the batch is not refused.
    counts: BTreeMap<usize, u64>,
    /// By the output, as [`SMALL_ROOMS`] has them.
    small_rooms: [u64; 5],
    /// By the refusal of a frame.
    frames_refused: [u64; 16],
    up: u64,
    duplicate: u64,
    rogue: u64,
    no_room_up: u64,
    no_room_duplicate: u64,
    no_room_rogue: u64,
    no_room_first: u64,
    no_room_last: u64,
    no_room_one_left: u64,
    filled: u64,
    goes_on_without_room: u64,
    trailing: u64,
    count_too_high: u64,
    length_cut: u64,
    frame_cut: u64,
    network_before_count: u64,
}

/// The sizes that the outputs of a send or of a turn have, beside what it needs.
const SIZES: [&str; 4] = ["empty", "one byte too small", "of just the size", "larger"];
/// The refusals of a send that come before 8.
const BEFORE_ROOM: [u8; 4] = [3, 4, 13, 14];

/// What must come up in sends, beside their refusals.
#[derive(Default)]
struct Sends {
    /// By the size of the first output, then of the second, as [`SIZES`] has them, where the frame is not refused for itself.
    sizes: [[u64; 4]; 4],
    /// By [`BEFORE_ROOM`], where an output is too small too.
    before_room: [u64; 4],
    first_number: u64,
    last_number: u64,
    refused_at_last: u64,
    with_vlan: u64,
    longest: u64,
    too_long_by_one: u64,
    reset_from_0: u64,
    reset_from_other: u64,
}

impl Sends {
    /// A call, its answer and what it started from.
    fn note(&mut self, call: &Call, answer: &Answer, given: Areas) {
        match *call {
            Call::Send { frame } => self.sent(frame, answer, given),
            Call::ResetSender => {
                self.reset_from_0 += u64::from(given.next == 0);
                self.reset_from_other += u64::from(given.next != 0);
            }
            _ => {}
        }
    }

    fn sent(&mut self, frame: &[u8], answer: &Answer, given: Areas) {
        let needed = frame.len() + 6;
        let rooms = given.outs.map(<[u8]>::len);
        let refusal = match *answer {
            Answer::Refused(n) => n,
            _ => 0,
        };
        if let Some(place) = BEFORE_ROOM.iter().position(|&n| n == refusal) {
            let small = rooms.iter().any(|&room| room < needed);
            self.before_room[place] += u64::from(small);
        } else {
            let [first, second] = rooms.map(|room| size_of(room, needed));
            self.sizes[first][second] += 1;
        }
        let at_last = given.next == 65535;
        if refusal == 0 {
            self.first_number += u64::from(given.next == 0);
            self.last_number += u64::from(at_last);
            self.with_vlan += u64::from(type_place(frame) == 16);
            self.longest += u64::from(frame.len() == 1994);
        } else {
            self.refused_at_last += u64::from(at_last);
            self.too_long_by_one += u64::from(frame.len() == 1995);
        }
    }

    fn list(&self, list: &mut Vec<(String, u64)>) {
        for (first, seen) in SIZES.iter().zip(self.sizes) {
            for (second, n) in SIZES.iter().zip(seen) {
                let what = format!("first output {}, second {}", first, second);
                list.push((format!("in a send: {}", what), n));
            }
        }
        for (refusal, n) in BEFORE_ROOM.iter().zip(self.before_room) {
            let what = format!("{} where an output is too small too", refusal);
            list.push((format!("in a send: {}", what), n));
        }
        for (what, n) in [
            ("number 0", self.first_number),
            ("number 65535", self.last_number),
            ("a refusal where 65535 is next", self.refused_at_last),
            ("a VLAN tag", self.with_vlan),
            ("1994 bytes", self.longest),
            ("1995 bytes", self.too_long_by_one),
        ] {
            list.push((format!("in a send: {}", what), n));
        }
        for (next, n) in [("0", self.reset_from_0), ("another", self.reset_from_other)] {
            list.push((format!("a reset of a sender whose next is {}", next), n));
        }
    }
}

/// The kinds of a PRP trailer.
const KINDS: [&str; 2] = ["first edition", "2012"];
/// The settings of a PRP line.
const SETTINGS: [&str; 3] = ["0", "1", "another"];
/// What a PRP frame has in which all but one thing is right.
const NO_TRAILER: [&str; 8] = [
    "LAN 9",
    "LAN C",
    "another LAN",
    "a size one below",
    "a size one above",
    "a size off by 256",
    "another size",
    "no 88FB",
];

/// What must come up in turns from PRP, by the kind of the line.
#[derive(Default)]
struct FromPrp {
    /// By the VLAN tag, then the network, where the frame is turned.
    turned: [[u64; 2]; 2],
    /// By refusal.
    refused: [u64; 17],
    /// By [`NO_TRAILER`], where the answer is 16.
    no_trailer: [u64; 8],
    /// A trailer of the other kind, with all right in it.
    other_kind: u64,
    /// By the frame's length from 1997 on, where the answer is 3 or none.
    long: [u64; 5],
    /// By the VLAN tag: just header and trailer, and one byte less.
    shortest: [u64; 2],
    too_short_by_one: [u64; 2],
    short_with_f1c1: u64,
    tagged_without_trailer: u64,
    size_above_a_byte: u64,
    group: u64,
    /// By the size of the output, as [`SIZES`] has them, where the frame is not refused for itself.
    rooms: [u64; 4],
    /// By refusal, where the output is too small too.
    before_room: [u64; 17],
}

/// What must come up in turns to PRP, by the kind of the line.
#[derive(Default)]
struct ToPrp {
    /// By the VLAN tag, then the network, where the frame is turned.
    turned: [[u64; 2]; 2],
    /// By refusal. The second 4 is apart.
    refused: [u64; 17],
    short_without_tag: u64,
    vlan_behind_the_tag: u64,
    tagged_twice: u64,
    reserved: u64,
    group: u64,
    longest: u64,
    too_long_by_one: u64,
    rooms: [u64; 4],
    /// By refusal, where the output is too small too, and the second 4.
    before_room: [u64; 17],
    short_before_room: u64,
    /// By the refusal that comes behind it.
    network_before: [u64; 17],
}

/// What must come up in turns from PRP and to PRP.
#[derive(Default)]
struct Prp {
    /// By [`KINDS`].
    from: [FromPrp; 2],
    to: [ToPrp; 2],
    /// By [`SETTINGS`], where the frame is turned: from PRP, to PRP.
    settings: [[u64; 3]; 2],
}

/// Which of [`SIZES`] an output has.
fn size_of(room: usize, needed: usize) -> usize {
    match room {
        0 => 0,
        _ if room < needed => 1,
        _ if room == needed => 2,
        _ => 3,
    }
}

/// Which one thing is wrong with the trailer of a frame that has room for one, if only one is.
fn trailer_fault(frame: &[u8], kind: u8) -> Option<usize> {
    let trailer = &frame[frame.len() - width(kind)..];
    let said = u16::from_be_bytes([trailer[2] & 0x0F, trailer[3]]);
    let fitting = fitting(frame, frame.len());
    let lan = match trailer[2] >> 4 {
        0xA | 0xB => None,
        0x9 => Some(0),
        0xC => Some(1),
        _ => Some(2),
    };
    let size = match i32::from(said) - i32::from(fitting) {
        0 => None,
        -1 => Some(3),
        1 => Some(4),
        -256 | 256 => Some(5),
        _ => Some(6),
    };
    let suffix = (kind != 0 && trailer[4..] != [0x88, 0xFB]).then_some(7);
    match [lan, size, suffix] {
        [fault, None, None] | [None, fault, None] | [None, None, fault] => fault,
        _ => None,
    }
}

impl FromPrp {
    fn note(&mut self, frame: &[u8], kind: u8, answer: &Answer, room: usize) {
        let (length, width) = (frame.len(), width(kind));
        let vlan = usize::from(type_place(frame) == 16);
        let shortest = type_place(frame) + 2 + width;
        let group = u64::from(frame.get(6).map_or(false, |first| first & 1 == 1));
        let tagged = frame.get(type_place(frame)..type_place(frame) + 2) == Some(&[0xF1, 0xC1]);
        let refusal = match *answer {
            Answer::Refused(n) => n,
            _ => 0,
        };
        self.refused[usize::from(refusal)] += 1;
        if let (0 | 3, 1997..=2001) = (refusal, length) {
            self.long[length - 1997] += 1;
        }
        let needed = length + 6 - width;
        match refusal {
            0 | 8 => self.rooms[size_of(room, needed)] += 1,
            n => self.before_room[usize::from(n)] += u64::from(room < needed),
        }
        match refusal {
            0 => {
                let b = usize::from(frame[length - width + 2] >> 4 == 0xB);
                self.turned[vlan][b] += 1;
                self.shortest[vlan] += u64::from(length == shortest);
                self.size_above_a_byte += u64::from(length - shortest > 255);
                self.group += group;
            }
            4 => {
                self.too_short_by_one[vlan] += u64::from(length + 1 == shortest);
                self.short_with_f1c1 += u64::from(tagged);
            }
            13 => {
                let bad = trailer_fault(frame, kind).is_some();
                self.tagged_without_trailer += u64::from(bad);
            }
            16 => {
                if let Some(fault) = trailer_fault(frame, kind) {
                    self.no_trailer[fault] += 1;
                }
                let other = u8::from(kind == 0);
                let mut out = [0; Stream::FRAME_MOST + 2];
                let call = Call::FromPrp { frame, kind: other };
                let told = Product::new(&[]).call(call, [&mut out, &mut []]);
                self.other_kind += u64::from(matches!(told, Answer::Prp(_)));
            }
            _ => {}
        }
    }

    fn list(&self, kind: &str, list: &mut Vec<(String, u64)>) {
        let mut add = |what: String, n| list.push((format!("from PRP, {}: {}", kind, what), n));
        for (vlan, turned) in ["no VLAN", "VLAN"].iter().zip(self.turned) {
            for (lan, n) in ["A", "B"].iter().zip(turned) {
                add(format!("{}, LAN {}, turned", vlan, lan), n);
            }
        }
        for n in [3, 4, 13, 16, 8] {
            add(format!("refused with {}", n), self.refused[n]);
        }
        for (fault, n) in NO_TRAILER.iter().zip(self.no_trailer) {
            // The first edition has no such bytes.
            if (kind, *fault) != (KINDS[0], "no 88FB") {
                add(format!("16 for {}", fault), n);
            }
        }
        add(
            String::from("16 for a trailer of the other kind"),
            self.other_kind,
        );
        for (length, n) in (1997..).zip(self.long) {
            add(format!("{} bytes", length), n);
        }
        for (vlan, name) in ["no VLAN", "VLAN"].iter().enumerate() {
            add(
                format!("{}, just header and trailer", name),
                self.shortest[vlan],
            );
            add(
                format!("{}, one byte less", name),
                self.too_short_by_one[vlan],
            );
        }
        for (size, n) in SIZES.iter().zip(self.rooms) {
            add(format!("output {}", size), n);
        }
        for n in [3, 4, 13, 16] {
            let what = format!("{} where the output is too small too", n);
            add(what, self.before_room[n]);
        }
        for (what, n) in [
            (
                "4 where F1C1 stands at the type field",
                self.short_with_f1c1,
            ),
            (
                "13 where the trailer is bad too",
                self.tagged_without_trailer,
            ),
            ("a size above 255", self.size_above_a_byte),
            ("a group source", self.group),
        ] {
            add(String::from(what), n);
        }
    }
}

impl ToPrp {
    fn note(&mut self, frame: &[u8], network: u8, kind: u8, answer: &Answer, room: usize) {
        let (length, place) = (frame.len(), type_place(frame));
        let refusal = match *answer {
            Answer::Refused(n) => n,
            _ => 0,
        };
        let needed = length.saturating_sub(6) + width(kind);
        let small = u64::from(room < needed);
        // An arrival's 4 or a tag that can be taken out.
        let bare = refusal == 4 && {
            let call = Call::TakeTag { frame };
            let mut out = [0; Stream::FRAME_MOST];
            let told = Product::new(&[]).call(call, [&mut out, &mut []]);
            matches!(told, Answer::Tag { .. })
        };
        match refusal {
            0 | 8 => self.rooms[size_of(room, needed)] += 1,
            4 if bare => self.short_before_room += small,
            n => self.before_room[usize::from(n)] += small,
        }
        if bare {
            self.short_without_tag += 1;
        } else {
            self.refused[usize::from(refusal)] += 1;
        }
        match refusal {
            0 => {
                self.turned[usize::from(place == 16)][usize::from(network)] += 1;
                let former = &frame[place + 6..place + 8];
                self.vlan_behind_the_tag += u64::from(place == 12 && former == [0x81, 0x00]);
                self.tagged_twice += u64::from(former == [0xF1, 0xC1]);
                self.reserved += u64::from(frame[place + 2..place + 4] != [0, 0]);
                self.group += u64::from(frame[6] & 1 == 1);
                self.longest += u64::from(length == Stream::FRAME_MOST);
            }
            2 => {
                let call = Call::ToPrp {
                    frame,
                    network: 0,
                    kind,
                };
                let mut out = [0; Stream::FRAME_MOST];
                let told = Product::new(&[]).call(call, [&mut out, &mut []]);
                if let Answer::Refused(n) = told {
                    self.network_before[usize::from(n)] += 1;
                }
            }
            3 => self.too_long_by_one += u64::from(length == Stream::FRAME_MOST + 1),
            _ => {}
        }
    }

    fn list(&self, kind: &str, list: &mut Vec<(String, u64)>) {
        let mut add = |what: String, n| list.push((format!("to PRP, {}: {}", kind, what), n));
        for (vlan, turned) in ["no VLAN", "VLAN"].iter().zip(self.turned) {
            for (network, n) in turned.iter().enumerate() {
                add(format!("{}, network {}, turned", vlan, network), *n);
            }
        }
        for n in [2, 3, 4, 5, 8] {
            add(format!("refused with {}", n), self.refused[n]);
        }
        for (size, n) in SIZES.iter().zip(self.rooms) {
            add(format!("output {}", size), n);
        }
        for n in [2, 3, 4, 5] {
            let what = format!("{} where the output is too small too", n);
            add(what, self.before_room[n]);
        }
        for n in [3, 4, 5] {
            add(format!("2 before {}", n), self.network_before[n]);
        }
        for (what, n) in [
            ("the second 4", self.short_without_tag),
            (
                "the second 4 where the output is too small too",
                self.short_before_room,
            ),
            ("8100 behind a tag at 12", self.vlan_behind_the_tag),
            ("F1C1 behind the tag", self.tagged_twice),
            ("nonzero reserved bytes", self.reserved),
            ("a group source", self.group),
            ("2000 bytes", self.longest),
            ("2001 bytes", self.too_long_by_one),
        ] {
            add(String::from(what), n);
        }
    }
}

impl Prp {
    /// A call, its answer and what it started from.
    fn note(&mut self, call: &Call, answer: &Answer, given: Areas) {
        let room = given.outs[0].len();
        let (way, kind) = match *call {
            Call::FromPrp { frame, kind } => {
                self.from[usize::from(kind != 0)].note(frame, kind, answer, room);
                (0, kind)
            }
            Call::ToPrp {
                frame,
                network,
                kind,
            } => {
                self.to[usize::from(kind != 0)].note(frame, network, kind, answer, room);
                (1, kind)
            }
            _ => return,
        };
        let turned = u64::from(matches!(answer, Answer::Prp(_)));
        self.settings[way][usize::from(kind.min(2))] += turned;
    }

    fn list(&self, list: &mut Vec<(String, u64)>) {
        for (place, kind) in KINDS.iter().enumerate() {
            self.from[place].list(kind, list);
            self.to[place].list(kind, list);
        }
        for (way, settings) in ["from PRP", "to PRP"].iter().zip(self.settings) {
            for (setting, n) in SETTINGS.iter().zip(settings) {
                list.push((format!("{}: turned with the setting {}", way, setting), n));
            }
        }
    }
}

/// The ways in which n alone makes a record damaged.
const EARLY_FAULTS: [&str; 6] = [
    "n = L",
    "n above L",
    "n = 65535",
    "n above 0 and its bit clear",
    "n above 0 in a match record",
    "n above 0 with take-any",
];
/// The calls that meet such a record: an arrival is refused, a tick counts it, a reset mends it, a close frees it.
const EARLY_MET: [&str; 4] = ["an arrival", "a tick", "a reset", "a close"];

/// What must come up with n, the places left for numbers older than the first.
#[derive(Default)]
struct Early {
    /// Verdicts of vector streams without take-any, by the window and n.
    verdicts: BTreeMap<(u16, u16), u64>,
    /// By [`EARLY_FAULTS`], then [`EARLY_MET`].
    faults: [[u64; 4]; 6],
    first_vector: u64,
    first_match: u64,
    move_leaves_some: u64,
    move_leaves_none: u64,
    move_ends_inside: u64,
    loss_behind_the_first: u64,
    older_zero_leaves: u64,
    older_number_leaves: u64,
    late_older: u64,
    late_after_first: u64,
    duplicate_older: u64,
    across_the_wrap: u64,
    reset_by_tick: u64,
    reset_by_call: u64,
    free_in_a_tick: u64,
    opened_over: u64,
}

/// The ways in which the history alone makes a record damaged.
const HISTORY_FAULTS: [&str; 6] = [
    "bit 0 clear",
    "a bit at L",
    "a bit above L in its word",
    "a bit in a higher word alone",
    "a match record with a bit above the first word",
    "take-any with a bit above the first word",
];

/// What must come up with the words of a history.
#[derive(Default)]
struct Histories {
    /// By [`HISTORY_FAULTS`], then [`EARLY_MET`].
    faults: [[u64; 4]; 6],
    /// By the word of the place, in vector streams.
    late: [u64; WORDS],
    duplicate: [u64; WORDS],
    /// By the word that a mark has left for a higher one.
    crossed: [u64; WORDS],
    /// By the word of place L - 1, where marks and zeros left.
    left: [u64; WORDS],
    lost: [u64; WORDS],
    /// The wrap inside a window of more than 64, by the same verdicts.
    wrap_late: u64,
    wrap_duplicate: u64,
    wrap_moved: u64,
    /// With bits above the first word.
    reset_by_tick: u64,
    reset_by_call: u64,
    opened_over: u64,
    /// By the L of an open, and those that were refused.
    opened: BTreeMap<u16, u64>,
    refused_513: u64,
}

/// The windows that opens must have.
const OPENED: [u16; 11] = [2, 63, 64, 65, 127, 128, 255, 256, 257, 511, 512];

/// Which of [`HISTORY_FAULTS`] a record has that is damaged by its history alone, and no virtual link.
fn history_fault(s: &Stream) -> Option<usize> {
    let (history, vector) = (&s.state.history, s.rule == Stream::VECTOR_RULE);
    let high = history[1..].iter().any(|&word| word != 0);
    let fault = if s.state.any != 0 {
        (history[0] == 0 && high).then_some(5)
    } else if !vector {
        (history[0] == 0 && high).then_some(4)
    } else if !is_marked(history, 0) {
        Some(0)
    } else {
        let behind = (s.window.min(PLACES)..PLACES).find(|&place| is_marked(history, place));
        behind.map(|place| match place {
            _ if place == s.window => 1,
            _ if place / 64 == (s.window.max(1) - 1) / 64 => 2,
            _ => 3,
        })
    };
    let mut other = *s;
    other.state.history = [u64::from(vector && s.state.any == 0), 0, 0, 0, 0, 0, 0, 0];
    fault.filter(|_| !is_link(s) && s.state.early == 0 && is_damaged(*s) && !is_damaged(other))
}

impl Histories {
    /// A call on a table that gave an answer other than a refusal.
    fn note(&mut self, call: &Call, answer: &Answer, before: &[Stream], after: &[Stream]) {
        let high = |s: &Stream| s.is_used() && s.state.history[1..] != [0; WORDS - 1];
        match (call, answer) {
            (_, &Answer::HandedUp { slot, number, .. }) => {
                self.handed_up(number, &before[slot], &after[slot])
            }
            (_, &Answer::Duplicate { slot, number, .. }) => {
                let s = &before[slot];
                if s.rule == Stream::VECTOR_RULE {
                    let place = s.state.anchor.wrapping_sub(number);
                    self.duplicate[usize::from(place / 64)] += 1;
                    self.wrap_duplicate += u64::from(place >= 64 && number > s.state.anchor);
                }
            }
            (Call::Tick, Answer::Ticked { .. }) => {
                for (b, a) in before.iter().zip(after).filter(|(b, _)| b.is_used()) {
                    self.met(1, b);
                    self.reset_by_tick += u64::from(high(b) && a.counts != b.counts);
                }
            }
            (&Call::Reset(slot), Answer::Done) => {
                self.met(2, &before[slot]);
                self.reset_by_call += u64::from(high(&before[slot]));
            }
            (&Call::Close(slot), Answer::Done) => self.met(3, &before[slot]),
            (Call::Open(s), &Answer::Opened(slot)) => {
                *self.opened.entry(s.window).or_default() += 1;
                let over = before[slot].state.history[1..] != [0; WORDS - 1];
                self.opened_over += u64::from(over);
            }
            (Call::Open(s), Answer::Refused(9)) => self.refused_513 += u64::from(s.window == 513),
            _ => {}
        }
    }

    /// A record that one of [`EARLY_MET`] has met.
    fn met(&mut self, by: usize, s: &Stream) {
        if let Some(fault) = history_fault(s) {
            self.faults[fault][by] += 1;
        }
    }

    fn handed_up(&mut self, number: u16, b: &Stream, a: &Stream) {
        if b.state.any != 0 || b.rule != Stream::VECTOR_RULE {
            return;
        }
        let (history, window) = (&b.state.history, b.window);
        let d = a.state.anchor.wrapping_sub(b.state.anchor);
        if d == 0 {
            let place = b.state.anchor.wrapping_sub(number);
            self.late[usize::from(place / 64)] += 1;
            self.wrap_late += u64::from(place >= 64 && number > b.state.anchor);
            return;
        }
        self.wrap_moved += u64::from(d >= 64 && number < b.state.anchor);
        for end in (64..window).step_by(64) {
            // A mark below the end that has come to it or above it, and is still inside.
            let crossed = marks(history, end.saturating_sub(d)..end.min(window - d)) > 0;
            self.crossed[usize::from(end / 64) - 1] += u64::from(crossed);
        }
        let left = marks(history, window - d..window);
        let word = usize::from((window - 1) / 64);
        self.left[word] += u64::from(left > 0);
        self.lost[word] += u64::from(a.counts.lost != b.counts.lost);
    }

    fn list(&self, list: &mut Vec<(String, u64)>) {
        for (fault, met) in HISTORY_FAULTS.iter().zip(self.faults) {
            for (call, n) in EARLY_MET.iter().zip(met) {
                list.push((format!("{} meets {}", call, fault), n));
            }
        }
        for word in 0..WORDS {
            for (what, n) in [
                ("a late number in", self.late[word]),
                ("a duplicate in", self.duplicate[word]),
                ("a mark leaves the window from", self.left[word]),
                ("a loss from", self.lost[word]),
            ] {
                list.push((format!("{} word {}", what, word), n));
            }
            if word + 1 < WORDS {
                let what = format!("a mark moves from word {} to a higher one", word);
                list.push((what, self.crossed[word]));
            }
        }
        for (what, n) in [
            ("a late number across the wrap", self.wrap_late),
            ("a duplicate across the wrap", self.wrap_duplicate),
            ("a move across the wrap", self.wrap_moved),
        ] {
            list.push((format!("{}, 64 or more places away", what), n));
        }
        for (what, n) in [
            ("a tick resets", self.reset_by_tick),
            ("a reset", self.reset_by_call),
            ("an open over a free record", self.opened_over),
        ] {
            list.push((format!("with bits above the first word: {}", what), n));
        }
        for window in OPENED {
            let n = self.opened.get(&window).copied().unwrap_or(0);
            list.push((format!("an open with L = {}", window), n));
        }
        let refused = self.refused_513;
        list.push((String::from("an open refused with L = 513"), refused));
    }
}

/// The steps forward in a virtual link, the numbers behind a 0 and the first numbers that must come up.
const LINK_STEPS: [u16; 9] = [0, 1, 2, 126, 127, 128, 129, 253, 254];
const BEHIND_0: [u16; 8] = [0, 1, 126, 127, 128, 129, 254, 255];
const LINK_FIRST: [u16; 5] = [0, 1, 127, 128, 255];
/// The lengths that a virtual link's frames must have.
const LINK_LENGTHS: [usize; 12] = [13, 14, 15, 16, 17, 18, 22, 1994, 1995, 1999, 2000, 2001];

/// How one thing in a record is mended.
type Mend = fn(&mut Stream);
/// What alone may make the record of a virtual link damaged, and how that is mended.
const LINK_FAULTS: [(&str, Mend); 7] = [
    ("a VLAN id", |s| s.vlan = 0),
    ("L", |s| s.window = 2),
    ("R", |s| s.time = 65535),
    ("the anchor", |s| {
        s.state.anchor = if s.state.any == 0 { 0 } else { 65535 }
    }),
    ("a history", |s| s.state.history = [0; WORDS]),
    ("n", |s| s.state.early = 0),
    ("what remains", |s| {
        s.state.remaining = u16::from(s.state.any == 0)
    }),
];
/// The calls that meet such a record.
const LINK_MET: [&str; 4] = ["a link arrival", "a tick", "a reset", "a close"];
/// The calls that look at no virtual link.
const NOT_LINKS: [&str; 2] = ["an arrival", "a frame of a batch"];

/// What must come up with virtual links.
#[derive(Default)]
struct Links {
    /// By the steps from the last number, where that is no 0; by the number behind a 0; and by the first number.
    steps: BTreeMap<u16, u64>,
    behind_0: BTreeMap<u16, u64>,
    first: BTreeMap<u16, u64>,
    started_again: u64,
    round_the_end: u64,
    /// By the frame's length, where the answer is 3, 4 or a verdict.
    lengths: BTreeMap<usize, u64>,
    vlan_tag: u64,
    vlan_tag_cut: u64,
    redundancy_tag: u64,
    /// Handed up and duplicate, then by the size of the output, as [`SIZES`] has them.
    rooms: [[u64; 4]; 2],
    /// By refusal, where the output is too small too.
    before_room: [u64; 15],
    network_before_length: u64,
    short_before_group: u64,
    group_before_stream: u64,
    /// By [`LINK_FAULTS`], then [`LINK_MET`], and those of an anchor of 256.
    faults: [[u64; 4]; 7],
    anchor_256: [u64; 4],
    behind_other: u64,
    others_key: u64,
    other_vlan: u64,
    /// By [`NOT_LINKS`].
    behind_link: [u64; 2],
    links_key: [u64; 2],
    links_key_with_vlan: [u64; 2],
    no_rule: [u64; 2],
    opened: u64,
    opened_with_vlan: u64,
    opened_beside_other: u64,
    other_opened_beside: u64,
    other_opened_beside_vlan: u64,
    reset_by_tick: u64,
    reset_by_call: u64,
    closed: u64,
}

impl Links {
    /// A call, its answer, what it started from and what it left.
    fn note(&mut self, call: &Call, answer: &Answer, given: Areas, left: Areas) {
        let table = given.table;
        match (call, answer) {
            (&Call::LinkArrival { network, frame }, _) => {
                self.arrival(network, frame, answer, given)
            }
            (&Call::Arrival { frame, .. }, _) => self.other_arrival(0, frame, answer, table),
            (&Call::Batch { count, frames, .. }, Answer::Batch(told)) => {
                let (frames, _) = frames_of(count, frames);
                for (frame, told) in frames.into_iter().zip(&told.answers) {
                    if let Some(answer) = Answer::of_frame(told) {
                        self.other_arrival(1, frame, &answer, table);
                    }
                }
            }
            (Call::Open(s), _) => self.open(s, answer, table),
            (Call::Tick, Answer::Ticked { .. }) => {
                for (b, a) in table.iter().zip(left.table).filter(|(b, _)| b.is_used()) {
                    self.met(1, b);
                    self.reset_by_tick += u64::from(is_link(b) && a.counts != b.counts);
                }
            }
            (&Call::Reset(slot), Answer::Done | Answer::Refused(7)) => {
                self.met(2, &table[slot]);
                let sound = is_link(&table[slot]) && !is_damaged(table[slot]);
                self.reset_by_call += u64::from(sound);
            }
            (&Call::Close(slot), Answer::Done) => {
                self.met(3, &table[slot]);
                self.closed += u64::from(is_link(&table[slot]));
            }
            _ => {}
        }
    }

    /// A slot in use that one of [`LINK_MET`] has met.
    fn met(&mut self, by: usize, s: &Stream) {
        if !is_link(s) || !is_damaged(*s) {
            return;
        }
        for ((_, mend), seen) in LINK_FAULTS.iter().zip(&mut self.faults) {
            let mut mended = *s;
            mend(&mut mended);
            let alone = !is_damaged(mended);
            seen[by] += u64::from(alone);
            let is_256 = s.state.anchor == 256 && mended.state.anchor == 0;
            self.anchor_256[by] += u64::from(alone && is_256);
        }
    }

    fn arrival(&mut self, network: u8, frame: &[u8], answer: &Answer, given: Areas) {
        let (table, room) = (given.table, given.outs[0].len());
        let needed = frame.len().saturating_sub(1);
        let group = frame.get(6).map_or(false, |first| first & 1 == 1);
        if let Answer::Refused(n) = *answer {
            match n {
                2 => self.network_before_length += u64::from(frame.len() > Stream::FRAME_MOST),
                4 => self.short_before_group += u64::from(group),
                8 => {
                    // It changed nothing, so it can be tried again with enough room.
                    let mut out = [0; Stream::FRAME_MOST];
                    let call = Call::LinkArrival { network, frame };
                    let told = Product::new(table).call(call, [&mut out, &mut []]);
                    let up = matches!(told, Answer::HandedUp { .. });
                    self.rooms[usize::from(!up)][size_of(room, needed)] += 1;
                }
                14 => {
                    let none = with_key(table, Key::of_link(frame)).next().is_none();
                    self.group_before_stream += u64::from(none);
                }
                6 => self.unheard(Key::of_link(frame), table),
                7 => {
                    let found = with_key(table, Key::of_link(frame)).next();
                    self.met(0, found.expect("a link has the key"));
                }
                _ => {}
            }
            self.before_room[usize::from(n)] += u64::from(room < needed);
        }
        let verdict = match *answer {
            Answer::HandedUp { slot, number, .. } => Some((slot, number, 0)),
            Answer::Duplicate { slot, number, .. } => Some((slot, number, 1)),
            _ => None,
        };
        if verdict.is_some() || matches!(answer, Answer::Refused(3 | 4)) {
            *self.lengths.entry(frame.len()).or_default() += 1;
        }
        if let Some((slot, number, kind)) = verdict {
            self.rooms[kind][size_of(room, needed)] += 1;
            let vlan = type_place(frame) == 16;
            let id = frame.get(14..16).map_or(0, |id| id[0] & 0x0F | id[1]);
            self.vlan_tag += u64::from(vlan && id != 0);
            self.vlan_tag_cut += u64::from(vlan && frame.len() < 18);
            self.redundancy_tag += u64::from(frame[12..14] == [0xF1, 0xC1]);
            let other = Key::of(&table[slot]).in_other_family();
            let lower = with_key(&table[..slot], other).next().is_some();
            self.behind_other += u64::from(lower);
            self.decided(&table[slot], number, kind == 0);
        }
    }

    fn decided(&mut self, s: &Stream, number: u16, up: bool) {
        let last = s.state.anchor;
        let (seen, by) = match (s.state.any, last, number) {
            (1.., _, _) => (&mut self.first, number),
            (_, 0, _) => (&mut self.behind_0, number),
            (_, _, 0) => {
                self.started_again += u64::from(up);
                return;
            }
            _ => (&mut self.steps, (number + RING - last) % RING),
        };
        *seen.entry(by).or_default() += 1;
        self.round_the_end += u64::from(up && number < last);
    }

    /// A link arrival for which no link has the key.
    fn unheard(&mut self, key: Key, table: &[Stream]) {
        let mut others = with_key(table, key.in_other_family());
        self.others_key += u64::from(others.next().is_some());
        let mut links = table.iter().filter(|s| s.is_used() && is_link(s));
        self.other_vlan += u64::from(links.any(|s| s.dest == key.dest));
    }

    /// What another arrival, as [`NOT_LINKS`] has them, makes of its frame.
    fn other_arrival(&mut self, by: usize, frame: &[u8], answer: &Answer, table: &[Stream]) {
        match *answer {
            Answer::Refused(6) => {
                let link = Key::of_tagged(frame).in_other_family();
                let seen = match link.vlan {
                    0 => &mut self.links_key[by],
                    _ => &mut self.links_key_with_vlan[by],
                };
                *seen += u64::from(with_key(table, link).next().is_some());
            }
            Answer::Refused(7) => {
                let found = with_key(table, Key::of_tagged(frame)).next();
                let rule = found.expect("a slot has the key").rule;
                let known = matches!(rule, Stream::VECTOR_RULE | Stream::MATCH_RULE);
                self.no_rule[by] += u64::from(!known);
            }
            Answer::HandedUp { slot, .. } | Answer::Duplicate { slot, .. } => {
                let link = Key::of(&table[slot]).in_other_family();
                let lower = with_key(&table[..slot], link).next().is_some();
                self.behind_link[by] += u64::from(lower);
            }
            _ => {}
        }
    }

    fn open(&mut self, s: &Settings, answer: &Answer, table: &[Stream]) {
        let link = s.rule == Stream::LINK_RULE;
        match *answer {
            Answer::Opened(_) => self.opened += u64::from(link),
            Answer::Refused(9) => {
                let vlan = (1..=Stream::VLAN_MOST).contains(&s.vlan);
                self.opened_with_vlan += u64::from(link && vlan);
            }
            Answer::Refused(10) => {
                let key = Key {
                    dest: nippitsun::dest_of(s.destination),
                    vlan: s.vlan,
                    link,
                };
                let seen = match (link, s.vlan) {
                    (true, _) => &mut self.opened_beside_other,
                    (false, 0) => &mut self.other_opened_beside,
                    (false, _) => &mut self.other_opened_beside_vlan,
                };
                // The other family alone has it.
                *seen += u64::from(with_key(table, key).next().is_none());
            }
            _ => {}
        }
    }

    fn list(&self, list: &mut Vec<(String, u64)>) {
        let mut add = |what: String, n| list.push((what, n));
        for (what, seen, numbers) in [
            ("steps forward in a link", &self.steps, &LINK_STEPS[..]),
            ("behind a 0 in a link", &self.behind_0, &BEHIND_0),
            ("first in a link", &self.first, &LINK_FIRST),
        ] {
            for number in numbers {
                let n = seen.get(number).copied().unwrap_or(0);
                add(format!("{} {}", number, what), n);
            }
        }
        for length in LINK_LENGTHS {
            let n = self.lengths.get(&length).copied().unwrap_or(0);
            add(format!("a link's frame of {} bytes", length), n);
        }
        for (verdict, rooms) in ["handed up", "duplicate"].iter().zip(self.rooms) {
            for (size, n) in SIZES.iter().zip(rooms) {
                add(format!("in a link, {}: output {}", verdict, size), n);
            }
        }
        for n in [2, 3, 4, 14, 6, 7] {
            let what = format!("a link arrival: {} where the output is too small too", n);
            add(what, self.before_room[n]);
        }
        for ((fault, _), met) in LINK_FAULTS.iter().zip(self.faults) {
            for (call, n) in LINK_MET.iter().zip(met) {
                // No frame leads to a link that has a VLAN id.
                if (*fault, *call) != ("a VLAN id", "a link arrival") {
                    add(format!("{} meets a link damaged by {}", call, fault), n);
                }
            }
        }
        for (call, n) in LINK_MET.iter().zip(self.anchor_256) {
            add(format!("{} meets a link with anchor 256", call), n);
        }
        for (place, call) in NOT_LINKS.iter().enumerate() {
            for (what, n) in [
                ("decided, a link with its key is lower", self.behind_link),
                ("6 where a link has its key", self.links_key),
                (
                    "6 where a link with a VLAN id has it",
                    self.links_key_with_vlan,
                ),
                ("7 for a rule that is none", self.no_rule),
            ] {
                add(format!("{}: {}", call, what), n[place]);
            }
        }
        for (what, n) in [
            ("a 0 behind another number", self.started_again),
            ("a lower number handed up", self.round_the_end),
            ("8100 and an id that is not 0", self.vlan_tag),
            ("8100 in fewer than 18 bytes", self.vlan_tag_cut),
            ("F1C1 at 12", self.redundancy_tag),
            ("2 where the frame is too long", self.network_before_length),
            ("4 where the source is a group", self.short_before_group),
            ("14 where no link has the key", self.group_before_stream),
            (
                "decided, another stream with its key is lower",
                self.behind_other,
            ),
            ("6 where another stream has its key", self.others_key),
            (
                "6 where a link with a VLAN id has its destination",
                self.other_vlan,
            ),
        ] {
            add(format!("a link arrival: {}", what), n);
        }
        for (what, n) in [
            ("an open of a link", self.opened),
            (
                "an open of a link refused with a VLAN id",
                self.opened_with_vlan,
            ),
            (
                "10 for a link, another stream alone has the key",
                self.opened_beside_other,
            ),
            (
                "10 for another stream, a link alone has the key",
                self.other_opened_beside,
            ),
            (
                "10 for another stream, a link with a VLAN id alone has the key",
                self.other_opened_beside_vlan,
            ),
            ("a tick that resets a link", self.reset_by_tick),
            ("a reset of a lawful link", self.reset_by_call),
            ("a close of a link", self.closed),
        ] {
            add(String::from(what), n);
        }
    }
}

/// The calls whose answers tell of a VLAN tag, with the refusals that their frames can meet.
const TELLING: [(&str, &[usize]); 2] = [
    ("an arrival", &[1, 2, 3, 4, 5, 14, 6, 7, 8]),
    ("a frame of a batch", &[3, 4, 5, 14, 6, 7, 8]),
];
/// Those of a link arrival, but for 4: such a frame ends before the priority.
const LINK_REFUSALS: [usize; 7] = [1, 2, 3, 14, 6, 7, 8];
/// The four bits above the id of a VLAN tag, and no tag.
const TAGS: usize = 17;

/// What must come up with VLAN tags in the frames of arrivals. It is counted by the frame's bytes, and with a verdict only where
/// the answer tells what they say.
#[derive(Default)]
struct Priorities {
    /// By [`TELLING`], then [`VERDICTS`], then [`TAGS`].
    tags: [[[u64; TAGS]; 3]; 2],
    /// By [`TELLING`], then [`VERDICTS`]: tags with id 0 whose priority is 0, those with another one, and F1C1 at 12 with 8100 and a
    /// priority above 0 behind it.
    id_0_with_0: [[u64; 3]; 2],
    id_0: [[u64; 3]; 2],
    behind_f1c1: [[u64; 3]; 2],
    /// By [`TELLING`], then the refusal, where the priority is above 0.
    refused: [[u64; 15]; 2],
    /// Of link arrivals, where 8100 and a priority above 0 stand at 12: handed up and duplicate, and by refusal.
    links: [u64; 2],
    links_refused: [u64; 15],
    /// In a batch: not reached, with a priority above 0, and a frame with a verdict right behind another one.
    not_reached: u64,
    tag_behind_none: u64,
    none_behind_tag: u64,
    tag_behind_other: u64,
}

/// The four bits above the id of a frame's VLAN tag: the priority, and the bit below it.
fn high_bits(frame: &[u8]) -> Option<u8> {
    match type_place(frame) {
        16 => frame.get(14).map(|byte| byte >> 4),
        _ => None,
    }
}

fn has_priority(frame: &[u8]) -> bool {
    high_bits(frame).map_or(false, |bits| bits > 1)
}

/// What the answer to an arrival has to tell of a VLAN tag with these bits.
fn tag_with(bits: Option<u8>) -> VlanTag {
    bits.map_or(VlanTag::NONE, |bits| VlanTag {
        priority: bits / 2,
        there: 1,
    })
}

impl Priorities {
    /// A call and its answer.
    fn note(&mut self, call: &Call, answer: &Answer) {
        match (call, answer) {
            (&Call::Arrival { frame, .. }, _) => self.arrival(0, frame, answer),
            (&Call::LinkArrival { frame, .. }, _) => self.link(frame, answer),
            (&Call::Batch { count, frames, .. }, Answer::Batch(told)) => {
                let (frames, _) = frames_of(count, frames);
                self.batch(&frames, told);
            }
            _ => {}
        }
    }

    /// The answer to a frame of one of [`TELLING`].
    fn arrival(&mut self, by: usize, frame: &[u8], answer: &Answer) {
        let bits = high_bits(frame);
        let (verdict, vlan) = match *answer {
            Answer::HandedUp { vlan, .. } => (0, vlan),
            Answer::Duplicate { vlan, .. } => (1, vlan),
            Answer::Rogue { vlan, .. } => (2, vlan),
            Answer::Refused(n) => {
                self.refused[by][usize::from(n)] += u64::from(has_priority(frame));
                return;
            }
            _ => return,
        };
        if vlan != tag_with(bits) {
            return;
        }
        self.tags[by][verdict][bits.map_or(TAGS - 1, usize::from)] += 1;
        if bits.is_some() && Key::of_tagged(frame).vlan == 0 {
            let seen = match vlan.priority {
                0 => &mut self.id_0_with_0,
                _ => &mut self.id_0,
            };
            seen[by][verdict] += 1;
        }
        let behind = frame[12..14] == [0xF1, 0xC1] && frame[18..20] == [0x81, 0x00];
        let has = frame.get(20).map_or(false, |byte| byte >> 5 > 0);
        self.behind_f1c1[by][verdict] += u64::from(behind && has);
    }

    fn link(&mut self, frame: &[u8], answer: &Answer) {
        let has = u64::from(has_priority(frame));
        match *answer {
            Answer::HandedUp { vlan, .. } if vlan == VlanTag::NONE => self.links[0] += has,
            Answer::Duplicate { vlan, .. } if vlan == VlanTag::NONE => self.links[1] += has,
            Answer::Refused(n) => self.links_refused[usize::from(n)] += has,
            _ => {}
        }
    }

    fn batch(&mut self, frames: &[&[u8]], told: &BatchAnswer) {
        // Of the frame before, if it has a verdict.
        let mut before: Option<VlanTag> = None;
        for (frame, told) in frames.iter().zip(&told.answers) {
            let answer = match Answer::of_frame(told) {
                Some(answer) => answer,
                None => {
                    self.not_reached += u64::from(has_priority(frame));
                    continue;
                }
            };
            self.arrival(1, frame, &answer);
            let own = tag_with(high_bits(frame));
            let decided = !matches!(answer, Answer::Refused(_));
            if let (Some(before), true) = (before, decided) {
                let changed = u64::from(own != before);
                match (before.there, own.there) {
                    (0, _) => self.tag_behind_none += changed,
                    (_, 0) => self.none_behind_tag += changed,
                    _ => self.tag_behind_other += changed,
                }
            }
            before = decided.then_some(own);
        }
    }

    fn list(&self, list: &mut Vec<(String, u64)>) {
        let mut add = |what: String, n| list.push((what, n));
        for (by, (call, refusals)) in TELLING.iter().enumerate() {
            for (v, verdict) in VERDICTS.iter().enumerate() {
                let what = |tag: &str| format!("{}, {}: {}", call, verdict, tag);
                for (bits, &n) in self.tags[by][v].iter().enumerate() {
                    let tag = match bits {
                        16 => String::from("no VLAN tag"),
                        _ if bits % 2 == 0 => format!("priority {}", bits / 2),
                        _ => format!("priority {} and the bit below it", bits / 2),
                    };
                    add(what(&tag), n);
                }
                add(what("VLAN id 0, priority 0"), self.id_0_with_0[by][v]);
                add(what("VLAN id 0, another priority"), self.id_0[by][v]);
                let behind = self.behind_f1c1[by][v];
                add(what("8100 and a priority behind F1C1"), behind);
            }
            for &n in *refusals {
                let what = format!("{} with a priority refused with {}", call, n);
                add(what, self.refused[by][n]);
            }
        }
        for (verdict, n) in VERDICTS.iter().zip(self.links) {
            let what = format!("8100 and a priority in a link's frame, {}", verdict);
            add(what, n);
        }
        for n in LINK_REFUSALS {
            let what = format!("8100 and a priority in a link's frame refused with {}", n);
            add(what, self.links_refused[n]);
        }
        for (what, n) in [
            (
                "a priority in a frame that is not reached",
                self.not_reached,
            ),
            ("a VLAN tag behind a frame with none", self.tag_behind_none),
            ("no VLAN tag behind a frame with one", self.none_behind_tag),
            ("another priority behind a frame's", self.tag_behind_other),
        ] {
            add(format!("in a batch: {}", what), n);
        }
    }
}

/// What there may be about an index that agrees.
const AGREES: [&str; 13] = [
    "the rebuilt index",
    "another index",
    "an index without an empty place",
    "an index whose places all name slot 0",
    "a higher slot with a key that is not named",
    "a key followed over a name beyond the table",
    "a key followed over the name of a free slot",
    "a key followed over the name of another one",
    "a key followed round the end",
    "one own place of two keys",
    "two keys that differ above the sixth byte alone",
    "a virtual link beside another stream with its key",
    "one of those two followed over the name of the other",
];
/// What may be wrong with an index of 128 places.
const DIFFERS: [&str; 6] = [
    "a key that is not named",
    "a key named behind an empty place alone",
    "a higher slot found before the lowest",
    "zeros",
    "a virtual link alone, beside another stream with its key",
    "another stream alone, beside a virtual link with its key",
];
/// The calls that ask for the agreement, with the refusals that come behind 18.
const ASKING: [(usize, &[usize]); 3] = [(1, &[9, 10, 11]), (2, &[12]), (7, &[2, 15])];

/// What must come up with the index that a call takes.
#[derive(Default)]
struct Indexes {
    /// By the call, then [`AGREES`], where the call is not refused.
    agrees: [[u64; AGREES.len()]; CALLS.len()],
    /// By the call, then [`DIFFERS`], where the answer is 18.
    differs: [[u64; DIFFERS.len()]; CALLS.len()],
    /// By the call, then [`LENGTHS`]: where the answer is 18, and where it is 1.
    lengths: [[u64; 3]; CALLS.len()],
    lengths_behind_1: [[u64; 3]; CALLS.len()],
    /// By the call, then the refusal that would have come behind 18.
    before: [[u64; 19]; CALLS.len()],
    /// By the call, then its refusal, where the index is another than the rebuilt one.
    left: [[u64; 19]; CALLS.len()],
    rebuilt_from_other: u64,
    rebuilt_from_unlike: u64,
    lower_closed: u64,
    lower_closed_unnamed: u64,
}

/// Where following from a key leads, and what it passes.
#[derive(Default)]
struct Followed {
    slot: Option<usize>,
    round: bool,
    beyond: bool,
    free: bool,
    other: bool,
    other_family: bool,
}

fn followed(table: &[Stream], index: &[u8], key: &Stream) -> Followed {
    let mut on = Followed::default();
    let own = own_place(key);
    for place in own..own + INDEX {
        let slot = match index[place % INDEX] {
            EMPTY => return on,
            name => usize::from(name) - 1,
        };
        on.round |= place >= INDEX;
        match table.get(slot) {
            None => on.beyond = true,
            Some(s) if !s.is_used() => on.free = true,
            Some(s) if (s.dest, s.vlan) != (key.dest, key.vlan) => on.other = true,
            Some(s) if is_link(s) != is_link(key) => on.other_family = true,
            Some(_) => {
                on.slot = Some(slot);
                return on;
            }
        }
    }
    on
}

impl Indexes {
    /// A call that takes an index, its answer and what it started from.
    fn note(&mut self, call: &Call, answer: &Answer, given: Areas) {
        let kind = place(call);
        let (table, index) = (given.table, given.index);
        let refusal = match *answer {
            Answer::Refused(n) => n,
            _ => 0,
        };
        if let Some(length) = LENGTHS.iter().position(|&n| n == index.len()) {
            match refusal {
                1 => self.lengths_behind_1[kind][length] += 1,
                _ => self.lengths[kind][length] += 1,
            }
        } else if refusal == 18 {
            self.differs(kind, table, index);
        }
        match refusal {
            1 => {}
            // What the answer would have been.
            18 => {
                let told = Product::new(table).call(*call, [&mut [], &mut []]);
                if let Answer::Refused(n) = told {
                    self.before[kind][usize::from(n)] += 1;
                }
            }
            0 => self.taken(call, table, index),
            n => self.left[kind][usize::from(n)] += u64::from(index != rebuilt(table)),
        }
    }

    /// Of 128 places, and refused with 18.
    fn differs(&mut self, kind: usize, table: &[Stream], index: &[u8]) {
        let seen = &mut self.differs[kind];
        seen[3] += u64::from(index.iter().all(|&place| place == EMPTY));
        let found = |slot: usize| followed(table, index, &table[slot]).slot;
        let (right, wrong): (Vec<usize>, Vec<usize>) = lowest(table)
            .into_iter()
            .partition(|&slot| found(slot) == Some(slot));
        if let Some(&slot) = wrong.first() {
            match found(slot) {
                Some(_) => seen[2] += 1,
                None => seen[usize::from(index.contains(&name(slot)))] += 1,
            }
        }
        if let [slot] = wrong[..] {
            let other = Key::of(&table[slot]).in_other_family();
            let beside = right.iter().any(|&slot| Key::of(&table[slot]) == other);
            seen[if other.link { 5 } else { 4 }] += u64::from(beside);
        }
    }

    /// Not refused.
    fn taken(&mut self, call: &Call, table: &[Stream], index: &[u8]) {
        let own = index == rebuilt(table);
        let lowest = lowest(table);
        if let Call::Rebuild = call {
            let finds = |&slot: &usize| followed(table, index, &table[slot]).slot == Some(slot);
            let agrees = lowest.iter().all(finds);
            self.rebuilt_from_other += u64::from(agrees && !own);
            self.rebuilt_from_unlike += u64::from(!agrees);
            return;
        }
        // A slot in use behind another one with its key.
        let is_higher = |slot: &usize| table[*slot].is_used() && !lowest.contains(slot);
        let is_named = |slot: &usize| index.contains(&name(*slot));
        if let Call::Close(closed) = *call {
            let key = |slot: usize| Key::of(&table[slot]);
            let behind = (closed + 1..table.len()).filter(|&slot| key(slot) == key(closed));
            let mut higher = behind.filter(is_higher);
            if let (true, Some(next)) = (lowest.contains(&closed), higher.next()) {
                self.lower_closed += 1;
                self.lower_closed_unnamed += u64::from(!is_named(&next));
            }
        }
        let mut passed = Followed::default();
        let mut places = [None; INDEX];
        let (mut one_place, mut above, mut both) = (false, false, false);
        for &slot in &lowest {
            let s = &table[slot];
            let on = followed(table, index, s);
            passed.beyond |= on.beyond;
            passed.free |= on.free;
            passed.other |= on.other;
            passed.round |= on.round;
            passed.other_family |= on.other_family;
            let key = (s.dest, s.vlan);
            one_place |= places[own_place(s)].map_or(false, |other| other != key);
            places[own_place(s)] = Some(key);
            let is_like = |&n: &usize| {
                let (dest, vlan) = (table[n].dest, table[n].vlan);
                dest != s.dest && vlan == s.vlan && (dest ^ s.dest) << 16 == 0
            };
            above |= s.dest >> 48 != 0 && lowest.iter().any(is_like);
            let other = Key::of(s).in_other_family();
            both |= with_key(table, other).next().is_some();
        }
        let seen = [
            own,
            !own,
            !index.contains(&EMPTY),
            index.iter().all(|&place| place == name(0)) && !lowest.is_empty(),
            // The rebuilt one names every slot in use.
            !own && (0..table.len()).any(|slot| is_higher(&slot) && !is_named(&slot)),
            passed.beyond,
            passed.free,
            passed.other,
            passed.round,
            one_place,
            above,
            both,
            passed.other_family,
        ];
        for (n, seen) in self.agrees[place(call)].iter_mut().zip(seen) {
            *n += u64::from(seen);
        }
    }

    fn list(&self, list: &mut Vec<(String, u64)>) {
        for (kind, behind) in ASKING {
            let mut add = |what: String, n| list.push((format!("{}: {}", CALLS[kind], what), n));
            for (what, n) in AGREES.iter().zip(self.agrees[kind]) {
                add(String::from(*what), n);
            }
            for (what, n) in DIFFERS.iter().zip(self.differs[kind]) {
                add(format!("18 for {}", what), n);
            }
            for &n in behind {
                add(format!("18 before {}", n), self.before[kind][n]);
                let what = format!("{} leaves an index that is not the rebuilt one", n);
                add(what, self.left[kind][n]);
            }
        }
        for kind in [1, 2, 7, 12] {
            for (place, length) in LENGTHS.iter().enumerate() {
                for (n, seen) in [(18, self.lengths), (1, self.lengths_behind_1)] {
                    let what = format!("{}: {} with {} places", CALLS[kind], n, length);
                    list.push((what, seen[kind][place]));
                }
            }
        }
        for (what, n) in [
            ("a rebuild of an index that agrees", self.rebuilt_from_other),
            ("a rebuild of one that does not", self.rebuilt_from_unlike),
            ("the lower of two slots closed", self.lower_closed),
            (
                "the lower of two slots closed, and the higher was not named",
                self.lower_closed_unnamed,
            ),
        ] {
            list.push((String::from(what), n));
        }
    }
}

/// How often each thing came up.
struct Seen {
    calls: [u64; CALLS.len()],
    refused: [[u64; 19]; CALLS.len()],
    /// By rule, then handed up, duplicate, rogue.
    verdicts: [[u64; 3]; 3],
    /// By window and difference, in vector streams without take-any.
    differences: BTreeMap<(u16, i32), u64>,
    take_any: u64,
    reserved: u64,
    wrapped: [u64; 8],
    shared_key: u64,
    shared_key_damaged: u64,
    ticked_reset: u64,
    ticked_damaged: u64,
    mended: u64,
    groups: [u64; 5],
    slots: [u64; 66],
    batches: Batches,
    sends: Sends,
    prp: Prp,
    early: Early,
    histories: Histories,
    links: Links,
    priorities: Priorities,
    indexes: Indexes,
}

/// The frames of a batch, as far as they stand whole in its input, and what stands behind them.
fn frames_of(count: usize, mut input: &[u8]) -> (Vec<&[u8]>, &[u8]) {
    let mut frames = Vec::new();
    while let (true, [high, low, behind @ ..]) = (frames.len() < count, input) {
        let length = usize::from(u16::from_be_bytes([*high, *low]));
        if length > behind.len() {
            break;
        }
        frames.push(&behind[..length]);
        input = &behind[length..];
    }
    (frames, input)
}

/// The call's frame, if it has one, comes from a group.
fn from_group(call: &Call) -> bool {
    match call {
        Call::Arrival { frame, .. }
        | Call::LinkArrival { frame, .. }
        | Call::TakeTag { frame }
        | Call::WriteTag { frame, .. }
        | Call::Send { frame } => frame.get(6).map_or(false, |first| first & 1 == 1),
        _ => false,
    }
}

fn place(call: &Call) -> usize {
    match call {
        Call::Arrival { .. } => 0,
        Call::Open(_) => 1,
        Call::Close(_) => 2,
        Call::Reset(_) => 3,
        Call::Tick => 4,
        Call::TakeTag { .. } => 5,
        Call::WriteTag { .. } => 6,
        Call::Batch { .. } => 7,
        Call::Send { .. } => 8,
        Call::ResetSender => 9,
        Call::FromPrp { .. } => 10,
        Call::ToPrp { .. } => 11,
        Call::Rebuild => 12,
        Call::LinkArrival { .. } => 13,
    }
}

impl Batches {
    /// A batch that was not refused.
    fn note(
        &mut self,
        told: &BatchAnswer,
        network: u8,
        count: usize,
        input: &[u8],
        after: &[Stream],
        room: usize,
    ) {
        let (frames, behind) = frames_of(count, input);
        *self.counts.entry(count).or_default() += 1;
        self.trailing += u64::from(!behind.is_empty());
        if let Some(n) = SMALL_ROOMS.iter().position(|&small| small == room) {
            self.small_rooms[n] += u64::from(count > 0);
        }
        let mut left = room;
        for (place, frame) in frames.into_iter().enumerate() {
            let last = place + 1 == count;
            match Answer::of_frame(&told.answers[place]) {
                Some(Answer::HandedUp { length, .. }) => {
                    self.up += 1;
                    left -= length + 2;
                }
                Some(Answer::Duplicate { .. }) => self.duplicate += 1,
                Some(Answer::Rogue { .. }) => self.rogue += 1,
                Some(Answer::Refused(n)) => {
                    self.frames_refused[usize::from(n)] += 1;
                    if n == 8 {
                        self.no_room_first += u64::from(place == 0);
                        self.no_room_last += u64::from(last);
                        self.no_room_one_left += u64::from(left == 1);
                        self.note_no_room(network, frame, after);
                    } else {
                        self.goes_on_without_room += u64::from(left < 2 && !last);
                    }
                }
                _ => {}
            }
        }
        self.filled += u64::from(left == 0 && room > 0);
    }

    /// A frame that was answered 8. That changed nothing, so it can be tried again with enough room.
    fn note_no_room(&mut self, network: u8, frame: &[u8], after: &[Stream]) {
        let mut out = [0; Stream::FRAME_MOST];
        match Product::new(after).call(Call::Arrival { network, frame }, [&mut out, &mut []]) {
            Answer::HandedUp { .. } => self.no_room_up += 1,
            Answer::Duplicate { .. } => self.no_room_duplicate += 1,
            Answer::Rogue { .. } => self.no_room_rogue += 1,
            _ => {}
        }
    }

    fn note_refused(&mut self, refusal: u8, count: usize, input: &[u8]) {
        let too_high = count > FRAMES_MOST;
        if refusal == 2 {
            self.network_before_count += u64::from(too_high);
        }
        if refusal == 15 {
            let (_, behind) = frames_of(count, input);
            let which = if too_high {
                &mut self.count_too_high
            } else if behind.len() < 2 {
                &mut self.length_cut
            } else {
                &mut self.frame_cut
            };
            *which += 1;
        }
    }

    fn list(&self, list: &mut Vec<(String, u64)>) {
        for count in 0..=FRAMES_MOST {
            let n = self.counts.get(&count).copied().unwrap_or(0);
            list.push((format!("a batch of {} frames", count), n));
        }
        for (room, n) in SMALL_ROOMS.iter().zip(self.small_rooms) {
            list.push((format!("a batch with an output of {}", room), n));
        }
        for n in [3, 4, 5, 14, 6, 7, 8] {
            let refused = self.frames_refused[n];
            list.push((format!("a frame of a batch refused with {}", n), refused));
        }
        for (what, n) in [
            ("a frame handed up", self.up),
            ("a duplicate", self.duplicate),
            ("a rogue", self.rogue),
            ("8 for a frame to be handed up", self.no_room_up),
            ("8 for a duplicate", self.no_room_duplicate),
            ("8 for a rogue", self.no_room_rogue),
            ("8 for the first frame", self.no_room_first),
            ("8 for the last frame", self.no_room_last),
            ("8 where one byte is left", self.no_room_one_left),
            ("an output filled to its end", self.filled),
            ("no room, and it goes on", self.goes_on_without_room),
            ("input behind the last frame", self.trailing),
            ("15 for a count above 32", self.count_too_high),
            ("15 for cut length bytes", self.length_cut),
            ("15 for a cut frame", self.frame_cut),
            ("2 where the count is above 32", self.network_before_count),
        ] {
            list.push((format!("in a batch: {}", what), n));
        }
    }
}

/// Is this record in use and damaged?
fn is_damaged(s: Stream) -> bool {
    archive::tick(&mut [s]).damaged == 1
}

/// Which of [`EARLY_FAULTS`] a record has that is damaged by its n alone, and no virtual link.
fn early_fault(s: &Stream) -> Option<usize> {
    let early = s.state.early;
    let mut other = *s;
    other.state.early = 0;
    if early == 0 || is_link(s) || !is_damaged(*s) || is_damaged(other) {
        return None;
    }
    Some(match (s.state.any, s.rule) {
        (1.., _) => 5,
        (0, Stream::MATCH_RULE) => 4,
        _ if early == s.window => 0,
        _ if early == 65535 => 2,
        _ if early > s.window => 1,
        _ => 3,
    })
}

impl Early {
    /// A call on a table that gave an answer other than a refusal.
    fn note(&mut self, call: &Call, answer: &Answer, before: &[Stream], after: &[Stream]) {
        match (call, answer) {
            (_, &Answer::HandedUp { slot, number, .. }) => {
                self.handed_up(number, &before[slot], &after[slot])
            }
            (_, &Answer::Duplicate { slot, number, .. }) => {
                self.duplicate_older += u64::from(is_older(number, &before[slot]));
                self.verdict(&before[slot]);
            }
            (_, &Answer::Rogue { slot, .. }) => self.verdict(&before[slot]),
            (Call::Tick, Answer::Ticked { .. }) => {
                for (b, a) in before.iter().zip(after).filter(|(b, _)| b.state.early > 0) {
                    self.met(1, b);
                    self.free_in_a_tick += u64::from(!b.is_used());
                    self.reset_by_tick += u64::from(a.counts != b.counts);
                }
            }
            (&Call::Reset(slot), Answer::Done) => {
                let b = &before[slot];
                self.met(2, b);
                self.reset_by_call += u64::from(b.state.early > 0 && !is_damaged(*b));
            }
            (&Call::Close(slot), Answer::Done) => self.met(3, &before[slot]),
            (_, &Answer::Opened(slot)) => {
                self.opened_over += u64::from(before[slot].state.early > 0)
            }
            _ => {}
        }
    }

    /// A record that one of [`EARLY_MET`] has met.
    fn met(&mut self, by: usize, s: &Stream) {
        if let Some(fault) = early_fault(s) {
            self.faults[fault][by] += 1;
        }
    }

    fn verdict(&mut self, s: &Stream) {
        if s.state.any == 0 && s.rule == Stream::VECTOR_RULE {
            let n = (s.window, s.state.early);
            *self.verdicts.entry(n).or_default() += 1;
        }
    }

    fn handed_up(&mut self, number: u16, b: &Stream, a: &Stream) {
        self.verdict(b);
        if b.state.any != 0 {
            self.first_vector += u64::from(b.rule == Stream::VECTOR_RULE);
            self.first_match += u64::from(b.rule == Stream::MATCH_RULE);
        }
        let early = b.state.early;
        if early == 0 {
            return;
        }
        let first = b.window - 1 - early;
        self.across_the_wrap += u64::from(first > a.state.anchor);
        let moved = a.state.anchor.wrapping_sub(b.state.anchor);
        if moved == 0 {
            let older = is_older(number, b);
            self.late_older += u64::from(older);
            self.late_after_first += u64::from(!older);
            return;
        }
        self.move_leaves_some += u64::from(early > moved);
        self.move_leaves_none += u64::from(early == moved);
        self.move_ends_inside += u64::from(early < moved);
        self.loss_behind_the_first += u64::from(a.counts.lost != b.counts.lost);
        // Of the places that leave, those older than the first.
        let leave = early.min(moved);
        let left = marks(&b.state.history, b.window - leave..b.window);
        self.older_number_leaves += u64::from(left != 0);
        self.older_zero_leaves += u64::from(left < leave.into());
    }

    fn list(&self, list: &mut Vec<(String, u64)>) {
        for window in WINDOWS {
            for n in 0..window {
                let seen = self.verdicts.get(&(window, n)).copied().unwrap_or(0);
                list.push((format!("a verdict with n = {} at L = {}", n, window), seen));
            }
        }
        // With the first number at an end of a word, and with all places left.
        for window in WIDE {
            let ends = (64..window).step_by(64).flat_map(|end| [end - 1, end]);
            for first in ends.chain([0]) {
                let n = window - 1 - first;
                let seen = self.verdicts.get(&(window, n)).copied().unwrap_or(0);
                list.push((format!("a verdict with n = {} at L = {}", n, window), seen));
            }
        }
        for (fault, met) in EARLY_FAULTS.iter().zip(self.faults) {
            for (call, n) in EARLY_MET.iter().zip(met) {
                list.push((format!("{} meets {}", call, fault), n));
            }
        }
        for (rule, n) in [("vector", self.first_vector), ("match", self.first_match)] {
            list.push((format!("take-any ends under the {} rule", rule), n));
        }
        for (what, n) in [
            ("a move by fewer places", self.move_leaves_some),
            ("a move by just so many places", self.move_leaves_none),
            ("a move by more places", self.move_ends_inside),
            ("a move by more that loses", self.loss_behind_the_first),
            ("an older place leaves clear", self.older_zero_leaves),
            ("an older place leaves marked", self.older_number_leaves),
            ("a late number before the first", self.late_older),
            ("a late number behind the first", self.late_after_first),
            ("a duplicate before the first", self.duplicate_older),
            ("the wrap since the first", self.across_the_wrap),
            ("a tick resets", self.reset_by_tick),
            ("a reset of a lawful record", self.reset_by_call),
            ("a tick passes a free record", self.free_in_a_tick),
            ("an open over a free record", self.opened_over),
        ] {
            list.push((format!("with n above 0: {}", what), n));
        }
    }
}

/// Is the number older than the first one, which still stands in the window?
fn is_older(number: u16, s: &Stream) -> bool {
    let place = s.state.anchor.wrapping_sub(number);
    s.state.early > 0 && place > s.window - 1 - s.state.early
}

impl Seen {
    fn new() -> Seen {
        Seen {
            calls: [0; CALLS.len()],
            refused: [[0; 19]; CALLS.len()],
            verdicts: [[0; 3]; 3],
            differences: BTreeMap::new(),
            take_any: 0,
            reserved: 0,
            wrapped: [0; 8],
            shared_key: 0,
            shared_key_damaged: 0,
            ticked_reset: 0,
            ticked_damaged: 0,
            mended: 0,
            groups: [0; 5],
            slots: [0; 66],
            batches: Batches::default(),
            sends: Sends::default(),
            prp: Prp::default(),
            early: Early::default(),
            histories: Histories::default(),
            links: Links::default(),
            priorities: Priorities::default(),
            indexes: Indexes::default(),
        }
    }

    /// A call, its answer, what it started from and what it left.
    fn note(&mut self, call: &Call, answer: &Answer, given: Areas, left: Areas) {
        let kind = place(call);
        self.sends.note(call, answer, given);
        self.prp.note(call, answer, given);
        if call.takes_index() {
            self.indexes.note(call, answer, given);
        }
        let (before, after, room) = (given.table, left.table, given.outs[0].len());
        self.early.note(call, answer, before, after);
        self.histories.note(call, answer, before, after);
        self.links.note(call, answer, given, left);
        self.priorities.note(call, answer);
        self.calls[kind] += 1;
        self.slots[before.len()] += 1;
        if let Call::Batch {
            network,
            count,
            frames,
        } = *call
        {
            match answer {
                Answer::Batch(told) => self.batches.note(told, network, count, frames, after, room),
                Answer::Refused(n) => self.batches.note_refused(*n, count, frames),
                _ => {}
            }
        }
        match *answer {
            Answer::Refused(n) => {
                self.refused[kind][usize::from(n)] += 1;
                if let (Call::Arrival { frame, .. }, 7 | 14) = (call, n) {
                    let mut slots = with_key(before, Key::of_tagged(frame));
                    self.groups[3] += u64::from(n == 14 && slots.clone().next().is_none());
                    if let (7, Some(damaged)) = (n, slots.next()) {
                        self.early.met(0, damaged);
                        self.histories.met(0, damaged);
                        self.shared_key_damaged += u64::from(slots.next().is_some());
                    }
                }
            }
            Answer::HandedUp { slot, number, .. } => {
                self.arrived(call, 0, number, &before[slot], before)
            }
            Answer::Duplicate { slot, number, .. } => {
                self.arrived(call, 1, number, &before[slot], before)
            }
            Answer::Rogue { slot, number, .. } => {
                self.arrived(call, 2, number, &before[slot], before)
            }
            Answer::Ticked { resets, damaged } => {
                self.ticked_reset += u64::from(resets > 0);
                self.ticked_damaged += u64::from(damaged > 0);
            }
            Answer::Done => {
                if let Call::Reset(slot) = *call {
                    // Damaged for certain: with take-any nothing remains.
                    let s = before[slot].state;
                    self.mended += u64::from(s.any != 0 && s.remaining != 0);
                }
            }
            Answer::Opened(_)
            | Answer::Tag { .. }
            | Answer::Batch(_)
            | Answer::Prp(_)
            | Answer::Strange(_) => {}
        }
        if from_group(call) {
            self.groups[0] += u64::from((kind, answer) == (0, &Answer::Refused(5)));
            self.groups[1] += u64::from((kind, answer) == (6, &Answer::Refused(13)));
            self.groups[2] += u64::from(kind == 5 && matches!(answer, Answer::Tag { .. }));
            self.groups[4] += u64::from((kind, answer) == (8, &Answer::Refused(13)));
        }
        // A counter that falls has wrapped, but where an open wrote zeros. A refused call has changed none.
        if !matches!(call, Call::Open(_)) && !matches!(answer, Answer::Refused(_)) {
            for (b, a) in before.iter().zip(after) {
                if b.counts != a.counts {
                    for (n, (b, a)) in b.counts.all().iter().zip(a.counts.all()).enumerate() {
                        self.wrapped[n] += u64::from(a < *b);
                    }
                }
            }
        }
    }

    fn arrived(&mut self, call: &Call, verdict: usize, number: u16, s: &Stream, table: &[Stream]) {
        self.verdicts[usize::from(s.rule) - 1][verdict] += 1;
        self.shared_key += u64::from(with_key(table, Key::of(s)).count() > 1);
        if let Call::Arrival { frame, .. } = call {
            let at = type_place(frame);
            self.reserved += u64::from(frame[at + 2..at + 4] != [0, 0]);
        }
        if s.state.any != 0 {
            self.take_any += 1;
        } else if s.rule == Stream::VECTOR_RULE {
            let d = i32::from(number.wrapping_sub(s.state.anchor) as i16);
            if counted(s.window, d) {
                *self.differences.entry((s.window, d)).or_default() += 1;
            }
        }
    }

    /// Everything that must come up, with how often it did.
    fn list(&self) -> Vec<(String, u64)> {
        let mut list = Vec::new();
        for (kind, name) in CALLS.iter().enumerate() {
            for &n in REFUSALS[kind] {
                list.push((
                    format!("{} refused with {}", name, n),
                    self.refused[kind][usize::from(n)],
                ));
            }
        }
        for (rule, name) in ["vector", "match", "link"].iter().enumerate() {
            for (v, verdict) in VERDICTS.iter().enumerate() {
                // The vector rule alone has a rogue.
                if rule == 0 || v < 2 {
                    list.push((
                        format!("{} under the {} rule", verdict, name),
                        self.verdicts[rule][v],
                    ));
                }
            }
        }
        for window in WINDOWS.into_iter().chain(WIDE) {
            let ends = i32::from(window) + 1;
            for d in (-ends..=ends).filter(|&d| counted(window, d)) {
                let n = self.differences.get(&(window, d)).copied().unwrap_or(0);
                list.push((format!("d = {} at L = {}", d, window), n));
            }
        }
        for (n, name) in COUNTERS.iter().enumerate() {
            list.push((format!("{} wraps", name), self.wrapped[n]));
        }
        for (n, name) in GROUPS.iter().enumerate() {
            list.push((format!("{}, from a group", name), self.groups[n]));
        }
        self.batches.list(&mut list);
        self.sends.list(&mut list);
        self.prp.list(&mut list);
        self.early.list(&mut list);
        self.histories.list(&mut list);
        self.links.list(&mut list);
        self.priorities.list(&mut list);
        self.indexes.list(&mut list);
        for slots in [0, 1, 63, 64, 65] {
            list.push((format!("calls on {} slots", slots), self.slots[slots]));
        }
        list.push((String::from("take-any handed up"), self.take_any));
        list.push((
            String::from("nonzero reserved bytes in an arrival with a verdict"),
            self.reserved,
        ));
        list.push((
            String::from("a verdict where two slots have the key"),
            self.shared_key,
        ));
        list.push((
            String::from("the lower of two slots with the key is damaged"),
            self.shared_key_damaged,
        ));
        list.push((String::from("a tick that resets"), self.ticked_reset));
        list.push((
            String::from("a tick that meets damage"),
            self.ticked_damaged,
        ));
        list.push((String::from("a reset that mends"), self.mended));
        list
    }
}

/// Is this difference one of those that must come up?
fn counted(window: u16, d: i32) -> bool {
    let (ends, far) = (i32::from(window) + 1, d.abs());
    far <= ends
        && (WINDOWS.contains(&window)
            || WIDE.contains(&window) && (far <= 1 || far >= ends - 2 || (far + 1) % 64 <= 2))
}

/// What an arrival looks for: a key among the virtual links, or among the rest.
#[derive(Clone, Copy, PartialEq, Eq)]
struct Key {
    dest: u64,
    vlan: u16,
    link: bool,
}

impl Key {
    fn of(s: &Stream) -> Key {
        Key {
            dest: s.dest,
            vlan: s.vlan,
            link: is_link(s),
        }
    }

    fn in_other_family(self) -> Key {
        Key {
            link: !self.link,
            ..self
        }
    }

    /// Of a virtual link's frame that is not short.
    fn of_link(frame: &[u8]) -> Key {
        let six = [frame[0], frame[1], frame[2], frame[3], frame[4], frame[5]];
        Key {
            dest: nippitsun::dest_of(six),
            vlan: 0,
            link: true,
        }
    }

    /// Of another frame that is not short.
    fn of_tagged(frame: &[u8]) -> Key {
        let vlan = match type_place(frame) {
            16 => u16::from_be_bytes([frame[14], frame[15]]) & 0x0FFF,
            _ => 0,
        };
        Key {
            vlan,
            link: false,
            ..Key::of_link(frame)
        }
    }
}

/// Slots in use with this key.
fn with_key(table: &[Stream], key: Key) -> impl Iterator<Item = &Stream> + Clone {
    table
        .iter()
        .filter(move |s| s.is_used() && Key::of(s) == key)
}

// ---- the run

/// Makes the call on one side.
fn made(side: &mut impl Side, call: Call, [out, second_out]: &mut [Vec<u8>; 2]) -> Answer {
    side.call(call, [out, second_out])
}

/// A send with outputs of these sizes: its answer, the next number then, and the outputs.
fn sent(side: &mut impl Side, frame: &[u8], rooms: [usize; 2]) -> (Answer, u16, [Vec<u8>; 2]) {
    let mut outs = rooms.map(|room| vec![0; room]);
    let answer = made(side, Call::Send { frame }, &mut outs);
    (answer, side.next(), outs)
}

/// Sends in a row, from senders at first, and now and then one without room. Each frame's number is its index modulo 65536.
fn send_in_a_row() -> Result<(), String> {
    let (mut product, mut second) = (Product::new(&[]), Second::new(&[]));
    let mut frame = [2, 0, 0, 0, 0, 1, 2, 0, 0, 0, 0, 2, 8, 0, 0, 0, 0, 0];
    let length = frame.len() + 6;
    for index in 0..IN_A_ROW {
        frame[14..].copy_from_slice(&index.to_be_bytes());
        let number = index as u16;
        let mut wanted = Vec::new();
        // At 65535 too.
        if index % 1000 == 535 {
            wanted.push((Answer::Refused(8), [length, length - 1]));
        }
        wanted.push((Answer::Tag { number, length }, [length, length + 1]));
        for (answer, rooms) in wanted {
            let a = sent(&mut product, &frame, rooms);
            let b = sent(&mut second, &frame, rooms);
            if a != b || a.0 != answer {
                let what = format!("DIFFERENT at send {} in a row: {:?}", index, answer);
                return Err(format!("{}\nproduct {:x?}\nsecond {:x?}", what, a, b));
            }
        }
    }
    println!(
        "{} sends in a row: each number is the index modulo 65536",
        IN_A_ROW
    );
    Ok(())
}

/// Both programs with the same table.
struct Sides(Product, Second);

impl Sides {
    fn new(table: &[Stream]) -> Sides {
        Sides(Product::new(table), Second::new(table))
    }

    /// Makes a call on both, with an output that is long enough for it. Answers, records and outputs must be equal.
    fn call(&mut self, call: Call) -> Result<Answer, String> {
        let Sides(product, second) = self;
        let (mut a, mut b) = ([vec![0; 100], Vec::new()], [vec![0; 100], Vec::new()]);
        let told = made(product, call, &mut a);
        let other = made(second, call, &mut b);
        let mut slots = 0..product.records().len();
        let same = slots.all(|slot| product.record(slot) == second.record(slot));
        if told != other || a != b || !same {
            return Err(format!(
                "DIFFERENT: {:x?}: product {:?}, second {:?}, or what they leave",
                call, told, other
            ));
        }
        Ok(told)
    }
}

/// A virtual link that had this number last, or a fresh one.
fn link_behind(last: Option<u8>) -> Stream {
    Stream {
        dest: nippitsun::dest_of(DESTINATIONS[0]),
        window: 2,
        time: 3,
        rule: Stream::LINK_RULE,
        used: 1,
        state: State {
            anchor: last.map_or(65535, u16::from),
            remaining: if last.is_some() { 2 } else { 0 },
            any: u16::from(last.is_none()),
            ..State::default()
        },
        ..Stream::default()
    }
}

/// Every number of a virtual link behind every other, and in a fresh one, which hands up any. Behind another those are that
/// a sender comes to in 1 to 127 steps, and the 0 that it starts with again.
fn link_numbers() -> Result<(), String> {
    let next = |number: &u8| Some(number.checked_add(1).unwrap_or(1));
    let mut up = 0;
    for last in (0..=255).map(Some).chain([None]) {
        let steps = std::iter::successors(last, next).skip(1).take(STEPS);
        let mut ahead: Vec<u8> = steps.collect();
        match last {
            None => ahead.extend(0..=255),
            Some(0) => {}
            Some(_) => ahead.push(0),
        }
        up += ahead.len();
        for number in 0..=255 {
            let wanted = if ahead.contains(&number) {
                Answer::HandedUp {
                    slot: 0,
                    number: number.into(),
                    length: 14,
                    vlan: VlanTag::NONE,
                }
            } else {
                Answer::Duplicate {
                    slot: 0,
                    number: number.into(),
                    vlan: VlanTag::NONE,
                }
            };
            // Where 8100 stands at 12, the number stands where a priority would.
            for of_type in [[0x08, 0x00], [0x81, 0x00]] {
                let frame = [&DESTINATIONS[0][..], &[2; 6], &of_type, &[number]].concat();
                let call = Call::LinkArrival {
                    network: number % 2,
                    frame: &frame,
                };
                let mut sides = Sides::new(&[link_behind(last)]);
                let told = sides.call(call)?;
                if told != wanted {
                    let what = format!("DIFFERENT: {} behind {:?} in a link", number, last);
                    return Err(format!("{}: {:?}, not {:?}", what, told, wanted));
                }
            }
        }
    }
    println!(
        "every number of a virtual link behind every other and first: {} of {} handed up",
        up,
        257 * 256
    );
    Ok(())
}

/// Any 16 bits behind 8100 at 12, and behind 8100 behind F1C1 at 12, where they are no VLAN tag: in single arrivals and a batch
/// with each verdict, and in a virtual link, where they are none either. Each answer is the one that the bits ask for.
fn vlan_tags() -> Result<(), String> {
    let (to, mark, of_type) = (&DESTINATIONS[0][..], [0xF1, 0xC1, 0, 0, 0], [0x08, 0x00]);
    for bits in 0..=u16::MAX {
        let [high, low] = bits.to_be_bytes();
        let tag = [0x81, 0x00, high, low];
        let told_of = VlanTag {
            priority: high / 32,
            there: 1,
        };
        for (id, before, behind, vlan) in [
            (bits % 4096, &tag[..], &of_type[..], told_of),
            (0, &[], &[&tag[..], &of_type].concat(), VlanTag::NONE),
        ] {
            // Its last byte is the number of a virtual link.
            let frame = |number: u8| [to, &[2; 6], before, &mark, &[number], behind].concat();
            let (slot, length) = (0, frame(0).len() - 6);
            let mut wanted = [(7, 0), (7, 1), (9, 2)].map(|(n, verdict)| {
                let number = n.into();
                let answer = match verdict {
                    0 => Answer::HandedUp {
                        slot,
                        number,
                        length,
                        vlan,
                    },
                    1 => Answer::Duplicate { slot, number, vlan },
                    _ => Answer::Rogue { slot, number, vlan },
                };
                (frame(n), answer)
            });
            // No stream may have this id.
            if id > Stream::VLAN_MOST {
                wanted = wanted.map(|(frame, _)| (frame, Answer::Refused(7)));
            }
            let table = [
                Stream {
                    vlan: id,
                    rule: Stream::VECTOR_RULE,
                    ..link_behind(None)
                },
                link_behind(None),
            ];
            let mut sides = Sides::new(&table);
            let mut told = Vec::new();
            for (frame, _) in &wanted {
                told.push(Some(sides.call(Call::Arrival { network: 0, frame })?));
            }
            let mut frames = Vec::new();
            for (frame, _) in &wanted {
                frames.extend_from_slice(&(frame.len() as u16).to_be_bytes());
                frames.extend_from_slice(frame);
            }
            let batch = Call::Batch {
                network: 1,
                count: wanted.len(),
                frames: &frames,
            };
            if let Answer::Batch(answers) = Sides::new(&table).call(batch)? {
                told.extend(answers.answers.iter().map(Answer::of_frame));
            }
            let wanted = wanted.map(|(_, answer)| Some(answer));
            let (single, batch) = told.split_at(wanted.len());
            let (reached, rest) = batch.split_at(batch.len().min(wanted.len()));
            if single != wanted || reached != wanted || rest.iter().any(Option::is_some) {
                let what = format!("DIFFERENT: {:04x}: {:?}, not {:?}", bits, told, wanted);
                return Err(what);
            }
            let (number, vlan) = (0, VlanTag::NONE);
            let in_link = [
                Answer::HandedUp {
                    slot: 1,
                    number,
                    length: length + 5,
                    vlan,
                },
                Answer::Duplicate {
                    slot: 1,
                    number,
                    vlan,
                },
            ];
            for wanted in in_link {
                let frame = &frame(7);
                let told = sides.call(Call::LinkArrival { network: 0, frame })?;
                if told != wanted {
                    let what = format!("DIFFERENT: {:04x} in a link", bits);
                    return Err(format!("{}: {:?}, not {:?}", what, told, wanted));
                }
            }
        }
    }
    println!("any 16 bits behind 8100: priority and VLAN tag of single arrivals, batches and links are what they ask for");
    Ok(())
}

/// What a turn answers on both sides, and the frame that it gives; none, where it is refused.
fn turned(call: Call) -> Result<Option<(PrpAnswer, Vec<u8>)>, String> {
    let mut outs = [0; 2].map(|_| vec![0; Stream::FRAME_MOST]);
    let [a, b] = &mut outs;
    let told = Product::new(&[]).call(call, [a, &mut []]);
    let other = Second::new(&[]).call(call, [b, &mut []]);
    if told != other || a != b {
        return Err(format!(
            "DIFFERENT: {:x?}: {:?} and {:?}",
            call, told, other
        ));
    }
    Ok(match told {
        Answer::Prp(told) => Some((told, a[..told.length].to_vec())),
        _ => None,
    })
}

/// Turns a PRP frame into a tagged one and back: it must come back as it was. Was it taken?
fn from_prp_and_back(frame: &[u8], kind: u8) -> Result<bool, String> {
    let (there, tagged) = match turned(Call::FromPrp { frame, kind })? {
        Some(there) => there,
        None => return Ok(false),
    };
    let back = turned(Call::ToPrp {
        frame: &tagged,
        network: there.network,
        kind,
    })?;
    let told = PrpAnswer {
        length: frame.len(),
        ..there
    };
    if back != Some((told, frame.to_vec())) {
        return Err(format!("NOT BACK, kind {}: {:x?}", kind, frame));
    }
    Ok(true)
}

/// What becomes of a tagged frame that is turned into a PRP frame and back.
const BACK: [&str; 3] = [
    "the same but for its reserved bytes",
    "its tag four bytes later, behind the 8100 that stood behind it",
    "refused, since F1C1 stood behind the tag",
];

/// Turns a tagged frame into a PRP frame and back. Which of [`BACK`] came of it, where it was taken?
fn to_prp_and_back(frame: &[u8], network: u8, kind: u8) -> Result<Option<usize>, String> {
    let (there, prp) = match turned(Call::ToPrp {
        frame,
        network,
        kind,
    })? {
        Some(there) => there,
        None => return Ok(None),
    };
    let (was, is) = (type_place(frame), type_place(&prp));
    let mut wanted = frame.to_vec();
    let what = if prp[is..].starts_with(&[0xF1, 0xC1]) {
        2
    } else if is != was {
        wanted.copy_within(18..22, 12);
        wanted[16..20].copy_from_slice(&[0xF1, 0xC1, 0, 0]);
        wanted[20..22].copy_from_slice(&there.number.to_be_bytes());
        1
    } else {
        wanted[was + 2..was + 4].copy_from_slice(&[0, 0]);
        0
    };
    let told = PrpAnswer {
        length: frame.len(),
        ..there
    };
    let back = turned(Call::FromPrp { frame: &prp, kind })?;
    if back != (what < 2).then_some((told, wanted)) {
        return Err(format!("NOT BACK, kind {}: {:x?}", kind, frame));
    }
    Ok(Some(what))
}

/// Random frames from PRP and back, and to PRP and back, on both sides.
fn there_and_back(seed: u64) -> Result<(), String> {
    let mut random = Random::new(seed);
    let mut pool = vec![0; 8192];
    random.fill(&mut pool);
    let mut f = [0; 2100];
    // By kind, then VLAN tag; and by what came of a tagged frame.
    let (mut from, mut to) = ([[0; 2]; 2], [0; BACK.len()]);
    for _ in 0..THERE_AND_BACK {
        let kind = kind(&mut random);
        let length = prp_frame(&mut random, &pool, &[], &mut f, kind);
        if from_prp_and_back(&f[..length], kind)? {
            let vlan = type_place(&f) == 16;
            from[usize::from(kind != 0)][usize::from(vlan)] += 1;
        }
        let length = frame_for_prp(&mut random, &pool, &[], &mut f);
        let network = random.below(2) as u8;
        if let Some(what) = to_prp_and_back(&f[..length], network, kind)? {
            to[what] += 1;
        }
    }
    for (kind, seen) in KINDS.iter().zip(from) {
        println!(
            "from PRP, {}, and back: {} frames, {} with a VLAN tag",
            kind,
            seen[0] + seen[1],
            seen[1]
        );
    }
    for (what, n) in BACK.iter().zip(to) {
        println!("to PRP and back: {} frames, {}", n, what);
    }
    if from.iter().flatten().chain(&to).any(|&n| n < LEAST) {
        return Err(format!("each of these must come up {} times", LEAST));
    }
    Ok(())
}

/// Runs so many calls on both sides. `kept` takes each of them, for another program.
fn run(seed: u64, count: u64, mut kept: Option<&mut Vec<u8>>) -> Result<Seen, String> {
    let mut random = Random::new(seed);
    let mut pool = vec![0; INPUT_MOST + 8192];
    random.fill(&mut pool);
    let mut seen = Seen::new();
    let (mut product, mut second) = (Product::new(&[]), Second::new(&[]));
    // Table and index before a call.
    let (mut before, mut index) = (Vec::new(), Vec::new());
    // The table's owner has written to it since the index was made.
    let mut index_is_old = false;
    let mut f = Frames {
        single: [0; 2100],
        packed: Vec::new(),
    };
    for case in 0..count {
        if case % LIFE == 0 {
            before = table(&mut random);
            product = Product::new(&before);
            second = Second::new(&before);
            index_is_old = false;
        }
        // Now and then the table's owner writes to a slot.
        if !before.is_empty() && random.chance(1, 4) {
            let (slot, s) = (
                random.below(before.len() as u64) as usize,
                record(&mut random),
            );
            product.set(slot, s);
            second.set(slot, s);
            before[slot] = s;
            index_is_old = true;
        }
        // And the sender's owner its next number.
        if random.chance(1, 32) {
            let next = next(&mut random);
            product.set_next(next);
            second.set_next(next);
        }
        let (call, rooms) = call(&mut random, &pool, &before, &mut f);
        // Most often an old index is not lent. Another one is carried on from call to call, or is not.
        if call.takes_index() && random.chance(if index_is_old { 15 } else { 4 }, 16) {
            let lent = self::index(&mut random, &before);
            product.set_index(&lent);
            second.set_index(&lent);
            index_is_old = false;
        }
        index.clear();
        index.extend_from_slice(product.index());
        let starts = rooms.map(|room| {
            let from = random.below((pool.len() - room) as u64) as usize;
            &pool[from..from + room]
        });
        let given = Areas {
            table: &before,
            index: &index,
            outs: starts,
            next: product.next(),
        };
        let (mut a, mut b) = (starts.map(<[u8]>::to_vec), starts.map(<[u8]>::to_vec));
        let (x, y) = (
            made(&mut product, call, &mut a),
            made(&mut second, call, &mut b),
        );
        let after = product.records();
        let left = Areas {
            table: after,
            index: product.index(),
            outs: [&a[0], &a[1]],
            next: product.next(),
        };
        let wrong = if x != y {
            Some(String::from("the answers"))
        } else if let Some(slot) = (0..after.len()).find(|&slot| after[slot] != second.record(slot))
        {
            Some(format!(
                "slot {}: product {:?}\nsecond {:?}\nbefore {:?}",
                slot,
                after[slot],
                second.record(slot),
                before[slot]
            ))
        } else if left.index != second.index() {
            Some(format!(
                "the indexes: product {:x?}\nsecond {:x?}",
                left.index,
                second.index()
            ))
        } else if left.next != second.next() {
            Some(format!(
                "the next numbers: product {}, second {}, before {}",
                left.next,
                second.next(),
                given.next
            ))
        } else if a != b {
            Some(format!(
                "the outputs: product {:x?}\nsecond {:x?}\nbefore {:x?}",
                a, b, starts
            ))
        } else if matches!(x, Answer::Refused(_)) && given != left {
            Some(String::from("a refused call changed something"))
        } else {
            None
        };
        if let Some(wrong) = wrong {
            return Err(format!(
                "DIFFERENT at seed {}, call {} (table of {} slots, outputs of {:?} bytes)\n{:x?}\nindex {:x?}\nproduct {:?}, second {:?}\n{}",
                seed,
                case,
                before.len(),
                rooms,
                call,
                given.index,
                x,
                y,
                wrong
            ));
        }
        seen.note(&call, &x, given, left);
        if let Some(kept) = kept.as_deref_mut() {
            cases::add(kept, call, given, &x, left);
        }
        before.copy_from_slice(after);
    }
    Ok(seen)
}

fn compare(seed: u64, count: u64) -> Result<(), String> {
    send_in_a_row()?;
    link_numbers()?;
    vlan_tags()?;
    there_and_back(seed)?;
    let seen = run(seed, count, None)?;
    let list = seen.list();
    for (call, n) in CALLS.iter().zip(seen.calls) {
        println!("{}: {} calls", call, n);
    }
    let rare: Vec<_> = list.iter().filter(|(_, n)| *n < LEAST).collect();
    for (what, n) in &rare {
        println!("came up only {} times: {}", n, what);
    }
    if !rare.is_empty() {
        return Err(format!(
            "the inputs of seed {} show too little: everything must come up {} times",
            seed, LEAST
        ));
    }
    let (what, n) = list.iter().min_by_key(|(_, n)| *n).unwrap();
    println!(
        "rarest of the {} things that must come up: {}, {} times",
        list.len(),
        what,
        n
    );
    println!(
        "{} random calls: answers, tables, indexes, senders and outputs of product and second program equal",
        count
    );
    Ok(())
}

/// The second program with each slip in turn. Those that show in calls alone must be found here.
fn find_wrong() -> Result<(), String> {
    let (mut found, mut others, mut missed) = (0, 0, Vec::new());
    for v in VARIANTS {
        wrong::set(Some(v.wrong));
        let different = run(SEED, PATIENCE, None).is_err();
        wrong::set(None);
        match v.seen {
            Shows::CallsOnly if different => found += 1,
            Shows::CallsOnly => missed.push(v.what),
            _ => others += u64::from(different),
        }
    }
    println!(
        "{} more wrong variants, which event files show too, were found as well",
        others
    );
    if !missed.is_empty() || found == 0 {
        return Err(format!("not found: {:?}", missed));
    }
    println!(
        "{} wrong variants that show in calls alone: all found",
        found
    );
    Ok(())
}

fn main() -> ExitCode {
    let words: Vec<String> = std::env::args().skip(1).collect();
    let words: Vec<&str> = words.iter().map(String::as_str).collect();
    let number = |word: &str| {
        word.parse::<u64>()
            .map_err(|_| format!("{} is no number", word))
    };
    let done = match words[..] {
        [] => compare(SEED, COUNT),
        ["wrong"] => find_wrong(),
        ["cases", count] => number(count).and_then(|count| {
            let mut kept = Vec::new();
            run(SEED, count, Some(&mut kept))?;
            std::io::stdout()
                .write_all(&kept)
                .map_err(|e| e.to_string())
        }),
        [seed, count] => number(seed).and_then(|seed| compare(seed, number(count)?)),
        _ => Err(String::from(
            "usage: calls [SEED COUNT | wrong | cases COUNT]",
        )),
    };
    match done {
        Ok(()) => ExitCode::SUCCESS,
        Err(why) => {
            eprintln!("calls: {}", why);
            ExitCode::FAILURE
        }
    }
}
