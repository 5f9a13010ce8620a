//! What several tests share.

#![allow(dead_code)]

use std::collections::HashMap;
use std::panic::catch_unwind;

use second::history::History;
use second::random::Random;
use second::wrong::{self, Wrong};
use second::{arrival, rebuild, Arrival, Batch, Family, Refusal, Settings, Stream, Verdict};

/// The destination most tests use.
pub const DESTINATION: [u8; 6] = [2, 0, 0, 0, 0, 1];
/// The source most frames have. It is no group.
pub const SOURCE: [u8; 6] = [2, 0, 0, 0, 0, 2];
/// What stands in an output before a call.
pub const FILL: u8 = 0xA5;
/// The destinations of random tables and frames.
pub const DESTINATIONS: [[u8; 6]; 3] = [DESTINATION, [2, 0, 0, 0, 0, 2], [1, 2, 3, 4, 5, 6]];
/// Their VLAN ids.
pub const VLANS: [u16; 5] = [0, 0, 5, 4094, 4095];

/// Lawful settings with this rule, L and R.
pub fn settings(rule: u8, window: u16, reset_time: u16) -> Settings {
    Settings {
        destination: DESTINATION,
        vlan: 0,
        rule,
        window,
        reset_time,
    }
}

/// A fresh record in use.
pub fn fresh(rule: u8, window: u16, reset_time: u16) -> Stream {
    Stream {
        in_use: 1,
        destination: DESTINATION,
        vlan: 0,
        rule,
        window,
        reset_time,
        ..Stream::FREE
    }
}

/// A record that has seen numbers. The history has these bits in its first
/// word.
pub fn running(rule: u8, window: u16, reset_time: u16, anchor: u16, bits: u64) -> Stream {
    Stream {
        take_any: 0,
        anchor,
        history: low(bits),
        remaining: reset_time,
        ..fresh(rule, window, reset_time)
    }
}

/// A history with these bits in its first word.
pub fn low(bits: u64) -> History {
    [bits, 0, 0, 0, 0, 0, 0, 0]
}

/// A history with these places marked: bit k mod 64 of word k / 64.
pub fn marked(places: impl IntoIterator<Item = usize>) -> History {
    let mut history = [0; 8];
    for place in places {
        history[place / 64] |= 1 << (place % 64);
    }
    history
}

/// The places that are marked, each looked at alone.
pub fn places(history: &History) -> Vec<usize> {
    (0..512)
        .filter(|place| history[place / 64] >> (place % 64) & 1 == 1)
        .collect()
}

/// The record with these places marked.
pub fn with_places(stream: Stream, places: impl IntoIterator<Item = usize>) -> Stream {
    Stream {
        history: marked(places),
        ..stream
    }
}

/// The record with so many places for numbers older than the first.
pub fn with_early(stream: Stream, early: u16) -> Stream {
    Stream { early, ..stream }
}

/// The number of a frame with this index.
pub fn number(index: i64) -> u16 {
    index.rem_euclid(65536) as u16
}

/// A tagged frame without a VLAN tag.
pub fn tagged(number: u16) -> Vec<u8> {
    tagged_to(DESTINATION, None, number)
}

/// A tagged frame; `tci` is what stands behind 8100, if there is a VLAN tag.
pub fn tagged_to(destination: [u8; 6], tci: Option<u16>, number: u16) -> Vec<u8> {
    let mut frame = untagged_to(destination, tci);
    frame.truncate(frame.len() - 3);
    frame.extend([0xF1, 0xC1, 0, 0]);
    frame.extend(number.to_be_bytes());
    frame.extend([0x08, 0x00, 0x77]);
    frame
}

/// The same frame before its tag is put in.
pub fn untagged_to(destination: [u8; 6], tci: Option<u16>) -> Vec<u8> {
    let mut frame = Vec::new();
    frame.extend(destination);
    frame.extend(SOURCE);
    if let Some(tci) = tci {
        frame.extend([0x81, 0x00]);
        frame.extend(tci.to_be_bytes());
    }
    frame.extend([0x08, 0x00, 0x77]);
    frame
}

/// A virtual link's frame to this destination with this number.
pub fn numbered_to(destination: [u8; 6], number: u8) -> Vec<u8> {
    let mut frame = untagged_to(destination, None);
    frame.push(number);
    frame
}

/// A virtual link's frame with this number.
pub fn numbered(number: u8) -> Vec<u8> {
    numbered_to(DESTINATION, number)
}

/// Do these two bytes stand at the place?
pub fn at(frame: &[u8], place: usize, mark: [u8; 2]) -> bool {
    frame.get(place..place + 2) == Some(&mark[..])
}

/// Where the type field of the frame is.
pub fn type_place(frame: &[u8]) -> usize {
    if at(frame, 12, [0x81, 0x00]) {
        16
    } else {
        12
    }
}

/// The priority of a frame and whether a VLAN tag is there, as order 11 has them.
pub fn priority_of(frame: &[u8]) -> (u8, bool) {
    match at(frame, 12, [0x81, 0x00]) {
        true => (frame[14] / 32, true),
        false => (0, false),
    }
}

/// A tagged frame with no VLAN tag in front of the tag, and one behind it, so that
/// 8100 stands at 12 once the tag is out.
pub fn tagged_before_vlan(destination: [u8; 6], tci: u16, number: u16) -> Vec<u8> {
    let bare = untagged_to(destination, Some(tci));
    let (front, behind) = bare.split_at(12);
    let [high, low] = number.to_be_bytes();
    [front, &[0xF1, 0xC1, 0, 0, high, low], behind].concat()
}

/// The frame with a tag, put together from its parts.
pub fn with_tag(frame: &[u8], number: u16) -> Vec<u8> {
    let (front, behind) = frame.split_at(type_place(frame));
    let [high, low] = number.to_be_bytes();
    [front, &[0xF1, 0xC1, 0, 0, high, low], behind].concat()
}

/// The frame with a PRP trailer of 4 or 6 bytes, put together from its parts.
pub fn with_trailer(bare: &[u8], number: u16, lan: u8, width: usize) -> Vec<u8> {
    let size = bare.len() - (type_place(bare) + 2) + width;
    let [high, low] = number.to_be_bytes();
    let trailer = [
        high,
        low,
        lan << 4 | (size >> 8) as u8,
        size as u8,
        0x88,
        0xFB,
    ];
    [bare, &trailer[..width]].concat()
}

/// Frames, each behind its length.
pub fn packed(frames: &[Vec<u8>]) -> Vec<u8> {
    let mut buffer = Vec::new();
    for frame in frames {
        buffer.extend((frame.len() as u16).to_be_bytes());
        buffer.extend(frame);
    }
    buffer
}

/// The frame with another first source byte.
pub fn from_source(first: u8, frame: &[u8]) -> Vec<u8> {
    let mut frame = frame.to_vec();
    frame[6] = first;
    frame
}

/// One arrival on network 0 with room enough; only the verdict's kind.
pub fn arrive(table: &mut [Stream], number: u16) -> &'static str {
    let mut output = [0; Stream::MAX_FRAME];
    match arrival(table, 0, &tagged(number), &mut output) {
        Ok(a) => {
            assert_eq!(a.number, number);
            word(a)
        }
        Err(refusal) => panic!("refused with {}", refusal.number()),
    }
}

/// The index that the library rebuilds from a table. A table of more than 64
/// slots has none; the call that it goes to refuses that table anyhow.
pub fn index_of(table: &[Stream]) -> [u8; 128] {
    let mut index = [FILL; 128];
    let _ = rebuild(table, &mut index);
    index
}

/// An open with the index rebuilt for it, for tests that look at the table.
pub fn open(table: &mut [Stream], settings: Settings) -> Result<usize, Refusal> {
    let mut index = index_of(table);
    second::open(table, &mut index, settings)
}

/// A close with the index rebuilt for it.
pub fn close(table: &mut [Stream], slot: usize) -> Result<(), Refusal> {
    let mut index = index_of(table);
    second::close(table, &mut index, slot)
}

/// A batch with the index rebuilt for it.
pub fn batch(
    table: &mut [Stream],
    network: u8,
    count: usize,
    frames: &[u8],
    output: &mut [u8],
) -> Result<Batch, Refusal> {
    let index = index_of(table);
    second::batch(table, &index, network, count, frames, output)
}

/// Destination and VLAN id.
pub type Key = ([u8; 6], u16);

/// A key's own place, by the formula as it is given, in numbers that never wrap.
pub fn place_of((destination, vlan): Key) -> usize {
    let mut number = 0u128;
    for byte in destination {
        number = number * 256 + u128::from(byte);
    }
    let low = number % (1 << 32);
    let high = number / (1 << 20) % (1 << 32) + u128::from(vlan) * 65536;
    let mixed = (low * 1234164911 + high * 557513737) % (1 << 32);
    (mixed / (1 << 25)) as usize
}

/// Four keys with this own place.
pub fn keys_at(place: usize) -> Vec<Key> {
    (0..65536u32)
        .map(|n| ([2, 0, 0, 0, (n / 256) as u8, n as u8], (n % 3) as u16))
        .filter(|&key| place_of(key) == place)
        .take(4)
        .collect()
}

/// Both families of slots.
pub const FAMILIES: [Family; 2] = [Family::Links, Family::Rest];

/// Is the slot in use with this key, and of this family?
fn has(stream: &Stream, key: Key, family: Family) -> bool {
    let links = family == Family::Links;
    stream.in_use != 0 && (stream.destination, stream.vlan) == key && (stream.rule == 3) == links
}

/// What following from the key finds in 128 places: the places in their order
/// round the end, up to an empty one, and of those the first that names a slot
/// in use with the key and of the family.
pub fn followed(table: &[Stream], index: &[u8], key: Key, family: Family) -> Option<usize> {
    let own = place_of(key);
    [&index[own..], &index[..own]]
        .concat()
        .into_iter()
        .take_while(|&place| place != 0)
        .map(|place| usize::from(place) - 1)
        .find(|&slot| slot < table.len() && has(&table[slot], key, family))
}

/// What following from the key must find.
pub fn lowest(table: &[Stream], key: Key, family: Family) -> Option<usize> {
    (0..table.len()).find(|&slot| has(&table[slot], key, family))
}

/// Do index and table agree, tried with the keys of all slots, free ones among
/// them, and with some others, each in both families?
pub fn agree(table: &[Stream], index: &[u8]) -> bool {
    let slots = table.iter().map(|s| (s.destination, s.vlan));
    let others = DESTINATIONS
        .into_iter()
        .flat_map(|d| VLANS.map(|vlan| (d, vlan)));
    let any = [([0; 6], 0), ([255; 6], 65535), ([3, 0, 0, 0, 0, 9], 7)];
    index.len() == 128
        && slots
            .chain(others)
            .chain(any)
            .flat_map(|key| FAMILIES.map(|family| (key, family)))
            .all(|(key, family)| followed(table, index, key, family) == lowest(table, key, family))
}

/// The index with these slots entered, in this order, each at the first empty
/// place from its own on.
pub fn entered(table: &[Stream], slots: &[usize]) -> Vec<u8> {
    let mut index = vec![0; 128];
    for &slot in slots {
        let own = place_of((table[slot].destination, table[slot].vlan));
        let round: Vec<usize> = (0..128).map(|step| (own + step) % 128).collect();
        let place = round.into_iter().find(|&place| index[place] == 0).unwrap();
        index[place] = slot as u8 + 1;
    }
    index
}

/// The slots in use, the lowest first.
pub fn in_use(table: &[Stream]) -> Vec<usize> {
    (0..table.len())
        .filter(|&slot| table[slot].in_use != 0)
        .collect()
}

/// What a rebuild must write.
pub fn rebuilt(table: &[Stream]) -> Vec<u8> {
    entered(table, &in_use(table))
}

/// An index with anything in it, often one that agrees with the table. The table
/// may be one of more than 64 slots.
pub fn any_index(random: &mut Random, table: &[Stream]) -> Vec<u8> {
    let mut slots = in_use(table);
    slots.truncate(64);
    // Another order, which is right for slots with keys of their own.
    if random.chance(1, 3) {
        for at in 1..slots.len() {
            slots.swap(at, random.below(at as u64 + 1) as usize);
        }
    }
    // Only the lowest slot of each key, as an index may have it, in each family
    // or, which will not do with both, of all.
    if random.chance(1, 3) {
        let of_all = random.chance(1, 4);
        slots.retain(|&slot| {
            let key = (table[slot].destination, table[slot].vlan);
            match of_all {
                true => FAMILIES.iter().all(|&family| {
                    lowest(table, key, family).map_or(true, |lowest| lowest >= slot)
                }),
                false => lowest(table, key, table[slot].family()) == Some(slot),
            }
        });
    }
    if random.chance(1, 12) {
        // One is missing.
        slots.pop();
    }
    let mut index = entered(table, &slots);
    let any_name = |random: &mut Random| match random.below(4) {
        0 => 0,
        1 => random.byte(),
        _ => random.below(table.len().min(254) as u64 + 1) as u8 + 1,
    };
    match random.below(8) {
        // Names in the empty places: of slots beyond the table, free ones, or
        // ones that have a place already.
        0 | 1 => {
            let (part, whole) = random.pick(&[(1, 8), (1, 2), (1, 1)]);
            for place in index.iter_mut().filter(|place| **place == 0) {
                if random.chance(part, whole) {
                    *place = any_name(random).max(1);
                }
            }
        }
        // A few places changed.
        2 => {
            for _ in 0..random.pick(&[1, 1, 2, 9]) {
                index[random.below(128) as usize] = any_name(random);
            }
        }
        3 => match random.below(4) {
            0 => index.resize(random.pick(&[0, 1, 64, 127, 129, 256]), 0),
            1 => random.fill(&mut index),
            // All places alike, slot 0 more often than others.
            2 => index.fill(1),
            _ => index.fill(any_name(random)),
        },
        _ => {}
    }
    index
}

/// The word for a verdict.
pub fn word(arrival: Arrival) -> &'static str {
    match arrival.verdict {
        Verdict::HandedUp { .. } => "up",
        Verdict::Duplicate => "duplicate",
        Verdict::Rogue => "rogue",
    }
}

/// The number of a refusal, or 0.
pub fn number_of<T>(answer: Result<T, Refusal>) -> u8 {
    match answer {
        Ok(_) => 0,
        Err(refusal) => refusal.number(),
    }
}

/// A record with anything in it, often nearly lawful.
pub fn any_stream(random: &mut Random, destinations: &[[u8; 6]], vlans: &[u16]) -> Stream {
    let rule = random.pick(&[1, 1, 1, 1, 2, 2, 3, 3, 0, 4]);
    let window = random.pick(&[
        2, 3, 4, 8, 63, 64, 64, 65, 127, 128, 255, 256, 257, 300, 511, 512, 512, 1, 0, 513, 65535,
    ]);
    let reset_time = random.pick(&[1, 2, 3, 100, 65535, 0]);
    let mut stream = Stream {
        in_use: random.pick(&[0, 1, 1, 1, 2, 255]),
        destination: random.pick(destinations),
        vlan: random.pick(vlans),
        arrivals: [any_counter(random), any_counter(random)],
        passed: any_counter(random),
        discarded: any_counter(random),
        rogue: any_counter(random),
        out_of_order: any_counter(random),
        lost: any_counter(random),
        resets: any_counter(random),
        ..fresh(rule, window, reset_time)
    };
    stream.take_any = random.pick(&[1, 2, 255, 256, 65535]);
    if random.chance(2, 3) {
        stream.take_any = 0;
        stream.anchor = random.pick(&[0, 1, 2, 65534, 65535, 32767, 32768, 7]);
        if rule == 3 {
            stream.anchor = random.pick(&[0, 1, 2, 126, 127, 128, 129, 254, 255, 256]);
        }
        stream.remaining = reset_time.min(random.pick(&[1, 1, 2, 65535]));
        if rule == 1 {
            for (at, word) in stream.history.iter_mut().enumerate() {
                *word = match usize::from(window).saturating_sub(64 * at) {
                    0 => 0,
                    inside @ 1..=63 => random.bits() & ((1 << inside) - 1),
                    _ => random.bits(),
                };
            }
            stream.history[0] |= 1;
            stream.early = any_early(random, &stream);
        }
    }
    if random.chance(1, 5) {
        // One blow of damage, at times a harmless one.
        match random.below(6) {
            0 => stream.anchor = random.word(),
            1 => {
                // Anywhere, or at the end of the window.
                let any = random.below(512);
                let place = random.pick(&[any, u64::from(window % 512)]);
                stream.history[place as usize / 64] ^= 1 << (place % 64);
            }
            2 => stream.take_any = random.pick(&[0, 1, 9, 256]),
            3 => stream.remaining = random.pick(&[0, 1, 2, 3, 4, 65535]),
            4 => stream.early = random.pick(&[1, 2, window, 63, 64, 511, 65535]),
            _ => stream.vlan = random.pick(&[4094, 4095, 4096, 65535]),
        }
    }
    stream
}

/// An n that fits to a vector record's history, often 0.
fn any_early(random: &mut Random, stream: &Stream) -> u16 {
    let first = random.below(u64::from(stream.window.clamp(1, 512))) as u16;
    let early = stream.window.saturating_sub(1 + first);
    if random.chance(1, 2) && places(&stream.history).contains(&first.into()) {
        early
    } else {
        0
    }
}

fn any_counter(random: &mut Random) -> u64 {
    random.pick(&[0, 1, 5, u64::MAX, u64::MAX - 1])
}

/// A table with anything in it.
pub fn any_table(random: &mut Random) -> Vec<Stream> {
    let slots = random.pick(&[0, 1, 2, 3, 5, 8, 63, 64, 65, 70]);
    let mut table: Vec<Stream> = (0..slots)
        .map(|_| any_stream(random, &DESTINATIONS, &VLANS))
        .collect();
    if random.chance(1, 3) {
        // A full table is rare otherwise.
        for stream in &mut table {
            stream.in_use = 1;
        }
    }
    table
}

/// A frame, often for a stream of such a table.
pub fn any_frame(random: &mut Random) -> Vec<u8> {
    let mut frame = Vec::new();
    frame.extend(random.pick(&DESTINATIONS));
    frame.extend(SOURCE);
    if random.chance(1, 5) {
        // Half of these are groups.
        frame[6] = random.pick(&[0x00, 0x80, 0xFE, 0x01, 0x03, 0xFF]);
    }
    let vlan = random.pick(&VLANS);
    if vlan != 0 || random.chance(1, 4) {
        frame.extend([0x81, 0x00]);
        frame.extend((vlan | (random.word() & 0xF000)).to_be_bytes());
    }
    if random.chance(3, 4) {
        frame.extend([0xF1, 0xC1, random.byte(), 0]);
        frame.extend(
            random
                .pick(&[
                    0u16, 1, 2, 3, 7, 8, 64, 65, 71, 130, 300, 511, 512, 65025, 65300, 65472,
                    65533, 65534, 65535,
                ])
                .to_be_bytes(),
        );
    }
    frame.extend(random.pick(&[[0x08, 0x00], [0xF1, 0xC1], [0x81, 0x00]]));
    frame.resize(frame.len() + random.below(6) as usize, 0x33);
    match random.below(12) {
        0 => frame.truncate(random.pick(&[0, 5, 13, 14, 17, 18, 19, 20, 23, 24])),
        1 => frame.resize(random.pick(&[1994, 1995, 2000, 2001, 2010]), 0x44),
        _ => {}
    }
    frame
}

/// A frame of a virtual link of such a table, which may look like a tagged one.
pub fn any_numbered(random: &mut Random) -> Vec<u8> {
    let mut frame = any_frame(random);
    if random.chance(1, 12) {
        frame.truncate(random.pick(&[13, 14, 15, 16, 17]));
    }
    if let Some(last) = frame.last_mut() {
        *last = random.pick(&[0, 0, 1, 2, 125, 126, 127, 128, 129, 253, 254, 255]);
    }
    frame
}

/// A PRP frame, or one with a fault in it or none of the trailer.
pub fn any_prp(random: &mut Random) -> Vec<u8> {
    let mut bare = Vec::new();
    bare.extend(random.pick(&DESTINATIONS));
    bare.extend(SOURCE);
    bare[6] = random.pick(&[2, 2, 2, 3]);
    if random.chance(1, 2) {
        bare.extend([0x81, 0x00, random.byte(), 5]);
    }
    let former = random.pick(&[[0x08, 0x00], [0x08, 0x00], [0xF1, 0xC1], [0x81, 0x00]]);
    bare.extend(former);
    let behind = match random.below(8) {
        // At the limit, or with a size that needs more than one byte.
        0 => 1990 + random.below(13) as usize - bare.len(),
        1 => 250 + random.below(20) as usize,
        _ => random.below(6) as usize,
    };
    bare.resize(bare.len() + behind, 0x33);
    if type_place(&bare) + 2 > bare.len() {
        // 8100 at 12 and nothing behind it.
        bare.resize(18, 0x44);
    }
    let lan = random.pick(&[0xA, 0xB, 0xA, 0xB, 0xA, 0xB, 0x9, 0xC, 0x8, 0x0]);
    let mut frame = with_trailer(&bare, random.word(), lan, random.pick(&[4, 6]));
    let end = frame.len();
    match random.below(8) {
        0 => {
            // One bit of the size, of LAN or of what stands behind.
            let place = end - 1 - random.below(4) as usize;
            frame[place] ^= 1 << random.below(8);
        }
        1 => frame.truncate(random.below(28) as usize),
        2 => frame.truncate(end - random.pick(&[1, 2])),
        3 => frame.push(0x33),
        _ => {}
    }
    frame
}

/// Counts answers, so that a run that met too little can be told.
#[derive(Default)]
pub struct Seen(HashMap<(&'static str, u8), u64>);

impl Seen {
    /// Counts one answer of a call.
    pub fn note(&mut self, call: &'static str, answer: u8) {
        *self.0.entry((call, answer)).or_default() += 1;
    }

    /// Each of these answers was met, and not just once.
    pub fn all_met(&self, call: &'static str, answers: &[u8]) {
        for &answer in answers {
            let met = self.0.get(&(call, answer)).copied().unwrap_or(0);
            assert!(met >= 20, "{call} gave {answer} only {met} times");
        }
    }
}

/// The test fails with each of these slips.
pub fn finds(test: fn(), slips: &[Wrong]) {
    for &slip in slips {
        wrong::set(Some(slip));
        let done = catch_unwind(test);
        wrong::set(None);
        assert!(done.is_err(), "{slip:?}");
    }
}
