//! Files that go through all values of one thing, where random ones would meet
//! only some.

use second::event_file::{kind, MAX_BODY, SLOTS, VERSION};
use second::generate::{open_body, open_wide_body, push_record, tagged, tagged_with, Key};
use second::Stream;

const KEY: Key = ([2, 0, 0, 0, 0, 1], 0);
const SOURCE: [u8; 6] = [2, 0, 0, 0, 0, 2];
const TYPE: [u8; 2] = [0x08, 0x00];

/// Name and bytes of each.
pub fn files() -> Vec<(&'static str, Vec<u8>)> {
    vec![
        ("every length of a frame", lengths()),
        ("every window, at its edges and by whole words", windows()),
        ("every L in two bytes, opened", two_byte_windows()),
        ("every reset time, opened", reset_times()),
        ("reset times up to 300, run out", short_reset_times()),
        ("eight reset times up to 65535, run out", long_reset_times()),
        ("every kind, with right and wrong lengths", kinds()),
        ("every VLAN id", vlans()),
        ("every VLAN tag, all 16 bits of it", vlan_tags()),
        ("8100 behind F1C1, with every priority", hidden_tags()),
        (
            "every slot, in a table that is empty, filling and full",
            slots(),
        ),
        ("every network", networks()),
        ("virtual links, which no event gives a frame", links()),
        ("every first byte of a source", sources()),
        ("every number on two networks", numbers()),
        ("every number on two networks, 511 apart", far_numbers()),
    ]
}

/// A small file with a record of every kind, to be cut at every byte.
pub fn small() -> Vec<u8> {
    let mut file = vec![VERSION];
    for body in [
        &open_body(KEY, Stream::MATCH, 2, 1)[..],
        &[],
        &tagged(1, KEY, 258),
        &[kind::TICK],
        &[7, 0],
        &[kind::RESET, 0],
        &open_wide_body((KEY.0, 1), Stream::VECTOR, 258, 3),
        &tagged(0, (KEY.0, 5), 1),
        &tagged_with(1, KEY.0, Some(0xB001), 7, &TYPE),
        &[kind::CLOSE, 0],
    ] {
        push_record(&mut file, body);
    }
    file
}

struct File(Vec<u8>);

impl File {
    fn new() -> File {
        File(vec![VERSION])
    }

    fn body(&mut self, body: &[u8]) {
        push_record(&mut self.0, body);
    }

    fn open(&mut self, key: Key, rule: u8, window: u8, reset_time: u16) {
        self.body(&open_body(key, rule, window, reset_time));
    }

    fn open_wide(&mut self, key: Key, rule: u8, window: u16, reset_time: u16) {
        self.body(&open_wide_body(key, rule, window, reset_time));
    }

    fn number(&mut self, network: u8, number: u16) {
        self.body(&tagged(network, KEY, number));
    }

    /// An arrival of the first `length` bytes of these, then of zeros.
    fn frame(&mut self, network: u8, bytes: &[u8], length: usize) {
        let mut body = vec![kind::ARRIVAL, network];
        body.extend(bytes);
        body.resize(2 + length, 0);
        self.body(&body);
    }
}

fn lengths() -> Vec<u8> {
    let mut file = File::new();
    file.open(KEY, Stream::VECTOR, 64, 65535);
    file.open((KEY.0, 5), Stream::VECTOR, 64, 65535);
    let mut number: u16 = 65000;
    let mut frame = |before: &[u8], behind: &[u8], length| {
        number = number.wrapping_add(1);
        let number = number.to_be_bytes();
        let bytes = [&KEY.0, &SOURCE, before, &number, behind].concat();
        file.frame(0, &bytes, length);
    };
    for length in 0..=2003 {
        frame(&[0xF1, 0xC1, 0, 0], &[8, 0], length);
    }
    for length in (0..=40).chain(1990..=2003) {
        // With 8100: id 5, id 5 below four other bits, id 0.
        frame(&[0x81, 0, 0, 5, 0xF1, 0xC1, 0, 0], &[8, 0], length);
        frame(&[0x81, 0, 0xF0, 5, 0xF1, 0xC1, 0, 0], &[8, 0], length);
        frame(&[0x81, 0, 0, 0, 0xF1, 0xC1, 0, 0], &[8, 0], length);
        // F1C1, or 8100, a priority and id 5, behind F1C1.
        frame(&[0xF1, 0xC1, 0, 0], &[0xF1, 0xC1, 0, 0, 0, 9], length);
        frame(&[0xF1, 0xC1, 0, 0], &[0x81, 0, 0xA0, 5], length);
        // The reserved bytes are ignored.
        frame(&[0xF1, 0xC1, 0x81, 0], &[8, 0], length);
        frame(&[0xF1, 0xC1, 0xF1, 0xC1], &[8, 0], length);
        // No F1C1, with and without 8100, and 8100 behind 8100.
        frame(&[8, 0, 0, 0], &[], length);
        frame(&[0x81, 0, 0, 5, 8, 0, 0, 0], &[], length);
        frame(
            &[0x81, 0, 0, 5, 0x81, 0, 0, 5, 0xF1, 0xC1, 0, 0],
            &[8, 0],
            length,
        );
    }
    file.0
}

fn windows() -> Vec<u8> {
    let mut file = File::new();
    for rule in 0..=4 {
        for window in 0..=255 {
            file.open(KEY, rule, window, 9);
            file.body(&[kind::CLOSE, 0]);
        }
    }
    for rule in [Stream::VECTOR, Stream::MATCH] {
        for window in Stream::MIN_WINDOW..=Stream::MAX_WINDOW {
            let l = i32::from(window);
            let edges = [-32768, -l - 1, -l, 1 - l, 2 - l, -1, 0, 1, 2];
            let others = [l - 2, l - 1, l, l + 1, 32767];
            // The ends of the history's words.
            let words = [-129, -128, -65, -64, -63, 63, 64, 65, 127, 128];
            let lasts = [l / 64 * 64, -(l / 64 * 64)];
            let differences = edges.into_iter().chain(others).chain(words).chain(lasts);
            for (at, d) in differences.enumerate() {
                for anchor in [0, 65535] {
                    // Of both kinds, where L has room in one byte.
                    match u8::try_from(window) {
                        Ok(window) if at % 2 == 0 => file.open(KEY, rule, window, 9),
                        _ => file.open_wide(KEY, rule, window, 9),
                    }
                    let number = (anchor + d).rem_euclid(65536) as u16;
                    // Anchor, the number twice, then what it did to the anchor.
                    for number in [anchor as u16, number, number, anchor as u16] {
                        file.number(0, number);
                    }
                    file.body(&[kind::CLOSE, 0]);
                }
            }
        }
    }
    file.0
}

fn two_byte_windows() -> Vec<u8> {
    let mut file = File::new();
    for window in 0..=65535 {
        file.open_wide(KEY, Stream::VECTOR, window, 9);
        if (Stream::MIN_WINDOW..=Stream::MAX_WINDOW).contains(&window) {
            file.body(&[kind::CLOSE, 0]);
        }
    }
    file.0
}

fn reset_times() -> Vec<u8> {
    let mut file = File::new();
    for reset_time in 0..=65535 {
        file.open(KEY, Stream::MATCH, 2, reset_time);
        file.body(&[kind::CLOSE, 0]);
    }
    file.0
}

fn short_reset_times() -> Vec<u8> {
    let mut file = File::new();
    for reset_time in 1..=300 {
        file.open(KEY, Stream::VECTOR, 8, reset_time);
        file.number(0, 65534);
        for left in (1..=reset_time).rev() {
            // Neither a duplicate nor a rogue renews the ticks.
            if left == 1 {
                file.number(1, 65534);
                file.number(1, 500);
            }
            file.body(&[kind::TICK]);
        }
        file.number(0, 500);
        file.body(&[kind::CLOSE, 0]);
    }
    file.0
}

fn long_reset_times() -> Vec<u8> {
    let mut file = File::new();
    let reset_times = [1, 2, 255, 256, 4096, 32768, 65534, 65535];
    let key = |slot: usize| ([2, 0, 0, 0, 1, slot as u8], 0);
    for (slot, reset_time) in reset_times.into_iter().enumerate() {
        file.open(key(slot), Stream::VECTOR, 4, reset_time);
        file.body(&tagged(0, key(slot), 7));
    }
    for _ in 0..65536 {
        file.body(&[kind::TICK]);
    }
    for slot in 0..reset_times.len() {
        file.body(&tagged(1, key(slot), 7));
    }
    file.0
}

fn kinds() -> Vec<u8> {
    let mut file = File::new();
    file.open(KEY, Stream::VECTOR, 4, 9);
    for first in 0..=255 {
        for length in (1..=16).chain([255, 256, 258, 269]) {
            let mut body = vec![0; length];
            body[0] = first;
            file.body(&body);
        }
        file.body(&[]);
    }
    for first in 0..=8 {
        let mut body = vec![first; MAX_BODY];
        file.body(&body);
        body.truncate(32768);
        file.body(&body);
    }
    file.number(0, 1);
    file.0
}

fn vlans() -> Vec<u8> {
    let mut file = File::new();
    for vlan in (0..=4100).chain([8191, 32768, 61440, 65535]) {
        file.open((KEY.0, vlan), Stream::VECTOR, 4, 9);
        let tci = vlan.to_be_bytes();
        for high in [tci[0], tci[0] | 0xF0, tci[0] ^ 1] {
            let bytes = [high, tci[1], 0xF1, 0xC1, 0, 0, 0, high, 8, 0];
            file.frame(0, &[&KEY.0, &SOURCE, &[0x81, 0][..], &bytes].concat(), 24);
        }
        file.number(1, vlan);
        file.body(&[kind::CLOSE, 0]);
    }
    file.0
}

/// Each VLAN id with all 16 values of the bits above it, handed up; then another
/// copy with other bits there, and a rogue. No stream has the last id.
fn vlan_tags() -> Vec<u8> {
    let mut file = File::new();
    for id in 0..4096 {
        file.open((KEY.0, id), Stream::VECTOR, 64, 9);
        let mut number = |network, high: u16, number| {
            let tci = Some(high << 12 | id);
            file.body(&tagged_with(network, KEY.0, tci, number, &TYPE));
        };
        for high in 0..16 {
            number(0, high, high);
        }
        number(1, id % 16, id / 16 % 16);
        number(0, id % 16, 1000);
        file.body(&[kind::CLOSE, 0]);
    }
    file.0
}

/// Where F1C1 stands at 12 there is no VLAN tag. One copy has 8100 behind it, with
/// all 16 values of the bits above an id; the other has a VLAN tag with id 0 and
/// the same bits. Each comes first in its turn.
fn hidden_tags() -> Vec<u8> {
    let mut file = File::new();
    file.open(KEY, Stream::VECTOR, 4, 9);
    let ids = [0, 1, 5, 7, 0x0E0, 0x0FF, 0x100, 0x800, 0xE00, 4094, 4095];
    let all = ids
        .iter()
        .flat_map(|id| (0..16).map(move |high| high << 12 | id));
    for (place, tci) in all.enumerate() {
        let [high, low] = u16::to_be_bytes(tci);
        let behind = [0x81, 0, high, low, 8, 0];
        for number in [2 * place as u16, 2 * place as u16 + 1] {
            let first = tagged_with(0, KEY.0, None, number, &behind);
            let second = tagged_with(1, KEY.0, Some(tci & 0xF000), number, &TYPE);
            let copies = match number % 2 {
                0 => [first, second],
                _ => [second, first],
            };
            copies.iter().for_each(|copy| file.body(copy));
        }
    }
    file.0
}

fn slots() -> Vec<u8> {
    let mut file = File::new();
    let key = |slot: usize| ([2, 0, 0, 0, 2, slot as u8], 0);
    for used in 0..=SLOTS {
        if used > 0 {
            file.open(key(used), Stream::VECTOR, 4, 9);
        }
        for slot in (used as u8..=255).rev() {
            file.body(&[kind::RESET, slot]);
            file.body(&[kind::CLOSE, slot]);
        }
        // A setting outside the sizes, a key in use, both.
        file.open(key(99), Stream::VECTOR, 1, 9);
        file.open(key(1), Stream::VECTOR, 4, 9);
        file.open(key(1), 4, 4, 9);
        file.body(&[kind::CLOSE, 0]);
        file.open(key(1), Stream::VECTOR, 4, 9);
    }
    // Full: no free slot comes behind the key, and that behind the settings.
    file.open(key(99), Stream::VECTOR, 4, 9);
    file.open(key(3), Stream::VECTOR, 4, 9);
    file.open(key(99), Stream::VECTOR, 4, 0);
    // Any two slots closed: the lower one is filled first, and it is fresh.
    for a in 0..SLOTS {
        for b in 0..SLOTS {
            for slot in [a, b] {
                file.body(&tagged(0, key(slot + 1), 100));
                file.body(&[kind::CLOSE, slot as u8]);
            }
            for slot in [a.min(b), a.max(b)] {
                file.open(key(slot + 1), Stream::VECTOR, 4, 9);
                file.body(&tagged(1, key(slot + 1), 100));
            }
        }
    }
    file.0
}

fn networks() -> Vec<u8> {
    let mut file = File::new();
    file.open(KEY, Stream::VECTOR, 4, 9);
    for network in 0..=255 {
        file.number(network, network.into());
        for length in [0, 13, 2000, 2001] {
            file.frame(network, &KEY.0, length);
        }
    }
    file.0
}

/// Links with every VLAN id, then one with each L, and what its key meets while it
/// is there and while another stream has it.
fn links() -> Vec<u8> {
    let mut file = File::new();
    for vlan in (1..=4100).chain([8191, 65535]) {
        file.open((KEY.0, vlan), Stream::LINK, 4, 9);
    }
    for window in (0..=600).chain([1028, 65535]) {
        file.open_wide(KEY, Stream::LINK, window, 9);
        for rule in [Stream::VECTOR, Stream::MATCH, Stream::LINK] {
            file.open_wide(KEY, rule, window, 9);
        }
        file.number(0, window);
        file.body(&[kind::RESET, 0]);
        file.body(&[kind::TICK]);
        file.number(1, window);
        // With another VLAN id the key is another one.
        file.open((KEY.0, 5), Stream::VECTOR, 4, 9);
        file.body(&tagged(0, (KEY.0, 5), window));
        file.body(&[kind::CLOSE, 0]);
        file.open(KEY, Stream::VECTOR, 4, 9);
        file.open(KEY, Stream::LINK, 4, 9);
        file.number(0, window);
        file.body(&[kind::CLOSE, 0]);
        file.body(&[kind::CLOSE, 1]);
    }
    file.0
}

fn sources() -> Vec<u8> {
    let mut file = File::new();
    // A group destination is an ordinary key. No stream has the last one.
    let destinations = [KEY.0, [3, 0, 0, 0, 0, 1], [3, 0, 0, 0, 0, 2]];
    for destination in &destinations[..2] {
        file.open((*destination, 0), Stream::VECTOR, 64, 65535);
    }
    for first in 0..=255 {
        for destination in &destinations {
            for rest in [
                &[0xF1, 0xC1, 0, 0, 0, first, 8, 0][..],
                &[0x81, 0, 0, 0, 0xF1, 0xC1, 0, 0, 0, first, 8, 0],
                &[8, 0],
                &[0x81, 0, 0, 0, 8, 0],
            ] {
                let bytes = [&destination[..], &[first], &SOURCE[1..], rest].concat();
                // Whole, short, and filled up.
                for length in [bytes.len(), bytes.len() - 1, 60] {
                    file.frame(1, &bytes, length);
                }
            }
        }
        file.frame(1, &[&KEY.0[..], &[first]].concat(), 2001);
    }
    file.0
}

fn numbers() -> Vec<u8> {
    let mut file = File::new();
    file.open(KEY, Stream::VECTOR, 4, 9);
    for number in (0..=65535).chain(0..=2) {
        file.number(0, number);
        file.number(1, number);
    }
    file.0
}

fn far_numbers() -> Vec<u8> {
    let mut file = File::new();
    file.open_wide(KEY, Stream::VECTOR, 512, 9);
    for number in (0..=65535).chain(0..=600) {
        file.number(0, number);
        file.number(1, number.wrapping_sub(511));
    }
    file.0
}
