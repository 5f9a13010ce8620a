//! An open, a close and a batch with an index do what a look at every record gives: order 9's own words as a reference, and each
//! case that is easily missed. And a receiver's own index agrees with its records, whatever was written to them.

use super::{running, settings, tagged, with_vlan_tag, Dice};
use nippitsun::archive::{self, BatchAnswer, SlotAnswer, PLACES};
use nippitsun::{dest_of, Receiver, Refusal, Settings, Stream};

const INDEX: u8 = Refusal::Index as u8;

fn own_place(dest: u64, vlan: u16) -> usize {
    let high = ((dest >> 20) as u32).wrapping_add(u32::from(vlan) << 16);
    let mixed = (dest as u32)
        .wrapping_mul(1234164911)
        .wrapping_add(high.wrapping_mul(557513737));
    (mixed >> 25) as usize
}

/// The destination of the n-th key with no VLAN id that has this own place.
fn dest_at(place: usize, n: usize) -> u64 {
    let mut dests = (0x020304050000..).filter(|&dest| own_place(dest, 0) == place);
    dests.nth(n).unwrap()
}

fn six(dest: u64) -> [u8; 6] {
    dest.to_be_bytes()[2..].try_into().unwrap()
}

fn running_to(dest: u64) -> Stream {
    Stream { dest, ..running() }
}

fn frame_to(dest: u64, vlan: u16, number: u16) -> Vec<u8> {
    let mut frame = tagged(60, number);
    frame[..6].copy_from_slice(&six(dest));
    match vlan {
        0 => frame,
        _ => with_vlan_tag(vlan, frame),
    }
}

/// The streams that a call looks at.
type Among = fn(&Stream) -> bool;

fn is_link(s: &Stream) -> bool {
    s.rule == Stream::LINK_RULE
}

fn is_no_link(s: &Stream) -> bool {
    !is_link(s)
}

/// A table and its index, as a caller lends them.
#[derive(Clone, PartialEq, Debug)]
struct Lent {
    table: Vec<Stream>,
    index: Vec<u8>,
}

impl Lent {
    fn new(table: Vec<Stream>, index: Vec<u8>) -> Lent {
        Lent { table, index }
    }

    fn free(slots: usize, index: Vec<u8>) -> Lent {
        Lent::new(vec![Stream::default(); slots], index)
    }

    fn has_key(&self, slot: usize, (dest, vlan): (u64, u16), among: Among) -> bool {
        let holds = |s: &Stream| s.is_used() && (s.dest, s.vlan) == (dest, vlan) && among(s);
        self.table.get(slot).map_or(false, holds)
    }

    fn searched(&self, key: (u64, u16), among: Among) -> Option<usize> {
        (0..self.table.len()).find(|&slot| self.has_key(slot, key, among))
    }

    fn followed(&self, key: (u64, u16), among: Among) -> Option<usize> {
        let own = own_place(key.0, key.1);
        let names = (0..PLACES).map(|n| usize::from(self.index[(own + n) % PLACES]));
        let mut named = names.take_while(|&name| name != 0).map(|name| name - 1);
        named.find(|&slot| self.has_key(slot, key, among))
    }

    /// A key that is not in use is never found by following, so the keys in use are all. Each is asked for among the links and
    /// among the rest.
    fn agrees(&self) -> bool {
        let mut in_use = self.table.iter().filter(|s| s.is_used());
        in_use.all(|s| {
            let key = (s.dest, s.vlan);
            let families: [Among; 2] = [is_link, is_no_link];
            let mut both = families.into_iter();
            both.all(|among| self.followed(key, among) == self.searched(key, among))
        })
    }

    /// 1, 18, or 0.
    fn unfit(&self) -> u8 {
        if self.table.len() > Stream::SLOTS_MOST {
            Refusal::Table as u8
        } else if self.index.len() == PLACES && self.agrees() {
            0
        } else {
            INDEX
        }
    }

    fn is_rebuilt(&self) -> bool {
        let mut made = [0; PLACES];
        for (slot, s) in self.table.iter().enumerate().filter(|(_, s)| s.is_used()) {
            let mut place = own_place(s.dest, s.vlan);
            while made[place] != 0 {
                place = (place + 1) % PLACES;
            }
            made[place] = slot as u8 + 1;
        }
        self.index == made
    }

    /// After a call that changes the index if it is not refused.
    fn hold(&self, before: &Lent, refusal: u8) {
        match refusal {
            0 => assert!(self.is_rebuilt()),
            _ => assert_eq!(self, before),
        }
        if before.unfit() != 0 || [1, INDEX].contains(&refusal) {
            assert_eq!(refusal, before.unfit());
        }
    }

    fn open(&mut self, s: Settings) -> SlotAnswer {
        let before = self.clone();
        let (table, index) = (&mut self.table, &mut self.index);
        let a = archive::open(
            table,
            index,
            &s.destination,
            s.vlan,
            s.rule,
            s.window,
            s.time,
        );
        self.hold(&before, a.refusal);
        if before.unfit() == 0 && a.refusal != Refusal::Setting as u8 {
            let holder = before.searched((dest_of(s.destination), s.vlan), |_| true);
            let free = before.table.iter().position(|s| !s.is_used());
            let want = match (holder, free) {
                (Some(_), _) => (0, Refusal::Taken as u8),
                (None, None) => (0, Refusal::Full as u8),
                (None, Some(slot)) => (slot, 0),
            };
            assert_eq!((a.slot, a.refusal), want);
        }
        a
    }

    fn open_to(&mut self, dest: u64) -> SlotAnswer {
        self.open(Settings {
            destination: six(dest),
            ..settings(0)
        })
    }

    fn close(&mut self, slot: usize) -> u8 {
        let before = self.clone();
        let refusal = archive::close(&mut self.table, &mut self.index, slot);
        self.hold(&before, refusal);
        if before.unfit() == 0 {
            let is_used = before.table.get(slot).map_or(false, Stream::is_used);
            let want = if is_used { 0 } else { Refusal::Slot as u8 };
            assert_eq!(refusal, want);
        }
        refusal
    }

    fn rebuild(&mut self) -> u8 {
        let before = self.clone();
        let refusal = archive::rebuild(&self.table, &mut self.index);
        assert_eq!(self.table, before.table);
        if refusal == 0 {
            assert!(self.is_rebuilt());
        } else {
            assert_eq!(*self, before);
        }
        refusal
    }

    /// Frames of 60 or 64 bytes in a batch, held to single arrivals in turn, which look at every record.
    fn batch(&mut self, network: u8, count: usize, frames: &[Vec<u8>]) -> BatchAnswer {
        let before = self.clone();
        let mut buffer = Vec::new();
        for frame in frames {
            buffer.extend_from_slice(&(frame.len() as u16).to_be_bytes());
            buffer.extend_from_slice(frame);
        }
        let mut out = [0; 3000];
        let told = archive::batch(
            &mut self.table,
            &self.index,
            network,
            count,
            &buffer,
            &mut out,
        );
        if told.refusal != 0 {
            assert_eq!(*self, before);
        } else {
            let mut single = before.table.clone();
            for (frame, &answer) in frames.iter().zip(&told.answers) {
                let want = archive::arrival(&mut single, network, frame, &mut [0; 60]);
                assert_eq!(answer, want);
            }
            assert_eq!((&self.table, &self.index), (&single, &before.index));
        }
        if before.unfit() != 0 || [1, INDEX].contains(&told.refusal) {
            assert_eq!(told.refusal, before.unfit());
        }
        told
    }

    /// The slot that a batch finds for a frame.
    fn found(&mut self, dest: u64) -> Option<usize> {
        let told = self.batch(0, 1, &[frame_to(dest, 0, 100)]);
        assert_eq!((told.refusal, told.frames), (0, 1));
        match told.answers[0].refusal {
            0 => Some(told.answers[0].slot),
            _ => None,
        }
    }

    /// All three calls take the index, or none does. What they change is undone.
    fn taken(&self) -> bool {
        let is_taken = self.unfit() == 0;
        let refusal = if is_taken { 0 } else { INDEX };
        assert_eq!(self.clone().batch(0, 0, &[]).refusal, refusal);
        assert_eq!(self.clone().open_to(dest_at(77, 9)).refusal, refusal);
        let no_slot = if is_taken { Refusal::Slot as u8 } else { INDEX };
        assert_eq!(self.clone().close(99), no_slot);
        is_taken
    }
}

#[test]
fn zeros_agree_with_free_slots_alone() {
    for slots in [2, 8, 64] {
        let mut lent = Lent::free(slots, vec![0; PLACES]);
        assert!(lent.taken());
        lent.table[slots - 1].used = 0x80;
        assert!(!lent.taken());
        lent.rebuild();
        assert!(lent.taken());
    }
}

/// Names that are no slot's in use with the key are passed over, and an empty place ends the following.
#[test]
fn names_are_passed_over() {
    let (first, second) = (dest_at(120, 0), dest_at(120, 1));
    // Of slots beyond the table, of a free slot with the same key, of one with another key.
    for name in [5, 64, 65, 255, 2, 4] {
        for many in 0..20 {
            let mut lent = Lent::free(4, vec![0; PLACES]);
            lent.table[1] = Stream {
                used: 0,
                ..running_to(first)
            };
            lent.table[2] = running_to(first);
            lent.table[3] = running_to(second);
            for n in 0..many {
                lent.index[(120 + n) % PLACES] = name;
            }
            lent.index[(120 + many) % PLACES] = 3;
            lent.index[(121 + many) % PLACES] = 4;
            assert!(lent.taken());
            assert_eq!((lent.found(first), lent.found(second)), (Some(2), Some(3)));
            lent.index[(120 + many) % PLACES] = name;
            assert!(!lent.taken());
            lent.index[(120 + many) % PLACES] = 0;
            lent.index[(122 + many) % PLACES] = 3;
            assert!(!lent.taken());
        }
    }
    // The place before the own one is the last that is reached.
    let mut lent = Lent::new(
        vec![Stream::default(), running_to(first)],
        vec![200; PLACES],
    );
    assert!(!lent.taken());
    lent.index[119] = 2;
    assert!(lent.taken());
    assert_eq!(lent.found(first), Some(1));
    lent.index[118] = 0;
    assert!(!lent.taken());
}

#[test]
fn every_place_may_name_slot_0() {
    let (first, second) = (dest_at(127, 0), dest_at(127, 1));
    let mut lent = Lent::free(3, vec![1; PLACES]);
    assert!(lent.taken());
    lent.table[0] = running_to(first);
    assert!(lent.taken());
    // A full index, and the new slot gets its place.
    let mut opened = lent.clone();
    assert_eq!(opened.open_to(second).slot, 1);
    assert_eq!((opened.index[127], opened.index[0]), (1, 2));
    assert_eq!(
        (opened.found(first), opened.found(second)),
        (Some(0), Some(1))
    );
    // A second slot in use, with the same key and with another.
    lent.table[1] = running_to(first);
    assert!(lent.taken());
    assert!(!Lent::new(lent.table.clone(), vec![2; PLACES]).taken());
    lent.table[1].vlan = 5;
    assert!(!lent.taken());
    lent.table[1] = running_to(second);
    assert!(!lent.taken());
}

/// The index may name the lower alone; when that is closed, the higher is found.
#[test]
fn two_slots_with_one_key() {
    let dest = dest_at(127, 0);
    for (lower, higher) in [(0, 1), (0, 3), (1, 2), (2, 3)] {
        let mut lent = Lent::free(4, vec![0; PLACES]);
        lent.table[lower] = running_to(dest);
        lent.table[higher] = running_to(dest);
        lent.index[127] = lower as u8 + 1;
        assert_eq!(lent.found(dest), Some(lower));
        assert_eq!(lent.close(lower), 0);
        assert_eq!(lent.found(dest), Some(higher));
        assert_eq!(lent.close(higher), 0);
        assert_eq!(lent.found(dest), None);
    }
}

/// A link and another stream with one key: the index names both, in any order, and where one family has both the lower is enough.
#[test]
fn a_key_in_both_families() {
    let dest = dest_at(127, 0);
    for link in [0, 1] {
        let mut lent = Lent::free(4, vec![0; PLACES]);
        lent.table[link] = Stream {
            rule: Stream::LINK_RULE,
            ..running_to(dest)
        };
        lent.table[1 - link] = running_to(dest);
        for (names, agrees) in [
            ([2, 1], true),
            ([1, 2], true),
            ([1, 0], false),
            ([2, 0], false),
        ] {
            (lent.index[127], lent.index[0]) = (names[0], names[1]);
            assert_eq!(lent.taken(), agrees);
            assert!(!agrees || lent.found(dest) == Some(1 - link));
        }
        // What a call has made stays good where a rule is written to.
        lent.rebuild();
        for rules in [[1, 1], [3, 3], [0, 3], [3, 4], [2, 3]] {
            (lent.table[0].rule, lent.table[1].rule) = (rules[0], rules[1]);
            assert!(lent.taken());
        }
        for (rule, found) in [(Stream::VECTOR_RULE, Some(0)), (Stream::LINK_RULE, None)] {
            (lent.table[0].rule, lent.table[1].rule) = (rule, rule);
            (lent.index[127], lent.index[0]) = (1, 0);
            assert!(lent.taken());
            assert_eq!(lent.found(dest), found);
        }
    }
}

/// A destination of more than 52 bits has the own place of its low 52, and is another key.
#[test]
fn keys_that_no_frame_has_count_too() {
    let dest = dest_at(40, 0);
    let table = vec![running_to(dest | 1 << 52), running_to(dest | 0xFFF << 52)];
    for (names, agrees) in [
        ([0, 0], false),
        ([1, 0], false),
        ([2, 0], false),
        ([1, 2], true),
    ] {
        let mut lent = Lent::new([&table[..], &[Stream::default()]].concat(), vec![0; PLACES]);
        lent.index[40..42].copy_from_slice(&names);
        assert_eq!(lent.taken(), agrees);
    }
    let mut lent = Lent::new(table, vec![9; PLACES]);
    assert_eq!((lent.rebuild(), lent.found(dest)), (0, None));
}

/// The index is in agreement and is not the rebuilt one, so that one made anew would show.
#[test]
fn no_refusal_changes_a_place() {
    let (first, second) = (dest_at(9, 0), dest_at(9, 1));
    let mut lent = Lent::new(
        vec![running_to(first), running_to(second)],
        vec![255; PLACES],
    );
    lent.index[40] = 1;
    lent.index[77] = 2;
    assert!(lent.unfit() == 0 && !lent.is_rebuilt());
    let other = settings(0);
    let bad = Settings { rule: 4, ..other };
    assert_eq!(lent.open(bad).refusal, Refusal::Setting as u8);
    assert_eq!(lent.open_to(second).refusal, Refusal::Taken as u8);
    assert_eq!(lent.open(other).refusal, Refusal::Full as u8);
    assert_eq!(lent.close(2), Refusal::Slot as u8);
    assert_eq!(lent.batch(2, 33, &[]).refusal, Refusal::Network as u8);
    assert_eq!(lent.batch(0, 33, &[]).refusal, Refusal::Batch as u8);
    assert!(lent.found(second) == Some(1) && !lent.is_rebuilt());
    lent.table[1].used = 0;
    assert_eq!(lent.close(1), Refusal::Slot as u8);
    assert!(!lent.is_rebuilt());
    assert_eq!(lent.open(other).slot, 1);
}

/// 1, then 18, then the others, whether the index has another number of places or does not agree.
#[test]
fn eighteen_comes_behind_1_alone() {
    let bad = Settings {
        rule: 4,
        ..settings(0)
    };
    let used = vec![running(), Stream::default()];
    let lengths = [0, 1, 127, 129, 256].map(|places| Lent::free(2, vec![0; places]));
    for mut lent in lengths
        .into_iter()
        .chain([Lent::new(used, vec![0; PLACES])])
    {
        for s in [bad, settings(0)] {
            assert_eq!(lent.open(s).refusal, INDEX);
        }
        assert_eq!((lent.close(99), lent.close(0)), (INDEX, INDEX));
        for (network, count) in [(2, 33), (0, 33), (0, 0)] {
            assert_eq!(lent.batch(network, count, &[]).refusal, INDEX);
        }
        // A rebuild looks at the length alone.
        let want = if lent.index.len() == PLACES { 0 } else { INDEX };
        assert_eq!(lent.clone().rebuild(), want);
        lent.table.resize(65, Stream::default());
        assert_eq!(lent.open(bad).refusal, Refusal::Table as u8);
        assert_eq!((lent.close(99), lent.rebuild()), (1, 1));
        assert_eq!(lent.batch(2, 33, &[]).refusal, Refusal::Table as u8);
    }
    // In a table of no slots any 128 places are in agreement.
    let mut lent = Lent::free(0, (0..PLACES as u8).collect());
    assert_eq!(lent.open(bad).refusal, Refusal::Setting as u8);
    assert_eq!(lent.open(settings(0)).refusal, Refusal::Full as u8);
    assert_eq!((lent.close(0), lent.batch(0, 0, &[]).refusal), (12, 0));
}

/// Calls of all kinds with indexes of all kinds. Few keys, so that some slots have the same and many the same own place.
#[test]
fn as_a_look_at_every_record() {
    let mut dice = Dice(7);
    let (mut fit, mut not_fit, mut not_rebuilt) = (0, 0, 0);
    for _ in 0..20_000 {
        let most = [3, 16, 64][dice.below(3) as usize];
        let (keys, in_use) = (1 + dice.below(40), 1 + dice.below(4));
        let draw_key = |dice: &mut Dice, more| {
            let vlan = [0, 5][dice.below(2) as usize];
            (0x020304050000 + dice.below(keys + more), vlan)
        };
        let mut lent = Lent::free(dice.below(most + 1) as usize, vec![0; PLACES]);
        for s in &mut lent.table {
            let (dest, vlan) = draw_key(&mut dice, 0);
            let used = if dice.below(in_use + 1) == 0 {
                0
            } else {
                1 + dice.below(255) as u8
            };
            let rule = [1, dice.below(5) as u8][dice.below(2) as usize];
            *s = Stream {
                vlan,
                rule,
                used,
                ..running_to(dest)
            };
        }
        lent.rebuild();
        for _ in 0..dice.below(3) * dice.below(60) {
            let most = [256, lent.table.len() as u64 + 2][usize::from(dice.below(3) != 0)];
            let place = dice.below(PLACES as u64) as usize;
            lent.index[place] = dice.below(most) as u8;
        }
        if lent.unfit() == 0 {
            fit += 1;
            not_rebuilt += u32::from(!lent.is_rebuilt());
        } else {
            not_fit += 1;
        }
        match dice.below(4) {
            0 => {
                let (dest, vlan) = draw_key(&mut dice, 2);
                let window = [1, 4][usize::from(dice.below(8) != 0)];
                lent.open(Settings {
                    destination: six(dest),
                    rule: 1 + dice.below(3) as u8,
                    window,
                    ..settings(vlan)
                });
            }
            1 => {
                let slot = dice.below(lent.table.len() as u64 + 2) as usize;
                lent.close(slot);
            }
            _ => {
                let frames: Vec<_> = (0..dice.below(8))
                    .map(|_| {
                        let (dest, vlan) = draw_key(&mut dice, 2);
                        frame_to(dest, vlan, 95 + dice.below(10) as u16)
                    })
                    .collect();
                lent.batch(dice.below(2) as u8, frames.len(), &frames);
            }
        }
    }
    assert!(fit > 2000 && not_fit > 2000 && not_rebuilt > 1000);
}

/// A receiver's own index: it agrees whatever was written to the records, by whichever way.
#[test]
fn a_receiver_is_not_refused_with_18() {
    let (first, second) = (dest_at(127, 0), dest_at(127, 1));
    let frames = |r: &mut Receiver, dest: u64| {
        let mut buffer = vec![0, 60];
        buffer.extend(frame_to(dest, 0, 100));
        let mut out = [0; 100];
        let answer = r.batch(0, 1, &buffer, &mut out).unwrap();
        let slot = answer.answers().next().unwrap().map(|a| a.slot);
        slot
    };
    let to = |dest| Settings {
        destination: six(dest),
        ..settings(0)
    };
    let mut r = Receiver::from_records(vec![running_to(first), Stream::default()]);
    assert_eq!(frames(&mut r, first), Ok(0));
    assert_eq!(r.open(to(second)), Ok(1));
    // Keys changed by hand, and a slot in use that becomes free.
    r.records_mut().swap(0, 1);
    assert_eq!(frames(&mut r, first), Ok(1));
    assert_eq!(r.open(to(second)), Err(Refusal::Taken));
    r.records_mut()[0].used = 0;
    assert_eq!(r.close(0), Err(Refusal::Slot));
    assert_eq!(frames(&mut r, second), Err(Refusal::Unknown));
    assert_eq!(r.open(to(second)), Ok(0));
    r.records_mut()[0].vlan = 9;
    assert_eq!(r.close(0), Ok(()));
    // A copy has its own, and is equal if its records are.
    let mut copied = r.clone();
    copied.records_mut()[0].used = 1;
    assert_ne!(copied, r);
    assert_eq!(copied.close(0), Ok(()));
    assert_eq!(copied, r);
    assert_eq!(Receiver::default(), Receiver::new(0));
}
