//! Order 9 of document 02: an index beside the table. Each sentence of the order
//! as a case, the places where a slip is likely, and random tables and indices
//! beside the search that the order says it must equal.

mod common;

use common::*;
use second::event_file::{kind, run, VERSION};
use second::generate::file;
use second::random::Random;
use second::wrong::{self, Wrong};
use second::{
    agrees, arrival, batch, close, follow, mixed, open, own_place, rebuild, Family, Refusal,
    Settings, Stream,
};
use Family::{Links, Rest};

/// An index with these names in these places, and all others empty.
fn with_places(named: &[(usize, u8)]) -> Vec<u8> {
    let mut index = vec![0; 128];
    for &(place, name) in named {
        index[place % 128] = name;
    }
    index
}

fn stream_of((destination, vlan): Key) -> Stream {
    Stream {
        destination,
        vlan,
        ..fresh(Stream::VECTOR, 4, 3)
    }
}

fn settings_of((destination, vlan): Key) -> Settings {
    Settings {
        destination,
        vlan,
        ..settings(Stream::VECTOR, 4, 3)
    }
}

fn closed(stream: Stream) -> Stream {
    Stream {
        in_use: 0,
        ..stream
    }
}

/// Both the library and the test say so.
fn agreed(table: &[Stream], index: &[u8]) -> bool {
    let agreed = agrees(table, index);
    assert_eq!(agreed, agree(table, index));
    agreed
}

/// A key of a table's slot.
fn key(stream: &Stream) -> Key {
    (stream.destination, stream.vlan)
}

/// The three calls on this table with this index. Each one must give this
/// number and change nothing.
fn all_refuse(number: u8, table: &[Stream], index: &[u8]) {
    let (mut table_after, mut index_after) = (table.to_vec(), index.to_vec());
    let mut output = [FILL; 100];
    let input = packed(&[tagged(7)]);
    for settings in [
        settings(1, 4, 3),
        settings(0, 0, 0),
        settings_of(([9; 6], 1)),
    ] {
        let answer = open(&mut table_after, &mut index_after, settings);
        assert_eq!(number_of(answer), number);
    }
    for slot in [0, 1, 64, usize::MAX] {
        let answer = close(&mut table_after, &mut index_after, slot);
        assert_eq!(number_of(answer), number);
    }
    for (network, count, input) in [
        (0, 1, &input[..]),
        (2, 1, &input),
        (0, 33, &input),
        (1, 1, &[]),
    ] {
        let answer = batch(
            &mut table_after,
            &index_after,
            network,
            count,
            input,
            &mut output,
        );
        assert_eq!(number_of(answer), number);
    }
    assert_eq!((&table_after[..], &index_after[..]), (table, index));
    assert_eq!(output, [FILL; 100]);
}

#[test]
fn the_numbers_are_those_of_the_order() {
    assert_eq!(Refusal::BadIndex.number(), 18);
    assert_eq!(Stream::INDEX_PLACES, 128);
}

#[test]
fn a_key_is_mixed_with_a_wrap_at_32_bits() {
    // Worked out apart.
    for (key, place) in [
        (([0; 6], 0), 0),
        (([2, 0, 0, 0, 0, 1], 0), 101),
        (([2, 0, 0, 0, 0, 1], 1), 99),
        (([2, 0, 0, 0, 0, 2], 0), 10),
        (([2, 0, 0, 0, 0, 2], 4094), 86),
        (([3, 0, 0, 0, 0, 1], 256), 74),
        (([255; 6], 0), 18),
        (([255; 6], 4094), 94),
        // Here the sum of the high half wraps too.
        (([255; 6], 65535), 20),
    ] {
        assert_eq!(own_place(key.0, key.1), place);
        assert_eq!(place_of(key), place);
    }
    assert_eq!(mixed(1, 0), 1_234_164_911);
    assert_eq!(mixed(1 << 19, 0), (1_234_164_911u64 << 19) as u32);
    // Bits from 20 to 31 are in both halves.
    for bit in [20, 31] {
        let sum = (1_234_164_911u64 << bit) + (557_513_737 << (bit - 20));
        assert_eq!(mixed(1 << bit, 0), sum as u32);
    }
    assert_eq!(
        mixed(1 << 32, 0),
        (557_513_737u64 * 4096 % (1 << 32)) as u32
    );
    assert_eq!(mixed(0, 1), (557_513_737u64 * 65536 % (1 << 32)) as u32);
    // Bits from 52 on do not count.
    assert_eq!(mixed(1 << 51, 0), 1 << 31);
    assert_eq!(mixed(1 << 52, 0), 0);
    assert_eq!(mixed(u64::MAX, 5), mixed((1 << 52) - 1, 5));
    let mut random = Random::new(91);
    let mut met = [false; 128];
    for _ in 0..20_000 {
        let mut destination = [0; 6];
        random.fill(&mut destination);
        let vlan = random.pick(&[0, 5, 4095, 65535, random.clone().word()]);
        let place = own_place(destination, vlan);
        assert_eq!(place, place_of((destination, vlan)));
        met[place] = true;
    }
    assert_eq!(met, [true; 128]);
}

#[test]
fn names_that_do_not_fit_are_passed_over() {
    let keys = keys_at(40);
    let [mine, other] = [keys[0], keys[1]];
    let table = [stream_of(other), stream_of(mine), closed(stream_of(mine))];
    let find = |index: &[u8]| {
        let found = follow(&table, index, mine.0, mine.1, Rest);
        assert_eq!(found, followed(&table, index, mine, Rest));
        assert_eq!(follow(&table, index, mine.0, mine.1, Links), None);
        found
    };
    // Slot 1 behind a place that names another key, a free slot, the slot just
    // beyond the table, and the last that a byte can name.
    for passed in [1, 3, 4, 255] {
        assert_eq!(find(&with_places(&[(40, passed), (41, 2)])), Some(1));
        // An empty place ends it, also where the slot's name stands behind.
        assert_eq!(find(&with_places(&[(40, passed), (42, 2)])), None);
        let mut full = vec![passed; 128];
        assert_eq!(find(&full), None);
        full[39] = 2;
        // The last of the 128 places.
        assert_eq!(find(&full), Some(1));
    }
    assert_eq!(find(&with_places(&[(40, 2)])), Some(1));
    assert_eq!(find(&with_places(&[])), None);
    // In front of its own place it is not looked for.
    assert_eq!(find(&with_places(&[(39, 2)])), None);
    for length in [0, 1, 41, 127, 129, 255] {
        assert_eq!(follow(&table, &vec![2; length], mine.0, mine.1, Rest), None);
    }
}

#[test]
fn following_goes_round_the_end() {
    let keys = [keys_at(127), keys_at(126)].concat();
    let table: Vec<Stream> = keys[..6].iter().map(|&key| stream_of(key)).collect();
    let index = rebuilt(&table);
    // Four keys of place 127, then two of place 126.
    let expected = [(127, 1), (0, 2), (1, 3), (2, 4), (126, 5), (3, 6)];
    assert_eq!(index, with_places(&expected));
    assert!(agreed(&table, &index));
    for (slot, key) in keys[..6].iter().enumerate() {
        assert_eq!(follow(&table, &index, key.0, key.1, Rest), Some(slot));
    }
    // A key that no slot has goes on to place 4, which is empty.
    let (destination, vlan) = keys[6];
    assert_eq!(follow(&table, &index, destination, vlan, Rest), None);
    // With the name at the end cut off from those behind it, none is found.
    let mut broken = index;
    broken[0] = 0;
    assert!(!agreed(&table, &broken));
    all_refuse(18, &table, &broken);
}

#[test]
fn all_places_may_name_slot_0() {
    let mut table = vec![Stream::FREE; 3];
    table[0] = fresh(Stream::VECTOR, 4, 3);
    let mut index = [1; 128];
    assert!(agreed(&table, &index));
    // There is no empty place and none that names a free slot, and yet the new
    // slot is found behind the open.
    let other = ([2, 0, 0, 0, 0, 9], 5);
    assert_eq!(open(&mut table, &mut index, settings_of(other)), Ok(1));
    assert_eq!(index[..], rebuilt(&table));
    assert_eq!(follow(&table, &index, other.0, other.1, Rest), Some(1));
    // With a second slot in use it agrees no more.
    let index = [1; 128];
    assert!(!agreed(&table, &index));
    all_refuse(18, &table, &index);
    // Where slot 0 is the one with the key, a second one may have no place.
    table[1] = table[0];
    assert!(agreed(&table, &index));
}

#[test]
fn two_slots_with_one_key_and_the_lower_closed() {
    let one = fresh(Stream::VECTOR, 4, 3);
    let own = place_of(key(&one));
    let start = [one, Stream::FREE, one];
    // The index may name the lower alone, or both in this order, or the lower
    // twice. It must not name the higher first.
    for (named, good) in [
        (&[(own, 1)][..], true),
        (&[(own, 1), (own + 1, 3)], true),
        (&[(own, 1), (own + 1, 1), (own + 2, 3)], true),
        (&[(own, 2), (own + 1, 1)], true),
        (&[(own, 3)], false),
        (&[(own, 3), (own + 1, 1)], false),
        (&[(own, 2)], false),
        (&[], false),
    ] {
        let mut table = start;
        let mut index = with_places(named);
        assert_eq!(agreed(&table, &index), good);
        if !good {
            all_refuse(18, &table, &index);
            continue;
        }
        assert_eq!(close(&mut table, &mut index, 0), Ok(()));
        assert_eq!(index, with_places(&[(own, 3)]));
        assert!(agreed(&table, &index));
        let found = follow(&table, &index, one.destination, one.vlan, Rest);
        assert_eq!(found, Some(2));
        // And the higher one, after the lower: then no slot has the key.
        assert_eq!(close(&mut table, &mut index, 2), Ok(()));
        assert_eq!(index, with_places(&[]));
        assert_eq!(open(&mut table, &mut index, settings(1, 4, 3)), Ok(0));
        assert_eq!(index, with_places(&[(own, 1)]));
    }
    // The higher closed: its name does not stay.
    let (mut table, mut index) = (start, with_places(&[(own, 1), (own + 1, 3)]));
    assert_eq!(close(&mut table, &mut index, 2), Ok(()));
    assert_eq!(index, with_places(&[(own, 1)]));
}

#[test]
fn two_slots_with_one_key_are_both_entered() {
    let keys = keys_at(7);
    let [one, other] = [stream_of(keys[0]), stream_of(keys[1])];
    let table = [one, other, closed(one), one, other, one];
    let mut index = [FILL; 128];
    assert_eq!(rebuild(&table, &mut index), Ok(()));
    let expected = with_places(&[(7, 1), (8, 2), (9, 4), (10, 5), (11, 6)]);
    assert_eq!(index[..], expected);
    assert!(agreed(&table, &index));
}

#[test]
fn an_index_without_an_empty_place_at_an_open() {
    let mut table = [Stream::FREE; 4];
    let mut index = vec![0; 128];
    for last in 0..3 {
        let settings = settings_of(([2, 0, 0, 0, 0, last], 0));
        open(&mut table, &mut index, settings).unwrap();
    }
    // Every empty place names a slot: a free one, one beyond the table, or one
    // in use that has its place already.
    for (name, good) in [(4, true), (5, true), (65, true), (255, true), (3, true)] {
        let mut table = table;
        let mut full = index.clone();
        full.iter_mut().filter(|p| **p == 0).for_each(|p| *p = name);
        assert_eq!(agreed(&table, &full), good);
        let settings = settings_of(([2, 0, 0, 0, 0, 77], 0));
        assert_eq!(open(&mut table, &mut full, settings), Ok(3));
        assert_eq!(full, rebuilt(&table));
        assert!(agreed(&table, &full));
    }
}

#[test]
fn an_index_that_agrees_and_is_not_the_rebuilt_one() {
    let keys = keys_at(99);
    let mut table = vec![stream_of(keys[0]), stream_of(keys[1]), Stream::FREE];
    // The higher slot in front, and names that are passed over.
    let index = with_places(&[(99, 2), (100, 9), (101, 3), (102, 1), (5, 1)]);
    assert!(agreed(&table, &index));
    assert_ne!(index, rebuilt(&table));
    // The batch leaves it.
    let input = packed(&[tagged_to(keys[0].0, Some(keys[0].1), 7)]);
    let done = batch(&mut table, &index, 0, 1, &input, &mut [0; 40]).unwrap();
    assert_eq!(word(done.answers[0].unwrap().unwrap()), "up");
    assert!(agreed(&table, &index));
    // So does every refusal of the others.
    let mut after = index.clone();
    for (settings, number) in [(settings(1, 1, 3), 9), (settings_of(keys[1]), 10)] {
        let answer = open(&mut table, &mut after, settings);
        assert_eq!((number_of(answer), &after), (number, &index));
    }
    let mut full = table[..2].to_vec();
    let answer = open(&mut full, &mut after, settings_of(keys[2]));
    assert_eq!((number_of(answer), &after), (11, &index));
    for slot in [2, 3, 64, usize::MAX] {
        let answer = close(&mut table, &mut after, slot);
        assert_eq!((number_of(answer), &after), (12, &index));
    }
    // A success leaves the rebuilt one.
    let mut opened = table.clone();
    assert_eq!(open(&mut opened, &mut after, settings_of(keys[2])), Ok(2));
    assert_eq!(after, with_places(&[(99, 1), (100, 2), (101, 3)]));
    let mut after = index;
    assert_eq!(close(&mut table, &mut after, 0), Ok(()));
    assert_eq!(after, with_places(&[(99, 2)]));
}

#[test]
fn a_table_of_no_slots_agrees_with_every_index() {
    for index in [vec![0; 128], vec![1; 128], vec![255; 128], vec![7; 128]] {
        assert!(agreed(&[], &index));
        let mut after = index.clone();
        assert_eq!(number_of(open(&mut [], &mut after, settings(1, 4, 3))), 11);
        assert_eq!(number_of(open(&mut [], &mut after, settings(4, 4, 3))), 9);
        assert_eq!(number_of(close(&mut [], &mut after, 0)), 12);
        let done = batch(&mut [], &after, 0, 1, &packed(&[tagged(7)]), &mut []).unwrap();
        assert_eq!(done.answers[0], Some(Err(Refusal::NoStream)));
        assert_eq!(after, index);
        assert_eq!(rebuild(&[], &mut after), Ok(()));
        assert_eq!(after, [0; 128]);
    }
    all_refuse(18, &[], &[0; 127]);
}

#[test]
fn refusal_1_comes_before_18() {
    for slots in [65, 66, 300] {
        let mut table = vec![Stream::FREE; slots];
        table[0] = fresh(Stream::VECTOR, 4, 3);
        for index in [
            index_of(&table[..64]).to_vec(),
            vec![0; 128],
            vec![0; 127],
            vec![],
        ] {
            all_refuse(1, &table, &index);
            let mut after = index.clone();
            assert_eq!(number_of(rebuild(&table, &mut after)), 1);
            assert_eq!(after, index);
        }
    }
}

#[test]
fn a_table_of_64_slots_has_all_in_its_index() {
    let mut table = [Stream::FREE; 64];
    let mut index = [0; 128];
    // All keys with one of two places, so that their names stand in a row.
    let keys: Vec<Key> = (0..65536u32)
        .map(|n| ([2, 0, 0, 0, (n / 256) as u8, n as u8], 0))
        .filter(|&key| [100, 101].contains(&place_of(key)))
        .take(65)
        .collect();
    for (slot, &key) in keys[..64].iter().enumerate() {
        assert_eq!(open(&mut table, &mut index, settings_of(key)), Ok(slot));
        assert!(agreed(&table, &index));
        assert_eq!(index[..], rebuilt(&table));
    }
    let named = |place: usize| (100..164).any(|named| named % 128 == place);
    assert!((0..128).all(|place| (index[place] != 0) == named(place)));
    let before = index;
    let answer = open(&mut table, &mut index, settings_of(keys[64]));
    assert_eq!((number_of(answer), index), (11, before));
    for slot in [0, 63, 31] {
        assert_eq!(close(&mut table, &mut index, slot), Ok(()));
        assert!(agreed(&table, &index));
        assert_eq!(index[..], rebuilt(&table));
    }
}

#[test]
fn only_128_places_will_do() {
    let table = [fresh(Stream::VECTOR, 4, 3), Stream::FREE];
    let good = rebuilt(&table);
    for length in [0, 1, 64, 126, 127, 129, 130, 255, 256, 1000] {
        let mut index = good.clone();
        index.resize(length, 0);
        assert!(!agreed(&table, &index));
        all_refuse(18, &table, &index);
        all_refuse(18, &[Stream::FREE], &index);
        let before = index.clone();
        assert_eq!(number_of(rebuild(&table, &mut index)), 18);
        assert_eq!(index, before);
    }
    let mut index = vec![FILL; 128];
    assert_eq!(rebuild(&table, &mut index), Ok(()));
    assert_eq!(index, good);
}

#[test]
fn refusal_18_comes_before_9_12_2_and_15() {
    // One fault after the other is mended.
    let mut table = vec![fresh(Stream::VECTOR, 4, 3)];
    let (good, mut bad) = (rebuilt(&table), vec![0; 128]);
    all_refuse(18, &table, &bad);
    let mut index = good.clone();
    for (settings, number) in [
        (settings(1, 513, 3), 9),
        (settings(1, 4, 3), 10),
        (settings_of(([9; 6], 1)), 11),
    ] {
        assert_eq!(number_of(open(&mut table, &mut bad, settings)), 18);
        let answer = open(&mut table, &mut index, settings);
        assert_eq!(number_of(answer), number);
    }
    assert_eq!(number_of(close(&mut table, &mut bad, 1)), 18);
    assert_eq!(number_of(close(&mut table, &mut index, 1)), 12);
    for (network, count, number) in [(2, 33, 2), (0, 33, 15), (0, 1, 15)] {
        for (index, number) in [(&bad, 18), (&index, number)] {
            let answer = batch(&mut table, index, network, count, &[0], &mut []);
            assert_eq!(number_of(answer), number);
        }
    }
    // A batch of no frames asks for the agreement too.
    assert_eq!(number_of(batch(&mut table, &bad, 0, 0, &[], &mut [])), 18);
    assert_eq!(number_of(batch(&mut table, &index, 0, 0, &[], &mut [])), 0);
    assert_eq!((index, bad), (good, vec![0; 128]));
}

#[test]
fn keys_that_no_frame_can_have_count_too() {
    let lent = stream_of(([2, 0, 0, 0, 0, 1], 65535));
    let table = [lent];
    assert!(!agreed(&table, &[0; 128]));
    let index = rebuilt(&table);
    assert_eq!(index[place_of(key(&lent))], 1);
    assert!(agreed(&table, &index));
    // A damaged record has its key, and a free one has none.
    let damaged = Stream { rule: 9, ..lent };
    assert!(agreed(&[damaged], &index));
    assert!(!agreed(&[damaged], &[0; 128]));
    assert!(agreed(&[closed(lent)], &index));
    assert!(agreed(&[closed(lent)], &[0; 128]));
    // Every value but 0 is in use.
    let in_use = Stream {
        in_use: 200,
        ..lent
    };
    assert!(!agreed(&[in_use], &[0; 128]));
    assert_eq!(rebuilt(&[in_use]), index);
}

#[test]
fn a_single_arrival_a_reset_and_a_tick_leave_the_agreement() {
    let mut table = [fresh(Stream::VECTOR, 4, 1), fresh(Stream::MATCH, 4, 1)];
    let index = rebuilt(&table);
    arrival(&mut table, 0, &tagged(7), &mut [0; 40]).unwrap();
    assert!(agreed(&table, &index));
    assert_eq!(second::tick(&mut table).unwrap().reset, 1);
    assert!(agreed(&table, &index));
    second::reset(&mut table, 1).unwrap();
    assert!(agreed(&table, &index));
}

/// A table whose keys often share a place, some of them at the end of the index.
/// Now and then it has more than 64 slots.
fn crowded(random: &mut Random, pool: &[Key]) -> Vec<Stream> {
    let slots = random.pick(&[0, 1, 2, 3, 5, 8, 20, 63, 64, 64, 65]);
    let some = &pool[..random.pick(&[3, 8, 20, pool.len()])];
    (0..slots)
        .map(|_| {
            let key = random.pick(some);
            let stream = any_stream(random, &[key.0], &[key.1]);
            let vlan = random.pick(&[key.1, stream.vlan]);
            Stream { vlan, ..stream }
        })
        .collect()
}

fn pool() -> Vec<Key> {
    [127, 126, 0, 125, 3, 60, 61, 1]
        .into_iter()
        .flat_map(keys_at)
        .collect()
}

#[test]
fn following_and_agreement_on_random_tables_and_indices() {
    let mut random = Random::new(92);
    let mut seen = Seen::default();
    let pool = pool();
    assert_eq!(pool.len(), 32);
    for _ in 0..20_000 {
        let table = crowded(&mut random, &pool);
        let index = any_index(&mut random, &table);
        let slots = table.iter().map(key);
        let keys: Vec<Key> = slots.chain(pool.iter().copied()).collect();
        if index.len() == 128 {
            let mut all = true;
            for (&key, family) in keys.iter().flat_map(|key| FAMILIES.map(|f| (key, f))) {
                let found = follow(&table, &index, key.0, key.1, family);
                assert_eq!(found, followed(&table, &index, key, family));
                all &= found == lowest(&table, key, family);
            }
            assert_eq!(agrees(&table, &index), all);
        }
        let good = agreed(&table, &index);
        seen.note("agreement", u8::from(good));
        if good && table.len() <= 64 {
            let same = index == rebuilt(&table);
            seen.note("of the rebuilt one", u8::from(same));
            let both = in_use(&table).iter().any(|&slot| {
                let of = |family| lowest(&table, key(&table[slot]), family);
                of(Links).is_some() && of(Rest).is_some()
            });
            seen.note("with a key in both families", u8::from(both));
            let full = !index.contains(&0);
            seen.note("without an empty place", u8::from(full));
            let wraps = in_use(&table).iter().any(|&slot| {
                let place = index.iter().position(|&name| usize::from(name) == slot + 1);
                place.map_or(false, |place| place < place_of(key(&table[slot])))
            });
            seen.note("round the end", u8::from(wraps));
        }

        let mut after = index.clone();
        let answer = rebuild(&table, &mut after);
        let expected = match (table.len() > 64, index.len() != 128) {
            (true, _) => 1,
            (false, true) => 18,
            _ => 0,
        };
        assert_eq!(number_of(answer), expected);
        seen.note("rebuild", expected);
        if answer.is_ok() {
            assert_eq!(after, rebuilt(&table));
            assert!(agreed(&table, &after));
        } else {
            assert_eq!(after, index);
        }
    }
    for what in [
        "agreement",
        "of the rebuilt one",
        "with a key in both families",
        "without an empty place",
        "round the end",
    ] {
        seen.all_met(what, &[0, 1]);
    }
    seen.all_met("rebuild", &[0, 1, 18]);
}

/// A run of calls that keeps one index, as a host does. Before each the two
/// agree, and after each too; what is answered is what the plain search and the
/// single arrivals say.
fn random_runs_keep_the_agreement() {
    let mut seen = Seen::default();
    let pool = pool();
    for seed in 0..300 {
        let random = &mut Random::new(seed);
        let mut table = crowded(random, &pool);
        table.truncate(64);
        let mut index = any_index(random, &table);
        if !agree(&table, &index) {
            assert_eq!(number_of(close(&mut table, &mut index, 0)), 18);
            index = vec![FILL; 128];
            rebuild(&table, &mut index).unwrap();
        }
        for _ in 0..60 {
            let (before, index_before) = (table.clone(), index.clone());
            let target = random.pick(&pool);
            let slot = random.below(table.len() as u64 + 2) as usize;
            let was = FAMILIES.iter().find_map(|&f| lowest(&table, target, f));
            let free = (0..table.len()).find(|&slot| table[slot].in_use == 0);
            match random.below(3) {
                0 => {
                    // A virtual link has VLAN id 0.
                    let rule = match target.1 {
                        0 => random.pick(&[Stream::VECTOR, Stream::LINK]),
                        _ => Stream::VECTOR,
                    };
                    let settings = Settings {
                        rule,
                        ..settings_of(target)
                    };
                    let answer = open(&mut table, &mut index, settings);
                    let number = match (was, free) {
                        (Some(_), _) => 10,
                        (None, None) => 11,
                        _ => 0,
                    };
                    assert_eq!(number_of(answer), number);
                    seen.note("open", number);
                    if let Ok(slot) = answer {
                        assert_eq!(Some(slot), free);
                        let family = table[slot].family();
                        let found = follow(&table, &index, target.0, target.1, family);
                        assert_eq!(found, free);
                        seen.note("open of rule", rule);
                    }
                }
                1 => {
                    let held = table.get(slot).map_or(false, |s| s.in_use != 0);
                    let answer = close(&mut table, &mut index, slot);
                    assert_eq!(number_of(answer), if held { 0 } else { 12 });
                    seen.note("close", number_of(answer));
                    let twin = |s: &Stream| lowest(&table, key(s), s.family()).is_some();
                    let twin = held && twin(&table[slot]);
                    seen.note("close of one of two", u8::from(twin));
                }
                _ => {
                    let frames: Vec<Vec<u8>> = (0..4)
                        .map(|_| {
                            let (destination, vlan) = random.pick(&pool);
                            tagged_to(destination, Some(vlan), random.below(6) as u16)
                        })
                        .collect();
                    let (input, mut singles) = (packed(&frames), table.clone());
                    let done = batch(&mut table, &index, 1, 4, &input, &mut [0; 100]).unwrap();
                    for (frame, answer) in frames.iter().zip(done.answers) {
                        let single = arrival(&mut singles, 1, frame, &mut [0; 100]);
                        assert_eq!(answer, Some(single));
                        seen.note("frame", number_of(single));
                        if let Ok(single) = single {
                            let vlan = u16::from_be_bytes([frame[14], frame[15]]);
                            let destination = frame[..6].try_into().unwrap();
                            let found = follow(&table, &index, destination, vlan, Rest);
                            assert_eq!(found, Some(single.slot));
                        }
                    }
                    assert_eq!((&table, &index), (&singles, &index_before));
                }
            }
            assert!(agreed(&table, &index));
            let flags = |table: &[Stream]| table.iter().map(|s| s.in_use).collect::<Vec<_>>();
            if flags(&before) == flags(&table) {
                assert_eq!(index, index_before);
            } else {
                assert_eq!(index, rebuilt(&table));
            }
        }
    }
    seen.all_met("open", &[0, 10, 11]);
    seen.all_met("open of rule", &[1, 3]);
    seen.all_met("close", &[0, 12]);
    seen.all_met("close of one of two", &[0, 1]);
    seen.all_met("frame", &[0, 6, 7]);
}

#[test]
fn the_calls_keep_the_agreement() {
    random_runs_keep_the_agreement();
}

fn lines_of(file: &[u8]) -> String {
    let mut lines = Vec::new();
    run(&mut &file[..], &mut lines).unwrap();
    String::from_utf8(lines).unwrap()
}

#[test]
fn event_files_never_meet_18() {
    for seed in 0..300 {
        assert!(!lines_of(&file(seed, 300)).contains(" no 18"), "{seed}");
    }
}

/// Opens and closes of keys that often share a place, as those of `generate` do
/// not.
#[test]
fn event_files_whose_keys_share_places_never_meet_18() {
    let pool = pool();
    for seed in 0..300 {
        let random = &mut Random::new(seed);
        let bodies: Vec<Vec<u8>> = (0..100)
            .map(|_| match random.below(3) {
                0 => vec![kind::CLOSE, random.below(8) as u8],
                _ => {
                    let (destination, vlan) = random.pick(&pool);
                    let [high, low] = vlan.to_be_bytes();
                    let behind = [high, low, Stream::VECTOR, 4, 0, 3];
                    [&[kind::OPEN], &destination[..], &behind].concat()
                }
            })
            .collect();
        let lines = lines_of(&[&[VERSION], &packed(&bodies)[..]].concat());
        assert!(lines.contains(" O 7") && lines.contains(" C ok"), "{seed}");
        assert!(!lines.contains(" no 18"), "{seed}");
    }
}

/// If one of them did, the list of wrong variants would have to say so.
#[test]
fn generated_files_show_no_slip_of_the_index() {
    use Wrong::*;
    let slips = [
        CloseKeepsIndex,
        FollowStopsAtOther,
        FollowEndsAt127,
        SettingsBeforeIndex,
        RefusedOpenRebuilds,
        BatchIndexUnchecked,
    ];
    for seed in 0..300 {
        let file = file(seed, 300);
        let right = lines_of(&file);
        for slip in slips {
            wrong::set(Some(slip));
            let lines = lines_of(&file);
            wrong::set(None);
            assert_eq!(lines, right, "{slip:?}, {seed}");
        }
    }
}

#[test]
fn wrong_indices_are_found() {
    use Wrong::*;
    finds(
        random_runs_keep_the_agreement,
        &[CloseKeepsIndex, FollowStopsAtOther, FollowEndsAt127],
    );
    finds(
        event_files_whose_keys_share_places_never_meet_18,
        &[FollowStopsAtOther, FollowEndsAt127],
    );
    finds(following_goes_round_the_end, &[FollowEndsAt127]);
    finds(
        two_slots_with_one_key_and_the_lower_closed,
        &[CloseKeepsIndex],
    );
    finds(
        an_index_that_agrees_and_is_not_the_rebuilt_one,
        &[RefusedOpenRebuilds],
    );
    finds(
        refusal_18_comes_before_9_12_2_and_15,
        &[SettingsBeforeIndex, BatchIndexUnchecked],
    );
}
