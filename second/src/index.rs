//! An index beside the table of streams. Document 02: order 9; order 10 asks for
//! the agreement of each key twice, among the slots of rule 3 and among the rest.
//!
//! The caller lends it as bytes, one for each of its 128 places: 0 is empty, and
//! k + 1 names slot k. Any length and any content may be lent.
//!
//! Open, close and the batch take it here and ask whether it agrees with the
//! table. Then the calls without an index answer, by the plain search: those are
//! what the order holds the answers against.

use crate::table::{self, check_table};
use crate::wrong::{self, rule};
use crate::{Batch, Family, Refusal, Settings, Stream};

/// What an empty place has.
const EMPTY: u8 = 0;

/// The slot that a place names, in the table or beyond it.
fn named(place: u8) -> Option<usize> {
    usize::from(place).checked_sub(1)
}

/// The key mixed to 32 bits. The destination is one number, its first byte the
/// highest; its bits from 52 on do not count. Those from 20 to 31 are in both
/// halves.
pub fn mixed(destination: u64, vlan: u16) -> u32 {
    let low = destination as u32;
    let high = ((destination >> 20) as u32).wrapping_add(u32::from(vlan) << 16);
    low.wrapping_mul(1_234_164_911)
        .wrapping_add(high.wrapping_mul(557_513_737))
}

/// The place where following from this key starts: the highest seven bits of the
/// mixed key.
pub fn own_place(destination: [u8; 6], vlan: u16) -> usize {
    let number = destination
        .iter()
        .fold(0, |number, &byte| number << 8 | u64::from(byte));
    (mixed(number, vlan) >> 25) as usize
}

/// Is this slot in use with this key? Said again here, so that a slip in the
/// plain search is none in the index.
fn is_of(stream: &Stream, destination: [u8; 6], vlan: u16) -> bool {
    stream.is_in_use() && stream.destination == destination && stream.vlan == vlan
}

/// Is it one of this family too?
fn is_one_of(stream: &Stream, destination: [u8; 6], vlan: u16, family: Family) -> bool {
    let same = stream.family() == family;
    is_of(stream, destination, vlan) && rule!(same, AgreementOnce: true)
}

/// The slot of this family that following from this key finds. The place where it
/// starts is the key's, whatever the family. In an index that has not 128 places
/// it finds none.
pub fn follow(
    table: &[Stream],
    index: &[u8],
    destination: [u8; 6],
    vlan: u16,
    family: Family,
) -> Option<usize> {
    if index.len() != Stream::INDEX_PLACES {
        return None;
    }
    let own = own_place(destination, vlan);
    let steps = rule!(Stream::INDEX_PLACES, FollowEndsAt127: Stream::INDEX_PLACES - own);
    for step in 0..steps {
        let place = index[(own + step) % Stream::INDEX_PLACES];
        // An empty place ends it.
        let slot = named(place)?;
        // A slot beyond the table, a free one, one with another key and one of
        // the other family are passed over.
        match table.get(slot) {
            Some(stream) if is_one_of(stream, destination, vlan, family) => return Some(slot),
            Some(stream) if is_of(stream, destination, vlan) => {
                rule!((), FollowStopsAtFamily: return None)
            }
            Some(stream) if stream.is_in_use() => rule!((), FollowStopsAtOther: return None),
            _ => {}
        }
    }
    None
}

/// Has the index 128 places, and does following from any key find the lowest
/// slot in use with it, or none if there is none, in both families?
///
/// Only a slot in use with the key and of the family is ever found. So a key that
/// no such slot has is right whatever the index holds, and the keys of the slots
/// in use are all that has to be tried, each in its slot's family.
pub fn agrees(table: &[Stream], index: &[u8]) -> bool {
    let right = |slot: &Stream| {
        let (destination, vlan, family) = (slot.destination, slot.vlan, slot.family());
        let mine = |s: &Stream| is_one_of(s, destination, vlan, family);
        follow(table, index, destination, vlan, family) == table.iter().position(mine)
    };
    let asked =
        |s: &&Stream| s.is_in_use() && rule!(true, AgreementOfRest: s.family() == Family::Rest);
    index.len() == Stream::INDEX_PLACES && table.iter().filter(asked).all(right)
}

/// Refusal 18 of open, close and the batch.
fn check_index(table: &[Stream], index: &[u8]) -> Result<(), Refusal> {
    if agrees(table, index) {
        Ok(())
    } else {
        Err(Refusal::BadIndex)
    }
}

/// Writes the rebuilt index: every slot in use, the lowest first, at the first
/// empty place from its own on, round the end. The index has 128 places and the
/// table at most 64 slots, so there always is one.
fn write_rebuilt(table: &[Stream], index: &mut [u8]) {
    index.fill(EMPTY);
    for (slot, stream) in table.iter().enumerate() {
        let entered = rule!(true, RebuildLeavesLinks: stream.family() == Family::Rest);
        if !stream.is_in_use() || !entered {
            continue;
        }
        let mut place = own_place(stream.destination, stream.vlan);
        while index[place] != EMPTY {
            place = (place + 1) % Stream::INDEX_PLACES;
        }
        index[place] = slot as u8 + 1;
    }
}

/// Rebuilds the index from any table, whatever it held. Refusals 1, then 18 for
/// its length.
pub fn rebuild(table: &[Stream], index: &mut [u8]) -> Result<(), Refusal> {
    check_table(table)?;
    if index.len() != Stream::INDEX_PLACES {
        return Err(Refusal::BadIndex);
    }
    write_rebuilt(table, index);
    Ok(())
}

/// Opens a stream in the lowest free slot and answers that slot. Refusals 1,
/// 18, 9, 10, 11 in this order. Then the index is the rebuilt one of the new
/// table; a refusal leaves it as it was.
pub fn open(table: &mut [Stream], index: &mut [u8], settings: Settings) -> Result<usize, Refusal> {
    check_table(table)?;
    check_index(table, index)
        .map_err(|why| rule!(why, SettingsBeforeIndex: wrong::settings_before(settings, why)))?;
    let opened = table::open(table, settings);
    if rule!(opened.is_ok(), RefusedOpenRebuilds: true) {
        write_rebuilt(table, index);
    }
    opened
}

/// Frees a slot. Refusals 1, 18, 12. Then the index is the rebuilt one of the
/// new table: a place that still named the slot could hide another one with its
/// key. A refusal leaves the index as it was.
pub fn close(table: &mut [Stream], index: &mut [u8], slot: usize) -> Result<(), Refusal> {
    check_table(table)?;
    check_index(table, index)?;
    table::close(table, slot)?;
    rule!(write_rebuilt(table, index), CloseKeepsIndex: ());
    Ok(())
}

/// Frames that came in on a network, `count` of them, each behind its length in
/// two bytes, high byte first. Those handed up are packed into the output in
/// the same form. Refusals 1, 18, 2, 15 in this order. The index is asked once,
/// for no frame changes a key or frees a slot, and stays as it is.
pub fn batch(
    table: &mut [Stream],
    index: &[u8],
    network: u8,
    count: usize,
    frames: &[u8],
    output: &mut [u8],
) -> Result<Batch, Refusal> {
    check_table(table)?;
    rule!(check_index(table, index), BatchIndexUnchecked: Ok(()))?;
    let done = crate::batch::batch(table, network, count, frames, output)?;
    Ok(rule!(
        done,
        BatchHasNone: wrong::priorities(done, |_, _| wrong::NO_VLAN_TAG),
        BatchOfFirst: wrong::priorities(done, |own, _| own[0]),
        BatchOfLast: wrong::priorities(done, |own, _| own[own.len() - 1]),
        BatchOfBefore: wrong::priorities(done, wrong::of_before),
        BatchKeepsLastTag: wrong::priorities(done, wrong::of_last_tag)
    ))
}
