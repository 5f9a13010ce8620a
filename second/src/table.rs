//! The calls on a table of streams. Document 01: "Calls and the order of
//! checks". Document 02: orders 1, 5, 10 and 11. Open and close stand here as
//! without the index; the public ones are those of order 9 (`index`).
//!
//! Each call makes all its checks before it changes anything, so a refusal
//! leaves every byte as it was.

use crate::frame::{self, Numbered};
use crate::stream::{Decision, Family};
use crate::wrong::{self, rule};
use crate::{Refusal, Stream};

/// What an arrival that was not refused answers.
#[derive(Clone, Copy, Debug, PartialEq, Eq)]
pub struct Arrival {
    /// The slot of the stream.
    pub slot: usize,
    /// The number in the tag, or in a virtual link's last byte.
    pub number: u16,
    /// What became of the frame.
    pub verdict: Verdict,
    /// The VLAN tag's three priority bits, 0 to 7, with each verdict. It is 0 with
    /// no such tag, and for a virtual link's frame.
    pub priority: u8,
    /// Was a VLAN tag there? Never so for a virtual link's frame.
    pub vlan_tag: bool,
}

/// The three verdicts.
#[derive(Clone, Copy, Debug, PartialEq, Eq)]
pub enum Verdict {
    /// The frame without its tag, or without its last byte, stands in the
    /// output, this many bytes long.
    HandedUp {
        /// Bytes written to the output.
        length: usize,
    },
    /// The number came before, or is not ahead in a virtual link. Nothing was
    /// written.
    Duplicate,
    /// The number is outside the window. Nothing was written.
    Rogue,
}

/// What a tick answers.
#[derive(Clone, Copy, Debug, PartialEq, Eq)]
pub struct Ticked {
    /// Streams that this tick reset.
    pub reset: usize,
    /// Records in use that are damaged.
    pub damaged: usize,
}

/// Key and settings of a stream to open.
#[derive(Clone, Copy, Debug, PartialEq, Eq)]
pub struct Settings {
    /// First half of the key.
    pub destination: [u8; 6],
    /// Second half of the key, 0 to 4094, and 0 alone for a virtual link.
    pub vlan: u16,
    /// 1 vector, 2 match, 3 virtual link.
    pub rule: u8,
    /// L, 2 to 512.
    pub window: u16,
    /// R, 1 to 65535.
    pub reset_time: u16,
}

/// Refusal 1, the first check of every call on a table.
pub(crate) fn check_table(table: &[Stream]) -> Result<(), Refusal> {
    if table.len() > Stream::MAX_SLOTS {
        Err(Refusal::TableTooLong)
    } else {
        Ok(())
    }
}

/// Refusal 2 of an arrival, of a batch and to PRP.
pub(crate) fn check_network(network: u8) -> Result<(), Refusal> {
    if network > 1 {
        Err(Refusal::NoSuchNetwork)
    } else {
        Ok(())
    }
}

/// The lowest slot in use with the key, damaged or not, of those that the call
/// looks at.
fn find(
    table: &[Stream],
    destination: [u8; 6],
    vlan: u16,
    looks_at: impl Fn(&Stream) -> bool,
) -> Option<usize> {
    let mine = |s: &Stream| looks_at(s) && s.has_key(destination, vlan);
    rule!(
        table.iter().position(mine),
        SearchEndsAtVlan: wrong::until_other_vlan(table, vlan).iter().position(mine),
        FirstWithVlan: wrong::first_with_vlan(table, vlan).filter(|&slot| mine(&table[slot]))
    )
}

/// Refusal 12: the slot must be in the table and in use.
fn slot_in_use(table: &mut [Stream], slot: usize) -> Result<&mut Stream, Refusal> {
    match table.get_mut(slot) {
        Some(stream) if stream.is_in_use() => Ok(stream),
        _ => Err(Refusal::NoSuchSlot),
    }
}

/// A frame came in on a network. Refusals 1 to 5, 14, 6, 7, 8 in this order. It
/// looks at no slot of rule 3.
pub fn arrival(
    table: &mut [Stream],
    network: u8,
    frame: &[u8],
    output: &mut [u8],
) -> Result<Arrival, Refusal> {
    check_table(table)?;
    rule!(Ok(()), LengthBeforeNetwork: frame::check_length(frame))?;
    check_network(network)?;
    let tagged = frame::read_tagged(frame).map_err(
        |why| rule!(why, GroupBeforeNoTag: wrong::group_before(Refusal::NoTag, frame, why)),
    )?;
    let source = frame::check_source(frame);
    rule!(source, StreamBeforeGroup: Ok(()))?;
    // A slot whose rule is none is looked at too, and found damaged.
    let looks_at = |s: &Stream| {
        rule!(
            s.family() == Family::Rest,
            ArrivalHearsLinks: true,
            ArrivalHearsTwoRules: s.rule == Stream::VECTOR || s.rule == Stream::MATCH
        )
    };
    let slot = find(table, tagged.destination, tagged.vlan, looks_at).ok_or(Refusal::NoStream)?;
    rule!(Ok(()), StreamBeforeGroup: source)?;
    decided(table, slot, network, frame, tagged, output)
}

/// A frame of a virtual link came in on a network. Refusals 1, 2, 3, 4, 14, 6, 7,
/// 8 in this order. It looks at slots of rule 3 alone.
pub fn link_arrival(
    table: &mut [Stream],
    network: u8,
    frame: &[u8],
    output: &mut [u8],
) -> Result<Arrival, Refusal> {
    check_table(table)?;
    rule!(Ok(()), LinkLengthBeforeNetwork: frame::check_length(frame))?;
    check_network(network)?;
    let link = frame::read_link(frame)?;
    let source = frame::check_source(frame);
    rule!(source, LinkTakesGroup: Ok(()), LinkStreamBeforeGroup: Ok(()))?;
    let looks_at = |s: &Stream| {
        let mine = s.family() == Family::Links;
        rule!(mine, LinkHearsOthers: true, LinkPassesDamage: mine && s.is_lawful())
    };
    let slot = rule!(
        find(table, link.destination, link.vlan, looks_at),
        LinkOfAnyVlan: wrong::link_to(table, link.destination)
    )
    .ok_or(Refusal::NoStream)?;
    rule!(Ok(()), LinkStreamBeforeGroup: source)?;
    decided(table, slot, network, frame, link, output)
}

/// What is left of an arrival of either kind once its slot is found: refusals 7
/// and 8, then the verdict and its marking.
///
/// The room in the output is checked before the number is marked, for every
/// verdict. Otherwise a frame could be claimed and lost, and its twin would be
/// a duplicate.
fn decided(
    table: &mut [Stream],
    slot: usize,
    network: u8,
    frame: &[u8],
    read: Numbered,
    output: &mut [u8],
) -> Result<Arrival, Refusal> {
    let stream = table[slot];
    let length = frame.len() - read.width;
    let needed = rule!(length, LinkNeedsWhole: wrong::if_link(stream, frame.len(), length));
    let room = frame::check_room(needed, output);
    rule!(
        Ok(()),
        RoomBeforeDamage: room,
        LinkRoomBeforeDamage: wrong::if_link(stream, room, Ok(()))
    )?;
    if !stream.is_lawful() {
        return Err(Refusal::Damaged);
    }
    let (after, decision) = stream.decide(network == 1, read.number);
    rule!(
        room,
        MarksBeforeRoom: Ok(()),
        LinkDuplicateNoRoom: match decision {
            Decision::Duplicate => wrong::if_link(stream, Ok(()), room),
            _ => room,
        }
    )?;

    table[slot] = after;
    rule!(Ok(()), MarksBeforeRoom: room)?;
    let verdict = match decision {
        Decision::HandedUp => Verdict::HandedUp {
            length: frame::write_bare(frame, read, output),
        },
        Decision::Duplicate => {
            rule!(0, DuplicateWrites: frame::write_bare(frame, read, output));
            Verdict::Duplicate
        }
        Decision::Rogue => Verdict::Rogue,
    };
    let answer = Arrival {
        slot,
        number: read.number,
        verdict,
        priority: read.priority,
        vlan_tag: read.vlan_tag,
    };
    let bare = wrong::without_priority(answer);
    Ok(rule!(
        answer,
        OnlyUpHasPriority: if decision == Decision::HandedUp { answer } else { bare },
        DuplicateHasNone: if decision == Decision::Duplicate { bare } else { answer },
        RogueHasNone: if decision == Decision::Rogue { bare } else { answer }
    ))
}

/// Opens a stream in the lowest free slot and answers that slot, as without the
/// index. Refusals 1, 9, 10, 11 in this order.
pub(crate) fn open(table: &mut [Stream], settings: Settings) -> Result<usize, Refusal> {
    check_table(table)?;
    // The whole record is written, so nothing of a closed stream stays.
    let stream = Stream {
        in_use: 1,
        destination: settings.destination,
        vlan: settings.vlan,
        rule: settings.rule,
        window: rule!(settings.window, WindowIsByte: settings.window % 256),
        reset_time: settings.reset_time,
        ..Stream::FREE
    };
    // It looks at all slots: a key is one stream's, whatever its rule.
    let looks_at = |s: &Stream| rule!(true, OpenLooksAtOwn: s.family() == stream.family());
    let key = match find(table, settings.destination, settings.vlan, looks_at) {
        Some(_) => Err(Refusal::KeyInUse),
        None => Ok(()),
    };
    let mut slots = table.iter();
    let free = rule!(
        slots.position(|s| !s.is_in_use()),
        OpensHighest: slots.rposition(|s| !s.is_in_use())
    )
    .ok_or(Refusal::NoFreeSlot);

    rule!(Ok(()), KeyBeforeSettings: key)?;
    let in_range = stream.settings_in_range();
    if !rule!(in_range, Opens513: in_range || stream.window == 513) {
        return Err(Refusal::BadSetting);
    }
    rule!(Ok(0), FullBeforeKey: free)?;
    key?;
    let slot = free?;
    table[slot] = rule!(
        stream,
        ReopenKeepsState: wrong::keep_state(stream, table[slot]),
        OpenKeepsEarly: Stream { early: table[slot].early, ..stream },
        OpenKeepsCounters: wrong::keep_counters(stream, table[slot])
    );
    Ok(slot)
}

/// Frees a slot, as without the index. Its other fields stay, and a damaged
/// record can be closed. Refusals 1, 12.
pub(crate) fn close(table: &mut [Stream], slot: usize) -> Result<(), Refusal> {
    check_table(table)?;
    let stream = slot_in_use(table, slot)?;
    rule!((), CloseClears: *stream = Stream::FREE);
    rule!(stream.in_use = 0, ClosesLowest: wrong::close_lowest(table));
    Ok(())
}

/// Puts a stream back to the fresh state, which mends a damaged record.
/// Refusals 1, 12, and 7 only if the settings are out of range, since a fresh
/// state cannot mend those.
pub fn reset(table: &mut [Stream], slot: usize) -> Result<(), Refusal> {
    check_table(table)?;
    let stream = slot_in_use(table, slot)?;
    if !rule!(stream.settings_in_range(), ResetRefusesDamage: stream.is_lawful()) {
        return Err(Refusal::Damaged);
    }
    rule!(stream.restart(), ResetForgotten: ());
    Ok(())
}

/// One tick for the whole table. Refusal 1.
pub fn tick(table: &mut [Stream]) -> Result<Ticked, Refusal> {
    check_table(table)?;
    let mut ticked = Ticked {
        reset: 0,
        damaged: 0,
    };
    for stream in table.iter_mut().filter(|s| s.is_in_use()) {
        if !stream.is_lawful() {
            ticked.damaged += 1;
            rule!((), TickAgesDamage: stream.remaining = stream.remaining.saturating_sub(1));
        } else if rule!(false, LinkNeverAges: stream.family() == Family::Links) {
            continue;
        } else if stream.remaining == 1 {
            stream.restart();
            ticked.reset += 1;
            rule!((), TickStopsAtReset: break);
        } else {
            // A fresh stream has nothing left and stays as it is.
            stream.remaining = stream.remaining.saturating_sub(1);
        }
    }
    Ok(ticked)
}
