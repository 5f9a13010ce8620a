//! The program that the kernel runs on each frame before it queues it (classic BPF, socket(7)). What it stops costs this
//! program nothing: what the machine itself sends, and every frame that the library would refuse with 5 or 6 in any case. On a
//! PRP line: with 6, and with 16 for want of 88FB at the end. Of virtual links it lets through what goes to their destinations.

use crate::frame::{PRP_MARK, REDUNDANCY_TAG, TYPE_AT, VLAN_MARK, VLAN_TAG};
use nippitsun::prp::Kind;

/// `struct sock_filter`: where a comparison holds, `yes` instructions are passed over, else `no`.
#[repr(C)]
#[derive(Clone, Copy)]
pub struct Instruction {
    code: u16,
    yes: u8,
    no: u8,
    k: u32,
}

/// Destination as one number, high byte first, and VLAN id.
pub type Key = (u64, u16);

// The codes, with their names in linux/bpf_common.h: the accumulator A, and X beside it.
const LOAD_WORD: u16 = 0x20; // BPF_LD | BPF_W | BPF_ABS
const LOAD_HALF: u16 = 0x28; // BPF_LD | BPF_H | BPF_ABS
const LOAD_HALF_AT_X: u16 = 0x48; // BPF_LD | BPF_H | BPF_IND
const LOAD_LENGTH: u16 = 0x80; // BPF_LD | BPF_W | BPF_LEN
const LOAD_NUMBER: u16 = 0x00; // BPF_LD | BPF_IMM
const LESS: u16 = 0x14; // BPF_ALU | BPF_SUB | BPF_K
const AND: u16 = 0x54; // BPF_ALU | BPF_AND | BPF_K
const JUMP: u16 = 0x05; // BPF_JMP | BPF_JA
const EQUAL: u16 = 0x15; // BPF_JMP | BPF_JEQ | BPF_K
const A_TO_X: u16 = 0x07; // BPF_MISC | BPF_TAX
const X_TO_A: u16 = 0x87; // BPF_MISC | BPF_TXA
const END: u16 = 0x06; // BPF_RET | BPF_K

// Places that are no bytes of the frame but what the kernel knows of it (linux/filter.h: SKF_AD_OFF and the rest).
const BESIDE: u32 = 0xFFFF_F000;
const PACKET_TYPE: u32 = BESIDE + 4;
const VLAN_TCI: u32 = BESIDE + 44;
const VLAN_PRESENT: u32 = BESIDE + 48;
const VLAN_TPID: u32 = BESIDE + 60;

const PACKET_OUTGOING: u32 = 4;
const VLAN_ID: u32 = 0x0FFF;

// What the program answers: how many bytes of the frame to keep.
const NONE: u32 = 0;
const WHOLE: u32 = u16::MAX as u32;

const fn plain(code: u16, k: u32) -> Instruction {
    Instruction {
        code,
        yes: 0,
        no: 0,
        k,
    }
}

const fn equal(k: u32, yes: u8, no: u8) -> Instruction {
    let code = EQUAL;
    Instruction { code, yes, no, k }
}

/// Lets through what goes to one of these destinations of virtual links, whatever its type and VLAN tag are. And what has F1C1 at
/// the type field and one of these keys; on a PRP line what has one of the keys, and with the trailer of 2012 only if it ends in
/// 88FB. A load from behind the frame's end stops the frame, as the library would, with refusal 4.
pub fn program(links: &[u64], keys: &[Key], prp: Option<Kind>) -> Vec<Instruction> {
    let mut program = vec![
        plain(LOAD_WORD, PACKET_TYPE),
        equal(PACKET_OUTGOING, 0, 1),
        plain(END, NONE),
    ];
    for &dest in links {
        program.extend([
            plain(LOAD_WORD, 2),
            equal(dest as u32, 0, 3),
            plain(LOAD_HALF, 0),
            equal((dest >> 32) as u32, 0, 1),
            plain(END, WHOLE),
        ]);
    }
    if prp == Some(Kind::Of2012) {
        program.extend(ends_in_mark());
    }
    match prp {
        None => program.extend(tagged()),
        Some(_) => program.extend(any_type()),
    }
    program.extend([plain(AND, VLAN_ID), plain(A_TO_X, 0)]);
    for &(dest, vlan) in keys {
        program.extend([
            plain(LOAD_WORD, 2),
            equal(dest as u32, 0, 5),
            plain(LOAD_HALF, 0),
            equal((dest >> 32) as u32, 0, 3),
            plain(X_TO_A, 0),
            equal(vlan.into(), 0, 1),
            plain(END, WHOLE),
        ]);
    }
    program.push(plain(END, NONE));
    program
}

/// F1C1 at the type field; then the VLAN tag is loaded, or 0. Mostly the card or the kernel has taken the tag out. It is put back
/// before the library sees the frame.
fn tagged() -> [Instruction; 18] {
    let (mark, tag) = (u32::from(VLAN_MARK), u32::from(REDUNDANCY_TAG));
    let (type_at, inner_at) = (TYPE_AT as u32, (TYPE_AT + VLAN_TAG) as u32);
    [
        plain(LOAD_WORD, VLAN_PRESENT),
        equal(0, 5, 0), // to 7
        plain(LOAD_WORD, VLAN_TPID),
        equal(mark, 0, 2), // else to 6
        plain(LOAD_HALF, type_at),
        equal(tag, 9, 0), // to 15
        plain(END, NONE), // 6
        plain(LOAD_HALF, type_at),
        equal(tag, 4, 0),  // to 13
        equal(mark, 0, 2), // else to 12
        plain(LOAD_HALF, inner_at),
        equal(tag, 5, 0),      // to 17
        plain(END, NONE),      // 12
        plain(LOAD_NUMBER, 0), // 13: no VLAN tag is VLAN id 0
        plain(JUMP, 3),        // to the end
        plain(LOAD_WORD, VLAN_TCI),
        plain(JUMP, 1), // to the end
        plain(LOAD_HALF, type_at + 2),
    ]
}

/// The last two bytes are 88FB. The first load stops what is too short to have a type.
fn ends_in_mark() -> [Instruction; 7] {
    [
        plain(LOAD_HALF, TYPE_AT as u32),
        plain(LOAD_LENGTH, 0),
        plain(LESS, 2),
        plain(A_TO_X, 0),
        plain(LOAD_HALF_AT_X, 0),
        equal(PRP_MARK.into(), 1, 0),
        plain(END, NONE),
    ]
}

/// The VLAN tag is loaded, or 0, whatever the type is. A tag with another mark is none to the library: put back, its mark is the
/// frame's type.
fn any_type() -> [Instruction; 11] {
    let (mark, type_at) = (u32::from(VLAN_MARK), TYPE_AT as u32);
    [
        plain(LOAD_WORD, VLAN_PRESENT),
        equal(0, 4, 0), // to 6
        plain(LOAD_WORD, VLAN_TPID),
        equal(mark, 0, 6), // else to 10
        plain(LOAD_WORD, VLAN_TCI),
        plain(JUMP, 5),            // to the end
        plain(LOAD_HALF, type_at), // 6
        equal(mark, 0, 2),         // else to 10
        plain(LOAD_HALF, type_at + 2),
        plain(JUMP, 1),        // to the end
        plain(LOAD_NUMBER, 0), // 10
    ]
}

#[cfg(test)]
mod tests {
    use super::*;
    use crate::frame::put_back;
    use nippitsun::{archive, Receiver, Refusal, Settings, Stream};

    /// What the kernel has of a frame: its bytes, whose it is, and the VLAN tag that was taken out (mark and TCI).
    #[derive(Clone, Debug)]
    struct Queued {
        bytes: Vec<u8>,
        packet: u32,
        beside: Option<(u16, u16)>,
    }

    fn load(frame: &Queued, at: u32, bytes: usize) -> Option<u32> {
        let (mark, tci) = frame.beside.unwrap_or((0, 0));
        match at {
            PACKET_TYPE => Some(frame.packet),
            VLAN_PRESENT => Some(frame.beside.is_some().into()),
            VLAN_TPID => Some(mark.into()),
            VLAN_TCI => Some(tci.into()),
            _ => {
                let at = at as usize;
                let part = frame.bytes.get(at..at + bytes)?;
                Some(part.iter().fold(0, |n, b| n << 8 | u32::from(*b)))
            }
        }
    }

    /// What the kernel does with the program: how many bytes it keeps.
    fn run(program: &[Instruction], frame: &Queued) -> u32 {
        let (mut a, mut x, mut at) = (0, 0, 0);
        loop {
            let Instruction { code, yes, no, k } = program[at];
            at += 1;
            match code {
                LOAD_WORD | LOAD_HALF => {
                    match load(frame, k, if code == LOAD_WORD { 4 } else { 2 }) {
                        Some(n) => a = n,
                        None => return 0,
                    }
                }
                LOAD_HALF_AT_X => match load(frame, k.wrapping_add(x), 2) {
                    Some(n) => a = n,
                    None => return 0,
                },
                LOAD_LENGTH => a = frame.bytes.len() as u32,
                LESS => a = a.wrapping_sub(k),
                LOAD_NUMBER => a = k,
                AND => a &= k,
                JUMP => at += k as usize,
                EQUAL => at += usize::from(if a == k { yes } else { no }),
                A_TO_X => x = a,
                X_TO_A => a = x,
                END => return k,
                _ => panic!("no such code: {code:#x}"),
            }
        }
    }

    fn receiver(keys: &[Key]) -> Receiver {
        let mut receiver = Receiver::new(Stream::SLOTS_MOST);
        for &(dest, vlan) in keys {
            let bytes = dest.to_be_bytes();
            let settings = Settings {
                destination: bytes[2..].try_into().unwrap(),
                vlan,
                rule: Stream::VECTOR_RULE,
                window: 64,
                time: 9,
            };
            receiver.open(settings).unwrap();
        }
        receiver
    }

    /// The frame with its VLAN tag put back, cut to so many bytes, and not from a group.
    fn cut(frame: &Queued, most: usize) -> Vec<u8> {
        let mut room = vec![0; VLAN_TAG];
        room.extend_from_slice(&frame.bytes);
        let beside = frame.beside.map(|(mark, tci)| {
            let (mark, tci) = (mark.to_be_bytes(), tci.to_be_bytes());
            [mark[0], mark[1], tci[0], tci[1]]
        });
        let whole = put_back(&mut room, frame.bytes.len(), beside);
        let mut whole = whole[..whole.len().min(most)].to_vec();
        if let Some(first) = whole.get_mut(6) {
            *first &= 0xFE;
        }
        whole
    }

    /// What comes through is what the library does not refuse with 5 or 6. Where it says 4, either is right. It looks at the
    /// length and the source before the key, so for it one that is too long is cut, and one of a group gets another source.
    fn hold_to_the_library(program: &[Instruction], library: &Receiver, frame: &Queued) -> bool {
        let kept = run(program, frame);
        assert!(kept == 0 || kept as usize > Stream::FRAME_MOST);
        let whole = cut(frame, Stream::FRAME_MOST);
        let mut out = [0; Stream::FRAME_MOST];
        match library.clone().arrival(0, &whole, &mut out) {
            Err(Refusal::Short) => {}
            Err(Refusal::Untagged | Refusal::Unknown) => assert_eq!(kept, 0, "{frame:?}"),
            Err(refusal) => panic!("{refusal}"),
            Ok(_) => assert_ne!(kept, 0, "{frame:?}"),
        }
        kept != 0
    }

    const DEST: u64 = 0x0100_5E00_0007;

    /// A frame with these types at 12 and 16, cut to a length.
    fn frame(dest: u64, types: [u16; 2], tci: u16, length: usize) -> Vec<u8> {
        let mut bytes = dest.to_be_bytes()[2..].to_vec();
        bytes.extend_from_slice(&[2, 0, 0, 0, 0, 2]);
        bytes.extend_from_slice(&types[0].to_be_bytes());
        bytes.extend_from_slice(&tci.to_be_bytes());
        bytes.extend_from_slice(&types[1].to_be_bytes());
        bytes.resize(length, 0);
        bytes
    }

    #[test]
    fn as_the_library() {
        let keys = [(DEST, 100), (DEST, 0), (DEST + 1, 4094)];
        let (program, library) = (program(&[], &keys, None), receiver(&keys));
        let types = [REDUNDANCY_TAG, VLAN_MARK, 0x88A8, 0x0800];
        let besides = [None, Some(VLAN_MARK), Some(0x88A8), Some(0x9100)];
        let (mut through, mut stopped) = (0, 0);
        for dest in [DEST, DEST + 1, DEST ^ 1 << 47, 0xFFFF_FFFF_FFFF] {
            for outer in types {
                for inner in types {
                    for tci in [
                        0, 100, 0x1000, 0x1064, 0xA000, 0xE064, 0xF000, 0xFFFE, 101, 4094, 4095,
                    ] {
                        for mark in besides {
                            for length in (0..=32).chain([1514, 1999, 2000, 2001, 9000]) {
                                let queued = Queued {
                                    bytes: frame(dest, [outer, inner], tci, length),
                                    packet: 2,
                                    beside: mark.map(|mark| (mark, tci)),
                                };
                                match hold_to_the_library(&program, &library, &queued) {
                                    true => through += 1,
                                    false => stopped += 1,
                                }
                            }
                        }
                    }
                }
            }
        }
        assert!(through > 1000 && stopped > 1000, "{through}, {stopped}");
    }

    /// What goes to a link's destination comes through, whatever stands behind its addresses, and what the library says of it is
    /// of that link; all else is as without links.
    #[test]
    fn links_go_by_their_destination() {
        let links = [0x0300_0000_0007, 0x0300_0000_0008];
        let keys = [(DEST, 100), (DEST, 0)];
        let (with, without) = (program(&links, &keys, None), program(&[], &keys, None));
        let mut library = receiver(&keys);
        for dest in links {
            let settings = Settings {
                destination: dest.to_be_bytes()[2..].try_into().unwrap(),
                vlan: 0,
                rule: Stream::LINK_RULE,
                window: 2,
                time: 9,
            };
            library.open(settings).unwrap();
        }
        let dests = [links[0], links[1], links[0] - 1, links[0] ^ 1 << 47, DEST];
        for dest in dests {
            for kind in [REDUNDANCY_TAG, VLAN_MARK, 0x88A8, 0x0800] {
                for beside in [None, Some((VLAN_MARK, 100)), Some((0x88A8, 0))] {
                    for length in (0..=32).chain([60, 1514, 1999, 2000, 2001, 9000]) {
                        let queued = Queued {
                            bytes: frame(dest, [kind, kind], 100, length),
                            packet: 2,
                            beside,
                        };
                        let kept = run(&with, &queued);
                        if !links.contains(&dest) || length < 6 {
                            assert_eq!(kept, run(&without, &queued), "{queued:?}");
                            continue;
                        }
                        assert_eq!(kept, WHOLE, "{queued:?}");
                        let whole = cut(&queued, Stream::FRAME_MOST);
                        let mut out = [0; Stream::FRAME_MOST];
                        let answer = library.clone().link_arrival(0, &whole, &mut out);
                        let why = (whole.len() < 15).then_some(Refusal::Short);
                        assert_eq!(answer.err(), why, "{queued:?}");
                    }
                }
            }
        }
        let outgoing = Queued {
            bytes: frame(links[0], [0x0800, 0], 0, 60),
            packet: PACKET_OUTGOING,
            beside: None,
        };
        assert_eq!(run(&with, &outgoing), NONE);
        // A full table of links.
        let many: Vec<u64> = (0..64).map(|n| links[0] + n).collect();
        assert!(program(&many, &[], None).len() <= 4096);
    }

    #[test]
    fn what_goes_out_is_stopped() {
        let program = program(&[], &[(DEST, 0)], None);
        let came = |packet| Queued {
            bytes: frame(DEST, [REDUNDANCY_TAG, 0], 0, 60),
            packet,
            beside: None,
        };
        for packet in 0..8 {
            let kept = run(&program, &came(packet));
            assert_eq!(kept == 0, packet == PACKET_OUTGOING, "{packet}");
        }
    }

    /// The library is to refuse it with 14, so that it is counted.
    #[test]
    fn a_group_source_comes_through() {
        let keys = [(DEST, 100), (DEST, 0)];
        let (program, library) = (program(&[], &keys, None), receiver(&keys));
        for (first, tci) in [(0x01, 100), (0xFF, 0), (0xFE, 0), (0x01, 101)] {
            let mut bytes = frame(DEST, [VLAN_MARK, REDUNDANCY_TAG], tci, 60);
            bytes[6] = first;
            let mut out = [0; Stream::FRAME_MOST];
            let refused = library.clone().arrival(0, &bytes, &mut out).err();
            assert_eq!(refused, (first % 2 == 1).then_some(Refusal::Group));
            let queued = Queued {
                bytes,
                packet: 2,
                beside: None,
            };
            let through = hold_to_the_library(&program, &library, &queued);
            assert_eq!(through, tci != 101, "{first:02x}, {tci}");
        }
    }

    /// Whatever the priority and the bit behind it are, beside the frame or in it: only the VLAN id counts. A tag with VLAN id 0 is
    /// of the stream without a tag.
    #[test]
    fn every_priority_comes_through() {
        let keys = [(DEST, 100), (DEST, 0)];
        for kind in [None, Some(Kind::First), Some(Kind::Of2012)] {
            let program = program(&[], &keys, kind);
            for tci in (0..16).flat_map(|high| [0, 100, 101].map(|vlan| high << 12 | vlan)) {
                let of_type = kind.map_or(REDUNDANCY_TAG, |_| 0x88B5);
                let mut bytes = frame(DEST, [VLAN_MARK, of_type], tci, 60);
                if let Some(kind) = kind {
                    end_in(&mut bytes, kind, 0xA, 60 - 18);
                }
                let in_it = Queued {
                    bytes: bytes.clone(),
                    packet: 2,
                    beside: None,
                };
                bytes.drain(TYPE_AT..TYPE_AT + VLAN_TAG);
                let beside = Queued {
                    bytes,
                    packet: 2,
                    beside: Some((VLAN_MARK, tci)),
                };
                for queued in [in_it, beside] {
                    let through = run(&program, &queued) != NONE;
                    assert_eq!(through, tci & 0xFFF != 101, "{kind:?}, {queued:?}");
                }
            }
        }
    }

    #[test]
    fn every_key_of_a_full_table() {
        let keys: Vec<Key> = (0..Stream::SLOTS_MOST as u16)
            .map(|n| (DEST + u64::from(n / 8), n % 8))
            .collect();
        let (program, library) = (program(&[], &keys, None), receiver(&keys));
        // The kernel takes no longer one (BPF_MAXINSNS).
        assert!(program.len() <= 4096);
        let mut through = 0;
        for dest in DEST - 1..=DEST + 8 {
            for tci in 0..=9 {
                let queued = Queued {
                    bytes: frame(dest, [REDUNDANCY_TAG, 0], 0, 60),
                    packet: 2,
                    beside: Some((VLAN_MARK, tci)),
                };
                through += usize::from(hold_to_the_library(&program, &library, &queued));
            }
        }
        assert_eq!(through, keys.len());
    }

    /// The size that fits a whole frame.
    fn size_of(whole: &[u8]) -> usize {
        let is_vlan = whole.get(12..14) == Some(&VLAN_MARK.to_be_bytes());
        whole.len().wrapping_sub(if is_vlan { 18 } else { 14 })
    }

    /// Writes a trailer over the end.
    fn end_in(frame: &mut [u8], kind: Kind, lan: u16, size: usize) {
        let mut trailer = vec![0, 7];
        trailer.extend_from_slice(&(lan << 12 | size as u16 & 0xFFF).to_be_bytes());
        if kind == Kind::Of2012 {
            trailer.extend_from_slice(&PRP_MARK.to_be_bytes());
        }
        if let Some(at) = frame.len().checked_sub(trailer.len()) {
            frame[at..].copy_from_slice(&trailer);
        }
    }

    /// What comes through has an open key, and with 2012 ends in 88FB, whatever else is wrong with it. The library tells the key
    /// of the same frame with a length, a type and a trailer that it takes. Where it says 4, either is right.
    fn hold_prp_to_the_library(
        program: &[Instruction],
        library: &Receiver,
        kind: Kind,
        frame: &Queued,
    ) -> bool {
        let kept = run(program, frame);
        assert!(kept == 0 || kept as usize > Stream::FRAME_MOST);
        let mut whole = cut(frame, Stream::FRAME_MOST - 2);
        let is_vlan = whole.get(12..14) == Some(&VLAN_MARK.to_be_bytes());
        let type_at = if is_vlan { 16 } else { 12 };
        if let Some(at) = whole.get_mut(type_at..type_at + 2) {
            at.copy_from_slice(&[0x88, 0xB5]);
        }
        let size = size_of(&whole);
        end_in(&mut whole, kind, 0xA, size);
        let (mut turned, mut out) = ([0; Stream::FRAME_MOST], [0; Stream::FRAME_MOST]);
        let answer = archive::from_prp(&whole, kind as u8, &mut turned);
        if answer.refusal == Refusal::Short.number() {
            return kept != 0;
        }
        assert_eq!(answer.refusal, 0, "{frame:?}");
        let tagged = &turned[..answer.length];
        let is_open = match library.clone().arrival(0, tagged, &mut out) {
            Err(Refusal::Unknown) => false,
            Err(refusal) => panic!("{refusal}"),
            Ok(_) => true,
        };
        let ends = kind == Kind::First || frame.bytes.ends_with(&PRP_MARK.to_be_bytes());
        assert_eq!(kept != 0, is_open && ends, "{kind:?}, {frame:?}");
        kept != 0
    }

    #[test]
    fn a_prp_line_as_the_library() {
        let keys = [(DEST, 100), (DEST, 0), (DEST + 1, 4094)];
        let library = receiver(&keys);
        for kind in [Kind::First, Kind::Of2012] {
            let program = program(&[], &keys, Some(kind));
            let other = match kind {
                Kind::First => Kind::Of2012,
                Kind::Of2012 => Kind::First,
            };
            // Kind, LAN and size; or none at all.
            let trailers = [
                Some((kind, 0xA, 0_isize)),
                Some((kind, 0xB, 0)),
                Some((kind, 0x9, 0)),
                Some((kind, 0xC, 0)),
                Some((kind, 0xA, 1)),
                Some((kind, 0xA, -1)),
                Some((other, 0xA, 0)),
                None,
            ];
            let (mut taken, mut through, mut stopped) = (0, 0, 0);
            for dest in [DEST, DEST + 1, DEST ^ 1 << 47] {
                for types in [
                    [0x88B5, 0x0800],
                    [REDUNDANCY_TAG, 0],
                    [VLAN_MARK, 0x88B5],
                    [VLAN_MARK, REDUNDANCY_TAG],
                    [0x88A8, VLAN_MARK],
                ] {
                    for tci in [0, 100, 0xE064, 101, 4094] {
                        for mark in [None, Some(VLAN_MARK), Some(0x88A8)] {
                            for length in (0..=28).chain([60, 1514, 1994, 1998, 1999, 2001, 9000]) {
                                for trailer in trailers {
                                    let mut queued = Queued {
                                        bytes: frame(dest, types, tci, length),
                                        packet: 2,
                                        beside: mark.map(|mark| (mark, tci)),
                                    };
                                    // The tag counts before the type field, beside the frame or in it.
                                    let size = size_of(&cut(&queued, usize::MAX));
                                    if let Some((kind, lan, off)) = trailer {
                                        let size = size.wrapping_add(off as usize);
                                        end_in(&mut queued.bytes, kind, lan, size);
                                    }
                                    let whole = cut(&queued, usize::MAX);
                                    let mut out = [0; Stream::FRAME_MOST];
                                    let answer = archive::from_prp(&whole, kind as u8, &mut out);
                                    let passes =
                                        hold_prp_to_the_library(&program, &library, kind, &queued);
                                    match (passes, answer.refusal) {
                                        (true, 0) => taken += 1,
                                        (true, _) => through += 1,
                                        (false, _) => stopped += 1,
                                    }
                                }
                            }
                        }
                    }
                }
            }
            let met = taken > 1000 && through > 1000 && stopped > 1000;
            assert!(met, "{kind:?}: {taken}, {through}, {stopped}");
        }
    }

    /// A frame of a PRP line that is let through, and how it must not end, or whose it must not be.
    #[test]
    fn a_prp_line_by_hand() {
        let keys = [(DEST, 0)];
        let ends = |last: &[u8]| {
            let mut bytes = frame(DEST, [0x88B5, 0], 0, 60 - last.len());
            bytes.extend_from_slice(last);
            bytes
        };
        for (kind, last, packet, through) in [
            (Kind::Of2012, &[0xA0, 46, 0x88, 0xFB][..], 2, true),
            (Kind::Of2012, &[0xA0, 46, 0x88, 0xFA], 2, false),
            (Kind::Of2012, &[0xA0, 46, 0xFB, 0x88], 2, false),
            (Kind::Of2012, &[0x88, 0xFB, 0], 2, false),
            (
                Kind::Of2012,
                &[0xA0, 46, 0x88, 0xFB],
                PACKET_OUTGOING,
                false,
            ),
            (Kind::First, &[0xA0, 46], 2, true),
            (Kind::First, &[0, 0], 2, true),
            (Kind::First, &[0xA0, 46], PACKET_OUTGOING, false),
        ] {
            let queued = Queued {
                bytes: ends(last),
                packet,
                beside: None,
            };
            let kept = run(&program(&[], &keys, Some(kind)), &queued);
            assert_eq!(kept != 0, through, "{kind:?}, {last:?}, {packet}");
        }
        // Short ones, with nothing to load.
        for kind in [Kind::First, Kind::Of2012] {
            for length in 0..6 {
                for beside in [None, Some((VLAN_MARK, 0))] {
                    let queued = Queued {
                        bytes: [0x88, 0xFB].repeat(3)[6 - length..].to_vec(),
                        packet: 2,
                        beside,
                    };
                    assert_eq!(run(&program(&[], &keys, Some(kind)), &queued), 0);
                }
            }
        }
    }
}
