//! Event files as readable text, and back. The form of the file is document
//! 01's ("Event file and the program `events`"), with the open of order 5; the
//! text is ours.
//!
//! One statement a line; `#` starts a comment.
//!
//! ```text
//! version 2                     another version byte than 1; only as the first statement
//! empty                         no byte at all; only alone
//! open 02:00:00:00:00:01 vlan 0 vector L 4 R 3
//!                               L up to 255 has one byte, kind 1; above it has two, kind 6
//! net 0 number 7                a tagged frame on network 0, to the destination last opened
//! net 1 number 65534..2         five of them, through the wrap
//! net 1 untagged                a frame without a redundancy tag
//! tick                          tick 5: five of them
//! close 0
//! reset 0
//! raw 0701                      any body, in hex; raw alone is a body of length 0
//! cut 0016 04                   bytes at the end of the file that are no whole record
//! ```
//!
//! `open` also takes `match`, or `rule N` for any rule, and `long`: kind 6 for
//! an L that one byte would hold too. Behind `net` may stand
//! `to ADDRESS`, `from ADDRESS`, `vlan N` (a VLAN tag), `vlan none`, `tci HEX`
//! (all 16 bits behind 8100), `reserved HEX`, `type HEX`, `data HEX` (what
//! follows the type) and `size N` (filled with zeros, or cut, to N bytes).
//! Values need only fit their place: the text can ask for what is refused.

#![forbid(unsafe_code)]

mod decode;
mod encode;

pub use decode::{decode, split_record};
pub use encode::{encode, Encoded, Fault};

/// The version byte of document 01.
const VERSION: u8 = 1;
/// Longest body that two length bytes can name.
const MAX_BODY: usize = u16::MAX as usize;

const OPEN: u8 = 1;
const CLOSE: u8 = 2;
const RESET: u8 = 3;
const ARRIVAL: u8 = 4;
const TICK: u8 = 5;
/// An open with two bytes for L.
const OPEN_LONG: u8 = 6;

const TAG_MARK: [u8; 2] = [0xF1, 0xC1];
const VLAN_MARK: [u8; 2] = [0x81, 0x00];

/// What a frame has where its line does not say.
const SOURCE: [u8; 6] = [2, 0, 0, 0, 0, 2];
const TYPE: [u8; 2] = [0x08, 0x00];

/// A frame's parts. Both directions go through it, so that they agree.
#[derive(Clone, PartialEq)]
struct Frame {
    to: [u8; 6],
    from: [u8; 6],
    /// What stands behind 8100, if there is a VLAN tag.
    tci: Option<u16>,
    /// Reserved bytes and number, if there is a redundancy tag.
    tag: Option<([u8; 2], u16)>,
    kind: [u8; 2],
    data: Vec<u8>,
}

impl Frame {
    fn bytes(&self) -> Vec<u8> {
        let mut bytes = [self.to, self.from].concat();
        if let Some(tci) = self.tci {
            bytes.extend(VLAN_MARK);
            bytes.extend(tci.to_be_bytes());
        }
        if let Some((reserved, number)) = self.tag {
            bytes.extend(TAG_MARK);
            bytes.extend(reserved);
            bytes.extend(number.to_be_bytes());
        }
        bytes.extend(self.kind);
        bytes.extend(&self.data);
        bytes
    }
}

/// What a frame's line may leave out: the key of the last `open`, whatever
/// becomes of it.
#[derive(Clone, Copy, Default)]
struct LastOpened {
    to: Option<[u8; 6]>,
    vlan: u16,
}

impl LastOpened {
    /// VLAN id 0 has the same key as no tag, so no tag is put in. An id that
    /// does not fit into a frame gives none either.
    fn tci(self) -> Option<u16> {
        Some(self.vlan).filter(|vlan| (1..4096).contains(vlan))
    }
}
