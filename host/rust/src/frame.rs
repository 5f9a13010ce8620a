//! Where things stand in a frame (document 01, "The frame"), and the VLAN tag that is put back.

pub const TYPE_AT: usize = 12;
/// Bytes of a VLAN tag, and the mark that it begins with.
pub const VLAN_TAG: usize = 4;
pub const VLAN_MARK: u16 = 0x8100;
/// The mark that a redundancy tag begins with.
pub const REDUNDANCY_TAG: u16 = 0xF1C1;

/// The last two bytes of a PRP trailer of 2012.
pub const PRP_MARK: u16 = 0x88FB;

/// The frame of this length that stands in the room behind `VLAN_TAG` free bytes, with the tag put back that the kernel has
/// taken out of it, all of it. Without it the key would have VLAN id 0, and the frame no priority. A tag of zeros is one too: VLAN
/// id 0 with priority 0.
pub fn put_back(room: &mut [u8], length: usize, tag: Option<[u8; VLAN_TAG]>) -> &[u8] {
    let end = VLAN_TAG + length;
    match tag {
        Some(tag) if length >= TYPE_AT => {
            room.copy_within(VLAN_TAG..VLAN_TAG + TYPE_AT, 0);
            room[TYPE_AT..TYPE_AT + VLAN_TAG].copy_from_slice(&tag);
            &room[..end]
        }
        _ => &room[VLAN_TAG..end],
    }
}

#[cfg(test)]
mod tests {
    use super::*;
    use nippitsun::{Priority, Receiver, Settings, Stream, Verdict};

    const DEST: [u8; 6] = [2, 0, 0, 0, 0, 1];

    /// A frame of a stream as the kernel has it, without its VLAN tag, behind the room for that.
    fn room() -> Vec<u8> {
        let mut room = vec![0xEE; VLAN_TAG];
        room.extend_from_slice(&DEST);
        room.extend_from_slice(&[2, 0, 0, 0, 0, 2, 0xF1, 0xC1, 0, 0, 0, 7, 0x88, 0xB5]);
        room.resize(VLAN_TAG + 60, 0xAB);
        room
    }

    /// What the library tells of a frame of a stream with this VLAN id that is handed up.
    fn told(frame: &[u8], vlan: u16) -> Option<Priority> {
        let mut receiver = Receiver::new(1);
        let settings = Settings {
            destination: DEST,
            vlan,
            rule: Stream::VECTOR_RULE,
            window: 64,
            time: 9,
        };
        receiver.open(settings).unwrap();
        let arrival = receiver.arrival(0, frame, &mut [0; 60]).unwrap();
        let length = frame.len() - 6;
        assert_eq!(arrival.verdict, Verdict::HandedUp { length });
        arrival.priority
    }

    /// All sixteen bits come back, and nothing else is changed. So the frame finds its stream, and the library tells its priority,
    /// whatever the bit between priority and VLAN id is.
    #[test]
    fn every_tag_is_put_back_whole() {
        let kernel = room();
        let kernel = &kernel[VLAN_TAG..];
        for tci in 0..=u16::MAX {
            let bits = tci.to_be_bytes();
            let tag = [0x81, 0x00, bits[0], bits[1]];
            let mut room = room();
            let whole = put_back(&mut room, 60, Some(tag));
            assert_eq!(
                whole,
                [&kernel[..TYPE_AT], &tag, &kernel[TYPE_AT..]].concat()
            );
            if tci & 0xFFF <= 4094 {
                let priority = Priority::new((tci >> 13) as u8);
                assert!(
                    priority.is_some() && told(whole, tci & 0xFFF) == priority,
                    "{tci:04x}"
                );
            }
        }
    }

    #[test]
    fn without_a_tag_the_frame_is_as_it_was() {
        let mut room = room();
        let whole = put_back(&mut room, 60, None).to_vec();
        assert_eq!(whole, room[VLAN_TAG..]);
        assert_eq!(told(&whole, 0), None);
        // What has no two addresses has no place for a tag.
        for length in 0..TYPE_AT {
            let whole = put_back(&mut room, length, Some([0x81, 0, 0xE0, 0x64])).to_vec();
            assert_eq!(whole, room[VLAN_TAG..VLAN_TAG + length]);
        }
        assert_eq!(
            put_back(&mut room, TYPE_AT, Some([0x81, 0, 0xE0, 0x64])).len(),
            16
        );
    }
}
