//! The priority in a frame's VLAN tag.

use crate::archive::ArrivalAnswer;
use std::fmt;

/// The priority in a frame's VLAN tag, 0 to 7 (document 02, order 11). There is none above.
///
/// An [`Arrival`](crate::Arrival) and a frame [handed up by a batch](crate::batch::HandedUp) have an `Option` of it. It is that of
/// the frame as it came. `None` is a frame with no VLAN tag, which is not the same as a tag that says 0. The VLAN id does not
/// matter: a tag with id 0 has the key of no tag, and a priority. So the two copies of a command may differ here.
///
/// To sort commands, keep eight queues: [`Priority::index`] is the place of each, and a queue keeps the order in which they came.
/// (Commands of one stream that differ in priority change places by this.) What a frame with no VLAN tag counts as is the
/// application's choice: the default of IEEE 802.1Q is 0, and `unwrap_or_default()` gives that. Priorities compare as their numbers
/// do; the standard recommends 7 as the highest, and 1 below 0.
///
/// ```
/// use nippitsun::{Priority, Receiver, Refusal, Settings, Stream, Verdict};
///
/// let mut receiver = Receiver::new(8);
/// receiver.open(Settings {
///     destination: [2, 0, 0, 0, 0, 1],
///     vlan: 100,
///     rule: Stream::VECTOR_RULE,
///     window: 64,
///     time: 3,
/// })?;
///
/// let mut queues = Priority::ALL.map(|_| Vec::new());
/// let mut out = [0; Stream::FRAME_MOST];
/// // Four commands, and their priorities.
/// for (number, priority) in [(0, 5), (1, 0), (2, 7), (3, 5)] {
///     let frame = [
///         2, 0, 0, 0, 0, 1, 2, 0, 0, 0, 0, 2, 0x81, 0x00, priority << 5, 100, 0xF1, 0xC1, 0, 0, 0, number, 0x08, 0x00, 0xAB,
///     ];
///     let a = receiver.arrival(0, &frame, &mut out)?;
///     assert_eq!(a.priority, Priority::new(priority));
///     if let Verdict::HandedUp { length } = a.verdict {
///         let queue = &mut queues[a.priority.unwrap_or_default().index()];
///         queue.push((a.number, out[..length].to_vec()));
///     }
/// }
///
/// // The highest first. Those of one priority stay in order.
/// let mut numbers = Vec::new();
/// for queue in queues.iter().rev() {
///     for (number, command) in queue {
///         assert_eq!(command[16..], [0x08, 0x00, 0xAB]);
///         numbers.push(*number);
///     }
/// }
/// assert_eq!(numbers, [2, 0, 3, 1]);
/// # Ok::<(), Refusal>(())
/// ```
#[derive(Clone, Copy, Debug, Default, PartialEq, Eq, Hash, PartialOrd, Ord)]
pub struct Priority(u8);

impl Priority {
    /// Every priority, from 0 to 7.
    pub const ALL: [Priority; 8] = [
        Priority(0),
        Priority(1),
        Priority(2),
        Priority(3),
        Priority(4),
        Priority(5),
        Priority(6),
        Priority(7),
    ];

    /// The priority with this number; `None` above 7.
    pub const fn new(number: u8) -> Option<Priority> {
        if number < 8 {
            Some(Priority(number))
        } else {
            None
        }
    }

    /// Its number, 0 to 7.
    pub const fn get(self) -> u8 {
        self.0
    }

    /// Its place in an array of eight, 0 to 7.
    pub const fn index(self) -> usize {
        self.0 as usize
    }

    /// What an answer says: `None` is no VLAN tag. The archive is proved to answer no priority above 7.
    #[inline]
    pub(crate) fn told(a: &ArrivalAnswer) -> Option<Priority> {
        if a.vlantag == 0 {
            return None;
        }
        let priority = Priority::new(a.priority);
        Some(priority.expect("an archive of another version: its priority is above 7"))
    }
}

impl fmt::Display for Priority {
    fn fmt(&self, f: &mut fmt::Formatter<'_>) -> fmt::Result {
        self.0.fmt(f)
    }
}
