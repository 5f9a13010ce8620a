//! The redundancy tag, put in and taken out. No table is needed.

use crate::archive;
use crate::refusal::Refusal;

/// Bytes of the redundancy tag.
pub const LENGTH: usize = 6;

/// What taking a tag out answers.
#[derive(Clone, Copy, Debug, PartialEq, Eq)]
pub struct Taken {
    /// The number in the tag.
    pub number: u16,
    /// Bytes written to the output.
    pub length: usize,
}

/// Puts a tag with this number into the frame, and writes the result to the start of the output. Answers its length.
/// Refusals 3, 4, 13, 14, 8 in this order.
///
/// ```
/// use nippitsun::{tag, Refusal};
///
/// let frame = [2, 0, 0, 0, 0, 1, 2, 0, 0, 0, 0, 2, 0x08, 0x00, 0xAB];
/// let mut tagged = [0; 100];
/// let length = tag::put(&frame, 7, &mut tagged)?;
/// assert_eq!(length, frame.len() + tag::LENGTH);
/// assert_eq!(tagged[12..18], [0xF1, 0xC1, 0, 0, 0, 7]);
///
/// let mut bare = [0; 100];
/// let taken = tag::take(&tagged[..length], &mut bare)?;
/// assert_eq!((taken.number, &bare[..taken.length]), (7, &frame[..]));
///
/// assert_eq!(tag::put(&tagged[..length], 8, &mut bare), Err(Refusal::Tagged));
/// # Ok::<(), Refusal>(())
/// ```
pub fn put(frame: &[u8], number: u16, out: &mut [u8]) -> Result<usize, Refusal> {
    let a = archive::write_tag(frame, number, out);
    Refusal::check(a.refusal)?;
    Ok(a.length)
}

/// Takes the tag out of the frame, and writes the rest to the start of the output. Refusals 3, 4, 5, 8 in this order: any
/// source is taken.
pub fn take(frame: &[u8], out: &mut [u8]) -> Result<Taken, Refusal> {
    let a = archive::take_tag(frame, out);
    Refusal::check(a.refusal)?;
    Ok(Taken {
        number: a.number,
        length: a.length,
    })
}
