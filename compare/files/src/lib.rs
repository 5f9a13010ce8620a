//! Event files through the product's program and through the second one: their
//! lines must be equal byte for byte. Each wrong variant of the second program
//! that can be seen in event files must differ from the product somewhere.

#![forbid(unsafe_code)]

pub mod cases;
mod directed;
pub mod product;
pub mod tally;

/// What the second program writes for a file.
pub fn second_lines(file: &[u8]) -> Vec<u8> {
    let mut lines = Vec::new();
    // Neither reading from bytes nor writing to them can fail.
    let _ = second::event_file::run(&mut &file[..], &mut lines);
    lines
}

/// The bodies of a file's whole records.
pub fn records(file: &[u8]) -> impl Iterator<Item = &[u8]> {
    let mut rest = file.get(1..).unwrap_or_default();
    std::iter::from_fn(move || {
        let (body, behind) = event_text::split_record(rest)?;
        rest = behind;
        Some(body)
    })
}

/// The first line in which two outputs differ, counted from 1, and what they
/// say there.
pub fn first_difference(a: (&str, &[u8]), b: (&str, &[u8])) -> Option<(usize, String)> {
    let mut lines = [a.1, b.1].map(|bytes| bytes.split_inclusive(|&byte| byte == b'\n'));
    for number in 1.. {
        match [lines[0].next(), lines[1].next()] {
            [None, None] => break,
            [x, y] if x == y => {}
            differ => {
                let [x, y] = differ.map(|line| match line {
                    Some(line) => {
                        format!("{:?}", String::from_utf8_lossy(&line[..line.len().min(80)]))
                    }
                    None => "nothing".into(),
                });
                return Some((number, format!("line {number}: {} {x}, {} {y}", a.0, b.0)));
            }
        }
    }
    None
}
