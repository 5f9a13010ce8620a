//! Lines on standard error, each in one write, and none that would wait: commands matter more than words about them.

use crate::socket;
use std::sync::atomic::{AtomicU64, Ordering};

/// A pipe takes so many bytes as one piece, or says beforehand that it does not.
const LINE_MOST: usize = 4096;

/// Lines that were dropped since the last one that was said.
static UNSAID: AtomicU64 = AtomicU64::new(0);

/// A line, or several, each for itself.
pub fn say(lines: &str) {
    for line in lines.lines() {
        let unsaid = UNSAID.load(Ordering::Relaxed);
        let unsaid = say_to(line, unsaid, socket::put_error_line);
        UNSAID.store(unsaid, Ordering::Relaxed);
    }
}

/// A line with the time before it.
pub fn say_now(line: &str) {
    say(&format!("{} {line}", socket::local_time()));
}

/// Says a line, and before it how many were not said. Answers how many those are now.
fn say_to(line: &str, unsaid: u64, mut write: impl FnMut(&[u8]) -> bool) -> u64 {
    let before = format!("{unsaid} lines were not said: standard error takes nothing");
    if unsaid > 0 && !write(&cut(&before)) {
        return unsaid + 1;
    }
    u64::from(!write(&cut(line)))
}

fn cut(line: &str) -> Vec<u8> {
    let length = line.len().min(LINE_MOST - 1);
    let mut bytes = line.as_bytes()[..length].to_vec();
    bytes.push(b'\n');
    bytes
}

#[cfg(test)]
mod tests {
    use super::*;

    #[test]
    fn lines_that_are_not_taken_are_counted() {
        let mut said = Vec::new();
        let mut unsaid = 0;
        for (line, takes) in [
            ("one", 2),
            ("two", 0),
            ("three", 0),
            ("four", 2),
            ("five", 1),
        ] {
            let mut left = takes;
            unsaid = say_to(line, unsaid, |bytes| {
                if left == 0 {
                    return false;
                }
                left -= 1;
                said.push(String::from_utf8(bytes.to_vec()).unwrap());
                true
            });
        }
        let count = "2 lines were not said: standard error takes nothing\n";
        assert_eq!(said, ["one\n", count, "four\n", "five\n"]);
        assert_eq!(unsaid, 0);
        // The count is taken, and then nothing more: the line itself is the next one that was not said.
        let mut left = 1;
        let unsaid = say_to("six", 7, |_| {
            left -= 1;
            left == 0
        });
        assert_eq!(unsaid, 1);
    }

    #[test]
    fn a_long_line_is_cut() {
        assert_eq!(cut("é"), "é\n".as_bytes());
        let long = cut(&"x".repeat(5000));
        assert!(long.len() == LINE_MOST && long.ends_with(b"x\n"));
    }
}
