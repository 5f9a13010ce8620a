//! The program `events`: an event file on standard input, its lines on standard
//! output. Document 01: "Event file and the program `events`".
//!
//! `events --wrong N` runs the wrong variant N, `events --wrong-list` prints
//! them.

use std::io::{self, BufReader, BufWriter, Write};
use std::process::ExitCode;

use second::event_file::{run, Failure};
use second::wrong::{self, Seen, Variant, VARIANTS};

const BUFFER: usize = 1 << 16;

fn complain(what: &str, error: &io::Error) -> ExitCode {
    // Nothing is left to do if standard error fails as well.
    let _ = writeln!(io::stderr(), "events: cannot {what}: {error}");
    ExitCode::FAILURE
}

/// A line for each wrong variant: its number, its name, where it can be seen,
/// what it does.
fn list() -> io::Result<()> {
    let mut out = io::stdout().lock();
    for (at, variant) in VARIANTS.iter().enumerate() {
        let seen = match variant.seen {
            Seen::Files => "files",
            Seen::CallsOnly => "calls only",
        };
        let name = format!("{:?}", variant.wrong);
        writeln!(out, "{:2} {name:19} {seen:10} {}", at + 1, variant.what)?;
    }
    Ok(())
}

/// The variant that `--wrong N` names.
fn variant(words: &[&str]) -> Option<&'static Variant> {
    let number: usize = match words {
        ["--wrong", number] => number.parse().ok()?,
        _ => return None,
    };
    VARIANTS.get(number.checked_sub(1)?)
}

fn main() -> ExitCode {
    let arguments: Vec<String> = std::env::args().skip(1).collect();
    let words: Vec<&str> = arguments.iter().map(String::as_str).collect();
    match words[..] {
        [] => {}
        ["--wrong-list"] => {
            return match list() {
                Ok(()) => ExitCode::SUCCESS,
                Err(error) => complain("write", &error),
            }
        }
        _ => match variant(&words) {
            Some(variant) => wrong::set(Some(variant.wrong)),
            None => {
                let usage = "usage: events [--wrong N | --wrong-list]";
                let _ = writeln!(io::stderr(), "{usage}");
                return ExitCode::from(2);
            }
        },
    }
    let mut input = BufReader::with_capacity(BUFFER, io::stdin().lock());
    let mut lines = BufWriter::with_capacity(BUFFER, io::stdout().lock());
    let ran = run(&mut input, &mut lines);
    if let Err(Failure::Write(error)) = ran {
        // Drop what is still held back, so that the failed write is the last.
        let _ = lines.into_parts();
        return complain("write", &error);
    }
    if let Err(error) = lines.flush() {
        let _ = lines.into_parts();
        return complain("write", &error);
    }
    match ran {
        Err(Failure::Read(error)) => complain("read", &error),
        _ => ExitCode::SUCCESS,
    }
}
