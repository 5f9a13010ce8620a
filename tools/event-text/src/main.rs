//! `event-text encode < TEXT > FILE`, `event-text decode < FILE > TEXT`, and
//! `event-text beside TEXT LINES`: the text with the lines that `events` gave
//! for it.

use std::io::{self, Read, Write};
use std::process::ExitCode;

use event_text::{decode, encode};

const USAGE: &str = "usage: event-text encode | decode | beside TEXT LINES";

fn main() -> ExitCode {
    let arguments: Vec<String> = std::env::args().skip(1).collect();
    let words: Vec<&str> = arguments.iter().map(String::as_str).collect();
    let done = match words[..] {
        ["encode"] => input()
            .and_then(text)
            .and_then(|t| Ok(encode(&t).map_err(say)?.bytes)),
        ["decode"] => input().map(|file| decode(&file).into_bytes()),
        ["beside", shown, lines] => read(shown)
            .and_then(text)
            .and_then(|shown| Ok(beside(&shown, &read(lines).and_then(text)?)?.into_bytes())),
        ["--help"] => Ok(format!("{USAGE}\n").into_bytes()),
        _ => Err(USAGE.into()),
    };
    let done = done.and_then(|bytes| io::stdout().write_all(&bytes).map_err(say));
    if let Err(message) = done {
        let _ = writeln!(io::stderr(), "event-text: {message}");
        return ExitCode::FAILURE;
    }
    ExitCode::SUCCESS
}

fn say(fault: impl ToString) -> String {
    fault.to_string()
}

fn input() -> Result<Vec<u8>, String> {
    let mut bytes = Vec::new();
    io::stdin().read_to_end(&mut bytes).map_err(say)?;
    Ok(bytes)
}

fn read(path: &str) -> Result<Vec<u8>, String> {
    std::fs::read(path).map_err(|error| format!("{path}: {error}"))
}

fn text(bytes: Vec<u8>) -> Result<String, String> {
    String::from_utf8(bytes).map_err(say)
}

/// Each line of the text, and right of it the lines of its records. Lines of
/// the run that belong to no record come last.
fn beside(shown: &str, lines: &str) -> Result<String, String> {
    let records = encode(shown).map_err(say)?.records;
    let mut lines = lines.lines();
    let width = shown
        .lines()
        .filter(|line| !line.starts_with('#'))
        .map(|line| line.chars().count())
        .max()
        .unwrap_or(0);
    let mut out = String::new();
    for (line, count) in shown.lines().zip(records) {
        let right: Vec<&str> = lines.by_ref().take(count).collect();
        match right.split_first() {
            None => out += &format!("{line}\n"),
            Some((first, more)) => {
                out += &format!("{line:width$}   {first}\n");
                for line in more {
                    out += &format!("{:width$}   {line}\n", "");
                }
            }
        }
    }
    for line in lines {
        out += &format!("{:width$}   {line}\n", "");
    }
    Ok(out)
}
