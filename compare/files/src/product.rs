//! Runs the product's program, once for each file.

use std::fs::{self, File};
use std::io::{self, Write};
use std::path::Path;
use std::process::{Command, Output, Stdio};
use std::sync::atomic::{AtomicUsize, Ordering};
use std::thread;
use std::time::Duration;

use crate::cases::Case;

/// Runs at a time.
const AT_A_TIME: usize = 2;
/// Pieces that a pipe pauses behind; what is left then comes at once.
const SLOW_PIECES: usize = 100;

/// What the program wrote for each case, or why there is nothing to compare.
pub fn run_all(words: &[String], cases: &[Case], room: &Path) -> Vec<Result<Vec<u8>, String>> {
    let next = AtomicUsize::new(0);
    let worker = |number: usize| {
        let path = room.join(format!("input-{number}"));
        let mut answers = Vec::new();
        loop {
            let at = next.fetch_add(1, Ordering::Relaxed);
            match cases.get(at) {
                Some(case) => answers.push((at, run(words, case, &path))),
                None => return answers,
            }
        }
    };
    let worker = &worker;
    let mut answers = thread::scope(|scope| {
        let workers: Vec<_> = (0..AT_A_TIME)
            .map(|number| scope.spawn(move || worker(number)))
            .collect();
        let joined = workers.into_iter().map(|worker| worker.join().unwrap());
        joined.flatten().collect::<Vec<_>>()
    });
    answers.sort_by_key(|answer| answer.0);
    answers.into_iter().map(|answer| answer.1).collect()
}

/// A run that fails, or that complains, has nothing to compare.
fn run(words: &[String], case: &Case, path: &Path) -> Result<Vec<u8>, String> {
    let done = match case.pieces {
        Some(length) => by_pipe(words, &case.file, length),
        None => by_file(words, &case.file, path),
    };
    let done = done.map_err(|error| format!("cannot run {}: {error}", words[0]))?;
    if done.status.success() && done.stderr.is_empty() {
        Ok(done.stdout)
    } else {
        let said = String::from_utf8_lossy(&done.stderr);
        Err(format!("{}; it said: {said}", done.status))
    }
}

fn by_file(words: &[String], file: &[u8], path: &Path) -> io::Result<Output> {
    fs::write(path, file)?;
    let input = File::open(path)?;
    Command::new(&words[0])
        .args(&words[1..])
        .stdin(input)
        .output()
}

fn by_pipe(words: &[String], file: &[u8], length: usize) -> io::Result<Output> {
    let mut child = Command::new(&words[0])
        .args(&words[1..])
        .stdin(Stdio::piped())
        .stdout(Stdio::piped())
        .stderr(Stdio::piped())
        .spawn()?;
    let mut input = child.stdin.take().expect("a pipe was asked for");
    thread::scope(|scope| {
        scope.spawn(move || {
            // A program that ends early breaks the pipe; its lines are
            // compared all the same.
            let slow = file.len().min(SLOW_PIECES * length);
            for piece in file[..slow].chunks(length) {
                if input.write_all(piece).is_err() {
                    return;
                }
                thread::sleep(Duration::from_millis(1));
            }
            let _ = input.write_all(&file[slow..]);
        });
        child.wait_with_output()
    })
}
