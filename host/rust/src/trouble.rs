//! Why the program ends early.

use std::io;

#[derive(Debug)]
pub enum Trouble {
    /// What was asked for can't be done.
    Refused(String),
    /// The words are none that the program knows: this line, if it is one, and the usage.
    Misused(String),
    /// The machine did not do what it was asked to.
    Failed(String),
}

impl From<String> for Trouble {
    fn from(what: String) -> Trouble {
        Trouble::Refused(what)
    }
}

/// Puts before an error of the machine what failed.
pub fn failed(what: &str) -> impl FnOnce(io::Error) -> Trouble + '_ {
    move |e| Trouble::Failed(format!("{what}: {}", words(&e)))
}

/// The machine's own words, without the number that Rust puts behind them.
pub fn words(error: &io::Error) -> String {
    let whole = error.to_string();
    match whole.split_once(" (os error ") {
        Some((words, _)) => words.to_string(),
        None => whole,
    }
}
