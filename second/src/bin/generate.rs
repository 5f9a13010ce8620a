//! `generate SEED COUNT` writes an event file with COUNT records to standard
//! output; see the module `generate`.

use std::io::{self, Write};
use std::process::ExitCode;

use second::generate::file;

fn main() -> ExitCode {
    let arguments: Vec<String> = std::env::args().skip(1).collect();
    let numbers: Vec<u64> = arguments.iter().flat_map(|a| a.parse()).collect();
    let (seed, count) = match (arguments.len(), numbers.as_slice()) {
        (2, &[seed, count]) => (seed, count),
        _ => {
            let _ = writeln!(io::stderr(), "usage: generate SEED COUNT");
            return ExitCode::from(2);
        }
    };
    let mut out = io::stdout().lock();
    let written = out.write_all(&file(seed, count));
    if let Err(error) = written.and_then(|()| out.flush()) {
        let _ = writeln!(io::stderr(), "generate: cannot write: {error}");
        return ExitCode::FAILURE;
    }
    ExitCode::SUCCESS
}
