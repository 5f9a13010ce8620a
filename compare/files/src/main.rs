//! `compare-files WORDS..`: WORDS run the product's program `events`. It is run
//! from the root of the tree. The last line says how much was compared.

#![forbid(unsafe_code)]

use std::path::Path;
use std::process::ExitCode;
use std::{env, fs};

use compare_files::cases::{self, Case};
use compare_files::tally::Tally;
use compare_files::{first_difference, product, records, second_lines};
use event_text::decode;
use second::generate::push_record;
use second::wrong::{self, Seen, VARIANTS};

/// Failures that are printed one by one.
const SHOWN: usize = 5;

fn main() -> ExitCode {
    match compare() {
        Ok(summary) => {
            println!("{summary}");
            ExitCode::SUCCESS
        }
        Err(message) => {
            println!("FAILED: {message}");
            ExitCode::FAILURE
        }
    }
}

fn compare() -> Result<String, String> {
    let words: Vec<String> = env::args().skip(1).collect();
    if words.is_empty() {
        return Err("usage: compare-files WORDS.., which run the product's events".into());
    }
    let room = Path::new("target/compare-files");
    fs::create_dir_all(room).map_err(|error| format!("{}: {error}", room.display()))?;
    let cases = cases::all(Path::new("."))?;
    let answers = product::run_all(&words, &cases, room);

    let mut tally = Tally::default();
    let mut bytes = 0;
    // Each case with its lines, which both programs wrote.
    let mut equal = Vec::new();
    let mut faults = Vec::new();
    for (case, answer) in cases.iter().zip(&answers) {
        match held_together(case, answer) {
            Ok(lines) => {
                bytes += case.file.len();
                tally.file(&case.file, &String::from_utf8_lossy(lines));
                equal.push((case, lines));
            }
            Err(fault) => {
                faults.push(format!("{}: {fault}", case.name));
                let kept = room.join(format!("failed-{}", faults.len()));
                if faults.len() <= SHOWN && fs::write(&kept, &case.file).is_ok() {
                    println!(
                        "{} (the file: {})",
                        faults[faults.len() - 1],
                        kept.display()
                    );
                }
            }
        }
    }
    if let Some(first) = faults.first() {
        let (some, of) = (faults.len(), cases.len());
        return Err(format!("{some} of {of} files; the first is {first}"));
    }
    tally.print();
    faults.extend(tally.faults());
    let caught = try_wrong_variants(&equal, &mut faults);
    if let Some(first) = faults.first() {
        for fault in &faults {
            println!("{fault}");
        }
        return Err(format!("{} faults; the first is {first}", faults.len()));
    }
    Ok(format!(
        "{} event files with {} records, {bytes} bytes: product and second program write the same lines; {caught}",
        cases.len(),
        tally.records
    ))
}

/// The product's lines, if they are those of the second program and, for an
/// example, the stored ones.
fn held_together<'a>(case: &Case, answer: &'a Result<Vec<u8>, String>) -> Result<&'a [u8], String> {
    let lines = answer.as_ref()?;
    let second = second_lines(&case.file);
    let stored = case.stored.as_ref().unwrap_or(&second);
    let differs = first_difference(("product", lines), ("second program", &second))
        .or_else(|| first_difference(("both", &second), ("stored", stored)));
    match differs {
        Some((line, what)) => Err(format!("{what}{}", record(&case.file, line))),
        None => Ok(lines),
    }
}

/// The record that belongs to a line, as text. The last line has none.
fn record(file: &[u8], line: usize) -> String {
    let text = decode(&records(file).nth(line - 1).map_or(vec![1], |body| {
        let mut file = vec![1];
        push_record(&mut file, body);
        file
    }));
    match text.trim_end() {
        "" => String::new(),
        text => format!(", record: {text:.200}"),
    }
}

/// Every variant that files can show must be caught by one, and the others by
/// none, or the list is wrong.
fn try_wrong_variants(equal: &[(&Case, &[u8])], faults: &mut Vec<String>) -> String {
    let (mut caught, mut of, mut unseen) = (0, 0, 0);
    for variant in VARIANTS {
        wrong::set(Some(variant.wrong));
        // The first file that shows it among those made for something, and the
        // first among the random ones.
        let shows = |random: bool| {
            let mut cases = equal.iter().filter(|(case, _)| case.random == random);
            cases.find(|(case, lines)| second_lines(&case.file) != *lines)
        };
        let by: Vec<_> = [shows(false), shows(true)].into_iter().flatten().collect();
        wrong::set(None);
        let by: Vec<&str> = by.iter().map(|(case, _)| case.name.as_str()).collect();
        let name = format!("wrong variant {:?}: {}", variant.wrong, variant.what);
        match (variant.seen, by.is_empty()) {
            (Seen::Files, false) => {
                caught += 1;
                println!("{name}: caught by {}", by.join(" and by "));
            }
            (Seen::Files, true) => faults.push(format!("{name}: NOT caught")),
            (Seen::CallsOnly, false) => {
                let by = by.join(" and by ");
                faults.push(format!("{name}: marked for calls only, but caught by {by}"));
            }
            (Seen::CallsOnly, true) => unseen += 1,
        }
        of += u32::from(variant.seen == Seen::Files);
    }
    format!("{caught} of {of} wrong variants caught ({unseen} more are for calls alone)")
}
