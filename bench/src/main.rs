//! The proved calls beside the same calls in plain Rust: first their results are compared, then their times.
//!
//! `bench compare` compares, and `bench cases` writes the decisions compared, with the plain side's results, for bench/replay.c.
//! `bench count` makes the same calls of each cell and side for callgrind, and tells `CELL SIDE CALLS` for each. `bench table
//! COUNTS NAME..` times the cells whose names start so and prints the tables; COUNTS has a line `CELL SIDE INSTRUCTIONS` for
//! each that was counted.
mod cells;
mod cells_arrivals;
mod cells_batches;
mod cells_prp;
mod cells_sends;
mod compare;
mod compare_arrivals;
mod compare_batches;
mod compare_prp;
mod compare_sends;
mod plain;
mod proved;
mod record;
mod table;

use std::io::Write;
use std::time::Instant;
use table::Row;

/// Many short rounds: the least of them is one that nothing disturbed.
const ROUNDS: usize = 1000;

/// A multiple of 128: each of 64 streams has the same turns, on both networks.
const CALLS: u64 = 2560;

/// Each side in each round, in another order each time. The least time of each.
fn measure(group: &cells::Group, cell: &mut cells::Cell) -> Result<Vec<f64>, String> {
    let calls = CALLS / cell.each;
    let sides = cell.works.len();
    let mut least = vec![f64::MAX; sides];
    let mut sums = vec![0; sides];
    for round in 0..ROUNDS {
        for turn in 0..sides {
            let side = (round + turn) % sides;
            let start = Instant::now();
            sums[side] = (cell.works[side])(calls);
            let ns = start.elapsed().as_nanos() as f64 / (calls * cell.each) as f64;
            least[side] = least[side].min(ns);
        }
        if sums[..group.alike].iter().any(|&s| s != sums[0]) {
            return Err(format!("DIFFERENT: {} in round {}", cell.name, round));
        }
    }
    Ok(least)
}

fn compared() -> Result<(), String> {
    let mut none = compare::Cases(None);
    let tags = compare::tags(300_000)?;
    let decisions = compare::decisions(300_000, &mut none)?;
    println!("{} tag calls and {} decisions and rows of them on random inputs: answers, records and output bytes equal", tags, decisions);
    let sends = compare_sends::sends(300_000)?;
    println!("{} sends of random frames, with resets between: answers, next numbers and the bytes of both outputs equal", sends);
    let turns = compare_prp::turns(300_000)?;
    println!(
        "{} turns of random frames from PRP and to PRP: answers and output bytes equal",
        turns
    );
    let arrivals = compare_arrivals::arrivals(800_000)?;
    println!("{} arrivals on random tables, half of them of virtual links, beside two plain arrivals: answers, records and output bytes equal", arrivals);
    let batches = compare_batches::batches(40_000)?;
    println!("{} batches on random tables with indexes, beside a plain batch and single calls in turn: answers, records and output bytes equal", batches);
    Ok(())
}

/// Fewer decisions, written to standard output. compare/ has the other calls.
fn cases() -> Result<(), String> {
    let mut kept = compare::Cases(Some(Vec::new()));
    compare::decisions(100_000, &mut kept)?;
    std::io::stdout()
        .write_all(&kept.0.unwrap())
        .map_err(|e| e.to_string())
}

/// Where callgrind writes down what it has counted, and starts again at 0.
#[no_mangle]
#[inline(never)]
pub extern "C" fn bench_counted() {
    cells::hidden(0u8);
}

/// Nothing but the calls between two ends of bench_counted; what was done is told at the end.
fn count() {
    let mut groups = cells::all();
    bench_counted();
    for group in &mut groups {
        for cell in &mut group.cells {
            for work in &mut cell.works {
                cells::hidden(work(CALLS / cell.each));
                bench_counted();
            }
        }
    }
    for group in &groups {
        for cell in &group.cells {
            for side in group.sides {
                println!("{} {} {}", cell.name, side, CALLS / cell.each * cell.each);
            }
        }
    }
}

fn tables(counts: &str, names: &[&str]) -> Result<(), String> {
    let counts = table::Counts::read(counts)?;
    for (mut group, print) in cells::all().into_iter().zip([
        table::arrivals,
        table::windows,
        table::links,
        table::batches,
        table::tags,
        table::sends,
        table::turns,
        table::decisions,
    ]) {
        let mut cells = std::mem::take(&mut group.cells);
        cells.retain(|c| names.iter().any(|n| c.name.starts_with(n)));
        let mut rows = Vec::new();
        for mut cell in cells {
            let ns = measure(&group, &mut cell)?;
            rows.push(Row {
                ns,
                counts: counts.of(&cell.name, group.sides),
                name: cell.name,
            });
        }
        if !rows.is_empty() {
            println!();
            print(&rows, group.aim);
        }
    }
    Ok(())
}

fn run() -> Result<(), String> {
    let words: Vec<String> = std::env::args().skip(1).collect();
    let words: Vec<&str> = words.iter().map(|w| w.as_str()).collect();
    match words[..] {
        ["compare"] => compared(),
        ["cases"] => cases(),
        ["count"] => {
            count();
            Ok(())
        }
        ["table", counts, ref names @ ..] => tables(counts, names),
        _ => Err(String::from(
            "usage: bench compare | cases | count | table COUNTS NAME..",
        )),
    }
}

/// A thread's stack begins with a page. The first one's place in a page is another at each run, and what a batch's answers
/// cost hangs on it.
fn main() {
    if let Err(why) = std::thread::spawn(run).join().unwrap() {
        eprintln!("bench: {}", why);
        std::process::exit(1);
    }
}
