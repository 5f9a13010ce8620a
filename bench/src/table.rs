//! The tables, at most 120 columns wide, one row a cell.
use std::collections::HashMap;

/// The places of an arrival's sides. A tag call, a send, a turn and a decision have the first two as well.
const PRODUCT: usize = 0;
const PLAIN: usize = 1;
const SECOND: usize = 2;
const MEMCPY: usize = 3;
const BARE: usize = 4;

/// The places of a batch's sides behind the first two.
const SINGLE: usize = 2;
const LOOP: usize = 3;

/// What was measured of a cell, side by side: the least time, and the instructions inside the call.
pub struct Row {
    pub name: String,
    pub ns: Vec<f64>,
    pub counts: Vec<Option<f64>>,
}

impl Row {
    fn ratio(&self, to: usize) -> f64 {
        self.ns[PRODUCT] / self.ns[to]
    }

    /// The instructions of a side, or `-` where nothing counted them.
    fn count(&self, side: usize) -> String {
        self.counts[side].map_or(String::from("-"), |n| format!("{:.0}", n))
    }
}

/// The instructions by cell and side.
pub struct Counts(HashMap<String, f64>);

impl Counts {
    pub fn read(path: &str) -> Result<Counts, String> {
        let text = std::fs::read_to_string(path).map_err(|e| format!("{}: {}", path, e))?;
        let mut counts = HashMap::new();
        for line in text.lines() {
            let (what, number) = line
                .rsplit_once(' ')
                .ok_or_else(|| format!("{}: {}", path, line))?;
            counts.insert(
                String::from(what),
                number.parse().map_err(|_| format!("{}: {}", path, line))?,
            );
        }
        Ok(Counts(counts))
    }

    pub fn of(&self, cell: &str, sides: &[&str]) -> Vec<Option<f64>> {
        sides
            .iter()
            .map(|side| self.0.get(&format!("{} {}", cell, side)).copied())
            .collect()
    }
}

/// What an arrival's cell is called after: its size, its streams and its mix.
fn parts(name: &str) -> (usize, usize, &str) {
    let words: Vec<&str> = name.split('-').collect();
    (
        words[1].parse().unwrap(),
        words[2].parse().unwrap(),
        words[3],
    )
}

/// The time that one of two full networks leaves one core for an arrival, in ns: the frame and 20 bytes around it.
fn line_time(size: usize, gigabits: f64) -> f64 {
    ((size + 20) * 8) as f64 / gigabits / 2.0
}

/// The largest part of the product's time: the search, the copy, or the rest.
fn most(row: &Row, rows: &[Row]) -> &'static str {
    let (size, _, mix) = parts(&row.name);
    // With one stream this mix would be the other.
    let alone = if mix == "shared" { "vlans" } else { mix };
    let one = match rows.iter().find(|r| parts(&r.name) == (size, 1, alone)) {
        Some(one) => one,
        None => return "-",
    };
    let handed_up = match mix {
        "duplicate" | "rogue" | "refused" => 0.0,
        "pair" => 0.5,
        _ => 1.0,
    };
    let search = row.ns[PRODUCT] - one.ns[PRODUCT];
    let copy = handed_up * (row.ns[MEMCPY] - row.ns[BARE]);
    let rest = row.ns[PRODUCT] - row.ns[BARE] - search - copy;
    if search > copy && search > rest {
        "search"
    } else if copy > rest {
        "copy"
    } else {
        "rest"
    }
}

/// The least and the largest of some numbers.
fn range(numbers: &[f64], digits: usize) -> String {
    let least = numbers.iter().copied().fold(f64::MAX, f64::min);
    let largest = numbers.iter().copied().fold(f64::MIN, f64::max);
    format!("{:.*} to {:.*}", digits, least, digits, largest)
}

/// The ratios to one side, as they are printed.
fn ratios<'a>(rows: impl Iterator<Item = &'a Row>, to: usize) -> Vec<f64> {
    rows.map(|r| (r.ratio(to) * 100.0).round() / 100.0)
        .collect()
}

/// How many of the cells meet the aim beside one side, as the ratio is printed, and the range of the ratios.
fn tell_aim(ratios: &[f64], beside: &str, aim: f64) {
    println!(
        "Beside {}: {}; the aim, at most {:.1}, is met in {} of {} cells.",
        beside,
        range(ratios, 2),
        aim,
        ratios.iter().filter(|&&r| r <= aim).count(),
        ratios.len()
    );
}

/// How much more a gap costs than one of 1, where both cells were timed, which are so called but for the gap.
fn tell_gap(rows: &[Row], cells: &str, gap: u16, aim: f64) {
    let time = |name: String| rows.iter().find(|r| r.name == name).map(|r| r.ns[PRODUCT]);
    if let (Some(one), Some(more)) = (
        time(format!("{}-new", cells)),
        time(format!("{}-gap{}", cells, gap)),
    ) {
        println!(
            "A forward gap of {} costs the product {:.2} times a gap of 1 (aim: at most {}).",
            gap,
            more / one,
            aim
        );
    }
}

/// The one table.
pub fn arrivals(rows: &[Row], aim: f64) {
    of_arrivals("the arrivals", rows);
    println!("plain: Rust written for speed. second: the second program's arrival. memcpy: the frame's bytes copied, nothing else.");
    println!("line rate: the time that two full networks of 1 or 10 Gbit/s leave one core for an arrival (frame + 20 bytes),");
    println!("divided by the product's time: above 1 it keeps up. most of it: the search, the copy, or the rest.");
    tell_arrivals(rows, aim);
    tell_gap(rows, "arrival-64-1", 63, 2.0);
    let bare: Vec<f64> = rows.iter().map(|r| r.ns[BARE]).collect();
    println!(
        "In every time: the loop that writes the frames and a bare call, together {} ns.",
        range(&bare, 1)
    );
}

/// The same for the largest window.
pub fn windows(rows: &[Row], aim: f64) {
    of_arrivals("with L = 512", rows);
    tell_arrivals(rows, aim);
    tell_gap(rows, "window-64-1", 511, 1.5);
}

/// The same for virtual links.
pub fn links(rows: &[Row], aim: f64) {
    of_arrivals("virtual links", rows);
    tell_arrivals(rows, aim);
}

fn tell_arrivals(rows: &[Row], aim: f64) {
    let tell = |to, beside| tell_aim(&ratios(rows.iter(), to), beside, aim);
    tell(PLAIN, "the plain arrival written for speed");
    tell(SECOND, "the second program's arrival");
}

fn of_arrivals(what: &str, rows: &[Row]) {
    println!("{:22} |       ns an arrival         | instructions an arrival     |  product to  |  line rate  | most", what);
    println!("size streams mix       | product plain second memcpy | product plain second memcpy | plain second |    1G   10G | of it");
    println!("-----------------------+-----------------------------+-----------------------------+--------------+-------------+------");
    for r in rows {
        let (size, streams, mix) = parts(&r.name);
        let ns = r.ns[PRODUCT];
        println!(
            "{:4} {:7} {:9} | {:7.1} {:5.1} {:6.1} {:6.1} | {:>7} {:>5} {:>6} {:>6} | {:5.2} {:6.2} | {:5.1} {:5.2} | {}",
            size,
            streams,
            mix,
            ns,
            r.ns[PLAIN],
            r.ns[SECOND],
            r.ns[MEMCPY],
            r.count(PRODUCT),
            r.count(PLAIN),
            r.count(SECOND),
            r.count(MEMCPY),
            r.ratio(PLAIN),
            r.ratio(SECOND),
            line_time(size, 1.0) / ns,
            line_time(size, 10.0) / ns,
            most(r, rows)
        );
    }
    println!();
}

/// A batch's cell is called after its frames, their size, the streams and their order.
fn frames_of(name: &str) -> usize {
    name.split('-').nth(1).unwrap().parse().unwrap()
}

pub fn batches(rows: &[Row], aim: f64) {
    println!(
        "the batches                |      ns a frame      | instructions a frame |   batch to"
    );
    println!(
        "frames size streams order  |  batch single  plain |  batch single  plain | single plain"
    );
    println!(
        "---------------------------+----------------------+----------------------+-------------"
    );
    for r in rows {
        let words: Vec<&str> = r.name.split('-').collect();
        println!(
            "{:>6} {:>4} {:>7} {:6} | {:6.1} {:6.1} {:6.1} | {:>6} {:>6} {:>6} | {:6.2} {:5.2}",
            words[1],
            words[2],
            words[3],
            words[4],
            r.ns[PRODUCT],
            r.ns[SINGLE],
            r.ns[PLAIN],
            r.count(PRODUCT),
            r.count(SINGLE),
            r.count(PLAIN),
            r.ratio(SINGLE),
            r.ratio(PLAIN)
        );
    }
    println!();
    println!("batch: the product's. single: as many single calls of the product. plain: the batch in Rust written for speed, with the same index.");
    println!("vlans: in turn, and each frame has a VLAN tag.");
    for frames in [1, 8, 16, 32] {
        let of = || rows.iter().filter(move |r| frames_of(&r.name) == frames);
        let (single, plain) = (ratios(of(), SINGLE), ratios(of(), PLAIN));
        if single.is_empty() {
            continue;
        }
        if frames == 32 {
            tell_aim(&single, "single calls, batches of 32", aim);
            tell_aim(&plain, "the plain batch, batches of 32", aim);
            continue;
        }
        let more: Vec<f64> = of()
            .map(|r| (r.ns[PRODUCT] - r.ns[SINGLE]) * frames as f64)
            .collect();
        println!(
            "Batches of {}: {} beside single calls, {} beside the plain batch. One costs {} ns more than single calls.",
            frames,
            range(&single, 2),
            range(&plain, 2),
            range(&more, 0)
        );
    }
    let bare: Vec<f64> = rows.iter().map(|r| r.ns[LOOP]).collect();
    println!(
        "In every time: the loop that writes the frames, {} ns.",
        range(&bare, 1)
    );
}

fn small(what: &str, rows: &[Row], sides: &[&str]) {
    let each = |cell: &dyn Fn(usize) -> String, from: usize| -> String {
        (from..sides.len())
            .map(|i| format!(" {:>8}", cell(i)))
            .collect()
    };
    let names = |from: usize| each(&|i| String::from(sides[i]), from);
    println!(
        "{:22} |{:>w$} |{:>w$} |{:>v$}",
        what,
        "ns",
        "instructions",
        "product to",
        w = 9 * sides.len(),
        v = 2 + 9 * (sides.len() - 1)
    );
    println!("{:22} |{} |{} |{}", "", names(0), names(0), names(1));
    for r in rows {
        println!(
            "{:22} |{} |{} |{}",
            r.name,
            each(&|i| format!("{:.1}", r.ns[i]), 0),
            each(&|i| r.count(i), 0),
            each(&|i| format!("{:.2}", r.ratio(i)), 1)
        );
    }
    println!();
}

pub fn tags(rows: &[Row], aim: f64) {
    small("tag calls", rows, &["product", "plain"]);
    tell_aim(&ratios(rows.iter(), PLAIN), "the plain call", aim);
}

pub fn sends(rows: &[Row], aim: f64) {
    small("sends", rows, &["product", "plain", "memcpy"]);
    println!("plain: Rust written for speed. memcpy: the frame's bytes copied to both outputs, nothing else.");
    tell_aim(&ratios(rows.iter(), PLAIN), "the plain send", aim);
}

pub fn turns(rows: &[Row], aim: f64) {
    small("PRP frames", rows, &["product", "plain", "memcpy"]);
    println!("The size is the PRP frame's. plain: Rust written for speed. memcpy: the frame's bytes copied, nothing else.");
    tell_aim(&ratios(rows.iter(), PLAIN), "the plain turn", aim);
}

pub fn decisions(rows: &[Row], aim: f64) {
    small("decisions", rows, &["product", "plain", "in place"]);
    let tell = |to, beside| tell_aim(&ratios(rows.iter(), to), beside, aim);
    tell(PLAIN, "the plain decision by value");
    tell(SECOND, "the plain decision in place");
    tell_gap(rows, "row", 63, 2.0);
}
