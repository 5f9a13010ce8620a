//! The event files that both programs get.

use std::fs;
use std::path::{Path, PathBuf};

use event_text::encode;
use second::event_file::VERSION;
use second::generate;

use crate::directed;

/// How many files are generated. Their seeds are 1 to this.
const GENERATED: u64 = 2000;
/// Long ones: seed and records. One seed gives a walk, the other traffic.
const LONG: [(u64, u64); 2] = [(1_000_001, 120_000), (1_000_003, 120_000)];

/// One event file.
#[derive(Clone)]
pub struct Case {
    /// What it is, with its seed if it has one.
    pub name: String,
    /// The whole file.
    pub file: Vec<u8>,
    /// It was made from a seed.
    pub random: bool,
    /// The lines that are stored beside an example.
    pub stored: Option<Vec<u8>>,
    /// The file is handed over in pieces of so many bytes, by a pipe.
    pub pieces: Option<usize>,
}

fn case(name: String, file: Vec<u8>) -> Case {
    Case {
        name,
        file,
        random: false,
        stored: None,
        pieces: None,
    }
}

/// All of them.
pub fn all(root: &Path) -> Result<Vec<Case>, String> {
    let mut cases = examples(&root.join("examples"))?;
    // A pipe gives short reads. No byte of the answer may depend on that.
    for at in 0..cases.len() {
        for pieces in [1, 5] {
            cases.push(Case {
                name: format!("{}, in pieces of {pieces}", cases[at].name),
                pieces: Some(pieces),
                ..cases[at].clone()
            });
        }
    }
    let document = read(&root.join("examples/document-01.txt"))?;
    let document = encode_text("document-01", document)?;
    for (name, file) in [
        ("document 01's example", document),
        ("small file", directed::small()),
    ] {
        for keep in 0..=file.len() {
            cases.push(case(
                format!("{name}, its first {keep} bytes"),
                file[..keep].to_vec(),
            ));
        }
    }
    for version in (0..=255).filter(|&version| version != VERSION) {
        let mut file = directed::small();
        file[0] = version;
        cases.push(case(format!("small file, version {version}"), file));
    }
    for (name, file) in directed::files() {
        cases.push(case(name.into(), file));
    }
    let generated = (1..=GENERATED).map(|seed| (seed, seed % 500 + 1));
    for (seed, count) in generated.chain(LONG) {
        let name = format!("seed {seed} with {count} records");
        cases.push(Case {
            random: true,
            ..case(name, generate::file(seed, count))
        });
    }
    Ok(cases)
}

/// Every text of the folder, with its stored lines.
pub fn examples(folder: &Path) -> Result<Vec<Case>, String> {
    let entries = fs::read_dir(folder).map_err(|e| format!("{}: {e}", folder.display()))?;
    let mut texts: Vec<PathBuf> = entries
        .filter_map(|entry| Some(entry.ok()?.path()))
        .filter(|path| path.extension().map_or(false, |e| e == "txt"))
        .collect();
    texts.sort();
    if texts.is_empty() {
        return Err(format!("{}: no example", folder.display()));
    }
    let mut cases = Vec::new();
    for path in texts {
        let name = path.file_stem().unwrap_or_default().to_string_lossy();
        let file = encode_text(&name, read(&path)?)?;
        let stored = read(&path.with_extension("out"))?;
        cases.push(Case {
            stored: Some(stored),
            ..case(format!("example {name}"), file)
        });
    }
    Ok(cases)
}

fn read(path: &Path) -> Result<Vec<u8>, String> {
    fs::read(path).map_err(|error| format!("{}: {error}", path.display()))
}

fn encode_text(name: &str, text: Vec<u8>) -> Result<Vec<u8>, String> {
    let text = String::from_utf8(text).map_err(|error| format!("{name}.txt: {error}"))?;
    let encoded = encode(&text).map_err(|fault| format!("{name}.txt: {fault}"))?;
    Ok(encoded.bytes)
}
