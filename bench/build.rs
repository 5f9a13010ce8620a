// Links the archives that only the benchmark calls, which tools/archive makes. The crate nippitsun links the other one.
// NIPPITSUN_ARCHIVES names their folder, if it is not the repository's own.
use std::env;
use std::path::PathBuf;

fn main() {
    println!("cargo:rerun-if-env-changed=NIPPITSUN_ARCHIVES");
    let folder = match env::var("NIPPITSUN_ARCHIVES") {
        Ok(given) => PathBuf::from(given),
        Err(_) => PathBuf::from(env::var("CARGO_MANIFEST_DIR").unwrap()).join("../target/native"),
    };
    println!("cargo:rustc-link-search=native={}", folder.display());
    for name in ["timing", "timing_row"] {
        println!(
            "cargo:rerun-if-changed={}",
            folder.join(format!("lib{}.a", name)).display()
        );
        println!("cargo:rustc-link-lib=static={}", name);
    }
}
