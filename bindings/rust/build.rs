// Links the archive of the proved crates `port` and `port_*`. In the repository tools/archive makes it: target/native/libport.a.
// Where tools/install put this crate, it stands in the same prefix: lib/libnippitsun.a. NIPPITSUN_ARCHIVES names another folder.
use std::env;
use std::path::PathBuf;

fn main() {
    println!("cargo:rerun-if-env-changed=NIPPITSUN_ARCHIVES");
    let here = PathBuf::from(env::var("CARGO_MANIFEST_DIR").unwrap());
    let folders = match env::var("NIPPITSUN_ARCHIVES") {
        Ok(given) => vec![PathBuf::from(given)],
        Err(_) => vec![here.join("../../target/native"), here.join("../../../lib")],
    };
    for folder in &folders {
        for name in ["port", "nippitsun"] {
            let archive = folder.join(format!("lib{name}.a"));
            if archive.is_file() {
                println!("cargo:rerun-if-changed={}", archive.display());
                println!("cargo:rustc-link-search=native={}", folder.display());
                println!("cargo:rustc-link-lib=static={name}");
                return;
            }
        }
    }
    eprintln!(
        "there is neither libport.a nor libnippitsun.a in {folders:?}: run tools/archive, or set NIPPITSUN_ARCHIVES to their folder"
    );
    std::process::exit(1);
}
