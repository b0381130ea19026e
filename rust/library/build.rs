//! Links the proved library, whose archives `./archives` writes to the
//! repository's `target/staticlib`.

use std::env;
use std::path::Path;
use std::process::exit;

/// The archives, by the names of their crates.
const ARCHIVES: [&str; 4] = [
    "joguyvi_years",
    "joguyvi_records",
    "joguyvi_rows",
    "joguyvi_steps",
];

fn main() {
    let here = env::var("CARGO_MANIFEST_DIR").expect("cargo names the manifest's directory");
    let folder = Path::new(&here).join("../../target/staticlib");
    for name in ARCHIVES {
        let archive = folder.join(format!("lib{name}.a"));
        // Named also while it is missing, so that cargo looks again once it is there.
        println!("cargo:rerun-if-changed={}", archive.display());
        if !archive.is_file() {
            missing(name);
        }
        println!("cargo:rustc-link-lib=static={name}");
    }
    let folder = folder
        .canonicalize()
        .expect("a folder with archives has a path");
    println!("cargo:rustc-link-search=native={}", folder.display());
}

fn missing(name: &str) -> ! {
    eprintln!(
        "The proved archive target/staticlib/lib{name}.a is not there: run `./archives` first."
    );
    exit(1);
}
