// Links the proved libraries, one for each engine: `make` writes them to target/staticlib.
use std::path::Path;

fn main() {
    let dir = Path::new(env!("CARGO_MANIFEST_DIR")).join("../target/staticlib");
    println!("cargo:rustc-link-search=native={}", dir.display());
    for name in ["slotpool", "slotpool_plain"] {
        let archive = dir.join(format!("lib{name}.a"));
        if !archive.exists() {
            panic!("{} is missing: run `make` in the repository first", archive.display());
        }
        println!("cargo:rustc-link-lib=static={name}");
        println!("cargo:rerun-if-changed={}", archive.display());
    }
}
