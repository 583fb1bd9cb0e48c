//! Links the proved entries and the scaling of a list: `c/archive` writes an archive of each.

use std::path::Path;

fn main() {
    let root = Path::new(env!("CARGO_MANIFEST_DIR")).join("..");
    let archives = root.join("target/staticlib");
    println!("cargo:rustc-link-search=native={}", archives.display());
    for name in ["capi", "scaling"] {
        println!("cargo:rustc-link-lib=static={name}");
        let archive = archives.join(format!("lib{name}.a"));
        println!("cargo:rerun-if-changed={}", archive.display());
    }
}
