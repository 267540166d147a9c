//! Links the static libraries that doors/archives makes.
use std::path::Path;

fn main() {
    let root = Path::new(env!("CARGO_MANIFEST_DIR")).parent().expect("doors/ stands in the repository");
    let archives = root.join("target/staticlib");
    println!("cargo:rustc-link-search=native={}", archives.display());
    for name in ["arvandish", "arvandish_ledger"] {
        println!("cargo:rustc-link-lib=static={name}");
        println!("cargo:rerun-if-changed={}", archives.join(format!("lib{name}.a")).display());
    }
}
