//! Links the proved library, which `rt lib` writes in crates/exports.

use std::path::Path;

fn main() {
    let folder = Path::new(env!("CARGO_MANIFEST_DIR")).join("../../crates/exports/out");
    let library = folder.join("libexports.a");
    println!("cargo::rerun-if-changed={}", library.display());
    if library.is_file() {
        println!("cargo::rustc-link-search=native={}", folder.display());
        println!("cargo::rustc-link-lib=static=exports");
    } else {
        println!(
            "cargo::error=crates/exports/out/libexports.a is missing: run `rt lib` in crates/exports first"
        );
    }
}
