//! Links libhost.a, which `tools/build` leaves in the project's target/staticlib.

use std::path::Path;

fn main() {
    let project = Path::new(env!("CARGO_MANIFEST_DIR")).join("../..");
    let directory = project.join("target/staticlib");
    println!("cargo:rerun-if-changed={}", directory.join("libhost.a").display());
    println!("cargo:rustc-link-search=native={}", directory.display());
    println!("cargo:rustc-link-lib=static=host");
}
