//! Says where `rt lib` in crates/fiddleroost has put the archive.

use std::path::Path;

fn main() {
    let folder = Path::new(env!("CARGO_MANIFEST_DIR")).join("../crates/fiddleroost/out");
    println!("cargo:rustc-link-search=native={}", folder.display());
    let archive = folder.join("libfiddleroost.a");
    println!("cargo:rerun-if-changed={}", archive.display());
}
