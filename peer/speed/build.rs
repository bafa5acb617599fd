//! Links the static library that `rt lib` writes in `crates/framecoder`.

use std::env;
use std::path::Path;

/// Where the library is written, from this package on.
const LIBRARIES: &str = "../../crates/framecoder/out";

fn main() {
    let here = env::var("CARGO_MANIFEST_DIR").expect("cargo says where the package is");
    let libraries = Path::new(&here).join(LIBRARIES);
    println!("cargo:rustc-link-search=native={}", libraries.display());
    println!("cargo:rustc-link-lib=static=framecoder");
    println!("cargo:rerun-if-changed={}", libraries.join("libframecoder.a").display());
}
