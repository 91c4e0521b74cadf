//! Links the proved library, build/libyordzepa.a in the repository's root, the folder above this one.

use std::env;
use std::path::Path;

fn main() {
    let manifest = env::var("CARGO_MANIFEST_DIR").expect("cargo sets CARGO_MANIFEST_DIR");
    let folder = Path::new(&manifest).join("../build");
    let file = folder.join("libyordzepa.a");
    assert!(file.is_file(), "build/libyordzepa.a is missing: run `make libraries` in the root");
    println!("cargo:rerun-if-changed=build.rs");
    println!("cargo:rerun-if-changed={}", file.display());
    println!("cargo:rustc-link-search=native={}", folder.display());
    println!("cargo:rustc-link-lib=static=yordzepa");
}
