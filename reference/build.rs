//! Under the feature `library`, finds the static libraries that `rt lib` writes in `crates/capi` and `crates/probe`.

use std::path::Path;

fn main() {
    println!("cargo:rerun-if-changed=build.rs");
    if std::env::var_os("CARGO_FEATURE_LIBRARY").is_none() {
        return;
    }
    let manifest = std::env::var("CARGO_MANIFEST_DIR").expect("cargo sets it");
    let crates = Path::new(&manifest).join("../crates");
    for name in ["capi", "probe"] {
        let out = crates.join(name).join("out");
        println!("cargo:rustc-link-search=native={}", out.display());
        let library = out.join(format!("lib{name}.a"));
        println!("cargo:rerun-if-changed={}", library.display());
    }
}
