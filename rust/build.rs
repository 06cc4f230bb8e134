//! Links the static library that the proved crates are built into.
use std::env;
use std::path::Path;

fn main() {
    println!("cargo::rerun-if-changed=build.rs");
    if env::var_os("CARGO_FEATURE_PLAIN").is_some() {
        return;
    }
    let here = env::var("CARGO_MANIFEST_DIR").expect("cargo sets the manifest's directory");
    let folder = Path::new(&here).join("../crates/export/out");
    let library = folder.join("libexport.a");
    println!("cargo::rerun-if-changed={}", library.display());
    if !library.is_file() {
        println!(
            "cargo::error={} is missing: build it with `rt lib` in crates/export, \
             or do without it by `--features plain`",
            library.display()
        );
        return;
    }
    println!("cargo::rustc-link-search=native={}", folder.display());
    println!("cargo::rustc-link-lib=static=export");
}
