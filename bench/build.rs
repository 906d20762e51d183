//! Links the monitor's library for C into `cbench` where it has been built.

use std::path::Path;

fn main() {
    let root = Path::new(env!("CARGO_MANIFEST_DIR")).join("..");
    let library = root.join("target/staticlib/libexports.a");
    let header = root.join("include/yard.h");
    for file in [&library, &header] {
        println!("cargo::rerun-if-changed={}", file.display());
    }
    println!("cargo::rerun-if-changed=build.rs");
    println!("cargo::rustc-check-cfg=cfg(c_interface)");
    if library.exists() && header.exists() {
        println!("cargo::rustc-cfg=c_interface");
        println!("cargo::rustc-link-arg-bin=cbench={}", library.display());
    }
}
