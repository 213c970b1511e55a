//! Links `calls` with the library for C.

use std::env;
use std::path::Path;

fn main() {
    if env::var_os("CARGO_FEATURE_LIBRARY").is_none() {
        return;
    }
    let package = env::var("CARGO_MANIFEST_DIR").expect("cargo names the package's directory");
    let library = Path::new(&package).join("../../crates/maltziru/out/libmaltziru.a");
    println!("cargo:rustc-link-arg-bin=calls={}", library.display());
    println!("cargo:rerun-if-changed={}", library.display());
}
