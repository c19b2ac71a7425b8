//! Tells the linker where the library is installed: FABRIC_PREFIX, by default where `make` stages it.

use std::env;
use std::path::Path;

fn main() {
    println!("cargo:rerun-if-env-changed=FABRIC_PREFIX");
    let package = env::var("CARGO_MANIFEST_DIR").expect("cargo names the package's folder");
    let prefix = env::var("FABRIC_PREFIX").unwrap_or_else(|_| "../target/prefix".to_string());
    let archive = Path::new(&package).join(prefix).join("lib/libfabric.a");
    println!("cargo:rerun-if-changed={}", archive.display());
    println!("cargo:rustc-link-arg-bins={}", archive.display());
}
