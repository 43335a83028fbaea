//! Names the static library to the linker, for the programs that call it.
//!
//! The unit tests of this package need no static library, so nothing is linked into them.

use std::env;
use std::path::PathBuf;

fn main() {
    let package = PathBuf::from(env::var_os("CARGO_MANIFEST_DIR").expect("cargo sets this"));
    // A relative folder is taken from this package's folder; an absolute one stands as it is.
    let folder = env::var_os("TERMCAP_LIB_DIR").unwrap_or_else(|| "../target/staticlib".into());
    let archive = package.join(folder).join("libtermcap.a");

    println!("cargo:rustc-link-arg-bins={}", archive.display());
    println!("cargo:rerun-if-env-changed=TERMCAP_LIB_DIR");
    println!("cargo:rerun-if-changed={}", archive.display());
    println!("cargo:rerun-if-changed=build.rs");
}
