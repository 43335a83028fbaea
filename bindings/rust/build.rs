//! Names the static library to the linker.

use std::env;
use std::fs;
use std::path::PathBuf;

fn main() {
    let variable = |name| PathBuf::from(env::var_os(name).expect("cargo sets this"));
    // A relative folder is taken from this package's folder; an absolute one stands as it is.
    let folder = env::var_os("TERMCAP_LIB_DIR").unwrap_or_else(|| "../../target/staticlib".into());
    let folder = variable("CARGO_MANIFEST_DIR").join(folder);
    let archive = folder.join("libtermcap.a");
    println!("cargo:rerun-if-env-changed=TERMCAP_LIB_DIR");
    println!("cargo:rerun-if-changed={}", archive.display());
    println!("cargo:rerun-if-changed=build.rs");

    // A linker that looks for `termcap` may find another library of that name, so it is given a
    // copy under a name of its own.
    let copies = variable("OUT_DIR");
    if let Err(error) = fs::copy(&archive, copies.join("libtermcap_proved.a")) {
        panic!("{}: {error}: `./staticlib` writes it, in the repository's folder", archive.display());
    }
    println!("cargo:rustc-link-search=native={}", copies.display());
    // Not bundled into the rlib: the library is linked once, into the program.
    println!("cargo:rustc-link-lib=static:-bundle=termcap_proved");
}
