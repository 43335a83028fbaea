//! Names the static library to the linker, and compiles the rivals in plain C.

use std::env;
use std::path::{Path, PathBuf};
use std::process::Command;

fn main() {
    let package = PathBuf::from(env::var_os("CARGO_MANIFEST_DIR").expect("cargo sets this"));
    // A relative folder is taken from this package's folder; an absolute one stands as it is.
    let folder = env::var_os("TERMCAP_LIB_DIR").unwrap_or_else(|| "../target/staticlib".into());
    let archive = package.join(folder).join("libtermcap.a");
    let objects = PathBuf::from(env::var_os("OUT_DIR").expect("cargo sets this"));
    for name in ["finder", "search", "sending"] {
        let object = objects.join(name).with_extension("o");
        compile(&package.join(name).with_extension("c"), &object);
        println!("cargo:rustc-link-arg-bins={}", object.display());
        println!("cargo:rerun-if-changed={name}.c");
        println!("cargo:rerun-if-changed={name}.h");
    }

    println!("cargo:rustc-link-arg-bins={}", archive.display());
    println!("cargo:rerun-if-env-changed=TERMCAP_LIB_DIR");
    println!("cargo:rerun-if-env-changed=CC");
    println!("cargo:rerun-if-changed=build.rs");
    println!("cargo:rerun-if-changed={}", archive.display());
}

fn compile(source: &Path, object: &Path) {
    let compiler = env::var_os("CC").unwrap_or_else(|| "gcc".into());
    let status = Command::new(compiler)
        .args(["-std=c99", "-O2", "-Wall", "-Wextra", "-pedantic", "-Werror", "-c", "-o"])
        .arg(object)
        .arg(source)
        .status();
    assert!(status.is_ok_and(|status| status.success()), "the C compiler failed");
}
