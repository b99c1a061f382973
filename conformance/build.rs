//! Links the verified library, `libhost.a`, from `target/staticlib` below the workspace root.
//! The variable `TEQHARIS_LIBRARY` names another folder.

use std::env;
use std::path::PathBuf;

fn main() {
    println!("cargo:rerun-if-env-changed=TEQHARIS_LIBRARY");
    let folder = folder();
    let archive = folder.join("libhost.a");
    println!("cargo:rerun-if-changed={}", archive.display());
    if !archive.is_file() {
        eprintln!("{} is not there.", archive.display());
        eprintln!("make it with: ./build host");
        std::process::exit(1);
    }
    println!("cargo:rustc-link-search=native={}", folder.display());
    println!("cargo:rustc-link-lib=static=host");
}

fn folder() -> PathBuf {
    if let Some(folder) = env::var_os("TEQHARIS_LIBRARY") {
        return PathBuf::from(folder);
    }
    let here = env::var_os("CARGO_MANIFEST_DIR").expect("cargo sets CARGO_MANIFEST_DIR");
    PathBuf::from(here).join("../target/staticlib")
}
