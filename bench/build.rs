//! Links the verified reader and writer, `libtiming.a`, if it is there: `./build timing`. It is
//! looked for where `conformance` finds `libhost.a`. Without it they are not timed by themselves.

use std::env;
use std::path::PathBuf;

fn main() {
    println!("cargo:rustc-check-cfg=cfg(timing)");
    println!("cargo:rerun-if-env-changed=TEQHARIS_LIBRARY");
    let folder = folder();
    let archive = folder.join("libtiming.a");
    println!("cargo:rerun-if-changed={}", archive.display());
    if archive.is_file() {
        println!("cargo:rustc-cfg=timing");
        println!("cargo:rustc-link-search=native={}", folder.display());
        println!("cargo:rustc-link-lib=static=timing");
    }
}

fn folder() -> PathBuf {
    if let Some(folder) = env::var_os("TEQHARIS_LIBRARY") {
        return PathBuf::from(folder);
    }
    let here = env::var_os("CARGO_MANIFEST_DIR").expect("cargo sets CARGO_MANIFEST_DIR");
    PathBuf::from(here).join("../target/staticlib")
}
