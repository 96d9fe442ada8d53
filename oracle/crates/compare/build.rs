// Links libexports.a from the directory named by TUNGVESK_LIB. A relative one is
// taken from the folder of the oracle. Without the archive the program is built
// too, and says how to get it.

use std::{env, path::Path};

const DEFAULT: &str = "../target/staticlib";

fn main() {
    println!("cargo::rerun-if-env-changed=TUNGVESK_LIB");
    println!("cargo::rustc-check-cfg=cfg(library)");
    let dir = Path::new(&env::var_os("CARGO_MANIFEST_DIR").expect("set by cargo"))
        .join("../..")
        .join(env::var_os("TUNGVESK_LIB").unwrap_or_else(|| DEFAULT.into()));
    let archive = dir.join("libexports.a");
    println!("cargo::rerun-if-changed={}", archive.display());
    if archive.exists() {
        println!("cargo::rustc-cfg=library");
        println!("cargo::rustc-link-search=native={}", dir.display());
        println!("cargo::rustc-link-lib=static=exports");
    }
}
