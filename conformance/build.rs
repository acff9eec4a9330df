//! Links libsae.a, if it is there, from the folder that SAE_LIB_DIR names.

use std::path::PathBuf;
use std::{env, process};

fn main() {
    println!("cargo:rustc-check-cfg=cfg(archive)");
    println!("cargo:rerun-if-env-changed=SAE_LIB_DIR");
    let package = PathBuf::from(env::var_os("CARGO_MANIFEST_DIR").expect("cargo sets it"));
    let folder = match env::var_os("SAE_LIB_DIR") {
        Some(folder) => PathBuf::from(folder),
        None => package.join("../target/staticlib"),
    };
    let archive = folder.join("libsae.a");
    println!("cargo:rerun-if-changed={}", archive.display());
    if archive.exists() {
        println!("cargo:rustc-cfg=archive");
        println!("cargo:rustc-link-search=native={}", folder.display());
        println!("cargo:rustc-link-lib=static=sae");
    } else if env::var_os("CARGO_FEATURE_ARCHIVE").is_some() {
        eprintln!("no {}: `tools/archive` makes it", archive.display());
        process::exit(1);
    }
}
