//! Links libgrelfint.a from the folder that `GRELFINT_LIB_DIR` names, or else from
//! the repository's crates/grelfint/out. `-bundle` keeps the archive out of this
//! crate's rlib, so that checking, documenting and building the crate work without
//! it; a program needs it.
use std::env;
use std::path::{Path, PathBuf};

fn main() {
    let folder = match env::var_os("GRELFINT_LIB_DIR") {
        Some(folder) => PathBuf::from(folder),
        None => Path::new(&env::var_os("CARGO_MANIFEST_DIR").expect("cargo sets it")).join("../../crates/grelfint/out"),
    };
    // cargo runs this script in another folder than the caller's
    assert!(folder.is_absolute(), "GRELFINT_LIB_DIR is \"{}\"; it has to be an absolute path", folder.display());
    let archive = folder.join("libgrelfint.a");
    if !archive.exists() {
        println!(
            "cargo:warning={} is not there, so no program can be linked: build it with `rt lib` in crates/grelfint, \
             or set GRELFINT_LIB_DIR to the folder that has it",
            archive.display()
        );
    }
    println!("cargo:rustc-link-search=native={}", folder.display());
    println!("cargo:rustc-link-lib=static:-bundle=grelfint");
    println!("cargo:rerun-if-env-changed=GRELFINT_LIB_DIR");
    println!("cargo:rerun-if-changed={}", archive.display());
    println!("cargo:rerun-if-changed=build.rs");
}
