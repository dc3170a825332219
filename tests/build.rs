//! Compiles c/in_place.c with gcc and links it. For the benchmark
//! (.cargo/config.toml sets `ALIGN_FUNCTIONS`) its functions and those of the
//! library start at multiples of 64 bytes: otherwise their speed depends on where
//! the linker puts them. The library is then a copy that is made here. Tests link
//! it as it is; the build script of the bindings finds it.
use std::env;
use std::path::{Path, PathBuf};
use std::process::Command;

fn main() {
    let here = folder("CARGO_MANIFEST_DIR");
    let out = folder("OUT_DIR");
    let align = env::var_os("ALIGN_FUNCTIONS").is_some();
    if align {
        align_library(&here, &out);
    }
    link_in_place(&here, &out, align);
    println!("cargo:rerun-if-changed=build.rs");
    println!("cargo:rerun-if-env-changed=ALIGN_FUNCTIONS");
}

/// A folder from a variable that cargo sets.
fn folder(variable: &str) -> PathBuf {
    env::var_os(variable).expect("cargo sets it").into()
}

/// Makes a copy of the library with aligned functions, which is the only one that the linker can find: the configuration
/// replaces the build script of the bindings.
fn align_library(here: &Path, out: &Path) {
    let folder = env::var_os("GRELFINT_LIB_DIR").map_or_else(|| here.join("../crates/grelfint/out"), PathBuf::from);
    let (archive, copy) = (folder.join("libgrelfint.a"), out.join("libgrelfint.a"));
    run(Command::new("objcopy").args(["--set-section-alignment", ".text.*=64"]).arg(&archive).arg(copy));
    println!("cargo:rustc-link-search=native={}", out.display());
    println!("cargo:rerun-if-env-changed=GRELFINT_LIB_DIR");
    println!("cargo:rerun-if-changed={}", archive.display());
}

fn link_in_place(here: &Path, out: &Path, align: bool) {
    let [source, header, include] = ["c/in_place.c", "c/in_place.h", "../include"].map(|path| here.join(path));
    let object = out.join("in_place.o");
    let archive = out.join("libin_place.a");
    let flags = ["-std=c11", "-O2", "-Wall", "-Wextra", "-Werror", "-c"];
    let alignment = if align { "-falign-functions=64" } else { "-falign-functions" };
    run(Command::new("gcc").args(flags).arg(alignment).arg("-I").arg(&include).arg(&source).arg("-o").arg(&object));
    run(Command::new("ar").arg("crs").arg(&archive).arg(&object));
    println!("cargo:rustc-link-search=native={}", out.display());
    println!("cargo:rustc-link-lib=static=in_place");
    for input in [source, header, include.join("grelfint.h")] {
        println!("cargo:rerun-if-changed={}", input.display());
    }
}

fn run(command: &mut Command) {
    match command.status() {
        Ok(status) if status.success() => {}
        Ok(status) => panic!("{status}: {command:?}"),
        Err(error) => panic!("{error}: {command:?}"),
    }
}
