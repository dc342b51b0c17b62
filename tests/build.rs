//! Tells the linker where librasppuce.a is: in the folder named by RASPPUCE_LIB,
//! or else in target/staticlib, where `build/archive` writes it. Compiles meaning.c besides.

use std::env;
use std::path::PathBuf;
use std::process::Command;

fn main() {
    link_archive();
    link_meaning();
    println!("cargo:rerun-if-changed=build.rs");
}

fn link_archive() {
    let folder = match env::var_os("RASPPUCE_LIB") {
        Some(folder) => PathBuf::from(folder),
        None => PathBuf::from(env::var_os("CARGO_MANIFEST_DIR").unwrap()).join("../target/staticlib"),
    };
    let archive = folder.join("librasppuce.a");
    if !archive.is_file() {
        panic!("no {}: write it with `build/archive`", archive.display());
    }
    println!("cargo:rustc-link-search=native={}", folder.display());
    println!("cargo:rerun-if-changed={}", archive.display());
    println!("cargo:rerun-if-env-changed=RASPPUCE_LIB");
}

fn link_meaning() {
    let object = PathBuf::from(env::var_os("OUT_DIR").unwrap()).join("meaning.o");
    let flags = ["-std=c99", "-Wall", "-Wextra", "-Werror", "-O2", "-fPIC", "-I../include", "-c"];
    let gcc = Command::new("gcc").args(flags).arg("meaning.c").arg("-o").arg(&object).status();
    assert!(gcc.is_ok_and(|status| status.success()), "meaning.c is not compiled");
    println!("cargo:rustc-link-arg-bins={}", object.display());
    println!("cargo:rerun-if-changed=meaning.c");
    println!("cargo:rerun-if-changed=../include/rasppuce.h");
}
