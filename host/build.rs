//! Finds the library of the proved calls, libhongsathep.a, which `host/c/build` makes.

use std::{env, path::PathBuf, process::exit};

fn main() {
    println!("cargo:rerun-if-env-changed=HONGSATHEP_LIB_DIR");
    let variable = |name| env::var(name).unwrap_or_default();
    if variable("CARGO_CFG_TARGET_ARCH") != "x86_64" || variable("CARGO_CFG_TARGET_OS") != "linux" {
        eprintln!("hongsathep: the proved calls are compiled for x86-64 Linux alone");
        exit(1);
    }
    let folder = match env::var_os("HONGSATHEP_LIB_DIR") {
        Some(folder) => PathBuf::from(folder),
        None => PathBuf::from(variable("CARGO_MANIFEST_DIR")).join("../target/staticlib"),
    };
    let library = folder.join("libhongsathep.a");
    println!("cargo:rerun-if-changed={}", library.display());
    if !library.is_file() {
        eprintln!("hongsathep: there is no {}", library.display());
        eprintln!("hongsathep: host/c/build makes it (it proves the calls first, with rt),");
        eprintln!("hongsathep: or HONGSATHEP_LIB_DIR names the folder that has one");
        exit(1);
    }
    println!("cargo:rustc-link-search=native={}", folder.display());
    println!("cargo:rustc-link-lib=static=hongsathep");
}
