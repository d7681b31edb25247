//! Finds `libmuosleap_c.a`: in the folder that MUOSLEAP_LIB_DIR names, else where `rt lib` in crates/muosleap_c puts it.

use std::{env, path::PathBuf, process::exit};

fn main() {
    println!("cargo::rerun-if-env-changed=MUOSLEAP_LIB_DIR");
    let root = PathBuf::from(env::var_os("CARGO_MANIFEST_DIR").unwrap());
    let folder = match env::var_os("MUOSLEAP_LIB_DIR") {
        Some(folder) => root.join(folder),
        None => root.join("../../crates/muosleap_c/out"),
    };
    let archive = folder.join("libmuosleap_c.a");
    println!("cargo::rerun-if-changed={}", archive.display());
    if !archive.exists() {
        println!("cargo::error=there is no {}", archive.display());
        println!(
            "cargo::error=make it with `rt lib` in crates/muosleap_c, or name its folder in MUOSLEAP_LIB_DIR"
        );
        exit(1);
    }
    println!("cargo::rustc-link-search=native={}", folder.display());
    println!("cargo::rustc-link-lib=static=muosleap_c");
    // For the test of the C example.
    println!("cargo::rustc-env=MUOSLEAP_LIB_DIR_USED={}", folder.display());
}
