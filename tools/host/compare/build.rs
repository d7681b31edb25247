//! Learns from the oracle's build whether the original's files were given, and from the compiler its version.

use std::{env, process::Command};

fn main() {
    println!("cargo::rerun-if-changed=build.rs");
    println!("cargo::rustc-check-cfg=cfg(original)");
    if env::var_os("DEP_ORIGINAL_FOUND").is_some() {
        println!("cargo::rustc-cfg=original");
    }
    let rustc = Command::new(env::var_os("RUSTC").unwrap()).arg("--version").output().unwrap();
    println!("cargo::rustc-env=RUSTC_VERSION={}", String::from_utf8_lossy(&rustc.stdout).trim());
}
