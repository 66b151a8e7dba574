//! Links the static library `target/staticlib/libkiosk.a` of this repository as
//! soon as any part of it is asked for.

use std::path::Path;

fn main() {
    let areas = ["READ", "BUILD", "CHECK", "ASKS", "RIDES"];
    let wanted =
        areas.iter().any(|area| std::env::var_os(format!("CARGO_FEATURE_{area}")).is_some());
    println!("cargo:rerun-if-changed=build.rs");
    if !wanted {
        return;
    }
    let dir = Path::new(env!("CARGO_MANIFEST_DIR")).join("../../target/staticlib");
    let archive = dir.join("libkiosk.a");
    println!("cargo:rerun-if-changed={}", archive.display());
    if !archive.exists() {
        panic!("there is no target/staticlib/libkiosk.a: tests/library makes it");
    }
    println!("cargo:rustc-link-search=native={}", dir.display());
    println!("cargo:rustc-link-lib=static=kiosk");
}
