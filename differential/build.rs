//! Tells the linker where the static libraries lie: the boundary, which `rt lib boundary` makes, and the toolchain's heap.
use std::env;
use std::path::{Path, PathBuf};

fn main() {
    let here = PathBuf::from(env::var("CARGO_MANIFEST_DIR").expect("cargo sets its folder"));
    let boundary = folder("DIFFERENTIAL_BOUNDARY", || {
        here.join("../crates/boundary/out")
    });
    let heap = folder("DIFFERENTIAL_HEAP", || toolchain().join("c"));
    println!("cargo:rustc-link-search=native={}", boundary.display());
    println!("cargo:rustc-link-search=native={}", heap.display());
    println!("cargo:rustc-link-lib=static:-bundle=boundary");
    println!("cargo:rustc-link-lib=static:-bundle=libc_c");
    println!(
        "cargo:rerun-if-changed={}",
        boundary.join("libboundary.a").display()
    );
    println!("cargo:rerun-if-changed=build.rs");
    println!("cargo:rerun-if-env-changed=DIFFERENTIAL_BOUNDARY");
    println!("cargo:rerun-if-env-changed=DIFFERENTIAL_HEAP");
}

/// The folder that a variable of the environment names, else another.
fn folder(variable: &str, otherwise: impl FnOnce() -> PathBuf) -> PathBuf {
    env::var_os(variable).map_or_else(otherwise, PathBuf::from)
}

/// The toolchain's folder: that above the folder of the program `rt`.
fn toolchain() -> PathBuf {
    let path = env::var_os("PATH").unwrap_or_default();
    env::split_paths(&path)
        .map(|folder| folder.join("rt"))
        .find_map(|program| program.canonicalize().ok())
        .and_then(|program| {
            program
                .parent()
                .and_then(Path::parent)
                .map(Path::to_path_buf)
        })
        .expect("`rt` is found on PATH")
}
