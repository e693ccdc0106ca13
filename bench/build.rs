//! With the feature `proved`: finds the static library of the proved program and the C code that it allocates with.

use std::path::Path;
use std::process::Command;

fn main() {
    println!("cargo:rerun-if-changed=build.rs");
    if std::env::var_os("CARGO_FEATURE_PROVED").is_none() {
        return;
    }
    let library = Path::new("../crates/probe/out");
    assert!(library.join("libprobe.a").exists(), "no libprobe.a: build it first, by `rt lib` in crates/probe");
    let library = library.canonicalize().expect("a folder that is there");
    println!("cargo:rerun-if-changed={}", library.join("libprobe.a").display());
    println!("cargo:rustc-link-search=native={}", library.display());
    println!("cargo:rustc-link-lib=static=probe");
    println!("cargo:rustc-link-search=native={}", kit().join("c").display());
    println!("cargo:rustc-link-lib=static=libc_c");
}

/// The folder of the Rattle kit, that of the page which `rt doc` names.
fn kit() -> std::path::PathBuf {
    let told = Command::new("rt").arg("doc").output().expect("the command rt of the Rattle kit");
    let page = String::from_utf8(told.stdout).expect("a path");
    Path::new(page.trim()).parent().expect("a page in a folder").to_path_buf()
}
