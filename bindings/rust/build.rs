//! Links libitzahuemo.a, from the folder that `ITZAHUEMO_LIB_DIR` names, or else from the one that `make` at the project's top
//! writes.

use std::env;
use std::path::{Path, PathBuf};

fn main() {
    println!("cargo:rerun-if-changed=build.rs");
    println!("cargo:rerun-if-env-changed=ITZAHUEMO_LIB_DIR");
    let machine = env::var("CARGO_CFG_TARGET_ARCH").expect("cargo names the target");
    assert!(
        machine == "x86_64",
        "the library is compiled for x86-64, and this target is {machine}"
    );
    let folder = env::var_os("ITZAHUEMO_LIB_DIR").map_or_else(own_folder, PathBuf::from);
    let file = folder.join("libitzahuemo.a");
    assert!(file.exists(), "there is no {}: `make` at the project's top writes it", file.display());
    println!("cargo:rerun-if-changed={}", file.display());
    println!("cargo:rustc-link-search=native={}", folder.display());
    println!("cargo:rustc-link-lib=static=itzahuemo");
}

fn own_folder() -> PathBuf {
    let here = env::var_os("CARGO_MANIFEST_DIR").expect("cargo names the package's folder");
    Path::new(&here).join("../../target/lib")
}
