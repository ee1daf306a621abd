//! Links the library when the feature `library` asks for it.
//!
//! `ITZAHUEMO_LIB_DIR` names the folder of the static library;
//! `ITZAHUEMO_LIB_NAME` its name, `itzahuemo` if not set (the file is then
//! `libitzahuemo.a`).

use std::env;
use std::path::Path;

fn main() {
    println!("cargo:rerun-if-changed=build.rs");
    println!("cargo:rerun-if-env-changed=ITZAHUEMO_LIB_DIR");
    println!("cargo:rerun-if-env-changed=ITZAHUEMO_LIB_NAME");
    if env::var_os("CARGO_FEATURE_LIBRARY").is_none() {
        return;
    }
    let folder = env::var("ITZAHUEMO_LIB_DIR")
        .expect("ITZAHUEMO_LIB_DIR must name the folder of the static library");
    let name = env::var("ITZAHUEMO_LIB_NAME").unwrap_or_else(|_| "itzahuemo".to_string());
    let file = Path::new(&folder).join(format!("lib{name}.a"));
    println!("cargo:rerun-if-changed={}", file.display());
    println!("cargo:rustc-link-search=native={folder}");
    println!("cargo:rustc-link-lib=static={name}");
}
