//! Links the static library `libhost.a`, by default the one in `../crates/host/out`.
//! `CAGBERIN_LIB_DIR` names another folder to take it from.

use std::path::PathBuf;

fn main() {
    let home = PathBuf::from(std::env::var("CARGO_MANIFEST_DIR").unwrap());
    let folder = match std::env::var("CAGBERIN_LIB_DIR") {
        Ok(folder) => PathBuf::from(folder),
        Err(_) => home.join("../crates/host/out"),
    };
    println!("cargo:rustc-link-search=native={}", folder.display());
    println!("cargo:rustc-link-lib=static:-bundle=host");
    println!("cargo:rerun-if-env-changed=CAGBERIN_LIB_DIR");
    println!("cargo:rerun-if-changed={}", folder.join("libhost.a").display());
    println!("cargo:rerun-if-changed=build.rs");
}
