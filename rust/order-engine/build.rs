//! Tells the linker where the proved engine's archive lies: in the folder that `ORDER_LIB_DIR`
//! names, otherwise where `make lib` puts it.

use std::env;
use std::path::{Path, PathBuf};

fn main() {
    println!("cargo::rerun-if-env-changed=ORDER_LIB_DIR");
    let folder = folder();
    let archive = folder.join("liborder_ffi.a");
    println!("cargo::rerun-if-changed={}", archive.display());
    if !archive.is_file() {
        println!(
            "cargo::error=there is no {}: run `make lib` in the repository's root, \
             or set ORDER_LIB_DIR to the folder that has liborder_ffi.a",
            archive.display()
        );
        return;
    }
    println!("cargo::rustc-link-search=native={}", folder.display());
    println!("cargo::rustc-link-lib=static=order_ffi");
}

/// The archive's folder. A relative one is taken from this crate's folder.
fn folder() -> PathBuf {
    let manifest = env::var_os("CARGO_MANIFEST_DIR").expect("cargo sets CARGO_MANIFEST_DIR");
    let named = env::var_os("ORDER_LIB_DIR").unwrap_or_else(|| "../../target/staticlib".into());
    Path::new(&manifest).join(named)
}
