// SPDX-License-Identifier: Apache-2.0
//! Links libtariff.a, made by `make library`: from the folder that `TARIFF_LIB_DIR`
//! names, else from `target/staticlib` of the repository.

use std::path::PathBuf;

fn main() {
    println!("cargo::rerun-if-env-changed=TARIFF_LIB_DIR");
    let folder = match std::env::var_os("TARIFF_LIB_DIR") {
        Some(folder) => PathBuf::from(folder),
        None => PathBuf::from(env!("CARGO_MANIFEST_DIR")).join("../../target/staticlib"),
    };
    let archive = folder.join("libtariff.a");
    println!("cargo::rerun-if-changed={}", archive.display());
    if !archive.exists() {
        println!("cargo::error=no libtariff.a: run `make library`, or set TARIFF_LIB_DIR");
        return;
    }
    println!("cargo::rustc-link-search=native={}", folder.display());
    println!("cargo::rustc-link-lib=static=tariff");
    println!("cargo::rustc-env=TARIFF_LIB_FOLDER={}", folder.display());
}
