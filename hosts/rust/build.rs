//! Links the library `libregion_store.a`: from the folder in the environment variable REGION_STORE_LIB (an absolute path, or one from this crate's folder), else from `target/hosts` of the repository.

use std::env;
use std::path::{Path, PathBuf};

const NAME: &str = "libregion_store.a";

fn folder() -> PathBuf {
    let here = env::var_os("CARGO_MANIFEST_DIR").expect("cargo gives the crate's folder");
    match env::var_os("REGION_STORE_LIB") {
        Some(folder) if !folder.is_empty() => Path::new(&here).join(folder),
        _ => Path::new(&here).join("../../target/hosts"),
    }
}

fn main() {
    let folder = folder();
    let library = folder.join(NAME);
    println!("cargo::rerun-if-env-changed=REGION_STORE_LIB");
    println!("cargo::rerun-if-changed=build.rs");
    println!("cargo::rerun-if-changed={}", library.display());
    if library.is_file() {
        println!("cargo::rustc-link-search=native={}", folder.display());
        println!("cargo::rustc-link-lib=static=region_store");
        return;
    }
    println!("cargo::error=there is no {NAME} in {}", folder.display());
    println!("cargo::error=`hosts/build` builds it, in target/hosts of the repository; where it lies elsewhere, REGION_STORE_LIB names the folder");
}
