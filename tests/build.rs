//! Links the static library `capi` that exports the C interface.

use std::env;
use std::path::PathBuf;

const LIB_DIR: &str = "SWAPBOARD_LIB_DIR";

fn main() {
    let dir = library_dir();
    println!("cargo:rerun-if-env-changed={LIB_DIR}");
    println!("cargo:rerun-if-changed={}", dir.join("libcapi.a").display());
    println!("cargo:rustc-link-search=native={}", dir.display());
    println!("cargo:rustc-link-lib=static:-bundle=capi");
}

fn library_dir() -> PathBuf {
    match env::var_os(LIB_DIR) {
        Some(dir) => PathBuf::from(dir),
        None => {
            let package = env::var_os("CARGO_MANIFEST_DIR").expect("cargo names the package");
            PathBuf::from(package).join("../target/staticlib")
        }
    }
}
