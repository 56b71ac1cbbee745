//! Links the program with `libsengoruwa_c.a` from the folder that SENGORUWA_LIB names, or else from where the repository builds it.

use std::env;
use std::path::PathBuf;

fn main() {
    println!("cargo:rerun-if-env-changed=SENGORUWA_LIB");
    let here = PathBuf::from(env::var_os("CARGO_MANIFEST_DIR").expect("cargo names the folder"));
    let folder = match env::var_os("SENGORUWA_LIB") {
        Some(folder) => PathBuf::from(folder),
        None => here.join("../crates/sengoruwa_c/out"),
    };
    let library = folder.join("libsengoruwa_c.a");
    println!("cargo:rerun-if-changed={}", library.display());
    println!("cargo:rustc-link-arg-bins={}", library.display());
}
