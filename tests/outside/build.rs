//! Links libhalyardgage.a from the folder that HALYARD_LIB_DIR names.

use std::path::PathBuf;

fn main() {
    let folder = std::env::var_os("HALYARD_LIB_DIR").expect("HALYARD_LIB_DIR names no folder");
    let folder = PathBuf::from(folder);
    let library = folder.join("libhalyardgage.a");
    println!("cargo::rerun-if-env-changed=HALYARD_LIB_DIR");
    println!("cargo::rerun-if-changed={}", library.display());
    assert!(
        library.is_file(),
        "there is no {}: make it with 'rt lib' in crates/halyardgage",
        library.display()
    );
    println!("cargo::rustc-link-search=native={}", folder.display());
    println!("cargo::rustc-link-lib=static=halyardgage");
}
