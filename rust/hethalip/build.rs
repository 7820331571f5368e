//! Links `libhethalip.a`, from the folder that `HETHALIP_LIB_DIR` names (an absolute path), or
//! else from `target/staticlib` of the repository that this workspace lies in.

use std::env;
use std::path::PathBuf;

fn main() {
    println!("cargo::rerun-if-changed=build.rs");
    println!("cargo::rerun-if-env-changed=HETHALIP_LIB_DIR");
    if env::var_os("CARGO_FEATURE_PROVED").is_some() {
        link();
    }
}

fn link() {
    let folder = library_folder();
    let library = folder.join("libhethalip.a");
    println!("cargo::rerun-if-changed={}", library.display());
    if !library.is_file() {
        println!(
            "cargo::error=there is no {}: build it with `tools/library`, or say its folder in HETHALIP_LIB_DIR, or leave it out with --no-default-features",
            library.display()
        );
    }
    println!("cargo::rustc-link-search=native={}", folder.display());
    println!("cargo::rustc-link-lib=static=hethalip");
}

fn library_folder() -> PathBuf {
    match env::var_os("HETHALIP_LIB_DIR") {
        Some(folder) => PathBuf::from(folder),
        None => PathBuf::from(env!("CARGO_MANIFEST_DIR")).join("../../target/staticlib"),
    }
}
