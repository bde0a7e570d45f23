//! Links the proved chooser, `libsigvort.a`, from the folder that SIGVORT_LIB_DIR names, or else from where `hosts/library` writes it.

use std::{env, path::PathBuf};

fn main() {
    let folder = match env::var_os("SIGVORT_LIB_DIR") {
        Some(folder) => PathBuf::from(folder),
        None => PathBuf::from(env!("CARGO_MANIFEST_DIR")).join("../../target/staticlib"),
    };
    let library = folder.join("libsigvort.a");
    println!("cargo:rerun-if-env-changed=SIGVORT_LIB_DIR");
    println!("cargo:rerun-if-changed={}", library.display());
    // no error: `cargo doc` and `cargo check` do without the library
    if !library.is_file() {
        println!("cargo:warning={} is missing: hosts/library writes the archive, or SIGVORT_LIB_DIR names its folder", library.display());
    }
    println!("cargo:rustc-link-search=native={}", folder.display());
    println!("cargo:rustc-link-lib=static=sigvort");
}
