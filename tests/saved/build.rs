//! Links the proved chooser, `libsigvort.a`, from the folder that SIGVORT_LIB_DIR names.

use std::{env, path::Path};

fn main() {
    let folder = env::var("SIGVORT_LIB_DIR").expect("SIGVORT_LIB_DIR names the folder with libsigvort.a");
    println!("cargo:rerun-if-env-changed=SIGVORT_LIB_DIR");
    println!("cargo:rerun-if-changed={}", Path::new(&folder).join("libsigvort.a").display());
    println!("cargo:rustc-link-search=native={folder}");
    println!("cargo:rustc-link-lib=static=sigvort");
}
