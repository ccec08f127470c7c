//! Links the library's static archive, libturftangle.a, from ../target/staticlib or from the folder
//! that TURFTANGLE_LIB_DIR names.

use std::path::PathBuf;
use std::{env, process};

fn main() {
    let folder = match env::var_os("TURFTANGLE_LIB_DIR") {
        Some(folder) => PathBuf::from(folder),
        None => PathBuf::from(env::var_os("CARGO_MANIFEST_DIR").expect("cargo sets it"))
            .join("../target/staticlib"),
    };
    let archive = folder.join("libturftangle.a");
    println!("cargo:rerun-if-env-changed=TURFTANGLE_LIB_DIR");
    println!("cargo:rerun-if-changed={}", archive.display());
    if !archive.is_file() {
        eprintln!(
            "turftangle: there is no {}.\n\
             Run `tools/archive` in the repository's top folder, \
             or set TURFTANGLE_LIB_DIR to the folder that holds libturftangle.a.",
            archive.display()
        );
        process::exit(1);
    }
    // The linker may run in another folder than this script.
    let folder = folder.canonicalize().unwrap_or(folder);
    println!("cargo:rustc-link-search=native={}", folder.display());
    println!("cargo:rustc-link-lib=static=turftangle");
}
