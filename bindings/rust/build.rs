//! Finds the static library `libpokyandi.a`: in the folder that the variable
//! POKYANDI_LIBRARY names, else where `tools/build` writes it.

use std::env;
use std::path::PathBuf;

fn main() {
    println!("cargo:rerun-if-env-changed=POKYANDI_LIBRARY");
    let folder = match env::var_os("POKYANDI_LIBRARY") {
        Some(folder) => PathBuf::from(folder),
        None => PathBuf::from(env!("CARGO_MANIFEST_DIR")).join("../../target/staticlib"),
    };
    let archive = folder.join("libpokyandi.a");
    println!("cargo:rerun-if-changed={}", archive.display());
    if !archive.is_file() {
        eprintln!(
            "{} is missing: run `tools/build` at the top of the repository,",
            archive.display()
        );
        eprintln!("or name the folder that holds libpokyandi.a in POKYANDI_LIBRARY");
        std::process::exit(1);
    }
    println!("cargo:rustc-link-search=native={}", folder.display());
    println!("cargo:rustc-link-lib=static=pokyandi");
}
