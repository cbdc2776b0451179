//! Compiles the C baselines and makes a static library of them. Where the variable
//! POKYANDI_BEFORE names the folder of another libpokyandi.a, links that too.

use std::env;
use std::path::{Path, PathBuf};
use std::process::{exit, Command};

/// The calls of the library before, and their names in the bench.
const BEFORE: [[&str; 2]; 9] = [
    ["pokyandi_read", "before_read"],
    ["pokyandi_check", "before_check"],
    ["pokyandi_text", "before_text"],
    ["pokyandi_from_points", "before_from_points"],
    ["pokyandi_write", "before_write"],
    ["pokyandi_rewrite", "before_rewrite"],
    ["pokyandi_stations", "before_stations"],
    ["pokyandi_peg", "before_peg"],
    ["pokyandi_elements", "before_elements"],
];

const SOURCES: [&str; 4] = [
    "c/baseline.c",
    "c/from_points.c",
    "c/height.c",
    "c/rewrite.c",
];

fn main() {
    let folder = env::var("OUT_DIR").expect("cargo names OUT_DIR");
    let objects = SOURCES.map(|source| compile(source, Path::new(&folder)));
    let archive = Path::new(&folder).join("libbaseline.a");
    run(Command::new("ar").arg("crs").arg(&archive).args(&objects));
    println!("cargo:rustc-link-search=native={folder}");
    println!("cargo:rustc-link-lib=static=baseline");
    println!("cargo:rustc-link-lib=m");
    println!("cargo:rustc-check-cfg=cfg(before)");
    println!("cargo:rerun-if-env-changed=POKYANDI_BEFORE");
    if let Some(before) = env::var_os("POKYANDI_BEFORE") {
        link_before(
            &Path::new(&before).join("libpokyandi.a"),
            Path::new(&folder),
        );
    }
}

/// Links a copy of the library before. It is one object; all names in it become its
/// own but those of its calls, which are changed.
fn link_before(archive: &Path, folder: &Path) {
    println!("cargo:rerun-if-changed={}", archive.display());
    if !archive.is_file() {
        stop(&format!(
            "{} is missing; POKYANDI_BEFORE names its folder",
            archive.display()
        ));
    }
    let mut objcopy = Command::new("objcopy");
    for [name, renamed] in BEFORE {
        objcopy.args(["--redefine-sym", &format!("{name}={renamed}")]);
        objcopy.args(["--keep-global-symbol", renamed]);
    }
    run(objcopy.arg(archive).arg(folder.join("libbefore.a")));
    println!("cargo:rustc-link-lib=static=before");
    println!("cargo:rustc-cfg=before");
}

/// The object of a source.
fn compile(source: &str, folder: &Path) -> PathBuf {
    println!("cargo:rerun-if-changed={source}");
    let name = Path::new(source).with_extension("o");
    let object = folder.join(name.file_name().expect("a source has a name"));
    run(Command::new("cc")
        .args(["-std=c99", "-Wall", "-Wextra", "-Wpedantic", "-Werror"])
        .args(["-O3", "-fPIC", "-c", source, "-o"])
        .arg(&object));
    object
}

/// Runs a tool, or ends the build with what is wrong.
fn run(command: &mut Command) {
    let tool = command.get_program().to_string_lossy().into_owned();
    match command.status() {
        Ok(status) if status.success() => {}
        Ok(status) => stop(&format!("{tool} fails: {status}")),
        Err(error) => stop(&format!(
            "{tool} cannot be run: {error}; the C baselines need cc and ar on the PATH, \
             POKYANDI_BEFORE objcopy"
        )),
    }
}

fn stop(problem: &str) {
    eprintln!("bench: {problem}");
    exit(1);
}
