//! Links the static library `libhost.a`: from the folder that BRINESADDLE_LIB_DIR names, or else from where `oracle/archive` writes it
//! in the repository, target/staticlib. A relative folder counts from this package.
use std::path::PathBuf;
use std::{env, fs, process};

const FOLDER: &str = "BRINESADDLE_LIB_DIR";

fn main() {
    println!("cargo:rerun-if-env-changed={FOLDER}");
    let folder = env::var_os(FOLDER).map_or(PathBuf::from("../../target/staticlib"), PathBuf::from);
    let Ok(archive) = fs::canonicalize(folder.join("libhost.a")) else {
        eprintln!("There is no libhost.a in {}.", folder.display());
        eprintln!("Run `oracle/archive` in the repository, or let {FOLDER} name the folder that holds the library.");
        process::exit(1);
    };
    println!("cargo:rerun-if-changed={}", archive.display());
    println!("cargo:rustc-link-search=native={}", archive.parent().expect("a file stands in a folder").display());
    println!("cargo:rustc-link-lib=static=host");
}
