//! Links the proved library libcapi.a: from the folder in NORWYTHAI_LIB_DIR, or, if that is not set, as `rt lib` in
//! crates/capi proves and builds it. The tests of the C header get its path as NORWYTHAI_LIBRARY.

use std::env;
use std::path::{Path, PathBuf};
use std::process::{exit, Command};

const FOLDER: &str = "NORWYTHAI_LIB_DIR";

fn main() {
    println!("cargo:rerun-if-env-changed={FOLDER}");
    let folder = match env::var_os(FOLDER) {
        Some(folder) => given(PathBuf::from(folder)),
        None => prove(&repository()),
    };
    let library = folder.join("libcapi.a");
    if !library.is_file() {
        fail(&format!("there is no {}", library.display()));
    }
    println!("cargo:rustc-env=NORWYTHAI_LIBRARY={}", library.display());
    println!("cargo:rustc-link-search=native={}", folder.display());
    println!("cargo:rustc-link-lib=static=capi");
}

/// The folder that the caller names. A new library there is linked anew; one that this script builds is not watched, as its
/// sources are.
fn given(folder: PathBuf) -> PathBuf {
    println!(
        "cargo:rerun-if-changed={}",
        folder.join("libcapi.a").display()
    );
    folder
}

/// The repository's root: two folders above this package.
fn repository() -> PathBuf {
    let package = env::var_os("CARGO_MANIFEST_DIR").expect("cargo sets CARGO_MANIFEST_DIR");
    match Path::new(&package).ancestors().nth(2) {
        Some(root) => root.to_path_buf(),
        None => fail("the package does not stand in the repository"),
    }
}

/// The folders of the crates.
fn crate_folders(root: &Path) -> Vec<PathBuf> {
    match std::fs::read_dir(root.join("crates")) {
        Ok(entries) => entries.filter_map(|entry| Some(entry.ok()?.path())).collect(),
        Err(error) => fail(&format!("the crates could not be read: {error}")),
    }
}

/// Proves and builds the library, and gives its folder.
fn prove(root: &Path) -> PathBuf {
    let crate_folder = root.join("crates").join("capi");
    println!("cargo:rerun-if-changed={}", root.join("crates.txt").display());
    // src/, specs/ and proofs/ of every crate; beside them stands out/, which each check writes
    for source in ["src", "specs", "proofs"] {
        for folder in crate_folders(root) {
            let folder = folder.join(source);
            if folder.is_dir() {
                println!("cargo:rerun-if-changed={}", folder.display());
            }
        }
    }
    match Command::new("rt")
        .arg("lib")
        .current_dir(&crate_folder)
        .output()
    {
        Err(error) => fail(&format!("`rt lib` could not be run: {error}")),
        Ok(output) if !output.status.success() => fail(&format!(
            "`rt lib` failed in {}:\n{}{}",
            crate_folder.display(),
            String::from_utf8_lossy(&output.stdout),
            String::from_utf8_lossy(&output.stderr),
        )),
        Ok(_) => crate_folder.join("out"),
    }
}

fn fail(why: &str) -> ! {
    eprintln!("norwythai: {why}");
    eprintln!("norwythai: have `rt` on the path, or set {FOLDER} to the folder of libcapi.a");
    exit(1);
}
