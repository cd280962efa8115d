//! Links libtandos.a from the folder in TANDOS_LIB_DIR, or from ../build.

use std::path::PathBuf;

const FOLDER_VARIABLE: &str = "TANDOS_LIB_DIR";

fn main() {
    println!("cargo:rerun-if-env-changed={FOLDER_VARIABLE}");
    let folder = archive_folder();
    let archive = folder.join("libtandos.a");
    // The linker would say the same in many more words.
    assert!(
        archive.is_file(),
        "{} is missing: build the library first, or name its folder in {FOLDER_VARIABLE}",
        archive.display()
    );
    println!("cargo:rerun-if-changed={}", archive.display());
    println!("cargo:rustc-link-search=native={}", folder.display());
    println!("cargo:rustc-link-lib=static=tandos");
}

/// A relative path would be taken from this package's folder by one tool and
/// from the caller's by another, so the variable has to hold an absolute one.
fn archive_folder() -> PathBuf {
    match std::env::var_os(FOLDER_VARIABLE).map(PathBuf::from) {
        Some(folder) => {
            assert!(
                folder.is_absolute(),
                "{FOLDER_VARIABLE} must hold an absolute path"
            );
            folder
        }
        None => PathBuf::from(env!("CARGO_MANIFEST_DIR")).join("../build"),
    }
}
