//! Links libginelm.a: from the folder in GINELM_LIBRARY_FOLDER, else from the folder build/ of the repository, which c/build.sh fills.

use std::env;
use std::path::PathBuf;

fn main() {
    println!("cargo:rerun-if-env-changed=GINELM_LIBRARY_FOLDER");
    let folder = match env::var_os("GINELM_LIBRARY_FOLDER") {
        Some(folder) => PathBuf::from(folder),
        None => PathBuf::from(env!("CARGO_MANIFEST_DIR")).join("../build"),
    };
    let library = folder.join("libginelm.a");
    println!("cargo:rerun-if-changed={}", library.display());
    println!("cargo:rustc-link-search=native={}", folder.display());
    println!("cargo:rustc-link-lib=static=ginelm");
}
