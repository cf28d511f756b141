//! Links the static library: from LINDENSCOOP_LIB_DIR, or from target/staticlib of the repository, where `scripts/build lindenscoop_c`
//! puts it. Where there is none it says how to make it, since the linker's error does not.

use std::env;
use std::path::{Path, PathBuf};
use std::process::exit;

/// The repository's root folder.
fn root() -> PathBuf {
    let crate_folder = PathBuf::from(env::var_os("CARGO_MANIFEST_DIR").expect("set by cargo"));
    match crate_folder.ancestors().nth(2) {
        Some(root) => root.to_path_buf(),
        None => crate_folder,
    }
}

fn missing(library: &Path, root: &Path) -> ! {
    eprintln!("lindenscoop: there is no {}", library.display());
    eprintln!(
        "Make it with:  cd {} && scripts/build lindenscoop_c",
        root.display()
    );
    eprintln!("or set LINDENSCOOP_LIB_DIR to the folder that has liblindenscoop.a.");
    exit(1)
}

fn main() {
    let root = root();
    let folder = match env::var_os("LINDENSCOOP_LIB_DIR") {
        Some(folder) => PathBuf::from(folder),
        None => root.join("target/staticlib"),
    };
    let library = folder.join("liblindenscoop.a");
    println!("cargo:rerun-if-env-changed=LINDENSCOOP_LIB_DIR");
    println!("cargo:rerun-if-changed={}", library.display());
    if !library.is_file() {
        missing(&library, &root);
    }
    println!("cargo:rustc-link-search=native={}", folder.display());
    println!("cargo:rustc-link-lib=static=lindenscoop");
}
