//! Links the static library of the repository.

use std::path::Path;
use std::process::exit;

const FOLDER: &str = "../../build";

fn main() {
    let package = std::env::var("CARGO_MANIFEST_DIR").unwrap_or_default();
    let folder = Path::new(&package).join(FOLDER);
    let library = folder.join("libcaptions_c.a");
    println!("cargo:rerun-if-changed={}", library.display());
    if !library.is_file() {
        eprintln!(
            "build/libcaptions_c.a is not there: run `make library` in the repository's root"
        );
        exit(1);
    }
    println!("cargo:rustc-link-search=native={}", folder.display());
    println!("cargo:rustc-link-lib=static=captions_c");
}
