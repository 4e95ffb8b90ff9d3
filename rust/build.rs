//! Links the static library, which the proved crates are built into.

use std::path::Path;

fn main() {
    let of_cargo = |name: &str| std::env::var(name).expect("cargo sets it for a build script");
    let system = of_cargo("CARGO_CFG_TARGET_OS");
    let machine = of_cargo("CARGO_CFG_TARGET_ARCH");
    if (system.as_str(), machine.as_str()) != ("linux", "x86_64") {
        println!(
            "cargo::error=the proved library is for Linux on x86_64, and this build is for \
             {system} on {machine}"
        );
        return;
    }
    let folder = Path::new(&of_cargo("CARGO_MANIFEST_DIR")).join("../build");
    let library = folder.join("libcaptions_c.a");
    println!("cargo::rerun-if-changed={}", library.display());
    if !library.is_file() {
        println!(
            "cargo::error=the proved library is missing (build/libcaptions_c.a): run `make` in \
             the repository root"
        );
        return;
    }
    println!("cargo::rustc-link-search=native={}", folder.display());
    println!("cargo::rustc-link-lib=static=captions_c");
}
