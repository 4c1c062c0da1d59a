//! Links the static library that `library.sh` writes.

use std::{env, path::Path};

fn main() {
    let package = env::var("CARGO_MANIFEST_DIR").expect("cargo sets CARGO_MANIFEST_DIR");
    let top = Path::new(&package)
        .parent()
        .expect("this package is in the repository");
    let folder = top.join("target/staticlib");
    let library = folder.join("libqs.a");
    println!("cargo:rerun-if-changed={}", library.display());
    if !library.is_file() {
        eprintln!("{} is missing: run `library.sh` first", library.display());
        std::process::exit(1);
    }
    println!("cargo:rustc-link-search=native={}", folder.display());
    println!("cargo:rustc-link-lib=static=qs");
}
