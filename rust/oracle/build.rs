//! Finds the sources of serde_qs 1.1.3 and lays copies of them, unchanged, into OUT_DIR, where
//! src/lib.rs includes them. None of them is kept in this repository.
//!
//! They are looked for in the folder that SERDE_QS_SRC names by an absolute path, else in
//! `shared/docs/src` beside the checkout; either has the crate's `src` in it. Where they are
//! missing the build goes on, with `cfg(serde_qs_sources)` unset. Where they are others than
//! SHA256SUMS has, it fails: a comparison with them would say nothing about serde_qs 1.1.3.

use std::path::{Path, PathBuf};
use std::process::{exit, Command};
use std::{env, fs};

/// The six files, each with the places in OUT_DIR that get a copy. `exposed` holds a second
/// instance of what `de.rs` keeps private.
const FILES: [(&str, &[&str]); 6] = [
    ("config.rs", &["config.rs"]),
    ("error.rs", &["error.rs"]),
    ("de.rs", &["de.rs"]),
    ("de/parse.rs", &["de/parse.rs", "exposed/parse.rs"]),
    (
        "de/parse/decode.rs",
        &[
            "de/parse/decode.rs",
            "exposed/parse/decode.rs",
            "exposed/decode.rs",
        ],
    ),
    (
        "de/string_parser.rs",
        &["de/string_parser.rs", "exposed/string_parser.rs"],
    ),
];

/// The modules as the crate's `lib.rs` has them, and `exposed`, where `parse` and `decode` can be
/// called. `exposed` stands in for `de`, so it has what parse.rs calls `super::Error`.
const MODULES: &str = "
use btree_map as map;
#[allow(dead_code)]
mod config;
#[allow(dead_code)]
mod de;
#[allow(dead_code)]
mod error;
#[allow(dead_code)]
mod exposed {
    use crate::Error;
    pub mod decode;
    pub mod parse;
    pub mod string_parser;
}
";

fn main() {
    println!("cargo:rerun-if-changed=build.rs");
    println!("cargo:rerun-if-env-changed=SERDE_QS_SRC");
    println!("cargo:rustc-check-cfg=cfg(serde_qs_sources)");
    // The sources test for these features; all of them stay off.
    let features = r#""indexmap", "debug_parsed", "default_to_form_encoding""#;
    println!("cargo:rustc-check-cfg=cfg(feature, values({features}))");

    let sources = folder().join("src");
    let out = PathBuf::from(variable("OUT_DIR"));
    println!("cargo:rustc-env=SERDE_QS_LOOKED_IN={}", sources.display());
    if sources.join("de/parse.rs").is_file() {
        println!("cargo:rerun-if-changed={}", sources.display());
        println!("cargo:rustc-cfg=serde_qs_sources");
        check(&sources);
        copy(&sources, &out);
    } else {
        // A file that never is: cargo looks again at every build. It goes by times, and would take
        // old files that appear later for unchanged ones.
        println!("cargo:rerun-if-changed={}", out.join("nothing").display());
    }
}

/// The crate's folder. This package is at rust/oracle, and `shared` beside the whole checkout.
fn folder() -> PathBuf {
    if let Some(named) = env::var_os("SERDE_QS_SRC") {
        return PathBuf::from(named);
    }
    let package = PathBuf::from(variable("CARGO_MANIFEST_DIR"));
    let beside = package
        .ancestors()
        .nth(3)
        .expect("rust/oracle is in a checkout");
    beside.join("shared/docs/src")
}

fn variable(name: &str) -> String {
    env::var(name).unwrap_or_else(|_| panic!("cargo sets {name}"))
}

/// Ends the build where the six files and `lib.rs` aren't those that SHA256SUMS has.
fn check(sources: &Path) {
    let sums = Path::new(&variable("CARGO_MANIFEST_DIR")).join("SHA256SUMS");
    println!("cargo:rerun-if-changed={}", sums.display());
    let check = Command::new("sha256sum")
        .args(["--check", "--strict", "--quiet"])
        .arg(&sums)
        .current_dir(sources)
        .output()
        .unwrap_or_else(|e| panic!("sha256sum can't be run: {e}"));
    if !check.status.success() {
        let said = [check.stdout, check.stderr].concat();
        let said = String::from_utf8_lossy(&said);
        eprintln!(
            "the sources in {} are not serde_qs 1.1.3's:\n{said}",
            sources.display()
        );
        exit(1);
    }
}

/// Lays the six files and `modules.rs`, which names them, into `out`.
fn copy(sources: &Path, out: &Path) {
    let read = |file: &str| {
        let path = sources.join(file);
        fs::read_to_string(&path).unwrap_or_else(|e| panic!("{}: {e}", path.display()))
    };
    for (file, copies) in FILES {
        let text = read(file);
        for copy in copies {
            write(&out.join(copy), &text);
        }
    }
    let modules = btree_map(&read("lib.rs")) + MODULES;
    write(&out.join("modules.rs"), &modules);
}

fn write(path: &Path, text: &str) {
    let folder = path.parent().expect("a file in OUT_DIR");
    fs::create_dir_all(folder).expect("OUT_DIR can be written");
    fs::write(path, text).expect("OUT_DIR can be written");
}

/// The inline module `btree_map` of the crate's `lib.rs`, the ordered map.
fn btree_map(lib: &str) -> String {
    let start = lib.find("mod btree_map {").expect("lib.rs has btree_map");
    let length = lib[start..].find("\n}\n").expect("btree_map ends") + "\n}\n".len();
    lib[start..start + length].to_owned()
}
