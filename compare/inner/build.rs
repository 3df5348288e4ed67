//! Builds the static library of the inner steps by `scripts/staticlib innersteps`, and links it. Where it is already built elsewhere, INNERSTEPS_LIB
//! names the folder that holds libinnersteps.a, and nothing is built.

use std::path::PathBuf;
use std::process::{Command, Stdio};

fn main() {
    println!("cargo:rerun-if-env-changed=INNERSTEPS_LIB");
    let folder = match std::env::var_os("INNERSTEPS_LIB") {
        Some(folder) => PathBuf::from(folder),
        None => {
            let here = PathBuf::from(std::env::var_os("CARGO_MANIFEST_DIR").expect("cargo names the crate's folder"));
            let root = here.join("..").join("..").canonicalize().expect("the repository stands two folders up");
            println!("cargo:rerun-if-changed={}", root.join("crates.txt").display());
            // not the whole folder of a crate: `rt` keeps what it made in out
            for of_crate in std::fs::read_dir(root.join("crates")).expect("the crates").flatten() {
                for part in ["src", "specs", "proofs"].map(|part| of_crate.path().join(part)) {
                    if part.is_dir() {
                        println!("cargo:rerun-if-changed={}", part.display());
                    }
                }
            }
            let status = Command::new(root.join("scripts").join("staticlib")).arg("innersteps").stdout(Stdio::null()).status();
            assert!(status.is_ok_and(|s| s.success()), "`scripts/staticlib innersteps` in {} failed", root.display());
            root.join("target").join("staticlib")
        }
    };
    println!("cargo:rerun-if-changed={}", folder.join("libinnersteps.a").display());
    println!("cargo:rustc-link-search=native={}", folder.display());
    println!("cargo:rustc-link-lib=static=innersteps");
}
