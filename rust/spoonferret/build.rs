//! Links the static library from OUT_DIR. It is built by `scripts/staticlib station` from the proved crates two folders up, a line a crate on the terminal while that
//! goes on (`cargo build -vv` shows them where there is no terminal), and copied. Where it is built already, SPOONFERRET_LIB names the folder that holds
//! libstation.a or libspoonferret.a, absolute or relative to where cargo is run, and nothing is built.

use std::fs::{copy, read_dir, File};
use std::io::{BufRead, BufReader, Write};
use std::path::{Path, PathBuf};
use std::process::{Command, Stdio};

/// Builds the library; what `rt` says of each crate goes to the terminal, if there is one, and to cargo.
fn built(root: &Path) -> PathBuf {
    let command = Command::new("sh").args(["-c", "exec scripts/staticlib station 2>&1"]).current_dir(root).stdout(Stdio::piped()).spawn();
    let mut rt = command.unwrap_or_else(|e| panic!("no shell to run `rt` in ({e})"));
    let mut terminal = File::options().write(true).open("/dev/tty").ok();
    for line in BufReader::new(rt.stdout.take().expect("a pipe")).lines().map_while(Result::ok) {
        eprintln!("{line}");
        let of_crate = line.strip_prefix("crate ").and_then(|said| said.split_once(':'));
        if let (Some(terminal), Some((name, _))) = (&mut terminal, of_crate) {
            let _ = writeln!(terminal, "\r    spoonferret: {name}");
        }
    }
    let status = rt.wait().expect("an end");
    assert!(
        status.success(),
        "`scripts/staticlib station` in {} ended with {status}: put `rt` on the path, or name the folder of libstation.a in SPOONFERRET_LIB",
        root.display()
    );
    root.join("target").join("staticlib").join("libstation.a")
}

/// The library in a folder that the caller named.
fn named(folder: PathBuf) -> PathBuf {
    // cargo runs this in the crate's folder, and leaves PWD as its caller had it
    let from = std::env::var_os("PWD").map(PathBuf::from).unwrap_or_default();
    let folder = from.join(folder);
    let names = ["libstation.a", "libspoonferret.a"];
    let found = names.iter().map(|name| folder.join(name)).find(|file| file.is_file());
    found.unwrap_or_else(|| panic!("SPOONFERRET_LIB names {}, where there is neither {} nor {}", folder.display(), names[0], names[1]))
}

fn main() {
    println!("cargo:rerun-if-env-changed=SPOONFERRET_LIB");
    let here = PathBuf::from(std::env::var_os("CARGO_MANIFEST_DIR").expect("cargo names the crate's folder"));
    let out = PathBuf::from(std::env::var_os("OUT_DIR").expect("cargo names the folder to build in"));
    let library = match std::env::var_os("SPOONFERRET_LIB") {
        Some(folder) if !folder.is_empty() => named(PathBuf::from(folder)),
        _ => {
            let root = here.join("..").join("..");
            for name in ["crates.txt", "crates", "scripts/staticlib"] {
                assert!(root.join(name).exists(), "the proved crates are not two folders up: name the folder of libstation.a in SPOONFERRET_LIB");
            }
            println!("cargo:rerun-if-changed={}", root.join("crates.txt").display());
            // not the whole folder of a crate: `rt` keeps what it made in out
            for of_crate in read_dir(root.join("crates")).expect("the crates").flatten() {
                for part in ["src", "specs", "proofs"].map(|part| of_crate.path().join(part)) {
                    if part.is_dir() {
                        println!("cargo:rerun-if-changed={}", part.display());
                    }
                }
            }
            built(&root)
        }
    };
    println!("cargo:rerun-if-changed={}", library.display());
    copy(&library, out.join("libstation.a")).unwrap_or_else(|e| panic!("{} cannot be copied: {e}", library.display()));
    println!("cargo:rustc-link-search=native={}", out.display());
    println!("cargo:rustc-link-lib=static=station");
}
