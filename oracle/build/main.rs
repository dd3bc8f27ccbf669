//! Finds the Rust sources, holds them against the pinned digests, and hands the very bytes that were
//! held to the compiler.

mod sha256;

use std::path::{Path, PathBuf};
use std::{env, fs, process};

const PINNED: &str = "sources.txt";
const FOLDER: &str = "DIFFSL_SRC";
const DEFAULT_FOLDER: &str = "../../shared/docs/src";
const ARCHIVE: &str = "PORT_ARCHIVE";

/// Brings in every pinned source, or ends the build with the reason.
fn main() {
    println!("cargo:rerun-if-env-changed={FOLDER}");
    println!("cargo:rerun-if-changed={PINNED}");
    let folder = env::var_os(FOLDER).map_or_else(|| PathBuf::from(DEFAULT_FOLDER), PathBuf::from);
    let out = PathBuf::from(env::var_os("OUT_DIR").expect("cargo names OUT_DIR"));
    let pinned = fs::read_to_string(PINNED).unwrap_or_else(|e| fail(format!("{PINNED}: {e}")));
    for line in pinned.lines() {
        let Some((digest, name)) = line.split_once("  ") else {
            fail(format!("{PINNED}: not a digest and a name: {line}"))
        };
        println!("cargo:rerun-if-changed={}", folder.join(name).display());
        let bytes = checked(&folder.join(name), digest);
        fs::write(out.join(name), bytes).unwrap_or_else(|e| fail(format!("{name}: {e}")));
    }
    link_port();
}

/// Hands the port's archive, where one is named, to the linker of the program `speed` alone.
fn link_port() {
    println!("cargo:rerun-if-env-changed={ARCHIVE}");
    if let Ok(archive) = env::var(ARCHIVE) {
        println!("cargo:rerun-if-changed={archive}");
        println!("cargo:rustc-link-arg-bin=speed={archive}");
    }
}

/// The bytes of a file whose digest is the pinned one; any other file ends the build.
fn checked(path: &Path, digest: &str) -> Vec<u8> {
    let bytes = fs::read(path).unwrap_or_else(|e| {
        fail(format!("{}: {e}; {FOLDER} names the folder of the Rust sources", path.display()))
    });
    let found = sha256::hex(&bytes);
    if found != digest {
        fail(format!(
            "{} is not the pinned source: its SHA-256 is {found}, {PINNED} has {digest}",
            path.display()
        ));
    }
    bytes
}

/// Ends the build with a message.
fn fail(message: String) -> ! {
    eprintln!("oracle: {message}");
    process::exit(1)
}
