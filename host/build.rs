//! Says where the library's archive is: the folder in PAVILUKO_LIB, or else where `make lib` leaves it. Hands on the hash of the
//! library's sources, from libpaviluko.txt beside the archive, where that file is of this very archive.

use std::env;
use std::fs;
use std::path::{Path, PathBuf};
use std::process::Command;

fn main() {
    println!("cargo:rerun-if-env-changed=PAVILUKO_LIB");
    let top = env::var_os("CARGO_MANIFEST_DIR").map(PathBuf::from).unwrap_or_default();
    let folder = match env::var_os("PAVILUKO_LIB") {
        Some(named) => PathBuf::from(named),
        None => top.join("../target/staticlib"),
    };
    let archive = folder.join("libpaviluko.a");
    let identity = folder.join("libpaviluko.txt");
    println!("cargo:rerun-if-changed={}", archive.display());
    // A file that is not there would count as changed each time; when it comes, the archive is newer too.
    if identity.exists() {
        println!("cargo:rerun-if-changed={}", identity.display());
    }
    // Set in any case, and empty where it is not known: a variable of the same name outside counts for nothing.
    println!("cargo:rustc-env=PAVILUKO_SOURCES={}", sources(&archive, &identity).unwrap_or_default());
    println!("cargo:rustc-link-search=native={}", folder.display());
    // Not bundled: the archive is looked for when a program is linked, so that this crate builds without it.
    println!("cargo:rustc-link-lib=static:-bundle=paviluko");
}

/// The hash of the sources that the archive was built from, if the file beside it is about this archive.
fn sources(archive: &Path, identity: &Path) -> Option<String> {
    let text = fs::read_to_string(identity).ok()?;
    let value = |name: &str| text.lines().find_map(|line| line.strip_prefix(name)?.strip_prefix(' '));
    let sources = value("sources")?;
    let output = Command::new("sha256sum").arg(archive).output().ok()?;
    let sum = String::from_utf8(output.stdout).ok()?;
    let is_hash = sources.len() == 64 && sources.bytes().all(|b| b.is_ascii_hexdigit());
    (output.status.success() && is_hash && sum.split(' ').next() == value("archive")).then(|| sources.to_string())
}
