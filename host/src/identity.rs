//! How the software in a box is identified.
//!
//! The edition is the library's own word. The hash of its sources comes from `libpaviluko.txt`, which `make lib` writes beside
//! the archive; `build.rs` takes it over only where that file has the hash of the very archive that is linked.

use crate::ffi;

/// The edition that the library says of itself: how many requests its interface has.
pub fn edition() -> u64 {
    // SAFETY: nothing is lent.
    unsafe { ffi::paviluko_edition() }
}

/// SHA-256 of the library's sources in 64 hex digits (`tools/sources.sh`); nothing where `make lib` did not build the archive.
pub fn sources() -> Option<&'static str> {
    Some(env!("PAVILUKO_SOURCES")).filter(|hash| !hash.is_empty())
}

/// The identity in two lines, as the program prints it.
pub fn lines(edition: u64, sources: Option<&str>) -> String {
    let sources = sources.unwrap_or("not known: the archive was not built by make lib");
    format!("paviluko, edition {edition}\nsources {sources}\n")
}

#[cfg(test)]
mod tests {
    use super::lines;

    #[test]
    fn known_and_not_known() {
        assert_eq!(lines(3, Some("00ff")), "paviluko, edition 3\nsources 00ff\n");
        let unknown = "paviluko, edition 0\nsources not known: the archive was not built by make lib\n";
        assert_eq!(lines(0, None), unknown);
    }
}
