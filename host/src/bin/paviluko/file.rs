//! Files that somebody hands to the program.

use std::fs::File;
use std::io::Read;
use std::path::Path;

use paviluko_host::files::Fault;
use paviluko_host::{FILE_LEN, FRAME_LEN};

/// A text is read so far.
const LONGEST: u64 = 64 << 20;

/// A file's text.
pub fn text(path: &Path) -> Result<String, Fault> {
    String::from_utf8(bytes(path, LONGEST)?).map_err(|_| Fault::damaged(path, "is not a text"))
}

/// The bytes of a file that should be a frame. Of a longer one a byte more than a frame has: that is no frame, as the file is none.
pub fn frame(path: &Path) -> Result<Vec<u8>, Fault> {
    bytes(path, FRAME_LEN as u64 + 1)
}

/// The bytes of a file that should be a plain table. Of a longer one more than such a table has, and more than a checkpoint has
/// where it is longer than that: somebody may have taken one for the other.
pub fn table(path: &Path) -> Result<Vec<u8>, Fault> {
    bytes(path, FILE_LEN as u64 + 1)
}

/// So many bytes of a file, or all that it has.
fn bytes(path: &Path, most: u64) -> Result<Vec<u8>, Fault> {
    let mut bytes = Vec::new();
    let read = File::open(path).and_then(|file| file.take(most).read_to_end(&mut bytes));
    read.map_err(Fault::unusable(path))?;
    Ok(bytes)
}
