//! Files that are written whole or not at all, and what can be wrong with a file.
//!
//! A file is written under a temporary name, brought to the disk, renamed to its own name, and the folder brought to the
//! disk. A cut before the rename leaves the old file, one after it the new file; a temporary file that is left over is
//! removed the next time, and no reader looks at it.

use std::ffi::OsStr;
use std::fmt;
use std::io::{self, Write};
use std::os::unix::ffi::OsStrExt;
use std::path::{Path, PathBuf};

use crate::dir::Dir;

/// How the name of a temporary file ends; it begins with a dot.
const UNFINISHED: &str = ".new";
/// What is said of a name that something has already, where nothing is replaced.
pub const TAKEN_NAME: &str = "there is something of that name already";

/// Whether a store waits until the disk has it.
#[derive(Clone, Copy, Debug, PartialEq, Eq)]
pub enum Disk {
    /// It waits: what was stored outlives a power cut of the machine.
    Wait,
    /// It does not: what was stored outlives the end of the process. For cuts that a program makes itself.
    Quick,
}

/// What is wrong with a file.
#[derive(Debug)]
pub enum Fault {
    /// It cannot be read or written.
    Unusable { path: PathBuf, error: io::Error },
    /// It holds something else than it should.
    Damaged { path: PathBuf, why: &'static str },
    /// It cannot be written because there is no room left, and what to do then.
    Full { path: PathBuf, then: &'static str },
    /// A store would lower a number of the vault, or set one that the vault has not.
    Lowered { what: String, from: u64, to: u64 },
}

impl Fault {
    /// For `map_err`: a path that cannot be read or written.
    pub fn unusable(path: &Path) -> impl Fn(io::Error) -> Fault {
        move |error| Fault::Unusable { path: path.to_path_buf(), error }
    }

    /// A file that holds something else than it should.
    pub fn damaged(path: &Path, why: &'static str) -> Fault {
        Fault::Damaged { path: path.to_path_buf(), why }
    }

    /// For `ok_or_else`: a file that is not there.
    pub fn missing(path: &Path) -> Fault {
        Fault::unusable(path)(io::ErrorKind::NotFound.into())
    }

    /// The fault, with what to do where there is no room left.
    pub fn or_full(self, path: &Path, then: &'static str) -> Fault {
        if self.is_no_room() { Fault::Full { path: path.to_path_buf(), then } } else { self }
    }

    /// Whether there is no room left to write in.
    pub fn is_no_room(&self) -> bool {
        let full = |kind| matches!(kind, io::ErrorKind::StorageFull | io::ErrorKind::QuotaExceeded);
        matches!(self, Fault::Full { .. }) || matches!(self, Fault::Unusable { error, .. } if full(error.kind()))
    }
}

impl fmt::Display for Fault {
    fn fmt(&self, to: &mut fmt::Formatter) -> fmt::Result {
        match self {
            Fault::Unusable { path, error } => write!(to, "{}: {}", shown(path), plain(error)),
            Fault::Damaged { path, why } => write!(to, "{}: {why}", shown(path)),
            Fault::Full { path, then } => write!(to, "{}: no room left; {then}", shown(path)),
            Fault::Lowered { what, from, to: low } => {
                write!(to, "the vault only counts up: {what} is {from} and cannot become {low}")
            }
        }
    }
}

impl std::error::Error for Fault {}

/// A path for the screen: control characters are escaped.
pub fn shown(path: &Path) -> String {
    clean(&path.to_string_lossy())
}

/// Text for the screen: control characters are escaped.
pub fn clean(text: &str) -> String {
    let mut out = String::new();
    for c in text.chars() {
        if c.is_control() {
            out.extend(c.escape_default());
        } else {
            out.push(c);
        }
    }
    out
}

/// An error of the system, without its code.
fn plain(error: &io::Error) -> String {
    match error.kind() {
        io::ErrorKind::NotFound | io::ErrorKind::NotADirectory => "not found".to_string(),
        io::ErrorKind::AlreadyExists => "is there already".to_string(),
        io::ErrorKind::PermissionDenied => "no permission".to_string(),
        io::ErrorKind::StorageFull | io::ErrorKind::QuotaExceeded => "no room left".to_string(),
        io::ErrorKind::IsADirectory => "is a folder".to_string(),
        _ => error.to_string().split(" (os error").next().unwrap_or_default().to_lowercase(),
    }
}

/// Writes a file whole or not at all.
pub fn replace(folder: &Dir, name: &str, bytes: &[u8], mode: u32, disk: Disk) -> Result<(), Fault> {
    put(folder, name, bytes, mode, disk)?;
    folder.settle(disk)
}

/// The same, where the folder is settled later: until then the old file may come back in a cut.
pub fn put(folder: &Dir, name: &str, bytes: &[u8], mode: u32, disk: Disk) -> Result<(), Fault> {
    let first = format!(".{name}{UNFINISHED}");
    let write = || -> io::Result<()> {
        write_unfinished(folder, &first, bytes, mode, disk)?;
        match folder.rename(&first, name) {
            // A folder has the name.
            Err(error) if error.kind() == io::ErrorKind::IsADirectory => {
                folder.clear(name)?;
                folder.rename(&first, name)
            }
            other => other,
        }
    };
    write().map_err(|error| {
        // What is there of it takes up room.
        let _ = folder.remove(&first);
        Fault::unusable(&folder.path().join(name))(error)
    })
}

/// Writes a file under the name that it has until it is complete.
fn write_unfinished(folder: &Dir, name: &str, bytes: &[u8], mode: u32, disk: Disk) -> io::Result<()> {
    let mut file = folder.create(name, mode)?;
    step()?;
    file.write_all(bytes)?;
    match disk {
        Disk::Wait => file.sync_all(),
        Disk::Quick => Ok(()),
    }
}

/// Writes a file that is not there yet, whole or not at all: it has its name once it is complete, and is on the disk.
pub fn write_new(path: &Path, bytes: &[u8], mode: u32, disk: Disk) -> Result<(), Fault> {
    if path.is_dir() {
        return Err(Fault::unusable(path)(io::ErrorKind::IsADirectory.into()));
    }
    if path.as_os_str().as_bytes().ends_with(b"/") {
        return Err(Fault::damaged(path, "this is a folder's name, and no file's"));
    }
    let (above, name) = place(path)?;
    if above.has(name) {
        return Err(Fault::damaged(path, TAKEN_NAME));
    }
    // A name of its own until it is complete; what a cut leaves of it is in nobody's way.
    let unfinished = format!(".{}.{}{UNFINISHED}", name.to_string_lossy(), std::process::id());
    let written =
        write_unfinished(&above, &unfinished, bytes, mode, disk).and_then(|()| above.rename(&unfinished, name));
    written.map_err(|error| {
        // What is there of it takes up room.
        let _ = above.remove(&unfinished);
        Fault::unusable(path)(error)
    })?;
    above.settle(disk)
}

/// Whether a file of a length can be written in a folder. Nothing is left of it, but what a cut leaves.
pub fn try_out(folder: &Dir, len: usize) -> Result<(), Fault> {
    let name = format!(".trial{UNFINISHED}");
    let written = folder.create(&name, 0o600).and_then(|mut file| file.write_all(&vec![0; len]));
    let removed = folder.remove(&name);
    written.and(removed).map_err(Fault::unusable(folder.path()))
}

/// The folder that a path's last name stands in, and that name.
pub fn place(path: &Path) -> Result<(Dir, &OsStr), Fault> {
    let name = path.file_name().ok_or_else(|| Fault::damaged(path, "no folder can have this name"))?;
    let above = path.parent().filter(|above| !above.as_os_str().is_empty()).unwrap_or(Path::new("."));
    Ok((Dir::open(above)?, name))
}

/// Whether a name is that of a temporary file.
pub fn is_unfinished(name: &OsStr) -> bool {
    name.as_bytes().starts_with(b".") && name.as_bytes().ends_with(UNFINISHED.as_bytes())
}

/// Stands before everything that changes a file or a folder. In tests the power can fail here.
pub(crate) fn step() -> io::Result<()> {
    #[cfg(test)]
    power::step()?;
    Ok(())
}

#[cfg(test)]
pub mod power {
    //! The power of a test: it fails after so many steps, and then nothing changes any more until it is back.

    use std::cell::Cell;
    use std::io;

    thread_local! {
        static LEFT: Cell<Option<u32>> = const { Cell::new(None) };
    }

    /// The power fails after so many steps from here.
    pub fn fails_after(steps: u32) {
        LEFT.set(Some(steps));
    }

    /// The power is back. Whether it had failed.
    pub fn back() -> bool {
        LEFT.replace(None) == Some(0)
    }

    pub fn step() -> io::Result<()> {
        match LEFT.get() {
            None => Ok(()),
            Some(0) => Err(io::Error::other("no power")),
            Some(left) => {
                LEFT.set(Some(left - 1));
                Ok(())
            }
        }
    }

    /// Does a store with the power failing before each of its steps in turn: what is seen then is what was seen before
    /// it, or what is seen after it; and the store can be done again. How many steps it has.
    pub fn cut_everywhere<T, S: PartialEq + std::fmt::Debug, E: std::fmt::Debug>(
        prepare: impl Fn() -> T,
        store: impl Fn(&mut T) -> Result<(), E>,
        see: impl Fn(&T) -> S,
    ) -> u32 {
        let mut whole = prepare();
        store(&mut whole).expect("done");
        let done = see(&whole);
        for steps in 0.. {
            let mut thing = prepare();
            let before = see(&thing);
            fails_after(steps);
            let said = store(&mut thing);
            let failed = back();
            let seen = see(&thing);
            assert!(seen == before || seen == done, "after {steps} steps: {seen:?}");
            if !failed {
                assert_eq!(seen, done);
                return steps;
            }
            if said.is_ok() {
                assert_eq!(seen, done, "said to be done after {steps} steps");
            }
            store(&mut thing).expect("done again");
            assert_eq!(see(&thing), done);
        }
        unreachable!()
    }
}

#[cfg(test)]
pub mod medium {
    //! A medium of a test that reads or writes records badly some times.

    use std::cell::Cell;

    thread_local! {
        static READS: Cell<u32> = const { Cell::new(0) };
        static WRITES: Cell<u32> = const { Cell::new(0) };
    }

    /// So many times from here a record is read with a wrong bit.
    pub fn reads_badly(times: u32) {
        READS.set(times);
    }

    /// So many times from here a record is written with a wrong bit.
    pub fn writes_badly(times: u32) {
        WRITES.set(times);
    }

    pub fn read(bytes: Vec<u8>) -> Vec<u8> {
        READS.with(|left| passed_on(left, bytes))
    }

    pub fn written(bytes: &[u8]) -> Vec<u8> {
        WRITES.with(|left| passed_on(left, bytes.to_vec()))
    }

    fn passed_on(left: &Cell<u32>, mut bytes: Vec<u8>) -> Vec<u8> {
        if left.get() > 0 {
            left.set(left.get() - 1);
            if let Some(last) = bytes.last_mut() {
                *last ^= 1;
            }
        }
        bytes
    }
}

#[cfg(test)]
pub mod scratch {
    //! Folders for tests, removed at their end.

    use std::path::{Path, PathBuf};
    use std::sync::atomic::{AtomicU32, Ordering};
    use std::{env, fs, process};

    use crate::dir::Dir;

    static COUNT: AtomicU32 = AtomicU32::new(0);

    /// A folder of its own.
    pub struct Scratch(PathBuf);

    impl Scratch {
        #[allow(clippy::new_without_default)]
        pub fn new() -> Scratch {
            let count = COUNT.fetch_add(1, Ordering::Relaxed);
            let folder = env::temp_dir().join(format!("paviluko-unit-{}-{count}", process::id()));
            fs::create_dir_all(&folder).expect("a folder for the test");
            Scratch(folder)
        }

        pub fn path(&self) -> &Path {
            &self.0
        }

        pub fn dir(&self) -> Dir {
            Dir::open(&self.0).expect("there")
        }
    }

    impl Drop for Scratch {
        fn drop(&mut self) {
            let _ = fs::remove_dir_all(&self.0);
        }
    }
}

#[cfg(test)]
mod tests {
    use std::fs;

    use super::scratch::Scratch;
    use super::*;

    #[test]
    fn a_new_file_is_whole_or_not_there() {
        for steps in 0.. {
            let scratch = Scratch::new();
            let path = scratch.path().join("file");
            power::fails_after(steps);
            let said = write_new(&path, b"all of it", 0o644, Disk::Wait);
            let failed = power::back();
            match fs::read(&path) {
                Ok(bytes) => assert_eq!(bytes, b"all of it", "after {steps} steps"),
                Err(_) => assert!(said.is_err(), "said to be done after {steps} steps"),
            }
            if !failed {
                said.expect("written");
                assert_eq!(fs::read_dir(scratch.path()).expect("there").count(), 1);
                assert!(steps > 2, "{steps} steps");
                assert!(write_new(&path, b"another", 0o644, Disk::Wait).is_err_and(|fault| !fault.is_no_room()));
                assert_eq!(fs::read(&path).expect("read"), b"all of it");
                return;
            }
        }
    }
}
