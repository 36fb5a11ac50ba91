//! A folder that is open, and what can be done in it.
//!
//! Anybody may have made the card, so a name on it can be a link to the vault, a pipe that never answers, or a file without
//! end; and it can be changed while it is looked at. Hence four rules, kept here for everything that the host reads or writes:
//!
//! 1. A name is looked up in a folder that is open, and a link is never followed: whoever exchanges a folder for a link
//!    meanwhile changes nothing.
//! 2. What is read was opened without waiting, is a regular file by what was opened, and is read up to a bound.
//! 3. What is written is a new file that nobody else can have open: the old name is removed, and the file is made with that
//!    name or not at all.
//! 4. A folder is listed up to a bound.
//!
//! Here is all that the host asks of the system without std.

use std::ffi::{CStr, CString, OsStr};
use std::fs::{File, Metadata};
use std::io::{self, Read};
use std::os::fd::{AsRawFd, FromRawFd, OwnedFd};
use std::os::unix::ffi::OsStrExt;
use std::path::{Path, PathBuf};

use libc::c_int;

use crate::files::{Disk, Fault, step};

/// More names than this are looked at in no folder.
pub const MOST_NAMES: usize = 1 << 18;

/// What a folder that is in the way is called, before a number.
const ASIDE: &str = "in-the-way.";

/// An open folder.
#[derive(Debug)]
pub struct Dir {
    open: File,
    path: PathBuf,
}

/// How a listing ended.
#[derive(Clone, Copy, Debug, PartialEq, Eq)]
pub enum Listed {
    /// Every name was seen.
    Whole,
    /// There are more than `MOST_NAMES`.
    Part,
}

impl Dir {
    /// The folder at a path that somebody named: links on the way and at its end are followed.
    pub fn open(path: &Path) -> Result<Dir, Fault> {
        Dir::at(libc::AT_FDCWD, path.as_os_str(), path, 0)
    }

    /// The same, where the path's last name may be no link.
    pub fn open_itself(path: &Path) -> Result<Dir, Fault> {
        // With a slash at its end the system would follow it.
        let path: PathBuf = path.components().collect();
        Dir::at(libc::AT_FDCWD, path.as_os_str(), &path, libc::O_NOFOLLOW)
    }

    /// A folder in it; nothing where there is none of that name.
    pub fn folder(&self, name: impl AsRef<OsStr>) -> Result<Option<Dir>, Fault> {
        let name = name.as_ref();
        match Dir::at(self.fd(), name, &self.path.join(name), libc::O_NOFOLLOW) {
            Err(Fault::Unusable { error, .. }) if error.kind() == io::ErrorKind::NotFound => Ok(None),
            opened => opened.map(Some),
        }
    }

    fn at(fd: c_int, name: &OsStr, path: &Path, flags: c_int) -> Result<Dir, Fault> {
        match open_at(fd, name, libc::O_RDONLY | libc::O_DIRECTORY | flags, 0) {
            Ok(open) => Ok(Dir { open, path: path.to_path_buf() }),
            Err(error) if is_code(&error, &[libc::ENOTDIR, libc::ELOOP]) => match kind(fd, name) {
                Some(libc::S_IFLNK) => Err(Fault::damaged(path, "is a link, not a folder")),
                Some(_) => Err(Fault::damaged(path, "is not a folder")),
                None => Err(Fault::unusable(path)(error)),
            },
            Err(error) => Err(Fault::unusable(path)(error)),
        }
    }

    /// The same folder once more.
    pub fn again(&self) -> Result<Dir, Fault> {
        let open = self.open.try_clone().map_err(Fault::unusable(&self.path))?;
        Ok(Dir { open, path: self.path.clone() })
    }

    /// Where it is, for messages and for names below it.
    pub fn path(&self) -> &Path {
        &self.path
    }

    /// What the system says of the folder itself.
    pub fn metadata(&self) -> io::Result<Metadata> {
        self.open.metadata()
    }

    /// A file's first bytes, as many as the buffer has; how many those are. Nothing where there is none of that name.
    pub fn read_into(&self, name: impl AsRef<OsStr>, buffer: &mut [u8]) -> Result<Option<usize>, Fault> {
        let name = name.as_ref();
        let Some(mut file) = self.file(name)? else { return Ok(None) };
        let mut len = 0;
        while len < buffer.len() {
            match file.read(&mut buffer[len..]) {
                Ok(0) => break,
                Ok(more) => len += more,
                Err(error) if error.kind() == io::ErrorKind::Interrupted => {}
                Err(error) => return Err(Fault::unusable(&self.path.join(name))(error)),
            }
        }
        Ok(Some(len))
    }

    /// A file's first bytes up to a limit. Nothing where there is none of that name.
    pub fn read(&self, name: impl AsRef<OsStr>, limit: usize) -> Result<Option<Vec<u8>>, Fault> {
        let name = name.as_ref();
        let Some(file) = self.file(name)? else { return Ok(None) };
        let mut bytes = Vec::new();
        file.take(limit as u64).read_to_end(&mut bytes).map_err(Fault::unusable(&self.path.join(name)))?;
        Ok(Some(bytes))
    }

    /// A file to be read, from the medium where the system can leave its own copy aside.
    fn file(&self, name: &OsStr) -> Result<Option<File>, Fault> {
        let path = self.path.join(name);
        let file = match open_at(self.fd(), name, libc::O_RDONLY | libc::O_NONBLOCK | libc::O_NOFOLLOW, 0) {
            Ok(file) => file,
            Err(error) if error.kind() == io::ErrorKind::NotFound => return Ok(None),
            // A link, a socket, a device that is not there.
            Err(error) if is_code(&error, &[libc::ELOOP, libc::ENXIO, libc::ENODEV]) => {
                return Err(Fault::damaged(&path, "is not a file"));
            }
            Err(error) => return Err(Fault::unusable(&path)(error)),
        };
        if !file.metadata().map_err(Fault::unusable(&path))?.is_file() {
            return Err(Fault::damaged(&path, "is not a file"));
        }
        // SAFETY: the descriptor is open. What is said is advice only.
        unsafe { libc::posix_fadvise(file.as_raw_fd(), 0, 0, libc::POSIX_FADV_DONTNEED) };
        Ok(Some(file))
    }

    /// Whether there is something of a name, whatever it is.
    pub fn has(&self, name: impl AsRef<OsStr>) -> bool {
        kind(self.fd(), name.as_ref()).is_some()
    }

    /// How many bytes a file has; nothing where there is no file of that name.
    pub fn length(&self, name: impl AsRef<OsStr>) -> Option<u64> {
        let seen = seen(self.fd(), name.as_ref())?;
        (seen.st_mode & libc::S_IFMT == libc::S_IFREG).then(|| seen.st_size.try_into().ok()).flatten()
    }

    /// A new file. What had its name before is removed or put aside.
    pub fn create(&self, name: impl AsRef<OsStr>, mode: u32) -> io::Result<File> {
        let name = name.as_ref();
        self.clear(name)?;
        step()?;
        open_at(self.fd(), name, libc::O_WRONLY | libc::O_CREAT | libc::O_EXCL | libc::O_NOFOLLOW, mode)
    }

    /// A file that is kept from one session to the next; it is made where there is none of that name.
    pub fn keep(&self, name: impl AsRef<OsStr>, mode: u32) -> io::Result<File> {
        let flags = libc::O_RDWR | libc::O_CREAT | libc::O_NONBLOCK | libc::O_NOFOLLOW;
        open_at(self.fd(), name.as_ref(), flags, mode)
    }

    /// A new folder in it; an error where the name is taken.
    pub fn make(&self, name: impl AsRef<OsStr>, mode: u32) -> io::Result<()> {
        step()?;
        let name = plain_name(name.as_ref())?;
        // SAFETY: the folder is open, and the name ends with a 0.
        done(unsafe { libc::mkdirat(self.fd(), name.as_ptr(), mode) })
    }

    /// Gives a file in it another name in it. What had that name before is replaced.
    pub fn rename(&self, from: impl AsRef<OsStr>, to: impl AsRef<OsStr>) -> io::Result<()> {
        step()?;
        let (from, to) = (plain_name(from.as_ref())?, plain_name(to.as_ref())?);
        // SAFETY: the folder is open, and the names end with a 0.
        done(unsafe { libc::renameat(self.fd(), from.as_ptr(), self.fd(), to.as_ptr()) })
    }

    /// Gives a file in it the same name in another folder too. A link is not followed.
    pub fn link(&self, name: impl AsRef<OsStr>, other: &Dir) -> io::Result<()> {
        step()?;
        let name = plain_name(name.as_ref())?;
        // SAFETY: both folders are open, and the name ends with a 0.
        done(unsafe { libc::linkat(self.fd(), name.as_ptr(), other.fd(), name.as_ptr(), 0) })
    }

    /// Removes what has a name in it: a file of any kind, a link, or an empty folder.
    pub fn remove(&self, name: impl AsRef<OsStr>) -> io::Result<()> {
        let name = plain_name(name.as_ref())?;
        let unlink = |flags: c_int| {
            step()?;
            // SAFETY: the folder is open, and the name ends with a 0.
            done(unsafe { libc::unlinkat(self.fd(), name.as_ptr(), flags) })
        };
        match unlink(0) {
            Err(error) if is_code(&error, &[libc::EISDIR, libc::EPERM]) => unlink(libc::AT_REMOVEDIR),
            other => other,
        }
    }

    /// Makes a name free: what has it is removed, and a folder with something in it gets another name.
    pub fn clear(&self, name: impl AsRef<OsStr>) -> io::Result<()> {
        let name = name.as_ref();
        match self.remove(name) {
            Err(error) if error.kind() == io::ErrorKind::NotFound => Ok(()),
            Err(error) if is_code(&error, &[libc::ENOTEMPTY, libc::EEXIST]) => {
                let mut others = (0..=MOST_NAMES).map(|number| format!("{ASIDE}{number}"));
                let free = others.find(|other| !self.has(other)).ok_or(error)?;
                self.rename(name, free)
            }
            other => other,
        }
    }

    /// Shows each name in it, in no order, up to `MOST_NAMES` of them.
    pub fn names(&self, mut each: impl FnMut(&OsStr)) -> Result<Listed, Fault> {
        let mut list_all = || -> io::Result<Listed> {
            let mut list = Listing::of(self.fd())?;
            for _ in 0..MOST_NAMES {
                match list.next()? {
                    Some(name) => each(name),
                    None => return Ok(Listed::Whole),
                }
            }
            Ok(Listed::Part)
        };
        list_all().map_err(Fault::unusable(&self.path))
    }

    /// Brings its names to the disk.
    pub fn settle(&self, disk: Disk) -> Result<(), Fault> {
        match disk {
            Disk::Wait => self.open.sync_all().map_err(Fault::unusable(&self.path)),
            Disk::Quick => Ok(()),
        }
    }

    /// Brings everything to the disk that is in the file system that it is in, whoever wrote it.
    pub fn settle_all(&self, disk: Disk) -> Result<(), Fault> {
        match disk {
            // SAFETY: the descriptor is open.
            Disk::Wait => done(unsafe { libc::syncfs(self.fd()) }).map_err(Fault::unusable(&self.path)),
            Disk::Quick => Ok(()),
        }
    }

    fn fd(&self) -> c_int {
        self.open.as_raw_fd()
    }
}

/// A listing of a folder.
struct Listing(*mut libc::DIR);

impl Listing {
    /// From the start of an open folder.
    fn of(fd: c_int) -> io::Result<Listing> {
        let again = OwnedFd::from(open_at(fd, OsStr::new("."), libc::O_RDONLY | libc::O_DIRECTORY, 0)?);
        // SAFETY: the descriptor is open. Where there is no error it belongs to the listing, which closes it.
        let list = unsafe { libc::fdopendir(again.as_raw_fd()) };
        if list.is_null() {
            return Err(io::Error::last_os_error());
        }
        std::mem::forget(again);
        Ok(Listing(list))
    }

    /// The next name but for `.` and `..`.
    fn next(&mut self) -> io::Result<Option<&OsStr>> {
        loop {
            // SAFETY: the place of this thread's error code; the listing is open; an entry holds its name, with a 0 behind
            // it, until the next call.
            let name = unsafe {
                *libc::__errno_location() = 0;
                let entry = libc::readdir64(self.0);
                if entry.is_null() {
                    let error = io::Error::last_os_error();
                    return if error.raw_os_error() == Some(0) { Ok(None) } else { Err(error) };
                }
                CStr::from_ptr((*entry).d_name.as_ptr()).to_bytes()
            };
            if name != b"." && name != b".." {
                return Ok(Some(OsStr::from_bytes(name)));
            }
        }
    }
}

impl Drop for Listing {
    fn drop(&mut self) {
        // SAFETY: it is open, and nothing uses it any more.
        unsafe { libc::closedir(self.0) };
    }
}

/// Opens a name in an open folder; no program that is started gets the descriptor.
fn open_at(fd: c_int, name: &OsStr, flags: c_int, mode: u32) -> io::Result<File> {
    let name = CString::new(name.as_bytes())?;
    loop {
        // SAFETY: the name ends with a 0.
        let opened = unsafe { libc::openat(fd, name.as_ptr(), flags | libc::O_CLOEXEC | libc::O_NOCTTY, mode) };
        match done(opened) {
            // SAFETY: the descriptor was opened just now, and nobody else has it.
            Ok(()) => return Ok(File::from(unsafe { OwnedFd::from_raw_fd(opened) })),
            Err(error) if error.kind() == io::ErrorKind::Interrupted => {}
            Err(error) => return Err(error),
        }
    }
}

/// What kind of thing has a name in an open folder, as the system counts them; nothing where there is none.
fn kind(fd: c_int, name: &OsStr) -> Option<libc::mode_t> {
    seen(fd, name).map(|seen| seen.st_mode & libc::S_IFMT)
}

/// What the system says of a name in an open folder, of a link itself; nothing where there is none.
fn seen(fd: c_int, name: &OsStr) -> Option<libc::stat64> {
    let name = CString::new(name.as_bytes()).ok()?;
    // SAFETY: the name ends with a 0; a struct of numbers, which the call fills.
    let (seen, result) = unsafe {
        let mut seen: libc::stat64 = std::mem::zeroed();
        let result = libc::fstatat64(fd, name.as_ptr(), &mut seen, libc::AT_SYMLINK_NOFOLLOW);
        (seen, result)
    };
    (result == 0).then_some(seen)
}

/// A name for the system: it stands in the folder itself.
fn plain_name(name: &OsStr) -> io::Result<CString> {
    if name.as_bytes().contains(&b'/') {
        return Err(io::Error::from_raw_os_error(libc::EINVAL));
    }
    Ok(CString::new(name.as_bytes())?)
}

/// What a call of the system says.
fn done(result: c_int) -> io::Result<()> {
    if result < 0 { Err(io::Error::last_os_error()) } else { Ok(()) }
}

/// Whether an error has one of these codes.
fn is_code(error: &io::Error, codes: &[c_int]) -> bool {
    error.raw_os_error().is_some_and(|code| codes.contains(&code))
}

#[cfg(test)]
mod tests {
    use std::fs;
    use std::io::Write;
    use std::os::unix::fs::symlink;
    use std::os::unix::net::UnixListener;

    use super::*;
    use crate::files::scratch::Scratch;

    /// A card's folder beside a file and a folder that are none of its business.
    fn place() -> (Scratch, Dir) {
        let scratch = Scratch::new();
        fs::create_dir_all(scratch.path().join("card/records")).expect("made");
        fs::create_dir(scratch.path().join("outside")).expect("made");
        fs::write(scratch.path().join("vault"), "numbers").expect("written");
        let card = Dir::open_itself(&scratch.path().join("card")).expect("there");
        (scratch, card)
    }

    fn pipe(path: &Path) {
        let name = CString::new(path.as_os_str().as_bytes()).expect("a name");
        // SAFETY: the name ends with a 0.
        assert_eq!(unsafe { libc::mkfifo(name.as_ptr(), 0o600) }, 0);
    }

    #[test]
    fn only_regular_files_are_read() {
        let (_scratch, card) = place();
        symlink("../vault", card.path().join("link")).expect("made");
        symlink("link", card.path().join("link-to-link")).expect("made");
        symlink("loop", card.path().join("loop")).expect("made");
        pipe(&card.path().join("pipe"));
        let _socket = UnixListener::bind(card.path().join("socket")).expect("made");
        for name in ["link", "link-to-link", "loop", "pipe", "socket", "records"] {
            assert!(matches!(card.read(name, 9), Err(Fault::Damaged { why: "is not a file", .. })), "{name}");
            assert_eq!(card.length(name), None, "{name}");
        }
        assert!(matches!(card.read("nothing", 9), Ok(None)));
        assert_eq!(card.length("nothing"), None);
        fs::write(card.path().join("file"), "0123456789").expect("written");
        assert_eq!(card.read("file", 9).expect("read").expect("there"), b"012345678");
        assert_eq!(card.read("file", 99).expect("read").expect("there"), b"0123456789");
        File::create(card.path().join("huge")).and_then(|file| file.set_len(1 << 40)).expect("made");
        assert_eq!(card.read("huge", 9).expect("read").expect("there"), [0; 9]);
        assert_eq!((card.length("file"), card.length("huge")), (Some(10), Some(1 << 40)));
    }

    #[test]
    fn folders_are_no_links() {
        let (scratch, card) = place();
        symlink("../outside", card.path().join("link")).expect("made");
        fs::write(card.path().join("file"), []).expect("written");
        for (name, said) in [("link", "is a link, not a folder"), ("file", "is not a folder")] {
            assert!(matches!(card.folder(name), Err(Fault::Damaged { why, .. }) if why == said), "{name}");
        }
        assert!(matches!(card.folder("nothing"), Ok(None)));
        symlink("card", scratch.path().join("other")).expect("made");
        assert!(Dir::open(&scratch.path().join("other")).is_ok());
        assert!(Dir::open_itself(&scratch.path().join("other")).is_err());
        assert!(Dir::open_itself(&scratch.path().join("other/")).is_err());
        assert!(Dir::open_itself(&scratch.path().join("card/")).is_ok());
    }

    #[test]
    fn nothing_is_written_through_a_name() {
        let (scratch, card) = place();
        let path = |name: &str| card.path().join(name);
        symlink("../vault", path("link")).expect("made");
        symlink("../not-there", path("dangling")).expect("made");
        fs::hard_link(scratch.path().join("vault"), path("second")).expect("made");
        pipe(&path("pipe"));
        fs::create_dir(path("empty")).expect("made");
        for name in ["link", "dangling", "second", "pipe", "empty"] {
            card.create(name, 0o600).and_then(|mut file| file.write_all(b"new")).expect("written");
            assert_eq!(fs::read(path(name)).expect("read"), b"new", "{name}");
            assert!(fs::symlink_metadata(path(name)).expect("there").is_file(), "{name}");
        }
        assert_eq!(fs::read(scratch.path().join("vault")).expect("read"), b"numbers");
        assert!(!scratch.path().join("not-there").exists());
        assert!(card.create("../vault", 0o600).is_err());
    }

    #[test]
    fn a_folder_in_the_way_is_put_aside() {
        let (_scratch, card) = place();
        let path = |name: &str| card.path().join(name);
        for number in 0..2 {
            fs::create_dir_all(path("records/1")).expect("made");
            card.create("records", 0o600).expect("made");
            assert!(path("records").is_file());
            assert!(path(&format!("{ASIDE}{number}/1")).is_dir());
            card.clear("records").expect("removed");
        }
        card.clear("records").expect("nothing to remove");
    }

    #[test]
    fn a_folder_stays_itself_when_it_is_exchanged() {
        let (scratch, card) = place();
        let records = card.folder("records").expect("a folder").expect("there");
        fs::rename(card.path().join("records"), card.path().join("aside")).expect("renamed");
        symlink("../outside", card.path().join("records")).expect("made");
        records.create("file", 0o600).expect("made");
        assert!(card.path().join("aside/file").exists());
        assert_eq!(fs::read_dir(scratch.path().join("outside")).expect("there").count(), 0);
    }

    #[test]
    fn names_are_listed() {
        let (_scratch, card) = place();
        let odd = OsStr::from_bytes(b"\xff\n\x1b");
        fs::write(card.path().join(odd), []).expect("written");
        let mut names = Vec::new();
        assert_eq!(card.names(|name| names.push(name.to_os_string())).expect("listed"), Listed::Whole);
        names.sort();
        assert_eq!(names, [OsStr::new("records"), odd]);
        card.remove(odd).expect("removed");
        card.remove("records").expect("removed");
        assert_eq!(card.remove("records").expect_err("gone").kind(), io::ErrorKind::NotFound);
    }
}
