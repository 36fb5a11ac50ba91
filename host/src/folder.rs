//! A box kept in a folder, for the bench: `vault` (see `vault`), `key`, `card` and `lock`.
//!
//! `key` has the 16 bytes of the key in hexadecimal, made at random. `card` names the folder of the card that is in the
//! box (see `card`), so that a card can be swapped; a name without a leading `/` is taken from the box's folder. `lock`
//! is held by the session that runs the box: there is one at a time. Only the box's owner can open `vault`, `key` and `lock`.

use std::fs::{self, File, TryLockError};
use std::io::Read;
use std::os::unix::fs::MetadataExt;
use std::path::Path;

use crate::card::Card;
use crate::collector::Numbers;
use crate::dir::Dir;
use crate::files::{self, Disk, Fault};
use crate::limits::KEY_LEN;
use crate::secret::Secret;
use crate::vault::VaultFile;

const KEY: &str = "key";
const CARD: &str = "card";
const LOCK: &str = "lock";
/// The card that a new box comes with.
const FIRST_CARD: &str = "card-1";
/// The owner alone.
const PRIVATE: u32 = 0o600;
const PRIVATE_FOLDER: u32 = 0o700;
const OPEN: u32 = 0o644;
/// What a key's file has: two digits a byte and an end of line.
const KEY_TEXT: usize = 2 * KEY_LEN + 1;

/// A key in memory.
pub type Key = Secret<KEY_LEN>;

/// A box's folder, and the right to run the box.
#[derive(Debug)]
pub struct BoxFolder {
    dir: Dir,
    disk: Disk,
    /// Held as long as this is.
    _lock: File,
}

impl BoxFolder {
    /// A new box in a folder that is not there yet, or is empty: a new vault, a key made at random, an empty card.
    pub fn create(folder: &Path, disk: Disk) -> Result<(), Fault> {
        BoxFolder::create_with(folder, &Numbers::default(), disk)
    }

    /// The same with a vault that has counted already, for trying what a box says when a counter is spent.
    pub fn create_with(folder: &Path, numbers: &Numbers, disk: Disk) -> Result<(), Fault> {
        if fs::metadata(folder).is_err() {
            let (above, name) = files::place(folder)?;
            above.make(name, PRIVATE_FOLDER).map_err(Fault::unusable(folder))?;
        }
        let dir = Dir::open(folder)?;
        let mut empty = true;
        dir.names(|_| empty = false)?;
        if !empty {
            return Err(Fault::damaged(folder, "this folder is not empty"));
        }
        // Its own name is on the disk too, whoever made it.
        let full = fs::canonicalize(folder).map_err(Fault::unusable(folder))?;
        if full.parent().is_some() {
            files::place(&full)?.0.settle(disk)?;
        }
        Card::create(&folder.join(FIRST_CARD), disk)?;
        files::replace(&dir, CARD, format!("{FIRST_CARD}\n").as_bytes(), OPEN, disk)?;
        files::replace(&dir, KEY, &*hex(&random_key()?), PRIVATE, disk)?;
        VaultFile::create(&dir, numbers, disk).map(|_| ())
    }

    /// The box of a folder. A fault where the folder is none of a box, or another session runs it.
    pub fn open(folder: &Path, disk: Disk) -> Result<BoxFolder, Fault> {
        let dir = Dir::open(folder)?;
        // The vault is looked for first: a folder that has none is no box, and stays as it is.
        VaultFile::open(&dir, disk)?;
        let lock = lock_file(&dir)?;
        match lock.try_lock() {
            Ok(()) => Ok(BoxFolder { dir, disk, _lock: lock }),
            Err(TryLockError::WouldBlock) => Err(Fault::damaged(folder, "another session runs this box")),
            Err(TryLockError::Error(error)) => Err(Fault::unusable(&folder.join(LOCK))(error)),
        }
    }

    /// Brings to the disk what a session that was killed left without waiting for it.
    pub fn settle(&self) -> Result<(), Fault> {
        self.dir.settle(self.disk)
    }

    /// Its vault, as the file has it now.
    pub fn vault(&self) -> Result<VaultFile, Fault> {
        VaultFile::open(&self.dir, self.disk)
    }

    /// Its key.
    pub fn key(&self) -> Result<Key, Fault> {
        let path = self.path().join(KEY);
        // A byte more than a key's file has: what is longer is no key.
        let mut text = Secret::<{ KEY_TEXT + 1 }>::zero();
        let len = self.dir.read_into(KEY, &mut *text)?.ok_or_else(|| Fault::missing(&path))?;
        unhex(&text[..len]).ok_or_else(|| Fault::damaged(&path, "damaged, not 16 bytes in hexadecimal"))
    }

    /// The card that is in it.
    pub fn card(&self) -> Result<Card, Fault> {
        let path = self.path().join(CARD);
        let text = self.dir.read(CARD, 8192)?.ok_or_else(|| Fault::missing(&path))?;
        let text = String::from_utf8(text).map_err(|_| Fault::damaged(&path, "damaged, it names no folder"))?;
        let name = text.strip_suffix('\n').filter(|name| !name.is_empty() && !name.contains(['\n', '\0']));
        let name = name.ok_or_else(|| Fault::damaged(&path, "damaged, it names no folder"))?;
        Card::open(&self.path().join(name), self.disk)
    }

    /// Puts the card of another folder in.
    pub fn put_in(&self, card: &Path) -> Result<(), Fault> {
        Dir::open_itself(card)?;
        let full = |path: &Path| fs::canonicalize(path).map_err(Fault::unusable(path));
        let (card_full, own) = (full(card)?, full(self.path())?);
        if own.starts_with(&card_full) {
            return Err(Fault::damaged(card, "this is no card: the box itself lies in it"));
        }
        let name = card_full.strip_prefix(&own).unwrap_or(&card_full);
        let name = name.to_str().filter(|name| !name.is_empty() && !name.contains('\n'));
        let name = name.ok_or_else(|| Fault::damaged(card, "no card can have this name"))?;
        Card::open(&card_full, self.disk)?.settle()?;
        files::replace(&self.dir, CARD, format!("{name}\n").as_bytes(), OPEN, self.disk)
    }

    /// Writes a file for somebody outside: one that is not there yet, and lies neither in the box's folder nor on its card.
    pub fn write_out(&self, path: &Path, bytes: &[u8]) -> Result<(), Fault> {
        let above = path.parent().filter(|above| !above.as_os_str().is_empty()).unwrap_or(Path::new("."));
        // A folder that is not there is no place for a file, and that is said when the file is written.
        if let Ok(above) = fs::canonicalize(above) {
            let own = |folder: &Path| fs::canonicalize(folder).is_ok_and(|own| above.starts_with(own));
            if own(self.path()) || self.card().is_ok_and(|card| own(card.folder())) {
                return Err(Fault::damaged(path, "the box keeps its own files there: write it elsewhere"));
            }
        }
        files::write_new(path, bytes, OPEN, self.disk)
    }

    /// Where it is.
    pub fn path(&self) -> &Path {
        self.dir.path()
    }

    /// Whether its stores wait for the disk.
    pub fn disk(&self) -> Disk {
        self.disk
    }
}

/// The file that is locked, one that only the owner can open. One that others can open too, as they were made before, is
/// replaced: somebody else may hold it.
fn lock_file(dir: &Dir) -> Result<File, Fault> {
    let path = dir.path().join(LOCK);
    let owner = dir.metadata().map_err(Fault::unusable(dir.path()))?.uid();
    for _ in 0..2 {
        let lock = dir.keep(LOCK, PRIVATE).map_err(Fault::unusable(&path))?;
        let found = lock.metadata().map_err(Fault::unusable(&path))?;
        if !found.is_file() {
            return Err(Fault::damaged(&path, "is not a file"));
        }
        // SAFETY: a number is asked for.
        let own = found.uid() == owner || found.uid() == unsafe { libc::geteuid() };
        if own && found.mode() & 0o077 == 0 {
            return Ok(lock);
        }
        dir.remove(LOCK).map_err(Fault::unusable(&path))?;
    }
    Err(Fault::damaged(&path, "others can open it"))
}

/// A key made at random.
fn random_key() -> Result<Key, Fault> {
    let source = Path::new("/dev/urandom");
    let mut key = Key::zero();
    File::open(source).and_then(|mut f| f.read_exact(&mut *key)).map_err(Fault::unusable(source))?;
    Ok(key)
}

/// A key as its file has it.
fn hex(key: &Key) -> Secret<KEY_TEXT> {
    let digit = |value: u8| char::from_digit(u32::from(value), 16).map_or(b'0', |c| c as u8);
    let mut text = Secret::zero();
    for (pair, byte) in text.chunks_exact_mut(2).zip(key.iter()) {
        pair.copy_from_slice(&[digit(byte / 16), digit(byte % 16)]);
    }
    text[KEY_TEXT - 1] = b'\n';
    text
}

/// The key of a file.
fn unhex(text: &[u8]) -> Option<Key> {
    let digits = text.strip_suffix(b"\n").unwrap_or(text);
    if digits.len() != 2 * KEY_LEN {
        return None;
    }
    let mut key = Key::zero();
    for (byte, pair) in key.iter_mut().zip(digits.chunks(2)) {
        let digit = |c: u8| char::from(c).to_digit(16);
        *byte = (digit(pair[0])? * 16 + digit(pair[1])?) as u8;
    }
    Some(key)
}

#[cfg(test)]
mod tests {
    use super::*;
    use crate::files::scratch::Scratch;

    #[test]
    fn keys_are_read_as_written() {
        let mut key = Key::zero();
        key.copy_from_slice(b"\x00\x01\xfe\xff0123456789ab");
        assert_eq!(hex(&key)[..], *b"0001feff303132333435363738396162\n");
        assert_eq!(unhex(&*hex(&key)).map(|key| *key), Some(*key));
        assert!(unhex(b"00").is_none());
        assert!(unhex(&[b'g'; 32]).is_none());
    }

    #[test]
    fn a_box_is_run_once_and_its_card_swapped() {
        let scratch = Scratch::new();
        let place = scratch.path().join("box");
        BoxFolder::create(&place, Disk::Wait).expect("made");
        assert!(BoxFolder::create(&place, Disk::Wait).is_err());
        let folder = BoxFolder::open(&place, Disk::Wait).expect("opened");
        assert!(BoxFolder::open(&place, Disk::Wait).is_err());
        let other = Card::create(&scratch.path().join("other"), Disk::Wait).expect("made");
        folder.put_in(other.folder()).expect("put in");
        assert_eq!(folder.card().expect("there").folder(), fs::canonicalize(other.folder()).expect("there"));
        folder.put_in(&place.join(FIRST_CARD)).expect("put in");
        assert_eq!(folder.card().expect("there").folder(), place.join(FIRST_CARD));
        drop(folder);
        assert!(BoxFolder::open(&place, Disk::Wait).is_ok());
    }

    #[test]
    fn a_lock_that_others_can_open_is_replaced() {
        let scratch = Scratch::new();
        let place = scratch.path().join("box");
        BoxFolder::create(&place, Disk::Quick).expect("made");
        let path = place.join(LOCK);
        let old = File::create(&path).expect("made");
        old.set_permissions(std::os::unix::fs::PermissionsExt::from_mode(0o644)).expect("set");
        old.lock().expect("locked");
        let folder = BoxFolder::open(&place, Disk::Quick).expect("opened");
        assert_eq!(fs::metadata(&path).expect("there").mode() & 0o777, PRIVATE);
        assert!(BoxFolder::open(&place, Disk::Quick).is_err());
        drop(folder);
        assert!(BoxFolder::open(&place, Disk::Quick).is_ok());
        assert_eq!(fs::metadata(&place).expect("there").mode() & 0o777, PRIVATE_FOLDER);
    }

    #[test]
    fn what_is_written_out_replaces_nothing_and_is_none_of_the_box_s() {
        let scratch = Scratch::new();
        let place = scratch.path().join("box");
        BoxFolder::create(&place, Disk::Quick).expect("made");
        let folder = BoxFolder::open(&place, Disk::Quick).expect("opened");
        let outside = Card::create(&scratch.path().join("outside"), Disk::Quick).expect("made");
        folder.put_in(outside.folder()).expect("put in");
        let out = scratch.path().join("table");
        folder.write_out(&out, b"first").expect("written");
        std::os::unix::fs::symlink("nowhere", scratch.path().join("link")).expect("made");
        fs::create_dir(scratch.path().join("beside")).expect("made");
        for (name, said) in [
            ("table", files::TAKEN_NAME),
            ("link", files::TAKEN_NAME),
            ("beside", "is a folder"),
            ("beside/", "is a folder"),
            ("new/", "this is a folder's name, and no file's"),
            ("nowhere/table", "not found"),
            ("table/table", "not a folder"),
            ("box/table", "the box keeps its own files there"),
            ("box/key", "the box keeps its own files there"),
            ("box/card-1/table", "the box keeps its own files there"),
            ("beside/../outside/table", "the box keeps its own files there"),
        ] {
            let fault = folder.write_out(&scratch.path().join(name), b"second").expect_err(name);
            assert!(fault.to_string().contains(said), "{fault}");
        }
        assert_eq!(fs::read(&out).expect("read"), b"first");
        let mut names: Vec<_> =
            fs::read_dir(scratch.path()).expect("there").map(|e| e.expect("read").file_name()).collect();
        names.sort();
        assert_eq!(names, ["beside", "box", "link", "outside", "table"]);
    }

    #[test]
    fn no_box_lies_in_its_card() {
        let scratch = Scratch::new();
        let place = scratch.path().join("box");
        BoxFolder::create(&place, Disk::Quick).expect("made");
        let folder = BoxFolder::open(&place, Disk::Quick).expect("opened");
        assert!(folder.put_in(scratch.path()).is_err());
        assert!(folder.put_in(&place).is_err());
        assert_eq!(folder.card().expect("there").folder(), place.join(FIRST_CARD));
    }
}
