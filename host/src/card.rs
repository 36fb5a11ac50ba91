//! A card kept in a folder, each of whose stores is wholly done or not at all.
//!
//! What lies in the folder:
//!
//! - `log`, a line of text that names the generation in force, G. No such file stands for generation 0.
//! - `records.G/`, the log: a file for each record, named by its position in 20 digits.
//! - `checkpoints/`, a file for each checkpoint, named by its version and seal number. Those that are no longer asked for
//!   are deleted: of a version below S once S is stored, and of the same version once a later one is written.
//! - `reserve`, room that is kept for a start: it is given up where the card is full, and made again when there is room.
//!
//! A record or a checkpoint is written by `files::replace`. To delete many records at once, a folder of the next
//! generation is filled with what stays (nothing, where the log is emptied), and then `log` is replaced: that one rename
//! is the store. A cut before it leaves the old log and a folder that nobody reads; one after it leaves the new log, and
//! the old folder is swept away by the next deletion.
//!
//! Anybody may change a card, so nothing here is believed: whatever is found is handed to the library, which decides.
//! Names that are no position are passed over, and a `log` that cannot be read stands for an empty log. All of it goes
//! through `Dir`, so that nothing on a card leads out of it.
//!
//! Cards and file systems that do not write whole or not at all leave a beginning of what was being written. Where the last file
//! of the log has only that of a record, it is handed over as it is found: the library passes it over, or misses the record. A
//! file that is shorter than a checkpoint is none, and is never handed over. The bench leaves both behind where it is told to
//! (`tear_record`, `tear_checkpoint`).

use std::ffi::{OsStr, OsString};
use std::io;
use std::path::Path;

use crate::dir::{Dir, Listed, MOST_NAMES};
use crate::files::{self, Disk, Fault};
use crate::limits::{
    FILE_LEN, HEAD_LEN, LANES, LOG_LEN, ONE_WRITE_LEN, RECORD_LEN, SEAL_LEN, STAMP_LEN, TRANSACTION_LEN, WRITE_LEN,
};

/// The file that names the generation.
const LOG: &str = "log";
/// What stands in it, before the number.
const GENERATION: &str = "generation ";
/// The folder of checkpoints.
pub const CHECKPOINTS: &str = "checkpoints";
/// What a folder of records is called, before its generation.
const RECORDS: &str = "records.";
/// The file that keeps room.
const RESERVE: &str = "reserve";
/// Room for a checkpoint, two folders and `log` on a file system that gives each 16 KB.
const RESERVE_LEN: usize = 65_536;

/// The first byte of a record.
const RECORD_KIND: u8 = 1;
/// So many names are removed in one sweep; what is left then is left to the next.
const MOST_REMOVED: usize = 16_384;

/// What is said of a folder with more names than are looked at.
const TOO_MANY: &str = "this is no box's card: it has too many names";

const FOLDER_MODE: u32 = 0o755;
const FILE_MODE: u32 = 0o644;

/// A card in a folder.
#[derive(Debug)]
pub struct Card {
    dir: Dir,
    disk: Disk,
}

/// What a card hands to Recover as its log.
#[derive(Debug, Default)]
pub struct Log {
    /// The records end to end in order of position.
    pub bytes: Vec<u8>,
    /// How many there are, without a torn one.
    pub records: usize,
    /// The torn one at their end.
    pub torn: Option<Torn>,
}

/// How much a card holds.
#[derive(Clone, Copy, Debug, PartialEq, Eq)]
pub struct Held {
    /// Records, without a torn one.
    pub records: usize,
    /// The torn one at their end.
    pub torn: Option<Torn>,
    /// Checkpoints, without torn ones.
    pub checkpoints: usize,
}

/// A last record of which a card shows only a beginning.
#[derive(Clone, Copy, Debug, PartialEq, Eq)]
pub struct Torn {
    /// Where it stands.
    pub position: u64,
    /// How many bytes of it do.
    pub bytes: usize,
    /// How many the whole record has, where its head is there to say so.
    pub whole: Option<usize>,
}

impl Torn {
    /// What the last file of a log has, if it is a torn record: fewer bytes than a head has, or a legal head and fewer than it
    /// says.
    fn of(position: u64, file: &[u8]) -> Option<Torn> {
        let whole = match file.first_chunk() {
            Some(head) => Some(whole_record(head).filter(|&whole| file.len() < whole)?),
            None => None,
        };
        Some(Torn { position, bytes: file.len(), whole })
    }
}

impl Card {
    /// The card in a folder, which is there and is no link.
    pub fn open(folder: &Path, disk: Disk) -> Result<Card, Fault> {
        Ok(Card { dir: Dir::open_itself(folder)?, disk })
    }

    /// An empty card in a folder that is not there yet.
    pub fn create(folder: &Path, disk: Disk) -> Result<Card, Fault> {
        let (above, name) = files::place(folder)?;
        above.make(name, FOLDER_MODE).map_err(Fault::unusable(folder))?;
        above.settle(disk)?;
        Card::open(folder, disk)
    }

    /// Its folder.
    pub fn folder(&self) -> &Path {
        self.dir.path()
    }

    /// The name of the folder in it that has the records.
    pub fn records_folder(&self) -> Result<String, Fault> {
        Ok(records_name(self.generation()?))
    }

    /// Brings to the disk what is found on it, whoever wrote it and never waited for that: its files, its folders, and its own
    /// name where it lies.
    pub fn settle(&self) -> Result<(), Fault> {
        self.dir.settle_all(self.disk)?;
        let records = readable(self.generation())?.map(records_name);
        for name in records.iter().map(String::as_str).chain([CHECKPOINTS]) {
            if let Some(folder) = readable(self.dir.folder(name))?.flatten() {
                folder.settle(self.disk)?;
            }
        }
        self.dir.settle(self.disk)?;
        match files::place(self.folder()) {
            Ok((above, _)) => above.settle(self.disk),
            // A folder that cannot be looked into is not ours to settle.
            Err(_) => Ok(()),
        }
    }

    /// Store: writes a record at a position.
    pub fn write_record(&self, position: u64, bytes: &[u8]) -> Result<(), Fault> {
        #[cfg(test)]
        let bytes = &files::medium::written(bytes);
        let records = self.ensure(&records_name(self.generation()?))?;
        files::replace(&records, &name_of(position), bytes, FILE_MODE, self.disk)
    }

    /// The record at a position, as the card has it.
    pub fn read_record(&self, position: u64) -> Result<Vec<u8>, Fault> {
        let folder = records_name(self.generation()?);
        // A byte more than the longest record: what is longer is read as too long.
        let bytes = match self.dir.folder(&folder)? {
            Some(records) => records.read(name_of(position), RECORD_LEN + 1)?,
            None => None,
        };
        let bytes = bytes.ok_or_else(|| Fault::missing(&self.folder().join(folder).join(name_of(position))))?;
        #[cfg(test)]
        let bytes = files::medium::read(bytes);
        Ok(bytes)
    }

    /// Removes the record at a position, which is not visible and does not open.
    pub fn drop_record(&self, position: u64) -> Result<(), Fault> {
        let Some(records) = self.folder_of(self.generation()?)? else { return Ok(()) };
        records.clear(name_of(position)).map_err(Fault::unusable(&records.path().join(name_of(position))))?;
        records.settle(self.disk)
    }

    /// Store: writes a checkpoint. The others of its version are not asked for any more.
    pub fn write_checkpoint(&self, bytes: &[u8]) -> Result<(), Fault> {
        let folder = self.ensure(CHECKPOINTS)?;
        let (version, seal) = head(bytes).unwrap_or_default();
        files::replace(&folder, &checkpoint_name(version, seal), bytes, FILE_MODE, self.disk)?;
        if bytes.len() >= FILE_LEN {
            remove_where(&folder, |_, its| its.is_some_and(|(v, n)| v == version && n < seal));
        }
        Ok(())
    }

    /// For the bench: leaves so many bytes of a record at its position, as a cut does on a card that does not write whole or not
    /// at all.
    pub fn tear_record(&self, position: u64, bytes: &[u8], left: usize) -> Result<(), Fault> {
        self.write_record(position, beginning(bytes, left))
    }

    /// The same of a checkpoint, under its name. The others of its version stay.
    pub fn tear_checkpoint(&self, bytes: &[u8], left: usize) -> Result<(), Fault> {
        let folder = self.ensure(CHECKPOINTS)?;
        let (version, seal) = head(bytes).unwrap_or_default();
        files::replace(&folder, &checkpoint_name(version, seal), beginning(bytes, left), FILE_MODE, self.disk)
    }

    /// Store: deletes the records below a position.
    pub fn delete_below(&self, position: u64) -> Result<(), Fault> {
        let generation = self.generation()?;
        let mut kept = self.positions(generation)?;
        kept.retain(|&at| at >= position);
        self.switch(generation, &kept)
    }

    /// Store: deletes all records.
    pub fn empty(&self) -> Result<(), Fault> {
        let generation = self.generation().unwrap_or_default();
        self.switch(generation, &[])
    }

    /// Whether the stores of a start can be done: a checkpoint can be written, and a log begun. Nothing is left of the trial.
    pub fn try_out(&self) -> Result<(), Fault> {
        whole(&self.dir, self.dir.names(|_| ())?)?;
        let folder = self.ensure(CHECKPOINTS)?;
        files::try_out(&folder, FILE_LEN)?;
        files::try_out(&self.dir, 1)
    }

    /// Removes what no start asks for, as far as that can be done: checkpoints of a version below S, which is stored, what
    /// a cut left of a store, a torn checkpoint too, and records that are not of the generation in force.
    pub fn sweep(&self, s: u64) {
        if let Ok(Some(folder)) = self.dir.folder(CHECKPOINTS) {
            let torn = |name: &OsStr| is_checkpoint_name(name) && is_short(&folder, name);
            remove_where(&folder, |name, its| {
                files::is_unfinished(name) || torn(name) || its.is_some_and(|(version, _)| version < s)
            });
        }
        if let Ok(generation) = self.generation() {
            self.sweep_generations(generation);
        }
    }

    /// Keeps room for a start, where there is none kept yet; false where there is no room.
    pub fn keep_reserve(&self) -> bool {
        self.dir.has(RESERVE) || files::replace(&self.dir, RESERVE, &[0; RESERVE_LEN], FILE_MODE, Disk::Quick).is_ok()
    }

    /// Gives up the room that was kept; false where none was.
    pub fn give_up_reserve(&self) -> bool {
        self.dir.remove(RESERVE).is_ok()
    }

    /// What the card hands to Recover as its log: its records, or as many as are too long for any log. A torn one at their end
    /// is handed over as it is found.
    pub fn log(&self) -> Result<Log, Fault> {
        let mut log = Log::default();
        let Some(generation) = readable(self.generation())? else { return Ok(log) };
        let Some(records) = readable(self.folder_of(generation))?.flatten() else { return Ok(log) };
        for position in self.positions(generation)? {
            let room = (LOG_LEN + 1).saturating_sub(log.bytes.len());
            let file = records.read(name_of(position), room)?.unwrap_or_default();
            log.bytes.extend(&file);
            log.records += 1;
            if log.bytes.len() > LOG_LEN {
                return Ok(Log { torn: None, ..log });
            }
            // Of each in turn, so that what is left is the last one's.
            log.torn = Torn::of(position, &file);
        }
        log.records -= usize::from(log.torn.is_some());
        Ok(log)
    }

    /// What the card hands to Recover as its checkpoint: nothing while the version is 0, else one of that version, the
    /// last sealed; where it has none of it, its newest, and where it has none at all, nothing. A torn one is none.
    pub fn checkpoint(&self, version: u64) -> Result<Vec<u8>, Fault> {
        if version == 0 {
            return Ok(Vec::new());
        }
        let Some(folder) = readable(self.dir.folder(CHECKPOINTS))?.flatten() else { return Ok(Vec::new()) };
        let mut best: Option<((bool, u64, u64), OsString)> = None;
        let listed = folder.names(|name| {
            if !is_checkpoint(&folder, name) {
                return;
            }
            let Some((its, seal)) = head_of(&folder, name) else { return };
            let rank = (its == version, its, seal);
            if best.as_ref().is_none_or(|(other, _)| rank > *other) {
                best = Some((rank, name.to_os_string()));
            }
        })?;
        whole(&folder, listed)?;
        let Some((_, name)) = best else { return Ok(Vec::new()) };
        // A byte more than a checkpoint has: what is longer is read as too long. It may have become shorter since.
        let bytes = folder.read(&name, FILE_LEN + 1)?;
        Ok(bytes.filter(|bytes| bytes.len() >= FILE_LEN).unwrap_or_default())
    }

    /// How many records and checkpoints it holds, and whether there is a torn record behind them.
    pub fn held(&self) -> Result<Held, Fault> {
        let (mut records, mut torn) = (0, None);
        if let Some(generation) = readable(self.generation())? {
            let positions = self.positions(generation)?;
            torn = positions.last().and_then(|&last| self.torn_at(generation, last));
            records = positions.len() - usize::from(torn.is_some());
        }
        let mut checkpoints = 0;
        if let Some(folder) = readable(self.dir.folder(CHECKPOINTS))?.flatten() {
            let listed = folder.names(|name| checkpoints += usize::from(is_checkpoint(&folder, name)))?;
            whole(&folder, listed)?;
        }
        Ok(Held { records, torn, checkpoints })
    }

    /// The last record of a generation, if it is torn. One that cannot be read is not known to be.
    fn torn_at(&self, generation: u64, last: u64) -> Option<Torn> {
        let records = self.folder_of(generation).ok()??;
        Torn::of(last, &records.read(name_of(last), RECORD_LEN).ok()??)
    }

    /// Copies to a folder that is not there yet what a start with this S would be handed. The copy has its name once it is
    /// complete, and is on the disk.
    pub fn copy_to(&self, folder: &Path, s: u64) -> Result<(), Fault> {
        let (above, name) = files::place(folder)?;
        if above.has(name) {
            return Err(Fault::damaged(folder, files::TAKEN_NAME));
        }
        // A name of its own until it is complete; what a cut leaves of it is in nobody's way.
        let unfinished = format!(".{}.{}.new", name.to_string_lossy(), std::process::id());
        let copy = || -> Result<(), Fault> {
            self.copy_files(&Card::create(&folder.with_file_name(&unfinished), self.disk)?, s)?;
            above.rename(&unfinished, name).map_err(Fault::unusable(folder))?;
            above.settle(self.disk)
        };
        copy().map_err(|fault| {
            let _ = std::fs::remove_dir_all(folder.with_file_name(&unfinished));
            fault.or_full(folder, "copy the card to a larger one")
        })
    }

    /// Copies the records of the generation in force, `log`, and the checkpoint.
    fn copy_files(&self, copy: &Card, s: u64) -> Result<(), Fault> {
        if let Some(generation) = readable(self.generation())? {
            self.copy_records(copy, generation)?;
            files::put(&copy.dir, LOG, &log_line(generation), FILE_MODE, copy.disk)?;
        }
        let checkpoint = self.checkpoint(s)?;
        if !checkpoint.is_empty() {
            copy.write_checkpoint(&checkpoint)?;
        }
        copy.dir.settle(copy.disk)
    }

    /// Copies a generation's records, or as many as are too long for any log.
    fn copy_records(&self, copy: &Card, generation: u64) -> Result<(), Fault> {
        let Some(from) = readable(self.folder_of(generation))?.flatten() else { return Ok(()) };
        let to = copy.ensure(&records_name(generation))?;
        let mut room = LOG_LEN + 1;
        for position in self.positions(generation)? {
            let bytes = from.read(name_of(position), room)?.unwrap_or_default();
            files::put(&to, &name_of(position), &bytes, FILE_MODE, copy.disk)?;
            room -= bytes.len();
            if room == 0 {
                break;
            }
        }
        to.settle(copy.disk)
    }

    /// The generation in force.
    fn generation(&self) -> Result<u64, Fault> {
        let Some(bytes) = self.dir.read(LOG, 64)? else { return Ok(0) };
        let text = String::from_utf8_lossy(&bytes);
        let number = text.strip_prefix(GENERATION).and_then(|rest| rest.strip_suffix('\n')?.parse().ok());
        number.ok_or_else(|| Fault::damaged(&self.folder().join(LOG), "damaged, it names no generation"))
    }

    /// The folder of a generation's records, if there is one.
    fn folder_of(&self, generation: u64) -> Result<Option<Dir>, Fault> {
        self.dir.folder(records_name(generation))
    }

    /// The positions of a generation's records, in order.
    fn positions(&self, generation: u64) -> Result<Vec<u64>, Fault> {
        let mut positions = Vec::new();
        if let Some(records) = readable(self.folder_of(generation))?.flatten() {
            let listed = records.names(|name| positions.extend(name.to_str().and_then(position_of)))?;
            whole(&records, listed)?;
        }
        positions.sort_unstable();
        Ok(positions)
    }

    /// Makes a new generation with the kept records of the one in force, puts it in force, and sweeps the others.
    fn switch(&self, from: u64, kept: &[u64]) -> Result<(), Fault> {
        let (next, new) = self.next_generation(from)?;
        if !kept.is_empty()
            && let Some(old) = readable(self.folder_of(from))?.flatten()
        {
            self.keep(&old, &new, kept)?;
        }
        files::replace(&self.dir, LOG, &log_line(next), FILE_MODE, self.disk)?;
        // The store is done. What cannot be swept now is read by nobody, and is tried again the next time.
        self.sweep_generations(next);
        Ok(())
    }

    /// Puts records of one generation's folder into another's, and brings them to the disk.
    fn keep(&self, old: &Dir, new: &Dir, kept: &[u64]) -> Result<(), Fault> {
        for &position in kept {
            let name = name_of(position);
            // A second name for the same file; a copy where the card's file system has no second names.
            if old.link(&name, new).is_err()
                && let Some(bytes) = readable(old.read(&name, LOG_LEN))?.flatten()
            {
                files::put(new, &name, &bytes, FILE_MODE, self.disk)?;
            }
        }
        new.settle(self.disk)
    }

    /// A new folder of records behind a generation: the first name that is not taken.
    fn next_generation(&self, from: u64) -> Result<(u64, Dir), Fault> {
        let mut next = from;
        for _ in 0..=MOST_NAMES {
            next = next.wrapping_add(1);
            let name = records_name(next);
            match self.dir.make(&name, FOLDER_MODE) {
                Ok(()) => {
                    self.dir.settle(self.disk)?;
                    return Ok((next, self.ensure(&name)?));
                }
                Err(error) if error.kind() == io::ErrorKind::AlreadyExists => {}
                Err(error) => return Err(Fault::unusable(&self.folder().join(name))(error)),
            }
        }
        Err(Fault::damaged(self.folder(), TOO_MANY))
    }

    /// Removes all records that are not of a generation, and what a cut left of a store.
    fn sweep_generations(&self, in_force: u64) {
        remove_some(&self.dir, MOST_REMOVED, files::is_unfinished);
        let mut found = Vec::new();
        let _ = self.dir.names(|name| found.extend(generation_of(name).filter(|_| found.len() < MOST_REMOVED)));
        let mut left = MOST_REMOVED;
        for generation in found {
            let all = generation != in_force;
            if let Ok(Some(folder)) = self.folder_of(generation) {
                left -= remove_some(&folder, left, |name| all || files::is_unfinished(name));
            }
            if all {
                let _ = self.dir.remove(records_name(generation));
            }
        }
    }

    /// A folder that is there from now on. What has its name and is no folder is removed.
    fn ensure(&self, name: &str) -> Result<Dir, Fault> {
        if let Some(folder) = readable(self.dir.folder(name))?.flatten() {
            return Ok(folder);
        }
        let path = self.folder().join(name);
        let make = || self.dir.clear(name).and_then(|()| self.dir.make(name, FOLDER_MODE));
        make().map_err(Fault::unusable(&path))?;
        self.dir.settle(self.disk)?;
        self.dir.folder(name)?.ok_or_else(|| Fault::missing(&path))
    }
}

/// What can be read; a damaged thing is none, and only a card that cannot be read at all is a fault.
fn readable<T>(found: Result<T, Fault>) -> Result<Option<T>, Fault> {
    match found {
        Ok(found) => Ok(Some(found)),
        Err(Fault::Damaged { .. }) => Ok(None),
        Err(fault) => Err(fault),
    }
}

/// A folder with more names than are looked at is no card's.
fn whole(folder: &Dir, listed: Listed) -> Result<(), Fault> {
    match listed {
        Listed::Whole => Ok(()),
        Listed::Part => Err(Fault::damaged(folder.path(), TOO_MANY)),
    }
}

/// What a generation's folder is called.
fn records_name(generation: u64) -> String {
    format!("{RECORDS}{generation}")
}

/// The generation that a folder is called by.
fn generation_of(name: &OsStr) -> Option<u64> {
    let number = name.to_str()?.strip_prefix(RECORDS)?.parse().ok()?;
    (*name == *records_name(number)).then_some(number)
}

/// What `log` has in it.
fn log_line(generation: u64) -> Vec<u8> {
    format!("{GENERATION}{generation}\n").into_bytes()
}

/// A number in 20 digits.
fn name_of(position: u64) -> String {
    format!("{position:020}")
}

/// The position that a file is named by.
fn position_of(name: &str) -> Option<u64> {
    let digits = name.len() == 20 && name.bytes().all(|b| b.is_ascii_digit());
    digits.then(|| name.parse().ok()).flatten()
}

/// The first bytes of something that is written, or all.
fn beginning(bytes: &[u8], left: usize) -> &[u8] {
    bytes.get(..left).unwrap_or(bytes)
}

/// How many bytes a record has, by a head with a legal kind, lane and n.
fn whole_record(head: &[u8; HEAD_LEN]) -> Option<usize> {
    let [kind, lane, low, high, ..] = *head;
    let n = usize::from(u16::from_le_bytes([low, high]));
    let whole_writes = (ONE_WRITE_LEN..=TRANSACTION_LEN).contains(&n) && (n - STAMP_LEN).is_multiple_of(WRITE_LEN);
    (kind == RECORD_KIND && usize::from(lane) < LANES && whole_writes).then_some(n + SEAL_LEN)
}

/// What a checkpoint's file is called.
fn checkpoint_name(version: u64, seal: u64) -> String {
    format!("{}-{}", name_of(version), name_of(seal))
}

/// Whether a name is one that `checkpoint_name` gives.
fn is_checkpoint_name(name: &OsStr) -> bool {
    let parts = name.to_str().and_then(|name| name.split_once('-'));
    parts.is_some_and(|(version, seal)| position_of(version).is_some() && position_of(seal).is_some())
}

/// Whether a name among the checkpoints is that of one, whatever it is called: a file that is long enough. Names that begin
/// with a dot are none's.
fn is_checkpoint(folder: &Dir, name: &OsStr) -> bool {
    !name.as_encoded_bytes().starts_with(b".") && folder.length(name).is_some_and(|len| len >= FILE_LEN as u64)
}

/// Whether a file is shorter than a checkpoint.
fn is_short(folder: &Dir, name: &OsStr) -> bool {
    folder.length(name).is_some_and(|len| len < FILE_LEN as u64)
}

/// Version and seal number in a checkpoint's head.
fn head(bytes: &[u8]) -> Option<(u64, u64)> {
    let number = |from: usize| Some(u64::from_le_bytes(bytes.get(from..from + 8)?.try_into().ok()?));
    Some((number(4)?, number(12)?))
}

/// Version and seal number of a checkpoint's file; nothing for one without a head, or for what is no file.
fn head_of(folder: &Dir, name: &OsStr) -> Option<(u64, u64)> {
    let mut bytes = [0; HEAD_LEN];
    let len = folder.read_into(name, &mut bytes).ok()??;
    bytes.get(..len).and_then(head)
}

/// Removes those of a folder's files that are told by their name and by the version and seal number in their head.
fn remove_where(folder: &Dir, gone: impl Fn(&OsStr, Option<(u64, u64)>) -> bool) {
    remove_some(folder, MOST_REMOVED, |name| gone(name, head_of(folder, name)));
}

/// Removes those of a folder's names that are told, up to a number of them. How many.
fn remove_some(folder: &Dir, most: usize, gone: impl Fn(&OsStr) -> bool) -> usize {
    let mut found: Vec<OsString> = Vec::new();
    let _ = folder.names(|name| {
        if found.len() < most && gone(name) {
            found.push(name.to_os_string());
        }
    });
    for name in &found {
        let _ = folder.remove(name);
    }
    found.len()
}

#[cfg(test)]
mod tests {
    use std::fs;
    use std::path::PathBuf;

    use super::*;
    use crate::files::power::cut_everywhere;
    use crate::files::scratch::Scratch;
    use crate::limits::WRITES;

    /// The longest record's bytes, as far as the card looks at them, with a kind, a lane and an n in the head.
    fn with_head(kind: u8, lane: u8, n: usize) -> Vec<u8> {
        let mut bytes = vec![kind, lane];
        bytes.extend((n as u16).to_le_bytes());
        bytes.resize(RECORD_LEN, 7);
        bytes
    }

    /// A record with so many writes, of the same kind.
    fn record(writes: usize) -> Vec<u8> {
        let n = STAMP_LEN + writes * WRITE_LEN;
        with_head(RECORD_KIND, 3, n)[..n + SEAL_LEN].to_vec()
    }

    fn file(version: u64, seal: u64) -> Vec<u8> {
        let mut bytes = vec![2, 0, 0, 0];
        bytes.extend(version.to_le_bytes());
        bytes.extend(seal.to_le_bytes());
        bytes.resize(FILE_LEN, 0);
        bytes
    }

    /// Where the records of a generation are.
    fn records(card: &Card, generation: u64) -> PathBuf {
        card.folder().join(records_name(generation))
    }

    /// What a folder has in it, in order.
    fn names(folder: &Path) -> Vec<String> {
        let entries = fs::read_dir(folder).expect("there");
        let mut names: Vec<String> =
            entries.map(|entry| entry.expect("read").file_name().to_string_lossy().into_owned()).collect();
        names.sort();
        names
    }

    #[test]
    fn records_are_handed_over_in_order_of_position() {
        let scratch = Scratch::new();
        let card = Card::create(&scratch.path().join("card"), Disk::Wait).expect("made");
        for position in [10, 9, 200, u64::MAX] {
            card.write_record(position, &[position as u8]).expect("written");
        }
        assert_eq!(card.log().expect("read").bytes, [9, 10, 200, 255]);
        assert_eq!(card.read_record(10).expect("read"), [10]);
        card.delete_below(10).expect("deleted");
        assert_eq!(card.log().expect("read").bytes, [10, 200, 255]);
        card.write_record(3, &[3]).expect("written");
        assert_eq!(card.log().expect("read").bytes, [3, 10, 200, 255]);
        card.empty().expect("emptied");
        assert_eq!(card.log().expect("read").bytes, []);
        card.write_record(0, &record(1)).expect("written");
        assert_eq!(card.held().expect("read"), Held { records: 1, torn: None, checkpoints: 0 });
    }

    #[test]
    fn a_torn_record_is_handed_over_as_it_is_found() {
        let scratch = Scratch::new();
        let card = Card::create(&scratch.path().join("card"), Disk::Quick).expect("made");
        card.write_record(4, &record(2)).expect("written");
        for writes in [1, WRITES] {
            let whole = record(writes);
            for left in 0..=whole.len() + 1 {
                card.tear_record(7, &whole, left).expect("torn");
                let part = whole.get(..left).unwrap_or(&whole);
                let torn = (left < whole.len()).then(|| {
                    let said = (left >= HEAD_LEN).then_some(whole.len());
                    Torn { position: 7, bytes: left, whole: said }
                });
                let records = if torn.is_some() { 1 } else { 2 };
                assert_eq!(card.held().expect("read"), Held { records, torn, checkpoints: 0 });
                let log = card.log().expect("read");
                assert_eq!((log.bytes, log.records, log.torn), ([&record(2), part].concat(), records, torn));
                assert_eq!(card.read_record(7).expect("read"), part);
            }
            // So does a copy, and what stays behind a deletion.
            card.tear_record(7, &whole, 33).expect("torn");
            let copy = scratch.path().join(format!("copy-{writes}"));
            card.copy_to(&copy, 0).expect("copied");
            let copy = Card::open(&copy, Disk::Quick).expect("there");
            assert_eq!(copy.log().expect("read").bytes, [&record(2), &whole[..33]].concat());
            copy.delete_below(5).expect("deleted");
            assert_eq!(copy.log().expect("read").bytes, whole[..33]);
            copy.empty().expect("emptied");
            assert_eq!(copy.held().expect("read"), Held { records: 0, torn: None, checkpoints: 0 });
        }
    }

    #[test]
    fn what_is_no_torn_record() {
        let scratch = Scratch::new();
        let card = Card::create(&scratch.path().join("card"), Disk::Quick).expect("made");
        let torn = |bytes: &[u8]| {
            card.write_record(9, bytes).expect("written");
            card.held().expect("read").torn
        };
        let legal: Vec<usize> = (1..=WRITES).map(|writes| STAMP_LEN + writes * WRITE_LEN).collect();
        for n in 0..=usize::from(u16::MAX) {
            assert_eq!(torn_length(n), legal.contains(&n).then_some(n + SEAL_LEN), "n {n}");
        }
        for (kind, lane) in [(0, 3), (2, 3), (255, 3), (1, 8), (1, 255)] {
            // Whatever it is, it may be the beginning of a head.
            assert!(torn(&with_head(kind, lane, 16)[..HEAD_LEN - 1]).is_some());
            assert_eq!(torn(&with_head(kind, lane, 16)[..HEAD_LEN]), None, "kind {kind}, lane {lane}");
        }
        assert!((0..LANES as u8).all(|lane| torn(&with_head(1, lane, 16)[..HEAD_LEN]).is_some()));
        // Longer than its head says, or with a file behind it.
        assert_eq!(torn(&[record(1), vec![0]].concat()), None);
        assert!(torn(&record(1)[..30]).is_some());
        card.write_record(10, &record(1)).expect("written");
        assert_eq!(card.held().expect("read"), Held { records: 2, torn: None, checkpoints: 0 });
        assert_eq!(card.log().expect("read").torn, None);
        // What is no file, and what no log has room for.
        fs::create_dir(records(&card, 0).join(name_of(11))).expect("made");
        assert_eq!(card.held().expect("read"), Held { records: 3, torn: None, checkpoints: 0 });
        fs::remove_dir(records(&card, 0).join(name_of(11))).expect("removed");
        fs::write(records(&card, 0).join(name_of(0)), vec![0; LOG_LEN]).expect("written");
        assert_eq!(card.log().expect("read").torn, None);
    }

    /// How many bytes a record has whose head has this n.
    fn torn_length(n: usize) -> Option<usize> {
        Torn::of(0, &with_head(RECORD_KIND, 7, n)[..HEAD_LEN]).and_then(|torn| torn.whole)
    }

    #[test]
    fn a_deletion_cut_before_its_rename_is_not_done() {
        let scratch = Scratch::new();
        let card = Card::create(&scratch.path().join("card"), Disk::Quick).expect("made");
        card.write_record(1, &[1]).expect("written");
        // What a cut leaves: the next generation half filled, and the temporary file of `log`.
        fs::create_dir(records(&card, 1)).expect("made");
        fs::write(records(&card, 1).join(name_of(7)), [7]).expect("written");
        fs::write(card.folder().join(".log.new"), "generation 1\n").expect("written");
        assert_eq!(card.log().expect("read").bytes, [1]);
        card.delete_below(1).expect("deleted");
        assert_eq!(card.log().expect("read").bytes, [1]);
        assert_eq!(names(card.folder()), ["log", "records.2"]);
    }

    #[test]
    fn the_checkpoint_of_a_version() {
        let scratch = Scratch::new();
        let card = Card::create(&scratch.path().join("card"), Disk::Quick).expect("made");
        assert_eq!(card.checkpoint(3).expect("read"), []);
        for (version, seal) in [(3, 5), (3, 4), (4, 6)] {
            card.write_checkpoint(&file(version, seal)).expect("written");
        }
        assert_eq!(card.checkpoint(0).expect("read"), []);
        assert_eq!(card.checkpoint(3).expect("read"), file(3, 5));
        assert_eq!(card.checkpoint(9).expect("read"), file(4, 6));
    }

    #[test]
    fn checkpoints_that_nobody_asks_for_go() {
        let scratch = Scratch::new();
        let card = Card::create(&scratch.path().join("card"), Disk::Quick).expect("made");
        let folder = card.folder().join(CHECKPOINTS);
        for (version, seal) in [(3, 5), (4, 6), (4, 7), (5, 8)] {
            card.write_checkpoint(&file(version, seal)).expect("written");
        }
        assert_eq!(names(&folder).len(), 3);
        fs::write(folder.join(".left-over.new"), []).expect("written");
        fs::write(folder.join("no checkpoint"), [9; HEAD_LEN - 1]).expect("written");
        card.sweep(4);
        assert_eq!(names(&folder).len(), 3);
        assert_eq!(card.checkpoint(4).expect("read"), file(4, 7));
        card.sweep(5);
        assert_eq!(card.checkpoint(4).expect("read"), file(5, 8));
        assert_eq!(names(&folder).len(), 2);
    }

    #[test]
    fn a_torn_checkpoint_is_none() {
        let scratch = Scratch::new();
        let card = Card::create(&scratch.path().join("card"), Disk::Quick).expect("made");
        let whole = card.folder().join(CHECKPOINTS).join(checkpoint_name(3, 5));
        let lengths = (0..FILE_LEN).filter(|left| *left <= 2 * HEAD_LEN || left % 61 == 0 || left + 1 == FILE_LEN);
        for left in lengths {
            card.tear_checkpoint(&file(3, 6), left).expect("torn");
            assert_eq!(card.checkpoint(3).expect("read"), [], "{left} bytes alone");
            assert_eq!(card.held().expect("read").checkpoints, 0);
            fs::write(&whole, file(3, 5)).expect("written");
            assert_eq!(card.checkpoint(3).expect("read"), file(3, 5), "{left} bytes beside a whole one");
            assert_eq!(card.held().expect("read").checkpoints, 1);
            fs::remove_file(&whole).expect("removed");
        }
        // One of another version comes before it too, and one that is too long is read as such.
        card.write_checkpoint(&file(2, 4)).expect("written");
        assert_eq!(card.checkpoint(3).expect("read"), file(2, 4));
        card.tear_checkpoint(&file(3, 6), FILE_LEN).expect("written");
        assert_eq!(card.checkpoint(3).expect("read"), file(3, 6));
        let long = [file(3, 7), vec![0; 9]].concat();
        card.tear_checkpoint(&long, usize::MAX).expect("written");
        assert_eq!(card.checkpoint(3).expect("read"), long[..FILE_LEN + 1]);
        assert_eq!(card.held().expect("read").checkpoints, 3);
    }

    #[test]
    fn no_whole_checkpoint_goes_for_a_torn_one() {
        let scratch = Scratch::new();
        let card = Card::create(&scratch.path().join("card"), Disk::Quick).expect("made");
        let folder = card.folder().join(CHECKPOINTS);
        for left in [0, 1, HEAD_LEN - 1, HEAD_LEN, HEAD_LEN + 1, FILE_LEN - 1] {
            card.write_checkpoint(&file(3, 5)).expect("written");
            card.tear_checkpoint(&file(3, 6), left).expect("torn");
            card.tear_checkpoint(&file(4, 7), left).expect("torn");
            card.write_checkpoint(&file(3, 8)[..left]).expect("written");
            assert_eq!(card.checkpoint(3).expect("read"), file(3, 5), "{left} bytes");
            // The torn ones go; a copy has none of them.
            let copy = scratch.path().join(format!("copy-{left}"));
            card.copy_to(&copy, 3).expect("copied");
            card.sweep(3);
            for folder in [&folder, &copy.join(CHECKPOINTS)] {
                assert_eq!(names(folder), [checkpoint_name(3, 5)], "{left} bytes");
            }
        }
        // What is short and never was a checkpoint's is not the host's.
        fs::write(folder.join("a note"), "short").expect("written");
        card.sweep(3);
        assert_eq!(names(&folder), [checkpoint_name(3, 5), "a note".to_string()]);
    }

    /// A card with records and a checkpoint, and what a recovery would see of it.
    fn cut(store: impl Fn(&Card) -> Result<(), Fault>) -> u32 {
        let scratch = Scratch::new();
        let folder = scratch.path().join("card");
        let prepare = || {
            let _ = fs::remove_dir_all(&folder);
            let card = Card::create(&folder, Disk::Quick).expect("made");
            for position in 4..9 {
                card.write_record(position, &[position as u8; 50]).expect("written");
            }
            card.write_checkpoint(&file(1, 1)).expect("written");
            card
        };
        let see = |card: &Card| {
            let checkpoints = [1, 2].map(|version| card.checkpoint(version).expect("read"));
            (card.log().expect("read").bytes, checkpoints.map(|bytes| head(&bytes)))
        };
        cut_everywhere(prepare, |card: &mut Card| store(card), see)
    }

    #[test]
    fn every_store_is_wholly_done_or_not() {
        assert!(cut(|card| card.write_record(9, &[9; 99])) >= 3);
        assert!(cut(|card| card.write_checkpoint(&file(2, 2))) >= 3);
        assert!(cut(|card| card.delete_below(6)) >= 7);
        assert!(cut(|card| card.delete_below(100)) >= 4);
        assert!(cut(|card| card.empty()) >= 4);
    }

    #[test]
    fn odd_cards_are_read() {
        let scratch = Scratch::new();
        let card = Card::create(&scratch.path().join("card"), Disk::Quick).expect("made");
        card.write_record(1, &[1]).expect("written");
        fs::write(card.folder().join(LOG), "generation x\n").expect("written");
        assert_eq!(card.log().expect("read").records, 0);
        assert!(card.write_record(2, &[2]).is_err());
        card.empty().expect("emptied");
        card.write_record(2, &[2]).expect("written");
        assert_eq!(card.log().expect("read").bytes, [2]);
        let generation = card.generation().expect("read");
        fs::write(records(&card, generation).join(name_of(5)), vec![5; LOG_LEN + 9]).expect("written");
        assert_eq!(card.log().expect("read").bytes.len(), LOG_LEN + 1);
        // The last generation of all: the first comes behind it.
        fs::write(card.folder().join(LOG), format!("generation {}\n", u64::MAX)).expect("written");
        card.empty().expect("emptied");
        assert_eq!(names(card.folder()), ["log", "records.0"]);
    }
}
