//! A collector in safe Rust.
//!
//! A call is taken or refused. A taken call names at most one store, which the host carries out before the next call; a
//! refused one leaves the state and the lent buffers as they were. After a cut the host loads again, with the vault's
//! own numbers.

use std::fmt;

pub use crate::ffi::Vault as Numbers;
use crate::limits::METERS;
use crate::{ffi, secret, words};

/// A store that the host has to carry out before the next call.
#[derive(Clone, Copy, Debug, PartialEq, Eq)]
pub enum Store {
    /// Set the vault's W of a lane.
    W { lane: u8, value: u64 },
    /// Set the vault's V of a lane.
    V { lane: u8, value: u64 },
    /// Set the vault's R of a lane.
    R { lane: u8, value: u64 },
    /// Set the vault's epoch.
    E { value: u64 },
    /// Set the vault's checkpoint version.
    S { value: u64 },
    /// Set the vault's checkpoint seal number.
    N { value: u64 },
    /// Write the record that stands at the start of the lent buffer to this position of the card.
    Record { position: u64 },
    /// Write the checkpoint file that stands at the start of the lent buffer to the card.
    Checkpoint,
    /// Delete the card's records below this position.
    Delete { below: u64 },
    /// Delete all of the card's records.
    Empty,
}

impl fmt::Display for Store {
    fn fmt(&self, to: &mut fmt::Formatter) -> fmt::Result {
        match self {
            Store::W { lane, value } => write!(to, "W of lane {lane} = {value}"),
            Store::V { lane, value } => write!(to, "V of lane {lane} = {value}"),
            Store::R { lane, value } => write!(to, "R of lane {lane} = {value}"),
            Store::E { value } => write!(to, "E = {value}"),
            Store::S { value } => write!(to, "S = {value}"),
            Store::N { value } => write!(to, "N = {value}"),
            Store::Record { position } => write!(to, "the record at position {position}"),
            Store::Checkpoint => write!(to, "the checkpoint file"),
            Store::Delete { below } => write!(to, "deleting the records below {below}"),
            Store::Empty => write!(to, "emptying the log"),
        }
    }
}

/// What a taken call says.
#[derive(Clone, Copy, Debug, PartialEq, Eq)]
pub struct Taken {
    /// The store to carry out before the next call.
    pub store: Option<Store>,
    /// Bytes put out at the start of the lent buffer.
    pub len: usize,
}

/// Why a call was refused: the number on the display, and the value returned with it (0 where there is none).
#[derive(Clone, Copy, Debug, PartialEq, Eq)]
pub struct Refusal {
    /// 1 to 19; 16 and 17 are those of `from_bus` alone, 18 and 19 those of `heat_split`.
    pub number: u8,
    /// 3: the length needed or allowed; 9, 10, 11: an offset; 13: a lane.
    pub value: u64,
}

impl Refusal {
    /// What the value returned with the number is, in words; nothing where there is none.
    fn detail(&self) -> Option<String> {
        match self.number {
            3 => Some(format!("length {}", self.value)),
            9..=11 => Some(format!("byte {}", self.value)),
            13 => Some(format!("lane {}", self.value)),
            _ => None,
        }
    }
}

/// The number, with what it means and what to do.
impl fmt::Display for Refusal {
    fn fmt(&self, to: &mut fmt::Formatter) -> fmt::Result {
        write!(to, "{}", self.number)?;
        if let Some(detail) = self.detail() {
            write!(to, " ({detail})")?;
        }
        match words::sentence(self.number) {
            Some(sentence) => write!(to, ", {}. {}", sentence.means, sentence.then),
            None => Ok(()),
        }
    }
}

impl std::error::Error for Refusal {}

/// A collector's condition.
#[derive(Clone, Copy, Debug, PartialEq, Eq)]
pub enum Phase {
    /// Loaded; only Recover (or another Load) is taken.
    Cold = 1,
    /// Recovery was accepted and has stores left.
    Recovering,
    /// Open for everything but Recover.
    InService,
}

/// The store that is due, if any; only the call that names it, or a Load, is taken.
#[derive(Clone, Copy, Debug, PartialEq, Eq)]
pub enum Due {
    /// Nothing.
    Nothing,
    /// Seal's record.
    Record,
    /// Checkpoint's file.
    File,
    /// Checkpoint's S.
    Version,
    /// Truncate's R of a lane, of the point at this position.
    TruncateR { lane: u8, position: u64 },
    /// Truncate's deletion.
    TruncateDelete { position: u64 },
    /// Recover's first or second file.
    RecoverFile { second: bool },
    /// Recover's first or second S.
    RecoverVersion { second: bool },
    /// Recover's second N.
    RecoverSeal,
    /// Recover's R of a lane.
    RecoverR { lane: u8 },
    /// Recover's epoch.
    RecoverEpoch,
    /// Recover's V of a lane.
    RecoverV { lane: u8 },
    /// Recover's emptying of the log.
    RecoverEmpty,
}

impl fmt::Display for Phase {
    fn fmt(&self, to: &mut fmt::Formatter) -> fmt::Result {
        to.write_str(match self {
            Phase::Cold => "cold",
            Phase::Recovering => "recovering",
            Phase::InService => "in service",
        })
    }
}

impl fmt::Display for Due {
    fn fmt(&self, to: &mut fmt::Formatter) -> fmt::Result {
        match self {
            Due::Nothing => write!(to, "nothing"),
            Due::Record => write!(to, "the record"),
            Due::File => write!(to, "the checkpoint file"),
            Due::Version => write!(to, "S"),
            Due::TruncateR { lane, position } => write!(to, "R of lane {lane}, for the truncation at {position}"),
            Due::TruncateDelete { position } => write!(to, "deleting the records below {position}"),
            Due::RecoverFile { second: false } => write!(to, "recovery's first checkpoint file"),
            Due::RecoverFile { second: true } => write!(to, "recovery's second checkpoint file"),
            Due::RecoverVersion { second: false } => write!(to, "S, for recovery's first checkpoint"),
            Due::RecoverVersion { second: true } => write!(to, "S, for recovery's second checkpoint"),
            Due::RecoverSeal => write!(to, "N, for recovery's second checkpoint"),
            Due::RecoverR { lane } => write!(to, "R of lane {lane}, in recovery"),
            Due::RecoverEpoch => write!(to, "E, in recovery"),
            Due::RecoverV { lane } => write!(to, "V of lane {lane}, in recovery"),
            Due::RecoverEmpty => write!(to, "emptying the log, in recovery"),
        }
    }
}

impl Due {
    /// What the boundary's codes mean; nothing where they mean none.
    pub fn of(raw: &ffi::Due) -> Option<Due> {
        let ffi::Due { position, kind, lane, second } = *raw;
        let second = second == 1;
        Some(match kind {
            0 => Due::Nothing,
            1 => Due::Record,
            2 => Due::File,
            3 => Due::Version,
            4 => Due::TruncateR { lane, position },
            5 => Due::TruncateDelete { position },
            6 => Due::RecoverFile { second },
            7 => Due::RecoverVersion { second },
            8 => Due::RecoverSeal,
            9 => Due::RecoverR { lane },
            10 => Due::RecoverEpoch,
            11 => Due::RecoverV { lane },
            12 => Due::RecoverEmpty,
            _ => return None,
        })
    }
}

/// A meter's latest reading.
#[derive(Clone, Copy, Debug, PartialEq, Eq)]
pub struct Reading {
    /// Stamp of the transaction, in seconds.
    pub stamp: u64,
    /// Lane of the transaction.
    pub lane: u8,
    /// Number of the transaction in its lane.
    pub number: u64,
    /// 1 cold water, 2 warm water, 3 heat, 4 cooling.
    pub code: u8,
    /// What the meter shows.
    pub reading: i32,
}

/// As it stands in a state's table.
impl From<Reading> for ffi::Entry {
    fn from(reading: Reading) -> ffi::Entry {
        ffi::Entry {
            stamp: reading.stamp,
            number: reading.number,
            reading: reading.reading,
            code: reading.code,
            lane: reading.lane,
            present: 1,
        }
    }
}

/// A collector: the state that the library last returned. The key is in it, and is overwritten in memory when it is dropped.
#[derive(Clone, Debug)]
pub struct Collector {
    state: Box<ffi::State>,
}

impl Drop for Collector {
    fn drop(&mut self) {
        let state: *mut ffi::State = &mut *self.state;
        // SAFETY: the state's own bytes, of which all 0 is a state too.
        secret::wipe(unsafe { std::slice::from_raw_parts_mut(state.cast::<u8>(), size_of::<ffi::State>()) });
        // The calls were handed the state on the stack.
        secret::wipe_stack();
    }
}

// Each call hands the state over on the stack. These methods are never part of another function, so that such copies lie in
// frames that are gone when they return, and `secret::wipe_stack` gets at them.
impl Collector {
    /// Load: a cold collector from the vault's own numbers and the key. Names no store. Refuses with 2 and 3.
    #[inline(never)]
    pub fn load(numbers: &Numbers, key: &[u8]) -> Result<Collector, Refusal> {
        // SAFETY: the key's bytes are read for its length alone.
        let reply = unsafe { ffi::paviluko_load(*numbers, key.as_ptr(), key.len()) };
        said(&reply.said).map(|_| Collector { state: Box::new(reply.state) })
    }

    /// A collector in any state. For tests: a host has states from the library alone.
    pub fn from_state(state: &ffi::State) -> Collector {
        Collector { state: Box::new(*state) }
    }

    /// The state as the library last returned it.
    pub fn state(&self) -> &ffi::State {
        &self.state
    }

    /// Accept: holds a transaction for a lane and a position. Names W's store; the record is then due.
    /// Refuses with 1, 4, 5, 6, 7 and 8.
    #[inline(never)]
    pub fn accept(&mut self, transaction: &[u8], lane: u8, position: u64) -> Result<Taken, Refusal> {
        // SAFETY: the transaction's bytes are read for their length alone.
        let reply =
            unsafe { ffi::paviluko_accept(*self.state, transaction.as_ptr(), transaction.len(), lane, position) };
        self.take(&reply)
    }

    /// Seal: puts the held transaction's record out and names its store. Refuses with 1 and 3.
    #[inline(never)]
    pub fn seal(&mut self, out: &mut [u8]) -> Result<Taken, Refusal> {
        // SAFETY: the output is written within its length alone.
        let reply = unsafe { ffi::paviluko_seal(*self.state, out.as_mut_ptr(), out.len()) };
        self.take(&reply)
    }

    /// Commit: takes a record's bytes from the card into the table and names V's store. Refuses with 1, 9, 10 and 11.
    #[inline(never)]
    pub fn commit(&mut self, record: &[u8]) -> Result<Taken, Refusal> {
        // SAFETY: the record's bytes are read for their length alone.
        let reply = unsafe { ffi::paviluko_commit(*self.state, record.as_ptr(), record.len()) };
        self.take(&reply)
    }

    /// Point: sets a point at a position. Names no store. Refuses with 1, 6, 7 and 15.
    #[inline(never)]
    pub fn point(&mut self, position: u64) -> Result<Taken, Refusal> {
        // SAFETY: nothing is lent.
        let reply = unsafe { ffi::paviluko_point(*self.state, position) };
        self.take(&reply)
    }

    /// Checkpoint: in three calls the stores of N, of the file and of S. The second call puts the file out.
    /// Refuses with 1, 3 (second call) and 8 (first call).
    #[inline(never)]
    pub fn checkpoint(&mut self, out: &mut [u8]) -> Result<Taken, Refusal> {
        // SAFETY: the output is written within its length alone.
        let reply = unsafe { ffi::paviluko_checkpoint(*self.state, out.as_mut_ptr(), out.len()) };
        self.take(&reply)
    }

    /// Truncate: in nine calls the stores of R of each lane and the deletion. Refuses with 1 and 14 (first call).
    #[inline(never)]
    pub fn truncate(&mut self, position: u64) -> Result<Taken, Refusal> {
        // SAFETY: nothing is lent.
        let reply = unsafe { ffi::paviluko_truncate(*self.state, position) };
        self.take(&reply)
    }

    /// Recover: the first call reads the checkpoint and the log; 14 or 23 more name the stores left, and look at neither.
    /// The second and fifth calls put a file out. In service after the last.
    /// Refuses with 1, 3, and the first call with 8, 9, 10, 11, 12 and 13.
    #[inline(never)]
    pub fn recover(&mut self, checkpoint: &[u8], log: &[u8], out: &mut [u8]) -> Result<Taken, Refusal> {
        // SAFETY: checkpoint and log are read for their lengths alone, the output is written within its own.
        let reply = unsafe {
            ffi::paviluko_recover(
                *self.state,
                checkpoint.as_ptr(),
                checkpoint.len(),
                log.as_ptr(),
                log.len(),
                out.as_mut_ptr(),
                out.len(),
            )
        };
        self.take(&reply)
    }

    /// A meter's latest reading, if it has one.
    #[inline(never)]
    pub fn reading(&self, meter: u8) -> Option<Reading> {
        // SAFETY: nothing is lent.
        let entry = unsafe { ffi::paviluko_reading(*self.state, meter) };
        let ffi::Entry { stamp, number, reading, code, lane, present } = entry;
        (present == 1).then_some(Reading { stamp, lane, number, code, reading })
    }

    /// All meters with a reading, in order of meter.
    pub fn readings(&self) -> Vec<(u8, Reading)> {
        (0..METERS).filter_map(|m| self.reading(m as u8).map(|r| (m as u8, r))).collect()
    }

    /// The table in plain: the 6,144 bytes that a checkpoint has sealed, at the start of the output; those behind it stay. It is
    /// the table of any state, and none that a start has judged while the collector is cold. Names no store. Refuses with 3.
    #[inline(never)]
    pub fn plain_table(&self, out: &mut [u8]) -> Result<Taken, Refusal> {
        // SAFETY: the output is written within its length alone.
        let answer = unsafe { ffi::paviluko_plain_table(*self.state, out.as_mut_ptr(), out.len()) };
        said(&answer)
    }

    /// The 27 numbers in the state.
    #[inline(never)]
    pub fn numbers(&self) -> Numbers {
        // SAFETY: nothing is lent.
        unsafe { ffi::paviluko_numbers(*self.state) }
    }

    /// The collector's condition.
    #[inline(never)]
    pub fn phase(&self) -> Phase {
        // SAFETY: nothing is lent.
        match unsafe { ffi::paviluko_phase(*self.state) } {
            1 => Phase::Cold,
            2 => Phase::Recovering,
            _ => Phase::InService,
        }
    }

    /// The store that is due.
    #[inline(never)]
    pub fn due(&self) -> Due {
        // SAFETY: nothing is lent.
        let raw = unsafe { ffi::paviluko_due_store(*self.state) };
        Due::of(&raw).unwrap_or(Due::Nothing)
    }

    /// How many accepted records are listed: those at or above the newest point.
    #[inline(never)]
    pub fn records(&self) -> u64 {
        // SAFETY: nothing is lent.
        unsafe { ffi::paviluko_records(*self.state) }
    }

    /// How many points are kept.
    #[inline(never)]
    pub fn points(&self) -> u64 {
        // SAFETY: nothing is lent.
        unsafe { ffi::paviluko_points(*self.state) }
    }

    /// Keeps the state that a call returned, and says what the call says.
    fn take(&mut self, reply: &ffi::Reply) -> Result<Taken, Refusal> {
        *self.state = reply.state;
        said(&reply.said)
    }
}

/// The boundary's answer as a result.
pub(crate) fn said(said: &ffi::Said) -> Result<Taken, Refusal> {
    let ffi::Said { value, len, number, store, lane } = *said;
    if number != 0 {
        return Err(Refusal { number, value });
    }
    let store = match store {
        1 => Some(Store::W { lane, value }),
        2 => Some(Store::V { lane, value }),
        3 => Some(Store::R { lane, value }),
        4 => Some(Store::E { value }),
        5 => Some(Store::S { value }),
        6 => Some(Store::N { value }),
        7 => Some(Store::Record { position: value }),
        8 => Some(Store::Checkpoint),
        9 => Some(Store::Delete { below: value }),
        10 => Some(Store::Empty),
        _ => None,
    };
    Ok(Taken { store, len: len as usize })
}
