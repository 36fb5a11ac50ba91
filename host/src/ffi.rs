//! The C boundary, declared again: `include/paviluko.h` in Rust.
//!
//! Flags and codes are single bytes, as in C. The assertions below hold every size and every offset to those of the
//! header on x86-64; where one is wrong, this crate does not compile.

use std::fmt;

use crate::limits::{KEY_LEN, LANES, METERS, POINTS, RECORDS, TRANSACTION_LEN};

/// The vault's 27 numbers (`paviluko_vault`).
#[repr(C)]
#[derive(Clone, Copy, Debug, Default, PartialEq, Eq)]
pub struct Vault {
    /// Numbers handed out, by lane.
    pub w: [u64; LANES],
    /// Numbers visible, by lane.
    pub v: [u64; LANES],
    /// Numbers truncated, by lane.
    pub r: [u64; LANES],
    /// Epoch.
    pub e: u64,
    /// Checkpoint version.
    pub s: u64,
    /// Checkpoint seal number.
    pub n: u64,
}

/// A meter's latest reading (`paviluko_entry`); all zero where there is none.
#[repr(C)]
#[derive(Clone, Copy, Debug, Default, PartialEq, Eq)]
pub struct Entry {
    /// Stamp of the transaction, in seconds.
    pub stamp: u64,
    /// Number of the transaction in its lane.
    pub number: u64,
    /// What the meter shows.
    pub reading: i32,
    /// 1 cold water, 2 warm water, 3 heat, 4 cooling.
    pub code: u8,
    /// Lane of the transaction.
    pub lane: u8,
    /// 1 where the meter has a reading.
    pub present: u8,
}

/// The table of latest readings (`paviluko_table`).
#[repr(C)]
#[derive(Clone, Copy, Debug, PartialEq, Eq)]
pub struct Table {
    /// An entry for each meter.
    pub entries: [Entry; METERS],
}

/// Accepted records at or above the newest point, and the last position used (`paviluko_record_list`).
#[repr(C)]
#[derive(Clone, Copy, Debug, PartialEq, Eq)]
pub struct RecordList {
    /// Positions of the listed records, in order of acceptance.
    pub positions: [u64; RECORDS],
    /// Their lanes.
    pub lanes: [u8; RECORDS],
    /// How many are listed.
    pub count: usize,
    /// 1 once a position was used since service began.
    pub used: u8,
    /// That position, the last one.
    pub last: u64,
}

/// One point (`paviluko_point_item`).
#[repr(C)]
#[derive(Clone, Copy, Debug, Default, PartialEq, Eq)]
pub struct PointItem {
    /// Where it stands.
    pub position: u64,
    /// How many numbers of each lane lie below it.
    pub counts: [u64; LANES],
    /// 1 where a checkpoint covers it.
    pub covered: u8,
}

/// The points kept, and the newest one set (`paviluko_point_list`).
#[repr(C)]
#[derive(Clone, Copy, Debug, PartialEq, Eq)]
pub struct PointList {
    /// The points, oldest first.
    pub items: [PointItem; POINTS],
    /// How many are kept.
    pub count: usize,
    /// 1 once a point was set since service began.
    pub any: u8,
    /// The greatest one set, even if dropped.
    pub newest: u64,
}

/// The transaction accepted last (`paviluko_held`).
#[repr(C)]
#[derive(Clone, Copy, Debug, PartialEq, Eq)]
pub struct Held {
    /// Its bytes, from the start.
    pub text: [u8; TRANSACTION_LEN],
    /// How many they are.
    pub len: usize,
    /// Its lane.
    pub lane: u8,
    /// Its record's position.
    pub position: u64,
}

/// The store that is due (`paviluko_due`): a kind, and what that kind needs; the rest is 0.
#[repr(C)]
#[derive(Clone, Copy, Debug, Default, PartialEq, Eq)]
pub struct Due {
    /// The point of a truncation (kinds 4 and 5).
    pub position: u64,
    /// 0 nothing, 1 record, 2 file, 3 version, 4 truncation's R, 5 truncation's deletion, 6 recovery's file, 7 its
    /// version, 8 its seal number, 9 its R, 10 its epoch, 11 its V, 12 its emptying of the log.
    pub kind: u8,
    /// The lane (kinds 4, 9 and 11).
    pub lane: u8,
    /// 1 for the second checkpoint of a recovery (kinds 6 and 7).
    pub second: u8,
}

/// A collector's whole state (`paviluko_state`).
#[repr(C)]
#[derive(Clone, Copy, PartialEq, Eq)]
pub struct State {
    /// The vault's numbers, with those that the named store sets.
    pub vault: Vault,
    /// The store that is due.
    pub due: Due,
    /// Latest readings.
    pub table: Table,
    /// Accepted records.
    pub journal: RecordList,
    /// Points.
    pub points: PointList,
    /// The transaction held between Accept and Seal.
    pub held: Held,
    /// The key.
    pub key: [u8; KEY_LEN],
    /// 1 cold, 2 recovering, 3 in service; so zeros are no state.
    pub phase: u8,
}

/// Without the key.
impl fmt::Debug for State {
    fn fmt(&self, to: &mut fmt::Formatter) -> fmt::Result {
        let State { vault, due, table, journal, points, held, key: _, phase } = self;
        let mut all = to.debug_struct("State");
        all.field("phase", phase).field("vault", vault).field("due", due).field("journal", journal);
        all.field("points", points).field("held", held).field("table", table).finish_non_exhaustive()
    }
}

/// What a call says (`paviluko_said`).
#[repr(C)]
#[derive(Clone, Copy, Debug, Default, PartialEq, Eq)]
pub struct Said {
    /// The named store's value; of a refusal the value that goes with its number.
    pub value: u64,
    /// Bytes put out at the start of the lent buffer.
    pub len: u64,
    /// 0 taken, else the number on the display.
    pub number: u8,
    /// 0 none, 1 W, 2 V, 3 R, 4 E, 5 S, 6 N, 7 record, 8 checkpoint file, 9 delete, 10 empty.
    pub store: u8,
    /// The named store's lane.
    pub lane: u8,
}

/// A call's answer: the next state, and what the call says (`paviluko_reply`).
#[repr(C)]
#[derive(Clone, Copy, Debug, PartialEq, Eq)]
pub struct Reply {
    /// The state to hand to the next call.
    pub state: State,
    /// What the call says.
    pub said: Said,
}

unsafe extern "C" {
    pub fn paviluko_edition() -> u64;
    pub fn paviluko_load(x: Vault, key: *const u8, key_len: usize) -> Reply;
    pub fn paviluko_accept(s: State, transaction: *const u8, len: usize, lane: u8, position: u64) -> Reply;
    pub fn paviluko_seal(s: State, out: *mut u8, room: usize) -> Reply;
    pub fn paviluko_commit(s: State, record: *const u8, len: usize) -> Reply;
    pub fn paviluko_point(s: State, position: u64) -> Reply;
    pub fn paviluko_checkpoint(s: State, out: *mut u8, room: usize) -> Reply;
    pub fn paviluko_truncate(s: State, position: u64) -> Reply;
    pub fn paviluko_recover(
        s: State,
        checkpoint: *const u8,
        checkpoint_len: usize,
        log: *const u8,
        log_len: usize,
        out: *mut u8,
        room: usize,
    ) -> Reply;
    pub fn paviluko_reading(s: State, meter: u8) -> Entry;
    pub fn paviluko_numbers(s: State) -> Vault;
    pub fn paviluko_phase(s: State) -> u8;
    pub fn paviluko_due_store(s: State) -> Due;
    pub fn paviluko_records(s: State) -> u64;
    pub fn paviluko_points(s: State) -> u64;
    pub fn paviluko_from_bus(frame: *const u8, len: usize, meter: u16, stamp: u64, out: *mut u8, room: usize) -> Said;
    pub fn paviluko_plain_table(s: State, out: *mut u8, room: usize) -> Said;
    pub fn paviluko_heat_split(tables: *const u8, len: usize, out: *mut u8, room: usize) -> Said;
}

/// The header's sizes and offsets.
const _: () = {
    use std::mem::{align_of, offset_of, size_of};

    assert!(size_of::<usize>() == 8);

    assert!(size_of::<Vault>() == 216);
    assert!(offset_of!(Vault, w) == 0);
    assert!(offset_of!(Vault, v) == 64);
    assert!(offset_of!(Vault, r) == 128);
    assert!(offset_of!(Vault, e) == 192);
    assert!(offset_of!(Vault, s) == 200);
    assert!(offset_of!(Vault, n) == 208);

    assert!(size_of::<Entry>() == 24);
    assert!(offset_of!(Entry, stamp) == 0);
    assert!(offset_of!(Entry, number) == 8);
    assert!(offset_of!(Entry, reading) == 16);
    assert!(offset_of!(Entry, code) == 20);
    assert!(offset_of!(Entry, lane) == 21);
    assert!(offset_of!(Entry, present) == 22);

    assert!(size_of::<Table>() == 6144);
    assert!(offset_of!(Table, entries) == 0);

    assert!(size_of::<RecordList>() == 1176);
    assert!(offset_of!(RecordList, positions) == 0);
    assert!(offset_of!(RecordList, lanes) == 1024);
    assert!(offset_of!(RecordList, count) == 1152);
    assert!(offset_of!(RecordList, used) == 1160);
    assert!(offset_of!(RecordList, last) == 1168);

    assert!(size_of::<PointItem>() == 80);
    assert!(offset_of!(PointItem, position) == 0);
    assert!(offset_of!(PointItem, counts) == 8);
    assert!(offset_of!(PointItem, covered) == 72);

    assert!(size_of::<PointList>() == 664);
    assert!(offset_of!(PointList, items) == 0);
    assert!(offset_of!(PointList, count) == 640);
    assert!(offset_of!(PointList, any) == 648);
    assert!(offset_of!(PointList, newest) == 656);

    assert!(size_of::<Held>() == 160);
    assert!(offset_of!(Held, text) == 0);
    assert!(offset_of!(Held, len) == 136);
    assert!(offset_of!(Held, lane) == 144);
    assert!(offset_of!(Held, position) == 152);

    assert!(size_of::<Due>() == 16);
    assert!(offset_of!(Due, position) == 0);
    assert!(offset_of!(Due, kind) == 8);
    assert!(offset_of!(Due, lane) == 9);
    assert!(offset_of!(Due, second) == 10);

    assert!(size_of::<State>() == 8400);
    assert!(offset_of!(State, vault) == 0);
    assert!(offset_of!(State, due) == 216);
    assert!(offset_of!(State, table) == 232);
    assert!(offset_of!(State, journal) == 6376);
    assert!(offset_of!(State, points) == 7552);
    assert!(offset_of!(State, held) == 8216);
    assert!(offset_of!(State, key) == 8376);
    assert!(offset_of!(State, phase) == 8392);

    assert!(size_of::<Said>() == 24);
    assert!(offset_of!(Said, value) == 0);
    assert!(offset_of!(Said, len) == 8);
    assert!(offset_of!(Said, number) == 16);
    assert!(offset_of!(Said, store) == 17);
    assert!(offset_of!(Said, lane) == 18);

    assert!(size_of::<Reply>() == 8424);
    assert!(offset_of!(Reply, state) == 0);
    assert!(offset_of!(Reply, said) == 8400);

    assert!(align_of::<Reply>() == 8);
};
