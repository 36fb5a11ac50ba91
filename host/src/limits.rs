//! The scope's limits and lengths.

/// Lanes of a collector.
pub const LANES: usize = 8;
/// Meters of a table.
pub const METERS: usize = 256;
/// Records that may stand at or above the newest point.
pub const RECORDS: usize = 128;
/// Points that are kept.
pub const POINTS: usize = 8;
/// Writes of the longest transaction.
pub const WRITES: usize = 16;
/// Bytes of a key.
pub const KEY_LEN: usize = 16;
/// Bytes of a transaction's stamp.
pub const STAMP_LEN: usize = 8;
/// Bytes of one of its writes.
pub const WRITE_LEN: usize = 8;
/// Bytes of the longest transaction.
pub const TRANSACTION_LEN: usize = STAMP_LEN + WRITES * WRITE_LEN;
/// Bytes of a transaction of one write.
pub const ONE_WRITE_LEN: usize = STAMP_LEN + WRITE_LEN;
/// Bytes of a record's head, and of a checkpoint's.
pub const HEAD_LEN: usize = 20;
/// Bytes that a record or a checkpoint has beside its text: head, tag and trailer.
pub const SEAL_LEN: usize = HEAD_LEN + 16 + 4;
/// Bytes of the longest record.
pub const RECORD_LEN: usize = TRANSACTION_LEN + SEAL_LEN;
/// Bytes of a meter's entry in a plain table.
pub const ENTRY_LEN: usize = 24;
/// Bytes of a plain table, which is the text of a checkpoint.
pub const TABLE_LEN: usize = METERS * ENTRY_LEN;
/// Bytes of a checkpoint file.
pub const FILE_LEN: usize = TABLE_LEN + SEAL_LEN;
/// Room for any text of a heat split: a heading, and at most 24 bytes for each meter.
pub const HEAT_TEXT_LEN: usize = 17 + METERS * 24;
/// Bytes of the longest log that Recover takes.
pub const LOG_LEN: usize = 262_144;
/// Bytes of the longest frame off the bus.
pub const FRAME_LEN: usize = 255 + 6;
/// The greatest number that the vault can hold.
pub const COUNTER_MAX: u64 = (1 << 48) - 1;
