//! The host's side of Paviluko.
//!
//! `ffi` declares the library's C boundary again in Rust, as `include/paviluko.h` has it. `Collector` is the same in safe
//! Rust: it keeps the state, hands it to each call, and says which store the host has to carry out before the next one.
//!
//! For the bench there is a whole box in a folder: a vault kept in a file (`vault`), a card kept in a folder (`card`), and a
//! runner that carries out exactly the one named store before the next call (`runner`). The program `paviluko` runs it.
//!
//! `bus` has the function that makes a transaction of a meter's reply on the wired bus, and what such a frame says. `heat` has the one
//! that splits a year's heat from two plain tables, and what a split and such tables say.
//!
//! A module uses only those named before it: `limits`, `ffi`, `words`, `secret`, `collector`, `bus`, `heat`, `files` with `dir`, `vault`,
//! `card`, `folder`, `runner`; `transaction` uses `limits`, and `identity`, which says what the library is, `ffi`.
//!
//! ```no_run
//! use paviluko_host::{Collector, Numbers, Store};
//!
//! // A new vault and a cold collector; the first recovery has no checkpoint and an empty log.
//! let mut collector = Collector::load(&Numbers::default(), &[7; 16]).unwrap();
//! let mut out = [0; paviluko_host::FILE_LEN];
//! loop {
//!     let taken = collector.recover(&[], &[], &mut out).unwrap();
//!     // ... the host carries out taken.store here; a checkpoint's bytes are out[..taken.len] ...
//!     if taken.store == Some(Store::Empty) {
//!         break;
//!     }
//! }
//! ```

pub mod bus;
pub mod card;
pub mod collector;
pub mod dir;
pub mod ffi;
pub mod files;
pub mod folder;
pub mod heat;
pub mod identity;
pub mod limits;
#[cfg(test)]
mod random;
pub mod runner;
pub mod secret;
pub mod transaction;
pub mod vault;
pub mod words;

pub use bus::from_bus;
pub use collector::{Collector, Due, Numbers, Phase, Reading, Refusal, Store, Taken};
pub use heat::heat_split;
pub use limits::{
    COUNTER_MAX, ENTRY_LEN, FILE_LEN, FRAME_LEN, HEAD_LEN, HEAT_TEXT_LEN, KEY_LEN, LANES, LOG_LEN, METERS,
    ONE_WRITE_LEN, POINTS, RECORD_LEN, RECORDS, SEAL_LEN, STAMP_LEN, TABLE_LEN, TRANSACTION_LEN, WRITE_LEN, WRITES,
};
