//! The sealed log once more: a model, written from the scope and the requests alone, for the tests to hold the library
//! against.
//!
//! It shares no code with the library. The cipher is OpenSSL's. Limits and the order of readings are values (`Params`).
//! Operations change the model only where they are taken.

pub mod bus;
pub mod card;
pub mod cipher;
pub mod heat;
pub mod model;
pub mod params;
pub mod sealed;
pub mod table;
pub mod vault;

pub use bus::from_bus;
pub use card::{Book, Card};
pub use cipher::Cipher;
pub use heat::{heat_split, plain_table};
pub use model::{Due, Held, Listed, Model, Phase, Point, Refusal, Store, Taken};
pub use params::{Params, Rank};
pub use table::{Entry, Table, Transaction, Write};
pub use vault::Vault;

/// Bytes of a key.
pub const KEY_LEN: usize = 16;
