//! Random whole histories on a device and the model side by side.
//!
//! A history is a list of calls, cuts, handed states and frames off the bus, drawn from a seed. After every call the two
//! answers, the lent buffer and the states are compared, and what the scope says about whole histories is asserted: the
//! table after an accepted Recover is the book's, and a card that kept faith is taken unless a counter is spent. What is
//! known of a frame is asserted too, and Accept knows the layout of what came out of one. Of writes in one second the
//! table shows the one that the request says, and of a log's end Recover passes over what the request says. The plain
//! table of a state is taken now and then, and the heat between two of them is split as the request says.
//!
//! Pairs of tables for the heat split are drawn apart from histories too, by kinds (`Seen`).
//!
//! A module uses only those named before it: `rng`, `raw`, `values`, `bus`, `device`, `heat`, `tally`, `ties`, `torn`,
//! `host`, `bytes`, `cards`, `calls`, `states`, `draw`, `world`.

#[cfg(test)]
mod broken;
mod bus;
mod bytes;
mod calls;
mod cards;
mod device;
mod draw;
mod heat;
mod host;
pub mod raw;
mod rng;
mod states;
mod tally;
mod ties;
mod torn;
mod values;
mod world;

pub use bus::Frame;
pub use device::{Answer, Call, Device, Reference, Twin};
pub use heat::Seen;
pub use raw::Raw;
pub use tally::Tally;
pub use world::run;
