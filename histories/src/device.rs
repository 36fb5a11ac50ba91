//! What a history is run on.

use std::fmt;
use std::rc::Rc;

use paviluko_model::{Card, Model, Params, Refusal, Store, Taken, Vault, from_bus, heat_split, plain_table};

use crate::bus::Frame;
use crate::raw::Raw;

/// A call's answer.
pub type Answer = Result<Taken, Refusal>;

/// A call with its arguments; an output is lent with so much room.
#[derive(Clone)]
pub enum Call {
    Load { vault: Vault, key: Vec<u8> },
    Accept { transaction: Vec<u8>, lane: u8, position: u64 },
    Seal { room: usize },
    Commit { record: Rc<[u8]> },
    Point { position: u64 },
    Checkpoint { room: usize },
    Truncate { position: u64 },
    Recover { checkpoint: Rc<[u8]>, log: Rc<[u8]>, room: usize },
}

/// The functions' names: the operations in the order of `Call::operation`, and what changes no state behind them.
pub const FUNCTIONS: [&str; 11] = [
    "Load",
    "Accept",
    "Seal",
    "Commit",
    "Point",
    "Checkpoint",
    "Truncate",
    "Recover",
    "from_bus",
    "plain_table",
    "heat_split",
];

/// The place of `from_bus` among them.
pub const FROM_BUS: usize = 8;
/// The place of `plain_table`.
pub const PLAIN_TABLE: usize = 9;
/// The place of `heat_split`.
pub const HEAT_SPLIT: usize = 10;

/// The greatest number.
pub const LAST: u8 = 19;

/// The numbers that each function can return.
pub const NUMBERS: [&[u8]; FUNCTIONS.len()] = [
    &[2, 3],
    &[1, 4, 5, 6, 7, 8],
    &[1, 3],
    &[1, 9, 10, 11],
    &[1, 6, 7, 15],
    &[1, 3, 8],
    &[1, 14],
    &[1, 3, 8, 9, 10, 11, 12, 13],
    &[3, 4, 16, 17],
    &[3],
    &[3, 4, 18, 19],
];

impl Call {
    /// Which operation it calls.
    pub fn operation(&self) -> usize {
        match self {
            Call::Load { .. } => 0,
            Call::Accept { .. } => 1,
            Call::Seal { .. } => 2,
            Call::Commit { .. } => 3,
            Call::Point { .. } => 4,
            Call::Checkpoint { .. } => 5,
            Call::Truncate { .. } => 6,
            Call::Recover { .. } => 7,
        }
    }

    /// How much room it lends.
    pub fn room(&self) -> usize {
        match self {
            Call::Seal { room } | Call::Checkpoint { room } | Call::Recover { room, .. } => *room,
            _ => 0,
        }
    }
}

/// Bytes in hexadecimal, the first few.
fn hex(bytes: &[u8]) -> String {
    let mut out: String = bytes.iter().take(200).map(|b| format!("{b:02x}")).collect();
    if bytes.len() > 200 {
        out += "...";
    }
    format!("{} bytes {out}", bytes.len())
}

impl fmt::Display for Call {
    fn fmt(&self, to: &mut fmt::Formatter) -> fmt::Result {
        match self {
            Call::Load { vault, key } => write!(to, "Load {vault:?}, key {}", hex(key)),
            Call::Accept { transaction, lane, position } => {
                write!(to, "Accept {}, lane {lane}, position {position}", hex(transaction))
            }
            Call::Seal { room } => write!(to, "Seal, room {room}"),
            Call::Commit { record } => write!(to, "Commit {}", hex(record)),
            Call::Point { position } => write!(to, "Point {position}"),
            Call::Checkpoint { room } => write!(to, "Checkpoint, room {room}"),
            Call::Truncate { position } => write!(to, "Truncate {position}"),
            Call::Recover { checkpoint, log, room } => {
                write!(to, "Recover checkpoint {}, log {}, room {room}", hex(checkpoint), hex(log))
            }
        }
    }
}

/// A device under test. It has a state or none; a refused Load leaves what it had.
pub trait Device {
    /// Calls an operation. Without a state only Load is called.
    fn call(&mut self, call: &Call, out: &mut [u8]) -> Answer;

    /// `from_bus`, which takes no state: a transaction of a frame, whatever the state is, and where there is none.
    fn hear(&self, frame: &Frame, out: &mut [u8]) -> Answer;

    /// `plain_table`: the bytes of the state's table. Called where there is a state, whatever it is.
    fn plain_table(&self, out: &mut [u8]) -> Answer;

    /// `heat_split`, which takes no state: what heat meters used between two plain tables, and their shares.
    fn split(&self, tables: &[u8], out: &mut [u8]) -> Answer;

    /// Loses the state.
    fn cut(&mut self);

    /// Takes this state in place of its own.
    fn hand(&mut self, raw: &Raw);

    /// Whether the last call left the whole state as it was.
    fn unchanged(&self) -> bool;

    /// What in its state is not as in the model's, if anything.
    fn differs(&self, model: Option<&Model>) -> Option<String>;
}

/// Bytes to lend, from the first one on: no two neighbours are alike.
pub fn lent(first: u8, room: usize) -> impl Iterator<Item = u8> {
    (0..room).map(move |i| first.wrapping_add((i % 251) as u8))
}

/// Compares two answers, and what was put out; behind that, which is nothing where the call was refused, all is as it
/// was lent.
pub fn same_answers(answer: &Answer, expected: &Answer, lent: &[u8], out: &[u8], other: &[u8]) -> Result<(), String> {
    if answer != expected {
        return Err("the answers differ".to_string());
    }
    if let Some(at) = (0..out.len()).find(|&i| out[i] != other[i]) {
        let (a, b) = (out[at], other[at]);
        return Err(format!("the outputs differ at byte {at}: {a} and {b}"));
    }
    let put = answer.as_ref().map_or(0, |taken| taken.len);
    match (put..out.len()).find(|&i| out[i] != lent[i]) {
        Some(at) => Err(format!("byte {at} of the output, behind the {put} put out, is not as it was lent")),
        None => Ok(()),
    }
}

/// What a device is held against.
pub trait Reference: Device {
    /// The state, if there is one.
    fn model(&self) -> Option<&Model>;

    /// Carries out a store on the card.
    fn store(&self, card: &mut Card, store: &Store, bytes: &Rc<[u8]>) {
        card.carry_out(store, bytes);
    }
}

/// The model as a device.
pub struct Twin {
    pub params: Params,
    pub model: Option<Model>,
}

impl Twin {
    pub fn new(params: &Params) -> Twin {
        Twin { params: *params, model: None }
    }
}

impl Device for Twin {
    fn call(&mut self, call: &Call, out: &mut [u8]) -> Answer {
        match (call, &mut self.model) {
            (Call::Load { vault, key }, model) => {
                *model = Some(Model::load(&self.params, vault, key)?);
                Ok(Taken { store: None, len: 0 })
            }
            // There is a state for every other call.
            (_, None) => Err(Refusal { number: 0, value: 0 }),
            (Call::Accept { transaction, lane, position }, Some(model)) => model.accept(transaction, *lane, *position),
            (Call::Seal { .. }, Some(model)) => model.seal(out),
            (Call::Commit { record }, Some(model)) => model.commit(record),
            (Call::Point { position }, Some(model)) => model.point(*position),
            (Call::Checkpoint { .. }, Some(model)) => model.checkpoint(out),
            (Call::Truncate { position }, Some(model)) => model.truncate(*position),
            (Call::Recover { checkpoint, log, .. }, Some(model)) => model.recover(checkpoint, log, out),
        }
    }

    fn hear(&self, frame: &Frame, out: &mut [u8]) -> Answer {
        let len = from_bus(&self.params, &frame.bytes, frame.meter, frame.stamp, out)?;
        Ok(Taken { store: None, len })
    }

    fn plain_table(&self, out: &mut [u8]) -> Answer {
        // There is a state.
        let model = self.model.as_ref().ok_or(Refusal { number: 0, value: 0 })?;
        Ok(Taken { store: None, len: plain_table(&model.table, out)? })
    }

    fn split(&self, tables: &[u8], out: &mut [u8]) -> Answer {
        Ok(Taken { store: None, len: heat_split(&self.params, tables, out)? })
    }

    fn cut(&mut self) {
        self.model = None;
    }

    fn hand(&mut self, raw: &Raw) {
        self.model = Some(raw.model(&self.params));
    }

    fn unchanged(&self) -> bool {
        true
    }

    fn differs(&self, model: Option<&Model>) -> Option<String> {
        let (Some(a), Some(b)) = (&self.model, model) else {
            return (self.model.is_some() != model.is_some()).then(|| "one has no state".to_string());
        };
        let same = a.vault == b.vault
            && a.phase == b.phase
            && a.due == b.due
            && a.table == b.table
            && a.records == b.records
            && a.last == b.last
            && a.points == b.points
            && a.newest == b.newest;
        (!same).then(|| format!("states differ: {a:?} {b:?}"))
    }
}

impl Reference for Twin {
    fn model(&self) -> Option<&Model> {
        self.model.as_ref()
    }
}
