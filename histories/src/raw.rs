//! Handed states, with the boundary's fields: any codes, any counts.

use std::rc::Rc;

use paviluko_model::{Cipher, Due, Entry, Held, Listed, Model, Params, Phase, Point, Table, Vault};

/// The fields of a due store.
#[derive(Clone, Copy, Debug, PartialEq, Eq)]
pub struct RawDue {
    pub position: u64,
    pub kind: u8,
    pub lane: u8,
    pub second: u8,
}

/// A state. Lists have all their places.
#[derive(Clone, Debug)]
pub struct Raw {
    pub vault: Vault,
    pub due: RawDue,
    pub entries: Vec<Option<Entry>>,
    pub listed: Vec<Listed>,
    pub listed_count: usize,
    pub last: Option<u64>,
    pub points: Vec<Point>,
    pub points_count: usize,
    pub newest: Option<u64>,
    pub text: Vec<u8>,
    pub text_len: usize,
    pub held_lane: u8,
    pub held_position: u64,
    pub key: [u8; 16],
    pub phase: u8,
}

/// What the codes of a due store mean: nothing where a field that the kind does not use is not 0.
pub fn due_of(raw: &RawDue) -> Due {
    let RawDue { position, kind, lane, second } = *raw;
    match (kind, lane, position, second) {
        (0, 0, 0, 0) => Due::Nothing,
        (1, 0, 0, 0) => Due::Record,
        (2, 0, 0, 0) => Due::File,
        (3, 0, 0, 0) => Due::Version,
        (4, _, _, 0) => Due::TruncateR { lane, position },
        (5, 0, _, 0) => Due::TruncateDelete { position },
        (6, 0, 0, 0 | 1) => Due::RecoverFile { second: second == 1 },
        (7, 0, 0, 0 | 1) => Due::RecoverVersion { second: second == 1 },
        (8, 0, 0, 0) => Due::RecoverSeal,
        (9, _, 0, 0) => Due::RecoverR { lane },
        (10, 0, 0, 0) => Due::RecoverEpoch,
        (11, _, 0, 0) => Due::RecoverV { lane },
        (12, 0, 0, 0) => Due::RecoverEmpty,
        _ => Due::Unknown,
    }
}

/// The code of a phase.
pub fn phase_code(phase: Phase) -> u8 {
    match phase {
        Phase::Cold => 1,
        Phase::Recovering => 2,
        Phase::InService => 3,
        Phase::Unknown => 0,
    }
}

/// What the code of a phase means.
pub fn phase_of(code: u8) -> Phase {
    match code {
        1 => Phase::Cold,
        2 => Phase::Recovering,
        3 => Phase::InService,
        _ => Phase::Unknown,
    }
}

/// The first of a list's places that a count speaks of; one more than there are where it is above them.
fn counted<T: Clone>(places: &[T], count: usize) -> Vec<T> {
    let mut list = places[..count.min(places.len())].to_vec();
    if count > places.len() {
        list.extend(places.first().cloned());
    }
    list
}

impl Raw {
    /// The boundary's codes of a due store.
    pub fn due(due: Due) -> RawDue {
        let plain = |kind: u8| RawDue { position: 0, kind, lane: 0, second: 0 };
        match due {
            Due::Nothing => plain(0),
            Due::Record => plain(1),
            Due::File => plain(2),
            Due::Version => plain(3),
            Due::TruncateR { lane, position } => RawDue { lane, position, ..plain(4) },
            Due::TruncateDelete { position } => RawDue { position, ..plain(5) },
            Due::RecoverFile { second } => RawDue { second: second.into(), ..plain(6) },
            Due::RecoverVersion { second } => RawDue { second: second.into(), ..plain(7) },
            Due::RecoverSeal => plain(8),
            Due::RecoverR { lane } => RawDue { lane, ..plain(9) },
            Due::RecoverEpoch => plain(10),
            Due::RecoverV { lane } => RawDue { lane, ..plain(11) },
            Due::RecoverEmpty => plain(12),
            Due::Unknown => plain(13),
        }
    }

    /// A model's state.
    pub fn of(model: &Model) -> Raw {
        let params = &model.params;
        let mut listed = model.records.clone();
        listed.resize(params.records, Listed { position: 0, lane: 0 });
        let mut points = model.points.clone();
        points.resize(params.points, Point { position: 0, counts: vec![0; params.lanes], covered: false });
        let held = model.held.clone().unwrap_or(Held { text: Vec::new(), lane: 0, position: 0 });
        let mut text = held.text.clone();
        text.resize(8 + 8 * params.writes, 0);
        Raw {
            vault: model.vault.clone(),
            due: Raw::due(model.due),
            entries: model.table.entries.clone(),
            listed,
            listed_count: model.records.len(),
            last: model.last,
            points,
            points_count: model.points.len(),
            newest: model.newest,
            text,
            text_len: held.text.len(),
            held_lane: held.lane,
            held_position: held.position,
            key: *model.cipher.key(),
            phase: phase_code(model.phase),
        }
    }

    /// The model in this state.
    pub fn model(&self, params: &Params) -> Model {
        let mut model = Model::cold(params, &self.vault, Rc::new(Cipher::new(&self.key)));
        model.phase = phase_of(self.phase);
        model.due = due_of(&self.due);
        model.table = Table { entries: self.entries.clone() };
        model.records = counted(&self.listed, self.listed_count);
        model.last = self.last;
        model.points = counted(&self.points, self.points_count);
        model.newest = self.newest;
        let text = self.text.get(..self.text_len).map(<[u8]>::to_vec).unwrap_or_default();
        model.held = Some(Held { text, lane: self.held_lane, position: self.held_position });
        model
    }
}
