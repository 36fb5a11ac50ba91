//! The library as a device.

use paviluko_histories::raw::{RawDue, due_of, phase_of};
use paviluko_histories::{Answer, Call, Device, Frame, Raw};
use paviluko_host::{Collector, LANES, POINTS, RECORDS, ffi};
use paviluko_model::{Due, Entry, Model, Refusal, Store, Taken, Vault};

/// A collector, or none, and its state before the last call.
pub struct Library {
    collector: Option<Collector>,
    before: Box<Option<ffi::State>>,
    /// The meter that is asked for next.
    meter: u8,
}

impl Library {
    pub fn new() -> Library {
        Library { collector: None, before: Box::new(None), meter: 0 }
    }
}

/// A number for each lane.
fn lanes(numbers: &[u64]) -> [u64; LANES] {
    std::array::from_fn(|i| numbers.get(i).copied().unwrap_or(0))
}

fn numbers(vault: &Vault) -> ffi::Vault {
    let Vault { w, v, r, e, s, n } = vault;
    ffi::Vault { w: lanes(w), v: lanes(v), r: lanes(r), e: *e, s: *s, n: *n }
}

fn entry(entry: &Option<Entry>) -> ffi::Entry {
    match *entry {
        None => ffi::Entry::default(),
        Some(Entry { stamp, number, reading, code, lane }) => {
            ffi::Entry { stamp, number, reading, code, lane, present: 1 }
        }
    }
}

fn store(store: paviluko_host::Store) -> Store {
    match store {
        paviluko_host::Store::W { lane, value } => Store::W { lane, value },
        paviluko_host::Store::V { lane, value } => Store::V { lane, value },
        paviluko_host::Store::R { lane, value } => Store::R { lane, value },
        paviluko_host::Store::E { value } => Store::E { value },
        paviluko_host::Store::S { value } => Store::S { value },
        paviluko_host::Store::N { value } => Store::N { value },
        paviluko_host::Store::Record { position } => Store::Record { position },
        paviluko_host::Store::Checkpoint => Store::Checkpoint,
        paviluko_host::Store::Delete { below } => Store::Delete { below },
        paviluko_host::Store::Empty => Store::Empty,
    }
}

fn answer(said: Result<paviluko_host::Taken, paviluko_host::Refusal>) -> Answer {
    match said {
        Ok(paviluko_host::Taken { store: named, len }) => Ok(Taken { store: named.map(store), len }),
        Err(paviluko_host::Refusal { number, value }) => Err(Refusal { number, value }),
    }
}

/// The boundary's fields of a handed state.
fn state(raw: &Raw) -> ffi::State {
    let RawDue { position, kind, lane, second } = raw.due;
    let mark = |i: usize| match raw.points.get(i) {
        Some(point) => {
            ffi::PointItem { position: point.position, counts: lanes(&point.counts), covered: point.covered.into() }
        }
        None => ffi::PointItem::default(),
    };
    ffi::State {
        vault: numbers(&raw.vault),
        due: ffi::Due { position, kind, lane, second },
        table: ffi::Table { entries: std::array::from_fn(|i| entry(raw.entries.get(i).unwrap_or(&None))) },
        journal: ffi::RecordList {
            positions: std::array::from_fn(|i| raw.listed.get(i).map_or(0, |listed| listed.position)),
            lanes: std::array::from_fn(|i| raw.listed.get(i).map_or(0, |listed| listed.lane)),
            count: raw.listed_count,
            used: raw.last.is_some().into(),
            last: raw.last.unwrap_or(0),
        },
        points: ffi::PointList {
            items: std::array::from_fn(mark),
            count: raw.points_count,
            any: raw.newest.is_some().into(),
            newest: raw.newest.unwrap_or(0),
        },
        held: ffi::Held {
            text: std::array::from_fn(|i| raw.text.get(i).copied().unwrap_or(0)),
            len: raw.text_len,
            lane: raw.held_lane,
            position: raw.held_position,
        },
        key: raw.key,
        phase: raw.phase,
    }
}

/// A position that is there or not.
fn perhaps(there: u8, position: u64) -> Option<u64> {
    (there == 1).then_some(position)
}

/// What in a state is not as in the model's.
fn difference(s: &ffi::State, model: &Model) -> Option<String> {
    if s.vault != numbers(&model.vault) {
        return Some(format!("numbers {:?}, {:?}", s.vault, model.vault));
    }
    if phase_of(s.phase) != model.phase {
        return Some(format!("phase {}, {:?}", s.phase, model.phase));
    }
    let ffi::Due { position, kind, lane, second } = s.due;
    if due_of(&RawDue { position, kind, lane, second }) != model.due {
        return Some(format!("due {:?}, {:?}", s.due, model.due));
    }
    for (meter, here) in s.table.entries.iter().enumerate() {
        if *here != entry(&model.table.entries[meter]) {
            return Some(format!("meter {meter}: {here:?}, {:?}", model.table.entries[meter]));
        }
    }
    // A count above the places stands for one more than them in the model.
    let (journal, points) = (&s.journal, &s.points);
    if journal.count.min(RECORDS + 1) != model.records.len() {
        return Some(format!("records {}, {}", journal.count, model.records.len()));
    }
    for (i, listed) in model.records.iter().take(RECORDS).enumerate() {
        if (journal.positions[i], journal.lanes[i]) != (listed.position, listed.lane) {
            return Some(format!("record {i}: {} {}, {listed:?}", journal.positions[i], journal.lanes[i]));
        }
    }
    if perhaps(journal.used, journal.last) != model.last {
        return Some(format!("last position {} {}, {:?}", journal.used, journal.last, model.last));
    }
    if points.count.min(POINTS + 1) != model.points.len() {
        return Some(format!("points {}, {}", points.count, model.points.len()));
    }
    for (mark, point) in points.items.iter().zip(&model.points) {
        if (mark.position, mark.counts, mark.covered == 1) != (point.position, lanes(&point.counts), point.covered) {
            return Some(format!("{mark:?}, {point:?}"));
        }
    }
    if perhaps(points.any, points.newest) != model.newest {
        return Some(format!("newest point {} {}, {:?}", points.any, points.newest, model.newest));
    }
    if let (Due::Record, Some(held)) = (model.due, &model.held) {
        let ffi::Held { text, len, lane, position } = &s.held;
        // A length above the places holds no text in the model.
        let same = text.get(..*len).unwrap_or(&[]) == held.text && (*lane, *position) == (held.lane, held.position);
        if !same {
            return Some(format!("held {:?}, {held:?}", s.held));
        }
    }
    if s.key != *model.cipher.key() {
        return Some("the key".to_string());
    }
    None
}

impl Device for Library {
    fn call(&mut self, call: &Call, out: &mut [u8]) -> Answer {
        self.meter = self.meter.wrapping_add(1);
        *self.before = self.collector.as_ref().map(|collector| *collector.state());
        answer(match (call, &mut self.collector) {
            (Call::Load { vault, key }, collector) => Collector::load(&numbers(vault), key).map(|loaded| {
                *collector = Some(loaded);
                paviluko_host::Taken { store: None, len: 0 }
            }),
            // There is a state for every other call.
            (_, None) => Err(paviluko_host::Refusal { number: 0, value: 0 }),
            (Call::Accept { transaction, lane, position }, Some(collector)) => {
                collector.accept(transaction, *lane, *position)
            }
            (Call::Seal { .. }, Some(collector)) => collector.seal(out),
            (Call::Commit { record }, Some(collector)) => collector.commit(record),
            (Call::Point { position }, Some(collector)) => collector.point(*position),
            (Call::Checkpoint { .. }, Some(collector)) => collector.checkpoint(out),
            (Call::Truncate { position }, Some(collector)) => collector.truncate(*position),
            (Call::Recover { checkpoint, log, .. }, Some(collector)) => collector.recover(checkpoint, log, out),
        })
    }

    fn hear(&self, frame: &Frame, out: &mut [u8]) -> Answer {
        answer(paviluko_host::from_bus(&frame.bytes, frame.meter, frame.stamp, out))
    }

    fn plain_table(&self, out: &mut [u8]) -> Answer {
        // There is a state.
        let collector = self.collector.as_ref().ok_or(Refusal { number: 0, value: 0 })?;
        answer(collector.plain_table(out))
    }

    fn split(&self, tables: &[u8], out: &mut [u8]) -> Answer {
        answer(paviluko_host::heat_split(tables, out))
    }

    fn cut(&mut self) {
        self.collector = None;
    }

    fn hand(&mut self, raw: &Raw) {
        self.collector = Some(Collector::from_state(&state(raw)));
    }

    fn unchanged(&self) -> bool {
        self.collector.as_ref().map(Collector::state) == (*self.before).as_ref()
    }

    fn differs(&self, model: Option<&Model>) -> Option<String> {
        let (Some(collector), Some(model)) = (&self.collector, model) else {
            return (self.collector.is_some() != model.is_some()).then(|| "one has no state".to_string());
        };
        // What the library says of its state is what stands there; the table is asked for a meter at a time.
        let s = collector.state();
        let asked = collector.reading(self.meter).map(ffi::Entry::from);
        let agrees = collector.numbers() == s.vault
            && collector.records() == s.journal.count as u64
            && collector.points() == s.points.count as u64
            && asked.unwrap_or_default() == s.table.entries[usize::from(self.meter)];
        if !agrees {
            return Some("the library does not say what stands in its state".to_string());
        }
        difference(s, model)
    }
}
