//! The update of boxes that sealed their tables by the order of before CR 2. An old box is the model with that order.
//! The updated one is the library and the model side by side, and every answer, byte, vault number and entry of the two
//! is the same. What the table shows is kept by hand besides, from the request's words: "old tables stay valid as they
//! are: an entry already won is compared by the new order from then on".

#[path = "../src/library.rs"]
mod library;

use std::rc::Rc;

use library::Library;
use paviluko_histories::{Call, Device, Twin};
use paviluko_model::sealed::{AROUND, file_len, open_file};
use paviluko_model::{Card, Cipher, Entry, Model, Params, Phase, Store, Table, Taken, Transaction, Vault, Write};

const KEY: [u8; 16] = *b"sixteen of bytes";

/// A meter for each lane of an entry, each lane of a write that meets it, and a write before, in and after its second.
const MEETINGS: usize = 8 * 8 * 3;

/// The lane of the entry that a meter has before the update.
fn held(meter: usize) -> u8 {
    (meter / 24) as u8
}

/// The lane of the write that meets it.
fn lane(meter: usize) -> u8 {
    (meter / 3 % 8) as u8
}

/// The write's stamp, less the entry's, and 1.
fn step(meter: usize) -> u64 {
    (meter % 3) as u64
}

/// The lower lane that the entry was heard on too, in the same second; lane 0 has none below it.
fn lower(meter: usize) -> Option<u8> {
    let held = held(meter);
    (held > 0).then(|| (lane(meter) + meter as u8 % 3) % held)
}

/// Whether the write is shown then. In one second "the lowest lane is now the latest"; in one lane "the greatest number
/// still is", and the write's is the greater one.
fn wins(meter: usize) -> bool {
    match step(meter) {
        0 => false,
        1 => lane(meter) <= held(meter),
        _ => true,
    }
}

/// Whether it is in a box before the update.
fn won(meter: usize) -> bool {
    match step(meter) {
        0 => false,
        1 => lane(meter) >= held(meter),
        _ => true,
    }
}

/// Ties of two lanes with an entry that an old box sealed.
#[derive(Default)]
struct Ties {
    won: u64,
    stayed: u64,
}

impl Ties {
    /// Counts a write that meets a sealed entry.
    fn meet(&mut self, write: &Entry, sealed: &Entry) {
        if write.stamp == sealed.stamp && write.lane != sealed.lane {
            *if write.lane < sealed.lane { &mut self.won } else { &mut self.stayed } += 1;
        }
    }
}

/// A box with its vault and its card.
struct Unit {
    /// None before the update.
    library: Option<Library>,
    twin: Twin,
    vault: Vault,
    card: Card,
    position: u64,
    /// What was written to which meter.
    written: Vec<(usize, Entry)>,
    /// What the table shows, by hand.
    shown: Table,
}

impl Unit {
    /// A new box of before the update, in service.
    fn old() -> Unit {
        let params = Params::old_order();
        let mut unit = Unit {
            library: None,
            twin: Twin::new(&params),
            vault: Vault::new(&params),
            card: Card::default(),
            position: 0,
            written: Vec::new(),
            shown: Table::empty(&params),
        };
        unit.start();
        unit
    }

    /// The same vault and card in a box with the update, which has no power.
    fn updated(self) -> Unit {
        Unit { library: Some(Library::new()), twin: Twin::new(&Params::scope()), ..self }
    }

    fn model(&self) -> &Model {
        self.twin.model.as_ref().expect("there is a state")
    }

    /// A call, which is taken; its store is carried out.
    fn call(&mut self, call: Call, what: &str) -> Taken {
        let room = call.room();
        let (mut out, mut expected) = (vec![0xA5; room], vec![0xA5; room]);
        let answer = self.twin.call(&call, &mut expected);
        let taken = answer.unwrap_or_else(|refusal| panic!("{what}: {refusal:?}"));
        let said = self.library.as_mut().map(|library| library.call(&call, &mut out));

        let mut wanted = self.model().clone();
        if wanted.phase != Phase::Cold {
            wanted.table = self.shown.clone();
        }
        if let (Some(library), Some(said)) = (&self.library, said) {
            assert_eq!(said, Ok(taken), "{what}: the library's answer and the model's");
            assert!(out == expected, "{what}: library and model put other bytes out");
            let differs = library.differs(Some(&wanted));
            assert!(
                differs.is_none(),
                "{what}: not as the request says; the library has, and should have: {differs:?}"
            );
        }
        for (meter, entry) in wanted.table.entries.iter().enumerate() {
            assert_eq!(
                self.model().table.entries[meter],
                *entry,
                "{what}: not as the request says, in the model, of meter {meter}"
            );
        }
        if let Some(store) = taken.store {
            self.vault.carry_out(&store);
            self.card.carry_out(&store, &expected[..taken.len].into());
        }
        assert_eq!(self.model().vault, self.vault, "{what}: the state's numbers and the vault's");
        taken
    }

    /// The checkpoint that the card hands over.
    fn file(&self) -> Rc<[u8]> {
        self.card.of_version(self.vault.s).last().cloned().unwrap_or_default()
    }

    /// Load, and a recovery of what the card holds, of so many calls at most.
    fn recover(&mut self, calls: usize) {
        let (checkpoint, log, room) = (self.file(), self.card.log(0).into(), file_len(&self.twin.params) + 3);
        let recover = Call::Recover { checkpoint, log, room };
        self.call(Call::Load { vault: self.vault.clone(), key: KEY.to_vec() }, "Load");
        for _ in 0..calls {
            if self.call(recover.clone(), "a recovery").store == Some(Store::Empty) {
                break;
            }
        }
    }

    /// A whole one.
    fn start(&mut self) {
        self.recover(usize::MAX);
    }

    /// Without power, and with it again.
    fn cut(&mut self) {
        self.library.iter_mut().for_each(Library::cut);
        self.twin.cut();
        self.start();
    }

    /// Makes readings of these meters visible; `shows` says which the table shows then.
    fn take(&mut self, lane: u8, stamp: u64, meters: &[usize], shows: impl Fn(usize, Option<Entry>) -> bool) {
        for meters in meters.chunks(Params::scope().writes) {
            let what = format!("stamp {stamp} of lane {lane} for the meters {meters:?}");
            self.position += 1;
            let first = self.position as i32 * 256 - 5000;
            let write = |&meter| Write { meter, code: 1 + (meter % 4) as u8, reading: first + meter as i32 };
            let writes: Vec<Write> = meters.iter().map(write).collect();
            let transaction = Transaction { stamp, writes: writes.clone() }.bytes();
            let room = transaction.len() + AROUND + 3;
            self.call(Call::Accept { transaction, lane, position: self.position }, &what);
            self.call(Call::Seal { room }, &what);
            let record = Rc::clone(&self.card.records[&self.position]);
            let number = self.vault.w[usize::from(lane)];
            for Write { meter, code, reading } in writes {
                let entry = Entry { stamp, number, reading, code, lane };
                self.written.push((meter, entry));
                let shown = &mut self.shown.entries[meter];
                if shows(meter, *shown) {
                    *shown = Some(entry);
                }
            }
            self.call(Call::Commit { record }, &what);
        }
    }

    /// The table in the checkpoint that the card hands over.
    fn sealed(&self) -> Table {
        open_file(&self.twin.params, &Cipher::new(&KEY), &self.file()).expect("it opens").table
    }

    /// A checkpoint: the table that it holds.
    fn seal(&mut self) -> Table {
        for _ in 0..3 {
            self.call(Call::Checkpoint { room: file_len(&self.twin.params) }, "a checkpoint");
        }
        assert_eq!(self.sealed(), self.shown);
        self.sealed()
    }

    /// A point above all records, a checkpoint that covers it, and the truncation.
    fn truncate(&mut self) -> Table {
        self.position += 1;
        let position = self.position;
        self.call(Call::Point { position }, "a point");
        let table = self.seal();
        for _ in 0..9 {
            self.call(Call::Truncate { position }, "a truncation");
        }
        assert!(self.card.records.is_empty());
        table
    }

    /// The write that each meter's entry meets.
    fn meet(&mut self, stamp: u64, shows: fn(usize) -> bool) {
        for (of, by) in (0..8).flat_map(|of| (0..3).map(move |by| (of, by))) {
            let meters: Vec<usize> = (0..MEETINGS).filter(|&meter| (lane(meter), step(meter)) == (of, by)).collect();
            self.take(of, stamp - 1 + by, &meters, |meter, _| shows(meter));
        }
    }
}

/// A box of before the update whose meters were each heard on two lanes in one second, and show the greater one.
fn old_box(stamp: u64, falling: bool) -> Unit {
    let mut old = Unit::old();
    for of in 0..8 {
        let of = if falling { 7 - of } else { of };
        let meters: Vec<usize> = (0..MEETINGS).filter(|&m| held(m) == of || lower(m) == Some(of)).collect();
        old.take(of, stamp, &meters, |meter, shown| shown.is_none() || held(meter) == of);
    }
    for meter in 0..MEETINGS {
        assert_eq!(old.shown.entries[meter].map(|entry| entry.lane), Some(held(meter)));
    }
    old
}

/// The log is truncated: every entry is there as it was, and then meets a write in the updated box.
fn met_after_the_update(stamp: u64, falling: bool, ties: &mut Ties) {
    let mut old = old_box(stamp, falling);
    let sealed = old.truncate();
    let mut new = old.updated();
    new.start();
    assert_eq!(new.model().table, sealed);
    new.written.clear();
    new.meet(stamp, wins);
    for (meter, write) in &new.written {
        ties.meet(write, &sealed.entries[*meter].expect("there is an entry"));
    }
    // From the log, and from the checkpoint that the recovery made.
    new.cut();
    new.cut();
}

/// The writes are in the log behind the checkpoint: the old box showed them by its order, and the recovery compares by
/// the new one.
fn met_in_the_recovery(stamp: u64, falling: bool, ties: &mut Ties) {
    let mut old = old_box(stamp, falling);
    let sealed = old.truncate();
    old.written.clear();
    old.meet(stamp, won);
    let mut new = old.updated();
    new.shown = sealed.clone();
    for &(meter, write) in &new.written {
        ties.meet(&write, &sealed.entries[meter].expect("there is an entry"));
        if wins(meter) {
            new.shown.entries[meter] = Some(write);
        }
    }
    new.start();
    new.cut();
}

/// The updated box recovers what an old one left, and shows the latest of the sealed entry and the writes above R.
fn recovered(old: Unit, ties: &mut Ties) {
    let sealed = old.sealed();
    let mut new = old.updated();
    for meter in 0..MEETINGS {
        let above = |write: &Entry| write.number > new.vault.r[usize::from(write.lane)];
        let writes = new.written.iter().filter(|(of, write)| *of == meter && above(write)).map(|(_, write)| *write);
        let mut latest: Vec<Entry> = writes.collect();
        if let Some(entry) = sealed.entries[meter] {
            latest.iter().for_each(|write| ties.meet(write, &entry));
            latest.push(entry);
        }
        let stamp = latest.iter().map(|entry| entry.stamp).max();
        latest.retain(|entry| Some(entry.stamp) == stamp);
        let lane = latest.iter().map(|entry| entry.lane).min();
        latest.retain(|entry| Some(entry.lane) == lane);
        new.shown.entries[meter] = latest.into_iter().max_by_key(|entry| entry.number);
    }
    new.start();
    new.cut();
}

/// Nothing is truncated: the log has all writes, those too that the sealed entries won against.
fn all_in_the_log(stamp: u64, falling: bool, ties: &mut Ties) {
    let mut old = old_box(stamp, falling);
    old.meet(stamp, won);
    old.seal();
    recovered(old, ties);
}

/// The old box was cut in a recovery, after each of its stores.
fn cut_in_a_recovery(stamp: u64, falling: bool, calls: usize, ties: &mut Ties) {
    let mut old = old_box(stamp, falling);
    old.meet(stamp, won);
    old.twin.cut();
    old.recover(calls);
    recovered(old, ties);
}

#[test]
fn old_tables_are_valid_and_compared_by_the_new_order() {
    let mut ties = Ties::default();
    let mut boxes = 0;
    for stamp in [1, 100, 1 << 32, 1 << 63, u64::MAX - 1] {
        for falling in [false, true] {
            met_after_the_update(stamp, falling, &mut ties);
            met_in_the_recovery(stamp, falling, &mut ties);
            all_in_the_log(stamp, falling, &mut ties);
            (1..=15).for_each(|calls| cut_in_a_recovery(stamp, falling, calls, &mut ties));
            boxes += 18;
        }
    }
    let Ties { won, stayed } = ties;
    assert!(won > 0 && stayed > 0, "{won} ties won, {stayed} not");
    println!(
        "old tables: {boxes} boxes updated; {} ties of two lanes with entries sealed before, of which the write won \
         {won} and the entry stayed {stayed}",
        won + stayed
    );
}
