//! A card that kept faith, and the book of what has been made visible.

use std::collections::BTreeMap;
use std::rc::Rc;

use crate::table::number_at;
use crate::{Entry, Params, Rank, Store, Table, Transaction, Vault};

/// A card: records by position, checkpoint files, and what a cut left of a record.
#[derive(Clone, Debug, Default)]
pub struct Card {
    pub records: BTreeMap<u64, Rc<[u8]>>,
    pub files: Vec<Rc<[u8]>>,
    /// The record that a cut tore, whole: any beginning of it may be shown. Empty where there is none.
    pub begun: Rc<[u8]>,
}

impl Card {
    /// Carries out a card store; a store of the vault changes nothing here.
    pub fn carry_out(&mut self, store: &Store, bytes: &Rc<[u8]>) {
        match *store {
            Store::Record { position } => {
                self.records.insert(position, Rc::clone(bytes));
            }
            Store::Checkpoint => self.files.push(Rc::clone(bytes)),
            Store::Delete { below } => self.records = self.records.split_off(&below),
            Store::Empty => {
                self.records.clear();
                self.begun = Rc::default();
            }
            _ => {}
        }
    }

    /// A cut before a named store is done: a record is torn, and any other store changes nothing. A torn checkpoint is
    /// no file.
    pub fn cut(&mut self, store: &Store, bytes: &Rc<[u8]>) {
        if let Store::Record { .. } = store {
            self.begun = Rc::clone(bytes);
        }
    }

    /// The records end to end, in order of position, and so many bytes of the torn one.
    pub fn log(&self, torn: usize) -> Vec<u8> {
        let whole = self.records.values().flat_map(|record| record.iter().copied());
        whole.chain(self.begun[..torn].iter().copied()).collect()
    }

    /// The files of a version.
    pub fn of_version(&self, version: u64) -> Vec<Rc<[u8]>> {
        self.files.iter().filter(|file| number_at(file, 4, 8) == version).cloned().collect()
    }
}

impl Vault {
    /// Carries out a store of the vault; a card store changes nothing here.
    pub fn carry_out(&mut self, store: &Store) {
        match *store {
            Store::W { lane, value } => self.w[usize::from(lane)] = value,
            Store::V { lane, value } => self.v[usize::from(lane)] = value,
            Store::R { lane, value } => self.r[usize::from(lane)] = value,
            Store::E { value } => self.e = value,
            Store::S { value } => self.s = value,
            Store::N { value } => self.n = value,
            _ => {}
        }
    }
}

/// One transaction of the book.
#[derive(Clone, Debug, PartialEq, Eq)]
pub struct Line {
    pub lane: u8,
    pub number: u64,
    pub transaction: Transaction,
}

/// What has been made visible.
#[derive(Clone, Debug, Default)]
pub struct Book {
    pub lines: Vec<Line>,
}

impl Book {
    /// For each meter the latest of all writes to it.
    pub fn table(&self, params: &Params) -> Table {
        let mut best: Vec<Option<(Rank, Entry)>> = vec![None; params.meters];
        for Line { lane, number, transaction } in &self.lines {
            let (stamp, lane, number) = (transaction.stamp, *lane, *number);
            let rank = Rank { stamp, lane, number };
            for write in &transaction.writes {
                let so_far = &mut best[write.meter];
                if so_far.is_none_or(|(other, _)| (params.later)(&rank, &other)) {
                    let entry = Entry { stamp, number, reading: write.reading, code: write.code, lane };
                    *so_far = Some((rank, entry));
                }
            }
        }
        Table { entries: best.into_iter().map(|best| best.map(|(_, entry)| entry)).collect() }
    }
}

#[cfg(test)]
mod tests {
    use super::*;

    /// A torn record stands behind the others until the log is emptied; nothing else is left by a cut.
    #[test]
    fn what_a_cut_leaves() {
        let bytes = |byte: u8| -> Rc<[u8]> { [byte; 56].into() };
        let mut card = Card::default();
        card.carry_out(&Store::Record { position: 20 }, &bytes(2));
        card.carry_out(&Store::Record { position: 10 }, &bytes(1));
        for store in [Store::Checkpoint, Store::Empty, Store::Delete { below: 30 }, Store::S { value: 1 }] {
            card.cut(&store, &bytes(9));
        }
        assert_eq!((card.log(0), card.begun.len(), card.files.len()), ([[1; 56], [2; 56]].concat(), 0, 0));

        card.cut(&Store::Record { position: 30 }, &bytes(3));
        for torn in 0..=56 {
            assert_eq!(card.log(torn), [&[1; 56][..], &[2; 56], &[3; 56][..torn]].concat());
        }
        card.cut(&Store::Empty, &Rc::default());
        card.carry_out(&Store::R { lane: 0, value: 1 }, &Rc::default());
        assert_eq!(card.log(56).len(), 168);
        card.carry_out(&Store::Empty, &Rc::default());
        assert!(card.log(0).is_empty() && card.begun.is_empty());
    }
}
