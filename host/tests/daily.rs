//! A box in daily use for years: it is started ten thousand times, most of them after a cut, and takes a hundred thousand
//! transactions. The card stays as small as it was, and the table is right throughout.

mod place;

use std::fs;
use std::path::Path;

use paviluko_host::files::Disk;
use paviluko_host::folder::BoxFolder;
use paviluko_host::runner::{Moment, Runner, Stop};
use paviluko_host::transaction::{self, Write};
use paviluko_host::{FILE_LEN, RECORD_LEN, RECORDS};

use place::Place;

const STARTS: u64 = 10_000;
const TRANSACTIONS: u64 = 100_000;
/// Stores of the longest recovery.
const RECOVERY: u64 = 24;
/// Two checkpoints and one that a cut left, the room that is kept, `log`, the folders, and what a cut left of one store.
const MOST_FILES: usize = 12;
const MOST_BYTES: u64 = 100_000;

/// How many files and folders a folder has in it, and their bytes.
fn size(folder: &Path) -> (usize, u64) {
    let (mut files, mut bytes) = (0, 0);
    for entry in fs::read_dir(folder).expect("there") {
        let entry = entry.expect("read");
        let kind = entry.metadata().expect("read");
        let (more, within) = if kind.is_dir() { size(&entry.path()) } else { (0, kind.len()) };
        files += 1 + more;
        bytes += within;
    }
    (files, bytes)
}

/// A box in a folder of its own, and its card's folder.
fn started(place: &Place) -> (Runner, std::path::PathBuf) {
    let folder = place.join("box");
    BoxFolder::create(&folder, Disk::Quick).expect("made");
    let mut runner = Runner::open(&folder, Disk::Quick).expect("opened");
    runner.start().expect("started");
    (runner, folder.join("card-1"))
}

fn reading(turn: u64) -> Vec<u8> {
    transaction::bytes(turn, &[Write { meter: (turn % 256) as u16, code: 1, reading: turn as i32 }])
}

/// The stamp of the latest reading of a turn's meter.
fn latest(runner: &Runner, turn: u64) -> Option<u64> {
    runner.collector().expect("power").reading((turn % 256) as u8).map(|reading| reading.stamp)
}

#[test]
fn ten_thousand_starts() {
    let place = Place::new("starts");
    let (mut runner, card) = started(&place);
    let (mut most, mut cuts) = ((0, 0), 0);
    let mut turn = 0;
    for start in 0..STARTS {
        // Every other start is cut at one of its stores, each in turn, before it, after it or in it.
        let moment = match start / 2 % 3 {
            0 => Moment::Before,
            1 => Moment::After,
            _ => Moment::During { bytes: start as usize % FILE_LEN },
        };
        if start % 2 == 1 {
            runner.cut_at(1 + start / 4 % RECOVERY, moment);
        }
        match runner.start() {
            Ok(_) => {
                runner.cut_never();
                assert!(turn == 0 || latest(&runner, turn) == Some(turn), "start {start}");
                turn += 1;
                runner.take((turn % 8) as u8, &reading(turn)).expect("taken");
                // Then a transaction that is not made visible, and one whose record is torn.
                if start % 3 == 0 {
                    runner.accept((turn % 8) as u8, &reading(turn)).expect("accepted");
                }
                if start % 5 == 0 {
                    runner.cut_at(2, Moment::During { bytes: turn as usize % RECORD_LEN });
                    assert!(matches!(runner.take(7, &reading(turn)), Err(Stop::Cut { .. })));
                }
            }
            Err(Stop::Cut { .. }) => cuts += 1,
            Err(stop) => panic!("start {start}: {stop}"),
        }
        let now = size(&card);
        assert!(now.0 <= MOST_FILES && now.1 <= MOST_BYTES, "start {start}: {now:?}");
        most = (most.0.max(now.0), most.1.max(now.1));
    }
    assert!(cuts > STARTS / 4);
    println!("{STARTS} starts, {cuts} of them cut: at most {} files with {} bytes on the card", most.0, most.1);
}

#[test]
fn a_hundred_thousand_transactions() {
    let place = Place::new("transactions");
    let (mut runner, card) = started(&place);
    let mut most = (0, 0);
    for turn in 1..=TRANSACTIONS {
        runner.take_tidy((turn % 8) as u8, &reading(turn)).expect("taken");
        if turn % 997 == 0 {
            assert_eq!(latest(&runner, turn), Some(turn));
            let now = size(&card);
            assert!(now.0 <= MOST_FILES + RECORDS, "transaction {turn}: {now:?}");
            assert!(now.1 <= MOST_BYTES + (RECORDS * RECORD_LEN) as u64, "transaction {turn}: {now:?}");
            most = (most.0.max(now.0), most.1.max(now.1));
        }
    }
    runner.start().expect("started");
    for turn in TRANSACTIONS - 255..=TRANSACTIONS {
        assert_eq!(latest(&runner, turn), Some(turn));
    }
    println!("{TRANSACTIONS} transactions: at most {} files with {} bytes on the card", most.0, most.1);
}
