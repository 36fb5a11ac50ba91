//! Records and checkpoints of which a cut left only a beginning, as on cards that do not write whole or not at all.
//!
//! Every beginning of a last record, byte by byte: a start passes it over where the record is not visible, and misses the record
//! where it is. A torn checkpoint is never offered. And the plug pulled in any store leaves what it should, and a box that starts.

mod place;

use std::collections::BTreeMap;
use std::fs;
use std::path::{Path, PathBuf};

use paviluko_host::card::{CHECKPOINTS, Torn};
use paviluko_host::files::Disk;
use paviluko_host::folder::BoxFolder;
use paviluko_host::runner::{Moment, Runner, Started, Stop};
use paviluko_host::transaction::{self, Write};
use paviluko_host::{FILE_LEN, HEAD_LEN, Reading, Refusal, SEAL_LEN, Store, WRITES};

use place::Place;

/// The lane of the record that is torn.
const LANE: u8 = 5;
/// Stores of a recovery, without and with numbers that were handed out and not made visible.
const RECOVERIES: [usize; 2] = [15, 24];

type Table = Vec<(u8, Reading)>;
/// All files of a box but its lock, by name.
type Files = BTreeMap<PathBuf, Vec<u8>>;

/// A transaction of so many readings.
fn readings(stamp: u64, writes: usize) -> Vec<u8> {
    let write = |meter| Write { meter, code: 1 + (meter % 4) as u8, reading: stamp as i32 };
    transaction::bytes(stamp, &(0..writes as u16).map(write).collect::<Vec<_>>())
}

/// A box in a folder, in service, with some records on its card.
fn box_with(folder: &Path, records: u64) -> Runner {
    BoxFolder::create(folder, Disk::Quick).expect("made");
    let mut runner = open(folder);
    runner.start().expect("started");
    for turn in 0..records {
        runner.take(turn as u8, &readings(100 + turn, 3)).expect("taken");
    }
    runner
}

fn open(folder: &Path) -> Runner {
    Runner::open(folder, Disk::Quick).expect("opened")
}

fn table(runner: &Runner) -> Table {
    runner.collector().expect("power").readings()
}

/// Where the record at a position is.
fn record_file(runner: &Runner, position: u64) -> PathBuf {
    let card = runner.card().expect("there");
    card.folder().join(card.records_folder().expect("read")).join(format!("{position:020}"))
}

/// What is there of a torn record.
fn torn(runner: &Runner) -> Option<Torn> {
    runner.card().and_then(|card| card.held()).expect("read").torn
}

/// The files that are there.
fn files(folder: &Path) -> Files {
    let mut all = Files::new();
    for entry in fs::read_dir(folder).expect("there") {
        let path = entry.expect("read").path();
        let name = PathBuf::from(path.file_name().expect("a name"));
        if path.is_dir() {
            all.extend(files(&path).into_iter().map(|(below, bytes)| (name.join(below), bytes)));
        } else if name != Path::new("lock") {
            all.insert(name, fs::read(&path).expect("read"));
        }
    }
    all
}

/// Makes a folder hold a box's files, and nothing else. The box in it, without power.
fn box_of(kept: &Files, folder: &Path) -> Runner {
    let _ = fs::remove_dir_all(folder);
    for (name, bytes) in kept {
        let path = folder.join(name);
        fs::create_dir_all(path.parent().expect("below a folder")).expect("made");
        fs::write(path, bytes).expect("written");
    }
    open(folder)
}

// ---- every beginning of a record ----

/// A box without power, whose card has only a beginning of its last record, or all of it.
struct Case {
    runner: Runner,
    /// The last record's position, and its file.
    position: u64,
    file: PathBuf,
    /// All of it, and how many bytes are there.
    whole: Vec<u8>,
    left: usize,
    /// What has been made visible.
    visible: Table,
}

impl Case {
    /// What the card shows of a torn record.
    fn torn(&self) -> Option<Torn> {
        let (bytes, whole) = (self.left, self.whole.len());
        let said = (bytes >= HEAD_LEN).then_some(whole);
        (bytes < whole).then_some(Torn { position: self.position, bytes, whole: said })
    }

    fn what(&self) -> String {
        format!("{} of {} bytes behind {} records", self.left, self.whole.len(), self.position)
    }
}

/// Shows each beginning of a last record of one write and of sixteen, alone on the card and behind others; and all of it. How many
/// beginnings there were.
fn each_beginning(name: &str, is_visible: bool, show: impl Fn(Case)) -> usize {
    let place = Place::new(name);
    let mut shown = 0;
    for (writes, before) in [(1, 0), (1, 3), (WRITES, 0), (WRITES, 3)] {
        let template = place.join(&format!("template-{writes}-{before}"));
        let mut runner = box_with(&template, before);
        let position = runner.accept(LANE, &readings(900, writes)).expect("accepted").position;
        if is_visible {
            runner.commit(position).expect("visible");
        }
        let visible = table(&runner);
        let whole = fs::read(record_file(&runner, position)).expect("read");
        assert_eq!((position, whole.len()), (before, readings(900, writes).len() + SEAL_LEN));
        drop(runner);
        let kept = files(&template);
        for left in 0..=whole.len() {
            let runner = box_of(&kept, &place.join("box"));
            let file = record_file(&runner, position);
            fs::write(&file, &whole[..left]).expect("written");
            let case = Case { runner, position, file, whole: whole.clone(), left, visible: visible.clone() };
            assert_eq!(torn(&case.runner), case.torn(), "{}", case.what());
            shown += usize::from(case.torn().is_some());
            show(case);
        }
    }
    shown
}

#[test]
fn a_record_that_is_not_visible_is_passed_over_whatever_is_there_of_it() {
    let shown = each_beginning("torn-passed-over", false, |mut case| {
        let (what, torn_there) = (case.what(), case.torn());
        let runner = &mut case.runner;
        assert_eq!(runner.look().expect(&what), case.visible);
        let records = case.position as usize + usize::from(torn_there.is_none());
        let started = runner.start().expect(&what);
        assert_eq!(started, Started { stores: RECOVERIES[1], records, torn: torn_there });
        assert_eq!(table(runner), case.visible, "{what}");
        // The start has dropped it, and the lane goes on.
        assert_eq!(torn(runner), None);
        assert_eq!(runner.take(LANE, &readings(901, 1)).expect(&what).number, 2);
        let after = table(runner);
        runner.cut();
        assert_eq!(runner.start().expect(&what).stores, RECOVERIES[0]);
        assert_eq!(table(runner), after, "{what}");
    });
    println!("{shown} beginnings of a record passed over");
}

#[test]
fn a_visible_record_is_missed_unless_all_of_it_is_there() {
    let shown = each_beginning("torn-missed", true, |mut case| {
        let (what, torn_there) = (case.what(), case.torn());
        let runner = &mut case.runner;
        if torn_there.is_some() {
            let before = files(runner.folder().path());
            let missing = Refusal { number: 13, value: u64::from(LANE) };
            let looked = runner.look();
            assert!(matches!(looked, Err(Stop::Refused(refusal)) if refusal == missing), "{what}: {looked:?}");
            let started = runner.start();
            assert!(matches!(started, Err(Stop::Refused(refusal)) if refusal == missing), "{what}: {started:?}");
            // Nothing is lost by that: with all of it the card is taken.
            assert_eq!(files(runner.folder().path()), before, "{what}");
            fs::write(&case.file, &case.whole).expect("written");
        }
        assert_eq!(runner.start().expect(&what).stores, RECOVERIES[0]);
        assert_eq!(table(runner), case.visible, "{what}");
    });
    println!("{shown} of a visible one missed (13)");
}

#[test]
fn a_copy_of_a_card_with_a_torn_record_is_as_good() {
    let place = Place::new("torn-copied");
    let mut runner = box_with(&place.join("box"), 3);
    let visible = table(&runner);
    runner.cut_at(2, Moment::During { bytes: 33 });
    assert!(matches!(runner.take(LANE, &readings(900, 2)), Err(Stop::Cut { .. })));
    runner.copy_card(&place.join("copy")).expect("copied");
    let there = torn(&runner);
    assert_eq!(there.map(|torn| (torn.position, torn.bytes)), Some((3, 33)));
    runner.swap_card(&place.join("copy")).expect("put in");
    assert_eq!(torn(&runner), there);
    runner.start().expect("started");
    assert_eq!(table(&runner), visible);
}

// ---- torn checkpoints ----

/// A file of the version that the vault expects, with a later seal number than the whole one, and only a beginning of it.
#[test]
fn a_torn_checkpoint_of_the_version_in_use_is_not_offered() {
    let place = Place::new("torn-checkpoint");
    let mut runner = box_with(&place.join("template"), 3);
    runner.checkpoint().expect("made");
    let visible = table(&runner);
    let s = runner.numbers().s;
    let whole = runner.card().and_then(|card| card.checkpoint(s)).expect("read");
    drop(runner);
    let kept = files(&place.join("template"));
    let mut later = whole.clone();
    later[12..20].copy_from_slice(&u64::MAX.to_le_bytes());
    for left in [0, 1, 4, 12, HEAD_LEN - 1, HEAD_LEN, HEAD_LEN + 1, FILE_LEN / 2, FILE_LEN - 1] {
        let mut runner = box_of(&kept, &place.join("box"));
        let card = runner.card().expect("there");
        card.tear_checkpoint(&later, left).expect("torn");
        assert_eq!(card.checkpoint(s).expect("read"), whole, "{left} bytes");
        runner.start().unwrap_or_else(|stop| panic!("{left} bytes: {stop}"));
        assert_eq!(table(&runner), visible);
        // Alone it is none.
        let mut runner = box_of(&kept, &place.join("box"));
        let card = runner.card().expect("there");
        fs::remove_dir_all(card.folder().join(CHECKPOINTS)).expect("removed");
        card.tear_checkpoint(&whole, left).expect("torn");
        assert_eq!(card.checkpoint(s).expect("read"), []);
        assert!(matches!(runner.start(), Err(Stop::Refused(Refusal { number: 9, value: 0 }))), "{left} bytes");
    }
}

/// The plug pulled in the write of every file of a start, again and again: nothing piles up, and the table stays.
#[test]
fn starts_that_leave_torn_checkpoints_again_and_again() {
    let place = Place::new("torn-again");
    let mut runner = box_with(&place.join("box"), 3);
    let visible = table(&runner);
    let folder = runner.card().expect("there").folder().join(CHECKPOINTS);
    for turn in 0..100 {
        let bytes = turn * 97 % FILE_LEN;
        runner.cut_at(if turn % 3 == 0 { 5 } else { 2 }, Moment::During { bytes });
        assert!(matches!(runner.start(), Err(Stop::Cut { store: Store::Checkpoint, len: FILE_LEN, .. })), "{turn}");
        let held = runner.card().and_then(|card| card.held()).expect("read");
        assert!(held.checkpoints >= 1, "{turn}");
        if turn % 10 == 9 {
            runner.start().unwrap_or_else(|stop| panic!("turn {turn}: {stop}"));
            assert_eq!(table(&runner), visible);
            assert_eq!(fs::read_dir(&folder).expect("there").count(), 1);
        }
    }
}

// ---- the plug pulled in any store ----

/// What a box does, from no power on. The stores from the one that the plug is pulled at are counted behind `first`.
struct Operation {
    name: &'static str,
    first: fn(&mut Runner),
    then: fn(&mut Runner) -> Result<(), Stop>,
    stores: usize,
}

fn start(runner: &mut Runner) {
    runner.start().expect("started");
}

const OPERATIONS: [Operation; 5] = [
    Operation {
        name: "a transaction",
        first: start,
        then: |runner| runner.take(LANE, &readings(900, 2)).map(|_| ()),
        stores: 3,
    },
    Operation {
        name: "a checkpoint and a truncation",
        first: |runner| {
            start(runner);
            runner.take(2, &readings(800, 2)).expect("taken");
            runner.point(None).expect("set");
        },
        then: |runner| runner.checkpoint().and_then(|_| runner.truncate(None)).map(|_| ()),
        stores: 3 + 9,
    },
    Operation { name: "a recovery", first: |_| {}, then: |runner| runner.start().map(|_| ()), stores: RECOVERIES[0] },
    Operation {
        name: "a recovery that gives a number up",
        first: |runner| {
            start(runner);
            runner.take(2, &readings(800, 2)).expect("taken");
            runner.accept(LANE, &readings(900, 2)).expect("accepted");
            runner.cut();
        },
        then: |runner| runner.start().map(|_| ()),
        stores: RECOVERIES[1],
    },
    Operation {
        name: "a recovery over a torn record",
        first: |runner| {
            start(runner);
            runner.take(2, &readings(800, 2)).expect("taken");
            runner.cut_at(2, Moment::During { bytes: 33 });
            assert!(matches!(runner.take(LANE, &readings(900, 2)), Err(Stop::Cut { .. })));
        },
        then: |runner| runner.start().map(|_| ()),
        stores: RECOVERIES[1],
    },
];

/// What a cut leaves.
struct Left {
    /// The store, and its length.
    store: Store,
    len: usize,
    /// How many stores were done.
    done: u64,
    files: Files,
}

/// The same box, the same operation, cut at the same store. The key is the same, so that what is sealed is the same too.
fn cut(kept: &Files, folder: &Path, operation: &Operation, store: u64, moment: Moment) -> Left {
    let mut runner = box_of(kept, folder);
    (operation.first)(&mut runner);
    let before = runner.stores();
    runner.cut_at(store, moment);
    match (operation.then)(&mut runner) {
        Err(Stop::Cut { moment: said, store, len }) if said == moment => {
            Left { store, len, done: runner.stores() - before, files: files(folder) }
        }
        other => panic!("{}, {moment} store {store}: {other:?}", operation.name),
    }
}

/// The table that a start comes to.
fn started(kept: &Files, folder: &Path, what: &str) -> Table {
    let mut runner = box_of(kept, folder);
    runner.start().unwrap_or_else(|stop| panic!("{what}: {stop}"));
    table(&runner)
}

#[test]
fn the_plug_pulled_in_any_store_leaves_a_beginning_of_what_is_written_and_nothing_of_any_other() {
    let place = Place::new("torn-stores");
    drop(box_with(&place.join("template"), 3));
    let kept = files(&place.join("template"));
    let folder = place.join("box");
    for operation in &OPERATIONS {
        for at in 1..=operation.stores as u64 {
            let before = cut(&kept, &folder, operation, at, Moment::Before);
            let after = cut(&kept, &folder, operation, at, Moment::After);
            assert_eq!((before.store, before.done, after.done), (after.store, at - 1, at));
            let tables = [&before, &after].map(|left| started(&left.files, &folder, operation.name));
            let is_written = matches!(after.store, Store::Record { .. } | Store::Checkpoint);
            for bytes in [0, 1, HEAD_LEN - 1, HEAD_LEN, 55, FILE_LEN - 1, FILE_LEN, usize::MAX] {
                let what = format!("{}, store {at} ({}), {bytes} bytes", operation.name, after.store);
                let torn = cut(&kept, &folder, operation, at, Moment::During { bytes });
                let is_done = is_written && bytes >= after.len;
                assert_eq!((torn.store, torn.len, torn.done), (after.store, after.len, at - u64::from(!is_done)));
                let mut expected = if is_done { after.files.clone() } else { before.files.clone() };
                if is_written && !is_done {
                    let new = after.files.iter().filter(|(name, _)| !before.files.contains_key(*name));
                    let [(name, whole)] = new.collect::<Vec<_>>()[..] else { panic!("{what}: not one file more") };
                    assert_eq!(whole.len(), after.len);
                    expected.insert(name.clone(), whole[..bytes].to_vec());
                }
                assert!(torn.files == expected, "{what}: other files");
                assert_eq!(started(&torn.files, &folder, &what), tables[usize::from(is_done)], "{what}");
            }
        }
    }
}
