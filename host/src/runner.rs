//! A box that runs: the collector's state in memory, the vault and the card in their files.
//!
//! The one rule of the library: a call that is taken names at most one store, and the host carries out exactly that store
//! before the next call. `Runner::follow` does so behind every call; nothing else here sets the vault, or changes a record or a
//! checkpoint that a start may ask for. A store that cannot be done stops the box as a power cut does, since the next call may
//! not come before it. The plug can be pulled before or after any store, and in the middle of one: then a beginning of a record
//! or a checkpoint is left, as by a card that does not write whole or not at all.
//!
//! What a host does beside the stores: before a start acts on what it finds, that is on the disk, whoever wrote it (a session that
//! was killed, somebody who copied a card), and the card was written to for a trial. When S is stored, what no start asks for any
//! more is removed from the card; a card without room is swept the same way, and the store tried again. A record that never
//! reads back is removed too: it was not visible.

use std::fmt;
use std::path::Path;

use crate::card::{Card, Log, Torn};
use crate::collector::{Collector, Numbers, Phase, Reading, Refusal, Store, Taken};
use crate::files::{Disk, Fault};
use crate::folder::BoxFolder;
use crate::limits::{FILE_LEN, POINTS};
use crate::vault::VaultFile;
use crate::words;

/// So often a record is read back before it counts as lost.
const READS: usize = 3;
/// What to do with a card that has no room left.
const FULL_CARD: &str = "delete from the card what is not the box's, or copy it to a larger one";
/// The number of a box that holds as many records or points as it can.
const FULL: u8 = words::FULL_OF_RECORDS.number;

/// On which side of a store the power fails, or in it.
#[derive(Clone, Copy, Debug, PartialEq, Eq)]
pub enum Moment {
    /// The store is not done.
    Before,
    /// So many bytes of a record or a checkpoint are written, or all that it has; any other store is not done.
    During { bytes: usize },
    /// The store is done.
    After,
}

impl fmt::Display for Moment {
    fn fmt(&self, to: &mut fmt::Formatter) -> fmt::Result {
        to.write_str(match self {
            Moment::Before => "before",
            Moment::During { .. } => "during",
            Moment::After => "after",
        })
    }
}

/// The plug: at which store from here it is pulled, if at any.
#[derive(Clone, Copy, Debug, Default)]
struct Plug {
    set: Option<(u64, Moment)>,
}

impl Plug {
    /// Counts a store that begins; the moment at which the power fails, if it fails at this one.
    fn count(&mut self) -> Option<Moment> {
        let (left, moment) = self.set?;
        self.set = (left > 1).then_some((left.saturating_sub(1), moment));
        (left <= 1).then_some(moment)
    }
}

/// Why an operation did not come to its end.
#[derive(Debug)]
pub enum Stop {
    /// The box has no power.
    Off,
    /// The library refused a call; the state is as before it.
    Refused(Refusal),
    /// The plug was pulled; the state is lost. How many bytes the store was to write, 0 where it writes none.
    Cut { moment: Moment, store: Store, len: usize },
    /// A store could not be done; the state is lost.
    Store { store: Store, fault: Fault },
    /// A file could not be read; the state is as before.
    Failed(Fault),
    /// A record that was just written does not read back, so its reading is not visible; and what the start came to that
    /// followed, since the lane could not go on before one.
    Unread { position: u64, why: Box<Stop>, start: Result<Started, Box<Stop>> },
}

impl From<Fault> for Stop {
    fn from(fault: Fault) -> Stop {
        Stop::Failed(fault)
    }
}

impl fmt::Display for Stop {
    fn fmt(&self, to: &mut fmt::Formatter) -> fmt::Result {
        match self {
            Stop::Off => write!(to, "the box has no power: start it first"),
            Stop::Refused(refusal) => write!(to, "refused: {refusal}"),
            Stop::Cut { moment, store, len } => {
                write!(to, "power cut {moment} the store ({store})")?;
                match *moment {
                    Moment::During { bytes } if *len > 0 => {
                        let bytes = bytes.min(*len);
                        write!(to, ", {bytes} byte{} of {len} written", if bytes == 1 { "" } else { "s" })?;
                    }
                    Moment::During { .. } => write!(to, ", nothing of it done")?,
                    Moment::Before | Moment::After => {}
                }
                write!(to, ": the state is lost; go on with start")
            }
            Stop::Store { store, fault } => {
                write!(
                    to,
                    "failed: the store ({store}) was not done: {fault}. The box has stopped; mend this, then start"
                )
            }
            Stop::Failed(fault) => write!(to, "failed: {fault}"),
            Stop::Unread { position, why, start } => {
                let why = match &**why {
                    Stop::Refused(refusal) => format!("refused: {}", refusal.number),
                    other => other.to_string(),
                };
                write!(to, "failed: the record at position {position} does not read back from the card ({why}). ")?;
                write!(to, "Its readings are not visible. The box was started again")?;
                match start {
                    Ok(started) => {
                        let stores = started.stores;
                        write!(
                            to,
                            " and is in service after {stores} stores: take them anew, and change the card if "
                        )?;
                        write!(to, "this comes again")
                    }
                    Err(stop) => write!(to, ": {stop}"),
                }
            }
        }
    }
}

/// What a start came to.
#[derive(Clone, Copy, Debug, PartialEq, Eq)]
pub struct Started {
    /// Stores of the recovery.
    pub stores: usize,
    /// Records that the card handed over.
    pub records: usize,
    /// A torn one at their end, which was passed over.
    pub torn: Option<Torn>,
}

/// A transaction that was given its number.
#[derive(Clone, Copy, Debug, PartialEq, Eq)]
pub struct Numbered {
    /// Its lane.
    pub lane: u8,
    /// Its number in the lane.
    pub number: u64,
    /// Its record's position.
    pub position: u64,
}

/// What making room came to.
#[derive(Clone, Copy, Debug, PartialEq, Eq)]
pub struct Tidied {
    /// Where the point stands.
    pub point: u64,
    /// The checkpoint's version.
    pub version: u64,
    /// Records that were deleted from the card.
    pub deleted: usize,
}

/// A box that runs, or could. The key is in its collector's state, so it has no way to be printed.
pub struct Runner {
    folder: BoxFolder,
    vault: VaultFile,
    /// The state; none without power.
    collector: Option<Collector>,
    plug: Plug,
    /// Stores done.
    stores: u64,
    /// The buffer lent to the calls that put bytes out.
    out: Vec<u8>,
}

impl Runner {
    /// The box of a folder, without power, and with or without a card.
    pub fn open(folder: &Path, disk: Disk) -> Result<Runner, Fault> {
        let folder = BoxFolder::open(folder, disk)?;
        folder.key()?;
        let vault = folder.vault()?;
        let out = vec![0; FILE_LEN];
        Ok(Runner { folder, vault, collector: None, plug: Plug::default(), stores: 0, out })
    }

    /// Load and Recover, until the box is in service. The vault's numbers and the key are read anew. A box that is
    /// refused stays cold.
    pub fn start(&mut self) -> Result<Started, Stop> {
        self.collector = None;
        self.folder.settle()?;
        let card = self.card()?;
        card.settle()?;
        let (first, records, torn) = self.read(&card)?;
        // The card is the box's own. Where it cannot be written to, nothing has happened yet.
        if let Err(fault) = self.with_room(&card, true, || card.try_out()) {
            self.collector = None;
            return Err(Stop::Failed(fault));
        }
        self.follow(first)?;
        let mut stores = 1;
        while self.phase() != Some(Phase::InService) {
            // From the second call on Recover looks at neither checkpoint nor log.
            self.call(|collector, out| collector.recover(&[], &[], out))?;
            stores += 1;
        }
        Ok(Started { stores, records, torn })
    }

    /// The table that a start would come to, without one: no store is done, and vault and card stay as they are.
    pub fn look(&mut self) -> Result<Vec<(u8, Reading)>, Stop> {
        self.look_at(Collector::readings)
    }

    /// What can be seen of the collector that a start would come to, in the same way.
    pub fn look_at<T>(&mut self, see: impl FnOnce(&Collector) -> T) -> Result<T, Stop> {
        let card = self.card()?;
        let read = self.read(&card);
        let collector = self.collector.take().ok_or(Stop::Off);
        read.and_then(|_| collector.map(|collector| see(&collector)))
    }

    /// Load, and Recover's first call on what the card hands over: the store that it names, how many records there are, and a
    /// torn one behind them.
    fn read(&mut self, card: &Card) -> Result<(Taken, usize, Option<Torn>), Stop> {
        self.collector = None;
        self.vault = self.folder.vault()?;
        let numbers = *self.vault.numbers();
        let checkpoint = card.checkpoint(numbers.s)?;
        let Log { bytes: log, records, torn } = card.log()?;
        let mut collector = Collector::load(&numbers, &*self.folder.key()?).map_err(Stop::Refused)?;
        let first = collector.recover(&checkpoint, &log, &mut self.out);
        self.collector = Some(collector);
        Ok((first.map_err(Stop::Refused)?, records, torn))
    }

    /// Accept, Seal and Commit: takes a transaction on a lane and makes it visible. A record that does not read back is read
    /// again. Where it never does, it is removed, since no start takes a card with a record that does not open and is not torn; and
    /// the box is started again, so that the lane goes on.
    pub fn take(&mut self, lane: u8, transaction: &[u8]) -> Result<Numbered, Stop> {
        let open = self.is_open(lane);
        let accepted = self.accept(lane, transaction)?;
        let mut last = Stop::Off;
        for _ in 0..READS {
            match self.commit(accepted.position) {
                Ok(()) => return Ok(accepted),
                // Somebody accepted a record before it and has not made it visible: it is that one's turn.
                Err(stop @ Stop::Refused(_)) if open => return Err(stop),
                Err(stop @ (Stop::Refused(_) | Stop::Failed(_))) => last = stop,
                Err(stop) => return Err(stop),
            }
        }
        let position = accepted.position;
        let removed = self.card().and_then(|card| card.drop_record(position)).map_err(Stop::Failed);
        let start = removed.and_then(|()| self.start()).map_err(Box::new);
        Err(Stop::Unread { position, why: Box::new(last), start })
    }

    /// The same, where room is made for it if the box holds as many records as it can; and what was done for that.
    pub fn take_tidy(&mut self, lane: u8, transaction: &[u8]) -> Result<(Numbered, Option<Tidied>), Stop> {
        match self.take(lane, transaction) {
            Err(Stop::Refused(Refusal { number: FULL, .. })) => {
                let tidied = self.tidy()?;
                Ok((self.take(lane, transaction)?, Some(tidied)))
            }
            taken => Ok((taken?, None)),
        }
    }

    /// Makes room: a point, a checkpoint, a truncation. Where as many points are kept as can be, they go first.
    pub fn tidy(&mut self) -> Result<Tidied, Stop> {
        let collector = self.collector.as_ref().ok_or(Stop::Off)?;
        let before = self.card()?.held()?.records;
        if collector.points() == POINTS as u64 {
            self.checkpoint()?;
            self.truncate(None)?;
        }
        let point = self.point(None)?;
        let (version, _) = self.checkpoint()?;
        self.truncate(None)?;
        let deleted = before.saturating_sub(self.card()?.held()?.records);
        Ok(Tidied { point, version, deleted })
    }

    /// Accept and Seal: the first half of taking a transaction, up to its record on the card.
    pub fn accept(&mut self, lane: u8, transaction: &[u8]) -> Result<Numbered, Stop> {
        let position = self.next_position();
        self.call(|collector, _| collector.accept(transaction, lane, position))?;
        self.call(|collector, out| collector.seal(out))?;
        let number = self.numbers().w.get(usize::from(lane)).copied().unwrap_or_default();
        Ok(Numbered { lane, number, position })
    }

    /// Commit: the second half. The library gets the record's bytes as the card has them.
    pub fn commit(&mut self, position: u64) -> Result<(), Stop> {
        if self.collector.is_none() {
            return Err(Stop::Off);
        }
        let record = self.card()?.read_record(position)?;
        self.call(|collector, _| collector.commit(&record))
    }

    /// Point: sets a point, behind all records if no position is given. Where it stands.
    pub fn point(&mut self, position: Option<u64>) -> Result<u64, Stop> {
        let position = position.unwrap_or_else(|| self.next_position());
        self.call(|collector, _| collector.point(position))?;
        Ok(position)
    }

    /// Checkpoint: three stores. Its version and seal number.
    pub fn checkpoint(&mut self) -> Result<(u64, u64), Stop> {
        for _ in 0..3 {
            self.call(|collector, out| collector.checkpoint(out))?;
        }
        Ok((self.numbers().s, self.numbers().n))
    }

    /// Truncate: nine stores, at the newest covered point if no position is given. Where that was.
    pub fn truncate(&mut self, position: Option<u64>) -> Result<u64, Stop> {
        let position = position.or_else(|| self.covered_point()).unwrap_or_default();
        for _ in 0..9 {
            self.call(|collector, _| collector.truncate(position))?;
        }
        Ok(position)
    }

    /// Pulls the plug at once. False if there was no power.
    pub fn cut(&mut self) -> bool {
        self.plug = Plug::default();
        self.collector.take().is_some()
    }

    /// Pulls the plug before, in or after a store, counted from here; the next one is 1.
    pub fn cut_at(&mut self, store: u64, moment: Moment) {
        self.plug.set = Some((store, moment));
    }

    /// Leaves the plug in.
    pub fn cut_never(&mut self) {
        self.plug.set = None;
    }

    /// Lifts the card out and puts another one in, with power or without.
    pub fn swap_card(&mut self, folder: &Path) -> Result<(), Fault> {
        self.folder.put_in(folder)
    }

    /// Copies the card that is in to a folder that is not there yet. S is read anew, and is on the disk before it is gone by: a
    /// store that was reported as failed may have been done.
    pub fn copy_card(&self, folder: &Path) -> Result<(), Fault> {
        self.folder.settle()?;
        self.card()?.copy_to(folder, self.folder.vault()?.numbers().s)
    }

    /// The card that is in; a fault where there is none.
    pub fn card(&self) -> Result<Card, Fault> {
        self.folder.card()
    }

    /// Its folder.
    pub fn folder(&self) -> &BoxFolder {
        &self.folder
    }

    /// The collector, where there is power.
    pub fn collector(&self) -> Option<&Collector> {
        self.collector.as_ref()
    }

    /// The vault's numbers.
    pub fn numbers(&self) -> &Numbers {
        self.vault.numbers()
    }

    /// How many stores were done since the box was opened.
    pub fn stores(&self) -> u64 {
        self.stores
    }

    /// The store from here at which the plug will be pulled.
    pub fn cut_set(&self) -> Option<(u64, Moment)> {
        self.plug.set
    }

    /// Whether a lane has a number that was handed out and is not visible.
    fn is_open(&self, lane: u8) -> bool {
        let Numbers { w, v, .. } = self.numbers();
        w.get(usize::from(lane)) != v.get(usize::from(lane))
    }

    fn phase(&self) -> Option<Phase> {
        self.collector.as_ref().map(Collector::phase)
    }

    /// A position above every one used since service began and above the newest point. The greatest of all is given
    /// again where there is none, and refused.
    fn next_position(&self) -> u64 {
        let Some(state) = self.collector.as_ref().map(Collector::state) else { return 0 };
        let behind = |any: u8, last: u64| if any == 1 { last.saturating_add(1) } else { 0 };
        behind(state.journal.used, state.journal.last).max(behind(state.points.any, state.points.newest))
    }

    /// The newest point that a checkpoint covers; else the newest one at all.
    fn covered_point(&self) -> Option<u64> {
        let points = &self.collector.as_ref()?.state().points;
        let kept = points.items.iter().take(points.count);
        kept.map(|point| (point.covered, point.position)).max().map(|(_, position)| position)
    }

    /// A call, and the store that it names.
    fn call<F>(&mut self, call: F) -> Result<(), Stop>
    where
        F: FnOnce(&mut Collector, &mut [u8]) -> Result<Taken, Refusal>,
    {
        let collector = self.collector.as_mut().ok_or(Stop::Off)?;
        let taken = call(collector, &mut self.out).map_err(Stop::Refused)?;
        self.follow(taken)
    }

    /// The store that a taken call names.
    fn follow(&mut self, taken: Taken) -> Result<(), Stop> {
        match taken.store {
            Some(store) => self.carry_out(store, taken.len),
            None => Ok(()),
        }
    }

    /// Carries out a store, unless the plug is pulled before it, or in it.
    fn carry_out(&mut self, store: Store, len: usize) -> Result<(), Stop> {
        let pulled = self.plug.count();
        let done = match pulled {
            Some(Moment::Before) => Ok(false),
            Some(Moment::During { bytes }) if len == 0 || bytes < len => self.tear(&store, len, bytes).map(|()| false),
            _ => self.store(&store, len).map(|()| true),
        };
        match done {
            Ok(done) => self.stores += u64::from(done),
            Err(fault) => {
                self.collector = None;
                return Err(Stop::Store { store, fault });
            }
        }
        let Some(moment) = pulled else { return Ok(()) };
        self.collector = None;
        Err(Stop::Cut { moment, store, len })
    }

    /// Does as much of a store as a cut in it leaves: so many bytes of a record or a checkpoint, and nothing of any other.
    fn tear(&self, store: &Store, len: usize, left: usize) -> Result<(), Fault> {
        let bytes = self.out.get(..len).unwrap_or_default();
        match *store {
            Store::Record { position } => self.card()?.tear_record(position, bytes, left),
            Store::Checkpoint => self.card()?.tear_checkpoint(bytes, left),
            _ => Ok(()),
        }
    }

    /// Does a store.
    fn store(&mut self, store: &Store, len: usize) -> Result<(), Fault> {
        match store {
            Store::Record { .. } | Store::Checkpoint | Store::Delete { .. } | Store::Empty => {
                self.card_store(store, len)
            }
            Store::W { .. }
            | Store::V { .. }
            | Store::R { .. }
            | Store::E { .. }
            | Store::S { .. }
            | Store::N { .. } => {
                self.vault.set(store)?;
                if let (Store::S { value }, Ok(card)) = (store, self.card()) {
                    card.sweep(*value);
                }
                Ok(())
            }
        }
    }

    /// Does a store of the card.
    fn card_store(&self, store: &Store, len: usize) -> Result<(), Fault> {
        let card = self.card()?;
        let bytes = self.out.get(..len).unwrap_or_default();
        let makes_room = !matches!(store, Store::Record { .. });
        self.with_room(&card, makes_room, || match *store {
            Store::Record { position } => card.write_record(position, bytes),
            Store::Delete { below } => card.delete_below(below),
            Store::Empty => card.empty(),
            _ => card.write_checkpoint(bytes),
        })?;
        if matches!(store, Store::Delete { .. } | Store::Empty) {
            card.keep_reserve();
        }
        Ok(())
    }

    /// Writes to the card. Where it is full, it is swept; and what makes room gets the room that was kept for it.
    fn with_room(&self, card: &Card, makes_room: bool, write: impl Fn() -> Result<(), Fault>) -> Result<(), Fault> {
        let no_room = |done: &Result<(), Fault>| done.as_ref().is_err_and(Fault::is_no_room);
        let mut done = write();
        if no_room(&done) {
            card.sweep(self.numbers().s);
            done = write();
        }
        if no_room(&done) && makes_room && card.give_up_reserve() {
            done = write();
        }
        done.map_err(|fault| fault.or_full(card.folder(), FULL_CARD))
    }
}

#[cfg(test)]
mod tests {
    use super::*;
    use crate::files::medium::{reads_badly, writes_badly};
    use crate::files::scratch::Scratch;
    use crate::limits::RECORDS;
    use crate::transaction::{self, Write};

    fn reading(stamp: u64) -> Vec<u8> {
        transaction::bytes(stamp, &[Write { meter: 3, code: 1, reading: stamp as i32 }])
    }

    fn started(scratch: &Scratch) -> Runner {
        let place = scratch.path().join("box");
        BoxFolder::create(&place, Disk::Quick).expect("made");
        let mut runner = Runner::open(&place, Disk::Quick).expect("opened");
        runner.start().expect("started");
        runner
    }

    fn latest(runner: &Runner) -> u64 {
        runner.collector().and_then(|c| c.reading(3)).map_or(0, |reading| reading.stamp)
    }

    #[test]
    fn a_record_that_reads_badly_is_read_again() {
        let scratch = Scratch::new();
        let mut runner = started(&scratch);
        for bad in 0..READS as u32 {
            reads_badly(bad);
            let taken = runner.take(0, &reading(u64::from(bad) + 1)).expect("taken");
            assert_eq!(taken.number, u64::from(bad) + 1);
        }
        assert_eq!(latest(&runner), READS as u64);
    }

    #[test]
    fn a_record_that_never_reads_back_jams_no_lane() {
        let scratch = Scratch::new();
        let mut runner = started(&scratch);
        runner.take(0, &reading(1)).expect("taken");
        for turn in 2..4 {
            // The first time it is read badly, the second time it stands badly on the card.
            if turn == 2 {
                reads_badly(READS as u32);
            } else {
                writes_badly(1);
            }
            let Err(stop) = runner.take(0, &reading(9)) else { panic!("taken") };
            assert!(matches!(stop, Stop::Unread { start: Ok(Started { stores: 24, .. }), .. }), "{stop}");
            assert_eq!(latest(&runner), turn - 1);
            runner.take(0, &reading(turn)).expect("taken");
            assert_eq!(latest(&runner), turn);
        }
        runner.start().expect("started");
        assert_eq!(latest(&runner), 3);
    }

    #[test]
    fn a_record_before_it_has_its_turn_first() {
        let scratch = Scratch::new();
        let mut runner = started(&scratch);
        let first = runner.accept(0, &reading(1)).expect("accepted");
        assert!(matches!(runner.take(0, &reading(2)), Err(Stop::Refused(Refusal { number: 11, .. }))));
        runner.take(1, &reading(3)).expect("taken on another lane");
        runner.commit(first.position).expect("visible");
        runner.commit(first.position + 1).expect("visible");
        assert_eq!(latest(&runner), 3);
    }

    #[test]
    fn a_look_changes_nothing() {
        let scratch = Scratch::new();
        let mut runner = started(&scratch);
        runner.take(0, &reading(1)).expect("taken");
        runner.accept(0, &reading(2)).expect("accepted");
        let expected = runner.collector().expect("power").readings();
        runner.cut();
        let before = (*runner.numbers(), runner.card().and_then(|card| card.held()).expect("read"));
        assert_eq!(runner.look().expect("taken"), expected);
        assert!(runner.collector().is_none());
        assert_eq!((*runner.numbers(), runner.card().and_then(|card| card.held()).expect("read")), before);
        assert_eq!(runner.start().expect("started").stores, 24);
        assert_eq!(runner.collector().expect("power").readings(), expected);
    }

    #[test]
    fn room_is_made_for_a_reading() {
        let scratch = Scratch::new();
        let mut runner = started(&scratch);
        for stamp in 1..=RECORDS as u64 {
            assert!(runner.take_tidy(0, &reading(stamp)).expect("taken").1.is_none());
        }
        assert!(matches!(runner.take(0, &reading(900)), Err(Stop::Refused(Refusal { number: FULL, .. }))));
        let (_, tidied) = runner.take_tidy(0, &reading(900)).expect("taken");
        assert_eq!(tidied.map(|t| (t.point, t.deleted)), Some((RECORDS as u64, RECORDS)));
        assert_eq!(latest(&runner), 900);
    }

    #[test]
    fn room_is_made_with_all_points_kept_too() {
        let scratch = Scratch::new();
        let mut runner = started(&scratch);
        for stamp in 1..=POINTS as u64 {
            runner.take(0, &reading(stamp)).expect("taken");
            runner.point(None).expect("set");
        }
        for stamp in 0..RECORDS as u64 {
            runner.take(0, &reading(100 + stamp)).expect("taken");
        }
        assert!(matches!(runner.point(None), Err(Stop::Refused(Refusal { number: FULL, .. }))));
        let (_, tidied) = runner.take_tidy(0, &reading(900)).expect("taken");
        assert_eq!(tidied.map(|t| t.deleted), Some(RECORDS + POINTS));
        assert_eq!(runner.card().and_then(|card| card.held()).expect("read").records, 1);
        assert_eq!(latest(&runner), 900);
    }
}
