//! The states that cuts leave, built in a folder, and the box started from each.

use std::collections::HashMap;
use std::fs;
use std::panic::{AssertUnwindSafe, catch_unwind};
use std::path::{Path, PathBuf};

use paviluko_host::files::Disk as Waits;
use paviluko_host::runner::Runner;
use paviluko_host::transaction::{self, Write};

use crate::disk::{Disk, Id, Left, Tree, combinations};
use crate::place::Place;
use crate::random::Random;
use crate::record::{Ended, Event, Fault, History, Recorder};
use crate::script::{Command, Expected, Table, table};
use crate::{AGAIN, FIRST_CARD, GOES_ON, LONG, LOSSES, MORE, ONE_OF};

/// What a start came to.
#[derive(Clone, Debug)]
pub enum Start {
    /// There is no box that can be opened.
    NoBox(String),
    /// The box is not in service.
    Refused(String),
    /// The box is in service. The card that `card` named before.
    Table(Table, PathBuf),
    /// The box was in service, and then something went wrong.
    Wrong(String),
}

impl Start {
    fn words(&self) -> String {
        match self {
            Start::NoBox(why) => format!("no box: {why}"),
            Start::Refused(why) => format!("not in service: {why}"),
            Start::Table(table, _) => format!("another table: {table:?}"),
            Start::Wrong(why) => why.clone(),
        }
    }
}

/// Whether a sync of a file or a folder counts.
pub type Heeds<'a> = &'a dyn Fn(&Disk, Id) -> bool;

/// When the power is cut.
#[derive(Clone, Copy, Debug, PartialEq, Eq)]
pub enum Cuts {
    /// Behind every event from one on.
    From(usize),
    /// Behind one of `ONE_OF` events from one on.
    SomeFrom(usize),
    /// Behind every answer.
    Answers,
    Never,
}

/// A session, recorded.
pub struct Session {
    /// What it is about.
    pub about: String,
    pub history: History,
    /// The table before it and the card that is in, where there is a box.
    pub start: Option<(Table, String)>,
    /// The scripts of its runs of the program.
    pub scripts: Vec<Vec<Command>>,
    pub cuts: Cuts,
    /// So many combinations of what is left are tried at a cut.
    pub bound: usize,
}

impl Session {
    /// The disk after all that happened.
    pub fn end(&self) -> Disk {
        let mut disk = self.history.before.clone();
        self.history.events.iter().for_each(|(_, event)| disk.follow(event));
        disk
    }
}

/// A state from which the box does not start as it should.
pub struct Loss {
    /// The session and the command.
    pub place: String,
    pub what: String,
}

/// What was started from: a state, by its hash, with two cards in question, or with a copy put in.
type Tried = (u64, Option<[String; 2]>, Option<String>);

/// Where sessions are recorded, states built, and boxes started.
pub struct Bench {
    pub place: Place,
    /// The folder that all happens in. A box knows its card by the path, so that states are built here too.
    pub top: PathBuf,
    recorder: Recorder,
    random: Random,
    /// What starts came to.
    known: HashMap<Tried, Start>,
    /// How many states were tried.
    pub states: usize,
    /// Some of them, to go on from: with what is in the table, and the card that is in.
    pub some: Vec<(Tree, Table, String)>,
    pub losses: Vec<Loss>,
    more: usize,
}

impl Bench {
    pub fn new(name: &str) -> Bench {
        let place = Place::new(name);
        let here = fs::canonicalize(place.join("")).expect("a folder");
        Bench {
            top: here.join("top"),
            recorder: Recorder::new(&here),
            random: Random(0x9e37_79b9_7f4a_7c15),
            known: HashMap::new(),
            states: 0,
            some: Vec::new(),
            losses: Vec::new(),
            more: std::env::var(MORE).ok().and_then(|more| more.parse().ok()).unwrap_or(1),
            place,
        }
    }

    /// The folder with what is to be in it, all on the disk; or empty.
    pub fn fresh(&self, tree: Option<&Tree>) -> History {
        match tree {
            Some(tree) => tree.build(&self.top),
            None => {
                let _ = fs::remove_dir_all(&self.top);
                fs::create_dir(&self.top).expect("a folder");
            }
        }
        History::new(&self.top)
    }

    /// Runs a script in the folder, and adds what happens to the history.
    pub fn run(&self, history: &mut History, commands: &[Command], fault: &Fault) -> Ended {
        if commands == [Command::New] {
            return history.run(&self.recorder, &["new", "box"], fault);
        }
        let script = self.place.join("script");
        let lines: String = commands.iter().map(|command| command.line() + "\n").collect();
        fs::write(&script, lines).expect("written");
        history.run(&self.recorder, &["run", "box", script.to_str().expect("text")], fault)
    }

    /// A session as it was recorded: the record accounts for all that is in the folder.
    pub fn recorded(&self, session: Session) -> Session {
        let there = Disk::of(&self.top).0;
        assert_eq!(session.end().whole().hash, there.whole().hash, "{}: the record is not complete", session.about);
        session
    }

    /// The power is cut at every moment of a session.
    pub fn cut(&mut self, session: &Session) {
        let mut losses = self.losses_of(session, &|_, _| true, usize::MAX);
        self.losses.append(&mut losses);
    }

    /// The states of a session from which the box does not start as it should. It is given up when there are so many.
    pub fn losses_of(&mut self, session: &Session, heeds: Heeds, limit: usize) -> Vec<Loss> {
        let mut losses = Vec::new();
        let whole = session.end().whole();
        let end = match self.start(&whole, None, None) {
            Start::Table(table, _) => table,
            _ => Table::new(),
        };
        let mut disk = session.history.before.clone();
        let mut expected = Expected::new(session.start.as_ref(), &end);
        let mut scripts = session.scripts.iter();
        for (at, (_, event)) in session.history.events.iter().enumerate() {
            match event {
                Event::Sync(id) if !heeds(&disk, *id) => (),
                Event::Began => expected.begin(scripts.next().expect("a script")),
                Event::Said(line) => expected.said(line),
                Event::Failed(_) => expected.fails(),
                other => disk.follow(other),
            }
            let cut = match session.cuts {
                Cuts::From(from) => at >= from && (!expected.is_long() || at.is_multiple_of(LONG)),
                Cuts::SomeFrom(from) => at >= from && at.is_multiple_of((ONE_OF / self.more).max(1)),
                Cuts::Answers => matches!(event, Event::Said(_)),
                Cuts::Never => false,
            };
            if cut && losses.len() < limit {
                self.cut_here(session, &disk, &expected, &mut losses);
            }
        }
        if let Some(what) = self.wrong(&whole, &expected) {
            losses.push(Loss { place: format!("{}: without a cut", session.about), what });
        }
        losses
    }

    /// The power is cut here.
    fn cut_here(&mut self, session: &Session, disk: &Disk, expected: &Expected, losses: &mut Vec<Loss>) {
        let command = expected.command().map_or("the end".to_string(), Command::line);
        let place = format!("{}: in {command}", session.about);
        let enough = losses.len() + LOSSES;
        for left in combinations(disk.changes(), session.bound * self.more, &mut self.random) {
            let tree = disk.tree(&left);
            let Some(wrong) = self.wrong(&tree, expected) else { continue };
            let first_card = match self.start(&tree, None, Some(&FIRST_CARD.to_string())) {
                Start::Table(..) => "the first card is taken".to_string(),
                other => format!("with the first card {}", other.words()),
            };
            let missing = disk.changes().iter().zip(&left).filter(|(_, left)| **left != Left::All);
            let missing: Vec<String> = missing.map(|(c, left)| format!("{} ({left:?})", disk.words(c))).collect();
            let missing = format!("missing of {} changes: {}", left.len(), missing.join(", "));
            let what = format!("{wrong}; {first_card}; {missing}");
            losses.push(Loss { place: place.clone(), what });
            if losses.len() == enough {
                break;
            }
        }
    }

    /// What is wrong with a state, if anything is.
    fn wrong(&mut self, tree: &Tree, expected: &Expected) -> Option<String> {
        if let Some(name) = expected.folders.iter().find(|name| !tree.has_folder(name)) {
            return Some(format!("the folder {name} is gone"));
        }
        for copy in &expected.copies {
            match self.start(tree, None, Some(copy)) {
                Start::Table(table, _) if expected.allows(&table) => (),
                other => return Some(format!("with the copy {copy}: {}", other.words())),
            }
        }
        match self.start(tree, expected.two.as_ref(), None) {
            Start::Table(table, card) if expected.allows(&table) => {
                let fine = expected.has_card(&self.top, &card);
                (!fine).then(|| format!("another card is in: {}", card.display()))
            }
            Start::NoBox(_) if !expected.made => None,
            other => Some(other.words()),
        }
    }

    /// What a start from a state comes to: with the card that is in, or with the one of two that is taken, or with a copy
    /// put in.
    pub fn start(&mut self, tree: &Tree, two: Option<&[String; 2]>, copy: Option<&String>) -> Start {
        let key = (tree.hash, two.cloned(), copy.cloned());
        if let Some(known) = self.known.get(&key) {
            return known.clone();
        }
        tree.build(&self.top);
        self.states += 1;
        let goes_on = self.states.is_multiple_of(GOES_ON);
        let done = catch_unwind(AssertUnwindSafe(|| start(&self.top, two, copy, goes_on)));
        let start = done.unwrap_or_else(|_| Start::Wrong("the host panics".to_string()));
        if let (Start::Table(table, card), None, None) = (&start, two, copy)
            && self.states.is_multiple_of(AGAIN / self.more.min(AGAIN))
        {
            let card = card.strip_prefix(&self.top).expect("below the top").display().to_string();
            self.some.push((tree.clone(), table.clone(), card));
        }
        self.known.insert(key, start.clone());
        start
    }

    /// The card that a box is started with now: its first one, or the one in the folder `two`.
    pub fn own_card(&mut self) -> &'static str {
        let tree = Disk::of(&self.top).0.whole();
        // The folder itself stays as it is, with its inodes.
        let kept = self.place.join("kept");
        fs::rename(&self.top, &kept).expect("put aside");
        let starts = |card: &&str| matches!(self.start(&tree, None, Some(&card.to_string())), Start::Table(..));
        let own = [FIRST_CARD, "two"].into_iter().find(starts).unwrap_or(FIRST_CARD);
        // It is not there where all was known.
        let _ = fs::remove_dir_all(&self.top);
        fs::rename(&kept, &self.top).expect("put back");
        own
    }
}

/// Opens and starts the box.
fn start(top: &Path, two: Option<&[String; 2]>, copy: Option<&String>, goes_on: bool) -> Start {
    let mut runner = match Runner::open(&top.join("box"), Waits::Quick) {
        Ok(runner) => runner,
        Err(fault) => return Start::NoBox(fault.to_string()),
    };
    let card = named(top);
    let started = match (two, copy) {
        (Some(two), _) => one_of(&mut runner, &card, two.each_ref().map(|name| top.join(name))),
        (None, Some(copy)) => start_with(&mut runner, &top.join(copy)),
        (None, None) => start_again(&mut runner),
    };
    let table = match started {
        Ok(table) => table,
        Err(why) => return Start::Refused(why),
    };
    match if goes_on { go_on(&mut runner, &table) } else { Ok(()) } {
        Ok(()) => Start::Table(table, card),
        Err(why) => Start::Wrong(format!("in service, but later: {why}")),
    }
}

/// The folder that `card` names.
fn named(top: &Path) -> PathBuf {
    let name = fs::read_to_string(top.join("box/card")).unwrap_or_default();
    top.join("box").join(name.trim_end())
}

/// Pulls the plug and starts.
fn start_again(runner: &mut Runner) -> Result<Table, String> {
    runner.cut();
    runner.start().map_err(|stop| stop.to_string())?;
    Ok(table(&runner.collector().expect("power").readings()))
}

/// Starts with another card.
fn start_with(runner: &mut Runner, card: &Path) -> Result<Table, String> {
    runner.swap_card(card).map_err(|fault| fault.to_string())?;
    start_again(runner)
}

/// Starts with the card that is in, or else with the other of two. Just one of them is taken.
fn one_of(runner: &mut Runner, named: &Path, two: [PathBuf; 2]) -> Result<Table, String> {
    let [first, second] = if two[1] == named { [&two[1], &two[0]] } else { [&two[0], &two[1]] };
    let (own, other, table) = match start_again(runner) {
        Ok(table) => (first, second, table),
        Err(why) => match start_with(runner, second) {
            Ok(table) => (second, first, table),
            Err(also) => return Err(format!("{}: {why}; {}: {also}", first.display(), second.display())),
        },
    };
    if start_with(runner, other).is_ok() {
        return Err("both cards are taken".to_string());
    }
    (start_with(runner, own)? == table).then_some(table).ok_or("the other card changed the table".to_string())
}

/// Starts again, takes a transaction, and starts again.
fn go_on(runner: &mut Runner, before: &Table) -> Result<(), String> {
    if start_again(runner)? != *before {
        return Err("another table at the next start".to_string());
    }
    let taken = runner.take(7, &transaction::bytes(9_000_000, &[Write { meter: 255, code: 1, reading: 7 }]));
    let number = taken.map_err(|stop| stop.to_string())?.number;
    let mut expected = before.clone();
    expected.insert(255, (1, 7, 9_000_000, 7, Some(number)));
    let after = start_again(runner)?;
    (after == expected).then_some(()).ok_or(format!("another table after a transaction: {after:?}"))
}
