//! Whole sessions of the program, with the power cut at every moment of them.
//!
//! The program runs under a recorder, which notes each operation that changes a file or a folder, or brings it to the disk,
//! and each answer (`record`). The power is then cut after each operation, and what a POSIX file system may leave of the
//! operations not yet synced (`disk`) is built in a folder. The box is started from it (`states`): it comes into service, with
//! every reading that was reported as visible, and nothing else but what was being taken (`script`). Where many combinations
//! of operations can be left, all are tried up to a bound, and beyond it some, drawn with a fixed seed.
//!
//! In the same way the program is killed and run again before the power is cut, it is run on what a cut has left, and its
//! operations are made to fail. In the end, syncs are left out of the record, to see that this is noticed.

mod disk;
#[path = "../place/mod.rs"]
mod place;
#[path = "../random/mod.rs"]
mod random;
mod record;
mod script;
mod states;

use std::collections::BTreeMap;
use std::fs;
use std::ops::Range;

use disk::{Disk, Tree};
use record::{Ended, Event, Fault, History};
use script::{Command, Expected, Table, Take};
use states::{Bench, Cuts, Loss, Session, Start};

/// So many combinations of what is left are tried at a cut.
const COMBINATIONS: usize = 24;
/// The same in long sessions, and in those with much that is never synced.
const COMBINATIONS_LONG: usize = 4;
/// The same in sessions on what a cut, a kill or a failure has left.
const COMBINATIONS_LATER: usize = 4;
/// In a long command, one of so many cuts is made.
const LONG: usize = 41;
/// The same in sessions on what a cut or a kill has left.
const ONE_OF: usize = 3;
/// Of so many states, one is gone on with: started again, a transaction taken, and started again.
const GOES_ON: usize = 8;
/// Of so many states, one is where the program is run anew, and the power cut again.
const AGAIN: usize = 300;
/// A cut is given up after so many states that are lost.
const LOSSES: usize = 2;
/// So many places are shown at which states are lost.
const SHOWN: usize = 40;
/// A number here makes the bounds so many times greater.
const MORE: &str = "PAVILUKO_CRASH";

/// The card that a box comes with.
const FIRST_CARD: &str = "box/card-1";
/// Making room.
const TIDY: [Command; 3] = [Command::Point, Command::Checkpoint, Command::Truncate];

/// Takes of some turns.
fn takes(turns: impl IntoIterator<Item = u32>) -> Vec<Command> {
    turns.into_iter().map(|turn| Command::Take(Take(turn))).collect()
}

/// Commands behind each other.
fn script(parts: &[&[Command]]) -> Vec<Command> {
    parts.concat()
}

/// Commands of a box in use: the table and the card have something in them.
fn used() -> Vec<Command> {
    script(&[&[Command::Start], &takes(0..3), &TIDY, &takes(3..5)])
}

// ---- sessions in which nothing goes wrong but the power ----

impl Bench {
    fn sessions(&self) -> Vec<Session> {
        use Command::{
            Accept, Checkpoint, Commit, CopyCard, Cut, New, Point, Start, SwapCard, SwapEmpty, SwapNew, Truncate,
        };
        let made = self.made();
        let new = |about: &str, folders: &[&str], more: &[Command]| self.session(about, None, folders, &[&[New], more]);
        let of = |about: &str, scripts: &[&[Command]]| self.session(about, Some(&made), &[], scripts);
        let change =
            |swap: Command| script(&[&used(), &TIDY, &[swap, Checkpoint], &takes(5..7), &[Start], &takes(7..8)]);
        let files = [self.file(0..126), self.file(126..131)];
        vec![
            of(
                "points, checkpoints and truncations, with and without transactions between them",
                &[&script(&[&used(), &TIDY, &takes(5..6), &[Point, Checkpoint], &takes(6..7), &[Truncate]])],
            ),
            of(
                "a card is copied without power, the copy put in, and the box started with it",
                &[&script(&[&used(), &[Cut, CopyCard("two"), SwapCard("two"), Start], &takes(5..6), &[Start]])],
            ),
            new("a box is made and started for the first time", &[], &script(&[&[Start], &takes(0..2)])),
            new("a box is made in a folder that was there", &["box"], &[Start]),
            of(
                "transactions are taken on several lanes, some of the same meters",
                &[&script(&[&[Start], &takes([0, 1, 2, 9, 17, 48, 49])])],
            ),
            of(
                "a transaction is accepted and not committed, then the plug is pulled; another one is committed later",
                &[&script(&[
                    &[Start],
                    &takes(0..2),
                    &[Accept(Take(2)), Cut, Start],
                    &takes(3..4),
                    &[Accept(Take(4)), Commit(1, Take(4)), Cut, Start],
                ])],
            ),
            of(
                "starts behind each other, in one run of the program and in several",
                &[
                    &script(&[&[Start], &takes(0..2), &[Start, Start]]),
                    &script(&[&[Start, Start], &takes(2..3)]),
                    &[Start],
                ],
            ),
            of(
                "a card is copied in service; the copy is put in and started with in the next run of the program",
                &[&script(&[&used(), &[CopyCard("two")]]), &script(&[&[SwapCard("two"), Start], &takes(5..6)])],
            ),
            of(
                "a card is copied into the box's own folder and started with, and copied once more",
                &[&script(&[
                    &[Start],
                    &takes(0..2),
                    &[Cut, CopyCard("box/two"), SwapCard("box/two"), Start],
                    &takes(2..3),
                    &[Cut, CopyCard("box/three"), SwapCard("box/three"), Start],
                ])],
            ),
            of("a card is changed for a new one as the fitter's page says", &[&change(SwapNew("two"))]),
            self.session(
                "a card is changed for an empty folder that somebody has made",
                Some(&made),
                &["two"],
                &[&change(SwapEmpty("two"))],
            ),
            Session {
                bound: COMBINATIONS_LONG,
                ..of(
                    "the transactions of a file are taken, for which room is made on the way",
                    &[&script(&[&[Start], &files])],
                )
            },
        ]
    }

    /// A session of a box that was just made, or of none yet; with folders that somebody has made and not synced.
    fn session(&self, about: &str, from: Option<&Tree>, folders: &[&str], scripts: &[&[Command]]) -> Session {
        let mut history = self.fresh(from);
        folders.iter().for_each(|name| history.make_folder(name));
        let scripts: Vec<Vec<Command>> = scripts.iter().map(|script| script.to_vec()).collect();
        for commands in &scripts {
            let ended = self.run(&mut history, commands, &Fault::None);
            assert!(ended.status.success(), "{about}: {}{:?}", ended.errors, history.answers());
        }
        let start = from.map(|_| (Table::new(), FIRST_CARD.to_string()));
        self.recorded(Session {
            about: about.to_string(),
            history,
            start,
            scripts,
            cuts: Cuts::From(0),
            bound: COMBINATIONS,
        })
    }

    /// A box that was just made.
    fn made(&self) -> Tree {
        let mut history = self.fresh(None);
        assert!(self.run(&mut history, &[Command::New], &Fault::None).status.success());
        Disk::of(&self.top).0.whole()
    }

    /// The command that takes the transactions of a file.
    fn file(&self, turns: Range<u32>) -> Command {
        let takes: Vec<Take> = turns.clone().map(Take).collect();
        let path = self.place.join(&format!("{}.csv", turns.start));
        fs::write(&path, takes.iter().map(|take| take.lines()).collect::<String>()).expect("written");
        Command::TakeFile(takes, format!("--csv {}", path.display()))
    }

    /// Sessions on what a cut has left in some of the states.
    fn later_sessions(&mut self) -> Vec<Session> {
        let mut sessions = Vec::new();
        for (tree, table, card) in std::mem::take(&mut self.some) {
            let about = "the program runs on what a cut has left".to_string();
            let mut history = self.fresh(Some(&tree));
            let commands = script(&[&[Command::Start], &takes(200..201), &TIDY]);
            let ended = self.run(&mut history, &commands, &Fault::None);
            self.losses.extend(stopped(&about, &history, &ended));
            let (start, scripts) = (Some((table, card)), vec![commands]);
            let session =
                Session { about, history, start, scripts, cuts: Cuts::SomeFrom(0), bound: COMBINATIONS_LATER };
            sessions.push(self.recorded(session));
        }
        sessions
    }
}

// ---- sessions in which the program is killed ----

impl Bench {
    fn killed_sessions(&mut self) -> Vec<Session> {
        use Command::{Checkpoint, CopyCard, Start, SwapCard, SwapNew};
        let made = self.made();
        let used = self.session("a box in use", Some(&made), &[], &[&used()]).end().whole();
        let plain = script(&[&[Start], &takes(8..9), &TIDY, &takes(9..10)]);
        let mut list =
            self.killed("the program is killed in a box's first session", &made, COMBINATIONS_LATER, &plain, |_| {
                script(&[&[Start], &takes(10..11), &TIDY])
            });
        list.extend(self.killed("the program is killed in a later session", &used, COMBINATIONS_LATER, &plain, |_| {
            script(&[&[Start], &takes(10..11)])
        }));
        list.extend(self.killed(
            "the program is killed while a card is copied and put in",
            &used,
            COMBINATIONS_LONG,
            &[CopyCard("two"), SwapCard("two"), Start],
            |_| script(&[&[CopyCard("three"), SwapCard("three"), Start], &takes(10..11)]),
        ));
        list.extend(self.killed(
            "the program is killed while a card is changed",
            &used,
            COMBINATIONS_LATER,
            &script(&[&[Start], &TIDY, &[SwapNew("two"), Checkpoint], &takes(8..9)]),
            |own| script(&[&[SwapCard(own), Start], &takes(10..11)]),
        ));
        list
    }

    /// Sessions in which a script is killed, once behind each kind of operation, and another one is run behind it, which may
    /// depend on the card that is the box's own. What the first one has not synced is still not on the disk then.
    fn killed(
        &mut self,
        about: &str,
        from: &Tree,
        bound: usize,
        first: &[Command],
        second: impl Fn(&'static str) -> Vec<Command>,
    ) -> Vec<Session> {
        let Start::Table(table, _) = self.start(from, None, None) else { panic!("{about}: the box does not start") };
        let mut whole = self.fresh(Some(from));
        self.run(&mut whole, first, &Fault::None);
        let mut sessions = Vec::new();
        for (turn, behind) in kinds(&whole) {
            let about = format!("{about}, behind {behind}");
            let mut history = self.fresh(Some(from));
            self.run(&mut history, first, &Fault::Kill(turn + 1));
            let cuts = Cuts::SomeFrom(history.events.len());
            let second = second(self.own_card());
            let ended = self.run(&mut history, &second, &Fault::None);
            self.losses.extend(stopped(&about, &history, &ended));
            let start = Some((table.clone(), FIRST_CARD.to_string()));
            let scripts = vec![first.to_vec(), second];
            let session = Session { about, history, start, scripts, cuts, bound };
            sessions.push(self.recorded(session));
        }
        sessions
    }
}

/// What is wrong with the end of a run in which all should be done.
fn stopped(about: &str, history: &History, ended: &Ended) -> Option<Loss> {
    let what = format!("{}: {}{:?}", ended.status, ended.errors, history.answers());
    (!ended.status.success()).then(|| Loss { place: format!("{about}: in the run behind it"), what })
}

/// The kinds of operations in a history: what each does, to which file or folder, with numbers left out; and the first of
/// each.
fn kinds(history: &History) -> Vec<(u32, String)> {
    let mut disk = history.before.clone();
    let mut list: Vec<(u32, String)> = Vec::new();
    for (turn, event) in &history.events {
        disk.follow(event);
        let words = match event {
            Event::Change(change) => disk.words(change),
            Event::Sync(id) => format!("a sync of {}", disk.path(*id)),
            _ => continue,
        };
        let words = without_numbers(&words);
        if list.iter().all(|(_, other)| *other != words) {
            list.push((*turn, words));
        }
    }
    list
}

/// Words without their digits.
fn without_numbers(words: &str) -> String {
    words.chars().filter(|c| !c.is_ascii_digit()).collect()
}

// ---- sessions in which operations fail ----

impl Bench {
    /// How many operations were made to fail.
    fn fail(&mut self) -> usize {
        use Command::{Checkpoint, CopyCard, New, Start, SwapCard, SwapNew};
        let made = self.made();
        let plain = script(&[&[Start], &takes(0..3), &TIDY, &takes(3..4), &[CopyCard("two")]]);
        let change = script(&[&[Start], &takes(0..1), &TIDY, &[SwapNew("two"), Checkpoint], &takes(1..2)]);
        self.fail_in(None, &[New], 1, |_| Vec::new())
            + self.fail_in(Some(&made), &plain, 1, |_| script(&[&[Start], &takes(4..5)]))
            + self.fail_in(Some(&made), &change, 5, |own| script(&[&[SwapCard(own), Start], &takes(4..5)]))
    }

    /// Operations of a script fail, one of so many, each in a run of its own, or with all behind it that need room. Another
    /// script is run behind it.
    fn fail_in(
        &mut self,
        from: Option<&Tree>,
        first: &[Command],
        one_of: usize,
        second: impl Fn(&'static str) -> Vec<Command>,
    ) -> usize {
        let mut count = 0;
        for word in ["EIO", "ENOSPC", "FULL"] {
            for turn in (1..).step_by(one_of) {
                let mut history = self.fresh(from);
                let ended = self.run(&mut history, first, &Fault::Fail(turn, word));
                let Some(call) = history.failed() else { break };
                // What did not come to the disk shows in a cut only.
                let cuts = if call.contains("sync") && word == "EIO" { Cuts::Answers } else { Cuts::Never };
                let about = format!("{word} at {call}, operation {turn} of {}", first[first.len() - 1].line());
                let answers = history.answers();
                let mut scripts = vec![first.to_vec()];
                let second = second(if from.is_some() { self.own_card() } else { FIRST_CARD });
                if !second.is_empty() {
                    let again = self.run(&mut history, &second, &Fault::None);
                    self.losses.extend(stopped(&about, &history, &again));
                    scripts.push(second);
                }
                let start = from.map(|_| (Table::new(), FIRST_CARD.to_string()));
                let session = Session { about, history, start, scripts, cuts, bound: COMBINATIONS_LATER };
                let session = self.recorded(session);
                self.cut(&session);
                self.losses.extend(unsaid(&session, &answers, &ended));
                count += 1;
            }
        }
        count
    }
}

/// What is wrong with the end of a run in which an operation failed: it has to say so, where not all was done.
fn unsaid(session: &Session, answers: &[String], ended: &Ended) -> Option<Loss> {
    let mut expected = Expected::new(session.start.as_ref(), &Table::new());
    expected.begin(&session.scripts[0]);
    answers.iter().for_each(|line| expected.said(line));
    let what = match ended.status.code() {
        Some(0) if !expected.is_all_done() => "not all was done, and the exit status is 0".to_string(),
        Some(0 | 1) if !ended.errors.contains("panicked") => return None,
        _ => format!("{}: {}", ended.status, ended.errors),
    };
    Some(Loss { place: session.about.clone(), what })
}

// ---- the tests ----

/// Says what was lost: an example for each place, of the first places.
fn report(losses: &[Loss]) -> String {
    let mut places: BTreeMap<&str, Vec<&str>> = BTreeMap::new();
    for loss in losses {
        places.entry(&loss.place).or_default().push(&loss.what);
    }
    let worst = |what: &&&str| (what.contains("the first card is taken"), what.len());
    let shortest = |list: &[&str]| list.iter().min_by_key(worst).map(|what| what.to_string());
    let line = |(place, list): (&&str, &Vec<&str>)| {
        format!("{place}: {} states, as: {}\n", list.len(), shortest(list).unwrap_or_default())
    };
    places.iter().map(line).take(SHOWN).collect::<String>() + &format!("{} places in all\n", places.len())
}

/// A number with commas.
fn grouped(number: usize) -> String {
    match number {
        0..1000 => number.to_string(),
        _ => format!("{},{:03}", grouped(number / 1000), number % 1000),
    }
}

#[test]
fn what_was_reported_is_there_after_a_power_cut() {
    let mut bench = Bench::new("crash");
    let plain = bench.sessions();
    plain.iter().for_each(|session| bench.cut(session));
    let later = bench.later_sessions();
    later.iter().for_each(|session| bench.cut(session));
    let killed = bench.killed_sessions();
    killed.iter().for_each(|session| bench.cut(session));
    let failed = bench.fail();
    let sessions = plain.len() + later.len() + killed.len();
    assert!(bench.losses.is_empty(), "{} states are lost\n{}", bench.losses.len(), report(&bench.losses));
    println!(
        "crash states: {} of {sessions} sessions, each starts with what was reported; {failed} injected errors, nothing lost",
        grouped(bench.states)
    );
}

#[test]
fn a_sync_that_is_left_out_is_noticed() {
    let mut bench = Bench::new("crash-noticed");
    let (mut noticed, mut all) = (0, 0);
    for session in bench.sessions().iter().take(3) {
        for folders in [true, false] {
            let losses = bench.losses_of(session, &|disk, id| disk.is_folder(id) != folders, 1);
            assert!(
                !losses.is_empty(),
                "{}: without syncs of {}",
                session.about,
                if folders { "folders" } else { "files" }
            );
        }
        for (_, kind) in kinds(&session.history) {
            let Some(path) = kind.strip_prefix("a sync of ") else { continue };
            let losses = bench.losses_of(session, &|disk, id| without_numbers(&disk.path(id)) != path, 1);
            noticed += usize::from(!losses.is_empty());
            all += 1;
        }
    }
    // Some may be there for good measure.
    assert!(4 * noticed >= 3 * all, "{noticed} of {all}");
    println!("{noticed} of {all} syncs left out, each with its like, are noticed");
}
