//! Commands of a script, and what has to be there after a power cut at any moment of it.

use std::collections::BTreeMap;
use std::path::Path;

use paviluko_host::Reading;

/// What the table has of a meter: code, reading, stamp, lane, and the number if it was reported.
pub type Line = (u8, i32, u64, u8, Option<u64>);
pub type Table = BTreeMap<u8, Line>;

/// The table of a collector's readings.
pub fn table(readings: &[(u8, Reading)]) -> Table {
    readings.iter().map(|&(meter, r)| (meter, (r.code, r.reading, r.stamp, r.lane, Some(r.number)))).collect()
}

/// A transaction by its turn. Stamps rise with the turns. Lane and count of readings tell those of a script apart; one 48
/// turns later writes to the same meters.
#[derive(Clone, Copy, Debug, PartialEq, Eq)]
pub struct Take(pub u32);

impl Take {
    fn lane(self) -> u8 {
        (self.0 * 3 % 8) as u8
    }

    pub fn stamp(self) -> u64 {
        1000 + 10 * u64::from(self.0)
    }

    fn count(self) -> u32 {
        1 + self.0 / 8 % 16
    }

    fn writes(self) -> impl Iterator<Item = (u8, u8, i32)> {
        let first = self.0 * 5 % 240;
        (first..first + self.count())
            .map(move |meter| (meter as u8, 1 + (meter % 4) as u8, (self.0 * 1000 + meter) as i32))
    }

    fn words(self) -> String {
        let writes: Vec<String> = self.writes().map(|(m, c, r)| format!("{m}={c}:{r}")).collect();
        format!("{} {} {}", self.lane(), self.stamp(), writes.join(" "))
    }

    /// Its lines of a file.
    pub fn lines(self) -> String {
        self.writes().map(|(m, c, r)| format!("{},{},{m},{c},{r}\n", self.lane(), self.stamp())).collect()
    }

    fn enter(self, number: Option<u64>, table: &mut Table) {
        for (meter, code, reading) in self.writes() {
            table.insert(meter, (code, reading, self.stamp(), self.lane(), number));
        }
    }
}

/// A command of a script. Cards are named by their folders.
#[derive(Clone, Debug, PartialEq, Eq)]
pub enum Command {
    /// `paviluko new`, in place of a script.
    New,
    Start,
    Take(Take),
    Accept(Take),
    /// Of a transaction that was accepted at a position.
    Commit(u64, Take),
    /// Those of a file, which is written by its name.
    TakeFile(Vec<Take>, String),
    Point,
    Checkpoint,
    Truncate,
    CopyCard(&'static str),
    SwapCard(&'static str),
    /// An empty card: one that the program makes, or one that is there.
    SwapNew(&'static str),
    SwapEmpty(&'static str),
    Cut,
}

impl Command {
    /// Its line of a script.
    pub fn line(&self) -> String {
        match self {
            Command::New => "new".to_string(),
            Command::Start => "start".to_string(),
            Command::Take(take) => format!("take {}", take.words()),
            Command::Accept(take) => format!("accept {}", take.words()),
            Command::Commit(position, _) => format!("commit {position}"),
            Command::TakeFile(_, words) => format!("take {words}"),
            Command::Point => "point".to_string(),
            Command::Checkpoint => "checkpoint".to_string(),
            Command::Truncate => "truncate".to_string(),
            Command::CopyCard(card) => format!("copy-card {card}"),
            Command::SwapCard(card) | Command::SwapEmpty(card) => format!("swap-card {card}"),
            Command::SwapNew(card) => format!("swap-card --new {card}"),
            Command::Cut => "cut".to_string(),
        }
    }

    /// Whether a line reports it as done.
    fn is_reported_by(&self, line: &str) -> bool {
        let taken = |start: &str, take: &Take| {
            line.contains(&format!("{start}: lane {}, number ", take.lane()))
                && line.contains(&format!(", {} reading", take.count()))
        };
        match self {
            Command::New => line.contains("a new box"),
            Command::Start => line.contains("in service after"),
            Command::Take(take) => line.starts_with("visible") && taken("visible", take),
            Command::Accept(take) => taken("accepted, not visible", take),
            Command::Commit(position, _) => line.contains(&format!("visible: the record at position {position}")),
            Command::TakeFile(takes, _) => line.contains(&format!("visible: {} transaction", takes.len())),
            Command::Point => line.contains("point set at"),
            Command::Checkpoint => line.contains("checkpoint of version"),
            Command::Truncate => line.contains("truncated at"),
            Command::CopyCard(card) => line.contains(&format!("card copied to {card}")),
            Command::SwapCard(card) | Command::SwapNew(card) | Command::SwapEmpty(card) => {
                line.contains(&format!("card in the box: {card}"))
            }
            Command::Cut => line.contains("power cut"),
        }
    }

    /// Whether it may set a number of the vault, after which a copy of the card is an old one.
    fn goes_on(&self) -> bool {
        !matches!(
            self,
            Command::CopyCard(_) | Command::SwapCard(_) | Command::SwapNew(_) | Command::SwapEmpty(_) | Command::Cut
        )
    }
}

/// The number in a report.
fn number_of(line: &str) -> Option<u64> {
    line.split_once(", number ")?.1.split(',').next()?.parse().ok()
}

/// What has to be there after a cut.
#[derive(Clone, Debug, Default)]
pub struct Expected {
    /// There is a box.
    pub made: bool,
    /// What was reported as visible.
    book: Table,
    /// Transactions that were begun and not reported, each with the place of its command, or none where that is of a script
    /// before this one: the first ones of them may be visible too.
    open: Vec<(Option<usize>, Take)>,
    /// The card that is in: the one reported, or the one that is being put in.
    cards: Vec<String>,
    /// Two cards of which one is taken.
    pub two: Option<[String; 2]>,
    /// Cards as good as the one that is in.
    pub copies: Vec<String>,
    /// Folders that were reported as made.
    pub folders: Vec<String>,
    /// The commands under way, and how many of them are behind us.
    commands: Vec<Command>,
    at: usize,
    /// How many of them may have begun.
    begun: usize,
    /// Commands that were passed over.
    pub failed: usize,
    /// What the table has in the end.
    end: Table,
}

impl Expected {
    /// A folder without a box, or with one whose table and card are known; and the table that it has in the end.
    pub fn new(start: Option<&(Table, String)>, end: &Table) -> Expected {
        let made = start.is_some();
        let (book, card) = start.cloned().unwrap_or((Table::new(), crate::FIRST_CARD.to_string()));
        Expected { made, book, cards: vec![card], end: end.clone(), ..Expected::default() }
    }

    /// A script begins.
    pub fn begin(&mut self, commands: &[Command]) {
        self.commands = commands.to_vec();
        (self.at, self.begun) = (0, 0);
        self.open.iter_mut().for_each(|(place, _)| *place = None);
        self.begin_until(1);
    }

    /// An operation was made to fail. Which command is under way is not known from here on.
    pub fn fails(&mut self) {
        self.begin_until(self.commands.len());
    }

    /// The command under way.
    pub fn command(&self) -> Option<&Command> {
        self.commands.get(self.at)
    }

    /// Whether it has very many operations.
    pub fn is_long(&self) -> bool {
        matches!(self.command(), Some(Command::TakeFile(takes, _)) if takes.len() > 20)
    }

    /// Whether all commands were reported as done.
    pub fn is_all_done(&self) -> bool {
        self.at == self.commands.len() && self.failed == 0
    }

    fn begin_until(&mut self, end: usize) {
        while self.begun < end.min(self.commands.len()) {
            self.begun += 1;
            self.begin_command(self.begun - 1);
        }
    }

    fn begin_command(&mut self, at: usize) {
        let command = &self.commands[at];
        if command.goes_on() {
            self.copies.clear();
        }
        match command {
            Command::Take(take) | Command::Commit(_, take) => self.open.push((Some(at), *take)),
            Command::TakeFile(takes, _) => self.open.extend(takes.iter().map(|take| (Some(at), *take))),
            Command::SwapCard(card) => self.cards.push(card.to_string()),
            Command::SwapNew(card) | Command::SwapEmpty(card) => {
                self.two = Some([self.cards[0].clone(), card.to_string()]);
                self.cards.push(card.to_string());
            }
            _ => (),
        }
    }

    /// A line of an answer. The commands before the one that it reports have failed.
    pub fn said(&mut self, line: &str) {
        let left = &self.commands[self.at.min(self.commands.len())..];
        let Some(failed) = left.iter().position(|command| command.is_reported_by(line)) else { return };
        self.failed += failed;
        self.at += failed;
        self.begin_until(self.at + 1);
        self.done(line);
        self.at += 1;
        self.begin_until(self.at + 1);
    }

    /// The command under way is reported as done.
    fn done(&mut self, line: &str) {
        match &self.commands[self.at] {
            Command::New => self.made = true,
            Command::Start => {
                // What was open before is settled by now: it is there, or it never will be. So is which card is the box's own.
                self.two = None;
                let (end, here) = (&self.end, self.at);
                let before = self.open.extract_if(.., |(place, _)| place.is_none_or(|place| place < here));
                for (_, take) in before.filter(|(_, take)| end.values().any(|line| line.2 == take.stamp())) {
                    take.enter(None, &mut self.book);
                }
            }
            Command::Take(take) | Command::Commit(_, take) => {
                self.open.retain(|(_, other)| other != take);
                take.enter(number_of(line), &mut self.book);
            }
            Command::TakeFile(takes, _) => {
                self.open.retain(|(_, take)| !takes.contains(take));
                takes.iter().for_each(|take| take.enter(None, &mut self.book));
            }
            Command::CopyCard(card) => {
                self.copies.push(card.to_string());
                self.folders.push(card.to_string());
            }
            command @ (Command::SwapCard(card) | Command::SwapNew(card) | Command::SwapEmpty(card)) => {
                self.folders.push(card.to_string());
                if !matches!(command, Command::SwapCard(_)) {
                    self.two = Some([self.cards[0].clone(), card.to_string()]);
                }
                self.cards = vec![card.to_string()];
            }
            Command::Checkpoint => self.two = None,
            Command::Accept(_) | Command::Point | Command::Truncate | Command::Cut => (),
        }
    }

    /// Whether a card may be the one that is in.
    pub fn has_card(&self, top: &Path, card: &Path) -> bool {
        self.cards.iter().any(|name| card == top.join(name))
    }

    /// Whether a table has all that was reported, and nothing else but the first of what was begun.
    pub fn allows(&self, table: &Table) -> bool {
        let mut book = self.book.clone();
        if is_same(table, &book) {
            return true;
        }
        self.open.iter().any(|(_, take)| {
            take.enter(None, &mut book);
            is_same(table, &book)
        })
    }
}

/// Whether a table is as expected. A number that was not reported may be any.
fn is_same(table: &Table, expected: &Table) -> bool {
    let line = |found: &Line, wanted: &Line| match wanted.4 {
        Some(_) => found == wanted,
        None => (found.0, found.1, found.2, found.3) == (wanted.0, wanted.1, wanted.2, wanted.3),
    };
    table.len() == expected.len() && table.iter().zip(expected).all(|(a, b)| a.0 == b.0 && line(a.1, b.1))
}
