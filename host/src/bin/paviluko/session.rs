//! A session: one command, one answer.

use std::path::Path;

use paviluko_host::card::Card;
use paviluko_host::files::{clean, shown};
use paviluko_host::runner::{Moment, Numbered, Runner, Started, Stop, Tidied};
use paviluko_host::transaction::{self, Batch};
use paviluko_host::words::Sentence;
use paviluko_host::{Phase, Reading, words};

use crate::answer::{Answer, stopped};
use crate::args::no_name;
use crate::colour::Tone;
use crate::{bus, file, heat, help, screen, stamps};

/// So many warnings of a file are printed, and the rest counted.
const MOST_WARNINGS: usize = 5;
/// What 4 and 7 mean where a transaction is turned down.
const OF_A_TRANSACTION: [Sentence; 2] = [words::NO_TRANSACTION, words::FULL_OF_RECORDS];

/// What becomes of a transaction.
#[derive(Clone, Copy, PartialEq, Eq)]
enum Way {
    /// It is made visible, and room for it if need be.
    Take,
    /// It is made visible.
    TakeOnly,
    /// Its record is written.
    Accept,
}

/// A session with a box.
pub struct Session {
    runner: Runner,
}

impl Session {
    /// A box without power.
    pub fn new(runner: Runner) -> Session {
        Session { runner }
    }

    /// The box, and the card in it.
    pub fn greeting(&self) -> String {
        format!("Box {}, card {}.", screen::near(self.runner.folder().path()), screen::card(&self.runner))
    }

    /// Whether the box has power: then the key is in memory.
    pub fn has_power(&self) -> bool {
        self.runner.collector().is_some()
    }

    /// Does a command. An empty line and a line that begins with # have no answer.
    pub fn command(&mut self, line: &str) -> Answer {
        let words: Vec<&str> = line.split_whitespace().collect();
        let Some((&name, rest)) = words.split_first() else { return Answer::default() };
        if name.starts_with('#') {
            return Answer::default();
        }
        if let Some(answer) = help::wanted(&words).or_else(|| help::bad_option(name, rest)) {
            return answer;
        }
        let done = match (name, rest) {
            ("start", []) => self.start(),
            ("take", ["--csv", file]) => self.take_file(file, Way::Take),
            ("take", ["--csv", file, "--no-tidy"] | ["--no-tidy", "--csv", file]) => {
                self.take_file(file, Way::TakeOnly)
            }
            ("take", ["--no-tidy", lane, stamp, writes @ ..]) if !writes.is_empty() => {
                self.take(lane, stamp, writes, Way::TakeOnly)
            }
            ("take", [lane, stamp, writes @ ..]) if !writes.is_empty() && !lane.starts_with("--") => {
                self.take(lane, stamp, writes, Way::Take)
            }
            ("take-bus", [lane, meter, stamp, "--file", file]) => self.take_bus_file(lane, meter, stamp, file),
            ("take-bus", [lane, meter, stamp, hex @ ..])
                if !hex.is_empty() && rest.iter().all(|word| !word.starts_with("--")) =>
            {
                self.take_bus_hex(lane, meter, stamp, hex)
            }
            ("accept", [lane, stamp, writes @ ..]) if !writes.is_empty() => self.take(lane, stamp, writes, Way::Accept),
            ("commit", [at]) => self.commit(at),
            ("table", []) => self.table(false),
            ("table", ["--csv"]) => self.table(true),
            ("table", ["--plain", file]) if !file.starts_with("--") => self.table_plain(file),
            ("tidy", []) => self.tidy(),
            ("point", at @ ([] | [_])) => self.point(at.first().copied()),
            ("checkpoint", []) => self.checkpoint(),
            ("truncate", at @ ([] | [_])) => self.truncate(at.first().copied()),
            ("status", []) => Ok(self.status()),
            ("swap-card", ["--new", dir]) => self.with_folder(dir, Session::new_card),
            ("swap-card", [dir]) => self.with_folder(dir, Session::swap_card),
            ("copy-card", [dir]) => self.with_folder(dir, Session::copy_card),
            ("cut", []) => Ok(self.cut()),
            ("cut", ["before", store]) => Ok(self.cut_at(store, Moment::Before)),
            ("cut", ["after", store]) => Ok(self.cut_at(store, Moment::After)),
            ("cut", ["during", store, bytes]) => Ok(self.cut_during(store, bytes)),
            ("help", []) => Ok(Answer::fine(help::all())),
            ("help", [command]) => Ok(help::of(command)),
            ("quit" | "exit", []) => Ok(Answer::quit()),
            _ => Ok(help::wrong(name)),
        };
        done.unwrap_or_else(Answer::from)
    }

    fn start(&mut self) -> Result<Answer, Stop> {
        let started = self.runner.start()?;
        let answer = Answer::fine(in_service(&self.runner, &started));
        let passed_over = started.torn.map(|torn| format!("passed over: {}", screen::torn(&torn)));
        Ok(passed_over.into_iter().fold(answer, |answer, text| answer.and(Tone::Plain, text)))
    }

    /// Takes a transaction in a command's words.
    fn take(&mut self, lane: &str, stamp: &str, writes: &[&str], way: Way) -> Result<Answer, Stop> {
        let Some(lane) = transaction::lane(lane) else { return Ok(Answer::wrong("the lane as a number, 0 to 7")) };
        let Some(stamp) = seconds(stamp) else { return Ok(Answer::wrong("the stamp in seconds, or now")) };
        let mut list = Vec::new();
        for word in writes {
            match transaction::write(word) {
                Some(write) => list.push(write),
                None => {
                    return Ok(Answer::wrong(&format!("METER=CODE:READING, as 12=3:4567, and not {}", clean(word))));
                }
            }
        }
        let batch = Batch { line: 0, lane, stamp, writes: list };
        Ok(self.take_one(&batch, &transaction::bytes(stamp, &batch.writes), way, None))
    }

    /// Takes a transaction in its bytes, and says what became of it; and what it was, if that is to be said.
    fn take_one(&mut self, batch: &Batch, bytes: &[u8], way: Way, what: Option<String>) -> Answer {
        let warnings = self.warnings(batch);
        let and_what = |answer: Answer| what.into_iter().fold(answer, |answer, text| answer.and(Tone::Plain, text));
        let (numbered, tidied) = match self.take_bytes(batch.lane, bytes, way) {
            Ok(taken) => taken,
            Err(stop) => return and_what(stopped(stop, &OF_A_TRANSACTION)),
        };
        let done = if way == Way::Accept { "accepted, not visible" } else { "visible" };
        let readings = screen::count(batch.writes.len(), "reading");
        let Numbered { lane, number, position } = numbered;
        let text = format!("{done}: lane {lane}, number {number}, {readings}, record at position {position}");
        let mut answer = and_what(Answer::fine(text));
        if let Some(tidied) = tidied {
            answer = answer.and(Tone::Plain, format!("room was made first: {}", made(&tidied)));
        }
        warnings.iter().fold(answer, |answer, text| answer.and(Tone::Warning, format!("warning: {text}")))
    }

    /// Takes the reading in a frame, which is written in hexadecimal.
    fn take_bus_hex(&mut self, lane: &str, meter: &str, stamp: &str, hex: &[&str]) -> Result<Answer, Stop> {
        match bus::bytes(hex) {
            Ok(frame) => Ok(self.take_bus(lane, meter, stamp, &frame)),
            Err(how) => Ok(Answer::wrong(&how)),
        }
    }

    /// The same for a frame in a file.
    fn take_bus_file(&mut self, lane: &str, meter: &str, stamp: &str, name: &str) -> Result<Answer, Stop> {
        let path = Path::new(name);
        if let Some(why) = no_name(path) {
            return Ok(Answer::failed(format!("wrong command: {why}")));
        }
        let frame = file::frame(path)?;
        Ok(self.take_bus(lane, meter, stamp, &frame))
    }

    /// Takes the reading in a frame: the library makes a transaction of it.
    fn take_bus(&mut self, lane: &str, meter: &str, stamp: &str, frame: &[u8]) -> Answer {
        let Some(lane) = transaction::lane(lane) else { return Answer::wrong("the lane as a number, 0 to 7") };
        let Ok(meter) = meter.parse() else { return Answer::wrong("the meter as a number, 0 to 255") };
        let Some(stamp) = seconds(stamp) else { return Answer::wrong("the stamp in seconds, or now") };
        match bus::transaction(frame, meter, stamp) {
            Ok((bytes, reading)) => {
                let batch = Batch { line: 0, lane, stamp, writes: vec![reading] };
                self.take_one(&batch, &bytes, Way::Take, Some(bus::line(frame, &reading)))
            }
            Err(refused) => refused,
        }
    }

    /// Takes the transactions of a file, until one is refused.
    fn take_file(&mut self, name: &str, way: Way) -> Result<Answer, Stop> {
        let path = Path::new(name);
        if let Some(why) = no_name(path) {
            return Ok(Answer::failed(format!("wrong command: {why}")));
        }
        let text = file::text(path)?;
        let batches = match transaction::batches(&text) {
            Ok(batches) => batches,
            Err(bad) => {
                let why = format!("{}, line {}: {}. Nothing was taken.", shown(path), bad.line, bad.why);
                return Ok(Answer::failed(why));
            }
        };
        let (mut readings, mut rooms, mut warnings) = (0, 0, Vec::new());
        for (done, batch) in batches.iter().enumerate() {
            let odd = self.warnings(batch);
            match self.take_bytes(batch.lane, &transaction::bytes(batch.stamp, &batch.writes), way) {
                Ok((_, tidied)) => rooms += usize::from(tidied.is_some()),
                Err(stop) => {
                    let before = screen::count(done, "transaction");
                    let place = format!("{}, line {}, after {before}: ", shown(path), batch.line);
                    return Ok(warned(stopped(stop, &OF_A_TRANSACTION).at(&place), &warnings));
                }
            }
            warnings.extend(odd.into_iter().map(|text| format!("line {}: {text}", batch.line)));
            readings += batch.writes.len();
        }
        let mut said =
            format!("visible: {}, {}", screen::count(batches.len(), "transaction"), screen::count(readings, "reading"));
        if rooms > 0 {
            said += &match rooms {
                1 => "; room was made once".to_string(),
                _ => format!("; room was made {rooms} times"),
            };
        }
        Ok(warned(Answer::fine(said), &warnings))
    }

    /// Takes a transaction in its bytes; and what was done to make room for it.
    fn take_bytes(&mut self, lane: u8, bytes: &[u8], way: Way) -> Result<(Numbered, Option<Tidied>), Stop> {
        match way {
            Way::Take => self.runner.take_tidy(lane, bytes),
            Way::TakeOnly => Ok((self.runner.take(lane, bytes)?, None)),
            Way::Accept => Ok((self.runner.accept(lane, bytes)?, None)),
        }
    }

    /// What is odd about a transaction that is not taken yet.
    fn warnings(&self, batch: &Batch) -> Vec<String> {
        stamps::odd(self.runner.collector(), batch.stamp, &batch.writes, stamps::now())
    }

    fn commit(&mut self, at: &str) -> Result<Answer, Stop> {
        let Ok(at) = at.parse() else { return Ok(Answer::wrong("the position as a number")) };
        self.runner.commit(at)?;
        Ok(Answer::fine(format!("visible: the record at position {at}")))
    }

    fn table(&mut self, csv: bool) -> Result<Answer, Stop> {
        let collector = self.runner.collector().ok_or(Stop::Off)?;
        if collector.phase() == Phase::Cold {
            return Ok(no_table());
        }
        Ok(table(&collector.readings(), csv))
    }

    /// Writes the table in plain to a file.
    fn table_plain(&mut self, name: &str) -> Result<Answer, Stop> {
        let path = Path::new(name);
        if let Some(why) = no_name(path) {
            return Ok(Answer::failed(format!("wrong command: {why}")));
        }
        let collector = self.runner.collector().ok_or(Stop::Off)?;
        if collector.phase() == Phase::Cold {
            return Ok(no_table());
        }
        let table = heat::plain(collector).map_err(Stop::Refused)?;
        self.runner.folder().write_out(path, &table)?;
        Ok(heat::written(path, &table))
    }

    fn tidy(&mut self) -> Result<Answer, Stop> {
        let tidied = self.runner.tidy()?;
        Ok(Answer::fine(format!("room was made: {}", made(&tidied))))
    }

    fn point(&mut self, at: Option<&str>) -> Result<Answer, Stop> {
        let Some(at) = position(at) else { return Ok(Answer::wrong("the position as a number")) };
        Ok(match self.runner.point(at) {
            Ok(at) => Answer::fine(format!("point set at {at}")),
            Err(stop) => stopped(stop, &[words::FULL_OF_POINTS]),
        })
    }

    fn checkpoint(&mut self) -> Result<Answer, Stop> {
        let (version, seal) = self.runner.checkpoint()?;
        Ok(Answer::fine(format!("checkpoint of version {version} on the card, seal number {seal}")))
    }

    fn truncate(&mut self, at: Option<&str>) -> Result<Answer, Stop> {
        let Some(at) = position(at) else { return Ok(Answer::wrong("the position as a number")) };
        if self.runner.collector().is_none() {
            return Err(Stop::Off);
        }
        let before = self.runner.card()?.held()?.records;
        let at = self.runner.truncate(at)?;
        let deleted = before.saturating_sub(self.runner.card()?.held()?.records);
        Ok(Answer::fine(format!("truncated at {at}: {} deleted from the card", screen::count(deleted, "record"))))
    }

    fn status(&self) -> Answer {
        let (above, lanes) = screen::status(&self.runner);
        let (heading, rows) = lanes.split_at(lanes.find('\n').map_or(0, |end| end + 1));
        Answer::fine(above).and(Tone::Heading, heading).and(Tone::Plain, rows)
    }

    /// Does something with a folder, unless its name is refused.
    fn with_folder(
        &mut self,
        name: &str,
        does: impl FnOnce(&mut Session, &Path) -> Result<Answer, Stop>,
    ) -> Result<Answer, Stop> {
        match no_name(Path::new(name)) {
            Some(why) => Ok(Answer::failed(format!("wrong command: {why}"))),
            None => does(self, Path::new(name)),
        }
    }

    fn swap_card(&mut self, dir: &Path) -> Result<Answer, Stop> {
        self.runner.swap_card(dir)?;
        Ok(Answer::fine(format!("card in the box: {}", screen::card(&self.runner))))
    }

    fn new_card(&mut self, dir: &Path) -> Result<Answer, Stop> {
        Card::create(dir, self.runner.folder().disk())?;
        self.swap_card(dir)
    }

    fn copy_card(&mut self, dir: &Path) -> Result<Answer, Stop> {
        self.runner.copy_card(dir)?;
        Ok(Answer::fine(format!("card copied to {}", shown(dir))))
    }

    fn cut(&mut self) -> Answer {
        if self.runner.cut() {
            Answer::fine("power cut: the state is lost; go on with start")
        } else {
            Answer::fine("the box had no power")
        }
    }

    fn cut_at(&mut self, store: &str, moment: Moment) -> Answer {
        match store.parse() {
            Ok(store) if store > 0 => {
                self.runner.cut_at(store, moment);
                Answer::fine(format!("the plug will be pulled {}", screen::plug(store, moment)))
            }
            _ => Answer::wrong("the store as a number from 1 on"),
        }
    }

    fn cut_during(&mut self, store: &str, bytes: &str) -> Answer {
        match bytes.parse() {
            Ok(bytes) => self.cut_at(store, Moment::During { bytes }),
            Err(_) => Answer::wrong("the bytes as a number from 0 on"),
        }
    }
}

/// What a start came to.
pub fn in_service(runner: &Runner, started: &Started) -> String {
    let meters = runner.collector().map_or(0, |c| c.readings().len());
    let records = screen::count(started.records, "record");
    let meters = screen::count(meters, "meter");
    format!("in service after {} stores; {records} read from the card, {meters} in the table", started.stores)
}

/// A box that was refused has no table that a start has judged.
fn no_table() -> Answer {
    Answer::failed("there is no table: the box is not in service")
}

/// The table, in columns or as a list.
pub fn table(readings: &[(u8, Reading)], csv: bool) -> Answer {
    if csv {
        return Answer::fine(screen::table_csv(readings));
    }
    let text = screen::table(readings);
    let (heading, rows) = text.split_at(text.find('\n').map_or(0, |end| end + 1));
    Answer::default().and(Tone::Heading, heading).and(Tone::Plain, rows)
}

/// What making room came to.
fn made(tidied: &Tidied) -> String {
    let Tidied { point, version, deleted } = tidied;
    let deleted = screen::count(*deleted, "record");
    format!("point set at {point}, checkpoint of version {version}, {deleted} deleted from the card")
}

/// An answer with the first warnings of a file, and how many more there are.
fn warned(answer: Answer, warnings: &[String]) -> Answer {
    let shown = warnings.iter().take(MOST_WARNINGS);
    let answer = shown.fold(answer, |answer, text| answer.and(Tone::Warning, format!("warning: {text}")));
    match warnings.len().saturating_sub(MOST_WARNINGS) {
        0 => answer,
        more => answer.and(Tone::Warning, format!("warning: {} more of this kind", more)),
    }
}

/// A position, if one is given; nothing for what is no number.
fn position(word: Option<&str>) -> Option<Option<u64>> {
    match word {
        None => Some(None),
        Some(word) => word.parse().ok().map(Some),
    }
}

/// A stamp: seconds, or the clock's.
fn seconds(word: &str) -> Option<u64> {
    match word {
        "now" => Some(stamps::now()),
        _ => word.parse().ok(),
    }
}
