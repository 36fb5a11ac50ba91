//! The main job, shown and checked: a new box, a day's readings on eight lanes, a checkpoint and a truncation, the plug
//! pulled before and after every single store and in the middle of some, old cards put in and refused, the right card put
//! back, the table, a year's heat split.
//!
//! The demonstration writes down itself what was made visible, and after every start compares the box's table with it; and with what
//! the heat meters are said to have used in the year.
//! The plug is pulled inside this process, so its stores do not wait for the disk.

use std::cmp::Reverse;
use std::collections::BTreeMap;
use std::fmt;
use std::fs;
use std::io::{self, Write};
use std::path::{Path, PathBuf};
use std::process::{Command, Stdio};
use std::time::Instant;

use paviluko_host::files::{Disk, Fault, shown};
use paviluko_host::folder::BoxFolder;
use paviluko_host::heat::Split;
use paviluko_host::runner::{Moment, Runner, Stop};
use paviluko_host::transaction::{self, Write as Entry};
use paviluko_host::{FILE_LEN, HEAD_LEN, LANES, METERS, Reading, Refusal, SEAL_LEN, WRITES};

use crate::bars::Bars;
use crate::colour::{Colours, Tone};
use crate::heat::Filed;
use crate::wrap::{INDENT, wrap};
use crate::{heat, screen};

/// Transactions of a day.
const DAY: u64 = 1500;
/// Monday, 2 March 2026, 00:00 UTC.
const MORNING: u64 = 1_772_409_600;
const MOMENTS: [Moment; 2] = [Moment::Before, Moment::After];
/// So many bytes are left of what a cut tears: few, and about as many as a head has. All but one are left, too.
const TORN: [usize; 4] = [1, HEAD_LEN - 1, HEAD_LEN, HEAD_LEN + 1];
/// Stores of a recovery, without and with numbers that were handed out and not made visible.
const RECOVERIES: [u64; 2] = [15, 24];
/// How long a year is, in seconds.
const YEAR: u64 = 365 * 86_400;
/// A heat meter that is changed in the course of it: the new one has counted less than the old one had.
const CHANGED: usize = 19;
/// Lines of the table that are shown, at its start and at its end.
const SHOWN: (usize, usize) = (12, 4);
/// The same of what heatsplit prints, and of the split with bars.
const SHOWN_LINES: (usize, usize) = (2, 0);
const SHOWN_BARS: (usize, usize) = (5, 3);
/// How many headings there are.
const STEPS: u32 = 9;

/// Why the demonstration ends early.
enum Trouble {
    /// Nobody reads what is printed.
    Unread(io::Error),
    /// Something is not as it should be.
    Wrong(String),
}

impl From<io::Error> for Trouble {
    fn from(error: io::Error) -> Trouble {
        Trouble::Unread(error)
    }
}

impl From<Stop> for Trouble {
    fn from(stop: Stop) -> Trouble {
        Trouble::Wrong(stop.to_string())
    }
}

impl From<Fault> for Trouble {
    fn from(fault: Fault) -> Trouble {
        Trouble::Wrong(fault.to_string())
    }
}

fn colours() -> Colours {
    Colours::of(&io::stdout())
}

/// Something that is not as it should be.
fn wrong<T>(what: impl fmt::Display) -> Result<T, Trouble> {
    Err(Trouble::Wrong(what.to_string()))
}

/// `paviluko demo`. The exit status.
pub fn run(dir: Option<&Path>, heatsplit: Option<&Path>) -> io::Result<u8> {
    let place = match Place::new(dir) {
        Ok(place) => place,
        Err(fault) => {
            crate::notice(Tone::Bad, format!("paviluko: {fault}"));
            return Ok(1);
        }
    };
    match show(&place, heatsplit) {
        Ok(()) => Ok(0),
        Err(Trouble::Unread(error)) => Err(error),
        Err(Trouble::Wrong(what)) => {
            let text = wrap(&format!("THE DEMONSTRATION FAILED: {what}"), INDENT);
            writeln!(io::stdout(), "\n{}", colours().paint(Tone::Bad, text.trim_end()))?;
            Ok(1)
        }
    }
}

/// A folder for the box and its cards.
struct Place {
    folder: PathBuf,
    /// It is removed in the end.
    passing: bool,
}

impl Place {
    /// The folder that was named, or one of its own, in memory where the machine has such a file system.
    fn new(dir: Option<&Path>) -> Result<Place, Fault> {
        let make = |folder: PathBuf, passing| match fs::create_dir(&folder) {
            Ok(()) => Ok(Place { folder, passing }),
            Err(error) => Err(Fault::unusable(&folder)(error)),
        };
        if let Some(dir) = dir {
            return make(dir.to_path_buf(), false);
        }
        let name = format!("paviluko-demo-{}", std::process::id());
        make(Path::new("/dev/shm").join(&name), true).or_else(|_| make(std::env::temp_dir().join(&name), true))
    }

    fn join(&self, name: &str) -> PathBuf {
        self.folder.join(name)
    }
}

impl Drop for Place {
    fn drop(&mut self) {
        if self.passing {
            let _ = fs::remove_dir_all(&self.folder);
        }
    }
}

/// What was made visible: of each meter the latest. The greatest stamp; among equal ones the lowest lane; in one lane the
/// greatest number.
#[derive(Default)]
struct Book {
    latest: BTreeMap<u8, Reading>,
    transactions: usize,
    readings: usize,
}

impl Book {
    fn enter(&mut self, taking: &Taking, number: u64) {
        self.transactions += 1;
        for entry in &taking.entries {
            self.readings += 1;
            let new =
                Reading { stamp: taking.stamp, lane: taking.lane, number, code: entry.code, reading: entry.reading };
            let rank = |r: &Reading| (r.stamp, Reverse(r.lane), r.number);
            let meter = entry.meter as u8;
            if self.latest.get(&meter).is_none_or(|old| rank(&new) > rank(old)) {
                self.latest.insert(meter, new);
            }
        }
    }
}

/// A transaction that is to be taken.
struct Taking {
    lane: u8,
    stamp: u64,
    entries: Vec<Entry>,
}

/// The meters of a house, heard on eight lanes: the same at every demonstration.
struct House {
    random: u64,
    count: u64,
    readings: [i32; METERS],
}

impl House {
    fn new() -> House {
        House { random: 0x2545_f491_4f6c_dd1d, count: 0, readings: [0; METERS] }
    }

    /// A number below a limit (xorshift).
    fn draw(&mut self, below: u64) -> u64 {
        self.random ^= self.random << 13;
        self.random ^= self.random >> 7;
        self.random ^= self.random << 17;
        self.random % below
    }

    /// The next transaction. Lanes take turns; a lane hears its own meters and those of the lane before it; the clock
    /// goes back for an hour now and then, and often stands.
    fn next(&mut self) -> Taking {
        let lane = self.count % LANES as u64;
        let back = if self.draw(20) == 0 { 3600 } else { 0 };
        let stamp = MORNING + self.count / 4 * 230 - back;
        self.count += 1;
        let size = 1 + self.draw(WRITES as u64) as usize;
        let mut meters = BTreeMap::new();
        while meters.len() < size {
            let group = (lane + LANES as u64 - self.draw(2)) % LANES as u64;
            meters.insert(self.draw(32) * LANES as u64 + group, ());
        }
        let entries = meters.into_keys().map(|meter| self.read(meter as usize)).collect();
        Taking { lane: lane as u8, stamp, entries }
    }

    /// All meters once, a year later: what each has counted in the year.
    fn year(&mut self) -> Vec<Taking> {
        let all: Vec<usize> = (0..METERS).collect();
        let mut takings = Vec::new();
        for (count, meters) in all.chunks(WRITES).enumerate() {
            for &meter in meters {
                self.readings[meter] += 100 + self.draw(9000) as i32;
                if meter == CHANGED {
                    self.readings[meter] = 12;
                }
            }
            let entries = meters.iter().map(|&meter| self.read(meter)).collect();
            takings.push(Taking { lane: (count % LANES) as u8, stamp: MORNING + YEAR, entries });
        }
        takings
    }

    /// A meter's reading, a little above its last.
    fn read(&mut self, meter: usize) -> Entry {
        let more = self.draw(40) as i32;
        self.readings[meter] += more;
        Entry { meter: meter as u16, code: 1 + (meter / LANES % 4) as u8, reading: self.readings[meter] }
    }
}

/// The demonstration.
struct Demo {
    runner: Runner,
    house: House,
    book: Book,
    /// How often the plug was pulled.
    cuts: u64,
    /// How often the table was compared.
    checks: u64,
    began: Instant,
}

/// All of it.
fn show(place: &Place, heatsplit: Option<&Path>) -> Result<(), Trouble> {
    let folder = place.join("box");
    BoxFolder::create(&folder, Disk::Quick)?;
    let runner = Runner::open(&folder, Disk::Quick)?;
    let began = Instant::now();
    let mut demo = Demo { runner, house: House::new(), book: Book::default(), cuts: 0, checks: 0, began };
    demo.new_box(&folder)?;
    demo.day(&place.join("last-spring"))?;
    demo.tidy()?;
    for stores in RECOVERIES {
        demo.cut_recoveries(stores)?;
    }
    demo.cut_the_rest()?;
    demo.other_cards(place)?;
    demo.table()?;
    demo.year(place, heatsplit)?;
    demo.end()?;
    if !place.passing {
        writeln!(io::stdout(), "the box and its cards are in {}", shown(&place.folder))?;
    }
    Ok(())
}

impl Demo {
    /// 1. A new box.
    fn new_box(&mut self, folder: &Path) -> Result<(), Trouble> {
        self.heading(1, "A new box")?;
        let started = self.runner.start()?;
        self.check()?;
        self.say(&format!("{}: in service after {} stores, no meter in the table", shown(folder), started.stores))
    }

    /// 2. A day's readings; a card is copied in the morning.
    fn day(&mut self, copy: &Path) -> Result<(), Trouble> {
        self.heading(2, "A day's readings on eight lanes")?;
        let (mut points, mut truncations) = (0, 0);
        for turn in 1..=DAY {
            self.take()?;
            if turn % 100 == 0 {
                self.runner.point(None)?;
                points += 1;
                self.tick()?;
            }
            if turn % 300 == 0 {
                self.runner.checkpoint()?;
                self.runner.truncate(None)?;
                truncations += 1;
            }
            if turn == 500 {
                self.runner.copy_card(copy)?;
            }
        }
        self.check()?;
        let (transactions, readings) = (self.book.transactions, self.book.readings);
        self.say(&format!("{transactions} transactions with {readings} readings of {METERS} meters made visible"))?;
        self.say(&format!("{points} points, {truncations} checkpoints and truncations on the way"))?;
        self.say("the card was copied after 500 transactions: that copy is last spring's card")
    }

    /// 3. A checkpoint and a truncation, looked at.
    fn tidy(&mut self) -> Result<(), Trouble> {
        self.heading(3, "A checkpoint and a truncation")?;
        for _ in 0..40 {
            self.take()?;
        }
        let before = self.runner.card()?.held()?.records;
        let point = self.runner.point(None)?;
        let (version, seal) = self.runner.checkpoint()?;
        self.runner.truncate(None)?;
        let after = self.runner.card()?.held()?.records;
        self.check()?;
        self.say(&format!("point at {point}; checkpoint of version {version}, seal number {seal}"))?;
        self.say(&format!("the card held {before} records, and holds {after} behind the truncation"))
    }

    /// 4 and 5. The plug is pulled before and after every store of a recovery in turn.
    fn cut_recoveries(&mut self, stores: u64) -> Result<(), Trouble> {
        let lost = stores == RECOVERIES[1];
        let step = if lost { 5 } else { 4 };
        self.heading(step, &format!("The plug pulled before and after each of the {stores} stores of a recovery"))?;
        for store in 1..=stores {
            for moment in MOMENTS {
                self.before_recovery(lost)?;
                self.runner.cut_at(store, moment);
                let broken = self.runner.start();
                self.expect_cut(broken.map(|_| ()), moment)?;
                self.runner.start()?;
                self.check()?;
            }
            self.tick()?;
        }
        self.whole_recovery(stores, lost)?;
        let cuts = stores * 2;
        self.say(&format!("{cuts} cuts, {cuts} starts: all in service, and each table as made visible"))
    }

    /// Readings, then a cut: after all is visible, or with a number handed out and no record of it.
    fn before_recovery(&mut self, lost: bool) -> Result<(), Trouble> {
        for _ in 0..3 {
            self.take()?;
        }
        if lost {
            self.runner.cut_at(1, Moment::After);
            self.take_cut(Moment::After)?;
        } else {
            self.runner.cut();
            self.cuts += 1;
        }
        Ok(())
    }

    /// A recovery that is not cut has that many stores.
    fn whole_recovery(&mut self, stores: u64, lost: bool) -> Result<(), Trouble> {
        self.before_recovery(lost)?;
        let started = self.runner.start()?;
        self.check()?;
        if started.stores as u64 != stores {
            return wrong(format!("a recovery of {} stores, and not of {stores}", started.stores));
        }
        Ok(())
    }

    /// 6. The same for every store of a transaction, a checkpoint and a truncation; then in a record and in a checkpoint.
    fn cut_the_rest(&mut self) -> Result<(), Trouble> {
        self.heading(6, "The same for a transaction (3 stores), a checkpoint (3) and a truncation (9)")?;
        for store in 1..=15 {
            for moment in MOMENTS {
                self.cut_in_service(store, moment)?;
                self.runner.cut_never();
                self.runner.start()?;
                self.check()?;
            }
            self.tick()?;
        }
        for left in TORN.into_iter().map(Some).chain([None]) {
            self.tear_record(left)?;
            self.tear_checkpoint(left.unwrap_or(FILE_LEN - 1))?;
            self.tick()?;
        }
        self.say("30 cuts, 30 starts: all in service, and each table as made visible")?;
        let (lengths, cuts) = (TORN.map(|left| left.to_string()).join(", "), 2 * (TORN.len() + 1));
        self.say(&format!(
            "{cuts} more in the write of a record and of a checkpoint, which leave {lengths} bytes of it on the card, \
             or all but one: the same"
        ))
    }

    /// Takes a transaction, and is cut in the write of its record: so many bytes are left of it, or all but one. The start
    /// passes them over.
    fn tear_record(&mut self, left: Option<usize>) -> Result<(), Trouble> {
        self.take()?;
        let taking = self.house.next();
        let transaction = transaction::bytes(taking.stamp, &taking.entries);
        let bytes = left.unwrap_or(transaction.len() + SEAL_LEN - 1);
        let moment = Moment::During { bytes };
        self.runner.cut_at(2, moment);
        let broken = self.runner.take(taking.lane, &transaction);
        self.expect_cut(broken.map(|_| ()), moment)?;
        let started = self.runner.start()?;
        self.check()?;
        match started.torn {
            Some(torn) if torn.bytes == bytes => Ok(()),
            other => wrong(format!("{bytes} bytes were left of a record, and the start found {other:?}")),
        }
    }

    /// Makes a checkpoint, and is cut in the write of its file: the one before it counts.
    fn tear_checkpoint(&mut self, bytes: usize) -> Result<(), Trouble> {
        self.take()?;
        let moment = Moment::During { bytes };
        self.runner.cut_at(2, moment);
        let broken = self.runner.checkpoint();
        self.expect_cut(broken.map(|_| ()), moment)?;
        self.runner.start()?;
        self.check()
    }

    /// Takes a transaction, sets a point, makes a checkpoint and truncates, and is cut on the way.
    fn cut_in_service(&mut self, store: u64, moment: Moment) -> Result<(), Trouble> {
        self.runner.cut_at(store, moment);
        if store <= 3 {
            return self.take_cut(moment);
        }
        self.take()?;
        self.runner.point(None)?;
        if store <= 6 {
            let broken = self.runner.checkpoint();
            return self.expect_cut(broken.map(|_| ()), moment);
        }
        self.runner.checkpoint()?;
        let broken = self.runner.truncate(None);
        self.expect_cut(broken.map(|_| ()), moment)
    }

    /// 7. Cards that are not the right one.
    fn other_cards(&mut self, place: &Place) -> Result<(), Trouble> {
        self.heading(7, "The wrong cards, and the right one")?;
        let own = self.runner.card()?.folder().to_path_buf();
        let (earlier, empty) = (place.join("an-hour-ago"), place.join("empty"));
        self.take()?;
        self.runner.copy_card(&earlier)?;
        self.take()?;
        fs::create_dir(&empty).map_err(Fault::unusable(&empty))?;
        self.runner.cut();
        self.cuts += 1;
        self.refused("last spring's card", &place.join("last-spring"), 12)?;
        self.refused("an hour ago's card", &earlier, 13)?;
        self.refused("an empty card", &empty, 9)?;
        self.runner.swap_card(&own)?;
        let started = self.runner.start()?;
        self.check()?;
        self.say(&format!("the right card: in service after {} stores", started.stores))
    }

    /// A card that must be refused with a number; nothing is lost by trying it.
    fn refused(&mut self, what: &str, card: &Path, number: u8) -> Result<(), Trouble> {
        self.runner.swap_card(card)?;
        let before = *self.runner.numbers();
        match self.runner.start() {
            Err(Stop::Refused(refusal @ Refusal { number: said, .. })) if said == number => {
                self.say(&format!("{what}: refused: {refusal}"))?;
            }
            Err(stop) => return wrong(format!("{what}: {number} was expected, and not {stop}")),
            Ok(_) => return wrong(format!("{what} was taken")),
        }
        if *self.runner.numbers() != before {
            return wrong("a refused start changed the vault");
        }
        Ok(())
    }

    /// 8. The table.
    fn table(&mut self) -> Result<(), Trouble> {
        self.heading(8, "The table")?;
        self.check()?;
        let readings = self.runner.collector().map(|c| c.readings()).unwrap_or_default();
        rows(&screen::table(&readings), SHOWN)?;
        self.say(&format!("all {} meters checked against what was written down: right", readings.len()))
    }

    /// 9. The table in plain at the start and at the end of a year, and the heat of that year split.
    fn year(&mut self, place: &Place, heatsplit: Option<&Path>) -> Result<(), Trouble> {
        self.heading(9, "The yearly heat split")?;
        let (start, end) = (place.join("start.table"), place.join("end.table"));
        let before = self.book.latest.clone();
        let at_start = self.write_plain(&start)?;
        for taking in self.house.year() {
            self.take_this(&taking)?;
        }
        self.check()?;
        let at_end = self.write_plain(&end)?;
        let bytes = at_end.len();
        self.say(&format!(
            "the table written in plain, {bytes} bytes; every meter read a year later; and written again"
        ))?;
        let filed = |path, bytes| Filed { path, bytes };
        let Ok(text) = heat::split(filed(&start, &at_start), filed(&end, &at_end)) else {
            return wrong("the tables of a year were refused");
        };
        let split = self.check_split(&text, &before)?;
        if let Some(program) = heatsplit {
            if through(program, &[at_start, at_end].concat())? != text.as_bytes() {
                return wrong(format!("{} prints other lines than the library", shown(program)));
            }
            let lines = text.lines().count();
            self.say(&format!(
                "cat start.table end.table | {}: {lines} lines, as the library has them",
                shown(program)
            ))?;
            rows(&text, SHOWN_LINES)?;
        }
        self.say("paviluko heat start.table end.table:")?;
        rows(&heat::lines(&split, Bars::here().narrower(INDENT)), SHOWN_BARS)?;
        self.say(&heat::negative(&split.negative()))
    }

    /// Writes the box's table in plain to a file, and gives it.
    fn write_plain(&self, path: &Path) -> Result<Vec<u8>, Trouble> {
        let Some(collector) = self.runner.collector() else { return wrong("the box has no power") };
        let table = heat::plain(collector).map_err(Stop::Refused)?;
        self.runner.folder().write_out(path, &table)?;
        Ok(table)
    }

    /// Compares a split with the book: what each heat meter used since an earlier one, and that all of it is shared.
    fn check_split(&self, text: &str, before: &BTreeMap<u8, Reading>) -> Result<Split, Trouble> {
        let Some(split) = Split::read(text) else { return wrong("the library's text is no split") };
        let reading = |book: &BTreeMap<u8, Reading>, meter: u8| book.get(&meter).map_or(0, |r| i64::from(r.reading));
        for line in &split.lines {
            let used = reading(&self.book.latest, line.meter) - reading(before, line.meter);
            if line.used != used {
                return wrong(format!("meter {} used {used} kWh, and the split has {}", line.meter, line.used));
            }
        }
        match (split.shares(), &split.negative()[..]) {
            (1_000_000, [meter]) if usize::from(*meter) == CHANGED => Ok(split),
            other => wrong(format!("the shares, and the meters with a negative use, are {other:?}")),
        }
    }

    /// What it came to.
    fn end(&self) -> io::Result<()> {
        let (stores, transactions) = (self.runner.stores(), self.book.transactions);
        let (cuts, checks) = (self.cuts, self.checks);
        let mut out = io::stdout();
        writeln!(
            out,
            "\n\n{stores} stores, {transactions} transactions, {cuts} power cuts; the table was right {checks} times of {checks}"
        )?;
        writeln!(out, "{:.1} seconds", self.began.elapsed().as_secs_f64())
    }

    /// Takes the next transaction, and writes it down.
    fn take(&mut self) -> Result<(), Trouble> {
        let taking = self.house.next();
        self.take_this(&taking)
    }

    /// The same with one that is given.
    fn take_this(&mut self, taking: &Taking) -> Result<(), Trouble> {
        let visible = self.runner.take(taking.lane, &transaction::bytes(taking.stamp, &taking.entries))?;
        self.book.enter(taking, visible.number);
        Ok(())
    }

    /// Takes the next transaction, during which the plug is pulled. It is visible where V's store was done.
    fn take_cut(&mut self, moment: Moment) -> Result<(), Trouble> {
        let taking = self.house.next();
        let lane = usize::from(taking.lane);
        let before = self.runner.numbers().v[lane];
        let broken = self.runner.take(taking.lane, &transaction::bytes(taking.stamp, &taking.entries));
        self.expect_cut(broken.map(|_| ()), moment)?;
        let after = self.runner.numbers().v[lane];
        if after > before {
            self.book.enter(&taking, after);
        }
        Ok(())
    }

    /// An operation that must have been cut.
    fn expect_cut(&mut self, broken: Result<(), Stop>, side: Moment) -> Result<(), Trouble> {
        match broken {
            Err(Stop::Cut { moment, .. }) if moment == side => {
                self.cuts += 1;
                Ok(())
            }
            Err(stop) => Err(Trouble::from(stop)),
            Ok(()) => wrong("the plug was not pulled"),
        }
    }

    /// Compares the box's table with the book.
    fn check(&mut self) -> Result<(), Trouble> {
        self.checks += 1;
        let table: BTreeMap<u8, Reading> = match self.runner.collector() {
            Some(collector) => collector.readings().into_iter().collect(),
            None => return wrong("the box has no power"),
        };
        if table == self.book.latest {
            return Ok(());
        }
        let meter = (0..=u8::MAX).find(|meter| table.get(meter) != self.book.latest.get(meter)).unwrap_or_default();
        let (there, wanted) = (table.get(&meter), self.book.latest.get(&meter));
        wrong(format!("meter {meter}: the table has {there:?}, and {wanted:?} was made visible"))
    }

    fn heading(&self, step: u32, text: &str) -> io::Result<()> {
        let mut out = io::stdout();
        let space = if step > 1 { "\n\n" } else { "" };
        let heading = colours().paint(Tone::Heading, &format!("{step} of {STEPS}  {text}"));
        write!(out, "{space}{heading}")?;
        out.flush()
    }

    fn say(&self, text: &str) -> Result<(), Trouble> {
        let text = wrap(&format!("{:INDENT$}{text}", ""), 2 * INDENT);
        write!(io::stdout(), "\n{}", text.trim_end()).map_err(Trouble::from)
    }

    /// Shows that something goes on.
    fn tick(&self) -> io::Result<()> {
        let mut out = io::stdout();
        write!(out, ".")?;
        out.flush()
    }
}

/// Lines below a heading: so many from the start and from the end, and how many there are between them.
fn rows(text: &str, (first, last): (usize, usize)) -> io::Result<()> {
    let lines: Vec<&str> = text.lines().collect();
    let mut out = io::stdout();
    for (at, line) in lines.iter().enumerate() {
        if at <= first || at + last >= lines.len() {
            write!(out, "\n{:INDENT$}{line}", "")?;
        } else if at == first + 1 {
            write!(out, "\n{:INDENT$}... {} more", "", lines.len() - 1 - first - last)?;
        }
    }
    Ok(())
}

/// What a program prints that is handed some bytes on standard input.
fn through(program: &Path, bytes: &[u8]) -> Result<Vec<u8>, Trouble> {
    let run = || -> io::Result<_> {
        let mut child = Command::new(program).stdin(Stdio::piped()).stdout(Stdio::piped()).spawn()?;
        // Two tables are not more than a pipe holds. A program need not read them all: what it prints is looked at.
        let written = child.stdin.take().map_or(Ok(()), |mut stdin| stdin.write_all(bytes));
        let output = child.wait_with_output()?;
        match written {
            Err(error) if error.kind() != io::ErrorKind::BrokenPipe => Err(error),
            _ => Ok(output),
        }
    };
    let output = run().map_err(Fault::unusable(program))?;
    if output.status.success() { Ok(output.stdout) } else { wrong(format!("{}: {}", shown(program), output.status)) }
}
