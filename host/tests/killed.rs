//! The program killed at random moments, and started again: every reading that was reported as visible is in the table,
//! and of the others at most the one that was being taken. The moments are drawn with a fixed seed.

mod place;
mod random;

use std::collections::BTreeMap;
use std::io::{Read, Write};
use std::path::Path;
use std::process::{Child, Command, Stdio};
use std::thread;
use std::time::{Duration, Instant};

use place::Place;
use random::Random;

const ROUNDS: usize = 250;
const TAKES: u64 = 400;
const PROGRAM: &str = env!("CARGO_BIN_EXE_paviluko");

/// What the table has of a meter: code, reading, stamp, lane, number.
type Line = (u8, i32, u64, u8, u64);
type Table = BTreeMap<u8, Line>;

/// A transaction of two readings. Stamps rise from one to the next, so that the last visible one of a meter is its latest.
struct Take {
    stamp: u64,
    lane: u8,
    writes: [(u8, u8, i32); 2],
}

impl Take {
    fn new(stamp: u64, random: &mut Random) -> Take {
        let meter = random.below(255) as u8;
        let writes = [meter, meter + 1].map(|meter| (meter, 1 + meter % 4, random.below(1 << 20) as i32 - 1000));
        Take { stamp, lane: random.below(8) as u8, writes }
    }

    fn command(&self) -> String {
        let [(m, c, r), (n, d, s)] = self.writes;
        format!("take {} {} {m}={c}:{r} {n}={d}:{s}\n", self.lane, self.stamp)
    }

    fn enter(&self, number: u64, table: &mut Table) {
        for (meter, code, reading) in self.writes {
            table.insert(meter, (code, reading, self.stamp, self.lane, number));
        }
    }
}

fn session(folder: &Path) -> Child {
    let mut command = Command::new(PROGRAM);
    command.arg("run").arg(folder).stdin(Stdio::piped()).stdout(Stdio::piped()).stderr(Stdio::piped());
    command.spawn().expect("the program starts")
}

/// Runs a script to its end. What it answers.
fn whole(folder: &Path, script: &str) -> String {
    let mut child = session(folder);
    child.stdin.take().expect("piped").write_all(script.as_bytes()).expect("read by the program");
    let output = child.wait_with_output().expect("the program ends");
    let text = String::from_utf8(output.stdout).expect("text");
    assert!(output.status.success(), "{text}{}", String::from_utf8_lossy(&output.stderr));
    text
}

/// Runs a script, and kills the program after some time. What it answered until then.
fn killed(folder: &Path, script: &str, after: Duration) -> String {
    let mut child = session(folder);
    // The script fits into the pipe; a program that was killed at once has not read it.
    let _ = child.stdin.take().expect("piped").write_all(script.as_bytes());
    let mut out = child.stdout.take().expect("piped");
    let reader = thread::spawn(move || {
        let mut text = String::new();
        out.read_to_string(&mut text).map(|_| text)
    });
    thread::sleep(after);
    let _ = child.kill();
    let output = child.wait_with_output().expect("the program ends");
    assert_eq!(String::from_utf8_lossy(&output.stderr), "");
    reader.join().expect("read").expect("text")
}

/// A script that takes readings, with points, checkpoints and truncations on the way.
fn script(takes: &[Take]) -> String {
    let mut text = String::from("start\n");
    for (at, take) in takes.iter().enumerate() {
        text += &take.command();
        text += match at % 60 {
            20 => "point\n",
            30 => "checkpoint\n",
            40 => "point\ncheckpoint\ntruncate\n",
            _ => "",
        };
    }
    text
}

/// The numbers of the transactions that were reported as visible. Nothing else than progress was reported.
fn reported(text: &str) -> Vec<u64> {
    let mut numbers = Vec::new();
    // The last line may have been broken off.
    let complete = text.rfind('\n').map_or("", |end| &text[..end]);
    for line in complete.lines() {
        let fine = ["in service after", "visible: lane", "point set", "checkpoint of", "truncated at"];
        assert!(fine.iter().any(|start| line.starts_with(start)), "{line}");
        if let Some((_, rest)) = line.split_once(", number ") {
            let digits = rest.split(',').next().unwrap_or_default();
            numbers.push(digits.parse().expect("a number"));
        }
    }
    numbers
}

/// A moment within some microseconds.
fn moment(random: &mut Random, within: usize) -> Duration {
    Duration::from_micros(random.below(within) as u64)
}

/// The table after a start.
fn table(folder: &Path) -> Table {
    let text = whole(folder, "start\ntable --csv\n");
    let mut table = Table::new();
    for line in text.lines().skip(2) {
        let f: Vec<i64> = line.split(',').take(6).map(|field| field.parse().expect("a number")).collect();
        table.insert(f[0] as u8, (f[1] as u8, f[2] as i32, f[3] as u64, f[4] as u8, f[5] as u64));
    }
    table
}

#[test]
fn what_was_reported_is_there() {
    let place = Place::new("killed");
    let folder = place.join("box");
    let made =
        Command::new(PROGRAM).arg("new").arg(&folder).stdout(Stdio::null()).status().expect("the program starts");
    assert!(made.success());
    let began = Instant::now();
    whole(&folder, "start\n");
    let start = began.elapsed().as_micros() as usize;

    let mut random = Random(0x9e37_79b9_7f4a_7c15);
    let (mut kills, mut visible, mut between, mut stamp) = (0, 0, 0, 0);
    let mut book = Table::new();
    for round in 0..ROUNDS {
        let takes: Vec<Take> = (0..TAKES).map(|at| Take::new(stamp + at, &mut random)).collect();
        stamp += TAKES;
        // Half of the moments lie about the start, half in service.
        let after = moment(&mut random, start * if round % 2 == 0 { 2 } else { 12 });
        let numbers = reported(&killed(&folder, &script(&takes), after));
        kills += 1;
        // Starts that are killed too.
        for _ in 0..random.below(3) {
            reported(&killed(&folder, "start\n", moment(&mut random, start * 3 / 2)));
            kills += 1;
        }
        for (take, &number) in takes.iter().zip(&numbers) {
            take.enter(number, &mut book);
        }
        visible += numbers.len();
        let there = table(&folder);
        if there != book {
            // The transaction that was being taken may be visible, under a number that its lane had not used before.
            let take = takes.get(numbers.len()).expect("one that was being taken");
            let number = there[&take.writes[0].0].4;
            let used = book.values().filter(|line| line.3 == take.lane).map(|line| line.4).max().unwrap_or(0);
            assert!(number > used, "round {round}");
            take.enter(number, &mut book);
            between += 1;
        }
        assert_eq!(there, book, "round {round}");
    }
    println!("{kills} kills, {visible} transactions reported as visible and {between} not: all there");
}
