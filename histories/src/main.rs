//! Random whole histories on the library and the model side by side.
//!
//! `histories [--histories N] [--events M] [--seed S] [--progress]`: N histories of M events, of the seeds S, S + 1 and
//! so on. A history that fails is told with its seed, and the program ends with 1; so it does where many were run and
//! something that should have come up did not.

mod library;

use std::io::{IsTerminal, Write};
use std::process::ExitCode;
use std::time::{Duration, Instant};

use paviluko_histories::{Tally, Twin, run};
use paviluko_model::Params;

use library::Library;

const USAGE: &str = "histories [--histories N] [--events M] [--seed S] [--progress]";

/// From so many histories on, everything has to come up.
const ENOUGH: u64 = 1000;

struct Options {
    histories: u64,
    events: u64,
    seed: u64,
    progress: bool,
}

fn options() -> Option<Options> {
    let mut out = Options { histories: 2000, events: 400, seed: 1, progress: false };
    let mut words = std::env::args().skip(1);
    while let Some(word) = words.next() {
        let to = match word.as_str() {
            "--progress" => {
                out.progress = true;
                continue;
            }
            "--histories" => &mut out.histories,
            "--events" => &mut out.events,
            "--seed" => &mut out.seed,
            _ => return None,
        };
        *to = words.next()?.parse().ok()?;
    }
    Some(out)
}

/// A line that is written over, on a terminal; elsewhere a line now and then.
struct Progress {
    shown: bool,
    terminal: bool,
    began: Instant,
    last: Instant,
}

impl Progress {
    fn new(shown: bool) -> Progress {
        let now = Instant::now();
        Progress { shown, terminal: std::io::stderr().is_terminal(), began: now, last: now }
    }

    fn show(&mut self, done: u64, of: u64, tally: &Tally) {
        let pause = Duration::from_millis(if self.terminal { 200 } else { 10_000 });
        if !self.shown || (done < of && self.last.elapsed() < pause) {
            return;
        }
        self.last = Instant::now();
        let seconds = self.began.elapsed().as_secs();
        let (start, end) = if self.terminal { ("\r", if done == of { "\n" } else { "" }) } else { ("", "\n") };
        eprint!("{start}{done} of {of} histories, {} calls, {seconds} s{end}", tally.calls);
        let _ = std::io::stderr().flush();
    }
}

fn main() -> ExitCode {
    let Some(Options { histories, events, seed, progress }) = options() else {
        eprintln!("{USAGE}");
        return ExitCode::from(2);
    };
    let params = Params::scope();
    let mut tally = Tally::default();
    let mut progress = Progress::new(progress);
    for done in 0..histories {
        let ran = run(Library::new(), Twin::new(&params), seed.wrapping_add(done), events, &mut tally);
        if let Err(what) = ran {
            eprintln!("\n{what}");
            return ExitCode::FAILURE;
        }
        progress.show(done + 1, histories, &tally);
    }
    print!("{}", tally.table());
    let missing = tally.missing();
    if histories >= ENOUGH && !missing.is_empty() {
        missing.iter().for_each(|what| eprintln!("{what}"));
        return ExitCode::FAILURE;
    }
    ExitCode::SUCCESS
}
