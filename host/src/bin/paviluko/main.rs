//! The fitter's bench: makes a box in a folder, runs it, prints its table, reads a frame off the bus, splits a year's heat, and shows
//! the main job.
//!
//! `args` reads the command line. A session (`session`) has an answer (`answer`) for each command; `converse` reads the commands,
//! at a terminal with an `editor`. What is printed fits the screen (`wrap`), and has colours on a terminal alone (`colour`).

mod answer;
mod args;
mod bars;
mod bus;
mod colour;
mod complete;
mod converse;
mod demo;
mod editor;
mod file;
mod heat;
mod help;
mod near;
mod screen;
mod session;
mod stamps;
mod terminal;
mod wrap;

use std::fmt::Display;
use std::fs::File;
use std::io::{self, BufReader, IsTerminal, Write};
use std::path::Path;
use std::process::ExitCode;

use paviluko_host::files::{Disk, Fault, shown};
use paviluko_host::folder::BoxFolder;
use paviluko_host::runner::{Runner, Stop};
use paviluko_host::{Numbers, identity, secret, vault};

use args::{Form, Source, Wish, Wrong};
use bars::Bars;
use colour::{Colours, Tone};
use heat::Filed;
use session::Session;

const FINE: u8 = 0;
const FAILED: u8 = 1;
const BAD_USAGE: u8 = 2;

fn main() -> ExitCode {
    let status = command_line().unwrap_or_else(|error| {
        // A reader that went away (as `head` does) ends the program without a word.
        if error.kind() != io::ErrorKind::BrokenPipe {
            notice(Tone::Bad, format!("paviluko: nothing can be read or printed any more: {error}"));
        }
        FAILED
    });
    ExitCode::from(status)
}

/// Does what the command line says. The exit status; an error where nobody reads what is printed.
fn command_line() -> io::Result<u8> {
    if let Err(error) = secret::no_dumps() {
        notice(Tone::Warning, format!("paviluko: if this program dies, its memory may be written to a file: {error}"));
    }
    match args::read(std::env::args_os().skip(1)) {
        Ok(Wish::New { dir, vault }) => make(&dir, vault.as_deref()),
        Ok(Wish::Run { dir, script }) => run(&dir, script.as_deref()),
        Ok(Wish::Table { dir, form }) => table(&dir, &form),
        Ok(Wish::Heat { start, end, lines }) => heat(&start, &end, lines),
        Ok(Wish::Bus(source)) => bus(&source),
        Ok(Wish::Demo { dir, heatsplit }) => demo::run(dir.as_deref(), heatsplit.as_deref()),
        Ok(Wish::Help(command)) => print(&command.map_or(args::USAGE.to_string(), |command| command.help())),
        Ok(Wish::Version) => print(&identity::lines(identity::edition(), identity::sources())),
        Err(Wrong(what)) => {
            notice(Tone::Plain, what);
            Ok(BAD_USAGE)
        }
    }
}

fn print(text: &str) -> io::Result<u8> {
    io::stdout().write_all(text.as_bytes())?;
    Ok(FINE)
}

/// Says something on standard error. Where nobody reads it, the rest is done all the same.
pub fn notice(tone: Tone, text: impl Display) {
    let text = wrap::wrap(&text.to_string(), wrap::INDENT);
    let _ = io::stderr().write_all(Colours::of(&io::stderr()).paint(tone, &text).as_bytes());
}

/// Says what is wrong with a box or a file.
fn failed(what: impl Display) -> io::Result<u8> {
    notice(Tone::Bad, format!("paviluko: {what}"));
    Ok(FAILED)
}

/// `paviluko new`.
fn make(dir: &Path, vault: Option<&Path>) -> io::Result<u8> {
    let numbers = match vault.map(numbers).transpose() {
        Ok(numbers) => numbers.unwrap_or_default(),
        Err(why) => return failed(why),
    };
    match BoxFolder::create_with(dir, &numbers, Disk::Wait) {
        Ok(()) => print(&format!("{}: a new box with an empty card. Next: paviluko run {0}\n", shown(dir))),
        Err(fault) => failed(fault),
    }
}

/// The vault's numbers in a file that somebody wrote.
fn numbers(path: &Path) -> Result<Numbers, String> {
    let text = file::text(path).map_err(|fault| fault.to_string())?;
    vault::written(&text).map_err(|(line, why)| format!("{}, line {line}: {why}. No box was made.", shown(path)))
}

/// `paviluko run`.
fn run(dir: &Path, script: Option<&Path>) -> io::Result<u8> {
    let mut session = match Runner::open(dir, Disk::Wait) {
        Ok(runner) => Session::new(runner),
        Err(fault) => return failed(fault),
    };
    let (typed, seen) = (io::stdin().is_terminal(), io::stdout().is_terminal());
    let fine = match script {
        Some(path) => match script_file(path) {
            Ok(file) => converse::from_reader(&mut session, BufReader::new(file), Some(&format!("{}, ", shown(path))))?,
            Err(fault) => return failed(fault),
        },
        None if typed && seen => {
            converse::at_terminal(&mut session, colour::capable())?;
            // Somebody has read what was refused.
            true
        }
        None => converse::from_reader(&mut session, io::stdin().lock(), (!typed).then_some(""))?,
    };
    Ok(if fine { FINE } else { FAILED })
}

/// A script, which is no folder.
fn script_file(path: &Path) -> Result<File, Fault> {
    let file = File::open(path).map_err(Fault::unusable(path))?;
    match file.metadata() {
        Ok(found) if found.is_dir() => Err(Fault::unusable(path)(io::ErrorKind::IsADirectory.into())),
        _ => Ok(file),
    }
}

/// `paviluko table`: the table on standard output or in a file, all else on standard error.
fn table(dir: &Path, form: &Form) -> io::Result<u8> {
    let mut runner = match Runner::open(dir, Disk::Wait) {
        Ok(runner) => runner,
        Err(fault) => return failed(fault),
    };
    let card = format!("Box {}, card {}.", screen::near(runner.folder().path()), screen::card(&runner));
    notice(Tone::Plain, card);
    let (readings, plain) = match runner.look_at(|collector| (collector.readings(), heat::plain(collector))) {
        Ok(looked) => looked,
        Err(stop) => return failed(stop),
    };
    let meters = screen::count(readings.len(), "meter");
    notice(Tone::Plain, format!("The card is taken: {meters} in the table. Vault and card stay as they are."));
    let answer = match form {
        Form::Columns | Form::Csv => session::table(&readings, *form == Form::Csv),
        Form::Plain(path) => {
            let written = plain.map_err(Stop::Refused).and_then(|table| {
                runner.folder().write_out(path, &table)?;
                Ok(heat::written(path, &table))
            });
            match written {
                Ok(answer) => answer,
                Err(stop) => return failed(stop),
            }
        }
    };
    answer.print(&mut io::stdout(), Colours::of(&io::stdout()))?;
    Ok(FINE)
}

/// `paviluko heat`: the split on standard output; that it is refused, and why, on standard error.
fn heat(start: &Path, end: &Path, lines: bool) -> io::Result<u8> {
    let (at_start, at_end) = match file::table(start).and_then(|table| Ok((table, file::table(end)?))) {
        Ok(tables) => tables,
        Err(fault) => return failed(fault),
    };
    let (start, end) = (Filed { path: start, bytes: &at_start }, Filed { path: end, bytes: &at_end });
    match heat::split(start, end) {
        Ok(text) if lines => print(&text),
        Ok(text) => {
            let answer = heat::all(&text, start, end, Bars::here());
            answer.print(&mut io::stdout(), Colours::of(&io::stdout()))?;
            Ok(if answer.failed { FAILED } else { FINE })
        }
        Err(refused) => {
            // Where nobody reads it, the status says it all the same.
            let _ = refused.at("paviluko: ").print(&mut io::stderr(), Colours::of(&io::stderr()));
            Ok(FAILED)
        }
    }
}

/// `paviluko bus`: what a frame says on standard output; that it is refused, and why, on standard error.
fn bus(source: &Source) -> io::Result<u8> {
    let frame = match source {
        Source::Bytes(bytes) => bytes.clone(),
        Source::File(path) => match file::frame(path) {
            Ok(bytes) => bytes,
            Err(fault) => return failed(fault),
        },
    };
    // Meter and stamp are the caller's, and are not shown.
    let taken = bus::transaction(&frame, 0, 0);
    let reading = taken.as_ref().ok().map(|(_, reading)| reading);
    bus::all(&frame, reading).print(&mut io::stdout(), Colours::of(&io::stdout()))?;
    match taken {
        Ok(_) => Ok(FINE),
        Err(refused) => {
            // Where nobody reads it, the status says it all the same.
            let _ = refused.at("paviluko: ").print(&mut io::stderr(), Colours::of(&io::stderr()));
            Ok(FAILED)
        }
    }
}
