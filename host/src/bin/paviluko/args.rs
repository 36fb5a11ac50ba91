//! The command line: what is wanted, or what is wrong with it.

use std::ffi::OsString;
use std::path::{Path, PathBuf};

use lexopt::{Arg, Parser};
use paviluko_host::files::{clean, shown};

use crate::{bus, near};

pub const USAGE: &str = "\
paviluko: a submeter collector's box on the bench

  paviluko new [--vault FILE] DIR   makes a box in the folder DIR: a vault, a key, an empty card
  paviluko run DIR [SCRIPT]         runs that box: commands from the terminal, a pipe or a file
  paviluko table DIR [--csv]        prints that box's table of latest readings, and stores nothing
  paviluko table DIR --plain FILE   writes that table in plain to FILE, for the yearly heat split
  paviluko heat START END           splits a year's heat: the tables in plain of its start and end
  paviluko bus HEX.. | --file FILE  prints what a meter's reply on the wired bus says
  paviluko demo [DIR]               shows the main job on a new box, in DIR or a passing folder
  paviluko --version                prints the library's edition and the hash of its sources
  paviluko --help                   prints this; behind a command, what that command does

In a session, help lists the commands. The box's state is in memory only: when the session ends,
however it ends, that is a power cut. The exit status is 0 if all went well, 1 if something was
refused or failed, 2 for a wrong command line.
";

const NEW: &str = "\
Makes a box in the folder DIR, which is not there yet or is empty: a vault whose numbers are 0, a
key made at random, an empty card.

  --vault FILE   takes the vault's numbers from FILE, to see what a box says whose counters are
                 spent (8) or cannot be right (2). FILE has lines as DIR/vault has them: w, v and
                 r with 8 numbers, e, s and n with one. What is left out is 0.
";

const RUN: &str = "\
Runs the box in the folder DIR. It has no power yet: start is the first command, and help lists
them all. Commands come from the terminal, from a pipe, or from the file SCRIPT; of a script, a
refusal names the line. The end of the session is a power cut. From a pipe or a script, the exit
status is 1 if anything was refused or failed.
";

const TABLE: &str = "\
Prints the latest reading of every meter of the box in the folder DIR. The card is read and judged
as at a start, and refused alike; nothing is stored, so that vault and card stay as they are. Only
the table goes to standard output; what else there is to say goes to standard error.

  --csv          prints it as meter,code,reading,stamp,lane,number,medium,unit,utc
  --plain FILE   writes it in plain to FILE instead, 6144 bytes, for the yearly heat split: see
                 paviluko heat --help. FILE is not there yet, and lies outside of the box. What is
                 in it is not sealed: anybody can change it.
";

const HEAT: &str = "\
Prints what each heat meter of a house used in a year, in kWh, and its share of the house in percent
and as a bar; the longest is that of the largest share. START and END are the tables of the start
and the end of the year, in plain, as table --plain writes them. Listed are the meters that are heat
meters in both; those that are in one alone are named below. A meter that shows less at the end than
at the start has a negative use: its share is 0, and it is left out of the total. Uses and shares
are the proved library's, the same that the program heatsplit prints. What is refused (4, 18, 19) is
refused on standard error, with the reason.

  --lines   prints the lines of heatsplit alone: meter,used,share, with shares in millionths
";

const BUS: &str = "\
Prints what a frame off the wired bus (M-Bus, EN 13757) says: the meter, its medium, and its records
one a line up to the one that is taken, with code and reading. The frame is a meter's whole reply,
from 68 to 16. No box is needed, and nothing is stored. A frame that is refused (16, 17) is refused
on standard error, with the reason.

  HEX           the frame's bytes in hexadecimal, with or without blanks between them
  --file FILE   takes them from FILE instead, as they are
";

const DEMO: &str = "\
Shows the main job on a new box and checks it: a day's readings, a checkpoint and a truncation, the
plug pulled before and after every store and in the middle of some, old cards put in and refused, a
year's heat split. The box and its cards are made in the folder DIR, which is not there yet, or in a
folder that is removed in the end.

  --heatsplit FILE   hands the year's two tables to the program FILE too, on standard input, and
                     compares its lines with the library's
";

/// A command of the command line.
#[derive(Clone, Copy, Debug, PartialEq, Eq)]
pub enum Command {
    New,
    Run,
    Table,
    Heat,
    Bus,
    Demo,
}

const COMMANDS: [Command; 6] = [Command::New, Command::Run, Command::Table, Command::Heat, Command::Bus, Command::Demo];
/// All words that can stand first.
const WORDS: [&str; 8] = ["new", "run", "table", "heat", "bus", "demo", "help", "version"];

impl Command {
    fn of(word: &str) -> Option<Command> {
        COMMANDS.into_iter().find(|command| command.name() == word)
    }

    fn name(self) -> &'static str {
        match self {
            Command::New => "new",
            Command::Run => "run",
            Command::Table => "table",
            Command::Heat => "heat",
            Command::Bus => "bus",
            Command::Demo => "demo",
        }
    }

    /// How it is written.
    fn usage(self) -> &'static str {
        match self {
            Command::New => "paviluko new [--vault FILE] DIR",
            Command::Run => "paviluko run DIR [SCRIPT]",
            Command::Table => "paviluko table DIR [--csv | --plain FILE]",
            Command::Heat => "paviluko heat [--lines] START END",
            Command::Bus => "paviluko bus HEX.. | --file FILE",
            Command::Demo => "paviluko demo [--heatsplit FILE] [DIR]",
        }
    }

    /// What it does.
    pub fn help(self) -> String {
        let text = match self {
            Command::New => NEW,
            Command::Run => RUN,
            Command::Table => TABLE,
            Command::Heat => HEAT,
            Command::Bus => BUS,
            Command::Demo => DEMO,
        };
        format!("{}\n\n{text}", self.usage())
    }

    /// Its options, and whether each takes a word: there is one at most that does, and one that does not.
    fn options(self) -> &'static [(&'static str, bool)] {
        match self {
            Command::New => &[("vault", true)],
            Command::Table => &[("csv", false), ("plain", true)],
            Command::Heat => &[("lines", false)],
            Command::Bus => &[("file", true)],
            Command::Demo => &[("heatsplit", true)],
            Command::Run => &[],
        }
    }

    /// The least and the greatest number of names behind it.
    fn words(self) -> (usize, usize) {
        match self {
            Command::New | Command::Table => (1, 1),
            Command::Run => (1, 2),
            Command::Heat => (2, 2),
            Command::Demo => (0, 1),
            Command::Bus => (0, 0),
        }
    }

    /// What is missing where so many names are there, and these are too few.
    fn missing(self, names: usize) -> &'static str {
        match (self, names) {
            (Command::Heat, 0) => "the files START and END are missing",
            (Command::Heat, _) => "the file END is missing",
            _ => "the folder DIR is missing",
        }
    }
}

/// What is wanted.
#[derive(Debug, PartialEq, Eq)]
pub enum Wish {
    New { dir: PathBuf, vault: Option<PathBuf> },
    Run { dir: PathBuf, script: Option<PathBuf> },
    Table { dir: PathBuf, form: Form },
    Heat { start: PathBuf, end: PathBuf, lines: bool },
    Bus(Source),
    Demo { dir: Option<PathBuf>, heatsplit: Option<PathBuf> },
    Help(Option<Command>),
    Version,
}

/// How a table is wanted.
#[derive(Debug, PartialEq, Eq)]
pub enum Form {
    Columns,
    Csv,
    /// In plain, in a file.
    Plain(PathBuf),
}

/// Where a frame is.
#[derive(Debug, PartialEq, Eq)]
pub enum Source {
    Bytes(Vec<u8>),
    File(PathBuf),
}

/// What is wrong with a command line: whole lines.
#[derive(Debug, PartialEq, Eq)]
pub struct Wrong(pub String);

impl Wrong {
    /// With how the command is written.
    fn of(command: Option<Command>, what: &str) -> Wrong {
        Wrong(match command {
            Some(command) => format!("paviluko {}: {what}\nusage: {}\n", command.name(), command.usage()),
            None => format!("paviluko: {what}\npaviluko --help lists the commands\n"),
        })
    }
}

/// Reads the words behind the program's name. A wish for help or the version is granted wherever it stands.
pub fn read(words: impl IntoIterator<Item = OsString>) -> Result<Wish, Wrong> {
    let words: Vec<OsString> = words.into_iter().collect();
    let mut line = Line::default();
    let mut parser = Parser::from_args(words);
    loop {
        // An option that has a word with it, as --csv=x, and takes none is an error of the next step.
        match parser.next() {
            Ok(None) => return line.wish(),
            Ok(Some(Arg::Long("help") | Arg::Short('h'))) => return Ok(Wish::Help(line.command)),
            Ok(Some(Arg::Long("version") | Arg::Short('V'))) => return Ok(Wish::Version),
            Ok(Some(Arg::Value(word))) => line.word(word),
            Ok(Some(Arg::Short(letter))) => line.no_option(&format!("-{letter}")),
            Ok(Some(Arg::Long(name))) => {
                let name = name.to_string();
                match line.options().iter().find(|(own, _)| *own == name) {
                    Some((_, true)) => match parser.value() {
                        Ok(value) => line.value = line.name(value),
                        Err(_) => line.complain(&format!("a word is missing behind --{name}")),
                    },
                    Some((_, false)) => line.flag = true,
                    None => {
                        line.no_option(&format!("--{name}"));
                        parser.optional_value();
                    }
                }
            }
            Err(error) => line.complain(&clean(&error.to_string())),
        }
    }
}

/// What was read so far.
#[derive(Default)]
struct Line {
    command: Option<Command>,
    /// The first word, where it is help or version.
    other: Option<Wish>,
    names: Vec<PathBuf>,
    /// The words of a frame.
    hex: Vec<String>,
    /// The command's option that takes no word was given.
    flag: bool,
    /// The word behind the one that takes a word.
    value: Option<PathBuf>,
    /// The first thing that is wrong.
    wrong: Option<Wrong>,
}

impl Line {
    /// The options of the command.
    fn options(&self) -> &'static [(&'static str, bool)] {
        self.command.map_or(&[], Command::options)
    }

    fn complain(&mut self, what: &str) {
        let wrong = Wrong::of(self.command, what);
        self.wrong.get_or_insert(wrong);
    }

    /// A word that is no option.
    fn word(&mut self, word: OsString) {
        let text = word.to_string_lossy().into_owned();
        if self.wrong.is_some() && self.command.is_none() {
            return;
        }
        match (self.command, &self.other) {
            (None, None) => match text.as_str() {
                "help" => self.other = Some(Wish::Help(None)),
                "version" => self.other = Some(Wish::Version),
                _ => self.first(&text),
            },
            (None, Some(Wish::Help(None))) => match Command::of(&text) {
                Some(command) => self.other = Some(Wish::Help(Some(command))),
                None => self.first(&text),
            },
            (Some(Command::Bus), _) => self.hex.extend(text.split_whitespace().map(String::from)),
            (Some(command), _) if self.names.len() < command.words().1 => {
                if let Some(name) = self.name(word) {
                    self.names.push(name);
                }
            }
            _ => self.complain(&format!("{} is one word too many", quoted(&text))),
        }
    }

    /// The word that names the command.
    fn first(&mut self, text: &str) {
        self.command = Command::of(text);
        if self.command.is_none() {
            let meant = near::question(text, WORDS);
            self.complain(&format!("there is no command {}{meant}", quoted(text)));
        }
    }

    /// A folder's or a file's name.
    fn name(&mut self, word: OsString) -> Option<PathBuf> {
        let path = PathBuf::from(word);
        if let Some(what) = no_name(&path) {
            self.complain(&what);
            return None;
        }
        Some(path)
    }

    fn no_option(&mut self, option: &str) {
        let own: Vec<String> = self.options().iter().map(|(name, _)| format!("--{name}")).collect();
        let known = ["--help", "--version"].into_iter().chain(own.iter().map(String::as_str));
        let meant = near::question(option, known);
        let option = clean(option);
        self.complain(&format!("there is no option {option}{meant}; a name that begins so is written ./{option}"));
    }

    /// What all of it says.
    fn wish(self) -> Result<Wish, Wrong> {
        if let Some(wrong) = self.wrong {
            return Err(wrong);
        }
        if let Some(other) = self.other {
            return Ok(other);
        }
        let Some(command) = self.command else {
            return Err(Wrong(format!("paviluko: a command is missing\n\n{USAGE}")));
        };
        if self.names.len() < command.words().0 {
            return Err(Wrong::of(Some(command), command.missing(self.names.len())));
        }
        let mut names = self.names.into_iter();
        let first = names.next();
        let dir = first.clone().unwrap_or_default();
        Ok(match command {
            Command::New => Wish::New { dir, vault: self.value },
            Command::Run => Wish::Run { dir, script: names.next() },
            Command::Table => {
                let form = form(self.flag, self.value).map_err(|what| Wrong::of(Some(command), what))?;
                Wish::Table { dir, form }
            }
            Command::Heat => Wish::Heat { start: dir, end: names.next().unwrap_or_default(), lines: self.flag },
            Command::Bus => Wish::Bus(frame(self.hex, self.value).map_err(|what| Wrong::of(Some(command), &what))?),
            Command::Demo => Wish::Demo { dir: first, heatsplit: self.value },
        })
    }
}

/// How a table is wanted, from the options.
fn form(csv: bool, plain: Option<PathBuf>) -> Result<Form, &'static str> {
    match (csv, plain) {
        (false, None) => Ok(Form::Columns),
        (true, None) => Ok(Form::Csv),
        (false, Some(file)) => Ok(Form::Plain(file)),
        (true, Some(_)) => Err("write --csv or --plain, and not both"),
    }
}

/// The frame that is in words, or in a file.
fn frame(words: Vec<String>, file: Option<PathBuf>) -> Result<Source, String> {
    match (file, &words[..]) {
        (Some(file), []) => Ok(Source::File(file)),
        (None, [_, ..]) => bus::bytes(&words).map(Source::Bytes).map_err(|how| format!("write {how}")),
        (None, []) => Err("the frame is missing".to_string()),
        (Some(_), [word, ..]) => Err(format!("{} is one word too many: the frame is in the file", quoted(word))),
    }
}

/// Why a word is refused as the name of a folder or a file.
pub fn no_name(path: &Path) -> Option<String> {
    match path.as_os_str().as_encoded_bytes().first() {
        None => Some("a name is empty".to_string()),
        Some(b'-') => Some(format!("no name may begin with -: write ./{}", shown(path))),
        Some(_) => None,
    }
}

/// A word as it was written, between quotation marks.
fn quoted(word: &str) -> String {
    format!("\"{}\"", clean(word))
}

#[cfg(test)]
mod tests {
    use super::*;
    use crate::wrap::{WIDTH, width};

    fn line(text: &str) -> Result<Wish, Wrong> {
        read(text.split_whitespace().map(OsString::from))
    }

    #[test]
    fn wishes() {
        let dir = || PathBuf::from("box");
        for (text, wish) in [
            ("new box", Wish::New { dir: dir(), vault: None }),
            ("new --vault v box", Wish::New { dir: dir(), vault: Some("v".into()) }),
            ("new box --vault=v", Wish::New { dir: dir(), vault: Some("v".into()) }),
            ("new -- box", Wish::New { dir: dir(), vault: None }),
            ("run box", Wish::Run { dir: dir(), script: None }),
            ("run box new", Wish::Run { dir: dir(), script: Some("new".into()) }),
            ("table box", Wish::Table { dir: dir(), form: Form::Columns }),
            ("table --csv box", Wish::Table { dir: dir(), form: Form::Csv }),
            ("table box --plain f", Wish::Table { dir: dir(), form: Form::Plain("f".into()) }),
            ("table --plain=f box", Wish::Table { dir: dir(), form: Form::Plain("f".into()) }),
            ("heat a b", Wish::Heat { start: "a".into(), end: "b".into(), lines: false }),
            ("heat a --lines b", Wish::Heat { start: "a".into(), end: "b".into(), lines: true }),
            ("heat --help", Wish::Help(Some(Command::Heat))),
            ("bus 68 1F1f 68", Wish::Bus(Source::Bytes(vec![0x68, 0x1f, 0x1f, 0x68]))),
            ("bus --file f", Wish::Bus(Source::File("f".into()))),
            ("bus --file=f", Wish::Bus(Source::File("f".into()))),
            ("bus x --help", Wish::Help(Some(Command::Bus))),
            ("demo", Wish::Demo { dir: None, heatsplit: None }),
            ("demo box", Wish::Demo { dir: Some(dir()), heatsplit: None }),
            ("demo --heatsplit h", Wish::Demo { dir: None, heatsplit: Some("h".into()) }),
            ("new ./-x", Wish::New { dir: "./-x".into(), vault: None }),
            ("-h", Wish::Help(None)),
            ("help", Wish::Help(None)),
            ("help run", Wish::Help(Some(Command::Run))),
            ("run --help", Wish::Help(Some(Command::Run))),
            ("new a b c --help", Wish::Help(Some(Command::New))),
            ("nwe --help", Wish::Help(None)),
            ("new --frob -h", Wish::Help(Some(Command::New))),
            ("version", Wish::Version),
            ("run box -V", Wish::Version),
            ("--version box", Wish::Version),
        ] {
            assert_eq!(line(text), Ok(wish), "{text}");
        }
    }

    #[test]
    fn what_is_wrong_is_named() {
        for (text, what) in [
            ("", "a command is missing"),
            ("nwe box", "there is no command \"nwe\" (did you mean new?)"),
            ("sell box --csv", "there is no command \"sell\"\n"),
            ("help nwe", "there is no command \"nwe\""),
            ("new", "paviluko new: the folder DIR is missing\nusage: paviluko new [--vault FILE] DIR\n"),
            ("new a b c", "\"b\" is one word too many\nusage: paviluko new"),
            ("help new x", "\"x\" is one word too many"),
            ("version x", "\"x\" is one word too many"),
            ("demo a b", "\"b\" is one word too many"),
            (
                "new --valut x",
                "there is no option --valut (did you mean --vault?); a name that begins so is written ./--valut",
            ),
            ("new -x", "there is no option -x; a name that begins so is written ./-x"),
            ("new -- -x", "no name may begin with -: write ./-x"),
            ("new --vault", "a word is missing behind --vault"),
            ("new --vault -x box", "no name may begin with -: write ./-x"),
            ("new --vault box", "the folder DIR is missing"),
            ("bus", "paviluko bus: the frame is missing\nusage: paviluko bus HEX.. | --file FILE\n"),
            ("bus 68 6", "write two hexadecimal digits for each byte, and not 6\nusage: paviluko bus"),
            ("bus 68 0x16", "write the frame's bytes in hexadecimal, as 68 1F or 681F, and not 0x16\n"),
            ("bus 68 --file f", "\"68\" is one word too many: the frame is in the file"),
            ("bus --file", "a word is missing behind --file"),
            ("bus --fiel f", "there is no option --fiel (did you mean --file?)"),
            ("heat", "paviluko heat: the files START and END are missing\nusage: paviluko heat [--lines] START END\n"),
            ("heat a", "the file END is missing"),
            ("heat a b c", "\"c\" is one word too many"),
            ("heat a b --liens", "there is no option --liens (did you mean --lines?)"),
            ("heat a -", "no name may begin with -: write ./-"),
            ("het a b", "there is no command \"het\" (did you mean heat?)"),
            ("table --csv box --plain f", "write --csv or --plain, and not both\nusage: paviluko table"),
            ("table box --plain", "a word is missing behind --plain"),
            ("table box --plan f", "there is no option --plan (did you mean --plain?)"),
            ("table --plain f", "the folder DIR is missing"),
            ("demo --heatsplit", "a word is missing behind --heatsplit"),
            ("run --csv box", "there is no option --csv"),
            ("table --csv=x box", "--csv"),
            ("run box -", "no name may begin with -: write ./-"),
        ] {
            let Err(Wrong(said)) = line(text) else { panic!("{text}: taken") };
            assert!(said.contains(what), "{text}: {said}");
            assert!(said.starts_with("paviluko") && said.ends_with('\n'), "{said}");
        }
        assert!(read(["new".into(), "".into()]).is_err());
        assert!(read(["bus".into(), " ".into()]).is_err());
        let bytes = Source::Bytes(vec![0x68, 0x1f]);
        assert_eq!(read(["bus".into(), "68 1F".into()]), Ok(Wish::Bus(bytes)));
    }

    #[test]
    fn texts_fit_the_screen() {
        let texts = COMMANDS.map(Command::help).join("\n") + USAGE;
        for line in texts.lines() {
            assert!(width(line) <= WIDTH, "{line}");
        }
    }
}
