//! The commands of a session, as help lists them.

use paviluko_host::files::clean;
use paviluko_host::identity;

use crate::answer::Answer;
use crate::near;
use crate::wrap::{WIDTH, wrap};

/// Where the explanations begin in a line.
const COLUMN: usize = 40;

/// A way to write a command, and what it does.
struct Entry {
    form: &'static str,
    text: &'static str,
}

impl Entry {
    /// The command's name.
    fn name(&self) -> &'static str {
        self.form.split_whitespace().next().unwrap_or_default()
    }

    /// Its lines.
    fn lines(&self) -> String {
        wrap(&format!("{:<COLUMN$}{}", self.form, self.text), COLUMN)
    }
}

const fn entry(form: &'static str, text: &'static str) -> Entry {
    Entry { form, text }
}

const ENTRIES: [Entry; 25] = [
    entry("start", "loads and recovers the box, until it is in service"),
    entry(
        "take LANE STAMP METER=CODE:READING ..",
        "takes a transaction of 1 to 16 readings and makes it visible; in a full box room is made first. \
         STAMP is in seconds, or now. CODE is 1 cold water, 2 warm water (l), 3 heat or 4 cooling (kWh)",
    ),
    entry("take --csv FILE", "the same for a file's lines lane,stamp,meter,code,reading"),
    entry("take --no-tidy ..", "the same, also with --csv; a full box then says 7"),
    entry(
        "take-bus LANE METER STAMP HEX ..",
        "takes the reading in a meter's reply on the wired bus (M-Bus), as take does. HEX are the frame's bytes, \
         as 68 1F or 681F",
    ),
    entry("take-bus LANE METER STAMP --file FILE", "the same for a file with the frame's bytes as they are"),
    entry("accept LANE STAMP METER=CODE:READING ..", "the first half of take: the record is written, not visible"),
    entry("commit POSITION", "the second half: makes the record at a position visible"),
    entry("table [--csv]", "the latest reading of every meter"),
    entry(
        "table --plain FILE",
        "writes the table in plain to FILE, which is not there yet, for the yearly heat split (paviluko heat): \
         6144 bytes that are not sealed",
    ),
    entry("tidy", "makes room: a point, a checkpoint, a truncation"),
    entry("point [POSITION]", "sets a point, behind all records"),
    entry("checkpoint", "seals the table into a checkpoint on the card"),
    entry("truncate [POSITION]", "gives up the records below the newest covered point"),
    entry("status", "the vault's 27 numbers, phase, records, points, card"),
    entry("swap-card DIR2", "lifts the card out and puts the card in the folder DIR2 in"),
    entry("swap-card --new DIR2", "the same with a new, empty card"),
    entry("copy-card DIR2", "copies the card that is in to the folder DIR2"),
    entry("cut", "pulls the plug now"),
    entry("cut before N", "pulls it before the Nth store from here"),
    entry("cut after N", "pulls it after the Nth store from here"),
    entry(
        "cut during N BYTES",
        "pulls it in the Nth store from here: the first BYTES bytes of a record or a checkpoint are left on the card, \
         and nothing of any other store",
    ),
    entry("help [COMMAND]", "lists the commands, or the ways to write one"),
    entry("quit", "ends the session, which is a power cut"),
    entry("# ..", "is passed over"),
];

/// The commands that take the name of a folder or a file.
const NAMING: [&str; 5] = ["take", "take-bus", "table", "swap-card", "copy-card"];

/// The names of all commands.
pub fn names() -> Vec<&'static str> {
    let mut names: Vec<&str> = ENTRIES.iter().map(Entry::name).filter(|name| *name != "#").collect();
    names.dedup();
    names
}

/// The options of a command.
pub fn options(name: &str) -> &'static [&'static str] {
    match name {
        "take" => &["--csv", "--no-tidy"],
        "take-bus" => &["--file"],
        "table" => &["--csv", "--plain"],
        "swap-card" => &["--new"],
        _ => &[],
    }
}

/// All lines.
pub fn all() -> String {
    ENTRIES.iter().map(Entry::lines).collect()
}

/// The lines of a command.
pub fn of(name: &str) -> Answer {
    let lines: String = ENTRIES.iter().filter(|entry| entry.name() == name).map(Entry::lines).collect();
    if lines.is_empty() { unknown(name) } else { Answer::fine(lines) }
}

/// Help or the version, where one of their options stands among the words of a command, or in its place.
pub fn wanted(words: &[&str]) -> Option<Answer> {
    let has = |options: [&str; 2]| words.iter().any(|word| options.contains(word));
    if has(["--help", "-h"]) {
        return Some(match words.first() {
            Some(name) if !name.starts_with('-') => of(name),
            _ => Answer::fine(all()),
        });
    }
    has(["--version", "-V"]).then(|| Answer::fine(identity::lines(identity::edition(), identity::sources())))
}

/// A command that is none, or is not written as it should be.
pub fn wrong(name: &str) -> Answer {
    let ways: Vec<&str> = ENTRIES.iter().filter(|entry| entry.name() == name).map(|entry| entry.form).collect();
    if ways.is_empty() {
        return unknown(name);
    }
    Answer::wrong(&ways.join(", or "))
}

fn unknown(name: &str) -> Answer {
    let meant = near::question(name, names());
    Answer::failed(format!("unknown command: {}{meant}; help lists them", clean(&short(name))))
}

/// An option that a command has not, if there is one among its words.
pub fn bad_option(name: &str, words: &[&str]) -> Option<Answer> {
    let known = options(name);
    let option = words.iter().find(|word| word.starts_with("--") && !known.contains(word))?;
    if (name, *option) == ("take", "--tidy") {
        return Some(Answer::failed("wrong command: take makes room by itself: leave --tidy out"));
    }
    if !names().contains(&name) {
        return None;
    }
    let meant = near::question(option, known.iter().copied());
    let option = clean(&short(option));
    let named = if NAMING.contains(&name) { format!("; a name is written ./{option}") } else { String::new() };
    Some(Answer::failed(format!("wrong command: {name} has no option {option}{meant}{named}")))
}

/// As much of a word as is of use in an answer.
pub fn short(word: &str) -> String {
    if word.chars().count() <= WIDTH {
        return word.to_string();
    }
    word.chars().take(WIDTH).chain("..".chars()).collect()
}

#[cfg(test)]
mod tests {
    use super::*;
    use crate::wrap::width;

    #[test]
    fn help_fits_the_screen() {
        for line in all().lines() {
            assert!(width(line) <= WIDTH, "{line}");
        }
        assert!(ENTRIES.iter().all(|entry| entry.form.len() < COLUMN));
    }

    #[test]
    fn help_and_version_answer_everywhere() {
        for line in ["--help", "-h", "take 0 --help", "swap-card --new -h", "nothing --help", "take --version", "-V"] {
            let words: Vec<&str> = line.split_whitespace().collect();
            assert!(wanted(&words).is_some_and(|answer| answer.failed == line.starts_with("nothing")), "{line}");
        }
        assert!(wanted(&["take", "0", "1", "2=1:3"]).is_none());
    }

    #[test]
    fn names_are_those_of_the_entries() {
        let names = names();
        assert_eq!(names.first(), Some(&"start"));
        assert!(names.contains(&"quit") && !names.contains(&"#"));
        for name in ["take", "take-bus", "swap-card"] {
            assert_eq!(names.iter().filter(|known| **known == name).count(), 1);
        }
    }
}
