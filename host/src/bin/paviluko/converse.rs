//! Commands in, answers out, until the commands end.

use std::io::{self, BufRead, Read, Write};

use paviluko_host::secret;

use crate::answer::Answer;
use crate::colour::Colours;
use crate::complete;
use crate::editor::{Editor, Typed};
use crate::session::Session;
use crate::terminal;

/// Longer lines are refused.
pub const LONGEST_LINE: usize = 65_536;
const PROMPT: &str = "paviluko> ";

/// A line of commands; nothing where it is too long.
type Line = Option<String>;

/// Answers the commands of a reader. Where something was refused or failed, the answer says in which line, behind the name
/// of the script; or says nothing of that, where there is no place. Whether all went well.
pub fn from_reader(session: &mut Session, mut input: impl BufRead, place: Option<&str>) -> io::Result<bool> {
    let colours = Colours::of(&io::stdout());
    let mut fine = true;
    let mut number: u64 = 0;
    while let Some(line) = next_line(&mut input)? {
        number += 1;
        let mut answer = answer(session, line);
        if answer.failed {
            fine = false;
            if let Some(place) = place {
                answer = answer.at(&format!("{place}line {number}: "));
            }
        }
        answer.print(&mut io::stdout(), colours)?;
        if answer.quit {
            break;
        }
    }
    Ok(fine)
}

/// Answers the commands that somebody types, with a prompt: with an editor, where the terminal knows more than lines.
pub fn at_terminal(session: &mut Session, editing: bool) -> io::Result<()> {
    let colours = Colours::of(&io::stdout());
    let mut out = io::stdout();
    writeln!(out, "{}\nIt has no power: type start, or help.", session.greeting())?;
    let mut editor = Editor::new(PROMPT, LONGEST_LINE, Box::new(complete::words));
    loop {
        let line = if editing {
            match terminal::read(&mut editor)? {
                Typed::Line(line) => Some(line),
                Typed::End => None,
            }
        } else {
            write!(out, "{PROMPT}")?;
            out.flush()?;
            next_line(&mut io::stdin().lock())?
        };
        let Some(line) = line else {
            writeln!(out)?;
            return Ok(());
        };
        let answer = answer(session, line);
        answer.print(&mut out, colours)?;
        if answer.quit {
            return Ok(());
        }
    }
}

/// The answer to a line. Where the box has no power behind it, nothing is left of the key below this frame.
fn answer(session: &mut Session, line: Line) -> Answer {
    let answer = match line {
        Some(text) => session.command(&text),
        None => Answer::failed(format!("a line of more than {LONGEST_LINE} bytes is no command")),
    };
    if !session.has_power() {
        secret::wipe_stack();
    }
    answer
}

/// The next line, or nothing at the end; a line that is too long is read over and is no text.
fn next_line(input: &mut impl BufRead) -> io::Result<Option<Line>> {
    let mut bytes = Vec::new();
    if input.by_ref().take(LONGEST_LINE as u64).read_until(b'\n', &mut bytes)? == 0 {
        return Ok(None);
    }
    if bytes.len() == LONGEST_LINE && bytes.last() != Some(&b'\n') {
        input.skip_until(b'\n')?;
        return Ok(Some(None));
    }
    Ok(Some(Some(String::from_utf8_lossy(&bytes).into_owned())))
}
