//! What a command answers, and how that is printed.

use std::io::{self, Write};

use paviluko_host::Refusal;
use paviluko_host::runner::Stop;
use paviluko_host::words::Sentence;

use crate::colour::{Colours, Tone};
use crate::wrap::{INDENT, wrap};

/// The answer to a command.
#[derive(Debug, Default)]
pub struct Answer {
    parts: Vec<(Tone, String)>,
    /// Something was refused or failed.
    pub failed: bool,
    /// The session ends.
    pub quit: bool,
}

impl Answer {
    pub fn fine(text: impl Into<String>) -> Answer {
        Answer { parts: vec![(Tone::Plain, text.into())], ..Answer::default() }
    }

    /// A refusal or a failure.
    pub fn failed(text: impl Into<String>) -> Answer {
        Answer { parts: vec![(Tone::Bad, text.into())], failed: true, quit: false }
    }

    /// A wrong command.
    pub fn wrong(how: &str) -> Answer {
        Answer::failed(format!("wrong command: write {how}"))
    }

    /// The end of the session.
    pub fn quit() -> Answer {
        Answer { quit: true, ..Answer::default() }
    }

    /// With more lines.
    pub fn and(mut self, tone: Tone, text: impl Into<String>) -> Answer {
        self.parts.push((tone, text.into()));
        self
    }

    /// Behind where it belongs, in front of everything else that it says.
    pub fn at(mut self, place: &str) -> Answer {
        if let Some((_, text)) = self.parts.first_mut() {
            text.insert_str(0, place);
        }
        self
    }

    /// Prints it.
    pub fn print(&self, out: &mut impl Write, colours: Colours) -> io::Result<()> {
        for (tone, text) in &self.parts {
            out.write_all(colours.paint(*tone, &wrap(text, INDENT)).as_bytes())?;
        }
        out.flush()
    }
}

/// A cut that was asked for is no failure.
impl From<Stop> for Answer {
    fn from(stop: Stop) -> Answer {
        match stop {
            Stop::Cut { .. } => Answer::fine(stop.to_string()),
            _ => Answer::failed(stop.to_string()),
        }
    }
}

/// The same, where a call was made that has but one of the two causes of a number: these say which.
pub fn stopped(stop: Stop, causes: &[Sentence]) -> Answer {
    match stop {
        Stop::Refused(refusal) => refused(&refusal, causes),
        _ => Answer::from(stop),
    }
}

/// A refusal, in the words of its one cause where these have it.
pub fn refused(refusal: &Refusal, causes: &[Sentence]) -> Answer {
    match causes.iter().find(|cause| cause.number == refusal.number) {
        Some(cause) => Answer::failed(format!("refused: {cause}")),
        None => Answer::failed(format!("refused: {refusal}")),
    }
}
