//! Colours, where a terminal shows them: the standard stream is one, `TERM` says that it knows colours, and `NO_COLOR` is not
//! set.

use std::env;
use std::io::IsTerminal;

/// How a line is meant.
#[derive(Clone, Copy, Debug, PartialEq, Eq)]
pub enum Tone {
    Plain,
    /// Stands above others.
    Heading,
    /// Something was done that may not be what was meant.
    Warning,
    /// Something was refused or failed.
    Bad,
}

/// Whether there are colours.
#[derive(Clone, Copy, Debug)]
pub struct Colours(bool);

impl Colours {
    /// Of what is printed to a stream.
    pub fn of(stream: &impl IsTerminal) -> Colours {
        let set = |name| env::var_os(name).is_some_and(|value| !value.is_empty());
        Colours(stream.is_terminal() && capable() && !set("NO_COLOR"))
    }

    /// Whole lines in their colour.
    pub fn paint(self, tone: Tone, text: &str) -> String {
        let code = match tone {
            Tone::Heading => "1",
            Tone::Warning => "33",
            Tone::Bad => "31",
            Tone::Plain => "",
        };
        if !self.0 || code.is_empty() {
            return text.to_string();
        }
        text.split_inclusive('\n')
            .map(|line| match line.strip_suffix('\n') {
                Some(line) => format!("\x1b[{code}m{line}\x1b[0m\n"),
                None => format!("\x1b[{code}m{line}\x1b[0m"),
            })
            .collect()
    }
}

/// Whether the terminal knows more than lines of text.
pub fn capable() -> bool {
    env::var_os("TERM").is_some_and(|term| !term.is_empty() && term != "dumb")
}

#[cfg(test)]
mod tests {
    use super::*;

    #[test]
    fn each_line_is_painted() {
        assert_eq!(Colours(true).paint(Tone::Bad, "a\nb\n"), "\x1b[31ma\x1b[0m\n\x1b[31mb\x1b[0m\n");
        assert_eq!(Colours(true).paint(Tone::Heading, "a"), "\x1b[1ma\x1b[0m");
        assert_eq!(Colours(true).paint(Tone::Plain, "a\n"), "a\n");
        assert_eq!(Colours(false).paint(Tone::Warning, "a\n"), "a\n");
    }
}
