//! Bars beside numbers: of Unicode's blocks where a terminal shows them, else of #.

use std::env;
use std::io::IsTerminal;

use crate::colour;
use crate::terminal;
use crate::wrap::WIDTH;

/// The longest bar.
const LONGEST: usize = 50;
/// Where there is no room for so many columns, there is no bar.
const SHORTEST: usize = 5;
/// A block of so many eighths of a column.
const BLOCKS: [&str; 8] = ["", "▏", "▎", "▍", "▌", "▋", "▊", "▉"];
const WHOLE: &str = "█";

/// How bars are drawn, and on how many columns a line with one may be.
#[derive(Clone, Copy, Debug)]
pub struct Bars {
    blocks: bool,
    columns: usize,
}

impl Bars {
    /// Of what is printed to standard output: blocks on a terminal that knows more than lines of text, and whose language is
    /// written in UTF-8.
    pub fn here() -> Bars {
        let seen = std::io::stdout().is_terminal();
        let columns = if seen { terminal::columns() } else { 0 };
        let columns = if columns == 0 { WIDTH } else { columns.min(WIDTH) };
        Bars { blocks: seen && colour::capable() && utf8(), columns }
    }

    /// The same where lines stand in by some columns.
    pub fn narrower(self, columns: usize) -> Bars {
        Bars { columns: self.columns.saturating_sub(columns), ..self }
    }

    /// How long the longest bar may be beside a text of so many columns; 0 where there is no room for any.
    pub fn room(self, text: usize) -> usize {
        let left = self.columns.saturating_sub(text).min(LONGEST);
        if left < SHORTEST { 0 } else { left }
    }

    /// A bar of a number, where that of the greatest is so long. What is not 0 is seen.
    pub fn bar(self, number: u32, greatest: u32, longest: usize) -> String {
        let parts = if self.blocks { BLOCKS.len() } else { 1 };
        let (number, greatest) = (u64::from(number), u64::from(greatest.max(1)));
        let exact = number * (longest * parts) as u64;
        let least = u64::from(number > 0 && longest > 0);
        // To the nearest part.
        let drawn = ((exact + greatest / 2) / greatest).max(least) as usize;
        if self.blocks { WHOLE.repeat(drawn / parts) + BLOCKS[drawn % parts] } else { "#".repeat(drawn) }
    }
}

/// Whether the language that is set is written in UTF-8.
fn utf8() -> bool {
    let set = ["LC_ALL", "LC_CTYPE", "LANG"].into_iter().filter_map(env::var_os).find(|value| !value.is_empty());
    set.is_some_and(|value| {
        let value = value.to_string_lossy().to_lowercase();
        value.contains("utf-8") || value.contains("utf8")
    })
}

#[cfg(test)]
mod tests {
    use super::*;
    use crate::wrap::width;

    #[test]
    fn bars_are_as_long_as_their_numbers() {
        let (blocks, ascii) = (Bars { blocks: true, columns: 100 }, Bars { blocks: false, columns: 100 });
        for (number, drawn, plain) in [
            (1_000_000, "██████████", "##########"),
            (500_000, "█████", "#####"),
            (12_500, "▏", "#"),
            (1, "▏", "#"),
            (0, "", ""),
            (987_500, "█████████▉", "##########"),
            (333_333, "███▍", "###"),
        ] {
            assert_eq!(blocks.bar(number, 1_000_000, 10), drawn, "{number}");
            assert_eq!(ascii.bar(number, 1_000_000, 10), plain, "{number}");
        }
        // Beside the greatest, whatever that is.
        assert_eq!(ascii.bar(3906, 3907, 10), "##########");
        assert_eq!(ascii.bar(0, 0, 10), "");
        assert_eq!(blocks.bar(7, 7, 0), "");
        for number in 0..=1000 {
            assert!(width(&blocks.bar(number, 1000, 50)) <= 50 && ascii.bar(number, 1000, 50).len() <= 50, "{number}");
        }
    }

    #[test]
    fn room_for_a_bar() {
        let bars = |columns| Bars { blocks: true, columns };
        assert_eq!([bars(100).room(30), bars(100).room(60), bars(40).room(30)], [50, 40, 10]);
        assert_eq!([bars(34).room(30), bars(20).room(30)], [0, 0]);
    }
}
