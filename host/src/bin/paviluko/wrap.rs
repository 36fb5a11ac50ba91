//! Lines that fit the screen.

/// No line that the program makes is wider, but for a path or a word that is.
pub const WIDTH: usize = 100;
/// How far an answer's second line stands in.
pub const INDENT: usize = 4;

/// Text in whole lines of at most `WIDTH` columns. A longer line is broken at a space, and goes on behind the indent.
pub fn wrap(text: &str, indent: usize) -> String {
    let mut out = String::new();
    for line in text.lines() {
        wrap_line(line, indent, &mut out);
    }
    out
}

fn wrap_line(line: &str, indent: usize, out: &mut String) {
    let mut rest = line.to_string();
    while let Some(at) = break_of(&rest) {
        out.push_str(rest[..at].trim_end());
        out.push('\n');
        rest = format!("{:indent$}{}", "", rest[at..].trim_start());
    }
    out.push_str(&rest);
    out.push('\n');
}

/// The space at which a line that is too wide is broken: the last one that leaves a part that fits, else the first one.
fn break_of(line: &str) -> Option<usize> {
    if width(line) <= WIDTH {
        return None;
    }
    let start = line.len() - line.trim_start().len();
    let end = line.trim_end().len();
    let spaces = line.char_indices().filter(|&(at, c)| c == ' ' && at > start && at < end);
    let mut found = None;
    for (at, _) in spaces {
        if found.is_some() && width(&line[..at]) > WIDTH {
            break;
        }
        found = Some(at);
    }
    found
}

/// How many columns a text takes.
pub fn width(text: &str) -> usize {
    text.chars().map(columns).sum()
}

/// How many columns a character takes: none for marks on the one before, two for those of East Asian scripts and emoji.
pub fn columns(c: char) -> usize {
    match u32::from(c) {
        0x0300..=0x036f | 0x200b..=0x200f | 0xfe00..=0xfe0f => 0,
        0x1100..=0x115f | 0x2e80..=0xa4cf | 0xac00..=0xd7a3 | 0xf900..=0xfaff => 2,
        0xfe30..=0xfe6f | 0xff00..=0xff60 | 0xffe0..=0xffe6 | 0x1_f300..=0x1_faff | 0x2_0000..=0x3_fffd => 2,
        _ => 1,
    }
}

#[cfg(test)]
mod tests {
    use super::*;

    #[test]
    fn short_lines_stay_as_they_are() {
        for text in ["", "one  two\n", "\n\n    x\n"] {
            assert_eq!(wrap(text, 4), text);
        }
        assert_eq!(wrap(&"x".repeat(WIDTH), 4), "x".repeat(WIDTH) + "\n");
    }

    #[test]
    fn long_lines_are_broken_at_words() {
        let text = "refused: ".to_string() + &"word ".repeat(60);
        let wrapped = wrap(&text, 4);
        let lines: Vec<&str> = wrapped.lines().collect();
        assert!(lines.len() > 3 && lines.iter().all(|line| width(line) <= WIDTH), "{wrapped}");
        assert!(lines.iter().skip(1).all(|line| line.starts_with("    w")), "{wrapped}");
        let words = |text: &str| text.split_whitespace().map(String::from).collect::<Vec<_>>();
        assert_eq!(words(&wrapped), words(&text));
    }

    #[test]
    fn a_long_word_stands_alone() {
        let path = "x/".repeat(80);
        assert_eq!(wrap(&format!("card {path} is full"), 4), format!("card\n    {path}\n    is full\n"));
        assert_eq!(wrap(&path, 4), format!("{path}\n"));
        assert_eq!(wrap(&format!("  {path}"), 4), format!("  {path}\n"));
    }

    #[test]
    fn columns_and_not_bytes() {
        assert_eq!([width("é"), width("e\u{301}"), width("水"), width("plain")], [1, 1, 2, 5]);
        assert_eq!(wrap(&"é".repeat(WIDTH), 4).lines().count(), 1);
    }
}
