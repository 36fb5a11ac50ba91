//! A line that is being typed: bytes of the keyboard in, bytes for the screen out. It reads and writes nothing itself
//! (`terminal` does).
//!
//! What is typed at the end of a line is shown as it is typed; for everything else the line is drawn anew. Of a line that is wider
//! than the screen, the part around the cursor is shown.

use crate::wrap::{self, width};

/// So many lines can be called up again.
const HISTORY: usize = 1000;

/// Columns of a screen that does not say how many it has.
const COLUMNS: usize = 80;

/// What the last word before the cursor can be completed to.
pub type Complete = Box<dyn Fn(&str) -> Vec<String>>;

/// What typing came to.
#[derive(Debug, PartialEq, Eq)]
pub enum Typed {
    /// A line; nothing where it is too long.
    Line(Option<String>),
    /// The end.
    End,
}

/// A key.
#[derive(Clone, Copy, Debug, PartialEq, Eq)]
enum Key {
    Char(char),
    Left,
    Right,
    Home,
    End,
    Up,
    Down,
    Backspace,
    Delete,
    /// Deletes what stands behind the cursor, before it, or the word before it.
    CutEnd,
    CutStart,
    CutWord,
    Tab,
    Enter,
    /// Ctrl-C.
    Drop,
    /// Ctrl-D.
    Stop,
    /// Ctrl-L.
    Redraw,
}

/// What the bytes of a key say.
enum Decoded {
    Key(Key),
    /// It has more bytes.
    More,
    /// It means nothing here.
    Nothing,
    /// These bytes are no character; the last of them may begin another.
    Broken,
}

/// The key of some bytes.
fn decode(bytes: &[u8]) -> Decoded {
    match bytes {
        [0x1b] | [0x1b, b'[' | b'O'] => Decoded::More,
        [0x1b, b'O', letter] => named(&[], *letter),
        [0x1b, b'[', params @ .., last @ 0x40..=0x7e] => named(params, *last),
        [0x1b, b'[', .., 0x20..=0x3f] if bytes.len() < 16 => Decoded::More,
        [0x1b, b'[', ..] => Decoded::Nothing,
        [0x1b, rest @ ..] if rest[0] < 0x20 => decode(rest),
        [0x1b, ..] => Decoded::Nothing,
        [byte @ (0..=0x1f | 0x7f)] => control(*byte),
        _ => match std::str::from_utf8(bytes) {
            Ok(text) => match text.chars().next() {
                Some(c) if !c.is_control() => Decoded::Key(Key::Char(c)),
                _ => Decoded::Nothing,
            },
            Err(error) if error.error_len().is_none() => Decoded::More,
            Err(_) => Decoded::Broken,
        },
    }
}

/// A key of a sequence with these numbers and this last letter.
fn named(params: &[u8], last: u8) -> Decoded {
    Decoded::Key(match (params, last) {
        (_, b'A') => Key::Up,
        (_, b'B') => Key::Down,
        (_, b'C') => Key::Right,
        (_, b'D') => Key::Left,
        (_, b'H') | (b"1" | b"7", b'~') => Key::Home,
        (_, b'F') | (b"4" | b"8", b'~') => Key::End,
        (b"3", b'~') => Key::Delete,
        _ => return Decoded::Nothing,
    })
}

/// A key that is held with Ctrl, or has a byte of that kind.
fn control(byte: u8) -> Decoded {
    Decoded::Key(match byte {
        0x01 => Key::Home,
        0x02 => Key::Left,
        0x03 => Key::Drop,
        0x04 => Key::Stop,
        0x05 => Key::End,
        0x06 => Key::Right,
        0x08 | 0x7f => Key::Backspace,
        b'\t' => Key::Tab,
        b'\n' | b'\r' => Key::Enter,
        0x0b => Key::CutEnd,
        0x0c => Key::Redraw,
        0x0e => Key::Down,
        0x10 => Key::Up,
        0x15 => Key::CutStart,
        0x17 => Key::CutWord,
        _ => return Decoded::Nothing,
    })
}

/// A line that is being typed, and those before it.
pub struct Editor {
    prompt: String,
    longest: usize,
    complete: Complete,
    columns: usize,
    /// Bytes of a key that is not whole.
    pending: Vec<u8>,
    line: Vec<char>,
    at: usize,
    /// Bytes of the line.
    bytes: usize,
    too_long: bool,
    /// The screen does not show the line as it is.
    stale: bool,
    history: Vec<String>,
    /// How far back in the history the line is from, and what was being typed before that.
    back: usize,
    draft: Vec<char>,
}

impl Editor {
    pub fn new(prompt: &str, longest: usize, complete: Complete) -> Editor {
        Editor {
            prompt: prompt.to_string(),
            longest,
            complete,
            columns: COLUMNS,
            pending: Vec::new(),
            line: Vec::new(),
            at: 0,
            bytes: 0,
            too_long: false,
            stale: false,
            history: Vec::new(),
            back: 0,
            draft: Vec::new(),
        }
    }

    /// An empty line on a screen of so many columns.
    pub fn begin(&mut self, columns: usize, out: &mut String) {
        self.columns = if columns == 0 { COLUMNS } else { columns };
        self.set(Vec::new());
        self.stale = false;
        self.too_long = false;
        self.back = 0;
        out.push_str(&self.prompt);
    }

    /// Does what the bytes say, as far as the end of the line. How many that were, and what they came to.
    pub fn feed(&mut self, bytes: &[u8], out: &mut String) -> (usize, Option<Typed>) {
        let (mut used, mut typed) = (0, None);
        while used < bytes.len() && typed.is_none() {
            typed = self.byte(bytes[used], out);
            used += 1;
        }
        if self.stale {
            self.draw(out);
        }
        if matches!(typed, Some(Typed::Line(_))) {
            out.push('\n');
        }
        (used, typed)
    }

    fn byte(&mut self, byte: u8, out: &mut String) -> Option<Typed> {
        self.pending.push(byte);
        let decoded = decode(&self.pending);
        if !matches!(decoded, Decoded::More) {
            self.pending.clear();
        }
        match decoded {
            Decoded::Key(key) => self.key(key, out),
            Decoded::More | Decoded::Nothing => None,
            Decoded::Broken => {
                self.key(Key::Char(char::REPLACEMENT_CHARACTER), out);
                // A byte that can begin no character is gone with the rest.
                if (0x80..0xc2).contains(&byte) || byte > 0xf4 { None } else { self.byte(byte, out) }
            }
        }
    }

    fn key(&mut self, key: Key, out: &mut String) -> Option<Typed> {
        match key {
            Key::Enter => return Some(self.enter()),
            Key::Stop if self.line.is_empty() => return Some(Typed::End),
            Key::Drop => self.drop_line(out),
            Key::Char(c) => self.insert(c, out),
            Key::Tab => self.tab(out),
            Key::Left => self.go(self.at.saturating_sub(1)),
            Key::Right => self.go(self.at + 1),
            Key::Home => self.go(0),
            Key::End => self.go(self.line.len()),
            Key::Backspace => self.cut(self.at.saturating_sub(1), self.at),
            Key::Delete | Key::Stop => self.cut(self.at, self.at + 1),
            Key::CutEnd => self.cut(self.at, self.line.len()),
            Key::CutStart => self.cut(0, self.at),
            Key::CutWord => self.cut(self.word_start(), self.at),
            Key::Up => self.recall(self.back + 1),
            Key::Down => self.recall(self.back.saturating_sub(1)),
            Key::Redraw => {
                out.push_str("\x1b[H\x1b[2J");
                self.stale = true;
            }
        }
        None
    }

    /// The whole line, which goes into the history.
    fn enter(&mut self) -> Typed {
        self.go(self.line.len());
        if self.too_long {
            return Typed::Line(None);
        }
        let text: String = self.line.iter().collect();
        if !text.trim().is_empty() && self.history.last() != Some(&text) {
            self.history.push(text.clone());
            let surplus = self.history.len().saturating_sub(HISTORY);
            self.history.drain(..surplus);
        }
        Typed::Line(Some(text))
    }

    /// Gives the line up, and begins another.
    fn drop_line(&mut self, out: &mut String) {
        self.go(self.line.len());
        if self.stale {
            self.draw(out);
        }
        out.push_str("^C\n");
        self.begin(self.columns, out);
    }

    fn insert(&mut self, c: char, out: &mut String) {
        if self.bytes + c.len_utf8() >= self.longest {
            self.too_long = true;
            return;
        }
        self.bytes += c.len_utf8();
        let at_end = self.at == self.line.len();
        self.line.insert(self.at, c);
        self.at += 1;
        if at_end && !self.stale && self.fits() {
            out.push(c);
        } else {
            self.stale = true;
        }
    }

    /// Moves the cursor.
    fn go(&mut self, at: usize) {
        let at = at.min(self.line.len());
        self.stale |= at != self.at;
        self.at = at;
    }

    /// Deletes from one place to another.
    fn cut(&mut self, from: usize, to: usize) {
        let to = to.min(self.line.len());
        let gone: usize = self.line.drain(from.min(to)..to).map(char::len_utf8).sum();
        self.bytes -= gone;
        self.at = from.min(to);
        self.stale |= gone > 0;
    }

    fn set(&mut self, line: Vec<char>) {
        self.bytes = line.iter().map(|c| c.len_utf8()).sum();
        self.at = line.len();
        self.line = line;
        self.stale = true;
    }

    /// Shows a line of the history; 0 is what was being typed.
    fn recall(&mut self, back: usize) {
        if back > self.history.len() || back == self.back {
            return;
        }
        if self.back == 0 {
            self.draft = std::mem::take(&mut self.line);
        }
        self.back = back;
        let line = match back {
            0 => std::mem::take(&mut self.draft),
            _ => self.history[self.history.len() - back].chars().collect(),
        };
        self.set(line);
    }

    /// Where the word before the cursor begins.
    fn word_start(&self) -> usize {
        let before = &self.line[..self.at];
        let end = before.iter().rposition(|c| !c.is_whitespace()).map_or(0, |last| last + 1);
        before[..end].iter().rposition(|c| c.is_whitespace()).map_or(0, |space| space + 1)
    }

    /// Completes the word before the cursor as far as that is clear; where it is not, lists what it can be.
    fn tab(&mut self, out: &mut String) {
        let before: String = self.line[..self.at].iter().collect();
        let word = before.rsplit(char::is_whitespace).next().unwrap_or_default().to_string();
        let found = (self.complete)(&before);
        let Some(mut common) = common_start(&found) else { return };
        if found.len() == 1 && !common.ends_with('/') {
            common.push(' ');
        }
        match common.strip_prefix(&word) {
            Some("") if found.len() > 1 => {
                out.push('\n');
                out.push_str(&wrap::wrap(&found.join("  "), 0));
                self.stale = true;
            }
            Some(rest) => rest.chars().for_each(|c| self.insert(c, out)),
            None => {}
        }
    }

    /// Whether the whole line is on the screen, with room for the cursor behind it.
    fn fits(&self) -> bool {
        // A line of so many bytes is not measured.
        self.bytes < 4 * self.columns && width(&self.prompt) + self.width(0, self.line.len()) < self.columns
    }

    fn width(&self, from: usize, to: usize) -> usize {
        self.line[from..to].iter().map(|&c| wrap::columns(c)).sum()
    }

    /// Draws the line and the cursor.
    fn draw(&mut self, out: &mut String) {
        self.stale = false;
        let room = self.columns.saturating_sub(width(&self.prompt) + 1).max(8);
        let (mut from, mut to, mut taken) = (self.at, self.at, 0);
        // Before the cursor as far as there is room, then behind it.
        while from > 0 && taken + wrap::columns(self.line[from - 1]) <= room {
            from -= 1;
            taken += wrap::columns(self.line[from]);
        }
        while to < self.line.len() && taken + wrap::columns(self.line[to]) <= room {
            taken += wrap::columns(self.line[to]);
            to += 1;
        }
        let shown: String = self.line[from..to].iter().collect();
        out.push_str(&format!("\r{}{shown}\x1b[K", self.prompt));
        if to > self.at {
            out.push_str(&format!("\r\x1b[{}C", width(&self.prompt) + self.width(from, self.at)));
        }
    }
}

/// What all words begin with; nothing where there is no word.
fn common_start(words: &[String]) -> Option<String> {
    let mut common = words.first()?.clone();
    for word in words {
        while !word.starts_with(&common) {
            common.pop();
        }
    }
    Some(common)
}

#[cfg(test)]
mod tests {
    use super::*;

    fn editor() -> Editor {
        let words = ["start", "status", "table", "take"];
        let complete = move |line: &str| {
            let word = line.rsplit(' ').next().unwrap_or_default();
            words.iter().filter(|known| known.starts_with(word)).map(|known| known.to_string()).collect()
        };
        Editor::new("> ", 64, Box::new(complete))
    }

    /// Types a line, and what the screen is sent meanwhile.
    fn typed(editor: &mut Editor, bytes: &[u8]) -> (Typed, String) {
        let mut out = String::new();
        editor.begin(40, &mut out);
        let (used, typed) = editor.feed(bytes, &mut out);
        assert_eq!(used, bytes.len(), "all of {bytes:?}");
        (typed.expect("a whole line"), out)
    }

    fn line(bytes: &[u8]) -> String {
        match typed(&mut editor(), bytes).0 {
            Typed::Line(Some(line)) => line,
            other => panic!("{other:?}"),
        }
    }

    #[test]
    fn what_is_typed_is_shown_as_it_is() {
        let (what, out) = typed(&mut editor(), "take é 水\r".as_bytes());
        assert_eq!(what, Typed::Line(Some("take é 水".to_string())));
        assert_eq!(out, "> take é 水\n");
    }

    #[test]
    fn keys_change_the_line() {
        for (bytes, wanted) in [
            (&b"abc\x1b[D\x1b[DX\n"[..], "aXbc"),
            (b"abc\x1bOD\x1bOCX\n", "abcX"),
            (b"abc\x1b[HX\x1b[FY\n", "XabcY"),
            (b"abc\x1b[1~X\x1b[4~Y\n", "XabcY"),
            (b"abc\x01X\x05Y\n", "XabcY"),
            (b"abc\x7f\x08d\n", "ad"),
            (b"abc\x01\x1b[3~\x04\n", "c"),
            (b"abc\x02\x0b\n", "ab"),
            (b"abc\x02\x15\n", "c"),
            (b"take 0 10  \x17X\n", "take 0 X"),
            (b"\x7f\x1b[D\x1b[3~\x17\x15\x0bok\n", "ok"),
            (b"a\x1b[1;5Cb\x1b[99~c\x1bxd\x1b[200~e\n", "abcde"),
            (b"gone\x03kept\n", "kept"),
            ("aé水\x7f\x7fb\n".as_bytes(), "ab"),
            ("é\x1b[D\x1b[Dx\n".as_bytes(), "xé"),
            (b"a\xffb\xc3c\xc3\n", "a\u{fffd}b\u{fffd}c\u{fffd}"),
            (b"a\xc0b\xc1\xf5c\n", "a\u{fffd}b\u{fffd}\u{fffd}c"),
            (b"a\x00\x1a\xc2\x85b\n", "ab"),
        ] {
            assert_eq!(line(bytes), wanted, "{}", bytes.escape_ascii());
        }
    }

    #[test]
    fn bytes_may_come_one_by_one() {
        let mut editor = editor();
        let mut out = String::new();
        editor.begin(40, &mut out);
        for byte in "é\x1b[DX".bytes() {
            assert_eq!(editor.feed(&[byte], &mut out), (1, None));
        }
        assert_eq!(editor.feed(b"\nrest", &mut out), (1, Some(Typed::Line(Some("Xé".to_string())))));
    }

    #[test]
    fn earlier_lines_come_back() {
        let mut editor = editor();
        let mut next = |bytes: &[u8]| match typed(&mut editor, bytes).0 {
            Typed::Line(Some(line)) => line,
            other => panic!("{other:?}"),
        };
        for text in ["one\n", "two\n", "two\n", "  \n"] {
            next(text.as_bytes());
        }
        assert_eq!(next(b"\x1b[A\n"), "two");
        assert_eq!(next(b"\x1b[A\x1b[A\x1b[A\x1b[A!\n"), "one!");
        assert_eq!(next(b"draft\x1b[A\x1b[A\x1b[B\x1b[B\x1b[B.\n"), "draft.");
        assert_eq!(next(b"\x10\x0e\n"), "");
    }

    #[test]
    fn the_end_and_the_empty_line() {
        assert_eq!(typed(&mut editor(), b"\x04").0, Typed::End);
        assert_eq!(typed(&mut editor(), b"ab\x7f\x7f\x04").0, Typed::End);
        let (what, out) = typed(&mut editor(), b"ab\x03\n");
        assert_eq!((what, out.as_str()), (Typed::Line(Some(String::new())), "> ab^C\n> \n"));
    }

    #[test]
    fn long_lines_are_no_lines() {
        assert_eq!(line(format!("{}\n", "x".repeat(63)).as_bytes()).len(), 63);
        let (what, out) = typed(&mut editor(), format!("{}\n", "x".repeat(64)).as_bytes());
        assert_eq!(what, Typed::Line(None));
        // Only what fits into the screen was drawn.
        assert!(out.lines().all(|line| line.len() < 90), "{out}");
        assert_eq!(typed(&mut editor(), b"x\n").0, Typed::Line(Some("x".to_string())));
    }

    #[test]
    fn the_part_around_the_cursor_is_drawn() {
        let mut editor = editor();
        let mut out = String::new();
        editor.begin(12, &mut out);
        editor.feed(b"0123456789abcdef", &mut out);
        assert!(out.ends_with("\r> 789abcdef\x1b[K"), "{out:?}");
        out.clear();
        editor.feed(b"\x01", &mut out);
        assert_eq!(out, "\r> 012345678\x1b[K\r\x1b[2C");
        out.clear();
        editor.feed(b"\x1b[C\x1b[C", &mut out);
        assert_eq!(out, "\r> 012345678\x1b[K\r\x1b[4C");
    }

    #[test]
    fn any_bytes_at_all() {
        let mut editor = editor();
        let mut random = 0x2545_f491_4f6c_dd1d_u64;
        let mut out = String::new();
        for _ in 0..50_000 {
            random ^= random << 13;
            random ^= random >> 7;
            random ^= random << 17;
            let byte = random as u8;
            // Every other byte is one of those that mean something.
            let common =
                *b"\x1b[ABCDHF3~\x01\x03\x05\x0b\x15\x17\x7f\t a\n".get(usize::from(byte >> 3)).unwrap_or(&byte);
            let (used, typed) = editor.feed(&[if random & 0x100 == 0 { byte } else { common }], &mut out);
            assert_eq!(used, 1);
            assert!(editor.at <= editor.line.len() && editor.bytes < editor.longest);
            assert_eq!(editor.bytes, editor.line.iter().map(|c| c.len_utf8()).sum::<usize>());
            if typed.is_some() {
                editor.begin(usize::from(byte), &mut out);
            }
            out.clear();
        }
    }

    #[test]
    fn words_are_completed() {
        assert_eq!(line(b"ta\tb\t\n"), "table ");
        assert_eq!(line(b"x\t\n"), "x");
        let (what, out) = typed(&mut editor(), b"st\t\tr\t\n");
        assert_eq!(what, Typed::Line(Some("start ".to_string())));
        assert!(out.contains("sta\nstart  status\n"), "{out:?}");
    }
}
