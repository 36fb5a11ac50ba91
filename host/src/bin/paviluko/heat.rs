//! Plain tables, and a year's heat split between them: the library's text, and the same for the screen.

use std::path::Path;

use paviluko_host::files::shown;
use paviluko_host::heat::{self, Flaw, Look, Split};
use paviluko_host::{Collector, HEAT_TEXT_LEN, Refusal, TABLE_LEN, words};

use crate::answer::{self, Answer};
use crate::bars::Bars;
use crate::colour::Tone;
use crate::screen::{aligned, count};
use crate::wrap::width;

/// The unit of heat.
const UNIT: &str = "kWh";
/// Between a line and its bar.
const GAP: &str = "  ";

/// A collector's table in plain, as the library puts it out.
pub fn plain(collector: &Collector) -> Result<Vec<u8>, Refusal> {
    let mut out = vec![0; TABLE_LEN];
    let taken = collector.plain_table(&mut out)?;
    out.truncate(taken.len);
    Ok(out)
}

/// What was written to a file.
pub fn written(path: &Path, table: &[u8]) -> Answer {
    let entries = heat::entries(table).unwrap_or_default();
    let (meters, heat) = (count(entries.len(), "meter"), count(heat::heat_meters(&entries), "heat meter"));
    let (path, bytes) = (shown(path), count(table.len(), "byte"));
    Answer::fine(format!("plain table written to {path}, {bytes}: {meters} with a reading, {heat}"))
}

/// A table that is in a file.
#[derive(Clone, Copy)]
pub struct Filed<'a> {
    pub path: &'a Path,
    pub bytes: &'a [u8],
}

/// The library's text of a split, from the start's table and the end's; or the answer where they are refused. A table of another length
/// is none, whatever stands beside it: that is said before the library is asked.
pub fn split(start: Filed, end: Filed) -> Result<String, Answer> {
    let look = heat::look(start.bytes, end.bytes);
    let why = |answer: Answer| {
        let said = look.why([&shown(start.path), &shown(end.path)]);
        said.into_iter().fold(answer, |answer, why| answer.and(Tone::Bad, format!("why: {why}")))
    };
    let refused = |refusal: Refusal| answer::refused(&refusal, &[words::NO_TABLE]);
    if let Look::Flawed { flaw: Flaw::Length { .. }, .. } = look {
        return Err(why(refused(Refusal { number: look.number(), value: 0 })));
    }
    let mut out = vec![0; HEAT_TEXT_LEN];
    match heat::heat_split(&[start.bytes, end.bytes].concat(), &mut out) {
        Ok(taken) => {
            out.truncate(taken.len);
            String::from_utf8(out).map_err(|_| no_text())
        }
        Err(refusal) if refusal.number == look.number() => Err(why(refused(refusal))),
        Err(refusal) => Err(refused(refusal)),
    }
}

/// A split's text on the screen: a line for each meter, with a bar of its share; and the meters that it leaves out.
pub fn all(text: &str, start: Filed, end: Filed, bars: Bars) -> Answer {
    let Some(split) = Split::read(text) else { return no_text() };
    let lines = lines(&split, bars);
    let (heading, rows) = lines.split_at(lines.find('\n').map_or(0, |end| end + 1));
    let answer = Answer::default().and(Tone::Heading, heading).and(Tone::Plain, rows);
    let answer = answer.and(Tone::Plain, format!("{} in both tables", count(split.lines.len(), "heat meter")));
    let negative = Some(split.negative()).filter(|meters| !meters.is_empty()).map(|meters| negative(&meters));
    let notes = [negative, alone(start, end), alone(end, start)];
    notes.into_iter().flatten().fold(answer, |answer, note| answer.and(Tone::Warning, note))
}

/// The lines: a heading, the meters, the total.
pub fn lines(split: &Split, bars: Bars) -> String {
    let row = |name: &str, used: i64, share: u32| {
        let share = format!("{}.{:04} %", share / 10_000, share % 10_000);
        [name.to_string(), used.to_string(), UNIT.to_string(), share]
    };
    let mut rows = vec![["meter", "used", "unit", "share"].map(String::from)];
    rows.extend(split.lines.iter().map(|line| row(&line.meter.to_string(), line.used, line.share)));
    rows.push(row("total", split.total(), split.shares()));
    let text = aligned(&rows, [false, false, true, false]);
    let longest = bars.room(text.lines().map(width).max().unwrap_or(0) + GAP.len());
    let greatest = split.lines.iter().map(|line| line.share).max().unwrap_or(0);
    let beside = split.lines.iter().map(|line| match line.used {
        ..0 => "negative use".to_string(),
        _ => bars.bar(line.share, greatest, longest),
    });
    let beside = std::iter::once(String::new()).chain(beside).chain([String::new()]);
    text.lines().zip(beside).map(|(row, bar)| format!("{row}{GAP}{bar}").trim_end().to_string() + "\n").collect()
}

/// What is said of the meters with a negative use.
pub fn negative(meters: &[u8]) -> String {
    let names: Vec<String> = meters.iter().map(u8::to_string).collect();
    match &names[..] {
        [name] => format!(
            "negative use: meter {name} was changed during the year, or went back. Its share is 0, and it is left out of \
             the total: settle it by hand"
        ),
        _ => format!(
            "negative use: meters {} were changed during the year, or went back. Their shares are 0, and they are left \
             out of the total: settle them by hand",
            names.join(", ")
        ),
    }
}

/// What is said of the heat meters that a table has alone.
fn alone(table: Filed, other: Filed) -> Option<String> {
    let names: Vec<String> = heat::alone(table.bytes, other.bytes).iter().map(u8::to_string).collect();
    let path = shown(table.path);
    match &names[..] {
        [] => None,
        [name] => {
            Some(format!("not in both: heat meter {name} is in {path} alone, and is left out: settle it by hand"))
        }
        _ => {
            let names = names.join(", ");
            Some(format!("not in both: heat meters {names} are in {path} alone, and are left out: settle them by hand"))
        }
    }
}

/// The library's text is none.
fn no_text() -> Answer {
    Answer::failed("failed: what the library put out is no split")
}

#[cfg(test)]
mod tests {
    use super::*;
    use crate::wrap::WIDTH;

    /// What is shown in a pipe of two uses, without the bars' doing.
    fn shown_lines(text: &str) -> String {
        lines(&Split::read(text).expect("a split"), Bars::here())
    }

    #[test]
    fn columns_of_a_split() {
        let said = shown_lines("meter,used,share\n4,1,333334\n12,-2,0\n200,2,666666\n");
        let rows: Vec<&str> = said.lines().collect();
        assert_eq!(rows[0], "meter  used  unit       share");
        assert!(rows[1].starts_with("    4     1  kWh    33.3334 %  "), "{said}");
        assert_eq!(rows[2], "   12    -2  kWh     0.0000 %  negative use");
        assert!(rows[3].starts_with("  200     2  kWh    66.6666 %  "), "{said}");
        assert_eq!(rows[4], "total     3  kWh   100.0000 %");
        assert!(width(rows[3]) > width(rows[1]));
    }

    #[test]
    fn the_widest_split_fits_the_screen() {
        let text: String = (0..256).map(|meter| format!("{meter},4294967295,3906\n")).collect();
        for line in shown_lines(&format!("meter,used,share\n{text}")).lines() {
            assert!(width(line) <= WIDTH, "{line}");
        }
    }

    #[test]
    fn what_is_no_text() {
        let none = Filed { path: Path::new("a"), bytes: &[] };
        assert!(all("refused 4\n", none, none, Bars::here()).failed);
    }
}
