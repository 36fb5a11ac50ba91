//! The yearly heat split: two plain tables, one of the start and one of the end of a year.
//!
//! `heat_split` is the library's: it says what each heat meter that is in both tables used, and its share of the house in millionths,
//! or refuses them. `Split` takes its text apart for the screen, and `look` says why two tables are refused: which file is no
//! plain table, which meter was changed. The library alone decides number, uses and shares; a test holds what is seen here to what the
//! library says.
//!
//! A plain table is what a checkpoint has sealed: an entry of 24 bytes for each of 256 meters. It is not sealed itself.

#[cfg(test)]
mod tests;

use std::fmt;

use crate::collector::{self, Refusal, Taken};
use crate::ffi;
use crate::limits::{ENTRY_LEN, FILE_LEN, METERS, TABLE_LEN};
use crate::words::medium;

/// The split of a year's heat: its text stands at the start of the output, a line for each heat meter in both tables; the bytes
/// behind it stay. `tables` is the start's plain table and then the end's. Names no store. Refuses with 3, 4, 18 and 19.
pub fn heat_split(tables: &[u8], out: &mut [u8]) -> Result<Taken, Refusal> {
    // SAFETY: the tables' bytes are read for their length alone, the output is written within its own.
    let said = unsafe { ffi::paviluko_heat_split(tables.as_ptr(), tables.len(), out.as_mut_ptr(), out.len()) };
    collector::said(&said)
}

/// The code of heat.
const HEAT: u8 = 3;
/// The codes there are.
const CODES: std::ops::RangeInclusive<u8> = 1..=4;
/// The lanes there are.
const LANES: std::ops::RangeInclusive<u8> = 0..=7;
/// The first line of a split's text.
const HEADING: &str = "meter,used,share";
/// So many changed meters are named, and the rest counted.
const MOST_NAMED: usize = 6;

/// A split, as its text has it.
#[derive(Clone, Debug, PartialEq, Eq)]
pub struct Split {
    /// In order of meter.
    pub lines: Vec<Line>,
}

/// What a heat meter used.
#[derive(Clone, Copy, Debug, PartialEq, Eq)]
pub struct Line {
    pub meter: u8,
    /// In kWh; negative where the meter shows less at the end.
    pub used: i64,
    /// In millionths of the total.
    pub share: u32,
}

impl Split {
    /// A split's text taken apart; nothing where it is none.
    pub fn read(text: &str) -> Option<Split> {
        let mut rows = text.strip_suffix('\n')?.split('\n');
        if rows.next() != Some(HEADING) {
            return None;
        }
        let line = |row: &str| {
            let mut numbers = row.split(',');
            let meter = numbers.next()?.parse().ok()?;
            let used = numbers.next()?.parse().ok()?;
            let share = numbers.next()?.parse().ok()?;
            numbers.next().is_none().then_some(Line { meter, used, share })
        };
        Some(Split { lines: rows.map(line).collect::<Option<_>>()? })
    }

    /// What was shared: the uses that are not negative, together.
    pub fn total(&self) -> i64 {
        self.lines.iter().map(|line| line.used.max(0)).sum()
    }

    /// All shares together.
    pub fn shares(&self) -> u32 {
        self.lines.iter().map(|line| line.share).sum()
    }

    /// The meters with a negative use.
    pub fn negative(&self) -> Vec<u8> {
        self.lines.iter().filter(|line| line.used < 0).map(|line| line.meter).collect()
    }
}

/// A meter's entry in a plain table.
#[derive(Clone, Copy, Debug, PartialEq, Eq)]
pub struct Entry {
    pub meter: u8,
    pub code: u8,
    pub reading: i32,
}

/// What is wrong with a file that is no plain table.
#[derive(Clone, Copy, Debug, PartialEq, Eq)]
pub enum Flaw {
    /// Its length.
    Length { found: usize },
    /// A meter's code.
    Code { meter: u8, code: u8 },
    /// A meter's lane.
    Lane { meter: u8, lane: u8 },
    /// A meter's bytes are neither a reading's nor all 0.
    Entry { meter: u8 },
}

impl fmt::Display for Flaw {
    fn fmt(&self, to: &mut fmt::Formatter) -> fmt::Result {
        match *self {
            Flaw::Length { found } if found > FILE_LEN => {
                write!(to, "it has more than {FILE_LEN} bytes, and a plain table has {TABLE_LEN}")
            }
            Flaw::Length { found: FILE_LEN } => {
                write!(
                    to,
                    "it has {FILE_LEN} bytes, as a checkpoint has, which is sealed; a plain table has {TABLE_LEN}"
                )
            }
            Flaw::Length { found: 0 } => write!(to, "it is empty, and a plain table has {TABLE_LEN} bytes"),
            Flaw::Length { found: 1 } => write!(to, "it has 1 byte, and a plain table has {TABLE_LEN}"),
            Flaw::Length { found } => write!(to, "it has {found} bytes, and a plain table has {TABLE_LEN}"),
            Flaw::Code { meter, code } => write!(to, "meter {meter} has code {code}, and codes are 1 to 4"),
            Flaw::Lane { meter, lane } => write!(to, "meter {meter} has lane {lane}, and lanes are 0 to 7"),
            Flaw::Entry { meter } => {
                let at = usize::from(meter) * ENTRY_LEN;
                write!(to, "meter {meter}: its {ENTRY_LEN} bytes, from byte {at} on, are neither a reading's nor all 0")
            }
        }
    }
}

/// The entries of the meters that have a reading, in order of meter; or what is wrong with a table that is none.
pub fn entries(table: &[u8]) -> Result<Vec<Entry>, Flaw> {
    if table.len() != TABLE_LEN {
        return Err(Flaw::Length { found: table.len() });
    }
    let mut found = Vec::new();
    for (meter, bytes) in (0..METERS).map(|meter| meter as u8).zip(table.chunks_exact(ENTRY_LEN)) {
        if bytes.iter().all(|byte| *byte == 0) {
            continue;
        }
        // Behind stamp and number: the reading, code, lane, whether there is one, and a byte 0.
        let [a, b, c, d, code, lane, present, zero] = std::array::from_fn(|at| bytes[16 + at]);
        if (present, zero) != (1, 0) {
            return Err(Flaw::Entry { meter });
        }
        if !CODES.contains(&code) {
            return Err(Flaw::Code { meter, code });
        }
        if !LANES.contains(&lane) {
            return Err(Flaw::Lane { meter, lane });
        }
        found.push(Entry { meter, code, reading: i32::from_le_bytes([a, b, c, d]) });
    }
    Ok(found)
}

/// How many of some entries are heat meters'.
pub fn heat_meters(entries: &[Entry]) -> usize {
    entries.iter().filter(|entry| entry.code == HEAT).count()
}

/// The heat meters of a table that have no reading in the other, so that a split leaves them out.
pub fn alone(table: &[u8], other: &[u8]) -> Vec<u8> {
    let (Ok(here), Ok(there)) = (entries(table), entries(other)) else { return Vec::new() };
    let heat = here.iter().filter(|entry| entry.code == HEAT).map(|entry| entry.meter);
    heat.filter(|meter| there.iter().all(|entry| entry.meter != *meter)).collect()
}

/// What two tables are.
#[derive(Clone, Debug, PartialEq, Eq)]
pub enum Look {
    /// One of them is no plain table: 4. The start's is 0, the end's 1; of both, the start's is said.
    Flawed { table: usize, flaw: Flaw },
    /// Meters in both that are heat meters in one alone: 18. Each with its code at the start and at the end.
    Changed(Vec<(u8, u8, u8)>),
    /// Nothing was used: 19.
    Nothing(Nothing),
    /// They can be split. The meters that are heat meters in both.
    Fine(Vec<u8>),
}

/// Two tables by which nothing was used.
#[derive(Clone, Copy, Debug, PartialEq, Eq)]
pub struct Nothing {
    /// Heat meters in both.
    pub meters: usize,
    /// Those of them that show less at the end.
    pub less: usize,
    /// The two tables have the same bytes.
    pub same: bool,
}

/// Looks at two tables: any bytes.
pub fn look(start: &[u8], end: &[u8]) -> Look {
    let (at_start, at_end) = match (entries(start), entries(end)) {
        (Err(flaw), _) => return Look::Flawed { table: 0, flaw },
        (_, Err(flaw)) => return Look::Flawed { table: 1, flaw },
        (Ok(at_start), Ok(at_end)) => (at_start, at_end),
    };
    let later = |entry: &Entry| at_end.iter().find(|other| other.meter == entry.meter).map(|other| (*entry, *other));
    let both: Vec<(Entry, Entry)> = at_start.iter().filter_map(later).collect();
    let changed = both.iter().filter(|(a, b)| (a.code == HEAT) != (b.code == HEAT));
    let changed: Vec<(u8, u8, u8)> = changed.map(|(a, b)| (a.meter, a.code, b.code)).collect();
    if !changed.is_empty() {
        return Look::Changed(changed);
    }
    let heat: Vec<(Entry, Entry)> = both.into_iter().filter(|(a, _)| a.code == HEAT).collect();
    if heat.iter().any(|(a, b)| b.reading > a.reading) {
        return Look::Fine(heat.iter().map(|(a, _)| a.meter).collect());
    }
    let less = heat.iter().filter(|(a, b)| b.reading < a.reading).count();
    Look::Nothing(Nothing { meters: heat.len(), less, same: start == end })
}

impl Look {
    /// The number on the display; 0 where the tables can be split.
    pub fn number(&self) -> u8 {
        match self {
            Look::Flawed { .. } => 4,
            Look::Changed(_) => 18,
            Look::Nothing(_) => 19,
            Look::Fine(_) => 0,
        }
    }

    /// Why they are refused, with the names of the start's file and the end's; nothing where they are not.
    pub fn why(&self, [start, end]: [&str; 2]) -> Option<String> {
        match self {
            Look::Flawed { table: 0, flaw } => Some(format!("{start}: {flaw}")),
            Look::Flawed { flaw, .. } => Some(format!("{end}: {flaw}")),
            Look::Changed(meters) => Some(changed(meters, start, end)),
            Look::Nothing(nothing) => Some(nothing.to_string()),
            Look::Fine(_) => None,
        }
    }
}

/// Which meters were changed, each with what it was and what it is.
fn changed(meters: &[(u8, u8, u8)], start: &str, end: &str) -> String {
    let each = meters.iter().take(MOST_NAMED).map(|&(meter, before, after)| {
        format!("meter {meter} is {} in {start} and {} in {end}", medium(before).0, medium(after).0)
    });
    let each: Vec<String> = each.collect();
    match meters.len().saturating_sub(MOST_NAMED) {
        0 => each.join("; "),
        1 => each.join("; ") + "; and 1 more meter was changed so",
        more => format!("{}; and {more} more meters were changed so", each.join("; ")),
    }
}

impl fmt::Display for Nothing {
    fn fmt(&self, to: &mut fmt::Formatter) -> fmt::Result {
        let Nothing { meters, less, same } = *self;
        match meters {
            0 => return write!(to, "no heat meter is in both tables"),
            1 => write!(to, "1 heat meter is in both tables")?,
            _ => write!(to, "{meters} heat meters are in both tables")?,
        }
        match (less, meters) {
            _ if same => write!(to, ", which have the same bytes"),
            (0, _) => write!(to, ", and none shows more at the end than at the start"),
            (1, 1) => write!(to, ", and shows less at the end than at the start: the two files may be exchanged"),
            _ if less == meters => {
                write!(to, ", and all show less at the end than at the start: the two files may be exchanged")
            }
            (1, _) => write!(to, ": 1 shows less at the end than at the start, and none shows more"),
            _ => write!(to, ": {less} show less at the end than at the start, and none shows more"),
        }
    }
}
