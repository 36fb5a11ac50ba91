//! The yearly heat split: from a table at the start of a year and one at its end, what each heat meter used and its
//! share of the house in millionths.
//!
//! A plain table is the text that a checkpoint seals: `Table::text` makes it and `Table::read` reads it. What the
//! request leaves open is said where it is decided.

use std::cmp::Reverse;

use crate::model::{demand, no, with};
use crate::table::ENTRY_LEN;
use crate::{Entry, Params, Refusal, Table};

/// The code of heat.
const HEAT: u8 = 3;
/// What the shares of a house add up to.
const HOUSE: i128 = 1_000_000;
/// The first line of a split's text.
const TITLE: &str = "meter,used,share\n";

/// What a heat meter used, and its share.
#[derive(Clone, Copy, Debug, PartialEq, Eq)]
pub struct Part {
    pub meter: usize,
    pub used: i128,
    pub share: i128,
}

/// A table as its plain bytes, put at the start of `out`: their length. A table of a handed state, whose codes and
/// lanes may be any, has them too.
pub fn plain_table(table: &Table, out: &mut [u8]) -> Result<usize, Refusal> {
    put(&table.text(), out)
}

/// The text of the split between two plain tables, the start's first, put at the start of `out`: its length.
///
/// Room is looked at where there is a text, and so behind everything else.
pub fn heat_split(params: &Params, tables: &[u8], out: &mut [u8]) -> Result<usize, Refusal> {
    put(text(params, tables)?.as_bytes(), out)
}

/// What the program prints, whatever it reads.
pub fn printed(params: &Params, input: &[u8]) -> String {
    text(params, input).unwrap_or_else(|refusal| format!("refused {}\n", refusal.number))
}

/// The lines of the split, each ended by a newline, the last one too.
fn text(params: &Params, tables: &[u8]) -> Result<String, Refusal> {
    let (start, end) = two_tables(params, tables).ok_or(no(4))?;
    let lines = split(&start, &end)?;
    let line = |Part { meter, used, share }: &Part| format!("{meter},{used},{share}\n");
    Ok(TITLE.to_string() + &lines.iter().map(line).collect::<String>())
}

/// The two tables that the bytes are, if they are two and no byte more. All of both is looked at, meters that are not
/// for heat too.
pub fn two_tables(params: &Params, bytes: &[u8]) -> Option<(Table, Table)> {
    let (start, end) = bytes.split_at_checked(params.meters * ENTRY_LEN)?;
    Some((Table::read(params, start)?, Table::read(params, end)?))
}

/// What each heat meter present in both tables used and its share, by meter number. A use of 0 is one like any other.
pub fn split(start: &Table, end: &Table) -> Result<Vec<Part>, Refusal> {
    // A meter that one of the tables lacks is not listed and not refused, whatever it is in the other.
    let both: Vec<(usize, Entry, Entry)> = (start.entries.iter().zip(&end.entries).enumerate())
        .filter_map(|(meter, (start, end))| Some((meter, (*start)?, (*end)?)))
        .collect();
    // A change among the other codes is none of the split's business.
    demand(both.iter().all(|(_, start, end)| (start.code == HEAT) == (end.code == HEAT)), no(18))?;

    let listed = both.iter().filter(|(_, start, _)| start.code == HEAT);
    let mut parts: Vec<Part> = listed
        .map(|&(meter, start, end)| Part { meter, used: i128::from(end.reading) - i128::from(start.reading), share: 0 })
        .collect();
    // Where no meter is listed the total is zero too.
    let total: i128 = parts.iter().map(Part::counted).sum();
    demand(total > 0, no(19))?;

    parts.iter_mut().for_each(|part| part.share = part.counted() * HOUSE / total);
    let missing = HOUSE - parts.iter().map(|part| part.share).sum::<i128>();
    let mut order: Vec<usize> = (0..parts.len()).collect();
    order.sort_by_key(|&i| (Reverse(parts[i].counted() * HOUSE % total), parts[i].meter));
    // Fewer are missing than there are remainders above 0.
    order.iter().take(missing as usize).for_each(|&i| parts[i].share += 1);
    Ok(parts)
}

impl Part {
    /// What of its use counts in the total.
    fn counted(&self) -> i128 {
        self.used.max(0)
    }
}

/// Puts bytes at the start of `out`, if there is room for them.
fn put(bytes: &[u8], out: &mut [u8]) -> Result<usize, Refusal> {
    let len = bytes.len();
    demand(out.len() >= len, with(3, len))?;
    out[..len].copy_from_slice(bytes);
    Ok(len)
}

#[cfg(test)]
mod tests;
