//! Heat splits that are wrong in one place.

use paviluko_model::heat::two_tables;
use paviluko_model::table::ENTRY_LEN;
use paviluko_model::{Entry, Params, Refusal, Table, Taken};

use crate::device::Answer;
use crate::heat::TABLE_LEN;

/// What is wrong.
#[derive(Clone, Copy, Debug, PartialEq, Eq)]
pub enum Wrong {
    /// Negative uses count in the total.
    NegativesCount,
    /// The difference has 32 bits.
    Bits32,
    /// All missing units go to the meter with the largest remainder.
    AllToOne,
    /// They go to the lowest meters that used something.
    LowestMeters,
    /// They go to the largest uses.
    LargestUses,
    /// Among equal remainders the higher meter is first.
    HigherFirst,
    /// Meters that used nothing, or less, have no line.
    NoLine,
    /// Any change of a code is refused with 18.
    AnyChange,
    /// Heat that the other table lacks is refused with 18.
    AbsentIsChange,
    /// Bytes behind two tables are let through.
    BytesBehind,
    /// The last line has no newline.
    NoNewline,
    /// 19 comes before 18.
    TotalFirst,
    /// Shares are rounded to the nearest unit.
    Nearest,
    /// Entries that are not for heat are not looked at.
    HeatAlone,
    /// An output that no first line fits in is refused before the tables are looked at.
    RoomFirst,
    /// Where room is short, what fits is put out.
    PartOfText,
    /// Used is start minus end.
    TurnedRound,
}

pub const ALL: [Wrong; 17] = [
    Wrong::NegativesCount,
    Wrong::Bits32,
    Wrong::AllToOne,
    Wrong::LowestMeters,
    Wrong::LargestUses,
    Wrong::HigherFirst,
    Wrong::NoLine,
    Wrong::AnyChange,
    Wrong::AbsentIsChange,
    Wrong::BytesBehind,
    Wrong::NoNewline,
    Wrong::TotalFirst,
    Wrong::Nearest,
    Wrong::HeatAlone,
    Wrong::RoomFirst,
    Wrong::PartOfText,
    Wrong::TurnedRound,
];

const HEAT: u8 = 3;

/// A meter's line.
struct Line {
    meter: usize,
    used: i128,
    share: i128,
}

fn no(number: u8) -> Refusal {
    Refusal { number, value: 0 }
}

impl Wrong {
    /// The wrong answer to `heat_split`.
    pub fn split(self, params: &Params, tables: &[u8], out: &mut [u8]) -> Answer {
        if self == Wrong::RoomFirst && out.len() < 17 {
            return Err(Refusal { number: 3, value: 17 });
        }
        let text = self.text(params, tables)?;
        let (len, room) = (text.len(), out.len());
        if room >= len || self == Wrong::PartOfText {
            out[..len.min(room)].copy_from_slice(&text.as_bytes()[..len.min(room)]);
        }
        if room < len { Err(Refusal { number: 3, value: len as u64 }) } else { Ok(Taken { store: None, len }) }
    }

    fn text(self, params: &Params, tables: &[u8]) -> Result<String, Refusal> {
        let mut tables = tables.to_vec();
        match self {
            Wrong::BytesBehind => tables.truncate(2 * TABLE_LEN),
            Wrong::HeatAlone => forget_others(params, &mut tables),
            _ => {}
        }
        let (start, end) = two_tables(params, &tables).ok_or(no(4))?;
        let meters: Vec<_> = start.entries.into_iter().zip(end.entries).enumerate().collect();
        let both = meters.iter().filter_map(|&(meter, (start, end))| Some((meter, start?, end?)));
        let listed = both.clone().filter(|(_, start, end)| (start.code, end.code) == (HEAT, HEAT));
        let mut lines: Vec<Line> =
            listed.map(|(meter, start, end)| Line { meter, used: self.used(&start, &end), share: 0 }).collect();

        let heat = |entry: &Option<Entry>| entry.is_some_and(|entry| entry.code == HEAT);
        let mixed = match self {
            Wrong::AnyChange => both.clone().any(|(_, start, end)| start.code != end.code),
            Wrong::AbsentIsChange => meters.iter().any(|(_, (start, end))| heat(start) != heat(end)),
            _ => both.clone().any(|(_, start, end)| (start.code == HEAT) != (end.code == HEAT)),
        };
        let counted = |used: i128| if self == Wrong::NegativesCount { used } else { used.max(0) };
        let total: i128 = lines.iter().map(|line| counted(line.used)).sum();
        match (mixed, total <= 0) {
            (true, true) if self == Wrong::TotalFirst => return Err(no(19)),
            (true, _) => return Err(no(18)),
            (_, true) => return Err(no(19)),
            _ => {}
        }
        self.share(&mut lines, total);

        if self == Wrong::NoLine {
            lines.retain(|line| line.used > 0);
        }
        let mut text = "meter,used,share\n".to_string();
        text.extend(lines.iter().map(|Line { meter, used, share }| format!("{meter},{used},{share}\n")));
        if self == Wrong::NoNewline {
            text.pop();
        }
        Ok(text)
    }

    fn used(self, start: &Entry, end: &Entry) -> i128 {
        match self {
            Wrong::Bits32 => i128::from(end.reading.wrapping_sub(start.reading)),
            Wrong::TurnedRound => i128::from(start.reading) - i128::from(end.reading),
            _ => i128::from(end.reading) - i128::from(start.reading),
        }
    }

    fn share(self, lines: &mut [Line], total: i128) {
        let size = |line: &Line| line.used.max(0) * 1_000_000;
        let half = if self == Wrong::Nearest { total } else { 0 };
        lines.iter_mut().for_each(|line| line.share = (2 * size(line) + half) / (2 * total));
        if self == Wrong::Nearest {
            return;
        }
        let missing = (1_000_000 - lines.iter().map(|line| line.share).sum::<i128>()).max(0);
        let mut order: Vec<usize> = (0..lines.len()).collect();
        order.sort_by_key(|&i| {
            let Line { meter, used, .. } = lines[i];
            let (remainder, meter) = (size(&lines[i]) % total, meter as i128);
            match self {
                Wrong::LowestMeters => (i128::from(used <= 0), meter),
                Wrong::LargestUses => (-used, meter),
                Wrong::HigherFirst => (-remainder, -meter),
                _ => (-remainder, meter),
            }
        });
        match (self, order.first()) {
            (Wrong::AllToOne, Some(&first)) => lines[first].share += missing,
            _ => order.iter().take(missing as usize).for_each(|&i| lines[i].share += 1),
        }
    }
}

/// Leaves out entries that are not in their layout, where they are not for heat.
fn forget_others(params: &Params, tables: &mut [u8]) {
    let one = Params { meters: 1, ..*params };
    for entry in tables.chunks_exact_mut(ENTRY_LEN) {
        if entry[20] != HEAT && Table::read(&one, entry).is_none() {
            entry.fill(0);
        }
    }
}
