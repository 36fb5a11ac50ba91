//! Writes to a meter in one second, and which of them the table shows. What holds of each is said from the request's
//! sentence ("Among equal stamps the lowest lane is now the latest; in one lane the greatest number still is") and not
//! by the model's order.

use paviluko_model::card::Line;
use paviluko_model::{Entry, Model, Table, sealed};

use crate::tally::Tally;

/// Whether a write is shown in place of an entry of the same second; nothing where the two are of one transaction.
fn wins(write: &Entry, entry: &Entry) -> Option<bool> {
    if write.lane != entry.lane {
        return Some(write.lane < entry.lane);
    }
    (write.number != entry.number).then_some(write.number > entry.number)
}

/// What a transaction writes.
fn entries(line: &Line) -> impl Iterator<Item = (usize, Entry)> {
    let Line { lane, number, transaction } = line;
    transaction.writes.iter().map(|write| {
        let (stamp, reading, code) = (transaction.stamp, write.reading, write.code);
        (write.meter, Entry { stamp, number: *number, reading, code, lane: *lane })
    })
}

/// The ties that a transaction met in a table: counted, and each shown as it should be.
pub fn met(line: &Line, before: &Table, after: &Table, tally: &mut Tally) -> Result<(), String> {
    for (meter, write) in entries(line) {
        let Some(entry) = before.entries[meter].filter(|entry| entry.stamp == write.stamp) else { continue };
        let Some(wins) = wins(&write, &entry) else { continue };
        let (ties, whose) = if write.lane == entry.lane {
            (&mut tally.one_lane, "the greatest number's")
        } else {
            (&mut tally.two_lanes, "the lowest lane's")
        };
        let shown = after.entries[meter];
        if shown != Some(if wins { write } else { entry }) {
            return Err(format!(
                "a tie is not {whose}: meter {meter} had {entry:?}, got {write:?} and shows {shown:?}"
            ));
        }
        ties[usize::from(!wins)] += 1;
    }
    Ok(())
}

/// The same of what a recovery read, each held against the entry that is shown in the end.
pub fn recovered(model: &Model, checkpoint: &[u8], log: &[u8], tally: &mut Tally) -> Result<(), String> {
    let Model { params, cipher, vault, .. } = model;
    let held = sealed::open_file(params, cipher, checkpoint).map(|file| file.table.entries).unwrap_or_default();
    let mut read: Vec<(usize, Entry)> =
        held.iter().enumerate().filter_map(|(meter, entry)| Some((meter, (*entry)?))).collect();
    let mut at = 0;
    while let Some((record, len)) = sealed::record_at(params, cipher, &log[at..]) {
        let i = usize::from(record.lane);
        if vault.r[i] < record.number && record.number <= vault.v[i] {
            let sealed::Record { lane, number, transaction, .. } = record;
            read.extend(entries(&Line { lane, number, transaction }));
        }
        at += len;
    }
    for (meter, other) in read {
        let Some(shown) = model.table.entries[meter].filter(|shown| shown.stamp == other.stamp) else { continue };
        if wins(&other, &shown) == Some(true) {
            return Err(format!("a recovery read {other:?} of meter {meter}, and shows {shown:?}"));
        }
        if (other.lane, other.number) != (shown.lane, shown.number) {
            tally.recovered_ties[usize::from(other.lane == shown.lane)] += 1;
        }
    }
    Ok(())
}
