//! Transactions in 01's layout, from what a person writes: words of a command, or lines of a CSV file.

use crate::limits::{STAMP_LEN, WRITE_LEN, WRITES};

/// A meter's reading in a transaction. Nothing is checked here: the library refuses what is not in the layout.
#[derive(Clone, Copy, Debug, PartialEq, Eq)]
pub struct Write {
    pub meter: u16,
    pub code: u8,
    pub reading: i32,
}

/// A transaction's bytes.
pub fn bytes(stamp: u64, writes: &[Write]) -> Vec<u8> {
    let mut out = stamp.to_le_bytes().to_vec();
    for write in writes {
        out.extend(write.meter.to_le_bytes());
        out.extend([write.code, 0]);
        out.extend(write.reading.to_le_bytes());
    }
    out
}

/// The writes in a transaction's bytes.
pub fn writes(transaction: &[u8]) -> Vec<Write> {
    let (writes, _) = transaction.get(STAMP_LEN..).unwrap_or_default().as_chunks::<WRITE_LEN>();
    let write = |&[low, high, code, _, a, b, c, d]: &[u8; WRITE_LEN]| Write {
        meter: u16::from_le_bytes([low, high]),
        code,
        reading: i32::from_le_bytes([a, b, c, d]),
    };
    writes.iter().map(write).collect()
}

/// A write from `METER=CODE:READING`.
pub fn write(word: &str) -> Option<Write> {
    let (meter, rest) = word.split_once('=')?;
    let (code, reading) = rest.split_once(':')?;
    Some(Write { meter: meter.parse().ok()?, code: code.parse().ok()?, reading: reading.parse().ok()? })
}

/// A lane's number. One that does not fit into a byte stands for 255, which the library refuses as it would the number.
pub fn lane(word: &str) -> Option<u8> {
    word.parse::<u64>().ok().map(|lane| u8::try_from(lane).unwrap_or(u8::MAX))
}

/// A transaction of a CSV file.
#[derive(Clone, Debug, PartialEq, Eq)]
pub struct Batch {
    /// The first of its lines, from 1.
    pub line: usize,
    pub lane: u8,
    pub stamp: u64,
    pub writes: Vec<Write>,
}

/// What is wrong with a CSV file.
#[derive(Clone, Debug, PartialEq, Eq)]
pub struct BadLine {
    /// From 1.
    pub line: usize,
    pub why: String,
}

/// The transactions of a CSV file: lines of `lane,stamp,meter,code,reading`, of which the first may be just that heading.
/// Lines in a row with the same lane and stamp make a transaction, its meters sorted; more than 16 make several.
pub fn batches(text: &str) -> Result<Vec<Batch>, BadLine> {
    let mut batches: Vec<Batch> = Vec::new();
    let mut lines: Vec<(usize, u8, u64, Write)> = Vec::new();
    for (at, line) in text.lines().enumerate() {
        let line = line.trim();
        let heading = at == 0 && line == "lane,stamp,meter,code,reading";
        if line.is_empty() || line.starts_with('#') || heading {
            continue;
        }
        let (lane, stamp, write) = fields(line).map_err(|why| BadLine { line: at + 1, why })?;
        if lines.last().is_some_and(|&(_, l, s, _)| (l, s) != (lane, stamp)) {
            group(&mut batches, &lines)?;
            lines.clear();
        }
        lines.push((at + 1, lane, stamp, write));
    }
    group(&mut batches, &lines)?;
    Ok(batches)
}

/// A line's fields.
fn fields(line: &str) -> Result<(u8, u64, Write), String> {
    let parts: Vec<&str> = line.split(',').map(str::trim).collect();
    let [lane_text, stamp, meter, code, reading] = parts[..] else {
        return Err(format!("5 fields are wanted, lane,stamp,meter,code,reading, and here are {}", parts.len()));
    };
    Ok((
        lane(lane_text).ok_or("the lane is no number")?,
        stamp.parse().map_err(|_| "the stamp is no number of seconds")?,
        Write {
            meter: meter.parse().map_err(|_| "the meter is no number of 0 to 255")?,
            code: code.parse().map_err(|_| "the code is no number of 1 to 4")?,
            reading: reading.parse().map_err(|_| "the reading is no whole number of 32 bits")?,
        },
    ))
}

/// Adds the transactions of lines with one lane and stamp.
fn group(batches: &mut Vec<Batch>, lines: &[(usize, u8, u64, Write)]) -> Result<(), BadLine> {
    let mut sorted = lines.to_vec();
    sorted.sort_by_key(|&(line, _, _, write)| (write.meter, line));
    for pair in sorted.windows(2) {
        if pair[0].3.meter == pair[1].3.meter {
            let why =
                format!("meter {} has a reading of this lane and stamp in line {} too", pair[1].3.meter, pair[0].0);
            return Err(BadLine { line: pair[1].0, why });
        }
    }
    for part in sorted.chunks(WRITES) {
        let &(_, lane, stamp, _) = &part[0];
        let line = part.iter().map(|&(line, ..)| line).min().unwrap_or_default();
        batches.push(Batch { line, lane, stamp, writes: part.iter().map(|&(.., write)| write).collect() });
    }
    Ok(())
}

#[cfg(test)]
mod tests {
    use super::*;

    #[test]
    fn a_transaction_in_its_layout() {
        let writes = [write("258=3:-2").expect("a write"), write("7=1:16").expect("a write")];
        assert_eq!(
            bytes(5, &writes),
            [5, 0, 0, 0, 0, 0, 0, 0, 2, 1, 3, 0, 254, 255, 255, 255, 7, 0, 1, 0, 16, 0, 0, 0]
        );
        assert_eq!(super::writes(&bytes(5, &writes)), writes);
        assert!(super::writes(&[1; 7]).is_empty() && super::writes(&[1; 15]).is_empty());
        for bad in ["", "7", "7=1", "7:1", "x=1:1", "7=256:1", "65536=1:1", "7=1:2147483648", "7=1:1:1", "7=1:"] {
            assert_eq!(write(bad), None, "{bad}");
        }
    }

    #[test]
    fn lanes_beyond_a_byte() {
        assert_eq!([lane("7"), lane("255"), lane("300"), lane("-1")], [Some(7), Some(255), Some(255), None]);
    }

    #[test]
    fn lines_make_transactions() {
        let text = "lane,stamp,meter,code,reading\n0,5,9,1,1\n\n0,5,3,2,2\n# note\n1,5,3,1,7\n";
        let found = batches(text).expect("read");
        let meters: Vec<(usize, u8, Vec<u16>)> =
            found.iter().map(|b| (b.line, b.lane, b.writes.iter().map(|w| w.meter).collect())).collect();
        assert_eq!(meters, [(2, 0, vec![3, 9]), (6, 1, vec![3])]);
    }

    #[test]
    fn long_runs_are_split() {
        let text: String = (0..40).rev().map(|meter| format!("2,9,{meter},3,{meter}\n")).collect();
        let found = batches(&text).expect("read");
        assert_eq!(found.iter().map(|b| b.writes.len()).collect::<Vec<_>>(), [16, 16, 8]);
        assert!(found.iter().all(|b| b.writes.is_sorted_by_key(|w| w.meter)));
    }

    #[test]
    fn bad_lines_are_named() {
        for (text, line) in [("0,5,9,1\n", 1), ("0,5,9,1,1\n0,5,x,1,1\n", 2), ("0,5,9,1,1\n0,5,8,1,1\n0,5,9,1,2\n", 3)]
        {
            assert_eq!(batches(text).expect_err("bad").line, line, "{text}");
        }
    }
}
