//! Readings straight off the wired bus: replies of meters in M-Bus frames (EN 13757).
//!
//! `from_bus` is the library's: it makes a transaction of a frame, or refuses it. `look` is for people: what a frame says, field
//! by field and record by record, and why there is no reading in it. The library alone decides number, code and reading; a
//! test holds what is seen here to what the library says.
//!
//! A frame is 68 L L 68, L bytes, their sum and 16, all in hexadecimal. The L bytes are C, address, CI, a fixed header of 12 bytes,
//! and records: a DIF, which says how long the data are, a VIF, which says what they are, each with bytes that extend it as long
//! as the top bit of the last one is set, and the data.

mod names;
#[cfg(test)]
mod tests;

use std::fmt;

use crate::collector::{self, Refusal, Taken};
use crate::ffi;
use crate::limits::FRAME_LEN;

pub use names::{medium_name, status_words};

/// A transaction of one write out of a frame: code and reading are the frame's, meter and stamp the caller's. It stands at the
/// start of the output, 16 bytes; those behind it stay. Names no store. Refuses with 3, 4, 16 and 17.
pub fn from_bus(frame: &[u8], meter: u16, stamp: u64, out: &mut [u8]) -> Result<Taken, Refusal> {
    // SAFETY: the frame's bytes are read for their length alone, the output is written within its own.
    let said =
        unsafe { ffi::paviluko_from_bus(frame.as_ptr(), frame.len(), meter, stamp, out.as_mut_ptr(), out.len()) };
    collector::said(&said)
}

/// The first and the fourth byte of a frame.
const START: u8 = 0x68;
/// Its last byte.
const STOP: u8 = 0x16;
/// The bytes C of a reply.
const CONTROLS: [u8; 4] = [0x08, 0x18, 0x28, 0x38];
/// The CI of a reply with a fixed header.
const INFORMATION: u8 = 0x72;
/// The least L: C, address, CI and the header.
const LEAST: u8 = 15;
/// The place of C.
const BODY: usize = 4;
/// The place of the first record: behind C, address, CI and the header.
const RECORDS: usize = BODY + LEAST as usize;
/// In a DIF's place, a byte that says nothing.
const FILLER: u8 = 0x2f;
/// The DIF of the record that is taken: eight digits, the present value.
const DIF: u8 = 0x0c;
/// The VIF of litres, and that of kWh.
const UNITS: [u8; 2] = [0x13, 0x06];

/// The code of a medium, where it is one of the eight; and the VIF of its unit.
fn code(medium: u8) -> Option<(u8, u8)> {
    let [litres, kwh] = UNITS;
    match medium {
        0x07 | 0x16 => Some((1, litres)),
        0x06 | 0x15 => Some((2, litres)),
        0x04 | 0x0c => Some((3, kwh)),
        0x0a | 0x0b => Some((4, kwh)),
        _ => None,
    }
}

/// What a frame says.
#[derive(Clone, Debug, PartialEq, Eq)]
pub struct Look<'a> {
    /// Where the frame is whole.
    pub header: Option<Header>,
    /// What was looked at behind the header, in order.
    pub parts: Vec<Part<'a>>,
    /// The L bytes behind these, and their place.
    pub rest: (usize, &'a [u8]),
    /// Why no more was looked at.
    pub end: End,
}

/// What stands before the records.
#[derive(Clone, Copy, Debug, PartialEq, Eq)]
pub struct Header {
    pub control: u8,
    pub address: u8,
    /// As it is sent, lowest byte first.
    pub identification: [u8; 4],
    pub manufacturer: u16,
    pub version: u8,
    pub medium: u8,
    pub access: u8,
    pub status: u8,
    pub signature: u16,
}

impl Header {
    /// The identification number: eight digits.
    pub fn identification(&self) -> String {
        self.identification.iter().rev().map(|byte| format!("{byte:02X}")).collect()
    }

    /// The manufacturer's three letters; its number where they are none.
    pub fn manufacturer(&self) -> String {
        let letters = [10, 5, 0].map(|shift| (self.manufacturer >> shift & 31) as u8);
        if self.manufacturer >> 15 == 0 && letters.iter().all(|letter| (1..=26).contains(letter)) {
            letters.iter().map(|letter| char::from(b'A' - 1 + letter)).collect()
        } else {
            format!("{:04X}", self.manufacturer)
        }
    }
}

/// A part of the bytes behind the header; its place is that of its first byte in the frame, from 0.
#[derive(Clone, Copy, Debug, PartialEq, Eq)]
pub enum Part<'a> {
    /// Bytes 2F in a row.
    Filler {
        at: usize,
        len: usize,
    },
    Record(Record<'a>),
}

/// A record, as `look` finds it: nobody else makes one.
#[derive(Clone, Copy, Debug, PartialEq, Eq)]
#[non_exhaustive]
pub struct Record<'a> {
    pub at: usize,
    /// The DIF and the bytes that extend it.
    pub dif: &'a [u8],
    /// The VIF and the bytes that extend it.
    pub vif: &'a [u8],
    pub data: &'a [u8],
}

/// Why no more of a frame was looked at.
#[derive(Clone, Debug, PartialEq, Eq)]
pub enum End {
    /// The frame is broken: 16.
    Broken(Broken),
    /// It has no usable record: 17.
    Unusable(Unusable),
    /// The record at this place is taken.
    Taken { at: usize, code: u8, reading: i32 },
}

impl End {
    /// The number on the display; 0 where a record is taken.
    pub fn number(&self) -> u8 {
        match self {
            End::Broken(_) => 16,
            End::Unusable(_) => 17,
            End::Taken { .. } => 0,
        }
    }
}

/// What is wrong with a broken frame: the first thing that one comes upon.
#[derive(Clone, Copy, Debug, PartialEq, Eq)]
pub enum Broken {
    /// So few bytes that there is no L.
    Short { found: usize },
    /// The first or the fourth byte is not 68.
    Start { at: usize, found: u8 },
    /// The two L are not alike.
    Differ { first: u8, second: u8 },
    /// L is below 15.
    Low { l: u8 },
    /// Not L + 6 bytes.
    Count { l: u8, found: usize },
    /// Not the sum of the L bytes.
    Sum { found: u8, wanted: u8 },
    /// The last byte is not 16.
    Stop { found: u8 },
    /// C is not that of a reply.
    Control { found: u8 },
    /// CI is not 72.
    Information { found: u8 },
}

/// Why a whole frame has no usable record.
#[derive(Clone, Debug, PartialEq, Eq)]
pub enum Unusable {
    /// The medium is none of the eight.
    Medium { medium: u8 },
    /// A DIF that ends in D or F, whose data have no length of their own.
    Dif { at: usize, dif: u8 },
    /// A VIF of 7C or FC, behind which stands a text.
    Vif { at: usize, vif: u8 },
    /// A record that does not end within the L bytes, of which the last stands at `last`.
    Overrun { at: usize, last: usize },
    /// A digit above 9 in the record that would be taken.
    Digit { at: usize, byte: u8 },
    /// The records have come to their end. What the record is that comes nearest to the one looked for, if there is one.
    Absent { unit: u8, near: Option<String> },
}

/// Looks at a frame: any bytes.
pub fn look(frame: &[u8]) -> Look<'_> {
    let body = match whole(frame) {
        Ok(body) => body,
        Err(broken) => return Look { header: None, parts: Vec::new(), rest: (0, frame), end: End::Broken(broken) },
    };
    let header = header(body);
    // Up to the end of the L bytes: neither sum nor stop byte is looked at.
    let bytes = &frame[..BODY + body.len()];
    let mut parts = Vec::new();
    let end = search(bytes, header.medium, &mut parts).unwrap_or_else(End::Unusable);
    let behind = parts.last().map_or(RECORDS, Part::end);
    Look { header: Some(header), parts, rest: (behind, &bytes[behind..]), end }
}

/// The L bytes of a frame that is not broken.
fn whole(frame: &[u8]) -> Result<&[u8], Broken> {
    let found = frame.len();
    let start = |at: usize| match frame.get(at) {
        None => Err(Broken::Short { found }),
        Some(&START) => Ok(()),
        Some(&found) => Err(Broken::Start { at, found }),
    };
    start(0)?;
    start(3)?;
    let (l, second) = (frame[1], frame[2]);
    if l != second {
        return Err(Broken::Differ { first: l, second });
    }
    if l < LEAST {
        return Err(Broken::Low { l });
    }
    let end = BODY + usize::from(l);
    if found != end + 2 {
        return Err(Broken::Count { l, found });
    }
    let body = &frame[BODY..end];
    let wanted = body.iter().fold(0, |sum: u8, byte| sum.wrapping_add(*byte));
    match (frame[end], frame[end + 1], body[0], body[2]) {
        (found, ..) if found != wanted => Err(Broken::Sum { found, wanted }),
        (_, found, ..) if found != STOP => Err(Broken::Stop { found }),
        (_, _, found, _) if !CONTROLS.contains(&found) => Err(Broken::Control { found }),
        (_, _, _, found) if found != INFORMATION => Err(Broken::Information { found }),
        _ => Ok(body),
    }
}

/// What stands before the records in the L bytes, which are 15 or more.
fn header(body: &[u8]) -> Header {
    Header {
        control: body[0],
        address: body[1],
        identification: [body[3], body[4], body[5], body[6]],
        manufacturer: u16::from_le_bytes([body[7], body[8]]),
        version: body[9],
        medium: body[10],
        access: body[11],
        status: body[12],
        signature: u16::from_le_bytes([body[13], body[14]]),
    }
}

/// Goes from record to record, up to the end of the bytes, and notes what it passes.
fn search<'a>(bytes: &'a [u8], medium: u8, parts: &mut Vec<Part<'a>>) -> Result<End, Unusable> {
    let (code, unit) = code(medium).ok_or(Unusable::Medium { medium })?;
    let mut at = RECORDS;
    while at < bytes.len() {
        let filler = bytes[at..].iter().take_while(|byte| **byte == FILLER).count();
        if filler > 0 {
            parts.push(Part::Filler { at, len: filler });
            at += filler;
            continue;
        }
        let record = record(bytes, at)?;
        parts.push(Part::Record(record));
        at = record.end();
        if record.dif == [DIF] && record.vif == [unit] {
            return match digits(record.data) {
                // Eight digits are a number of 32 bits.
                Ok(reading) => Ok(End::Taken { at: record.at, code, reading: reading as i32 }),
                Err((place, byte)) => Err(Unusable::Digit { at: at - record.data.len() + place, byte }),
            };
        }
    }
    Err(Unusable::Absent { unit, near: nearest(parts, unit) })
}

/// The record at a place, in the bytes up to the end of the L bytes.
fn record(bytes: &[u8], at: usize) -> Result<Record<'_>, Unusable> {
    let overrun = Unusable::Overrun { at, last: bytes.len() - 1 };
    // A byte and those that extend it, from a place on.
    let extended = |from: usize| {
        let more = bytes.get(from..)?.iter().take_while(|byte| **byte & 0x80 != 0).count();
        bytes.get(from..=from + more)
    };
    let Some(len) = data_len(bytes[at]) else { return Err(Unusable::Dif { at, dif: bytes[at] }) };
    let dif = extended(at).ok_or(overrun.clone())?;
    let behind = at + dif.len();
    if let Some(&vif @ (0x7c | 0xfc)) = bytes.get(behind) {
        return Err(Unusable::Vif { at: behind, vif });
    }
    let vif = extended(behind).ok_or(overrun.clone())?;
    let behind = behind + vif.len();
    let data = bytes.get(behind..behind + len).ok_or(overrun)?;
    Ok(Record { at, dif, vif, data })
}

/// How many data bytes a DIF says; nothing where it ends in D or F.
fn data_len(dif: u8) -> Option<usize> {
    match dif & 15 {
        len @ 0..=4 => Some(usize::from(len)),
        5 => Some(4),
        6 | 14 => Some(6),
        7 => Some(8),
        digits @ 8..=12 => Some(usize::from(digits) - 8),
        _ => None,
    }
}

/// The number in the digits of a record's data, lowest byte first: two a byte, and F in the place of the first is a minus. Of a
/// digit above 9, its byte's place in the data, and the byte.
fn digits(data: &[u8]) -> Result<i64, (usize, u8)> {
    let mut number = 0;
    let mut minus = false;
    for (place, &byte) in data.iter().enumerate().rev() {
        let (mut high, low) = (byte >> 4, byte & 15);
        if high == 15 && place + 1 == data.len() {
            minus = true;
            high = 0;
        }
        if high > 9 || low > 9 {
            return Err((place, byte));
        }
        number = number * 100 + i64::from(high * 10 + low);
    }
    Ok(if minus { -number } else { number })
}

impl Part<'_> {
    /// The place behind it.
    fn end(&self) -> usize {
        match self {
            Part::Filler { at, len } => at + len,
            Part::Record(record) => record.end(),
        }
    }
}

impl Record<'_> {
    /// The place behind it.
    fn end(&self) -> usize {
        self.at + self.dif.len() + self.vif.len() + self.data.len()
    }

    /// What the DIF says: how the data are written, and which value it is where it is not the present one.
    pub fn kind(&self) -> String {
        let first = self.dif[0];
        let mut said = names::data_name(first).to_string();
        let (storage, tariff, subunit) = self.counts();
        if let Some(name) = names::function_name(first) {
            said += &format!(", {name}");
        }
        for (name, count) in [("storage", storage), ("tariff", tariff), ("subunit", subunit)] {
            if count > 0 {
                said += &format!(", {name} {count}");
            }
        }
        said
    }

    /// Storage number, tariff and subunit. No more than ten bytes extend a DIF; of others the first ten are read.
    fn counts(&self) -> (u64, u64, u64) {
        let mut counts = (u64::from(self.dif[0] >> 6 & 1), 0, 0);
        for (place, &byte) in self.dif[1..].iter().take(10).enumerate() {
            counts.0 |= u64::from(byte & 15) << (1 + 4 * place);
            counts.1 |= u64::from(byte >> 4 & 3) << (2 * place);
            counts.2 |= u64::from(byte >> 6 & 1) << place;
        }
        counts
    }

    /// The number in the data, where they are an integer or digits; a date is none.
    pub fn number(&self) -> Option<i64> {
        if names::is_date(self.vif) {
            return None;
        }
        match self.dif[0] & 15 {
            1..=4 | 6 | 7 => {
                let minus = self.data.last()? & 0x80 != 0;
                let mut bytes = [if minus { 0xff } else { 0 }; 8];
                bytes[..self.data.len()].copy_from_slice(self.data);
                Some(i64::from_le_bytes(bytes))
            }
            9..=12 | 14 => digits(self.data).ok(),
            _ => None,
        }
    }

    /// What is measured, as a name, and the number with its unit; empty where they are not known.
    pub fn measured(&self) -> (&'static str, String) {
        let quantity = names::quantity(self.vif);
        let number = match (self.number(), quantity) {
            (Some(number), Some((_, unit, power))) => format!("{} {unit}", names::scaled(number, power)),
            (Some(number), None) => number.to_string(),
            (None, _) => String::new(),
        };
        (quantity.map_or("", |(name, ..)| name), number.trim_end().to_string())
    }
}

/// The record that comes nearest to one of DIF 0C and this VIF, in words.
fn nearest(parts: &[Part], unit: u8) -> Option<String> {
    let records = parts.iter().filter_map(|part| match part {
        Part::Record(record) => Some((farness(record, unit)?, record)),
        Part::Filler { .. } => None,
    });
    let (_, record) = records.min_by_key(|(far, _)| *far)?;
    let (name, number) = record.measured();
    let what = [name, number.as_str()].into_iter().filter(|text| !text.is_empty()).collect::<Vec<_>>().join(" ");
    Some(format!(
        "at byte {}: DIF {} ({}), VIF {} ({what})",
        record.at,
        hex(record.dif),
        record.kind(),
        hex(record.vif)
    ))
}

/// How far a record is from the one looked for; nothing where it has nothing to do with it. A value that is not the present one is
/// farther.
fn farness(record: &Record, unit: u8) -> Option<(u8, bool)> {
    let eight = record.dif == [DIF];
    let present = record.dif[0] & 0x70 == 0 && record.counts() == (0, 0, 0);
    let same =
        |vif: &[u8]| names::quantity(vif).map(|(name, ..)| name) == names::quantity(&[unit]).map(|(name, ..)| name);
    let far = match () {
        _ if record.vif == [unit] => 0,
        _ if record.vif[0] & 0x7f == unit => 1,
        _ if same(record.vif) => 2 + u8::from(!eight),
        _ if eight && UNITS.iter().any(|other| record.vif == [*other]) => 4,
        _ => return None,
    };
    Some((far, !present))
}

/// Bytes in hexadecimal, with a blank between them.
pub fn hex(bytes: &[u8]) -> String {
    bytes.iter().map(|byte| format!("{byte:02X}")).collect::<Vec<_>>().join(" ")
}

/// Why, in words, where there is no reading.
impl fmt::Display for Broken {
    fn fmt(&self, to: &mut fmt::Formatter) -> fmt::Result {
        match *self {
            Broken::Short { found: 0 } => write!(to, "there are no bytes"),
            Broken::Short { found } => write!(to, "the bytes end before the fourth: here are {found}"),
            Broken::Start { at: 0, found: 0xe5 } => {
                write!(to, "byte 0 is E5 and not 68: the meter has acknowledged something, and sent no reply")
            }
            Broken::Start { at: 0, found: 0x10 } => {
                write!(to, "byte 0 is 10 and not 68: this is a short frame, as it is sent to a meter, and no reply")
            }
            Broken::Start { at: 0, found: b'6' } => {
                write!(to, "byte 0 is 36 and not 68: these may be hexadecimal digits in the place of bytes")
            }
            Broken::Start { at, found } => write!(to, "byte {at} is {found:02X} and not 68"),
            Broken::Differ { first, second } => write!(to, "the two L are not alike: {first:02X} and {second:02X}"),
            Broken::Low { l } => write!(to, "L is {l}, and a reply with a fixed header has 15 or more"),
            Broken::Count { l, found } => {
                let wanted = usize::from(l) + 6;
                write!(to, "L is {l}, so that the frame has {wanted} bytes, and here are ")?;
                if found > FRAME_LEN { write!(to, "more than {FRAME_LEN}") } else { write!(to, "{found}") }
            }
            Broken::Sum { found, wanted } => {
                write!(to, "the sum of the L bytes is {wanted:02X}, and behind them stands {found:02X}")
            }
            Broken::Stop { found } => write!(to, "the last byte is {found:02X} and not 16"),
            Broken::Control { found } => {
                write!(to, "C is {found:02X}, and that of a reply is 08, 18, 28 or 38")?;
                if matches!(found, 0x40 | 0x53 | 0x73 | 0x5a | 0x7a | 0x5b | 0x7b) {
                    write!(to, ": this is what was sent to the meter")?;
                }
                Ok(())
            }
            Broken::Information { found } => write!(to, "CI is {found:02X} and not 72"),
        }
    }
}

impl fmt::Display for Unusable {
    fn fmt(&self, to: &mut fmt::Formatter) -> fmt::Result {
        match self {
            Unusable::Medium { medium } => {
                write!(
                    to,
                    "the medium is {medium:02X} ({}), and none of 07, 16, 06, 15, 04, 0C, 0A and 0B",
                    medium_name(*medium)
                )
            }
            Unusable::Dif { at, dif } => {
                let what = match dif {
                    0x0f | 0x1f => "behind it stand the manufacturer's own data",
                    _ if dif & 15 == 13 => "it says no length of its data",
                    _ => "it begins no record",
                };
                write!(to, "the DIF {dif:02X} at byte {at} ends the search: {what}")
            }
            Unusable::Vif { at, vif } => {
                write!(to, "the VIF {vif:02X} at byte {at} ends the search: its unit is a text")
            }
            Unusable::Overrun { at, last } => {
                write!(to, "the record at byte {at} does not end within the L bytes, the last of which is byte {last}")
            }
            Unusable::Digit { at, byte } => {
                write!(to, "byte {at}, in the record that would be taken, is {byte:02X}: no two digits")
            }
            Unusable::Absent { unit, near } => {
                let name = if *unit == UNITS[0] { "litres" } else { "kWh" };
                write!(to, "no record has DIF 0C (8 digits) and VIF {unit:02X} ({name})")?;
                match near {
                    Some(near) => write!(to, "; nearest is the one {near}"),
                    None => Ok(()),
                }
            }
        }
    }
}

impl fmt::Display for End {
    fn fmt(&self, to: &mut fmt::Formatter) -> fmt::Result {
        match self {
            End::Broken(broken) => broken.fmt(to),
            End::Unusable(unusable) => unusable.fmt(to),
            End::Taken { at, .. } => write!(to, "the record at byte {at} is taken"),
        }
    }
}
