//! Readings off the wired bus: a transaction from an M-Bus reply (EN 13757-2 for the frame, EN 13757-3 for what is in
//! it).
//!
//! Bytes are hexadecimal here. What the request leaves open is said where it is decided.

use crate::model::{demand, no, with};
use crate::{Params, Refusal, Transaction, Write};

/// The filler between records.
const FILLER: u8 = 0x2F;
/// A value of now, eight BCD digits: storage, tariff and unit 0, no extension.
const EIGHT_DIGITS: u8 = 0x0C;
/// Litres.
const LITRES: u8 = 0x13;
/// Kilowatt hours.
const KWH: u8 = 0x06;

/// A one-write transaction from an M-Bus reply, put at the start of `out`: its length.
pub fn from_bus(params: &Params, frame: &[u8], meter: u16, stamp: u64, out: &mut [u8]) -> Result<usize, Refusal> {
    let len = Transaction::len_of(1);
    demand(out.len() >= len, with(3, len))?;
    let meter = usize::from(meter);
    demand(meter < params.meters, no(4))?;
    let reply = Reply::read(frame).ok_or(no(16))?;
    let (code, reading) = reply.reading().ok_or(no(17))?;

    let writes = vec![Write { meter, code, reading }];
    out[..len].copy_from_slice(&Transaction { stamp, writes }.bytes());
    Ok(len)
}

/// The sum of bytes, modulo 256.
pub fn sum(bytes: &[u8]) -> u8 {
    bytes.iter().fold(0, |sum: u8, &byte| sum.wrapping_add(byte))
}

/// A long frame around the L bytes, which are at most 255: of more, L is what a byte holds of their number.
pub fn framed(inside: &[u8]) -> Vec<u8> {
    let l = inside.len() as u8;
    [&[0x68, l, l, 0x68], inside, &[sum(inside), 0x16]].concat()
}

/// The L bytes of a long frame whose lengths, sum and fixed bytes are right.
fn unframed(frame: &[u8]) -> Option<&[u8]> {
    let [0x68, first, second, 0x68, inside @ .., last, 0x16] = frame else { return None };
    let lengths = first == second && inside.len() == usize::from(*first);
    (lengths && sum(inside) == *last).then_some(inside)
}

/// What the L bytes of an unbroken frame say, as far as it matters.
struct Reply<'a> {
    medium: u8,
    /// All that stands behind the header.
    records: &'a [u8],
}

impl<'a> Reply<'a> {
    /// The reply that the frame is, if it is not broken: a wrong C or CI breaks it, and so does an L below 15.
    ///
    /// Nothing else of the header is looked at: not the status, and not a signature that speaks of encryption.
    fn read(frame: &'a [u8]) -> Option<Reply<'a>> {
        let [0x08 | 0x18 | 0x28 | 0x38, _address, 0x72, rest @ ..] = unframed(frame)? else { return None };
        // Identification 4, manufacturer 2, version, medium, access number, status, signature 2.
        let [_, _, _, _, _, _, _, medium, _, _, _, _, records @ ..] = rest else { return None };
        Some(Reply { medium: *medium, records })
    }

    /// The code and the reading of the record that is taken, if one is.
    ///
    /// A record is taken in its medium's own unit alone: litres from a heat meter are passed over.
    fn reading(&self) -> Option<(u8, i32)> {
        let code = code_of(self.medium)?;
        let unit = if code <= 2 { LITRES } else { KWH };
        let taken = Records { rest: self.records }.find(|record| record.dif == EIGHT_DIGITS && record.vif == unit)?;
        Some((code, number(taken.data)?))
    }
}

/// The code of a medium, if it is listed.
fn code_of(medium: u8) -> Option<u8> {
    match medium {
        0x07 | 0x16 => Some(1),
        0x06 | 0x15 => Some(2),
        0x04 | 0x0C => Some(3),
        0x0A | 0x0B => Some(4),
        _ => None,
    }
}

/// A data record: its DIF and VIF without the bytes that extend them, and its data.
struct DataRecord<'a> {
    dif: u8,
    vif: u8,
    data: &'a [u8],
}

/// Records one behind the other. They end where the bytes do, or where the search must: a record that cannot be passed
/// over, or overruns.
struct Records<'a> {
    rest: &'a [u8],
}

impl<'a> Iterator for Records<'a> {
    type Item = DataRecord<'a>;

    fn next(&mut self) -> Option<DataRecord<'a>> {
        // Filler stands where a DIF would, and nowhere else.
        let start = self.rest.iter().position(|&byte| byte != FILLER)?;
        let (&dif, rest) = self.rest.get(start..)?.split_first()?;
        let len = data_len(dif)?;
        let (&vif, rest) = behind_extensions(dif, rest)?.split_first()?;
        if is_plain_text(vif) {
            return None;
        }
        let (data, rest) = behind_extensions(vif, rest)?.split_at_checked(len)?;
        self.rest = rest;
        Some(DataRecord { dif, vif, data })
    }
}

/// Bytes of data by the low four bits of a DIF; a variable length (D) and the special functions (F) have none to go by.
fn data_len(dif: u8) -> Option<usize> {
    match dif & 0x0F {
        // No data; selection for readout.
        0x0 | 0x8 => Some(0),
        0x1 | 0x9 => Some(1),
        0x2 | 0xA => Some(2),
        0x3 | 0xB => Some(3),
        // 5 is a real number of 32 bits.
        0x4 | 0x5 | 0xC => Some(4),
        0x6 | 0xE => Some(6),
        0x7 => Some(8),
        _ => None,
    }
}

/// A VIF whose unit is written out in the frame, with or without extension.
fn is_plain_text(vif: u8) -> bool {
    matches!(vif, 0x7C | 0xFC)
}

/// Whether an extension byte follows this one.
fn is_extended(byte: u8) -> bool {
    byte & 0x80 != 0
}

/// What stands behind the bytes that extend a DIF or a VIF. EN 13757-3 knows at most ten of each; the request does not
/// count them.
fn behind_extensions(first: u8, bytes: &[u8]) -> Option<&[u8]> {
    if !is_extended(first) {
        return Some(bytes);
    }
    let last = bytes.iter().position(|&byte| !is_extended(byte))?;
    bytes.get(last + 1..)
}

/// The number that BCD digits are, lowest byte first; a top digit of F makes the others negative. Seven zeros with it
/// are 0.
fn number(data: &[u8]) -> Option<i32> {
    let digits: Vec<u8> = data.iter().rev().flat_map(|byte| [byte >> 4, byte & 0x0F]).collect();
    match digits.as_slice() {
        [0xF, others @ ..] => decimal(others).map(|size| -size),
        all => decimal(all),
    }
}

/// The number that digits are, highest first, if all are digits: at most eight.
fn decimal(digits: &[u8]) -> Option<i32> {
    digits.iter().try_fold(0, |size, &digit| (digit <= 9).then(|| size * 10 + i32::from(digit)))
}

#[cfg(test)]
mod tests;
