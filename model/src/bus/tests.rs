//! The request's sentences, just inside and just outside; every byte of a reply changed; published replies.

use super::*;

const STAMP: u64 = 0x0102_0304_0506_0708;
const METER: u16 = 7;
/// A record that is taken from a water meter: 12,345,678 litres.
const WATER: [u8; 6] = [0x0C, 0x13, 0x78, 0x56, 0x34, 0x12];
/// A record that is taken from a heat meter: 12,345,678 kWh.
const HEAT: [u8; 6] = [0x0C, 0x06, 0x78, 0x56, 0x34, 0x12];
/// Bytes of data by the low four bits of a DIF, in the norm's order; none for D and F.
const LENGTHS: [Option<usize>; 16] = [
    Some(0),
    Some(1),
    Some(2),
    Some(3),
    Some(4),
    Some(4),
    Some(6),
    Some(8),
    Some(0),
    Some(1),
    Some(2),
    Some(3),
    Some(4),
    None,
    Some(6),
    None,
];

/// Code and reading of what was taken, or the number on the display.
type Said = Result<(u8, i32), u8>;

/// 68 L L 68, the bytes, their sum, 16: added up in another way than the model does.
fn framed(inside: &[u8]) -> Vec<u8> {
    let l = inside.len() as u8;
    let sum = inside.iter().map(|&byte| u64::from(byte)).sum::<u64>() % 256;
    [&[0x68, l, l, 0x68], inside, &[sum as u8, 0x16]].concat()
}

/// The L bytes of a reply.
fn inside(medium: u8, records: &[u8]) -> Vec<u8> {
    let head = [0x08, 0x05, 0x72, 0x78, 0x56, 0x34, 0x12, 0x24, 0x40, 0x01, medium, 0x55, 0x00, 0x00, 0x00];
    [&head, records].concat()
}

/// A reply with these records.
fn reply(medium: u8, records: &[u8]) -> Vec<u8> {
    framed(&inside(medium, records))
}

/// What comes of a frame. A refusal leaves all of the output, and nothing stands beside 16 and 17; else the transaction
/// is in its layout and the bytes behind it are left.
fn said(frame: &[u8]) -> Said {
    let params = Params::scope();
    let mut out = [0xA5; 20];
    match from_bus(&params, frame, METER, STAMP, &mut out) {
        Ok(len) => {
            assert_eq!((len, &out[16..]), (16, &[0xA5; 4][..]));
            let Some(Transaction { stamp, writes }) = Transaction::read(&params, &out[..len]) else {
                panic!("no transaction: {out:02X?}")
            };
            assert_eq!((stamp, writes.len(), writes[0].meter), (STAMP, 1, usize::from(METER)));
            Ok((writes[0].code, writes[0].reading))
        }
        Err(Refusal { number, value }) => {
            assert_eq!((out, value), ([0xA5; 20], 0));
            Err(number)
        }
    }
}

/// What comes of a water meter's records.
fn water(records: &[&[u8]]) -> Said {
    said(&reply(0x07, &records.concat()))
}

const TAKEN: Said = Ok((1, 12_345_678));

// ---- the call

#[test]
fn layout() {
    let mut out = [0xA5; 17];
    let frame = reply(0x0B, &[0x0C, 0x06, 0x01, 0x00, 0x00, 0xF0]);
    assert_eq!(from_bus(&Params::scope(), &frame, 255, STAMP, &mut out), Ok(16));
    assert_eq!(out, [8, 7, 6, 5, 4, 3, 2, 1, 255, 0, 4, 0, 0xFF, 0xFF, 0xFF, 0xFF, 0xA5]);
}

#[test]
fn any_stamp() {
    for stamp in [0, 1, u64::MAX] {
        let mut out = [0; 16];
        assert_eq!(from_bus(&Params::scope(), &reply(0x07, &WATER), 0, stamp, &mut out), Ok(16));
        assert_eq!(out[..8], stamp.to_le_bytes());
    }
}

#[test]
fn room() {
    for len in 0..40 {
        let mut out = vec![0xA5; len];
        let answer = from_bus(&Params::scope(), &reply(0x07, &WATER), METER, STAMP, &mut out);
        if len < 16 {
            assert_eq!(answer, Err(Refusal { number: 3, value: 16 }));
            assert_eq!(out, vec![0xA5; len]);
        } else {
            assert_eq!(answer, Ok(16));
            assert_eq!(out[..8], STAMP.to_le_bytes());
            assert_eq!(out[16..], vec![0xA5; len - 16]);
        }
    }
}

#[test]
fn meters() {
    for meter in 0..=u16::MAX {
        let mut out = [0xA5; 16];
        let answer = from_bus(&Params::scope(), &reply(0x07, &WATER), meter, STAMP, &mut out);
        if meter <= 255 {
            assert_eq!((answer, out[8..10].to_vec()), (Ok(16), meter.to_le_bytes().to_vec()));
        } else {
            assert_eq!((answer, out), (Err(Refusal { number: 4, value: 0 }), [0xA5; 16]));
        }
    }
}

#[test]
fn lowest_number_first() {
    let number = |frame: &[u8], meter: u16, room: usize| {
        from_bus(&Params::scope(), frame, meter, STAMP, &mut vec![0; room]).map_err(|refusal| refusal.number)
    };
    let broken_too = framed(&[0x08; 14]);
    let unusable = reply(0x03, &WATER);
    assert_eq!(number(&broken_too, 256, 15), Err(3));
    assert_eq!(number(&unusable, 256, 15), Err(3));
    assert_eq!(number(&broken_too, 256, 16), Err(4));
    assert_eq!(number(&unusable, 256, 16), Err(4));
    assert_eq!(number(&broken_too, 255, 16), Err(16));
    assert_eq!(number(&unusable, 255, 16), Err(17));
    // Unusable and broken.
    let mut both = unusable;
    both[0] = 0x10;
    assert_eq!(number(&both, 255, 16), Err(16));
}

// ---- the frame

#[test]
fn every_l() {
    for l in 0..=255 {
        // The record stands at the end, behind filler.
        let records = l - 15_i32;
        let frame = if records < 0 {
            framed(&inside(0x07, &[])[..l as usize])
        } else {
            let mut records = vec![0x2F; records as usize];
            if let Some(at) = records.len().checked_sub(6) {
                records[at..].copy_from_slice(&WATER);
            }
            reply(0x07, &records)
        };
        assert_eq!((frame.len(), i32::from(frame[1])), (l as usize + 6, l));
        let expected = match l {
            0..=14 => Err(16),
            15..=20 => Err(17),
            _ => TAKEN,
        };
        assert_eq!(said(&frame), expected, "L {l}");
    }
}

#[test]
fn cut_or_extended() {
    // A short one and the longest one.
    for frame in [reply(0x07, &WATER), reply(0x07, &[&WATER[..], &[0x2F; 234]].concat())] {
        assert_eq!(said(&frame), TAKEN);
        for len in 0..=261 {
            for more in [0x00, 0x16, 0x2F, 0x68] {
                let mut other = frame.clone();
                other.resize(len, more);
                assert_eq!(said(&other), if len == frame.len() { TAKEN } else { Err(16) }, "{len} bytes");
            }
        }
        assert_eq!(said(&[&frame[..], &[0x16]].concat()), Err(16));
    }
}

#[test]
fn more_than_any_l() {
    // 256 bytes more than the L that stands there.
    let long = inside(0x07, &[&WATER[..], &[0x2F; 256]].concat());
    let frame = framed(&long);
    assert_eq!((frame[1], frame.len()), (21, 21 + 256 + 6));
    assert_eq!(said(&frame), Err(16));
}

/// Water, 12,345,678 litres, behind a record with four filler bytes for its data.
fn sample() -> Vec<u8> {
    inside(0x07, &[&[0x04, 0x6D, 0x2F, 0x2F, 0x2F, 0x2F], &WATER[..]].concat())
}

/// One byte alone: fixed bytes, lengths and the end are compared, and any other byte moves the sum.
#[test]
fn a_byte_changed_breaks() {
    let frame = framed(&sample());
    assert_eq!(said(&frame), TAKEN);
    for at in 0..frame.len() {
        for value in (0..=255).filter(|&value| value != frame[at]) {
            let mut other = frame.clone();
            other[at] = value;
            assert_eq!(said(&other), Err(16), "byte {at} is {value:02X}");
        }
    }
    // Both lengths alike.
    for l in (0..=255).filter(|&l| l != frame[1]) {
        let mut other = frame.clone();
        other[1..3].fill(l);
        assert_eq!(said(&other), Err(16));
    }
}

/// What comes of the sample with one byte changed and the sum set right.
fn expected(at: usize, value: u8) -> Said {
    let [high, low] = [value >> 4, value & 0x0F].map(i32::from);
    let len = LENGTHS[usize::from(value & 0x0F)];
    match at {
        // C.
        0 => {
            if [0x08, 0x18, 0x28, 0x38].contains(&value) {
                TAKEN
            } else {
                Err(16)
            }
        }
        // CI.
        2 => {
            if value == 0x72 {
                TAKEN
            } else {
                Err(16)
            }
        }
        // The medium. Heat and cooling want kWh, and there is no such record.
        10 => match value {
            0x07 | 0x16 => Ok((1, 12_345_678)),
            0x06 | 0x15 => Ok((2, 12_345_678)),
            _ => Err(17),
        },
        // The first DIF. As filler it makes the VIF 6D a DIF that ends in D. Without extension, shorter data leaves
        // filler; longer data takes the second DIF and VIF. With extension 6D is the DIFE, the first 2F the VIF, and
        // three bytes of filler are left for the data.
        15 => match (value, len) {
            (0x2F, _) | (_, None) => Err(17),
            (0x00..=0x7F, Some(len)) => {
                if len <= 4 {
                    TAKEN
                } else {
                    Err(17)
                }
            }
            (_, Some(len)) => {
                if len <= 3 {
                    TAKEN
                } else {
                    Err(17)
                }
            }
        },
        // The first VIF. With extension the first 2F is its VIFE, and the data takes the second DIF.
        16 => match value {
            0x7C => Err(17),
            0x00..=0x7F => TAKEN,
            _ => Err(17),
        },
        // The second DIF and VIF. Too few bytes follow for another record of six.
        21 => {
            if value == 0x0C {
                TAKEN
            } else {
                Err(17)
            }
        }
        22 => {
            if value == 0x13 {
                TAKEN
            } else {
                Err(17)
            }
        }
        // Digits, lowest byte first.
        23..=25 if high > 9 || low > 9 => Err(17),
        23 => Ok((1, 12_345_600 + high * 10 + low)),
        24 => Ok((1, 12_340_078 + high * 1_000 + low * 100)),
        25 => Ok((1, 12_005_678 + high * 100_000 + low * 10_000)),
        26 => match (high, low) {
            (_, 10..) => Err(17),
            (0..=9, _) => Ok((1, 345_678 + high * 10_000_000 + low * 1_000_000)),
            (15, _) => Ok((1, -(345_678 + low * 1_000_000))),
            _ => Err(17),
        },
        // Address, the rest of the header, the first record's data.
        _ => TAKEN,
    }
}

#[test]
fn a_byte_changed_and_the_sum_set_right() {
    for at in 0..sample().len() {
        for value in 0..=255 {
            let mut other = sample();
            other[at] = value;
            assert_eq!(said(&framed(&other)), expected(at, value), "byte {at} is {value:02X}");
        }
    }
}

/// A sum of 256 and more: FF in each free byte of the header.
#[test]
fn sum_modulo_256() {
    let mut bytes = inside(0x07, &WATER);
    bytes[3..10].fill(0xFF);
    bytes[11..15].fill(0xFF);
    let sum: u32 = bytes.iter().map(|&byte| u32::from(byte)).sum();
    let frame = framed(&bytes);
    assert!(sum > 256 && u32::from(frame[frame.len() - 2]) == sum - sum / 256 * 256);
    assert_eq!(said(&frame), TAKEN);
}

// ---- the medium and its unit

#[test]
fn media() {
    let codes = [(0x07, 1), (0x16, 1), (0x06, 2), (0x15, 2), (0x04, 3), (0x0C, 3), (0x0A, 4), (0x0B, 4)];
    for medium in 0..=255 {
        let code = codes.iter().find(|(listed, _)| *listed == medium).map(|(_, code)| *code);
        // Litres 22, kWh 33, in either order: the other unit's record is passed over.
        let (litres, kwh) = ([0x0C, 0x13, 0x22, 0, 0, 0], [0x0C, 0x06, 0x33, 0, 0, 0]);
        for records in [[litres, kwh], [kwh, litres]] {
            let expected = match code {
                Some(code @ (1 | 2)) => Ok((code, 22)),
                Some(code) => Ok((code, 33)),
                None => Err(17),
            };
            assert_eq!(said(&reply(medium, &records.concat())), expected, "medium {medium:02X}");
        }
    }
    assert_eq!(said(&reply(0x07, &HEAT)), Err(17));
    assert_eq!(said(&reply(0x04, &WATER)), Err(17));
    // A digit above 9 counts in the one taken alone.
    assert_eq!(water(&[&[0x0C, 0x06, 0xAA, 0xAA, 0xAA, 0xAA], &WATER]), TAKEN);
}

#[test]
fn no_record() {
    assert_eq!(water(&[]), Err(17));
    assert_eq!(water(&[&[0x2F]]), Err(17));
    assert_eq!(water(&[&[0x2F; 240]]), Err(17));
    // Cubic metres, tens of litres, and what is near.
    for vif in [0x12, 0x14, 0x16, 0x93] {
        assert_eq!(water(&[&[0x0C, vif, 0, 0, 0, 0, 0]]), Err(17));
    }
}

// ---- the one taken

#[test]
fn digits() {
    let bytes = |data: [u8; 4]| water(&[&[0x0C, 0x13], &data]);
    assert_eq!(bytes([0x00, 0x00, 0x00, 0x00]), Ok((1, 0)));
    assert_eq!(bytes([0x01, 0x00, 0x00, 0x00]), Ok((1, 1)));
    assert_eq!(bytes([0x99, 0x99, 0x99, 0x99]), Ok((1, 99_999_999)));
    assert_eq!(bytes([0x00, 0x00, 0x00, 0x10]), Ok((1, 10_000_000)));
    assert_eq!(bytes([0x00, 0x00, 0x00, 0xF0]), Ok((1, 0)));
    assert_eq!(bytes([0x01, 0x00, 0x00, 0xF0]), Ok((1, -1)));
    assert_eq!(bytes([0x99, 0x99, 0x99, 0xF9]), Ok((1, -9_999_999)));
    assert_eq!(bytes([0x67, 0x45, 0x23, 0xF1]), Ok((1, -1_234_567)));
    // A to E on top; anything above 9 below, with and without the sign.
    for top in [0xA0, 0xB0, 0xC0, 0xD0, 0xE0] {
        assert_eq!(bytes([0, 0, 0, top]), Err(17));
    }
    for bad in 0xA..=0xF {
        for top in [0x00, 0xF0] {
            assert_eq!(bytes([0, 0, 0, top | bad]), Err(17));
            for at in 0..3 {
                for place in [bad, bad << 4] {
                    let mut data = [0, 0, 0, top];
                    data[at] = place;
                    assert_eq!(bytes(data), Err(17));
                }
            }
        }
    }
    // All ones, as meters send for an invalid value.
    assert_eq!(bytes([0xFF; 4]), Err(17));
}

#[test]
fn first_is_taken() {
    let other = [0x0C, 0x13, 0x09, 0, 0, 0];
    assert_eq!(water(&[&WATER, &other]), TAKEN);
    assert_eq!(water(&[&other, &WATER]), Ok((1, 9)));
    // One with a bad digit is the first, and ends the search.
    assert_eq!(water(&[&[0x0C, 0x13, 0x0A, 0, 0, 0], &WATER]), Err(17));
}

#[test]
fn behind_it_nothing_is_looked_at() {
    for behind in [&[0x0F][..], &[0x0D, 0x7C], &[0x04], &[0x04, 0x13, 0x00], &[0x80], &[0x04, 0x7C], &[0x1F, 0xFF]] {
        assert_eq!(water(&[&WATER, behind]), TAKEN);
    }
}

#[test]
fn not_this_dif_or_vif() {
    let other = [0x0C, 0x13, 0x09, 0, 0, 0];
    // Storage 1, greatest value, least value, in error state.
    for dif in [0x4C, 0x1C, 0x2C, 0x3C] {
        assert_eq!(water(&[&[dif, 0x13, 0x78, 0x56, 0x34, 0x12], &other]), Ok((1, 9)));
    }
    // Extended: tariff 1, unit 1, or nothing that the extension adds.
    for dife in [0x10, 0x40, 0x00] {
        assert_eq!(water(&[&[0x8C, dife, 0x13, 0x78, 0x56, 0x34, 0x12], &other]), Ok((1, 9)));
    }
    // Extended: backward flow and others.
    for vife in [0x3B, 0x3C, 0x7F, 0x00] {
        assert_eq!(water(&[&[0x0C, 0x93, vife, 0x78, 0x56, 0x34, 0x12], &other]), Ok((1, 9)));
    }
    // A VIFE of 13 is no VIF.
    assert_eq!(water(&[&[0x0C, 0xFD, 0x13, 0x78, 0x56, 0x34, 0x12], &other]), Ok((1, 9)));
    // Four bytes, but binary.
    assert_eq!(water(&[&[0x04, 0x13, 0x78, 0x56, 0x34, 0x12], &other]), Ok((1, 9)));
}

// ---- passing over

/// Data that ends the search where a DIF is looked for in it; one byte too many takes the next DIF instead.
#[test]
fn every_dif() {
    for dif in 0..=255_u8 {
        let extension: &[u8] = if dif >= 0x80 { &[0x05] } else { &[] };
        let len = LENGTHS[usize::from(dif & 0x0F)];
        let expected = if len.is_some() { TAKEN } else { Err(17) };
        let data = vec![0x0F; len.unwrap_or(0)];
        if dif == 0x2F {
            assert_eq!(water(&[&[0x2F], &WATER]), TAKEN);
        } else {
            assert_eq!(water(&[&[dif], extension, &[0x5A], &data, &WATER]), expected, "DIF {dif:02X}");
        }
    }
}

#[test]
fn every_vif() {
    for vif in 0..=255_u8 {
        let extension: &[u8] = if vif >= 0x80 { &[0x05] } else { &[] };
        let expected = if vif == 0x7C || vif == 0xFC { Err(17) } else { TAKEN };
        assert_eq!(water(&[&[0x02, vif], extension, &[0x0F, 0x0F], &WATER]), expected, "VIF {vif:02X}");
        // An extended DIF, and data of no length.
        assert_eq!(water(&[&[0x88, 0x01, vif], extension, &WATER]), expected, "VIF {vif:02X}");
    }
}

#[test]
fn extension_bytes() {
    for count in 0..=120 {
        // The last has no extension bit; those before it look like fillers, plain text or special functions.
        for more in [0x80, 0xFC, 0xAF, 0x8F, 0xFF] {
            let mut chain = vec![more; count];
            chain.push(0x2F);
            assert_eq!(water(&[&[0x82], &chain, &[0x5A, 0x0F, 0x0F], &WATER]), TAKEN);
            assert_eq!(water(&[&[0x02, 0xFD], &chain, &[0x0F, 0x0F], &WATER]), TAKEN);
        }
    }
    // A VIFE of 7C, a DIFE that ends in D or F: neither is the VIF or the DIF.
    assert_eq!(water(&[&[0x02, 0xFB, 0x7C, 0x0F, 0x0F], &WATER]), TAKEN);
    assert_eq!(water(&[&[0x82, 0x0D, 0x5A, 0x0F, 0x0F], &WATER]), TAKEN);
    assert_eq!(water(&[&[0x82, 0x0F, 0x5A, 0x0F, 0x0F], &WATER]), TAKEN);
    // A chain that does not end.
    assert_eq!(water(&[&[0x82, 0x80, 0x80]]), Err(17));
    assert_eq!(water(&[&[0x02, 0xFD, 0x80, 0x80]]), Err(17));
    assert_eq!(water(&[&[0x80; 240]]), Err(17));
}

#[test]
fn filler() {
    for count in 0..=200 {
        assert_eq!(water(&[&vec![0x2F; count], &WATER]), TAKEN);
        assert_eq!(water(&[&[0x02, 0x5A, 0x0F, 0x0F], &vec![0x2F; count], &WATER]), TAKEN);
    }
    // Within a record it is a VIF, a DIFE or data.
    assert_eq!(water(&[&[0x02, 0x2F, 0x0F, 0x0F], &WATER]), TAKEN);
    assert_eq!(water(&[&[0x0C, 0x2F, 0x13, 0x2F, 0x2F, 0x2F], &WATER]), TAKEN);
    assert_eq!(water(&[&[0x0C, 0x13, 0x2F, 0, 0, 0]]), Err(17));
    // With an extension bit it is none.
    assert_eq!(water(&[&[0xAF, 0x00, 0x5A], &WATER]), Err(17));
    assert_eq!(water(&[&[0xAF], &WATER]), Err(17));
}

#[test]
fn these_end_the_search() {
    for high in 0..16 {
        for low in [0xD, 0xF] {
            let dif = high << 4 | low;
            if dif != 0x2F {
                assert_eq!(water(&[&[dif], &WATER]), Err(17), "DIF {dif:02X}");
            }
        }
    }
    // A text of one byte, which another reader would pass over.
    assert_eq!(water(&[&[0x0D, 0x78, 0x01, 0x41], &WATER]), Err(17));
    // A unit in plain text, with and without extension, behind any DIF.
    assert_eq!(water(&[&[0x02, 0x7C, 0x03, 0x48, 0x52, 0x25, 0x44, 0x0D], &WATER]), Err(17));
    assert_eq!(water(&[&[0x02, 0xFC, 0x03, 0x48, 0x52, 0x25, 0x74, 0x44, 0x0D], &WATER]), Err(17));
    assert_eq!(water(&[&[0x0C, 0x7C, 0, 0, 0, 0], &WATER]), Err(17));
    assert_eq!(water(&[&[0x8C, 0x10, 0xFC, 0x00, 0, 0, 0, 0], &WATER]), Err(17));
    assert_eq!(water(&[&[0x00, 0x7C], &WATER]), Err(17));
}

/// Records that stop before their end. The bytes behind them, the sum and 16, are none of theirs.
#[test]
fn overrunning() {
    let records = [&[0x87, 0x80, 0x01, 0xFD, 0x85, 0x02][..], &[0x0F; 8], &WATER].concat();
    for len in 0..records.len() {
        assert_eq!(water(&[&records[..len]]), Err(17), "{len} bytes");
    }
    assert_eq!(water(&[&records]), TAKEN);
    // One short in the one taken, where sum and 16 would be digits.
    assert_eq!(water(&[&[0x0C, 0x13, 0x00, 0x00, 0x00]]), Err(17));
    assert_eq!(water(&[&[0x0C, 0x13, 0x00, 0x00]]), Err(17));
    // A whole record behind one that overruns is within it.
    assert_eq!(water(&[&[0x07, 0x5A], &WATER]), Err(17));
}

// ---- frames made at random

/// Numbers without end, the same each time.
struct Dice(u64);

impl Dice {
    fn below(&mut self, limit: u64) -> u64 {
        self.0 ^= self.0 << 13;
        self.0 ^= self.0 >> 7;
        self.0 ^= self.0 << 17;
        (self.0 >> 11) % limit
    }

    fn byte(&mut self) -> u8 {
        self.below(256) as u8
    }

    /// Bytes that extend a DIF or VIF, if they must.
    fn extension(&mut self, first: u8) -> Vec<u8> {
        if first < 0x80 {
            return Vec::new();
        }
        let mut chain: Vec<u8> = (0..self.below(3)).map(|_| self.byte() | 0x80).collect();
        chain.push(self.byte() & 0x7F);
        chain
    }

    /// A record that is passed over, with filler.
    fn passed(&mut self, unit: u8) -> Vec<u8> {
        let mut out = vec![0x2F; self.below(8).saturating_sub(5) as usize];
        let (dif, len) = loop {
            let dif = self.byte();
            if let Some(len) = LENGTHS[usize::from(dif & 0x0F)] {
                break (dif, len);
            }
        };
        let vif = loop {
            let vif = self.byte();
            if vif & 0x7F != 0x7C && !(dif == 0x0C && vif == unit) {
                break vif;
            }
        };
        out.push(dif);
        out.extend(self.extension(dif));
        out.push(vif);
        out.extend(self.extension(vif));
        out.extend((0..len).map(|_| self.byte()));
        out
    }
}

/// Records made one by one, so that it is known what comes.
#[test]
fn made_at_random() {
    let media = [(0x07, 1), (0x16, 1), (0x06, 2), (0x15, 2), (0x04, 3), (0x0C, 3), (0x0A, 4), (0x0B, 4)];
    let mut dice = Dice(0x2545_F491_4F6C_DD1D);
    let mut kinds = [0; 3];
    for _ in 0..20_000 {
        let (medium, code) = media[dice.below(8) as usize];
        let unit = if code <= 2 { 0x13 } else { 0x06 };
        let mut records = Vec::new();
        for _ in 0..dice.below(12) {
            let record = dice.passed(unit);
            if records.len() + record.len() <= 220 {
                records.extend(record);
            }
        }
        let kind = dice.below(3) as usize;
        kinds[kind] += 1;
        let expected = match kind {
            // None is taken.
            0 => Err(17),
            // One is.
            1 => {
                let size = dice.below(100_000_000) as i32;
                let reading = if dice.below(2) == 0 { size } else { -(size % 10_000_000) };
                let text = if reading < 0 { format!("F{:07}", -reading) } else { format!("{reading:08}") };
                let bytes: Vec<u8> =
                    (0..4).filter_map(|i| u8::from_str_radix(&text[2 * i..2 * i + 2], 16).ok()).rev().collect();
                records.extend([&[0x0C, unit], &bytes[..]].concat());
                records.extend((0..dice.below(8)).map(|_| dice.byte()));
                Ok((code, reading))
            }
            // One would be, behind what ends the search.
            _ => {
                let end: [&[u8]; 5] = [&[0x0D], &[0x1F], &[0x01, 0x7C, 0x00], &[0x8F, 0x00], &[0x82, 0x00, 0xFC, 0x00]];
                records.extend(end[dice.below(5) as usize]);
                records.extend([0x0C, unit, 0, 0, 0, 0]);
                Err(17)
            }
        };
        assert_eq!(said(&reply(medium, &records)), expected, "medium {medium:02X}, records {records:02X?}");
    }
    assert!(kinds.iter().all(|&count| count > 6_000));
}

/// Any bytes get an answer, framed and not.
#[test]
fn any_bytes() {
    let mut dice = Dice(0x9E37_79B9_7F4A_7C15);
    for _ in 0..50_000 {
        let bytes: Vec<u8> = (0..dice.below(300)).map(|_| dice.byte()).collect();
        assert_eq!(said(&bytes), Err(16));
        let records = &bytes[..bytes.len().min(240)];
        assert_ne!(said(&reply(0x04, records)), Err(16));
    }
}

// ---- published frames

/// Replies and commands as they were published: a line each, of the frame, the number, where it is from, and why.
const PUBLISHED: &str = include_str!("../../../tests/bus/published.txt");

/// Bytes from their text.
fn hex(text: &str) -> Vec<u8> {
    text.split_whitespace().filter_map(|byte| u8::from_str_radix(byte, 16).ok()).collect()
}

/// Long frames hold together: lengths and sum are right.
#[test]
fn published() {
    for line in PUBLISHED.lines().filter(|line| !line.starts_with('#')) {
        let [text, number, _from, _why] = line.split(" | ").collect::<Vec<_>>()[..] else { panic!("{line}") };
        let frame = hex(text);
        assert!(frame[0] != 0x68 || unframed(&frame).is_some(), "{line}");
        assert_eq!(said(&frame).map_err(|said| said.to_string()), Err(number.to_string()), "{line}");
    }
}
