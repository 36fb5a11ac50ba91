//! Frames off the wired bus on the library and the model side by side: published ones, of which it is said what comes, and
//! all that is near a good one.
//!
//! `frames LIST`: LIST has the published ones. A frame that the two do not answer alike, to the byte, ends the program with 1.

use std::fmt;
use std::process::ExitCode;

use paviluko_model::bus::framed;
use paviluko_model::{Params, Refusal};

const METER: u16 = 183;
const STAMP: u64 = 0x0102_0304_0506_0708;
/// What is lent: a transaction of one write, and more.
const ROOM: usize = 16 + 5;
const FILL: u8 = 0xA5;

/// Answers, as they came.
#[derive(Default)]
struct Seen {
    frames: u64,
    taken: u64,
    broken: u64,
    unusable: u64,
}

impl fmt::Display for Seen {
    fn fmt(&self, to: &mut fmt::Formatter) -> fmt::Result {
        let Seen { frames, taken, broken, unusable } = self;
        write!(to, "{frames} frames, {taken} taken, {broken} refused with 16, {unusable} with 17")
    }
}

impl Seen {
    /// Hands a frame to both. The number: 0 where it is taken.
    fn see(&mut self, frame: &[u8]) -> Result<u8, String> {
        let (mut out, mut expected) = ([FILL; ROOM], [FILL; ROOM]);
        let library = paviluko_host::from_bus(frame, METER, STAMP, &mut out)
            .map(|taken| (taken.store.is_some(), taken.len))
            .map_err(|refusal| (refusal.number, refusal.value));
        let model = paviluko_model::from_bus(&Params::scope(), frame, METER, STAMP, &mut expected)
            .map(|len| (false, len))
            .map_err(|Refusal { number, value }| (number, value));
        if (library, out) != (model, expected) {
            return Err(format!("library {library:?} {out:02X?}, model {model:?} {expected:02X?}: {frame:02X?}"));
        }
        let number = library.map_or_else(|(number, _)| number, |_| 0);
        self.frames += 1;
        match number {
            0 => self.taken += 1,
            16 => self.broken += 1,
            _ => self.unusable += 1,
        }
        Ok(number)
    }
}

/// The frames of a list, a line each: in hexadecimal, and the number that is said to come.
fn published(list: &str) -> Result<Seen, String> {
    let mut seen = Seen::default();
    for line in list.lines().filter(|line| !line.starts_with('#')) {
        let mut parts = line.split(" | ");
        let (Some(text), Some(number)) = (parts.next(), parts.next()) else { return Err(format!("no frame: {line}")) };
        let bytes: Result<Vec<u8>, _> = text.split(' ').map(|byte| u8::from_str_radix(byte, 16)).collect();
        let came = seen.see(&bytes.map_err(|what| format!("{what}: {line}"))?)?;
        if came.to_string() != number {
            return Err(format!("{came} comes, and is not what the list says: {line}"));
        }
    }
    if seen.frames == 0 { Err("the list has no frame".to_string()) } else { Ok(seen) }
}

/// The L bytes of a reply.
fn reply(medium: u8, records: &[u8]) -> Vec<u8> {
    let head = [0x08, 0x05, 0x72, 0x78, 0x56, 0x34, 0x12, 0x24, 0x40, 0x01, medium, 0x55, 0x00, 0x00, 0x00];
    [&head, records].concat()
}

const WATER: [u8; 6] = [0x0C, 0x13, 0x78, 0x56, 0x34, 0x12];

/// Good replies: the shortest, one with most of what can be passed over, and the longest.
fn good() -> [Vec<u8>; 3] {
    let before = [
        &[0x0C, 0x78, 0x78, 0x56, 0x34, 0x12][..],
        &[0x04, 0x6D, 0x12, 0x0B, 0xD3, 0x12],
        &[0x0C, 0x13, 0x13, 0x20, 0x00, 0x00, 0x2F, 0x2F],
        &[0x8C, 0x10, 0x06, 0x01, 0x00, 0x00, 0x00],
        &[0x0C, 0x86, 0x3C, 0x02, 0x00, 0x00, 0x00],
        &[0x02, 0xFD, 0x97, 0x1D, 0x00, 0x00],
        &[0xCC, 0x80, 0x10, 0x06, 0x03, 0x00, 0x00, 0x00],
    ]
    .concat();
    let heat = [0x0C, 0x06, 0x67, 0x45, 0x23, 0xF1];
    let behind = [0x42, 0x6C, 0xBF, 0x1C, 0x0F, 0x37];
    let filled = [0x04, 0x6D, 0x2F, 0x2F, 0x2F, 0x2F].repeat(39);
    [
        reply(0x07, &WATER),
        reply(0x04, &[&before[..], &heat, &behind].concat()),
        reply(0x16, &[&filled[..], &WATER].concat()),
    ]
}

/// Each good frame at all lengths, and with each byte changed to every value, the sum as it was and put right.
fn near() -> Result<Seen, String> {
    let mut seen = Seen::default();
    for inside in good() {
        let frame = framed(&inside);
        if seen.see(&frame)? != 0 {
            return Err(format!("a good frame is refused: {frame:02X?}"));
        }
        for len in 0..=262 {
            for more in [0x00, 0x16, 0x2F] {
                let mut other = frame.clone();
                other.resize(len, more);
                seen.see(&other)?;
            }
        }
        for at in 0..frame.len() {
            for value in 0..=255 {
                let mut other = frame.clone();
                other[at] = value;
                seen.see(&other)?;
            }
        }
        for at in 0..inside.len() {
            for value in 0..=255 {
                let mut other = inside.clone();
                other[at] = value;
                seen.see(&framed(&other))?;
            }
        }
    }
    Ok(seen)
}

/// Each DIF with each VIF before a wanted record; with few bytes of data between the two, and with more.
fn each_pair() -> Result<Seen, String> {
    let mut seen = Seen::default();
    for dif in 0..=255 {
        for vif in 0..=255 {
            for between in [&[0x05, 0x05, 0x05, 0x05, 0x05, 0x05][..], &[0x2F; 10], &[0x05, 0x05]] {
                let records = [&[dif, vif], between, &WATER, &WATER].concat();
                seen.see(&framed(&reply(0x15, &records)))?;
            }
        }
    }
    Ok(seen)
}

fn all(path: &str) -> Result<(), String> {
    let list = std::fs::read_to_string(path).map_err(|what| format!("{path}: {what}"))?;
    println!("published replies: {}; library and model as the list says", published(&list)?);
    println!("near a good frame, all lengths and each byte changed: {}; library and model the same", near()?);
    println!("each DIF with each VIF: {}; library and model the same", each_pair()?);
    Ok(())
}

fn main() -> ExitCode {
    let Some(path) = std::env::args().nth(1) else {
        eprintln!("frames LIST");
        return ExitCode::from(2);
    };
    match all(&path) {
        Ok(()) => ExitCode::SUCCESS,
        Err(what) => {
            eprintln!("{what}");
            ExitCode::FAILURE
        }
    }
}
