//! Frames off the wired bus: how they are written, and what they say on the screen.

use std::fmt::Write;

use paviluko_host::bus::{self, End, Header, Look, Part, Record, Unusable};
use paviluko_host::files::clean;
use paviluko_host::transaction::{self, Write as Reading};
use paviluko_host::{ONE_WRITE_LEN, Refusal, words};

use crate::answer::{self, Answer};
use crate::colour::Tone;
use crate::help::short;
use crate::screen::{aligned, count};
use crate::wrap::wrap;

/// Where the text of a line about the whole frame begins.
const COLUMN: usize = 11;
/// So many bytes of a DIF or a VIF are shown, and of data or what is left.
const MOST_EXTENDED: usize = 4;
const MOST_DATA: usize = 8;

/// Bytes from words in hexadecimal: one byte a word, or several. What should be written, where these are none.
pub fn bytes<S: AsRef<str>>(words: &[S]) -> Result<Vec<u8>, String> {
    let mut out = Vec::new();
    for word in words.iter().map(AsRef::as_ref) {
        let Some(digits) = word.chars().map(|c| c.to_digit(16)).collect::<Option<Vec<u32>>>() else {
            return Err(format!("the frame's bytes in hexadecimal, as 68 1F or 681F, and not {}", clean(&short(word))));
        };
        if digits.len() % 2 != 0 {
            return Err(format!("two hexadecimal digits for each byte, and not {}", clean(&short(word))));
        }
        out.extend(digits.chunks(2).map(|pair| (pair[0] * 16 + pair[1]) as u8));
    }
    Ok(out)
}

/// The transaction that the library makes of a frame, and its reading; or the answer where it refuses it.
pub fn transaction(frame: &[u8], meter: u16, stamp: u64) -> Result<([u8; ONE_WRITE_LEN], Reading), Answer> {
    let mut out = [0; ONE_WRITE_LEN];
    bus::from_bus(frame, meter, stamp, &mut out).map_err(|refusal| refused(frame, meter, refusal))?;
    let reading = transaction::writes(&out).first().copied();
    Ok((out, reading.unwrap_or(Reading { meter, code: 0, reading: 0 })))
}

/// A refusal, and why.
fn refused(frame: &[u8], meter: u16, refusal: Refusal) -> Answer {
    let end = bus::look(frame).end;
    let why = match refusal.number {
        4 => Some(format!("the meter is {meter}, and meters are 0 to 255")),
        number => (end.number() == number).then(|| end.to_string()),
    };
    let answer = answer::refused(&refusal, &[words::NO_TRANSACTION]);
    why.into_iter().fold(answer, |answer, why| answer.and(Tone::Bad, format!("why: {why}")))
}

/// What a frame that was taken says, in a line.
pub fn line(frame: &[u8], taken: &Reading) -> String {
    let said = bus::look(frame).header.map_or(String::new(), |header| {
        let Header { medium, .. } = header;
        format!("identification {}, medium {medium:02X} ({}), ", header.identification(), bus::medium_name(medium))
    });
    format!("the frame: {said}{}", reading(taken))
}

/// Code and reading.
fn reading(taken: &Reading) -> String {
    let (medium, unit) = words::medium(taken.code);
    format!("code {}, {medium}: {} {unit}", taken.code, taken.reading)
}

/// All that a frame says: its header, and its records a line each. `taken` is what the library took.
pub fn all(frame: &[u8], taken: Option<&Reading>) -> Answer {
    let look = bus::look(frame);
    let Some(header) = look.header else { return Answer::default() };
    let mut above = String::new();
    let mut line = |name: &str, text: &str| above.push_str(&wrap(&format!("{name:<COLUMN$}{text}"), COLUMN));
    let (identification, manufacturer, version) = (header.identification(), header.manufacturer(), header.version);
    line("meter", &format!("identification {identification}, manufacturer {manufacturer}, version {version}"));
    line("medium", &format!("{:02X}, {}", header.medium, bus::medium_name(header.medium)));
    line("status", &status(&header));
    line("frame", &format!("{}, C {:02X}, address {}", count(frame.len(), "byte"), header.control, header.address));
    let rows = rows(&look);
    let (heading, rows) = rows.split_at(rows.find('\n').map_or(0, |end| end + 1));
    let answer = Answer::fine(above);
    let answer = if rows.is_empty() { answer } else { answer.and(Tone::Heading, heading).and(Tone::Plain, rows) };
    match taken {
        Some(taken) => answer.and(Tone::Plain, format!("{:<COLUMN$}{}", "taken", reading(taken))),
        None => answer,
    }
}

/// The status byte, and what stands beside it.
fn status(header: &Header) -> String {
    let Header { status, access, signature, .. } = header;
    let mut said =
        bus::status_words(*status).into_iter().fold(format!("{status:02X}"), |said, word| said + ", " + word);
    let _ = write!(said, "; access number {access}, signature {signature:04X}");
    if *signature != 0 {
        said += ": the records may be encrypted";
    }
    said
}

/// A line for each part of a frame, below a heading.
fn rows(look: &Look) -> String {
    let mut rows = vec![["byte", "DIF", "VIF", "data", ""].map(String::from)];
    for part in &look.parts {
        rows.push(match part {
            Part::Filler { at, len } => row(*at, "2F", "", "", format!("filler, {}", count(*len, "byte"))),
            Part::Record(record) => {
                let [dif, vif] = [record.dif, record.vif].map(|bytes| some(bytes, MOST_EXTENDED));
                row(record.at, &dif, &vif, &some(record.data, MOST_DATA), said(record, &look.end))
            }
        });
    }
    let (at, rest) = look.rest;
    if !rest.is_empty() {
        let bytes = count(rest.len(), "byte");
        rows.push(match look.end {
            End::Unusable(Unusable::Dif { .. } | Unusable::Vif { .. } | Unusable::Overrun { .. }) => {
                row(at, "", "", &some(rest, MOST_DATA), format!("{bytes}: the search ends here"))
            }
            _ => row(at, "", "", "", format!("{bytes}, not looked at")),
        });
    }
    aligned(&rows, [false, true, true, true, true])
}

fn row(at: usize, dif: &str, vif: &str, data: &str, text: String) -> [String; 5] {
    [at.to_string(), dif.to_string(), vif.to_string(), data.to_string(), text]
}

/// What a record says, and whether it is the one that is taken.
fn said(record: &Record, end: &End) -> String {
    let (name, number) = record.measured();
    let kind = record.kind();
    let mut said = [name, &number].into_iter().filter(|text| !text.is_empty()).collect::<Vec<_>>().join(" ");
    said = if said.is_empty() { kind } else { format!("{said} ({kind})") };
    match end {
        End::Taken { at, .. } if *at == record.at => said + ": taken",
        _ => said,
    }
}

/// The first of some bytes.
fn some(bytes: &[u8], most: usize) -> String {
    match bytes.split_at_checked(most) {
        Some((first, [_, ..])) => bus::hex(first) + " ..",
        _ => bus::hex(bytes),
    }
}

#[cfg(test)]
mod tests {
    use super::*;

    #[test]
    fn bytes_from_words() {
        assert_eq!(bytes(&["68", "1f1F", "68"]), Ok(vec![0x68, 0x1f, 0x1f, 0x68]));
        assert_eq!(bytes(&[""; 0]), Ok(vec![]));
        for bad in ["6", "681", "6g", "0x68", "68,", "6é", "+1", "\u{1b}["] {
            assert!(bytes(&["68", bad]).is_err_and(|what| !what.contains('\u{1b}')), "{bad}");
        }
        assert!(bytes(&["6".repeat(60_001)]).is_err_and(|what| what.len() < 200));
    }
}
