//! Frames off the wired bus: good ones, good ones with one thing about them changed, of which it is known what comes of
//! them, and bytes of which nothing is known.

use std::fmt;

use paviluko_model::Params;
use paviluko_model::bus::{framed, sum};

use crate::rng::Rng;
use crate::values::{a_meter, a_stamp};

/// A frame, and what the caller gives beside it; the output is lent with so much room.
#[derive(Clone)]
pub struct Frame {
    pub bytes: Vec<u8>,
    pub meter: u16,
    pub stamp: u64,
    pub room: usize,
}

impl fmt::Display for Frame {
    fn fmt(&self, to: &mut fmt::Formatter) -> fmt::Result {
        let Frame { bytes, meter, stamp, room } = self;
        write!(to, "from_bus meter {meter}, stamp {stamp}, room {room}, frame {bytes:02X?}")
    }
}

/// What comes of a frame: code and reading, or the number.
pub type Said = Result<(u8, i32), u8>;

/// A frame that was drawn.
pub struct Heard {
    pub frame: Frame,
    /// Its place in `KINDS`.
    pub kind: usize,
    /// What must come of it, where that is known.
    pub known: Option<Said>,
}

/// A good reply, in parts.
struct Reply {
    /// C, address, CI and the header.
    head: Vec<u8>,
    /// Records that are passed over.
    before: Vec<Vec<u8>>,
    /// The record that is taken, of this unit and with this reading.
    wanted: Vec<u8>,
    unit: u8,
    reading: i32,
    /// Nothing in it is looked at.
    behind: Vec<u8>,
}

/// What is particular about a frame.
pub struct Kind {
    pub name: &'static str,
    outcome: Outcome,
    change: Change,
}

#[derive(Clone, Copy)]
enum Outcome {
    Taken,
    Refused(u8),
    Unknown,
}

/// What is changed of a good reply, or of its frame.
enum Change {
    OfReply(fn(&mut Rng, &mut Reply)),
    OfFrame(fn(&mut Rng, Vec<u8>) -> Vec<u8>),
}

use Change::{OfFrame, OfReply};

const TAKEN: Outcome = Outcome::Taken;
const BROKEN: Outcome = Outcome::Refused(16);
const UNUSABLE: Outcome = Outcome::Refused(17);

const fn kind(name: &'static str, outcome: Outcome, change: Change) -> Kind {
    Kind { name, outcome, change }
}

/// All kinds of frames, the good one first.
pub const KINDS: [Kind; 31] = [
    kind("good", TAKEN, OfReply(|_, _| {})),
    kind("records of all sorts", TAKEN, OfReply(|rng, reply| reply.before.extend(passed(rng, 6)))),
    kind("the longest, the wanted record last", TAKEN, OfReply(longest)),
    kind("a DIF extended", TAKEN, OfReply(|rng, reply| reply.put(rng, |rng| record(rng, true, false)))),
    kind("a VIF extended", TAKEN, OfReply(|rng, reply| reply.put(rng, |rng| record(rng, false, true)))),
    kind("filler", TAKEN, OfReply(|rng, reply| reply.put(rng, |rng| vec![FILLER; 1 + rng.index(30)]))),
    kind("another unit", TAKEN, OfReply(another_unit)),
    kind("the unit under another DIF", TAKEN, OfReply(another_dif)),
    kind("the unit extended", TAKEN, OfReply(extended_unit)),
    kind("a minus", TAKEN, OfReply(minus)),
    kind("the wanted record twice", TAKEN, OfReply(|rng, reply| reply.behind = wanted(reply.unit, a_size(rng)))),
    kind("empty", BROKEN, OfFrame(|_, _| Vec::new())),
    kind("a byte changed", BROKEN, OfFrame(change)),
    kind("cut", BROKEN, OfFrame(|rng, bytes| bytes[..rng.index(bytes.len())].to_vec())),
    kind("extended", BROKEN, OfFrame(|rng, bytes| [bytes, vec![rng.any() as u8], rng.bytes_below(300)].concat())),
    kind("both L wrong", BROKEN, OfFrame(wrong_lengths)),
    kind("L below 15", BROKEN, OfReply(low)),
    kind("another C", BROKEN, OfReply(|rng, reply| reply.head[0] = any_but(rng, |c| CONTROLS.contains(&c)))),
    kind("another CI", BROKEN, OfReply(|rng, reply| reply.head[2] ^= not_zero(rng))),
    kind("the wanted record behind the frame", BROKEN, OfFrame(behind_the_frame)),
    kind("a medium not listed", UNUSABLE, OfReply(no_medium)),
    kind("the other unit alone", UNUSABLE, OfReply(the_other_unit)),
    kind("no wanted record", UNUSABLE, OfReply(none)),
    kind("a unit in words", UNUSABLE, OfReply(in_words)),
    kind("a DIF that ends in D or F", UNUSABLE, OfReply(no_length)),
    kind("an overrun", UNUSABLE, OfReply(overrun)),
    kind("a digit above 9", UNUSABLE, OfReply(|rng, reply| bad_digit(rng, &mut reply.wanted))),
    kind("a digit above 9, and the wanted record again", UNUSABLE, OfReply(bad_digit_first)),
    kind("a byte changed, the sum right", Outcome::Unknown, OfFrame(change_and_sum)),
    kind("any records", Outcome::Unknown, OfReply(any_records)),
    kind("any bytes", Outcome::Unknown, OfFrame(|rng, _| rng.bytes_below(300))),
];

/// Draws a frame, and what goes with it.
pub fn heard(rng: &mut Rng, params: &Params) -> Heard {
    let place = if rng.permille(200) { 0 } else { rng.index(KINDS.len()) };
    let (bytes, said) = frame(rng, &KINDS[place]);
    let meters = params.meters as u16;
    let meter = match rng.below(50) {
        0 => meters,
        1 => meters + rng.below(u64::from(u16::MAX - meters) + 1) as u16,
        2 => meters - 1,
        _ => a_meter(rng, params, 700) as u16,
    };
    let room = match rng.below(10) {
        0 => rng.index(16),
        1 => 16 + rng.index(25),
        _ => 16,
    };
    let known = match said {
        _ if room < 16 => Some(Err(3)),
        _ if meter >= meters => Some(Err(4)),
        said => said,
    };
    Heard { frame: Frame { bytes, meter, stamp: a_stamp(rng), room }, kind: place, known }
}

/// A frame of a kind, and what comes of it.
fn frame(rng: &mut Rng, kind: &Kind) -> (Vec<u8>, Option<Said>) {
    let (medium, code) = *rng.pick(&MEDIA).unwrap_or(&MEDIA[0]);
    let mut reply = Reply::good(rng, medium, if code <= 2 { LITRES } else { KWH });
    if let OfReply(change) = kind.change {
        change(rng, &mut reply);
    }
    let Reply { head, before, wanted, reading, behind, .. } = reply;
    let mut bytes = framed(&[head, before.concat(), wanted, behind].concat());
    if let OfFrame(change) = kind.change {
        bytes = change(rng, bytes);
    }
    let said = match kind.outcome {
        Outcome::Taken => Some(Ok((code, reading))),
        Outcome::Refused(number) => Some(Err(number)),
        Outcome::Unknown => None,
    };
    (bytes, said)
}

// ---- good replies

const CONTROLS: [u8; 4] = [0x08, 0x18, 0x28, 0x38];
/// The media that are listed, with their codes.
const MEDIA: [(u8, u8); 8] = [(0x07, 1), (0x16, 1), (0x06, 2), (0x15, 2), (0x04, 3), (0x0C, 3), (0x0A, 4), (0x0B, 4)];
const DIF: u8 = 0x0C;
const LITRES: u8 = 0x13;
const KWH: u8 = 0x06;
const IN_WORDS: u8 = 0x7C;
pub const FILLER: u8 = 0x2F;

/// How long the data of a DIF are, if it says so.
pub fn data_len(dif: u8) -> Option<usize> {
    match dif & 0x0F {
        0x0D | 0x0F => None,
        // A real number of 32 bits; 48 and 64 bits; twelve digits.
        0x05 => Some(4),
        0x07 => Some(8),
        0x06 | 0x0E => Some(6),
        low => Some(usize::from(low & 7)),
    }
}

impl Reply {
    /// With up to six plain records before the wanted one.
    fn good(rng: &mut Rng, medium: u8, unit: u8) -> Reply {
        let mut head = rng.bytes(15);
        (head[0], head[2], head[10]) = (*rng.pick(&CONTROLS).unwrap_or(&CONTROLS[0]), 0x72, medium);
        let before = (0..rng.below(7)).map(|_| record(rng, false, false)).collect();
        let reading = a_size(rng);
        let behind = if rng.permille(500) { rng.bytes_below(20) } else { Vec::new() };
        Reply { head, before, wanted: wanted(unit, reading), unit, reading, behind }
    }

    /// Puts something among the records before the wanted one.
    fn put(&mut self, rng: &mut Rng, what: impl Fn(&mut Rng) -> Vec<u8>) {
        let at = rng.index(self.before.len() + 1);
        self.before.insert(at, what(rng));
    }

    fn len(&self) -> usize {
        self.head.len() + self.before.iter().map(Vec::len).sum::<usize>() + self.wanted.len() + self.behind.len()
    }
}

/// A number of at most eight digits.
fn a_size(rng: &mut Rng) -> i32 {
    match rng.below(12) {
        0 => 0,
        1 => 99_999_999,
        2 => rng.below(100) as i32,
        _ => rng.below(100_000_000) as i32,
    }
}

/// Digits two to a byte, lowest byte first.
fn bcd(size: i32) -> [u8; 4] {
    let pair = |power: i32| (size / power / 10 % 10 * 16 + size / power % 10) as u8;
    [1, 100, 10_000, 1_000_000].map(pair)
}

fn wanted(unit: u8, size: i32) -> Vec<u8> {
    [&[DIF, unit], &bcd(size)[..]].concat()
}

/// A DIF without extension, and the length of its data.
fn a_dif(rng: &mut Rng) -> (u8, usize) {
    loop {
        let dif = rng.below(0x80) as u8;
        if let Some(len) = data_len(dif) {
            return (dif, len);
        }
    }
}

/// A record that is passed over, with or without extension bytes.
fn record(rng: &mut Rng, dife: bool, vife: bool) -> Vec<u8> {
    let (dif, len) = a_dif(rng);
    let unit = any_but(rng, |vif| vif >= 0x80 || [IN_WORDS, LITRES, KWH].contains(&vif));
    let mut out = Vec::new();
    for (first, extended) in [(dif, dife), (unit, vife)] {
        out.push(if extended { first | 0x80 } else { first });
        if extended {
            out.extend((0..rng.below(4)).map(|_| rng.any() as u8 | 0x80).collect::<Vec<_>>());
            out.push(rng.any() as u8 & 0x7F);
        }
    }
    out.extend(rng.bytes(len));
    out
}

/// So many records of all sorts, with filler between them.
fn passed(rng: &mut Rng, count: usize) -> Vec<Vec<u8>> {
    let mut out = Vec::new();
    for _ in 0..count {
        let (dife, vife) = (rng.permille(300), rng.permille(300));
        out.push(record(rng, dife, vife));
        out.push(vec![FILLER; rng.index(8).saturating_sub(5)]);
    }
    out
}

fn not_zero(rng: &mut Rng) -> u8 {
    1 + rng.below(255) as u8
}

/// A byte that is not one of these.
fn any_but(rng: &mut Rng, not: impl Fn(u8) -> bool) -> u8 {
    loop {
        let byte = rng.any() as u8;
        if !not(byte) {
            return byte;
        }
    }
}

// ---- what is changed

fn longest(rng: &mut Rng, reply: &mut Reply) {
    reply.behind.clear();
    while reply.len() < 255 {
        let next = passed(rng, 1).concat();
        let fits = reply.len() + next.len() <= 255;
        reply.before.push(if fits { next } else { vec![FILLER] });
    }
}

fn another_unit(rng: &mut Rng, reply: &mut Reply) {
    let unit = reply.unit;
    reply.put(rng, |rng| {
        let vif = any_but(rng, |vif| vif >= 0x80 || [IN_WORDS, unit].contains(&vif));
        [&[DIF, vif], &rng.bytes(4)[..]].concat()
    });
}

fn another_dif(rng: &mut Rng, reply: &mut Reply) {
    let unit = reply.unit;
    reply.put(rng, |rng| {
        let dif: &[u8] = [&[0x8C, 0x00][..], &[0x8C, 0x10], &[0x4C], &[0x1C], &[0x04]][rng.index(5)];
        [dif, &[unit], &bcd(a_size(rng))].concat()
    });
}

fn extended_unit(rng: &mut Rng, reply: &mut Reply) {
    let unit = reply.unit;
    reply.put(rng, |rng| [&[DIF, unit | 0x80, rng.any() as u8 & 0x7F], &bcd(a_size(rng))[..]].concat());
}

fn minus(rng: &mut Rng, reply: &mut Reply) {
    let size = if rng.permille(100) { 0 } else { rng.below(10_000_000) as i32 };
    reply.wanted = wanted(reply.unit, size);
    reply.wanted[5] |= 0xF0;
    reply.reading = -size;
}

fn low(rng: &mut Rng, reply: &mut Reply) {
    none(rng, reply);
    reply.before.clear();
    reply.head.truncate(rng.index(15));
}

fn no_medium(rng: &mut Rng, reply: &mut Reply) {
    reply.head[10] = any_but(rng, |medium| MEDIA.iter().any(|(listed, _)| *listed == medium));
}

fn the_other_unit(rng: &mut Rng, reply: &mut Reply) {
    let other = if reply.unit == LITRES { KWH } else { LITRES };
    reply.before.push(wanted(other, a_size(rng)));
    none(rng, reply);
}

fn none(_: &mut Rng, reply: &mut Reply) {
    reply.wanted.clear();
    reply.behind.clear();
}

fn in_words(rng: &mut Rng, reply: &mut Reply) {
    reply.put(rng, |rng| {
        let (dif, _) = a_dif(rng);
        vec![dif, if rng.permille(500) { IN_WORDS } else { IN_WORDS | 0x80 }]
    });
}

fn no_length(rng: &mut Rng, reply: &mut Reply) {
    reply.put(rng, |rng| vec![any_but(rng, |dif| data_len(dif).is_some() || dif == FILLER)]);
}

fn overrun(rng: &mut Rng, reply: &mut Reply) {
    reply.behind.clear();
    match rng.below(4) {
        // The wanted record itself.
        0 => reply.wanted.truncate(1 + rng.index(5)),
        // One that has the wanted record in its data.
        1 => reply.before.push(vec![0x07, 0x5A]),
        // Extension bytes without an end, of a DIF or a VIF.
        2 => reply.wanted = vec![0x8C; 1 + rng.index(20)],
        _ => reply.wanted = [&[DIF][..], &vec![0x93; 1 + rng.index(20)]].concat(),
    }
}

/// A to F in the place of a digit; no F in that of the top one.
fn bad_digit(rng: &mut Rng, wanted: &mut [u8]) {
    let at = 2 + rng.index(4);
    let high = rng.permille(500);
    let digit = 10 + rng.below(if high && at == 5 { 5 } else { 6 }) as u8;
    wanted[at] = if high { digit << 4 | wanted[at] & 0x0F } else { wanted[at] & 0xF0 | digit };
    if at < 5 && rng.permille(300) {
        wanted[5] |= 0xF0;
    }
}

fn bad_digit_first(rng: &mut Rng, reply: &mut Reply) {
    reply.behind.clone_from(&reply.wanted);
    bad_digit(rng, &mut reply.wanted);
}

fn any_records(rng: &mut Rng, reply: &mut Reply) {
    none(rng, reply);
    reply.before = vec![rng.bytes_below(241)];
}

/// A frame without records before it.
fn behind_the_frame(rng: &mut Rng, bytes: Vec<u8>) -> Vec<u8> {
    let unit = if rng.permille(500) { LITRES } else { KWH };
    [framed(&bytes[4..19]), wanted(unit, a_size(rng))].concat()
}

/// Any byte of the frame.
fn change(rng: &mut Rng, mut bytes: Vec<u8>) -> Vec<u8> {
    let at = rng.index(bytes.len());
    bytes[at] ^= not_zero(rng);
    bytes
}

fn wrong_lengths(rng: &mut Rng, mut bytes: Vec<u8>) -> Vec<u8> {
    let l = bytes[1] ^ not_zero(rng);
    bytes[1..3].fill(l);
    bytes
}

/// One of the L bytes.
fn change_and_sum(rng: &mut Rng, mut bytes: Vec<u8>) -> Vec<u8> {
    let end = bytes.len() - 2;
    let at = 4 + rng.index(end - 4);
    bytes[at] ^= not_zero(rng);
    bytes[end] = sum(&bytes[4..end]);
    bytes
}
