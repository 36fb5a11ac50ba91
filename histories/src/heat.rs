//! The yearly heat split of drawn pairs of tables, on a device and the model. What a split prints is held to the
//! request's sentences ("Shares are rounded down; the missing units go one each to the largest remainders, lower meter
//! first among equals. Shares always add up to 1,000,000") and not to the model's rule.

mod pairs;

use std::fmt::Write;

use paviluko_model::table::{ENTRY_LEN, number_at};
use paviluko_model::{Refusal, Taken};

use crate::device::{Answer, Device, LAST, lent, same_answers};
use crate::rng::Rng;

pub use pairs::own;
use pairs::{Drawn, KINDS, Pair, pair};

/// The code of heat.
const HEAT: u8 = 3;
const METERS: usize = 256;
/// Bytes of a plain table.
pub const TABLE_LEN: usize = METERS * ENTRY_LEN;
/// Bytes of the longest text: 256 uses of ten digits, of which 52 have shares of five digits, and the others of four.
const LONGEST: usize = 5079;
/// More room than any text needs.
const AMPLE: usize = LONGEST + 500;
/// Units handed out, from so many on many.
const MANY: usize = 50;

// ---- what holds of a text

/// What was met in a text that is as the request says.
#[derive(Clone, Copy, Debug, Default, PartialEq, Eq)]
pub struct Told {
    pub lines: usize,
    /// Units that were missing.
    pub units: usize,
    /// Whether of two meters with the same use and remainder one got a unit and one did not.
    pub equal_uses: bool,
    /// The same of two with the same remainder and different uses.
    pub equal_remainders: bool,
}

/// A line of a text, with what its share should be about.
struct Line {
    meter: usize,
    used: i64,
    share: i64,
    floor: i64,
    remainder: i64,
}

/// The numbers of a line: each as it is written in decimal, and no other way.
fn numbers(line: &str) -> Option<[i64; 3]> {
    let mut parts = line.split(',').map(|part| part.parse().ok().filter(|number: &i64| number.to_string() == part));
    let out = [parts.next()??, parts.next()??, parts.next()??];
    parts.next().is_none().then_some(out)
}

/// The reading of a meter in a plain table, if it is a heat meter that is present.
fn heat_reading(table: &[u8], meter: usize) -> Option<i64> {
    let entry = &table[meter * ENTRY_LEN..][..ENTRY_LEN];
    (entry[22] == 1 && entry[20] == HEAT).then(|| i64::from(number_at(entry, 16, 4) as u32 as i32))
}

/// Holds the text of a split to the request's sentences, from the bytes of the two tables.
pub fn held(tables: &[u8], text: &[u8]) -> Result<Told, String> {
    let (Some(start), Some(end), 12_288) = (tables.get(..TABLE_LEN), tables.get(TABLE_LEN..), tables.len()) else {
        return Err("a text comes of what is not two tables".to_string());
    };
    let text = std::str::from_utf8(text).map_err(|what| what.to_string())?;
    let Some(body) = text.strip_prefix("meter,used,share\n") else { return Err("no first line".to_string()) };
    if !text.ends_with('\n') {
        return Err("the last line has no end".to_string());
    }
    let mut lines = Vec::new();
    for line in body.split_terminator('\n') {
        let [meter, used, share] = numbers(line).ok_or_else(|| format!("no line: {line:?}"))?;
        lines.push(Line { meter: meter as usize, used, share, floor: 0, remainder: 0 });
    }

    // "For each heat meter present in both, print what it used"; "by meter number".
    let wanted = (0..METERS).filter_map(|i| Some((i, heat_reading(end, i)? - heat_reading(start, i)?)));
    if !wanted.eq(lines.iter().map(|line| (line.meter, line.used))) {
        return Err("the lines are not those of the heat meters with their uses".to_string());
    }
    // "A negative use gets share 0 and is left out of the total."
    let total: i64 = lines.iter().map(|line| line.used).filter(|used| *used > 0).sum();
    if total == 0 {
        return Err("a text comes of a total of zero".to_string());
    }
    for line in &mut lines {
        let used = if line.used > 0 { line.used } else { 0 };
        (line.floor, line.remainder) = (used * 1_000_000 / total, used * 1_000_000 % total);
        if line.used <= 0 && line.share != 0 {
            return Err(format!("meter {} used nothing and has a share", line.meter));
        }
        // "Shares are rounded down; the missing units go one each".
        let more = line.share - line.floor;
        if !(more == 0 || more == 1 && line.remainder != 0) {
            return Err(format!("the share of meter {} is not {} or one more", line.meter, line.floor));
        }
    }
    // "Shares always add up to 1,000,000."
    let sum: i64 = lines.iter().map(|line| line.share).sum();
    if sum != 1_000_000 {
        return Err(format!("the shares add up to {sum}"));
    }

    let mut told = Told { lines: lines.len(), ..Told::default() };
    told.units = lines.iter().filter(|line| line.share > line.floor).count();
    for (at, low) in lines.iter().enumerate() {
        for high in &lines[at + 1..] {
            let pair = || format!("meters {} and {}", low.meter, high.meter);
            if (low.used > high.used && low.share < high.share) || (low.used < high.used && low.share > high.share) {
                return Err(format!("the greater use of {} has the smaller share", pair()));
            }
            let (first, second) = (low.share > low.floor, high.share > high.floor);
            // "To the largest remainders, lower meter first among equals."
            if first && !second && low.remainder < high.remainder || second && !first && low.remainder > high.remainder
            {
                return Err(format!("the smaller remainder of {} got a unit", pair()));
            }
            if low.remainder == high.remainder && first != second {
                if second {
                    return Err(format!("of {}, which are equal, the higher got the unit", pair()));
                }
                told.equal_uses |= low.used == high.used;
                told.equal_remainders |= low.used != high.used;
            }
        }
    }
    Ok(told)
}

// ---- pairs on a device and the model

/// Pairs that were tried, and what came of them.
#[derive(Clone, Debug)]
pub struct Seen {
    pairs: u64,
    /// By number, 0 for a text, where there is room.
    numbers: [u64; LAST as usize + 1],
    /// Refused with 3.
    short: u64,
    kinds: [u64; KINDS.len()],
    /// Of the kinds with an entry changed: in the start's table and in the end's, by the sort of meter.
    places: [[[u64; 3]; 2]; KINDS.len()],
    /// Texts with ties that were broken: of equal uses, and of different ones.
    ties: [u64; 2],
    /// Texts with no unit missing, with one, with many.
    texts: [u64; 3],
    units: usize,
    /// The most units of a text.
    most: usize,
    /// Bytes of the longest text.
    longest: usize,
}

impl Default for Seen {
    fn default() -> Seen {
        Seen {
            pairs: 0,
            numbers: [0; LAST as usize + 1],
            short: 0,
            kinds: [0; KINDS.len()],
            places: [[[0; 3]; 2]; KINDS.len()],
            ties: [0; 2],
            texts: [0; 3],
            units: 0,
            most: 0,
            longest: 0,
        }
    }
}

impl Seen {
    /// Draws so many pairs from a seed, and tries each.
    pub fn run(&mut self, pairs: u64, seed: u64, device: &impl Device, model: &impl Device) -> Result<(), String> {
        let mut rng = Rng::new(seed);
        for index in 0..pairs {
            let drawn = pair(&mut rng, index as usize % KINDS.len());
            self.see(&mut rng, &drawn, device, model)
                .map_err(|what| format!("seed {seed}, pair {index} ({}): {what}", KINDS[drawn.kind].name))?;
        }
        Ok(())
    }

    /// Tries a pair: with more room than a text needs, then with just as much, a little more, a byte less, and none.
    fn see(&mut self, rng: &mut Rng, drawn: &Pair, device: &impl Device, model: &impl Device) -> Result<(), String> {
        let Pair { bytes, kind, known, place } = drawn;
        let (answer, out) = split_alike(rng, bytes, AMPLE, device, model)?;
        let number = answer.map_or_else(|refusal| refusal.number, |_| 0);
        if known.is_some_and(|known| number != known) {
            return Err(format!("{number} comes, and should not"));
        }
        match answer {
            Ok(Taken { store: None, len }) => {
                let told = held(bytes, &out[..len])?;
                if KINDS[*kind].units.is_some_and(|[low, high]| !(low..=high).contains(&told.units)) {
                    return Err(format!("{} units were missing, and should not", told.units));
                }
                self.count(&told, len);
                for room in [len, len + 1 + rng.index(99), len - 1, 0, rng.index(len)] {
                    let (again, put) = split_alike(rng, bytes, room, device, model)?;
                    let expected = if room >= len { answer } else { Err(Refusal { number: 3, value: len as u64 }) };
                    if again != expected || (room >= len && put[..len] != out[..len]) {
                        return Err(format!("with room {room} comes {again:?}, where the text has {len} bytes"));
                    }
                    self.short += u64::from(room < len);
                }
            }
            Ok(taken) => return Err(format!("a split names a store: {taken:?}")),
            Err(refusal) => {
                for room in [0, 1, 16, rng.index(AMPLE)] {
                    let (again, _) = split_alike(rng, bytes, room, device, model)?;
                    if again != answer || refusal.value != 0 {
                        return Err(format!("with room {room} comes {again:?}, and with more {refusal:?}"));
                    }
                }
            }
        }
        self.pairs += 1;
        self.kinds[*kind] += 1;
        self.numbers[usize::from(number.min(LAST))] += 1;
        if let Some((table, sort)) = *place {
            self.places[*kind][table][sort] += 1;
        }
        Ok(())
    }

    fn count(&mut self, told: &Told, len: usize) {
        self.ties[0] += u64::from(told.equal_uses);
        self.ties[1] += u64::from(told.equal_remainders);
        match told.units {
            0 => self.texts[0] += 1,
            1 => self.texts[1] += 1,
            MANY.. => self.texts[2] += 1,
            _ => {}
        }
        self.units += told.units;
        self.most = self.most.max(told.units);
        self.longest = self.longest.max(len);
    }

    /// What never came up.
    pub fn missing(&self) -> Vec<String> {
        let mut out = Vec::new();
        for (kind, count) in KINDS.iter().zip(self.kinds) {
            if count == 0 {
                out.push(format!("no pair: {}", kind.name));
            }
        }
        for (kind, places) in KINDS.iter().zip(self.places) {
            let Drawn::OfEntry(_, sorts) = kind.drawn else { continue };
            for (table, of) in ["start", "end"].iter().zip(places) {
                for (sort, _) in sorts.iter().zip(of).filter(|(_, count)| *count == 0) {
                    out.push(format!("no pair: {} in the {table}'s table, {sort:?}", kind.name));
                }
            }
        }
        for number in [0, 4, 18, 19] {
            if self.numbers[number] == 0 {
                out.push(format!("no pair was answered with {number}"));
            }
        }
        let halves = [
            (self.short, "no text met too little room"),
            (self.ties[0], "no tie of equal uses was broken"),
            (self.ties[1], "no tie of different uses was broken"),
            (self.texts[0], "no text had no unit missing"),
            (self.texts[1], "no text had one unit missing"),
            (self.texts[2], "no text had many units missing"),
        ];
        if self.longest != LONGEST {
            out.push(format!("the longest text has {} bytes, and not {LONGEST}", self.longest));
        }
        out.extend(halves.iter().filter(|(count, _)| *count == 0).map(|(_, what)| what.to_string()));
        out
    }

    /// The counts as text.
    pub fn table(&self) -> String {
        let mut out = String::new();
        let least = |of: &[u64]| of.iter().min().copied().unwrap_or(0);
        let changed = KINDS.iter().zip(&self.places).filter(|(kind, _)| matches!(kind.drawn, Drawn::OfEntry(..)));
        let places: Vec<u64> = changed.flat_map(|(_, places)| places.iter().flatten().copied()).collect();
        let [taken, four, mixed, nothing] = [0, 4, 18, 19].map(|number| self.numbers[number]);
        let _ = writeln!(
            out,
            "{} pairs of tables: {taken} taken, {four} refused with 4, {mixed} with 18, {nothing} with 19; each of {} \
             kinds at least {} times, each of {} places of a changed byte at least {}",
            self.pairs,
            KINDS.len(),
            least(&self.kinds),
            places.len(),
            least(&places)
        );
        let _ = writeln!(
            out,
            "texts: {} ties of equal uses and {} of different uses broken; {} with no unit missing, {} with one, {} \
             with {MANY} or more; {} units handed out, at most {} in a text; longest text {} bytes; 3 for too little \
             room {} times",
            self.ties[0],
            self.ties[1],
            self.texts[0],
            self.texts[1],
            self.texts[2],
            self.units,
            self.most,
            self.longest,
            self.short
        );
        out
    }
}

/// Splits on both with so much room: the answer, and what was lent with what was put out.
fn split_alike(
    rng: &mut Rng,
    tables: &[u8],
    room: usize,
    device: &impl Device,
    model: &impl Device,
) -> Result<(Answer, Vec<u8>), String> {
    let lent: Vec<u8> = lent(rng.any() as u8, room).collect();
    let (mut out, mut expected_out) = (lent.clone(), lent.clone());
    let answer = device.split(tables, &mut out);
    let expected = model.split(tables, &mut expected_out);
    let told =
        |what: String| format!("{what}\nheat_split of {} bytes, room {room}: {answer:?}, {expected:?}", tables.len());
    same_answers(&answer, &expected, &lent, &out, &expected_out).map_err(told)?;
    Ok((answer, out))
}
