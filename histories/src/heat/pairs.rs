//! Pairs of tables: houses of which it is known what comes of them, houses with one thing about their bytes changed,
//! bytes of which nothing is known, and pairs out of a history's own tables.

use paviluko_model::table::ENTRY_LEN;
use paviluko_model::{Entry, Params, Table};

use super::{HEAT, MANY, METERS, TABLE_LEN};
use crate::rng::Rng;
use crate::values::{a_stamp, lane};

/// The codes that are not for heat.
const OTHERS: [u8; 3] = [1, 2, 4];

/// A pair that was drawn.
pub struct Pair {
    pub bytes: Vec<u8>,
    /// Its place in `KINDS`.
    pub kind: usize,
    /// The number that must come, 0 for a text, where that is known.
    pub known: Option<u8>,
    /// Where an entry was changed: in which table, and at what sort of meter.
    pub place: Option<(usize, usize)>,
}

/// The table at the start and the one at the end.
pub struct House {
    tables: [Table; 2],
}

/// What is particular about a pair.
pub struct Kind {
    pub name: &'static str,
    /// The number that must come, 0 for a text; nothing where that is not known.
    known: Option<u8>,
    /// How many units must be missing, at least and at most, where that is known.
    pub units: Option<[usize; 2]>,
    pub drawn: Drawn,
}

/// How it is drawn.
pub enum Drawn {
    /// By the uses of its heat meters.
    Uses(fn(&mut Rng) -> Vec<i64>),
    /// With something about a good house changed.
    OfHouse(fn(&mut Rng, &mut House)),
    /// With a byte of an entry of any house changed: which byte and to what, and at which sorts of meters.
    OfEntry(fn(&mut Rng) -> (usize, u8), [Place; 3]),
    /// With something about the bytes of any house changed.
    OfBytes(fn(&mut Rng, Vec<u8>) -> Vec<u8>),
}

/// Sorts of meters, for an entry that is changed.
#[derive(Clone, Copy, Debug, PartialEq, Eq)]
pub enum Place {
    /// One that has a line.
    Listed,
    /// One that is not for heat.
    Other,
    /// A heat meter that the other table lacks.
    HeatAlone,
    /// One that neither table has.
    Nobody,
    /// One that only the other table has, for heat.
    LacksHeat,
    /// The same, not for heat.
    LacksOther,
}

use Drawn::{OfBytes, OfEntry, OfHouse, Uses};

const PRESENT: [Place; 3] = [Place::Listed, Place::Other, Place::HeatAlone];
const ABSENT: [Place; 3] = [Place::Nobody, Place::LacksHeat, Place::LacksOther];

const fn taken(name: &'static str, drawn: Drawn) -> Kind {
    Kind { name, known: Some(0), units: None, drawn }
}

/// Taken, with so many units missing.
const fn missing(units: [usize; 2], name: &'static str, drawn: Drawn) -> Kind {
    Kind { name, known: Some(0), units: Some(units), drawn }
}

const fn refused(number: u8, name: &'static str, drawn: Drawn) -> Kind {
    Kind { name, known: Some(number), units: None, drawn }
}

const fn unknown(name: &'static str, drawn: Drawn) -> Kind {
    Kind { name, known: None, units: None, drawn }
}

/// All kinds of pairs, the good one first.
pub const KINDS: [Kind; 51] = [
    taken("good", Uses(good)),
    missing([1, 1], "the request's example, at any meters", Uses(|_| vec![1, 1, -2, 1])),
    taken("equal uses", Uses(equal_uses)),
    taken("equal remainders of different uses", Uses(equal_remainders)),
    taken("differences beyond 32 bits", Uses(beyond_32_bits)),
    taken("readings at their ends", OfHouse(ends)),
    missing([0, 0], "one heat meter", Uses(|rng| vec![above_zero(rng)])),
    taken("256 heat meters", Uses(|rng| with_one_above(rng, METERS, any_use))),
    missing([64, 64], "256 equal uses", Uses(|rng| vec![above_zero(rng); METERS])),
    taken(
        "256 heat meters that use all that they can",
        Uses(|rng| many(rng, METERS, |rng| MOST - rng.below(3) as i64)),
    ),
    taken("the longest text", Uses(|_| [vec![MOST; 52], vec![1_000_000_000; METERS - 52]].concat())),
    missing([0, 0], "a total of 1", Uses(|rng| with_others(rng, vec![1]))),
    missing([0, 0], "no unit missing", Uses(none_missing)),
    missing([1, 1], "one unit missing", Uses(one_missing)),
    missing([MANY, 199], "many units missing", Uses(|rng| many(rng, 200, |rng| 1 + rng.below(30_000) as i64))),
    taken("uses of less than a unit", Uses(less_than_a_unit)),
    missing([0, 0], "uses of 0 and below beside one above", Uses(one_above)),
    taken("meters 0 and 255", OfHouse(first_and_last)),
    taken("a change among the other codes", OfHouse(other_change)),
    taken("heat at the start, absent at the end", OfHouse(|rng, house| house.put_alone(rng, 0, HEAT))),
    taken("heat at the end, absent at the start", OfHouse(|rng, house| house.put_alone(rng, 1, HEAT))),
    refused(18, "heat that became another code", OfHouse(|rng, house| house.put_mixed(rng, 0))),
    refused(18, "another code that became heat", OfHouse(|rng, house| house.put_mixed(rng, 1))),
    refused(18, "heat that became another code, and nothing used", OfHouse(|rng, house| mixed_at_rest(rng, house, 0))),
    refused(18, "another code that became heat, and nothing used", OfHouse(|rng, house| mixed_at_rest(rng, house, 1))),
    refused(18, "one mixed meter and no other", OfHouse(mixed_alone)),
    refused(19, "all below 0", Uses(|rng| some(rng, |rng| -above_zero(rng)))),
    refused(19, "all 0", Uses(|rng| some(rng, |_| 0))),
    refused(19, "none above 0", Uses(|rng| some(rng, not_above_zero))),
    refused(19, "256 that use nothing", Uses(|rng| many(rng, METERS, not_above_zero))),
    refused(19, "no heat meter at all", OfHouse(no_heat)),
    refused(19, "no heat meter in both", OfHouse(heat_in_one)),
    refused(19, "no meter at all", OfHouse(|_, house| *house = House::empty())),
    refused(19, "no meter at the end", OfHouse(|_, house| house.tables[1] = Table::empty(&Params::scope()))),
    refused(4, "code 0", OfEntry(|_| (20, 0), PRESENT)),
    refused(4, "code 5", OfEntry(|_| (20, 5), PRESENT)),
    refused(4, "code 255", OfEntry(|_| (20, 255), PRESENT)),
    refused(4, "lane 8", OfEntry(|_| (21, 8), PRESENT)),
    refused(4, "lane 255", OfEntry(|_| (21, 255), PRESENT)),
    refused(4, "present 0 with something", OfEntry(|_| (22, 0), PRESENT)),
    refused(4, "present 2", OfEntry(|_| (22, 2), PRESENT)),
    refused(4, "the last byte 1", OfEntry(|_| (23, 1), PRESENT)),
    refused(4, "a byte at an absent meter", OfEntry(|rng| (rng.index(ENTRY_LEN), 1 + rng.below(255) as u8), ABSENT)),
    refused(4, "present 1 and nothing else", OfEntry(|_| (22, 1), ABSENT)),
    refused(4, "empty", OfBytes(|_, _| Vec::new())),
    refused(4, "one table", OfBytes(|rng, bytes| bytes[rng.index(2) * TABLE_LEN..][..TABLE_LEN].to_vec())),
    refused(4, "a byte short, or more", OfBytes(cut)),
    refused(4, "a byte more, or more", OfBytes(extended)),
    refused(4, "the two tables twice", OfBytes(|_, bytes| bytes.repeat(2))),
    unknown("a byte changed", OfBytes(any_byte)),
    unknown("any bytes", OfBytes(any_bytes)),
];

/// A pair of a kind.
pub fn pair(rng: &mut Rng, place: usize) -> Pair {
    let Kind { known, drawn, .. } = &KINDS[place];
    let mut out = Pair { bytes: Vec::new(), kind: place, known: *known, place: None };
    match drawn {
        Uses(uses) => out.bytes = House::of(rng, uses).bytes(),
        OfHouse(change) => {
            let mut house = House::of(rng, &good);
            change(rng, &mut house);
            out.bytes = house.bytes();
        }
        OfEntry(change, places) => {
            let (table, sort) = (rng.index(2), rng.index(3));
            let mut house = any_house(rng);
            let meter = house.meter_at(rng, table, places[sort]);
            let (at, value) = change(rng);
            out.bytes = house.bytes();
            out.bytes[table * TABLE_LEN + meter * ENTRY_LEN + at] = value;
            out.place = Some((table, sort));
        }
        OfBytes(change) => {
            let house = any_house(rng);
            out.bytes = change(rng, house.bytes());
        }
    }
    out
}

/// Any house in its layout: it may be one that is refused, with 18 or 19.
fn any_house(rng: &mut Rng) -> House {
    let mut house = match rng.below(4) {
        0 => House::of(rng, &|rng: &mut Rng| some(rng, not_above_zero)),
        _ => House::of(rng, &good),
    };
    if rng.permille(200) {
        let table = rng.index(2);
        house.put_mixed(rng, table);
    }
    house
}

// ---- houses

impl House {
    fn empty() -> House {
        House { tables: [Table::empty(&Params::scope()), Table::empty(&Params::scope())] }
    }

    /// Heat meters with these uses, and others about them: no mixed one.
    fn of(rng: &mut Rng, uses: &impl Fn(&mut Rng) -> Vec<i64>) -> House {
        let uses = uses(rng);
        let mut house = House::empty();
        let mut free: Vec<usize> = (0..METERS).collect();
        // Few neighbours, or all over the table.
        free.truncate(if rng.permille(300) { uses.len().max(8) } else { METERS });
        for used in uses {
            let meter = free.swap_remove(rng.index(free.len()));
            let (from, to) = going(rng, used);
            house.put(rng, meter, [Some((HEAT, from)), Some((HEAT, to))]);
        }
        let others = *rng.pick(&[0, 30, 300, 900]).unwrap_or(&0);
        for meter in 0..METERS {
            if !house.is_free(meter) || !rng.permille(others) {
                continue;
            }
            let mut code = || *rng.pick(&OTHERS).unwrap_or(&1);
            let (first, second) = (code(), code());
            let (from, to) = (rng.any() as u32 as i32, rng.any() as u32 as i32);
            let any = 1 + rng.below(4) as u8;
            let entries = match rng.below(4) {
                0 => [Some((any, from)), None],
                1 => [None, Some((any, to))],
                _ => [Some((first, from)), Some((second, to))],
            };
            house.put(rng, meter, entries);
        }
        house
    }

    /// Puts a meter's codes and readings into the two tables; the rest of an entry is any.
    fn put(&mut self, rng: &mut Rng, meter: usize, entries: [Option<(u8, i32)>; 2]) {
        for (table, entry) in self.tables.iter_mut().zip(entries) {
            table.entries[meter] = entry.map(|(code, reading)| Entry {
                stamp: a_stamp(rng),
                number: if rng.permille(300) { rng.any() } else { rng.below(10) },
                reading,
                code,
                lane: lane(rng, &Params::scope()),
            });
        }
    }

    fn is_free(&self, meter: usize) -> bool {
        self.tables.iter().all(|table| table.entries[meter].is_none())
    }

    fn is_listed(&self, meter: usize) -> bool {
        self.tables.iter().all(|table| table.entries[meter].is_some_and(|entry| entry.code == HEAT))
    }

    /// A meter that has no line.
    fn unlisted(&self, rng: &mut Rng) -> usize {
        let all: Vec<usize> = (0..METERS).filter(|&meter| !self.is_listed(meter)).collect();
        *rng.pick(&all).unwrap_or(&0)
    }

    /// Puts a meter into one table alone.
    fn put_alone(&mut self, rng: &mut Rng, table: usize, code: u8) {
        let meter = self.unlisted(rng);
        let mut entries = [None, None];
        entries[table] = Some((code, rng.any() as u32 as i32));
        self.put(rng, meter, entries);
    }

    /// Puts a meter that is for heat in one table and not in the other.
    fn put_mixed(&mut self, rng: &mut Rng, heat: usize) {
        let meter = self.unlisted(rng);
        let other = *rng.pick(&OTHERS).unwrap_or(&1);
        let (from, to) = (rng.any() as u32 as i32, rng.any() as u32 as i32);
        let codes = if heat == 0 { [HEAT, other] } else { [other, HEAT] };
        self.put(rng, meter, [Some((codes[0], from)), Some((codes[1], to))]);
    }

    /// A meter of a sort, as one of the tables has it: put there if there is none.
    fn meter_at(&mut self, rng: &mut Rng, table: usize, place: Place) -> usize {
        let at = |house: &House, meter: usize| {
            let [here, there] = [table, 1 - table].map(|of| house.tables[of].entries[meter].map(|entry| entry.code));
            match place {
                Place::Listed => (here, there) == (Some(HEAT), Some(HEAT)),
                Place::Other => here.is_some_and(|code| code != HEAT) && there.is_some_and(|code| code != HEAT),
                Place::HeatAlone => (here, there) == (Some(HEAT), None),
                Place::Nobody => (here, there) == (None, None),
                Place::LacksHeat => (here, there) == (None, Some(HEAT)),
                Place::LacksOther => here.is_none() && there.is_some_and(|code| code != HEAT),
            }
        };
        let all: Vec<usize> = (0..METERS).filter(|&meter| at(self, meter)).collect();
        if let Some(&meter) = rng.pick(&all) {
            return meter;
        }
        let meter = self.unlisted(rng);
        let some = |code: u8| Some((code, 5));
        let mut entries = match place {
            Place::Listed => [some(HEAT), some(HEAT)],
            Place::Other => [some(1), some(4)],
            Place::HeatAlone => [some(HEAT), None],
            Place::Nobody => [None, None],
            Place::LacksHeat => [None, some(HEAT)],
            Place::LacksOther => [None, some(2)],
        };
        if table == 1 {
            entries.reverse();
        }
        self.put(rng, meter, entries);
        meter
    }

    fn bytes(&self) -> Vec<u8> {
        [self.tables[0].text(), self.tables[1].text()].concat()
    }
}

// ---- uses

/// The greatest use.
const MOST: i64 = (1 << 32) - 1;

/// A reading at the start and one at the end that differ by so much.
fn going(rng: &mut Rng, used: i64) -> (i32, i32) {
    let (min, max) = (i64::from(i32::MIN), i64::from(i32::MAX));
    let (low, high) = (min.max(min - used), max.min(max - used));
    let from = match rng.below(5) {
        0 => low,
        1 => high,
        2 => (rng.below(2000) as i64 - 1000).clamp(low, high),
        _ => low + rng.below((high - low + 1) as u64) as i64,
    };
    (from as i32, (from + used) as i32)
}

/// A use above 0, of any size.
fn above_zero(rng: &mut Rng) -> i64 {
    let most = match rng.below(6) {
        0 => 3,
        1 => 100,
        2 | 3 => 30_000,
        4 => 1 << 31,
        _ => MOST as u64,
    };
    1 + rng.below(most) as i64
}

fn not_above_zero(rng: &mut Rng) -> i64 {
    if rng.permille(400) { 0 } else { -above_zero(rng) }
}

fn any_use(rng: &mut Rng) -> i64 {
    if rng.permille(700) { above_zero(rng) } else { not_above_zero(rng) }
}

/// So many.
fn many(rng: &mut Rng, count: usize, one: fn(&mut Rng) -> i64) -> Vec<i64> {
    (0..count).map(|_| one(rng)).collect()
}

/// At least one.
fn some(rng: &mut Rng, one: fn(&mut Rng) -> i64) -> Vec<i64> {
    let count = 1 + if rng.permille(700) { rng.index(12) } else { rng.index(METERS) };
    many(rng, count, one)
}

/// So many, of which one is above 0.
fn with_one_above(rng: &mut Rng, count: usize, one: fn(&mut Rng) -> i64) -> Vec<i64> {
    let mut out = many(rng, count, one);
    out[rng.index(count)] = above_zero(rng);
    out
}

/// With others that are not above 0.
fn with_others(rng: &mut Rng, mut uses: Vec<i64>) -> Vec<i64> {
    uses.extend(some(rng, not_above_zero));
    uses.truncate(METERS);
    uses
}

fn one_above(rng: &mut Rng) -> Vec<i64> {
    let above = above_zero(rng);
    with_others(rng, vec![above])
}

/// Fewer than all meters, of which one is above 0.
fn good(rng: &mut Rng) -> Vec<i64> {
    let count = 1 + if rng.permille(800) { rng.index(20) } else { rng.index(METERS - 20) };
    with_one_above(rng, count, any_use)
}

/// The same use many times, alone or beside few others: not a million of them to the last unit.
fn equal_uses(rng: &mut Rng) -> Vec<i64> {
    let count = *rng.pick(&[3, 6, 7, 9, 11, 13, 48, 99, 177, 255]).unwrap_or(&3);
    let mut out = vec![above_zero(rng); count];
    if rng.permille(300) {
        out.push(any_use(rng));
    }
    out
}

/// Different uses that add up to `step` times a divisor of 1,000,000: those that differ by a multiple of `step` have
/// the same remainder.
fn equal_remainders(rng: &mut Rng) -> Vec<i64> {
    let step = *rng.pick(&[3, 7, 9, 11, 13]).unwrap_or(&3);
    let total = step * *rng.pick(&[64, 500, 1000, 15_625, 1_000_000]).unwrap_or(&64);
    let count = 4 + rng.index(16);
    let mut out: Vec<i64> = (0..count).map(|_| 1 + rng.below(total as u64 / 20 - 1) as i64).collect();
    out.push(total - out.iter().sum::<i64>());
    out
}

fn beyond_32_bits(rng: &mut Rng) -> Vec<i64> {
    let mut out = some(rng, |rng| {
        let size = (1 << 31) + rng.below(1 << 31) as i64;
        if rng.permille(500) { size } else { -size }
    });
    out.truncate(METERS - 2);
    out.extend([MOST, -MOST]);
    out
}

/// Each meter from one end of the readings, or 0 or -1, to another.
fn ends(rng: &mut Rng, house: &mut House) {
    const ENDS: [i32; 6] = [i32::MIN, i32::MIN + 1, -1, 0, i32::MAX - 1, i32::MAX];
    let listed: Vec<usize> = (0..METERS).filter(|&meter| house.is_listed(meter)).collect();
    for (place, meter) in listed.into_iter().enumerate() {
        let (low, high) = (rng.index(ENDS.len()), rng.index(ENDS.len()));
        // The first one uses something.
        let readings = if place == 0 { [0, 5] } else { [low, high] }.map(|at| ENDS[at]);
        house.put(rng, meter, readings.map(|reading| Some((HEAT, reading))));
    }
}

/// Uses that add up to a divisor of 1,000,000, or to a multiple of one by which each can be divided.
fn none_missing(rng: &mut Rng) -> Vec<i64> {
    let total = *rng.pick(&[1, 2, 5, 64, 100, 3125, 500_000, 1_000_000]).unwrap_or(&1);
    let times = 1 + rng.below(4000) as i64;
    let mut left = total;
    let mut out = Vec::new();
    while left > 0 && out.len() < METERS - 1 {
        let used = 1 + rng.below((left as u64).min(1 + total as u64 / 3)) as i64;
        out.push(used * times);
        left -= used;
    }
    out.extend((left > 0).then_some(left * times));
    out
}

/// Two uses above 0, whose sum divides neither of them a million times.
fn one_missing(rng: &mut Rng) -> Vec<i64> {
    let total = *rng.pick(&[3, 7, 11, 17, 333, 999_983, 4_294_967_291]).unwrap_or(&3);
    let first = 1 + rng.below(total as u64 - 1) as i64;
    let mut uses = vec![first, total - first];
    if rng.permille(300) {
        uses = with_others(rng, uses);
    }
    uses
}

/// Small uses beside great ones.
fn less_than_a_unit(rng: &mut Rng) -> Vec<i64> {
    let mut out = some(rng, |rng| 1 + rng.below(3) as i64);
    out.truncate(METERS - 2);
    out.extend(
        (0..1 + rng.below(2)).map(|_| *rng.pick(&[1_000_000, 2_999_998, 3_000_000, 1 << 31, MOST]).unwrap_or(&MOST)),
    );
    out
}

// ---- changes

fn first_and_last(rng: &mut Rng, house: &mut House) {
    for meter in [0, METERS - 1] {
        let used = above_zero(rng);
        let (from, to) = going(rng, used);
        house.put(rng, meter, [Some((HEAT, from)), Some((HEAT, to))]);
    }
}

fn other_change(rng: &mut Rng, house: &mut House) {
    let meter = house.unlisted(rng);
    let first = rng.index(3);
    let second = (first + 1 + rng.index(2)) % 3;
    let (from, to) = going(rng, 1);
    house.put(rng, meter, [Some((OTHERS[first], from)), Some((OTHERS[second], to))]);
}

fn mixed_at_rest(rng: &mut Rng, house: &mut House, heat: usize) {
    *house = House::of(rng, &|rng: &mut Rng| many(rng, 5, not_above_zero));
    house.put_mixed(rng, heat);
}

fn mixed_alone(rng: &mut Rng, house: &mut House) {
    *house = House::empty();
    let heat = rng.index(2);
    house.put_mixed(rng, heat);
}

fn no_heat(rng: &mut Rng, house: &mut House) {
    for entry in house.tables.iter_mut().flat_map(|table| table.entries.iter_mut().flatten()) {
        if entry.code == HEAT {
            entry.code = *rng.pick(&OTHERS).unwrap_or(&1);
        }
    }
}

fn heat_in_one(rng: &mut Rng, house: &mut House) {
    for meter in 0..METERS {
        if house.is_listed(meter) {
            house.tables[rng.index(2)].entries[meter] = None;
        }
    }
}

fn cut(rng: &mut Rng, mut bytes: Vec<u8>) -> Vec<u8> {
    let len = bytes.len();
    bytes.truncate(match rng.below(4) {
        0 | 1 => len - 1,
        2 => len - ENTRY_LEN,
        _ => rng.index(len),
    });
    bytes
}

fn extended(rng: &mut Rng, mut bytes: Vec<u8>) -> Vec<u8> {
    match rng.below(5) {
        0 => bytes.push(0),
        1 => bytes.push(b'\n'),
        2 => bytes.extend([0; ENTRY_LEN]),
        3 => bytes.extend_from_within(TABLE_LEN..),
        _ => bytes.extend([vec![rng.any() as u8], rng.bytes_below(300)].concat()),
    }
    bytes
}

/// A byte of an entry, which is mostly a listed one's.
fn any_byte(rng: &mut Rng, mut bytes: Vec<u8>) -> Vec<u8> {
    change_byte(rng, &mut bytes);
    bytes
}

/// Changes a byte of two tables: mostly in the entry of a heat meter.
fn change_byte(rng: &mut Rng, bytes: &mut [u8]) {
    let heat: Vec<usize> = (0..bytes.len() / ENTRY_LEN).filter(|at| bytes[at * ENTRY_LEN + 20] == HEAT).collect();
    let entry = rng.pick(&heat).filter(|_| rng.permille(800));
    let entry = entry.copied().unwrap_or_else(|| rng.index(bytes.len() / ENTRY_LEN));
    let at = entry * ENTRY_LEN + if rng.permille(700) { 16 + rng.index(8) } else { rng.index(ENTRY_LEN) };
    bytes[at] = if rng.permille(500) { rng.below(6) as u8 } else { bytes[at] ^ (1 + rng.below(255) as u8) };
}

fn any_bytes(rng: &mut Rng, bytes: Vec<u8>) -> Vec<u8> {
    match rng.below(3) {
        0 => rng.bytes(bytes.len()),
        1 => rng.bytes_below(300),
        // The tables in the wrong order.
        _ => [&bytes[TABLE_LEN..], &bytes[..TABLE_LEN]].concat(),
    }
}

// ---- pairs of a history

/// A pair out of a history's own tables.
pub struct Own {
    pub bytes: Vec<u8>,
    /// How much room is lent.
    pub room: usize,
    /// What is known of a pair in its layout: whether it is a table and itself.
    pub twice: bool,
    /// Whether the bytes are those of two tables as they were.
    pub whole: bool,
}

/// Draws a pair: a table kept from earlier and the present one, as they are or with something changed.
pub fn own(rng: &mut Rng, params: &Params, kept: &[u8], now: &[u8]) -> Own {
    let mut own = Own { bytes: [kept, now].concat(), room: 0, twice: false, whole: true };
    match rng.below(16) {
        0 => own.bytes = [now, kept].concat(),
        1 => (own.bytes, own.twice) = ([now, now].concat(), true),
        2..=4 => {
            change_byte(rng, &mut own.bytes);
            own.whole = false;
        }
        5 => {
            own.bytes = if rng.permille(500) { cut(rng, own.bytes) } else { extended(rng, own.bytes) };
            own.whole = false;
        }
        6..=8 => own.bytes = [&with_codes_of(params, kept, now), now].concat(),
        9..=12 => own.bytes = [&set_back(rng, params, now), now].concat(),
        _ => {}
    }
    let need = paviluko_model::heat::printed(params, &own.bytes).len();
    own.room = match rng.below(10) {
        0 => 0,
        1 => need - 1,
        2 => rng.index(need),
        3 => need + 1 + rng.index(100),
        _ => need,
    };
    own
}

/// A table as it was, but with the codes of the present one.
fn with_codes_of(params: &Params, kept: &[u8], now: &[u8]) -> Vec<u8> {
    let (Some(mut kept), Some(now)) = (Table::read(params, kept), Table::read(params, now)) else {
        return kept.to_vec();
    };
    for (old, new) in kept.entries.iter_mut().zip(&now.entries) {
        if let (Some(old), Some(new)) = (old, new) {
            old.code = new.code;
        }
    }
    kept.text()
}

/// The present table with the readings of its heat meters set back: by little, so that uses are alike, or by any use.
fn set_back(rng: &mut Rng, params: &Params, now: &[u8]) -> Vec<u8> {
    let Some(mut table) = Table::read(params, now) else { return now.to_vec() };
    let little = rng.permille(500);
    for entry in table.entries.iter_mut().flatten().filter(|entry| entry.code == HEAT) {
        let used = if little { 1 + rng.below(5) as i64 } else { any_use(rng) };
        entry.reading = (i64::from(entry.reading) - used).clamp(i64::from(i32::MIN), i64::from(i32::MAX)) as i32;
    }
    table.text()
}
