//! A vault kept in a file: 27 numbers that only rise.
//!
//! The file is text: a line for W, V and R of the eight lanes, a line each for E, S and N, and a checksum of those lines,
//! so that a damaged file is noticed. Setting a number writes the whole file anew, or not at all. The file stands for
//! the vault chip of a box: it is as safe as the folder it lies in.

use crate::collector::{Numbers, Store};
use crate::dir::Dir;
use crate::files::{self, Disk, Fault};
use crate::limits::LANES;

/// The file's name in a box's folder.
const NAME: &str = "vault";
/// Longer than any vault file.
const LONGEST: usize = 4096;

/// A vault in a file.
#[derive(Debug)]
pub struct VaultFile {
    folder: Dir,
    numbers: Numbers,
    disk: Disk,
}

impl VaultFile {
    /// A new vault in a folder, with these numbers: all zero but for tests and trying.
    pub fn create(folder: &Dir, numbers: &Numbers, disk: Disk) -> Result<VaultFile, Fault> {
        let vault = VaultFile { folder: folder.again()?, numbers: *numbers, disk };
        vault.write(&vault.numbers)?;
        Ok(vault)
    }

    /// The vault of a folder. A damaged file is a fault.
    pub fn open(folder: &Dir, disk: Disk) -> Result<VaultFile, Fault> {
        let path = folder.path().join(NAME);
        let bytes = folder.read(NAME, LONGEST)?.ok_or_else(|| Fault::missing(&path))?;
        let numbers = parse(&bytes).ok_or_else(|| {
            Fault::damaged(&path, "damaged, its numbers do not match their checksum: keep the card and change the box")
        })?;
        Ok(VaultFile { folder: folder.again()?, numbers, disk })
    }

    /// The 27 numbers.
    pub fn numbers(&self) -> &Numbers {
        &self.numbers
    }

    /// Sets the number that a store names. One that would fall is left, and is a fault; so is a store that is not the
    /// vault's.
    pub fn set(&mut self, store: &Store) -> Result<(), Fault> {
        let mut next = self.numbers;
        let (place, value) = place(&mut next, store).ok_or_else(|| Fault::Lowered {
            what: format!("no number: {store}"),
            from: 0,
            to: 0,
        })?;
        if value < *place {
            return Err(Fault::Lowered { what: store.to_string(), from: *place, to: value });
        }
        *place = value;
        self.write(&next)?;
        self.numbers = next;
        Ok(())
    }

    fn write(&self, numbers: &Numbers) -> Result<(), Fault> {
        files::replace(&self.folder, NAME, text(numbers).as_bytes(), 0o600, self.disk)
    }
}

/// The number that a store sets, and to what; nothing for a store of the card.
fn place<'a>(numbers: &'a mut Numbers, store: &Store) -> Option<(&'a mut u64, u64)> {
    match *store {
        Store::W { lane, value } => Some((numbers.w.get_mut(usize::from(lane))?, value)),
        Store::V { lane, value } => Some((numbers.v.get_mut(usize::from(lane))?, value)),
        Store::R { lane, value } => Some((numbers.r.get_mut(usize::from(lane))?, value)),
        Store::E { value } => Some((&mut numbers.e, value)),
        Store::S { value } => Some((&mut numbers.s, value)),
        Store::N { value } => Some((&mut numbers.n, value)),
        Store::Record { .. } | Store::Checkpoint | Store::Delete { .. } | Store::Empty => None,
    }
}

/// The file's text.
pub fn text(numbers: &Numbers) -> String {
    let row = |name: &str, values: &[u64]| {
        let values: Vec<String> = values.iter().map(u64::to_string).collect();
        format!("{name} {}\n", values.join(" "))
    };
    let Numbers { w, v, r, e, s, n } = numbers;
    let lines = [row("w", w), row("v", v), row("r", r), row("e", &[*e]), row("s", &[*s]), row("n", &[*n])].concat();
    let sum = checksum(lines.as_bytes());
    format!("{lines}sum {sum:016x}\n")
}

/// The numbers of a file's text; nothing where it is not exactly what `text` writes.
fn parse(bytes: &[u8]) -> Option<Numbers> {
    let all = std::str::from_utf8(bytes).ok()?;
    let mut lines = all.lines();
    let mut row = |name: &str| -> Option<Vec<u64>> {
        let values = lines.next()?.strip_prefix(name)?;
        values.split_ascii_whitespace().map(|value| value.parse().ok()).collect()
    };
    let lanes = |values: Vec<u64>| <[u64; LANES]>::try_from(values).ok();
    let one = |values: Vec<u64>| <[u64; 1]>::try_from(values).ok().map(|[value]| value);
    let numbers = Numbers {
        w: lanes(row("w")?)?,
        v: lanes(row("v")?)?,
        r: lanes(row("r")?)?,
        e: one(row("e")?)?,
        s: one(row("s")?)?,
        n: one(row("n")?)?,
    };
    (text(&numbers) == all).then_some(numbers)
}

/// Numbers that somebody wrote down, for trying: lines as a vault's file has them, in any order. One that is left out stands
/// for zeros, and so the checksum may be left out too. What is wrong is said with the line's number, from 1.
pub fn written(text: &str) -> Result<Numbers, (usize, String)> {
    let mut numbers = Numbers::default();
    let mut seen: Vec<(String, usize)> = Vec::new();
    let mut sum = None;
    for (at, line) in text.lines().enumerate().map(|(at, line)| (at + 1, line.trim())) {
        let mut words = line.split_ascii_whitespace();
        let Some(name) = words.next().filter(|name| !name.starts_with('#')) else { continue };
        let values: Vec<&str> = words.collect();
        if let Some((_, first)) = seen.iter().find(|(other, _)| other == name) {
            return Err((at, format!("{} is in line {first} already", files::clean(name))));
        }
        if name == "sum" {
            sum = Some((at, values.join(" ")));
        } else {
            enter(&mut numbers, name, &values).map_err(|why| (at, why))?;
        }
        seen.push((name.to_string(), at));
    }
    match sum {
        Some((at, sum)) if !self::text(&numbers).ends_with(&format!("\nsum {sum}\n")) => {
            Err((at, "this is not the checksum of these numbers: leave it out".to_string()))
        }
        _ => Ok(numbers),
    }
}

/// Enters a line's values into the numbers that it names.
fn enter(numbers: &mut Numbers, name: &str, values: &[&str]) -> Result<(), String> {
    let place: &mut [u64] = match name {
        "w" => &mut numbers.w,
        "v" => &mut numbers.v,
        "r" => &mut numbers.r,
        "e" => std::slice::from_mut(&mut numbers.e),
        "s" => std::slice::from_mut(&mut numbers.s),
        "n" => std::slice::from_mut(&mut numbers.n),
        _ => return Err(format!("a line begins with w, v, r, e, s or n, and not with {}", files::clean(name))),
    };
    if values.len() != place.len() {
        let wanted = if place.len() == 1 { "one number is" } else { "8 numbers are" };
        return Err(format!("{wanted} wanted behind {name}, and here are {}", values.len()));
    }
    for (place, value) in place.iter_mut().zip(values) {
        *place = value.parse().map_err(|_| format!("{} is no number of the vault", files::clean(value)))?;
    }
    Ok(())
}

/// FNV-1a of 64 bits: it tells a damaged file from a whole one, and is no protection against anybody.
fn checksum(bytes: &[u8]) -> u64 {
    bytes.iter().fold(0xcbf2_9ce4_8422_2325, |sum, &b| (sum ^ u64::from(b)).wrapping_mul(0x0000_0100_0000_01b3))
}

#[cfg(test)]
mod tests {
    use super::*;
    use crate::files::power::cut_everywhere;
    use crate::files::scratch::Scratch;

    #[test]
    fn numbers_rise_and_are_read_back() {
        let scratch = Scratch::new();
        let mut vault = VaultFile::create(&scratch.dir(), &Numbers::default(), Disk::Quick).expect("made");
        vault.set(&Store::W { lane: 7, value: 3 }).expect("set");
        vault.set(&Store::W { lane: 7, value: 3 }).expect("the same again");
        vault.set(&Store::N { value: 9 }).expect("set");
        assert!(matches!(vault.set(&Store::N { value: 8 }), Err(Fault::Lowered { from: 9, to: 8, .. })));
        assert!(vault.set(&Store::W { lane: 8, value: 1 }).is_err());
        assert!(vault.set(&Store::Empty).is_err());
        let again = VaultFile::open(&scratch.dir(), Disk::Wait).expect("open");
        let mut expected = Numbers { n: 9, ..Numbers::default() };
        expected.w[7] = 3;
        assert_eq!(*again.numbers(), expected);
    }

    #[test]
    fn a_number_is_wholly_set_or_not() {
        let scratch = Scratch::new();
        let prepare = || {
            let mut vault = VaultFile::create(&scratch.dir(), &Numbers::default(), Disk::Quick).expect("made");
            vault.set(&Store::S { value: 99 }).expect("set");
            vault
        };
        let see = |_: &VaultFile| *VaultFile::open(&scratch.dir(), Disk::Wait).expect("open").numbers();
        let store = |vault: &mut VaultFile| vault.set(&Store::S { value: 100 });
        assert!(cut_everywhere(prepare, store, see) >= 3);
    }

    #[test]
    fn numbers_written_by_hand() {
        let numbers = Numbers { w: [12, 0, 0, 7, 0, 0, 0, 0], s: 281_474_976_710_654, ..Numbers::default() };
        assert_eq!(written(&text(&numbers)), Ok(numbers));
        assert_eq!(written("# spent\ns 281474976710654\n\nw 12 0 0 7 0 0 0 0\r\n"), Ok(numbers));
        assert_eq!(written(""), Ok(Numbers::default()));
        let max = Numbers { e: u64::MAX, ..Numbers::default() };
        assert_eq!(written("e 18446744073709551615"), Ok(max));
        for (bad, line) in [
            ("e 1\nw 1 2 3\n", 2),
            ("s\n", 1),
            ("s 1 2\n", 1),
            ("s x\n", 1),
            ("n -1\n", 1),
            ("n 18446744073709551616\n", 1),
            ("x 1\n", 1),
            ("s 1\n\ns 1\n", 3),
            ("e 0\nsum 0\n", 2),
            ("sum\n", 1),
        ] {
            assert_eq!(written(bad).expect_err(bad).0, line, "{bad}");
        }
    }

    #[test]
    fn no_changed_byte_passes() {
        let numbers = Numbers { w: [12, 0, 0, 7, 0, 0, 0, 0], e: 3, ..Numbers::default() };
        let good = text(&numbers).into_bytes();
        assert_eq!(parse(&good), Some(numbers));
        for at in 0..good.len() {
            assert_eq!(parse(&good[..at]), None);
            for bit in 0..8 {
                let mut bad = good.clone();
                bad[at] ^= 1 << bit;
                assert_eq!(parse(&bad), None, "byte {at}, bit {bit}");
            }
        }
        assert_eq!(parse(&[good.as_slice(), b"\n"].concat()), None);
    }
}
