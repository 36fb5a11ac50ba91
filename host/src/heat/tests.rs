//! The look and the text against the library, over tables drawn from a fixed seed; and what the words say.

use std::collections::BTreeMap;

use super::*;
use crate::limits::HEAT_TEXT_LEN;
use crate::random::Random;

/// So many pairs of tables are drawn.
const PAIRS: usize = 20_000;
/// What the output has before a call.
const BEFORE: u8 = 0xa5;

/// A plain table of these meters, each with a code and a reading.
fn table(readings: &[(u8, u8, i32)]) -> Vec<u8> {
    let mut bytes = vec![0; TABLE_LEN];
    for &(meter, code, reading) in readings {
        let entry = &mut bytes[usize::from(meter) * ENTRY_LEN..][..ENTRY_LEN];
        entry[..8].copy_from_slice(&1_767_225_600u64.to_le_bytes());
        entry[8..16].copy_from_slice(&u64::from(meter).to_le_bytes());
        entry[16..20].copy_from_slice(&reading.to_le_bytes());
        entry[20..23].copy_from_slice(&[code, meter % 8, 1]);
    }
    bytes
}

/// What the library says of two tables: the text, or the number. A refusal leaves the output, and a text the bytes behind it; an
/// output that is too short for it by a byte is refused with its length.
fn library(start: &[u8], end: &[u8]) -> Result<String, u8> {
    let tables = [start, end].concat();
    let mut out = vec![BEFORE; HEAT_TEXT_LEN + 5];
    match heat_split(&tables, &mut out) {
        Ok(Taken { store, len }) => {
            assert_eq!(store, None);
            assert!(len <= HEAT_TEXT_LEN && out[len..].iter().all(|byte| *byte == BEFORE));
            let text = String::from_utf8(out[..len].to_vec()).expect("a text");
            let short = &mut vec![BEFORE; len - 1];
            assert_eq!(heat_split(&tables, short), Err(Refusal { number: 3, value: len as u64 }));
            assert!(short.iter().all(|byte| *byte == BEFORE));
            let just = &mut vec![BEFORE; len];
            assert_eq!(heat_split(&tables, just).map(|taken| taken.len), Ok(len));
            assert_eq!(just[..], *text.as_bytes());
            Ok(text)
        }
        Err(Refusal { number, value }) => {
            assert_eq!(value, 0);
            assert!(out.iter().all(|byte| *byte == BEFORE));
            assert_eq!(heat_split(&tables, &mut []), Err(Refusal { number, value }));
            Err(number)
        }
    }
}

/// The lines of a split as the request has them: what is missing goes one each to the largest remainders.
fn lines(used: &[(u8, i64)]) -> Vec<Line> {
    let total: i128 = used.iter().map(|(_, used)| i128::from(*used.max(&0))).sum();
    let of = |used: i64| i128::from(used.max(0)) * 1_000_000;
    let mut shares: BTreeMap<u8, u32> = used.iter().map(|&(meter, used)| (meter, (of(used) / total) as u32)).collect();
    let mut order: Vec<(i128, u8)> = used.iter().map(|&(meter, used)| (-(of(used) % total), meter)).collect();
    order.sort_unstable();
    let missing = 1_000_000 - shares.values().sum::<u32>();
    for (_, meter) in &order[..missing as usize] {
        *shares.get_mut(meter).expect("there") += 1;
    }
    used.iter().map(|&(meter, used)| Line { meter, used, share: shares[&meter] }).collect()
}

/// A table, and one a year later: with changed meters, without some, with flaws, each now and then.
fn drawn(random: &mut Random) -> (Vec<u8>, Vec<u8>) {
    let most = [1, 4, 40, METERS][random.below(4)];
    let (mut start, mut end) = (Vec::new(), Vec::new());
    let (wild, changes, still) = (random.rarely(4), random.rarely(4), random.rarely(8));
    for meter in 0..=u8::MAX {
        if random.below(METERS) >= most {
            continue;
        }
        let code = if random.rarely(3) { 1 + random.below(4) as u8 } else { HEAT };
        let reading = if wild { random.0 as i32 } else { random.below(5000) as i32 };
        let later = match random.below(8) {
            0 => reading.saturating_sub(random.below(100) as i32),
            1 => [i32::MIN, i32::MAX, 0][random.below(3)],
            _ => reading.saturating_add(random.below(if wild { 1 << 30 } else { 9 }) as i32),
        };
        let later = if still { reading.min(later) } else { later };
        let after = if changes && random.rarely(40) { 1 + random.below(4) as u8 } else { code };
        if !random.rarely(10) {
            start.push((meter, code, reading));
        }
        if !random.rarely(10) {
            end.push((meter, after, later));
        }
    }
    let mut pair = [table(&start), table(&end)];
    if random.rarely(6) {
        let bytes = &mut pair[random.below(2)];
        let at = random.below(METERS) * ENTRY_LEN;
        match random.below(8) {
            0 => bytes.push(0),
            1 => bytes.truncate(random.below(TABLE_LEN)),
            2 => bytes[at + random.below(ENTRY_LEN)] ^= 1 << random.below(8),
            3 => bytes[at + 20] = [0, 5, 255][random.below(3)],
            4 => bytes[at + 21] = 8,
            5 => bytes[at + 22] = [0, 2][random.below(2)],
            6 => bytes[at + 23] = 1,
            _ => bytes[at + random.below(16)] = 1,
        }
    }
    let [start, end] = pair;
    (start, end)
}

#[test]
fn the_look_is_as_the_library_says() {
    let mut random = Random(0x9e37_79b9_7f4a_7c15);
    let mut numbers: BTreeMap<u8, usize> = BTreeMap::new();
    let mut negative = 0;
    for pair in 0..PAIRS {
        let (start, end) = drawn(&mut random);
        let (look, said) = (look(&start, &end), library(&start, &end));
        *numbers.entry(look.number()).or_default() += 1;
        assert_eq!(look.why(["a", "b"]).is_none(), said.is_ok(), "pair {pair}");
        let text = match said {
            Err(number) => {
                assert_eq!(look.number(), number, "pair {pair}: {look:?}");
                continue;
            }
            Ok(text) => text,
        };
        let Look::Fine(meters) = look else { panic!("pair {pair}: {look:?}, and split") };
        let reading = |table: &[u8], meter: u8| {
            let found = entries(table).expect("a table").into_iter().find(|entry| entry.meter == meter);
            i64::from(found.expect("there").reading)
        };
        let used: Vec<(u8, i64)> =
            meters.iter().map(|&meter| (meter, reading(&end, meter) - reading(&start, meter))).collect();
        let split = Split::read(&text).expect("taken apart");
        assert_eq!(split.lines, lines(&used), "pair {pair}");
        assert_eq!((split.shares(), split.total() > 0), (1_000_000, true), "pair {pair}");
        negative += usize::from(!split.negative().is_empty());
    }
    assert!([0, 4, 18, 19].iter().all(|number| numbers.get(number).is_some_and(|count| *count > 100)), "{numbers:?}");
    let of = |number: u8| numbers.get(&number).copied().unwrap_or_default();
    println!(
        "{PAIRS} pairs of tables: {} split, {negative} of them with a negative use; {} refused with 4, {} with 18, {} with 19",
        of(0),
        of(4),
        of(18),
        of(19)
    );
}

#[test]
fn the_request_s_own_tables() {
    let start = table(&[(4, 3, 10), (9, 3, 10), (12, 3, 5), (200, 3, 10)]);
    let end = table(&[(4, 3, 11), (9, 3, 11), (12, 3, 3), (200, 3, 11)]);
    let text = library(&start, &end).expect("split");
    assert_eq!(text, "meter,used,share\n4,1,333334\n9,1,333333\n12,-2,0\n200,1,333333\n");
    let split = Split::read(&text).expect("taken apart");
    assert_eq!((split.total(), split.shares(), split.negative()), (3, 1_000_000, vec![12]));
    assert_eq!(split.lines[2], Line { meter: 12, used: -2, share: 0 });
    // Of any other length it is no two tables, even where the bytes would do.
    let tables = [start, end].concat();
    for len in [0, TABLE_LEN, tables.len() - 1] {
        assert_eq!(heat_split(&tables[..len], &mut []), Err(Refusal { number: 4, value: 0 }), "{len} bytes");
    }
    assert_eq!(heat_split(&[&tables[..], &[0]].concat(), &mut []), Err(Refusal { number: 4, value: 0 }));
}

#[test]
fn the_widest_uses() {
    let all = |reading: i32| table(&(0..=u8::MAX).map(|meter| (meter, HEAT, reading)).collect::<Vec<_>>());
    let text = library(&all(i32::MIN), &all(i32::MAX)).expect("split");
    let split = Split::read(&text).expect("taken apart");
    assert_eq!((split.lines.len(), split.total()), (METERS, 256 * 4_294_967_295));
    // 1,000,000 is 256 times 3906, and 64 more.
    assert!(split.lines.iter().all(|line| line.share == 3906 + u32::from(line.meter < 64)));
    let mut back = all(i32::MIN);
    back[..ENTRY_LEN].copy_from_slice(&all(i32::MAX)[..ENTRY_LEN]);
    let mut start = all(i32::MAX);
    start[..ENTRY_LEN].copy_from_slice(&all(i32::MIN)[..ENTRY_LEN]);
    let split = Split::read(&library(&start, &back).expect("split")).expect("taken apart");
    assert_eq!(split.lines[0], Line { meter: 0, used: 4_294_967_295, share: 1_000_000 });
    assert_eq!(split.lines[255], Line { meter: 255, used: -4_294_967_295, share: 0 });
}

#[test]
fn heat_meters_of_one_table_alone() {
    let (start, end) =
        (table(&[(4, 3, 1), (5, 3, 1), (6, 1, 1)]), table(&[(5, 3, 2), (6, 3, 1), (7, 3, 1), (8, 2, 1)]));
    assert_eq!((alone(&start, &end), alone(&end, &start)), (vec![4], vec![7]));
    assert_eq!((alone(&start, &start), alone(&start, &[])), (vec![], vec![]));
}

#[test]
fn only_a_split_s_text_is_taken_apart() {
    assert_eq!(Split::read("meter,used,share\n"), Some(Split { lines: vec![] }));
    for bad in [
        "",
        "\n",
        "meter,used,share",
        "meter,used\n",
        "refused 4\n",
        "meter,used,share\n4,1\n",
        "meter,used,share\n4,1,1,1\n",
        "meter,used,share\n256,1,1\n",
        "meter,used,share\n4,1,1\n\n",
        "meter,used,share\n4,x,1\n",
    ] {
        assert_eq!(Split::read(bad), None, "{bad:?}");
    }
}

#[test]
fn the_words_say_which() {
    let year = [table(&[(7, 3, 10), (9, 3, 4)]), table(&[(7, 1, 10), (9, 2, 5)])];
    let why = |start: &[u8], end: &[u8]| look(start, end).why(["a", "b"]).unwrap_or_default();
    assert_eq!(
        why(&year[0], &year[1]),
        "meter 7 is heat in a and cold water in b; meter 9 is heat in a and warm water in b"
    );
    let many = |code| table(&(0..9).map(|meter| (meter, code, 1)).collect::<Vec<_>>());
    assert!(
        why(&many(4), &many(3)).ends_with("meter 5 is cooling in a and heat in b; and 3 more meters were changed so")
    );
    for (end, said) in [
        (&[][..], "b: it is empty, and a plain table has 6144 bytes"),
        (&[0][..], "b: it has 1 byte, and a plain table has 6144"),
        (&[0; TABLE_LEN + 1][..], "b: it has 6145 bytes, and a plain table has 6144"),
        (&[0; FILE_LEN][..], "b: it has 6184 bytes, as a checkpoint has, which is sealed; a plain table has 6144"),
        (&[0; FILE_LEN + 1][..], "b: it has more than 6184 bytes, and a plain table has 6144"),
    ] {
        assert_eq!(why(&year[0], end), said);
    }
    for (at, byte, said) in [
        (20, 9, "a: meter 7 has code 9, and codes are 1 to 4"),
        (21, 8, "a: meter 7 has lane 8, and lanes are 0 to 7"),
        (22, 2, "a: meter 7: its 24 bytes, from byte 168 on, are neither a reading's nor all 0"),
    ] {
        let mut bad = year[0].clone();
        bad[7 * ENTRY_LEN + at] = byte;
        assert_eq!(why(&bad, &[]), said);
    }
    let heat = |readings: &[i32]| {
        table(&readings.iter().zip(1..).map(|(reading, meter)| (meter, HEAT, *reading)).collect::<Vec<_>>())
    };
    for (start, end, said) in [
        (&[][..], &[5][..], "no heat meter is in both tables"),
        (&[5], &[5], "1 heat meter is in both tables, which have the same bytes"),
        (
            &[5],
            &[4],
            "1 heat meter is in both tables, and shows less at the end than at the start: the two files may be exchanged",
        ),
        (
            &[5, 5],
            &[4, 4],
            "2 heat meters are in both tables, and all show less at the end than at the start: the two files may be exchanged",
        ),
        (
            &[5, 5],
            &[5, 4],
            "2 heat meters are in both tables: 1 shows less at the end than at the start, and none shows more",
        ),
        (
            &[5, 5, 5],
            &[5, 4, 4],
            "3 heat meters are in both tables: 2 show less at the end than at the start, and none shows more",
        ),
    ] {
        assert_eq!(why(&heat(start), &heat(end)), said);
    }
    let mut other = heat(&[5, 5]);
    other[ENTRY_LEN] += 1;
    assert_eq!(
        why(&heat(&[5, 5]), &other),
        "2 heat meters are in both tables, and none shows more at the end than at the start"
    );
}
