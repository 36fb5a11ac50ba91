//! The request's own example to the letter; its sentences, just inside and just outside; every byte of an entry.

use super::*;

const MIN: i32 = i32::MIN;
const MAX: i32 = i32::MAX;
/// Bytes of a plain table.
const TABLE: usize = 6144;

/// A table with these meters, codes and readings. Stamp, number and lane are any.
fn table(meters: &[(usize, u8, i32)]) -> Table {
    let mut table = Table::empty(&Params::scope());
    for &(meter, code, reading) in meters {
        let (stamp, number) = (u64::MAX - meter as u64, (meter as u64) << 40);
        table.entries[meter] = Some(Entry { stamp, number, reading, code, lane: (meter % 8) as u8 });
    }
    table
}

/// Two tables as the bytes that the program reads.
fn bytes(start: &[(usize, u8, i32)], end: &[(usize, u8, i32)]) -> Vec<u8> {
    [table(start).text(), table(end).text()].concat()
}

/// What is printed for two tables.
fn says(start: &[(usize, u8, i32)], end: &[(usize, u8, i32)]) -> String {
    printed(&Params::scope(), &bytes(start, end))
}

/// What is printed for heat meters that go from one reading to another.
fn of_heat(meters: &[(usize, i32, i32)]) -> String {
    let start: Vec<_> = meters.iter().map(|&(meter, from, _)| (meter, HEAT, from)).collect();
    let end: Vec<_> = meters.iter().map(|&(meter, _, to)| (meter, HEAT, to)).collect();
    says(&start, &end)
}

/// The shares of heat meters 0, 1, 2 .. with these uses.
fn shares(uses: &[i32]) -> Vec<i128> {
    let meters: Vec<_> = uses.iter().enumerate().map(|(meter, &used)| (meter, HEAT, used)).collect();
    let start: Vec<_> = (0..uses.len()).map(|meter| (meter, HEAT, 0)).collect();
    let parts = split(&table(&start), &table(&meters)).expect("it is taken");
    assert_eq!(parts.iter().map(|part| part.share).sum::<i128>(), HOUSE);
    parts.iter().map(|part| part.share).collect()
}

/// "With meters 4, 9 and 200 going from 10 to 11 and meter 12 from 5 to 3 it prints exactly these lines".
#[test]
fn the_example_of_the_request() {
    let lines = "meter,used,share\n4,1,333334\n9,1,333333\n12,-2,0\n200,1,333333\n";
    assert_eq!(of_heat(&[(4, 10, 11), (9, 10, 11), (12, 5, 3), (200, 10, 11)]), lines);
}

/// "For each heat meter present in both": no other one has a line.
#[test]
fn who_has_a_line() {
    let start = [(0, 3, 1), (1, 1, 1), (2, 3, 1), (255, 3, 1), (7, 4, 9)];
    let end = [(0, 3, 2), (1, 1, 9), (3, 3, 9), (255, 3, 1), (7, 4, 1)];
    assert_eq!(says(&start, &end), "meter,used,share\n0,1,1000000\n255,0,0\n");
}

/// "Used is end minus start, signed": with differences that 32 bits do not hold.
#[test]
fn uses_of_more_than_32_bits() {
    let said = of_heat(&[(3, MIN, MAX), (5, MAX, MIN), (6, -1, MAX), (9, 0, MIN)]);
    assert_eq!(said, "meter,used,share\n3,4294967295,666667\n5,-4294967295,0\n6,2147483648,333333\n9,-2147483648,0\n");
    let all: Vec<_> = (0..256).map(|meter| (meter, MIN, MAX)).collect();
    let lines = of_heat(&all);
    // 1,000,000 is 256 times 3906, and 64.
    assert!(lines.contains("\n0,4294967295,3907\n") && lines.contains("\n63,4294967295,3907\n"));
    assert!(lines.contains("\n64,4294967295,3906\n") && lines.ends_with("\n255,4294967295,3906\n"));
    assert_eq!(lines.lines().count(), 257);
}

/// "A negative use gets share 0 and is left out of the total".
#[test]
fn below_zero() {
    assert_eq!(shares(&[-5, 3, -7, 1, 0]), [0, 750_000, 0, 250_000, 0]);
    assert_eq!(shares(&[MIN, 1]), [0, 1_000_000]);
}

/// "The missing units go one each to the largest remainders, lower meter first among equals".
#[test]
fn missing_units() {
    // None, one, and as many as there can be of three.
    assert_eq!(shares(&[1, 3]), [250_000, 750_000]);
    assert_eq!(shares(&[1, 2]), [333_333, 666_667]);
    assert_eq!(shares(&[1, 1, 1]), [333_334, 333_333, 333_333]);
    // Of 7: remainders 1, 2 and 4 sevenths, and of 2, 2 and 3 sevenths 2, 2 and 3.
    assert_eq!(shares(&[1, 2, 4]), [142_857, 285_714, 571_429]);
    assert_eq!(shares(&[2, 2, 3]), [285_714, 285_714, 428_572]);
    // The largest remainder is the largest use's, or the smallest one's.
    assert_eq!(shares(&[5, 1, 1]), [714_286, 142_857, 142_857]);
    assert_eq!(shares(&[4, 3]), [571_429, 428_571]);
    assert_eq!(shares(&[6, 5]), [545_455, 454_545]);
    assert_eq!(shares(&[1, 16]), [58_824, 941_176]);
    assert_eq!(shares(&[4, 3, 10]), [235_294, 176_471, 588_235]);
    // Different uses with the same remainder: of 192, those that leave the same behind when divided by 3.
    assert_eq!(shares(&[190, 1, 1]), [989_584, 5208, 5208]);
    assert_eq!(shares(&[1, 190, 1]), [5209, 989_583, 5208]);
    assert_eq!(shares(&[95, 95, 2]), [494_792, 494_792, 10_416]);
    assert_eq!(shares(&[2, 95, 95]), [10_417, 494_792, 494_791]);
}

/// A share of less than a unit can get one.
#[test]
fn beside_a_great_use() {
    assert_eq!(shares(&[MAX, 1]), [1_000_000, 0]);
    assert_eq!(shares(&[1, 1_000_000, 1]), [1, 999_998, 1]);
    // A third of a unit is left of each of these.
    assert_eq!(shares(&[1, 2_999_998, 1]), [1, 999_999, 0]);
    assert_eq!(shares(&[1, 3_000_000, 1]), [0, 1_000_000, 0]);
}

/// "With 18 a meter present in both that is heat in one table and another code in the other".
#[test]
fn a_meter_that_changes() {
    for other in [1, 2, 4] {
        let heat = [(5, 3, 1), (9, 3, 1)];
        let mixed = [(5, 3, 2), (9, other, 2)];
        assert_eq!(says(&heat, &mixed), "refused 18\n");
        assert_eq!(says(&mixed, &heat), "refused 18\n");
        // Where the total is zero too.
        assert_eq!(says(&[(9, 3, 1)], &[(9, other, 1)]), "refused 18\n");
        assert_eq!(says(&[(5, 3, 2), (9, 3, 1)], &[(5, 3, 2), (9, other, 1)]), "refused 18\n");
        for another in [1, 2, 4] {
            let said = says(&[(5, 3, 1), (9, other, 1)], &[(5, 3, 2), (9, another, 2)]);
            assert_eq!(said, "meter,used,share\n5,1,1000000\n");
        }
    }
}

/// "With 19, after that, a total of zero".
#[test]
fn a_total_of_zero() {
    assert_eq!(says(&[], &[]), "refused 19\n");
    assert_eq!(says(&[(5, 3, 1)], &[]), "refused 19\n");
    assert_eq!(says(&[], &[(5, 3, 1)]), "refused 19\n");
    assert_eq!(says(&[(5, 3, 1)], &[(6, 3, 1)]), "refused 19\n");
    assert_eq!(says(&[(5, 1, 1)], &[(5, 1, 9)]), "refused 19\n");
    assert_eq!(of_heat(&[(5, 7, 7)]), "refused 19\n");
    assert_eq!(of_heat(&[(5, 7, 6), (6, MAX, MIN), (7, 0, 0)]), "refused 19\n");
    assert_eq!(
        of_heat(&[(5, 7, 8), (6, MAX, MIN), (7, 0, 0)]),
        "meter,used,share\n5,1,1000000\n6,-4294967295,0\n7,0,0\n"
    );
}

/// "With 4 input that isn't two tables": of any other length.
#[test]
fn of_another_length() {
    let params = Params::scope();
    let good = bytes(&[(4, 3, 1)], &[(4, 3, 2)]);
    assert_eq!(good.len(), 2 * TABLE);
    for len in [0, 1, 24, TABLE - 1, TABLE, TABLE + 1, 2 * TABLE - 24, 2 * TABLE - 1] {
        assert_eq!(printed(&params, &good[..len]), "refused 4\n", "{len} bytes");
    }
    for more in [&b"\n"[..], &[0], &[0; 24], &good[TABLE..], &good] {
        assert_eq!(printed(&params, &[&good, more].concat()), "refused 4\n", "{} bytes more", more.len());
    }
}

/// Each byte of an entry with each value, in both tables: refused with 4 exactly where the layout says so.
#[test]
fn each_byte_of_an_entry() {
    let params = Params::scope();
    let good = bytes(&[(4, 3, 0), (9, 2, 0)], &[(4, 3, 1), (9, 2, 0)]);
    for (entry, meter) in [(0, 4), (0, 9), (0, 77), (256, 4), (256, 9), (256, 77)].map(|(from, at)| (from + at, at)) {
        for at in 0..ENTRY_LEN {
            for value in 0..=255 {
                let mut other = good.clone();
                other[entry * ENTRY_LEN + at] = value;
                // A byte at an absent meter is no entry, whichever it is.
                let legal = match at {
                    _ if meter == 77 => value == 0,
                    20 => (1..=4).contains(&value),
                    21 => value < 8,
                    22 => value == 1,
                    23 => value == 0,
                    _ => true,
                };
                let said = printed(&params, &other);
                assert_eq!(said == "refused 4\n", !legal, "byte {at} of entry {entry} is {value}: {said}");
            }
        }
    }
}

/// 4 comes before 18 and 19.
#[test]
fn four_comes_first() {
    let params = Params::scope();
    let mut tables = bytes(&[(4, 3, 1)], &[(4, 1, 1)]);
    assert_eq!(printed(&params, &tables), "refused 18\n");
    tables[2 * TABLE - 1] = 1;
    assert_eq!(printed(&params, &tables), "refused 4\n");
}

/// Room is looked at where there is a text alone, and nothing is put out where it is too short; bytes behind stay.
#[test]
fn the_output() {
    let params = Params::scope();
    let said = |tables: &[u8], room: usize| {
        let mut out = vec![0xA5; room];
        let said = heat_split(&params, tables, &mut out);
        let put = said.unwrap_or(0);
        assert!(out[put..].iter().all(|&byte| byte == 0xA5));
        (said, String::from_utf8(out[..put].to_vec()).expect("it is a text"))
    };
    let good = bytes(&[(4, 3, 1)], &[(4, 3, 2)]);
    let text = "meter,used,share\n4,1,1000000\n".to_string();
    let len = text.len();
    assert_eq!(said(&good, len), (Ok(len), text.clone()));
    assert_eq!(said(&good, len + 9), (Ok(len), text));
    for room in [0, 1, len - 1] {
        assert_eq!(said(&good, room), (Err(with(3, len)), String::new()));
        assert_eq!(said(&good[1..], room), (Err(no(4)), String::new()));
        assert_eq!(said(&bytes(&[(4, 3, 1)], &[(4, 2, 1)]), room), (Err(no(18)), String::new()));
        assert_eq!(said(&bytes(&[], &[]), room), (Err(no(19)), String::new()));
    }
}

/// A table's bytes, and the table from them.
#[test]
fn a_plain_table() {
    let params = Params::scope();
    let table = table(&[(0, 3, MIN), (7, 1, -1), (255, 4, MAX)]);
    let mut out = [0xA5; TABLE + 3];
    assert_eq!(plain_table(&table, &mut out[..TABLE - 1]), Err(with(3, TABLE)));
    assert_eq!(out, [0xA5; TABLE + 3]);
    assert_eq!(plain_table(&table, &mut out), Ok(TABLE));
    assert_eq!(out[TABLE..], [0xA5; 3]);
    assert_eq!(Table::read(&params, &out[..TABLE]), Some(table));
    // Stamp, number and reading, little-endian; code, lane, present and zero.
    assert_eq!(
        out[7 * 24..8 * 24],
        [0xF8, 0xFF, 0xFF, 0xFF, 0xFF, 0xFF, 0xFF, 0xFF, 0, 0, 0, 0, 0, 7, 0, 0, 0xFF, 0xFF, 0xFF, 0xFF, 1, 7, 1, 0]
    );
    assert_eq!(out[24..48], [0; 24]);
}
