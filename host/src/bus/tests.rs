//! The look against the library, over frames drawn from a fixed seed; and what the words say.

use std::collections::BTreeMap;

use super::*;
use crate::limits::ONE_WRITE_LEN;
use crate::random::Random;

/// So many frames are drawn.
const FRAMES: usize = 300_000;

/// A frame of these L bytes, which are at most 255.
fn framed(body: &[u8]) -> Vec<u8> {
    let l = u8::try_from(body.len()).expect("at most 255 bytes");
    let sum = body.iter().fold(0, |sum: u8, byte| sum.wrapping_add(*byte));
    [&[0x68, l, l, 0x68], body, &[sum, 0x16]].concat()
}

/// C, address, CI and the header, of a medium.
fn front(medium: u8) -> Vec<u8> {
    vec![0x08, 0x02, 0x72, 0x78, 0x56, 0x34, 0x12, 0x24, 0x40, 0x01, medium, 0x55, 0x00, 0x00, 0x00]
}

/// A frame of a medium with these bytes behind the header.
fn reply(medium: u8, records: &[u8]) -> Vec<u8> {
    framed(&[&front(medium), records].concat())
}

/// Eight digits, sometimes negative, sometimes none.
fn drawn_digits(random: &mut Random) -> [u8; 4] {
    let mut data = [0; 4].map(|_: u8| (random.below(10) * 16 + random.below(10)) as u8);
    match random.below(6) {
        0 => data[3] |= 0xf0,
        1 => data[random.below(4)] = random.byte(),
        _ => {}
    }
    data
}

/// A record, or what looks like one.
fn drawn_record(random: &mut Random, body: &mut Vec<u8>) {
    match random.below(16) {
        0..=3 => {
            body.extend([0x0c, random.pick(&[0x13, 0x06])]);
            body.extend(drawn_digits(random));
            return;
        }
        4 => return body.extend(std::iter::repeat_n(FILLER, 1 + random.below(4))),
        5 if random.rarely(2) => return body.push(random.pick(&[0x0d, 0x0f, 0x1f, 0x3f, 0x8d, 0xff])),
        _ => {}
    }
    let dif = match random.below(4) {
        0 => random.byte(),
        1 => random.pick(&[0x04, 0x4c, 0x1c, 0x0b, 0x0e, 0x8c]),
        _ => random.below(13) as u8,
    };
    let vif = match random.below(4) {
        0 => random.byte(),
        1 => random.pick(&[0x13, 0x06, 0x93, 0x86, 0x14, 0x05, 0xfd, 0x6d]),
        2 if random.rarely(8) => random.pick(&[0x7c, 0xfc]),
        _ => random.below(0x7c) as u8,
    };
    for first in [dif, vif] {
        body.push(first);
        let mut last = first;
        while last & 0x80 != 0 {
            last = if random.rarely(3) { random.byte() } else { random.byte() & 0x7f };
            body.push(last);
        }
    }
    let data = data_len(dif).unwrap_or_default();
    body.extend((0..data).map(|_| if random.rarely(3) { 0x0c } else { random.byte() }));
}

/// A frame: whole, nearly whole, or no frame at all.
fn drawn(random: &mut Random) -> Vec<u8> {
    if random.rarely(50) {
        let bytes = random.below(300);
        return (0..bytes).map(|_| random.byte()).collect();
    }
    let medium = match random.below(10) {
        0 => random.byte(),
        _ => random.pick(&[0x07, 0x16, 0x06, 0x15, 0x04, 0x0c, 0x0a, 0x0b]),
    };
    let mut body = front(medium);
    body[0] = random.pick(&CONTROLS);
    body[1] = random.byte();
    let most = if random.rarely(10) { 60 } else { 6 };
    for _ in 0..random.below(most) {
        drawn_record(random, &mut body);
    }
    body.truncate(if random.rarely(10) { random.below(256) } else { 255 });
    if random.rarely(20) {
        body.resize(15 + random.below(241), FILLER);
    }
    // A byte of the L bytes, with a sum that fits; or one of the whole frame, whose sum need not fit.
    if random.rarely(20) && !body.is_empty() {
        let at = if random.rarely(2) { random.below(body.len().min(15)) } else { random.below(body.len()) };
        body[at] = random.byte();
    }
    let mut frame = framed(&body);
    match random.below(30) {
        0 => {
            let places = [0, 1, 2, 3, frame.len() - 2, frame.len() - 1, random.below(frame.len())];
            frame[places[random.below(places.len())]] = random.byte();
        }
        1 => frame.truncate(random.below(frame.len())),
        2 => frame.extend((0..1 + random.below(300)).map(|_| FILLER)),
        3 => (frame[1], frame[2]) = (frame[1].wrapping_add(1), frame[2].wrapping_add(1)),
        4 => {
            frame.pop();
        }
        _ => {}
    }
    frame
}

/// What the library says of a frame: the number, the code and the reading.
fn library(frame: &[u8]) -> (u8, u8, i32) {
    let mut out = [0xa5; ONE_WRITE_LEN + 3];
    match from_bus(frame, 0x00b7, 0x0102_0304_0506_0708, &mut out) {
        Ok(taken) => {
            assert_eq!(taken, Taken { store: None, len: ONE_WRITE_LEN });
            let [a, b, c, d] = [out[12], out[13], out[14], out[15]];
            let reading = i32::from_le_bytes([a, b, c, d]);
            assert_eq!(out[..12], [8, 7, 6, 5, 4, 3, 2, 1, 0xb7, 0, out[10], 0]);
            assert_eq!(out[ONE_WRITE_LEN..], [0xa5; 3]);
            (0, out[10], reading)
        }
        Err(Refusal { number, value }) => {
            assert_eq!((value, out), (0, [0xa5; ONE_WRITE_LEN + 3]));
            (number, 0, 0)
        }
    }
}

/// The same of a look, and the name of its reason.
fn seen(look: &Look) -> ((u8, u8, i32), String) {
    let name = match &look.end {
        End::Broken(reason) => format!("{reason:?}"),
        End::Unusable(Unusable::Absent { near, .. }) => format!("Absent{}", if near.is_some() { "Near" } else { "" }),
        End::Unusable(reason) => format!("{reason:?}"),
        End::Taken { reading, .. } => format!("Taken{}", if *reading < 0 { "Minus" } else { "" }),
    };
    let name = name.split(' ').next().unwrap_or_default().to_string();
    match look.end {
        End::Taken { code, reading, .. } => ((0, code, reading), name),
        _ => ((look.end.number(), 0, 0), name),
    }
}

/// Looks at a frame, and holds the look to the library. The name of the reason.
fn held(frame: &[u8]) -> String {
    let look = look(frame);
    let (verdict, name) = seen(&look);
    assert_eq!(verdict, library(frame), "{}", hex(frame));
    // The words of it, whatever the bytes.
    assert!(!look.end.to_string().is_empty());
    assert_eq!(look.header.is_some(), look.end.number() != 16);
    // The parts and the rest are the L bytes behind the header, without gap or overlap.
    let mut at = RECORDS;
    for part in &look.parts {
        match part {
            Part::Filler { at: place, .. } => assert_eq!(*place, at),
            Part::Record(record) => {
                assert_eq!(record.at, at);
                let _ = (record.kind(), record.measured());
            }
        }
        at = part.end();
    }
    match look.header {
        Some(_) => assert_eq!((look.rest.0, at + look.rest.1.len()), (at, frame.len() - 2)),
        None => assert_eq!(look.rest, (0, frame)),
    }
    name
}

#[test]
fn a_look_says_what_the_library_says() {
    let mut random = Random(0x5eed_0000_0b05_0001);
    let mut seen: BTreeMap<String, usize> = BTreeMap::new();
    for _ in 0..FRAMES {
        *seen.entry(held(&drawn(&mut random))).or_default() += 1;
    }
    let taken = ["Taken", "TakenMinus"];
    let broken = ["Short", "Start", "Differ", "Low", "Count", "Sum", "Stop", "Control", "Information"];
    let unusable = ["Medium", "Dif", "Vif", "Overrun", "Digit", "Absent", "AbsentNear"];
    let sum = |names: &[&str]| {
        names.iter().fold(0, |sum, name| match seen.get(*name) {
            Some(count) if *count >= 100 => sum + count,
            _ => panic!("{name}: {seen:?}"),
        })
    };
    let (taken, broken, unusable) = (sum(&taken), sum(&broken), sum(&unusable));
    assert_eq!(taken + broken + unusable, FRAMES, "{seen:?}");
    println!("{FRAMES} frames: {taken} taken, {broken} refused with 16 and {unusable} with 17, each for every reason");
}

#[test]
fn every_byte_of_a_frame_changed_to_every_other() {
    let good =
        reply(0x04, &[0x2f, 0x04, 0x13, 1, 2, 3, 4, 0x8c, 0x10, 0x86, 0x3c, 5, 6, 7, 8, 0x0c, 0x06, 9, 8, 7, 0xf6]);
    assert_eq!(library(&good), (0, 3, -6_070_809));
    for at in 0..good.len() {
        for byte in 0..=255 {
            let mut frame = good.clone();
            frame[at] = byte;
            held(&frame);
            // And with a sum that fits.
            held(&framed(&frame[BODY..good.len() - 2]));
        }
        held(&good[..at]);
    }
}

#[test]
fn what_from_bus_refuses_first() {
    let good = reply(0x07, &[0x0c, 0x13, 0x34, 0x12, 0, 0]);
    let refused = |frame: &[u8], meter, room: usize| {
        let mut out = vec![0xa5; room];
        let answer = from_bus(frame, meter, 7, &mut out).map_err(|Refusal { number, value }| (number, value));
        (answer.err(), out.iter().all(|byte| *byte == 0xa5))
    };
    assert_eq!(refused(&[], 256, 15), (Some((3, 16)), true));
    assert_eq!(refused(&good, 5, 0), (Some((3, 16)), true));
    assert_eq!(refused(&[], 256, 16), (Some((4, 0)), true));
    assert_eq!(refused(&good, u16::MAX, 16), (Some((4, 0)), true));
    assert_eq!(refused(&[], 255, 16), (Some((16, 0)), true));
    assert_eq!(refused(&reply(0x03, &[]), 255, 16), (Some((17, 0)), true));
    assert_eq!(refused(&good, 255, 16), (None, false));
}

/// Why there is no reading.
fn why(frame: &[u8]) -> String {
    held(frame);
    look(frame).end.to_string()
}

#[test]
fn reasons_in_words() {
    let good = reply(0x07, &[0x0c, 0x13, 0x34, 0x12, 0, 0]);
    let but = |at: usize, byte: u8| {
        let mut frame = good.clone();
        frame[at] = byte;
        why(&frame)
    };
    let last = good.len() - 1;
    assert_eq!(why(&[]), "there are no bytes");
    assert_eq!(why(&good[..3]), "the bytes end before the fourth: here are 3");
    assert!(why(&[0xe5]).contains("acknowledged") && why(&[0x10, 0x5b, 2, 0x5d, 0x16]).contains("short frame"));
    assert!(why(b"68 1F").contains("hexadecimal digits"));
    assert_eq!(but(3, 0x69), "byte 3 is 69 and not 68");
    assert_eq!(but(2, 0x16), "the two L are not alike: 15 and 16");
    assert_eq!(why(&framed(&front(7)[..14])), "L is 14, and a reply with a fixed header has 15 or more");
    assert_eq!(why(&good[..last]), "L is 21, so that the frame has 27 bytes, and here are 26");
    let long = [&good[..], &[0; 300]].concat();
    assert_eq!(why(&long), "L is 21, so that the frame has 27 bytes, and here are more than 261");
    assert_eq!(but(last - 1, 0), "the sum of the L bytes is B6, and behind them stands 00");
    assert_eq!(but(last, 0x17), "the last byte is 17 and not 16");
    let mut body = good[BODY..last - 1].to_vec();
    body[0] = 0x5b;
    assert_eq!(
        why(&framed(&body)),
        "C is 5B, and that of a reply is 08, 18, 28 or 38: this is what was sent to the meter"
    );
    (body[0], body[2]) = (0x38, 0x73);
    assert_eq!(why(&framed(&body)), "CI is 73 and not 72");
    assert_eq!(why(&reply(0x03, &[])), "the medium is 03 (gas), and none of 07, 16, 06, 15, 04, 0C, 0A and 0B");
    let own = "the DIF 0F at byte 20 ends the search: behind it stand the manufacturer's own data";
    assert_eq!(why(&reply(0x07, &[0x2f, 0x0f, 1])), own);
    assert_eq!(
        why(&reply(0x07, &[0x0d, 0x13])),
        "the DIF 0D at byte 19 ends the search: it says no length of its data"
    );
    assert_eq!(why(&reply(0x07, &[0x01, 0xfc, 0, 1])), "the VIF FC at byte 20 ends the search: its unit is a text");
    let overrun = "the record at byte 19 does not end within the L bytes, the last of which is byte 22";
    for records in
        [&[0x84, 0x80, 0x80, 0x80], &[0x04, 0x93, 0x93, 0x93], &[0x04, 0x13, 0, 0], &[0x80, 0x80, 0x80, 0x00]]
    {
        assert_eq!(why(&reply(0x07, records)), overrun);
    }
    let digit = "byte 23, in the record that would be taken, is 1A: no two digits";
    assert_eq!(why(&reply(0x07, &[0x0c, 0x13, 0, 0, 0x1a, 0])), digit);
}

#[test]
fn the_nearest_record_is_named() {
    let absent = |medium: u8, records: &[u8]| {
        let said = why(&reply(medium, records));
        let rest = said.strip_prefix("no record has DIF 0C (8 digits) and VIF ").expect("absent").to_string();
        rest.split_once("; nearest is the one ").map_or(rest.clone(), |(_, near)| near.to_string())
    };
    assert_eq!(absent(0x16, &[]), "13 (litres)");
    assert_eq!(absent(0x0c, &[0x0c, 0x78, 1, 2, 3, 4]), "06 (kWh)");
    let last_year = [0x4c, 0x13, 1, 0, 0, 0];
    let integer = [0x04, 0x13, 0xff, 0xff, 0xff, 0xff];
    assert_eq!(absent(0x07, &last_year), "at byte 19: DIF 4C (8 digits, storage 1), VIF 13 (volume 1 l)");
    let both = [&last_year[..], &integer].concat();
    assert_eq!(absent(0x07, &both), "at byte 25: DIF 04 (32-bit integer), VIF 13 (volume -1 l)");
    let cubic = [0x0c, 0x16, 0x12, 0, 0, 0];
    assert_eq!(absent(0x07, &cubic), "at byte 19: DIF 0C (8 digits), VIF 16 (volume 12000 l)");
    assert_eq!(absent(0x04, &cubic), "06 (kWh)");
    let litres = [0x0c, 0x13, 0x12, 0, 0, 0];
    assert_eq!(absent(0x04, &litres), "at byte 19: DIF 0C (8 digits), VIF 13 (volume 12 l)");
    let joules = [0x0c, 0x0e, 0x12, 0, 0, 0];
    let near = absent(0x04, &[&litres[..], &joules].concat());
    assert_eq!(near, "at byte 25: DIF 0C (8 digits), VIF 0E (energy 12 MJ)");
    let extended = [0x9c, 0x10, 0x86, 0x3c, 0x12, 0, 0, 0xf0];
    let near = absent(0x04, &extended);
    assert_eq!(near, "at byte 19: DIF 9C 10 (8 digits, maximum, tariff 1), VIF 86 3C (energy -12 kWh)");
}

/// The example of a reply in the description of the bus: a water meter, with integers and four or six digits.
#[test]
fn a_reply_of_a_water_meter() {
    let front = [0x68, 0x1f, 0x1f, 0x68, 0x08, 0x02, 0x72];
    let header = [0x78, 0x56, 0x34, 0x12, 0x24, 0x40, 0x01, 0x07, 0x55, 0x00, 0x00, 0x00];
    let records = [0x03, 0x13, 0x15, 0x31, 0x00, 0xda, 0x02, 0x3b, 0x13, 0x01, 0x8b, 0x60, 0x04, 0x37, 0x18, 0x02];
    let frame = [&front[..], &header, &records, &[0x18, 0x16]].concat();
    let look = look(&frame);
    let header = look.header.expect("whole");
    assert_eq!((header.identification(), header.manufacturer()), ("12345678".to_string(), "PAD".to_string()));
    assert_eq!((header.address, header.version, header.medium, header.access), (2, 1, 7, 0x55));
    let records: Vec<String> = look
        .parts
        .iter()
        .map(|part| match part {
            Part::Record(record) => format!("{} {} {:?}", record.at, record.kind(), record.measured()),
            Part::Filler { .. } => panic!("no filler"),
        })
        .collect();
    assert_eq!(
        records,
        [
            "19 24-bit integer (\"volume\", \"12565 l\")",
            "24 4 digits, maximum, storage 5 (\"volume flow\", \"113 l/h\")",
            "29 6 digits, tariff 2, subunit 1 (\"energy\", \"218.37 kWh\")",
        ]
    );
    let near = "no record has DIF 0C (8 digits) and VIF 13 (litres); \
                nearest is the one at byte 19: DIF 03 (24-bit integer), VIF 13 (volume 12565 l)";
    assert_eq!(why(&frame), near);
}

#[test]
fn names_and_numbers() {
    assert_eq!(names::scaled(-5, -3), "-0.005");
    assert_eq!(names::scaled(1234, -2), "12.34");
    assert_eq!(
        [names::scaled(0, 3), names::scaled(7, 3), names::scaled(i64::MIN, 0)],
        ["0", "7000", "-9223372036854775808"]
    );
    assert_eq!(digits(&[0x34, 0x12, 0x00, 0xf5]), Ok(-5_001_234));
    assert_eq!(digits(&[0x99; 6]), Ok(999_999_999_999));
    assert_eq!([digits(&[0xf0, 0x00]), digits(&[0x0f])], [Err((0, 0xf0)), Err((0, 0x0f))]);
    assert_eq!(digits(&[0xf1]), Ok(-1));
    assert_eq!(status_words(0), Vec::<&str>::new());
    assert_eq!(status_words(0x06), ["application error", "power low"]);
    let mut odd = header(&front(7));
    (odd.manufacturer, odd.identification) = (0xffff, [0xef, 0, 0, 1]);
    assert_eq!((odd.manufacturer(), odd.identification()), ("FFFF".to_string(), "010000EF".to_string()));
    let date = Record { at: 0, dif: &[0x02], vif: &[0x6c], data: &[1, 2] };
    assert_eq!(date.measured(), ("date", String::new()));
    let long = Record { at: 0, dif: &[0xff; 200], vif: &[0xff; 200], data: &[] };
    assert!(!long.kind().is_empty() && long.measured().0 == "manufacturer's own");
}
