//! Rust's declarations against the library: sizes and offsets are asserted where they are declared; here a collector goes
//! from Load to a recovery, and what the library says of a state is what stands in its fields.

use paviluko_host::{
    Collector, Due, ENTRY_LEN, FILE_LEN, HEAT_TEXT_LEN, LANES, METERS, Numbers, Phase, RECORD_LEN, Refusal, Store,
    TABLE_LEN, Taken, ffi, heat_split,
};

const KEY: [u8; 16] = *b"sixteen of bytes";

/// A transaction: a stamp, and a meter, a code and a reading for each write.
fn transaction(stamp: u64, writes: &[(u16, u8, i32)]) -> Vec<u8> {
    let mut out = stamp.to_le_bytes().to_vec();
    for &(meter, code, reading) in writes {
        out.extend(meter.to_le_bytes());
        out.extend([code, 0]);
        out.extend(reading.to_le_bytes());
    }
    out
}

/// A state's table in plain, field by field from the state.
fn plain(state: &ffi::State) -> Vec<u8> {
    let entry = |e: &ffi::Entry| {
        let mut bytes = [e.stamp.to_le_bytes(), e.number.to_le_bytes()].concat();
        bytes.extend(e.reading.to_le_bytes());
        bytes.extend([e.code, e.lane, e.present, 0]);
        bytes
    };
    state.table.entries.iter().flat_map(entry).collect()
}

/// What the library says of a state is what stands there.
fn agrees(collector: &Collector) {
    let state = collector.state();
    assert_eq!(collector.numbers(), state.vault);
    assert_eq!(collector.records(), state.journal.count as u64);
    assert_eq!(collector.points(), state.points.count as u64);
    assert_eq!(Some(collector.due()), Due::of(&state.due));
    assert_eq!(collector.phase() as u8, state.phase);
    assert_eq!(state.key, KEY);
    for meter in 0..METERS {
        let entry = &state.table.entries[meter];
        match collector.reading(meter as u8) {
            None => assert_eq!(*entry, ffi::Entry::default()),
            Some(reading) => assert_eq!(*entry, ffi::Entry::from(reading)),
        }
    }
    let mut out = [165; TABLE_LEN + 3];
    assert_eq!(collector.plain_table(&mut out), Ok(Taken { store: None, len: TABLE_LEN }));
    assert_eq!((&out[..TABLE_LEN], &out[TABLE_LEN..]), (&plain(state)[..], &[165; 3][..]));
}

/// The store that a taken call names; the state agrees behind it.
fn named(collector: &Collector, said: Result<Taken, Refusal>) -> Option<Store> {
    agrees(collector);
    said.expect("taken").store
}

/// A collector in service, and the vault's numbers then.
fn in_service(out: &mut [u8]) -> Collector {
    let mut collector = Collector::load(&Numbers::default(), &KEY).expect("taken");
    agrees(&collector);
    assert_eq!(collector.phase(), Phase::Cold);
    let mut calls = 0;
    loop {
        let said = collector.recover(&[], &[], out);
        calls += 1;
        if named(&collector, said) == Some(Store::Empty) {
            break;
        }
        assert_eq!(collector.phase(), Phase::Recovering);
    }
    assert_eq!(calls, 15);
    assert_eq!(collector.phase(), Phase::InService);
    collector
}

#[test]
fn from_load_to_recovery() {
    let mut out = [0; FILE_LEN];
    let mut c = in_service(&mut out);
    assert_eq!(c.numbers(), Numbers { s: 2, n: 2, ..Numbers::default() });

    // Lane 3 at position 10, lane 7 at 4,000,000,000.
    let mut records = Vec::new();
    for (lane, position, reading) in [(3, 10, -5), (7, 4_000_000_000, i32::MIN)] {
        let text = transaction(100 + u64::from(lane), &[(1, 2, reading), (255, 4, 7)]);
        let said = c.accept(&text, lane, position);
        assert_eq!(named(&c, said), Some(Store::W { lane, value: 1 }));
        assert_eq!(c.due(), Due::Record);
        let held = &c.state().held;
        assert_eq!((&held.text[..held.len], held.lane, held.position), (&text[..], lane, position));
        assert_eq!(c.seal(&mut out[..63]), Err(Refusal { number: 3, value: 64 }));
        let said = c.seal(&mut out[..RECORD_LEN]);
        assert_eq!(said, Ok(Taken { store: Some(Store::Record { position }), len: 64 }));
        agrees(&c);
        records.push(out[..64].to_vec());
    }
    let journal = &c.state().journal;
    assert_eq!((journal.count, journal.used, journal.last), (2, 1, 4_000_000_000));
    assert_eq!((journal.positions[0], journal.positions[1]), (10, 4_000_000_000));
    assert_eq!((journal.lanes[0], journal.lanes[1]), (3, 7));

    assert_eq!(c.point(11), Err(Refusal { number: 15, value: 0 }));
    for (record, lane) in records.iter().zip([3, 7]) {
        let said = c.commit(record);
        assert_eq!(named(&c, said), Some(Store::V { lane, value: 1 }));
    }
    assert_eq!(c.commit(&records[0]), Err(Refusal { number: 11, value: 0 }));
    let reading = c.reading(1).expect("a reading");
    assert_eq!((reading.stamp, reading.lane, reading.number), (107, 7, 1));
    assert_eq!((reading.code, reading.reading), (2, i32::MIN));
    assert_eq!(c.readings().iter().map(|(meter, _)| *meter).collect::<Vec<_>>(), [1, 255]);

    // A point between the two, covered and truncated at.
    let said = c.point(11);
    assert_eq!(named(&c, said), None);
    let points = c.state().points;
    let mut counts = [0; LANES];
    counts[3] = 1;
    assert_eq!((points.count, points.any, points.newest), (1, 1, 11));
    assert_eq!(points.items[0], ffi::PointItem { position: 11, counts, covered: 0 });
    assert_eq!((c.records(), c.points()), (1, 1));
    assert_eq!(c.truncate(11), Err(Refusal { number: 14, value: 0 }));
    for store in [Store::N { value: 3 }, Store::Checkpoint, Store::S { value: 3 }] {
        let said = c.checkpoint(&mut out);
        assert_eq!(named(&c, said), Some(store));
    }
    assert_eq!(c.state().points.items[0].covered, 1);
    let file = out;
    for lane in 0..LANES as u8 {
        let value = u64::from(lane == 3);
        let said = c.truncate(11);
        assert_eq!(named(&c, said), Some(Store::R { lane, value }));
        let next = match lane {
            7 => Due::TruncateDelete { position: 11 },
            _ => Due::TruncateR { lane: lane + 1, position: 11 },
        };
        assert_eq!(c.due(), next);
    }
    let said = c.truncate(11);
    assert_eq!(named(&c, said), Some(Store::Delete { below: 11 }));
    let numbers = c.numbers();
    assert_eq!((numbers.w[3], numbers.v[3], numbers.r[3]), (1, 1, 1));
    assert_eq!((numbers.w[7], numbers.v[7], numbers.r[7]), (1, 1, 0));
    assert_eq!((numbers.e, numbers.s, numbers.n), (0, 3, 3));

    // A cut, and the recovery from the file and the record that is left.
    let shown = c.readings();
    let mut c = Collector::load(&numbers, &KEY).expect("taken");
    assert_eq!(c.recover(&file, &[], &mut []), Err(Refusal { number: 13, value: 7 }));
    let said = c.recover(&file, &records[1], &mut []);
    assert_eq!(named(&c, said), Some(Store::N { value: 4 }));
    assert_eq!(c.readings(), shown);
    assert_eq!(c.due(), Due::RecoverFile { second: false });
}

/// The state that a refused Load hands back is of no use: every call on it is refused with 1, and changes nothing.
#[test]
fn a_refused_load() {
    let mut numbers = Numbers::default();
    numbers.v[2] = 1;
    assert_eq!(Collector::load(&numbers, &KEY).err(), Some(Refusal { number: 2, value: 0 }));
    assert_eq!(Collector::load(&Numbers::default(), &KEY[1..]).err(), Some(Refusal { number: 3, value: 16 }));
    assert_eq!(Collector::load(&Numbers::default(), &[]).err(), Some(Refusal { number: 3, value: 16 }));

    // SAFETY: the key's bytes are read for its length alone.
    let blank = unsafe { ffi::paviluko_load(numbers, KEY.as_ptr(), KEY.len()) }.state;
    let mut out = [165; FILE_LEN];
    let mut c = Collector::from_state(&blank);
    let text = transaction(1, &[(1, 1, 1)]);
    let answers = [
        c.accept(&text, 0, 10),
        c.seal(&mut out),
        c.commit(&out),
        c.point(10),
        c.checkpoint(&mut out),
        c.truncate(10),
        c.recover(&[], &[], &mut out),
    ];
    assert_eq!(answers, [Err(Refusal { number: 1, value: 0 }); 7]);
    assert_eq!(*c.state(), blank);
    assert_eq!(out, [165; FILE_LEN]);
}

/// The table in plain at the start and at the end of a year, and their split: as 02 has it.
#[test]
fn a_year_s_heat() {
    let mut out = [0; FILE_LEN];
    let mut c = in_service(&mut out);
    let mut tables = Vec::new();
    for (year, readings) in [[10, 10, 5, 10], [11, 11, 3, 11]].iter().enumerate() {
        let writes: Vec<(u16, u8, i32)> = [4, 9, 12, 200].into_iter().zip(readings).map(|(m, r)| (m, 3, *r)).collect();
        let (number, position) = (year as u64 + 1, year as u64 * 10);
        let said = c.accept(&transaction(100 + number, &writes), 0, position);
        assert_eq!(named(&c, said), Some(Store::W { lane: 0, value: number }));
        let record = c.seal(&mut out).map(|taken| out[..taken.len].to_vec()).expect("sealed");
        let said = c.commit(&record);
        assert_eq!(named(&c, said), Some(Store::V { lane: 0, value: number }));
        let mut table = [165; TABLE_LEN];
        assert_eq!(c.plain_table(&mut table[1..]), Err(Refusal { number: 3, value: TABLE_LEN as u64 }));
        assert_eq!(table, [165; TABLE_LEN]);
        assert_eq!(c.plain_table(&mut table), Ok(Taken { store: None, len: TABLE_LEN }));
        tables.extend(table);
    }
    let text = "meter,used,share\n4,1,333334\n9,1,333333\n12,-2,0\n200,1,333333\n";
    let mut said = [165; HEAT_TEXT_LEN];
    assert_eq!(heat_split(&tables, &mut said), Ok(Taken { store: None, len: text.len() }));
    assert_eq!(&said[..text.len()], text.as_bytes());
    assert!(said[text.len()..].iter().all(|byte| *byte == 165));

    // Each refusal is its number alone, and leaves the output.
    let mut said = [165; HEAT_TEXT_LEN];
    let mut refused = |tables: &[u8], number: u8| {
        assert_eq!(heat_split(tables, &mut said), Err(Refusal { number, value: 0 }));
        assert_eq!(said, [165; HEAT_TEXT_LEN]);
    };
    refused(&tables[1..], 4);
    refused(&[], 4);
    refused(&[&tables[..TABLE_LEN], &tables[..TABLE_LEN]].concat(), 19);
    let mut changed = tables.clone();
    changed[9 * ENTRY_LEN + 20] = 1;
    refused(&changed, 18);
    changed[TABLE_LEN + 12 * ENTRY_LEN + 20] = 5;
    refused(&changed, 4);
    assert_eq!(heat_split(&tables, &mut said[..text.len() - 1]), Err(Refusal { number: 3, value: text.len() as u64 }));
    assert_eq!(said, [165; HEAT_TEXT_LEN]);
}
