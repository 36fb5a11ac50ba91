//! No bit of a record or a checkpoint can be turned over: what was put out opens, and with one bit changed it does not. Of a record
//! at the end of a log, a greater n that is legal makes a torn one: that is passed over, and missed where it is visible.

use paviluko_host::{Collector, FILE_LEN, Numbers, Refusal, Store};

const KEY: [u8; 16] = *b"sixteen of bytes";

/// 9, at the first byte.
const CLOSED: Refusal = Refusal { number: 9, value: 0 };
/// 13, of the lane that is used here.
const MISSING: Refusal = Refusal { number: 13, value: 3 };

/// A transaction with so many writes.
fn transaction(writes: u8) -> Vec<u8> {
    let mut out = vec![100, 0, 0, 0, 0, 0, 0, 0];
    for meter in 0..writes {
        out.extend([meter, 0, 1, 0, 7, 0, 0, 0]);
    }
    out
}

/// A collector in service, from a new vault.
fn in_service() -> Collector {
    let mut collector = Collector::load(&Numbers::default(), &KEY).expect("taken");
    let mut out = [0; FILE_LEN];
    while collector.recover(&[], &[], &mut out).expect("taken").store != Some(Store::Empty) {}
    collector
}

/// Records of the shortest and the longest length, in Commit, and in a log at its start, at its end, and both.
#[test]
fn records() {
    for (writes, longer) in [(1, vec![24, 48, 80]), (16, vec![])] {
        let mut c = in_service();
        c.accept(&transaction(writes), 3, 10).expect("taken");
        let mut out = [0; 176];
        let len = c.seal(&mut out).expect("taken").len;
        let record = &mut out[..len];
        let whole = record.to_vec();
        // Cold, the record not visible: it is passed over where it opens. And visible: it is read.
        let mut numbers = Numbers::default();
        numbers.w[3] = 1;
        let cold = |numbers| Collector::load(&numbers, &KEY).expect("taken");
        let open = cold(numbers);
        numbers.v[3] = 1;
        let visible = cold(numbers);
        let recover = |cold: &Collector, log: &[u8]| cold.clone().recover(&[], log, &mut []).map(|_| ());
        assert_eq!([recover(&open, record), recover(&visible, record)], [Ok(()); 2]);
        let mut torn = Vec::new();
        for bit in 0..len * 8 {
            record[bit / 8] ^= 1 << (bit % 8);
            assert_eq!(c.commit(record), Err(CLOSED), "bit {bit}");
            // With as much behind it as the longest record has it is none, whatever its head says.
            let behind = [record, &whole.repeat(4)[..]].concat();
            assert_eq!([recover(&open, &behind), recover(&visible, &behind)], [Err(CLOSED); 2], "bit {bit}");
            match [recover(&open, record), recover(&visible, record)] {
                [Ok(()), Err(MISSING)] => torn.push(u16::from_le_bytes([record[2], record[3]])),
                said => assert_eq!(said, [Err(CLOSED); 2], "bit {bit}"),
            }
            record[bit / 8] ^= 1 << (bit % 8);
        }
        torn.sort_unstable();
        assert_eq!(torn, longer);
        for short in 0..len {
            assert_eq!(c.commit(&record[..short]), Err(CLOSED), "{short} bytes");
            assert_eq!(recover(&open, &record[..short]), Ok(()), "{short} bytes");
            assert_eq!(recover(&visible, &record[..short]), Err(MISSING), "{short} bytes");
        }
        assert!(c.commit(record).is_ok());
    }
}

/// A checkpoint: every bit of head, tag and trailer, and one of every byte of the ciphertext.
#[test]
fn checkpoint() {
    let mut c = in_service();
    let mut file = [0; FILE_LEN];
    c.checkpoint(&mut file).expect("taken");
    c.checkpoint(&mut file).expect("taken");
    c.checkpoint(&mut []).expect("taken");
    let cold = Collector::load(&c.numbers(), &KEY).expect("taken");
    assert!(cold.clone().recover(&file, &[], &mut []).is_ok());
    for bit in 0..FILE_LEN * 8 {
        let at = bit / 8;
        let text = (20..FILE_LEN - 20).contains(&at);
        if !text || bit % 8 == at % 8 {
            file[at] ^= 1 << (bit % 8);
            assert_eq!(cold.clone().recover(&file, &[], &mut []), Err(CLOSED), "bit {bit}");
            file[at] ^= 1 << (bit % 8);
        }
    }
}
