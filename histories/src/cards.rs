//! First Recover calls: what a card that kept faith hands over, the same with something changed, and a forged card.

use std::rc::Rc;

use paviluko_model::sealed::HEAD_LEN;
use paviluko_model::{Card, Model, sealed};

use crate::bytes::{an_end, any_bytes, damaged, forged_file, forged_record, head};
use crate::device::Call;
use crate::host::Host;
use crate::values::{a_transaction, file_room, transaction_of};

/// The checkpoint that a card hands over: some file of version S.
fn file_of_version(host: &mut Host, version: u64) -> Option<Rc<[u8]>> {
    if version == 0 {
        return Some(Rc::default());
    }
    host.rng.pick(&host.card.of_version(version)).cloned()
}

/// How many bytes of a torn record a card shows: none, fewer than a head, a head, more, all but one, or all.
fn shown(host: &mut Host) -> usize {
    let Host { rng, card, .. } = host;
    let len = card.begun.len();
    if len == 0 {
        return 0;
    }
    match rng.below(6) {
        0 => 0,
        1 => 1 + rng.index(HEAD_LEN - 1),
        2 => HEAD_LEN,
        3 => HEAD_LEN + 1 + rng.index(len - HEAD_LEN - 1),
        4 => len - 1,
        _ => len,
    }
}

/// Now and then a log that ends otherwise: cut off at any byte, or with more behind it.
fn ended(host: &mut Host, model: &Model, mut log: Vec<u8>) -> Rc<[u8]> {
    match host.rng.below(12) {
        0 => log.truncate(host.rng.index(log.len() + 1)),
        1..=3 => log.extend(an_end(host, model)),
        _ => {}
    }
    log.into()
}

/// What a card that kept faith hands over; an error where it has no file of the version.
pub fn faithful(host: &mut Host, version: u64) -> Result<Call, String> {
    let torn = shown(host);
    let log = host.card.log(torn).into();
    let room = file_room(&mut host.rng, &host.params, false);
    let file = file_of_version(host, version);
    let checkpoint = file.ok_or_else(|| format!("no file of version {version} on the card"))?;
    Ok(Call::Recover { checkpoint, log, room })
}

/// The same with something changed, so that it may be refused: damaged, left out, doubled, moved, old, not stored,
/// cut off.
pub fn changed(host: &mut Host, model: &Model) -> Call {
    let x = &model.vault;
    let mut checkpoint = file_of_version(host, x.s).unwrap_or_default();
    let mut records: Vec<Rc<[u8]>> = host.card.records.values().cloned().collect();
    let torn = shown(host);
    let mut tail: Rc<[u8]> = host.card.begun[..torn].into();
    for _ in 0..1 + host.rng.below(2) {
        match host.rng.below(22) {
            0 => checkpoint = host.a_file().unwrap_or(checkpoint),
            1 => checkpoint = damaged(&mut host.rng, &checkpoint),
            2 => checkpoint = Rc::default(),
            3 => checkpoint = any_bytes(host),
            4 => {
                // A file of the vault's version, put out but not stored.
                let put_out = Card { files: host.files.clone(), ..Card::default() };
                checkpoint = host.rng.pick(&put_out.of_version(x.s)).cloned().unwrap_or(checkpoint);
            }
            5 | 6 => {
                // The card as it was once.
                if let Some(card) = host.rng.pick(&host.snapshots) {
                    records = card.records.values().cloned().collect();
                    if host.rng.permille(300) {
                        checkpoint = card.files.last().cloned().unwrap_or(checkpoint);
                    }
                }
            }
            7 => records.clear(),
            8 => tail = any_bytes(host),
            9 if host.rng.permille(40) => {
                // A log that is too long.
                let len = host.params.log + 1 + host.rng.index(3);
                tail = vec![0; len].into();
            }
            // All that was ever put out, and so in each lane in rising order.
            10 => records = host.records.clone(),
            11 => {
                // Records that are passed over.
                let passed = |record: &&Rc<[u8]>| {
                    let (lane, _, number) = head(record);
                    number <= x.r[lane] || number > x.v[lane]
                };
                let passed: Vec<_> = host.records.iter().filter(passed).cloned().collect();
                for _ in 0..host.rng.below(4) {
                    if let Some(record) = host.rng.pick(&passed) {
                        records.insert(host.rng.index(records.len() + 1), Rc::clone(record));
                    }
                }
            }
            12 => records.insert(host.rng.index(records.len() + 1), any_bytes(host)),
            13 => {
                let at = host.rng.index(records.len() + 1);
                if let Some(record) = host.a_record() {
                    records.insert(at, record);
                }
            }
            // Lanes one after the other.
            14 => records.sort_by_key(|record| record.get(1).copied()),
            15 => records.reverse(),
            _ if records.is_empty() => {}
            16 => {
                records.remove(host.rng.index(records.len()));
            }
            17 => {
                let record = Rc::clone(&records[host.rng.index(records.len())]);
                records.insert(host.rng.index(records.len() + 1), record);
            }
            18 => {
                let (a, b) = (host.rng.index(records.len()), host.rng.index(records.len()));
                records.swap(a, b);
            }
            20 => {
                records.pop();
            }
            which => {
                let at = if which == 19 { host.rng.index(records.len()) } else { records.len() - 1 };
                records[at] = damaged(&mut host.rng, &records[at]);
            }
        }
    }
    records.push(tail);
    let room = file_room(&mut host.rng, &host.params, false);
    Call::Recover { checkpoint, log: ended(host, model, records.concat()), room }
}

/// A log and a checkpoint sealed with the key for this state.
pub fn forged(host: &mut Host, model: &Model) -> Call {
    let x = &model.vault;
    let checkpoint = match host.rng.below(12) {
        0 => any_bytes(host),
        2.. if x.s == 0 => Rc::default(),
        _ => forged_file(host, x.s),
    };
    let room = file_room(&mut host.rng, &host.params, false);
    if host.rng.permille(20) {
        // At the longest length: records that every log passes over.
        let Host { rng, params, cipher, .. } = host;
        let mut passed = |writes| sealed::seal_record(cipher, 0, 3, 0, &transaction_of(rng, params, writes));
        let (short, long, most) = (passed(1), passed(2), passed(params.writes));
        let mut log = short.repeat(params.log / short.len() - 1);
        while log.len() < params.log {
            log.extend(&long);
        }
        match rng.below(5) {
            0 => {
                // The last one is torn.
                log.truncate(log.len() - long.len());
                log.extend(&most[..long.len()]);
            }
            1 => {
                // Too long, by a torn one alone.
                let over = if rng.permille(300) { 1 } else { 1 + rng.index(most.len() - 1) };
                log.extend(&most[..over]);
            }
            _ => {}
        }
        return Call::Recover { checkpoint, log: log.into(), room };
    }
    // The log that is wanted, lanes mixed.
    let mut next = x.r.clone();
    let mut records: Vec<Rc<[u8]>> = Vec::new();
    let mut lanes: Vec<usize> = (0..x.r.len()).filter(|&i| next[i] < x.v[i]).collect();
    while !lanes.is_empty() && records.len() < 64 {
        let k = host.rng.index(lanes.len());
        let i = lanes[k];
        next[i] += 1;
        let text = a_transaction(&mut host.rng, &host.params).bytes();
        records.push(sealed::seal_record(&host.cipher, i as u8, x.e, next[i], &text).into());
        if next[i] >= x.v[i] {
            lanes.swap_remove(k);
        }
    }
    match host.rng.below(8) {
        0 => records.insert(host.rng.index(records.len() + 1), forged_record(host, model)),
        which @ 1..=4 if !records.is_empty() => {
            let at = host.rng.index(records.len());
            match which {
                1 => records[at] = forged_record(host, model),
                2 => records[at] = damaged(&mut host.rng, &records[at]),
                3 => {
                    records.remove(at);
                }
                _ => {
                    // Another epoch's record of the same number.
                    let (lane, epoch, number) = head(&records[at]);
                    let text = a_transaction(&mut host.rng, &host.params).bytes();
                    records[at] = sealed::seal_record(&host.cipher, lane as u8, epoch ^ 1, number, &text).into();
                }
            }
        }
        _ => {}
    }
    Call::Recover { checkpoint, log: ended(host, model, records.concat()), room }
}
