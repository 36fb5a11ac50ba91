//! Bytes for Commit and Recover: records and files that are damaged, another collector's, or forged with the key.

use std::rc::Rc;

use paviluko_model::sealed::{AROUND, HEAD_LEN};
use paviluko_model::table::number_at;
use paviluko_model::{Model, Transaction, sealed};

use crate::host::Host;
use crate::rng::Rng;
use crate::values::{a_table, a_transaction, lane, no_transaction};

/// Lane, epoch and number in a record's head.
pub fn head(record: &[u8]) -> (usize, u64, u64) {
    (usize::from(record[1]), number_at(record, 4, 8), number_at(record, 12, 8))
}

/// Turns over a bit.
fn flip(rng: &mut Rng, bytes: &mut [u8]) {
    let at = rng.index(bytes.len());
    bytes[at] ^= 1 << rng.below(8);
}

/// Turns over a bit of so many last bytes.
fn flip_last(rng: &mut Rng, bytes: &mut [u8], last: usize) {
    let at = bytes.len() - 1 - rng.index(last);
    bytes[at] ^= 1 << rng.below(8);
}

/// Bytes with a bit turned over, or cut short, or longer.
pub fn damaged(rng: &mut Rng, bytes: &[u8]) -> Rc<[u8]> {
    if bytes.is_empty() {
        return Rc::default();
    }
    let mut bytes = bytes.to_vec();
    let few = bytes.len().min(20);
    match rng.below(7) {
        0 => bytes.truncate(bytes.len() - 1),
        1 => bytes.truncate(rng.index(bytes.len())),
        2 => bytes.push(0),
        3 => flip(rng, &mut bytes[..few]),
        4 => flip_last(rng, &mut bytes, few),
        _ => flip(rng, &mut bytes),
    }
    bytes.into()
}

/// Bytes that do not open: none, random ones, a head and zeros, another collector's record, a checkpoint.
pub fn any_bytes(host: &mut Host) -> Rc<[u8]> {
    let Host { rng, params, other, .. } = host;
    match rng.below(5) {
        0 => Rc::default(),
        1 => rng.bytes_below(200).into(),
        2 => [&sealed::record_head(0, 16, 0, 1)[..], &[0; 32], &[56, 0, 0, 0]].concat().into(),
        3 => {
            let text = a_transaction(rng, params).bytes();
            sealed::seal_record(other, lane(rng, params), rng.below(2), 1 + rng.below(5), &text).into()
        }
        _ => host.a_file().unwrap_or_else(|| Rc::from([2, 0, 0, 0])),
    }
}

/// What may stand at the end of a log and does not open: fewer bytes than a head, the beginning of a record, or a head
/// of any epoch and number with bytes behind it, now and then of a kind, a lane or an n that is not legal.
pub fn an_end(host: &mut Host, model: &Model) -> Vec<u8> {
    match host.rng.below(8) {
        0 => return host.rng.bytes_below(HEAD_LEN),
        1 | 2 => {
            let record = if host.bound() { host.a_record() } else { Some(forged_record(host, model)) };
            if let Some(record) = record {
                let len = if host.rng.permille(300) { record.len() - 1 } else { host.rng.index(record.len()) };
                return record[..len].to_vec();
            }
        }
        _ => {}
    }
    let Host { rng, params, .. } = host;
    let n = Transaction::len_of(1 + rng.index(params.writes));
    let mut bytes = sealed::record_head(lane(rng, params), n, rng.any(), rng.any()).to_vec();
    match rng.below(6) {
        0 => bytes[0] = *rng.pick(&[0, 2, 3, 255]).unwrap_or(&0),
        1 => bytes[1] = *rng.pick(&[8, 8, 9, 255]).unwrap_or(&8),
        2 => {
            // Some would be legal in one byte, or are small again in two with 40 more.
            let n = *rng.pick(&[0, 8, 15, 17, 137, 144, 272, 65_496, 65_512, 65_535_u16]).unwrap_or(&0);
            bytes[2..4].copy_from_slice(&n.to_le_bytes());
        }
        _ => {}
    }
    let len = match rng.below(5) {
        0 => HEAD_LEN,
        1 => n + AROUND - 1,
        2 => n + AROUND,
        _ => HEAD_LEN + rng.index(n + AROUND - HEAD_LEN),
    };
    bytes.extend(rng.bytes(len - HEAD_LEN));
    bytes
}

/// A record sealed with the key: mostly the next one of a lane, with something about it changed.
pub fn forged_record(host: &mut Host, model: &Model) -> Rc<[u8]> {
    let Host { rng, params, cipher, .. } = host;
    let x = &model.vault;
    let lane = lane(rng, params);
    let i = usize::from(lane);
    let from = if rng.permille(500) { x.v[i] } else { x.r[i] };
    let number = match rng.below(8) {
        0 => rng.any(),
        1 => from,
        2 => from.saturating_add(2),
        3 => 0,
        _ => from.saturating_add(1),
    };
    let epoch = match rng.below(6) {
        0 => x.e.wrapping_add(1),
        1 => x.e.wrapping_sub(1),
        _ => x.e,
    };
    let mut text = a_transaction(rng, params).bytes();
    let changed = rng.below(10);
    if changed == 0 {
        text = no_transaction(rng, params);
    }
    let mut head = sealed::record_head(lane, text.len(), epoch, number);
    let mut nonce = sealed::record_nonce(lane, number);
    match changed {
        1 => {
            // A kind, a lane or an n that is not right, under the tag.
            match rng.below(4) {
                0 => head[0] = *rng.pick(&[0, 2, 3, 255]).unwrap_or(&0),
                1 => head[1] = *rng.pick(&[8, 8, 9, 255]).unwrap_or(&8),
                2 => head[2] ^= 1 << rng.below(8),
                _ => head[3] ^= 1 << rng.below(8),
            }
            nonce = sealed::record_nonce(head[1], number);
        }
        // One that is not the head's.
        2 => nonce = sealed::record_nonce(lane, number.wrapping_add(1)),
        _ => {}
    }
    let mut bytes = sealed::frame(cipher, &head, &nonce, &text);
    if changed == 3 {
        // The trailer.
        flip_last(rng, &mut bytes, 4);
    }
    bytes.into()
}

/// A checkpoint sealed with the key, now and then with something about it changed.
pub fn forged_file(host: &mut Host, version: u64) -> Rc<[u8]> {
    let Host { rng, params, cipher, .. } = host;
    let table = a_table(rng, params);
    let seal = rng.below(1 << 50);
    let mut text = table.text();
    let mut head = sealed::file_head(version, seal);
    let mut nonce = sealed::file_nonce(seal);
    let changed = rng.below(16);
    match changed {
        0 => head = sealed::file_head(version ^ 1, seal),
        1 => flip(rng, &mut head[..4]),
        2 => nonce = sealed::file_nonce(version),
        3 => text.truncate(rng.index(text.len())),
        4 => text.extend([0; 24]),
        5 | 6 => {
            // A byte of an entry's code, lane, present or zero.
            let with: Vec<usize> = (0..params.meters).filter(|&i| table.entries[i].is_some()).collect();
            let meter = rng.pick(&with).copied().unwrap_or(3);
            let at = 24 * meter + 20 + rng.index(4);
            text[at] = rng.below(12) as u8;
        }
        7 => flip(rng, &mut text),
        _ => {}
    }
    let mut bytes = sealed::frame(cipher, &head, &nonce, &text);
    if changed == 8 {
        // The trailer.
        flip_last(rng, &mut bytes, 4);
    }
    bytes.into()
}
