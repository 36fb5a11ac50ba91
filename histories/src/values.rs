//! What calls and handed states are made of: lanes, transactions, tables, vault numbers, room for a file.

use paviluko_model::{Entry, Params, Table, Transaction, Vault, Write, sealed};

use crate::rng::Rng;

/// A lane.
pub fn lane(rng: &mut Rng, params: &Params) -> u8 {
    rng.below(params.lanes as u64) as u8
}

/// A meter, so many times in a thousand one of the first six.
pub fn a_meter(rng: &mut Rng, params: &Params, times: u64) -> usize {
    if rng.permille(times) { rng.index(6) } else { rng.index(params.meters) }
}

fn a_write(rng: &mut Rng, meter: usize) -> Write {
    Write { meter, code: 1 + rng.below(4) as u8, reading: rng.any() as u32 as i32 }
}

/// A stamp, mostly one of few.
pub fn a_stamp(rng: &mut Rng) -> u64 {
    match rng.below(20) {
        0 => 0,
        1 => u64::MAX - rng.below(2),
        2 => rng.any(),
        _ => 100 + rng.below(4),
    }
}

/// A transaction in its layout: few stamps and meters, so that writes meet.
pub fn a_transaction(rng: &mut Rng, params: &Params) -> Transaction {
    let stamp = a_stamp(rng);
    let count = match rng.below(10) {
        0 => params.writes,
        1 | 2 => 1 + rng.index(params.writes),
        _ => 1 + rng.index(3),
    };
    let mut meters: Vec<usize> = (0..count * 2).map(|_| a_meter(rng, params, 700)).collect();
    meters.sort_unstable();
    meters.dedup();
    meters.truncate(count);
    Transaction { stamp, writes: meters.into_iter().map(|meter| a_write(rng, meter)).collect() }
}

/// One of so many writes.
pub fn transaction_of(rng: &mut Rng, params: &Params, count: usize) -> Vec<u8> {
    let first = rng.index(params.meters - count + 1);
    let writes = (first..first + count).map(|meter| a_write(rng, meter)).collect();
    Transaction { stamp: 100 + rng.below(50), writes }.bytes()
}

/// Bytes that are not in the layout of a transaction.
pub fn no_transaction(rng: &mut Rng, params: &Params) -> Vec<u8> {
    let mut bytes = a_transaction(rng, params).bytes();
    let writes = (bytes.len() - 8) / 8;
    let at = 8 + 8 * rng.index(writes);
    match rng.below(10) {
        0 => bytes.clear(),
        1 => bytes.truncate(8),
        2 => bytes.truncate(bytes.len() - 1 - rng.index(7)),
        3 => bytes.push(0),
        4 => bytes = transaction_of(rng, params, params.writes + 1),
        5 if rng.permille(500) => {
            // The first meter that there is not.
            let last = bytes.len() - 8;
            bytes[last..last + 2].copy_from_slice(&(params.meters as u16).to_le_bytes());
        }
        5 => bytes[at + 1] = 1 + rng.below(255) as u8,
        6 => bytes[at + 2] = if rng.permille(500) { 0 } else { 5 + rng.below(251) as u8 },
        7 => bytes[at + 3] = 1 + rng.below(255) as u8,
        8 => {
            bytes = transaction_of(rng, params, 2);
            bytes[16] = if rng.permille(500) { bytes[8] } else { bytes[8].saturating_sub(1) };
        }
        _ => bytes = rng.bytes_below(300),
    }
    bytes
}

/// A table with some readings.
pub fn a_table(rng: &mut Rng, params: &Params) -> Table {
    let mut table = Table::empty(params);
    for _ in 0..rng.below(10) {
        let meter = a_meter(rng, params, 600);
        table.entries[meter] = Some(Entry {
            stamp: if rng.permille(100) { rng.any() } else { 100 + rng.below(4) },
            number: if rng.permille(100) { rng.any() } else { rng.below(10) },
            reading: rng.any() as u32 as i32,
            code: 1 + rng.below(4) as u8,
            lane: lane(rng, params),
        });
    }
    table
}

/// Numbers of all sorts, most of them within Load's rule.
pub fn any_vault(rng: &mut Rng, params: &Params) -> Vault {
    let mut vault = Vault::new(params);
    let max = params.counter;
    for i in 0..params.lanes {
        let w = match rng.below(8) {
            0 => max - rng.below(3),
            1 => 0,
            2 => rng.below(max),
            _ => rng.below(10),
        };
        let v = w - rng.below(4).min(w);
        let r = if rng.permille(200) { w } else { v - rng.below(4).min(v) };
        (vault.w[i], vault.v[i], vault.r[i]) = (w, v, r);
    }
    vault.e = if rng.permille(150) { max - rng.below(3) } else { rng.below(4) };
    vault.s = if rng.permille(150) { max - rng.below(5) } else { rng.below(4) };
    vault.n = if rng.permille(150) { max - rng.below(5) } else { vault.s.min(1000) + rng.below(4) };
    if rng.permille(60) {
        let lane = rng.index(params.lanes);
        let odd = match rng.below(3) {
            0 => rng.any(),
            1 => max + 1,
            _ => rng.below(12),
        };
        *number_in(rng, &mut vault, lane) = odd;
    }
    vault
}

/// One of a vault's numbers: a lane's, or one that has no lane.
pub fn number_in<'a>(rng: &mut Rng, vault: &'a mut Vault, lane: usize) -> &'a mut u64 {
    match rng.below(6) {
        0 => &mut vault.w[lane],
        1 => &mut vault.v[lane],
        2 => &mut vault.r[lane],
        3 => &mut vault.e,
        4 => &mut vault.s,
        _ => &mut vault.n,
    }
}

/// A number of any size.
pub fn odd_number(rng: &mut Rng, params: &Params) -> u64 {
    match rng.below(6) {
        0 => rng.any(),
        1 => params.counter - rng.below(3),
        2 => params.counter + 1,
        _ => rng.below(12),
    }
}

/// Room for a file, where one is due: mostly enough.
pub fn file_room(rng: &mut Rng, params: &Params, due: bool) -> usize {
    let need = sealed::file_len(params);
    match rng.below(if due { 14 } else { 40 }) {
        0 => 0,
        1 => need - 1,
        2 => rng.index(need),
        3 => need + 1 + rng.index(100),
        _ if due => need,
        _ => rng.index(64),
    }
}
