//! The bench sheet's cases, answered by the model: a line a case, as the library's program `bench_sheet` writes them.

use std::rc::Rc;

use paviluko_model::cipher::s_box;
use paviluko_model::sealed::record_nonce;
use paviluko_model::{Cipher, Listed, Model, Params, Phase, Point, Refusal, Store, Taken, Transaction, Vault, Write};

/// A call's answer.
type Answer = Result<Taken, Refusal>;

const KEY: [u8; 16] = [7; 16];
const MAX: u64 = (1 << 48) - 1;

// ---- lines

/// What a call answered.
fn answer(said: &Answer) -> String {
    match said {
        Ok(Taken { store, len }) => {
            let store = match *store {
                None => "no store".to_string(),
                Some(Store::W { lane, value }) => format!("W of lane {lane} is {value}"),
                Some(Store::V { lane, value }) => format!("V of lane {lane} is {value}"),
                Some(Store::R { lane, value }) => format!("R of lane {lane} is {value}"),
                Some(Store::E { value }) => format!("E is {value}"),
                Some(Store::S { value }) => format!("S is {value}"),
                Some(Store::N { value }) => format!("N is {value}"),
                Some(Store::Record { position }) => format!("record at {position}"),
                Some(Store::Checkpoint) => "checkpoint".to_string(),
                Some(Store::Delete { below }) => format!("delete below {below}"),
                Some(Store::Empty) => "empty the log".to_string(),
            };
            if *len > 0 { format!("taken, {store}, {len} bytes") } else { format!("taken, {store}") }
        }
        Err(Refusal { number, value }) => match number {
            3 | 9 | 10 | 11 | 13 => format!("{number}, {value}"),
            _ => number.to_string(),
        },
    }
}

/// The line of a call.
fn line(name: &str, said: Answer) {
    println!("{name}: {}", answer(&said));
}

/// A line with a number.
fn counted(name: &str, number: u64) {
    println!("{name}: {number}");
}

// ---- vault numbers

fn params() -> Params {
    Params::scope()
}

fn new_vault() -> Vault {
    Vault::new(&params())
}

/// New numbers, changed.
fn numbers(change: impl FnOnce(&mut Vault)) -> Vault {
    let mut x = new_vault();
    change(&mut x);
    x
}

/// Lane 0's numbers, and zeros.
fn lane0(w: u64, v: u64, r: u64) -> Vault {
    numbers(|x| (x.w[0], x.v[0], x.r[0]) = (w, v, r))
}

// ---- collectors

/// A cold one with these numbers, whatever they are.
fn cold_with(x: &Vault) -> Model {
    Model::cold(&params(), x, Rc::new(Cipher::new(&KEY)))
}

fn cold() -> Model {
    cold_with(&new_vault())
}

/// One in service with these numbers.
fn served(x: &Vault) -> Model {
    let mut c = cold_with(x);
    c.phase = Phase::InService;
    c
}

fn fresh() -> Model {
    served(&new_vault())
}

/// The same that lists so many records.
fn listing(mut c: Model, count: usize) -> Model {
    c.records.resize(count, Listed { position: 0, lane: 0 });
    c
}

/// The same that keeps so many points.
fn keeping(mut c: Model, count: usize) -> Model {
    c.points.resize(count, Point { position: 0, counts: vec![0; 8], covered: false });
    c
}

/// The same with its newest point at a position.
fn pointing(mut c: Model, newest: u64) -> Model {
    c.newest = Some(newest);
    c
}

// ---- transactions, records, checkpoints

/// Stamp 100, and writes to meters 0 and up, each of code 1 and reading 7.
fn writes(count: usize) -> Vec<u8> {
    let writes = (0..count).map(|meter| Write { meter, code: 1, reading: 7 }).collect();
    Transaction { stamp: 100, writes }.bytes()
}

/// Accept of so many writes.
fn accept(c: &mut Model, count: usize, lane: u8, position: u64) -> Answer {
    c.accept(&writes(count), lane, position)
}

/// The same, and the collector behind it.
fn accepted(mut c: Model, count: usize, lane: u8, position: u64) -> Model {
    let _ = accept(&mut c, count, lane, position);
    c
}

/// One write accepted and sealed: the record.
fn put(c: &mut Model, lane: u8, position: u64) -> Vec<u8> {
    let _ = accept(c, 1, lane, position);
    let mut out = vec![0; 56];
    let _ = c.seal(&mut out);
    out
}

/// One write accepted, sealed and committed.
fn seen(mut c: Model, lane: u8, position: u64) -> Model {
    let record = put(&mut c, lane, position);
    let _ = c.commit(&record);
    c
}

/// The next record of a lane of a collector in service with these numbers.
fn next(x: &Vault, lane: u8) -> Vec<u8> {
    put(&mut served(x), lane, 10)
}

/// A call of Checkpoint that puts nothing out.
fn filing(mut c: Model) -> Model {
    let _ = c.checkpoint(&mut [0]);
    c
}

/// The three calls of Checkpoint.
fn filed(c: Model) -> Model {
    let mut c = filing(c);
    let _ = c.checkpoint(&mut [0; 6184]);
    filing(c)
}

/// The file of a checkpoint.
fn file_of(c: Model) -> Vec<u8> {
    let mut out = vec![0; 6184];
    let _ = filing(c).checkpoint(&mut out);
    out
}

/// Bytes with a bit of one of them turned over.
fn changed(mut bytes: Vec<u8>, at: usize) -> Vec<u8> {
    bytes[at] ^= 1;
    bytes
}

// ---- Load

fn load_cases() {
    let keyed = |name: &str, x: Vault, key: &[u8]| {
        line(name, Model::load(&params(), &x, key).map(|_| Taken { store: None, len: 0 }));
    };
    let loads = |name: &str, x: Vault| keyed(name, x, b"sixteen of bytes");
    loads("load, a new vault", new_vault());
    loads("load, V above W", lane0(4, 5, 0));
    loads("load, V at W", lane0(5, 5, 0));
    loads("load, R above W", lane0(5, 5, 6));
    loads("load, R at W", lane0(5, 5, 5));
    loads("load, R above V and below W", lane0(5, 3, 4));
    loads("load, R above V and at W", lane0(5, 3, 5));
    loads("load, R at V and below W", lane0(5, 3, 3));
    loads("load, V above W on lane 7", numbers(|x| x.v[7] = 1));
    loads("load, W above the maximum", lane0(MAX + 1, 0, 0));
    loads("load, W at the maximum", lane0(MAX, 0, 0));
    loads("load, E above the maximum", numbers(|x| x.e = MAX + 1));
    loads("load, E at the maximum", numbers(|x| x.e = MAX));
    loads("load, S above the maximum", numbers(|x| x.s = MAX + 1));
    loads("load, S at the maximum", numbers(|x| x.s = MAX));
    loads("load, N above the maximum", numbers(|x| x.n = MAX + 1));
    loads("load, N at the maximum", numbers(|x| x.n = MAX));
    keyed("load, a key of 15 bytes", new_vault(), b"sixteen of byte");
    keyed("load, a key of 16 bytes", new_vault(), b"sixteen of bytes");
    keyed("load, a key of 17 bytes", new_vault(), b"sixteen of bytes.");
    keyed("load, V above W and a key of 15 bytes", lane0(4, 5, 0), b"sixteen of byte");
}

// ---- Accept

fn accept_cases() {
    let one = |name: &str, mut c: Model, lane: u8, position: u64| line(name, accept(&mut c, 1, lane, position));
    let many = |name: &str, mut c: Model, count: usize, lane: u8| line(name, accept(&mut c, count, lane, 10));
    one("accept, a cold collector", cold(), 0, 10);
    one("accept, one in service", fresh(), 0, 10);
    one("accept, a record is due", accepted(fresh(), 1, 0, 10), 0, 11);
    one("accept, V above W", served(&lane0(4, 5, 0)), 0, 10);
    one("accept, V at W", served(&lane0(5, 5, 0)), 0, 10);
    one("accept, 129 records listed", listing(fresh(), 129), 0, 10);
    one("accept, 9 points kept", keeping(fresh(), 9), 0, 10);
    one("accept, 8 points kept", keeping(fresh(), 8), 0, 10);

    let transaction = |name: &str, bytes: &[u8]| line(name, fresh().accept(bytes, 0, 10));
    let plain = |meters: &[usize], code: u8| {
        let writes = meters.iter().map(|&meter| Write { meter, code, reading: 7 }).collect();
        Transaction { stamp: 100, writes }.bytes()
    };
    transaction("accept, no write", &plain(&[], 1));
    transaction("accept, one write", &plain(&[0], 1));
    transaction("accept, one write and a byte", &[plain(&[0], 1), vec![0]].concat());
    many("accept, 17 writes", fresh(), 17, 0);
    many("accept, 16 writes", fresh(), 16, 0);
    transaction("accept, meter 256", &plain(&[256], 1));
    transaction("accept, meter 255", &plain(&[255], 1));
    transaction("accept, code 0", &plain(&[0], 0));
    transaction("accept, code 5", &plain(&[0], 5));
    transaction("accept, code 4", &plain(&[0], 4));
    transaction("accept, 1 for the zero", &changed(plain(&[0], 1), 11));
    transaction("accept, meters 3 and 3", &plain(&[3, 3], 1));
    transaction("accept, meters 3 and 4", &plain(&[3, 4], 1));

    one("accept, lane 8", fresh(), 8, 10);
    one("accept, lane 7", fresh(), 7, 10);
    let mut used = fresh();
    put(&mut used, 0, 10);
    one("accept, at the last position", used.clone(), 0, 10);
    one("accept, above the last position", used, 0, 11);
    one("accept, at the newest point", pointing(fresh(), 10), 0, 10);
    one("accept, above the newest point", pointing(fresh(), 10), 0, 11);
    one("accept, 128 records listed", listing(fresh(), 128), 0, 10);
    one("accept, 127 records listed", listing(fresh(), 127), 0, 10);
    one("accept, W at the maximum", served(&lane0(MAX, 0, 0)), 0, 10);
    one("accept, W below the maximum", served(&lane0(MAX - 1, 0, 0)), 0, 10);

    many("accept, a cold collector and 17 writes", cold(), 17, 0);
    many("accept, 17 writes and lane 8", fresh(), 17, 8);
    one("accept, lane 8 and at the newest point", pointing(fresh(), 10), 8, 10);
    let full = listing(served(&lane0(MAX, 0, 0)), 128);
    one("accept, 128 records listed and W at the maximum", full.clone(), 0, 10);
    one("accept, at the newest point, 128 records listed and W at the maximum", pointing(full, 10), 0, 10);
}

// ---- Seal

/// The line of a Seal with so much room.
fn seal(name: &str, mut c: Model, room: usize) {
    line(name, c.seal(&mut vec![0; room]));
}

fn seal_cases() {
    seal("seal, nothing held", fresh(), 176);
    seal("seal, a cold collector", cold(), 176);
    let mut again = fresh();
    put(&mut again, 0, 10);
    seal("seal, a second time", again, 176);
    let one = accepted(fresh(), 1, 0, 10);
    seal("seal, one write, room for 55", one.clone(), 55);
    seal("seal, one write, room for 56", one.clone(), 56);
    let all = accepted(fresh(), 16, 0, 10);
    seal("seal, 16 writes, room for 175", all.clone(), 175);
    seal("seal, 16 writes, room for 176", all, 176);
    seal("seal, nothing held, room for 55", fresh(), 55);

    let filled = |room: usize| {
        let mut out = vec![165; room];
        let _ = one.clone().seal(&mut out);
        out
    };
    counted("seal, room for 55, byte 0", filled(55)[0].into());
    counted("seal, room for 57, byte 0", filled(57)[0].into());
    counted("seal, room for 57, byte 56", filled(57)[56].into());
}

// ---- Commit

fn commit_cases() {
    let commits = |name: &str, mut c: Model, bytes: &[u8]| line(name, c.commit(bytes));
    let first = next(&new_vault(), 0);
    let waiting = || served(&lane0(1, 0, 0));
    let in_epoch = |w: u64| served(&numbers(|x| (x.w[0], x.e) = (w, 1)));
    commits("commit, a cold collector", cold(), &first);
    commits("commit, a record is due", accepted(fresh(), 1, 0, 10), &first);
    commits("commit, V + 1", waiting(), &first);
    commits("commit, no bytes", waiting(), &[]);
    commits("commit, a byte short", waiting(), &first[..55]);
    commits("commit, a byte long", waiting(), &[first.clone(), vec![0]].concat());
    commits("commit, a bit changed", waiting(), &changed(first.clone(), 30));
    commits("commit, another epoch", in_epoch(1), &first);
    commits("commit, V itself", served(&lane0(1, 1, 0)), &first);
    let mut skipped = waiting();
    let second = put(&mut skipped, 0, 10);
    commits("commit, V + 2", skipped, &second);
    commits("commit, above W", fresh(), &first);
    commits("commit, a cold collector and no bytes", cold(), &[]);
    commits("commit, another epoch and above W", in_epoch(0), &first);
}

// ---- Point

/// The line of a Point, and the collector behind it.
fn point(name: &str, mut c: Model, position: u64) -> Model {
    line(name, c.point(position));
    c
}

fn point_cases() {
    let unseen = || {
        let mut c = fresh();
        put(&mut c, 0, 10);
        c
    };
    point("point, a cold collector", cold(), 10);
    point("point, one in service", fresh(), 10);
    point("point, a record is due", accepted(fresh(), 1, 0, 10), 10);
    point("point, 9 points kept", keeping(fresh(), 9), 10);
    point("point, the first at position 0", fresh(), 0);
    point("point, below the newest point", pointing(fresh(), 10), 9);
    point("point, at the newest point", pointing(fresh(), 10), 10);
    point("point, above the newest point", pointing(fresh(), 10), 11);
    point("point, 8 points kept", keeping(fresh(), 8), 10);
    point("point, 7 points kept", keeping(fresh(), 7), 10);
    point("point, above a record not visible", unseen(), 11);
    point("point, at a record not visible", unseen(), 10);
    point("point, above a visible record", seen(fresh(), 0, 10), 11);
    point("point, at the newest point and 8 points kept", keeping(pointing(fresh(), 10), 8), 10);
    point("point, 8 points kept and above a record not visible", keeping(unseen(), 8), 11);
}

// ---- Checkpoint

/// The line of a Checkpoint with so much room, and the collector behind it.
fn checkpoint(name: &str, mut c: Model, room: usize) -> Model {
    line(name, c.checkpoint(&mut vec![0; room]));
    c
}

fn checkpoint_cases() {
    checkpoint("checkpoint, a cold collector", cold(), 6184);
    checkpoint("checkpoint, a record is due", accepted(fresh(), 1, 0, 10), 6184);
    checkpoint("checkpoint, S at the maximum", served(&numbers(|x| x.s = MAX)), 6184);
    checkpoint("checkpoint, S below the maximum", served(&numbers(|x| x.s = MAX - 1)), 6184);
    checkpoint("checkpoint, N at the maximum", served(&numbers(|x| x.n = MAX)), 6184);
    checkpoint("checkpoint, N below the maximum", served(&numbers(|x| x.n = MAX - 1)), 6184);

    checkpoint("checkpoint, call 1, room for 1", fresh(), 1);
    let c = checkpoint("checkpoint, call 1", fresh(), 6184);
    checkpoint("checkpoint, call 2, room for 6183", c.clone(), 6183);
    let c = checkpoint("checkpoint, call 2, room for 6184", c, 6184);
    checkpoint("checkpoint, call 3, room for 1", c.clone(), 1);
    let c = checkpoint("checkpoint, call 3", c, 6184);
    checkpoint("checkpoint, another, call 1", c, 6184);

    line("accept, a checkpoint is due", accept(&mut filing(fresh()), 1, 0, 10));
    line("point, a checkpoint is due", filing(fresh()).point(10));
    let due = accepted(served(&numbers(|x| x.s = MAX)), 1, 0, 10);
    checkpoint("checkpoint, a record is due and S at the maximum", due, 6184);

    let filled = |mut c: Model, room: usize| {
        let mut out = vec![165; room];
        let _ = c.checkpoint(&mut out);
        out
    };
    counted("checkpoint, call 1, byte 0", filled(fresh(), 6185)[0].into());
    counted("checkpoint, call 2, room for 6183, byte 0", filled(filing(fresh()), 6183)[0].into());
    counted("checkpoint, call 2, room for 6185, byte 0", filled(filing(fresh()), 6185)[0].into());
    counted("checkpoint, call 2, room for 6185, byte 6184", filled(filing(fresh()), 6185)[6184].into());
}

// ---- Truncate

/// The line of a Truncate, and the collector behind it.
fn truncate(name: &str, mut c: Model, position: u64) -> Model {
    line(name, c.truncate(position));
    c
}

fn truncate_cases() {
    // Visible records of lane 0 at 10 and of lane 3 at 20, where lane 5 handed out 4 numbers before; a point at 21.
    let pointed = || {
        let mut c = seen(seen(served(&numbers(|x| (x.w[5], x.v[5]) = (4, 4))), 0, 10), 3, 20);
        let _ = c.point(21);
        c
    };
    let covered = || filed(pointed());
    truncate("truncate, a cold collector", cold(), 21);
    truncate("truncate, a record is due", accepted(covered(), 1, 0, 30), 21);
    truncate("truncate, a record is due and no such point", accepted(covered(), 1, 0, 30), 20);
    truncate("truncate, a checkpoint is due", filing(covered()), 21);
    truncate("truncate, no point", fresh(), 21);
    truncate("truncate, a point not covered", pointed(), 21);
    truncate("truncate, beside a covered point", covered(), 20);
    let mut again = covered();
    let _ = again.point(30);
    truncate("truncate, a point set behind the checkpoint", again.clone(), 30);
    truncate("truncate, a point set before the checkpoint", again, 21);
    let mut begun = covered();
    let _ = begun.truncate(21);
    truncate("truncate, call 2 at another position", begun.clone(), 22);
    checkpoint("checkpoint, R of lane 1 is due", begun, 6184);

    let mut c = covered();
    for k in 1..=8 {
        c = truncate(&format!("truncate, call {k}"), c, 21);
    }
    truncate("truncate, call 9 at another position", c.clone(), 22);
    let c = truncate("truncate, call 9", c, 21);
    truncate("truncate, the point dropped", c, 21);
}

// ---- Recover

/// The line of a first call of a cold collector, and the collector behind it.
fn recover(name: &str, x: &Vault, checkpoint: &[u8], log: &[u8]) -> Model {
    let mut c = cold_with(x);
    line(name, c.recover(checkpoint, log, &mut [0]));
    c
}

/// The lines of later calls, which look at neither checkpoint nor log.
fn later(name: &str, calls: std::ops::RangeInclusive<u32>, mut c: Model) -> Model {
    for k in calls {
        line(&format!("{name}, call {k}"), c.recover(&[], &[], &mut vec![0; 6184]));
    }
    c
}

/// The number that meter 0 shows.
fn shown_number(c: &Model) -> u64 {
    c.table.entries[0].map_or(0, |entry| entry.number)
}

fn recover_cases() {
    let first = next(&new_vault(), 0);
    let both = [first.clone(), next(&lane0(1, 0, 0), 0)].concat();
    let forged = changed(both.clone(), 86);
    let file = file_of(fresh());
    let at_version = |s: u64| numbers(|x| x.s = s);

    recover("recover, a cold collector", &new_vault(), &[], &[]);
    recover("recover, V above W", &lane0(4, 5, 5), &[], &[]);
    line("recover, one in service", fresh().recover(&[], &[], &mut [0]));
    recover("recover, a log of 262144 bytes, zeros", &new_vault(), &[], &vec![0; 262_144]);
    let long = vec![0; 262_145];
    recover("recover, a log of 262145 bytes, zeros", &new_vault(), &[], &long);
    recover("recover, a log of 262145 bytes and E at the maximum", &numbers(|x| x.e = MAX), &[], &long);
    recover("recover, S at the maximum less 1", &at_version(MAX - 1), &[], &[]);
    recover("recover, S at the maximum less 2", &at_version(MAX - 2), &[], &[]);
    recover("recover, N at the maximum less 1", &numbers(|x| x.n = MAX - 1), &[], &[]);
    recover("recover, N at the maximum less 2", &numbers(|x| x.n = MAX - 2), &[], &[]);
    recover("recover, E at the maximum", &numbers(|x| x.e = MAX), &[], &[]);
    recover("recover, E at the maximum less 1", &numbers(|x| x.e = MAX - 1), &[], &[]);

    recover("recover, a checkpoint while S is 0", &at_version(0), &file, &[]);
    recover("recover, no checkpoint while S is 1", &at_version(1), &[], &[]);
    recover("recover, a checkpoint while S is 1", &at_version(1), &file, &[]);
    recover("recover, a checkpoint with a bit changed", &at_version(1), &changed(file.clone(), 30), &[]);
    recover("recover, a checkpoint a byte short", &at_version(1), &file[..6183], &[]);
    recover("recover, version 1 where S is 2", &at_version(2), &file, &[]);

    recover("recover, log 1 2", &lane0(2, 2, 0), &[], &both);
    recover("recover, log 1 2, a byte short", &lane0(2, 2, 0), &[], &both[..111]);
    recover("recover, log 1 2, a bit of 2 changed", &lane0(2, 2, 0), &[], &forged);
    recover("recover, log 1 2, a bit of 2 changed, both passed over", &lane0(2, 2, 2), &[], &forged);
    let in_epoch_1 = |w: u64, v: u64, r: u64| numbers(|x| (x.w[0], x.v[0], x.r[0], x.e) = (w, v, r, 1));
    recover("recover, another epoch", &in_epoch_1(1, 1, 0), &[], &first);
    recover("recover, another epoch, passed over", &in_epoch_1(1, 1, 1), &[], &first);
    let mixed = [first.clone(), next(&in_epoch_1(1, 0, 0), 0)].concat();
    recover("recover, log 1 2, another epoch in 2", &lane0(2, 2, 0), &[], &mixed);
    recover("recover, log 2", &lane0(2, 2, 0), &[], &both[56..]);
    recover("recover, log 1 1", &lane0(2, 2, 0), &[], &[first.clone(), first.clone()].concat());
    recover("recover, V of lane 0 not reached", &lane0(1, 1, 0), &[], &[]);
    recover("recover, V of lane 0 reached", &lane0(1, 1, 0), &[], &first);
    let lanes_3_5 = numbers(|x| (x.w[3], x.v[3], x.w[5], x.v[5]) = (1, 1, 1, 1));
    recover("recover, V of lanes 3 and 5 not reached", &lanes_3_5, &[], &[]);

    let spent = numbers(|x| (x.s, x.e) = (2, MAX));
    recover("recover, version 1 where S is 2 and E at the maximum", &spent, &file, &[]);
    let version_2 = numbers(|x| (x.w[0], x.v[0], x.s) = (2, 2, 2));
    recover("recover, version 1 where S is 2 and a bit of 2 changed", &version_2, &file, &forged);
    recover("recover, another epoch in 1 and a bit of 2 changed", &in_epoch_1(2, 2, 0), &[], &forged);

    // Every number visible, no checkpoint, log 1 2.
    let name = "recover, W at V";
    let short = |name: &str, c: &Model| line(name, c.clone().recover(&[], &[], &mut vec![0; 6183]));
    let c = recover("recover, W at V, call 1", &lane0(2, 2, 0), &[], &both);
    short("recover, W at V, call 2, room for 6183", &c);
    let c = later(name, 2..=4, c);
    short("recover, W at V, call 5, room for 6183", &c);
    line("accept, W at V, recovering", accept(&mut c.clone(), 1, 0, 0));
    let c = later(name, 5..=15, c);
    later(name, 16..=16, c.clone());
    line("accept, W at V, behind call 15", accept(&mut c.clone(), 1, 0, 0));

    // Epoch 5, version 1: lane 0 at W 3, V 2, R 1; lane 4 at W 1, V 0. The checkpoint, and log 2 3.
    let name = "recover, W above V";
    let x = numbers(|x| {
        (x.w[0], x.v[0], x.r[0], x.w[4]) = (3, 2, 1, 1);
        (x.e, x.s, x.n) = (5, 1, 1);
    });
    let in_epoch_5 = |w: u64| next(&numbers(|x| (x.w[0], x.e) = (w, 5)), 0);
    let log = [in_epoch_5(1), in_epoch_5(2)].concat();
    let c = recover("recover, W above V, call 1", &x, &file, &log);
    let c = later(name, 2..=24, c);
    counted("recover, W above V, meter 0 shows number", shown_number(&c));
    later(name, 25..=25, c);
}

// ---- the marked cases

fn m1() {
    seal("M1 one write", accepted(fresh(), 1, 0, 10), 176);
    seal("M1 16 writes", accepted(fresh(), 16, 0, 10), 176);
    line("M1 17 writes", accept(&mut fresh(), 17, 0, 10));
}

fn m2() {
    for byte in [0x00, 0x53] {
        println!("M2 {byte:02x} gives: {:02x}", s_box(byte));
    }
}

fn m3() {
    let bytes = record_nonce(3, 258).map(|byte| byte.to_string());
    println!("M3 nonce of lane 3, number 258: {}", bytes.join(" "));
}

/// The record behind number w of lane 0, for each of them.
fn log(behind: &[u64]) -> Vec<u8> {
    behind.iter().flat_map(|&w| next(&lane0(w, 0, 0), 0)).collect()
}

fn m4_to_m9() {
    recover("M4 R 3, V 5, log 4 5", &lane0(5, 5, 3), &[], &log(&[3, 4]));
    recover("M5 R 3, V 5, log 5 4", &lane0(5, 5, 3), &[], &log(&[4, 3]));
    recover("M6 R 3, V 5, log 4", &lane0(5, 5, 3), &[], &log(&[3]));
    recover("M7 R 3, V 5, log 4 4 5", &lane0(5, 5, 3), &[], &log(&[3, 3, 4]));
    let c = recover("M8 R 3, V 5, log 3 4 5 6", &lane0(6, 5, 3), &[], &log(&[2, 3, 4, 5]));
    counted("M8 meter 0 shows number", shown_number(&c));
    recover("M9 R 5, V 3, W 5, empty log", &lane0(5, 3, 5), &[], &[]);
}

fn m10() {
    let shows = |first: u8, second: u8| {
        let c = served(&numbers(|x| (x.w[2], x.v[2]) = (6, 6)));
        let c = seen(seen(c, first, 10), second, 20);
        c.table.entries[0].map_or(0, |entry| entry.lane.into())
    };
    counted("M10 lane 2 number 7, then lane 5 number 1, shows lane", shows(2, 5));
    counted("M10 lane 5 number 1, then lane 2 number 7, shows lane", shows(5, 2));
}

fn m11() {
    let counts = |c: &Model, position: u64| {
        c.points.iter().find(|point| point.position == position).map_or(0, |point| point.counts[0])
    };
    let c = point("M11 point 20", seen(seen(fresh(), 0, 10), 0, 20), 20);
    counted("M11 point 20 counts", counts(&c, 20));
    let c = point("M11 point 21", c, 21);
    counted("M11 point 21 counts", counts(&c, 21));
    line("M11 accept at 21", accept(&mut c.clone(), 1, 0, 21));
    line("M11 accept at 22", accept(&mut c.clone(), 1, 0, 22));
    point("M11 point 21 again", c.clone(), 21);
    point("M11 point 22", c, 22);
}

fn m12() {
    recover("M12 S at the maximum less 2, no checkpoint", &numbers(|x| x.s = MAX - 2), &[], &[]);
    recover("M12 S at the maximum less 1, no checkpoint", &numbers(|x| x.s = MAX - 1), &[], &[]);
}

// ---- a torn last record

fn torn_cases() {
    let (four, five, six) = (log(&[3]), log(&[4]), log(&[5]));
    let x = lane0(6, 5, 3);
    let reads = |name: &str, parts: &[&[u8]]| {
        recover(name, &x, &[], &parts.concat());
    };
    let ends = |name: &str, end: &[u8]| reads(name, &[&four, &five, end]);
    reads("CR4 log 4 and 55 bytes of 5", &[&four, &five[..55]]);
    ends("CR4 log 4 5 and 55 bytes of 6", &six[..55]);
    ends("CR4 log 4 5 and 56 bytes of 6", &six);
    ends("CR4 log 4 5 and 56 bytes of 6, a bit changed", &changed(six.clone(), 26));
    ends("CR4 log 4 5 and 55 bytes of 6, a bit changed", &changed(six.clone(), 26)[..55]);
    ends("CR4 log 4 5 and 19 bytes ff", &[255; 19]);
    ends("CR4 log 4 5 and 20 bytes ff", &[255; 20]);
    ends("CR4 log 4 5 and one byte ff", &[255]);

    let head = |at: usize, bytes: &[u8]| {
        let mut head = six[..20].to_vec();
        head[at..at + bytes.len()].copy_from_slice(bytes);
        head
    };
    ends("CR4 log 4 5 and the head of 6", &head(0, &[]));
    ends("CR4 log 4 5 and the head of 6 with kind 2", &head(0, &[2]));
    ends("CR4 log 4 5 and the head of 6 with lane 7", &head(1, &[7]));
    ends("CR4 log 4 5 and the head of 6 with lane 8", &head(1, &[8]));
    for n in [8, 17, 136, 144, 272_u16] {
        ends(&format!("CR4 log 4 5 and the head of 6 with n {n}"), &head(2, &n.to_le_bytes()));
    }
    ends("CR4 log 4 5 and the head of 6 with another epoch and number", &head(4, &[255; 16]));
    let longest = [&head(2, &[136, 0])[..], &[0; 156]].concat();
    ends("CR4 log 4 5 and 175 bytes of a head with n 136", &longest[..175]);
    ends("CR4 log 4 5 and 176 bytes of a head with n 136", &longest);

    reads("CR4 log 55 bytes of 4 and 5", &[&four[..55], &five]);
    reads("CR4 log 5 and 55 bytes of 6", &[&five, &six[..55]]);
    let in_epoch_1 = Vault { e: 1, ..x.clone() };
    recover("CR4 epoch 1, log 4 and 55 bytes of 5", &in_epoch_1, &[], &[&four, &five[..55]].concat());
    let lanes_2_3 = numbers(|x| (x.w[2], x.v[2], x.w[3], x.v[3]) = (1, 1, 1, 1));
    let first = next(&new_vault(), 3);
    recover("CR4 log 55 bytes of lane 3, V of lanes 2 and 3 not reached", &lanes_2_3, &[], &first[..55]);
    recover(
        "CR4 log 4 5 and 55 bytes of 6, and the file of version 1 where S is 2",
        &Vault { s: 2, ..x.clone() },
        &file_of(fresh()),
        &[&four, &five, &six[..55]].concat(),
    );
}

fn main() {
    load_cases();
    accept_cases();
    seal_cases();
    commit_cases();
    point_cases();
    checkpoint_cases();
    truncate_cases();
    recover_cases();
    m1();
    m2();
    m3();
    m4_to_m9();
    m10();
    m11();
    m12();
    torn_cases();
}
