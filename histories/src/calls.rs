//! Calls with good arguments and bad ones: all but a first Recover.

use std::rc::Rc;

use paviluko_model::{Due, Model};

use crate::bytes::{any_bytes, damaged, forged_record, head};
use crate::device::Call;
use crate::host::Host;
use crate::rng::Rng;
use crate::values::{a_transaction, any_vault, file_room, lane, no_transaction, transaction_of};

/// Mostly with the vault's own numbers and the key; with any numbers where bytes are forged.
pub fn load(host: &mut Host) -> Call {
    let mut key = host.cipher.key().to_vec();
    if !host.bound() {
        host.vault = any_vault(&mut host.rng, &host.params);
        match host.rng.below(20) {
            0 => key = wrong_key(&mut host.rng),
            1 => key = host.other.key().to_vec(),
            _ => {}
        }
        return Call::Load { vault: host.vault.clone(), key };
    }
    let Host { rng, params, vault, .. } = host;
    let mut vault = vault.clone();
    if rng.permille(800) {
        return Call::Load { vault, key };
    }
    // Refused ones: a key of another length, or numbers that break the rule.
    if rng.permille(500) {
        return Call::Load { vault, key: wrong_key(rng) };
    }
    let i = rng.index(params.lanes);
    let above = params.counter + 1 + rng.below(3);
    match rng.below(9) {
        0 => vault.v[i] = vault.w[i] + 1,
        1 => vault.r[i] = vault.w[i] + 1,
        2 => (vault.w[i], vault.v[i], vault.r[i]) = (5, 3, 4),
        3 => vault.w[i] = above,
        4 => vault.e = above,
        5 => vault.s = above,
        6 => vault.n = above,
        7 => vault.s = u64::MAX,
        _ => (vault.w[i], vault.v[i], vault.r[i]) = (u64::MAX, u64::MAX, u64::MAX),
    }
    if rng.permille(200) {
        key = wrong_key(rng);
    }
    Call::Load { vault, key }
}

fn wrong_key(rng: &mut Rng) -> Vec<u8> {
    let len = *rng.pick(&[0, 1, 15, 17, 32]).unwrap_or(&0);
    rng.bytes(len)
}

/// The last position used, or the newest point where it is above that.
fn top(model: &Model) -> Option<u64> {
    model.last.max(model.newest)
}

/// The next position above.
fn above(top: Option<u64>) -> u64 {
    top.map_or(0, |top| top.saturating_add(1))
}

/// Above, mostly by little.
fn high_position(rng: &mut Rng, top: Option<u64>) -> u64 {
    let step = match rng.below(500) {
        0 => rng.any() >> 1,
        1..=20 => rng.below(1 << 40),
        _ => rng.below(3),
    };
    above(top).saturating_add(step)
}

/// At or below, where there is such a one.
fn low_position(rng: &mut Rng, top: Option<u64>) -> u64 {
    top.map_or(0, |top| top - rng.below(3).min(top))
}

/// Mostly of a good transaction, at a position above those used; of the one off the bus where there is one.
pub fn accept(host: &mut Host, model: &Model) -> Call {
    let Host { rng, params, off_bus, .. } = host;
    let bad = if rng.permille(850) { 7 } else { rng.below(7) };
    let transaction = match (bad, off_bus) {
        (0 | 1, _) => no_transaction(rng, params),
        (_, Some(off_bus)) => off_bus.clone(),
        _ => a_transaction(rng, params).bytes(),
    };
    let lane = match bad {
        1 | 2 => *rng.pick(&[8, 9, 255]).unwrap_or(&8),
        _ => lane(rng, params),
    };
    let position = match bad {
        2..=4 => low_position(rng, top(model)),
        5 => rng.any(),
        _ => high_position(rng, top(model)),
    };
    Call::Accept { transaction, lane, position }
}

/// Mostly with as much room as the record needs.
pub fn seal(host: &mut Host, model: &Model) -> Call {
    let need = model.held.as_ref().map_or(0, |held| held.text.len()) + 40;
    let room = match host.rng.below(12) {
        0 => 0,
        1 => need - 1,
        2 => host.rng.index(need),
        3 => need + host.rng.index(200),
        4 => need + 1,
        _ => need,
    };
    Call::Seal { room }
}

/// A record on the card that Commit takes, of any lane that has one.
fn next_visible(host: &mut Host, model: &Model) -> Option<Rc<[u8]>> {
    let x = &model.vault;
    let start = host.rng.index(host.params.lanes);
    let mut lanes = (0..host.params.lanes).map(|i| (start + i) % host.params.lanes);
    let lane = lanes.find(|&lane| x.v[lane] < x.w[lane])?;
    host.card.records.values().find(|record| head(record) == (lane, x.e, x.v[lane] + 1)).cloned()
}

/// Mostly of the next record of a lane.
pub fn commit(host: &mut Host, model: &Model) -> Call {
    let good = next_visible(host, model);
    let record = match host.rng.below(16) {
        0 => host.a_record(),
        1 => {
            let on_card: Vec<_> = host.card.records.values().collect();
            host.rng.pick(&on_card).map(|record| Rc::clone(record))
        }
        2 => good.or_else(|| host.a_record()).map(|record| damaged(&mut host.rng, &record)),
        3 => Some(any_bytes(host)),
        4 if !host.bound() => Some(forged_record(host, model)),
        _ => good,
    };
    Call::Commit { record: record.or_else(|| host.a_record()).unwrap_or_else(|| any_bytes(host)) }
}

/// Mostly at the first record that is not visible, or above all.
pub fn point(host: &mut Host, model: &Model) -> Call {
    let rng = &mut host.rng;
    let top = top(model);
    // The first listed record that is not visible, if there is one.
    let x = &model.vault;
    let mut left: Vec<u64> = (0..x.w.len()).map(|i| x.w[i].saturating_sub(x.v[i])).collect();
    let mut unseen = None;
    for listed in model.records.iter().rev() {
        if let Some(left) = left.get_mut(usize::from(listed.lane))
            && *left > 0
        {
            *left -= 1;
            unseen = Some(listed.position);
        }
    }
    let position = match rng.below(10) {
        0 => low_position(rng, model.newest),
        1 => high_position(rng, top),
        2 | 3 => {
            let low = model.newest.unwrap_or(0);
            let high = top.unwrap_or(0).saturating_add(3);
            low.saturating_add(rng.below(high.saturating_sub(low).max(1)))
        }
        4 => rng.pick(&model.records).map_or(0, |listed| listed.position),
        _ => unseen.unwrap_or(above(top)),
    };
    Call::Point { position }
}

/// Mostly with enough room where the file is due.
pub fn checkpoint(host: &mut Host, model: &Model) -> Call {
    Call::Checkpoint { room: file_room(&mut host.rng, &host.params, model.due == Due::File) }
}

/// Mostly at a covered point.
pub fn truncate(host: &mut Host, model: &Model) -> Call {
    let rng = &mut host.rng;
    let position = match model.due {
        Due::TruncateR { position, .. } | Due::TruncateDelete { position } => position,
        _ => {
            let covered = rng.permille(750);
            let of: Vec<_> = model.points.iter().filter(|point| point.covered || !covered).collect();
            rng.pick(&of).map_or(model.newest.unwrap_or(0), |point| point.position)
        }
    };
    let position = match rng.below(16) {
        0 => position.wrapping_add(1),
        1 => position.wrapping_sub(1),
        _ => position,
    };
    Call::Truncate { position }
}

/// A Recover that goes on, with whatever checkpoint and log.
pub fn go_on(host: &mut Host, model: &Model) -> Call {
    let due = matches!(model.due, Due::RecoverFile { .. });
    let room = file_room(&mut host.rng, &host.params, due);
    let (mut checkpoint, mut log) = Default::default();
    if host.rng.permille(200) {
        checkpoint = host.a_file().unwrap_or(checkpoint);
        log = any_bytes(host);
    }
    Call::Recover { checkpoint, log, room }
}

/// The next call that makes the log longer: the list of records fills, all of it becomes visible, a point is set.
pub fn lengthen(host: &mut Host, model: &Model) -> Call {
    let position = above(top(model));
    if model.records.len() < host.params.records {
        let Host { rng, params, .. } = host;
        let transaction = transaction_of(rng, params, params.writes);
        return Call::Accept { transaction, lane: lane(rng, params), position };
    }
    match next_visible(host, model) {
        Some(record) => Call::Commit { record },
        None => Call::Point { position },
    }
}
