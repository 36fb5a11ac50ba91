//! Handed states: one in service, or the one that there is, with something about it changed.

use std::rc::Rc;

use paviluko_model::{Listed, Model, Params, Phase};

use crate::host::{Host, Style};
use crate::raw::{Raw, RawDue, phase_code};
use crate::rng::Rng;
use crate::values::{a_table, a_transaction, any_vault, lane, number_in, odd_number};

/// A state in service: any numbers within the rule, points and records in rising order, a transaction held.
fn service(host: &mut Host) -> Raw {
    let Host { rng, params, cipher, .. } = host;
    let mut vault = any_vault(rng, params);
    while !vault.legal(params) {
        vault = any_vault(rng, params);
    }
    let mut raw = Raw::of(&Model::cold(params, &vault, Rc::clone(cipher)));
    raw.phase = phase_code(Phase::InService);
    raw.entries = a_table(rng, params).entries;
    rising_points(rng, params, &mut raw);
    rising_records(rng, params, &mut raw);
    raw.text = a_transaction(rng, params).bytes();
    raw.text_len = raw.text.len();
    raw.text.resize(8 + 8 * params.writes, 0);
    raw.held_lane = lane(rng, params);
    raw.held_position = odd_number(rng, params);
    raw
}

/// Points in rising order.
fn rising_points(rng: &mut Rng, params: &Params, raw: &mut Raw) {
    let mut position = rng.below(5);
    for point in &mut raw.points {
        point.position = position;
        point.covered = rng.permille(600);
        point.counts.iter_mut().for_each(|count| *count = rng.below(12));
        position += 1 + rng.below(4);
    }
    raw.points_count = rng.index(params.points + 1);
    raw.newest = Some(position);
}

/// Records in rising order.
fn rising_records(rng: &mut Rng, params: &Params, raw: &mut Raw) {
    let mut position = rng.below(30);
    for listed in &mut raw.listed {
        *listed = Listed { position, lane: lane(rng, params) };
        position += 1 + rng.below(2);
    }
    raw.listed_count = if rng.permille(100) { params.records - rng.index(3) } else { rng.index(12) };
    raw.last = Some(position);
}

/// A state with something about it changed: the one that there is, or one in service.
pub fn odd(host: &mut Host, model: Option<&Model>) -> Raw {
    let here = model.filter(|_| host.rng.permille(if host.style == Style::Odd { 300 } else { 900 }));
    let mut raw = here.map_or_else(|| service(host), Raw::of);
    let Host { rng, params, .. } = host;
    for _ in 0..rng.below(4) {
        match rng.below(15) {
            0 => raw.phase = if rng.permille(800) { rng.below(4) as u8 } else { rng.any() as u8 },
            1..=3 => {
                // Any due store, in the phase that it is for or another.
                let kind = if rng.permille(900) { rng.below(14) as u8 } else { rng.any() as u8 };
                let lane = if matches!(kind, 4 | 9 | 11) { rng.below(10) as u8 } else { 0 };
                let second = if matches!(kind, 6 | 7) { rng.below(3) as u8 } else { 0 };
                let point = rng.pick(&raw.points[..raw.points_count.min(params.points)]).map(|point| point.position);
                let position = if matches!(kind, 4 | 5) { point.unwrap_or_else(|| rng.below(30)) } else { 0 };
                raw.due = RawDue { position, kind, lane, second };
                if rng.permille(850) {
                    raw.phase = phase_code(if kind < 6 { Phase::InService } else { Phase::Recovering });
                }
            }
            4 => {
                raw.listed_count = match rng.below(5) {
                    0 => params.records,
                    1 => params.records + 1,
                    2 => rng.any() as usize,
                    3 => params.records - 1,
                    _ => rng.index(params.records + 1),
                }
            }
            5 => {
                raw.points_count = match rng.below(4) {
                    0 => params.points,
                    1 => params.points + 1,
                    2 => rng.any() as usize,
                    _ => rng.index(params.points + 1),
                }
            }
            6 => {
                let lane = rng.index(params.lanes);
                let odd = odd_number(rng, params);
                *number_in(rng, &mut raw.vault, lane) = odd;
            }
            7 => raw.vault = any_vault(rng, params),
            8 => {
                raw.last = rng.permille(700).then(|| rng.below(40));
                raw.newest = rng.permille(700).then(|| rng.below(40));
            }
            9 => {
                // Anything held.
                raw.text = if rng.permille(500) { a_transaction(rng, params).bytes() } else { rng.bytes(136) };
                raw.text_len = match rng.below(10) {
                    0..=5 => raw.text.len(),
                    6 => rng.any() as usize,
                    _ => rng.index(200),
                };
                raw.text.resize(8 + 8 * params.writes, 0);
                raw.held_lane = rng.below(9) as u8;
                raw.held_position = odd_number(rng, params);
            }
            10 | 11 => {
                rising_points(rng, params, &mut raw);
                if rng.permille(400) {
                    // In no order, and some of them twice.
                    raw.points.iter_mut().for_each(|point| point.position = rng.below(8));
                }
            }
            12 => {
                rising_records(rng, params, &mut raw);
                raw.newest = rng.permille(500).then(|| rng.below(20));
                if rng.permille(400) {
                    // In no order, and some of no lane.
                    raw.listed.fill_with(|| Listed { position: rng.below(20), lane: rng.below(10) as u8 });
                }
            }
            // A field of the due store that its kind may not use.
            13 => match rng.below(3) {
                0 => raw.due.position = rng.below(20),
                1 => raw.due.lane = rng.below(9) as u8,
                _ => raw.due.second = rng.below(3) as u8,
            },
            _ => {
                raw.entries = a_table(rng, params).entries;
                if rng.permille(200) {
                    // Codes and lanes that there are not.
                    for entry in raw.entries.iter_mut().flatten() {
                        (entry.code, entry.lane) = (rng.below(8) as u8, rng.below(10) as u8);
                    }
                }
            }
        }
    }
    raw
}
