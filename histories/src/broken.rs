//! The histories on models that are wrong in one place: each must be caught. A wrong device is held against the right
//! model; where a claim about the whole history breaks, a wrong device is also held against one that is as wrong. A
//! fault of the card has no other side. Wrong heat splits are tried on drawn pairs of tables too.

mod splits;

use std::rc::Rc;

use paviluko_model::bus::sum;
use paviluko_model::sealed::{AROUND, HEAD_LEN, is_torn, record_at, record_len};
use paviluko_model::table::{ENTRY_LEN, number_at};
use paviluko_model::{Card, Due, Listed, Model, Params, Phase, Refusal, Store, Table};

use crate::bus::{FILLER, Frame, data_len};
use crate::device::{Answer, Call, Device, Reference, Twin};
use crate::heat::Seen;
use crate::raw::Raw;
use crate::tally::Tally;
use crate::world::run;

use splits::Wrong;

/// What is wrong.
#[derive(Clone, Copy, Debug, PartialEq, Eq)]
enum Fault {
    /// The greatest lane wins a tie.
    Order,
    /// Lanes are compared before stamps.
    LaneFirst,
    /// In one lane the lowest number wins a tie.
    NumberReversed,
    /// Truncate names R of every lane and sets lane 0's alone.
    LaneZeroAlone,
    /// Recover makes one checkpoint.
    OneCheckpoint,
    /// Recover raises V before R.
    VisibleFirst,
    /// Recover leaves V below W.
    VisibleLeft,
    /// A point counts from the start of service.
    CountsFromService,
    /// Accept says 7 on an empty list.
    FullAtOnce,
    /// Recover turns every log down.
    NoCard,
    /// Recover hands an empty table over.
    EmptyTable,
    /// Seal leaves its buffer.
    UntouchedBuffer,
    /// Seal writes behind the record.
    BytesBehind,
    /// Seal leaves the last block of its text as it was laid out.
    LastBlockPlain,
    /// A refused Point drops the records below it.
    RefusedPoint,
    /// A point that no checkpoint covers can be truncated at.
    Uncovered,
    /// Commit enters nothing into the table.
    NotEntered,
    /// The epoch stays in recovery.
    EpochStays,
    /// The sum of a frame is not compared.
    AnySum,
    /// Of a frame the last record that is wanted is taken.
    LastRecord,
    /// A VIF's extension bytes are not followed.
    NoVife,
    /// The zero of a write off the bus is left as it was.
    NoZero,
    /// Whatever does not open is passed over to the end of the log.
    AnyEnd,
    /// Fewer bytes than a head are passed over, and no others.
    FewBytesAlone,
    /// They are refused.
    FewBytesRefused,
    /// A record that lacks its last byte is refused.
    ByteShort,
    /// The kind of a torn record is not looked at.
    AnyKind,
    /// Nor its lane.
    AnyLane,
    /// Nor its n.
    AnyLength,
    /// Behind a torn record nothing is missed.
    NoneMissed,
    /// A card whose empty store leaves a torn record.
    TornStays,
    /// The plain table leaves the entry of a meter without a reading as it was lent.
    AbsentLeft,
    /// The plain table leaves the last byte of an entry as it was lent.
    SpareLeft,
    /// A wrong heat split.
    Split(Wrong),
}

/// The model with a fault.
struct Broken {
    fault: Fault,
    twin: Twin,
    /// W when service began.
    began: Vec<u64>,
}

impl Broken {
    fn new(fault: Fault) -> Broken {
        let mut params = Params::scope();
        match fault {
            Fault::Order => params = Params::old_order(),
            Fault::LaneFirst => params.later = |a, b| (b.lane, a.stamp, a.number) > (a.lane, b.stamp, b.number),
            Fault::NumberReversed => params.later = |a, b| (a.stamp, b.lane, b.number) > (b.stamp, a.lane, a.number),
            _ => {}
        }
        Broken { fault, twin: Twin::new(&params), began: Vec::new() }
    }
}

impl Device for Broken {
    fn call(&mut self, call: &Call, out: &mut [u8]) -> Answer {
        let before = self.twin.model.clone();
        if let (Fault::FullAtOnce, Call::Accept { .. }, Some(model)) = (self.fault, call, &before)
            && model.records.is_empty()
            && is_taken(model, call)
        {
            return Err(Refusal { number: 7, value: 0 });
        }
        if let (Fault::NoCard, Call::Recover { .. }, Some(model)) = (self.fault, call, &before)
            && model.phase == Phase::Cold
            && is_taken(model, call)
        {
            return Err(Refusal { number: 9, value: 0 });
        }
        if let (Fault::Uncovered, Call::Truncate { .. }, Some(model)) = (self.fault, call, &mut self.twin.model) {
            model.points.iter_mut().for_each(|point| point.covered = true);
        }
        let kept = out.to_vec();
        let mut answer = match (call, &before) {
            (Call::Recover { checkpoint, log, room }, Some(model)) if model.phase == Phase::Cold => {
                let log = misread_end(self.fault, model, log);
                self.twin.call(&Call::Recover { checkpoint: Rc::clone(checkpoint), log, room: *room }, out)
            }
            _ => self.twin.call(call, out),
        };
        let Some(model) = &mut self.twin.model else { return answer };
        let was = |due: Due| before.as_ref().is_some_and(|model| model.due == due);
        match (self.fault, call) {
            (Fault::LaneZeroAlone, Call::Truncate { .. }) => {
                if let (Ok(taken), Some(before)) = (&answer, &before)
                    && let Some(Store::R { lane, .. }) = taken.store
                    && lane > 0
                {
                    model.vault.r[usize::from(lane)] = before.vault.r[usize::from(lane)];
                }
            }
            (Fault::OneCheckpoint, Call::Recover { .. }) if model.due == Due::RecoverSeal => {
                model.due = Due::RecoverR { lane: 0 };
            }
            (Fault::VisibleFirst, Call::Recover { .. }) => {
                // E, V, then R: the stores' order is turned round.
                if was(Due::RecoverVersion { second: true }) && model.vault.w != model.vault.v && answer.is_ok() {
                    model.due = Due::RecoverEpoch;
                } else if model.due == Due::RecoverEmpty && was(Due::RecoverV { lane: 7 }) {
                    model.due = Due::RecoverR { lane: 0 };
                }
            }
            (Fault::VisibleLeft, Call::Recover { .. }) if model.due == (Due::RecoverV { lane: 0 }) => {
                model.due = Due::RecoverEmpty;
            }
            (Fault::EpochStays, Call::Recover { .. }) if model.due == Due::RecoverEpoch => {
                model.due = Due::RecoverV { lane: 0 };
            }
            (Fault::CountsFromService, Call::Recover { .. }) if model.phase == Phase::InService => {
                self.began = model.vault.w.clone();
            }
            (Fault::CountsFromService, Call::Point { .. }) if answer.is_ok() => {
                if let Some(point) = model.points.last_mut() {
                    for (count, began) in point.counts.iter_mut().zip(&self.began) {
                        *count = count.saturating_sub(*began);
                    }
                }
            }
            (Fault::EmptyTable, Call::Recover { .. }) if was(Due::Nothing) && answer.is_ok() => {
                model.table = Table::empty(&model.params);
            }
            (Fault::UntouchedBuffer, Call::Seal { .. }) => out.copy_from_slice(&kept),
            (Fault::BytesBehind, Call::Seal { .. }) => {
                if let Ok(taken) = &mut answer
                    && let Some(byte) = out.get_mut(taken.len)
                {
                    *byte ^= 1;
                }
            }
            (Fault::LastBlockPlain, Call::Seal { .. }) if answer.is_ok() => {
                if let Some(text) = before.as_ref().and_then(|model| model.held.as_ref()).map(|held| &held.text) {
                    let last = (text.len() - 1) / 16 * 16;
                    out[20 + last..20 + text.len()].copy_from_slice(&text[last..]);
                }
            }
            (Fault::RefusedPoint, Call::Point { position }) if answer.is_err() => {
                model.records.retain(|listed: &Listed| listed.position >= *position);
            }
            (Fault::NotEntered, Call::Commit { .. }) if answer.is_ok() => {
                if let Some(before) = before {
                    model.table = before.table;
                }
            }
            (Fault::NoneMissed, Call::Recover { checkpoint, log, .. })
                if matches!(answer, Err(Refusal { number: 13, .. })) =>
            {
                let (reached, end) = read(model, log);
                if end < log.len() {
                    let v = std::mem::replace(&mut model.vault.v, reached);
                    answer = model.recover(checkpoint, log, out);
                    model.vault.v = v;
                }
            }
            _ => {}
        }
        answer
    }

    fn hear(&self, frame: &Frame, out: &mut [u8]) -> Answer {
        let mut misread = frame.clone();
        match self.fault {
            Fault::AnySum => put_sum(&mut misread.bytes),
            Fault::LastRecord => hide_all_but_the_last(&mut misread.bytes),
            Fault::NoVife => hide_extensions(&mut misread.bytes),
            _ => {}
        }
        let zero = out.get(11).copied();
        let answer = self.twin.hear(&misread, out);
        if let (Fault::NoZero, Ok(_), Some(zero)) = (self.fault, &answer, zero) {
            out[11] = zero;
        }
        answer
    }

    fn plain_table(&self, out: &mut [u8]) -> Answer {
        let kept = out.to_vec();
        let answer = self.twin.plain_table(out);
        let Ok(taken) = answer else { return answer };
        for (at, entry) in out[..taken.len].chunks_mut(ENTRY_LEN).enumerate() {
            let lent = &kept[at * ENTRY_LEN..][..ENTRY_LEN];
            match self.fault {
                Fault::AbsentLeft if entry[22] == 0 => entry.copy_from_slice(lent),
                Fault::SpareLeft if entry[22] == 1 => entry[23] = lent[23],
                _ => {}
            }
        }
        answer
    }

    fn split(&self, tables: &[u8], out: &mut [u8]) -> Answer {
        match self.fault {
            Fault::Split(wrong) => wrong.split(&self.twin.params, tables, out),
            _ => self.twin.split(tables, out),
        }
    }

    fn cut(&mut self) {
        self.twin.cut();
    }

    fn hand(&mut self, raw: &Raw) {
        self.twin.hand(raw);
    }

    fn unchanged(&self) -> bool {
        true
    }

    fn differs(&self, model: Option<&Model>) -> Option<String> {
        self.twin.differs(model)
    }
}

impl Reference for Broken {
    fn model(&self) -> Option<&Model> {
        self.twin.model()
    }

    fn store(&self, card: &mut Card, store: &Store, bytes: &Rc<[u8]>) {
        let begun = Rc::clone(&card.begun);
        card.carry_out(store, bytes);
        if self.fault == Fault::TornStays {
            card.begun = begun;
        }
    }
}

/// Whether a copy takes a call.
fn is_taken(model: &Model, call: &Call) -> bool {
    let mut twin = Twin { params: model.params, model: Some(model.clone()) };
    twin.call(call, &mut []).is_ok()
}

/// The visible numbers that a log's records reach in each lane, and where those that open end.
fn read(model: &Model, log: &[u8]) -> (Vec<u64>, usize) {
    let x = &model.vault;
    let mut reached: Vec<u64> = (0..x.v.len()).map(|i| x.r[i].min(x.v[i])).collect();
    let mut at = 0;
    while let Some((record, len)) = record_at(&model.params, &model.cipher, &log[at..]) {
        let i = usize::from(record.lane);
        if x.r[i] < record.number && record.number <= x.v[i] {
            reached[i] = record.number;
        }
        at += len;
    }
    (reached, at)
}

/// Bytes with others in place of some of them, where there are so many.
fn with(bytes: &[u8], at: usize, others: &[u8]) -> Vec<u8> {
    let mut bytes = bytes.to_vec();
    if let Some(place) = bytes.get_mut(at..at + others.len()) {
        place.copy_from_slice(others);
    }
    bytes
}

/// A log for the right reader in place of the one that a wrong reader of its end has: without what only that one passes
/// over, and with bytes that never open for what only that one refuses.
fn misread_end(fault: Fault, model: &Model, log: &Rc<[u8]>) -> Rc<[u8]> {
    let passes: fn(&Params, &[u8]) -> bool = match fault {
        Fault::AnyEnd => |_, _| true,
        Fault::FewBytesAlone => |_, last| last.len() < HEAD_LEN,
        Fault::FewBytesRefused => |params, last| last.len() >= HEAD_LEN && is_torn(params, last),
        Fault::ByteShort => |params, last| is_torn(params, last) && record_len(params, last) != Some(last.len() + 1),
        Fault::AnyKind => |params, last| is_torn(params, &with(last, 0, &[1])),
        Fault::AnyLane => |params, last| is_torn(params, &with(last, 1, &[0])),
        Fault::AnyLength => |params, last| match record_len(params, &with(last, 2, &[16, 0])) {
            Some(_) => last.len() < number_at(last, 2, 2) as usize + AROUND,
            None => is_torn(params, last),
        },
        _ => return Rc::clone(log),
    };
    let params = &model.params;
    let (_, end) = read(model, log);
    let last = &log[end..];
    if last.is_empty() || log.len() > params.log {
        return Rc::clone(log);
    }
    match (passes(params, last), is_torn(params, last)) {
        (true, false) => log[..end].into(),
        (false, true) => [&log[..end], &vec![255; last.len().max(HEAD_LEN)]].concat().into(),
        _ => Rc::clone(log),
    }
}

/// The L bytes of what is as long as a frame with a header.
fn inside(frame: &mut [u8]) -> &mut [u8] {
    let len = frame.len();
    if len < 21 { &mut [] } else { &mut frame[4..len - 2] }
}

/// Puts the sum right.
fn put_sum(frame: &mut [u8]) {
    let sum = sum(inside(frame));
    if let [.., at, _] = frame {
        *at = sum;
    }
}

/// Where the DIF and the VIF of each record stand in the L bytes, by a reader that follows a VIF's extension bytes or not.
fn records(inside: &[u8], vife: bool) -> Vec<(usize, usize)> {
    let behind = |at: usize| at + 1 + inside[at..].iter().take_while(|byte| **byte >= 0x80).count();
    let mut out = Vec::new();
    let mut at = 15;
    while at < inside.len() {
        if inside[at] == FILLER {
            at += 1;
            continue;
        }
        let Some(len) = data_len(inside[at]) else { break };
        let vif = behind(at);
        if vif >= inside.len() {
            break;
        }
        out.push((at, vif));
        at = len + if vife { behind(vif) } else { vif + 1 };
    }
    out
}

/// Changes the L bytes; a sum that is right stays so, and a wrong one wrong.
fn reread(frame: &mut [u8], change: impl Fn(&mut [u8])) {
    let before = sum(inside(frame));
    change(inside(frame));
    let more = sum(inside(frame)).wrapping_sub(before);
    if let [.., at, _] = frame {
        *at = at.wrapping_add(more);
    }
}

/// Makes each wanted record but the last one of another unit.
fn hide_all_but_the_last(frame: &mut [u8]) {
    reread(frame, |inside| {
        let mut wanted = records(inside, true);
        let unit = if matches!(inside.get(10), Some(0x07 | 0x16 | 0x06 | 0x15)) { 0x13 } else { 0x06 };
        wanted.retain(|&(dif, vif)| (inside[dif], inside[vif]) == (0x0C, unit));
        wanted.pop();
        wanted.iter().for_each(|&(_, vif)| inside[vif] ^= 0x20);
    });
}

/// Makes each VIF one without extension bytes.
fn hide_extensions(frame: &mut [u8]) {
    reread(frame, |inside| records(inside, false).iter().for_each(|&(_, vif)| inside[vif] &= 0x7F));
}

/// Runs histories until one fails.
fn first_failure(histories: u64, one: impl Fn(u64, &mut Tally) -> Result<(), String>) -> Option<String> {
    let mut tally = Tally::default();
    (1..=histories).find_map(|seed| one(seed, &mut tally).err())
}

/// A fault on one side.
fn caught(fault: Fault) {
    let scope = Params::scope();
    let failure = first_failure(400, |seed, tally| run(Broken::new(fault), Twin::new(&scope), seed, 400, tally));
    assert!(failure.is_some(), "{fault:?} passes");
}

/// A fault on both sides: caught by what holds of whole histories, and first in these words.
fn caught_alone(fault: Fault, says: &str) {
    let failure = first_failure(2000, |seed, tally| run(Broken::new(fault), Broken::new(fault), seed, 400, tally));
    let Some(failure) = failure else { panic!("{fault:?} on both sides passes") };
    assert!(failure.contains(says), "{fault:?} on both sides: {failure}");
}

/// The same in some history, where other words come first.
fn caught_too(fault: Fault, says: &str) {
    let failure = first_failure(2000, |seed, tally| {
        let ran = run(Broken::new(fault), Broken::new(fault), seed, 400, tally);
        if ran.as_ref().is_err_and(|failure| !failure.contains(says)) { Ok(()) } else { ran }
    });
    assert!(failure.is_some(), "{fault:?} on both sides is never caught by: {says}");
}

#[test]
fn a_fault_on_one_side_is_caught() {
    for fault in [
        Fault::Order,
        Fault::LaneFirst,
        Fault::NumberReversed,
        Fault::LaneZeroAlone,
        Fault::OneCheckpoint,
        Fault::VisibleFirst,
        Fault::VisibleLeft,
        Fault::CountsFromService,
        Fault::FullAtOnce,
        Fault::NoCard,
        Fault::EmptyTable,
        Fault::UntouchedBuffer,
        Fault::BytesBehind,
        Fault::LastBlockPlain,
        Fault::RefusedPoint,
        Fault::Uncovered,
        Fault::NotEntered,
        Fault::EpochStays,
        Fault::AnySum,
        Fault::LastRecord,
        Fault::NoVife,
        Fault::NoZero,
        Fault::AnyEnd,
        Fault::FewBytesAlone,
        Fault::FewBytesRefused,
        Fault::ByteShort,
        Fault::AnyKind,
        Fault::AnyLane,
        Fault::AnyLength,
        Fault::NoneMissed,
        Fault::AbsentLeft,
        Fault::SpareLeft,
    ] {
        caught(fault);
    }
    splits::ALL.iter().for_each(|wrong| caught(Fault::Split(*wrong)));
}

#[test]
fn a_fault_on_both_sides_is_caught_by_what_is_known() {
    caught_alone(Fault::Order, "a tie is not the lowest lane's");
    caught_alone(Fault::LaneFirst, "is not as in the book");
    caught_alone(Fault::NumberReversed, "a tie is not the greatest number's");
    caught_alone(Fault::EmptyTable, "is not as in the book");
    caught_alone(Fault::BytesBehind, "is not as it was lent");
    caught_alone(Fault::LastBlockPlain, "a card that kept faith");
    caught_alone(Fault::NoCard, "a card that kept faith");
    caught_alone(Fault::LaneZeroAlone, "the state's numbers are not the vault's");
    caught_alone(Fault::CountsFromService, "lowers a vault number");
    caught_alone(Fault::Uncovered, "");
    caught_alone(Fault::NotEntered, "a tie is not the lowest lane's");
    caught_too(Fault::NotEntered, "is not as in the book");
    caught_alone(Fault::VisibleFirst, "a card that kept faith");
    caught_alone(Fault::OneCheckpoint, "a recovery of");
    caught_alone(Fault::VisibleLeft, "a recovery of");
    caught_alone(Fault::EpochStays, "a recovery of");
    caught_alone(Fault::AnySum, "(a byte changed) says");
    caught_alone(Fault::LastRecord, "(the wanted record twice) says");
    caught_alone(Fault::NoVife, "(records of all sorts) says");
    caught_too(Fault::NoVife, "extended) says");
    caught_alone(Fault::NoZero, "Accept says 4 to what came off the bus");
    caught_alone(Fault::AnyEnd, "bytes that are no torn record");
    for fault in [Fault::FewBytesAlone, Fault::FewBytesRefused, Fault::ByteShort] {
        caught_too(fault, "a card that kept faith");
        caught_too(fault, "bytes of a torn record");
    }
    caught_alone(Fault::AnyKind, "bytes that are no torn record");
    caught_alone(Fault::AnyLane, "bytes that are no torn record");
    caught_alone(Fault::AnyLength, "bytes that are no torn record");
    caught_alone(Fault::NoneMissed, "is not as in the book");
    caught_alone(Fault::TornStays, "in service with a torn record on the card");
    caught_alone(Fault::AbsentLeft, "tables out of states are no two tables");
    caught_alone(Fault::SpareLeft, "tables out of states are no two tables");
}

/// Tries drawn pairs of tables, until one fails.
fn pairs(device: &impl Device, model: &impl Device) -> Option<String> {
    Seen::default().run(24_000, 1, device, model).err()
}

#[test]
fn a_wrong_split_of_a_drawn_pair_is_caught() {
    for wrong in splits::ALL {
        let broken = Broken::new(Fault::Split(wrong));
        assert!(pairs(&broken, &Twin::new(&Params::scope())).is_some(), "{wrong:?} passes");
    }
}

/// On both sides: caught by what is known of a kind, and by the request's sentences.
#[test]
fn a_wrong_split_on_both_sides_is_caught_by_what_is_known() {
    for (wrong, says) in [
        (Wrong::NegativesCount, "19 comes, and should not"),
        (Wrong::Bits32, "not those of the heat meters with their uses"),
        (Wrong::AllToOne, "or one more"),
        (Wrong::LowestMeters, "got a unit"),
        (Wrong::LargestUses, "got a unit"),
        (Wrong::HigherFirst, "the higher got the unit"),
        (Wrong::NoLine, "not those of the heat meters with their uses"),
        (Wrong::AnyChange, "18 comes, and should not"),
        (Wrong::AbsentIsChange, "18 comes, and should not"),
        (Wrong::BytesBehind, "(a byte more, or more): "),
        (Wrong::NoNewline, "the last line has no end"),
        (Wrong::TotalFirst, "19 comes, and should not"),
        (Wrong::Nearest, "the shares add up to"),
        (Wrong::HeatAlone, "(code 0): "),
        (Wrong::RoomFirst, "with room 0 comes"),
        (Wrong::PartOfText, "is not as it was lent"),
        (Wrong::TurnedRound, "not those of the heat meters with their uses"),
    ] {
        let broken = || Broken::new(Fault::Split(wrong));
        let Some(failure) = pairs(&broken(), &broken()) else { panic!("{wrong:?} on both sides passes") };
        assert!(failure.contains(says), "{wrong:?} on both sides: {failure}");
    }
}

/// The right model against itself, on drawn pairs: nothing fails, and everything comes up.
#[test]
fn the_model_agrees_with_itself_on_pairs() {
    let mut seen = Seen::default();
    let twin = Twin::new(&Params::scope());
    assert_eq!(seen.run(24_000, 1, &twin, &twin), Ok(()));
    println!("{}", seen.table());
    assert_eq!(seen.missing(), Vec::<String>::new());
}

/// The right model against itself: nothing fails, and everything comes up.
#[test]
fn the_model_agrees_with_itself() {
    let scope = Params::scope();
    let mut tally = Tally::default();
    for seed in 1..=1000 {
        let ran = run(Twin::new(&scope), Twin::new(&scope), seed, 400, &mut tally);
        assert_eq!(ran, Ok(()));
    }
    println!("{}", tally.table());
    assert_eq!(tally.missing(), Vec::<String>::new());
}
