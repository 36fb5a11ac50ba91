//! A history: its events one by one on both sides, compared, and what holds of the whole history asserted.

use std::collections::HashSet;
use std::rc::Rc;

use paviluko_model::card::Line;
use paviluko_model::table::number_at;
use paviluko_model::{Phase, Store, Table, Taken, Vault, sealed};

use crate::bus::{Heard, KINDS, Said};
use crate::device::{Answer, Call, Device, HEAT_SPLIT, PLAIN_TABLE, Reference, lent, same_answers};
use crate::draw::{self, Drawn, Event};
use crate::heat;
use crate::host::{Host, Style};
use crate::raw::Raw;
use crate::tally::Tally;
use crate::{ties, torn};

/// A named store that is not yet done.
struct Pending {
    store: Store,
    bytes: Rc<[u8]>,
    line: Option<Line>,
}

/// A history under way.
struct World<'a, D, R> {
    device: D,
    reference: R,
    tally: &'a mut Tally,
    pending: Option<Pending>,
    /// The book's table, and whether the book has grown since.
    shown: Option<Table>,
    /// What each nonce was made of: kind, lane, and the number or seal number.
    nonces: HashSet<(u8, u8, u64)>,
    /// Calls of the recovery under way.
    stores: u64,
    /// A counter is spent: nothing more comes of this history.
    over: bool,
    out: Vec<u8>,
    expected: Vec<u8>,
    /// What the two held when they were lent.
    lent: Vec<u8>,
    host: Host,
}

/// Runs the history of a seed; an error says where it failed and how to run it alone.
pub fn run<D: Device, R: Reference>(
    device: D,
    reference: R,
    seed: u64,
    events: u64,
    tally: &mut Tally,
) -> Result<(), String> {
    let host = Host::new(seed);
    let style = host.style;
    let mut world = World {
        device,
        reference,
        tally,
        pending: None,
        shown: None,
        nonces: HashSet::new(),
        stores: 0,
        over: false,
        out: Vec::new(),
        expected: Vec::new(),
        lent: Vec::new(),
        host,
    };
    let count = if style == Style::Long { events + 3600 } else { events };
    world.tally.histories += 1;
    for index in 0..count {
        if world.over {
            break;
        }
        world.tally.events += 1;
        world.step().and_then(|()| world.look_at_tables()).map_err(|what| {
            format!(
                "seed {seed}, event {index}, {style:?}: {what}\n\
                 to run it alone: histories --histories 1 --events {events} --seed {seed}"
            )
        })?;
    }
    Ok(())
}

impl<D: Device, R: Reference> World<'_, D, R> {
    /// Draws an event and goes through it.
    fn step(&mut self) -> Result<(), String> {
        let pending = self.pending.as_ref().map(|pending| &pending.store);
        match draw::event(&mut self.host, self.reference.model(), pending) {
            Event::Cut { done } => {
                self.tally.cuts += 1;
                if self.host.bound()
                    && self.pending.is_some()
                    && let Some(model) = self.reference.model()
                {
                    let kind = usize::from(Raw::due(model.due).kind);
                    self.tally.cut_at[kind.min(12)][usize::from(done)] += 1;
                }
                if done {
                    self.carry_out()?;
                }
                if let Some(Pending { store, bytes, .. }) = self.pending.take() {
                    self.host.card.cut(&store, &bytes);
                }
                self.device.cut();
                self.reference.cut();
                self.stores = 0;
                Ok(())
            }
            Event::Hand(raw) => {
                self.tally.handed += 1;
                self.pending = None;
                self.device.hand(&raw);
                self.reference.hand(&raw);
                self.same_states("a handed state")
            }
            Event::Bus(heard) => self.hear(&heard),
            Event::Call => {
                // A named store is done before the next call.
                self.carry_out()?;
                let drawn = draw::call(&mut self.host, self.reference.model())?;
                self.call(&drawn)
            }
        }
    }

    /// Carries out the named store.
    fn carry_out(&mut self) -> Result<(), String> {
        let Some(Pending { store, bytes, line }) = self.pending.take() else { return Ok(()) };
        let host = &mut self.host;
        if host.bound() && host.is_torn() && matches!(store, Store::Record { .. } | Store::Delete { .. }) {
            return Err(format!("{store:?} comes to a card with a torn record"));
        }
        let before = host.vault.clone();
        host.vault.carry_out(&store);
        self.reference.store(&mut host.card, &store, &bytes);
        if let Some(line) = line {
            host.book.lines.push(line);
            self.shown = None;
        }
        if host.bound() {
            let numbers = |x: &Vault| [x.w.clone(), x.v.clone(), x.r.clone(), vec![x.e, x.s, x.n]].concat();
            if numbers(&before).iter().zip(numbers(&host.vault)).any(|(old, new)| new < *old) {
                return Err(format!("{store:?} lowers a vault number"));
            }
        }
        if host.rng.permille(4) && host.snapshots.len() < 4 {
            host.snapshots.push(host.card.clone());
        }
        Ok(())
    }

    /// Hands both a frame, compares, and keeps what came out of it.
    fn hear(&mut self, heard: &Heard) -> Result<(), String> {
        let Heard { frame, kind, known } = heard;
        self.lend(frame.room);
        let answer = self.device.hear(frame, &mut self.out);
        let expected = self.reference.hear(frame, &mut self.expected);
        let told = |what: &str| format!("{what}\ncall: {frame}\ndevice: {answer:?}\nmodel: {expected:?}");
        self.same_answers(&answer, &expected).map_err(|what| told(&what))?;
        let said: Said = match &answer {
            Ok(Taken { store: None, len: 16 }) => Ok((self.out[10], number_at(&self.out, 12, 4) as u32 as i32)),
            Ok(_) => return Err(told("from_bus does not put out a transaction of one write")),
            Err(refusal) => Err(refusal.number),
        };
        self.tally.hear(*kind, &answer, said);
        if known.is_some_and(|known| said != known) {
            return Err(told(&format!("a frame ({}) says {said:?}, and should say {known:?}", KINDS[*kind].name)));
        }
        if said.is_ok() {
            self.host.off_bus = Some(self.out[..16].to_vec());
        }
        Ok(())
    }

    /// Now and then takes the plain table of the state, and splits the heat between one kept from earlier and the
    /// present one. Neither changes anything; they are drawn by numbers of their own.
    fn look_at_tables(&mut self) -> Result<(), String> {
        if self.reference.model().is_some() && self.host.heat.permille(60) {
            let room = match self.host.heat.below(10) {
                0 => self.host.heat.index(heat::TABLE_LEN),
                1 => heat::TABLE_LEN - 1,
                2 => heat::TABLE_LEN + 1 + self.host.heat.index(100),
                _ => heat::TABLE_LEN,
            };
            if let Some(table) = self.plain_table(room)? {
                self.host.keep_table(table);
            }
        }
        if self.host.tables.is_empty() || !self.host.heat.permille(60) {
            return Ok(());
        }
        // Without a state the present table is the one that was kept last.
        let now = match self.reference.model() {
            Some(_) => self.plain_table(heat::TABLE_LEN)?,
            None => self.host.tables.last().cloned(),
        };
        now.map_or(Ok(()), |now| self.split(&now))
    }

    /// Takes the plain table of both and compares: the table, if there was room for it.
    fn plain_table(&mut self, room: usize) -> Result<Option<Rc<[u8]>>, String> {
        let first = self.host.heat.any() as u8;
        self.lend_from(first, room);
        let answer = self.device.plain_table(&mut self.out);
        let expected = self.reference.plain_table(&mut self.expected);
        self.tally.count(PLAIN_TABLE, &expected);
        let told =
            |what: &str| format!("{what}\ncall: plain_table, room {room}\ndevice: {answer:?}\nmodel: {expected:?}");
        self.same_answers(&answer, &expected).map_err(|what| told(&what))?;
        match answer {
            Ok(Taken { store: None, len: heat::TABLE_LEN }) => Ok(Some(Rc::from(&self.out[..heat::TABLE_LEN]))),
            Err(refusal)
                if (refusal.number, refusal.value) == (3, heat::TABLE_LEN as u64) && room < heat::TABLE_LEN =>
            {
                Ok(None)
            }
            _ => Err(told("plain_table does not put out a table, and does not say that it has no room")),
        }
    }

    /// Splits the heat between a table kept from earlier and the present one, compares, and holds what comes of it to
    /// the request's sentences.
    fn split(&mut self, now: &Rc<[u8]>) -> Result<(), String> {
        let Host { heat: rng, params, tables, .. } = &mut self.host;
        let Some(kept) = rng.pick(tables).cloned() else { return Ok(()) };
        let own = heat::own(rng, params, &kept, now);
        let first = rng.any() as u8;
        self.lend_from(first, own.room);
        let answer = self.device.split(&own.bytes, &mut self.out);
        let expected = self.reference.split(&own.bytes, &mut self.expected);
        self.tally.count(HEAT_SPLIT, &expected);
        let told = |what: &str| {
            let (len, room) = (own.bytes.len(), own.room);
            format!("{what}\ncall: heat_split of {len} bytes, room {room}\ndevice: {answer:?}\nmodel: {expected:?}")
        };
        self.same_answers(&answer, &expected).map_err(|what| told(&what))?;
        match answer {
            Ok(Taken { store: None, len }) if own.twice => {
                Err(told(&format!("a table and itself have a text, {len} bytes")))
            }
            Ok(Taken { store: None, len }) => {
                let split = heat::held(&own.bytes, &self.out[..len]).map_err(|what| told(&what))?;
                self.tally.split(&split);
                Ok(())
            }
            Ok(_) => Err(told("a split names a store")),
            Err(refusal) if refusal.number == 4 && own.whole && self.host.bound() => {
                Err(told("tables out of states are no two tables"))
            }
            Err(refusal) if refusal.number == 18 && own.twice => Err(told("a table and itself have different codes")),
            Err(_) => Ok(()),
        }
    }

    /// Lends both so much room, with the same bytes in it.
    fn lend(&mut self, room: usize) {
        let first = self.host.rng.any() as u8;
        self.lend_from(first, room);
    }

    /// The same from a first byte on.
    fn lend_from(&mut self, first: u8, room: usize) {
        self.lent.clear();
        self.lent.extend(lent(first, room));
        self.out.clone_from(&self.lent);
        self.expected.clone_from(&self.lent);
    }

    /// Compares two answers, and what was lent.
    fn same_answers(&self, answer: &Answer, expected: &Answer) -> Result<(), String> {
        same_answers(answer, expected, &self.lent, &self.out, &self.expected)
    }

    /// Calls both, compares, and keeps the host's side.
    fn call(&mut self, drawn: &Drawn) -> Result<(), String> {
        let call = &drawn.call;
        if self.host.bound()
            && let Some(model) = self.reference.model()
            && model.vault != self.host.vault
        {
            return Err(format!("the state's numbers are not the vault's: {:?} {:?}", model.vault, self.host.vault));
        }
        let was = |phase: Phase| self.reference.model().is_some_and(|model| model.phase == phase);
        if self.host.bound() && self.host.is_torn() && was(Phase::InService) {
            return Err("in service with a torn record on the card".to_string());
        }
        let was_cold = was(Phase::Cold);
        let table = match call {
            Call::Commit { .. } => self.reference.model().map(|model| model.table.clone()),
            _ => None,
        };
        self.lend(call.room());
        let answer = self.device.call(call, &mut self.out);
        let expected = self.reference.call(call, &mut self.expected);
        self.tally.count(call.operation(), &expected);
        let told = |what: &str| format!("{what}\ncall: {call}\ndevice: {answer:?}\nmodel: {expected:?}");
        self.same_answers(&answer, &expected).map_err(|what| told(&what))?;
        if answer.is_err() && !self.device.unchanged() {
            return Err(told("the refused call changed the state"));
        }
        self.same_states("after the call").map_err(|what| told(&what))?;
        self.keep(drawn, &answer, was_cold, table.as_ref()).map_err(|what| told(&what))
    }

    fn same_states(&self, when: &str) -> Result<(), String> {
        self.device.differs(self.reference.model()).map_or(Ok(()), |what| Err(format!("{when}: {what}")))
    }

    /// Keeps what a call named and put out, and asserts what holds of the whole history. A Commit comes with the table
    /// before it.
    fn keep(&mut self, drawn: &Drawn, answer: &Answer, was_cold: bool, table: Option<&Table>) -> Result<(), String> {
        let call = &drawn.call;
        let host = &mut self.host;
        let bound = host.bound();
        let own = |vault: &Vault, key: &[u8]| *vault == host.vault && key == host.cipher.key();
        if bound && answer.is_err() && matches!(call, Call::Load { vault, key } if own(vault, key)) {
            return Err("Load does not take the vault's own numbers".to_string());
        }
        if bound
            && drawn.faithful
            && let Call::Recover { log, .. } = call
        {
            self.tally.longest = self.tally.longest.max(log.len());
            let max = host.params.counter;
            let spent = host.vault.s > max - 2 || host.vault.n > max - 2 || host.vault.e == max;
            match answer {
                Err(refusal) if spent && refusal.number == 8 => {
                    self.tally.spent += 1;
                    self.over = host.rng.permille(200);
                }
                Ok(taken) if !spent && taken.store == Some(Store::N { value: host.vault.n + 1 }) => {
                    self.tally.faithful[0] += 1;
                    self.tally.faithful[1] += u64::from(!host.book.lines.is_empty());
                    torn::shown(log.len() - host.card.log(0).len(), host.card.begun.len(), self.tally);
                }
                _ => return Err("a card that kept faith was not answered as it should be".to_string()),
            }
        }
        if bound && was_cold && !drawn.faithful && matches!(call, Call::Recover { .. }) {
            self.tally.other_cards[usize::from(answer.is_err())] += 1;
        }
        if was_cold && let Call::Recover { log, .. } = call {
            torn::met(&host.params, log, answer, drawn.faithful, self.tally)?;
        }
        if matches!(call, Call::Accept { transaction, .. } if host.off_bus.as_ref() == Some(transaction)) {
            match answer {
                Err(refusal) if refusal.number == 4 => return Err("Accept says 4 to what came off the bus".to_string()),
                Err(_) => {}
                Ok(_) => {
                    self.tally.off_bus += 1;
                    host.off_bus = None;
                }
            }
        }
        let Ok(taken) = answer else { return Ok(()) };
        let Some(model) = self.reference.model() else { return Err("a taken call left no state".to_string()) };

        // The table after an accepted Recover is the book's.
        if let Call::Recover { checkpoint, log, .. } = call {
            if bound {
                let shown = self.shown.get_or_insert_with(|| host.book.table(&host.params));
                if let Some(meter) = (0..host.params.meters).find(|&i| shown.entries[i] != model.table.entries[i]) {
                    return Err(format!(
                        "meter {meter} is not as in the book: {:?}, where the book has {:?}",
                        model.table.entries[meter], shown.entries[meter]
                    ));
                }
                self.tally.book[0] += 1;
                self.tally.book[1] += u64::from(!shown.is_empty());
            }
            if was_cold {
                ties::recovered(model, checkpoint, log, self.tally)?;
            }
            self.stores = if was_cold { 1 } else { self.stores + 1 };
            if taken.store == Some(Store::Empty) && bound {
                match self.stores {
                    15 => self.tally.recoveries[0] += 1,
                    24 => self.tally.recoveries[1] += 1,
                    other => return Err(format!("a recovery of {other} stores")),
                }
            }
        }

        let bytes: Rc<[u8]> = Rc::from(&self.out[..taken.len]);
        if !bytes.is_empty() {
            self.tally.put_out[call.operation()][usize::from(bytes.len() < self.out.len())] += 1;
        }
        match taken.store {
            Some(Store::Record { .. }) => host.records.push(Rc::clone(&bytes)),
            Some(Store::Checkpoint) => host.files.push(Rc::clone(&bytes)),
            _ if taken.len > 0 => return Err("bytes put out without a card store".to_string()),
            _ => {}
        }
        if bound && taken.len > 0 && !self.nonces.insert((bytes[0], bytes[1], number_at(&bytes, 12, 8))) {
            return Err("a nonce is used twice".to_string());
        }
        let line = match call {
            Call::Commit { record } => sealed::open_record(&host.params, &host.cipher, record)
                .map(|sealed::Record { lane, number, transaction, .. }| Line { lane, number, transaction }),
            _ => None,
        };
        if let (Some(line), Some(before)) = (&line, table) {
            ties::met(line, before, &model.table, self.tally)?;
        }
        self.pending = taken.store.map(|store| Pending { store, bytes, line });
        Ok(())
    }
}
