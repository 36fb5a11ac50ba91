//! Draws what comes next, by the style of the history and the state: a cut, a handed state, a frame, or which call.

use paviluko_model::{Due, Model, Phase, Store};

use crate::bus::{self, Heard};
use crate::calls::{accept, checkpoint, commit, go_on, lengthen, load, point, seal, truncate};
use crate::cards;
use crate::device::Call;
use crate::host::{Host, Style};
use crate::raw::Raw;
use crate::states;

/// What comes next.
pub enum Event {
    /// A cut, behind the named store or before it.
    Cut { done: bool },
    /// A handed state.
    Hand(Box<Raw>),
    /// A frame off the bus.
    Bus(Box<Heard>),
    /// A call, which `call` draws once the named store is done.
    Call,
}

/// A call that was drawn.
pub struct Drawn {
    pub call: Call,
    /// A first Recover with what a card that kept faith hands over.
    pub faithful: bool,
}

fn plain(call: Call) -> Result<Drawn, String> {
    Ok(Drawn { call, faithful: false })
}

/// All calls but Load; the last one is Recover, where it is not the first call of a recovery.
const CALLS: [fn(&mut Host, &Model) -> Call; 7] = [accept, seal, commit, point, checkpoint, truncate, go_on];

/// The next event, where this store is named and not yet done.
pub fn event(host: &mut Host, model: Option<&Model>, pending: Option<&Store>) -> Event {
    let record = matches!(pending, Some(Store::Record { .. }));
    let cuts = match host.style {
        Style::Plain if record => 24,
        Style::Plain | Style::Points | Style::Aged => 8,
        Style::Wild | Style::Odd => 3,
        Style::Journal => 1,
        // More of them where a store comes up seldom, and where a record may be torn.
        Style::Cuts if record => 100,
        Style::Cuts => match model.map(|model| model.due) {
            Some(Due::File | Due::Version | Due::TruncateDelete { .. }) => 250,
            Some(Due::RecoverEpoch | Due::RecoverEmpty | Due::RecoverSeal) => 80,
            _ => 35,
        },
        Style::Long => 0,
    };
    let full = host.filling() && model.is_some_and(|model| is_full(host, model));
    if full || host.rng.permille(cuts) {
        host.filled |= full;
        let done = if full { !host.tears } else { host.rng.permille(500) };
        return Event::Cut { done };
    }
    let handed = match host.style {
        Style::Wild => 60,
        Style::Odd => 350,
        _ => 0,
    };
    if host.rng.permille(handed) {
        return Event::Hand(Box::new(states::odd(host, model)));
    }
    if !host.filling() && host.rng.permille(40) {
        return Event::Bus(Box::new(bus::heard(&mut host.rng, &host.params)));
    }
    Event::Call
}

/// Whether the list and the points are full and everything is visible; where the last record is to be torn, it has just
/// been sealed.
fn is_full(host: &Host, model: &Model) -> bool {
    model.points.len() == host.params.points
        && model.records.len() == host.params.records
        && model.due == Due::Nothing
        && (model.vault.v == model.vault.w || host.tears)
}

/// The next call; an error where the card lacks what it should have.
pub fn call(host: &mut Host, model: Option<&Model>) -> Result<Drawn, String> {
    let Some(model) = model else { return plain(load(host)) };
    if !host.filling() {
        let loads = match host.style {
            Style::Wild | Style::Odd if !model.vault.legal(&host.params) => 300,
            Style::Journal => 2,
            _ => 12,
        };
        if host.rng.permille(loads) {
            return plain(load(host));
        }
        if host.rng.permille(60) {
            return stray(host, model);
        }
    }
    plain(match (model.phase, model.due) {
        (Phase::Cold, _) => return first_recover(host, model),
        (Phase::Recovering, _) => go_on(host, model),
        (Phase::InService, Due::Record) => seal(host, model),
        (Phase::InService, Due::File | Due::Version) => checkpoint(host, model),
        (Phase::InService, Due::TruncateR { .. } | Due::TruncateDelete { .. }) => truncate(host, model),
        (Phase::InService, Due::Nothing) if host.filling() => lengthen(host, model),
        (Phase::InService, Due::Nothing) => {
            let weights = match host.style {
                Style::Journal => [90, 0, 4, 1, 1, 1, 0],
                Style::Points => [15, 0, 22, 40, 12, 10, 0],
                _ => [34, 0, 36, 9, 6, 8, 0],
            };
            CALLS[host.rng.weighted(&weights)](host, model)
        }
        _ => return stray(host, model),
    })
}

/// Any call, whatever is due.
fn stray(host: &mut Host, model: &Model) -> Result<Drawn, String> {
    match host.rng.index(CALLS.len()) {
        6 if model.phase == Phase::Cold => first_recover(host, model),
        which => plain(CALLS[which](host, model)),
    }
}

/// The first call of a recovery.
fn first_recover(host: &mut Host, model: &Model) -> Result<Drawn, String> {
    if !host.bound() {
        return plain(cards::forged(host, model));
    }
    if host.filling() || host.rng.permille(600) {
        return Ok(Drawn { call: cards::faithful(host, model.vault.s)?, faithful: true });
    }
    plain(cards::changed(host, model))
}
