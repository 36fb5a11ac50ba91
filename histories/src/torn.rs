//! The end of a log. What holds of it is said from the request's sentences ("Recover passes over the last bytes of the
//! log if fewer than 20 remain, or if a head with a legal kind, lane and n stands there and fewer than n + 40 bytes
//! remain. Anything else that doesn't open is still 9") and not by the model's rule.

use paviluko_model::{Params, Refusal};

use crate::device::Answer;
use crate::tally::Tally;

/// The n + 40 of a head, if one with a legal kind, lane and n stands there.
fn told(params: &Params, bytes: &[u8]) -> Option<usize> {
    let &[1, lane, low, high, ..] = bytes else { return None };
    let n = usize::from(high) << 8 | usize::from(low);
    let legal = bytes.len() >= 20 && usize::from(lane) < params.lanes && n % 8 == 0;
    (legal && (16..=8 + 8 * params.writes).contains(&n)).then_some(n + 40)
}

/// Whether the last bytes are passed over.
fn is_passed(params: &Params, last: &[u8]) -> bool {
    last.len() < 20 || told(params, last).is_some_and(|len| last.len() < len)
}

/// What stands behind the records of a log of which none was refused.
fn behind_records<'a>(params: &Params, log: &'a [u8]) -> &'a [u8] {
    let mut last = log;
    while let Some(behind) = told(params, last).and_then(|len| last.get(len..)) {
        last = behind;
    }
    last
}

/// The end of a log that a first Recover was handed: answered as it should be, and counted where the card is not one
/// that kept faith.
pub fn met(params: &Params, log: &[u8], answer: &Answer, faithful: bool, tally: &mut Tally) -> Result<(), String> {
    let seen = match answer {
        Ok(_) | Err(Refusal { number: 13, .. }) => {
            let last = behind_records(params, log);
            if !is_passed(params, last) {
                return Err(format!("the end of a log is passed over, {} bytes that are no torn record", last.len()));
            }
            (!last.is_empty()).then_some(usize::from(answer.is_err()))
        }
        // With 0 it may be the checkpoint's.
        Err(Refusal { number: 9, value: at @ 1.. }) => {
            let last = log.get(*at as usize..).unwrap_or_default();
            if is_passed(params, last) {
                return Err(format!("the end of a log is refused, {} bytes of a torn record", last.len()));
            }
            (told(params, last) == Some(last.len())).then_some(2)
        }
        _ => None,
    };
    if let Some(seen) = seen.filter(|_| !faithful) {
        tally.other_ends[seen] += 1;
    }
    Ok(())
}

/// Counts what an accepted card that kept faith showed of a torn record of so many bytes.
pub fn shown(bytes: usize, of: usize, tally: &mut Tally) {
    let seen = match bytes {
        0 => return,
        1..20 => 0,
        20 => 1,
        _ if bytes < of => 2,
        _ => 3,
    };
    tally.torn[seen] += 1;
}
