//! Stamps that are odd: before a meter's latest, or far ahead of the clock. Such a reading is taken, with a warning.

use std::time::{SystemTime, UNIX_EPOCH};

use paviluko_host::Collector;
use paviluko_host::transaction::Write;

use crate::screen::utc;

/// A stamp may lie so far ahead of the clock: a day.
const AHEAD: u64 = 86_400;

/// The clock, in seconds.
pub fn now() -> u64 {
    SystemTime::now().duration_since(UNIX_EPOCH).map_or(0, |since| since.as_secs())
}

/// What is odd about a transaction's stamp, before it is taken: a sentence for each thing.
pub fn odd(collector: Option<&Collector>, stamp: u64, writes: &[Write], now: u64) -> Vec<String> {
    let latest = |meter: u16| Some(collector?.reading(u8::try_from(meter).ok()?)?.stamp);
    let later: Vec<(u16, u64)> =
        writes.iter().filter_map(|w| Some((w.meter, latest(w.meter).filter(|&latest| stamp < latest)?))).collect();
    let mut said = Vec::new();
    if !later.is_empty() {
        said.push(before(stamp, &later));
    }
    if stamp > now.saturating_add(AHEAD) {
        said.push(ahead(stamp, writes));
    }
    said
}

/// A stamp before the latest of some meters.
fn before(stamp: u64, later: &[(u16, u64)]) -> String {
    let meters: Vec<String> = later.iter().map(|(meter, latest)| format!("{meter} ({latest})")).collect();
    let kept = if meters.len() == 1 { "that one" } else { "those" };
    let meters = named(&meters);
    format!("stamp {stamp} is before the latest of {meters}: the table keeps {kept}")
}

/// A stamp ahead of the clock.
fn ahead(stamp: u64, writes: &[Write]) -> String {
    let meters: Vec<String> = writes.iter().map(|write| write.meter.to_string()).collect();
    let (utc, meters) = (utc(stamp), named(&meters));
    format!(
        "stamp {stamp} ({utc}) is more than a day ahead of the clock: it is taken, \
         and no earlier reading of {meters} will be the latest"
    )
}

/// One meter or several.
fn named(meters: &[String]) -> String {
    let noun = if meters.len() == 1 { "meter" } else { "meters" };
    format!("{noun} {}", meters.join(", "))
}

#[cfg(test)]
mod tests {
    use super::*;

    #[test]
    fn a_day_ahead_of_the_clock() {
        let writes = [5, 7].map(|meter| Write { meter, code: 1, reading: 0 });
        assert_eq!(odd(None, 1000 + AHEAD, &writes, 1000), Vec::<String>::new());
        let said = odd(None, 1001 + AHEAD, &writes[..1], 1000);
        let text = "stamp 87401 (1970-01-02 00:16:41) is more than a day ahead of the clock: \
                    it is taken, and no earlier reading of meter 5 will be the latest";
        assert_eq!(said, [text]);
        assert!(odd(None, u64::MAX, &writes, u64::MAX).is_empty());
    }

    #[test]
    fn before_the_latest() {
        let text = "stamp 10 is before the latest of meters 5 (20), 7 (30): the table keeps those";
        assert_eq!(before(10, &[(5, 20), (7, 30)]), text);
        assert_eq!(before(10, &[(5, 20)]), "stamp 10 is before the latest of meter 5 (20): the table keeps that one");
    }
}
