//! What is shown: the caretaker's table, and a box's status.

use std::fmt::Write;
use std::path::Path;

use paviluko_host::card::{CHECKPOINTS, Torn};
use paviluko_host::files::shown;
use paviluko_host::runner::{Moment, Runner};
use paviluko_host::words::medium;
use paviluko_host::{Collector, LANES, POINTS, RECORDS, Reading};

use crate::wrap::{WIDTH, wrap};

/// Where a status line's text begins.
const COLUMN: usize = 11;
/// E, S and N in few words.
const ABOUT_BOX: [(&str, &str); 3] = [
    ("E", "the epoch: a start that gives numbers up begins the next one"),
    ("S", "the version of the checkpoint in use"),
    ("N", "the seal number of the last checkpoint: none is used twice"),
];
/// What becomes of a torn record.
const ABOUT_TORN: &str = "A start passes over what is there of it; if the record is visible, it is missing (13)";
/// W, V and R in few words; at most 40 columns.
const ABOUT_LANES: [&str; 3] = [
    "W  numbers handed out in the lane",
    "V  of these visible, or given up",
    "R  of these truncated: in the checkpoint",
];

/// The caretaker's table, in aligned columns.
pub fn table(readings: &[(u8, Reading)]) -> String {
    let heading = ["meter", "medium", "reading", "unit", "stamp", "UTC", "lane", "number"].map(String::from);
    let rows = readings.iter().map(|(meter, r)| {
        let (medium, unit) = medium(r.code);
        [
            meter.to_string(),
            medium.to_string(),
            r.reading.to_string(),
            unit.to_string(),
            r.stamp.to_string(),
            utc(r.stamp),
            r.lane.to_string(),
            r.number.to_string(),
        ]
    });
    let rows: Vec<[String; 8]> = std::iter::once(heading).chain(rows).collect();
    // Words stand to the left of their column, numbers to the right.
    let words = [false, true, false, true, false, true, false, false];
    aligned(&rows, words)
}

/// The table as a plain list. A stamp behind the year 9999 has no `utc`.
pub fn table_csv(readings: &[(u8, Reading)]) -> String {
    let mut out = String::from("meter,code,reading,stamp,lane,number,medium,unit,utc\n");
    for (meter, r) in readings {
        let (medium, unit) = medium(r.code);
        let utc = moment(r.stamp).map_or(String::new(), |(date, time)| format!("{date}T{time}Z"));
        let Reading { stamp, lane, number, code, reading } = r;
        let _ = writeln!(out, "{meter},{code},{reading},{stamp},{lane},{number},{medium},{unit},{utc}");
    }
    out
}

/// A box's status: where the box and its card are, what the box is at, and the vault's 27 numbers with what they mean. The lines
/// above the lanes, and the lanes.
pub fn status(runner: &Runner) -> (String, String) {
    let mut out = String::new();
    let mut line = |name: &str, text: &str| out.push_str(&wrap(&format!("{name:<COLUMN$}{text}"), COLUMN));
    line("box", &near(runner.folder().path()));
    let (card, found) = card_folders(runner);
    line("card", &card);
    if let Some(found) = found {
        line("torn", &format!("{}. {ABOUT_TORN}", torn(&found)));
    }
    let collector = runner.collector();
    line("phase", &collector.map_or("no power".to_string(), |c| c.phase().to_string()));
    if let Some(collector) = collector {
        line("due store", &collector.due().to_string());
        line("records", &format!("{} of {RECORDS} since the newest point", collector.records()));
        line("points", &points(collector));
    }
    if let Some((store, moment)) = runner.cut_set() {
        line("plug", &format!("to be pulled {}", plug(store, moment)));
    }
    let numbers = runner.numbers();
    let values = [numbers.e, numbers.s, numbers.n].map(|number| number.to_string());
    let widest = values.iter().map(String::len).max().unwrap_or(0);
    for (at, ((name, about), value)) in ABOUT_BOX.iter().zip(&values).enumerate() {
        line(if at == 0 { "vault" } else { "" }, &format!("{name} {value:>widest$}   {about}"));
    }
    (out, lanes(runner))
}

/// W, V and R of the lanes, with what they mean beside them.
fn lanes(runner: &Runner) -> String {
    let numbers = runner.numbers();
    let heading = ["lane", "W", "V", "R"].map(String::from);
    let lanes = (0..LANES).map(|lane| [lane as u64, numbers.w[lane], numbers.v[lane], numbers.r[lane]]);
    let rows: Vec<[String; 4]> =
        std::iter::once(heading).chain(lanes.map(|row| row.map(|number| number.to_string()))).collect();
    let text = aligned(&rows, [false; 4]);
    let about = std::iter::once("").chain(ABOUT_LANES).chain(std::iter::repeat(""));
    text.lines().zip(about).fold(String::new(), |mut out, (row, about)| {
        let _ = writeln!(out, "{}", format!("{row}   {about}").trim_end());
        out
    })
}

/// The card that is in, and what it holds.
pub fn card(runner: &Runner) -> String {
    let seen = runner.card().and_then(|card| card.held().map(|held| (near(card.folder()), held)));
    match seen {
        Ok((folder, held)) => {
            format!("{folder}: {}, {}", count(held.records, "record"), count(held.checkpoints, "checkpoint"))
        }
        Err(fault) => fault.to_string(),
    }
}

/// The same, with where on the card it is; and the torn record that the card shows.
fn card_folders(runner: &Runner) -> (String, Option<Torn>) {
    let seen = runner.card().and_then(|card| Ok((near(card.folder()), card.held()?, card.records_folder()?)));
    match seen {
        Ok((folder, held, records_folder)) => {
            let (records, checkpoints) = (count(held.records, "record"), count(held.checkpoints, "checkpoint"));
            (format!("{folder}: {records} in {records_folder}, {checkpoints} in {}", CHECKPOINTS), held.torn)
        }
        Err(fault) => (fault.to_string(), None),
    }
}

/// What is there of a torn record.
pub fn torn(torn: &Torn) -> String {
    let Torn { position, bytes, whole } = *torn;
    let there = whole.map_or(count(bytes, "byte"), |whole| format!("{bytes} of {whole} bytes"));
    format!("{there} of a record at position {position}")
}

/// When the plug is pulled.
pub fn plug(store: u64, moment: Moment) -> String {
    let written = match moment {
        Moment::During { bytes } => format!(", with {} written", count(bytes, "byte")),
        Moment::Before | Moment::After => String::new(),
    };
    format!("{moment} store {store} from here{written}")
}

/// So many of a thing.
pub fn count(number: usize, thing: &str) -> String {
    match number {
        1 => format!("1 {thing}"),
        _ => format!("{number} {thing}s"),
    }
}

/// A path, from the folder that the program was started in.
pub fn near(path: &Path) -> String {
    let here = std::env::current_dir().unwrap_or_default();
    shown(path.strip_prefix(&here).unwrap_or(path))
}

/// The points kept.
fn points(collector: &Collector) -> String {
    let points = &collector.state().points;
    let kept = points.items.iter().take(points.count);
    let each: Vec<String> =
        kept.map(|p| format!("{}{}", p.position, if p.covered == 1 { " (covered)" } else { "" })).collect();
    let list = if each.is_empty() { String::new() } else { format!(": {}", each.join(", ")) };
    format!("{} of {POINTS}{list}", collector.points())
}

/// Rows in columns as wide as their widest cell; the columns of words stand to the left.
pub fn aligned<const N: usize>(rows: &[[String; N]], words: [bool; N]) -> String {
    let mut out = String::new();
    let width = |column: usize| rows.iter().map(|row| row[column].len()).max().unwrap_or(0);
    let widths: [usize; N] = std::array::from_fn(width);
    // Two spaces stand between columns; one, where that would be too wide.
    let wide = widths.iter().sum::<usize>() + 2 * (N - 1) > WIDTH;
    let gap = if wide { " " } else { "  " };
    for row in rows {
        let cells: Vec<String> = (0..N)
            .map(|c| {
                if words[c] {
                    format!("{:<w$}", row[c], w = widths[c])
                } else {
                    format!("{:>w$}", row[c], w = widths[c])
                }
            })
            .collect();
        let _ = writeln!(out, "{}", cells.join(gap).trim_end());
    }
    out
}

/// A stamp as a date and time of day, UTC; the years to 9999.
pub fn utc(stamp: u64) -> String {
    moment(stamp).map_or("after 9999".to_string(), |(date, time)| format!("{date} {time}"))
}

/// The same in two parts; nothing for a later year.
fn moment(stamp: u64) -> Option<(String, String)> {
    if stamp >= 253_402_300_800 {
        return None;
    }
    let (day, second) = (stamp / 86_400, stamp % 86_400);
    let (year, month, day) = date(day);
    let time = format!("{:02}:{:02}:{:02}", second / 3600, second / 60 % 60, second % 60);
    Some((format!("{year:04}-{month:02}-{day:02}"), time))
}

/// Year, month and day of a day counted from 1 January 1970. Years begin in March here, so that a leap day is the last.
fn date(day: u64) -> (u64, u64, u64) {
    let day = day + 719_468; // from 1 March of the year 0
    let (era, day) = (day / 146_097, day % 146_097); // 400 years
    let year = (day - day / 1_460 + day / 36_524 - day / 146_096) / 365;
    let day = day - (365 * year + year / 4 - year / 100);
    let month = (5 * day + 2) / 153;
    let day = day - (153 * month + 2) / 5 + 1;
    let (month, next) = if month < 10 { (month + 3, 0) } else { (month - 9, 1) };
    (era * 400 + year + next, month, day)
}

#[cfg(test)]
mod tests {
    use super::*;
    use paviluko_host::COUNTER_MAX;

    #[test]
    fn dates() {
        assert_eq!(utc(0), "1970-01-01 00:00:00");
        assert_eq!(utc(951_782_399), "2000-02-28 23:59:59");
        assert_eq!(utc(951_782_400), "2000-02-29 00:00:00");
        assert_eq!(utc(1_709_251_199), "2024-02-29 23:59:59");
        assert_eq!(utc(4_107_542_400), "2100-03-01 00:00:00");
        assert_eq!(utc(253_402_300_799), "9999-12-31 23:59:59");
        assert_eq!(utc(u64::MAX), "after 9999");
    }

    #[test]
    fn columns() {
        let readings = [
            (7, Reading { stamp: 60, lane: 0, number: 12, code: 1, reading: -5 }),
            (255, Reading { stamp: 1, lane: 7, number: 3, code: 3, reading: 123_456 }),
        ];
        let shown = "\
meter  medium      reading  unit  stamp  UTC                  lane  number
    7  cold water       -5  l        60  1970-01-01 00:01:00     0      12
  255  heat         123456  kWh       1  1970-01-01 00:00:01     7       3
";
        assert_eq!(table(&readings), shown);
        let list = "\
meter,code,reading,stamp,lane,number,medium,unit,utc
7,1,-5,60,0,12,cold water,l,1970-01-01T00:01:00Z
255,3,123456,1,7,3,heat,kWh,1970-01-01T00:00:01Z
";
        assert_eq!(table_csv(&readings), list);
    }

    #[test]
    fn large_numbers_fit_the_screen() {
        let reading = |stamp| Reading { stamp, lane: 7, number: COUNTER_MAX, code: 1, reading: i32::MIN };
        let readings = [(254, reading(1)), (255, reading(u64::MAX))];
        for line in (table(&readings) + &table_csv(&readings)).lines() {
            assert!(line.len() <= WIDTH, "{line}");
        }
        assert!(table_csv(&readings).ends_with(",cold water,l,\n"));
        let lanes = 4 + 3 * (2 + COUNTER_MAX.to_string().len());
        assert!(ABOUT_LANES.iter().all(|about| lanes + 3 + about.len() <= WIDTH));
        let numbers = COLUMN + 2 + COUNTER_MAX.to_string().len() + 3;
        assert!(ABOUT_BOX.iter().all(|(_, about)| numbers + about.len() <= WIDTH));
    }
}
