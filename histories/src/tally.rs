//! What the histories came upon.

use std::fmt::Write;

use crate::bus::{KINDS, Said};
use crate::device::{Answer, FROM_BUS, FUNCTIONS, LAST, NUMBERS};
use crate::heat::Told;

/// More ties of two lanes than so many have to come up.
const TIES: u64 = 1000;

/// Counts over all histories.
#[derive(Clone, Debug, Default)]
pub struct Tally {
    pub histories: u64,
    pub events: u64,
    pub cuts: u64,
    pub handed: u64,
    pub calls: u64,
    /// By function.
    pub taken: [u64; FUNCTIONS.len()],
    /// By function and number.
    pub refused: [[u64; LAST as usize + 1]; FUNCTIONS.len()],
    /// Whole recoveries of 15 and of 24 stores.
    pub recoveries: [u64; 2],
    /// Accepted Recover calls whose table was the book's: all, and those where it was not empty.
    pub book: [u64; 2],
    /// Recover calls with a card that kept faith that were accepted: all, and those with a table that was not empty.
    pub faithful: [u64; 2],
    /// Recover calls with such a card where a counter was spent.
    pub spent: u64,
    /// Bytes of the longest log of a card that kept faith.
    pub longest: usize,
    /// First Recover calls with what another card handed over: accepted, and refused.
    pub other_cards: [u64; 2],
    /// Accepted Recover calls where a card that kept faith showed a torn record: fewer bytes of it than a head has, its
    /// head, more, and all of it.
    pub torn: [u64; 4],
    /// First Recover calls with what another card, or a forged one, handed over: accepted with a torn end, refused with
    /// 13 behind one, and refused with 9 at a last record of full length.
    pub other_ends: [u64; 3],
    /// Cuts by the kind of the store that was due, and by whether the store named last was done.
    pub cut_at: [[u64; 2]; 13],
    /// Frames whose own bytes decided, by kind.
    pub frames: [u64; KINDS.len()],
    /// Readings off the bus: by code, and those below 0.
    pub codes: [u64; 4],
    pub negative: u64,
    /// Transactions off the bus that Accept took.
    pub off_bus: u64,
    /// Committed writes that met an entry of their second and another lane: the write won, and the entry stayed.
    pub two_lanes: [u64; 2],
    /// The same of their second and lane, with another number.
    pub one_lane: [u64; 2],
    /// What recoveries read of the second of the entry shown: of another lane, and of its lane with another number.
    pub recovered_ties: [u64; 2],
    /// Lines of all heat splits, the most of one, units handed out, and splits in which a tie was broken.
    pub lines: usize,
    pub most_lines: usize,
    pub units: usize,
    pub broken_ties: u64,
    /// Records and files put out, by function: into just the room that they need, and into more.
    pub put_out: [[u64; 2]; FUNCTIONS.len()],
}

/// The functions that seal, by their place.
const SEALING: [usize; 3] = [2, 5, 7];

impl Tally {
    /// Counts a call.
    pub fn count(&mut self, function: usize, answer: &Answer) {
        self.calls += 1;
        match answer {
            Ok(_) => self.taken[function] += 1,
            Err(refusal) => self.refused[function][usize::from(refusal.number.min(LAST))] += 1,
        }
    }

    /// Counts a call of `from_bus`.
    pub fn hear(&mut self, kind: usize, answer: &Answer, said: Said) {
        self.count(FROM_BUS, answer);
        match said {
            Err(3 | 4) => return,
            Err(_) => {}
            Ok((code, reading)) => {
                if let Some(count) = self.codes.get_mut(usize::from(code).wrapping_sub(1)) {
                    *count += 1;
                }
                self.negative += u64::from(reading < 0);
            }
        }
        self.frames[kind] += 1;
    }

    /// Counts the text of a heat split.
    pub fn split(&mut self, told: &Told) {
        self.lines += told.lines;
        self.most_lines = self.most_lines.max(told.lines);
        self.units += told.units;
        self.broken_ties += u64::from(told.equal_uses || told.equal_remainders);
    }

    /// Ties of two lanes that a Commit decided.
    fn ties(&self) -> u64 {
        self.two_lanes.iter().sum()
    }

    /// What never came up: functions never taken, numbers never returned, halves of the claim never tried, kinds of frames
    /// and readings off the bus never seen, ties too few, room for a sealing never lent, torn records never shown.
    pub fn missing(&self) -> Vec<String> {
        let mut out = Vec::new();
        for (i, name) in FUNCTIONS.iter().enumerate() {
            if self.taken[i] == 0 {
                out.push(format!("{name} was never taken"));
            }
            for &number in NUMBERS[i] {
                if self.refused[i][usize::from(number)] == 0 {
                    out.push(format!("{name} never returned {number}"));
                }
            }
        }
        let halves = [
            (self.book[1], "no accepted Recover had a table with readings to compare with the book's"),
            (self.faithful[1], "no card that kept faith was recovered with readings"),
            (self.spent, "no card that kept faith met a spent counter"),
            (self.other_cards[0], "no other card was taken"),
            (self.torn[0], "no card that kept faith showed fewer than 20 bytes of a torn record"),
            (self.torn[1], "no card that kept faith showed the head of a torn record"),
            (self.torn[2], "no card that kept faith showed a head and more of a torn record"),
            (self.torn[3], "no card that kept faith showed a whole record whose store was not done"),
            (self.other_ends[0], "no other log with a torn end was accepted"),
            (self.other_ends[1], "no other log with a torn end was refused with 13"),
            (self.other_ends[2], "no other log was refused with 9 at a last record of full length"),
            (self.recoveries[0], "no recovery of 15 stores"),
            (self.recoveries[1], "no recovery of 24 stores"),
            (self.negative, "no reading off the bus was below 0"),
            (self.off_bus, "no transaction off the bus was accepted"),
            (self.two_lanes[0], "no write won a tie of two lanes"),
            (self.two_lanes[1], "no entry stayed in a tie of two lanes"),
            (self.one_lane[0], "no write won a tie of one lane"),
            (self.recovered_ties[0], "no recovery read a tie of two lanes"),
            (self.recovered_ties[1], "no recovery read a tie of one lane"),
            (self.units as u64, "no heat split handed a unit out"),
            (self.broken_ties, "no heat split broke a tie"),
        ];
        if self.ties() <= TIES {
            out.push(format!("only {} ties of two lanes, where more than {TIES} are wanted", self.ties()));
        }
        for at in SEALING {
            for (count, room) in self.put_out[at].iter().zip(["just the room that it needs", "more room than it needs"])
            {
                if *count == 0 {
                    out.push(format!("{} never sealed into {room}", FUNCTIONS[at]));
                }
            }
        }
        for (code, _) in (1..).zip(self.codes).filter(|(_, count)| *count == 0) {
            out.push(format!("no reading off the bus had code {code}"));
        }
        for (kind, _) in KINDS.iter().zip(self.frames).filter(|(_, count)| *count == 0) {
            out.push(format!("no frame off the bus: {}", kind.name));
        }
        for (kind, cuts) in self.cut_at.iter().enumerate() {
            for (done, count) in cuts.iter().enumerate() {
                if *count == 0 {
                    let done = if done == 1 { "done" } else { "not done" };
                    out.push(format!("no cut while a store of kind {kind} was due, the one before it {done}"));
                }
            }
        }
        out.extend(halves.iter().filter(|(count, _)| *count == 0).map(|(_, what)| what.to_string()));
        out
    }

    /// The counts as text.
    pub fn table(&self) -> String {
        let mut out = String::new();
        let _ = writeln!(
            out,
            "{} histories, {} events: {} calls, {} cuts, {} states handed over",
            self.histories, self.events, self.calls, self.cuts, self.handed
        );
        let _ = write!(out, "{:<11}{:>9}", "", "taken");
        for number in 1..=LAST {
            let _ = write!(out, "{number:>8}");
        }
        out.push('\n');
        for (i, name) in FUNCTIONS.iter().enumerate() {
            let _ = write!(out, "{name:<11}{:>9}", self.taken[i]);
            for number in 1..=LAST {
                let seen = self.refused[i][usize::from(number)];
                if seen > 0 || NUMBERS[i].contains(&number) {
                    let _ = write!(out, "{seen:>8}");
                } else {
                    let _ = write!(out, "{:>8}", "");
                }
            }
            out.push('\n');
        }
        let _ = writeln!(
            out,
            "recoveries of 15 stores {}, of 24 stores {}; table was the book's {} times, {} with readings",
            self.recoveries[0], self.recoveries[1], self.book[0], self.book[1]
        );
        let _ = writeln!(
            out,
            "cards that kept faith: {} accepted, {} with readings, {} with a counter spent; longest log {} bytes",
            self.faithful[0], self.faithful[1], self.spent, self.longest
        );
        let _ = writeln!(
            out,
            "other cards: {} accepted, {} refused; cuts at each due store, done or not: at least {}",
            self.other_cards[0],
            self.other_cards[1],
            self.cut_at.iter().flatten().min().unwrap_or(&0)
        );
        let ([few, head, more, whole], [accepted, missed, full]) = (self.torn, self.other_ends);
        let _ = writeln!(
            out,
            "torn records of cards that kept faith: {few} of fewer than 20 bytes, {head} heads, {more} of more, \
             {whole} whole, all accepted; other torn ends: {accepted} accepted, {missed} refused with 13; {full} last \
             records of full length refused with 9"
        );
        let [cold, hot, heat, cooling] = self.codes;
        let _ = writeln!(
            out,
            "readings off the bus: {cold}, {hot}, {heat} and {cooling} of codes 1 to 4, {} below 0, {} accepted; \
             each of {} kinds of frames at least {} times",
            self.negative,
            self.off_bus,
            KINDS.len(),
            self.frames.iter().min().unwrap_or(&0)
        );
        let _ = writeln!(
            out,
            "ties of two lanes in one second: {}, of which the write won {} and the entry stayed {}; of one lane: {} \
             and {}; in recoveries {} of two lanes, {} of one",
            self.ties(),
            self.two_lanes[0],
            self.two_lanes[1],
            self.one_lane[0],
            self.one_lane[1],
            self.recovered_ties[0],
            self.recovered_ties[1]
        );
        let _ = writeln!(
            out,
            "heat splits between tables of these histories: {} lines, at most {} of a split; {} units handed out, {} \
             with ties broken",
            self.lines, self.most_lines, self.units, self.broken_ties
        );
        let sealed = SEALING.map(|at| format!("{} {} and {}", FUNCTIONS[at], self.put_out[at][0], self.put_out[at][1]));
        let _ = writeln!(
            out,
            "sealed in a buffer of just the length needed, and in a longer one: {}; every byte behind was as it came",
            sealed.join(", ")
        );
        out
    }
}
