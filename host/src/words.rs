//! The numbers on the display in words: what each means and what to do. The program prints these sentences, and
//! `docs/FITTER.md` has the same ones in its table; a test below holds the page to them.

use std::fmt;

/// A number of the display.
#[derive(Clone, Copy, Debug, PartialEq, Eq)]
pub struct Sentence {
    /// 1 to 19.
    pub number: u8,
    /// What it means, without a full stop.
    pub means: &'static str,
    /// What to do.
    pub then: &'static str,
}

/// As the program prints it.
impl fmt::Display for Sentence {
    fn fmt(&self, to: &mut fmt::Formatter) -> fmt::Result {
        write!(to, "{}, {}. {}", self.number, self.means, self.then)
    }
}

/// 4 where a transaction is turned down: the first of its two causes.
pub const NO_TRANSACTION: Sentence = Sentence {
    number: 4,
    means: "this is no transaction",
    then: "Give 1 to 16 readings, meters 0 to 255 in rising order, each with a code of 1 to 4.",
};

/// 4 where a heat split is turned down: the second.
pub const NO_TABLE: Sentence = Sentence {
    number: 4,
    means: "this is no plain table",
    then: "Give two files that table --plain wrote, the start's first.",
};

/// 7 where a transaction is turned down: the first of its two causes.
pub const FULL_OF_RECORDS: Sentence = Sentence {
    number: 7,
    means: "the box holds 128 records since its newest point",
    then: "Make room with tidy, or set a point.",
};

/// 7 where a point is turned down: the second.
pub const FULL_OF_POINTS: Sentence = Sentence {
    number: 7,
    means: "the box keeps 8 points",
    then: "Make room with tidy, or make a checkpoint and truncate.",
};

/// Every number, in order.
pub const SENTENCES: [Sentence; 19] = [
    Sentence {
        number: 1,
        means: "the box is not ready for this: it is not in service, or another store is due",
        then: "Look at status. Cut the power and start again.",
    },
    Sentence {
        number: 2,
        means: "the vault's numbers cannot be right",
        then: "Keep the card and change the box: its vault is damaged.",
    },
    Sentence {
        number: 3,
        means: "something has the wrong length",
        then: "At a start, the log on the card is too long to be this box's: put the box's own card in and start again.",
    },
    Sentence {
        number: 4,
        means: "this is no transaction, or no plain table",
        then: "Give 1 to 16 readings, meters 0 to 255 in rising order, each with a code of 1 to 4; for a heat split give two files that table --plain wrote, the start's first.",
    },
    Sentence { number: 5, means: "there is no such lane", then: "Use lane 0 to 7." },
    Sentence {
        number: 6,
        means: "the position is too low",
        then: "Use one above the newest point and above every record since service began.",
    },
    Sentence {
        number: 7,
        means: "the box holds 128 records since its newest point, or the box keeps 8 points",
        then: "Make room with tidy, or set a point; with 8 points kept, make a checkpoint and truncate.",
    },
    Sentence {
        number: 8,
        means: "a counter of the vault is spent",
        then: "Change the box: this one cannot count on. If it is still in service, read its table off first.",
    },
    Sentence {
        number: 9,
        means: "something on the card does not open: it is damaged, changed, another box's, sealed with another key, or not there",
        then: "Put the box's own card in and start again. If it is in, the key may be wrong: put the box's own key back.",
    },
    Sentence {
        number: 10,
        means: "a record on the card is of an earlier epoch: it was sealed before a start of the box that began a new one",
        then: "In service, take the reading anew. At a start, keep box, card and key as they are and call the office: the vault went back, or two boxes have one key.",
    },
    Sentence {
        number: 11,
        means: "a record on the card is out of turn: one was left out, doubled or moved",
        then: "Put the box's own card in and start again; a reading that was not made visible is then taken anew.",
    },
    Sentence {
        number: 12,
        means: "the checkpoint on this card is not the one that the vault expects",
        then: "This is an old card, or one from before or after a change: put the box's own card in and start again.",
    },
    Sentence {
        number: 13,
        means: "visible records are missing from the card, or only the beginning of one is there",
        then: "Put the box's own card in, the one that was in it last, and start again.",
    },
    Sentence {
        number: 14,
        means: "there is no such point, or no checkpoint covers it yet",
        then: "Set a point, make a checkpoint, then truncate.",
    },
    Sentence {
        number: 15,
        means: "a record below the point is not visible",
        then: "Cut the power and start again, take that reading anew, then set the point.",
    },
    Sentence {
        number: 16,
        means: "this is no whole reply of a meter on the wired bus",
        then: "Ask the meter again. If this comes again, look at the wires, and whether two meters have one address.",
    },
    Sentence {
        number: 17,
        means: "this reply has no reading that the box can take",
        then: "It must be a water, heat or cooling meter's, with eight digits in litres or kWh: paviluko bus shows what it has.",
    },
    Sentence {
        number: 18,
        means: "a meter is heat in one of the two tables and another kind in the other",
        then: "Its place was given to another kind of meter during the year: settle that meter by hand. If no meter was changed, the two files are not of one house.",
    },
    Sentence {
        number: 19,
        means: "there is no heat to share: no heat meter is in both tables, or none used any",
        then: "Look whether these are the right two files, the start's first.",
    },
];

/// The sentence of a number, if there is such a number.
pub fn sentence(number: u8) -> Option<&'static Sentence> {
    SENTENCES.iter().find(|s| s.number == number)
}

/// A code of 01 in words: medium and unit.
pub fn medium(code: u8) -> (&'static str, &'static str) {
    match code {
        1 => ("cold water", "l"),
        2 => ("warm water", "l"),
        3 => ("heat", "kWh"),
        4 => ("cooling", "kWh"),
        _ => ("?", "?"),
    }
}

#[cfg(test)]
mod tests {
    use super::*;

    #[test]
    fn numbers_are_1_to_19() {
        let numbers: Vec<u8> = SENTENCES.iter().map(|s| s.number).collect();
        assert_eq!(numbers, (1..=19).collect::<Vec<u8>>());
    }

    #[test]
    fn the_row_of_4_has_both_causes() {
        let row = sentence(4).expect("there");
        let second = NO_TABLE.means.strip_prefix("this is ").expect("the same beginning");
        assert_eq!(row.means, format!("{}, or {second}", NO_TRANSACTION.means));
        for cause in [NO_TRANSACTION, NO_TABLE] {
            let then = cause.then.strip_prefix("Give ").expect("what to give");
            assert!(row.then.contains(then.trim_end_matches('.')), "{cause}");
        }
    }

    #[test]
    fn the_row_of_7_has_both_causes() {
        let row = sentence(7).expect("there");
        assert_eq!(row.means, format!("{}, or {}", FULL_OF_RECORDS.means, FULL_OF_POINTS.means));
        for cause in [FULL_OF_RECORDS, FULL_OF_POINTS] {
            let by_hand = cause.then.strip_prefix("Make room with tidy, or ").expect("first the easy way");
            assert!(row.then.contains(by_hand.trim_end_matches('.')), "{cause}");
        }
    }

    #[test]
    fn the_fitters_page_has_each_sentence() {
        let page = include_str!("../../docs/FITTER.md");
        for s in &SENTENCES {
            let row = format!("| {} | {} | {} |", s.number, s.means, s.then);
            assert!(page.lines().any(|line| line == row), "docs/FITTER.md lacks: {row}");
        }
    }
}
