//! The host's side of a history: its style, the vault, the card, the book, and what was put out.

use std::rc::Rc;

use paviluko_model::card::Line;
use paviluko_model::{Book, Card, Cipher, Params, Vault, sealed};

use crate::rng::Rng;
use crate::values::{a_transaction, lane};

/// What a history is made of.
#[derive(Clone, Copy, Debug, PartialEq, Eq)]
pub enum Style {
    /// A bit of everything, from a new vault.
    Plain,
    /// The list of records fills.
    Journal,
    /// The points fill.
    Points,
    /// Many cuts.
    Cuts,
    /// The card's log grows as long as it can.
    Long,
    /// Numbers near the maximum, and a card and a book that go with them.
    Aged,
    /// Any numbers, forged records and files, handed states: no claim about the whole, only the comparison.
    Wild,
    /// The same, with a handed state for every few calls.
    Odd,
}

/// The styles, and how many of a thousand histories are of each.
const STYLES: [(Style, u64); 8] = [
    (Style::Plain, 498),
    (Style::Journal, 60),
    (Style::Points, 80),
    (Style::Cuts, 110),
    (Style::Long, 4),
    (Style::Aged, 70),
    (Style::Wild, 110),
    (Style::Odd, 68),
];

/// What the host's side of a history has.
pub struct Host {
    pub rng: Rng,
    pub params: Params,
    pub style: Style,
    pub cipher: Rc<Cipher>,
    /// Another collector's.
    pub other: Rc<Cipher>,
    pub vault: Vault,
    pub card: Card,
    pub book: Book,
    /// Records and files that were put out, stored or not.
    pub records: Vec<Rc<[u8]>>,
    pub files: Vec<Rc<[u8]>>,
    /// Cards as they were once.
    pub snapshots: Vec<Card>,
    /// Plain tables of earlier states, the last one behind.
    pub tables: Vec<Rc<[u8]>>,
    /// Draws what is done with them, so that all else is drawn as without them.
    pub heat: Rng,
    /// The transaction that came off the bus last, until it is accepted.
    pub off_bus: Option<Vec<u8>>,
    /// A long log was built, and is to be recovered.
    pub filled: bool,
    /// The last record of a long log is torn.
    pub tears: bool,
}

impl Host {
    /// What the history of a seed begins with.
    pub fn new(seed: u64) -> Host {
        let mut rng = Rng::new(seed);
        let (style, _) = STYLES[rng.weighted(&STYLES.map(|(_, times)| times))];
        let params = Params::scope();
        let key = std::array::from_fn(|_| rng.any() as u8);
        let mut other = key;
        other[rng.index(16)] ^= 1;
        let tears = rng.permille(500);
        let mut host = Host {
            rng,
            params,
            style,
            cipher: Rc::new(Cipher::new(&key)),
            other: Rc::new(Cipher::new(&other)),
            vault: Vault::new(&params),
            card: Card::default(),
            book: Book::default(),
            records: Vec::new(),
            files: Vec::new(),
            snapshots: Vec::new(),
            tables: Vec::new(),
            heat: Rng::new(!seed),
            off_bus: None,
            filled: false,
            tears,
        };
        if style == Style::Aged {
            host.age();
        }
        host
    }

    /// Numbers near the maximum, with the card and the book of a collector that came there.
    fn age(&mut self) {
        let Host { rng, params, vault, card, book, cipher, files, .. } = self;
        let max = params.counter;
        for i in 0..params.lanes {
            let w = if rng.permille(600) { max - rng.below(5) } else { rng.below(3) };
            (vault.w[i], vault.v[i], vault.r[i]) = (w, w, w);
        }
        vault.e = if rng.permille(200) { max - rng.below(3) } else { max - 50 + rng.below(40) };
        vault.s = max - if rng.permille(300) { rng.below(4) } else { rng.below(24) };
        vault.n = max - if rng.permille(300) { rng.below(4) } else { rng.below(24) };
        for _ in 0..rng.below(12) {
            let lane = lane(rng, params);
            let last = vault.w[usize::from(lane)];
            if last > 0 {
                let mut transaction = a_transaction(rng, params);
                transaction.writes.truncate(3);
                book.lines.push(Line { lane, number: last - rng.below(last.min(100)), transaction });
            }
        }
        // One write each: several lines with one lane and number would be several transactions with one name.
        book.lines.sort_by_key(|line| (line.lane, line.number));
        book.lines.dedup_by_key(|line| (line.lane, line.number));
        let file: Rc<[u8]> = sealed::seal_file(cipher, vault.s, vault.n, &book.table(params)).into();
        card.files.push(Rc::clone(&file));
        files.push(file);
    }

    /// Whether the premises of the claim about whole histories hold: no states are handed over and no bytes forged.
    pub fn bound(&self) -> bool {
        !matches!(self.style, Style::Wild | Style::Odd)
    }

    /// Whether the card may show the beginning of a torn record.
    pub fn is_torn(&self) -> bool {
        !self.card.begun.is_empty()
    }

    /// Whether a long log is being built.
    pub fn filling(&self) -> bool {
        self.style == Style::Long && !self.filled
    }

    /// Keeps a plain table, in place of some other where there are many.
    pub fn keep_table(&mut self, table: Rc<[u8]>) {
        if self.tables.len() >= 6 {
            self.tables.remove(self.heat.index(5));
        }
        self.tables.push(table);
    }

    /// Some record that was put out.
    pub fn a_record(&mut self) -> Option<Rc<[u8]>> {
        self.rng.pick(&self.records).cloned()
    }

    /// Some file that was put out.
    pub fn a_file(&mut self) -> Option<Rc<[u8]>> {
        self.rng.pick(&self.files).cloned()
    }
}
