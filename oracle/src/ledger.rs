//! A second reading of the ledger of sides, written from the requests that describe it (Tickets 4 and 5 of document 02): what can be counted of a
//! map's points, and what the answers of its insertions alone say that the counts are.
use crate::bytes::bits_of;
use crate::reading::{Insertion, Side, Store, opposite};

/// What is counted of a map: points made, points listed, two-way links, borders and openings.
#[derive(Clone, Copy, Debug, PartialEq)]
pub struct Census {
    pub made: usize,
    pub listed: usize,
    pub links: usize,
    pub borders: usize,
    pub openings: usize,
}

impl Census {
    /// Counted from the points.
    pub fn of(store: &Store, listed: usize) -> Census {
        Census { made: store.made(), listed, links: store.links(), borders: store.borders(), openings: store.openings().len() }
    }
}

/// Whether each link has its mirror: the other end leads back, with an interval of the same bits.
pub fn is_mirrored(store: &Store) -> bool {
    let has_mirror = |n: u8, d: usize| match store.side(n, d) {
        Side::Link(other, interval) => {
            matches!(store.side(other, opposite(d)), Side::Link(back, same) if back == n && bits_of(same) == bits_of(interval))
        }
        _ => true,
    };
    (0..store.made() as u8).all(|n| (0..4).all(|d| has_mirror(n, d)))
}

/// The insertions done and those torn, and the sums of their counts. A refused one is in none of them, nor is one that is withdrawn.
#[derive(Default)]
pub struct Ledger {
    done: usize,
    torn: usize,
    opened: usize,
    inferred: usize,
}

impl Ledger {
    /// Enters an insertion by its answer, and by whether torn ones are withdrawn.
    pub fn enter(&mut self, withdraws: bool, answer: Insertion) {
        let counts = match answer {
            Insertion::Done(counts) => {
                self.done += 1;
                counts
            }
            Insertion::Torn(..) if withdraws => return,
            Insertion::Torn(counts, _) => {
                self.torn += 1;
                counts
            }
            Insertion::Refused(_) => return,
        };
        self.opened += counts.opened as usize;
        self.inferred += counts.inferred as usize;
    }

    /// What the counts of a map are that was new before the first of the insertions.
    pub fn census(&self) -> Census {
        let inserted = self.done + self.torn;
        Census {
            made: 4 + inserted,
            listed: 4 + self.done,
            links: 4 + inserted + self.inferred,
            borders: 8 + 2 * inserted - self.opened,
            openings: self.opened - 2 * self.inferred,
        }
    }
}
