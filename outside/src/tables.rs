//! All the words that one allocator is lent, each table in guarded memory of its own.

use crate::guarded::{Edge, Guarded};
use crate::words::{View, Words, WORDS_A_RECORD};

/// The pointers and lengths of one call, in the boundary's order.
#[derive(Clone, Copy)]
pub struct Lent {
    pub scalars: *mut u32,
    pub bins: *mut u32,
    pub leaves: *mut u8,
    pub nodes: *mut u32,
    pub nodes_len: usize,
    pub pile: *mut u32,
    pub pile_len: usize,
}

pub struct Tables {
    pub scalars: Guarded<u32>,
    pub bins: Guarded<u32>,
    pub leaves: Guarded<u8>,
    pub nodes: Guarded<u32>,
    pub pile: Guarded<u32>,
    pub scratch: Guarded<u32>,
    pub sizes: Guarded<u64>,
    pub counts: Guarded<u32>,
}

/// A word of junk that depends on its place and on `kind`, so that it need not be kept to be checked.
pub fn junk(kind: u32, place: usize) -> u32 {
    (place as u32 ^ kind).wrapping_mul(0x9E37_79B1) ^ kind.rotate_left(9)
}

/// Fills a table from a place on with junk.
pub fn fill_with_junk(table: &mut [u32], from: usize, kind: u32) {
    for place in from..table.len() {
        table[place] = junk(kind, place);
    }
}

pub fn is_junk(table: &[u32], from: usize, kind: u32) -> bool {
    (from..table.len()).all(|place| table[place] == junk(kind, place))
}

impl Tables {
    pub fn new() -> Tables {
        Tables {
            scalars: Guarded::new(5),
            bins: Guarded::new(256),
            leaves: Guarded::new(32),
            nodes: Guarded::new(0),
            pile: Guarded::new(0),
            scratch: Guarded::new(0),
            sizes: Guarded::new(256),
            counts: Guarded::new(256),
        }
    }

    pub fn lay(&mut self, nodes_len: usize, pile_len: usize, edge: Edge) {
        self.scalars.lay(5, edge);
        self.bins.lay(256, edge);
        self.leaves.lay(32, edge);
        self.nodes.lay(nodes_len, edge);
        self.pile.lay(pile_len, edge);
        self.sizes.lay(256, edge);
        self.counts.lay(256, edge);
    }

    pub fn lent(&mut self) -> Lent {
        Lent {
            scalars: self.scalars.pointer(),
            bins: self.bins.pointer(),
            leaves: self.leaves.pointer(),
            nodes: self.nodes.pointer(),
            nodes_len: self.nodes.len(),
            pile: self.pile.pointer(),
            pile_len: self.pile.len(),
        }
    }

    pub fn view(&self) -> View<'_> {
        View {
            scalars: self.scalars.words(),
            bins: self.bins.words(),
            leaves: self.leaves.words(),
            nodes: self.nodes.words(),
            pile: self.pile.words(),
        }
    }

    /// Copies the words in, as many as the tables hold, and fills what is beyond with junk.
    pub fn load(&mut self, words: &Words, kind: u32) {
        self.scalars.words_mut().copy_from_slice(&words.scalars);
        self.bins.words_mut().copy_from_slice(&words.bins);
        self.leaves.words_mut().copy_from_slice(&words.leaves);
        for (table, from) in [(&mut self.nodes, &words.nodes), (&mut self.pile, &words.pile)] {
            let fits = from.len().min(table.len());
            table.words_mut()[..fits].copy_from_slice(&from[..fits]);
            fill_with_junk(table.words_mut(), fits, kind);
        }
    }

    /// Copies the words out, at most what `count` records need.
    pub fn save(&self, count: usize, words: &mut Words) {
        let nodes = (WORDS_A_RECORD * count).min(self.nodes.len());
        let pile = count.min(self.pile.len());
        words.scalars.clear();
        words.scalars.extend_from_slice(self.scalars.words());
        words.bins.clear();
        words.bins.extend_from_slice(self.bins.words());
        words.leaves.clear();
        words.leaves.extend_from_slice(self.leaves.words());
        words.nodes.clear();
        words.nodes.extend_from_slice(&self.nodes.words()[..nodes]);
        words.pile.clear();
        words.pile.extend_from_slice(&self.pile.words()[..pile]);
    }

    /// Says whether the tables hold these words, as far as the tables go.
    pub fn holds(&self, words: &Words) -> bool {
        let nodes = words.nodes.len().min(self.nodes.len());
        let pile = words.pile.len().min(self.pile.len());
        self.scalars.words() == words.scalars
            && self.bins.words() == words.bins
            && self.leaves.words() == words.leaves
            && self.nodes.words()[..nodes] == words.nodes[..nodes]
            && self.pile.words()[..pile] == words.pile[..pile]
    }

    /// Says whether the junk beyond `count` records and the bytes beside every table are as they were laid.
    pub fn beyond_is_untouched(&self, count: usize, kind: u32) -> bool {
        is_junk(self.nodes.words(), WORDS_A_RECORD * count, kind) && is_junk(self.pile.words(), count, kind) && self.untouched_beside()
    }

    pub fn untouched_beside(&self) -> bool {
        let tables = [&self.scalars, &self.bins, &self.nodes, &self.pile, &self.scratch, &self.counts];
        tables.iter().all(|t| t.untouched_beside()) && self.leaves.untouched_beside() && self.sizes.untouched_beside()
    }
}
