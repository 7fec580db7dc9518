//! The words of an allocator, read by the layout of docs/TABLES.md: a view of lent words, an owned copy, and the ledger that sound words stand for.

use crate::classes;
use crate::ledger::{Ledger, Region, CLASSES_ENTERED};

/// An absent link. A link at or above the count is read as absent too.
pub const MARKER: u32 = u32::MAX;
pub const GREATEST_COUNT: u32 = 1_048_576;
pub const WORDS_A_RECORD: usize = 8;

pub const OFFSET: usize = 0;
pub const LENGTH: usize = 1;
pub const ABOVE: usize = 2;
pub const BELOW: usize = 3;
pub const BEFORE: usize = 4;
pub const AFTER: usize = 5;
pub const USED: usize = 6;
pub const KEPT: usize = 7;

/// Refusal of a call's gate, 0 for none: the count (`bad_count` is 6, or 1 at setup), then the lengths.
pub fn gate(count: u32, nodes_len: usize, pile_len: usize, bad_count: u32) -> u32 {
    if !(2..=GREATEST_COUNT).contains(&count) {
        bad_count
    } else if nodes_len < WORDS_A_RECORD * count as usize || pile_len < count as usize {
        2
    } else {
        0
    }
}

#[derive(Clone, Copy)]
pub struct View<'a> {
    pub scalars: &'a [u32],
    pub bins: &'a [u32],
    pub leaves: &'a [u8],
    pub nodes: &'a [u32],
    pub pile: &'a [u32],
}

impl View<'_> {
    pub fn size(&self) -> u32 {
        self.scalars[0]
    }

    pub fn count(&self) -> u32 {
        self.scalars[1]
    }

    pub fn free_total(&self) -> u32 {
        self.scalars[2]
    }

    pub fn spares_less_one(&self) -> u32 {
        self.scalars[3]
    }

    pub fn top_bits(&self) -> u32 {
        self.scalars[4]
    }

    pub fn gate(&self) -> u32 {
        gate(self.count(), self.nodes.len(), self.pile.len(), 6)
    }

    pub fn word(&self, record: u32, k: usize) -> u32 {
        self.nodes[WORDS_A_RECORD * record as usize + k]
    }

    fn as_link(&self, word: u32) -> Option<u32> {
        if word < self.count() { Some(word) } else { None }
    }

    pub fn link(&self, record: u32, k: usize) -> Option<u32> {
        self.as_link(self.word(record, k))
    }

    pub fn top_of(&self, class: usize) -> Option<u32> {
        self.as_link(self.bins[class])
    }

    /// The ledger that sound words stand for. Only for words that `sound` accepts.
    pub fn ledger(&self) -> Ledger {
        let mut ledger = Ledger::fresh(0, self.count());
        ledger.size = self.size();
        ledger.spares = self.pile[..=self.spares_less_one() as usize].to_vec();
        ledger.line = self.line();
        ledger.stacks = (0..CLASSES_ENTERED).map(|class| self.stack(class)).collect();
        ledger.begins = vec![None; self.count() as usize];
        for region in &ledger.line {
            ledger.begins[region.record as usize] = Some(region.offset);
        }
        ledger.live_units = ledger.line.iter().filter(|r| r.live).map(|r| r.length as u64).sum();
        ledger
    }

    fn line(&self) -> Vec<Region> {
        let mut spare = vec![false; self.count() as usize];
        for record in &self.pile[..=self.spares_less_one() as usize] {
            spare[*record as usize] = true;
        }
        let mut next = (0..self.count()).find(|r| !spare[*r as usize] && self.link(*r, BEFORE).is_none());
        let mut line = Vec::new();
        while let Some(record) = next {
            let (offset, length) = (self.word(record, OFFSET), self.word(record, LENGTH));
            line.push(Region { offset, length, record, live: self.word(record, USED) != 0 });
            next = self.link(record, AFTER);
        }
        line
    }

    fn stack(&self, class: usize) -> Vec<u32> {
        let mut stack = Vec::new();
        let mut next = self.top_of(class);
        while let Some(record) = next {
            stack.push(record);
            next = self.link(record, BELOW);
        }
        stack.reverse();
        stack
    }

    /// Words that the allocator wrote itself hold the marker, and nothing else, where a link is absent.
    pub fn absent_links_are_marked(&self, ledger: &Ledger) -> bool {
        let ends = [(ledger.line.first(), BEFORE), (ledger.line.last(), AFTER)];
        let line_ends = ends.iter().all(|(r, k)| self.word(r.expect("the line is never empty").record, *k) == MARKER);
        line_ends
            && (0..256).all(|class| match ledger.stacks.get(class).filter(|s| !s.is_empty()) {
                None => self.bins[class] == MARKER,
                Some(stack) => self.word(stack[stack.len() - 1], ABOVE) == MARKER && self.word(stack[0], BELOW) == MARKER,
            })
    }
}

/// An owned copy of the words that a count needs.
#[derive(Clone, PartialEq, Debug)]
pub struct Words {
    pub scalars: Vec<u32>,
    pub bins: Vec<u32>,
    pub leaves: Vec<u8>,
    pub nodes: Vec<u32>,
    pub pile: Vec<u32>,
}

impl Words {
    pub fn view(&self) -> View<'_> {
        View { scalars: &self.scalars, bins: &self.bins, leaves: &self.leaves, nodes: &self.nodes, pile: &self.pile }
    }

    /// What an accepted setup or reset leaves: it writes the head, the used words, record 0's first seven words and the pile, nothing else.
    pub fn set_up(&mut self, size: u32, count: u32) {
        let class = classes::down(size) as usize;
        self.scalars = vec![size, count, size, count - 2, 1 << (class / 8)];
        self.bins = vec![MARKER; 256];
        self.bins[class] = 0;
        self.leaves = vec![0; 32];
        self.leaves[class / 8] = 1 << (class % 8);
        for record in 0..count as usize {
            self.nodes[WORDS_A_RECORD * record + USED] = 0;
            self.pile[record] = count - 1 - record as u32;
        }
        self.nodes[..USED + 1].copy_from_slice(&[0, size, MARKER, MARKER, MARKER, MARKER, 0]);
    }
}
