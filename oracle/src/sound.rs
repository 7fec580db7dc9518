//! Document 01's sentence "Sound tables", read plainly: every word of the head
//! and of the lent tables is given, and each part of the sentence is asked on its
//! own, over sets and lists. It is slow, and that is meant: the port's audit is
//! compared with it, so nothing here follows the audit's way.

use std::collections::BTreeSet;

use small_float::uint_to_float_round_down;

/// An absent link.
pub const NONE: u32 = u32::MAX;

/// Words to a record in `nodes`, and which is which. Word 7 is no one's.
pub const RECORD_WORDS: usize = 8;
pub const DATA_OFFSET: usize = 0;
pub const DATA_SIZE: usize = 1;
pub const BIN_PREV: usize = 2;
pub const BIN_NEXT: usize = 3;
pub const NEIGHBOR_PREV: usize = 4;
pub const NEIGHBOR_NEXT: usize = 5;
pub const USED: usize = 6;

/// What the word `USED` holds for a record that is not live, and for one that is.
pub const NOT_LIVE: u32 = 0;
pub const LIVE: u32 = 1;

/// The least and the greatest count of records, and what is answered to others
/// and to tables that are not sound; what is answered where a table is too short.
pub const LEAST_COUNT: u32 = 2;
pub const GREATEST_COUNT: u32 = 1_048_576;
pub const YES: u32 = 0;
pub const TOO_SHORT: u32 = 2;
pub const UNSOUND: u32 = 6;

/// All that an audit is given. Of the scratch only its length matters.
#[derive(Clone)]
pub struct Words {
    pub size: u32,
    pub max_allocs: u32,
    pub free_storage: u32,
    pub free_offset: u32,
    pub used_bins_top: u32,
    pub used_bins: [u8; 32],
    pub bin_indices: [u32; 256],
    pub nodes: Vec<u32>,
    pub free_nodes: Vec<u32>,
    pub scratch: usize,
}

impl Words {
    /// What an audit must answer: 6 for the count, then 2 for the lengths, then
    /// 6 for tables that are not sound.
    pub fn audit(&self) -> u32 {
        if !(LEAST_COUNT..=GREATEST_COUNT).contains(&self.max_allocs) {
            return UNSOUND;
        }
        let count = self.max_allocs as usize;
        if self.nodes.len() < RECORD_WORDS * count
            || self.free_nodes.len() < count
            || self.scratch < count
        {
            return TOO_SHORT;
        }
        if self.is_sound() {
            YES
        } else {
            UNSOUND
        }
    }

    fn is_sound(&self) -> bool {
        self.spares_are_right()
            && self.some_chain_is_right()
            && (0..256).all(|class| self.list_is_right(class))
            && self.bits_are_right()
            && self.total_is_right()
    }

    fn word(&self, record: u32, word: usize) -> u32 {
        self.nodes[RECORD_WORDS * record as usize + word]
    }

    fn is_free(&self, record: u32) -> bool {
        self.word(record, USED) == NOT_LIVE
    }

    /// The spare record numbers: as many words of the pile as `free_offset` says
    /// and one more, or all there are if it says too much.
    fn spares(&self) -> Vec<u32> {
        let said = self.free_offset as usize + 1;
        self.free_nodes.iter().copied().take(said).collect()
    }

    /// "spare record numbers are distinct, below the count, not marked live, and
    /// at least one"
    fn spares_are_right(&self) -> bool {
        let spares = self.spares();
        let distinct: BTreeSet<u32> = spares.iter().copied().collect();
        spares.len() == self.free_offset as usize + 1
            && distinct.len() == spares.len()
            && spares.iter().all(|&record| record < self.max_allocs)
            && spares.iter().all(|&record| self.is_free(record))
    }

    /// "every other record"
    fn others(&self) -> BTreeSet<u32> {
        let spares: BTreeSet<u32> = self.spares().into_iter().collect();
        (0..self.max_allocs)
            .filter(|record| !spares.contains(record))
            .collect()
    }

    /// The records met from `start` on by the links in `word`, until one is no
    /// record's number. A circle is left after one record more than there are.
    fn follow(&self, start: u32, word: usize) -> Vec<u32> {
        let mut met = Vec::new();
        let mut here = start;
        while here < self.max_allocs && met.len() <= self.max_allocs as usize {
            met.push(here);
            here = self.word(here, word);
        }
        met
    }

    /// "links agreeing both ways": from each to the next and back, and none at
    /// either end.
    fn agree(&self, run: &[u32], prev: usize, next: usize) -> bool {
        (0..run.len()).all(|at| {
            let before = if at == 0 { NONE } else { run[at - 1] };
            let after = run.get(at + 1).copied().unwrap_or(NONE);
            self.word(run[at], prev) == before && self.word(run[at], next) == after
        })
    }

    /// "every other record, at least one, occurs once in the neighbour chain":
    /// from one of them on, the links meet them all.
    fn some_chain_is_right(&self) -> bool {
        let others = self.others();
        others.iter().any(|&first| {
            let chain = self.follow(first, NEIGHBOR_NEXT);
            let met: BTreeSet<u32> = chain.iter().copied().collect();
            met == others
                && met.len() == chain.len()
                && self.agree(&chain, NEIGHBOR_PREV, NEIGHBOR_NEXT)
                && self.regions_are_right(&chain)
        })
    }

    /// "which runs from 0 to the size, .. no two free in a row"
    fn regions_are_right(&self, chain: &[u32]) -> bool {
        let mut end = 0;
        for &record in chain {
            if u64::from(self.word(record, DATA_OFFSET)) != end {
                return false;
            }
            end += u64::from(self.word(record, DATA_SIZE));
        }
        end == u64::from(self.size)
            && chain
                .iter()
                .all(|&record| [NOT_LIVE, LIVE].contains(&self.word(record, USED)))
            && chain
                .windows(2)
                .all(|pair| !(self.is_free(pair[0]) && self.is_free(pair[1])))
    }

    fn free_regions(&self) -> BTreeSet<u32> {
        self.others()
            .into_iter()
            .filter(|&record| self.is_free(record))
            .collect()
    }

    /// "each class list holds exactly the free regions of its class, links
    /// agreeing both ways"
    fn list_is_right(&self, class: usize) -> bool {
        let regions: BTreeSet<u32> = self
            .free_regions()
            .into_iter()
            .filter(|&record| class_of(self.word(record, DATA_SIZE)) == class)
            .collect();
        let head = self.bin_indices[class];
        let list = self.follow(head, BIN_NEXT);
        let listed: BTreeSet<u32> = list.iter().copied().collect();
        list.first().copied().unwrap_or(NONE) == head
            && listed == regions
            && listed.len() == list.len()
            && self.agree(&list, BIN_PREV, BIN_NEXT)
    }

    /// "a bit is set exactly where a list, or a leaf byte, is non-empty"
    fn bits_are_right(&self) -> bool {
        let lists = (0..256).all(|class| {
            let bit = self.used_bins[class / 8] >> (class % 8) & 1;
            (bit == 1) == (self.bin_indices[class] != NONE)
        });
        let leaves = (0..32).all(|leaf| {
            let bit = self.used_bins_top >> leaf & 1;
            (bit == 1) == (self.used_bins[leaf] != 0)
        });
        lists && leaves
    }

    /// "the kept free total is the true sum"
    fn total_is_right(&self) -> bool {
        let sum: u64 = self
            .free_regions()
            .into_iter()
            .map(|record| u64::from(self.word(record, DATA_SIZE)))
            .sum();
        u64::from(self.free_storage) == sum
    }
}

/// The class of a free region, by the crate's own rounding.
pub fn class_of(size: u32) -> usize {
    uint_to_float_round_down(size) as usize
}
