//! The list of spoiled tables: a few small stores, written out word by word, and
//! then every word of each set to other values, one at a time, with what an
//! audit must answer. Then stores in which one part of the sentence is broken
//! and all words agree otherwise, which a single word seldom brings about.

use std::collections::BTreeSet;
use std::io::{self, Write};

use crate::sound::{
    class_of, Words, BIN_NEXT, BIN_PREV, DATA_OFFSET, DATA_SIZE, GREATEST_COUNT, LIVE,
    NEIGHBOR_NEXT, NEIGHBOR_PREV, NONE, NOT_LIVE, RECORD_WORDS, USED,
};
use crate::splitmix::SplitMix;

const SEED: u64 = 1;
const HIGH_BIT: u32 = 1 << 31;

/// The greatest count of document 01, and one more, which document 02 lets in.
const FORMER_COUNTS: [u32; 2] = [131_072, 131_073];

/// A part of the head or of the lent tables, by the letter of its rows.
#[derive(Clone, Copy)]
enum Part {
    Totals,
    Heads,
    Leaves,
    Nodes,
    Pile,
}

const PARTS: [(Part, char); 5] = [
    (Part::Totals, 't'),
    (Part::Heads, 'h'),
    (Part::Leaves, 'b'),
    (Part::Nodes, 'n'),
    (Part::Pile, 'p'),
];

/// A region of the store: its length, its record, and whether it is live.
#[derive(Clone, Copy)]
struct Region(u32, u32, bool);

const fn live(length: u32, record: u32) -> Region {
    Region(length, record, true)
}

const fn free(length: u32, record: u32) -> Region {
    Region(length, record, false)
}

/// A store as the plain ledger has it: the regions in address order, the pile
/// from its bottom up, and the records of the free regions in the order in which
/// they came to their classes, so that the last is on top. Then how many words
/// `nodes`, `free_nodes` and the scratch have beyond what the count needs.
struct Store {
    count: u32,
    line: &'static [Region],
    pile: &'static [u32],
    came: &'static [u32],
    beyond: [usize; 3],
}

const STORES: [Store; 10] = [
    // fresh
    Store {
        count: 6,
        line: &[free(100, 0)],
        pile: &[5, 4, 3, 2, 1],
        came: &[0],
        beyond: [3, 3, 3],
    },
    // document 01's run after its first hand back
    Store {
        count: 6,
        line: &[live(20, 0), free(30, 1), live(48, 2), free(2, 3)],
        pile: &[5, 4],
        came: &[3, 1],
        beyond: [11, 0, 2],
    },
    // three free regions in one class, two of them parted by a live one of no length
    Store {
        count: 8,
        line: &[
            free(17, 3),
            live(10, 0),
            free(16, 5),
            live(0, 1),
            free(17, 2),
            live(140, 4),
        ],
        pile: &[7, 6],
        came: &[3, 5, 2],
        beyond: [10, 2, 0],
    },
    // four classes in three leaf bytes
    Store {
        count: 8,
        line: &[
            free(3, 6),
            live(7, 0),
            free(1_000, 2),
            live(80, 1),
            free(5, 3),
            live(5, 4),
            free(3_900, 5),
        ],
        pile: &[7],
        came: &[2, 6, 5, 3],
        beyond: [8, 1, 1],
    },
    // one spare
    Store {
        count: 6,
        line: &[
            live(9, 1),
            free(40, 0),
            live(1, 5),
            live(40, 4),
            free(40, 2),
        ],
        pile: &[3],
        came: &[2, 0],
        beyond: [9, 3, 2],
    },
    // document 01's run at its end: all merged, and the records out of order
    Store {
        count: 6,
        line: &[free(100, 2)],
        pile: &[5, 1, 4, 0, 3],
        came: &[2],
        beyond: [0, 0, 0],
    },
    // nothing free
    Store {
        count: 6,
        line: &[live(60, 1), live(0, 3), live(40, 0)],
        pile: &[5, 4, 2],
        came: &[],
        beyond: [4, 1, 3],
    },
    // no room and the fewest records
    Store {
        count: 2,
        line: &[free(0, 0)],
        pile: &[1],
        came: &[0],
        beyond: [8, 1, 2],
    },
    // the greatest size, where sums come near their limit
    Store {
        count: 8,
        line: &[free(4_026_531_840, 1), live(5, 0), free(268_435_450, 7)],
        pile: &[6, 2, 5, 3, 4],
        came: &[7, 1],
        beyond: [2, 2, 2],
    },
    // free regions of no length
    Store {
        count: 8,
        line: &[free(0, 4), live(10, 0), free(0, 2), live(0, 1), free(0, 3)],
        pile: &[7, 6, 5],
        came: &[2, 4, 3],
        beyond: [1, 3, 1],
    },
];

/// A store that is not sound: as it is described, and with some words changed.
struct Broken {
    store: Store,
    changes: &'static [(Part, usize, u32)],
}

const fn small(line: &'static [Region], pile: &'static [u32], came: &'static [u32]) -> Store {
    Store {
        count: 6,
        line,
        pile,
        came,
        beyond: [2, 2, 2],
    }
}

const FRESH: Store = small(&[free(100, 0)], &[5, 4, 3, 2, 1], &[0]);

/// The place of a record's word in `nodes`.
const fn place(record: usize, word: usize) -> usize {
    RECORD_WORDS * record + word
}

const BROKEN: [Broken; 15] = [
    // two free in a row
    Broken {
        store: small(
            &[free(10, 0), free(20, 1), live(70, 2)],
            &[5, 4, 3],
            &[0, 1],
        ),
        changes: &[],
    },
    // a record that stands nowhere
    Broken {
        store: small(&[free(100, 0)], &[5, 4, 3, 2], &[0]),
        changes: &[],
    },
    // a spare twice, and a record that stands nowhere
    Broken {
        store: small(&[free(100, 0)], &[5, 4, 3, 2, 2], &[0]),
        changes: &[],
    },
    // a record that is spare and in the chain, and one that stands nowhere
    Broken {
        store: small(&[free(100, 0)], &[5, 4, 3, 2, 0], &[0]),
        changes: &[],
    },
    // every record spare, and no region
    Broken {
        store: small(&[], &[5, 4, 3, 2, 1, 0], &[]),
        changes: &[],
    },
    // lengths that make 2^32 more than the size
    Broken {
        store: small(&[live(u32::MAX, 0), live(101, 1)], &[5, 4, 3, 2], &[]),
        changes: &[],
    },
    // the same with free regions, so that the total is as far off
    Broken {
        store: small(
            &[free(u32::MAX, 0), live(1, 1), free(100, 2)],
            &[5, 4, 3],
            &[0, 2],
        ),
        changes: &[],
    },
    // a chain in a ring
    Broken {
        store: small(&[live(60, 1), live(40, 0)], &[5, 4, 3, 2], &[]),
        changes: &[
            (Part::Nodes, place(1, NEIGHBOR_PREV), 0),
            (Part::Nodes, place(0, NEIGHBOR_NEXT), 1),
        ],
    },
    // a second chain, of one live region without length
    Broken {
        store: small(&[live(100, 0)], &[5, 4, 3, 2], &[]),
        changes: &[
            (Part::Nodes, place(1, DATA_OFFSET), 100),
            (Part::Nodes, place(1, DATA_SIZE), 0),
            (Part::Nodes, place(1, NEIGHBOR_PREV), NONE),
            (Part::Nodes, place(1, NEIGHBOR_NEXT), NONE),
            (Part::Nodes, place(1, USED), LIVE),
        ],
    },
    // a list in a ring
    Broken {
        store: small(
            &[free(40, 0), live(20, 1), free(40, 2)],
            &[5, 4, 3],
            &[0, 2],
        ),
        changes: &[
            (Part::Nodes, place(0, BIN_NEXT), 2),
            (Part::Nodes, place(2, BIN_PREV), 0),
        ],
    },
    // a live region in the list of its class, 18, beside the free one's of 23
    Broken {
        store: small(&[live(20, 0), free(30, 1)], &[5, 4, 3, 2], &[1]),
        changes: &[
            (Part::Heads, 18, 0),
            (Part::Leaves, 2, 1 << 2 | 1 << 7),
            (Part::Nodes, place(0, BIN_PREV), NONE),
            (Part::Nodes, place(0, BIN_NEXT), NONE),
        ],
    },
    // a spare in a list, of the class that its old length had
    Broken {
        store: FRESH,
        changes: &[
            (Part::Nodes, place(0, BIN_NEXT), 1),
            (Part::Nodes, place(1, BIN_PREV), 0),
            (Part::Nodes, place(1, BIN_NEXT), NONE),
            (Part::Nodes, place(1, DATA_SIZE), 100),
        ],
    },
    // a free region in the list of another class, 250 for 36, under bits that agree
    Broken {
        store: FRESH,
        changes: &[
            (Part::Heads, 36, NONE),
            (Part::Heads, 250, 0),
            (Part::Leaves, 4, 0),
            (Part::Leaves, 31, 1 << 2),
            (Part::Totals, 4, 1 << 31),
        ],
    },
    // a free region in both those lists
    Broken {
        store: FRESH,
        changes: &[
            (Part::Heads, 250, 0),
            (Part::Leaves, 31, 1 << 2),
            (Part::Totals, 4, 1 << 31 | 1 << 4),
        ],
    },
    // a bit of each level over an empty list
    Broken {
        store: FRESH,
        changes: &[
            (Part::Leaves, 31, 1 << 2),
            (Part::Totals, 4, 1 << 31 | 1 << 4),
        ],
    },
];

impl Broken {
    fn words(&self) -> Words {
        let sound = self.store.words();
        let change = |words: Words, &(part, at, value): &_| words.with(part, at, value);
        self.changes.iter().fold(sound, change)
    }
}

impl Store {
    fn words(&self) -> Words {
        let mut random = SplitMix::new(SEED);
        let count = self.count as usize;
        let [nodes, pile, scratch] = self.beyond;
        let mut words = Words {
            size: sum(self.line.iter()),
            max_allocs: self.count,
            free_storage: sum(self.line.iter().filter(|region| !region.2)),
            free_offset: self.pile.len() as u32 - 1,
            used_bins_top: 0,
            used_bins: [0; 32],
            bin_indices: [NONE; 256],
            nodes: drawn(RECORD_WORDS * count + nodes, &mut random),
            free_nodes: drawn(count + pile, &mut random),
            scratch: count + scratch,
        };
        words.free_nodes[..self.pile.len()].copy_from_slice(self.pile);
        for &record in self.pile {
            set(&mut words, record, USED, NOT_LIVE);
        }
        self.write_line(&mut words);
        for &record in self.came {
            put_on_top(&mut words, record);
        }
        words
    }

    fn write_line(&self, words: &mut Words) {
        let mut offset = 0;
        let mut prev = NONE;
        for (at, &Region(length, record, live)) in self.line.iter().enumerate() {
            let next = self.line.get(at + 1).map_or(NONE, |region| region.1);
            set(words, record, DATA_OFFSET, offset);
            set(words, record, DATA_SIZE, length);
            set(words, record, NEIGHBOR_PREV, prev);
            set(words, record, NEIGHBOR_NEXT, next);
            set(words, record, USED, if live { LIVE } else { NOT_LIVE });
            offset = length.wrapping_add(offset);
            prev = record;
        }
    }
}

/// The lengths together, as a u32 keeps them.
fn sum<'a>(regions: impl Iterator<Item = &'a Region>) -> u32 {
    regions.fold(0, |sum, region| region.0.wrapping_add(sum))
}

/// Words that hold anything: some record numbers, some marks, some great numbers.
fn drawn(length: usize, random: &mut SplitMix) -> Vec<u32> {
    (0..length).map(|_| random.log_uniform()).collect()
}

fn set(words: &mut Words, record: u32, word: usize, value: u32) {
    words.nodes[RECORD_WORDS * record as usize + word] = value;
}

/// A free region goes on top of its class, and the bits over it are set.
fn put_on_top(words: &mut Words, record: u32) {
    let class = class_of(words.nodes[RECORD_WORDS * record as usize + DATA_SIZE]);
    let below = words.bin_indices[class];
    set(words, record, BIN_PREV, NONE);
    set(words, record, BIN_NEXT, below);
    if below != NONE {
        set(words, below, BIN_PREV, record);
    }
    words.bin_indices[class] = record;
    words.used_bins[class / 8] |= 1 << (class % 8);
    words.used_bins_top |= 1 << (class / 8);
}

impl Words {
    fn length(&self, part: Part) -> usize {
        match part {
            Part::Totals => 5,
            Part::Heads => self.bin_indices.len(),
            Part::Leaves => self.used_bins.len(),
            Part::Nodes => self.nodes.len(),
            Part::Pile => self.free_nodes.len(),
        }
    }

    fn get(&self, part: Part, at: usize) -> u32 {
        match part {
            Part::Totals => [
                self.size,
                self.max_allocs,
                self.free_storage,
                self.free_offset,
                self.used_bins_top,
            ][at],
            Part::Heads => self.bin_indices[at],
            Part::Leaves => self.used_bins[at].into(),
            Part::Nodes => self.nodes[at],
            Part::Pile => self.free_nodes[at],
        }
    }

    /// The same words but for one. A leaf byte keeps the low eight bits.
    fn with(&self, part: Part, at: usize, value: u32) -> Words {
        let mut words = self.clone();
        match (part, at) {
            (Part::Totals, 0) => words.size = value,
            (Part::Totals, 1) => words.max_allocs = value,
            (Part::Totals, 2) => words.free_storage = value,
            (Part::Totals, 3) => words.free_offset = value,
            (Part::Totals, _) => words.used_bins_top = value,
            (Part::Heads, _) => words.bin_indices[at] = value,
            (Part::Leaves, _) => words.used_bins[at] = value as u8,
            (Part::Nodes, _) => words.nodes[at] = value,
            (Part::Pile, _) => words.free_nodes[at] = value,
        }
        words
    }

    /// What a word is set to: in order, none twice, and not what it holds.
    fn spoils(&self, part: Part, at: usize) -> BTreeSet<u32> {
        let held = self.get(part, at);
        let mut values = match part {
            Part::Leaves => byte_spoils(held as u8),
            _ => word_spoils(held, self.max_allocs),
        };
        if matches!((part, at), (Part::Totals, 1)) {
            values.extend(FORMER_COUNTS);
            values.extend([GREATEST_COUNT, GREATEST_COUNT + 1]);
        }
        values.remove(&held);
        values
    }
}

fn word_spoils(held: u32, count: u32) -> BTreeSet<u32> {
    (0..=count)
        .chain([NONE, held.wrapping_add(1), held.wrapping_sub(1)])
        .chain([held ^ HIGH_BIT])
        .collect()
}

fn byte_spoils(held: u8) -> BTreeSet<u32> {
    (0..u8::BITS)
        .map(|bit| held ^ 1 << bit)
        .chain([0, u8::MAX, held.wrapping_add(1), held.wrapping_sub(1)])
        .map(u32::from)
        .collect()
}

pub fn write(out: &mut impl Write) -> io::Result<()> {
    for store in &STORES {
        let words = store.words();
        write_words(out, &words)?;
        for (part, letter) in PARTS {
            for at in 0..words.length(part) {
                for value in words.spoils(part, at) {
                    let answer = words.with(part, at, value).audit();
                    writeln!(out, "{letter} {at} {value} {answer}")?;
                }
            }
        }
    }
    for broken in &BROKEN {
        write_words(out, &broken.words())?;
    }
    Ok(())
}

/// The lengths of the lent tables, every word of the state, and what an audit
/// must answer before anything is spoiled.
fn write_words(out: &mut impl Write, words: &Words) -> io::Result<()> {
    let [nodes, pile] = [words.nodes.len(), words.free_nodes.len()];
    writeln!(out, "l {nodes} {pile} {}", words.scratch)?;
    for (part, letter) in PARTS {
        for at in 0..words.length(part) {
            writeln!(out, "{letter} {at} {}", words.get(part, at))?;
        }
    }
    writeln!(out, "a {}", words.audit())
}

#[cfg(test)]
mod tests {
    use super::*;
    use offset_allocator::Allocator;

    use crate::sound::{TOO_SHORT, UNSOUND, YES};

    #[test]
    fn stores_are_sound_and_broken_ones_are_not() {
        for store in &STORES {
            assert_eq!(store.words().audit(), YES);
        }
        for broken in &BROKEN {
            assert_eq!(broken.words().audit(), UNSOUND);
        }
    }

    #[test]
    fn a_fresh_store_stands_as_document_01_has_it() {
        let words = STORES[0].words();
        assert_eq!((words.size, words.free_storage), (100, 100));
        assert_eq!(words.free_nodes[..5], [5, 4, 3, 2, 1]);
        // class 36, the value 96: bit 4 of leaf byte 4
        assert_eq!(words.bin_indices[36], 0);
        assert_eq!((words.used_bins[4], words.used_bins_top), (16, 16));
        assert_eq!(words.nodes[..7], [0, 100, NONE, NONE, NONE, NONE, 0]);
    }

    /// Document 01's run by the crate itself. It does not show its tables, but
    /// takes of 1 spend first the one region's record, then the pile from its
    /// top, down to two.
    #[test]
    fn the_run_ends_with_the_crate_s_records() {
        let mut allocator: Allocator<u32> = Allocator::with_max_allocs(100, 6);
        let mut take = |size| allocator.allocate(size).expect("there is room");
        let [first, second, third] = [take(20), take(30), take(48)];
        allocator.free(second);
        let fourth = allocator.allocate(0).expect("there is room");
        for span in [first, fourth, third] {
            allocator.free(span);
        }
        let met = std::iter::from_fn(|| allocator.allocate(1));
        let met: Vec<u32> = met.map(|span| span.metadata.into()).collect();

        let end = &STORES[5];
        let spent = end.pile[2..].iter().rev();
        let expected: Vec<u32> = [end.line[0].1].iter().chain(spent).copied().collect();
        assert_eq!(met, expected);
    }

    #[test]
    fn the_count_comes_before_the_lengths_and_both_before_the_words() {
        let words = STORES[0].words();
        for (count, answer) in [
            (0, UNSOUND),
            (1, UNSOUND),
            (2, UNSOUND),
            (7, TOO_SHORT),
            (131_072, TOO_SHORT),
            (131_073, TOO_SHORT),
            (1_048_576, TOO_SHORT),
            (1_048_577, UNSOUND),
        ] {
            assert_eq!(words.with(Part::Totals, 1, count).audit(), answer);
        }
    }

    #[test]
    fn words_that_the_sentence_leaves_free_are_free() {
        let words = STORES[0].words();
        // record 0's word 7, spare record 1's words but for the mark, words beyond
        for at in (7..14).chain([15, 48, 49, 50]) {
            assert_eq!(words.with(Part::Nodes, at, NONE).audit(), YES);
        }
        assert_eq!(words.with(Part::Nodes, 14, 1).audit(), UNSOUND);
        // the pile's word above its top, and one beyond the count
        assert_eq!(words.with(Part::Pile, 5, 5).audit(), YES);
        assert_eq!(words.with(Part::Pile, 6, 5).audit(), YES);
        assert_eq!(words.with(Part::Pile, 4, 5).audit(), UNSOUND);
    }

    #[test]
    fn a_circular_list_ends_and_is_not_sound() {
        let words = STORES[2].words();
        // the list of class 16 is 2, 5, 3
        let circle = words.with(Part::Nodes, RECORD_WORDS * 3 + BIN_NEXT, 2);
        assert_eq!(circle.audit(), UNSOUND);
        let circle = words.with(Part::Nodes, RECORD_WORDS * 4 + NEIGHBOR_NEXT, 3);
        assert_eq!(circle.audit(), UNSOUND);
    }
}
