//! The speed drivers' other half: the same seeded takes and returns that the
//! Rattle programs `speed_in_place`, `speed_lent` and `speed_by_value` make, so
//! that all can be timed, and their sums compared.

use std::hint::black_box;
use std::io::{self, Write};

use offset_allocator::{Allocation, Allocator};

/// As often a take as a return, by the toss of a coin; what goes back is drawn.
const TOSS: u32 = 1;

/// So many takes, then as many returns, the last one first.
const BURSTS: u32 = 2;
const BURST: u32 = 64;

/// So many spans are out, and then one that is drawn is replaced by another
/// again and again.
const LIVE_SET: u32 = 3;
const LIVE: u32 = 256;

/// Spans are taken until one is refused, and then replaced as in a live set; a
/// refusal makes the set smaller.
const FULL: u32 = 4;

pub const LARGEST: u32 = 2_000;

/// As many spans as there can be records are out at most.
const MOST: u32 = 1_048_576;

/// What a refused take adds to the sum.
pub const REFUSED: u32 = u32::MAX;

/// What is drawn and what came of it so far.
struct Draws {
    run: u32,
    /// The number of spans below which the next call takes; a toss does not
    /// ask it.
    top: u32,
    seed: u32,
    sum: u32,
    held: Vec<Allocation<u32>>,
}

impl Draws {
    fn new(run: u32, records: u32) -> Draws {
        let top = match run {
            BURSTS => BURST,
            LIVE_SET => LIVE,
            _ => MOST,
        };
        let held = Vec::with_capacity(records as usize);
        Draws { run, top, seed: 1, sum: 0, held }
    }

    fn out(&self) -> u32 {
        self.held.len() as u32
    }

    fn is_take(&self) -> bool {
        if self.run == TOSS {
            return high_half(self.seed) % 2 == 0;
        }
        self.out() < self.top
    }

    fn granted(&mut self, span: Allocation<u32>) {
        self.sum = mix(mix(self.sum, span.offset), span.metadata.into());
        self.held.push(span);
        if self.run == BURSTS && self.out() == BURST {
            self.top = 0;
        }
    }

    fn refused(&mut self) {
        self.sum = mix(self.sum, REFUSED);
        self.top = self.out();
    }

    /// The span that goes back: the last, or one that was drawn, of many from a
    /// whole word.
    fn going_back(&mut self) -> Allocation<u32> {
        let at = match self.run {
            BURSTS => self.out() - 1,
            FULL => word(self.seed) % self.out(),
            _ => high_half(self.seed) % self.out(),
        };
        let span = self.held.swap_remove(at as usize);
        if self.run == BURSTS && self.held.is_empty() {
            self.top = BURST;
        }
        span
    }
}

/// A run of `calls` takes and returns in a store of this size with so many
/// records; the sum of all answers, and how many spans are out at the end.
pub fn write(out: &mut impl Write, run: u32, size: u32, records: u32, calls: u32) -> io::Result<()> {
    let mut allocator: Allocator<u32> = Allocator::with_max_allocs(size, records);
    let mut draws = Draws::new(run, records);
    for _ in 0..calls {
        let take = draws.is_take();
        draws.seed = next(draws.seed);
        if take {
            match allocator.allocate(1 + high_half(draws.seed) % LARGEST) {
                Some(span) => draws.granted(span),
                None => draws.refused(),
            }
        } else if !draws.held.is_empty() {
            let span = draws.going_back();
            allocator.free(span);
        }
    }
    writeln!(out, "sum {}", draws.sum)?;
    writeln!(out, "held {}", draws.held.len())
}

/// So many setups, one after the other, each with memory of its own that goes
/// back after it.
pub fn write_setups(out: &mut impl Write, size: u32, records: u32, times: u32) -> io::Result<()> {
    for _ in 0..times {
        let mut allocator: Allocator<u32> = Allocator::with_max_allocs(size, records);
        black_box(&mut allocator);
    }
    writeln!(out, "setups {times}")
}

/// A linear congruential generator, whose high half is good enough for sizes.
pub fn next(seed: u32) -> u32 {
    seed.wrapping_mul(1_664_525).wrapping_add(1_013_904_223)
}

pub fn high_half(seed: u32) -> u32 {
    seed >> 16
}

/// All 32 bits of a word: the high halves of the next two seeds.
fn word(seed: u32) -> u32 {
    let first = next(seed);
    high_half(first) << 16 | high_half(next(first))
}

pub fn mix(sum: u32, answer: u32) -> u32 {
    sum.wrapping_mul(31).wrapping_add(answer)
}
