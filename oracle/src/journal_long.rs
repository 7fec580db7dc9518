//! A long journal whose replay is to be timed: takes and hand backs by the toss
//! of a coin, as in the first run of `speed`, but what goes back is live, and so
//! much is out at most that few takes are refused.

use std::io::{self, Write};

use offset_allocator::{Allocation, Allocator};

use crate::journal::Call;
use crate::speed::{high_half, next, LARGEST};

const SIZE: u32 = 4 << 20;
const RECORDS: u32 = 1_024;
const MOST_OUT: usize = 700;

/// A setup, and then as many calls as that.
pub fn write(out: &mut impl Write, calls: u32) -> io::Result<()> {
    let mut run = Run {
        allocator: Allocator::with_max_allocs(SIZE, RECORDS),
        seed: 1,
        held: Vec::with_capacity(MOST_OUT),
    };
    let set_up = Call::SetUp {
        size: SIZE,
        count: RECORDS,
    };
    set_up.write(out)?;
    for _ in 0..calls {
        run.call().write(out)?;
    }
    Ok(())
}

struct Run {
    allocator: Allocator<u32>,
    seed: u32,
    held: Vec<Allocation<u32>>,
}

impl Run {
    fn call(&mut self) -> Call {
        let take = self.is_take();
        self.seed = next(self.seed);
        if take {
            self.take()
        } else {
            self.hand_back()
        }
    }

    fn is_take(&self) -> bool {
        let toss = high_half(self.seed) % 2 == 0;
        self.held.is_empty() || self.held.len() < MOST_OUT && toss
    }

    fn take(&mut self) -> Call {
        let size = 1 + high_half(self.seed) % LARGEST;
        self.held.extend(self.allocator.allocate(size));
        Call::Take { size }
    }

    fn hand_back(&mut self) -> Call {
        let at = high_half(self.seed) as usize % self.held.len();
        let span = self.held.swap_remove(at);
        self.allocator.free(span);
        Call::HandBack {
            record: span.metadata.into(),
            offset: span.offset,
        }
    }
}

#[cfg(test)]
mod tests {
    use super::*;
    use crate::journal;
    use crate::replay::{self, Line};

    #[test]
    fn the_calls_are_so_many_and_few_are_refused() {
        let mut journal = Vec::new();
        write(&mut journal, 20_000).expect("a Vec takes every byte");
        assert_eq!(
            journal::read(&journal).filter(Result::is_ok).count(),
            20_001
        );
        let is_refused = |line: &Line| matches!(line, Line::Refused(_));
        let refused: Vec<Line> = replay::lines(&journal).filter(is_refused).collect();
        assert!(refused.len() < 200);
        // only takes are, never a hand back
        let of_takes = [Line::Refused(3), Line::Refused(4)];
        assert!(refused.iter().all(|line| of_takes.contains(line)));
    }
}
