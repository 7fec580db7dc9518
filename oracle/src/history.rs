//! The calls of a run from its setup on, kept so that they can be made again on
//! another allocator. What the crate does there leaves the run alone.

use offset_allocator::{Allocation, Allocator};

use crate::journal::Call;
use crate::panics::panics;
use crate::runs::handle;

pub struct History {
    size: u32,
    count: u32,
    /// Those that may have changed something, without the setup.
    calls: Vec<Call>,
}

impl History {
    pub fn new(size: u32, count: u32) -> Self {
        Self {
            size,
            count,
            calls: Vec::new(),
        }
    }

    pub fn push(&mut self, call: Call) {
        self.calls.push(call);
    }

    /// The crate frees by the record alone: the live span handed back with a wrong
    /// offset does not panic, leaves what it leaves when handed back with its own,
    /// and is live no more.
    pub fn assert_freed_alike(&self, right: Allocation<u32>, wrong: Allocation<u32>) {
        let mut expected = self.made_again();
        expected.free(right);
        let mut freed = self.made_again();
        assert!(!panics(|| freed.free(wrong)), "a wrong offset panics");
        assert_eq!(Picture::of(&freed, wrong), Picture::of(&expected, right));
        assert!(panics(|| freed.free(right)), "a wrong offset frees nothing");
    }

    /// An allocator on which all these calls were made.
    fn made_again(&self) -> Allocator<u32> {
        let mut allocator = Allocator::with_max_allocs(self.size, self.count);
        for &call in &self.calls {
            match call {
                Call::Take { size } => drop(allocator.allocate(size)),
                Call::HandBack { record, offset } => allocator.free(handle(offset, record)),
                Call::Reset => allocator.reset(),
                Call::SetUp { .. } => unreachable!("a run has one setup"),
            }
        }
        allocator
    }
}

/// All that the crate tells: both reports, and the length of one record.
#[derive(Debug, PartialEq, Eq)]
struct Picture {
    total: u32,
    largest: u32,
    classes: Vec<(u32, u32)>,
    length: u32,
}

impl Picture {
    fn of(allocator: &Allocator<u32>, span: Allocation<u32>) -> Self {
        let report = allocator.storage_report();
        let regions = allocator.storage_report_full().free_regions;
        Self {
            total: report.total_free_space,
            largest: report.largest_free_region,
            classes: regions.map(|region| (region.size, region.count)).to_vec(),
            length: allocator.allocation_size(span),
        }
    }
}

#[cfg(test)]
mod tests {
    use super::*;

    /// Document 01's run up to its fullest: three spans are out, of 20, 48 and 0.
    const CALLS: [Call; 5] = [
        Call::Take { size: 20 },
        Call::Take { size: 30 },
        Call::Take { size: 48 },
        Call::HandBack {
            record: 1,
            offset: 20,
        },
        Call::Take { size: 0 },
    ];
    const LIVE: [(u32, u32, u32); 3] = [(0, 0, 20), (50, 2, 48), (98, 3, 0)];

    fn history() -> History {
        let mut history = History::new(100, 6);
        for call in CALLS {
            history.push(call);
        }
        history
    }

    #[test]
    fn the_crate_frees_and_tells_the_length_by_the_record_alone() {
        let history = history();
        for (own, record, length) in LIVE {
            for offset in [0, 1, 20, 49, 50, 51, 98, 99, 100, 1 << 31, u32::MAX] {
                let asked = handle(offset, record);
                history.assert_freed_alike(handle(own, record), asked);
                assert_eq!(history.made_again().allocation_size(asked), length);
            }
        }
    }

    /// The check would see another span go back, or none.
    #[test]
    #[should_panic(expected = "left == right")]
    fn another_record_is_not_freed_alike() {
        history().assert_freed_alike(handle(0, 0), handle(0, 2));
    }

    #[test]
    #[should_panic(expected = "a wrong offset panics")]
    fn a_record_that_is_not_live_is_not_freed_alike() {
        history().assert_freed_alike(handle(0, 0), handle(0, 1));
    }
}
