//! The Rust crate itself, run beside. It is asked only what it can answer without a panic; what the documents list as different is left out.

use nonmax::NonMaxU32;
use offset_allocator::{ext, Allocation, Allocator};

use crate::boundary::Told;
use crate::calls::Call;
use crate::classes;
use crate::tables::Tables;

pub struct Beside {
    allocator: Allocator<u32>,
}

fn handle(offset: u32, record: u32) -> Allocation<u32> {
    Allocation { offset, metadata: NonMaxU32::try_from(record).expect("a live record is not the greatest number") }
}

pub fn smallest_store(object: u32) -> u32 {
    ext::min_allocator_size(object)
}

impl Beside {
    pub fn new(size: u32, count: u32) -> Beside {
        Beside { allocator: Allocator::with_max_allocs(size, count) }
    }

    /// The crate's own `new`, which picks the count itself.
    pub fn of_new(size: u32) -> Beside {
        Beside { allocator: Allocator::new(size) }
    }

    /// Makes the same call, given the answer that the documents ask for, and says where the crate answers otherwise.
    pub fn call(&mut self, call: Call, answer: Told, tables: &Tables) -> Result<(), String> {
        let ours = match (call, answer.number) {
            (Call::Take(size), number) => match self.allocator.allocate(size) {
                Some(a) => Told { number: 0, first: a.offset, second: u32::from(a.metadata) },
                None => Told { number: if number == 3 { 3 } else { 4 }, first: 0, second: 0 },
            },
            (Call::Give { offset, record }, 0) => {
                self.allocator.free(handle(offset, record));
                answer
            }
            (Call::SizeOf { offset, record }, 0) => Told { first: self.allocator.allocation_size(handle(offset, record)), ..answer },
            (Call::Report, 0) => {
                let report = self.allocator.storage_report();
                Told { number: 0, first: report.total_free_space, second: report.largest_free_region }
            }
            (Call::FullReport, 0) => return self.full_report(tables),
            (Call::Reset, 0) => {
                self.allocator.reset();
                answer
            }
            _ => answer,
        };
        if ours == answer { Ok(()) } else { Err(format!("{call:?}: the crate answers {ours:?}, the call {answer:?}")) }
    }

    /// The crate's values of classes 240 to 255 are the true ones without their high bits.
    fn full_report(&self, tables: &Tables) -> Result<(), String> {
        let report = self.allocator.storage_report_full();
        for (class, region) in report.free_regions.iter().enumerate() {
            let value = tables.sizes.words()[class] as u32;
            if region.count != tables.counts.words()[class] || region.size != value {
                return Err(format!("full report, class {class}: the crate shows {region:?}, true value {}", classes::value(class as u32)));
            }
        }
        Ok(())
    }
}
