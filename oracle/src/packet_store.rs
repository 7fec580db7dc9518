//! One of the packet layer's two stores: bytes, a head, and one of the crate's
//! allocators. The crate frees by the record alone, keeps the length of a record that
//! is not live, and does not say why a take gets nothing. So the store keeps the live
//! packets itself, and document 01's regions beside them.
//!
//! The calls that are timed are put in line where they are made, as the bare ones are:
//! left to itself the compiler does so in one build and not in the next.

use std::ops::Range;

use offset_allocator::{Allocation, Allocator};

use crate::regions::{Regions, NO_SPARE};
use crate::sound::{GREATEST_COUNT, LEAST_COUNT};

/// Every byte of a fresh grant: not heard.
pub const NOT_HEARD: u8 = 255;

/// With the numbers of the documents.
#[derive(Clone, Copy, Debug, PartialEq, Eq)]
pub enum Refusal {
    BadCount = 1,
    ShortTable = 2,
    NoSpare = 3,
    NoRegion = 4,
    NotLive = 5,
    BadHead = 6,
    Elsewhere = 8,
    ShortStore = 9,
    TooLong = 17,
}

impl Refusal {
    pub fn number(self) -> u32 {
        self as u32
    }
}

/// What a setup asks for, and what a head says of it: zeros after a refused setup,
/// and before any.
#[derive(Clone, Copy, Debug, Default, PartialEq, Eq)]
pub struct Head {
    pub size: u32,
    pub count: u32,
}

#[derive(Clone, Copy)]
struct Live {
    span: Allocation<u32>,
    length: u32,
}

/// What an accepted setup begins.
struct Spans {
    /// The count that it was given.
    count: u32,
    allocator: Allocator<u32>,
    /// They only tell why a take gets nothing, so a store that is timed has none.
    regions: Option<Regions>,
    /// By record.
    live: Vec<Option<Live>>,
}

impl Spans {
    fn new(head: Head) -> Self {
        let Head { size, count } = head;
        Self {
            count,
            allocator: Allocator::with_max_allocs(size, count),
            regions: Some(Regions::new(size, count)),
            live: vec![None; count as usize],
        }
    }

    #[inline(always)]
    fn take(&mut self, length: u32) -> Result<Allocation<u32>, Refusal> {
        let Some(span) = self.allocator.allocate(length) else {
            let regions = self.regions.as_ref();
            return Err(match regions.expect("why is not told").refusal() {
                NO_SPARE => Refusal::NoSpare,
                _ => Refusal::NoRegion,
            });
        };
        let record = u32::from(span.metadata);
        if let Some(regions) = &mut self.regions {
            regions.take(length, span.offset, record);
        }
        self.live[record as usize] = Some(Live { span, length });
        Ok(span)
    }

    #[inline(always)]
    fn hand_back(&mut self, offset: u32, record: u32) -> Result<(), Refusal> {
        let span = self.live(offset, record)?.span;
        self.allocator.free(span);
        if let Some(regions) = &mut self.regions {
            regions.hand_back(record);
        }
        self.live[record as usize] = None;
        Ok(())
    }

    fn live(&self, offset: u32, record: u32) -> Result<Live, Refusal> {
        match self.live.get(record as usize) {
            Some(&Some(live)) if live.span.offset == offset => Ok(live),
            Some(Some(_)) => Err(Refusal::Elsewhere),
            _ => Err(Refusal::NotLive),
        }
    }
}

pub struct Store {
    head: Head,
    /// The tables have room for so many records.
    room: u32,
    /// Those of the head, unless it is one of zeros.
    spans: Option<Spans>,
    bytes: Vec<u8>,
    /// So many of the bytes, from the first on, are lent to every call.
    lent: usize,
}

impl Store {
    /// Without a setup. All bytes are lent.
    pub fn unset(room: u32, bytes: Vec<u8>) -> Self {
        Self {
            head: Head::default(),
            room,
            spans: None,
            lent: bytes.len(),
            bytes,
        }
    }

    /// Set up, with room for the records that it has. The allocator's size need not be
    /// the number of bytes.
    pub fn new(size: u32, records: u32, bytes: Vec<u8>) -> Self {
        let mut store = Self::unset(records, bytes);
        store.begin(Head {
            size,
            count: records,
        });
        store
    }

    /// The same, to be timed. A take that it has no room for stops the program.
    pub fn bare(size: u32, records: u32, bytes: Vec<u8>) -> Self {
        let mut store = Self::new(size, records, bytes);
        if let Some(spans) = &mut store.spans {
            spans.regions = None;
        }
        store
    }

    pub fn head(&self) -> Head {
        self.head
    }

    pub fn bytes(&self) -> &[u8] {
        &self.bytes
    }

    pub fn lend(&mut self, lent: usize) {
        assert!(lent <= self.bytes.len(), "there are not so many bytes");
        self.lent = lent;
    }

    /// Somebody else writes the count. The crate is not asked with a count that is not
    /// its own, so that must be one at which every call is refused.
    pub fn write_count(&mut self, count: u32) {
        let refused = !is_good(count) || count > self.room;
        assert!(
            refused || count == self.own_count(),
            "the store would go on"
        );
        self.head.count = count;
    }

    /// The count of the last setup; 0 if that was refused or there was none.
    pub fn own_count(&self) -> u32 {
        self.spans.as_ref().map_or(0, |spans| spans.count)
    }

    /// Whether fewer bytes are lent than this size.
    pub fn is_short_of(&self, size: u32) -> bool {
        self.lent < size as usize
    }

    /// What a setup is refused as, once there are bytes enough.
    pub fn check_set_up(&self, count: u32) -> Result<(), Refusal> {
        if !is_good(count) {
            return Err(Refusal::BadCount);
        }
        self.check_tables(count)
    }

    /// An accepted setup. No byte is touched.
    pub fn begin(&mut self, head: Head) {
        self.head = head;
        self.spans = Some(Spans::new(head));
    }

    /// A refused setup.
    pub fn clear(&mut self) {
        self.head = Head::default();
        self.spans = None;
    }

    /// What every call but a setup tests in its store before anything else of it.
    pub fn check(&self) -> Result<(), Refusal> {
        if !is_good(self.head.count) {
            return Err(Refusal::BadHead);
        }
        self.check_tables(self.head.count)
    }

    fn check_tables(&self, count: u32) -> Result<(), Refusal> {
        if count > self.room {
            return Err(Refusal::ShortTable);
        }
        Ok(())
    }

    /// The offset and the record of a grant.
    #[inline(always)]
    pub fn take(&mut self, length: u32) -> Result<(u32, u32), Refusal> {
        let span = self.spans_mut()?.take(length)?;
        self.bytes[range(span.offset, length)].fill(NOT_HEARD);
        Ok((span.offset, span.metadata.into()))
    }

    #[inline(always)]
    pub fn hand_back(&mut self, offset: u32, record: u32) -> Result<(), Refusal> {
        self.spans_mut()?.hand_back(offset, record)
    }

    pub fn length(&self, offset: u32, record: u32) -> Result<u32, Refusal> {
        Ok(self.spans()?.live(offset, record)?.length)
    }

    pub fn part(&self, offset: u32, record: u32) -> Result<&[u8], Refusal> {
        let length = self.length(offset, record)?;
        Ok(&self.bytes[range(offset, length)])
    }

    #[inline(always)]
    pub fn part_mut(&mut self, offset: u32, record: u32) -> Result<&mut [u8], Refusal> {
        let length = self.length(offset, record)?;
        Ok(&mut self.bytes[range(offset, length)])
    }

    /// All that is free, and the largest request that has room.
    pub fn report(&self) -> Result<(u32, u32), Refusal> {
        let report = self.spans()?.allocator.storage_report();
        Ok((report.total_free_space, report.largest_free_region))
    }

    fn spans(&self) -> Result<&Spans, Refusal> {
        self.check()?;
        Ok(self.spans.as_ref().expect("the count is a setup's"))
    }

    fn spans_mut(&mut self) -> Result<&mut Spans, Refusal> {
        self.check()?;
        Ok(self.spans.as_mut().expect("the count is a setup's"))
    }
}

fn is_good(count: u32) -> bool {
    (LEAST_COUNT..=GREATEST_COUNT).contains(&count)
}

fn range(offset: u32, length: u32) -> Range<usize> {
    offset as usize..offset as usize + length as usize
}
