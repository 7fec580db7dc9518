//! The plain ledger's line of regions and its pile, in document 01's words, kept
//! beside the crate. It tells which records are live and where they start, and
//! how many are spare, which the crate does not say. Which region a take gets the crate decides.

struct Region {
    offset: u32,
    length: u32,
    record: u32,
    live: bool,
}

/// What a take is refused as: one record or none is spare; no region reaches it.
pub const NO_SPARE: u32 = 3;
pub const NO_REGION: u32 = 4;

pub struct Regions {
    count: u32,
    /// In address order.
    line: Vec<Region>,
    /// The spare records, from the bottom up.
    pile: Vec<u32>,
}

impl Regions {
    pub fn new(size: u32, count: u32) -> Self {
        let all = Region {
            offset: 0,
            length: size,
            record: 0,
            live: false,
        };
        Self {
            count,
            line: vec![all],
            pile: (1..count).rev().collect(),
        }
    }

    pub fn spare(&self) -> u32 {
        let spare = self.count - self.line.len() as u32;
        assert_eq!(spare as usize, self.pile.len());
        spare
    }

    /// Where the region of this record starts, if it is live.
    pub fn live_offset(&self, record: u32) -> Option<u32> {
        self.find(record, true).map(|at| self.line[at].offset)
    }

    /// Why a take got nothing.
    pub fn refusal(&self) -> u32 {
        if self.spare() <= 1 {
            NO_SPARE
        } else {
            NO_REGION
        }
    }

    /// The crate granted `size` at `offset`, with this record: it must be that of
    /// a free region there. What remains of the region is a free one after it.
    pub fn take(&mut self, size: u32, offset: u32, record: u32) {
        assert!(self.spare() > 1, "granted without a record to spare");
        let at = self.find(record, false).expect("granted what is not free");
        let region = &mut self.line[at];
        assert_eq!(region.offset, offset, "granted at another offset");
        assert!(region.length >= size, "granted more than there is");

        let remainder = region.length - size;
        region.length = size;
        region.live = true;
        if remainder > 0 {
            let rest = Region {
                offset: offset + size,
                length: remainder,
                record: self.pile.pop().expect("a record is spare"),
                live: false,
            };
            self.line.insert(at + 1, rest);
        }
    }

    /// The region of this live record merges with a free one before and a free
    /// one after, whose records go onto the pile, and keeps its own.
    pub fn hand_back(&mut self, record: u32) {
        let mut at = self.find(record, true).expect("the record is live");
        if at > 0 && !self.line[at - 1].live {
            let before = self.line.remove(at - 1);
            self.pile.push(before.record);
            at -= 1;
            self.line[at].offset = before.offset;
            self.line[at].length += before.length;
        }
        if at + 1 < self.line.len() && !self.line[at + 1].live {
            let after = self.line.remove(at + 1);
            self.pile.push(after.record);
            self.line[at].length += after.length;
        }
        self.line[at].live = false;
    }

    fn find(&self, record: u32, live: bool) -> Option<usize> {
        self.line
            .iter()
            .position(|region| region.record == record && region.live == live)
    }
}

#[cfg(test)]
mod tests {
    use super::*;

    /// Document 01's run, with the answers of its table.
    #[test]
    fn document_01_s_run_ends_in_one_region_of_record_2() {
        let mut regions = Regions::new(100, 6);
        regions.take(20, 0, 0);
        regions.take(30, 20, 1);
        assert_eq!(regions.refusal(), NO_REGION);
        regions.take(48, 50, 2);
        assert_eq!(regions.live_offset(1), Some(20));
        regions.hand_back(1);
        assert_eq!(regions.live_offset(1), None);
        regions.take(0, 98, 3);
        assert_eq!(regions.refusal(), NO_SPARE);
        regions.hand_back(0);
        regions.hand_back(3);
        regions.hand_back(2);
        assert_eq!(regions.line.len(), 1);
        let region = &regions.line[0];
        assert_eq!((region.offset, region.length, region.record), (0, 100, 2));
        assert_eq!(regions.pile, [5, 1, 4, 0, 3]);
    }
}
