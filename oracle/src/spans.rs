//! The spans that a run has out, and of every record where it was granted last:
//! a pair of record and offset that was right once may be handed back again.

use offset_allocator::Allocation;

/// The last grant of a record, if there was one.
#[derive(Clone, Copy)]
enum Grant {
    Never,
    Live { offset: u32 },
    Past { offset: u32 },
}

impl Grant {
    fn end(&mut self) {
        if let Grant::Live { offset } = *self {
            *self = Grant::Past { offset };
        }
    }
}

pub struct Spans {
    /// In an order that depends on the calls alone, for one is drawn by its place.
    live: Vec<Allocation<u32>>,
    /// By record, so that no record is looked for in a long line of spans.
    grants: Vec<Grant>,
}

impl Spans {
    pub fn new(count: u32) -> Self {
        Self {
            live: Vec::new(),
            grants: vec![Grant::Never; count as usize],
        }
    }

    pub fn live(&self) -> &[Allocation<u32>] {
        &self.live
    }

    /// Where the span of this record starts, if it is live.
    pub fn live_offset(&self, record: u32) -> Option<u32> {
        match self.grants.get(record as usize) {
            Some(&Grant::Live { offset }) => Some(offset),
            _ => None,
        }
    }

    /// Where the last span of this record starts or started, be it of the time
    /// before a reset.
    pub fn last_offset(&self, record: u32) -> Option<u32> {
        match self.grants.get(record as usize) {
            Some(&(Grant::Live { offset } | Grant::Past { offset })) => Some(offset),
            _ => None,
        }
    }

    pub fn grant(&mut self, span: Allocation<u32>) {
        self.live.push(span);
        let offset = span.offset;
        *self.grant_of(span.metadata.into()) = Grant::Live { offset };
    }

    /// The span at this place of the live ones goes back, and the last one takes
    /// its place.
    pub fn hand_back_at(&mut self, at: usize) -> Allocation<u32> {
        let span = self.live.swap_remove(at);
        self.grant_of(span.metadata.into()).end();
        span
    }

    /// The span of this record goes back, and the others keep their order.
    pub fn hand_back(&mut self, record: u32) {
        self.live.retain(|span| u32::from(span.metadata) != record);
        self.grant_of(record).end();
    }

    pub fn reset(&mut self) {
        self.live.clear();
        self.grants.iter_mut().for_each(Grant::end);
    }

    fn grant_of(&mut self, record: u32) -> &mut Grant {
        &mut self.grants[record as usize]
    }
}

#[cfg(test)]
mod tests {
    use super::*;
    use crate::runs::handle;

    #[test]
    fn a_record_is_known_after_its_span_went_back() {
        let mut spans = Spans::new(3);
        spans.grant(handle(0, 0));
        spans.grant(handle(20, 1));
        assert_eq!(spans.live_offset(1), Some(20));
        spans.hand_back(1);
        assert_eq!(
            (spans.live_offset(1), spans.last_offset(1)),
            (None, Some(20))
        );
        spans.grant(handle(7, 1));
        assert_eq!(spans.live_offset(1), Some(7));
        spans.hand_back_at(0);
        assert_eq!(
            (spans.live_offset(0), spans.last_offset(0)),
            (None, Some(0))
        );
        spans.reset();
        assert!(spans.live().is_empty());
        assert_eq!(
            (spans.live_offset(1), spans.last_offset(1)),
            (None, Some(7))
        );
        // never granted, and no record
        for record in [2, 3, u32::MAX] {
            assert_eq!(
                (spans.live_offset(record), spans.last_offset(record)),
                (None, None)
            );
        }
    }
}
