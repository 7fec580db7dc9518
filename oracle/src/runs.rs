//! Runs of calls with what the crate answers: setups, takes, returns, size
//! queries, reports and resets, from fixed seeds. After every call comes the
//! report, so that each row ties down the state as well as the answer. Now and
//! then a return or a size query names an offset that is not its record's.

use std::io::{self, Write};

use nonmax::NonMaxU32;
use offset_allocator::{Allocation, Allocator};

use crate::history::History;
use crate::journal::Call;
use crate::panics::panics;
use crate::spans::Spans;
use crate::splitmix::SplitMix;

const STORE_SIZES: [u32; 11] = [
    0,
    1,
    7,
    8,
    17,
    100,
    4_096,
    65_535,
    4 << 20,
    4_026_531_840,
    u32::MAX,
];
const RECORD_COUNTS: [u32; 6] = [2, 3, 4, 6, 64, 1_024];
const SEEDS: u64 = 4;

/// In so many turns one has a call with a wrong offset after it.
const TURNS_PER_WRONG: u32 = 8;

/// Every size with every count, a few times over: with odd seeds the store is
/// used up first, with even ones the records are.
pub fn write(out: &mut impl Write) -> io::Result<()> {
    for seed in 1..=SEEDS {
        for size in STORE_SIZES {
            for count in RECORD_COUNTS {
                let crowded = seed % 2 == 0;
                let seed = seed << 48 ^ u64::from(size) << 12 ^ u64::from(count);
                let mut run = Run::new(size, count, seed, crowded);
                run.history = Some(History::new(size, count));
                run.write(out)?;
            }
        }
    }
    Ok(())
}

pub struct Run {
    allocator: Allocator<u32>,
    size: u32,
    count: u32,
    spans: Spans,
    /// The calls so far, where it is to be shown what the crate makes of a
    /// hand-back with a wrong offset.
    history: Option<History>,
    random: SplitMix,
    /// Draws the offsets that are no live record's own, and the calls with a
    /// wrong one. All other calls are drawn as if there were none of these.
    offsets: SplitMix,
    /// Many spans and small ones, so that the records run out before the store does.
    crowded: bool,
}

impl Run {
    pub fn new(size: u32, count: u32, seed: u64, crowded: bool) -> Self {
        Self {
            allocator: Allocator::with_max_allocs(size, count),
            size,
            count,
            spans: Spans::new(count),
            history: None,
            random: SplitMix::new(seed),
            offsets: SplitMix::new(!seed),
            crowded,
        }
    }

    pub fn set_up(&self, out: &mut impl Write) -> io::Result<()> {
        writeln!(out, "n {} {}", self.size, self.count)?;
        self.report(out)
    }

    fn write(mut self, out: &mut impl Write) -> io::Result<()> {
        self.set_up(out)?;
        // A large count wants a long run before its records are spread about.
        let calls = if self.count < 64 { 40 } else { 200 };
        for _ in 0..calls {
            self.call(out)?;
            self.report(out)?;
            self.wrong_now_and_then(TURNS_PER_WRONG, out)?;
        }
        // What is out goes back, in an order that is drawn, so that every merge is met.
        while !self.nothing_out() {
            self.hand_back(out)?;
            self.report(out)?;
        }
        self.full_report(out)?;
        self.report(out)
    }

    /// A call that is drawn; or none, where nothing is out that could go back,
    /// and two times in three in place of a reset.
    fn call(&mut self, out: &mut impl Write) -> io::Result<()> {
        let takes = if self.crowded { 14 } else { 10 };
        match self.random.below(20) {
            drawn if drawn < takes => self.take(out),
            10..=14 => self.hand_back(out),
            15 => self.hand_back_any(out),
            16..=17 => self.size_query(out),
            18 => self.full_report(out),
            _ => self.reset_now_and_then(out),
        }
    }

    /// A size to ask for: often one that just fits or just does not, but in a
    /// crowded run mostly one that is at most a record's share of the store.
    fn wanted(&mut self) -> u32 {
        let report = self.allocator.storage_report();
        if self.crowded && self.random.below(32) > 0 {
            return self.share();
        }
        match self.random.below(8) {
            0 => 0,
            1 => report.largest_free_region,
            2 => report.largest_free_region.saturating_add(1),
            3 => report.total_free_space,
            4 => self.random.below(20),
            5 => self.random.log_uniform(),
            _ => {
                let most = report.largest_free_region / 4;
                self.random.below(most.saturating_add(1))
            }
        }
    }

    /// At most a record's share of the store.
    fn share(&mut self) -> u32 {
        self.random.below(self.size / self.count + 1)
    }

    fn take(&mut self, out: &mut impl Write) -> io::Result<()> {
        let size = self.wanted();
        self.take_size(size, out)
    }

    /// A take that leaves the store room for a span of every record: a share of
    /// it, or now and then a byte more than there is.
    pub fn take_small(&mut self, out: &mut impl Write) -> io::Result<()> {
        let size = if self.random.below(32) > 0 {
            self.share()
        } else {
            let report = self.allocator.storage_report();
            report.largest_free_region.saturating_add(1)
        };
        self.take_size(size, out)
    }

    fn take_size(&mut self, size: u32, out: &mut impl Write) -> io::Result<()> {
        self.remember(Call::Take { size });
        match self.allocator.allocate(size) {
            Some(span) => {
                self.spans.grant(span);
                writeln!(out, "t {size} {} {}", span.offset, span.metadata)
            }
            None => writeln!(out, "x {size}"),
        }
    }

    pub fn hand_back(&mut self, out: &mut impl Write) -> io::Result<()> {
        if self.nothing_out() {
            return Ok(());
        }
        let at = self.random.below(self.spans.live().len() as u32) as usize;
        let span = self.spans.hand_back_at(at);
        self.free(span, out)
    }

    /// A record number, live or not: one that is not makes the crate panic, before it changes anything.
    pub fn hand_back_any(&mut self, out: &mut impl Write) -> io::Result<()> {
        let number = self.any_number();
        if let Some(offset) = self.spans.live_offset(number) {
            self.spans.hand_back(number);
            return self.free(handle(offset, number), out);
        }
        let offset = self.stray_offset(number);
        let allocator = &mut self.allocator;
        let panicked = panics(|| allocator.free(handle(offset, number)));
        assert!(panicked, "the crate freed a record that is not live");
        writeln!(out, "b {offset} {number}")
    }

    fn free(&mut self, span: Allocation<u32>, out: &mut impl Write) -> io::Result<()> {
        let (offset, record) = (span.offset, span.metadata.into());
        self.remember(Call::HandBack { record, offset });
        self.allocator.free(span);
        writeln!(out, "f {offset} {record}")
    }

    pub fn size_query(&mut self, out: &mut impl Write) -> io::Result<()> {
        let number = self.any_number();
        let (letter, offset) = match self.spans.live_offset(number) {
            Some(offset) => ('l', offset),
            None => ('u', self.stray_offset(number)),
        };
        let length = self.allocator.allocation_size(handle(offset, number));
        writeln!(out, "{letter} {offset} {number} {length}")
    }

    /// After one turn in so many, if something is out: a live record with an
    /// offset that is not its own goes back, or its length is asked for.
    pub fn wrong_now_and_then(&mut self, turns: u32, out: &mut impl Write) -> io::Result<()> {
        if self.offsets.below(turns) > 0 || self.nothing_out() {
            return Ok(());
        }
        let right = self.some_live();
        let offset = self.wrong_offset(right);
        let wrong = Allocation { offset, ..right };
        if self.offsets.below(2) == 0 {
            self.wrong_hand_back(right, wrong, out)?;
        } else {
            self.wrong_size_query(right, wrong, out)?;
        }
        self.report(out)
    }

    /// The crate would free the record, so it is not asked in this run.
    fn wrong_hand_back(
        &self,
        right: Allocation<u32>,
        wrong: Allocation<u32>,
        out: &mut impl Write,
    ) -> io::Result<()> {
        if let Some(history) = &self.history {
            history.assert_freed_alike(right, wrong);
        }
        writeln!(out, "w {} {}", wrong.offset, wrong.metadata)
    }

    fn wrong_size_query(
        &self,
        right: Allocation<u32>,
        wrong: Allocation<u32>,
        out: &mut impl Write,
    ) -> io::Result<()> {
        let length = self.allocator.allocation_size(wrong);
        assert_eq!(length, self.allocator.allocation_size(right));
        writeln!(out, "m {} {} {length}", wrong.offset, wrong.metadata)
    }

    /// The classes that hold something, and how many there are.
    pub fn full_report(&mut self, out: &mut impl Write) -> io::Result<()> {
        let report = self.allocator.storage_report_full();
        let mut held = 0;
        for (class, region) in report.free_regions.iter().enumerate() {
            if region.count > 0 {
                writeln!(out, "g {class} {} {}", region.size, region.count)?;
                held += 1;
            }
        }
        writeln!(out, "e {held}")
    }

    fn reset_now_and_then(&mut self, out: &mut impl Write) -> io::Result<()> {
        if self.random.below(3) > 0 {
            return Ok(());
        }
        self.reset(out)
    }

    pub fn reset(&mut self, out: &mut impl Write) -> io::Result<()> {
        self.remember(Call::Reset);
        self.allocator.reset();
        self.spans.reset();
        writeln!(out, "z")
    }

    pub fn nothing_out(&self) -> bool {
        self.spans.live().is_empty()
    }

    pub fn drawn_below(&mut self, limit: u32) -> u32 {
        self.random.below(limit)
    }

    pub fn report(&self, out: &mut impl Write) -> io::Result<()> {
        let report = self.allocator.storage_report();
        writeln!(
            out,
            "r {} {}",
            report.total_free_space, report.largest_free_region
        )
    }

    /// Mostly a live one or another below the count, sometimes one far beyond it.
    fn any_number(&mut self) -> u32 {
        match self.random.below(8) {
            0 => self.count,
            1 => self.random.log_uniform().min(u32::MAX - 1),
            2..=4 if !self.nothing_out() => {
                let live = self.spans.live();
                live[self.random.below(live.len() as u32) as usize]
                    .metadata
                    .into()
            }
            _ => self.random.below(self.count),
        }
    }

    /// One of the spans that are out, by the draws of offsets.
    fn some_live(&mut self) -> Allocation<u32> {
        let live = self.spans.live();
        live[self.offsets.below(live.len() as u32) as usize]
    }

    /// An offset for a record that is not live: the one of its last grant, so that
    /// the pair is stale, a live span's, 0, or any.
    fn stray_offset(&mut self, number: u32) -> u32 {
        match (self.offsets.below(5), self.spans.last_offset(number)) {
            (0, _) => 0,
            (1..=2, Some(offset)) => offset,
            (1..=3, _) if !self.nothing_out() => self.some_live().offset,
            _ => self.offsets.uniform(),
        }
    }

    /// An offset at which a live span does not start: that of another span, which
    /// is an installer's mistake, one that is nearly its own, another number that
    /// goes with it, or any.
    fn wrong_offset(&mut self, span: Allocation<u32>) -> u32 {
        let own = span.offset;
        let length = self.allocator.allocation_size(span);
        loop {
            let offset = match self.offsets.below(8) {
                0 => self.some_live().offset,
                1 => own.wrapping_add(1),
                2 => own.wrapping_sub(1),
                3 => own ^ 1 << (16 + self.offsets.below(16)),
                4 => own + length,
                5 => span.metadata.into(),
                6 => length,
                _ => self.offsets.uniform(),
            };
            if offset != own {
                return offset;
            }
        }
    }

    fn remember(&mut self, call: Call) {
        if let Some(history) = &mut self.history {
            history.push(call);
        }
    }
}

pub fn handle(offset: u32, number: u32) -> Allocation<u32> {
    Allocation {
        offset,
        metadata: NonMaxU32::try_from(number).expect("the greatest number is no record's"),
    }
}

#[cfg(test)]
mod tests {
    use super::*;
    use crate::long_runs;
    use std::collections::HashMap;

    /// What the rows of a list say of records, and what was met among them.
    #[derive(Default)]
    struct Reading {
        /// The offset and the length of every live record.
        live: HashMap<u32, (u32, u32)>,
        /// The offset of every record's last grant in the run.
        last: HashMap<u32, u32>,
        report: String,
        after_wrong: bool,
        wrong: u32,
        others: u32,
        stale: u32,
    }

    impl Reading {
        fn of(rows: &[u8]) -> Self {
            let mut reading = Self::default();
            for row in std::str::from_utf8(rows).expect("ASCII").lines() {
                reading.row(row);
            }
            reading
        }

        /// A row's offset must be its record's, or another, or that of a record
        /// that is not live, as the letter says; and after a wrong one the report
        /// is what it was before.
        fn row(&mut self, row: &str) {
            assert!(!self.after_wrong || row == self.report, "{row}");
            self.after_wrong = false;
            let mut words = row.split(' ');
            let letter = words.next().expect("a letter");
            let numbers: Vec<u32> = words.map(|word| word.parse().expect("a number")).collect();
            match (letter, &numbers[..]) {
                ("n", [_, _]) => *self = self.next_run(),
                ("z", []) => self.live.clear(),
                ("t", &[size, offset, record]) => {
                    self.live.insert(record, (offset, size));
                    self.last.insert(record, offset);
                }
                ("f", &[offset, record]) => {
                    let (own, _) = self.live.remove(&record).expect("a live record");
                    assert_eq!(own, offset, "{row}");
                }
                ("l", &[offset, record, length]) => {
                    assert_eq!(self.live[&record], (offset, length), "{row}");
                }
                ("b", &[offset, record]) | ("u", &[offset, record, _]) => {
                    assert!(!self.live.contains_key(&record), "{row}");
                    self.stale += u32::from(self.last.get(&record) == Some(&offset));
                }
                ("w", &[offset, record]) => self.wrong(offset, record),
                ("m", &[offset, record, length]) => {
                    self.wrong(offset, record);
                    assert_eq!(self.live[&record].1, length, "{row}");
                }
                ("r", [_, _]) => self.report = row.to_owned(),
                ("x", [_]) | ("g", [_, _, _]) | ("e", [_]) => {}
                _ => panic!("a row of no kind: {row}"),
            }
        }

        fn wrong(&mut self, offset: u32, record: u32) {
            assert_ne!(self.live[&record].0, offset);
            let is_another = self.live.values().any(|&(own, _)| own == offset);
            self.after_wrong = true;
            self.wrong += 1;
            self.others += u32::from(is_another);
        }

        fn next_run(&self) -> Self {
            let &Self {
                wrong,
                others,
                stale,
                ..
            } = self;
            Self {
                wrong,
                others,
                stale,
                ..Self::default()
            }
        }
    }

    #[test]
    fn an_offset_is_the_record_s_where_the_letter_says_so() {
        let mut rows = Vec::new();
        write(&mut rows).expect("a Vec takes every byte");
        let reading = Reading::of(&rows);
        assert!(reading.wrong > 1_000 && reading.others > 100 && reading.stale > 50);
    }

    #[test]
    fn the_same_holds_of_long_runs() {
        let mut rows = Vec::new();
        long_runs::write(&mut rows, 24_000).expect("a Vec takes every byte");
        let reading = Reading::of(&rows);
        assert!(reading.wrong > 200 && reading.others > 20 && reading.stale > 10);
    }
}
