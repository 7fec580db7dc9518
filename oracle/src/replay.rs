//! A replay of a journal on the crate, as requests 1 and 3 of document 02 have it:
//! a line for each call, and one for what ended the reading early. What the crate
//! has no answer for, or another, is decided beforehand, and it is not asked.

use std::fmt;
use std::fs;
use std::io::{self, Read, Write};
use std::time::{Duration, Instant};

use offset_allocator::Allocator;

use crate::journal::{self, Call};
use crate::regions::Regions;
use crate::runs::handle;
use crate::sound::{GREATEST_COUNT, LEAST_COUNT};
use crate::speed::{mix, REFUSED};

/// The replay has tables for so many records.
const RECORDS: u32 = 1_024;

const BAD_COUNT: u32 = 1;
const TOO_SHORT: u32 = 2;
pub const NOT_LIVE: u32 = 5;
const NO_STORE: u32 = 6;
pub const ELSEWHERE: u32 = 8;

/// A line of a replay.
#[derive(Clone, Copy, Debug, PartialEq, Eq)]
pub enum Line {
    Done,
    Granted { offset: u32, record: u32 },
    Refused(u32),
}

impl fmt::Display for Line {
    fn fmt(&self, out: &mut fmt::Formatter) -> fmt::Result {
        match self {
            Line::Done => write!(out, "0"),
            Line::Granted { offset, record } => write!(out, "0 {offset} {record}"),
            Line::Refused(number) => write!(out, "{number}"),
        }
    }
}

/// The lines of a replay, from the first record on.
pub fn lines(journal: &[u8]) -> impl Iterator<Item = Line> + '_ {
    let mut replay = Replay { store: None };
    journal::read(journal).map(move |read| match read {
        Ok(call) => replay.line(call),
        Err(number) => Line::Refused(number),
    })
}

/// There is a store after a setup that was not refused.
struct Replay {
    store: Option<Store>,
}

struct Store {
    size: u32,
    count: u32,
    allocator: Allocator<u32>,
    regions: Regions,
}

impl Replay {
    fn line(&mut self, call: Call) -> Line {
        match (call, &mut self.store) {
            (Call::SetUp { size, count }, _) => self.set_up(size, count),
            (_, None) => Line::Refused(NO_STORE),
            (Call::Take { size }, Some(store)) => store.take(size),
            (Call::HandBack { record, offset }, Some(store)) => store.hand_back(record, offset),
            (Call::Reset, Some(store)) => store.reset(),
        }
    }

    fn set_up(&mut self, size: u32, count: u32) -> Line {
        match refused_count(count) {
            Some(number) => {
                self.store = None;
                Line::Refused(number)
            }
            None => {
                self.store = Some(Store::new(size, count));
                Line::Done
            }
        }
    }
}

fn refused_count(count: u32) -> Option<u32> {
    if !(LEAST_COUNT..=GREATEST_COUNT).contains(&count) {
        Some(BAD_COUNT)
    } else if count > RECORDS {
        Some(TOO_SHORT)
    } else {
        None
    }
}

impl Store {
    fn new(size: u32, count: u32) -> Self {
        Self {
            size,
            count,
            allocator: Allocator::with_max_allocs(size, count),
            regions: Regions::new(size, count),
        }
    }

    fn take(&mut self, size: u32) -> Line {
        let Some(span) = self.allocator.allocate(size) else {
            return Line::Refused(self.regions.refusal());
        };
        let (offset, record) = (span.offset, span.metadata.into());
        self.regions.take(size, offset, record);
        Line::Granted { offset, record }
    }

    /// The crate would panic at a record that is not live, and free one that
    /// starts elsewhere.
    fn hand_back(&mut self, record: u32, offset: u32) -> Line {
        if record >= self.count {
            return Line::Refused(NOT_LIVE);
        }
        match self.regions.live_offset(record) {
            None => Line::Refused(NOT_LIVE),
            Some(own) if own != offset => Line::Refused(ELSEWHERE),
            Some(_) => {
                self.allocator.free(handle(offset, record));
                self.regions.hand_back(record);
                Line::Done
            }
        }
    }

    fn reset(&mut self) -> Line {
        self.allocator.reset();
        self.regions = Regions::new(self.size, self.count);
        Line::Done
    }
}

/// The replay of standard input.
pub fn write(out: &mut impl Write) -> io::Result<()> {
    let mut journal = Vec::new();
    io::stdin().lock().read_to_end(&mut journal)?;
    for line in lines(&journal) {
        writeln!(out, "{line}")?;
    }
    Ok(())
}

/// The calls of a journal, made on the crate and on nothing beside it, and timed.
/// It must be whole and none of its setups and hand backs refused; that a hand
/// back names another offset the crate does not see.
pub fn write_bare(out: &mut impl Write, path: &str) -> io::Result<()> {
    let journal = fs::read(path)?;
    let calls: Vec<Call> = journal::read(&journal)
        .collect::<Result<_, _>>()
        .map_err(early_end)?;
    let begun = Instant::now();
    let sum = sum_of_answers(&calls);
    write_time(out, sum, calls.len(), begun.elapsed())
}

/// The same of the reading alone; the sum is that of the fields.
pub fn write_decode(out: &mut impl Write, path: &str) -> io::Result<()> {
    let journal = fs::read(path)?;
    let begun = Instant::now();
    let (calls, sum) = sum_of_fields(&journal).map_err(early_end)?;
    write_time(out, sum, calls, begun.elapsed())
}

fn early_end(number: u32) -> io::Error {
    io::Error::other(format!("the reading of the journal ends with {number}"))
}

fn write_time(out: &mut impl Write, sum: u32, calls: usize, taken: Duration) -> io::Result<()> {
    let each = taken.as_nanos() as f64 / calls.max(1) as f64;
    writeln!(out, "sum {sum}")?;
    writeln!(out, "calls {calls}")?;
    writeln!(out, "nanoseconds per call {each:.1}")
}

fn sum_of_answers(calls: &[Call]) -> u32 {
    const BEFORE: &str = "a setup comes before other calls";
    let mut store: Option<Allocator<u32>> = None;
    let mut sum = 0;
    for &call in calls {
        match call {
            Call::Take { size } => match store.as_mut().expect(BEFORE).allocate(size) {
                Some(span) => sum = mix(mix(sum, span.offset), span.metadata.into()),
                None => sum = mix(sum, REFUSED),
            },
            Call::HandBack { record, offset } => {
                store.as_mut().expect(BEFORE).free(handle(offset, record));
            }
            Call::SetUp { size, count } => {
                assert_eq!(refused_count(count), None, "the setup is refused");
                store = Some(Allocator::with_max_allocs(size, count));
            }
            Call::Reset => store.as_mut().expect(BEFORE).reset(),
        }
    }
    sum
}

fn sum_of_fields(journal: &[u8]) -> Result<(usize, u32), u32> {
    let mut calls = 0;
    let mut sum = 0;
    for call in journal::read(journal) {
        sum = match call? {
            Call::Take { size } => mix(sum, size),
            Call::HandBack { record, offset } => mix(mix(sum, record), offset),
            Call::SetUp { size, count } => mix(mix(sum, size), count),
            Call::Reset => mix(sum, 0),
        };
        calls += 1;
    }
    Ok((calls, sum))
}

#[cfg(test)]
mod tests {
    use super::*;
    use crate::journal::EXAMPLE;

    #[test]
    fn the_example_prints_the_request_s_lines() {
        let printed: Vec<String> = lines(&EXAMPLE).map(|line| line.to_string()).collect();
        assert_eq!(printed, ["0", "0 0 0", "0"]);
    }

    /// The lines of hand backs with these records and offsets, after takes of 20
    /// and 30 from a store of 100 with 6 records.
    fn handed_back<const N: usize>(pairs: [(u32, u32); N]) -> Vec<Line> {
        let mut calls = vec![
            Call::SetUp {
                size: 100,
                count: 6,
            },
            Call::Take { size: 20 },
            Call::Take { size: 30 },
        ];
        calls.extend(pairs.map(|(record, offset)| Call::HandBack { record, offset }));
        lines(&journal::written(&calls)).skip(3).collect()
    }

    #[test]
    fn a_record_that_is_not_live_is_5_whatever_the_offset() {
        for offset in [0, 20, 50, 51, u32::MAX] {
            // free, spare, the count, and far beyond it
            for record in [2, 3, 6, u32::MAX] {
                assert_eq!(handed_back([(record, offset)]), [Line::Refused(5)]);
            }
        }
        let again = handed_back([(1, 20), (1, 20), (1, 0)]);
        assert_eq!(again, [Line::Done, Line::Refused(5), Line::Refused(5)]);
    }

    #[test]
    fn a_live_record_that_starts_elsewhere_is_8_and_stays_live() {
        for offset in [0, 19, 21, 30, 50, 20 | 1 << 16, 20 | 1 << 31, u32::MAX] {
            let met = handed_back([(1, offset), (1, offset), (1, 20)]);
            assert_eq!(met, [Line::Refused(8), Line::Refused(8), Line::Done]);
        }
    }

    #[test]
    fn a_count_is_judged_before_the_tables() {
        for (count, refused) in [
            (0, Some(1)),
            (1, Some(1)),
            (2, None),
            (1_024, None),
            (1_025, Some(2)),
            (131_072, Some(2)),
            (131_073, Some(2)),
            (1_048_576, Some(2)),
            (1_048_577, Some(1)),
            (u32::MAX, Some(1)),
        ] {
            assert_eq!(refused_count(count), refused);
        }
    }

    #[test]
    fn the_bare_calls_get_the_lines_answers() {
        let calls = [
            Call::SetUp { size: 17, count: 4 },
            Call::Take { size: 17 },
            Call::Take { size: 5 },
            Call::HandBack {
                record: 0,
                offset: 0,
            },
            Call::Reset,
            Call::Take { size: 0 },
            Call::Take { size: 16 },
        ];
        let journal = journal::written(&calls);
        let sum = lines(&journal).fold(0, |sum, line| match line {
            Line::Done => sum,
            Line::Granted { offset, record } => mix(mix(sum, offset), record),
            Line::Refused(_) => mix(sum, REFUSED),
        });
        assert_eq!(sum_of_answers(&calls), sum);
        assert_eq!(sum_of_fields(&journal).map(|(calls, _)| calls), Ok(7));
    }
}
