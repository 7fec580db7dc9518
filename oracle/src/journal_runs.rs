//! The calls of `runs` that a journal can hold, as one journal, and the lines
//! that a replay of it must print, which are the crate's answers in those rows;
//! but a return with a wrong offset, which the crate would do, is refused. After
//! the last call stand three bytes more, a record that is cut.

use std::io::{self, Write};

use crate::journal::{Call, CUT};
use crate::regions::Regions;
use crate::replay::{Line, ELSEWHERE, NOT_LIVE};
use crate::runs;

/// The first bytes of a setup.
const CUT_RECORD: [u8; 3] = [0x0a, 0x00, 0x03];

pub fn write_journal(out: &mut impl Write) -> io::Result<()> {
    for (call, _) in answered()? {
        call.write(out)?;
    }
    out.write_all(&CUT_RECORD)
}

pub fn write_lines(out: &mut impl Write) -> io::Result<()> {
    for (_, line) in answered()? {
        writeln!(out, "{line}")?;
    }
    writeln!(out, "{CUT}")
}

/// The calls, each with its line.
fn answered() -> io::Result<Vec<(Call, Line)>> {
    let mut rows = Vec::new();
    runs::write(&mut rows)?;
    let rows = String::from_utf8(rows).expect("rows are ASCII");
    // The first row is a setup's.
    let mut store = Store::new(0, 0);
    Ok(rows.lines().filter_map(|row| store.answered(row)).collect())
}

/// A run's store, for the reason why a take got nothing.
struct Store {
    size: u32,
    count: u32,
    regions: Regions,
}

impl Store {
    fn new(size: u32, count: u32) -> Self {
        Self {
            size,
            count,
            regions: Regions::new(size, count),
        }
    }

    /// The call of a row and its line, if the row has a call for a journal.
    fn answered(&mut self, row: &str) -> Option<(Call, Line)> {
        let (letter, numbers) = row.split_at(1);
        let numbers = numbers.split_whitespace();
        let numbers: Vec<u32> = numbers
            .map(|word| word.parse().expect("a row's fields are numbers"))
            .collect();
        match (letter, &numbers[..]) {
            ("n", &[size, count]) => {
                *self = Self::new(size, count);
                Some((Call::SetUp { size, count }, Line::Done))
            }
            ("t", &[size, offset, record]) => {
                self.regions.take(size, offset, record);
                Some((Call::Take { size }, Line::Granted { offset, record }))
            }
            ("x", &[size]) => {
                let refused = Line::Refused(self.regions.refusal());
                Some((Call::Take { size }, refused))
            }
            ("f", &[offset, record]) => {
                self.regions.hand_back(record);
                Some((Call::HandBack { record, offset }, Line::Done))
            }
            ("b", &[offset, record]) => {
                let refused = Line::Refused(NOT_LIVE);
                Some((Call::HandBack { record, offset }, refused))
            }
            ("w", &[offset, record]) => {
                let refused = Line::Refused(ELSEWHERE);
                Some((Call::HandBack { record, offset }, refused))
            }
            ("z", []) => {
                *self = Self::new(self.size, self.count);
                Some((Call::Reset, Line::Done))
            }
            ("l" | "u" | "m" | "r" | "g" | "e", _) => None,
            _ => panic!("a row of no kind: {row}"),
        }
    }
}

#[cfg(test)]
mod tests {
    use super::*;
    use crate::replay;

    #[test]
    fn a_replay_gives_what_the_crate_answered_in_the_runs() {
        let mut journal = Vec::new();
        let mut expected = Vec::new();
        write_journal(&mut journal).expect("a Vec takes every byte");
        write_lines(&mut expected).expect("a Vec takes every byte");
        let printed: String = replay::lines(&journal)
            .map(|line| format!("{line}\n"))
            .collect();
        assert!(printed.as_bytes() == expected);
    }
}
