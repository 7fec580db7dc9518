//! Single calls of the packet layer, and the line that a program must print for each:
//! rows made by hand, with their answers beside them in `packet_cases.txt`, and then
//! the rows of seeded runs.

use std::fmt;
use std::io::{self, Write};

use crate::packet_rows::{numbers, parse, Row, PLACES};
use crate::packet_runs;
use crate::packet_store::{Refusal, Store};
use crate::packets::{Name, Packets};

/// Each store has so many bytes. The first ones are lent, all of them at first.
pub const BYTES: u32 = 64;

/// Every byte at first.
const AT_FIRST: u8 = 7;

/// The pile is the shorter one of a store's tables: it has room for so many records.
pub const RECORDS: u32 = 16;

const BY_HAND: &str = include_str!("packet_cases.txt");

/// What a line begins with.
#[derive(Clone, Debug, PartialEq, Eq)]
pub enum Answer {
    Done,
    Granted(Name),
    Length(u32),
    Report(u32, u32),
    /// A refused read is an empty part.
    Part(Vec<u8>),
    Refused(Refusal),
}

impl fmt::Display for Answer {
    fn fmt(&self, out: &mut fmt::Formatter) -> fmt::Result {
        match self {
            Answer::Done => write!(out, "0"),
            Answer::Granted(name) => write!(out, "0 {}", numbers(*name)),
            Answer::Length(length) => write!(out, "0 {length}"),
            Answer::Report(total, largest) => write!(out, "0 {total} {largest}"),
            Answer::Part(part) if part.is_empty() => write!(out, "0"),
            Answer::Part(part) => write!(out, "{} {}", part.len(), hexadecimal(part)),
            Answer::Refused(refusal) => write!(out, "{}", refusal.number()),
        }
    }
}

fn hexadecimal(bytes: &[u8]) -> String {
    bytes.iter().map(|byte| format!("{byte:02x}")).collect()
}

/// The two stores, and the number of the last row.
pub struct Trial {
    pub packets: Packets,
    row: u32,
}

impl Trial {
    pub fn new() -> Self {
        let store = || Store::unset(RECORDS, vec![AT_FIRST; BYTES as usize]);
        Self {
            packets: Packets::new(store(), store()),
            row: 0,
        }
    }

    /// The line of the next row, if it has one.
    fn line(&mut self, row: Row) -> Option<String> {
        let before = self.packets.bytes().map(<[u8]>::to_vec);
        let answer = self.answer(row)?;
        let [on_chip, external] = [0, 1].map(|at| match self.packets.bytes()[at] {
            after if after == before[at] => "=".to_owned(),
            after => hexadecimal(after),
        });
        Some(format!("{answer} | {on_chip} {external}"))
    }

    pub fn answer(&mut self, row: Row) -> Option<Answer> {
        self.row += 1;
        let done = |()| Answer::Done;
        let packets = &mut self.packets;
        let answer = match row {
            Row::Anew => {
                self.packets = Self::new().packets;
                return None;
            }
            Row::Lend(lent) => {
                for (place, lent) in PLACES.into_iter().zip(lent) {
                    packets.store_mut(place).lend(lent as usize);
                }
                return None;
            }
            Row::WriteCount(place, count) => {
                packets.store_mut(place).write_count(count);
                return None;
            }
            Row::SetUp(place, head) => packets.set_up(place, head).map(done),
            Row::SetUpBoth([on_chip, external]) => packets.set_up_both(on_chip, external).map(done),
            Row::Take(size) => packets.take(size).map(Answer::Granted),
            Row::HandBack(name) => packets.hand_back(name).map(done),
            Row::Fill(name, many) => packets.fill(name, &filling(self.row, many)).map(done),
            Row::Read(name) => Ok(Answer::Part(packets.read(name).to_vec())),
            Row::Length(name) => packets.length(name).map(Answer::Length),
            Row::Report(place) => packets
                .report(place)
                .map(|(total, largest)| Answer::Report(total, largest)),
            Row::Audit(place) => packets.audit(place).map(done),
        };
        Some(answer.unwrap_or_else(Answer::Refused))
    }
}

/// So many bytes: the number of the row, and each other one more, modulo 256.
fn filling(row: u32, many: u32) -> Vec<u8> {
    (row..row + many).map(|byte| byte as u8).collect()
}

pub fn write(out: &mut impl Write) -> io::Result<()> {
    for row in rows() {
        writeln!(out, "{row}")?;
    }
    Ok(())
}

pub fn write_lines(out: &mut impl Write) -> io::Result<()> {
    let mut trial = Trial::new();
    for row in rows() {
        if let Some(line) = trial.line(row) {
            writeln!(out, "{line}")?;
        }
    }
    Ok(())
}

fn rows() -> Vec<Row> {
    let by_hand = by_hand().map(|(row, _)| row);
    by_hand.chain(packet_runs::rows()).collect()
}

/// The rows made by hand, each with what must be answered, if anything.
fn by_hand() -> impl Iterator<Item = (Row, Option<&'static str>)> {
    let lines = BY_HAND.lines();
    let lines = lines.filter(|line| !line.is_empty() && !line.starts_with('#'));
    lines.map(|line| {
        let (row, answer) = match line.split_once(':') {
            Some((row, answer)) => (row, Some(answer.trim())),
            None => (line, None),
        };
        let row = parse(row).unwrap_or_else(|| panic!("no row: {line}"));
        (row, answer)
    })
}

#[cfg(test)]
mod tests {
    use super::*;
    use std::collections::BTreeSet;

    #[test]
    fn rows_made_by_hand_are_answered_as_beside_them() {
        let mut trial = Trial::new();
        for (row, must) in by_hand() {
            let answer = trial.answer(row).map(|answer| answer.to_string());
            assert_eq!(answer.as_deref(), must, "row {}, {row}", trial.row);
        }
    }

    #[test]
    fn a_row_that_is_written_can_be_read() {
        for row in rows() {
            assert_eq!(parse(&row.to_string()), Some(row));
        }
        for bad in ["", "n 1", "t", "t x", "q 2", "h 2 0 0", "z 0"] {
            assert_eq!(parse(bad), None, "{bad}");
        }
    }

    fn lines(rows: &[&str]) -> Vec<String> {
        let mut trial = Trial::new();
        let rows = rows.iter().map(|row| parse(row).expect("a row"));
        rows.filter_map(|row| trial.line(row)).collect()
    }

    #[test]
    fn a_line_has_the_answer_and_the_bytes_of_a_store_that_changed() {
        let sevens = |many: usize| "07".repeat(many);
        let made = lines(&[
            "d 8 4 16 4",
            "t 3",
            "f 0 0 0 2",
            "t 9",
            "n",
            "r 0 0 0",
            "s 0 8 4",
            "t 3",
            "t 0",
            "b 7 64",
            "r 0 0 0",
            "q 0",
            "b 8 64",
            "r 0 0 0",
            "q 0",
            "c 0 1048577",
            "q 0",
            "f 0 0 0 9",
        ]);
        let must = [
            "0 | = =".to_owned(),
            format!("0 0 0 0 | ffffff{} =", sevens(61)),
            format!("0 | 0304ff{} =", sevens(61)),
            format!("0 1 0 0 | = ffffffffffffffffff{}", sevens(55)),
            "0 | = =".to_owned(),
            "0 | = =".to_owned(),
            format!("0 0 0 0 | ffffff{} =", sevens(61)),
            "0 0 3 1 | = =".to_owned(),
            "0 | = =".to_owned(),
            "9 | = =".to_owned(),
            "3 ffffff | = =".to_owned(),
            "0 0 0 | = =".to_owned(),
            "6 | = =".to_owned(),
            "6 | = =".to_owned(),
        ];
        assert_eq!(made, must);
    }

    #[test]
    fn a_filling_begins_with_the_number_of_the_row() {
        assert_eq!(filling(1, 3), [1, 2, 3]);
        assert_eq!(filling(254, 4), [254, 255, 0, 1]);
        assert_eq!(filling(1_024, 2), [0, 1]);
        assert!(filling(5, 0).is_empty());
    }

    /// No refusal changes a byte, nor does a setup, a return or a question. A grant and
    /// a filling leave all but the packet's own bytes, and all that are not lent.
    #[test]
    fn all_other_bytes_stay_put() {
        let mut trial = Trial::new();
        for row in rows() {
            let before = trial.packets.bytes().map(<[u8]>::to_vec);
            let answer = trial.answer(row);
            let mut must = before.clone();
            let own = match (row, &answer) {
                (Row::Anew, _) => continue,
                (Row::Take(size), Some(Answer::Granted(name))) => {
                    Some((*name, vec![255; size as usize]))
                }
                (Row::Fill(name, many), Some(Answer::Done)) => {
                    Some((name, filling(trial.row, many)))
                }
                _ => None,
            };
            if let Some((name, bytes)) = own {
                let start = name.offset as usize;
                must[name.place as usize][start..start + bytes.len()].copy_from_slice(&bytes);
            }
            assert_eq!(trial.packets.bytes(), must, "row {}, {row}", trial.row);
        }
    }

    /// The letters of these rows, each with the refusals met, or 0.
    fn met(rows: impl IntoIterator<Item = Row>) -> BTreeSet<(char, u32)> {
        let mut trial = Trial::new();
        let mut met = BTreeSet::new();
        for row in rows {
            let letter = row.to_string().chars().next().expect("a letter");
            let number = match trial.answer(row) {
                Some(Answer::Refused(refusal)) => refusal.number(),
                _ => 0,
            };
            met.insert((letter, number));
        }
        met
    }

    #[test]
    fn by_hand_every_kind_of_call_gets_every_refusal_that_it_can_get() {
        let met = met(by_hand().map(|(row, _)| row));
        for (letter, must) in [
            ('s', &[0, 1, 2, 9][..]),
            ('d', &[0, 1, 2, 9]),
            ('t', &[0, 2, 3, 4, 6, 9]),
            ('h', &[0, 2, 5, 6, 8, 9]),
            ('l', &[0, 2, 5, 6, 8, 9]),
            ('f', &[0, 2, 5, 6, 8, 9, 17]),
            ('q', &[0, 2, 6, 9]),
            ('a', &[0, 2, 6, 9]),
        ] {
            let numbers = met.iter().filter(|(of, _)| *of == letter);
            let numbers: Vec<u32> = numbers.map(|&(_, number)| number).collect();
            assert_eq!(numbers, must, "{letter}");
        }
    }

    #[test]
    fn the_runs_have_every_letter_and_every_number() {
        let met = met(packet_runs::rows());
        let letters: BTreeSet<char> = met.iter().map(|&(letter, _)| letter).collect();
        assert_eq!(letters.into_iter().collect::<String>(), "abcdfhlnqrst");
        let numbers: BTreeSet<u32> = met.iter().map(|&(_, number)| number).collect();
        assert!(numbers.into_iter().eq([0, 1, 2, 3, 4, 5, 6, 8, 9, 17]));
    }
}
