//! A row of the list of single packet calls.

use std::fmt;

use crate::packet_store::Head;
use crate::packets::{Name, Place};

pub const PLACES: [Place; 2] = [Place::OnChip, Place::External];

/// Written as a letter and its numbers; a place as 0 or 1.
#[derive(Clone, Copy, Debug, PartialEq, Eq)]
pub enum Row {
    Anew,
    Lend([u32; 2]),
    WriteCount(Place, u32),
    SetUp(Place, Head),
    SetUpBoth([Head; 2]),
    Take(u32),
    HandBack(Name),
    Fill(Name, u32),
    Read(Name),
    Length(Name),
    Report(Place),
    Audit(Place),
}

/// The row that this text is, if it is one.
pub fn parse(row: &str) -> Option<Row> {
    let mut words = row.split_whitespace();
    let letter = words.next()?;
    let numbers: Option<Vec<u32>> = words.map(|word| word.parse().ok()).collect();
    let name = |place, offset, record| {
        Some(Name {
            place: parse_place(place)?,
            offset,
            record,
        })
    };
    Some(match (letter, numbers?.as_slice()) {
        ("n", &[]) => Row::Anew,
        ("b", &[on_chip, external]) => Row::Lend([on_chip, external]),
        ("c", &[place, count]) => Row::WriteCount(parse_place(place)?, count),
        ("s", &[place, size, count]) => Row::SetUp(parse_place(place)?, Head { size, count }),
        ("d", &[size, count, size_1, count_1]) => Row::SetUpBoth([
            Head { size, count },
            Head {
                size: size_1,
                count: count_1,
            },
        ]),
        ("t", &[size]) => Row::Take(size),
        ("h", &[place, offset, record]) => Row::HandBack(name(place, offset, record)?),
        ("f", &[place, offset, record, many]) => Row::Fill(name(place, offset, record)?, many),
        ("r", &[place, offset, record]) => Row::Read(name(place, offset, record)?),
        ("l", &[place, offset, record]) => Row::Length(name(place, offset, record)?),
        ("q", &[place]) => Row::Report(parse_place(place)?),
        ("a", &[place]) => Row::Audit(parse_place(place)?),
        _ => return None,
    })
}

fn parse_place(number: u32) -> Option<Place> {
    PLACES.get(number as usize).copied()
}

impl fmt::Display for Row {
    fn fmt(&self, out: &mut fmt::Formatter) -> fmt::Result {
        match *self {
            Row::Anew => write!(out, "n"),
            Row::Lend([on_chip, external]) => write!(out, "b {on_chip} {external}"),
            Row::WriteCount(place, count) => write!(out, "c {} {count}", place as u32),
            Row::SetUp(place, Head { size, count }) => {
                write!(out, "s {} {size} {count}", place as u32)
            }
            Row::SetUpBoth([on_chip, external]) => write!(
                out,
                "d {} {} {} {}",
                on_chip.size, on_chip.count, external.size, external.count
            ),
            Row::Take(size) => write!(out, "t {size}"),
            Row::HandBack(name) => write!(out, "h {}", numbers(name)),
            Row::Fill(name, many) => write!(out, "f {} {many}", numbers(name)),
            Row::Read(name) => write!(out, "r {}", numbers(name)),
            Row::Length(name) => write!(out, "l {}", numbers(name)),
            Row::Report(place) => write!(out, "q {}", place as u32),
            Row::Audit(place) => write!(out, "a {}", place as u32),
        }
    }
}

/// A name as a row has it, and the answer of a grant.
pub fn numbers(name: Name) -> String {
    format!("{} {} {}", name.place as u32, name.offset, name.record)
}
