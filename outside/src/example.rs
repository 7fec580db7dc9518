//! Document 01's "run to follow" with request 3's offsets, and the facts that stand below it, number for number.

use crate::boundary::Told;
use crate::calls::{make, Call, Form, FORMS};
use crate::guarded::Edge;
use crate::tables::{fill_with_junk, Tables};
use crate::tally::Tally;
use crate::words::{GREATEST_COUNT, WORDS_A_RECORD};
use crate::alarm;

/// A call, its number and figures, and the report after it.
type Row = (Call, (u32, u32, u32), (u32, u32));

const fn give(offset: u32, record: u32) -> Call {
    Call::Give { offset, record }
}

const RUN: [Row; 12] = [
    (Call::SetUp { size: 100, count: 6 }, (0, 0, 0), (100, 96)),
    (Call::Take(20), (0, 0, 0), (80, 80)),
    (Call::Take(30), (0, 20, 1), (50, 48)),
    (Call::Take(49), (4, 0, 0), (50, 48)),
    (Call::Take(48), (0, 50, 2), (2, 2)),
    (give(20, 1), (0, 0, 0), (32, 30)),
    (give(20, 1), (5, 0, 0), (32, 30)),
    (Call::Take(0), (0, 98, 3), (0, 0)),
    (Call::Take(1), (3, 0, 0), (0, 0)),
    (give(0, 0), (0, 0, 0), (52, 48)),
    (give(98, 3), (0, 0, 0), (52, 48)),
    (give(50, 2), (0, 0, 0), (100, 96)),
];

/// Small stores and their first calls.
const SMALL: [(Call, (u32, u32, u32)); 14] = [
    (Call::SetUp { size: 50, count: 1 }, (1, 0, 0)),
    (Call::Take(0), (6, 0, 0)),
    (Call::SetUp { size: 50, count: 2 }, (0, 0, 0)),
    (Call::Take(0), (3, 0, 0)),
    (Call::SetUp { size: 17, count: 3 }, (0, 0, 0)),
    (Call::Take(17), (4, 0, 0)),
    (Call::Take(16), (0, 0, 0)),
    (Call::SetUp { size: 18, count: 3 }, (0, 0, 0)),
    (Call::Take(17), (0, 0, 0)),
    (Call::SetUp { size: 0, count: 3 }, (0, 0, 0)),
    (Call::Take(0), (0, 0, 0)),
    (Call::Take(0), (4, 0, 0)),
    (give(0, 0), (0, 0, 0)),
    (Call::Take(0), (0, 0, 0)),
];

fn one(tables: &mut Tables, tally: &mut Tally, form: Form, call: Call, (number, first, second): (u32, u32, u32)) -> Result<(), String> {
    alarm::step();
    let (asked, answer) = (Told { number, first, second }, make(tables, call, form));
    tally.row(call.kind(), answer.number);
    if answer == asked { Ok(()) } else { Err(format!("document 01's example, {call:?} {form:?}: {answer:?}, the document says {asked:?}")) }
}

pub fn run(tables: &mut Tables, tally: &mut Tally) -> Result<(), String> {
    for form in FORMS {
        tables.lay(WORDS_A_RECORD * 6, 6, Edge::Behind);
        fill_with_junk(tables.nodes.words_mut(), 0, 7);
        for (call, answer, (free, largest)) in RUN {
            one(tables, tally, form, call, answer)?;
            one(tables, tally, form, Call::Report, (0, free, largest))?;
        }
        for (call, answer) in SMALL {
            one(tables, tally, form, call, answer)?;
        }
        tables.lay(WORDS_A_RECORD * 131_073, 131_073, Edge::Behind);
        for (count, number) in [(131_072, 0), (131_073, 0), (131_074, 2), (GREATEST_COUNT, 2), (GREATEST_COUNT + 1, 1)] {
            one(tables, tally, form, Call::SetUp { size: 100, count }, (number, 0, 0))?;
        }
    }
    Ok(())
}
