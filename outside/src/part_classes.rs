//! Rounding, values, the smallest store and the lengths of tables beside document 01's formulas and the crate.

use crate::boundary::*;
use crate::crate_beside;
use crate::desk::told;
use crate::draw::Draw;
use crate::tally::Tally;
use crate::words::{GREATEST_COUNT, WORDS_A_RECORD};
use crate::{alarm, classes};

/// Document 01's table, with request 7's "none" as 256.
const TABLE: [(u32, u32, u32); 12] = [
    (0, 0, 0),
    (7, 7, 7),
    (8, 8, 8),
    (15, 15, 15),
    (16, 16, 16),
    (17, 16, 17),
    (19, 17, 18),
    (31, 23, 24),
    (1_000, 63, 64),
    (65_535, 111, 112),
    (4_026_531_840, 239, 239),
    (4_294_967_295, 239, 256),
];

const NO_CLASS: u32 = 256;

fn same<T: PartialEq + std::fmt::Debug>(tally: &mut Tally, kind: &'static str, of: u32, ours: T, theirs: T, number: u32) -> Result<(), String> {
    alarm::step();
    tally.row(kind, number);
    if ours == theirs { Ok(()) } else { Err(format!("{kind} of {of}: {theirs:?}, by the formulas {ours:?}")) }
}

fn of_size(tally: &mut Tally, s: u32) -> Result<(), String> {
    let (down, up) = unsafe { (ds_class_down(s), ds_class_up(s)) };
    same(tally, "class down", s, classes::down(s), down, 0)?;
    same(tally, "class up", s, classes::up(s).unwrap_or(NO_CLASS), up, 0)?;
    let store = unsafe { ds_smallest_store(s) };
    let ours = told(classes::smallest_store(s).map(|size| (size, 0)));
    same(tally, "smallest store", s, ours, store, store.number)?;
    // Above the greatest size served the crate gives 0, where the call gives 7 with a figure of 0.
    same(tally, "smallest store of the crate", s, crate_beside::smallest_store(s), store.first, 0)?;
    facts(s)
}

/// Document 01's facts about the formulas themselves.
fn facts(s: u32) -> Result<(), String> {
    let (size, down) = (s as u64, classes::down(s));
    let mut holds = down <= 239 && classes::value(down) <= size && classes::value(down + 1) > size;
    if let Some(up) = classes::up(s) {
        holds &= up <= 239 && classes::value(up) >= size && (up == 0 || classes::value(up - 1) < size);
        holds &= s < 8 || 8 * (classes::value(up) - size) < size;
    }
    if holds { Ok(()) } else { Err(format!("document 01's facts fail for {s}")) }
}

fn of_count(tally: &mut Tally, count: u32) -> Result<(), String> {
    let n = count as usize;
    let ours = if (2..=GREATEST_COUNT).contains(&count) {
        Lengths { number: 0, nodes: WORDS_A_RECORD * n, pile: n, scratch: n }
    } else {
        Lengths { number: 1, nodes: 0, pile: 0, scratch: 0 }
    };
    same(tally, "table lengths", count, ours, unsafe { ds_table_lengths(count) }, ours.number)
}

fn of_class(tally: &mut Tally, class: u32) -> Result<(), String> {
    same(tally, "class value", class, classes::value(class), unsafe { ds_class_value(class) }, 0)
}

fn edges(tally: &mut Tally) -> Result<(), String> {
    for (s, down, up) in TABLE {
        same(tally, "class down", s, down, unsafe { ds_class_down(s) }, 0)?;
        same(tally, "class up", s, up, unsafe { ds_class_up(s) }, 0)?;
    }
    for class in 0..1024 {
        of_class(tally, class)?;
        let value = classes::value(class).min(u32::MAX as u64) as u32;
        for s in [value.wrapping_sub(1), value, value.wrapping_add(1)] {
            of_size(tally, s)?;
        }
    }
    for count in (0..40).chain(131_060..131_090).chain(GREATEST_COUNT - 20..GREATEST_COUNT + 20).chain(u32::MAX - 5..=u32::MAX) {
        of_count(tally, count)?;
    }
    Ok(())
}

pub fn run(number: u64, draw: &mut Draw, _: &mut (), tally: &mut Tally) -> Result<(), String> {
    if number == 0 {
        edges(tally)?;
    }
    for _ in 0..1000 {
        let s = if draw.one_in(2) { draw.word() } else { draw.any_width() };
        of_size(tally, s)?;
        of_count(tally, draw.any_width() >> draw.below(16))?;
        of_class(tally, draw.any_width())?;
    }
    Ok(())
}
