//! What the gauge's lists ask. The list that is kept and the long one have the same kinds.

use std::io::{self, Write};

use crate::gauge;
use crate::gauge_rows::Rows;
use crate::splitmix::SplitMix;

const SEED: u64 = 1;

const SIZES: [u32; 8] = [0, 1, 255, 256, 257, 65_535, 1_000_000, u32::MAX];

/// Sizes with which a store can have every fill.
const FILLED: [u32; 5] = [256, 257, 65_535, 1_000_000, u32::MAX];

const GREATEST_FILL: u32 = 256;

/// The most records that a reading is given tables for, and the words of the longest table.
const RECORDS: u32 = 1_024;
const WORDS: u32 = 8 * RECORDS;

/// Levels and peaks, those that no gauge begun at 0 comes to among them: the zeros, the least
/// numbers, the ends of those below the normal ones, numbers at 1, 128, 256 and 2^24, great ones,
/// the infinities and a not-a-number.
#[rustfmt::skip]
const FLOATS: [u32; 26] = [
    0x0000_0000, 0x8000_0000, 0x0000_0001, 0x8000_0001, 0x0000_0004, 0x007f_ffff, 0x0080_0000,
    0x8080_0000, 0x3f7f_ffff, 0x3f80_0000, 0xbf80_0000, 0x42ff_ffff, 0x4300_0000, 0x4300_0001,
    0x437f_ffff, 0x4380_0000, 0x4380_0001, 0xc380_0000, 0x4b80_0000, 0x4f80_0000, 0x5f00_0000,
    0x7f7f_ffff, 0xff7f_ffff, 0x7f80_0000, 0xff80_0000, 0x7fc0_0000,
];

/// Counts with lengths of tables. Those that are refused come with what is just long enough, too.
#[rustfmt::skip]
const LENT: [(u32, u32, u32); 20] = [
    (0, 0, 0), (1, 8, 1), (1, 16, 2), (1_048_577, 16, 2), (1_048_577, 0, 0), (u32::MAX, WORDS, RECORDS),
    (2, 16, 2), (2, 15, 2), (2, 0, 2), (2, 16, 1), (2, 16, 0), (2, 0, 0), (3, 24, 3), (3, 23, 3),
    (3, 24, 2), (RECORDS, WORDS, RECORDS), (RECORDS + 1, WORDS, RECORDS), (RECORDS, WORDS - 1, RECORDS),
    (1_048_576, WORDS, RECORDS), (2, WORDS, RECORDS),
];

/// Gauges of drawn bits, and readings of drawn stores, in the list that is kept.
const KEPT_GAUGES: u32 = 250;
const KEPT_READINGS: u32 = 1_000;

/// The same in the long one; its readings of drawn stores are as many as are asked for.
const LONG_GAUGES: u32 = 50_000;
const LONG_ORDERS: u32 = 4;

/// The list that is kept: of a level that comes to stand still it has the last reading.
pub fn write(out: &mut impl Write) -> io::Result<()> {
    let mut random = SplitMix::new(SEED);
    let mut rows = Rows::new(out)?;
    each_kind(&mut rows, &mut random, false)?;
    let enough = rows.readings + KEPT_READINGS;
    drawn_runs(&mut rows, &mut random, enough)
}

/// At least so many readings, each written.
pub fn write_long(out: &mut impl Write, readings: u32) -> io::Result<()> {
    let mut random = SplitMix::new(SEED);
    let mut rows = Rows::new(out)?;
    each_kind(&mut rows, &mut random, true)?;
    drawn_runs(&mut rows, &mut random, readings)
}

fn each_kind(rows: &mut Rows<impl Write>, random: &mut SplitMix, long: bool) -> io::Result<()> {
    holds(rows, random, long)?;
    equals(rows)?;
    steps(rows, long)?;
    sizes(rows)?;
    set_gauges(rows, random, if long { LONG_GAUGES } else { KEPT_GAUGES })?;
    refusals(rows)
}

/// The free total of a store of this size that has this fill, with as little live as that takes.
fn free_at(fill: u32, size: u32) -> u32 {
    let live = (u64::from(fill) * u64::from(size)).div_ceil(256) as u32;
    assert_eq!(gauge::fill(live, size), fill);
    size - live
}

fn hold(rows: &mut Rows<impl Write>, fill: u32, long: bool) -> io::Result<()> {
    let size = FILLED[fill as usize % FILLED.len()];
    rows.hold(size, free_at(fill, size), long)
}

/// Every fill until the level stands still, from a gauge that is begun; then from where the last
/// one stood, upwards, downwards and in drawn orders.
fn holds(rows: &mut Rows<impl Write>, random: &mut SplitMix, long: bool) -> io::Result<()> {
    for fill in 0..=GREATEST_FILL {
        rows.begin()?;
        hold(rows, fill, long)?;
    }
    rows.begin()?;
    let mut fills: Vec<u32> = (0..=GREATEST_FILL).collect();
    for &fill in fills.iter().chain(fills.iter().rev()) {
        hold(rows, fill, long)?;
    }
    for _ in 0..if long { LONG_ORDERS } else { 1 } {
        for last in (1..fills.len()).rev() {
            fills.swap(last, random.below(last as u32 + 1) as usize);
        }
        for &fill in &fills {
            hold(rows, fill, long)?;
        }
    }
    Ok(())
}

/// Fills that the level is equal to: a first reading of eight times the fill makes it so.
fn equals(rows: &mut Rows<impl Write>) -> io::Result<()> {
    for fill in 0..=GREATEST_FILL / 8 {
        rows.begin()?;
        rows.read(256, 256 - 8 * fill)?;
        hold(rows, fill, true)?;
    }
    Ok(())
}

/// Steps up and down, of which the first readings are all written.
fn steps(rows: &mut Rows<impl Write>, long: bool) -> io::Result<()> {
    rows.begin()?;
    for fill in [256, 0, 1, 0, 128, 129, 127, 255, 256, 64] {
        for _ in 0..30 {
            rows.read(256, 256 - fill)?;
        }
        hold(rows, fill, long)?;
    }
    Ok(())
}

/// Each size with all live, none, one less, one and half, from a gauge that is begun; then
/// each such live length once more, from size to size.
fn sizes(rows: &mut Rows<impl Write>) -> io::Result<()> {
    let frees = |size: u32| {
        let one_live = size.saturating_sub(1);
        [0, size, one_live.min(1), one_live, size / 2]
    };
    for size in SIZES {
        rows.begin()?;
        for free in frees(size) {
            rows.read(size, free)?;
        }
    }
    for which in 0..frees(0).len() {
        for size in SIZES {
            rows.read(size, frees(size)[which])?;
        }
    }
    Ok(())
}

/// Gauges that somebody wrote: each of the floats as the level beside each as the peak, then drawn bits.
/// The units at the last reading are in turn none, all, and in between.
fn set_gauges(rows: &mut Rows<impl Write>, random: &mut SplitMix, drawn: u32) -> io::Result<()> {
    let mut turn = 0;
    for level in FLOATS {
        for peak in FLOATS {
            let last = [0, u32::MAX, 65_535][turn % 3];
            let free = free_at([256, 0, 1, 128][turn % 4], u32::MAX);
            rows.set(level, peak, last)?;
            rows.read(u32::MAX, free)?;
            turn += 1;
        }
    }
    for _ in 0..drawn {
        rows.set(random.uniform(), random.uniform(), random.log_uniform())?;
        let size = random.log_uniform();
        rows.read(size, up_to(random, size))?;
    }
    Ok(())
}

/// Each count with its tables, with a free total as great as the size and with a greater one, from
/// different gauges; behind it a reading of the gauge that was left.
fn refusals(rows: &mut Rows<impl Write>) -> io::Result<()> {
    let gauges = [
        (0, 0, 0),
        (0x4300_0001, 0x437f_ffff, 77),
        (0x7fc0_0000, 0x8000_0000, u32::MAX),
    ];
    for (level, peak, last) in gauges {
        rows.set(level, peak, last)?;
        for (count, nodes, pile) in LENT {
            rows.lend(count, nodes, pile)?;
            for (size, free) in [(100, 100), (100, 101), (0, 1), (u32::MAX - 1, u32::MAX)] {
                rows.read(size, free)?;
            }
        }
        rows.lend(2, 16, 2)?;
        rows.read(1_000_000, 250_000)?;
    }
    Ok(())
}

/// Runs until so many readings are made in all.
fn drawn_runs(rows: &mut Rows<impl Write>, random: &mut SplitMix, readings: u32) -> io::Result<()> {
    while rows.readings < readings {
        match random.below(4) {
            0 => rows.set(random.uniform(), random.uniform(), random.uniform())?,
            1 => {}
            _ => rows.begin()?,
        }
        drawn_run(rows, random)?;
    }
    Ok(())
}

/// Up to 64 readings of stores of one size or of several.
fn drawn_run(rows: &mut Rows<impl Write>, random: &mut SplitMix) -> io::Result<()> {
    let mut size = drawn_size(random);
    let mut free = size;
    for _ in 0..1 + random.below(64) {
        match random.below(16) {
            0 => free = 0,
            1 => free = size,
            2 | 3 => {}
            4 | 5 => free = free.saturating_sub(1 + size / 64),
            6 | 7 => free = size.min(free.saturating_add(1 + size / 64)),
            8 => {
                size = drawn_size(random);
                free = up_to(random, size);
            }
            9 => refused(rows, random, size, free)?,
            10 => lend_enough(rows, random)?,
            _ => free = up_to(random, size),
        }
        rows.read(size, free)?;
    }
    Ok(())
}

/// A reading that is refused for one cause, and then tables that are long enough.
fn refused(
    rows: &mut Rows<impl Write>,
    random: &mut SplitMix,
    size: u32,
    free: u32,
) -> io::Result<()> {
    let count = 2 + random.below(RECORDS - 1);
    match random.below(4) {
        0 => rows.lend(random.below(2), WORDS, RECORDS)?,
        1 => rows.lend(
            1_048_577 + random.below(u32::MAX - 1_048_576),
            WORDS,
            RECORDS,
        )?,
        2 => rows.lend(count, random.below(8 * count), RECORDS)?,
        _ => rows.lend(count, WORDS, random.below(count))?,
    }
    rows.read(size, free)?;
    lend_enough(rows, random)?;
    if size < u32::MAX {
        rows.read(size, size + 1 + random.below(u32::MAX - size))?;
    }
    Ok(())
}

fn lend_enough(rows: &mut Rows<impl Write>, random: &mut SplitMix) -> io::Result<()> {
    let count = 2 + random.below(RECORDS - 1);
    let nodes = 8 * count + random.below(WORDS - 8 * count + 1);
    rows.lend(count, nodes, count + random.below(RECORDS - count + 1))
}

fn drawn_size(random: &mut SplitMix) -> u32 {
    match random.below(4) {
        0 => SIZES[random.below(SIZES.len() as u32) as usize],
        1 => random.uniform(),
        _ => random.log_uniform(),
    }
}

/// A number up to this one.
fn up_to(random: &mut SplitMix, greatest: u32) -> u32 {
    match greatest.checked_add(1) {
        Some(limit) => random.below(limit),
        None => random.uniform(),
    }
}
