//! Runs like those of `runs`, but long ones with many records: each is filled,
//! until there is no record to spare, and emptied, twice. Too long to be kept as
//! a list; a program reads them from a pipe.

use std::io::{self, Write};

use crate::runs::Run;

const STORE_SIZES: [u32; 4] = [65_535, 4 << 20, 4_026_531_840, u32::MAX];
const PHASES: u32 = 4;

/// The counts, and how many shares of a store's calls the run with each has: many
/// records want many calls before there is none to spare.
const RECORD_COUNTS: [(u32, u32); 5] = [
    (1_024, 1),
    (16_384, 1),
    (131_072, 2),
    (131_073, 2),
    (1_048_576, 12),
];
const SHARES: u32 = 18;

/// In so many turns one has a call with a wrong offset after it.
const TURNS_PER_WRONG: u32 = 64;

/// Every size with every count, and `calls` takes, returns and size queries in
/// all; those with a wrong offset come on top.
pub fn write(out: &mut impl Write, calls: u32) -> io::Result<()> {
    let share = calls / STORE_SIZES.len() as u32 / SHARES / PHASES;
    for size in STORE_SIZES {
        for (count, shares) in RECORD_COUNTS {
            let seed = u64::from(size) << 20 ^ u64::from(count);
            write_run(Run::new(size, count, seed, true), share * shares, out)?;
        }
    }
    Ok(())
}

/// Phases of `calls` calls that take more than they give back, and less, by
/// turns. Every row of a full report costs a walk through all free regions, so
/// one comes only at the end of a phase; then a reset.
fn write_run(mut run: Run, calls: u32, out: &mut impl Write) -> io::Result<()> {
    run.set_up(out)?;
    for phase in 0..PHASES {
        let takes = if phase % 2 == 0 { 17 } else { 2 };
        for _ in 0..calls {
            match run.drawn_below(20) {
                drawn if drawn < takes => run.take_small(out)?,
                18 => run.size_query(out)?,
                19 if run.drawn_below(20) == 0 => run.hand_back_any(out)?,
                _ if run.nothing_out() => run.take_small(out)?,
                _ => run.hand_back(out)?,
            }
            run.report(out)?;
            run.wrong_now_and_then(TURNS_PER_WRONG, out)?;
        }
        run.full_report(out)?;
    }
    run.reset(out)?;
    run.report(out)
}
