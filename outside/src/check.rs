//! What is looked at beside a call's answer: the report rule, the full report's columns, the audit's scratch, all words.

use crate::boundary::Told;
use crate::calls::Call;
use crate::classes;
use crate::desk::Desk;
use crate::part_spans::Run;
use crate::sound::sound;
use crate::tables::{is_junk, Tables};

/// A few words about the ledger, to understand a difference by.
pub fn context(desk: &Desk) -> String {
    match &desk.ledger {
        None => "no ledger (setup refused)".into(),
        Some(l) if l.line.len() <= 12 => format!("size {}, count {}, spares {:?}, line after {:?}", l.size, l.count, l.spares.len(), l.line),
        Some(l) => format!("size {}, count {}, {} spare, {} regions", l.size, l.count, l.spares.len(), l.line.len()),
    }
}

/// Document 01's report rule: with more than one spare, a take of s is granted exactly when a free region exists and s is at most the report's
/// second number. Asked of the ledger before the take.
pub fn report_rule(run: &Run, call: Call) -> Result<(), String> {
    let (Call::Take(size), Some(ledger)) = (call, &run.desk.ledger) else {
        return Ok(());
    };
    // Cloning a long line for every take would cost too much.
    if ledger.line.len() > 40 || ledger.count > 200 || ledger.spares.len() <= 1 {
        return Ok(());
    }
    let free_exists = ledger.line.iter().any(|r| !r.live);
    let rule = free_exists && size <= ledger.report().1;
    if ledger.clone().take(size).is_ok() == rule { Ok(()) } else { Err(format!("the report rule fails for {call:?}; {}", context(&run.desk))) }
}

/// The columns of a full report and the scratch of an audit, straight after the call.
pub fn columns(tables: &Tables, call: Call, answer: Told, desk: &Desk, junk: u32) -> Result<(), String> {
    match call {
        Call::FullReport => {
            let right = (0..256).all(|class| {
                let expected = match &desk.ledger {
                    Some(ledger) => (classes::value(class as u32), ledger.regions_of(class)),
                    None => (0, 0),
                };
                (tables.sizes.words()[class], tables.counts.words()[class]) == expected
            });
            if right { Ok(()) } else { Err(format!("the full report's columns are wrong; {}", context(desk))) }
        }
        Call::Audit => scratch(tables, answer.number, junk, desk.ledger.as_ref().map_or(0, |l| l.count)),
        _ => Ok(()),
    }
}

/// Refused by the gate or by its length the scratch stays; otherwise the words below the count are 0 and those beyond stay.
pub fn scratch(tables: &Tables, number: u32, junk: u32, count: u32) -> Result<(), String> {
    let scratch = tables.scratch.words();
    let count = if number == 2 || count == 0 { 0 } else { count as usize };
    let cleared = scratch[..count.min(scratch.len())].iter().all(|w| *w == 0);
    if cleared && is_junk(scratch, count, junk) { Ok(()) } else { Err(format!("the audit's scratch is left wrong (answer {number}, count {count})")) }
}

/// The words are sound and stand for the ledger, the ledger keeps its facts, and absent links hold the marker.
pub fn words(tables: &Tables, desk: &Desk) -> Result<(), String> {
    let Some(ledger) = &desk.ledger else {
        return Ok(());
    };
    ledger.facts()?;
    let view = tables.view();
    sound(view).map_err(|e| format!("the words are not sound: {e}; {}", context(desk)))?;
    if view.ledger() != *ledger {
        return Err(format!("the words stand for another ledger; {}", context(desk)));
    }
    if !view.absent_links_are_marked(ledger) {
        return Err(format!("an absent link is not the marker; {}", context(desk)));
    }
    Ok(())
}
