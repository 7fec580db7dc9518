//! Demand 3: from any moment on, a stretch of calls in which every span granted is handed back, last granted first, leaves no trace. The words
//! from before the stretch are copied; later calls go to both.

use crate::calls::Call;
use crate::guarded::Edge;
use crate::part_spans::Run;

pub fn stretch(run: &mut Run) -> Result<(), String> {
    run.twin_steps = 0;
    copy_to_twin(run);
    let before = run.desk.ledger.clone();
    let handles = run.handles.clone();
    let mut granted: Vec<(u32, u32)> = Vec::new();
    let steps = 1 + run.draw.below(60);
    for _ in 0..steps {
        let call = stretch_call(run, &granted);
        let answer = run.step(call)?;
        match (call, answer.number) {
            (Call::Take(_), 0) => granted.push((answer.first, answer.second)),
            (Call::Give { .. }, 0) => drop(granted.pop()),
            _ => (),
        }
    }
    while let Some((offset, record)) = granted.pop() {
        run.step(Call::Give { offset, record })?;
    }
    if run.desk.ledger != before {
        return Err("the ledger itself is another after a stretch".into());
    }
    run.handles = handles;
    run.twin_steps = 10 + run.draw.below(200);
    run.tally.note("stretches");
    Ok(())
}

fn copy_to_twin(run: &mut Run) {
    let edge = run.draw.pick(&[Edge::Behind, Edge::Before]);
    run.twin.lay(run.main.nodes.len(), run.main.pile.len(), edge);
    run.twin.scalars.words_mut().copy_from_slice(run.main.scalars.words());
    run.twin.bins.words_mut().copy_from_slice(run.main.bins.words());
    run.twin.leaves.words_mut().copy_from_slice(run.main.leaves.words());
    run.twin.nodes.words_mut().copy_from_slice(run.main.nodes.words());
    run.twin.pile.words_mut().copy_from_slice(run.main.pile.words());
}

/// Any take, the last grant's hand back, a hand back that is refused, or a question.
fn stretch_call(run: &mut Run, granted: &[(u32, u32)]) -> Call {
    match run.draw.below(10) {
        0..=3 => Call::Take(run.taken()),
        4..=6 if !granted.is_empty() => {
            let (offset, record) = granted[granted.len() - 1];
            Call::Give { offset, record }
        }
        7 => {
            let (offset, record) = run.handles.wrong(run.draw, run.count());
            match refused(run, offset, record) {
                true => Call::Give { offset, record },
                false => Call::SizeOf { offset, record },
            }
        }
        8 if run.draw.one_in(4 + run.room as u64 / 64) => Call::Audit,
        8 => Call::FullReport,
        _ => run.question(),
    }
}

/// Says whether the ledger refuses to take this pair back; the length query is refused for the same pairs.
fn refused(run: &Run, offset: u32, record: u32) -> bool {
    run.desk.ledger.as_ref().is_none_or(|ledger| ledger.size_of(offset, record).is_err())
}
