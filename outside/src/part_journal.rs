//! Journals: drawn calls are written, read back and replayed beside the plain reader and the plain ledger; then the bytes are damaged.

use crate::boundary::*;
use crate::calls::Call;
use crate::check;
use crate::desk::Desk;
use crate::draw::Draw;
use crate::guarded::{Edge, Guarded};
use crate::handles::Handles;
use crate::journal::{self, Found};
use crate::sizes::{self, STYLES};
use crate::tables::{fill_with_junk, Tables};
use crate::tally::Tally;
use crate::words::{GREATEST_COUNT, WORDS_A_RECORD};
use crate::alarm;

pub struct Stage {
    tables: Tables,
    bytes: Guarded<u8>,
}

impl Stage {
    pub fn new() -> Stage {
        Stage { tables: Tables::new(), bytes: Guarded::new(0) }
    }
}

/// A call as the journal names it: kind and two fields.
type Named = (u32, u32, u32);

pub fn call_of(kind: u32, first: u32, second: u32) -> Call {
    match kind {
        1 => Call::Take(first),
        2 => Call::Give { record: first, offset: second },
        3 => Call::SetUp { size: first, count: second },
        _ => Call::Reset,
    }
}

pub fn run(number: u64, draw: &mut Draw, stage: &mut Stage, tally: &mut Tally) -> Result<(), String> {
    if number == 0 {
        example(stage, tally)?;
    }
    let room = draw.pick(&[2u32, 3, 6, 17, 64, 200]);
    let calls = drawn(draw, room);
    let bytes = write(draw, &calls, stage, tally)?;
    read_back(&calls, &bytes, stage, tally)?;
    replay(draw, room, &bytes, stage, tally)?;
    for _ in 0..4 {
        let damaged = damage(draw, bytes.clone());
        lay(stage, &damaged, Edge::Behind);
        read_any(draw, &damaged, stage, tally)?;
        replay(draw, room, &damaged, stage, tally)?;
    }
    Ok(())
}

fn lay(stage: &mut Stage, bytes: &[u8], edge: Edge) {
    stage.bytes.lay(bytes.len(), edge);
    stage.bytes.words_mut().copy_from_slice(bytes);
}

/// Request 1's example as request 3 amends it, byte for byte.
fn example(stage: &mut Stage, tally: &mut Tally) -> Result<(), String> {
    let whole = [10, 0, 3, 0, 100, 0, 0, 0, 6, 0, 0, 0, 6, 0, 1, 0, 20, 0, 0, 0, 10, 0, 2, 0, 0, 0, 0, 0, 0, 0, 0, 0];
    lay(stage, &[0; 32], Edge::Behind);
    let mut at = 0;
    for (kind, first, second) in [(3, 100, 6), (1, 20, 0), (2, 0, 0)] {
        at = one_write(stage, (kind, first, second), at, tally)?.next;
    }
    if at == 32 && stage.bytes.words() == whole { Ok(()) } else { Err(format!("the example is written as {:?}", stage.bytes.words())) }
}

/// Calls of a run on the plain ledger, so that hand backs are mostly of live pairs.
fn drawn(draw: &mut Draw, room: u32) -> Vec<Named> {
    let mut desk = Desk::new(WORDS_A_RECORD * room as usize, room as usize);
    let (mut handles, style) = (Handles::default(), draw.pick(&STYLES));
    let mut calls = Vec::new();
    for step in 0..draw.below(60) {
        let size = desk.ledger.as_ref().map_or(0, |l| l.size);
        let named = match draw.below(40) {
            _ if step == 0 && !draw.one_in(8) => (3, sizes::store(draw), room),
            0 => (3, sizes::store(draw), 2 + draw.small(room + 2)),
            1 if draw.one_in(3) => (3, sizes::store(draw), draw.pick(&[0, 1, GREATEST_COUNT, GREATEST_COUNT + 1, u32::MAX])),
            2 => (4, 0, 0),
            3..=20 => {
                let (offset, record) = handles.pair(draw, room);
                (2, record, offset)
            }
            _ => (1, if draw.one_in(2) { size / (1 + draw.small(room)) } else { sizes::taken(draw, style, size) }, 0),
        };
        let (kind, first, second) = named;
        let told = desk.call(call_of(kind, first, second));
        match (kind, told.number) {
            (1, 0) => handles.granted(told.first, told.second),
            (2, 0) => handles.returned(second, first),
            (3, _) | (4, 0) => handles.ended(),
            _ => (),
        }
        calls.push(named);
    }
    calls
}

/// One write; all bytes are compared with what must stand after it.
fn one_write(stage: &mut Stage, (kind, first, second): Named, at: usize, tally: &mut Tally) -> Result<Wrote, String> {
    alarm::step();
    let mut image = stage.bytes.words().to_vec();
    let record = journal::record(kind, first, second);
    let ours = match &record {
        None => Wrote { number: 14, next: 0 },
        Some(bytes) if at > image.len() || image.len() - at < bytes.len() => Wrote { number: 16, next: 0 },
        Some(bytes) => {
            image[at..at + bytes.len()].copy_from_slice(bytes);
            Wrote { number: 0, next: at + bytes.len() }
        }
    };
    let theirs = unsafe { ds_journal_write(kind, first, second, stage.bytes.pointer(), stage.bytes.len(), at) };
    tally.row("journal write", theirs.number);
    if theirs != ours || stage.bytes.words() != image || !stage.bytes.untouched_beside() {
        return Err(format!("write of {kind} {first} {second} at {at} of {}: {theirs:?}, by the rule {ours:?}", image.len()));
    }
    Ok(ours)
}

/// Writes all calls one after another, with writes among them that have too little room or an unknown kind.
fn write(draw: &mut Draw, calls: &[Named], stage: &mut Stage, tally: &mut Tally) -> Result<Vec<u8>, String> {
    let length: usize = calls.iter().map(|(k, a, b)| journal::record(*k, *a, *b).map_or(0, |r| r.len())).sum();
    let edge = draw.pick(&[Edge::Behind, Edge::Before]);
    lay(stage, &vec![0xEE; length], edge);
    let mut at = 0;
    for named in calls {
        at = one_write(stage, *named, at, tally)?.next;
        if draw.one_in(4) {
            let from = draw.pick(&[length, length + 1, usize::MAX, usize::MAX - 3, length.saturating_sub(1)]);
            // The last byte is written over only if a record of one byte existed; none does, so this is refused or of an unknown kind.
            one_write(stage, (draw.pick(&[1, 2, 3, 4, 4, 0, 5, 65_537, u32::MAX]), draw.word(), draw.word()), from, tally)?;
        }
    }
    Ok(stage.bytes.words().to_vec())
}

fn one_read(stage: &mut Stage, bytes: &[u8], at: usize, tally: &mut Tally) -> Result<Found, String> {
    alarm::step();
    let theirs = unsafe { ds_journal_read(stage.bytes.pointer(), stage.bytes.len(), at) };
    let ours = journal::read(bytes, at);
    tally.row("journal read", theirs.number);
    let same = match ours {
        Found::End => (theirs.number, theirs.kind, theirs.first, theirs.second) == (0, 0, 0, 0),
        Found::Broken(number) => theirs == Entry { number, kind: 0, first: 0, second: 0, next: 0 },
        Found::Call { kind, first, second, next } => theirs == Entry { number: 0, kind, first, second, next },
    };
    if same { Ok(ours) } else { Err(format!("read at {at} of {:?}: {theirs:?}, by the rule {ours:?}", &bytes[at.min(bytes.len())..])) }
}

/// Reading back what was written gives the same calls.
fn read_back(calls: &[Named], bytes: &[u8], stage: &mut Stage, tally: &mut Tally) -> Result<(), String> {
    let mut at = 0;
    for named in calls {
        match one_read(stage, bytes, at, tally)? {
            Found::Call { kind, first, second, next } if (kind, first, second) == *named => at = next,
            other => return Err(format!("{named:?} was written, {other:?} is read back")),
        }
    }
    match one_read(stage, bytes, at, tally)? {
        Found::End => Ok(()),
        other => Err(format!("after the last record {other:?} is read")),
    }
}

/// Reads from the start until the end or a broken record, and at drawn places, also beyond the end.
fn read_any(draw: &mut Draw, bytes: &[u8], stage: &mut Stage, tally: &mut Tally) -> Result<(), String> {
    let mut at = 0;
    while let Found::Call { next, .. } = one_read(stage, bytes, at, tally)? {
        at = next;
    }
    for _ in 0..6 {
        let place = draw.below(bytes.len() as u64 + 3) as usize;
        let place = if draw.one_in(20) { usize::MAX - draw.below(12) as usize } else { place };
        one_read(stage, bytes, place, tally)?;
    }
    Ok(())
}

/// Cuts, flips, swaps in small numbers, or draws bytes anew.
fn damage(draw: &mut Draw, mut bytes: Vec<u8>) -> Vec<u8> {
    let length = bytes.len() as u64;
    match draw.below(6) {
        0 => bytes.truncate(draw.below(length + 1) as usize),
        1 => bytes = (0..draw.below(40)).map(|_| draw.small(12) as u8 % 11).collect(),
        2 => bytes.extend((0..draw.below(5)).map(|_| draw.small(7) as u8)),
        3 => (0..length.min(1)).for_each(|_| bytes[draw.below(length) as usize] = draw.small(11) as u8),
        _ => (0..length.min(1 + draw.below(3))).for_each(|_| bytes[draw.below(length) as usize] ^= 1 << draw.below(8)),
    }
    bytes
}

/// Replays step by step beside the plain reader and the plain ledger, and looks at all words at the end.
fn replay(draw: &mut Draw, room: u32, bytes: &[u8], stage: &mut Stage, tally: &mut Tally) -> Result<(), String> {
    lay(stage, bytes, draw.pick(&[Edge::Behind, Edge::Before]));
    let tables = &mut stage.tables;
    tables.lay(WORDS_A_RECORD * room as usize, room as usize, Edge::Behind);
    tables.scalars.words_mut().fill(0);
    fill_with_junk(tables.nodes.words_mut(), 0, draw.word());
    let mut desk = Desk::new(tables.nodes.len(), tables.pile.len());
    let mut at = 0;
    loop {
        alarm::step();
        let ours = plain_step(&mut desk, bytes, at);
        let theirs = replay_step(&mut stage.bytes, &mut stage.tables, at);
        tally.row("replay step", theirs.number.max(theirs.broken));
        if ours != theirs {
            return Err(format!("replay at {at} of {bytes:?}: {theirs:?}, by the rule {ours:?}; {}", check::context(&desk)));
        }
        if ours.ended == 1 || ours.broken != 0 {
            break;
        }
        at = ours.next;
    }
    check::words(&stage.tables, &desk)?;
    if desk.ledger.is_none() && stage.tables.scalars.words().iter().any(|w| *w != 0) {
        return Err("no setup stands, and the scalars are not zeros".into());
    }
    if stage.tables.untouched_beside() { Ok(()) } else { Err("bytes beside a table were written".into()) }
}

pub fn replay_step(bytes: &mut Guarded<u8>, tables: &mut Tables, at: usize) -> Step {
    let w = tables.lent();
    unsafe { ds_replay_step(bytes.pointer(), bytes.len(), at, w.scalars, w.bins, w.leaves, w.nodes, w.nodes_len, w.pile, w.pile_len) }
}

pub const NOTHING: Step = Step { ended: 0, broken: 0, number: 0, granted: 0, offset: 0, record: 0, next: 0 };

/// What a replay step shows for a call's answer.
pub fn step_of(kind: u32, told: Told, next: usize) -> Step {
    let granted = (kind == 1 && told.number == 0) as u32;
    Step { number: told.number, granted, offset: told.first, record: told.second, next, ..NOTHING }
}

fn plain_step(desk: &mut Desk, bytes: &[u8], at: usize) -> Step {
    match journal::read(bytes, at) {
        Found::End => Step { ended: 1, ..NOTHING },
        Found::Broken(broken) => Step { broken, ..NOTHING },
        Found::Call { kind, first, second, next } => step_of(kind, desk.call(call_of(kind, first, second)), next),
    }
}
