//! Readings of the gauge in both forms, bit for bit beside the rule, on runs of takes and returns and with any watch.

use crate::boundary::Watch;
use crate::calls::{make, Call, Form};
use crate::desk::Desk;
use crate::draw::Draw;
use crate::gauge;
use crate::gauge_calls;
use crate::guarded::Edge;
use crate::handles::Handles;
use crate::sizes::{self, STYLES};
use crate::tables::Tables;
use crate::tally::Tally;
use crate::words::{View, Words, WORDS_A_RECORD};
use crate::alarm;

pub const AT_ZERO: Watch = Watch { level: 0.0, peak: 0.0, last: 0 };

/// Any bits at all, or a level and peak that a gauge might show.
pub fn any_watch(draw: &mut Draw) -> Watch {
    match draw.below(4) {
        0 => Watch { level: f32::from_bits(draw.word()), peak: f32::from_bits(draw.word()), last: draw.any_width() },
        1 => {
            let level = draw.small(257) as f32;
            Watch { level, peak: level + draw.small(2) as f32, last: draw.word() }
        }
        2 => {
            let odd = [0, 0x8000_0000, 1, 0x7F80_0000, 0xFF80_0000, 0x7F7F_FFFF, 0x7FC0_0001, 0x0080_0000, 0x4380_0000];
            Watch { level: f32::from_bits(draw.pick(&odd)), peak: f32::from_bits(draw.pick(&odd)), last: draw.pick(&[0, 1, u32::MAX]) }
        }
        _ => Watch { level: draw.small(1 << 24) as f32 / 65_536.0, peak: draw.small(257) as f32, last: draw.any_width() },
    }
}

/// What a reading on any words must be: the gate, then 6 where the free total exceeds the size, then the rule.
pub fn expected(words: View, watch: Watch) -> crate::boundary::Reading {
    match words.gate() {
        0 if words.free_total() > words.size() => gauge::refused(watch, 6),
        0 => gauge::reading(watch, words.size() - words.free_total(), words.size()),
        number => gauge::refused(watch, number),
    }
}

pub struct Stage {
    tables: Tables,
}

impl Stage {
    pub fn new() -> Stage {
        Stage { tables: Tables::new() }
    }
}

pub fn run(_: u64, draw: &mut Draw, stage: &mut Stage, tally: &mut Tally) -> Result<(), String> {
    let count = 2 + draw.small(60);
    let tables = &mut stage.tables;
    tables.lay(WORDS_A_RECORD * count as usize, count as usize, draw.pick(&[Edge::Behind, Edge::Before]));
    let mut desk = Desk::new(tables.nodes.len(), tables.pile.len());
    let setup = Call::SetUp { size: sizes::store(draw), count };
    desk.call(setup);
    make(tables, setup, Form::InPlace);
    let mut watch = AT_ZERO;
    let (style, mut handles) = (draw.pick(&STYLES), Handles::default());
    for _ in 0..300 {
        move_on(draw, tables, &mut desk, &mut handles, style)?;
        for _ in 0..draw.below(6) {
            watch = read(draw, tables, &desk, watch, tally)?;
        }
        odd_watch(draw, tables, tally)?;
    }
    short_tables(draw, tables, tally)
}

/// A take or a return between readings.
fn move_on(draw: &mut Draw, tables: &mut Tables, desk: &mut Desk, handles: &mut Handles, style: sizes::Style) -> Result<(), String> {
    let size = desk.ledger.as_ref().map_or(0, |l| l.size);
    let call = if draw.one_in(2) && !handles.live.is_empty() {
        let (offset, record) = draw.pick(&handles.live);
        Call::Give { offset, record }
    } else {
        Call::Take(if draw.one_in(2) { size / (1 + draw.small(9)) } else { sizes::taken(draw, style, size) })
    };
    let (ours, theirs) = (desk.call(call), make(tables, call, Form::InPlace));
    match (call, ours.number) {
        (Call::Take(_), 0) => handles.granted(ours.first, ours.second),
        (Call::Give { offset, record }, 0) => handles.returned(offset, record),
        _ => (),
    }
    if ours == theirs { Ok(()) } else { Err(format!("{call:?} gives {theirs:?}, the ledger {ours:?}")) }
}

/// A reading of a gauge begun at 0, beside the ledger's live units.
fn read(draw: &mut Draw, tables: &mut Tables, desk: &Desk, watch: Watch, tally: &mut Tally) -> Result<Watch, String> {
    alarm::step();
    let ledger = desk.ledger.as_ref().expect("the setup was accepted");
    let ours = gauge::reading(watch, ledger.live_units as u32, ledger.size);
    let form = draw.pick(&[Form::InPlace, Form::ByValue]);
    let theirs = gauge_calls::make(tables, watch, form);
    tally.row("reading", theirs.number);
    if !gauge::same(&ours, &theirs) {
        return Err(format!("{watch:?} {form:?}: {theirs:?}, by the rule {ours:?}"));
    }
    if theirs.fill as f32 == watch.level && theirs.level.to_bits() != watch.level.to_bits() {
        return Err(format!("{watch:?}: a fill equal to the level moves its bits: {theirs:?}"));
    }
    Ok(Watch { level: theirs.level, peak: theirs.peak, last: theirs.last })
}

/// A reading with any watch, in both forms.
fn odd_watch(draw: &mut Draw, tables: &mut Tables, tally: &mut Tally) -> Result<(), String> {
    let watch = any_watch(draw);
    let ours = expected(tables.view(), watch);
    for form in [Form::InPlace, Form::ByValue] {
        alarm::step();
        let theirs = gauge_calls::make(tables, watch, form);
        tally.row("reading with any watch", theirs.number);
        if !gauge::same(&ours, &theirs) {
            return Err(format!("{watch:?} {form:?}: {theirs:?}, by the rule {ours:?}"));
        }
    }
    Ok(())
}

/// Refused readings: a bad count, short tables, a free total above the size. No reading writes a word.
fn short_tables(draw: &mut Draw, tables: &mut Tables, tally: &mut Tally) -> Result<(), String> {
    let mut words = Words { scalars: vec![], bins: vec![], leaves: vec![], nodes: vec![], pile: vec![] };
    tables.save(tables.pile.len(), &mut words);
    for _ in 0..20 {
        let mut spoiled = words.clone();
        match draw.below(4) {
            0 => spoiled.scalars[1] = draw.pick(&[0, 1, 1_048_577, u32::MAX, words.scalars[1] + 1]),
            1 => drop(spoiled.nodes.pop()),
            2 => drop(spoiled.pile.pop()),
            _ => spoiled.scalars[2] = spoiled.scalars[0].wrapping_add(draw.small(3)),
        }
        tables.lay(spoiled.nodes.len(), spoiled.pile.len(), Edge::Behind);
        tables.load(&spoiled, 0);
        odd_watch(draw, tables, tally)?;
        if !tables.holds(&spoiled) {
            return Err("a reading changes a word".into());
        }
    }
    Ok(())
}
