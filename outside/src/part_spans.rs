//! Seeded runs of the span calls in their three forms beside the plain ledger and the crate, with demand 3's stretches among them.

use crate::boundary::Told;
use crate::calls::{make, Call, Form, FORMS};
use crate::crate_beside::Beside;
use crate::desk::{Desk, COUNT_OF_NEW};
use crate::draw::Draw;
use crate::guarded::Edge;
use crate::handles::Handles;
use crate::old_words::OldWords;
use crate::sizes::{self, Style, STYLES};
use crate::tables::{fill_with_junk, Tables};
use crate::tally::Tally;
use crate::words::{WORDS_A_RECORD, GREATEST_COUNT};
use crate::{alarm, check};

/// What is used again from run to run, since mapping pages is slow.
pub struct Stage {
    pub main: Tables,
    pub twin: Tables,
}

impl Stage {
    pub fn new() -> Stage {
        Stage { main: Tables::new(), twin: Tables::new() }
    }
}

pub struct Run<'a> {
    pub draw: &'a mut Draw,
    pub tally: &'a mut Tally,
    pub main: &'a mut Tables,
    /// A copy of the words from before a stretch, which gets the same later calls; only while `twin_steps` is above 0.
    pub twin: &'a mut Tables,
    pub twin_steps: u64,
    pub desk: Desk,
    pub beside: Option<Beside>,
    pub old: OldWords,
    pub handles: Handles,
    pub style: Style,
    /// Of 100 calls that take or hand back, how many take.
    pub takes: u64,
    /// The greatest count that the tables are long enough for.
    pub room: u32,
    pub junk: u32,
}

pub fn run(number: u64, draw: &mut Draw, stage: &mut Stage, tally: &mut Tally) -> Result<(), String> {
    if number == 0 {
        crate::example::run(&mut stage.main, tally)?;
    }
    let count = sizes::count(draw, number);
    let style = draw.pick(&STYLES);
    let (main, twin) = (&mut stage.main, &mut stage.twin);
    let kind = draw.word();
    let longer = if draw.one_in(3) { draw.below(40) as usize } else { 0 };
    let (nodes_len, pile_len) = (WORDS_A_RECORD * count as usize + longer, count as usize + draw.below(longer as u64 + 1) as usize);
    main.lay(nodes_len, pile_len, draw.pick(&[Edge::Behind, Edge::Behind, Edge::Before]));
    for table in [&mut main.scalars, &mut main.bins, &mut main.nodes, &mut main.pile] {
        fill_with_junk(table.words_mut(), 0, kind);
    }
    let desk = Desk::new(nodes_len, pile_len);
    let room = (nodes_len / WORDS_A_RECORD).min(pile_len) as u32;
    let (old, handles) = (OldWords::new(), Handles::default());
    let mut run =
        Run { draw, tally, main, twin, twin_steps: 0, desk, beside: None, old, handles, style, takes: 60, room, junk: kind };
    if sizes::spends_all(number) {
        return run.spend_all(count);
    }
    run.whole(count)
}

/// More steps where there are more records to spend.
fn steps(draw: &mut Draw, count: u32) -> u64 {
    match count {
        0..=6 => 40 + draw.below(200),
        7..=200 => 200 + draw.below(2500),
        201..=20_000 => 2000 + draw.below(12_000),
        _ => 20_000 + draw.below(20_000),
    }
}

impl Run<'_> {
    fn whole(&mut self, count: u32) -> Result<(), String> {
        let size = sizes::store(self.draw);
        let fresh = if count == COUNT_OF_NEW && self.draw.one_in(2) { Call::New(size) } else { Call::SetUp { size, count } };
        self.step(fresh)?;
        let steps = steps(self.draw, count);
        for _ in 0..steps {
            if self.draw.one_in(150) {
                self.takes = 20 + self.draw.below(70);
            }
            if self.desk.ledger.is_some() && self.draw.one_in(100 + count as u64 / 4) {
                crate::stretch::stretch(self)?;
            }
            let call = self.any_call();
            self.step(call)?;
        }
        self.check_all()
    }

    /// Takes until the last spare record but one is spent, then goes on for a while. Long lines are slow, so the while is short.
    fn spend_all(&mut self, count: u32) -> Result<(), String> {
        let size = self.draw.pick(&[4 << 20, u32::MAX, 3 * count]);
        self.step(Call::SetUp { size, count })?;
        let most = (size / count / 2).clamp(1, 2000);
        loop {
            let call = Call::Take(1 + self.draw.small(most));
            if self.step(call)?.number != 0 {
                break;
            }
        }
        if self.desk.ledger.as_ref().is_some_and(|l| l.spares.len() > 1) {
            self.tally.note("a great count whose records were not all spent");
        }
        self.takes = 50;
        for _ in 0..(1 << 30) / count as u64 {
            let call = self.usual_call();
            self.step(call)?;
        }
        self.check_all()
    }

    pub fn count(&self) -> u32 {
        self.desk.ledger.as_ref().map_or(0, |l| l.count)
    }

    pub fn store(&self) -> u32 {
        self.desk.ledger.as_ref().map_or(0, |l| l.size)
    }

    /// One call of any kind. Those that walk all records come seldom where there are many.
    fn any_call(&mut self) -> Call {
        let many = self.room as u64 / 64;
        match self.draw.below(1000) {
            0..=2 if self.draw.one_in(1 + many / 16) => self.set_up(),
            3 if self.draw.one_in(1 + many / 16) => Call::Reset,
            4..=13 if self.draw.one_in(1 + many) => Call::Audit,
            14..=18 => Call::FullReport,
            _ if self.desk.ledger.is_none() && self.draw.one_in(4) => self.good_set_up(),
            _ => self.usual_call(),
        }
    }

    pub fn question(&mut self) -> Call {
        match self.draw.below(4) {
            0 => Call::Report,
            1 => Call::Fill,
            _ => {
                let (offset, record) = self.handles.pair(self.draw, self.count());
                Call::SizeOf { offset, record }
            }
        }
    }

    fn usual_call(&mut self) -> Call {
        if self.draw.one_in(5) {
            return self.question();
        }
        if self.draw.below(100) < self.takes || (self.handles.live.is_empty() && !self.draw.one_in(8)) {
            return Call::Take(self.taken());
        }
        let (offset, record) = self.handles.pair(self.draw, self.count());
        Call::Give { offset, record }
    }

    /// A size to take; sometimes just at the greatest that the report says is granted, or one above.
    pub fn taken(&mut self) -> u32 {
        match &self.desk.ledger {
            Some(ledger) if self.draw.one_in(12) => ledger.report().1.wrapping_add(self.draw.small(2)),
            _ => sizes::taken(self.draw, self.style, self.store()),
        }
    }

    fn good_set_up(&mut self) -> Call {
        let count = if self.draw.one_in(2) { self.room } else { 2 + self.draw.small(self.room - 1) };
        Call::SetUp { size: sizes::store(self.draw), count }
    }

    fn set_up(&mut self) -> Call {
        let bad = [0, 1, GREATEST_COUNT + 1, u32::MAX, self.room + 1];
        match self.draw.below(8) {
            0 => Call::New(sizes::store(self.draw)),
            1..=3 => Call::SetUp { size: sizes::store(self.draw), count: self.draw.pick(&bad) },
            _ => self.good_set_up(),
        }
    }

    /// Makes one call on the tables, and on the twin if there is one, and compares.
    pub fn step(&mut self, call: Call) -> Result<Told, String> {
        alarm::step();
        let form = self.draw.pick(&FORMS);
        if call == Call::Audit {
            self.lay_scratch();
        }
        check::report_rule(self, call)?;
        let expected = self.desk.call(call);
        self.old.note(call, expected, self.desk.ledger.as_ref(), self.main.view());
        let answer = make(self.main, call, form);
        self.tally.row(call.kind(), answer.number);
        if answer != expected {
            return Err(format!("{call:?} {form:?} gives {answer:?}, the ledger {expected:?}; {}", check::context(&self.desk)));
        }
        check::columns(self.main, call, answer, &self.desk, self.junk)?;
        self.follow_crate(call, answer)?;
        self.follow_twin(call, answer)?;
        self.follow_handles(call, answer);
        self.after(call, form, answer)?;
        Ok(answer)
    }

    fn lay_scratch(&mut self) {
        let count = self.count() as usize;
        let length = if self.draw.one_in(6) { count.saturating_sub(1) } else { count + self.draw.below(3) as usize };
        self.desk.scratch_len = length;
        for tables in [&mut *self.main, &mut *self.twin] {
            tables.scratch.lay(length, Edge::Behind);
            fill_with_junk(tables.scratch.words_mut(), 0, self.junk);
        }
    }

    fn follow_crate(&mut self, call: Call, answer: Told) -> Result<(), String> {
        match (call, answer.number) {
            (Call::SetUp { size, count }, 0) => self.beside = Some(Beside::new(size, count)),
            (Call::New(size), 0) => self.beside = Some(Beside::of_new(size)),
            (Call::SetUp { .. } | Call::New(_), _) => self.beside = None,
            _ => (),
        }
        match &mut self.beside {
            Some(beside) => beside.call(call, answer, self.main),
            None => Ok(()),
        }
    }

    fn follow_twin(&mut self, call: Call, answer: Told) -> Result<(), String> {
        if self.twin_steps == 0 {
            return Ok(());
        }
        self.twin_steps -= 1;
        let form = self.draw.pick(&FORMS);
        let other = make(self.twin, call, form);
        self.tally.row("on the twin", other.number);
        if other != answer {
            return Err(format!("{call:?} {form:?}: after a stretch {answer:?}, without it {other:?}"));
        }
        check::columns(self.twin, call, other, &self.desk, self.junk)?;
        if self.twin_steps == 0 {
            return check::words(self.twin, &self.desk).map_err(|e| format!("without the stretch: {e}"));
        }
        Ok(())
    }

    fn follow_handles(&mut self, call: Call, answer: Told) {
        match (call, answer.number) {
            (Call::Take(_), 0) => self.handles.granted(answer.first, answer.second),
            (Call::Give { offset, record }, 0) => self.handles.returned(offset, record),
            (Call::SetUp { .. } | Call::New(_), _) | (Call::Reset, 0) => self.handles.ended(),
            _ => (),
        }
    }

    /// What is looked at beside the answer: a refused setup's head at once, all words now and then.
    fn after(&mut self, call: Call, form: Form, answer: Told) -> Result<(), String> {
        if matches!(call, Call::SetUp { .. } | Call::New(_)) && answer.number != 0 {
            let zeros = self.main.scalars.words().iter().all(|w| *w == 0);
            let head = self.main.bins.words().iter().all(|w| *w == 0) && self.main.leaves.words().iter().all(|b| *b == 0);
            if !zeros || (form == Form::ByValue && !head) {
                return Err(format!("{call:?} {form:?} is refused and leaves a head that is not of zeros"));
            }
        }
        let seldom = (self.room as u64 / 8).max(3);
        if matches!(call, Call::SetUp { .. } | Call::New(_) | Call::Reset) || self.draw.one_in(seldom) {
            return self.check_all();
        }
        Ok(())
    }

    pub fn check_all(&mut self) -> Result<(), String> {
        check::words(self.main, &self.desk)?;
        if let Some(ledger) = &self.desk.ledger {
            self.old.check(ledger, self.main.view())?;
        }
        match self.main.beyond_is_untouched(self.room as usize, self.junk) {
            true => Ok(()),
            false => Err("a word beyond the tables' needed lengths was written".into()),
        }
    }
}
