//! The packet calls, the gauge and the replay on spoiled words. What each must do is put together from the span calls, which are made in place
//! on copies of the same words.

use crate::boundary::Told;
use crate::calls::{make as make_span, Call, Form};
use crate::draw::Draw;
use crate::gauge;
use crate::gauge_calls;
use crate::guarded::{Edge, Guarded};
use crate::journal;
use crate::packet_calls::{make, Answer, PacketCall, Side};
use crate::packets::{which, NOT_HEARD};
use crate::part_gauge::{any_watch, expected};
use crate::part_journal::{call_of, replay_step, step_of};
use crate::part_spoiled::{any_call, any_pair, ROOF};
use crate::tables::{fill_with_junk, Tables};
use crate::tally::Tally;
use crate::words::{Words, GREATEST_COUNT};
use crate::alarm;

pub struct Others {
    sides: [Side; 2],
    copies: [Tables; 2],
    bytes: [Vec<u8>; 2],
    new: Guarded<u8>,
    out: Guarded<u8>,
    scratch: Guarded<u32>,
}

/// Bytes of a store are kept below this, whatever size the words name; a greater size is then refused as 9.
const MOST_BYTES: u32 = 5000;
const JUNK: u32 = 0x4242_4242;
const OUT: u8 = 0x77;

impl Others {
    pub fn new() -> Others {
        Others {
            sides: [Side::new(), Side::new()],
            copies: [Tables::new(), Tables::new()],
            bytes: [Vec::new(), Vec::new()],
            new: Guarded::new(0),
            out: Guarded::new(0),
            scratch: Guarded::new(0),
        }
    }

    pub fn run(&mut self, draw: &mut Draw, base: &Words, spoiled: &Words, tally: &mut Tally) -> Result<(), String> {
        self.gauge(draw, spoiled, tally)?;
        self.replay(draw, spoiled, tally)?;
        let both = if draw.one_in(2) { [base, spoiled] } else { [spoiled, base] };
        let both = if draw.one_in(4) { [spoiled, spoiled] } else { both };
        self.lay(draw, both);
        for _ in 0..1 + draw.below(8) {
            self.packet(draw, tally)?;
        }
        Ok(())
    }

    fn gauge(&mut self, draw: &mut Draw, words: &Words, tally: &mut Tally) -> Result<(), String> {
        let tables = &mut self.copies[0];
        let shorter = draw.one_in(6) as usize;
        tables.lay(words.nodes.len() - shorter, words.pile.len(), Edge::Behind);
        tables.load(words, JUNK);
        let watch = any_watch(draw);
        let ours = expected(tables.view(), watch);
        for form in [Form::InPlace, Form::ByValue] {
            alarm::step();
            let theirs = gauge_calls::make(tables, watch, form);
            tally.row("reading", theirs.number);
            if !gauge::same(&ours, &theirs) || !tables.holds(words) {
                return Err(format!("gauge {form:?} {watch:?}: {theirs:?}, by the rule {ours:?}, or a word was changed"));
            }
        }
        Ok(())
    }

    /// A replay step is the call that its record names, made in place.
    fn replay(&mut self, draw: &mut Draw, words: &Words, tally: &mut Tally) -> Result<(), String> {
        for tables in &mut self.copies {
            tables.lay(words.nodes.len(), words.pile.len(), Edge::Behind);
            tables.load(words, JUNK);
        }
        for _ in 0..1 + draw.below(4) {
            let (kind, first, second) = match any_call(draw, self.copies[0].view()) {
                Call::Take(size) => (1, size, 0),
                Call::Give { offset, record } => (2, record, offset),
                Call::SetUp { size, count } => (3, size, count),
                _ => (4, 0, 0),
            };
            let bytes = journal::record(kind, first, second).expect("a known kind");
            self.out.lay(bytes.len(), Edge::Behind);
            self.out.words_mut().copy_from_slice(&bytes);
            alarm::step();
            let told = make_span(&mut self.copies[0], call_of(kind, first, second), Form::InPlace);
            let theirs = replay_step(&mut self.out, &mut self.copies[1], 0);
            tally.row("replay step", theirs.number);
            if theirs != step_of(kind, told, bytes.len()) || !same_words(&self.copies[0], &self.copies[1]) {
                return Err(format!("replay of {kind} {first} {second}: {theirs:?}, the call in place {told:?}, or the words differ"));
            }
        }
        Ok(())
    }

    fn lay(&mut self, draw: &mut Draw, both: [&Words; 2]) {
        for k in 0..2 {
            let words = both[k];
            for tables in [&mut self.sides[k].tables, &mut self.copies[k]] {
                tables.lay(words.nodes.len(), words.pile.len(), Edge::Behind);
                tables.load(words, JUNK);
            }
            // A store that is too large to be given bytes is made small, so that not every call is refused as 9.
            if words.scalars[0] > MOST_BYTES && draw.below(8) != 0 {
                let size = draw.small(MOST_BYTES);
                self.sides[k].tables.scalars.words_mut()[0] = size;
                self.copies[k].scalars.words_mut()[0] = size;
            }
            let size = self.copies[k].scalars.words()[0].min(MOST_BYTES) as usize;
            let length = if draw.one_in(12) { size.saturating_sub(1) } else { size + draw.below(3) as usize };
            self.bytes[k] = (0..length).map(|place| place as u8 & 0x7F).collect();
            self.sides[k].lay_bytes(&self.bytes[k], Edge::Behind);
        }
    }

    fn packet(&mut self, draw: &mut Draw, tally: &mut Tally) -> Result<(), String> {
        let call = self.any_packet_call(draw);
        alarm::step();
        self.lay_others(draw, call);
        let expected = self.expected(call);
        let answer = make(&mut self.sides, call, &mut self.new, &mut self.out, &mut self.scratch);
        tally.row(call.kind(), answer.0);
        if answer != expected {
            return Err(format!("{call:?} on spoiled words: {answer:?}, by the span calls {expected:?}"));
        }
        self.left_behind(call, answer)
    }

    fn any_packet_call(&mut self, draw: &mut Draw) -> PacketCall {
        let k = draw.below(2) as usize;
        let (store, view) = (k as u32, self.copies[k].view());
        let (offset, record) = any_pair(draw, view);
        let size = draw.small(view.size().min(MOST_BYTES) / 4 + 2);
        let bad_count = draw.pick(&[0, 1, GREATEST_COUNT + 1, GREATEST_COUNT]);
        match draw.below(24) {
            0..=7 => PacketCall::Take(size),
            8..=11 => PacketCall::Give { store, offset, record },
            12..=14 => PacketCall::Fill { store, offset, record, length: draw.below(20) as usize },
            15..=17 => PacketCall::Read { store, offset, record, room: draw.below(40) as usize },
            18 => PacketCall::Length { store, offset, record },
            19 => PacketCall::Report(store),
            20 | 21 => PacketCall::Audit(store),
            22 => PacketCall::SetUp { store, size, count: if draw.one_in(2) { bad_count } else { 2 + draw.small(view.pile.len() as u32) } },
            _ => PacketCall::SetUpBoth { on: (size, 2), ex: (size, if draw.one_in(2) { bad_count } else { 2 }) },
        }
    }

    fn lay_others(&mut self, draw: &mut Draw, call: PacketCall) {
        let (mut filled, mut room) = (0, 0);
        match call {
            PacketCall::Fill { length, .. } => filled = length,
            PacketCall::Read { room: asked, .. } => room = asked,
            PacketCall::Audit(store) => {
                let count = self.copies[which(store)].view().count().min(ROOF) as usize;
                let length = (count + draw.below(4) as usize).saturating_sub(1);
                for scratch in [&mut self.scratch, &mut self.copies[which(store)].scratch] {
                    scratch.lay(length, Edge::Behind);
                    fill_with_junk(scratch.words_mut(), 0, JUNK);
                }
            }
            _ => (),
        }
        self.new.lay(filled, Edge::Behind);
        self.new.words_mut().fill(0xC3);
        self.out.lay(room, Edge::Behind);
        self.out.words_mut().fill(OUT);
    }

    /// The answer put together from span calls on the copies, which change as the call must change its tables.
    fn expected(&mut self, call: PacketCall) -> Answer {
        match call {
            PacketCall::SetUp { store, size, count } => return (self.set_up(which(store), size, count), 0, 0, 0),
            PacketCall::SetUpBoth { on, ex } => return (self.set_up_both([on, ex]), 0, 0, 0),
            _ => (),
        }
        let short = (0..2).any(|k| self.bytes[k].len() < self.copies[k].view().size() as usize);
        match call {
            PacketCall::Read { .. } if short => (0, 0, 0, 0),
            _ if short => (9, 0, 0, 0),
            PacketCall::Take(size) => self.take(size),
            PacketCall::Give { store, offset, record } => self.ask(store, Call::Give { offset, record }),
            PacketCall::Length { store, offset, record } => {
                let told = self.inside(store, offset, record);
                (told.number, 0, told.first as u64, 0)
            }
            PacketCall::Report(store) => self.ask(store, Call::Report),
            PacketCall::Audit(store) => self.ask(store, Call::Audit),
            PacketCall::Fill { store, offset, record, length } => self.fill(store, offset, record, length),
            PacketCall::Read { store, offset, record, .. } => (0, 0, self.inside(store, offset, record).first as u64, 0),
            _ => unreachable!("setups were answered above"),
        }
    }

    fn ask(&mut self, store: u32, call: Call) -> Answer {
        let told = make_span(&mut self.copies[which(store)], call, Form::InPlace);
        (told.number, 0, told.first as u64, told.second)
    }

    fn take(&mut self, size: u32) -> Answer {
        let mut number = 0;
        for k in 0..2 {
            let told = make_span(&mut self.copies[k], Call::Take(size), Form::InPlace);
            if told.number == 0 {
                let first = told.first as usize;
                self.bytes[k][first..first + size as usize].fill(NOT_HEARD);
                return (0, k as u32, told.first as u64, told.second);
            }
            number = told.number;
            if number != 3 && number != 4 {
                break;
            }
        }
        (number, 0, 0, 0)
    }

    /// The length of a span. A spoiled record may name bytes outside the store: no part can be handed back or lent then, and since the length
    /// query tells an empty part from a refusal, it is refused as well. Only 6 is left for that.
    fn inside(&mut self, store: u32, offset: u32, record: u32) -> Told {
        let copy = &mut self.copies[which(store)];
        let told = make_span(copy, Call::SizeOf { offset, record }, Form::InPlace);
        let outside = told.number == 0 && offset as u64 + told.first as u64 > copy.view().size() as u64;
        if outside { Told { number: 6, first: 0, second: 0 } } else { told }
    }

    fn fill(&mut self, store: u32, offset: u32, record: u32, length: usize) -> Answer {
        let told = self.inside(store, offset, record);
        if told.number == 0 && length <= told.first as usize {
            let first = offset as usize;
            self.bytes[which(store)][first..first + length].copy_from_slice(self.new.words());
        }
        let number = if told.number == 0 && length > told.first as usize { 17 } else { told.number };
        (number, 0, 0, 0)
    }

    fn set_up(&mut self, k: usize, size: u32, count: u32) -> u32 {
        let other_short = self.bytes[1 - k].len() < self.copies[1 - k].view().size() as usize;
        if other_short || self.bytes[k].len() < size as usize {
            self.copies[k].scalars.words_mut().fill(0);
            return 9;
        }
        make_span(&mut self.copies[k], Call::SetUp { size, count }, Form::InPlace).number
    }

    fn set_up_both(&mut self, asked: [(u32, u32); 2]) -> u32 {
        let gate = |k: usize| crate::words::gate(asked[k].1, self.copies[k].nodes.len(), self.copies[k].pile.len(), 1);
        let short = (0..2).any(|k| self.bytes[k].len() < asked[k].0 as usize);
        let number = if short { 9 } else if gate(0) != 0 { gate(0) } else { gate(1) };
        for k in 0..2 {
            match number {
                0 => drop(make_span(&mut self.copies[k], Call::SetUp { size: asked[k].0, count: asked[k].1 }, Form::InPlace)),
                _ => self.copies[k].scalars.words_mut().fill(0),
            }
        }
        number
    }

    /// Words and bytes after the call, what a read gave, what an audit left in the scratch.
    fn left_behind(&mut self, call: PacketCall, answer: Answer) -> Result<(), String> {
        for k in 0..2 {
            if !same_words(&self.sides[k].tables, &self.copies[k]) {
                return Err(format!("{call:?} ({answer:?}): the words of store {k} are not those of the span call"));
            }
            if self.sides[k].bytes.words() != self.bytes[k] {
                return Err(format!("{call:?} ({answer:?}): the bytes of store {k} are wrong"));
            }
        }
        if let PacketCall::Read { store, offset, .. } = call {
            let front = (answer.2 as usize).min(self.out.len());
            let part = if front == 0 { &[] } else { &self.bytes[which(store)][offset as usize..][..front] };
            if self.out.words()[..front] != *part || self.out.words()[front..].iter().any(|b| *b != OUT) {
                return Err(format!("{call:?}: what was read is wrong"));
            }
        }
        if let PacketCall::Audit(store) = call {
            if self.scratch.words() != self.copies[which(store)].scratch.words() {
                return Err(format!("{call:?} ({answer:?}): the scratch is not left as the span audit leaves it"));
            }
        }
        Ok(())
    }
}

fn same_words(one: &Tables, other: &Tables) -> bool {
    let (a, b) = (one.view(), other.view());
    a.scalars == b.scalars && a.bins == b.bins && a.leaves == b.leaves && a.nodes == b.nodes && a.pile == b.pile
}
