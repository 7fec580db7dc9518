//! Seeded runs of the packet layer on two stores beside the plain model; every byte is compared after every call.

use crate::draw::Draw;
use crate::desk::Desk;
use crate::guarded::{Edge, Guarded};
use crate::handles::Handles;
use crate::packet_calls::{make, Answer, PacketCall, Side};
use crate::packets::{which, PlainPackets, PlainStore};
use crate::tables::{fill_with_junk, is_junk};
use crate::tally::Tally;
use crate::words::{GREATEST_COUNT, WORDS_A_RECORD};
use crate::{alarm, check};

pub struct Stage {
    sides: [Side; 2],
    new: Guarded<u8>,
    out: Guarded<u8>,
    scratch: Guarded<u32>,
}

impl Stage {
    pub fn new() -> Stage {
        Stage { sides: [Side::new(), Side::new()], new: Guarded::new(0), out: Guarded::new(0), scratch: Guarded::new(0) }
    }
}

const JUNK: u32 = 0x5151_5151;
/// What `out` holds before a read.
const OUT: u8 = 0x77;

struct Run<'a> {
    draw: &'a mut Draw,
    tally: &'a mut Tally,
    stage: &'a mut Stage,
    plain: PlainPackets,
    handles: [Handles; 2],
    rooms: [u32; 2],
}

pub fn run(_: u64, draw: &mut Draw, stage: &mut Stage, tally: &mut Tally) -> Result<(), String> {
    let mut rooms = [0; 2];
    let mut stores = Vec::new();
    for (side, room) in stage.sides.iter_mut().zip(&mut rooms) {
        let most = if draw.one_in(3) { 4 } else { 40 };
        *room = 2 + draw.small(most);
        let edge = draw.pick(&[Edge::Behind, Edge::Before]);
        let longer = draw.below(4) as usize;
        let (nodes, pile) = (WORDS_A_RECORD * *room as usize + longer, *room as usize + longer % 2);
        side.tables.lay(nodes, pile, edge);
        side.tables.scalars.words_mut().fill(0);
        fill_with_junk(side.tables.nodes.words_mut(), 0, JUNK);
        fill_with_junk(side.tables.pile.words_mut(), 0, JUNK);
        let bits = 1 + draw.below(12);
        let length = draw.below(1 << bits);
        let bytes: Vec<u8> = (0..length).map(|_| draw.word() as u8 & 0x7F).collect();
        side.lay_bytes(&bytes, edge);
        stores.push(PlainStore { desk: Desk::new(nodes, pile), bytes });
    }
    let stores: [PlainStore; 2] = stores.try_into().ok().expect("two stores");
    let mut run = Run { draw, tally, stage, plain: PlainPackets { stores }, handles: Default::default(), rooms };
    run.whole()
}

impl Run<'_> {
    fn whole(&mut self) -> Result<(), String> {
        let first = self.set_up_both(true);
        self.step(first)?;
        for _ in 0..100 + self.draw.below(600) {
            let call = self.any_call();
            if self.draw.one_in(60) {
                self.with_short_bytes(call)?;
            } else {
                self.step(call)?;
            }
        }
        self.check_words()
    }

    /// A size that the store's bytes hold; rarely one that they do not.
    fn size(&mut self, store: usize, good: bool) -> u32 {
        let bytes = self.plain.stores[store].bytes.len() as u64;
        match self.draw.below(20) {
            0 if !good => bytes as u32 + 1 + self.draw.small(3),
            1 if !good => self.draw.any_width(),
            2..=6 => self.draw.below(bytes + 1) as u32,
            _ => bytes as u32,
        }
    }

    fn count(&mut self, store: usize, good: bool) -> u32 {
        match self.draw.below(12) {
            0 if !good => self.draw.pick(&[0, 1, GREATEST_COUNT + 1, u32::MAX]),
            1 if !good => self.rooms[store] + 2,
            2..=4 => 2 + self.draw.small(self.rooms[store] - 1),
            _ => self.rooms[store],
        }
    }

    fn set_up_both(&mut self, good: bool) -> PacketCall {
        let on = (self.size(0, good), self.count(0, good));
        let ex = (self.size(1, good), self.count(1, good));
        PacketCall::SetUpBoth { on, ex }
    }

    fn any_call(&mut self) -> PacketCall {
        let k = self.draw.below(2) as usize;
        let store = if k == 1 && self.draw.one_in(8) { self.draw.word() | 1 } else { k as u32 };
        let count = self.plain.stores[k].desk.ledger.as_ref().map_or(self.rooms[k], |l| l.count);
        let (offset, record) = self.handles[k].pair(self.draw, count);
        let no_store = self.plain.stores.iter().any(|s| s.desk.ledger.is_none());
        match self.draw.below(40) {
            0..=12 => PacketCall::Take(self.taken()),
            13..=20 => PacketCall::Give { store, offset, record },
            21..=26 => PacketCall::Fill { store, offset, record, length: self.near(k, offset, record) },
            27..=32 => PacketCall::Read { store, offset, record, room: self.near(k, offset, record) },
            33..=35 => PacketCall::Length { store, offset, record },
            36 => PacketCall::Report(store),
            37 => PacketCall::Audit(store),
            _ if self.draw.one_in(if no_store { 2 } else { 10 }) => match self.draw.below(3) {
                0 => self.set_up_both(false),
                _ => PacketCall::SetUp { store, size: self.size(k, false), count: self.count(k, false) },
            },
            _ => PacketCall::Report(store),
        }
    }

    fn taken(&mut self) -> u32 {
        let bytes = self.plain.stores[self.draw.below(2) as usize].bytes.len() as u32;
        match self.draw.below(8) {
            0 => self.draw.small(bytes + 2),
            1 => 0,
            2 => self.draw.any_width(),
            _ => self.draw.small(2 + bytes / 8),
        }
    }

    /// A length about that of the packet.
    fn near(&mut self, store: usize, offset: u32, record: u32) -> usize {
        let length = self.plain.stores[store].desk.ledger.as_ref().and_then(|l| l.size_of(offset, record).ok());
        let length = length.unwrap_or(5) as u64;
        match self.draw.below(4) {
            0 => (length + self.draw.below(3)) as usize,
            1 => self.draw.below(length + 1) as usize,
            _ => length as usize,
        }
    }

    fn lay_others(&mut self, call: PacketCall) -> Vec<u8> {
        let (mut new, mut room) = (Vec::new(), 0);
        match call {
            PacketCall::Fill { length, .. } => new = (0..length).map(|_| self.draw.word() as u8).collect(),
            PacketCall::Read { room: asked, .. } => room = asked,
            PacketCall::Audit(store) => {
                let count = self.plain.stores[which(store)].desk.ledger.as_ref().map_or(0, |l| l.count as usize);
                let length = (count + self.draw.below(4) as usize).saturating_sub(1);
                self.stage.scratch.lay(length, Edge::Behind);
                fill_with_junk(self.stage.scratch.words_mut(), 0, JUNK);
                self.plain.stores[which(store)].desk.scratch_len = length;
            }
            _ => (),
        }
        self.stage.new.lay(new.len(), Edge::Behind);
        self.stage.new.words_mut().copy_from_slice(&new);
        self.stage.out.lay(room, Edge::Behind);
        self.stage.out.words_mut().fill(OUT);
        new
    }

    fn step(&mut self, call: PacketCall) -> Result<(), String> {
        alarm::step();
        let new = self.lay_others(call);
        let expected = self.plain.call(call, &new);
        let Stage { sides, new, out, scratch } = &mut *self.stage;
        let answer = make(sides, call, new, out, scratch);
        self.tally.row(call.kind(), answer.0);
        if answer != expected {
            let desks = [check::context(&self.plain.stores[0].desk), check::context(&self.plain.stores[1].desk)];
            return Err(format!("{call:?} gives {answer:?}, the model {expected:?}; after it {desks:?}"));
        }
        self.check_bytes(call, answer)?;
        self.follow(call, answer);
        if self.draw.one_in(12) { self.check_words() } else { Ok(()) }
    }

    fn check_bytes(&mut self, call: PacketCall, answer: Answer) -> Result<(), String> {
        for k in 0..2 {
            if self.stage.sides[k].bytes.words() != self.plain.stores[k].bytes {
                return Err(format!("{call:?} ({answer:?}): the bytes of store {k} differ"));
            }
        }
        if let PacketCall::Read { store, offset, record, room } = call {
            let part = self.plain.read(store, offset, record);
            let front = part.len().min(room);
            let out = self.stage.out.words();
            if out[..front] != part[..front] || out[front..].iter().any(|b| *b != OUT) {
                return Err(format!("{call:?}: what was read differs"));
            }
        }
        if let (PacketCall::Audit(store), scratch) = (call, self.stage.scratch.words()) {
            let count = self.plain.stores[which(store)].desk.ledger.as_ref().map_or(0, |l| l.count as usize);
            let cleared = if answer.0 == 0 || (answer.0 == 6 && count > 0) { count } else { 0 };
            if scratch[..cleared].iter().any(|w| *w != 0) || !is_junk(scratch, cleared, JUNK) {
                return Err(format!("{call:?} ({answer:?}): the scratch is left wrong"));
            }
        }
        Ok(())
    }

    fn follow(&mut self, call: PacketCall, answer: Answer) {
        match (call, answer.0) {
            (PacketCall::Take(_), 0) => self.handles[answer.1 as usize].granted(answer.2 as u32, answer.3),
            (PacketCall::Give { store, offset, record }, 0) => self.handles[which(store)].returned(offset, record),
            (PacketCall::SetUp { store, .. }, _) => self.handles[which(store)].ended(),
            (PacketCall::SetUpBoth { .. }, _) => self.handles.iter_mut().for_each(|h| h.ended()),
            _ => (),
        }
    }

    /// One store is lent too few bytes for one call, which is refused as 9 whatever else is wrong with it, unless a setup makes that store smaller.
    fn with_short_bytes(&mut self, call: PacketCall) -> Result<(), String> {
        let k = self.draw.below(2) as usize;
        let size = self.plain.stores[k].size() as usize;
        if size == 0 {
            return self.step(call);
        }
        let whole = self.plain.stores[k].bytes.clone();
        self.plain.stores[k].bytes.truncate(self.draw.pick(&[size - 1, size - 1, 0]));
        self.stage.sides[k].lay_bytes(&self.plain.stores[k].bytes, Edge::Behind);
        self.step(call)?;
        self.stage.sides[k].lay_bytes(&whole, Edge::Behind);
        self.plain.stores[k].bytes = whole;
        Ok(())
    }

    fn check_words(&mut self) -> Result<(), String> {
        for k in 0..2 {
            let (side, desk) = (&self.stage.sides[k], &self.plain.stores[k].desk);
            check::words(&side.tables, desk).map_err(|e| format!("store {k}: {e}"))?;
            if desk.ledger.is_none() && side.tables.scalars.words().iter().any(|w| *w != 0) {
                return Err(format!("store {k}: a refused setup leaves scalars that are not zeros"));
            }
            if !side.tables.beyond_is_untouched(self.rooms[k] as usize, JUNK) || !side.bytes.untouched_beside() {
                return Err(format!("store {k}: something beyond what is lent or needed was written"));
            }
        }
        Ok(())
    }
}
