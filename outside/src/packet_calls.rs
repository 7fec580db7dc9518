//! The packet calls on two stores, each with guarded tables and guarded bytes.

use crate::boundary::*;
use crate::guarded::{Edge, Guarded};
use crate::tables::Tables;

pub struct Side {
    pub tables: Tables,
    pub bytes: Guarded<u8>,
}

impl Side {
    pub fn new() -> Side {
        Side { tables: Tables::new(), bytes: Guarded::new(0) }
    }

    pub fn lay_bytes(&mut self, bytes: &[u8], edge: Edge) {
        self.bytes.lay(bytes.len(), edge);
        self.bytes.words_mut().copy_from_slice(bytes);
    }
}

#[derive(Clone, Copy, Debug, PartialEq)]
pub enum PacketCall {
    Take(u32),
    Give { store: u32, offset: u32, record: u32 },
    Length { store: u32, offset: u32, record: u32 },
    Report(u32),
    Audit(u32),
    SetUp { store: u32, size: u32, count: u32 },
    SetUpBoth { on: (u32, u32), ex: (u32, u32) },
    Fill { store: u32, offset: u32, record: u32, length: usize },
    Read { store: u32, offset: u32, record: u32, room: usize },
}

impl PacketCall {
    pub fn kind(&self) -> &'static str {
        match self {
            PacketCall::Take(_) => "packet take",
            PacketCall::Give { .. } => "packet hand back",
            PacketCall::Length { .. } => "packet length",
            PacketCall::Report(_) => "packet report",
            PacketCall::Audit(_) => "packet audit",
            PacketCall::SetUp { .. } => "packet setup",
            PacketCall::SetUpBoth { .. } => "packet setup of both",
            PacketCall::Fill { .. } => "packet fill",
            PacketCall::Read { .. } => "packet read",
        }
    }
}

/// The one shape that every packet call's answer is put into: number, store, and two figures.
pub type Answer = (u32, u32, u64, u32);

/// Two stores' pointers in the boundary's order after the arguments that come first.
macro_rules! on_both {
    ($call:ident, $sides:expr, $($before:expr),*) => {{
        let [on, ex] = $sides;
        let (a, b) = (on.tables.lent(), ex.tables.lent());
        let (bytes, more) = (on.bytes.pointer(), ex.bytes.pointer());
        unsafe {
            $call($($before,)* a.scalars, a.bins, a.leaves, a.nodes, a.nodes_len, a.pile, a.pile_len, bytes, on.bytes.len(),
                b.scalars, b.bins, b.leaves, b.nodes, b.nodes_len, b.pile, b.pile_len, more, ex.bytes.len())
        }
    }};
}

/// Makes the call. `new` is what a fill writes, `out` where a read is copied to, `scratch` the audit's.
pub fn make(sides: &mut [Side; 2], call: PacketCall, new: &mut Guarded<u8>, out: &mut Guarded<u8>, scratch: &mut Guarded<u32>) -> Answer {
    let (new_at, new_len, out_at, out_len) = (new.pointer(), new.len(), out.pointer(), out.len());
    let (scratch_at, scratch_len) = (scratch.pointer(), scratch.len());
    match call {
        PacketCall::Take(size) => {
            let p = on_both!(ds_packet_take, sides, size);
            (p.number, p.store, p.offset as u64, p.record)
        }
        PacketCall::Give { store, offset, record } => (on_both!(ds_packet_give, sides, store, offset, record), 0, 0, 0),
        PacketCall::Length { store, offset, record } => figures(on_both!(ds_packet_length, sides, store, offset, record)),
        PacketCall::Report(store) => figures(on_both!(ds_packet_report, sides, store)),
        PacketCall::Audit(store) => (on_both!(ds_packet_audit, sides, store, scratch_at, scratch_len), 0, 0, 0),
        PacketCall::Fill { store, offset, record, .. } => (on_both!(ds_packet_fill, sides, store, offset, record, new_at, new_len), 0, 0, 0),
        PacketCall::Read { store, offset, record, .. } => {
            let length = on_both!(ds_packet_read, sides, store, offset, record, out_at, out_len);
            (0, 0, length as u64, 0)
        }
        PacketCall::SetUp { store, size, count } => (set_up(sides, store, size, count), 0, 0, 0),
        PacketCall::SetUpBoth { on, ex } => (set_up_both(sides, on, ex), 0, 0, 0),
    }
}

fn figures(told: Told) -> Answer {
    (told.number, 0, told.first as u64, told.second)
}

fn set_up(sides: &mut [Side; 2], store: u32, size: u32, count: u32) -> u32 {
    let [on, ex] = sides;
    let (this, other) = if store == 0 { (on, ex) } else { (ex, on) };
    let (w, bytes) = (this.tables.lent(), this.bytes.pointer());
    let (beside, bytes_beside) = (other.tables.scalars.pointer(), other.bytes.pointer());
    unsafe {
        ds_packet_set_up(
            size, count, w.scalars, w.bins, w.leaves, w.nodes, w.nodes_len, w.pile, w.pile_len, bytes, this.bytes.len(),
            beside, bytes_beside, other.bytes.len(),
        )
    }
}

fn set_up_both(sides: &mut [Side; 2], on_asked: (u32, u32), ex_asked: (u32, u32)) -> u32 {
    let [on, ex] = sides;
    let (a, b) = (on.tables.lent(), ex.tables.lent());
    let (bytes, more) = (on.bytes.pointer(), ex.bytes.pointer());
    unsafe {
        ds_packet_set_up_both(
            on_asked.0, on_asked.1,
            a.scalars, a.bins, a.leaves, a.nodes, a.nodes_len, a.pile, a.pile_len, bytes, on.bytes.len(),
            ex_asked.0, ex_asked.1,
            b.scalars, b.bins, b.leaves, b.nodes, b.nodes_len, b.pile, b.pile_len, more, ex.bytes.len(),
        )
    }
}
