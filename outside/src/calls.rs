//! The calls of the span allocator in their three forms, made on guarded tables.

use crate::boundary::*;
use crate::tables::{Lent, Tables};

#[derive(Clone, Copy, Debug, PartialEq)]
pub enum Call {
    Take(u32),
    Give { offset: u32, record: u32 },
    SizeOf { offset: u32, record: u32 },
    Report,
    FullReport,
    Fill,
    Audit,
    Reset,
    SetUp { size: u32, count: u32 },
    New(u32),
}

impl Call {
    pub fn kind(&self) -> &'static str {
        match self {
            Call::Take(_) => "take",
            Call::Give { .. } => "hand back",
            Call::SizeOf { .. } => "size query",
            Call::Report => "report",
            Call::FullReport => "full report",
            Call::Fill => "fill",
            Call::Audit => "audit",
            Call::Reset => "reset",
            Call::SetUp { .. } => "setup",
            Call::New(_) => "new",
        }
    }
}

#[derive(Clone, Copy, Debug, PartialEq)]
pub enum Form {
    InPlace,
    Lent,
    ByValue,
}

pub const FORMS: [Form; 3] = [Form::InPlace, Form::Lent, Form::ByValue];

fn just(number: u32) -> Told {
    Told { number, first: 0, second: 0 }
}

/// Makes the call. Only take and hand back have a form of their own for `Lent`; the others are then made in place.
/// The full report's columns are left in `tables.sizes` and `tables.counts`; the audit is lent `tables.scratch` as it is laid.
pub fn make(tables: &mut Tables, call: Call, form: Form) -> Told {
    let lent = tables.lent();
    // Every pointer comes from a guarded table that lives through the call, and no two overlap.
    unsafe {
        match form {
            Form::ByValue => by_value(tables, lent, call),
            _ => in_place(tables, lent, call, form),
        }
    }
}

unsafe fn in_place(tables: &mut Tables, w: Lent, call: Call, form: Form) -> Told {
    let Lent { scalars: s, bins, leaves, nodes, nodes_len, pile, pile_len } = w;
    match (call, form) {
        (Call::Take(size), Form::Lent) => ds_take_lent(s, size, bins, leaves, nodes, nodes_len, pile, pile_len),
        (Call::Take(size), _) => ds_take(s, size, bins, leaves, nodes, nodes_len, pile, pile_len),
        (Call::Give { offset, record }, Form::Lent) => just(ds_give_lent(s, offset, record, bins, leaves, nodes, nodes_len, pile, pile_len)),
        (Call::Give { offset, record }, _) => just(ds_give(s, offset, record, bins, leaves, nodes, nodes_len, pile, pile_len)),
        (Call::SizeOf { offset, record }, _) => ds_size_of(s, offset, record, bins, leaves, nodes, nodes_len, pile, pile_len),
        (Call::Report, _) => ds_report(s, bins, leaves, nodes, nodes_len, pile, pile_len),
        (Call::FullReport, _) => {
            let (sizes, counts) = (tables.sizes.pointer(), tables.counts.pointer());
            just(ds_full_report(s, bins, leaves, nodes, nodes_len, pile, pile_len, sizes, counts))
        }
        (Call::Fill, _) => ds_fill(s, bins, leaves, nodes, nodes_len, pile, pile_len),
        (Call::Audit, _) => {
            let (scratch, length) = (tables.scratch.pointer(), tables.scratch.len());
            just(ds_audit(s, bins, leaves, nodes, nodes_len, pile, pile_len, scratch, length))
        }
        (Call::Reset, _) => just(ds_reset(s, bins, leaves, nodes, nodes_len, pile, pile_len)),
        (Call::SetUp { size, count }, _) => just(ds_set_up(s, size, count, bins, leaves, nodes, nodes_len, pile, pile_len)),
        (Call::New(size), _) => just(ds_new(s, size, bins, leaves, nodes, nodes_len, pile, pile_len)),
    }
}

unsafe fn by_value(tables: &mut Tables, w: Lent, call: Call) -> Told {
    let Lent { scalars: s, bins, leaves, nodes, nodes_len, pile, pile_len } = w;
    match call {
        Call::Take(size) => ds_by_value_take(s, size, bins, leaves, nodes, nodes_len, pile, pile_len),
        Call::Give { offset, record } => just(ds_by_value_give(s, offset, record, bins, leaves, nodes, nodes_len, pile, pile_len)),
        Call::SizeOf { offset, record } => ds_by_value_size_of(s, offset, record, bins, leaves, nodes, nodes_len, pile, pile_len),
        Call::Report => ds_by_value_report(s, bins, leaves, nodes, nodes_len, pile, pile_len),
        Call::FullReport => {
            let (sizes, counts) = (tables.sizes.pointer(), tables.counts.pointer());
            just(ds_by_value_full_report(s, bins, leaves, nodes, nodes_len, pile, pile_len, sizes, counts))
        }
        Call::Fill => ds_by_value_fill(s, bins, leaves, nodes, nodes_len, pile, pile_len),
        Call::Audit => {
            let (scratch, length) = (tables.scratch.pointer(), tables.scratch.len());
            just(ds_by_value_audit(s, bins, leaves, nodes, nodes_len, pile, pile_len, scratch, length))
        }
        Call::Reset => just(ds_by_value_reset(s, bins, leaves, nodes, nodes_len, pile, pile_len)),
        Call::SetUp { size, count } => just(ds_by_value_set_up(s, size, count, bins, leaves, nodes, nodes_len, pile, pile_len)),
        Call::New(size) => just(ds_by_value_new(s, size, bins, leaves, nodes, nodes_len, pile, pile_len)),
    }
}
