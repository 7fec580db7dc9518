//! What the documents ask of a call on any words whatever: exactly one answer, or one of a few numbers where unsound words leave it open.

use crate::boundary::Told;
use crate::calls::Call;
use crate::classes;
use crate::desk::{told, Desk, COUNT_OF_NEW};
use crate::sound::is_sound;
use crate::words::{gate, View, BELOW, LENGTH, OFFSET, USED};

pub enum Asked {
    Exactly(Told),
    OneOf(&'static [u32]),
}

fn just(number: u32) -> Asked {
    Asked::Exactly(Told { number, first: 0, second: 0 })
}

pub fn asked(call: Call, words: View, scratch_len: usize) -> Asked {
    let at_setup = match call {
        Call::SetUp { count, .. } => Some(count),
        Call::New(_) => Some(COUNT_OF_NEW),
        _ => None,
    };
    if let Some(count) = at_setup {
        return just(gate(count, words.nodes.len(), words.pile.len(), 1));
    }
    match (words.gate(), call) {
        (0, Call::Reset) => just(0),
        (0, Call::Fill) => fill(words),
        (0, Call::Audit) if scratch_len < words.count() as usize => just(2),
        (0, Call::Audit) => just(if is_sound(words) { 0 } else { 6 }),
        (0, _) if is_sound(words) => on_sound(call, words),
        (0, _) => on_unsound(call, words),
        (number, _) => just(number),
    }
}

/// Document 01 and request 12: live units are the size less the kept free total, which must not exceed the size.
fn fill(words: View) -> Asked {
    if words.free_total() > words.size() {
        return just(6);
    }
    let live = words.size() - words.free_total();
    let fill = if words.size() == 0 { 0 } else { 256 * live as u64 / words.size() as u64 };
    Asked::Exactly(told(Ok((live, fill as u32))))
}

/// Sound words stand for a ledger, which answers in full and never with 6.
fn on_sound(call: Call, words: View) -> Asked {
    let mut desk = Desk::new(words.nodes.len(), words.pile.len());
    desk.ledger = Some(words.ledger());
    Asked::Exactly(desk.call(call))
}

fn on_unsound(call: Call, words: View) -> Asked {
    match call {
        Call::Take(_) if words.spares_less_one() == 0 => just(3),
        Call::Take(_) if words.spares_less_one() >= words.count() => Asked::OneOf(&[0, 3, 4, 6]),
        Call::Take(size) if classes::up(size).is_none() => Asked::OneOf(&[4, 6]),
        Call::Take(_) => Asked::OneOf(&[0, 4, 6]),
        Call::Give { offset, record } | Call::SizeOf { offset, record } => {
            if record >= words.count() || words.word(record, USED) == 0 {
                just(5)
            } else if words.word(record, OFFSET) != offset {
                just(8)
            } else {
                Asked::OneOf(&[0, 6])
            }
        }
        Call::FullReport if circular(words) => just(6),
        _ => Asked::OneOf(&[0, 6]),
    }
}

/// The length of a class's list, or none where it is circular.
pub fn list_length(words: View, class: usize) -> Option<u32> {
    let mut length = 0;
    let mut next = words.top_of(class);
    while let Some(record) = next {
        length += 1;
        if length > words.count() {
            return None;
        }
        next = words.link(record, BELOW);
    }
    Some(length)
}

fn circular(words: View) -> bool {
    (0..256).any(|class| list_length(words, class).is_none())
}

/// What must hold of an answer beyond its number, on any words: a grant lies inside the store, a length is the record's.
pub fn bounded(call: Call, answer: Told, before: View) -> bool {
    match (call, answer.number) {
        (Call::Take(size), 0) => answer.first as u64 + size as u64 <= before.size() as u64 && answer.second < before.count(),
        (Call::SizeOf { record, .. }, 0) => answer.first == before.word(record, LENGTH) && answer.second == 0,
        (Call::Report | Call::Fill, 0) => true,
        _ => answer.first == 0 && answer.second == 0,
    }
}
