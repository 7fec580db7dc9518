//! A plain model of request 5's packet layer: two desks, each with the bytes of its store.

use crate::calls::Call;
use crate::desk::Desk;
use crate::packet_calls::{Answer, PacketCall};
use crate::words::gate;

/// The mark for "not heard".
pub const NOT_HEARD: u8 = 255;

pub struct PlainStore {
    pub desk: Desk,
    /// Every byte that is lent, also those beyond the allocator's size.
    pub bytes: Vec<u8>,
}

pub struct PlainPackets {
    pub stores: [PlainStore; 2],
}

/// A store's number is 0 for on chip, any other for external.
pub fn which(store: u32) -> usize {
    if store == 0 { 0 } else { 1 }
}

fn refused(number: u32) -> Answer {
    (number, 0, 0, 0)
}

impl PlainStore {
    /// The size in the scalars: 0 before any setup and after a refused one.
    pub fn size(&self) -> u32 {
        self.desk.ledger.as_ref().map_or(0, |l| l.size)
    }
}

impl PlainPackets {
    /// A store that is shorter in bytes than its allocator's size is refused before anything else.
    fn too_short(&self) -> bool {
        self.stores.iter().any(|s| s.bytes.len() < s.size() as usize)
    }

    /// Makes the call; `new` is what a fill writes.
    pub fn call(&mut self, call: PacketCall, new: &[u8]) -> Answer {
        match call {
            PacketCall::SetUp { store, size, count } => return self.set_up(which(store), size, count),
            PacketCall::SetUpBoth { on, ex } => return self.set_up_both(on, ex),
            _ if self.too_short() => return if matches!(call, PacketCall::Read { .. }) { refused(0) } else { refused(9) },
            _ => (),
        }
        match call {
            PacketCall::Take(size) => self.take(size),
            PacketCall::Give { store, offset, record } => self.ask(store, Call::Give { offset, record }),
            PacketCall::Length { store, offset, record } => self.ask(store, Call::SizeOf { offset, record }),
            PacketCall::Report(store) => self.ask(store, Call::Report),
            PacketCall::Audit(store) => self.ask(store, Call::Audit),
            PacketCall::Fill { store, offset, record, .. } => self.fill(store, offset, record, new),
            PacketCall::Read { store, offset, record, .. } => (0, 0, self.read(store, offset, record).len() as u64, 0),
            _ => unreachable!("setups were answered above"),
        }
    }

    fn ask(&mut self, store: u32, call: Call) -> Answer {
        let told = self.stores[which(store)].desk.call(call);
        (told.number, 0, told.first as u64, told.second)
    }

    /// On chip first; external only where on chip gives 3 or 4. The refusal is that of the last store tried.
    fn take(&mut self, size: u32) -> Answer {
        for store in 0..2 {
            let told = self.stores[store].desk.call(Call::Take(size));
            if told.number == 0 {
                let first = told.first as usize;
                self.stores[store].bytes[first..first + size as usize].fill(NOT_HEARD);
                return (0, store as u32, told.first as u64, told.second);
            }
            if store == 1 || (told.number != 3 && told.number != 4) {
                return refused(told.number);
            }
        }
        unreachable!("the second store answers")
    }

    fn fill(&mut self, store: u32, offset: u32, record: u32, new: &[u8]) -> Answer {
        let told = self.stores[which(store)].desk.call(Call::SizeOf { offset, record });
        if told.number != 0 {
            return refused(told.number);
        }
        if new.len() > told.first as usize {
            return refused(17);
        }
        self.stores[which(store)].bytes[offset as usize..offset as usize + new.len()].copy_from_slice(new);
        refused(0)
    }

    /// The packet's own bytes; an empty part on a refusal.
    pub fn read(&mut self, store: u32, offset: u32, record: u32) -> &[u8] {
        if self.too_short() {
            return &[];
        }
        let held = &mut self.stores[which(store)];
        let told = held.desk.call(Call::SizeOf { offset, record });
        &held.bytes[offset as usize * (told.number == 0) as usize..][..told.first as usize]
    }

    fn set_up(&mut self, store: usize, size: u32, count: u32) -> Answer {
        let other = &self.stores[1 - store];
        let short = self.stores[store].bytes.len() < size as usize || other.bytes.len() < other.size() as usize;
        let desk = &mut self.stores[store].desk;
        if short {
            desk.ledger = None;
            return refused(9);
        }
        refused(desk.call(Call::SetUp { size, count }).number)
    }

    /// 9 is judged on both new sizes, then the on-chip count and lengths, then the external's; nothing is set up unless both are accepted.
    fn set_up_both(&mut self, on: (u32, u32), ex: (u32, u32)) -> Answer {
        let asked = [on, ex];
        let short = (0..2).any(|k| self.stores[k].bytes.len() < asked[k].0 as usize);
        let gates = (0..2).map(|k| gate(asked[k].1, self.stores[k].desk.nodes_len, self.stores[k].desk.pile_len, 1));
        let number = if short { 9 } else { gates.into_iter().find(|n| *n != 0).unwrap_or(0) };
        for k in 0..2 {
            self.stores[k].desk.ledger = None;
            if number == 0 {
                self.stores[k].desk.call(Call::SetUp { size: asked[k].0, count: asked[k].1 });
            }
        }
        refused(number)
    }
}
