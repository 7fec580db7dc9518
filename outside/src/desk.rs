//! The plain desk: the ledger behind document 01's order of refusals. After a refused setup it has no ledger, and every call but a setup gets 6.

use crate::boundary::Told;
use crate::calls::Call;
use crate::ledger::Ledger;
use crate::words::gate;

/// The count that `new` sets up with.
pub const COUNT_OF_NEW: u32 = 131_072;

#[derive(Clone)]
pub struct Desk {
    pub ledger: Option<Ledger>,
    pub nodes_len: usize,
    pub pile_len: usize,
    pub scratch_len: usize,
}

pub fn told(answer: Result<(u32, u32), u32>) -> Told {
    match answer {
        Ok((first, second)) => Told { number: 0, first, second },
        Err(number) => Told { number, first: 0, second: 0 },
    }
}

impl Desk {
    pub fn new(nodes_len: usize, pile_len: usize) -> Desk {
        Desk { ledger: None, nodes_len, pile_len, scratch_len: 0 }
    }

    /// Makes the call and gives the answer that the documents ask for.
    pub fn call(&mut self, call: Call) -> Told {
        match call {
            Call::SetUp { size, count } => return told(self.set_up(size, count)),
            Call::New(size) => return told(self.set_up(size, COUNT_OF_NEW)),
            _ => (),
        }
        let scratch_len = self.scratch_len;
        let Some(ledger) = self.ledger.as_mut() else {
            return told(Err(6));
        };
        told(match call {
            Call::Take(size) => ledger.take(size),
            Call::Give { offset, record } => ledger.give(offset, record).map(|_| (0, 0)),
            Call::SizeOf { offset, record } => ledger.size_of(offset, record).map(|length| (length, 0)),
            Call::Report => Ok(ledger.report()),
            Call::Fill => Ok((ledger.live_units as u32, ledger.fill())),
            Call::Audit if scratch_len < ledger.count as usize => Err(2),
            Call::Reset => {
                *ledger = Ledger::fresh(ledger.size, ledger.count);
                Ok((0, 0))
            }
            _ => Ok((0, 0)),
        })
    }

    fn set_up(&mut self, size: u32, count: u32) -> Result<(u32, u32), u32> {
        self.ledger = None;
        match gate(count, self.nodes_len, self.pile_len, 1) {
            0 => {
                self.ledger = Some(Ledger::fresh(size, count));
                Ok((0, 0))
            }
            number => Err(number),
        }
    }
}
