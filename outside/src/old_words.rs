//! Words that no call may touch: word 7 of every record, all words of spare records, the list links that a record held when it was granted.
//! They are followed call by call from the words that stood before the call.

use crate::boundary::Told;
use crate::calls::Call;
use crate::ledger::Ledger;
use crate::words::{View, ABOVE, BELOW, KEPT, USED, WORDS_A_RECORD};

#[derive(Clone)]
pub struct OldWords {
    nodes: Vec<u32>,
}

impl OldWords {
    pub fn new() -> OldWords {
        OldWords { nodes: Vec::new() }
    }

    /// Takes note of what the coming call must leave alone. `ledger` is already the ledger after it, `words` are those before it.
    pub fn note(&mut self, call: Call, answer: Told, ledger: Option<&Ledger>, words: View) {
        let Some(ledger) = ledger.filter(|_| answer.number == 0) else {
            return;
        };
        match call {
            Call::SetUp { .. } | Call::New(_) | Call::Reset => self.all(ledger.count as usize, words),
            Call::Take(_) => self.keep(words, answer.second, ABOVE..BELOW + 1),
            Call::Give { .. } => {
                for record in ledger.merged.iter().flatten() {
                    self.keep(words, *record, 0..KEPT);
                }
                if let [Some(before), Some(after)] = ledger.merged {
                    self.unlink(before, after);
                }
            }
            _ => (),
        }
    }

    /// Setup and reset mark every record not live and otherwise leave spare records as they were.
    fn all(&mut self, count: usize, words: View) {
        self.nodes.clear();
        self.nodes.extend_from_slice(&words.nodes[..WORDS_A_RECORD * count]);
        for record in 0..count {
            self.nodes[WORDS_A_RECORD * record + USED] = 0;
        }
    }

    fn keep(&mut self, words: View, record: u32, which: std::ops::Range<usize>) {
        for k in which {
            self.nodes[WORDS_A_RECORD * record as usize + k] = words.word(record, k);
        }
    }

    /// The one before leaves its list first; where the one after stands next to it in that list, its link is moved on before it leaves too.
    fn unlink(&mut self, before: u32, after: u32) {
        let (b, a) = (WORDS_A_RECORD * before as usize, WORDS_A_RECORD * after as usize);
        if self.nodes[b + BELOW] == after {
            self.nodes[a + ABOVE] = self.nodes[b + ABOVE];
        }
        if self.nodes[b + ABOVE] == after {
            self.nodes[a + BELOW] = self.nodes[b + BELOW];
        }
    }

    pub fn check(&self, ledger: &Ledger, words: View) -> Result<(), String> {
        for record in &ledger.spares {
            self.same(words, *record, 0..WORDS_A_RECORD)?;
        }
        for region in &ledger.line {
            self.same(words, region.record, KEPT..KEPT + 1)?;
            if region.live {
                self.same(words, region.record, ABOVE..BELOW + 1)?;
            }
        }
        Ok(())
    }

    fn same(&self, words: View, record: u32, which: std::ops::Range<usize>) -> Result<(), String> {
        let first = WORDS_A_RECORD * record as usize;
        let (ours, theirs) = (&self.nodes[first..first + WORDS_A_RECORD], &words.nodes[first..first + WORDS_A_RECORD]);
        if ours[which.clone()] == theirs[which.clone()] {
            return Ok(());
        }
        Err(format!("words {which:?} of record {record} must be left alone: they were {ours:?} and are {theirs:?}"))
    }
}
