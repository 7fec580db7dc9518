//! Seeded journals, most of them damaged, and a digest of what their replays
//! print. The port's program draws the same journals, so each draw and its place
//! in the order is fixed.

use std::io::{self, Write};

use crate::journal::{written, Call, CUT, UNKNOWN_KIND, WRONG_LENGTH};
use crate::replay::{self, Line};
use crate::speed::{high_half, mix, next};

const SEED: u32 = 1;

/// A row with the digest comes after so many journals.
const STRIDE: u32 = 1_000;

/// What ends a journal in the digest.
const JOURNAL_END: u32 = u32::MAX;

/// What calls of a journal are refused as. Of the smallest store, which knows 7
/// alone, a journal does not ask.
const REFUSALS: [u32; 7] = [1, 2, 3, 4, 5, 6, 8];

pub fn write(out: &mut impl Write, journals: u32) -> io::Result<()> {
    let mut draws = Draws::new(SEED);
    let mut tally = Tally::default();
    for number in 1..=journals {
        tally.count_journal(&draws.journal());
        if number % STRIDE == 0 {
            writeln!(out, "{number} {}", tally.digest)?;
        }
    }
    tally.write(out)
}

/// A span as a hand back names it.
#[derive(Clone, Copy, Debug, Default, PartialEq, Eq)]
struct Pair {
    record: u32,
    offset: u32,
}

struct Draws {
    seed: u32,
    /// The span that a take would get if nothing had come back and every take
    /// since the setup or reset was granted.
    next: Pair,
    /// The one that the last take would have got.
    last: Pair,
}

impl Draws {
    fn new(seed: u32) -> Self {
        Self {
            seed,
            next: Pair::default(),
            last: Pair::default(),
        }
    }

    fn draw(&mut self) -> u32 {
        self.seed = next(self.seed);
        self.seed
    }

    fn below(&mut self, limit: u32) -> u32 {
        high_half(self.draw()) % limit
    }

    fn word(&mut self) -> u32 {
        let high = high_half(self.draw());
        high << 16 | high_half(self.draw())
    }

    /// A word without its lowest bits, as many as are drawn.
    fn shifted_word(&mut self) -> u32 {
        let word = self.word();
        word >> self.below(32)
    }

    fn journal(&mut self) -> Vec<u8> {
        self.forget_spans();
        let calls = 1 + self.below(12);
        let calls: Vec<Call> = (0..calls).map(|at| self.call(at)).collect();
        let mut journal = written(&calls);
        for _ in 0..self.below(4) {
            self.damage(&mut journal);
        }
        journal
    }

    /// The first call is a setup seven times in eight.
    fn call(&mut self, at: u32) -> Call {
        let kind = if at == 0 && self.below(8) != 0 {
            0
        } else {
            self.below(16)
        };
        match kind {
            0 => self.set_up(),
            1 => self.reset(),
            2..=9 => self.take(),
            _ => self.hand_back(),
        }
    }

    fn set_up(&mut self) -> Call {
        let size = self.shifted_word();
        let count = match self.below(8) {
            0 => 0,
            1 => 1,
            2 => 1_025,
            3 => 1_048_577,
            _ => 2 + self.below(40),
        };
        self.forget_spans();
        Call::SetUp { size, count }
    }

    fn reset(&mut self) -> Call {
        self.forget_spans();
        Call::Reset
    }

    fn forget_spans(&mut self) {
        self.next = Pair::default();
        self.last = Pair::default();
    }

    fn take(&mut self) -> Call {
        let size = match self.below(4) {
            0 => self.shifted_word(),
            _ => self.below(60),
        };
        self.last = self.next;
        self.next = Pair {
            record: self.last.record + 1,
            offset: self.last.offset.wrapping_add(size),
        };
        Call::Take { size }
    }

    /// Half of all name the record of the last take, and most of these its start.
    fn hand_back(&mut self) -> Call {
        let Pair { record, offset } = match self.below(8) {
            0 => Pair {
                record: self.word(),
                offset: self.word(),
            },
            1 => Pair {
                record: self.below(8),
                offset: self.below(60),
            },
            2 => Pair {
                record: self.last.record,
                offset: self.last.offset.wrapping_add(1),
            },
            3 | 4 => Pair {
                record: self.below(8),
                offset: 0,
            },
            _ => self.last,
        };
        Call::HandBack { record, offset }
    }

    /// A cut, or a byte that is drawn, set to 255 or counted up. An empty journal
    /// draws nothing.
    fn damage(&mut self, journal: &mut Vec<u8>) {
        let length = journal.len() as u32;
        if length == 0 {
            return;
        }
        let what = self.below(4);
        if what == 0 {
            journal.truncate(self.below(length + 1) as usize);
            return;
        }
        let at = self.below(length) as usize;
        journal[at] = match what {
            1 => self.below(256) as u8,
            2 => 255,
            _ => journal[at].wrapping_add(1),
        };
    }
}

/// The digest so far, and what was met: journals by their end, lines by their
/// first number, the granted takes apart from the other zeros.
#[derive(Default)]
struct Tally {
    digest: u32,
    whole: u32,
    cut: u32,
    unknown_kind: u32,
    wrong_length: u32,
    granted: u32,
    done: u32,
    /// In the order of `REFUSALS`.
    refused: [u32; REFUSALS.len()],
}

impl Tally {
    fn count_journal(&mut self, journal: &[u8]) {
        let mut last = None;
        for line in replay::lines(journal) {
            self.count_line(line);
            last = Some(line);
        }
        *match last {
            Some(Line::Refused(CUT)) => &mut self.cut,
            Some(Line::Refused(UNKNOWN_KIND)) => &mut self.unknown_kind,
            Some(Line::Refused(WRONG_LENGTH)) => &mut self.wrong_length,
            _ => &mut self.whole,
        } += 1;
        self.fold(JOURNAL_END);
    }

    /// The refusals of the reading are counted as ends.
    fn count_line(&mut self, line: Line) {
        match line {
            Line::Done => {
                self.fold(0);
                self.done += 1;
            }
            Line::Granted { offset, record } => {
                self.fold(0);
                self.fold(offset);
                self.fold(record);
                self.granted += 1;
            }
            Line::Refused(number) => {
                self.fold(number);
                if let Some(at) = REFUSALS.iter().position(|&refusal| refusal == number) {
                    self.refused[at] += 1;
                }
            }
        }
    }

    fn fold(&mut self, number: u32) {
        self.digest = mix(self.digest, number);
    }

    fn write(&self, out: &mut impl Write) -> io::Result<()> {
        writeln!(out, "end {}", self.whole)?;
        writeln!(out, "{CUT} {}", self.cut)?;
        writeln!(out, "{UNKNOWN_KIND} {}", self.unknown_kind)?;
        writeln!(out, "{WRONG_LENGTH} {}", self.wrong_length)?;
        writeln!(out, "granted {}", self.granted)?;
        for (number, refused) in REFUSALS.iter().zip(self.refused) {
            writeln!(out, "refused {number} {refused}")?;
        }
        writeln!(out, "done {}", self.done)
    }
}

#[cfg(test)]
mod tests {
    use super::*;
    use crate::journal;

    /// The first seeds, worked out apart from this program.
    #[test]
    fn draws_are_those_of_the_fixed_generator() {
        let mut draws = Draws::new(SEED);
        assert_eq!(draws.draw(), 1_015_568_748);
        assert_eq!(draws.draw(), 1_586_005_467);
        let mut draws = Draws::new(SEED);
        assert_eq!(draws.below(12), 15_496 % 12);
        let mut draws = Draws::new(SEED);
        assert_eq!(draws.word(), 15_496 * 65_536 + 24_200);
    }

    #[test]
    fn the_last_take_s_span_is_known_until_a_setup_or_a_reset() {
        let mut draws = Draws::new(SEED);
        let mut offset = 0;
        for record in 0..3 {
            let Call::Take { size } = draws.take() else {
                panic!("a take is drawn");
            };
            assert_eq!(draws.last, Pair { record, offset });
            offset = offset.wrapping_add(size);
        }
        assert_eq!(draws.next, Pair { record: 3, offset });
        draws.reset();
        assert_eq!([draws.next, draws.last], [Pair::default(); 2]);
        draws.take();
        draws.set_up();
        assert_eq!([draws.next, draws.last], [Pair::default(); 2]);
    }

    #[test]
    fn an_empty_journal_draws_no_damage() {
        let mut draws = Draws::new(SEED);
        draws.damage(&mut Vec::new());
        assert_eq!(draws.seed, SEED);
    }

    #[test]
    fn a_journal_is_at_most_144_bytes() {
        let mut draws = Draws::new(SEED);
        assert!((0..2_000).all(|_| draws.journal().len() <= 144));
    }

    #[test]
    fn a_line_and_an_end_are_folded() {
        let mut tally = Tally::default();
        tally.count_journal(&journal::EXAMPLE);
        // 0, then 0 0 0, then 0, then the end
        assert_eq!(tally.digest, JOURNAL_END);
        assert_eq!((tally.done, tally.granted, tally.whole), (2, 1, 1));
        tally.count_journal(&[0]);
        let digest = JOURNAL_END.wrapping_mul(31).wrapping_add(CUT);
        assert_eq!(tally.digest, mix(digest, JOURNAL_END));
        assert_eq!((tally.cut, tally.refused), (1, [0; 7]));
    }

    /// Every journal has one end, and every call one line.
    #[test]
    fn the_counters_add_up() {
        let mut draws = Draws::new(SEED);
        let mut tally = Tally::default();
        let mut calls = 0;
        for _ in 0..500 {
            let journal = draws.journal();
            calls += journal::read(&journal).filter(Result::is_ok).count();
            tally.count_journal(&journal);
        }
        let lines = tally.granted + tally.done + tally.refused.iter().sum::<u32>();
        assert_eq!(lines as usize, calls);
        let ends = tally.whole + tally.cut + tally.unknown_kind + tally.wrong_length;
        assert_eq!(ends, 500);
    }
}
