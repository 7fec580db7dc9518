//! Seeded runs of single calls on small packet stores. The rows are drawn beside the
//! layer, so that most names are those of live packets, and most calls are good.

use crate::packet_cases::{Answer, Trial, BYTES, RECORDS};
use crate::packet_rows::{Row, PLACES};
use crate::packet_store::Head;
use crate::packets::{Name, Place};
use crate::speed::{high_half, next};

const SEED: u32 = 1;
const RUNS: u32 = 12;
const ROWS: usize = 60;

/// Counts that are refused, at a setup and in a head.
const BAD_COUNTS: [u32; 7] = [0, 1, RECORDS + 1, RECORDS + 2, 1_048_576, 1_048_577, u32::MAX];

pub fn rows() -> Vec<Row> {
    let mut draws = Draws { seed: SEED };
    let runs = (0..RUNS).map(|number| Run::new(&mut draws).rows(number % 2 == 0));
    runs.flatten().collect()
}

struct Draws {
    seed: u32,
}

impl Draws {
    fn below(&mut self, limit: u32) -> u32 {
        self.seed = next(self.seed);
        high_half(self.seed) % limit
    }

    /// Once in so many times.
    fn once_in(&mut self, times: u32) -> bool {
        self.below(times) == 0
    }

    fn one_of<T: Copy>(&mut self, choices: &[T]) -> T {
        choices[self.below(choices.len() as u32) as usize]
    }

    fn one_if_any<T: Copy>(&mut self, choices: &[T]) -> Option<T> {
        (!choices.is_empty()).then(|| self.one_of(choices))
    }
}

struct Run<'a> {
    draws: &'a mut Draws,
    trial: Trial,
    rows: Vec<Row>,
    held: Vec<Name>,
    /// The names that were handed back, or ended by a setup.
    past: Vec<Name>,
    lent: [u32; 2],
}

impl<'a> Run<'a> {
    fn new(draws: &'a mut Draws) -> Self {
        Self {
            draws,
            trial: Trial::new(),
            rows: Vec::new(),
            held: Vec::new(),
            past: Vec::new(),
            lent: [BYTES; 2],
        }
    }

    /// From the stores' setup on, both at once or one after the other.
    fn rows(mut self, at_once: bool) -> Vec<Row> {
        self.make(Row::Anew);
        let heads = PLACES.map(|place| self.good_head(place));
        if at_once {
            self.make(Row::SetUpBoth(heads));
        } else {
            for (place, head) in PLACES.into_iter().zip(heads) {
                self.make(Row::SetUp(place, head));
            }
        }
        while self.rows.len() < ROWS {
            let mended = self.mended();
            let row = mended.unwrap_or_else(|| self.row());
            self.make(row);
        }
        self.rows
    }

    fn make(&mut self, row: Row) {
        let answer = self.trial.answer(row);
        match (row, answer) {
            (Row::Lend(lent), _) => self.lent = lent,
            (Row::Take(_), Some(Answer::Granted(name))) => self.held.push(name),
            (Row::HandBack(name), Some(Answer::Done)) => self.end(|held| held == name),
            (Row::SetUp(place, _), _) => self.end(|held| held.place == place),
            (Row::SetUpBoth(_), _) => self.end(|_| true),
            _ => {}
        }
        self.rows.push(row);
    }

    fn end(&mut self, is_ended: impl Fn(Name) -> bool) {
        let held = std::mem::take(&mut self.held);
        let (ended, held): (Vec<Name>, Vec<Name>) =
            held.into_iter().partition(|&name| is_ended(name));
        self.held = held;
        self.past.extend(ended);
    }

    /// With nothing held most calls that name a packet give way to a take.
    fn row(&mut self) -> Row {
        let kind = self.draws.below(64);
        if self.held.is_empty() && (22..51).contains(&kind) && !self.draws.once_in(4) {
            return Row::Take(self.size_to_take());
        }
        match kind {
            0..=21 => Row::Take(self.size_to_take()),
            22..=30 => Row::HandBack(self.name()),
            31..=41 => self.fill(),
            42..=47 => Row::Read(self.name()),
            48..=50 => Row::Length(self.name()),
            51..=53 => Row::Report(self.place()),
            54..=56 => Row::Audit(self.place()),
            57 => {
                let place = self.place();
                Row::SetUp(place, self.any_head(place))
            }
            58 => Row::SetUpBoth(PLACES.map(|place| self.any_head(place))),
            59..=61 => self.lend(),
            _ => {
                let place = self.place();
                Row::WriteCount(place, self.draws.one_of(&BAD_COUNTS))
            }
        }
    }

    /// One time in three: the next thing that is amiss, set right.
    fn mended(&mut self) -> Option<Row> {
        let amiss = self.amiss()?;
        self.draws.once_in(3).then_some(amiss)
    }

    fn amiss(&mut self) -> Option<Row> {
        let heads = PLACES.map(|place| self.trial.packets.store(place).head());
        if heads[0].size > self.lent[0] || heads[1].size > self.lent[1] {
            return Some(Row::Lend(heads.map(|head| self.enough(head.size))));
        }
        for (place, head) in PLACES.into_iter().zip(heads) {
            let own = self.trial.packets.store(place).own_count();
            if own == 0 {
                return Some(Row::SetUp(place, self.good_head(place)));
            }
            if own != head.count {
                return Some(Row::WriteCount(place, own));
            }
        }
        None
    }

    /// Just enough bytes, a number between, or mostly all.
    fn enough(&mut self, size: u32) -> u32 {
        match self.draws.below(4) {
            0 => size,
            1 => size + self.draws.below(BYTES - size + 1),
            _ => BYTES,
        }
    }

    /// Too few for one of the stores half of the time, unless it has no size.
    fn lend(&mut self) -> Row {
        let sizes = PLACES.map(|place| self.trial.packets.store(place).head().size);
        let mut lent = sizes.map(|size| self.enough(size));
        let at = self.place() as usize;
        if sizes[at] > 0 && self.draws.once_in(2) {
            lent[at] = match self.draws.below(2) {
                0 => sizes[at] - 1,
                _ => self.draws.below(sizes[at]),
            };
        }
        Row::Lend(lent)
    }

    fn place(&mut self) -> Place {
        self.draws.one_of(&PLACES)
    }

    /// A size that is lent, the on-chip store's at most half of the bytes; seldom 0.
    fn good_head(&mut self, place: Place) -> Head {
        let most = match place {
            Place::OnChip => BYTES / 2,
            Place::External => BYTES,
        };
        let most = most.min(self.lent[place as usize]);
        let size = match self.draws.below(8) {
            0 => 0,
            1 => most,
            _ => most - self.draws.below(most / 2 + 1),
        };
        let count = 3 + self.draws.below(8);
        Head { size, count }
    }

    /// Half of the time a good one; otherwise too large, or with a bad count.
    fn any_head(&mut self, place: Place) -> Head {
        let good = self.good_head(place);
        match self.draws.below(6) {
            0 => Head {
                size: self.lent[place as usize] + 1 + self.draws.below(8),
                ..good
            },
            1..=2 => Head {
                count: self.draws.one_of(&BAD_COUNTS),
                ..good
            },
            _ => good,
        }
    }

    fn size_to_take(&mut self) -> u32 {
        match self.draws.below(8) {
            0 => 0,
            1..=4 => 1 + self.draws.below(8),
            5..=6 => self.draws.below(24),
            _ => self.draws.below(80),
        }
    }

    /// Mostly one that is held. Otherwise one that went back, or one that is held but for
    /// its offset, its place or its record, or any.
    fn name(&mut self) -> Name {
        let kind = self.draws.below(16);
        let any = Name {
            place: self.place(),
            offset: self.draws.below(20),
            record: self.draws.below(RECORDS),
        };
        let held = self.draws.one_if_any(&self.held).unwrap_or(any);
        match kind {
            0 => self.draws.one_if_any(&self.past).unwrap_or(any),
            1 => Name {
                offset: any.offset,
                ..held
            },
            2 => Name {
                place: any.place,
                ..held
            },
            3 => Name {
                record: any.record,
                ..held
            },
            4 => any,
            _ => held,
        }
    }

    /// Mostly no more than the packet holds.
    fn fill(&mut self) -> Row {
        let name = self.name();
        let length = self.trial.packets.length(name).unwrap_or(8);
        let many = match self.draws.below(8) {
            0 => 0,
            1..=2 => length,
            3 => length + 1,
            4 => self.draws.below(81),
            _ => self.draws.below(length + 1),
        };
        Row::Fill(name, many)
    }
}

#[cfg(test)]
mod tests {
    use super::*;

    #[test]
    fn the_runs_keep_to_the_setting() {
        let rows = rows();
        assert_eq!(rows.len(), RUNS as usize * ROWS);
        for row in rows {
            match row {
                Row::Fill(_, many) => assert!(many <= 80),
                Row::Lend(lent) => assert!(lent.iter().all(|&lent| lent <= BYTES)),
                _ => {}
            }
        }
    }

    /// Of the calls two in three or more are done, and both stores grant.
    #[test]
    fn most_calls_are_good() {
        let mut trial = Trial::new();
        let answers: Vec<Answer> = rows()
            .into_iter()
            .filter_map(|row| trial.answer(row))
            .collect();
        let refused = |answer: &&Answer| matches!(answer, Answer::Refused(_));
        let refused = answers.iter().filter(refused).count();
        assert!(refused * 3 < answers.len(), "{refused} refused");
        for place in PLACES {
            let of_place =
                |answer: &&Answer| matches!(answer, Answer::Granted(name) if name.place == place);
            assert!(answers.iter().filter(of_place).count() > 50);
        }
    }
}
