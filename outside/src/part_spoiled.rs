//! Every span call on spoiled words, in its three forms side by side on tables of their own: one of exact length, two that may be longer and
//! hold different junk beyond. Then the packet calls, the gauge and the replay on spoiled words.

use crate::asked::{asked, bounded, list_length, Asked};
use crate::boundary::Told;
use crate::calls::{make, Call, FORMS};
use crate::draw::Draw;
use crate::guarded::Edge;
use crate::handles::Handles;
use crate::sizes::{self, Style, STYLES};
use crate::sound::sound;
use crate::spoil;
use crate::spoiled_others::Others;
use crate::tables::{fill_with_junk, Tables};
use crate::tally::Tally;
use crate::words::{View, Words, GREATEST_COUNT, OFFSET, USED, WORDS_A_RECORD};
use crate::{alarm, check, classes};

pub struct Stage {
    pub three: [Tables; 3],
    pub others: Others,
}

impl Stage {
    pub fn new() -> Stage {
        Stage { three: [Tables::new(), Tables::new(), Tables::new()], others: Others::new() }
    }
}

/// Where a spoiled count is no more than this, tables of its length are lent; a greater one meets tables that are too short.
pub const ROOF: u32 = 4000;
const JUNK: [u32; 3] = [0x1111_1111, 0x2222_2222, 0x3333_3333];

pub fn run(_: u64, draw: &mut Draw, stage: &mut Stage, tally: &mut Tally) -> Result<(), String> {
    let base = sound_words(draw, &mut stage.three[0]);
    for _ in 0..12 {
        let mut words = base.clone();
        spoil::spoil(draw, &mut words);
        match draw.below(6) {
            0 => stage.others.run(draw, &base, &words, tally)?,
            _ => Case::new(draw, tally, &mut stage.three, words).run()?,
        }
    }
    Ok(())
}

/// Sound words out of a short run.
pub fn sound_words(draw: &mut Draw, tables: &mut Tables) -> Words {
    let most = match draw.below(200) {
        0 => ROOF / 2,
        1..=25 => 120,
        _ => 24,
    };
    let count = 2 + draw.small(most);
    let size = sizes::store(draw);
    let style: Style = draw.pick(&STYLES);
    let mut handles = Handles::default();
    tables.lay(WORDS_A_RECORD * count as usize, count as usize, Edge::Behind);
    fill_with_junk(tables.nodes.words_mut(), 0, draw.word());
    make(tables, Call::SetUp { size, count }, FORMS[0]);
    for _ in 0..draw.below(4 * count as u64) {
        if draw.one_in(3) && !handles.live.is_empty() {
            let (offset, record) = draw.pick(&handles.live);
            make(tables, Call::Give { offset, record }, FORMS[0]);
            handles.returned(offset, record);
        } else {
            let share = size / (1 + draw.small(count));
            let wanted = if draw.one_in(2) { share } else { sizes::taken(draw, style, size) };
            let answer = make(tables, Call::Take(wanted), FORMS[0]);
            if answer.number == 0 {
                handles.granted(answer.first, answer.second);
            }
        }
    }
    let mut words = Words { scalars: vec![], bins: vec![], leaves: vec![], nodes: vec![], pile: vec![] };
    tables.save(count as usize, &mut words);
    words
}

/// A call on any words: sizes and pairs are taken from the words themselves as often as not.
pub fn any_call(draw: &mut Draw, words: View) -> Call {
    let (offset, record) = any_pair(draw, words);
    match draw.below(22) {
        0..=6 => Call::Take(match draw.below(3) {
            0 => draw.small(40),
            1 => draw.any_width(),
            _ => sizes::taken(draw, Style::Share, words.size()),
        }),
        7..=12 => Call::Give { offset, record },
        13 => Call::SizeOf { offset, record },
        14 => Call::Report,
        15 => Call::FullReport,
        16 => Call::Fill,
        17..=19 => Call::Audit,
        20 => Call::Reset,
        _ => match draw.below(4) {
            0 => Call::New(draw.any_width()),
            1 => Call::SetUp { size: sizes::store(draw), count: draw.pick(&[0, 1, GREATEST_COUNT, GREATEST_COUNT + 1, u32::MAX]) },
            _ => Call::SetUp { size: sizes::store(draw), count: 2 + draw.small(words.pile.len().min(200) as u32) },
        },
    }
}

pub fn any_pair(draw: &mut Draw, words: View) -> (u32, u32) {
    let records = (words.nodes.len() / WORDS_A_RECORD).min(300) as u32;
    let first = draw.small(records);
    let live = (0..records).map(|k| (first + k) % records).find(|r| words.word(*r, USED) != 0);
    match (live, draw.below(10)) {
        (Some(record), 0..=7) => (words.word(record, OFFSET), record),
        (Some(record), 8) => (words.word(record, OFFSET).wrapping_add(draw.small(3)), record),
        _ => (draw.any_width(), draw.small(records + 2)),
    }
}

struct Case<'a> {
    draw: &'a mut Draw,
    tally: &'a mut Tally,
    three: &'a mut [Tables; 3],
    words: Words,
    /// The lengths of the tables of each form.
    lengths: [(usize, usize); 3],
    /// The words before the call.
    before: Words,
}

impl<'a> Case<'a> {
    fn new(draw: &'a mut Draw, tally: &'a mut Tally, three: &'a mut [Tables; 3], words: Words) -> Case<'a> {
        let before = words.clone();
        Case { draw, tally, three, words, lengths: [(0, 0); 3], before }
    }

    fn run(&mut self) -> Result<(), String> {
        self.match_count();
        self.lay();
        let steps = 1 + self.draw.below(10);
        for _ in 0..steps {
            let low = self.words.pile.len();
            self.three[0].save(low, &mut self.before);
            let mut call = any_call(self.draw, self.before.view());
            if let Call::SetUp { size, count } = call {
                // A count between the shortest and the longest tables would be accepted in one form and refused in another.
                let count = if count as usize <= low || count > GREATEST_COUNT / 2 { count } else { low as u32 };
                call = Call::SetUp { size, count };
            }
            let answer = self.step(call).map_err(|e| format!("{e}; words before: {:?}", Short(&self.before)))?;
            if matches!(call, Call::SetUp { .. } | Call::New(_)) && answer.number != 0 {
                break;
            }
        }
        Ok(())
    }

    /// Where the spoiled count is a good one of moderate size, the words are made as many as it needs, so that a call may read them all.
    fn match_count(&mut self) {
        let count = self.words.scalars[1] as usize;
        if (2..=ROOF as usize).contains(&count) {
            while self.words.nodes.len() < WORDS_A_RECORD * count {
                let word = spoil::likely(self.draw, &self.words);
                self.words.nodes.push(word);
            }
            self.words.nodes.truncate(WORDS_A_RECORD * count);
            let draw = &mut *self.draw;
            self.words.pile.resize_with(count, || draw.small(count as u32));
        }
    }

    fn lay(&mut self) {
        let (nodes, pile) = (self.words.nodes.len(), self.words.pile.len());
        let (mut lengths, mut longer) = ([(nodes, pile); 3], false);
        match self.draw.below(12) {
            0 => lengths = [(nodes - 1, pile); 3],
            1 => lengths = [(nodes, pile - 1); 3],
            2 => lengths = [(self.draw.below(nodes as u64) as usize, self.draw.below(pile as u64) as usize); 3],
            3..=7 => longer = true,
            _ => (),
        }
        for k in 1..3 {
            if longer {
                lengths[k] = (nodes + self.draw.below(40) as usize, pile + self.draw.below(9) as usize);
            }
        }
        self.lengths = lengths;
        for (k, tables) in self.three.iter_mut().enumerate() {
            tables.lay(lengths[k].0, lengths[k].1, self.draw.pick(&[Edge::Behind, Edge::Behind, Edge::Before]));
            tables.load(&self.words, JUNK[k]);
        }
    }

    /// One call in its three forms, and all that must hold of it.
    fn step(&mut self, call: Call) -> Result<Told, String> {
        alarm::step();
        let scratch_len = self.lay_scratch();
        let asked = asked(call, self.before.view(), scratch_len);
        let mut answers = [Told { number: 0, first: 0, second: 0 }; 3];
        for (k, form) in FORMS.into_iter().enumerate() {
            answers[k] = make(&mut self.three[k], call, form);
            self.tally.row(call.kind(), answers[k].number);
        }
        let answer = answers[0];
        if answers[1] != answer || answers[2] != answer {
            return Err(format!("{call:?}: the three forms answer {answers:?}"));
        }
        let right = match asked {
            Asked::Exactly(told) => answer == told,
            Asked::OneOf(numbers) => numbers.contains(&answer.number),
        };
        if !right || !bounded(call, answer, self.before.view()) {
            let asked = match asked {
                Asked::Exactly(told) => format!("{told:?}"),
                Asked::OneOf(numbers) => format!("one of {numbers:?}, within the store"),
            };
            return Err(format!("{call:?} answers {answer:?}, asked is {asked}"));
        }
        self.note(call, answer);
        self.left_behind(call, answer)?;
        Ok(answer)
    }

    /// What the rows came upon, so that a part that tests little shows it.
    fn note(&mut self, call: Call, answer: Told) {
        let words = self.before.view();
        if words.gate() != 0 {
            return;
        }
        match (call, sound(words), answer.number) {
            (Call::Audit, Err(why), 6) => self.tally.note(why),
            (Call::Audit, Ok(()), 0) => self.tally.note("audited as sound"),
            (Call::Take(_), Err(_), 0) => self.tally.note("granted on unsound words"),
            (Call::Give { .. }, Err(_), 0) => self.tally.note("handed back on unsound words"),
            (Call::FullReport, Err(_), 6) if (0..256).all(|c| list_length(words, c).is_some()) => self.tally.note("full report: 6 without a circle"),
            (Call::FullReport, Err(_), 6) => self.tally.note("full report: 6 for a circle"),
            (Call::FullReport, Err(_), 0) => self.tally.note("full report: given on unsound words"),
            _ => (),
        }
    }

    fn lay_scratch(&mut self) -> usize {
        let count = self.before.scalars[1].min(ROOF) as usize;
        let length = if self.draw.one_in(8) { count.saturating_sub(1) } else { count + self.draw.below(4) as usize };
        for (k, tables) in self.three.iter_mut().enumerate() {
            tables.scratch.lay(length, Edge::Behind);
            fill_with_junk(tables.scratch.words_mut(), 0, JUNK[k]);
        }
        length
    }

    /// The words after the call: as they were on a refusal and a question, the same in all forms, untouched beyond.
    fn left_behind(&mut self, call: Call, answer: Told) -> Result<(), String> {
        let mut after = self.before.clone();
        let set_up = matches!(call, Call::SetUp { .. } | Call::New(_));
        let changes = matches!(call, Call::Take(_) | Call::Give { .. } | Call::Reset) || set_up;
        if answer.number == 0 && changes {
            self.three[0].save(self.words.pile.len(), &mut after);
            self.fresh(call, &after)?;
        }
        if answer.number != 0 && set_up {
            after.scalars = vec![0; 5];
        }
        for k in 0..3 {
            if answer.number != 0 && set_up && k == 2 {
                after.bins = vec![0; 256];
                after.leaves = vec![0; 32];
            }
            if !self.three[k].holds(&after) {
                return Err(format!("{call:?} {:?} ({answer:?}) leaves other words than asked, or than the call in place", FORMS[k]));
            }
            if !self.three[k].beyond_is_untouched(self.words.pile.len(), JUNK[k]) {
                return Err(format!("{call:?} {:?} writes beyond the words that the count needs", FORMS[k]));
            }
            self.columns(call, answer, k)?;
        }
        if matches!(call, Call::Take(_)) && after.pile != self.before.pile {
            return Err(format!("{call:?} writes the pile"));
        }
        Ok(())
    }

    /// An accepted setup or reset leaves one known image, whatever the words held.
    fn fresh(&mut self, call: Call, after: &Words) -> Result<(), String> {
        let (size, count) = match call {
            Call::SetUp { size, count } => (size, count),
            Call::Reset => (self.before.scalars[0], self.before.scalars[1]),
            _ => return Ok(()),
        };
        let mut image = self.before.clone();
        image.set_up(size, count);
        if image == *after { Ok(()) } else { Err(format!("{call:?} does not leave a fresh store")) }
    }

    fn columns(&mut self, call: Call, answer: Told, k: usize) -> Result<(), String> {
        let (tables, before) = (&self.three[k], self.before.view());
        match call {
            Call::FullReport => {
                let right = (0..256).all(|class| {
                    let expected = match answer.number {
                        0 => (classes::value(class as u32), list_length(before, class).unwrap_or(u32::MAX)),
                        _ => (0, 0),
                    };
                    (tables.sizes.words()[class], tables.counts.words()[class]) == expected
                });
                if right { Ok(()) } else { Err(format!("full report {:?} ({answer:?}): the columns are wrong", FORMS[k])) }
            }
            Call::Audit => {
                let count = if before.gate() == 0 { before.count() } else { 0 };
                check::scratch(tables, answer.number, JUNK[k], count)
            }
            _ => Ok(()),
        }
    }
}

/// Words printed without the empty classes.
struct Short<'a>(&'a Words);

impl std::fmt::Debug for Short<'_> {
    fn fmt(&self, f: &mut std::fmt::Formatter<'_>) -> std::fmt::Result {
        let words = self.0;
        let heads: Vec<(usize, u32)> = words.bins.iter().copied().enumerate().filter(|(_, w)| *w != u32::MAX).take(12).collect();
        let leaves: Vec<(usize, u8)> = words.leaves.iter().copied().enumerate().filter(|(_, b)| *b != 0).collect();
        write!(f, "scalars {:?} heads {heads:?} leaves {leaves:?} ", words.scalars)?;
        for (record, node) in words.nodes.chunks(WORDS_A_RECORD).enumerate().take(12) {
            write!(f, "{record}:{node:?} ")?;
        }
        write!(f, "pile {:?}", &words.pile[..words.pile.len().min(16)])
    }
}
