//! The pairs of offset and record that a run was granted: the live ones, and some that are stale.

use crate::draw::Draw;

#[derive(Clone, Default)]
pub struct Handles {
    pub live: Vec<(u32, u32)>,
    stale: Vec<(u32, u32)>,
}

const STALE_KEPT: usize = 64;

impl Handles {
    pub fn granted(&mut self, offset: u32, record: u32) {
        self.live.push((offset, record));
    }

    pub fn returned(&mut self, offset: u32, record: u32) {
        if let Some(place) = self.live.iter().rposition(|pair| *pair == (offset, record)) {
            self.live.swap_remove(place);
        }
        self.forget((offset, record));
    }

    /// A setup or reset ends all spans.
    pub fn ended(&mut self) {
        let live = std::mem::take(&mut self.live);
        for pair in live.into_iter().take(STALE_KEPT) {
            self.forget(pair);
        }
    }

    fn forget(&mut self, pair: (u32, u32)) {
        if self.stale.len() == STALE_KEPT {
            let place = (pair.0 ^ pair.1) as usize % STALE_KEPT;
            self.stale[place] = pair;
        } else {
            self.stale.push(pair);
        }
    }

    /// A pair to hand back or to ask the length of: mostly live, sometimes stale, with a wrong offset or with a number out of range.
    pub fn pair(&self, draw: &mut Draw, count: u32) -> (u32, u32) {
        let kind = draw.below(20);
        if kind < 16 && !self.live.is_empty() {
            return match kind {
                0 => self.live[self.live.len() - 1],
                1 => self.live[0],
                _ => draw.pick(&self.live),
            };
        }
        if kind < 18 && !self.stale.is_empty() {
            return draw.pick(&self.stale);
        }
        self.wrong(draw, count)
    }

    pub fn wrong(&self, draw: &mut Draw, count: u32) -> (u32, u32) {
        let (offset, record) = if self.live.is_empty() { (0, 0) } else { draw.pick(&self.live) };
        match draw.below(5) {
            0 => (offset.wrapping_add(1), record),
            1 if !self.live.is_empty() => (draw.pick(&self.live).0, record),
            2 => (offset, draw.pick(&[count, count.wrapping_add(1), u32::MAX, u32::MAX - 1])),
            3 => (offset, draw.small(count)),
            _ => (draw.word(), draw.word()),
        }
    }
}
