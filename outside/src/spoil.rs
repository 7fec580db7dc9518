//! Ways to spoil words: a few words changed to likely or unlikely values, a list made circular, everything drawn anew.

use crate::draw::Draw;
use crate::words::{Words, BELOW, MARKER, WORDS_A_RECORD};

/// A value that might stand in a table: record numbers, the marker, words from elsewhere, sizes, or anything.
pub fn likely(draw: &mut Draw, words: &Words) -> u32 {
    let count = words.pile.len() as u32;
    match draw.below(12) {
        0..=3 => draw.small(count),
        4 => count.wrapping_add(draw.small(2)),
        5 => MARKER,
        6 => draw.small(3),
        7 => draw.pick(&words.nodes),
        8 => words.scalars[0].wrapping_add(draw.small(3)).wrapping_sub(1),
        9 => draw.pick(&words.pile),
        10 => draw.any_width(),
        _ => draw.word(),
    }
}

/// Changes one word, or moves it by one.
pub fn one_word(draw: &mut Draw, words: &mut Words) {
    let value = likely(draw, words);
    let by_one = draw.one_in(8);
    let place = |draw: &mut Draw, length: usize| draw.below(length as u64) as usize;
    match draw.below(20) {
        0..=10 => {
            let at = place(draw, words.nodes.len());
            words.nodes[at] = if by_one { words.nodes[at].wrapping_add(1) } else { value };
        }
        11..=13 => {
            let at = place(draw, words.pile.len());
            words.pile[at] = value;
        }
        14 | 15 => {
            let at = place(draw, 256);
            words.bins[at] = value;
        }
        16 | 17 => {
            let at = place(draw, 32);
            words.leaves[at] ^= 1 << draw.below(8);
        }
        _ => {
            let at = place(draw, 5);
            words.scalars[at] = match draw.below(3) {
                0 => value,
                1 => words.scalars[at].wrapping_add(draw.small(3)).wrapping_sub(1),
                _ => words.scalars[at] ^ (1 << draw.below(32)),
            };
        }
    }
}

/// Makes a list circular, if one is there: a record's link to the one below leads back.
pub fn circle(draw: &mut Draw, words: &mut Words) {
    let count = words.pile.len() as u32;
    let first = draw.below(256) as usize;
    for k in 0..256 {
        let top = words.bins[(first + k) % 256];
        if top < count {
            let mut record = top;
            for _ in 0..draw.below(4) {
                let below = words.nodes[WORDS_A_RECORD * record as usize + BELOW];
                record = if below < count { below } else { record };
            }
            words.nodes[WORDS_A_RECORD * record as usize + BELOW] = if draw.one_in(3) { record } else { top };
            return;
        }
    }
}

/// Every word is drawn anew, by likely values or by any, but the count.
pub fn wholly(draw: &mut Draw, words: &mut Words) {
    let likely_ones = draw.one_in(2);
    let size = if draw.one_in(2) { words.scalars[0] } else { draw.any_width() };
    let from = words.clone();
    let word = |draw: &mut Draw| if likely_ones { likely(draw, &from) } else { draw.word() };
    words.nodes.iter_mut().for_each(|w| *w = word(draw));
    words.pile.iter_mut().for_each(|w| *w = word(draw));
    words.bins.iter_mut().for_each(|w| *w = word(draw));
    words.leaves.iter_mut().for_each(|b| *b = draw.word() as u8);
    words.scalars[0] = size;
    for k in [2, 3, 4] {
        words.scalars[k] = word(draw);
    }
    if draw.one_in(2) {
        words.scalars[3] = draw.small(from.pile.len() as u32);
    }
}

/// Spoils in one of these ways, or not at all.
pub fn spoil(draw: &mut Draw, words: &mut Words) {
    match draw.below(16) {
        0 => (),
        1..=6 => one_word(draw, words),
        7..=10 => (0..2 + draw.below(6)).for_each(|_| one_word(draw, words)),
        11 | 12 => circle(draw, words),
        13 => (0..5).for_each(|k| words.scalars[k] = draw.word() >> draw.below(32)),
        _ => wholly(draw, words),
    }
}
