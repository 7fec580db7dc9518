//! Drawing sizes, counts and pairs for the calls.

use crate::classes;
use crate::draw::Draw;
use crate::words::GREATEST_COUNT;

/// How a run draws the sizes that it takes.
#[derive(Clone, Copy, Debug)]
pub enum Style {
    Zeros,
    Tiny,
    Usual,
    AnyWidth,
    NearClass,
    Share,
}

pub const STYLES: [Style; 6] = [Style::Zeros, Style::Tiny, Style::Usual, Style::AnyWidth, Style::NearClass, Style::Share];

/// A size to take from a store of the given size; now and then from another style than the run's.
pub fn taken(draw: &mut Draw, style: Style, store: u32) -> u32 {
    let style = if draw.one_in(8) { draw.pick(&STYLES) } else { style };
    match style {
        Style::Zeros => draw.small(3) / 2 * draw.small(4),
        Style::Tiny => draw.small(9),
        Style::Usual => 1 + draw.small(2000),
        Style::AnyWidth if draw.one_in(16) => classes::GREATEST_SERVED.wrapping_sub(2).wrapping_add(draw.small(5)),
        Style::AnyWidth if draw.one_in(4) => draw.any_width(),
        Style::AnyWidth => draw.any_width() % (store / 4 + 1),
        Style::NearClass => near_class(draw, store),
        Style::Share => {
            let bits = draw.below(8);
            let parts = 1 + draw.below(1 + (1 << bits));
            (store as u64 / parts) as u32
        }
    }
}

/// The value of a class that the store can serve, or just around it.
fn near_class(draw: &mut Draw, store: u32) -> u32 {
    let class = draw.small(classes::down(store) + 2);
    let value = classes::value(class).min(u32::MAX as u64) as u32;
    value.wrapping_add(draw.small(3)).wrapping_sub(1)
}

pub fn store(draw: &mut Draw) -> u32 {
    match draw.below(12) {
        0 => draw.pick(&[0, 1, 2, 7, 8, 16, 17, 18, 100]),
        1 | 2 => draw.small(300),
        3 | 4 => draw.small(70_000),
        5 | 6 => 4 << 20,
        7 => draw.pick(&[u32::MAX, u32::MAX - 1, classes::GREATEST_SERVED, classes::GREATEST_SERVED + 1, 1 << 31]),
        8 | 9 => draw.any_width(),
        10 => near_class(draw, u32::MAX),
        _ => 100 + draw.small(100_000),
    }
}

/// A count by the number of the run: great ones cost much to set up and come seldom, but they do come.
pub fn count(draw: &mut Draw, run: u64) -> u32 {
    if run % 512 == 100 {
        return GREATEST_COUNT - draw.small(2);
    }
    if run % 64 == 20 {
        return draw.pick(&[131_072, 131_073, 131_071, 131_072]);
    }
    match draw.below(20) {
        0 => 2,
        1 | 2 => 3,
        3 => 4,
        4 | 5 => 6,
        6..=8 => 17,
        9..=12 => 64,
        13..=15 => 1024,
        16 => 4096 + draw.small(12_289),
        _ => 2 + draw.small(200),
    }
}

/// Says whether a run with a great count spends all its records first. That takes as many calls as there are records.
pub fn spends_all(run: u64) -> bool {
    run == 100 || run % 1024 == 20
}
