//! The list for the size classes: the value of each class, then, for sizes, the
//! class rounded down, the class rounded up and the smallest store.

use std::collections::BTreeSet;
use std::io::{self, Write};

use offset_allocator::ext::min_allocator_size;
use small_float::{float_to_uint, uint_to_float_round_down, uint_to_float_round_up};

use crate::splitmix::SplitMix;

/// The greatest class whose value comes from a shift of less than 32 bits. Past
/// it Rust panics in debug and shifts by the count modulo 32 in release.
const LAST_SHIFTED_CLASS: u32 = 263;

/// The greatest class that a size is ever rounded down to.
const LAST_DOWN_CLASS: u32 = 239;

/// The value of that class: the greatest size that some class can serve.
const GREATEST_SERVED: u32 = 4_026_531_840;

const SEED: u64 = 1;
const UNIFORM_SIZES: usize = 10_000;
const LOG_UNIFORM_SIZES: usize = 10_000;

pub fn write(out: &mut impl Write) -> io::Result<()> {
    for class in 0..=LAST_SHIFTED_CLASS {
        writeln!(out, "c {class} {}", float_to_uint(class))?;
    }
    for size in boundary_sizes().into_iter().chain(seeded_sizes()) {
        let down = uint_to_float_round_down(size);
        let up = uint_to_float_round_up(size);
        let min = min_allocator_size(size);
        writeln!(out, "s {size} {down} {up} {min}")?;
    }
    Ok(())
}

/// The sizes where rounding turns: in order, none twice.
fn boundary_sizes() -> BTreeSet<u32> {
    let class_values = (0..=LAST_DOWN_CLASS).map(float_to_uint);
    let powers_of_two = (0..u32::BITS).map(|bit| 1 << bit);
    class_values
        .chain(powers_of_two)
        .chain([GREATEST_SERVED])
        .flat_map(|size| [size.saturating_sub(1), size, size.saturating_add(1)])
        .chain([0, u32::MAX])
        .collect()
}

/// In the order drawn: first sizes of any kind, of which most are great, then
/// sizes of every bit length alike.
fn seeded_sizes() -> Vec<u32> {
    let mut random = SplitMix::new(SEED);
    let mut sizes = Vec::with_capacity(UNIFORM_SIZES + LOG_UNIFORM_SIZES);
    sizes.extend((0..UNIFORM_SIZES).map(|_| random.uniform()));
    sizes.extend((0..LOG_UNIFORM_SIZES).map(|_| random.log_uniform()));
    sizes
}
