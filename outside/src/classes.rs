//! Size classes by document 01's formulas, in plain 64-bit arithmetic, with requests 4 and 7.

/// Above this size no class serves a request.
pub const GREATEST_SERVED: u32 = 4_026_531_840;

/// The highest set bit of s, found by doubling.
fn highest_bit(s: u64) -> u64 {
    let mut h = 0;
    while (1u64 << (h + 1)) <= s {
        h += 1;
    }
    h
}

pub fn down(size: u32) -> u32 {
    let s = size as u64;
    if s < 8 {
        return size;
    }
    let g = highest_bit(s) - 3;
    (8 * (g + 1) + (s / (1 << g)) % 8) as u32
}

pub fn up(size: u32) -> Option<u32> {
    if size > GREATEST_SERVED {
        return None;
    }
    let s = size as u64;
    if s < 8 {
        return Some(size);
    }
    let g = highest_bit(s) - 3;
    let divides = s % (1 << g) == 0;
    Some(down(size) + if divides { 0 } else { 1 })
}

/// The value of a class of any number; what does not fit 64 bits is the greatest 64-bit number.
pub fn value(class: u32) -> u64 {
    if class < 8 {
        return class as u64;
    }
    let shift = class / 8 - 1;
    if shift > 100 {
        return u64::MAX;
    }
    let exact = (8 + (class % 8) as u128) << shift;
    exact.min(u64::MAX as u128) as u64
}

/// The smallest store for an object, or 7.
pub fn smallest_store(object: u32) -> Result<u32, u32> {
    up(object).map(|class| value(class) as u32).ok_or(7)
}
