//! The gauge's sums and comparisons of 32-bit floats by whole numbers alone: each is
//! exact first, and then rounded once, to the nearest float and between two to the even one.
//! What the machine's floats give is held against it.

/// A finite number: `digits` times two to the power `exponent`.
#[derive(Clone, Copy)]
struct Exact {
    negative: bool,
    digits: u128,
    exponent: i32,
}

/// The exponent of the least float above zero, below which no digit is kept.
const LEAST: i32 = -149;

const INFINITE: u32 = 0x7f80_0000;
const SIGN: u32 = 0x8000_0000;
/// The bit before a fraction's 23, which is not written.
const FIRST: u32 = 0x0080_0000;

/// Where two exponents are further apart than this, the lower number is less than a
/// unit 60 digits below the other, and only its sign tells in what the sum is rounded to.
const FAR: i32 = 100;
const BELOW: i32 = 60;

fn finite(bits: u32) -> Option<Exact> {
    let fraction = bits & (FIRST - 1);
    let (digits, exponent) = match bits >> 23 & 0xff {
        0xff => return None,
        0 => (fraction, LEAST),
        field => (fraction | FIRST, field as i32 - 150),
    };
    Some(Exact {
        negative: bits & SIGN != 0,
        digits: u128::from(digits),
        exponent,
    })
}

fn rounded(exact: Exact) -> u32 {
    let sign = if exact.negative { SIGN } else { 0 };
    if exact.digits == 0 {
        return sign;
    }
    let length = (u128::BITS - exact.digits.leading_zeros()) as i32;
    let exponent = LEAST.max(exact.exponent + length - 24);
    let dropped = exponent - exact.exponent;
    let kept = if dropped <= 0 {
        exact.digits << -dropped
    } else {
        let unit = 1 << dropped;
        let kept = exact.digits >> dropped;
        let rest = exact.digits & (unit - 1);
        let up = rest > unit / 2 || rest == unit / 2 && kept % 2 == 1;
        kept + u128::from(up)
    };
    // Rounding up may have made one digit more; written so, it goes into the exponent.
    let kept = kept as u32;
    if kept < FIRST {
        return sign | kept;
    }
    let field = (exponent + 150) as u32;
    sign | INFINITE.min((field << 23) + (kept - FIRST))
}

fn sum(a: Exact, b: Exact) -> Exact {
    if a.digits == 0 && b.digits == 0 {
        let negative = a.negative && b.negative;
        return Exact { negative, ..a };
    }
    if a.digits == 0 {
        return b;
    }
    if b.digits == 0 {
        return a;
    }
    let (high, low) = if a.exponent < b.exponent {
        (b, a)
    } else {
        (a, b)
    };
    let apart = high.exponent - low.exponent;
    let (high_digits, low_digits, exponent) = if apart <= FAR {
        (high.digits << apart, low.digits, low.exponent)
    } else {
        (high.digits << BELOW, 1, high.exponent - BELOW)
    };
    let signed = |digits: u128, negative| digits as i128 * if negative { -1 } else { 1 };
    let sum = signed(high_digits, high.negative) + signed(low_digits, low.negative);
    Exact {
        negative: sum < 0,
        digits: sum.unsigned_abs(),
        exponent,
    }
}

/// level + (fill - level) * 0.125, each operation rounded once; none for a level that is not finite.
pub fn level_after(level: u32, fill: u32) -> Option<u32> {
    let level = finite(level)?;
    let fill = Exact {
        negative: false,
        digits: u128::from(fill),
        exponent: 0,
    };
    let away = Exact {
        negative: !level.negative,
        ..level
    };
    let way = finite(rounded(sum(fill, away)))?;
    let eighth = Exact {
        exponent: way.exponent - 3,
        ..way
    };
    Some(rounded(sum(level, finite(rounded(eighth))?)))
}

/// Whether one number is greater than another; neither is a not-a-number. The two zeros are the same.
pub fn greater(one: u32, other: u32) -> bool {
    let place = |bits: u32| {
        let far = i64::from(bits & !SIGN);
        if bits & SIGN == 0 {
            far
        } else {
            -far
        }
    };
    place(one) > place(other)
}

#[cfg(test)]
mod tests {
    use super::*;
    use crate::splitmix::SplitMix;

    #[test]
    fn halves_go_to_the_even_one() {
        let exact = |digits| Exact {
            negative: false,
            digits,
            exponent: 0,
        };
        // 2^24 and 1, and 3, lie half-way between two floats.
        assert_eq!(rounded(exact(16_777_217)), 16_777_216f32.to_bits());
        assert_eq!(rounded(exact(16_777_219)), 16_777_220f32.to_bits());
        assert_eq!(rounded(exact(33_554_431)), 33_554_432f32.to_bits());
    }

    #[test]
    fn ends_of_the_range() {
        assert_eq!(level_after(f32::INFINITY.to_bits(), 0), None);
        assert_eq!(level_after(SIGN, 0), Some(0));
        assert_eq!(level_after(1, 0), Some(1));
        let most = f32::MAX;
        assert_eq!(
            level_after(most.to_bits(), 0),
            Some((most - most * 0.125).to_bits())
        );
    }

    #[test]
    fn agrees_with_the_machine_on_any_bits() {
        let mut random = SplitMix::new(1);
        for _ in 0..1_000_000 {
            let level = f32::from_bits(random.uniform());
            let fill = random.below(257);
            if level.is_finite() {
                let machine = level + (fill as f32 - level) * 0.125;
                assert_eq!(
                    level_after(level.to_bits(), fill),
                    Some(machine.to_bits()),
                    "{level:e}"
                );
            }
        }
    }
}
