//! The fill gauge of document 02's request 12, written from that request.

use crate::binary32;

/// What a store's head and its lent tables tell a reading: the size, the count and the free
/// total that the head keeps, and the lengths of the tables in words.
#[derive(Clone, Copy)]
pub struct Store {
    pub size: u32,
    pub count: u32,
    pub free: u32,
    pub nodes: u32,
    pub pile: u32,
}

/// What is kept from one reading to the next.
#[derive(Clone, Copy)]
pub struct Gauge {
    pub level: f32,
    pub peak: f32,
    pub last: u32,
}

#[derive(Clone, Copy)]
pub struct Reading {
    pub fill: u32,
    pub level: f32,
    pub peak: f32,
    pub net: i64,
}

const LEAST_COUNT: u32 = 2;
const GREATEST_COUNT: u32 = 1_048_576;
const WORDS_OF_A_RECORD: u64 = 8;

impl Store {
    /// The live units, or the number of the refusal.
    fn live(&self) -> Result<u32, u32> {
        if self.count < LEAST_COUNT || self.count > GREATEST_COUNT {
            return Err(6);
        }
        let nodes_needed = u64::from(self.count) * WORDS_OF_A_RECORD;
        if u64::from(self.nodes) < nodes_needed || self.pile < self.count {
            return Err(2);
        }
        self.size.checked_sub(self.free).ok_or(6)
    }
}

/// floor(256 * live / size), or 0 for size 0.
pub fn fill(live: u32, size: u32) -> u32 {
    (256 * u64::from(live))
        .checked_div(u64::from(size))
        .unwrap_or(0) as u32
}

impl Gauge {
    pub const BEGUN: Self = Self {
        level: 0.0,
        peak: 0.0,
        last: 0,
    };

    /// A refused reading leaves the gauge as it came.
    pub fn read(&mut self, store: &Store) -> Result<Reading, u32> {
        let live = store.live()?;
        let fill = fill(live, store.size);
        let level = level_after(self.level, fill);
        let peak = if is_greater(level, self.peak) {
            level
        } else {
            self.peak
        };
        let net = i64::from(live) - i64::from(self.last);
        *self = Self {
            level,
            peak,
            last: live,
        };
        Ok(Reading {
            fill,
            level,
            peak,
            net,
        })
    }
}

/// By the machine's floats; by whole numbers too, if the level is finite.
fn level_after(level: f32, fill: u32) -> f32 {
    let way = fill as f32 - level;
    let step = way * 0.125;
    let after = level + step;
    if let Some(bits) = binary32::level_after(level.to_bits(), fill) {
        assert_eq!(after.to_bits(), bits, "fill {fill} from {level:e}");
    }
    after
}

fn is_greater(level: f32, peak: f32) -> bool {
    let greater = level > peak;
    if !level.is_nan() && !peak.is_nan() {
        assert_eq!(greater, binary32::greater(level.to_bits(), peak.to_bits()));
    }
    greater
}

#[cfg(test)]
mod tests {
    use super::*;

    const STORE: Store = Store {
        size: 100,
        count: 2,
        free: 40,
        nodes: 16,
        pile: 2,
    };

    #[test]
    fn fills() {
        assert_eq!(fill(0, 0), 0);
        assert_eq!(fill(60, 100), 153);
        assert_eq!(fill(u32::MAX, u32::MAX), 256);
        assert_eq!(fill(u32::MAX - 1, u32::MAX), 255);
        assert_eq!(fill(1, 257), 0);
    }

    #[test]
    fn first_reading() {
        let mut gauge = Gauge::BEGUN;
        let reading = gauge.read(&STORE).unwrap();
        assert_eq!((reading.fill, reading.net), (153, 60));
        assert_eq!((reading.level, reading.peak), (19.125, 19.125));
        let freed = Store { free: 100, ..STORE };
        let reading = gauge.read(&freed).unwrap();
        assert_eq!((reading.fill, reading.net), (0, -60));
        assert_eq!((reading.level, reading.peak), (16.734375, 19.125));
    }

    /// The count before the tables, the tables before the total.
    #[test]
    fn refusals() {
        let refused = |store: Store| {
            let mut gauge = Gauge {
                level: 3.0,
                peak: 2.0,
                last: 9,
            };
            let number = gauge.read(&store).err();
            assert_eq!((gauge.level, gauge.peak, gauge.last), (3.0, 2.0, 9));
            number
        };
        let wrong = Store { free: 101, ..STORE };
        assert_eq!(refused(wrong), Some(6));
        assert_eq!(refused(Store { nodes: 15, ..wrong }), Some(2));
        assert_eq!(refused(Store { pile: 1, ..STORE }), Some(2));
        for count in [0, 1, 1_048_577, u32::MAX] {
            assert_eq!(
                refused(Store {
                    count,
                    pile: 0,
                    ..STORE
                }),
                Some(6)
            );
        }
        assert_eq!(
            refused(Store {
                count: 1_048_576,
                ..STORE
            }),
            Some(2)
        );
    }
}
