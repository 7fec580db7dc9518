//! The rows of the gauge's list: what is asked of a gauge, and what it must answer and keep.

use std::io::{self, Write};

use crate::gauge::{Gauge, Reading, Store};

/// Stands for every not-a-number, whose bits no rule fixes.
const NOT_A_NUMBER: u32 = 0x7fc0_0000;

/// A gauge and the store that it is read from, with each call written as it is made.
pub struct Rows<'a, W: Write> {
    out: &'a mut W,
    gauge: Gauge,
    store: Store,
    /// The readings made so far.
    pub readings: u32,
}

fn bits(float: f32) -> u32 {
    if float.is_nan() {
        NOT_A_NUMBER
    } else {
        float.to_bits()
    }
}

impl<'a, W: Write> Rows<'a, W> {
    /// A gauge that is begun, and a store of no size whose tables are long enough.
    pub fn new(out: &'a mut W) -> io::Result<Self> {
        let store = Store {
            size: 0,
            count: 0,
            free: 0,
            nodes: 0,
            pile: 0,
        };
        let mut rows = Self {
            out,
            gauge: Gauge::BEGUN,
            store,
            readings: 0,
        };
        rows.begin()?;
        rows.lend(2, 16, 2)?;
        Ok(rows)
    }

    pub fn begin(&mut self) -> io::Result<()> {
        self.set(0, 0, 0)
    }

    /// Somebody writes these bits into the gauge.
    pub fn set(&mut self, level: u32, peak: u32, last: u32) -> io::Result<()> {
        self.gauge = Gauge {
            level: f32::from_bits(level),
            peak: f32::from_bits(peak),
            last,
        };
        self.told("g")
    }

    /// The count in the head, and the lengths of the tables that are lent from now on.
    pub fn lend(&mut self, count: u32, nodes: u32, pile: u32) -> io::Result<()> {
        self.store = Store {
            count,
            nodes,
            pile,
            ..self.store
        };
        writeln!(self.out, "t {count} {nodes} {pile}")
    }

    /// One reading.
    pub fn read(&mut self, size: u32, free: u32) -> io::Result<()> {
        let answer = self.step(size, free);
        self.answered(1, answer)
    }

    /// Readings of the same until the level's bits stay, and a row that says that they did;
    /// each is written if `whole` is set, otherwise the last.
    pub fn hold(&mut self, size: u32, free: u32, whole: bool) -> io::Result<()> {
        let mut times = 0;
        loop {
            let before = self.gauge.level.to_bits();
            let answer = self.step(size, free);
            times += 1;
            let still = self.gauge.level.to_bits() == before;
            if whole || still {
                self.answered(times, answer)?;
                times = 0;
            }
            if still {
                return writeln!(self.out, "s {}", bits(self.gauge.level));
            }
        }
    }

    fn step(&mut self, size: u32, free: u32) -> Result<Reading, u32> {
        self.store = Store {
            size,
            free,
            ..self.store
        };
        self.readings += 1;
        self.gauge.read(&self.store)
    }

    fn answered(&mut self, times: u32, answer: Result<Reading, u32>) -> io::Result<()> {
        writeln!(
            self.out,
            "r {times} {} {}",
            self.store.size, self.store.free
        )?;
        match answer {
            Ok(reading) => {
                let letter = if reading.net < 0 { 'd' } else { 'u' };
                let Reading { fill, net, .. } = reading;
                let (level, peak) = (bits(reading.level), bits(reading.peak));
                writeln!(
                    self.out,
                    "{letter} {fill} {level} {peak} {}",
                    net.unsigned_abs()
                )?;
            }
            Err(number) => writeln!(self.out, "x {number}")?,
        }
        self.told("k")
    }

    fn told(&mut self, letter: &str) -> io::Result<()> {
        let Gauge { level, peak, last } = self.gauge;
        writeln!(self.out, "{letter} {} {} {last}", bits(level), bits(peak))
    }
}
