//! Document 01's plain ledger: a line of regions in address order, a pile of spare record numbers, and for each class a stack of its free
//! regions. No bitmaps and no links.

use crate::classes;

#[derive(Clone, Copy, Debug, PartialEq, Eq)]
pub struct Region {
    pub offset: u32,
    pub length: u32,
    pub record: u32,
    pub live: bool,
}

/// No region enters a class of 240 or more.
pub const CLASSES_ENTERED: usize = 240;

#[derive(Clone)]
pub struct Ledger {
    pub size: u32,
    pub count: u32,
    pub line: Vec<Region>,
    /// The last is yielded next.
    pub spares: Vec<u32>,
    /// The last is on top.
    pub stacks: Vec<Vec<u32>>,
    /// Where each record's region begins, to find it in the line.
    pub begins: Vec<Option<u32>>,
    /// Live lengths summed from the history of grants and returns.
    pub live_units: u64,
    /// The records that the last accepted hand back put on the pile: the one before, the one after.
    pub merged: [Option<u32>; 2],
}

impl PartialEq for Ledger {
    fn eq(&self, other: &Ledger) -> bool {
        (self.size, self.count) == (other.size, other.count)
            && self.line == other.line
            && self.spares == other.spares
            && self.stacks == other.stacks
    }
}

impl Ledger {
    pub fn fresh(size: u32, count: u32) -> Ledger {
        let mut ledger = Ledger {
            size,
            count,
            line: vec![Region { offset: 0, length: size, record: 0, live: false }],
            spares: (1..count).rev().collect(),
            stacks: vec![Vec::new(); CLASSES_ENTERED],
            begins: vec![None; count as usize],
            live_units: 0,
            merged: [None, None],
        };
        ledger.put(ledger.line[0]);
        ledger
    }

    /// A free region goes on top of its class.
    fn put(&mut self, region: Region) {
        self.stacks[classes::down(region.length) as usize].push(region.record);
        self.begins[region.record as usize] = Some(region.offset);
    }

    /// A free region leaves its class, and its record goes onto the pile.
    fn dissolve(&mut self, region: Region) {
        let stack = &mut self.stacks[classes::down(region.length) as usize];
        let place = stack.iter().rposition(|r| *r == region.record).expect("a free region is in its class");
        stack.remove(place);
        self.spares.push(region.record);
        self.begins[region.record as usize] = None;
    }

    /// The place in the line of a record's region.
    pub fn place(&self, record: u32) -> Option<usize> {
        let begins = (*self.begins.get(record as usize)?)?;
        let first = self.line.partition_point(|r| r.offset < begins);
        self.line[first..].iter().position(|r| r.record == record).map(|k| first + k)
    }

    pub fn take(&mut self, size: u32) -> Result<(u32, u32), u32> {
        if self.spares.len() <= 1 {
            return Err(3);
        }
        let least = classes::up(size).ok_or(4u32)? as usize;
        let stack = self.stacks[least..].iter_mut().find(|s| !s.is_empty()).ok_or(4u32)?;
        let record = stack.pop().expect("not empty");
        let place = self.place(record).expect("a free region is in the line");
        let whole = self.line[place];
        self.line[place] = Region { length: size, live: true, ..whole };
        self.live_units += size as u64;
        if whole.length > size {
            let spare = self.spares.pop().expect("two were spare");
            let rest = Region { offset: whole.offset + size, length: whole.length - size, record: spare, live: false };
            self.line.insert(place + 1, rest);
            self.put(rest);
        }
        Ok((whole.offset, record))
    }

    /// The place of a live span that is named by record and offset, or 5, or 8.
    fn live_place(&self, offset: u32, record: u32) -> Result<usize, u32> {
        let place = self.place(record).ok_or(5u32)?;
        let region = self.line[place];
        match (region.live, region.offset == offset) {
            (false, _) => Err(5),
            (true, false) => Err(8),
            (true, true) => Ok(place),
        }
    }

    pub fn give(&mut self, offset: u32, record: u32) -> Result<(), u32> {
        let mut place = self.live_place(offset, record)?;
        let mut whole = self.line[place];
        self.live_units -= whole.length as u64;
        whole.live = false;
        self.merged = [None, None];
        if place > 0 && !self.line[place - 1].live {
            place -= 1;
            let before = self.line.remove(place);
            self.dissolve(before);
            self.merged[0] = Some(before.record);
            whole.offset = before.offset;
            whole.length += before.length;
        }
        if place + 1 < self.line.len() && !self.line[place + 1].live {
            let after = self.line.remove(place + 1);
            self.dissolve(after);
            self.merged[1] = Some(after.record);
            whole.length += after.length;
        }
        self.line[place] = whole;
        self.put(whole);
        Ok(())
    }

    pub fn size_of(&self, offset: u32, record: u32) -> Result<u32, u32> {
        self.live_place(offset, record).map(|place| self.line[place].length)
    }

    pub fn free_units(&self) -> u64 {
        self.line.iter().filter(|r| !r.live).map(|r| r.length as u64).sum()
    }

    pub fn report(&self) -> (u32, u32) {
        if self.spares.len() <= 1 {
            return (0, 0);
        }
        let highest = self.stacks.iter().rposition(|s| !s.is_empty());
        (self.free_units() as u32, highest.map_or(0, |class| classes::value(class as u32) as u32))
    }

    /// The number of free regions of a class of 0 to 255.
    pub fn regions_of(&self, class: usize) -> u32 {
        self.stacks.get(class).map_or(0, |s| s.len() as u32)
    }

    /// floor(256 * live units / size), or 0 for size 0.
    pub fn fill(&self) -> u32 {
        if self.size == 0 { 0 } else { (256 * self.live_units / self.size as u64) as u32 }
    }

    /// The facts of demand 2 and of document 01 that hold at every moment.
    pub fn facts(&self) -> Result<(), String> {
        let mut reached = 0u64;
        let mut last_free = false;
        for region in &self.line {
            if region.offset as u64 != reached {
                return Err(format!("a gap or overlap before {region:?}"));
            }
            if last_free && !region.live {
                return Err(format!("two free in a row at {region:?}"));
            }
            reached += region.length as u64;
            last_free = !region.live;
        }
        let lives = self.line.iter().filter(|r| r.live).count() as u32;
        if reached != self.size as u64 || self.live_units + self.free_units() != self.size as u64 {
            return Err(format!("the line ends at {reached}, live units are {}", self.live_units));
        }
        if lives > self.count - 2 || self.line.len() + self.spares.len() != self.count as usize {
            return Err(format!("{lives} live, {} regions, {} spare", self.line.len(), self.spares.len()));
        }
        Ok(())
    }
}
