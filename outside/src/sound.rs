//! Document 01's sentence "Sound tables: ...", asked of any words. The lengths must be enough for the count; that is the gate's business.

use crate::classes;
use crate::words::{View, ABOVE, AFTER, BEFORE, BELOW, GREATEST_COUNT, LENGTH, MARKER, OFFSET, USED};

/// What a record is found to be.
#[derive(Clone, Copy, PartialEq)]
enum Seen {
    Not,
    Spare,
    InLine,
    InList,
}

pub fn is_sound(words: View) -> bool {
    sound(words).is_ok()
}

pub fn sound(words: View) -> Result<(), &'static str> {
    if !(2..=GREATEST_COUNT).contains(&words.count()) {
        return Err("the head count is outside its limits");
    }
    let mut seen = vec![Seen::Not; words.count() as usize];
    spares(words, &mut seen)?;
    let free_total = line(words, &mut seen)?;
    if seen.contains(&Seen::Not) {
        return Err("a record is neither spare nor in the chain");
    }
    lists(words, &mut seen)?;
    bits(words)?;
    if free_total != words.free_total() as u64 {
        return Err("the kept free total is not the true sum");
    }
    Ok(())
}

/// A link that holds must be a record number or the marker. A call reads any number at or above the count as absent, but document 01 calls an
/// absent link a marked value, so any other such number is not sound.
fn link(words: View, word: u32) -> Result<Option<u32>, &'static str> {
    match word {
        MARKER => Ok(None),
        record if record < words.count() => Ok(Some(record)),
        _ => Err("a link is neither a record number nor the marker"),
    }
}

/// Spare record numbers are distinct, below the count, not marked live, at least one; at least one record is not spare.
fn spares(words: View, seen: &mut [Seen]) -> Result<(), &'static str> {
    let spares = words.spares_less_one() as u64 + 1;
    if spares > words.count() as u64 - 1 {
        return Err("no record is left for the chain");
    }
    for record in &words.pile[..spares as usize] {
        match seen.get(*record as usize) {
            None => return Err("a spare number is not below the count"),
            Some(Seen::Not) if words.word(*record, USED) == 0 => seen[*record as usize] = Seen::Spare,
            Some(Seen::Not) => return Err("a spare record is marked live"),
            Some(_) => return Err("a spare number occurs twice"),
        }
    }
    Ok(())
}

/// The neighbour chain runs from 0 to the size, links agreeing both ways, no two free in a row. Gives the sum of the free lengths.
fn line(words: View, seen: &mut [Seen]) -> Result<u64, &'static str> {
    let first = (0..words.count()).find(|r| seen[*r as usize] == Seen::Not && words.word(*r, BEFORE) == MARKER);
    let (mut reached, mut free_total, mut last_free) = (0u64, 0u64, false);
    let (mut before, mut next) = (None, first);
    while let Some(record) = next {
        if seen[record as usize] != Seen::Not {
            return Err("the chain comes to a spare record, or to one twice");
        }
        seen[record as usize] = Seen::InLine;
        if link(words, words.word(record, BEFORE))? != before {
            return Err("a chain's links do not agree");
        }
        if words.word(record, OFFSET) as u64 != reached {
            return Err("a region does not begin where the one before it ends");
        }
        let free = match words.word(record, USED) {
            0 => true,
            1 => false,
            _ => return Err("a used word is neither 0 nor 1"),
        };
        if free && last_free {
            return Err("two free in a row");
        }
        let length = words.word(record, LENGTH) as u64;
        reached += length;
        free_total += if free { length } else { 0 };
        (last_free, before, next) = (free, Some(record), link(words, words.word(record, AFTER))?);
    }
    if reached != words.size() as u64 {
        return Err("the chain does not end at the size");
    }
    Ok(free_total)
}

/// Each class list holds exactly the free regions of its class, links agreeing both ways.
fn lists(words: View, seen: &mut [Seen]) -> Result<(), &'static str> {
    for class in 0..256 {
        let (mut above, mut next) = (None, link(words, words.bins[class])?);
        while let Some(record) = next {
            if seen[record as usize] != Seen::InLine || words.word(record, USED) != 0 {
                return Err("a list holds what is not a free region, or one twice");
            }
            seen[record as usize] = Seen::InList;
            if classes::down(words.word(record, LENGTH)) as usize != class {
                return Err("a list holds a region of another class");
            }
            if link(words, words.word(record, ABOVE))? != above {
                return Err("a list's links do not agree");
            }
            (above, next) = (Some(record), link(words, words.word(record, BELOW))?);
        }
    }
    let missing = (0..words.count()).any(|r| seen[r as usize] == Seen::InLine && words.word(r, USED) == 0);
    if missing { Err("a free region is in no list") } else { Ok(()) }
}

/// A bit is set exactly where a list, or a leaf byte, is not empty.
fn bits(words: View) -> Result<(), &'static str> {
    for class in 0..256 {
        let bit = words.leaves[class / 8] >> (class % 8) & 1 == 1;
        if bit != words.top_of(class).is_some() {
            return Err("a leaf bit is wrong");
        }
    }
    for (t, leaf) in words.leaves.iter().enumerate() {
        if (words.top_bits() >> t & 1 == 1) != (*leaf != 0) {
            return Err("a top bit is wrong");
        }
    }
    Ok(())
}
