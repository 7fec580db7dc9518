//! Request 12's gauge by its formula in 32-bit floats, each operation rounded once, in the order that is written.

use crate::boundary::{Reading, Watch};

/// A reading where live units and size are known.
pub fn reading(watch: Watch, live: u32, size: u32) -> Reading {
    let fill = if size == 0 { 0 } else { (256 * live as u64 / size as u64) as u32 };
    let away = fill as f32 - watch.level;
    let eighth = away * 0.125;
    let level = watch.level + eighth;
    let peak = if level > watch.peak { level } else { watch.peak };
    Reading { number: 0, fill, level, peak, last: live, net: live as i64 - watch.last as i64 }
}

pub fn refused(watch: Watch, number: u32) -> Reading {
    Reading { number, fill: 0, level: watch.level, peak: watch.peak, last: watch.last, net: 0 }
}

/// Bit for bit. Where the rule's arithmetic gives a level that is no number, its sign and payload are left open: the rule does not fix them.
pub fn same(ours: &Reading, theirs: &Reading) -> bool {
    let open = ours.number == 0 && ours.level.is_nan() && theirs.level.is_nan();
    (ours.number, ours.fill, ours.last, ours.net) == (theirs.number, theirs.fill, theirs.last, theirs.net)
        && ours.peak.to_bits() == theirs.peak.to_bits()
        && (open || ours.level.to_bits() == theirs.level.to_bits())
}
