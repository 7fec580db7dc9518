//! Turns of the packet layer beside the bare work in them, timed in one run.

use std::hint::black_box;
use std::io::{self, Write};
use std::time::Instant;

use offset_allocator::Allocator;

use crate::packet_store::Store;
use crate::packets::Packets;

const LENGTHS: [u32; 4] = [16, 64, 200, 1_024];
const SIZE: u32 = 65_536;
const RECORDS: u32 = 700;

/// So many packets are live while one of them is filled.
const LIVE: usize = 32;

/// The quickest of so many rounds counts.
const ROUNDS: u32 = 9;

/// A row for each length and kind of turn, with the nanoseconds per turn.
pub fn write(out: &mut impl Write, turns: u32) -> io::Result<()> {
    for length in LENGTHS {
        for (what, each) in [
            ("take and return", take(turns, length)),
            ("packet take and return", packet_take(turns, length)),
            ("copy", copy(turns, length)),
            ("packet fill", packet_fill(turns, length)),
        ] {
            writeln!(out, "{length} {what} {each:.1}")?;
        }
    }
    Ok(())
}

/// The nanoseconds per turn.
fn timed(turns: u32, mut turn: impl FnMut()) -> f64 {
    let rounds = (0..ROUNDS).map(|_| {
        let begun = Instant::now();
        for _ in 0..turns {
            turn();
        }
        begun.elapsed()
    });
    let least = rounds.min().expect("there is a round");
    least.as_nanos() as f64 / f64::from(turns.max(1))
}

fn take(turns: u32, length: u32) -> f64 {
    let mut allocator: Allocator<u32> = Allocator::with_max_allocs(SIZE, RECORDS);
    timed(turns, || {
        let span = allocator.allocate(black_box(length)).expect("it has room");
        allocator.free(black_box(span));
    })
}

/// All bytes are set to 255 at the take.
fn packet_take(turns: u32, length: u32) -> f64 {
    let mut packets = packets();
    timed(turns, || {
        let name = packets.take(black_box(length)).expect("it has room");
        packets.hand_back(black_box(name)).expect("it is live");
    })
}

fn copy(turns: u32, length: u32) -> f64 {
    let mut bytes = vec![0_u8; SIZE as usize];
    let from = vec![1_u8; length as usize];
    timed(turns, || {
        let from = black_box(from.as_slice());
        bytes[..from.len()].copy_from_slice(from);
        black_box(&mut bytes);
    })
}

/// The packet is found by its name, its length is looked at, and its bytes are set.
fn packet_fill(turns: u32, length: u32) -> f64 {
    let mut packets = packets();
    let names = [(); LIVE].map(|()| packets.take(length).expect("it has room"));
    let name = names[LIVE / 2];
    let from = vec![1; length as usize];
    timed(turns, || {
        let filled = packets.fill(black_box(name), black_box(&from));
        filled.expect("it is live and as long");
        black_box(&mut packets);
    })
}

/// The on-chip store has room for all.
fn packets() -> Packets {
    let store = || Store::bare(SIZE, RECORDS, vec![0; SIZE as usize]);
    Packets::new(store(), store())
}
