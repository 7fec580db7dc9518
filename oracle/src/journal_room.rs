//! Records written where they have room and where they have none: each call at
//! each place of short buffers, with every byte that must stand there after it.

use crate::journal::{self, Call};
use std::io::{self, Write};

const CALLS: [Call; 4] = [
    Call::Take { size: 0x4433_2211 },
    Call::HandBack {
        record: 0x8877_6655,
        offset: 0x4433_2211,
    },
    Call::SetUp {
        size: 0x4433_2211,
        count: 0x8877_6655,
    },
    Call::Reset,
];

const LONGEST: usize = 16;
const FILLED: u8 = 170;
const NO_ROOM: u32 = 16;

/// How often there was room and how often not, and the sum of what was answered
/// and of all bytes after it.
pub fn write(out: &mut impl Write) -> io::Result<()> {
    let (mut written, mut refused, mut sum) = (0, 0, 0);
    for call in CALLS {
        let record = journal::written(&[call]);
        for length in 0..=LONGEST {
            for at in 0..=LONGEST + 1 {
                let mut buffer = vec![FILLED; length];
                let behind = at + record.len();
                if behind <= length {
                    buffer[at..behind].copy_from_slice(&record);
                    written += 1;
                    sum = mix(mix(sum, 0), behind as u32);
                } else {
                    refused += 1;
                    sum = mix(sum, NO_ROOM);
                }
                sum = buffer.iter().fold(sum, |sum, &byte| mix(sum, byte.into()));
            }
        }
    }
    writeln!(out, "room {written}")?;
    writeln!(out, "no room {refused}")?;
    writeln!(out, "bytes {sum}")
}

fn mix(sum: u32, n: u32) -> u32 {
    sum.wrapping_mul(31).wrapping_add(n)
}
