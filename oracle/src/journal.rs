//! Journals of calls, as request 1 of document 02 has them and request 3 amends
//! them: a record is the length of what follows, a kind, and the fields of a call,
//! all little-endian. Written from the requests alone, so that the port can be
//! held against it.

use std::io::{self, Write};

/// What ends a reading before the journal does, in the order of the tests: a
/// record that is cut, a kind that is none, a length that is not the kind's. A
/// length that leaves no room for a kind is wrong whatever the kind.
pub const CUT: u32 = 13;
pub const UNKNOWN_KIND: u32 = 14;
pub const WRONG_LENGTH: u32 = 15;

const TAKE: u16 = 1;
const HAND_BACK: u16 = 2;
const SET_UP: u16 = 3;
const RESET: u16 = 4;

/// The kind is part of what follows the length; a length below its own is wrong.
const KIND_LENGTH: usize = 2;

#[derive(Clone, Copy, Debug, PartialEq, Eq)]
pub enum Call {
    Take { size: u32 },
    HandBack { record: u32, offset: u32 },
    SetUp { size: u32, count: u32 },
    Reset,
}

impl Call {
    pub fn write(self, journal: &mut impl Write) -> io::Result<()> {
        match self {
            Call::Take { size } => write_record(journal, TAKE, &[size]),
            Call::HandBack { record, offset } => {
                write_record(journal, HAND_BACK, &[record, offset])
            }
            Call::SetUp { size, count } => write_record(journal, SET_UP, &[size, count]),
            Call::Reset => write_record(journal, RESET, &[]),
        }
    }
}

fn write_record(journal: &mut impl Write, kind: u16, fields: &[u32]) -> io::Result<()> {
    let length = (KIND_LENGTH + 4 * fields.len()) as u16;
    journal.write_all(&length.to_le_bytes())?;
    journal.write_all(&kind.to_le_bytes())?;
    for field in fields {
        journal.write_all(&field.to_le_bytes())?;
    }
    Ok(())
}

/// The journal of these calls.
pub fn written(calls: &[Call]) -> Vec<u8> {
    let mut journal = Vec::new();
    for call in calls {
        call.write(&mut journal).expect("a Vec takes every byte");
    }
    journal
}

/// The calls of a journal, one after the other. In place of the first record
/// that is none comes its refusal, and nothing after it.
pub fn read(journal: &[u8]) -> Reader<'_> {
    Reader { rest: journal }
}

pub struct Reader<'a> {
    rest: &'a [u8],
}

impl Iterator for Reader<'_> {
    type Item = Result<Call, u32>;

    fn next(&mut self) -> Option<Self::Item> {
        if self.rest.is_empty() {
            return None;
        }
        let read = self.record().and_then(call);
        if read.is_err() {
            self.rest = &[];
        }
        Some(read)
    }
}

impl<'a> Reader<'a> {
    /// The kind and the fields of the next record, taken off the rest.
    fn record(&mut self) -> Result<&'a [u8], u32> {
        if self.rest.len() < 4 {
            return Err(CUT);
        }
        let length = usize::from(half_word(self.rest));
        if self.rest.len() < 2 + length {
            return Err(CUT);
        }
        if length < KIND_LENGTH {
            return Err(WRONG_LENGTH);
        }
        let (record, rest) = self.rest.split_at(2 + length);
        self.rest = rest;
        Ok(&record[2..])
    }
}

/// The call of a record whose kind and fields these are.
fn call(record: &[u8]) -> Result<Call, u32> {
    let fields = &record[KIND_LENGTH..];
    match (half_word(record), record.len()) {
        (TAKE, 6) => Ok(Call::Take { size: word(fields) }),
        (HAND_BACK, 10) => Ok(Call::HandBack {
            record: word(fields),
            offset: word(&fields[4..]),
        }),
        (SET_UP, 10) => Ok(Call::SetUp {
            size: word(fields),
            count: word(&fields[4..]),
        }),
        (RESET, 2) => Ok(Call::Reset),
        (TAKE | HAND_BACK | SET_UP | RESET, _) => Err(WRONG_LENGTH),
        _ => Err(UNKNOWN_KIND),
    }
}

fn half_word(bytes: &[u8]) -> u16 {
    u16::from_le_bytes([bytes[0], bytes[1]])
}

fn word(bytes: &[u8]) -> u32 {
    u32::from_le_bytes([bytes[0], bytes[1], bytes[2], bytes[3]])
}

/// Request 1's example as request 3 amends it, byte by byte.
pub const EXAMPLE: [u8; 32] = [
    0x0a, 0x00, 0x03, 0x00, 0x64, 0x00, 0x00, 0x00, 0x06, 0x00, 0x00, 0x00, //
    0x06, 0x00, 0x01, 0x00, 0x14, 0x00, 0x00, 0x00, //
    0x0a, 0x00, 0x02, 0x00, 0x00, 0x00, 0x00, 0x00, 0x00, 0x00, 0x00, 0x00,
];

#[cfg(test)]
mod tests {
    use super::*;

    const CALLS: [Call; 5] = [
        Call::SetUp {
            size: u32::MAX,
            count: 0x0102_0304,
        },
        Call::Take { size: 0x0506_0708 },
        Call::HandBack {
            record: u32::MAX,
            offset: 0x090a_0b0c,
        },
        Call::Reset,
        Call::Take { size: 0 },
    ];

    #[test]
    fn the_example_is_written_and_read() {
        let calls = [
            Call::SetUp {
                size: 100,
                count: 6,
            },
            Call::Take { size: 20 },
            Call::HandBack {
                record: 0,
                offset: 0,
            },
        ];
        assert_eq!(written(&calls), EXAMPLE);
        assert!(read(&EXAMPLE).eq(calls.map(Ok)));
    }

    #[test]
    fn a_hand_back_has_the_record_and_then_the_offset() {
        let call = Call::HandBack {
            record: 0x0403_0201,
            offset: 0x0807_0605,
        };
        assert_eq!(written(&[call]), [10, 0, 2, 0, 1, 2, 3, 4, 5, 6, 7, 8]);
        // as request 1 had it, without the offset
        let old = [6, 0, 2, 0, 1, 2, 3, 4];
        assert!(read(&old).eq([Err(WRONG_LENGTH)]));
    }

    #[test]
    fn what_was_written_is_read() {
        assert!(read(&written(&CALLS)).eq(CALLS.map(Ok)));
    }

    /// Wherever a journal is cut, the whole records before it are read, and then
    /// 13 ends it, unless it was cut between two.
    #[test]
    fn a_cut_journal_is_read_up_to_the_cut() {
        let whole = written(&CALLS);
        for cut in 0..=whole.len() {
            let records = (0..=CALLS.len())
                .rev()
                .find(|&records| written(&CALLS[..records]).len() <= cut)
                .expect("no record is no byte");
            let clean = written(&CALLS[..records]).len() == cut;
            let calls = CALLS[..records].iter().copied().map(Ok);
            let end = (!clean).then_some(Err(CUT));
            assert!(read(&whole[..cut]).eq(calls.chain(end)));
        }
    }

    #[test]
    fn the_refusals_are_tried_in_order() {
        let first = |journal: &[u8]| read(journal).next();
        assert_eq!(first(&[]), None);
        // fewer than four bytes, though the length is met or wrong
        assert_eq!(first(&[2]), Some(Err(CUT)));
        assert_eq!(first(&[0, 0]), Some(Err(CUT)));
        assert_eq!(first(&[1, 0, 4]), Some(Err(CUT)));
        // fewer than the length names, though the kind or the length is none
        assert_eq!(first(&[3, 0, 5, 0]), Some(Err(CUT)));
        assert_eq!(first(&[3, 0, 4, 0]), Some(Err(CUT)));
        // a length below 2, though the kind is none
        assert_eq!(first(&[1, 0, 5, 0]), Some(Err(WRONG_LENGTH)));
        assert_eq!(first(&[0, 0, 4, 0]), Some(Err(WRONG_LENGTH)));
        // no kind, whatever the length; and the kind's high byte counts
        assert_eq!(first(&[2, 0, 5, 0]), Some(Err(UNKNOWN_KIND)));
        assert_eq!(first(&[3, 0, 0, 0, 0]), Some(Err(UNKNOWN_KIND)));
        assert_eq!(first(&[2, 0, 4, 1]), Some(Err(UNKNOWN_KIND)));
        // a kind whose length is another
        assert_eq!(first(&[3, 0, 4, 0, 0]), Some(Err(WRONG_LENGTH)));
        assert_eq!(first(&[2, 0, 1, 0]), Some(Err(WRONG_LENGTH)));
        // the length's high byte counts
        assert_eq!(first(&[2, 1, 4, 0]), Some(Err(CUT)));
        assert_eq!(first(&[2, 0, 4, 0]), Some(Ok(Call::Reset)));
    }

    #[test]
    fn nothing_is_read_after_a_refusal() {
        let mut journal = vec![2, 0, 5, 0];
        journal.extend(EXAMPLE);
        assert!(read(&journal).eq([Err(UNKNOWN_KIND)]));
    }
}
