//! Journals made by hand, and the lines that a replay of each must print: every
//! refusal, every cut, lengths that are right and wrong for kinds that are some
//! and none, the limits of counts, sizes and record numbers, and offsets that are
//! not the record's.

use std::io::{self, Write};

use crate::journal::{written, Call, EXAMPLE};
use crate::replay;

/// As many zero bytes as this are written as their number.
const LONG_RUN: usize = 16;

/// A journal: its bytes, and then so many zero bytes.
struct Case {
    bytes: Vec<u8>,
    zeros: usize,
}

impl Case {
    fn journal(&self) -> Vec<u8> {
        let mut journal = self.bytes.clone();
        journal.resize(self.bytes.len() + self.zeros, 0);
        journal
    }

    fn row(&self) -> String {
        let long = self.zeros >= LONG_RUN;
        let journal = self.journal();
        let plain = if long { &self.bytes } else { &journal };
        let mut row: String = plain.iter().map(|byte| format!("{byte:02x}")).collect();
        if long {
            row += &format!("z{}.", self.zeros);
        }
        row
    }
}

/// A row for each journal: its bytes in hexadecimal, a long run of zero bytes as
/// `z`, their number and a point.
pub fn write(out: &mut impl Write) -> io::Result<()> {
    for case in cases() {
        writeln!(out, "{}", case.row())?;
    }
    Ok(())
}

/// A row with each journal's number, and then the lines of its replay.
pub fn write_lines(out: &mut impl Write) -> io::Result<()> {
    for (case, number) in cases().iter().zip(1..) {
        writeln!(out, "journal {number}")?;
        for line in replay::lines(&case.journal()) {
            writeln!(out, "{line}")?;
        }
    }
    Ok(())
}

fn cases() -> Vec<Case> {
    let mut journals = vec![EXAMPLE.to_vec()];
    journals.extend(refusals());
    journals.extend(cuts());
    journals.extend(lengths());
    journals.extend(hand_backs_in_part());
    let mut cases: Vec<Case> = journals.into_iter().map(plain).collect();
    cases.extend(greatest_lengths());
    let journals = [stores(), counts(), limits(), offsets()].into_iter();
    cases.extend(journals.flatten().map(|calls| plain(written(&calls))));
    cases
}

fn plain(bytes: Vec<u8>) -> Case {
    Case { bytes, zeros: 0 }
}

const fn take(size: u32) -> Call {
    Call::Take { size }
}

const fn hand_back(record: u32, offset: u32) -> Call {
    Call::HandBack { record, offset }
}

const fn set_up(size: u32, count: u32) -> Call {
    Call::SetUp { size, count }
}

/// Each refusal once: of the calls, and then of the reading, 13 to 15, after a
/// call that stands.
fn refusals() -> Vec<Vec<u8>> {
    let calls: [&[Call]; 7] = [
        &[set_up(100, 1)],
        &[set_up(100, 1_025)],
        &[set_up(100, 2), take(1)],
        &[set_up(100, 6), take(97)],
        &[set_up(100, 6), hand_back(0, 0)],
        &[take(1)],
        &[set_up(100, 6), take(20), hand_back(0, 1)],
    ];
    let records: [&[u8]; 3] = [
        &[0x06],
        &[0x02, 0x00, 0x05, 0x00],
        &[0x02, 0x00, 0x01, 0x00],
    ];
    let ended = records.map(|record| [&written(&[set_up(100, 6)]), record].concat());
    calls.map(written).into_iter().chain(ended).collect()
}

/// A journal of all kinds, cut after every byte.
fn cuts() -> Vec<Vec<u8>> {
    let whole = written(&[
        set_up(100, 6),
        take(20),
        take(30),
        hand_back(0, 0),
        Call::Reset,
        take(5),
    ]);
    (0..=whole.len()).map(|cut| whole[..cut].to_vec()).collect()
}

const KINDS: [u16; 9] = [0, 1, 2, 3, 4, 5, 256, 257, u16::MAX];
const LENGTHS: [u16; 10] = [0, 1, 2, 3, 5, 6, 7, 9, 10, 11];

/// Every kind with every length, its fields zeros: as many bytes as the length
/// names, but at least the kind's; the same with a byte too few; and with a setup
/// behind it, which shows where the reading goes on.
fn lengths() -> Vec<Vec<u8>> {
    let mut journals = Vec::new();
    for kind in KINDS {
        for length in LENGTHS {
            let record = zero_record(kind, length);
            let cut = record[..record.len() - 1].to_vec();
            let followed = [&record[..], &written(&[set_up(100, 6)])].concat();
            journals.extend([record, cut, followed]);
        }
    }
    journals
}

fn zero_record(kind: u16, length: u16) -> Vec<u8> {
    let mut record = head(kind, length);
    record.resize(record.len().max(2 + usize::from(length)), 0);
    record
}

fn head(kind: u16, length: u16) -> Vec<u8> {
    [length.to_le_bytes(), kind.to_le_bytes()].concat()
}

/// The span of 30 goes back, with an offset that is not 0 and cut after every
/// byte; and as it did before it had an offset, at the end and with a call behind.
fn hand_backs_in_part() -> Vec<Vec<u8>> {
    let before = written(&TWO_OUT);
    let record = written(&[hand_back(1, 20)]);
    let mut journals: Vec<Vec<u8>> = (1..=record.len())
        .map(|cut| [&before[..], &record[..cut]].concat())
        .collect();
    let old = [before, head(2, 6), 1u32.to_le_bytes().to_vec()].concat();
    journals.push(old.clone());
    journals.push([old, written(&[take(5)])].concat());
    journals
}

/// The greatest length: of a known kind, of an unknown one, and a byte too few.
fn greatest_lengths() -> [Case; 3] {
    [(1, 0), (5, 0), (1, 1)].map(|(kind, missing)| Case {
        bytes: head(kind, u16::MAX),
        zeros: usize::from(u16::MAX) - 2 - missing,
    })
}

/// A store with two spans out: record 0 at 0, and record 1 at 20.
const TWO_OUT: [Call; 3] = [set_up(100, 6), take(20), take(30)];

const OTHERS: [Call; 3] = [take(1), hand_back(0, 0), Call::Reset];
const REFUSED_SETUPS: [Call; 2] = [set_up(100, 1), set_up(100, 1_025)];

/// Calls before a setup, after a refused one, and after one that was refused
/// with spans out; and then again after an accepted one.
fn stores() -> Vec<Vec<Call>> {
    let again = set_up(50, 4);
    let mut journals = Vec::new();
    for call in OTHERS {
        journals.push(vec![call, again, call]);
        for refused in REFUSED_SETUPS {
            journals.push(vec![refused, call, again, call]);
            journals.push([&TWO_OUT[..], &[refused, call, again, take(5), call]].concat());
        }
    }
    for refused in REFUSED_SETUPS {
        let out = [set_up(100, 6), take(20), refused];
        journals.push([&out[..], &OTHERS, &[again, take(5), hand_back(0, 0)]].concat());
    }
    journals
}

const COUNTS: [u32; 12] = [
    0, 1, 2, 3, 1_023, 1_024, 1_025, 131_072, 131_073, 1_048_576, 1_048_577, u32::MAX,
];

fn counts() -> Vec<Vec<Call>> {
    COUNTS
        .map(|count| vec![set_up(100, count), take(1)])
        .to_vec()
}

/// The ends of the range of sizes and record numbers, and document 01's run.
fn limits() -> Vec<Vec<Call>> {
    let nothing = [
        set_up(0, 6),
        take(1),
        take(0),
        take(0),
        hand_back(0, 0),
        take(0),
    ];
    let all = [
        set_up(u32::MAX, 6),
        take(1),
        take(0),
        hand_back(0, 0),
        Call::Reset,
        take(2),
    ];
    let run = [
        set_up(100, 6),
        take(20),
        take(30),
        take(49),
        take(48),
        hand_back(1, 20),
        hand_back(1, 20),
        take(0),
        take(1),
        hand_back(0, 0),
        hand_back(3, 98),
        hand_back(2, 50),
    ];
    let no_record = [
        set_up(100, 6),
        take(20),
        hand_back(u32::MAX, 0),
        hand_back(6, 0),
        hand_back(1, 20),
        hand_back(0, 0),
    ];
    let no_class = [
        set_up(u32::MAX, 6),
        take(4_026_531_841),
        take(u32::MAX),
        take(4_026_531_840),
    ];
    [&nothing[..], &all, &run, &no_record, &no_class]
        .map(<[Call]>::to_vec)
        .to_vec()
}

/// Hand backs whose record and offset do not agree, or agree by chance.
fn offsets() -> Vec<Vec<Call>> {
    let two_out = |calls: &[Call]| [&TWO_OUT[..], calls].concat();
    vec![
        still_live(),
        two_out(&NOT_LIVE),
        two_out(&ANOTHER_SPAN),
        two_out(&NEARLY),
        two_out(&MATCHED_AGAIN),
        two_out(&GRANTED_ELSEWHERE),
        two_out(&STALE_AFTER_RESET),
        two_out(&MATCHED_AFTER_SET_UP),
        one_offset_twice(),
        high_offset(),
    ]
}

/// The refused one changes nothing: the span is out, and goes back.
fn still_live() -> Vec<Call> {
    vec![
        set_up(100, 6),
        take(96),
        hand_back(0, 1),
        take(20),
        hand_back(0, 0),
        take(20),
        hand_back(0, u32::MAX),
        hand_back(0, 0),
        hand_back(0, 0),
    ]
}

/// A free record, with its offset and another, a spare one, numbers that are no
/// record, and the second span with its offset in the record's place.
const NOT_LIVE: [Call; 6] = [
    hand_back(2, 50),
    hand_back(2, 51),
    hand_back(3, 20),
    hand_back(6, 20),
    hand_back(u32::MAX, 20),
    hand_back(20, 1),
];

/// Each with the other's offset, also when that has gone back.
const ANOTHER_SPAN: [Call; 5] = [
    hand_back(0, 20),
    hand_back(1, 0),
    hand_back(0, 0),
    hand_back(1, 0),
    hand_back(1, 20),
];

/// Its neighbours, its end, its record and its length; one byte that is wrong,
/// each of the four, and the greatest of all.
const NEARLY: [Call; 10] = [
    hand_back(1, 19),
    hand_back(1, 21),
    hand_back(1, 50),
    hand_back(1, 1),
    hand_back(1, 30),
    hand_back(1, 20 + (1 << 8)),
    hand_back(1, 20 + (1 << 16)),
    hand_back(1, 20 + (1 << 31)),
    hand_back(1, u32::MAX),
    hand_back(1, 20),
];

/// The pair of the first span stands for a later one that got the same, and is
/// accepted once more.
const MATCHED_AGAIN: [Call; 4] = [hand_back(0, 0), take(10), hand_back(0, 0), hand_back(0, 0)];

/// The pair of the second span, whose record was granted at 0 since.
const GRANTED_ELSEWHERE: [Call; 5] = [
    hand_back(0, 0),
    hand_back(1, 20),
    take(5),
    hand_back(1, 20),
    hand_back(1, 0),
];

/// The same, from before a reset.
const STALE_AFTER_RESET: [Call; 6] = [
    Call::Reset,
    hand_back(1, 20),
    take(10),
    take(30),
    hand_back(1, 20),
    hand_back(1, 10),
];

/// And from before a setup, after which a span of other length got the same.
const MATCHED_AFTER_SET_UP: [Call; 4] = [set_up(50, 4), take(20), take(5), hand_back(1, 20)];

/// Two spans of no length start at 0: the record tells them apart.
fn one_offset_twice() -> Vec<Call> {
    vec![
        set_up(100, 6),
        take(0),
        take(0),
        hand_back(1, 0),
        hand_back(1, 0),
        hand_back(0, 0),
    ]
}

/// An offset that needs all 32 bits.
fn high_offset() -> Vec<Call> {
    vec![
        set_up(u32::MAX, 6),
        take(4_026_531_840),
        take(1),
        hand_back(1, 4_026_531_840 - (1 << 31)),
        hand_back(1, 0),
        hand_back(1, 4_026_531_840),
    ]
}

#[cfg(test)]
mod tests {
    use super::*;

    /// The bytes of a row, read back.
    fn read(row: &str) -> Vec<u8> {
        let (plain, zeros) = match row.split_once('z') {
            Some((plain, zeros)) => (plain, zeros.strip_suffix('.').expect("a point ends it")),
            None => (row, "0"),
        };
        let digits = plain.as_bytes().chunks(2);
        let mut bytes: Vec<u8> = digits
            .map(|pair| std::str::from_utf8(pair).expect("ASCII"))
            .map(|pair| u8::from_str_radix(pair, 16).expect("two digits"))
            .collect();
        let zeros: usize = zeros.parse().expect("a number");
        bytes.resize(bytes.len() + zeros, 0);
        bytes
    }

    fn printed(journal: &[u8]) -> Vec<String> {
        replay::lines(journal)
            .map(|line| line.to_string())
            .collect()
    }

    #[test]
    fn a_row_holds_the_journal() {
        for case in cases() {
            assert_eq!(read(&case.row()), case.journal());
        }
        let [whole, _, cut] = greatest_lengths();
        assert_eq!(whole.row(), "ffff0100z65533.");
        assert_eq!(cut.row(), "ffff0100z65532.");
        assert_eq!(plain(EXAMPLE.to_vec()).row().len(), 2 * EXAMPLE.len());
        assert_eq!(plain(Vec::new()).row(), "");
    }

    #[test]
    fn each_refusal_is_met() {
        let last = |journal: &Vec<u8>| printed(journal).pop().expect("a line");
        let met: Vec<String> = refusals().iter().map(last).collect();
        assert_eq!(met, ["1", "2", "3", "4", "5", "6", "8", "13", "14", "15"]);
    }

    #[test]
    fn the_greatest_lengths_are_refused() {
        let met = greatest_lengths().map(|case| printed(&case.journal()).concat());
        assert_eq!(met, ["15", "14", "13"]);
    }

    #[test]
    fn document_01_s_run_has_its_answers() {
        let answers = [
            "0", "0 0 0", "0 20 1", "4", "0 50 2", "0", "5", "0 98 3", "3", "0", "0", "0",
        ];
        assert_eq!(printed(&written(&limits()[2])), answers);
    }

    #[test]
    fn after_a_refused_setup_there_is_no_store() {
        let all = stores();
        let last = &all[all.len() - 2];
        let answers = ["0", "0 0 0", "1", "6", "6", "6", "0", "0 0 0", "0"];
        assert_eq!(printed(&written(last)), answers);
    }

    #[test]
    fn a_hand_back_in_part_is_cut_and_an_old_one_has_a_wrong_length() {
        let met: Vec<String> = hand_backs_in_part()
            .iter()
            .map(|journal| printed(journal)[3..].concat())
            .collect();
        assert_eq!(met[..11], ["13"; 11]);
        assert_eq!(met[11..], ["0", "15", "15"]);
    }

    #[test]
    fn a_wrong_offset_is_refused_where_the_record_is_live() {
        let two_out = "0, 0 0 0, 0 20 1, ";
        let after_two_out = |calls: &Vec<Call>| {
            let met = printed(&written(calls)).join(", ");
            met.strip_prefix(two_out).unwrap_or(&met).to_owned()
        };
        let met: Vec<String> = offsets().iter().map(after_two_out).collect();
        assert_eq!(
            met,
            [
                "0, 0 0 0, 8, 4, 0, 0 0 0, 8, 0, 5",
                "5, 5, 5, 5, 5, 5",
                "8, 8, 0, 8, 0",
                "8, 8, 8, 8, 8, 8, 8, 8, 8, 0",
                "0, 0 0 0, 0, 5",
                "0, 0, 0 0 1, 8, 0",
                "0, 5, 0 0 0, 0 10 1, 8, 0",
                "0, 0 0 0, 0 20 1, 0",
                "0, 0 0 0, 0 0 1, 0, 5, 0",
                "0, 0 0 0, 0 4026531840 1, 8, 8, 0",
            ]
        );
    }
}
