//! Request 1's journal, with request 3's longer hand back: a plain writer and reader of records.

/// The fields of a call by its kind: the length that its record names, or none for an unknown kind.
fn length_of(kind: u32) -> Option<usize> {
    match kind {
        1 => Some(2 + 4),
        2 | 3 => Some(2 + 8),
        4 => Some(2),
        _ => None,
    }
}

/// A record's bytes, or none for a kind that is none of the four.
pub fn record(kind: u32, first: u32, second: u32) -> Option<Vec<u8>> {
    let length = length_of(kind)?;
    let mut bytes = (length as u16).to_le_bytes().to_vec();
    bytes.extend((kind as u16).to_le_bytes());
    for field in [first, second] {
        bytes.extend(field.to_le_bytes());
    }
    bytes.truncate(2 + length);
    Some(bytes)
}

#[derive(Clone, Copy, Debug, PartialEq)]
pub enum Found {
    End,
    Broken(u32),
    Call { kind: u32, first: u32, second: u32, next: usize },
}

fn number(bytes: &[u8]) -> u32 {
    bytes.iter().rev().fold(0, |n, b| n * 256 + *b as u32)
}

/// What stands at a place: cut (13) is tried first, then a length below 2 (15), the kind (14), the kind's length (15).
pub fn read(bytes: &[u8], at: usize) -> Found {
    let rest = bytes.get(at..).unwrap_or(&[]);
    if rest.is_empty() {
        return Found::End;
    }
    if rest.len() < 4 || rest.len() - 2 < number(&rest[..2]) as usize {
        return Found::Broken(13);
    }
    let (length, kind) = (number(&rest[..2]) as usize, number(&rest[2..4]));
    match length_of(kind) {
        _ if length < 2 => Found::Broken(15),
        None => Found::Broken(14),
        Some(right) if right != length => Found::Broken(15),
        Some(_) => {
            let field = |k: usize| if length >= 2 + 4 * (k + 1) { number(&rest[4 + 4 * k..8 + 4 * k]) } else { 0 };
            Found::Call { kind, first: field(0), second: field(1), next: at + 2 + length }
        }
    }
}
