//! What docs/REQUIREMENTS.md adds and the original lacks: a plain model, written only for the comparison.
//! Row 15 for calls that write from a buffer's front is not here: the program that compares tries buffers that are too short by itself.
use crate::records::led_bytes;
use judge::kinds::Kind;
use judge::refusal::Refusal;
use osdp::command::LedControl;

/// A guard with a block of 0, for which the original can panic: row 5.
pub fn block_of_zero(code: u8, len: usize) -> Refusal {
    Refusal { row: 5, code, first: 0, second: len }
}

/// The two generations of readers.
#[derive(Clone, Copy, PartialEq, Eq)]
pub enum Generation {
    First,
    Second,
}

/// The highest colour that the first generation knows.
const FIRST_KNOWS: u8 = 4;

/// The row for the first byte, by offset, that is above its highest.
fn first_above(row: u8, kind: &Kind, payload: &[u8], limits: &[(usize, u8)]) -> Option<Refusal> {
    let record = if kind.step > 1 { kind.step } else { usize::MAX };
    let above = |&(at, &b): &(usize, &u8)| limits.iter().any(|&(place, highest)| at % record == place && b > highest);
    let (first, &b) = payload.iter().enumerate().find(above)?;
    Some(Refusal { row, code: kind.code, first, second: b.into() })
}

/// The strict check of a payload that passes check: row 17 for the first byte, by offset, that reading would fold; and for the first generation, if
/// there is none, row 18 for the first colour that it does not know.
pub fn strict(kind: &Kind, payload: &[u8], generation: Generation) -> Option<Refusal> {
    let limits: Vec<(usize, u8)> = kind.limits().collect();
    let folded = first_above(17, kind, payload, &limits);
    if folded.is_some() || generation == Generation::Second || kind.name != "LED" {
        return folded;
    }
    let colours: Vec<(usize, u8)> = limits.iter().map(|&(place, _)| (place, FIRST_KNOWS)).collect();
    first_above(18, kind, payload, &colours)
}

/// Record k of a list that was read; row 16 if there is none.
pub fn record<T>(code: u8, records: &[T], k: usize) -> Result<&T, Refusal> {
    records.get(k).ok_or(Refusal { row: 16, code, first: k, second: records.len() })
}

/// The records that an LED walker hands out from any place on, until fewer than 14 bytes are left.
pub fn walk(payload: &[u8], place: usize) -> Vec<u8> {
    let rest = payload.get(place..).unwrap_or(&[]);
    rest.chunks_exact(14).flat_map(|r| led_bytes(&LedControl::decode(r).expect("14 bytes").records[0])).collect()
}

/// The bytes of a record of so many bytes at a place; row 4 if fewer are left from there.
pub fn part(code: u8, payload: &[u8], place: usize, width: usize) -> Result<&[u8], Refusal> {
    let rest = payload.get(place..).unwrap_or(&[]);
    rest.get(..width).ok_or(Refusal { row: 4, code, first: width, second: rest.len() })
}

/// Whether a record of so many bytes fits at a place of a buffer; row 15 if not.
pub fn room_at(code: u8, place: usize, width: usize, room: usize) -> Result<(), Refusal> {
    let needed = place.saturating_add(width);
    if place.checked_add(width).is_some_and(|n| n <= room) { Ok(()) } else { Err(Refusal { row: 15, code, first: needed, second: room }) }
}
