//! Cases, and the original's answers to them.
use crate::model::{self, Generation};
use crate::records;
use judge::frame::{self, Frame};
use judge::kinds::{kind, Kind, Side};
use judge::read::{read, read_of_kind, Written};
use judge::refusal::{refusal, Refusal};
use judge::scan::{steps, Scanned};
use osdp::command::{self as cmd, CommandCode};
use osdp::error::Error;
use osdp::guards;
use osdp::reply::{self as rep, ReplyCode};
use std::panic::{catch_unwind, AssertUnwindSafe};

pub enum Case {
    /// One of TABLES, and a byte to look up.
    Table(usize, u8),
    /// One of GUARDS, its number, code byte and data.
    Guard(usize, usize, u8, Vec<u8>),
    /// A payload, by all calls for it, or only by those of its kind, which have no limit on the payload's length.
    Payload { side: Side, of_kind: bool, code: u8, payload: Vec<u8> },
    /// A record made by hand, to be written.
    Write { side: Side, code: u8, fixed: Vec<u8>, tail: Vec<u8> },
    Bits(u16, Vec<u8>),
    /// Record k of a list.
    Record { code: u8, k: usize, payload: Vec<u8> },
    /// A walker that is started, or one that is made at a place.
    Walk { place: Option<usize>, payload: Vec<u8> },
    /// The OUT record that starts at a place.
    ReadAt { place: usize, payload: Vec<u8> },
    /// One record of a list, to be written at a place of a buffer of so many bytes.
    WriteAt { code: u8, place: usize, room: usize, fixed: Vec<u8> },
    /// A frame to be read.
    Frame(Vec<u8>),
    /// A frame to be written.
    FrameWrite { frame: Frame, payload: Vec<u8> },
    /// Both checks of some bytes. The CRC starts from the number, the sum from its low byte.
    Checks(u16, Vec<u8>),
    /// A line's stream to be gone through, and whether it has ended.
    Stream { ended: bool, bytes: Vec<u8> },
}

pub const TABLES: [&str; 8] =
    ["CommandCode", "ReplyCode", "LedColor", "BioType", "BioFormat", "OutputControlCode", "TextCommand", "NakErrorCode"];
pub const GUARDS: [&str; 4] = ["exact", "least", "positive", "multiple"];
/// The checks of a frame: without a CRC, and with one.
pub const CHECKS: [&str; 2] = ["sum", "crc"];

/// Of a frame's side and check.
pub fn names(reply: bool, crc: bool) -> (&'static str, &'static str) {
    (Side::BOTH[usize::from(reply)].name(), CHECKS[usize::from(crc)])
}

pub enum Answer {
    Refused(Refusal),
    Passed,
    /// The byte of a code, or the bytes handed out.
    Gave(Vec<u8>),
    /// A record made by hand that is written.
    Wrote(Written),
    /// A payload that is accepted: fields, tail, the record written again, and what strict refuses for the second and for the first generation.
    Read { kind: &'static Kind, parts: records::Parts, wrote: Written, strict: Option<Refusal>, first: Option<Refusal> },
    /// A frame that is accepted: what it says, and its payload.
    Framed(Frame, Vec<u8>),
    /// Every step through a stream.
    Steps(Vec<Scanned>),
}

fn gave(r: Result<Vec<u8>, Error>) -> Answer {
    match r {
        Ok(bytes) => Answer::Gave(bytes),
        Err(e) => Answer::Refused(refusal(e)),
    }
}

fn table(which: usize, b: u8) -> Answer {
    gave(match TABLES[which] {
        "CommandCode" => CommandCode::from_byte(b).map(|c| vec![c.as_byte()]),
        "ReplyCode" => ReplyCode::from_byte(b).map(|c| vec![c.as_byte()]),
        "LedColor" => Ok(vec![cmd::LedColor::from_byte(b).as_byte()]),
        "BioType" => Ok(vec![cmd::BioType::from_byte(b).as_byte()]),
        "BioFormat" => Ok(vec![cmd::BioFormat::from_byte(b).as_byte()]),
        "OutputControlCode" => cmd::OutputControlCode::from_byte(b).map(|c| vec![c.as_byte()]),
        "TextCommand" => cmd::TextCommand::from_byte(b).map(|c| vec![c.as_byte()]),
        _ => rep::NakErrorCode::from_byte(b).map(|c| vec![c.as_byte()]),
    })
}

fn guard(which: usize, n: usize, code: u8, data: &[u8]) -> Answer {
    let call = [guards::require_exact_len, guards::require_at_least, guards::require_positive_multiple_of, guards::require_multiple_of][which];
    match catch_unwind(AssertUnwindSafe(|| call(data, n, code))) {
        Ok(Ok(())) => Answer::Passed,
        Ok(Err(e)) => Answer::Refused(refusal(e)),
        Err(_) if n == 0 => Answer::Refused(model::block_of_zero(code, data.len())),
        Err(_) => panic!("a guard panicked"),
    }
}

fn payload(side: Side, of_kind: bool, code: u8, payload: &[u8]) -> Answer {
    let record = match if of_kind { read_of_kind(side, code, payload) } else { read(side, code, payload) } {
        Ok(r) => r,
        Err(e) => return Answer::Refused(e),
    };
    let (kind, parts) = kind(side, code).zip(records::parts_of(&record)).expect("a carried kind");
    let wrote = record.written(kind, &parts.fixed).unwrap_or_else(|e| panic!("what was read is not written: row {}", e.row));
    let strict = |generation| model::strict(kind, payload, generation);
    Answer::Read { kind, parts, wrote, strict: strict(Generation::Second), first: strict(Generation::First) }
}

fn write(side: Side, code: u8, fixed: &[u8], tail: &[u8]) -> Answer {
    let (kind, record) = kind(side, code).zip(records::record_of(side, code, fixed, tail.to_vec())).expect("a record of the original");
    match record.written(kind, fixed) {
        Ok(wrote) => Answer::Wrote(wrote),
        Err(e) => Answer::Refused(e),
    }
}

fn picked<T>(code: u8, list: Result<Vec<T>, Error>, k: usize, bytes: fn(&T) -> Vec<u8>) -> Answer {
    match list {
        Err(e) => Answer::Refused(refusal(e)),
        Ok(records) => match model::record(code, &records, k) {
            Ok(r) => Answer::Gave(bytes(r)),
            Err(e) => Answer::Refused(e),
        },
    }
}

fn record(code: u8, k: usize, payload: &[u8]) -> Answer {
    match code {
        0x69 => picked(code, cmd::LedControl::decode(payload).map(|l| l.records), k, records::led_bytes),
        0x68 => picked(code, cmd::OutputControl::decode(payload).map(|l| l.records), k, records::output_bytes),
        _ => panic!("{code:02X} is no list"),
    }
}

fn walk(place: Option<usize>, payload: &[u8]) -> Answer {
    if let Some(at) = place {
        return Answer::Gave(model::walk(payload, at));
    }
    gave(cmd::LedControl::decode(payload).map(|l| l.records.iter().flat_map(records::led_bytes).collect()))
}

fn read_at(place: usize, payload: &[u8]) -> Answer {
    match model::part(0x68, payload, place, 4) {
        Ok(part) => picked(0x68, cmd::OutputControl::decode(part).map(|l| l.records), 0, records::output_bytes),
        Err(e) => Answer::Refused(e),
    }
}

fn write_at(code: u8, place: usize, room: usize, fixed: &[u8]) -> Answer {
    match model::room_at(code, place, fixed.len(), room) {
        Ok(()) => write(Side::Command, code, fixed, &[]),
        Err(e) => Answer::Refused(e),
    }
}

fn bits(count: u16, bits: &[u8]) -> Answer {
    let raw = rep::Raw { reader: 0, format_code: 0, bit_count: count, bits: bits.to_vec() };
    Answer::Gave(raw.iter_bits().map(u8::from).collect())
}

/// Stops if writing what was read does not return the frame.
fn read_frame(bytes: &[u8]) -> Answer {
    match frame::read(bytes) {
        Ok((frame, payload)) => {
            let again = frame::write(&frame, &payload);
            assert!(again.is_ok_and(|f| f == bytes), "a frame of {} bytes that was read is not written as it was", bytes.len());
            Answer::Framed(frame, payload)
        }
        Err(e) => Answer::Refused(e),
    }
}

/// Stops if what was written is not read as the same.
fn write_frame(frame: &Frame, payload: &[u8]) -> Answer {
    match frame::write(frame, payload) {
        Ok(bytes) => {
            let again = frame::read(&bytes);
            assert!(again.is_ok_and(|(f, p)| f == *frame && p == payload), "a frame of {} bytes is not read as it was written", bytes.len());
            Answer::Gave(bytes)
        }
        Err(e) => Answer::Refused(e),
    }
}

fn checks(start: u16, bytes: &[u8]) -> Answer {
    let [low, high] = frame::crc(start, bytes).to_le_bytes();
    let sum = frame::sum(start as u8, bytes);
    Answer::Gave(vec![low, high, sum, frame::complement(sum)])
}

pub fn answer(case: &Case) -> Answer {
    match case {
        Case::Table(which, b) => table(*which, *b),
        Case::Guard(which, n, code, data) => guard(*which, *n, *code, data),
        Case::Payload { side, of_kind, code, payload: bytes } => payload(*side, *of_kind, *code, bytes),
        Case::Write { side, code, fixed, tail } => write(*side, *code, fixed, tail),
        Case::Bits(count, data) => bits(*count, data),
        Case::Record { code, k, payload } => record(*code, *k, payload),
        Case::Walk { place, payload } => walk(*place, payload),
        Case::ReadAt { place, payload } => read_at(*place, payload),
        Case::WriteAt { code, place, room, fixed } => write_at(*code, *place, *room, fixed),
        Case::Frame(bytes) => read_frame(bytes),
        Case::FrameWrite { frame, payload } => write_frame(frame, payload),
        Case::Checks(start, bytes) => checks(*start, bytes),
        Case::Stream { ended, bytes } => Answer::Steps(steps(bytes, *ended)),
    }
}
