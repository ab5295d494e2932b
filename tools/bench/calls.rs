//! The calls that are measured, each with what it has to answer for a payload and to leave in the output.
use crate::number::Number;
use judge::kinds::{Kind, Side};
use judge::read::normalised;
use judge::refusal::refusal;
use osdp::command::{self as cmd, Command, CommandCode};
use osdp::reply::{self as rep, Reply, ReplyCode};
use std::hint::black_box;

pub type Run = fn(u8, &[u8], &mut [u8]) -> i32;

/// A linked library, by the names of its four calls.
macro_rules! library {
    ($check_command:ident $check_reply:ident $normalise_command:ident $normalise_reply:ident) => {
        use super::{Run, Side};

        extern "C" {
            fn $check_command(code: u8, payload: *const u8, payload_len: usize) -> i32;
            fn $check_reply(code: u8, payload: *const u8, payload_len: usize) -> i32;
            fn $normalise_command(code: u8, payload: *const u8, payload_len: usize, out: *mut u8, out_len: usize) -> i32;
            fn $normalise_reply(code: u8, payload: *const u8, payload_len: usize, out: *mut u8, out_len: usize) -> i32;
        }

        /// Check and normalise.
        pub fn calls(side: Side) -> [Run; 2] {
            match side {
                Side::Command => [
                    |code, p, _| unsafe { $check_command(code, p.as_ptr(), p.len()) },
                    |code, p, out| unsafe { $normalise_command(code, p.as_ptr(), p.len(), out.as_mut_ptr(), out.len()) },
                ],
                Side::Reply => [
                    |code, p, _| unsafe { $check_reply(code, p.as_ptr(), p.len()) },
                    |code, p, out| unsafe { $normalise_reply(code, p.as_ptr(), p.len(), out.as_mut_ptr(), out.len()) },
                ],
            }
        }
    };
}

mod built {
    library!(osdp_check_command osdp_check_reply osdp_normalise_command osdp_normalise_reply);
}

#[cfg(beside)]
mod beside {
    library!(beside_osdp_check_command beside_osdp_check_reply beside_osdp_normalise_command beside_osdp_normalise_reply);
}

// The Rust by code byte, like the C calls.

fn decode_command(code: u8, p: &[u8], _: &mut [u8]) -> i32 {
    black_box(&CommandCode::from_byte(code).and_then(|c| Command::decode(c, p))).is_ok() as i32
}

fn decode_reply(code: u8, p: &[u8], _: &mut [u8]) -> i32 {
    black_box(&ReplyCode::from_byte(code).and_then(|c| Reply::decode(c, p))).is_ok() as i32
}

fn again_command(code: u8, p: &[u8], _: &mut [u8]) -> i32 {
    black_box(&CommandCode::from_byte(code).and_then(|c| Command::decode(c, p)).and_then(|r| r.encode_data())).is_ok() as i32
}

fn again_reply(code: u8, p: &[u8], _: &mut [u8]) -> i32 {
    black_box(&ReplyCode::from_byte(code).and_then(|c| Reply::decode(c, p)).and_then(|r| r.encode_data())).is_ok() as i32
}

/// The calls of one kind alone, which take no code byte.
struct OfKind {
    /// crates/bench_read: decode and the tail, and a number made of all fields.
    read: Run,
    /// The Rust: decode, and that number.
    number: Run,
    /// The Rust: decode.
    decode: Run,
    /// The Rust: decode and encode.
    again: Run,
}

macro_rules! of_kind {
    ($T:ty, $read:ident) => {{
        extern "C" {
            fn $read(payload: *const u8, payload_len: usize) -> i32;
        }
        OfKind {
            read: |_, p, _| unsafe { $read(p.as_ptr(), p.len()) },
            number: |_, p, _| match <$T>::decode(p) {
                Ok(r) => r.number(),
                Err(e) => -i32::from(refusal(e).row),
            },
            decode: |_, p, _| black_box(&<$T>::decode(p)).is_ok() as i32,
            again: |_, p, _| black_box(&<$T>::decode(p).and_then(|r| r.encode())).is_ok() as i32,
        }
    }};
}

fn of_kind(k: &Kind) -> OfKind {
    match k.name {
        "LED" => of_kind!(cmd::LedControl, bench_read_led),
        "OUT" => of_kind!(cmd::OutputControl, bench_read_out),
        "TEXT" => of_kind!(cmd::Text, bench_read_text),
        "BIOREAD" => of_kind!(cmd::BioRead, bench_read_bioread),
        "BIOMATCH" => of_kind!(cmd::BioMatch, bench_read_biomatch),
        "FILETRANSFER" => of_kind!(cmd::FileTransfer, bench_read_filetransfer),
        "MFG" => of_kind!(cmd::Mfg, bench_read_mfg),
        "RAW" => of_kind!(rep::Raw, bench_read_raw),
        "FMT" => of_kind!(rep::Fmt, bench_read_fmt),
        "BIOREADR" => of_kind!(rep::BioReadR, bench_read_bioreadr),
        "BIOMATCHR" => of_kind!(rep::BioMatchR, bench_read_biomatchr),
        "NAK" => of_kind!(rep::Nak, bench_read_nak),
        "XRD" => of_kind!(rep::Xrd, bench_read_xrd),
        "KEYPAD" => of_kind!(rep::Keypad, bench_read_keypad),
        "COMSET" => of_kind!(cmd::ComSet, bench_read_comset),
        "COM" => of_kind!(rep::Com, bench_read_com),
        "PDID" => of_kind!(rep::PdId, bench_read_pdid),
        "LSTATR" => of_kind!(rep::LStatR, bench_read_lstatr),
        "ACURXSIZE" => of_kind!(cmd::AcuRxSize, bench_read_acurxsize),
        "KEEPACTIVE" => of_kind!(cmd::KeepActive, bench_read_keepactive),
        other => panic!("which type of the original is {other}?"),
    }
}

fn copy(_: u8, p: &[u8], out: &mut [u8]) -> i32 {
    out[..p.len()].copy_from_slice(p);
    0
}

/// A call of nothing: its time is that of the loop that measures, and of a call by pointer.
pub fn nothing(_: u8, _: &[u8], _: &mut [u8]) -> i32 {
    0
}

pub struct Call {
    pub name: &'static str,
    pub run: Run,
    /// The right answer.
    pub answer: i32,
    /// The bytes that the call has to leave at the front of the output. It leaves all behind them as it is.
    pub written: Vec<u8>,
}

/// A call that leaves the output as it is.
pub fn reads(name: &'static str, run: Run, answer: i32) -> Call {
    Call { name, run, answer, written: Vec::new() }
}

/// What the original says of a payload, as answers of the calls: of check, of normalise and of the Rust's own, and the bytes of the second.
struct Right {
    check: i32,
    normalise: i32,
    rust: i32,
    written: Vec<u8>,
}

fn right(k: &Kind, p: &[u8]) -> Right {
    match normalised(k.side, k.code, p) {
        Ok(bytes) => Right { check: 0, normalise: bytes.len() as i32, rust: 1, written: bytes },
        Err(e) => Right { check: -i32::from(e.row), normalise: -i32::from(e.row), rust: 0, written: Vec::new() },
    }
}

pub fn calls(k: &Kind, p: &[u8]) -> Vec<Call> {
    let of_kind = of_kind(k);
    let right = right(k, p);
    let number = (of_kind.number)(k.code, p, &mut []);
    let [check, normalise] = built::calls(k.side);
    let [decode, again]: [Run; 2] = match k.side {
        Side::Command => [decode_command, again_command],
        Side::Reply => [decode_reply, again_reply],
    };
    let writes = |name, run, answer, written: &[u8]| Call { name, run, answer, written: written.to_vec() };
    vec![
        reads("check", check, right.check),
        #[cfg(beside)]
        reads("check-beside", beside::calls(k.side)[0], right.check),
        reads("decode", decode, right.rust),
        reads("decode-of-type", of_kind.decode, right.rust),
        writes("normalise", normalise, right.normalise, &right.written),
        #[cfg(beside)]
        writes("normalise-beside", beside::calls(k.side)[1], right.normalise, &right.written),
        reads("decode+encode", again, right.rust),
        reads("decode+encode-of-type", of_kind.again, right.rust),
        reads("read", of_kind.read, number),
        reads("decode+number-of-type", of_kind.number, number),
        writes("memcpy", copy, 0, p),
        reads("nothing", nothing, 0),
    ]
}
