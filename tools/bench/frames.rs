//! The calls on frames that are measured: `crates/frame` beside the plain Rust of tools/judge, which gives a `Vec`; and the CRC alone.
use crate::calls::{nothing, reads, Call, Run};
use crate::number::frame_number;
use crate::Case;
use judge::chance::Chance;
use judge::frame::{self, Frame, CRC_START, HEAD, MOST};
use std::hint::black_box;

extern "C" {
    fn bench_read_frame(f: *const u8, f_len: usize) -> i32;
    fn bench_write_frame(
        address: u8,
        reply: bool,
        sequence: u8,
        crc: bool,
        code: u8,
        payload: *const u8,
        payload_len: usize,
        out: *mut u8,
        out_len: usize,
    ) -> i32;
    fn bench_crc(start: u16, bytes: *const u8, bytes_len: usize) -> u16;
}

/// How many bytes the frames have that are timed.
const SIZES: [usize; 4] = [8, 64, 256, MOST];
/// A code that a command has, and one that none has.
const KNOWN: u8 = 0x7C;
const UNKNOWN: u8 = 0x63;
/// The row of a writer that has too little room, which the plain Rust lacks.
const NO_ROOM: i32 = -15;

fn described(crc: bool, code: u8) -> Frame {
    Frame { address: 5, reply: false, sequence: 1, crc, code }
}

/// The bytes between code and check; none if the frame is too short.
fn payload(crc: bool, f: &[u8]) -> &[u8] {
    f.get(HEAD..f.len().saturating_sub(frame::width(crc))).unwrap_or_default()
}

fn read(_: u8, f: &[u8], _: &mut [u8]) -> i32 {
    unsafe { bench_read_frame(f.as_ptr(), f.len()) }
}

fn rust_read(_: u8, f: &[u8], _: &mut [u8]) -> i32 {
    match frame::read(f) {
        Ok((r, payload)) => frame_number(&r, &payload),
        Err(e) => -i32::from(e.row),
    }
}

/// Writes a frame with the payload of f.
fn write<const CRC: bool>(code: u8, f: &[u8], out: &mut [u8]) -> i32 {
    let Frame { address, reply, sequence, crc, code } = described(CRC, code);
    let p = payload(CRC, f);
    unsafe { bench_write_frame(address, reply, sequence, crc, code, p.as_ptr(), p.len(), out.as_mut_ptr(), out.len()) }
}

fn rust_write<const CRC: bool>(code: u8, f: &[u8], _: &mut [u8]) -> i32 {
    match black_box(&frame::write(&described(CRC, code), payload(CRC, f))) {
        Ok(bytes) => bytes.len() as i32,
        Err(e) => -i32::from(e.row),
    }
}

fn crc(_: u8, p: &[u8], _: &mut [u8]) -> i32 {
    i32::from(unsafe { bench_crc(CRC_START, p.as_ptr(), p.len()) })
}

fn rust_crc(_: u8, p: &[u8], _: &mut [u8]) -> i32 {
    i32::from(frame::crc(CRC_START, p))
}

/// What a writer has to answer that has as much room as f has bytes, and the bytes that it has to leave.
fn written(has_crc: bool, code: u8, f: &[u8]) -> (i32, Vec<u8>) {
    match frame::write(&described(has_crc, code), payload(has_crc, f)) {
        Ok(bytes) if bytes.len() > f.len() => (NO_ROOM, Vec::new()),
        Ok(bytes) => (bytes.len() as i32, bytes),
        Err(e) => (-i32::from(e.row), Vec::new()),
    }
}

fn case(has_crc: bool, code: u8, f: Vec<u8>) -> Case {
    let number = rust_read(code, &f, &mut []);
    let (answer, bytes) = written(has_crc, code, &f);
    let (name, writes): (_, [Run; 2]) =
        if has_crc { ("CRC frame", [write::<true>, rust_write::<true>]) } else { ("checksum frame", [write::<false>, rust_write::<false>]) };
    let calls = vec![
        reads("read", read, number),
        reads("rust-read", rust_read, number),
        Call { name: "write", run: writes[0], answer, written: bytes },
        reads("rust-write", writes[1], writes[1](code, &f, &mut [])),
        reads("nothing", nothing, 0),
    ];
    Case { name, code, payload: f, calls }
}

/// A frame of n bytes, which the plain Rust writes and reads.
fn accepted(has_crc: bool, n: usize, r: &mut Chance) -> Vec<u8> {
    let f = frame::write(&described(has_crc, KNOWN), &r.bytes(n - HEAD - frame::width(has_crc)));
    f.unwrap_or_else(|e| panic!("a frame of {n} bytes is refused by row {}", e.row))
}

pub fn timed() -> Vec<Case> {
    let mut r = Chance::new(2);
    let bytes = r.bytes(MOST);
    let answer = rust_crc(0, &bytes, &mut []);
    let calls = vec![reads("crc", crc, answer), reads("rust-crc", rust_crc, answer), reads("nothing", nothing, 0)];
    let alone = Case { name: "CRC", code: 0, payload: bytes, calls };
    let frames = [true, false].into_iter().flat_map(|has_crc| SIZES.map(|n| (has_crc, n)));
    frames.map(|(has_crc, n)| case(has_crc, KNOWN, accepted(has_crc, n, &mut r))).chain([alone]).collect()
}

/// No bytes, which leave a writer no room; a writer's code that no command has; and frames with a wrong byte before the payload or in the check.
pub fn refused() -> Vec<Case> {
    let of_check = |has_crc: bool| {
        let right = accepted(has_crc, SIZES[1], &mut Chance::new(3));
        let wrong = |at: usize| {
            let mut f = right.clone();
            f[at] ^= 0x10;
            case(has_crc, KNOWN, f)
        };
        let wrong = [0, 2, 4, right.len() - 1].map(wrong);
        [case(has_crc, KNOWN, Vec::new()), case(has_crc, UNKNOWN, right.clone())].into_iter().chain(wrong)
    };
    [true, false].into_iter().flat_map(of_check).collect()
}
