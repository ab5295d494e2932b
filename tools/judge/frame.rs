//! The frame round a payload, which the original lacks: a plain model, written from R102 of docs/REQUIREMENTS.md. The code tables are the original's.
//! Row 15 is not here: the program that compares tries buffers that are too short by itself.
use crate::refusal::{refusal, Refusal};
use osdp::command::CommandCode;
use osdp::reply::ReplyCode;

/// The first byte of every frame.
pub const FIRST: u8 = 0x53;
/// How many bytes are before the payload.
pub const HEAD: usize = 6;
/// The most bytes of a frame.
pub const MOST: usize = 1440;
/// What the CRC of a frame starts from.
pub const CRC_START: u16 = 0x1D0F;
/// The bit of the address that a reply has.
pub const REPLY: u8 = 0x80;
/// The bits of the control byte that are the sequence, and the one that asks for a CRC. No other may be set.
pub const SEQUENCE: u8 = 0x03;
pub const CRC: u8 = 0x04;

/// The rows that a reader can give, and a writer, except row 15.
pub const READ_ROWS: [u8; 7] = [1, 2, 4, 6, 20, 21, 22];
pub const WRITE_ROWS: [u8; 4] = [1, 2, 20, 22];

#[derive(Clone, Copy, PartialEq, Eq)]
pub struct Frame {
    /// Without the bit that a reply has.
    pub address: u8,
    pub reply: bool,
    pub sequence: u8,
    pub crc: bool,
    pub code: u8,
}

/// Bit by bit, the highest bit of each byte first.
pub fn crc(start: u16, bytes: &[u8]) -> u16 {
    let mut crc = start;
    for b in bytes {
        crc ^= u16::from(*b) << 8;
        for _ in 0..8 {
            crc = if crc & 0x8000 != 0 { (crc << 1) ^ 0x1021 } else { crc << 1 };
        }
    }
    crc
}

/// Wraps at 256.
pub fn sum(start: u8, bytes: &[u8]) -> u8 {
    bytes.iter().fold(start, |sum, b| sum.wrapping_add(*b))
}

/// The two's complement of a sum, which is the check byte.
pub fn complement(sum: u8) -> u8 {
    sum.wrapping_neg()
}

/// How many bytes the check has.
pub fn width(has_crc: bool) -> usize {
    if has_crc { 2 } else { 1 }
}

fn is_right(has_crc: bool, body: &[u8], check: &[u8]) -> bool {
    if has_crc { check == crc(CRC_START, body).to_le_bytes() } else { check == [complement(sum(0, body))] }
}

/// Whether the side's table has the code; row 1 or 2 if not.
pub fn known(is_reply: bool, code: u8) -> Result<(), Refusal> {
    let found = if is_reply { ReplyCode::from_byte(code).map(drop) } else { CommandCode::from_byte(code).map(drop) };
    found.map_err(refusal)
}

/// What the frame says, and its payload, whose content is not examined.
pub fn read(f: &[u8]) -> Result<(Frame, Vec<u8>), Refusal> {
    let refused = |row, first, second| Err(Refusal { row, code: 0, first, second });
    if f.len() < HEAD + 1 {
        return refused(4, HEAD + 1, f.len());
    }
    if f[0] != FIRST {
        return refused(20, 0, 0);
    }
    if f.len() > MOST {
        return refused(22, 0, 0);
    }
    let asked = usize::from(u16::from_le_bytes([f[2], f[3]]));
    if asked != f.len() {
        return refused(6, asked, f.len());
    }
    let control = f[4];
    if control & !(SEQUENCE | CRC) != 0 {
        return refused(20, 0, 0);
    }
    let has_crc = control & CRC != 0;
    let least = HEAD + width(has_crc);
    if f.len() < least {
        return refused(4, least, f.len());
    }
    let (body, check) = f.split_at(f.len() - width(has_crc));
    if !is_right(has_crc, body, check) {
        return refused(21, 0, 0);
    }
    let frame = Frame { address: f[1] & !REPLY, reply: f[1] & REPLY != 0, sequence: control & SEQUENCE, crc: has_crc, code: f[5] };
    known(frame.reply, frame.code)?;
    Ok((frame, body[HEAD..].to_vec()))
}

pub fn write(frame: &Frame, payload: &[u8]) -> Result<Vec<u8>, Refusal> {
    let Frame { address, reply, sequence, crc: has_crc, code } = *frame;
    let refused = |row| Err(Refusal { row, code, first: 0, second: 0 });
    if address >= REPLY || sequence > SEQUENCE {
        return refused(20);
    }
    known(reply, code)?;
    let whole = HEAD + payload.len() + width(has_crc);
    if whole > MOST {
        return refused(22);
    }
    let [low, high] = (whole as u16).to_le_bytes();
    let mut f = Vec::with_capacity(whole);
    f.extend([FIRST, if reply { address | REPLY } else { address }, low, high, if has_crc { sequence | CRC } else { sequence }, code]);
    f.extend_from_slice(payload);
    if has_crc {
        f.extend(crc(CRC_START, &f).to_le_bytes());
    } else {
        f.push(complement(sum(0, &f)));
    }
    Ok(f)
}
