//! The wrong archives of the two calls on frames.
use super::{by_scratch, mutant, shows, After, Answer, Ask, Call, Mutant, Place, Shows, Wrong, CALLS, LAST};
use judge::frame::{complement, crc, known, read, sum, width, Frame, CRC, CRC_START, FIRST, HEAD, MOST, READ_ROWS, REPLY, SEQUENCE, WRITE_ROWS};
use judge::frames::{checked, framed, CONTROL};
use judge::kinds::Side;
use judge::read::normalised;
use std::sync::atomic::Ordering::Relaxed;

pub const READ: Place = Place::Frames("read");
pub const WRITE: Place = Place::Frames("write");

/// What a frame is written of, but its code and payload. reply and crc are flags.
#[derive(Clone, Copy, Default)]
pub struct Head {
    pub address: u8,
    pub reply: u8,
    pub sequence: u8,
    pub crc: u8,
}

impl Call<'_> {
    /// What is to be written.
    pub fn frame(&self) -> Frame {
        let Head { address, reply, sequence, crc } = self.head;
        Frame { address, reply: reply != 0, sequence, crc: crc != 0, code: self.code }
    }

    /// The same as a frame, whatever there is to refuse.
    fn written(&self) -> Vec<u8> {
        let Frame { address, reply, sequence, crc, code } = self.frame();
        framed(if reply { address | REPLY } else { address }, if crc { sequence | CRC } else { sequence }, code, self.front())
    }

    /// How many bytes that takes.
    fn whole(&self) -> usize {
        HEAD + self.n() + width(self.head.crc != 0)
    }

    fn write_anyway(&mut self) {
        self.answer = Ok(self.written());
    }

    /// Other bytes are written, with a check that is right for them.
    fn writes(&mut self, change: fn(&mut Vec<u8>)) {
        if let Ok(f) = &mut self.answer {
            change(f);
            *f = checked(std::mem::take(f));
        }
    }

    /// The check is written otherwise; it is given the bytes before it.
    fn writes_check(&mut self, crc: fn(&[u8]) -> [u8; 2], sum: fn(&[u8]) -> u8) {
        if let Ok(f) = &mut self.answer {
            if self.head.crc != 0 {
                f.truncate(f.len() - 2);
                f.extend(crc(f));
            } else {
                f.pop();
                f.push(sum(f));
            }
        }
    }

    /// The answer to other bytes, with a check that is as right as it was.
    fn reads(&mut self, change: fn(&mut Vec<u8>)) {
        if !(HEAD + 1..=MOST).contains(&self.n()) {
            return;
        }
        let mut f = self.p.to_vec();
        let was_right = checked(f.clone()) == f;
        change(&mut f);
        self.answer_to(&if was_right { checked(f) } else { f });
    }

    fn answer_to(&mut self, f: &[u8]) {
        self.answer = read(f).map(|_| Vec::new()).map_err(|e| e.row);
    }

    /// Whether the reader came to the check.
    fn was_checked(&self) -> bool {
        matches!(self.answer, Ok(_) | Err(1 | 2 | 21))
    }

    fn has_crc(&self) -> bool {
        self.b(CONTROL) & CRC != 0
    }

    /// Another check is right: of a CRC, and of a sum, by the bytes before it and itself.
    fn reads_check(&mut self, crc: fn(&[u8], &[u8]) -> bool, sum: fn(&[u8], &[u8]) -> bool) {
        if self.was_checked() {
            let (body, check) = self.p.split_at(self.n() - width(self.has_crc()));
            let is_right = if self.has_crc() { crc } else { sum };
            if is_right(body, check) { self.answer_to(&checked(self.p.to_vec())) } else { self.refuse(21) }
        }
    }

    /// Looks the code of the frame up in a table.
    fn looks_up(&mut self, reply: bool, code: u8) {
        if let Err(e) = known(reply, code) {
            self.refuse(e.row);
        }
    }

    fn is_reply(&self) -> bool {
        self.b(1) >= REPLY
    }
}

/// Adds the check's bytes to the length, or takes them off.
fn add_check(f: &mut [u8], times: i16) {
    let bytes = width(f[CONTROL] & CRC != 0) as i16;
    let n = u16::from_le_bytes([f[2], f[3]]).wrapping_add_signed(times * bytes);
    f[2..4].copy_from_slice(&n.to_le_bytes());
}

fn reading(what: &str, wrong: Wrong) -> Mutant {
    mutant(READ, what, wrong)
}

fn writing(what: &str, wrong: Wrong) -> Mutant {
    mutant(WRITE, what, wrong)
}

pub fn all() -> Vec<Mutant> {
    let of_reading = [read_rows(), read_limits(), read_heads(), read_checks(), read_codes(), read_order(), read_memory(), read_answers()];
    let of_writing = [written_rows(), written_limits(), flags(), written_bytes(), written_order(), written_answers()];
    let of_memory = [rooms(), refusals(), written_memory()];
    of_reading.into_iter().chain(of_writing).chain(of_memory).flatten().collect()
}

/// What is refused by the row is taken.
fn read_rows() -> Vec<Mutant> {
    let left_out = |row: u8| Mutant { row, ..reading(&format!("row {row} is left out"), Answer(|c| if c.is_row(c.row) { c.accept() })) };
    READ_ROWS.map(left_out).into()
}

fn read_limits() -> Vec<Mutant> {
    vec![
        reading("7 bytes are too short", Answer(|c| if c.n() == HEAD + 1 { c.refuse(4) })),
        reading("6 bytes are row 6", Answer(|c| if c.n() == HEAD && c.b(0) == FIRST { c.refuse(6) })),
        reading("8 bytes with a CRC are too short", Answer(|c| if c.was_checked() && c.has_crc() && c.n() == HEAD + 2 { c.refuse(4) })),
        reading("7 bytes that ask for a CRC have a wrong check", Answer(|c| if c.is_row(4) && c.n() == HEAD + 1 { c.refuse(21) })),
        reading("a frame of 1,441 bytes is taken", Answer(|c| if c.is_row(22) && c.n() == MOST + 1 && c.u16(2) == MOST + 1 { c.accept() })),
        reading("a frame of 1,440 bytes is above the limit", Answer(|c| if c.answer.is_ok() && c.n() == MOST { c.refuse(22) })),
        reading("a frame of 1,000 bytes is refused", Answer(|c| if c.answer.is_ok() && c.n() == 1_000 { c.refuse(22) })),
        reading("the length is cut to 16 bits", Ask(|c| c.p = &c.p[..c.p.len() & 0xFFFF])),
        reading("the length is cut to 32 bits", Ask(|c| c.p = &c.p[..c.p.len() & 0xFFFF_FFFF])),
        reading("a length of 2 GiB and more is negative, and too short", Answer(|c| if c.n() >= 1 << 31 { c.refuse(4) })),
    ]
}

fn read_heads() -> Vec<Mutant> {
    vec![
        reading("the first byte 73 hex is taken", Answer(|c| c.reads(|f| if f[0] == 0x73 { f[0] = FIRST }))),
        reading("the control bit 3 is not looked at", Answer(|c| c.reads(|f| f[CONTROL] &= !0x08))),
        reading("the control bit 7 is not looked at", Answer(|c| c.reads(|f| f[CONTROL] &= !0x80))),
        reading("control byte 07 is refused", Answer(|c| if c.answer.is_ok() && c.b(CONTROL) == SEQUENCE | CRC { c.refuse(20) })),
        reading("address 7F is refused", Answer(|c| if c.answer.is_ok() && c.b(1) == 0x7F { c.refuse(20) })),
        reading("a reply from address 0 is refused", Answer(|c| if c.answer.is_ok() && c.b(1) == REPLY { c.refuse(20) })),
        reading("the length's high byte is not read", Answer(|c| c.reads(|f| f[3] = (f.len() >> 8) as u8))),
        reading("the length is read high byte first", Answer(|c| c.reads(|f| f.swap(2, 3)))),
        reading("the length is that without the check", Answer(|c| c.reads(|f| add_check(f, 1)))),
        reading("bytes behind the length are not looked at",
            Ask(|c| if (HEAD..c.n().min(MOST)).contains(&c.u16(2)) { c.p = &c.p[..c.u16(2)] })),
        reading("a length that is one too high is taken", Answer(|c| if c.is_row(6) && c.u16(2) == c.n() + 1 { c.accept() })),
        reading("of the length one bit is not looked at", Answer(|c| c.reads(|f| if f[3] == f.len().to_le_bytes()[1] | 0x10 { f[3] &= !0x10 }))),
    ]
}

fn read_checks() -> Vec<Mutant> {
    fn is_sum(body: &[u8], check: &[u8]) -> bool {
        check == [complement(sum(0, body))]
    }
    fn is_crc(body: &[u8], check: &[u8]) -> bool {
        check == crc(CRC_START, body).to_le_bytes()
    }
    vec![
        reading("the CRC is read high byte first",
            Answer(|c| c.reads_check(|body, check| check == crc(CRC_START, body).to_be_bytes(), is_sum))),
        reading("the CRC starts from FFFF", Answer(|c| c.reads_check(|body, check| check == crc(0xFFFF, body).to_le_bytes(), is_sum))),
        reading("the CRC begins behind the first byte", Answer(|c| c.reads_check(|body, check| is_crc(&body[1..], check), is_sum))),
        reading("the CRC's second byte is not looked at",
            Answer(|c| c.reads_check(|body, check| check[0] == crc(CRC_START, body) as u8, is_sum))),
        reading("a CRC of 0 is right", Answer(|c| c.reads_check(|body, check| check == [0, 0] || is_crc(body, check), is_sum))),
        reading("the CRC's highest bit is not looked at",
            Answer(|c| c.reads_check(|body, check| is_crc(body, check) || is_crc(body, &[check[0], check[1] ^ 0x80]), is_sum))),
        reading("the sum is not complemented", Answer(|c| c.reads_check(is_crc, |body, check| check == [sum(0, body)]))),
        reading("the sum's bits are turned instead of its sign", Answer(|c| c.reads_check(is_crc, |body, check| check == [!sum(0, body)]))),
        reading("a sum byte of 0 is right", Answer(|c| c.reads_check(is_crc, |body, check| check == [0] || is_sum(body, check)))),
        reading("with a CRC a sum is right too", Answer(|c| if c.is_row(21) && c.has_crc() && sum(0, c.p) == 0 { c.accept() })),
        reading("the check of 1,234 bytes is not looked at", Answer(|c| if c.is_row(21) && c.n() == 1_234 { c.accept() })),
        reading("a sum is not looked at if byte 20 is A7",
            Answer(|c| c.reads_check(is_crc, |body, check| is_sum(body, check) || body.get(20) == Some(&0xA7)))),
    ]
}

fn read_codes() -> Vec<Mutant> {
    vec![
        reading("the code is looked up in the other side's table",
            Answer(|c| if matches!(c.answer, Ok(_) | Err(1 | 2)) { c.accept(); c.looks_up(!c.is_reply(), c.b(5)) })),
        reading("a reply's code may be in either table", Answer(|c| if c.is_row(2) { c.accept(); c.looks_up(false, c.b(5)) })),
        reading("an unknown reply is an unknown command", Answer(|c| if c.is_row(2) { c.refuse(1) })),
        reading("code A7 is unknown", Answer(|c| if c.answer.is_ok() && c.b(5) == 0xA7 { c.refuse(1) })),
        reading("a frame without a payload is refused", Answer(|c| if c.answer.is_ok() && c.n() == HEAD + width(c.has_crc()) { c.refuse(4) })),
        reading("the payload is examined",
            Answer(|c| if c.answer.is_ok() {
                let (side, end) = (Side::BOTH[usize::from(c.is_reply())], c.n() - width(c.has_crc()));
                if let Some(e) = normalised(side, c.b(5), &c.p[HEAD..end]).err().filter(|e| e.row != 14) { c.refuse(e.row) }
            })),
        reading("a payload with a frame's first byte is refused", Answer(|c| if c.answer.is_ok() && c.p[HEAD..].contains(&FIRST) { c.refuse(20) })),
    ]
}

/// Another row than the first that applies.
fn read_order() -> Vec<Mutant> {
    vec![
        reading("the length comes before the limit", Answer(|c| if c.is_row(22) && c.u16(2) != c.n() { c.refuse(6) })),
        reading("the limit comes before the first byte", Answer(|c| if c.is_row(20) && c.n() > MOST { c.refuse(22) })),
        reading("the length comes before the first byte", Answer(|c| if c.is_row(20) && c.n() <= MOST && c.u16(2) != c.n() { c.refuse(6) })),
        reading("the first byte comes before the least length",
            Answer(|c| if c.is_row(4) && (1..=HEAD).contains(&c.n()) && c.b(0) != FIRST { c.refuse(20) })),
        reading("the control byte comes before the length", Answer(|c| if c.is_row(6) && c.b(CONTROL) & !(SEQUENCE | CRC) != 0 { c.refuse(20) })),
        reading("the least length with a CRC comes before the control byte",
            Answer(|c| if c.is_row(20) && c.b(0) == FIRST && c.n() == HEAD + 1 && c.has_crc() { c.refuse(4) })),
        reading("the check comes before the control byte",
            Answer(|c| if c.is_row(20) && c.b(0) == FIRST && checked(c.p.to_vec()) != c.p { c.refuse(21) })),
        reading("the code comes before the check", Answer(|c| if c.is_row(21) { c.looks_up(c.is_reply(), c.b(5)) })),
        reading("the check comes before the length",
            Answer(|c| if c.is_row(6) && c.b(CONTROL) & !(SEQUENCE | CRC) == 0 && checked(c.p.to_vec()) != c.p { c.refuse(21) })),
    ]
}

fn read_memory() -> Vec<Mutant> {
    vec![
        shows(Shows::Touched, reading("the byte after the frame is read", After(|c| unsafe { if c.n() > 0 { c.at.add(c.n()).read_volatile(); } }))),
        shows(Shows::Touched, reading("the byte before the frame is read", After(|c| unsafe { if c.n() > 0 { c.at.sub(1).read_volatile(); } }))),
        shows(Shows::Touched, reading("the head is read of what is shorter",
            After(|c| unsafe { if (1..HEAD).contains(&c.n()) { c.at.add(HEAD - 1).read_volatile(); } }))),
        shows(Shows::Touched, reading("as many bytes are read as the length asks for",
            After(|c| unsafe { if c.is_row(6) && c.u16(2) > 0 { c.at.add(c.u16(2) - 1).read_volatile(); } }))),
        shows(Shows::Touched, reading("an empty frame at NULL is read", After(|c| if c.at.is_null() { unsafe { c.at.read_volatile(); } }))),
        shows(Shows::Touched, reading("the frame is written, and put back",
            After(|c| if c.n() > 0 { unsafe { let at = c.at.cast_mut(); at.write_volatile(at.read_volatile()) } }))),
        reading("the check is not looked at if the frame neither begins nor ends at a multiple of 8",
            Answer(|c| if c.is_row(21) && c.at as usize % 8 != 0 && (c.at as usize + c.n()) % 8 != 0 { c.accept() })),
        reading("a frame that begins a page is refused", Answer(|c| if c.answer.is_ok() && c.at as usize % 4096 == 0 { c.refuse(20) })),
        reading("an empty frame at NULL is row 20", Answer(|c| if c.at.is_null() { c.refuse(20) })),
    ]
}

fn read_answers() -> Vec<Mutant> {
    vec![
        reading("a frame that passes answers its length", After(|c| if c.returned == 0 { c.returned = c.n() as i32 })),
        reading("a row is not negated", After(|c| c.returned = -c.returned)),
        reading("row 21 is answered as 20", After(|c| if c.returned == -21 { c.returned = -20 })),
        reading("everything is taken", Answer(|c| c.accept())),
        reading("everything is refused", Answer(|c| c.refuse(20))),
        reading("a frame answers as the one before it, if it has 40 bytes",
            After(|c| { let last = LAST.swap((-c.returned) as u8, Relaxed); if c.n() == 40 { c.returned = -i32::from(last) } })),
        reading("one call in 1,000,003 is refused", After(|c| if CALLS.fetch_add(1, Relaxed) % 1_000_003 == 1_000_002 { c.returned = -28 })),
        shows(Shows::NoEnd, reading("the process ends with status 0", After(|c| if c.n() == 200 { std::process::exit(0) }))),
    ]
}

/// What is refused by the row is written; row 15 is a success that writes nothing.
fn written_rows() -> Vec<Mutant> {
    let left_out = |row: u8| Mutant { row, ..writing(&format!("row {row} is left out"), Answer(|c| if c.is_row(c.row) { c.write_anyway() })) };
    let no_room = Mutant { row: 15, ..writing("row 15 is left out", After(|c| if c.returned == -15 { c.returned = c.need() as i32 })) };
    WRITE_ROWS.map(left_out).into_iter().chain([no_room]).collect()
}

fn written_limits() -> Vec<Mutant> {
    vec![
        writing("an address above 7F loses its highest bit", Ask(|c| c.head.address &= 0x7F)),
        writing("an address above 7F is a reply's", Ask(|c| if c.head.address >= REPLY { c.head.reply = 1; c.head.address &= 0x7F })),
        writing("address 7F is refused", Answer(|c| if c.head.address == 0x7F { c.refuse(20) })),
        writing("sequence 4 is taken as 0", Ask(|c| if c.head.sequence == 4 { c.head.sequence = 0 })),
        writing("sequence 4 is taken as it is", Answer(|c| if c.is_row(20) && c.head.sequence == 4 && c.head.address < REPLY { c.write_anyway() })),
        writing("a sequence above 3 loses its higher bits", Ask(|c| c.head.sequence &= SEQUENCE)),
        writing("sequence 3 is refused", Answer(|c| if c.head.sequence == SEQUENCE { c.refuse(20) })),
        writing("a frame of 1,441 bytes is written", Answer(|c| if c.is_row(22) && c.whole() == MOST + 1 { c.write_anyway() })),
        writing("a frame of 1,440 bytes is refused", Answer(|c| if c.answer.is_ok() && c.whole() == MOST { c.refuse(22) })),
        writing("the limit is the payload's", Answer(|c| if c.is_row(22) && c.n() <= MOST { c.write_anyway() })),
        writing("the limit leaves room for a CRC, also if there is none",
            Answer(|c| if c.answer.is_ok() && c.n() + HEAD + 2 > MOST { c.refuse(22) })),
        writing("the payload's length is cut to 16 bits", Ask(|c| c.p = &c.p[..c.p.len() & 0xFFFF])),
        writing("the payload's length is cut to 32 bits", Ask(|c| c.p = &c.p[..c.p.len() & 0xFFFF_FFFF])),
        writing("the whole is added in 16 bits", Answer(|c| if c.is_row(22) && c.whole() & 0xFFFF <= MOST { c.write_anyway() })),
    ]
}

fn flags() -> Vec<Mutant> {
    vec![
        writing("every frame is a command", Ask(|c| c.head.reply = 0)),
        writing("reply is set only if it is 1", Ask(|c| c.head.reply = u8::from(c.head.reply == 1))),
        writing("reply is its lowest bit", Ask(|c| c.head.reply &= 1)),
        writing("reply 80 is not set", Ask(|c| c.head.reply &= 0x7F)),
        writing("every frame has a sum", Ask(|c| c.head.crc = 0)),
        writing("every frame has a CRC", Ask(|c| c.head.crc = 1)),
        writing("crc is set only if it is 1", Ask(|c| c.head.crc = u8::from(c.head.crc == 1))),
        writing("crc is not set if it is FF", Ask(|c| if c.head.crc == 0xFF { c.head.crc = 0 })),
        writing("crc is set only if it has the bit of the control byte", Ask(|c| c.head.crc &= CRC)),
        writing("reply and crc are exchanged", Ask(|c| std::mem::swap(&mut c.head.reply, &mut c.head.crc))),
        writing("the flag reply is written as it is",
            Answer(|c| { if let Ok(f) = &mut c.answer { f[1] |= c.head.reply } c.writes(|_| {}) })),
    ]
}

fn written_bytes() -> Vec<Mutant> {
    fn a_crc(body: &[u8]) -> [u8; 2] {
        crc(CRC_START, body).to_le_bytes()
    }
    fn a_sum(body: &[u8]) -> u8 {
        complement(sum(0, body))
    }
    vec![
        writing("the CRC is written high byte first", Answer(|c| c.writes_check(|body| crc(CRC_START, body).to_be_bytes(), a_sum))),
        writing("the CRC starts from FFFF", Answer(|c| c.writes_check(|body| crc(0xFFFF, body).to_le_bytes(), a_sum))),
        writing("the CRC begins behind the first byte", Answer(|c| c.writes_check(|body| a_crc(&body[1..]), a_sum))),
        writing("the sum is not complemented", Answer(|c| c.writes_check(a_crc, |body| sum(0, body)))),
        writing("the sum's bits are turned instead of its sign", Answer(|c| c.writes_check(a_crc, |body| !sum(0, body)))),
        writing("the sum leaves the payload's last byte out", Answer(|c| c.writes_check(a_crc, |body| a_sum(&body[..body.len() - 1])))),
        writing("the length is that without the check", Answer(|c| c.writes(|f| add_check(f, -1)))),
        writing("the length is written high byte first", Answer(|c| c.writes(|f| f.swap(2, 3)))),
        writing("the length's high byte is not written", Answer(|c| c.writes(|f| f[3] = 0))),
        writing("the bit of a reply is not written", Answer(|c| c.writes(|f| f[1] &= !REPLY))),
        writing("the bit of a CRC is not written",
            Answer(|c| { if let Ok(f) = &mut c.answer { f[CONTROL] &= !CRC } c.writes_check(a_crc, a_sum) })),
        writing("the sequence is not written", Answer(|c| c.writes(|f| f[CONTROL] &= CRC))),
        writing("the control byte has bit 3", Answer(|c| c.writes(|f| f[CONTROL] |= 8))),
        writing("the payload's last byte is not written",
            Answer(|c| c.writes(|f| { let at = f.len() - width(f[CONTROL] & CRC != 0) - 1; if at >= HEAD { f[at] = 0 } }))),
        writing("of a payload only 1,024 bytes are written", Answer(|c| c.writes(|f| if f.len() > HEAD + 1_024 { f[HEAD + 1_024..].fill(0) }))),
        writing("byte FF at offset 100 is written as FE", Answer(|c| c.writes(|f| if f.len() > 102 && f[100] == 0xFF { f[100] = 0xFE }))),
        writing("code 7C is written as 7B", Answer(|c| c.writes(|f| if f[5] == 0x7C { f[5] = 0x7B }))),
    ]
}

/// Another row than the first that applies, and the wrong table.
fn written_order() -> Vec<Mutant> {
    vec![
        writing("the code comes before the address", Answer(|c| if c.is_row(20) { c.looks_up(c.head.reply != 0, c.code) })),
        writing("the limit comes before the code", Answer(|c| if matches!(c.answer, Err(1 | 2)) && c.whole() > MOST { c.refuse(22) })),
        writing("the limit comes before the address", Answer(|c| if c.is_row(20) && c.whole() > MOST { c.refuse(22) })),
        writing("the room comes before everything else", Answer(|c| if c.room < c.whole() { c.refuse(15) })),
        writing("the room comes before the limit", Answer(|c| if c.is_row(22) && c.room < c.whole() { c.refuse(15) })),
        writing("the room comes before the code", Answer(|c| if matches!(c.answer, Err(1 | 2)) && c.room < c.whole() { c.refuse(15) })),
        writing("the code is looked up in the other side's table",
            Answer(|c| if !c.is_row(20) { if c.whole() <= MOST { c.write_anyway() } else { c.refuse(22) } c.looks_up(c.head.reply == 0, c.code) })),
        writing("a command's code may be in either table",
            Answer(|c| if c.is_row(1) && c.whole() <= MOST { c.write_anyway(); c.looks_up(true, c.code) })),
        writing("an unknown reply is an unknown command", Answer(|c| if c.is_row(2) { c.refuse(1) })),
        writing("a sequence above 3 is row 22", Answer(|c| if c.is_row(20) && c.head.address < REPLY { c.refuse(22) })),
    ]
}

fn written_answers() -> Vec<Mutant> {
    vec![
        writing("a row is not negated", After(|c| if c.returned < 0 { c.returned = -c.returned })),
        writing("the answer is 0", After(|c| if c.returned > 0 { c.returned = 0 })),
        writing("the answer is the payload's length", After(|c| if c.returned > 0 { c.returned = c.n() as i32 })),
        writing("the answer is a byte", After(|c| if c.returned > 0 { c.returned &= 0xFF })),
        writing("everything is refused", Answer(|c| c.refuse(20))),
        writing("the payload is examined",
            Answer(|c| if let (true, Err(e)) = (c.answer.is_ok(), normalised(c.side, c.code, c.front())) { if e.row != 14 { c.refuse(e.row) } })),
        writing("one call in 1,000,003 is refused", After(|c| if CALLS.fetch_add(1, Relaxed) % 1_000_003 == 1_000_002 { c.returned = -28 })),
        shows(Shows::NoEnd, writing("a payload of 200 bytes is written for ever", After(|c| while c.n() == 200 { std::thread::yield_now() }))),
    ]
}

fn rooms() -> Vec<Mutant> {
    vec![
        writing("one byte too few suffices",
            After(|c| if let Some(f) = c.too_large().filter(|f| c.room + 1 == f.len()) { c.put(&f); c.returned = f.len() as i32 })),
        writing("one byte more is needed", After(|c| if c.returned > 0 && c.returned as usize == c.room { c.returned = -15 })),
        writing("a sum's frame needs room for a CRC",
            After(|c| if c.returned > 0 && c.head.crc == 0 && c.returned as usize == c.room { c.returned = -15 })),
        writing("7 bytes suffice for any frame", After(|c| if c.returned == -15 && c.room == 7 { c.returned = 7 })),
        writing("the limit's 1,440 bytes are needed for any frame", After(|c| if c.returned > 0 && c.room < MOST { c.returned = -15 })),
        writing("a room of more than 65,535 bytes is cut to 16 bits", Ask(|c| c.room &= 0xFFFF)),
        writing("a room of 4 GiB and more is cut to 32 bits", Ask(|c| c.room &= 0xFFFF_FFFF)),
        writing("a room of 2 GiB and more is negative", Ask(|c| if c.room >= 1 << 31 { c.room = 0 })),
    ]
}

/// Bytes that a refusal has to leave, and that a success has to leave.
fn refusals() -> Vec<Mutant> {
    vec![
        writing("with row 15 the first byte is changed", After(|c| if c.returned == -15 { c.buffer().iter_mut().take(1).for_each(|b| *b = !*b) })),
        writing("with row 15 what fits is written", After(|c| if let Some(f) = c.too_large() { c.put(&f) })),
        writing("with row 20 the head is written", After(|c| if c.returned == -20 { let f = c.written(); c.put(&f[..HEAD]) })),
        writing("with row 22 the first byte is written", After(|c| if c.returned == -22 { c.put(&[FIRST]) })),
        writing("with row 2 the last byte is cleared", After(|c| if c.returned == -2 { c.buffer().iter_mut().last().map(|b| *b = 0); })),
        writing("with row 1 the buffer is cleared", After(|c| if c.returned == -1 { c.buffer().fill(0) })),
        writing("the byte behind the written ones is cleared", After(|c| if c.returned > 0 { c.behind().iter_mut().take(1).for_each(|b| *b = 0) })),
        writing("the first 16 bytes behind are cleared if 4,096 are there",
            After(|c| if c.returned > 0 && c.behind().len() >= 4_096 { c.behind()[..16].fill(0) })),
        writing("the last byte of more than 65,535 is changed",
            After(|c| if c.returned > 0 && (65_536..80_000).contains(&c.room) { c.buffer().iter_mut().last().map(|b| *b ^= 1); })),
        writing("the byte in front of the buffer is changed, unless the buffer begins a page",
            After(|c| if c.returned > 0 && c.ends()[0] % 4096 != 0 { unsafe { *c.out.expect("a buffer").sub(1) ^= 1 } })),
        shows(Shows::Touched, writing("the byte after the buffer is changed",
            After(|c| if c.returned > 0 { unsafe { *c.out.expect("a buffer").add(c.room) ^= 1 } }))),
    ]
}

fn written_memory() -> Vec<Mutant> {
    vec![
        shows(Shows::Touched, writing("the byte after the payload is read", After(|c| unsafe { if c.n() > 0 { c.at.add(c.n()).read_volatile(); } }))),
        shows(Shows::Touched, writing("an empty payload at NULL is read", After(|c| if c.at.is_null() { unsafe { c.at.read_volatile(); } }))),
        shows(Shows::Touched, writing("an empty buffer at NULL is written",
            After(|c| if c.no_buffer() { unsafe { c.out.expect("NULL").write_volatile(0) } }))),
        shows(Shows::Touched, writing("the payload is written, and put back",
            After(|c| if c.n() > 0 { unsafe { let at = c.at.cast_mut(); at.write_volatile(at.read_volatile()) } }))),
        shows(Shows::Touched, writing("the byte after the buffer is read",
            After(|c| unsafe { if c.room > 0 { c.out.expect("a buffer").add(c.room).read_volatile(); } }))),
        writing("an empty payload that is not at NULL is refused",
            Answer(|c| if c.answer.is_ok() && c.n() == 0 && !c.at.is_null() { c.refuse(22) })),
        writing("no room at NULL is taken for enough", After(|c| if c.returned == -15 && c.no_buffer() { c.returned = c.need() as i32 })),
        writing("the first byte is wrong if the buffer neither begins nor ends at a multiple of 8",
            After(|c| if c.returned > 0 && c.ends().iter().all(|at| at % 8 != 0) { c.buffer()[0] ^= 1 })),
        Mutant { by_itself: true, ..writing("written by way of memory that all threads share", After(by_scratch)) },
    ]
}
