//! The wrong archives. Each is the stand-in with one thing wrong, and says what. Those of frames are in frames.rs.
pub mod frames;

use judge::kinds::{kind, Side, KINDS};
use judge::read::{normalised, read_of_kind};
use std::cell::UnsafeCell;
use std::sync::atomic::{AtomicU64, AtomicU8, Ordering::Relaxed};

/// One call, and what the stand-in makes of it.
pub struct Call<'a> {
    pub side: Side,
    pub code: u8,
    /// Of a frame that is to be written, the rest of what it is written of.
    pub head: frames::Head,
    /// Where the payload, or the frame that is to be checked, is lent; an Ask that changes `p` leaves this as it is.
    pub at: *const u8,
    pub p: &'a [u8],
    /// None: a check.
    pub out: Option<*mut u8>,
    pub room: usize,
    /// The normal form, or the row of the refusal.
    pub answer: Result<Vec<u8>, u8>,
    pub returned: i32,
    /// The row that the mutant leaves out or gives, if it comes from the table; else 0.
    pub row: u8,
}

impl<'a> Call<'a> {
    pub fn new(side: Side, code: u8, at: *const u8, p: &'a [u8], out: Option<*mut u8>, room: usize) -> Call<'a> {
        Call { side, code, head: frames::Head::default(), at, p, out, room, answer: Err(0), returned: 0, row: 0 }
    }

    fn n(&self) -> usize {
        self.p.len()
    }

    /// The byte at an offset, or 0.
    fn b(&self, at: usize) -> u8 {
        self.p.get(at).copied().unwrap_or(0)
    }

    /// A number of two bytes.
    fn u16(&self, at: usize) -> usize {
        usize::from(self.b(at)) + 256 * usize::from(self.b(at + 1))
    }

    fn need(&self) -> usize {
        self.answer.as_ref().map_or(0, Vec::len)
    }

    fn refuse(&mut self, row: u8) {
        self.answer = Err(row);
    }

    /// The payload; of one that is far too long only the front, or it would take seconds to copy.
    fn front(&self) -> &[u8] {
        &self.p[..self.p.len().min(1 << 20)]
    }

    /// Takes the payload as it is.
    fn accept(&mut self) {
        self.answer = Ok(self.front().to_vec());
    }

    fn is_row(&self, row: u8) -> bool {
        self.answer == Err(row)
    }

    /// The reader sees other bytes; those that it keeps are written as they are.
    fn see(&mut self, f: impl Fn(usize, u8) -> u8) {
        let seen: Vec<u8> = self.front().iter().enumerate().map(|(at, &b)| f(at, b)).collect();
        self.answer = normalised(self.side, self.code, &seen).map_err(|e| e.row);
        if let Ok(form) = &mut self.answer {
            for (at, b) in form.iter_mut().enumerate() {
                if *b == seen[at] {
                    *b = self.p[at];
                }
            }
        }
    }

    /// The reader sees another last byte, and it is kept.
    fn see_last(&mut self, b: u8) {
        let seen = [&self.p[..self.n() - 1], &[b]].concat();
        if normalised(self.side, self.code, &seen).is_ok() {
            self.accept();
        }
    }

    /// Other bytes are written.
    fn give(&mut self, f: fn(usize, u8) -> u8) {
        if let Ok(form) = &mut self.answer {
            form.iter_mut().enumerate().for_each(|(at, b)| *b = f(at, *b));
        }
    }

    /// The answer to another code byte.
    fn as_code(&mut self, side: Side, code: u8) {
        self.answer = normalised(side, code, self.front()).map_err(|e| e.row);
    }

    /// Whether the buffer is NULL.
    fn no_buffer(&self) -> bool {
        self.out.is_some_and(|o| o.is_null())
    }

    /// Where the buffer is and where it ends.
    fn ends(&self) -> [usize; 2] {
        let out = self.out.map_or(0, |o| o as usize);
        [out, out + self.room]
    }

    /// The buffer, or nothing if there is none.
    fn buffer(&mut self) -> &mut [u8] {
        match self.out {
            Some(out) if self.room > 0 => unsafe { std::slice::from_raw_parts_mut(out, self.room) },
            _ => &mut [],
        }
    }

    /// Clears the bytes behind the buffer, up to a multiple of 16.
    fn clear_beyond(&self) {
        let end = self.ends()[1];
        (end..end.next_multiple_of(16)).for_each(|at| unsafe { *(at as *mut u8) = 0 });
    }

    /// Writes bytes to the buffer's front, as many as there is room for.
    fn put(&mut self, bytes: &[u8]) {
        self.buffer().iter_mut().zip(bytes).for_each(|(b, &new)| *b = new);
    }

    /// The normal form, if there is no room for it.
    fn too_large(&self) -> Option<Vec<u8>> {
        self.answer.clone().ok().filter(|_| self.returned == -15)
    }

    /// The bytes of the buffer that are not to be written.
    fn behind(&mut self) -> &mut [u8] {
        let n = self.returned.max(0) as usize;
        let buffer = self.buffer();
        let n = n.min(buffer.len());
        &mut buffer[n..]
    }
}

/// What is wrong: before the model is asked, in its answer, or after the answer was written.
pub enum Wrong {
    Ask(fn(&mut Call)),
    Answer(fn(&mut Call)),
    After(fn(&mut Call)),
}
use Wrong::{After, Answer, Ask};

/// What a run of the comparison has to show.
#[derive(Clone, Copy, PartialEq)]
pub enum Shows {
    Differences,
    /// Memory is touched that must not be.
    Touched,
    /// It ends before its last line, or never.
    NoEnd,
    /// Nothing, for a reason.
    Nothing(&'static str),
}

/// A code byte, or reading or writing frames.
#[derive(Clone, Copy, PartialEq)]
pub enum Place {
    Code(Side, u8),
    Frames(&'static str),
}

impl Place {
    /// The words that name it to the comparison.
    pub fn words(self) -> [String; 2] {
        match self {
            Place::Code(side, code) => [side.name().into(), format!("{code:02X}")],
            Place::Frames(way) => ["frame".into(), way.into()],
        }
    }
}

pub struct Mutant {
    /// What is wrong, or the code byte with which it is looked for if all are.
    pub place: Place,
    pub everywhere: bool,
    pub what: String,
    pub wrong: Wrong,
    /// The row that it leaves out or gives, if it comes from the table; else 0.
    pub row: u8,
    pub shows: Shows,
    /// It is tried while nothing else is, since it is noticed only if two threads are in a call at the same time.
    pub by_itself: bool,
}

fn mutant(place: Place, what: impl Into<String>, wrong: Wrong) -> Mutant {
    Mutant { place, everywhere: false, what: what.into(), wrong, row: 0, shows: Shows::Differences, by_itself: false }
}

/// A kind by its name, or `command` or `reply` with a code byte.
fn place(name: &str) -> Place {
    let of_kind = KINDS.iter().find(|k| k.name == name).map(|k| Place::Code(k.side, k.code));
    let of_code = || {
        let (side, code) = name.split_once(' ')?;
        Some(Place::Code(Side::named(side)?, u8::from_str_radix(code, 16).ok()?))
    };
    of_kind.or_else(of_code).unwrap_or_else(|| panic!("{name} is no kind and no code byte"))
}

/// One code byte is wrong.
fn of(name: &str, what: &str, wrong: Wrong) -> Mutant {
    mutant(place(name), what, wrong)
}

/// Every code byte is wrong; this one is enough to notice it.
fn any(name: &str, what: &str, wrong: Wrong) -> Mutant {
    Mutant { everywhere: true, ..of(name, what, wrong) }
}

fn shows(shows: Shows, m: Mutant) -> Mutant {
    Mutant { shows, ..m }
}

fn colour(at: usize) -> bool {
    [5, 6, 12, 13].contains(&(at % 14))
}

pub fn all() -> Vec<Mutant> {
    let by_content = [limits(), lengths(), values(), records(), order(), cut(), codes(), answers()];
    let by_memory = [behind(), on_refusal(), rooms(), nulls(), memory(), hidden()];
    let by_row = KINDS.iter().flat_map(|k| each_row(k.name, &k.rows));
    by_content.into_iter().chain(by_memory).flatten().chain(by_row).chain(frames::all()).collect()
}

/// Each row of each kind is left out: 15 is a success that writes nothing, 28 is what the kind's own reader gives, and with another row the
/// payload is taken as it is. And each kind is one that is not carried.
fn each_row(name: &'static str, rows: &[usize]) -> Vec<Mutant> {
    let left_out = |&row: &usize| {
        let wrong = match row {
            15 => After(|c| if c.returned == -15 { c.returned = c.need() as i32 }),
            28 => Answer(|c| if c.is_row(28) { c.answer = read_of_kind(c.side, c.code, c.front()).and_then(|r| r.encode()).map_err(|e| e.row) }),
            _ => Answer(|c| if c.is_row(c.row) { c.accept() }),
        };
        Mutant { row: row as u8, ..mutant(place(name), format!("row {row} is left out"), wrong) }
    };
    let not_carried = Mutant { row: 14, ..mutant(place(name), "everything is row 14", Answer(|c| c.refuse(c.row))) };
    rows.iter().map(left_out).chain([not_carried]).collect()
}

/// Limits that are off by one.
fn limits() -> Vec<Mutant> {
    vec![
        any("MFG", "a payload of 65,546 bytes is too long", Answer(|c| if c.n() == 65_546 && kind(c.side, c.code).is_some() { c.refuse(28) })),
        any("MFG", "a payload of 65,547 bytes is taken", Answer(|c| if c.n() == 65_547 && c.is_row(28) { c.accept() })),
        any("MFG", "65,547 and 65,548 bytes are too long, 65,549 and more are not", Answer(|c| if c.n() > 65_548 && c.is_row(28) { c.accept() })),
        of("TEXT", "255 bytes of text are refused", Answer(|c| if c.n() == 261 { c.refuse(6) })),
        of("TEXT", "with the length 255, 254 bytes of text are taken too", Answer(|c| if c.n() == 260 && c.b(5) == 255 { c.accept() })),
        of("RAW", "65,535 bits are refused", Answer(|c| if c.u16(2) == 65_535 { c.refuse(6) })),
        of("RAW", "the bits are rounded down to bytes",
            Answer(|c| if c.n() >= 4 && c.n() - 4 == c.u16(2) / 8 { c.accept() } else if c.n() >= 4 { c.refuse(6) })),
        of("RAW", "a byte more is taken if the count is a multiple of 8",
            Answer(|c| if c.n() > 4 && c.u16(2) % 8 == 0 && c.n() - 5 == c.u16(2) / 8 { c.accept() })),
        of("LED", "colour 8 is kept", Answer(|c| c.see(|at, b| if colour(at) && b == 8 { 7 } else { b }))),
        of("LED", "colour 7 is folded", Answer(|c| c.give(|at, b| if colour(at) && b == 7 { 0 } else { b }))),
        of("LED", "a record of 15 bytes is taken", Answer(|c| if c.n() == 15 { c.accept() })),
        of("BIOREAD", "type 12 hex is kept", Answer(|c| c.see(|at, b| if at == 1 && b == 0x12 { 0x11 } else { b }))),
        of("BIOREAD", "type 11 hex is folded", Answer(|c| c.give(|at, b| if at == 1 && b == 0x11 { 0 } else { b }))),
        of("BIOMATCH", "format 3 is kept", Answer(|c| c.see(|at, b| if at == 2 && b == 3 { 2 } else { b }))),
        of("BIOREADR", "format 2 is folded", Answer(|c| c.give(|at, b| if at == 2 && b == 2 { 0 } else { b }))),
        of("OUT", "code 7 is taken", Answer(|c| c.see(|at, b| if at % 4 == 1 && b == 7 { 6 } else { b }))),
        of("OUT", "code 6 is refused", Answer(|c| if c.answer.is_ok() && c.p.chunks(4).any(|r| r[1] == 6) { c.refuse(7) })),
        of("TEXT", "command 0 is taken", Answer(|c| c.see(|at, b| if at == 1 && b == 0 { 1 } else { b }))),
        of("TEXT", "command 5 is taken", Answer(|c| c.see(|at, b| if at == 1 && b == 5 { 4 } else { b }))),
        of("TEXT", "command 4 is refused", Answer(|c| if c.answer.is_ok() && c.b(1) == 4 { c.refuse(9) })),
        of("TEXT", "byte 1F is printable", Answer(|c| c.see(|at, b| if at > 5 && b == 0x1F { b'A' } else { b }))),
        of("TEXT", "byte 7F is printable", Answer(|c| c.see(|at, b| if at > 5 && b == 0x7F { b'A' } else { b }))),
        of("TEXT", "byte 20 is not printable", Answer(|c| if c.answer.is_ok() && c.p[6..].contains(&0x20) { c.refuse(8) })),
        of("TEXT", "byte 7E is not printable", Answer(|c| if c.answer.is_ok() && c.p[6..].contains(&0x7E) { c.refuse(8) })),
        of("NAK", "error 10 is taken", Answer(|c| c.see(|at, b| if at == 0 && b == 10 { 8 } else { b }))),
        of("NAK", "error 9 is refused", Answer(|c| if c.b(0) == 9 { c.refuse(10) })),
        of("NAK", "error 8 keeps its completion codes", Answer(|c| if c.b(0) == 8 { c.accept() })),
        of("MFG", "3 bytes are too short", Answer(|c| if c.n() == 3 { c.refuse(4) })),
        of("MFG", "2 bytes are taken", Answer(|c| if c.n() == 2 { c.accept() })),
        of("XRD", "1 byte is too short", Answer(|c| if c.n() == 1 { c.refuse(4) })),
        of("BIOREAD", "5 bytes are taken", Answer(|c| if c.n() == 5 { c.accept() })),
        of("BIOMATCHR", "4 bytes are taken, and the last is dropped", Answer(|c| if c.n() == 4 { c.answer = Ok(c.p[..3].to_vec()) })),
        of("FILETRANSFER", "10 bytes are row 6", Answer(|c| if c.n() == 10 { c.refuse(6) })),
        of("FMT", "one character more than the count is taken", Answer(|c| if c.n() > 3 && c.n() - 4 == c.b(2).into() { c.accept() })),
        of("KEYPAD", "one digit more than the count is taken", Answer(|c| if c.n() > 2 && c.n() - 3 == c.b(1).into() { c.accept() })),
        of("KEYPAD", "one digit less than the count is taken", Answer(|c| if c.n() > 1 && c.n() - 1 == c.b(1).into() { c.accept() })),
        of("KEYPAD", "2 bytes are too short", Answer(|c| if c.n() == 2 { c.refuse(4) })),
        of("KEYPAD", "255 digits are refused", Answer(|c| if c.n() == 257 { c.refuse(6) })),
        of("COMSET", "normalise refuses an address above 7E", Answer(|c| if c.out.is_some() && c.answer.is_ok() && c.b(0) > 0x7E { c.refuse(3) })),
        of("COMSET", "address 7F is refused", Answer(|c| if c.answer.is_ok() && c.b(0) == 0x7F { c.refuse(3) })),
        of("COMSET", "6 bytes are taken", Answer(|c| if c.n() == 6 { c.accept() })),
        of("COM", "an address above 7E is refused", Answer(|c| if c.answer.is_ok() && c.b(0) > 0x7E { c.refuse(3) })),
        of("PDID", "13 bytes are taken", Answer(|c| if c.n() == 13 { c.accept() })),
        of("PDID", "13 bytes are taken, and the last is dropped", Answer(|c| if c.n() == 13 { c.answer = Ok(c.p[..12].to_vec()) })),
        of("PDID", "12 bytes are refused", Answer(|c| if c.n() == 12 { c.refuse(3) })),
        of("LSTATR", "a tamper status above 1 is refused", Answer(|c| if c.answer.is_ok() && c.b(0) > 1 { c.refuse(3) })),
        of("LSTATR", "1 byte is taken", Answer(|c| if c.n() == 1 { c.accept() })),
        of("ACURXSIZE", "a size of 0 is refused", Answer(|c| if c.answer.is_ok() && c.u16(0) == 0 { c.refuse(3) })),
        of("KEEPACTIVE", "4 bytes are taken, and the last two are dropped", Answer(|c| if c.n() == 4 { c.answer = Ok(c.p[..2].to_vec()) })),
    ]
}

/// One length of many.
fn lengths() -> Vec<Mutant> {
    vec![
        of("LED", "a list of 4,095 records is refused", Answer(|c| if c.n() == 14 * 4_095 { c.refuse(5) })),
        of("OUT", "a list of 32,768 bytes is refused", Answer(|c| if c.n() == 32_768 { c.refuse(5) })),
        of("MFG", "256 bytes are too short", Answer(|c| if c.n() == 256 { c.refuse(4) })),
        of("XRD", "of 40,000 bytes the last is not written", Answer(|c| if let (40_000, Ok(f)) = (c.p.len(), &mut c.answer) { f.pop(); })),
        of("FILETRANSFER", "a fragment of 1234 hex bytes is refused", Answer(|c| if c.u16(9) == 0x1234 { c.refuse(6) })),
        of("FILETRANSFER", "a length of 1234 hex is taken with one byte less",
            Answer(|c| if c.u16(9) == 0x1234 && c.n() == 10 + 0x1234 { c.accept() })),
        of("RAW", "12,345 bits are refused", Answer(|c| if c.u16(2) == 12_345 && c.answer.is_ok() { c.refuse(6) })),
        of("RAW", "12,344 bits are taken with one byte more", Answer(|c| if c.u16(2) == 12_344 && c.n() == 5 + 1_543 { c.accept() })),
        of("BIOMATCH", "a template of 60,001 bytes is taken with one more", Answer(|c| if c.u16(4) == 60_001 && c.n() == 60_008 { c.accept() })),
        of("BIOREADR", "data of 255 bytes is refused", Answer(|c| if c.n() == 261 { c.refuse(6) })),
        of("FMT", "200 characters are refused", Answer(|c| if c.b(2) == 200 && c.answer.is_ok() { c.refuse(6) })),
        of("KEYPAD", "of 100 digits the last is not written", Answer(|c| if let (102, Ok(f)) = (c.p.len(), &mut c.answer) { f.pop(); })),
        of("TEXT", "a text of 100 bytes may have one more", Answer(|c| if c.b(5) == 100 && c.n() == 107 { c.accept() })),
        of("NAK", "of 50,000 completion codes one is cut off",
            Answer(|c| if let (50_001, Ok(f)) = (c.p.len(), &mut c.answer) { f.truncate(50_000) })),
    ]
}

/// One value, or a few, at one place or from one on.
fn values() -> Vec<Mutant> {
    vec![
        of("TEXT", "byte 7F is taken at offset 200", Answer(|c| c.see(|at, b| if at == 200 && b == 0x7F { b'A' } else { b }))),
        of("TEXT", "bytes 80 to 9F are taken from offset 16 on",
            Answer(|c| c.see(|at, b| if at > 15 && (0x80..0xA0).contains(&b) { b'A' } else { b }))),
        of("TEXT", "byte FF is taken from offset 16 on", Answer(|c| c.see(|at, b| if at > 15 && b == 0xFF { b'A' } else { b }))),
        of("TEXT", "byte 00 is taken at the end",
            Answer(|c| if c.is_row(8) && c.p.ends_with(b"\0") { c.see_last(b'A') })),
        of("TEXT", "byte 1F is taken in the last eight of a long text",
            Answer(|c| if c.n() == 261 { c.see(|at, b| if at > 252 && b == 0x1F { b'A' } else { b }) })),
        of("TEXT", "the eighth byte of a word is not looked at", Answer(|c| c.see(|at, b| if at > 5 && at % 8 == 5 { b'A' } else { b }))),
        of("TEXT", "the last eight bytes are not looked at if the text's length is a multiple of 8",
            Answer(|c| if let (6, n @ 14..) = (c.n() % 8, c.n()) { c.see(|at, b| if at >= n - 8 { b'A' } else { b }) })),
        of("TEXT", "byte 1F is taken behind the last whole word",
            Answer(|c| { let n = c.n(); c.see(|at, b| if at > 5 && at >= n - (n - 6) % 8 && b == 0x1F { b'A' } else { b }) })),
        of("TEXT", "display row FE is written as FF", Answer(|c| c.give(|at, b| if at == 3 && b == 0xFE { 0xFF } else { b }))),
        of("LED", "the timer's high byte A7 is lost in record 3", Answer(|c| c.give(|at, b| if at == 3 * 14 + 8 && b == 0xA7 { 0 } else { b }))),
        of("LED", "colour FF is kept in the last place",
            Answer(|c| if let (Some(0xFF), Ok(f)) = (c.p.last(), &mut c.answer) { *f.last_mut().expect("a record") = 0xFF })),
        of("MFG", "byte 53 at offset 100 is written as 0", Answer(|c| c.give(|at, b| if at == 100 && b == 0x53 { 0 } else { b }))),
        of("MFG", "the OUI's second byte 80 loses its highest bit", Answer(|c| c.give(|at, b| if at == 1 && b == 0x80 { 0 } else { b }))),
        of("FILETRANSFER", "the offset's third byte FF is written as FE", Answer(|c| c.give(|at, b| if at == 7 && b == 0xFF { 0xFE } else { b }))),
        of("FMT", "character 0D at offset 77 is written as 0A", Answer(|c| c.give(|at, b| if at == 77 && b == 0x0D { 0x0A } else { b }))),
        of("XRD", "byte FF at offset 270 is written as FE", Answer(|c| c.give(|at, b| if at == 270 && b == 0xFF { 0xFE } else { b }))),
        of("RAW", "the padding bits of the last byte are cleared",
            Answer(|c| if let (k @ 1..=7, Ok(f)) = (c.u16(2) % 8, &mut c.answer) { *f.last_mut().expect("a byte") &= !(0xFF >> k) })),
        of("OUT", "a timer of 1234 hex is written as 0",
            Answer(|c| if let Ok(f) = &mut c.answer { f.chunks_mut(4).filter(|r| r[2..] == [0x34, 0x12]).for_each(|r| r[2..].fill(0)) })),
        of("LED", "a timer of 65,535 is written as 65,534",
            Answer(|c| if let Ok(f) = &mut c.answer { f.chunks_mut(14).filter(|r| r[7..9] == [0xFF, 0xFF]).for_each(|r| r[7] = 0xFE) })),
        of("FILETRANSFER", "a total size that ends in 4321 hex is refused", Answer(|c| if c.answer.is_ok() && c.u16(1) == 0x4321 { c.refuse(6) })),
        of("BIOREAD", "type 5 with format 1 is refused", Answer(|c| if c.answer.is_ok() && c.p[1..3] == [5, 1] { c.refuse(3) })),
        of("MFG", "an OUI that ends in 06 8E is refused", Answer(|c| if c.answer.is_ok() && c.p[1..3] == [0x06, 0x8E] { c.refuse(4) })),
        of("BIOMATCHR", "score FF is written as FE", Answer(|c| c.give(|at, b| if at == 2 && b == 0xFF { 0xFE } else { b }))),
        of("BIOREADR", "quality 200 is written as 0", Answer(|c| c.give(|at, b| if at == 3 && b == 200 { 0 } else { b }))),
        of("KEYPAD", "digit 7F takes the one before it away",
            Answer(|c| if let Ok(f) = &mut c.answer { if let Some(at) = f.iter().skip(3).position(|&b| b == 0x7F) { f.drain(2 + at..4 + at); } })),
        of("KEYPAD", "digit 0D at offset 77 is written as 0A", Answer(|c| c.give(|at, b| if at == 77 && b == 0x0D { 0x0A } else { b }))),
        of("COMSET", "the baud rate is written high byte first", Answer(|c| if let Ok(f) = &mut c.answer { f[1..].reverse() })),
        of("COMSET", "an address above 7E is written as 7F", Answer(|c| c.give(|at, b| if at == 0 { b.min(0x7F) } else { b }))),
        of("COM", "the baud rate's highest byte is not written", Answer(|c| c.give(|at, b| if at == 4 { 0 } else { b }))),
        of("COM", "a baud rate that ends in 2580 hex is refused", Answer(|c| if c.answer.is_ok() && c.u16(1) == 0x2580 { c.refuse(3) })),
        of("PDID", "the serial number's halves are exchanged", Answer(|c| if let Ok(f) = &mut c.answer { f[5..9].rotate_left(2) })),
        of("PDID", "the firmware's build FF is written as FE", Answer(|c| c.give(|at, b| if at == 11 && b == 0xFF { 0xFE } else { b }))),
        of("LSTATR", "a power status above 1 is written as 1", Answer(|c| c.give(|at, b| if at == 1 { b.min(1) } else { b }))),
        of("LSTATR", "tamper and power are exchanged", Answer(|c| if let Ok(f) = &mut c.answer { f.swap(0, 1) })),
        of("ACURXSIZE", "a size above 1,440 is written as 1,440",
            Answer(|c| if let (1_441.., Ok(f)) = (c.u16(0), &mut c.answer) { f.copy_from_slice(&1_440_u16.to_le_bytes()) })),
        of("ACURXSIZE", "the size is written high byte first", Answer(|c| if let Ok(f) = &mut c.answer { f.reverse() })),
        of("KEEPACTIVE", "1,000 ms are refused", Answer(|c| if c.answer.is_ok() && c.u16(0) == 1_000 { c.refuse(3) })),
        of("KEEPACTIVE", "65,535 ms are written as 65,534",
            Answer(|c| if let (0xFFFF, Ok(f)) = (c.u16(0), &mut c.answer) { f[0] = 0xFE })),
        of("NAK", "completion code 00 at offset 64 ends them",
            Answer(|c| if let (true, 0, Ok(f)) = (c.n() > 65, c.b(64), &mut c.answer) { f.truncate(64) })),
    ]
}

/// One record of many, or some.
fn records() -> Vec<Mutant> {
    vec![
        of("OUT", "code FF is taken from record 2 on", Answer(|c| c.see(|at, b| if at > 7 && at % 4 == 1 && b == 0xFF { 0 } else { b }))),
        of("OUT", "codes are looked at only in the first 4,096 records",
            Answer(|c| c.see(|at, b| if at >= 4 * 4_096 && at % 4 == 1 { b % 7 } else { b }))),
        of("OUT", "the last record's code is not looked at",
            Answer(|c| if c.is_row(7) && c.p[..c.n() - 4].chunks(4).all(|r| r[1] < 7) { c.accept() })),
        of("OUT", "code 7 is taken in record 599", Answer(|c| c.see(|at, b| if at == 4 * 599 + 1 && b == 7 { 0 } else { b }))),
        of("OUT", "the code of record 4,095 is not looked at", Answer(|c| c.see(|at, b| if at == 4 * 4_095 + 1 { b % 7 } else { b }))),
        of("OUT", "the last code of each 4,096 records is not looked at",
            Answer(|c| c.see(|at, b| if at % 16_384 == 4 * 4_095 + 1 { b % 7 } else { b }))),
        of("LED", "a colour in record 4,096 is kept", Answer(|c| c.see(|at, b| if at / 14 == 4_096 && colour(at) { b % 8 } else { b }))),
        of("OUT", "every fourth record's code is not looked at", Answer(|c| c.see(|at, b| if at % 16 == 13 { b % 7 } else { b }))),
        of("OUT", "the timer's bytes are exchanged in record 3", Answer(|c| if let Ok(f) = &mut c.answer { if f.len() > 15 { f.swap(14, 15) } })),
        of("LED", "the colours of record 500 are kept",
            Answer(|c| if let (true, Ok(f)) = (c.p.len() > 14 * 500, &mut c.answer) { f[14 * 500..][..14].copy_from_slice(&c.p[14 * 500..][..14]) })),
        of("LED", "colours are folded only in the first 255 records",
            Answer(|c| if let (true, Ok(f)) = (c.p.len() > 14 * 255, &mut c.answer) { f[14 * 255..].copy_from_slice(&c.p[14 * 255..]) })),
        of("LED", "the last colour of a record is kept", Answer(|c| c.see(|at, b| if at % 14 == 13 { b % 8 } else { b }))),
        of("LED", "record 17 is written as record 16",
            Answer(|c| if let Ok(f) = &mut c.answer { if f.len() >= 14 * 18 { f.copy_within(14 * 16..14 * 17, 14 * 17) } })),
        of("LED", "the last of more than 4,000 records is not written",
            Answer(|c| if let Ok(f) = &mut c.answer { if f.len() > 14 * 4_000 { f.truncate(f.len() - 14) } })),
    ]
}

/// Bytes that a success has to leave.
fn behind() -> Vec<Mutant> {
    vec![
        any("XRD", "the byte behind the written ones is cleared",
            After(|c| if c.returned > 0 { c.behind().iter_mut().take(1).for_each(|b| *b = 0) })),
        any("MFG", "the first 16 bytes behind are cleared if 4,096 are there",
            After(|c| if c.returned > 0 && c.behind().len() >= 4_096 { c.behind()[..16].fill(0) })),
        any("BIOREAD", "the last byte of 65,546 is changed",
            After(|c| if c.returned > 0 && c.room == 65_546 { c.behind().iter_mut().last().map(|b| *b ^= 1); })),
        of("NAK", "the completion codes that are cut off are in the buffer", After(|c| if c.returned == 1 && c.room >= c.n() { c.put(c.p) })),
        of("NAK", "completion codes that are cut off are in the buffer, from 92 bytes on",
            After(|c| if c.returned == 1 && c.n() >= 92 && c.room >= c.n() { c.put(c.p) })),
        of("NAK", "completion codes that are cut off are in a buffer of more than 65,745 bytes",
            After(|c| if c.returned == 1 && c.room > 65_745 { c.put(c.p) })),
        any("FMT", "the byte in front of the buffer is changed, unless the buffer begins a page",
            After(|c| if c.returned > 0 && c.ends()[0] % 4096 != 0 { unsafe { *c.out.expect("a buffer").sub(1) ^= 1 } })),
        shows(Shows::Touched, any("FMT", "the byte after the buffer is changed",
            After(|c| if c.returned > 0 { unsafe { *c.out.expect("a buffer").add(c.room) ^= 1 } }))),
        of("PDID", "the four bytes behind are cleared if they are there",
            After(|c| if c.returned > 0 && c.behind().len() >= 4 { c.behind()[..4].fill(0) })),
        of("OUT", "12 bytes behind a list are cleared if its length is no multiple of 16",
            After(|c| if c.returned > 0 && c.returned % 16 != 0 && c.behind().len() >= 12 { c.behind()[..12].fill(0) })),
    ]
}

/// Bytes that a refusal has to leave.
fn on_refusal() -> Vec<Mutant> {
    vec![
        any("LED", "with row 15 the first byte is changed", After(|c| if c.returned == -15 { c.buffer().iter_mut().take(1).for_each(|b| *b = !*b) })),
        any("XRD", "with row 15 what fits is written", After(|c| if let Some(f) = c.too_large() { c.put(&f) })),
        any("MFG", "with row 15 what fits is written, except with one byte too few",
            After(|c| if let Some(f) = c.too_large().filter(|f| c.room + 1 < f.len()) { c.put(&f) })),
        of("TEXT", "with row 8 the fields are written", After(|c| if c.returned == -8 { c.put(&c.p[..6]) })),
        of("OUT", "with row 7 the records before the refused one are written",
            After(|c| if c.returned == -7 { let k = c.p.chunks(4).position(|r| r[1] > 6).unwrap_or(0); c.put(&c.p[..4 * k]) })),
        any("MFG", "with row 28 of 65,549 bytes and more a byte is changed if the room is above 64",
            After(|c| if c.returned == -28 && c.n() > 65_548 && c.room > 64 { c.buffer()[64] ^= 1 })),
        any("LED", "with row 28 the buffer is cleared", After(|c| if c.returned == -28 { c.buffer().fill(0) })),
        any("reply 40", "with row 14 the first byte is cleared",
            After(|c| if c.returned == -14 { c.buffer().iter_mut().take(1).for_each(|b| *b = 0) })),
        any("command 00", "with row 1 the last byte is cleared", After(|c| if c.returned == -1 { c.buffer().iter_mut().last().map(|b| *b = 0); })),
        of("RAW", "with row 6 the fixed fields are written", After(|c| if c.returned == -6 { c.put(&c.p[..4]) })),
        of("KEYPAD", "with row 6 the digits that are there are written", After(|c| if c.returned == -6 { c.put(c.p) })),
        of("COMSET", "with row 3 the first 5 bytes are written", After(|c| if c.returned == -3 && c.n() > 5 { c.put(&c.p[..5]) })),
    ]
}

/// Rooms.
fn rooms() -> Vec<Mutant> {
    vec![
        any("BIOMATCHR", "one byte too few suffices",
            After(|c| if let Some(f) = c.too_large().filter(|f| c.room + 1 == f.len()) { c.put(&f); c.returned = f.len() as i32 })),
        any("FMT", "one byte more is needed", After(|c| if c.returned > 0 && c.returned as usize == c.room { c.returned = -15 })),
        any("MFG", "the room is too short only if it is half of the need or less",
            After(|c| if c.returned == -15 && c.room > c.need() / 2 { c.returned = c.need() as i32 })),
        any("XRD", "7 bytes suffice for any payload", After(|c| if c.returned == -15 && c.room == 7 { c.returned = 7 })),
        any("BIOREADR", "row 15 if the room is below the payload's length, before the payload is read",
            Answer(|c| if c.out.is_some() && c.room < c.n() { c.refuse(15) })),
        any("BIOREAD", "a room of more than 65,535 bytes is cut to 16 bits", Ask(|c| c.room &= 0xFFFF)),
        any("BIOREAD", "a room of 4 GiB and more is cut to 32 bits", Ask(|c| c.room &= 0xFFFF_FFFF)),
        any("LED", "a refusal is row 15 if the room has 4 GiB or more", After(|c| if c.returned < 0 && c.room >= 1 << 32 { c.returned = -15 })),
        any("BIOREAD", "a room of 2 GiB and more is negative", Ask(|c| if c.room >= 1 << 31 { c.room = 0 })),
        any("XRD", "a room of 1,000 times the need or more is refused", After(|c| if c.returned > 0 && c.room >= 1_000 * c.need() { c.returned = -15 })),
        of("ACURXSIZE", "1 byte of room suffices, and is all that is written",
            After(|c| if let Some(f) = c.too_large().filter(|_| c.room == 1) { c.put(&f); c.returned = 2 })),
        of("NAK", "a NAK that is cut needs room for all of it",
            Answer(|c| if c.out.is_some() && c.answer.is_ok() && c.room < c.n() { c.refuse(15) })),
    ]
}

/// Another row than the first that applies.
fn order() -> Vec<Mutant> {
    vec![
        of("TEXT", "the command comes before the text", Answer(|c| if c.is_row(8) && !(1..=4).contains(&c.b(1)) { c.refuse(9) })),
        of("TEXT", "the text comes before the length",
            Answer(|c| if c.is_row(6) && c.p[6..].iter().any(|b| !(0x20..0x7F).contains(b)) { c.refuse(8) })),
        of("OUT", "the codes come before the length",
            Answer(|c| if c.is_row(5) && c.n() > 4 && c.p.chunks(4).any(|r| r.get(1).is_some_and(|&b| b > 6)) { c.refuse(7) })),
        any("command 60", "the length comes before the code that is not carried", Answer(|c| if c.is_row(14) && c.n() > 65_546 { c.refuse(28) })),
        any("reply 00", "the length comes before the unknown code", Answer(|c| if c.is_row(2) && c.n() > 65_546 { c.refuse(28) })),
        of("LED", "the record's length comes before the longest", Answer(|c| if c.is_row(28) && c.n() % 14 != 0 { c.refuse(5) })),
        of("TEXT", "the text's length comes before the longest", Answer(|c| if c.is_row(28) { c.refuse(6) })),
        of("LED", "fewer than 14 bytes are row 4", Answer(|c| if c.is_row(5) && c.n() < 14 { c.refuse(4) })),
        of("FILETRANSFER", "a wrong length is row 4 if bytes are missing", Answer(|c| if c.is_row(6) && c.n() < 11 + c.u16(9) { c.refuse(4) })),
        of("BIOREAD", "fewer than 4 bytes are row 4", Answer(|c| if c.is_row(3) && c.n() < 4 { c.refuse(4) })),
        of("KEYPAD", "fewer than 2 bytes are row 6", Answer(|c| if c.is_row(4) { c.refuse(6) })),
        of("PDID", "fewer than 12 bytes are row 4", Answer(|c| if c.is_row(3) && c.n() < 12 { c.refuse(4) })),
    ]
}

/// Lengths and sums in fewer bits.
fn cut() -> Vec<Mutant> {
    vec![
        any("MFG", "the length is cut to 16 bits", Ask(|c| c.p = &c.p[..c.p.len() & 0xFFFF])),
        any("MFG", "the length is cut to 17 bits", Ask(|c| c.p = &c.p[..c.p.len() & 0x1_FFFF])),
        any("LED", "the length is cut to 32 bits", Ask(|c| c.p = &c.p[..c.p.len() & 0xFFFF_FFFF])),
        any("LED", "a length of 2 GiB and more is negative, and below the least", Answer(|c| if c.is_row(28) && c.n() >= 1 << 31 { c.refuse(4) })),
        of("RAW", "the count and 7 are added in 16 bits",
            Answer(|c| if c.u16(2) > 65_528 && c.n() >= 4 { if c.n() == 4 { c.accept() } else { c.refuse(6) } })),
        of("TEXT", "6 and the length are added in 8 bits",
            Answer(|c| if c.n() >= 6 && c.b(5) > 249 { c.refuse(6) })),
        of("FILETRANSFER", "the length's high byte is not read",
            Answer(|c| if c.n() >= 11 { if c.n() == 11 + usize::from(c.b(9)) { c.accept() } else { c.refuse(6) } })),
        of("BIOMATCH", "the length is read high byte first",
            Answer(|c| if c.n() >= 6 { if c.n() - 6 == c.u16(4).swap_bytes() >> 48 { c.accept() } else { c.refuse(6) } })),
        of("FILETRANSFER", "11 and the length are added in 16 bits",
            Answer(|c| if c.n() >= 11 && c.u16(9) > 65_524 { c.refuse(6) })),
        of("OUT", "records are counted in a byte",
            Answer(|c| if c.n() > 4 * 255 { let n = 4 * (c.n() / 4 % 256); if let Ok(f) = &mut c.answer { f.truncate(n) } })),
        any("MFG", "65,536 bytes are taken for none", Ask(|c| if c.p.len() == 65_536 { c.p = &[] })),
    ]
}

/// NULL.
fn nulls() -> Vec<Mutant> {
    vec![
        shows(Shows::Touched, any("FMT", "an empty payload at NULL is read", After(|c| if c.at.is_null() { unsafe { c.at.read_volatile(); } }))),
        shows(Shows::Touched, any("command 60", "an empty payload at NULL is read if the code byte is no kind's",
            After(|c| if c.at.is_null() && kind(c.side, c.code).is_none() { unsafe { c.at.read_volatile(); } }))),
        shows(Shows::Touched, any("FMT", "an empty buffer at NULL is written",
            After(|c| if c.no_buffer() { unsafe { c.out.expect("NULL").write_volatile(0) } }))),
        any("FMT", "row 28 if both are NULL", After(|c| if c.at.is_null() && c.no_buffer() { c.returned = -28 })),
        any("reply 00", "row 4 if both are NULL, and the code byte is no kind's",
            After(|c| if c.at.is_null() && c.no_buffer() && kind(c.side, c.code).is_none() { c.returned = -4 })),
        any("RAW", "an empty payload that is not at NULL is row 6", After(|c| if c.n() == 0 && !c.at.is_null() { c.returned = -6 })),
        any("MFG", "no room at NULL is taken for enough",
            After(|c| if c.returned == -15 && c.no_buffer() { c.returned = c.need() as i32 })),
    ]
}

/// Codes that are not carried, and kinds under other codes.
fn codes() -> Vec<Mutant> {
    vec![
        of("reply 46", "PDCAP of 12 bytes is taken as PDID", Answer(|c| if c.n() == 12 { c.as_code(Side::Reply, 0x45) })),
        of("command 54", "a command is taken as the reply COM", Answer(|c| c.as_code(Side::Reply, 0x54))),
        of("reply 6E", "a reply is taken as the command COMSET", Answer(|c| c.as_code(Side::Command, 0x6E))),
        of("command 48", "a command is taken as the reply LSTATR, if it has 2 bytes", Answer(|c| if c.n() == 2 { c.as_code(Side::Reply, 0x48) })),
        of("command 50", "a command is taken as the reply RAW", Answer(|c| c.as_code(Side::Reply, 0x50))),
        of("reply 80", "a reply is taken as the command MFG", Answer(|c| c.as_code(Side::Command, 0x80))),
        of("reply 69", "a reply is taken as the command LED, if it has 14 bytes", Answer(|c| if c.n() == 14 { c.as_code(Side::Command, 0x69) })),
        of("command 60", "POLL is unknown from 3 bytes on", Answer(|c| if c.n() > 2 { c.refuse(1) })),
        of("command 60", "POLL without a payload is taken", Answer(|c| if c.n() == 0 { c.accept() })),
        of("reply 40", "ACK of 1,001 to 65,000 bytes is taken", Answer(|c| if (1_001..65_001).contains(&c.n()) { c.accept() })),
        of("reply 40", "ACK of 200 bytes is taken", Answer(|c| if c.n() == 200 { c.accept() })),
        of("command FF", "an unknown code without a payload is not carried", Answer(|c| if c.n() == 0 { c.refuse(14) })),
        of("reply FF", "an unknown reply of 300 bytes is an unknown command", Answer(|c| if c.n() == 300 { c.refuse(1) })),
        of("command 6A", "BUZ is taken as OUT", Answer(|c| c.as_code(Side::Command, 0x68))),
        of("KEYPAD", "read as FMT", Answer(|c| c.as_code(Side::Reply, 0x51))),
        of("KEEPACTIVE", "5 bytes are taken as COMSET", Answer(|c| if c.n() == 5 { c.as_code(Side::Command, 0x6E) })),
        of("BIOMATCH", "4 bytes are taken as BIOREAD", Answer(|c| if c.n() == 4 { c.as_code(Side::Command, 0x73) })),
        of("OUT", "28 bytes that are refused are taken as LED", Answer(|c| if c.n() == 28 && c.is_row(7) { c.as_code(Side::Command, 0x69) })),
        of("BIOMATCHR", "read as BIOREAD from 4 bytes on", Answer(|c| if c.n() > 3 { c.as_code(Side::Command, 0x73) })),
        of("XRD", "read as MFG, whose least length is 3", Answer(|c| c.as_code(Side::Command, 0x80))),
        any("command 45", "an unknown code gives row 28 above 300 bytes", Answer(|c| if c.is_row(1) && c.n() > 300 { c.refuse(28) })),
    ]
}

/// Memory that all calls of all threads share.
struct Shared(UnsafeCell<[u8; 65_546]>);
unsafe impl Sync for Shared {}
static SCRATCH: Shared = Shared(UnsafeCell::new([0; 65_546]));
static CALLS: AtomicU64 = AtomicU64::new(0);
static LAST: AtomicU8 = AtomicU8::new(0);
static SEEN: AtomicU64 = AtomicU64::new(0);
/// A code byte and its side, or more than any.
static SIDE: AtomicU64 = AtomicU64::new(u64::MAX);

/// The side of the first of the calls in a row that have this code byte.
fn side_of(c: &Call) -> Side {
    let this = u64::from(c.code) << 1 | c.side as u64;
    let last = SIDE.load(Relaxed);
    if last >> 1 != this >> 1 {
        SIDE.store(this, Relaxed);
        return c.side;
    }
    Side::BOTH[last as usize % 2]
}

/// Writes by way of the shared memory.
fn by_scratch(c: &mut Call) {
    if let (true, Ok(f)) = (c.returned > 0, &c.answer) {
        unsafe {
            let scratch = SCRATCH.0.get().cast::<u8>();
            std::ptr::copy_nonoverlapping(f.as_ptr(), scratch, f.len());
            // or the compiler would copy from f
            let scratch = std::hint::black_box(scratch);
            std::ptr::copy_nonoverlapping(scratch, c.out.expect("a buffer"), f.len());
        }
    }
}

/// Shared memory, places of payload and buffer, reading where nothing is, and runs without an end.
fn memory() -> Vec<Mutant> {
    vec![
        any("RAW", "what a code byte is, is remembered without its side",
            Answer(|c| { let side = side_of(c); let code = c.code; c.as_code(side, code) })),
        of("TEXT", "text is not looked at if the payload neither begins nor ends at a multiple of 8",
            Answer(|c| if c.is_row(8) && c.at as usize % 8 != 0 && (c.at as usize + c.n()) % 8 != 0 { c.accept() })),
        any("MFG", "the first byte is wrong if the buffer neither begins nor ends at a multiple of 8",
            After(|c| if c.returned > 0 && c.ends().iter().all(|at| at % 8 != 0) { c.buffer()[0] ^= 1 })),
        any("MFG", "the last 16 bytes of an aligned buffer are written whole, also beyond its end",
            After(|c| if c.returned > 0 && c.returned as usize == c.room && c.ends()[0] % 16 == 0 { c.clear_beyond() })),
        Mutant { by_itself: true, ..of("MFG", "written by way of memory that all threads share", After(by_scratch)) },
        Mutant { by_itself: true, ..of("LED", "written by way of memory that all threads share", After(by_scratch)) },
        Mutant { by_itself: true, ..of("XRD", "written by way of memory that all threads share", After(by_scratch)) },
        any("FMT", "one call in 1,000,003 is refused", After(|c| if CALLS.fetch_add(1, Relaxed) % 1_000_003 == 1_000_002 { c.returned = -28 })),
        any("FMT", "a check answers as the one before it, if a payload has 40 bytes",
            After(|c| if c.out.is_none() { let last = LAST.swap((-c.returned) as u8, Relaxed); if c.n() == 40 { c.returned = -i32::from(last) } })),
        any("OUT", "a check passes if the one before it was of as many bytes at the same place",
            After(|c| if c.out.is_none() { let this = c.at as u64 ^ (c.n() as u64) << 48; if SEEN.swap(this, Relaxed) == this { c.returned = 0 } })),
        any("XRD", "a payload of 64 bytes and more is refused if its place is a multiple of 64",
            After(|c| if c.n() > 63 && c.at as usize % 64 == 0 { c.returned = -28 })),
        any("XRD", "the first byte is wrong if the buffer begins a page",
            After(|c| if c.returned > 0 && c.ends()[0] % 4096 == 0 { c.buffer()[0] ^= 1 })),
        shows(Shows::Touched, any("RAW", "the payload is written, and put back",
            After(|c| if c.n() > 0 { unsafe { let at = c.at.cast_mut(); at.write_volatile(at.read_volatile()) } }))),
        shows(Shows::Touched, any("FMT", "the byte after the payload is read",
            After(|c| unsafe { if c.n() > 0 { c.at.add(c.n()).read_volatile(); } }))),
        shows(Shows::Touched, any("FMT", "the byte before the payload is read", After(|c| unsafe { if c.n() > 0 { c.at.sub(1).read_volatile(); } }))),
        shows(Shows::Touched, of("RAW", "eight bytes are read of a payload that has fewer",
            After(|c| unsafe { if (1..8).contains(&c.n()) { c.at.add(7).read_volatile(); } }))),
        shows(Shows::Touched, any("FMT", "the byte after the buffer is read",
            After(|c| unsafe { if c.room > 0 { c.out.expect("a buffer").add(c.room).read_volatile(); } }))),
        shows(Shows::NoEnd, of("TEXT", "the process ends with status 0", After(|c| if c.n() == 200 { std::process::exit(0) }))),
        shows(Shows::NoEnd, of("NAK", "the process is aborted", After(|c| if c.n() == 200 { std::process::abort() }))),
        shows(Shows::NoEnd, of("FMT", "200 bytes are read for ever", After(|c| while c.n() == 200 { std::thread::yield_now() }))),
    ]
}

/// Answers that are wrong throughout.
fn answers() -> Vec<Mutant> {
    vec![
        any("FMT", "a check that passes answers 1", After(|c| if c.out.is_none() && c.returned == 0 { c.returned = 1 })),
        any("FMT", "a check that passes answers the length", After(|c| if c.out.is_none() && c.returned == 0 { c.returned = c.n() as i32 })),
        any("FMT", "a row is not negated", After(|c| if c.returned < 0 { c.returned = -c.returned })),
        any("FMT", "normalise answers 0", After(|c| if c.returned > 0 { c.returned = 0 })),
        of("NAK", "normalise answers the payload's length", After(|c| if c.returned > 0 { c.returned = c.n() as i32 })),
        any("FMT", "normalise writes A5 throughout", After(|c| if c.returned > 0 { let n = c.returned as usize; c.buffer()[..n].fill(0xA5) })),
        of("LED", "check is strict", Answer(|c| if c.out.is_none() && c.answer.as_ref().is_ok_and(|f| f != c.p) { c.refuse(17) })),
        of("LED", "normalise copies", Answer(|c| if c.answer.is_ok() { c.accept() })),
        of("MFG", "everything is refused", Answer(|c| c.refuse(4))),
        of("XRD", "everything is taken", Answer(|c| c.accept())),
        of("OUT", "check passes every list", Answer(|c| if c.out.is_none() && c.is_row(7) { c.accept() })),
        of("BIOREADR", "check refuses what normalise takes, for an empty tail", Answer(|c| if c.out.is_none() && c.n() == 6 { c.refuse(6) })),
        of("COMSET", "check refuses an address above 7E, which normalise takes",
            Answer(|c| if c.out.is_none() && c.answer.is_ok() && c.b(0) > 0x7E { c.refuse(3) })),
    ]
}

/// What no run of this size can notice.
fn hidden() -> Vec<Mutant> {
    vec![
        shows(
            Shows::Nothing("one number of 2^32, and all are treated alike"),
            of("FILETRANSFER", "a total size of 87654321 hex is refused", Answer(|c| if c.u16(1) == 0x4321 && c.u16(3) == 0x8765 { c.refuse(6) })),
        ),
        shows(
            Shows::Nothing("a run has some 2 * 10^8 calls; a call of the library has no memory of those before it"),
            any("FMT", "wrong from the 10^12th call on", After(|c| if CALLS.fetch_add(1, Relaxed) > 1_000_000_000_000 { c.returned = -28 })),
        ),
    ]
}
