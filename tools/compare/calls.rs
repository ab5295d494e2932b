//! The four calls on one payload, and whether each answer and each byte is what the original's answer makes it.
use crate::guarded::{self, Region};
use crate::memory::{hex, Buffer, Memory, WIDE};
use judge::kinds::{Side, LONGEST};
use judge::read::{normal_form, Written};
use judge::refusal::Refusal;

extern "C" {
    fn osdp_check_command(code: u8, payload: *const u8, payload_len: usize) -> i32;
    fn osdp_check_reply(code: u8, payload: *const u8, payload_len: usize) -> i32;
    fn osdp_normalise_command(code: u8, payload: *const u8, payload_len: usize, out: *mut u8, out_len: usize) -> i32;
    fn osdp_normalise_reply(code: u8, payload: *const u8, payload_len: usize, out: *mut u8, out_len: usize) -> i32;
}

pub const NO_ROOM: u8 = 15;
/// One payload in so many is also given a buffer of the longest length, or of any from its need to 199 above the longest.
const FAR: usize = 128;

/// How often each outcome occurred for a code byte.
#[derive(Clone, Copy, Default)]
pub struct Count {
    pub payloads: u64,
    pub cases: u64,
    pub accepted: u64,
    pub changed: u64,
    /// What the original refuses to write.
    pub differing: u64,
    pub rows: [u64; 29],
}

impl Count {
    pub fn add(&mut self, o: &Count) {
        self.payloads += o.payloads;
        self.cases += o.cases;
        self.accepted += o.accepted;
        self.changed += o.changed;
        self.differing += o.differing;
        for (a, b) in self.rows.iter_mut().zip(o.rows) {
            *a += b;
        }
    }
}

/// A payload, and where it is lent.
#[derive(Clone, Copy)]
struct Lent<'a> {
    p: &'a [u8],
    at: *const u8,
}

/// Tries the calls for one code byte; each thread has its own. The payload cannot be written, except in `only_normalise`.
pub struct Tester {
    side: Side,
    code: u8,
    memory: Memory,
    wide_payload: Region,
    pub count: Count,
}

impl Tester {
    pub fn new(side: Side, code: u8, seed: u64, stop: u64) -> Tester {
        Tester { side, code, memory: Memory::new(LONGEST, seed, stop), wide_payload: Region::zeroes(WIDE), count: Count::default() }
    }

    fn differs(&self, call: &str, p: &[u8], want: &str, got: &str) {
        self.memory.differs(|| format!("{call}_{} code {:02X} payload [{}]", self.side.name(), self.code, hex(p)), want, got);
    }

    fn check(&mut self, l: Lent, want: i32) {
        let call = if self.side == Side::Command { osdp_check_command } else { osdp_check_reply };
        let got = unsafe { call(self.code, l.at, l.p.len()) };
        self.count.cases += 1;
        if got != want {
            self.differs("check", l.p, &want.to_string(), &got.to_string());
        }
    }

    /// Normalises into a buffer. `form` is what has to be written, empty if the call has to refuse.
    fn normalise(&mut self, l: Lent, b: &Buffer, want: i32, form: &[u8]) {
        let call = if self.side == Side::Command { osdp_normalise_command } else { osdp_normalise_reply };
        self.count.cases += 1;
        let done = self.memory.filled(b, want, form, |out| unsafe { call(self.code, l.at, l.p.len(), out, b.room) });
        if let Err(wrong) = done {
            self.differs("normalise", l.p, &wrong.want, &wrong.got);
        }
    }

    /// A buffer of so many bytes.
    fn into(&mut self, l: Lent, room: usize, want: i32, form: &[u8]) {
        let buffer = self.memory.buffer(room);
        self.normalise(l, &buffer, want, form);
    }

    /// The length of a far longer buffer, if it is this payload's turn.
    fn far(&mut self, least: usize) -> Option<usize> {
        match self.memory.places.below(2 * FAR) {
            0 => Some(LONGEST),
            1 => Some(least + self.memory.places.below(LONGEST + 200 - least)),
            _ => None,
        }
    }

    fn accepted(&mut self, l: Lent, form: &[u8]) {
        let need = form.len();
        self.check(l, 0);
        let between = if need > 2 { 1 + self.memory.places.below(need - 2) } else { 0 };
        for room in [0, between, need - 1] {
            self.into(l, room, -i32::from(NO_ROOM), &[]);
        }
        let above = need + 1 + self.memory.places.below(l.p.len() - need + 90);
        let far = self.far(need);
        for room in [need, above].into_iter().chain(far) {
            self.into(l, room, need as i32, form);
        }
        self.count.accepted += 1;
        self.count.changed += u64::from(form != l.p);
    }

    fn refused(&mut self, l: Lent, row: u8) {
        let want = -i32::from(row);
        self.check(l, want);
        let n = l.p.len();
        let [between, above] = [self.memory.places.below(n + 1), n + 1 + self.memory.places.below(90)];
        let far = self.far(0);
        for room in [0, between, n, above].into_iter().chain(far) {
            self.into(l, room, want, &[]);
        }
    }

    fn lend<'a>(&mut self, p: &'a [u8]) -> Lent<'a> {
        self.now(p.len());
        Lent { p, at: self.memory.lend(p) }
    }

    fn now(&self, len: usize) {
        guarded::now(self.side.name(), self.code, len);
    }

    /// All calls for one payload.
    pub fn payload(&mut self, p: &[u8]) {
        let l = self.lend(p);
        let want = normal_form(self.side, self.code, p);
        match &want {
            Ok(form) => self.accepted(l, &form.bytes),
            Err(e) => self.refused(l, e.row),
        }
        self.counted(&want);
    }

    fn counted(&mut self, want: &Result<Written, Refusal>) {
        let row = want.as_ref().map_or_else(|e| e.row, |_| NO_ROOM);
        self.count.payloads += 1;
        self.count.rows[usize::from(row)] += 1;
        self.count.differing += u64::from(want.as_ref().is_ok_and(|form| form.difference.is_some()));
    }

    /// A check, and if it passes normalise into exactly enough room.
    pub fn once(&mut self, p: &[u8]) {
        let l = self.lend(p);
        let want = normal_form(self.side, self.code, p);
        match &want {
            Ok(form) => {
                self.check(l, 0);
                self.into(l, form.bytes.len(), form.bytes.len() as i32, &form.bytes);
            }
            Err(e) => self.check(l, -i32::from(e.row)),
        }
        self.counted(&want);
    }

    /// A payload of so many zeroes, longer than any that is taken.
    pub fn too_long(&mut self, len: usize) {
        self.now(len);
        let at = self.wide_payload.at(0);
        let l = Lent { p: unsafe { std::slice::from_raw_parts(at, len) }, at };
        let refused = normal_form(self.side, self.code, l.p).err().expect("too long");
        let want = -i32::from(refused.row);
        self.check(l, want);
        for room in [0, 64, LONGEST] {
            self.into(l, room, want, &[]);
        }
        self.counted(&Err(refused));
    }

    /// A buffer that is longer than any payload.
    pub fn wide_room(&mut self, p: &[u8], room: usize) {
        let l = self.lend(p);
        let buffer = self.memory.wide_buffer(room);
        match normal_form(self.side, self.code, p) {
            Ok(form) => self.normalise(l, &buffer, form.bytes.len() as i32, &form.bytes),
            Err(e) => self.normalise(l, &buffer, -i32::from(e.row), &[]),
        }
    }

    /// Writes a payload that normalising leaves as it is, and does little else, so that two threads are often in the call at the same time.
    pub fn only_normalise(&mut self, p: &[u8]) {
        self.now(p.len());
        let l = Lent { p, at: p.as_ptr() };
        let buffer = self.memory.plain_buffer(p.len());
        self.normalise(l, &buffer, p.len() as i32, p);
    }
}
