//! The two calls on one frame, and whether each answer, each part and each byte is the model's.
use crate::calls::{Count, NO_ROOM};
use crate::guarded::{self, Region};
use crate::memory::{hex, Buffer, Memory, WIDE};
use judge::frame::{self, Frame, HEAD, MOST};

/// What parts.c says of a frame.
#[repr(C)]
#[derive(Debug, PartialEq)]
struct Parts {
    payload: *const u8,
    payload_len: usize,
    address: u8,
    reply: u8,
    sequence: u8,
    crc: u8,
    code: u8,
}

extern "C" {
    fn osdp_check_frame(frame: *const u8, frame_len: usize) -> i32;
    fn osdp_write_frame(
        address: u8,
        reply: u8,
        sequence: u8,
        crc: u8,
        code: u8,
        payload: *const u8,
        payload_len: usize,
        out: *mut u8,
        out_len: usize,
    ) -> i32;
    fn parts_of(frame: *const u8) -> Parts;
}

/// The most bytes of a frame, a payload or a buffer in memory that ends at a forbidden page.
const LONGEST: usize = 70_000;
/// One record in so many is also given a buffer of any length from its need to the longest.
const FAR: usize = 128;
/// How much of the memory for far longer frames is not zero.
const FRONT: usize = 4_096;

/// What a frame is written of, as the call takes it: reply and crc are flags.
#[derive(Clone, Copy)]
pub struct Head {
    pub address: u8,
    pub reply: u8,
    pub sequence: u8,
    pub crc: u8,
    pub code: u8,
}

impl Head {
    fn frame(&self) -> Frame {
        Frame { address: self.address, reply: self.reply != 0, sequence: self.sequence, crc: self.crc != 0, code: self.code }
    }
}

/// What has to be written, and a payload as it is lent.
#[derive(Clone, Copy)]
struct Record<'a> {
    head: Head,
    p: &'a [u8],
    at: *const u8,
}

/// Tries both calls; each thread has its own.
pub struct Tester {
    memory: Memory,
    wide: Region,
    pub count: Count,
}

impl Tester {
    pub fn new(seed: u64, stop: u64) -> Tester {
        Tester { memory: Memory::new(LONGEST, seed, stop), wide: Region::zeroes_behind(FRONT, WIDE), count: Count::default() }
    }

    fn counted(&mut self, row: Option<u8>) {
        self.count.payloads += 1;
        self.count.accepted += u64::from(row.is_none());
        if let Some(row) = row {
            self.count.rows[usize::from(row)] += 1;
        }
    }

    /// Checks a frame, and if it passes looks at its parts.
    fn check(&mut self, f: &[u8], at: *const u8, want: Result<(&Frame, &[u8]), u8>) {
        let number = want.map_or_else(|row| -i32::from(row), |_| 0);
        let got = unsafe { osdp_check_frame(at, f.len()) };
        self.count.cases += 1;
        if got != number {
            self.memory.differs(|| format!("check_frame [{}]", hex(f)), &number.to_string(), &got.to_string());
        } else if let Ok((frame, payload)) = want {
            self.parts(f, at, frame, payload);
        }
    }

    /// The parts have to be the model's, and the payload the frame's own bytes.
    fn parts(&mut self, f: &[u8], at: *const u8, frame: &Frame, payload: &[u8]) {
        let Frame { address, reply, sequence, crc, code } = *frame;
        let (payload_len, reply, crc) = (payload.len(), reply.into(), crc.into());
        let want = Parts { payload: at.wrapping_add(HEAD), payload_len, address, reply, sequence, crc, code };
        let got = unsafe { parts_of(at) };
        if got != want || f[HEAD..][..payload_len] != *payload {
            self.memory.differs(|| format!("parts of [{}]", hex(f)), &format!("{want:?}"), &format!("{got:?}"));
        }
    }

    /// A frame that is read.
    pub fn read(&mut self, f: &[u8]) {
        let at = self.memory.lend(f);
        self.read_at(f, at);
    }

    fn read_at(&mut self, f: &[u8], at: *const u8) {
        guarded::now("frame read", f.get(HEAD - 1).copied().unwrap_or(0), f.len());
        let want = frame::read(f);
        self.check(f, at, want.as_ref().map(|(frame, payload)| (frame, &payload[..])).map_err(|e| e.row));
        self.counted(want.err().map(|e| e.row));
    }

    /// Some bytes with zeroes behind them, so many in all, of which there may be more than 2^32.
    pub fn read_wide(&mut self, front: &[u8], len: usize) {
        assert!(front.len() <= FRONT && len <= WIDE);
        let at = self.wide.put(front, 0);
        self.read_at(unsafe { std::slice::from_raw_parts(at, len) }, at);
        self.wide.put(&vec![0; front.len()], 0);
    }

    /// Writes a record into a buffer, and reads what was written where it is. `form` is empty if the call has to refuse.
    fn fill(&mut self, r: Record, b: &Buffer, want: i32, form: &[u8]) {
        let Head { address, reply, sequence, crc, code } = r.head;
        let call = |out| unsafe { osdp_write_frame(address, reply, sequence, crc, code, r.at, r.p.len(), out, b.room) };
        self.count.cases += 1;
        match self.memory.filled(b, want, form, call) {
            Err(wrong) => {
                let said = || format!("write_frame {address:02X} {reply:02X} {sequence:02X} {crc:02X} {code:02X} [{}]", hex(r.p));
                self.memory.differs(said, &wrong.want, &wrong.got);
            }
            Ok(()) if want > 0 => self.check(form, b.out, Ok((&r.head.frame(), r.p))),
            Ok(()) => {}
        }
    }

    fn into(&mut self, r: Record, room: usize, want: i32, form: &[u8]) {
        let buffer = self.memory.buffer(room);
        self.fill(r, &buffer, want, form);
    }

    /// A room as it has to be answered: the frame's length, or row 15.
    fn room(&mut self, r: Record, room: usize, form: &[u8]) {
        let fits = room >= form.len();
        self.into(r, room, if fits { form.len() as i32 } else { -i32::from(NO_ROOM) }, if fits { form } else { &[] });
    }

    fn accepted(&mut self, r: Record, form: &[u8]) {
        let need = form.len();
        let (between, above) = (1 + self.memory.places.below(need - 2), need + 1 + self.memory.places.below(90));
        let far = self.far(need);
        for room in [0, between, need - 1, need, above].into_iter().chain(far) {
            self.room(r, room, form);
        }
        self.count.rows[usize::from(NO_ROOM)] += 1;
    }

    fn refused(&mut self, r: Record, row: u8) {
        let n = MOST.min(HEAD + r.p.len() + 2);
        let (between, above) = (self.memory.places.below(n), n + 1 + self.memory.places.below(90));
        let far = self.far(0);
        for room in [0, between, n, above].into_iter().chain(far) {
            self.into(r, room, -i32::from(row), &[]);
        }
    }

    /// The length of a far longer buffer, if it is this record's turn.
    fn far(&mut self, least: usize) -> Option<usize> {
        (self.memory.places.below(FAR) == 0).then(|| least + self.memory.places.below(LONGEST - least))
    }

    /// Where a payload is lent.
    fn lend<'a>(&mut self, head: Head, p: &'a [u8]) -> Record<'a> {
        guarded::now("frame write", head.code, p.len());
        Record { head, p, at: self.memory.lend(p) }
    }

    /// A record that is written into buffers of several lengths.
    pub fn write(&mut self, head: Head, p: &[u8]) {
        let r = self.lend(head, p);
        self.write_at(r);
    }

    fn write_at(&mut self, r: Record) {
        let want = frame::write(&r.head.frame(), r.p);
        match &want {
            Ok(form) => self.accepted(r, form),
            Err(e) => self.refused(r, e.row),
        }
        self.counted(want.err().map(|e| e.row));
    }

    /// The same with so many zeroes for a payload.
    pub fn write_wide(&mut self, head: Head, len: usize) {
        assert!(len <= WIDE);
        guarded::now("frame write", head.code, len);
        let at = self.wide.at(0);
        self.write_at(Record { head, p: unsafe { std::slice::from_raw_parts(at, len) }, at });
    }

    /// A record that is written into buffers of these lengths.
    pub fn rooms(&mut self, head: Head, p: &[u8], rooms: impl IntoIterator<Item = usize>) {
        let form = frame::write(&head.frame(), p).ok().expect("a record that is written");
        let r = self.lend(head, p);
        rooms.into_iter().for_each(|room| self.room(r, room, &form));
        self.counted(None);
    }

    /// A record that is written, if it is, into a buffer that is longer than any frame.
    pub fn wide_room(&mut self, head: Head, p: &[u8], room: usize) {
        let r = self.lend(head, p);
        let buffer = self.memory.wide_buffer(room);
        let want = frame::write(&head.frame(), p);
        match &want {
            Ok(form) => self.fill(r, &buffer, form.len() as i32, form),
            Err(e) => self.fill(r, &buffer, -i32::from(e.row), &[]),
        }
        self.counted(want.err().map(|e| e.row));
    }
}
