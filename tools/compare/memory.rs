//! What a call is lent: bytes, and a buffer of which each byte is watched. And what is printed of a difference.
use crate::guarded::Region;
use judge::chance::Chance;
use std::io::Write;
use std::sync::atomic::{AtomicU64, Ordering};

/// How many differences are printed.
const SHOWN: u64 = 10;
/// How many bytes are watched on both sides of a buffer.
const BESIDE: usize = 16;
/// More than any length that has 32 bits.
pub const WIDE: usize = (1 << 32) + 200_000;
/// How much of the memory for such buffers can be touched. Shorter ones end within it; what is behind them is watched too.
const WIDE_FRONT: usize = 2 * judge::kinds::LONGEST;

pub static DIFFERENCES: AtomicU64 = AtomicU64::new(0);

pub fn hex(b: &[u8]) -> String {
    let shown: String = b.iter().take(48).map(|x| format!("{x:02X}")).collect();
    if b.len() > 48 { format!("{shown}.. ({} bytes)", b.len()) } else { shown }
}

/// A buffer, with the bytes that are watched before it and from its front on.
pub struct Buffer {
    pub out: *mut u8,
    pub room: usize,
    before: usize,
    watched: usize,
}

/// What a call that fills a buffer did wrong.
pub struct Wrong {
    pub want: String,
    pub got: String,
}

/// Each thread has its own. The bytes that are lent cannot be written.
pub struct Memory {
    lent: Region,
    out: Region,
    wide_out: Region,
    pattern: Vec<u8>,
    /// Decides lengths and places of buffers, and which pointers are NULL.
    pub places: Chance,
    /// The process ends at so many differences.
    stop: u64,
}

impl Memory {
    /// For so many bytes at most, and buffers that have up to 200 more.
    pub fn new(longest: usize, seed: u64, stop: u64) -> Memory {
        Memory {
            lent: Region::read_only(longest + 64),
            out: Region::writable(longest + 512),
            wide_out: Region::writable_front(WIDE, WIDE_FRONT),
            pattern: (0..WIDE_FRONT + 512).map(|i| (i % 251) as u8 ^ 0xA5).collect(),
            places: Chance::new(seed),
            stop,
        }
    }

    /// Where the bytes are lent. If there are none, NULL half of the time.
    pub fn lend(&mut self, p: &[u8]) -> *const u8 {
        let offset = self.lent.offset(p.len(), &mut self.places);
        let at = self.lent.put(p, offset);
        let null = p.is_empty() && self.places.below(2) == 0;
        if null { std::ptr::null() } else { at }
    }

    /// A buffer of so many bytes.
    pub fn buffer(&mut self, room: usize) -> Buffer {
        let offset = self.out.offset(room, &mut self.places);
        let (before, watched) = self.out.around(offset, BESIDE, room + BESIDE);
        Buffer { out: self.out.at(offset), room, before, watched }
    }

    /// A buffer that is longer than any payload; of the memory there only the front can be touched.
    pub fn wide_buffer(&self, room: usize) -> Buffer {
        assert!(room <= WIDE);
        Buffer { out: self.wide_out.at(0), room, before: 0, watched: WIDE_FRONT }
    }

    /// A buffer at the front, of which only the bytes themselves are watched.
    pub fn plain_buffer(&self, room: usize) -> Buffer {
        Buffer { out: self.out.at(0), room, before: 0, watched: room }
    }

    /// Has a call fill a buffer. `form` is what has to be written, empty if the call has to refuse.
    pub fn filled(&mut self, b: &Buffer, want: i32, form: &[u8], call: impl FnOnce(*mut u8) -> i32) -> Result<(), Wrong> {
        let fill = self.places.below(251);
        let (front, len) = (unsafe { b.out.sub(b.before) }, b.before + b.watched);
        unsafe { std::ptr::copy_nonoverlapping(self.pattern[fill..][..len].as_ptr(), front, len) };
        let null = b.room == 0 && self.places.below(2) == 0;
        let got = call(if null { std::ptr::null_mut() } else { b.out });
        let (whole, pattern) = (unsafe { std::slice::from_raw_parts(front, len) }, &self.pattern[fill..][..len]);
        let written = b.before + form.len();
        if got != want {
            return Err(Wrong { want: format!("{want} into {} bytes", b.room), got: got.to_string() });
        }
        if whole[..b.before] != pattern[..b.before] || whole[b.before..written] != *form || whole[written..] != pattern[written..] {
            let want = format!("[{}] and the rest of {} bytes as before", hex(form), b.room);
            return Err(Wrong { want, got: format!("[{}]", hex(&whole[b.before..])) });
        }
        Ok(())
    }

    /// `call` says which it was, and what it was given.
    pub fn differs(&self, call: impl FnOnce() -> String, want: &str, got: &str) {
        // locked, or a line of another thread could come after the last
        let mut out = std::io::stdout().lock();
        let before = DIFFERENCES.fetch_add(1, Ordering::Relaxed);
        if before < SHOWN {
            writeln!(out, "DIFFERS: {} expected {want} got {got}", call()).expect("standard output");
        }
        if before + 1 >= self.stop {
            writeln!(out, "compare: stopped at {} differences", self.stop).expect("standard output");
            std::process::exit(1);
        }
    }
}
