//! Memory between two pages that must not be touched. Touching one, or writing where only reading is allowed, ends the process, and prints which
//! payload or frame the thread was at.
use judge::chance::Chance;
use std::cell::Cell;
use std::ffi::c_void;

extern "C" {
    fn mmap(at: *mut c_void, len: usize, prot: i32, flags: i32, fd: i32, offset: i64) -> *mut c_void;
    fn mprotect(at: *mut c_void, len: usize, prot: i32) -> i32;
    fn munmap(at: *mut c_void, len: usize) -> i32;
    fn memfd_create(name: *const u8, flags: u32) -> i32;
    fn ftruncate(fd: i32, len: i64) -> i32;
    fn close(fd: i32) -> i32;
    fn signal(number: i32, handler: extern "C" fn(i32)) -> usize;
    fn write(fd: i32, from: *const u8, len: usize) -> isize;
    fn _exit(status: i32) -> !;
}

// Linux
const PROT_NONE: i32 = 0;
const PROT_READ: i32 = 1;
const PROT_READ_WRITE: i32 = 3;
const MAP_SHARED: i32 = 0x01;
const MAP_FIXED: i32 = 0x10;
/// Private, of no file, and without memory set aside for it.
const MAP_RESERVED: i32 = 0x4022;
const SIGBUS: i32 = 7;
const SIGSEGV: i32 = 11;
const PAGE: usize = 4096;

fn pages(bytes: usize) -> usize {
    bytes.div_ceil(PAGE) * PAGE
}

unsafe fn mapped(at: *mut u8, len: usize, prot: i32, flags: i32, fd: i32) -> *mut u8 {
    let got = mmap(at.cast(), len, prot, flags, fd, 0);
    assert!(got as isize != -1, "mmap");
    got.cast()
}

pub struct Region {
    front: *mut u8,
    len: usize,
    /// The same memory where it can be written.
    written: *mut u8,
}

impl Region {
    /// So many bytes, none of which can be touched yet.
    fn reserved(at_least: usize) -> Region {
        let len = pages(at_least);
        let front = unsafe { mapped(std::ptr::null_mut(), len + 2 * PAGE, PROT_NONE, MAP_RESERVED, -1).add(PAGE) };
        Region { front, len, written: front }
    }

    fn allow(self, bytes: usize, prot: i32) -> Region {
        assert!(unsafe { mprotect(self.front.cast(), pages(bytes), prot) } == 0, "mprotect");
        self
    }

    pub fn writable(at_least: usize) -> Region {
        Region::reserved(at_least).allow(at_least, PROT_READ_WRITE)
    }

    /// So many bytes, of which only the first few can be touched.
    pub fn writable_front(at_least: usize, front: usize) -> Region {
        Region::reserved(at_least).allow(front, PROT_READ_WRITE)
    }

    /// Zeroes that can only be read.
    pub fn zeroes(at_least: usize) -> Region {
        Region::zeroes_behind(0, at_least)
    }

    /// The same, of which the first few can be written.
    pub fn zeroes_behind(front: usize, at_least: usize) -> Region {
        Region::reserved(at_least).allow(at_least, PROT_READ).allow(front, PROT_READ_WRITE)
    }

    /// Memory that can only be read; `put` writes it by way of a second mapping.
    pub fn read_only(at_least: usize) -> Region {
        let mut r = Region::reserved(at_least);
        unsafe {
            let file = memfd_create(c"payload".as_ptr().cast(), 0);
            assert!(file >= 0 && ftruncate(file, r.len as i64) == 0, "memfd");
            mapped(r.front, r.len, PROT_READ, MAP_SHARED | MAP_FIXED, file);
            r.written = mapped(std::ptr::null_mut(), r.len, PROT_READ_WRITE, MAP_SHARED, file);
            close(file);
        }
        r
    }

    /// Copies the bytes to an offset, and says where they are.
    pub fn put(&self, bytes: &[u8], offset: usize) -> *const u8 {
        assert!(offset + bytes.len() <= self.len);
        unsafe {
            std::ptr::copy_nonoverlapping(bytes.as_ptr(), self.written.add(offset), bytes.len());
            self.front.add(offset)
        }
    }

    /// The offset of so many bytes: one time in eight right after the first forbidden page, one time in eight anywhere in the 4,096 bytes after
    /// it, which has every alignment, and else right before the last forbidden page.
    pub fn offset(&self, bytes: usize, r: &mut Chance) -> usize {
        let end = self.len - bytes;
        match r.below(8) {
            0 => 0,
            1 => r.below(end.min(PAGE) + 1),
            _ => end,
        }
    }

    /// So many bytes at most, both before an offset and from it on, as far as they are of this memory.
    pub fn around(&self, offset: usize, before: usize, from: usize) -> (usize, usize) {
        (before.min(offset), from.min(self.len - offset))
    }

    pub fn at(&self, offset: usize) -> *mut u8 {
        unsafe { self.front.add(offset) }
    }
}

impl Drop for Region {
    fn drop(&mut self) {
        unsafe {
            munmap(self.front.sub(PAGE).cast(), self.len + 2 * PAGE);
            if self.written != self.front {
                munmap(self.written.cast(), self.len);
            }
        }
    }
}

thread_local! {
    /// The payload or frame that this thread is at: a side or `frame` and what is done, the code byte, and the length.
    static NOW: Cell<(&'static str, u8, usize)> = const { Cell::new(("", 0, 0)) };
}

pub fn now(name: &'static str, code: u8, len: usize) {
    NOW.set((name, code, len));
}

/// A handler of a signal may not allocate.
extern "C" fn touched(_: i32) {
    let (name, code, mut len) = NOW.get();
    let mut text = *b"DIFFERS: memory was touched that must not be; ........... .., length           0\n";
    text[46..57].fill(b' ');
    text[46..46 + name.len()].copy_from_slice(name.as_bytes());
    let digit = |n: usize| b"0123456789ABCDEF"[n];
    text[58] = digit(usize::from(code) / 16);
    text[59] = digit(usize::from(code) % 16);
    let mut at = text.len() - 2;
    while len > 0 {
        text[at] = digit(len % 10);
        len /= 10;
        at -= 1;
    }
    unsafe {
        write(1, text.as_ptr(), text.len());
        _exit(1)
    }
}

pub fn watch() {
    unsafe {
        signal(SIGSEGV, touched);
        signal(SIGBUS, touched);
    }
}
