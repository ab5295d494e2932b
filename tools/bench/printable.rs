//! The check of a text's bytes by itself: that of `crates/text` beside the original's, beside the loop that `crates/text` had before it took words,
//! and beside a plain loop over bytes. Each answers 1 if every byte lies in 0x20 to 0x7E, otherwise 0.
use crate::calls::{nothing, reads};
use crate::Case;
use judge::chance::Chance;
use osdp::error::Error;

// validate_ascii, which is private to the original: build.sh cuts it out of command/text.rs.
include!("../../build/oracle/validate_ascii.rs");

// Of the archive that printable.sh makes: the check of crates/text, and the loop in it that takes what is left after the words.
extern "C" {
    fn bench_printable_text(s: *const u8, s_len: usize) -> i32;
    fn bench_printable_singly(s: *const u8, s_len: usize) -> i32;
}

const PRINTABLE: &str = "printable text";
const LONGEST: usize = 255;
const LENGTHS: [usize; 11] = [0, 1, 7, 8, 15, 16, 31, 32, 64, 128, LONGEST];
/// The least and the greatest byte that is accepted.
const LEAST: u8 = 0x20;
const MOST: u8 = 0x7E;

fn words(_: u8, s: &[u8], _: &mut [u8]) -> i32 {
    unsafe { bench_printable_text(s.as_ptr(), s.len()) }
}

fn singly(_: u8, s: &[u8], _: &mut [u8]) -> i32 {
    unsafe { bench_printable_singly(s.as_ptr(), s.len()) }
}

fn rust_text(_: u8, s: &[u8], _: &mut [u8]) -> i32 {
    validate_ascii(s).is_ok() as i32
}

/// The loop before, line by line: it goes on after a byte that it refuses, so that the compiler can take many at a time.
fn reads_on(_: u8, s: &[u8], _: &mut [u8]) -> i32 {
    let mut shown = true;
    for &b in s {
        if b < LEAST || MOST < b {
            shown = false;
        }
    }
    shown as i32
}

fn case(name: &'static str, s: Vec<u8>, answer: i32) -> Case {
    let calls = vec![
        reads("words", words, answer),
        reads("rust-text", rust_text, answer),
        reads("reads-on", reads_on, answer),
        reads("singly", singly, answer),
        reads("nothing", nothing, 0),
    ];
    Case { name, code: 0, payload: s, calls }
}

/// By chance, with the least byte first and the greatest last.
fn accepted(n: usize, r: &mut Chance) -> Vec<u8> {
    let mut s: Vec<u8> = (0..n).map(|_| r.from_to(LEAST, MOST)).collect();
    if let [first, .., last] = &mut s[..] {
        (*first, *last) = (LEAST, MOST);
    }
    s
}

fn with(bad: u8, at: usize, mut s: Vec<u8>) -> Vec<u8> {
    s[at] = bad;
    s
}

/// Accepted texts, and the longest with a bad byte at its first place, which shows what it is to stop there.
pub fn timed() -> Vec<Case> {
    let mut r = Chance::new(4);
    let texts = LENGTHS.map(|n| case(PRINTABLE, accepted(n, &mut r), 1));
    let stopped = case("refused text", with(LEAST - 1, 0, accepted(LONGEST, &mut r)), 0);
    texts.into_iter().chain([stopped]).collect()
}

/// Of each length but 0, a text with one bad byte: too small at the first place, too great in the middle, and with the top bit set at the last.
pub fn refused() -> Vec<Case> {
    let mut r = Chance::new(5);
    let bad = |n| [(n, LEAST - 1, 0), (n, MOST + 1, n / 2), (n, LEAST | 0x80, n - 1)];
    LENGTHS[1..].iter().flat_map(|&n| bad(n)).map(|(n, bad, at)| case(PRINTABLE, with(bad, at, accepted(n, &mut r)), 0)).collect()
}
