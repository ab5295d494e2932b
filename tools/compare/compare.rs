//! The six C calls against the original Rust and the model of frames, in one process:
//! compare [--only SIDE CODE | --only frame WAY] [--stop N] [SEED]
//! README.md says what is tried. Exits with 1 if an answer or a byte differs, memory is touched that must not be, a kind or a frame was never
//! accepted, a row that a kind or a call on frames can give never occurred or one that it cannot give did, nothing occurred that the original refuses
//! to write and this repository writes, or too few cases or frames were tried. With --only one code byte, or reading or writing frames, is tried by
//! itself, with the same cases, and rows and the number of cases are not looked at; with --stop the run ends at N differences.
mod calls;
mod frames;
mod guarded;
mod memory;
mod tried;
mod tried_frames;

use calls::{Count, NO_ROOM};
use judge::frame::{READ_ROWS, WRITE_ROWS};
use judge::kinds::{kind, Kind, Side, KINDS};
use memory::DIFFERENCES;
use std::sync::atomic::{AtomicUsize, Ordering};
use std::sync::Mutex;
use tried_frames::Way;

const SEED: u64 = 0x05D9_2026;
const ROWS: [usize; 13] = [1, 2, 3, 4, 5, 6, 7, 8, 9, 10, 14, NO_ROOM as usize, 28];
const FRAME_ROWS: [usize; 8] = [1, 2, 4, 6, NO_ROOM as usize, 20, 21, 22];
/// A run of all has at least so many cases of payloads, and so many frames.
const LEAST_CASES: u64 = 200_000_000;
const LEAST_FRAMES: u64 = 50_000_000;

/// What can be tried by itself.
#[derive(Clone, Copy, PartialEq)]
enum Subject {
    Code(Side, u8),
    Frames(Way),
}

struct Counts {
    codes: [[Count; 256]; 2],
    frames: [Count; 2],
}

impl Counts {
    fn of(&mut self, subject: Subject) -> &mut Count {
        match subject {
            Subject::Code(side, code) => &mut self.codes[side as usize][usize::from(code)],
            Subject::Frames(way) => &mut self.frames[way as usize],
        }
    }
}

struct Options {
    only: Option<Subject>,
    stop: u64,
    seed: u64,
}

fn wrong_usage(why: &str) -> ! {
    eprintln!("compare: {why}\nusage: compare [--only SIDE CODE | --only frame WAY] [--stop N] [SEED]; SEED is a number, or 0x and hex digits");
    std::process::exit(2)
}

fn subject(one: &str, other: &str) -> Option<Subject> {
    if one == "frame" {
        return Way::named(other).map(Subject::Frames);
    }
    Some(Subject::Code(Side::named(one)?, u8::from_str_radix(other, 16).ok()?))
}

fn options() -> Options {
    let mut o = Options { only: None, stop: u64::MAX, seed: SEED };
    let mut words = std::env::args().skip(1);
    while let Some(word) = words.next() {
        let mut next = || words.next().unwrap_or_else(|| wrong_usage("something is missing at the end"));
        match &word[..] {
            "--only" => {
                let only = subject(&next(), &next());
                o.only = Some(only.unwrap_or_else(|| wrong_usage("--only takes a side and a code byte in hex, or frame and read or write")));
            }
            "--stop" => o.stop = next().parse().ok().filter(|&n| n > 0).unwrap_or_else(|| wrong_usage("--stop takes a number above 0")),
            s => {
                let number = s.strip_prefix("0x").map_or_else(|| s.parse().ok(), |h| u64::from_str_radix(h, 16).ok());
                o.seed = number.unwrap_or_else(|| wrong_usage(&format!("{s} is no seed")));
            }
        }
    }
    o
}

/// What is to be tried, each with the number of its part. Frames have parts; code bytes of kinds come first of their own, since they take longest.
fn parts(only: Option<Subject>) -> Vec<(Subject, usize)> {
    let mut codes: Vec<_> = Side::BOTH.into_iter().flat_map(|side| (0..=255).map(move |code| (side, code))).collect();
    codes.sort_by_key(|&(side, code)| kind(side, code).map_or(0, |k| -(k.most as i64)));
    let frames = Way::BOTH.into_iter().flat_map(|way| (0..tried_frames::parts(way)).map(move |part| (Subject::Frames(way), part)));
    let all = frames.chain(codes.into_iter().map(|(side, code)| (Subject::Code(side, code), 0)));
    all.filter(|(subject, _)| only.is_none_or(|one| one == *subject)).collect()
}

fn tried(subject: Subject, part: usize, o: &Options) -> Count {
    match subject {
        Subject::Code(side, code) => tried::of_code(side, code, o.seed, o.stop),
        Subject::Frames(way) => tried_frames::of_part(way, part, o.seed, o.stop),
    }
}

/// Tries all, as many at a time as there are processors, but two at least.
fn try_all(o: &Options) -> Counts {
    let parts = parts(o.only);
    let next = AtomicUsize::new(0);
    let counts = Mutex::new(Counts { codes: [[Count::default(); 256]; 2], frames: [Count::default(); 2] });
    let work = || {
        while let Some(&(subject, part)) = parts.get(next.fetch_add(1, Ordering::Relaxed)) {
            let count = tried(subject, part, o);
            counts.lock().expect("no thread ends early").of(subject).add(&count);
        }
    };
    let threads = std::thread::available_parallelism().map_or(2, |n| n.get().max(2)).min(parts.len());
    std::thread::scope(|s| {
        for _ in 0..threads {
            s.spawn(work);
        }
    });
    counts.into_inner().expect("no thread ends early")
}

fn heading(what: &str, columns: &[usize]) {
    print!("{:<18} {what:>10} {:>11} {:>9} {:>9}", "", "cases", "accepted", "changed");
    columns.iter().for_each(|r| print!(" {:>9}", format!("row {r}")));
    println!();
}

/// Prints a line of counts and what is wrong with them; returns whether nothing is. `can_be_changed` is None where nothing is accepted.
fn line(name: &str, c: &Count, columns: &[usize], rows: &[usize], can_be_changed: Option<bool>) -> bool {
    print!("{name:<18} {:>10} {:>11} {:>9} {:>9}", c.payloads, c.cases, c.accepted, c.changed);
    columns.iter().for_each(|&r| print!(" {:>9}", c.rows[r]));
    println!();
    let mut good = true;
    let mut say = |what: String| {
        println!("{name}: {what}");
        good = false;
    };
    for (r, &n) in c.rows.iter().enumerate() {
        match (rows.contains(&r), n) {
            (true, 0) => say(format!("row {r} never occurred")),
            (false, n) if n > 0 => say(format!("row {r} occurred, and cannot be given here")),
            _ => {}
        }
    }
    if let Some(can) = can_be_changed {
        if c.accepted == 0 {
            say("never accepted".into());
        }
        if can != (c.changed > 0) {
            say(format!("normalising changed {} payloads", c.changed));
        }
    }
    good
}

/// Prints payloads by kind and outcome. Returns whether all that can occur did and nothing else.
fn table(counts: &[[Count; 256]; 2]) -> bool {
    heading("payloads", &ROWS);
    let (mut total, mut good) = (Count::default(), true);
    for k in KINDS.iter() {
        let c = &counts[k.side as usize][usize::from(k.code)];
        good &= line(&format!("{:<12} {:02X}", k.name, k.code), c, &ROWS, &k.rows, Some(k.can_change()));
        total.add(c);
    }
    for (side, unknown) in [(Side::Command, 1), (Side::Reply, 2)] {
        let mut c = Count::default();
        for code in (0..=255u8).filter(|&c| kind(side, c).is_none()) {
            c.add(&counts[side as usize][usize::from(code)]);
        }
        good &= line(&format!("other {}", side.name()), &c, &ROWS, &[unknown, 14], None);
        total.add(&c);
    }
    good &= line("all", &total, &ROWS, &ROWS, Some(true));
    if total.cases < LEAST_CASES {
        println!("all: fewer than {LEAST_CASES} cases");
        good = false;
    }
    good
}

/// The same of frames, read and written.
fn table_of_frames(counts: &[Count; 2]) -> bool {
    heading("frames", &FRAME_ROWS);
    let mut good = true;
    let [read, write] = [READ_ROWS.to_vec(), [&WRITE_ROWS[..], &[NO_ROOM]].concat()];
    for (way, rows) in [(Way::Read, read), (Way::Write, write)] {
        let rows: Vec<usize> = rows.into_iter().map(usize::from).collect();
        good &= line(&format!("frame {}", way.name()), &counts[way as usize], &FRAME_ROWS, &rows, Some(false));
    }
    if counts.iter().map(|c| c.payloads).sum::<u64>() < LEAST_FRAMES {
        println!("frames: fewer than {LEAST_FRAMES}");
        good = false;
    }
    good
}

/// What the original refuses to write and this repository writes, of the codes that are tried, and how often each occurred.
fn named(only: Option<Subject>, counts: &Counts) -> Vec<(String, u64)> {
    let tried = |k: &&Kind| only.is_none_or(|one| one == Subject::Code(k.side, k.code));
    let differing = |k: &Kind| Some((k.difference()?, counts.codes[k.side as usize][usize::from(k.code)].differing));
    KINDS.iter().filter(tried).filter_map(differing).collect()
}

/// The sums of payloads and of frames.
fn sums(counts: &Counts) -> [Count; 2] {
    let mut sums = [Count::default(); 2];
    counts.codes.iter().flatten().for_each(|c| sums[0].add(c));
    counts.frames.iter().for_each(|c| sums[1].add(c));
    sums
}

fn main() {
    let o = options();
    let start = std::time::Instant::now();
    guarded::watch();
    let counts = try_all(&o);
    let good = o.only.is_some() || table(&counts.codes) & table_of_frames(&counts.frames);
    let [of_payloads, of_frames] = sums(&counts);
    let differences = DIFFERENCES.load(Ordering::Relaxed);
    let (cases, payloads, frames) = (of_payloads.cases + of_frames.cases, of_payloads.payloads, of_frames.payloads);
    let named = named(o.only, &counts);
    let never: Vec<_> = named.iter().filter(|(_, n)| *n == 0).collect();
    never.iter().for_each(|(name, _)| println!("{name}: never occurred"));
    let also: String = named.iter().map(|(name, n)| format!("; {name}, which the original refuses to write: {n} payloads")).collect();
    let (seed, seconds) = (o.seed, start.elapsed().as_secs());
    println!("compare: {cases} cases over {payloads} payloads and {frames} frames, {differences} differences, seed {seed:#x}, {seconds} s{also}");
    if differences > 0 || !good || !never.is_empty() {
        std::process::exit(1);
    }
}
