//! The oracle: one case a line on standard input.
//!   oracle          one answer a line
//!   oracle pack     the cases with their answers, in the vector format
//!   oracle examples    lines `CASE => WORDS`: whether each answer begins with these words, and how many do
//!   oracle frames COUNT SEED    so many frames by chance with their answers, in the vector format; standard input is not read
//!   oracle streams COUNT SEED   the same of streams
//! README.md has the forms of cases and answers.
mod answer;
mod model;
mod pack;
mod records;
mod streams;

use answer::{answer, names, Answer, Case, CHECKS, GUARDS, TABLES};
use judge::frame::Frame;
use judge::frames::Drawn;
use judge::kinds::{Side, KINDS};
use judge::read::Written;
use judge::refusal::Refusal;
use judge::scan::Scanned;
use std::fmt::Write as _;
use std::io::{BufRead, Write};

/// How many frames to be written follow the twelve to be read that are made of a good one: one in five.
const WRITES: usize = 3;

/// `-` is none; pieces are joined by `+`; a piece is hex digits, or HH*N for N bytes HH.
fn bytes(s: &str) -> Option<Vec<u8>> {
    let mut out = Vec::new();
    if s == "-" {
        return Some(out);
    }
    for piece in s.split('+') {
        if let Some((b, n)) = piece.split_once('*') {
            out.resize(out.len() + n.parse::<usize>().ok()?, byte(b)?);
            continue;
        }
        if piece.len() % 2 != 0 {
            return None;
        }
        let digit = |c: &u8| Some((*c as char).to_digit(16)? as u8);
        for pair in piece.as_bytes().chunks_exact(2) {
            out.push(16 * digit(&pair[0])? + digit(&pair[1])?);
        }
    }
    Some(out)
}

fn byte(s: &str) -> Option<u8> {
    u8::from_str_radix(s, 16).ok()
}

fn number(s: &str) -> Option<usize> {
    s.parse().ok()
}

/// Decimal, or 0x and hex digits.
fn seed(s: &str) -> Option<u64> {
    s.strip_prefix("0x").map_or_else(|| s.parse().ok(), |hex| u64::from_str_radix(hex, 16).ok())
}

fn frame_of(code: &str, address: &str, side: &str, sequence: &str, check: &str) -> Option<Frame> {
    Some(Frame {
        address: byte(address)?,
        reply: Side::named(side)? == Side::Reply,
        sequence: sequence.parse().ok()?,
        crc: CHECKS.iter().position(|c| *c == check)? == 1,
        code: byte(code)?,
    })
}

fn parse(line: &str) -> Option<Case> {
    let w: Vec<&str> = line.split_ascii_whitespace().collect();
    let payload = |of_kind, what, code, data| {
        Some(Case::Payload { side: Side::named(what)?, of_kind, code: byte(code)?, payload: bytes(data)? })
    };
    match w[..] {
        ["table", name, b] => Some(Case::Table(TABLES.iter().position(|t| *t == name)?, byte(b)?)),
        ["guard", name, n, code, data] => Some(Case::Guard(GUARDS.iter().position(|g| *g == name)?, number(n)?, byte(code)?, bytes(data)?)),
        ["kind", what, code, data] => payload(true, what, code, data),
        ["write", what, code, fixed, tail] => {
            Some(Case::Write { side: Side::named(what)?, code: byte(code)?, fixed: bytes(fixed)?, tail: bytes(tail)? })
        }
        ["bits", count, data] => Some(Case::Bits(count.parse().ok()?, bytes(data)?)),
        ["record", code, k, data] => Some(Case::Record { code: byte(code)?, k: number(k)?, payload: bytes(data)? }),
        ["walk", data] => Some(Case::Walk { place: None, payload: bytes(data)? }),
        ["walk", place, data] => Some(Case::Walk { place: Some(number(place)?), payload: bytes(data)? }),
        ["read-at", place, data] => Some(Case::ReadAt { place: number(place)?, payload: bytes(data)? }),
        ["write-at", code, place, room, fixed] => {
            Some(Case::WriteAt { code: byte(code)?, place: number(place)?, room: number(room)?, fixed: bytes(fixed)? })
        }
        ["frame", data] => Some(Case::Frame(bytes(data)?)),
        ["frame-write", code, address, side, sequence, check, data] => {
            Some(Case::FrameWrite { frame: frame_of(code, address, side, sequence, check)?, payload: bytes(data)? })
        }
        ["checks", start, data] => Some(Case::Checks(start.parse().ok()?, bytes(data)?)),
        ["stream", ended @ ("0" | "1"), data] => Some(Case::Stream { ended: ended == "1", bytes: bytes(data)? }),
        [what, code, data] => payload(false, what, code, data),
        _ => None,
    }
}

fn hex(bytes: &[u8]) -> String {
    if bytes.is_empty() {
        return "-".into();
    }
    let mut s = String::with_capacity(2 * bytes.len());
    for b in bytes {
        write!(s, "{b:02X}").expect("a string");
    }
    s
}

fn refused(e: &Refusal) -> String {
    format!("refused {} {:02X} {} {}", e.row, e.code, e.first, e.second)
}

fn differs(w: &Written) -> String {
    w.difference.as_ref().map_or("".into(), |name| format!(" differs: {name}"))
}

fn fields(f: &Frame) -> String {
    let (side, check) = names(f.reply, f.crc);
    format!("{:02X} {side} {} {check} {:02X}", f.address, f.sequence, f.code)
}

fn step(s: &Scanned) -> String {
    match s {
        Scanned::Read(f, n) => format!("read {n} {} ", fields(f)),
        Scanned::Damaged(e, n) => format!("damaged {n} {} ", refused(e)),
        Scanned::Other(n) => format!("other {n} "),
        Scanned::More(n) => format!("more {n} "),
    }
}

fn text(a: &Answer) -> String {
    match a {
        Answer::Refused(e) => refused(e),
        Answer::Passed => "passed".into(),
        Answer::Gave(bytes) => format!("gave {}", hex(bytes)),
        Answer::Wrote(w) => format!("gave {}{}", hex(&w.bytes), differs(w)),
        Answer::Read { parts, wrote, strict, first, .. } => {
            let said = |e: &Option<Refusal>| e.map_or("passed".into(), |e| refused(&e));
            let other = if first == strict { String::new() } else { format!(" first {}", said(first)) };
            format!("read {} {} wrote {} strict {}{other}{}", hex(&parts.fixed), hex(&parts.tail), hex(&wrote.bytes), said(strict), differs(wrote))
        }
        Answer::Framed(f, payload) => format!("read {} {}", fields(f), hex(payload)),
        Answer::Steps(steps) => steps.iter().map(step).collect::<String>() + "end",
    }
}

fn stop(why: &str) -> ! {
    eprintln!("oracle: {why}");
    std::process::exit(1)
}

/// A case with its answer; `place` says where it is from.
fn with_answer(place: std::fmt::Arguments, case: Case) -> (Case, Answer) {
    let answer = std::panic::catch_unwind(|| answer(&case)).unwrap_or_else(|e| {
        let why = e.downcast_ref::<String>().map_or("the original panicked", |s| s);
        stop(&format!("{place}: {why}"))
    });
    (case, answer)
}

fn answered(number: usize, line: &str) -> (Case, Answer) {
    let case = parse(line).unwrap_or_else(|| stop(&format!("line {number} is no case")));
    with_answer(format_args!("line {number}"), case)
}

/// Whether an answer begins with these words, of which there is at least one. Each is a whole word; bytes may be spelt as in a case.
fn begins(answer: &str, words: &str) -> bool {
    let mut said = answer.split_ascii_whitespace();
    let mut wanted = words.split_ascii_whitespace().peekable();
    let spelt = |word: &str| bytes(word).filter(|_| word.contains(['*', '+'])).map_or(word.into(), |b| hex(&b));
    wanted.peek().is_some() && wanted.all(|word| said.next() == Some(&spelt(word)))
}

/// Whether a line of the examples has an answer, and the right one. If not, says so.
fn as_stated(number: usize, line: &str) -> bool {
    let Some((case, words)) = line.split_once(" => ") else {
        eprintln!("line {number}: {line:.80}: no answer is stated");
        return false;
    };
    let said = text(&answered(number, case).1);
    let is_right = begins(&said, words);
    if !is_right {
        eprintln!("line {number}: {case:.80}: {said:.80}, not {words}");
    }
    is_right
}

/// The lines of standard input that are neither empty nor a comment, with their numbers.
fn lines() -> impl Iterator<Item = (usize, String)> {
    let all = (1..).zip(std::io::stdin().lock().lines());
    let read = all.map(|(number, line)| (number, line.unwrap_or_else(|e| stop(&e.to_string()))));
    read.filter(|(_, line)| !line.is_empty() && !line.starts_with('#'))
}

fn put(out: &mut impl Write, bytes: &[u8]) {
    out.write_all(bytes).unwrap_or_else(|e| stop(&e.to_string()));
}

/// Whether all examples are as stated, and there is one.
fn examples(out: &mut impl Write) -> bool {
    let (right, wrong): (Vec<_>, Vec<_>) = lines().partition(|(number, line)| as_stated(*number, line));
    put(out, format!("{} examples as stated\n", right.len()).as_bytes());
    !right.is_empty() && wrong.is_empty()
}

fn answers(out: &mut impl Write) {
    for (number, line) in lines() {
        put(out, format!("{}\n", text(&answered(number, &line).1)).as_bytes());
    }
}

/// Packs the cases, and the end of the stream.
fn packed(out: &mut impl Write, cases: impl Iterator<Item = (Case, Answer)>) -> pack::Tally {
    let (mut tally, mut bytes) = (pack::Tally::default(), Vec::new());
    for (case, answer) in cases {
        bytes.clear();
        pack::pack(&mut bytes, &mut tally, &case, &answer);
        put(out, &bytes);
    }
    bytes.clear();
    tally.end(&mut bytes);
    put(out, &bytes);
    tally
}

/// A good frame, damaged ones and some that are to be written.
fn batch(drawn: &mut Drawn) -> Vec<Case> {
    let mut cases: Vec<Case> = drawn.frames().into_iter().map(Case::Frame).collect();
    cases.extend((0..WRITES).map(|_| {
        let (frame, payload) = drawn.record();
        Case::FrameWrite { frame, payload }
    }));
    cases
}

/// Without end.
fn frames(seed: u64) -> impl Iterator<Item = Case> {
    let mut drawn = Drawn::new(seed);
    std::iter::repeat_with(move || batch(&mut drawn)).flatten()
}

/// Packs so many cases by chance.
fn by_chance<I: Iterator<Item = Case>>(out: &mut impl Write, cases: fn(u64) -> I, count: &str, seed_of: &str) -> pack::Tally {
    let (Some(count), Some(seed)) = (number(count), seed(seed_of)) else { stop("COUNT and SEED are numbers") };
    packed(out, (1..=count).zip(cases(seed)).map(|(number, case)| with_answer(format_args!("case {number}"), case)))
}

fn main() {
    // read before panics are made silent, so that a malformed line is reported
    std::sync::LazyLock::force(&KINDS);
    std::panic::set_hook(Box::new(|_| {}));
    let mut out = std::io::BufWriter::with_capacity(1 << 20, std::io::stdout().lock());
    let arguments: Vec<String> = std::env::args().skip(1).collect();
    let is_good = match arguments.iter().map(|a| &a[..]).collect::<Vec<_>>()[..] {
        [] => {
            answers(&mut out);
            true
        }
        // whether every row and every difference occurred, every kind was read and written, and frames and streams were as below
        ["pack"] => packed(&mut out, lines().map(|(number, line)| answered(number, &line))).report(),
        ["examples"] => examples(&mut out),
        // whether every refusal of a frame occurred, and each side was read and written with each check
        ["frames", count, seed] => by_chance(&mut out, frames, count, seed).report_of_frames(),
        // whether every step of a stream occurred
        ["streams", count, seed] => by_chance(&mut out, streams::cases, count, seed).report_of_streams(),
        _ => stop("usage: oracle [pack | examples | frames COUNT SEED | streams COUNT SEED]"),
    };
    out.flush().unwrap_or_else(|e| stop(&e.to_string()));
    std::process::exit(if is_good { 0 } else { 1 })
}
