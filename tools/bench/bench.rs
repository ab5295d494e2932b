//! Times of the C calls, of the readers and of the original Rust on the same payloads, of frames beside a plain Rust, and of the check of a text's
//! bytes: bench [count]
//! A line for each kind, size and call: KIND SIZE CALL NANOSECONDS, the median of interleaved rounds. With `count`, each call is made once in
//! `measured`, for callgrind, and the lines have no time. Built with cfg `beside`, a second library's calls are measured too.
//! Before anything is measured, each call is made at every place that it is measured at, and its answer and the output are held to what the
//! Rust gives; so are the answers of the measured calls, and the output they leave. What is wrong is named, and the program exits with 1.
mod calls;
mod frames;
mod number;
mod printable;

use calls::{calls, Call, Run};
use judge::chance::Chance;
use judge::kinds::{Kind, KINDS};
use std::hint::black_box;
use std::process::exit;
use std::time::{Duration, Instant};

// The second binary has 32 bytes more in front of all other code, so that a loop that crosses a 64-byte line in one does not in the other.
#[cfg(shifted)]
core::arch::global_asm!(".text", ".p2align 6", ".globl placement", "placement: .space 32, 0x90", "ret");
#[cfg(not(shifted))]
core::arch::global_asm!(".text", ".p2align 6", ".globl placement", "placement: ret");
extern "C" {
    fn placement();
}

const ROUNDS: usize = 21;
const BATCH: Duration = Duration::from_micros(80);

/// How many bytes behind the output are looked at.
const BEHIND: usize = 64;
/// What they hold, and the output's bytes where a call has to write none.
const UNTOUCHED: u8 = 0xA5;

/// A payload, a frame or a text, and what is called on it.
struct Case {
    name: &'static str,
    code: u8,
    payload: Vec<u8>,
    calls: Vec<Call>,
}

impl Case {
    fn new(kind: &'static Kind, payload: Vec<u8>) -> Case {
        let calls = calls(kind, &payload);
        Case { name: kind.name, code: kind.code, payload, calls }
    }

    fn named(&self, call: &Call, what: String) -> String {
        format!("{}, {} bytes, {}: {what}", self.name, self.payload.len(), call.name)
    }
}

/// Payload and output of a call.
struct Memory {
    payloads: Vec<u8>,
    outputs: Vec<u8>,
}

impl Memory {
    /// Another place in its page each round: a copy is slow if source and target have nearly the same place in their pages.
    fn place(&mut self, p: &[u8], round: usize) -> (&[u8], &mut [u8]) {
        let (from, to) = (16 * (37 * round % 256), 16 * (91 * round % 256));
        self.payloads[from..][..p.len()].copy_from_slice(p);
        (&self.payloads[from..][..p.len()], &mut self.outputs[to..][..p.len() + BEHIND])
    }
}

/// Makes every byte differ from what the call has to leave there, unless it has to leave it as it is.
fn spoil(call: &Call, room: &mut [u8]) {
    room.fill(UNTOUCHED);
    room.iter_mut().zip(&call.written).for_each(|(b, w)| *b = !w);
}

/// What is wrong with the output of a call, and with the bytes behind it, `room` having been spoiled before.
fn wrong_output(call: &Call, room: &[u8]) -> Option<String> {
    let want = |i| call.written.get(i).copied().unwrap_or(UNTOUCHED);
    let at = (0..room.len()).find(|&i| room[i] != want(i))?;
    let place = match at.checked_sub(room.len() - BEHIND) {
        None => format!("byte {at} of"),
        Some(behind) => format!("byte {behind} behind"),
    };
    Some(format!("{place} the output is {:#04x}, not {:#04x}", room[at], want(at)))
}

fn made(f: Run, code: u8, p: &[u8], out: &mut [u8]) -> i32 {
    f(code, p, out)
}

/// One call, and nothing else: what callgrind collects.
#[no_mangle]
#[inline(never)]
pub fn measured(f: Run, code: u8, p: &[u8], out: &mut [u8]) -> i32 {
    black_box(f(code, p, out))
}

/// Makes a call, by one of the two functions above, and answers what is wrong with it.
fn wrong(call: &Call, make: fn(Run, u8, &[u8], &mut [u8]) -> i32, code: u8, p: &[u8], room: &mut [u8]) -> Option<String> {
    spoil(call, room);
    let answer = make(call.run, code, p, &mut room[..p.len()]);
    if answer == call.answer {
        wrong_output(call, room)
    } else {
        Some(format!("the answer is {answer}, not {}", call.answer))
    }
}

/// What is wrong with each call in so many rounds, by its first wrong round.
fn faults(case: &Case, memory: &mut Memory, rounds: usize) -> Vec<String> {
    let first_wrong = |call: &Call| {
        (0..rounds)
            .find_map(|round| {
                let (p, room) = memory.place(&case.payload, round);
                wrong(call, made, case.code, p, room)
            })
            .map(|what| case.named(call, what))
    };
    case.calls.iter().filter_map(first_wrong).collect()
}

fn stop_at(faults: Vec<String>, when: &str) {
    faults.iter().for_each(|fault| eprintln!("bench: {fault}"));
    if !faults.is_empty() {
        eprintln!("bench: {} of the calls are wrong {when}", faults.len());
        exit(1);
    }
}

/// How long so many calls take, and the sum of their answers. f is known only at run time, so that each call is made.
#[inline(never)]
fn time(f: Run, code: u8, p: &[u8], out: &mut [u8], times: u32) -> (Duration, i32) {
    let start = Instant::now();
    let mut sum = 0i32;
    for _ in 0..times {
        sum = sum.wrapping_add(f(code, p, out));
    }
    let sum = black_box(sum);
    (start.elapsed(), sum)
}

/// How many calls make a batch.
fn how_often(call: &Call, code: u8, p: &[u8], out: &mut [u8]) -> u32 {
    time(call.run, code, p, out, 20);
    let one = (time(call.run, code, p, out, 20).0.as_nanos() / 20).max(1);
    (BATCH.as_nanos() / one).clamp(3, 100_000) as u32
}

/// What is wrong with a round of a call: the sum of its answers, and in the last round the output, which was spoiled before.
fn wrong_round(call: &Call, times: u32, sum: i32, last: bool, room: &[u8]) -> Option<String> {
    if sum != call.answer.wrapping_mul(times as i32) {
        return Some(format!("its {times} answers of a round are not all {}", call.answer));
    }
    let left = if last { wrong_output(call, room) } else { None };
    left.map(|what| format!("after the last round {what}"))
}

/// Prints the medians, and answers what was wrong.
fn compare_times(case: &Case, memory: &mut Memory) -> Vec<String> {
    let (code, n) = (case.code, case.payload.len());
    let (p, room) = memory.place(&case.payload, 0);
    let times: Vec<u32> = case.calls.iter().map(|call| how_often(call, code, p, &mut room[..n])).collect();
    let mut took = vec![Vec::new(); times.len()];
    let mut faults = vec![None; times.len()];
    for round in 0..ROUNDS {
        let last = round == ROUNDS - 1;
        let (p, room) = memory.place(&case.payload, round);
        for (i, call) in case.calls.iter().enumerate() {
            if last {
                spoil(call, room);
            }
            let (all, sum) = time(call.run, code, p, &mut room[..n], times[i]);
            took[i].push(all.as_nanos() as f64 / times[i] as f64);
            faults[i] = faults[i].take().or_else(|| wrong_round(call, times[i], sum, last, room));
        }
    }
    for (call, took) in case.calls.iter().zip(&mut took) {
        took.sort_by(f64::total_cmp);
        println!("{}\t{n}\t{}\t{:.2}", case.name, call.name, took[ROUNDS / 2]);
    }
    case.calls.iter().zip(faults).filter_map(|(call, fault)| Some(case.named(call, fault?))).collect()
}

/// Calls each twice and measures the second call, and answers what was wrong.
fn count(case: &Case, memory: &mut Memory) -> Vec<String> {
    let mut faults = Vec::new();
    let (p, room) = memory.place(&case.payload, 0);
    for call in &case.calls {
        for make in [made, measured] {
            faults.extend(wrong(call, make, case.code, p, room).map(|what| case.named(call, what)));
        }
        println!("{}\t{}\t{}", case.name, p.len(), call.name);
    }
    faults
}

/// Payloads that normalising leaves as they are, and that the original's writer takes; and frames and texts that are accepted.
fn timed() -> Vec<Case> {
    let mut r = Chance::new(1);
    let mut case = |k: &'static Kind, n| {
        assert!(k.near(n) == n, "{} has no {n} bytes", k.name);
        Case::new(k, k.agreed(n, &mut r))
    };
    let kinds = KINDS.iter().flat_map(|k| k.timed.iter().map(move |&n| (k, n)));
    kinds.map(|(k, n)| case(k, n)).chain(frames::timed()).chain(printable::timed()).collect()
}

/// Every kind refuses the empty payload, so that a call that accepts everything is noticed; frames and texts are refused in several ways.
fn refused() -> Vec<Case> {
    KINDS.iter().map(|k| Case::new(k, Vec::new())).chain(frames::refused()).chain(printable::refused()).collect()
}

fn main() {
    unsafe { placement() };
    // glibc gives freed memory back to the system, at a high cost to the Rust, until a block of this size has been freed once.
    drop(black_box(vec![0u8; 16 << 20]));
    let counts = std::env::args().nth(1).is_some_and(|a| a == "count");
    let mut memory = Memory { payloads: vec![0; 80_000], outputs: vec![0; 80_000] };
    let (timed, refused) = (timed(), refused());
    let rounds = if counts { 1 } else { ROUNDS };
    let before = timed.iter().chain(&refused).flat_map(|case| faults(case, &mut memory, rounds)).collect();
    stop_at(before, "and nothing is measured");
    let measure = if counts { count } else { compare_times };
    let after = timed.iter().flat_map(|case| measure(case, &mut memory)).collect();
    stop_at(after, "in what was measured");
}
