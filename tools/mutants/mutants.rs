//! Tries the comparison on wrong archives: mutants COMPARE
//! COMPARE is the comparison, linked with the stand-in. It has to find no difference in the stand-in as it is, and to show of each mutant what
//! wrong.rs says: differences, memory that is touched, a run without its end, or nothing for a reason. Exits with 1 if something else is shown,
//! if a kind or a call on frames has no mutant but those from the table, or if there are fewer than LEAST.
use judge::kinds::KINDS;
use std::io::Read;
use std::process::{Child, Command, Stdio};
use std::sync::atomic::{AtomicUsize, Ordering};
use std::sync::Mutex;
use std::time::{Duration, Instant};
use wrong::{all, frames, Mutant, Place, Shows};

/// A run ends at so many differences.
const STOP: u64 = 1_000;
/// A run of one code byte, or of reading or writing frames, takes some 20 s at most. One that is to have no end is ended after this time,
const NO_END_LIMIT: Duration = Duration::from_secs(60);
/// and any other after this.
const LIMIT: Duration = Duration::from_secs(1_200);
/// There have to be so many wrong archives at least.
const LEAST: usize = 80;

enum Outcome {
    Passed(u64),
    Noticed(u64),
    Stopped,
    Touched,
    NoEnd(String),
}

/// Kills a run that takes too long.
fn ended(mut child: Child, limit: Duration) -> Option<std::process::ExitStatus> {
    let start = Instant::now();
    while start.elapsed() < limit {
        if let Some(status) = child.try_wait().expect("a run") {
            return Some(status);
        }
        std::thread::sleep(Duration::from_millis(10));
    }
    child.kill().expect("a run");
    child.wait().expect("a run");
    None
}

/// The number before a word of a line.
fn number_before(word: &str, line: &str) -> Option<u64> {
    line.split_once(word)?.0.rsplit(' ').next()?.parse().ok()
}

/// Runs the comparison, and looks at its status and its last line.
fn run(compare: &str, args: &[&str], mutant: Option<usize>, limit: Duration) -> Outcome {
    let mut command = Command::new(compare);
    command.args(args).stdout(Stdio::piped()).stderr(Stdio::null()).env_remove("MUTANT");
    if let Some(number) = mutant {
        command.env("MUTANT", number.to_string());
    }
    let mut child = command.spawn().unwrap_or_else(|e| panic!("{compare}: {e}"));
    let mut said = String::new();
    let mut out = child.stdout.take().expect("a pipe");
    let reader = std::thread::spawn(move || {
        out.read_to_string(&mut said).expect("text");
        said
    });
    let status = ended(child, limit);
    let said = reader.join().expect("what a run said");
    let last = said.lines().last().unwrap_or("");
    let Some(status) = status else { return Outcome::NoEnd(format!("no end within {} s", limit.as_secs())) };
    let found = number_before(" differences", last).filter(|_| last.starts_with("compare: "));
    match (status.code(), found) {
        (Some(0), Some(0)) => Outcome::Passed(number_before(" cases", last).unwrap_or(0)),
        (Some(1), Some(STOP)) => Outcome::Stopped,
        (Some(1), Some(n)) if n > 0 => Outcome::Noticed(n),
        (Some(1), _) if last.starts_with("DIFFERS: memory was touched") => Outcome::Touched,
        (Some(code), _) => Outcome::NoEnd(format!("no last line, exit status {code}")),
        (None, _) => Outcome::NoEnd("ended by a signal".into()),
    }
}

fn number(n: u64) -> String {
    let digits = n.to_string();
    let groups: Vec<&str> = digits.as_bytes().rchunks(3).rev().map(|g| std::str::from_utf8(g).expect("digits")).collect();
    groups.join(",")
}

/// What is printed of a mutant, and whether that is what it has to show.
fn verdict(m: &Mutant, o: &Outcome) -> (String, bool) {
    let (said, shown) = match o {
        Outcome::Passed(cases) => (format!("PASSES {} cases", number(*cases)), Shows::Nothing("")),
        Outcome::Noticed(1) => ("1 case".into(), Shows::Differences),
        Outcome::Noticed(n) => (format!("{} cases", number(*n)), Shows::Differences),
        Outcome::Stopped => (format!("{} cases or more", number(STOP)), Shows::Differences),
        Outcome::Touched => ("memory that must not be touched".into(), Shows::Touched),
        Outcome::NoEnd(why) => (why.clone(), Shows::NoEnd),
    };
    match m.shows {
        Shows::Nothing(why) => (format!("{said}; listed: {why}"), shown == Shows::Nothing("")),
        wanted => (said, shown == wanted),
    }
}

fn place(m: &Mutant) -> String {
    let name = KINDS.iter().find(|k| m.place == Place::Code(k.side, k.code)).map_or("", |k| k.name);
    let [one, other] = m.place.words();
    format!("{one:<7} {other} {name}")
}

/// Kinds, and calls on frames, without a mutant of their own but those from the table.
fn lacking(mutants: &[Mutant]) -> Vec<&'static str> {
    let kinds = KINDS.iter().map(|k| (Place::Code(k.side, k.code), k.name));
    let all = kinds.chain([(frames::READ, "frame read"), (frames::WRITE, "frame write")]);
    let has_one = |place: Place| mutants.iter().any(|m| m.place == place && m.row == 0 && !m.everywhere);
    all.filter(|(place, _)| !has_one(*place)).map(|(_, name)| name).collect()
}

/// Tries one mutant and prints a line of it; the line again if it does not show what it has to.
fn try_one(compare: &str, i: usize, m: &Mutant) -> Option<String> {
    let [one, other] = m.place.words();
    let args = ["--only", &one, &other, "--stop", &STOP.to_string()];
    let limit = if m.shows == Shows::NoEnd { NO_END_LIMIT } else { LIMIT };
    let (said, good) = verdict(m, &run(compare, &args, Some(i), limit));
    let line = format!("{i:>3} {:<23} {}: {said}", place(m), m.what);
    println!("{line}");
    (!good).then_some(line)
}

/// Tries all, as many at a time as there are processors, and then those that are tried by themselves. Returns those that do not show what they
/// have to.
fn try_all(compare: &str, mutants: &[Mutant]) -> Vec<String> {
    let (next, failed) = (AtomicUsize::new(0), Mutex::new(Vec::new()));
    let (last, first): (Vec<_>, Vec<_>) = mutants.iter().enumerate().partition(|(_, m)| m.by_itself);
    let work = || {
        while let Some(&(i, m)) = first.get(next.fetch_add(1, Ordering::Relaxed)) {
            let line = try_one(compare, i, m);
            failed.lock().expect("no thread ends early").extend(line);
        }
    };
    std::thread::scope(|s| {
        for _ in 0..std::thread::available_parallelism().map_or(1, |n| n.get()) {
            s.spawn(work);
        }
    });
    let mut failed = failed.into_inner().expect("no thread ends early");
    failed.extend(last.into_iter().filter_map(|(i, m)| try_one(compare, i, m)));
    failed
}

fn main() {
    let compare = std::env::args().nth(1).expect("usage: mutants COMPARE");
    let start = Instant::now();
    let mutants = all();
    let lacking = lacking(&mutants);
    let Outcome::Passed(cases) = run(&compare, &[], None, LIMIT) else {
        println!("mutants: the stand-in differs as it is, or the run of it broke off");
        std::process::exit(1)
    };
    println!("the stand-in as it is: {} cases, 0 differences", number(cases));
    let failed = try_all(&compare, &mutants);
    failed.iter().for_each(|line| println!("NOT AS IT HAS TO BE: {line}"));
    lacking.iter().for_each(|name| println!("WITHOUT A MUTANT: {name}"));
    if mutants.len() < LEAST {
        println!("FEWER THAN {LEAST} WRONG ARCHIVES");
    }
    let listed = mutants.iter().filter(|m| matches!(m.shows, Shows::Nothing(_))).count();
    println!(
        "mutants: {} wrong archives, {} not as they have to be, {listed} listed as passing; the stand-in as it is: 0 differences in {} cases; {} s",
        mutants.len(),
        failed.len(),
        number(cases),
        start.elapsed().as_secs()
    );
    if !failed.is_empty() || !lacking.is_empty() || mutants.len() < LEAST {
        std::process::exit(1);
    }
}
