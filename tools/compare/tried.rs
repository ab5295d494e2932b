//! What is tried for one code byte. README.md has the list. The cases depend on the seed and the code byte alone, so that each code byte can be
//! tried by itself.
use crate::calls::{Count, Tester};
use judge::chance::Chance;
use judge::kinds::{kind, Field, Kind, Side, KINDS, LONGEST};
use std::sync::Barrier;

/// Lengths above the longest: ones that become short again if they are cut to 16, 17 or 32 bits, or to 31 and a sign.
const TOO_LONG: [usize; 11] =
    [65_549, 65_550, 70_000, 131_072, 131_082, 1 << 31, (1 << 31) + 14, 1 << 32, (1 << 32) + 4, (1 << 32) + 14, (1 << 32) + 65_546];
/// Buffers longer than any payload, also ones that become short if their length is cut to 32 bits.
const WIDE_ROOMS: [usize; 5] = [LONGEST + 1, 70_000, 1 << 31, 1 << 32, (1 << 32) + 1];
/// How many lengths are drawn by chance for each kind; each makes six payloads.
const BY_CHANCE: usize = 50_000;
/// The records of a list in which each one is wrong, by all calls.
const RECORDS: usize = 600;
/// How many lengths are drawn by chance for each code byte.
const LENGTHS: usize = 50;
/// How many payloads are tried on both sides in turn.
const IN_TURN: usize = 300;
/// How many bytes each of two threads normalises at the same time.
const AT_ONCE: usize = 800_000_000;
/// In so many calls at most.
const CALLS: usize = 300_000;
/// Of payloads that have these lengths, or the nearest that the kind has.
const SIZES: [usize; 8] = [1_000, 5_000, 10_000, 20_000, 30_000, 40_000, 50_000, LONGEST];

pub fn of_code(side: Side, code: u8, seed: u64, stop: u64) -> Count {
    let seed = seed ^ (u64::from(code) << 1 | side as u64) << 32;
    let mut r = Chance::new(seed);
    let mut t = Tester::new(side, code, !seed, stop);
    for n in TOO_LONG {
        t.too_long(n);
    }
    every_short_one(&mut t);
    of_other_kinds(&mut t, &mut r);
    some_lengths(&mut t, &mut r);
    let other = if side == Side::Command { Side::Reply } else { Side::Command };
    in_turn(&mut t, Tester::new(other, code, seed, stop), &mut r);
    if let Some(k) = kind(side, code) {
        wide_rooms(&mut t, k, &mut r);
        every_value(&mut t, k, &mut r);
        every_pair(&mut t, k, &mut r);
        wrong_alone(&mut t, k, &mut r);
        every_declared_length(&mut t, k, &mut r);
        every_length(&mut t, k, &mut r);
        by_chance(&mut t, k, &mut r);
        at_once(&mut t, k, &mut r, |half| Tester::new(side, code, seed ^ half, stop));
    }
    t.count
}

/// Every payload of 0 to 2 bytes, the empty one with each pointer NULL or not; and zeroes with each length within 2 of the longest.
fn every_short_one(t: &mut Tester) {
    for _ in 0..16 {
        t.payload(&[]);
    }
    for a in 0..=255 {
        t.payload(&[a]);
        for b in 0..=255 {
            t.payload(&[a, b]);
        }
    }
    let long = vec![0; LONGEST + 2];
    for n in LONGEST - 2..=LONGEST + 2 {
        t.payload(&long[..n]);
    }
}

/// Every length from 3 to 300, and good payloads of every kind.
fn of_other_kinds(t: &mut Tester, r: &mut Chance) {
    for n in 3..=300 {
        t.payload(&vec![0; n]);
        t.payload(&r.bytes(n));
    }
    for k in KINDS.iter() {
        for n in [k.least, 12, 14, 40, 200, 1_000] {
            t.payload(&k.good(k.near(n), r));
        }
    }
}

/// Zeroes of lengths next to powers of 2, and by chance.
fn some_lengths(t: &mut Tester, r: &mut Chance) {
    let long = vec![0; LONGEST];
    let by_power = (9..=16).flat_map(|k| [(1 << k) - 1, 1 << k, (1 << k) + 1]);
    let by_chance: Vec<usize> = (0..LENGTHS).map(|_| r.below(LONGEST)).collect();
    for n in by_power.chain(by_chance) {
        t.payload(&long[..n]);
    }
}

/// The same payloads under this code byte of both sides in turn. Of the other side only the cases are counted: its outcomes are not this code byte's.
fn in_turn(t: &mut Tester, mut other: Tester, r: &mut Chance) {
    for _ in 0..IN_TURN {
        let k = &KINDS[r.below(KINDS.len())];
        let n = r.below(300);
        let p = k.good(k.near(n), r);
        t.payload(&p);
        other.payload(&p);
    }
    t.count.cases += other.count.cases;
}

/// Buffers far longer than any payload: for ones that normalising leaves as they are, other good ones, and ones by chance.
fn wide_rooms(t: &mut Tester, k: &Kind, r: &mut Chance) {
    for room in WIDE_ROOMS {
        for n in [k.least, k.near(200), k.most] {
            t.wide_room(&k.clean(n, r), room);
            for _ in 0..8 {
                t.wide_room(&k.good(n, r), room);
                t.wide_room(&r.bytes(n + 1), room);
            }
        }
    }
}

/// Every value at every offset of one that normalising leaves as it is, and of another good one.
fn every_value(t: &mut Tester, k: &Kind, r: &mut Chance) {
    let n = k.near(280);
    for p in [k.clean(n, r), k.good(n, r)] {
        for at in 0..n {
            for b in 0..=255 {
                with_byte(t, &p, at, b);
            }
        }
    }
}

/// Every value of two bytes side by side: of the fixed part of a short payload, or spread over the records of the longest list; there pairs with
/// a code are left out, since one refused record would hide the others.
fn every_pair(t: &mut Tester, k: &Kind, r: &mut Chance) {
    let list = k.step > 1;
    let p = k.clean(if list { k.most } else { k.near(k.least + 2) }, r);
    for at in 0..k.least - 1 {
        if list && k.codes().any(|(code, _)| code == at || code == at + 1) {
            continue;
        }
        let mut values = 0..=0xFFFF_u16;
        while !values.is_empty() {
            let mut q = p.clone();
            for (record, v) in q.chunks_exact_mut(if list { k.step } else { p.len() }).zip(&mut values) {
                record[at..at + 2].copy_from_slice(&v.to_le_bytes());
            }
            t.payload(&q);
        }
    }
}

fn with_byte(t: &mut Tester, p: &[u8], at: usize, b: u8) {
    let mut q = p.to_vec();
    q[at] = b;
    t.payload(&q);
}

/// One byte that is refused or folded, and nothing else that is: at each place of texts of every length and of lists.
fn wrong_alone(t: &mut Tester, k: &Kind, r: &mut Chance) {
    if k.fields.iter().any(|f| matches!(f, Field::Text)) {
        for n in k.least + 1..=k.most {
            let p = k.clean(n, r);
            for at in k.least..n {
                for b in [0x00, 0x1F, 0x7F, 0x80 + r.byte() % 0x7F, 0xFF] {
                    with_byte(t, &p, at, b);
                }
            }
        }
    }
    if k.step > 1 {
        let p = k.clean(RECORDS * k.step, r);
        for (at, highest) in wrong_places(k, RECORDS) {
            for b in [highest + 1, r.from_to(highest + 1, 0xFE), 0xFF] {
                with_byte(t, &p, at, b);
            }
        }
        let mut p = k.clean(k.most, r);
        for (at, highest) in wrong_places(k, k.most / k.step) {
            let was = std::mem::replace(&mut p[at], r.from_to(highest + 1, 0xFF));
            t.once(&p);
            p[at] = was;
        }
    }
}

/// The places of a list at which not every value is kept, with the highest that is.
fn wrong_places(k: &Kind, records: usize) -> impl Iterator<Item = (usize, u8)> + '_ {
    (0..records).flat_map(move |record| k.limits().chain(k.codes()).map(move |(at, highest)| (record * k.step + at, highest)))
}

/// Every value that a field for the tail's length can have, with a tail of as many bytes, one less and one more.
fn every_declared_length(t: &mut Tester, k: &Kind, r: &mut Chance) {
    let Some((at, field)) = k.declared() else { return };
    let highest = field.highest().expect("a field for a length");
    let p = [k.good(k.most, r), vec![0x41]].concat();
    for n in 0..=highest {
        let end = k.least + field.tail(n);
        let mut q = p[..end + 1].to_vec();
        q[at..at + field.width()].copy_from_slice(&n.to_le_bytes()[..field.width()]);
        for len in [end - 1, end, end + 1] {
            t.payload(&q[..len]);
        }
    }
}

/// Every length from 0 to 2 past the longest: a good payload if the kind has one of that length (if its tail can be cut off, also one whose tail
/// is not), and one by chance; near a boundary and below 600 also zeroes, 0xFF, and four damaged ones.
fn every_length(t: &mut Tester, k: &Kind, r: &mut Chance) {
    for n in 0..=LONGEST + 2 {
        if k.near(n) == n {
            t.payload(&k.good(n, r));
            if k.kept_after().is_some() {
                t.payload(&k.clean(n, r));
            }
        }
        t.payload(&r.bytes(n));
        if n < 600 || k.edges().iter().any(|&e| n + 2 >= e && n <= e + 2) {
            t.payload(&vec![0; n]);
            t.payload(&vec![0xFF; n]);
            let p = k.good(k.near(n), r);
            k.damaged(&p, r).iter().for_each(|q| t.payload(q));
        }
    }
}

fn by_chance(t: &mut Tester, k: &Kind, r: &mut Chance) {
    for _ in 0..BY_CHANCE {
        let n = r.size();
        let p = k.good(k.near(n), r);
        t.payload(&p);
        k.damaged(&p, r).iter().for_each(|q| t.payload(q));
        t.payload(&r.bytes(n));
    }
}

/// Two threads that normalise payloads of their own at the same time.
fn at_once(t: &mut Tester, k: &Kind, r: &mut Chance, tester: impl Fn(u64) -> Tester + Sync) {
    let payloads = [(); 2].map(|_| SIZES.map(|n| k.clean(k.near(n), r)));
    let bytes: usize = payloads[0].iter().map(Vec::len).sum();
    let calls = (AT_ONCE / bytes * SIZES.len()).min(CALLS);
    let start = Barrier::new(2);
    let again = |half: usize| {
        let mut t = tester(half as u64);
        start.wait();
        (0..calls).for_each(|i| t.only_normalise(&payloads[half][i % SIZES.len()]));
        t.count
    };
    std::thread::scope(|s| {
        let other = s.spawn(|| again(1));
        t.count.add(&again(0));
        t.count.add(&other.join().expect("a second thread"));
    });
}
