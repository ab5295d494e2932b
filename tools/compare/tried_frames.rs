//! What is tried of frames, in parts, so that several threads have work. README.md has the list. The cases depend on the seed and the part alone.
use crate::calls::Count;
use crate::frames::{Head, Tester};
use judge::chance::Chance;
use judge::frame::{width, CRC, FIRST, HEAD, MOST, REPLY};
use judge::frames::{checked, framed, Drawn, CONTROL};

#[derive(Clone, Copy, PartialEq)]
pub enum Way {
    Read,
    Write,
}

impl Way {
    pub const BOTH: [Way; 2] = [Way::Read, Way::Write];

    pub fn name(self) -> &'static str {
        ["read", "write"][self as usize]
    }

    pub fn named(s: &str) -> Option<Way> {
        Way::BOTH.into_iter().find(|w| w.name() == s)
    }
}

type Try = fn(&mut Tester, &mut Chance);
const READ: [Try; 7] = [every_length, far_too_long, every_pair_of_head, every_head, every_sum, every_crc, every_value];
const WRITE: [Try; 6] = [every_payload_length, every_address, every_flag, every_code, every_room, wide_rooms];
/// How many parts of each way are by chance.
const BY_CHANCE: usize = 16;
/// Of how many good frames each of these makes its frames, and how many records it has.
const GOOD: usize = 200_000;
const RECORDS: usize = 600_000;

/// Added to a short length, these give one that is short again if it is cut to 16 or 32 bits, or to 31 and a sign.
const FAR: [usize; 5] = [1 << 16, 1 << 17, 1 << 31, 1 << 32, (1 << 32) + (1 << 16)];
/// Lengths of nearly 16 bits, and longer ones that become short if they are cut to 16.
const LONG: std::ops::Range<usize> = 65_500..67_100;
/// A code of both tables, one of the commands' alone, one of the replies' alone, and one of none.
const CODES: [u8; 4] = [0x80, 0x60, 0x40, 0x00];
/// Flags.
const FLAGS: [u8; 5] = [0, 1, 2, 128, 255];

/// How many parts there are.
pub fn parts(way: Way) -> usize {
    BY_CHANCE + if way == Way::Read { READ.len() } else { WRITE.len() }
}

pub fn of_part(way: Way, part: usize, seed: u64, stop: u64) -> Count {
    let seed = seed ^ (512 + 2 * part as u64 + way as u64) << 32;
    let mut t = Tester::new(!seed, stop);
    let tries: &[Try] = if way == Way::Read { &READ } else { &WRITE };
    match tries.get(part) {
        Some(f) => f(&mut t, &mut Chance::new(seed)),
        None if way == Way::Read => read_by_chance(&mut t, seed),
        None => write_by_chance(&mut t, seed),
    }
    t.count
}

/// Address byte and control byte of each side with each check.
fn heads() -> impl Iterator<Item = (u8, u8)> {
    [0, REPLY].into_iter().flat_map(|reply| [0, CRC].map(|crc| (0x15 | reply, 0x02 | crc)))
}

/// A code that the side's table has.
fn code_of(address: u8) -> u8 {
    if address < REPLY { 0x60 } else { 0x40 }
}

/// A good frame of so many bytes, if there is one.
fn good(address: u8, control: u8, len: usize, r: &mut Chance) -> Option<Vec<u8>> {
    let n = len.checked_sub(HEAD + width(control & CRC != 0))?;
    Some(framed(address, control, code_of(address), &r.bytes(n)))
}

/// Every length up to 3 past the most, and long ones: good frames of each side with each check, these with one fault, and what is none.
fn every_length(t: &mut Tester, r: &mut Chance) {
    for n in (0..=MOST + 3).chain(LONG) {
        for (address, control) in heads() {
            if let Some(f) = good(address, control, n, r) {
                with_one_fault(t, &f, r);
            }
        }
        t.read(&vec![0; n]);
        t.read(&vec![0xFF; n]);
        t.read(&r.bytes(n));
        t.read(&vec![FIRST; n]);
    }
}

/// The frame, cut at each side, lengthened, with each length that is off by one, and with each bit of the check turned.
fn with_one_fault(t: &mut Tester, f: &[u8], r: &mut Chance) {
    t.read(f);
    t.read(&f[1..]);
    t.read(&f[..f.len() - 1]);
    t.read(&[f, &r.bytes(1)].concat());
    for off in [1, 0xFF, 0xFFFF, 0x100] {
        let mut g = f.to_vec();
        let length = u16::from_le_bytes([f[2], f[3]]).wrapping_add(off);
        g[2..4].copy_from_slice(&length.to_le_bytes());
        t.read(&checked(g));
    }
    for bit in 0..8 * width(f[CONTROL] & CRC != 0) {
        let mut g = f.to_vec();
        g[f.len() - 1 - bit / 8] ^= 1 << (bit % 8);
        t.read(&g);
    }
}

/// A good frame with zeroes behind it, up to lengths far above the most.
fn far_too_long(t: &mut Tester, r: &mut Chance) {
    for n in (HEAD + 2..=64).chain([255, 256, 257, MOST - 1, MOST]) {
        for (address, control) in heads() {
            let f = good(address, control, n, r).expect("a length that a frame has");
            FAR.iter().for_each(|far| t.read_wide(&f, far + n));
            FAR.iter().for_each(|far| t.read_wide(&f[1..], far + n));
        }
    }
}

fn with_byte(t: &mut Tester, f: &[u8], at: usize, b: u8) {
    let mut g = f.to_vec();
    g[at] = b;
    t.read(&g);
    t.read(&checked(g));
}

/// Every value of every two bytes of the head, with the right check, of frames with a payload of 0 and of 3 bytes.
fn every_pair_of_head(t: &mut Tester, r: &mut Chance) {
    let places = (0..HEAD).flat_map(|one| (one + 1..HEAD).map(move |other| (one, other)));
    let frames: Vec<_> = heads().flat_map(|(address, control)| [0, 3].map(|n| framed(address, control, code_of(address), &r.bytes(n)))).collect();
    for (one, other) in places {
        for f in &frames {
            for v in 0..=0xFFFF_u16 {
                let mut g = f.clone();
                [g[one], g[other]] = v.to_le_bytes();
                t.read(&checked(g));
            }
        }
    }
}

/// Every value of each byte of the head, of a good frame of every length.
fn every_head(t: &mut Tester, r: &mut Chance) {
    let heads: Vec<_> = heads().collect();
    for n in HEAD + 2..=MOST {
        let (address, control) = heads[n % heads.len()];
        let f = good(address, control, n, r).expect("a length that a frame has");
        for at in 0..HEAD {
            (0..=255).for_each(|b| with_byte(t, &f, at, b));
        }
    }
}

/// Every sum byte, at frames of every length.
fn every_sum(t: &mut Tester, r: &mut Chance) {
    for n in HEAD + 1..=MOST {
        let address = 0x15 | if r.below(2) == 0 { REPLY } else { 0 };
        let mut f = good(address, 0x01, n, r).expect("a length that a frame has");
        for b in 0..=255 {
            f[n - 1] = b;
            t.read(&f);
        }
    }
}

/// Every CRC.
fn every_crc(t: &mut Tester, r: &mut Chance) {
    for n in [8, 9, 16, 64, 255, MOST] {
        for address in [0x15, 0x15 | REPLY] {
            let mut f = good(address, CRC, n, r).expect("a length that a frame has");
            for v in 0..=0xFFFF_u16 {
                f[n - 2..].copy_from_slice(&v.to_le_bytes());
                t.read(&f);
            }
        }
    }
}

/// Every value at every place behind the head, with the check that was right before and with the right one.
fn every_value(t: &mut Tester, r: &mut Chance) {
    for n in (HEAD + 2..=40).chain([300]) {
        for (address, control) in heads() {
            let f = good(address, control, n, r).expect("a length that a frame has");
            for at in HEAD..n {
                (0..=255).for_each(|b| with_byte(t, &f, at, b));
            }
        }
    }
}

fn read_by_chance(t: &mut Tester, seed: u64) {
    let mut drawn = Drawn::new(seed);
    for _ in 0..GOOD {
        drawn.frames().iter().for_each(|f| t.read(f));
    }
}

/// A head that is written, of each side with each check.
fn written_heads() -> impl Iterator<Item = Head> {
    heads().map(|(address, control)| Head {
        address: address & !REPLY,
        reply: address & REPLY,
        sequence: 2,
        crc: control & CRC,
        code: code_of(address),
    })
}

/// Every length of a payload up to that of the longest frame, and long ones.
fn every_payload_length(t: &mut Tester, r: &mut Chance) {
    for n in (0..=MOST).chain(LONG) {
        for h in written_heads() {
            t.write(h, &vec![0; n]);
            t.write(h, &r.bytes(n));
        }
    }
    for n in (0..=64).chain([255, 256, MOST - HEAD - 2, MOST]) {
        for h in written_heads() {
            FAR.iter().for_each(|far| t.write_wide(h, far - HEAD - 2 + n));
        }
    }
}

/// Every address with every sequence.
fn every_address(t: &mut Tester, r: &mut Chance) {
    for h in written_heads() {
        for v in 0..=0xFFFF_u16 {
            let [address, sequence] = v.to_le_bytes();
            let n = r.below(12);
            t.write(Head { address, sequence, ..h }, &r.bytes(n));
        }
    }
}

/// Every two bytes as flags.
fn every_flag(t: &mut Tester, r: &mut Chance) {
    for code in CODES {
        for v in 0..=0xFFFF_u16 {
            let [reply, crc] = v.to_le_bytes();
            let n = r.below(12);
            t.write(Head { address: 0x15, reply, sequence: 1, crc, code }, &r.bytes(n));
        }
    }
}

/// Every code on both sides, with each flag, and with addresses and sequences at their limits and above.
fn every_code(t: &mut Tester, r: &mut Chance) {
    let flags = FLAGS.into_iter().flat_map(|reply| FLAGS.map(|crc| (reply, crc)));
    let places = [0, 0x7F, 0x80, 0xFF].into_iter().flat_map(|address| [0, 3, 4].map(|sequence| (address, sequence)));
    let heads = flags.flat_map(|(reply, crc)| places.clone().map(move |(address, sequence)| (address, reply, sequence, crc)));
    for (address, reply, sequence, crc) in heads {
        for code in 0..=255 {
            let n = [0, 5, MOST][r.below(3)];
            t.write(Head { address, reply, sequence, crc, code }, &r.bytes(n));
        }
    }
}

/// Every room up to 20 above the need, of short frames and of those of the most bytes; and rooms that are short ones if they are cut to 16 bits.
fn every_room(t: &mut Tester, r: &mut Chance) {
    for n in (0..=64).chain(MOST - HEAD - 4..=MOST - HEAD - 2) {
        for h in written_heads() {
            let p = r.bytes(n);
            t.rooms(h, &p, 0..=HEAD + n + 22);
            t.rooms(h, &p, (1 << 16)..=(1 << 16) + HEAD + n.min(64));
        }
    }
}

/// Rooms far longer than any frame, for records that are written, and for ones that are refused.
fn wide_rooms(t: &mut Tester, r: &mut Chance) {
    for far in FAR {
        for n in [0, 1, 7, 8, 9, 64, MOST - HEAD - 2, MOST] {
            for h in written_heads() {
                let p = r.bytes(n);
                t.wide_room(h, &p, far);
                t.wide_room(h, &p, far + 1);
                t.wide_room(Head { address: 0x80, ..h }, &p, far);
                t.wide_room(Head { code: 0, ..h }, &p, far);
            }
        }
    }
}

/// Flags by chance; one that is set is any byte but 0.
fn write_by_chance(t: &mut Tester, seed: u64) {
    let (mut drawn, mut r) = (Drawn::new(seed), Chance::new(!seed));
    for _ in 0..RECORDS {
        let (f, p) = drawn.record();
        let mut flag = |set: bool| if set { r.from_to(1, 255) } else { 0 };
        t.write(Head { address: f.address, reply: flag(f.reply), sequence: f.sequence, crc: flag(f.crc), code: f.code }, &p);
    }
}
