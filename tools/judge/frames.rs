//! Frames by chance, good and damaged ones, and frames to be written.
use crate::chance::Chance;
use crate::frame::{complement, crc, known, sum, width, Frame, CRC, CRC_START, FIRST, HEAD, MOST, REPLY, SEQUENCE};

/// Where the length field and the control byte are.
pub const LENGTH: std::ops::Range<usize> = 2..4;
pub const CONTROL: usize = 4;
/// How many damaged frames are made of a good one, each in another way.
const DAMAGES: usize = 10;

/// With the length that it has, if the field is there.
pub fn with_length(mut f: Vec<u8>) -> Vec<u8> {
    let n = (f.len() as u16).to_le_bytes();
    if let Some(field) = f.get_mut(LENGTH) {
        field.copy_from_slice(&n);
    }
    f
}

/// With the right check, by the control byte that it has, if there are bytes for it after the head. A CRC that is asked for in 7 bytes takes two.
pub fn checked(mut f: Vec<u8>) -> Vec<u8> {
    if f.len() <= HEAD {
        return f;
    }
    let has_crc = f[CONTROL] & CRC != 0;
    f.truncate(f.len() - width(has_crc));
    if has_crc {
        f.extend(crc(CRC_START, &f).to_le_bytes());
    } else {
        f.push(complement(sum(0, &f)));
    }
    f
}

/// A frame with this head, where the length is put in, and with the right check. It may be longer than a frame can be.
pub fn framed(address: u8, control: u8, code: u8, payload: &[u8]) -> Vec<u8> {
    let mut f = vec![FIRST, address, 0, 0, control, code];
    f.extend_from_slice(payload);
    f.resize(f.len() + width(control & CRC != 0), 0);
    checked(with_length(f))
}

pub struct Drawn {
    pub r: Chance,
    /// The codes of commands, and of replies.
    pub codes: [Vec<u8>; 2],
}

impl Drawn {
    pub fn new(seed: u64) -> Drawn {
        let codes = [false, true].map(|reply| (0..=255).filter(|&b| known(reply, b).is_ok()).collect());
        Drawn { r: Chance::new(seed), codes }
    }

    pub fn is(&mut self) -> bool {
        self.r.below(2) == 0
    }

    /// Usually a code of the side, sometimes any byte.
    fn code(&mut self, reply: bool) -> u8 {
        let codes = &self.codes[usize::from(reply)];
        if self.r.below(8) == 0 { self.r.byte() } else { codes[self.r.below(codes.len())] }
    }

    /// A payload. Each number of bits is as often its length as any other; often the frame has about the most bytes, seldom more than u16 has.
    fn payload(&mut self) -> Vec<u8> {
        let longest = MOST - HEAD - 5 + self.r.below(8);
        let n = match self.r.below(1600) {
            0 => 0xFFF0 + self.r.below(MOST),
            1..=100 => longest,
            _ => {
                let bits = self.r.below(11);
                self.r.below(2 << bits).min(longest)
            }
        };
        self.r.bytes(n)
    }

    /// A frame that is right except for its code, which is sometimes any byte, and its length, which is sometimes above the most.
    fn good(&mut self) -> Vec<u8> {
        let reply = self.is();
        let control = self.r.from_to(0, SEQUENCE | CRC);
        let address = self.r.from_to(0, REPLY - 1) | if reply { REPLY } else { 0 };
        let code = self.code(reply);
        framed(address, control, code, &self.payload())
    }

    /// Any place of so many bytes; in every other draw one of the head.
    pub fn place(&mut self, n: usize) -> usize {
        let n = if self.is() { n.min(HEAD) } else { n };
        self.r.below(n)
    }

    fn changed(&mut self, mut f: Vec<u8>) -> Vec<u8> {
        let at = self.place(f.len());
        f[at] ^= self.r.from_to(1, 255);
        f
    }

    fn turned(&mut self, mut f: Vec<u8>) -> Vec<u8> {
        let at = self.place(f.len());
        f[at] ^= 1 << self.r.below(8);
        f
    }

    fn cut(&mut self, mut f: Vec<u8>) -> Vec<u8> {
        f.truncate(self.r.below(f.len()));
        f
    }

    /// Cut, but not below 7 bytes if there are more.
    fn shortened(&mut self, mut f: Vec<u8>) -> Vec<u8> {
        f.truncate(HEAD + 1 + self.r.below(f.len().saturating_sub(HEAD + 1).max(1)));
        f
    }

    fn put_in(&mut self, mut f: Vec<u8>) -> Vec<u8> {
        let at = self.place(f.len() + 1);
        f.insert(at, self.r.byte());
        f
    }

    /// With some of the control bits that none may have.
    fn controlled(&mut self, mut f: Vec<u8>) -> Vec<u8> {
        if let Some(control) = f.get_mut(CONTROL) {
            *control |= if self.is() { 8 << self.r.below(5) } else { 8 * self.r.from_to(1, 31) };
        }
        if self.is() { checked(f) } else { f }
    }

    /// One of the damages; there is at least one byte.
    fn damaged(&mut self, which: usize, mut f: Vec<u8>) -> Vec<u8> {
        match which {
            0 => self.changed(f),
            1 => checked(self.changed(f)),
            2 => self.turned(f),
            3 => self.cut(f),
            4 => {
                f.pop();
                f
            }
            5 => {
                f.push(self.r.byte());
                f
            }
            6 => self.put_in(f),
            7 => checked(with_length(self.shortened(f))),
            8 => checked(with_length(self.put_in(f))),
            _ => self.controlled(f),
        }
    }

    /// A good frame, the same with each damage, and with two.
    pub fn frames(&mut self) -> Vec<Vec<u8>> {
        let f = self.good();
        let mut frames = vec![f.clone()];
        frames.extend((0..DAMAGES).map(|which| self.damaged(which, f.clone())));
        let (one, other) = (self.r.below(DAMAGES), self.r.below(DAMAGES));
        let once = self.damaged(one, f);
        frames.push(if once.is_empty() { once } else { self.damaged(other, once) });
        frames
    }

    /// What is to be written as a frame; it may have to be refused.
    pub fn record(&mut self) -> (Frame, Vec<u8>) {
        let reply = self.is();
        let code = self.code(reply);
        let frame = Frame { address: self.r.mostly_up_to(REPLY - 1), reply, sequence: self.r.mostly_up_to(SEQUENCE), crc: self.is(), code };
        (frame, self.payload())
    }
}
