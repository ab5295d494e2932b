//! Streams of lines by chance: good and damaged frames, marks and noise, joined, and cut at any place.
use crate::answer::Case;
use judge::frame::{width, write, Frame, CRC, FIRST, HEAD, MOST, REPLY, SEQUENCE};
use judge::frames::{checked, Drawn, CONTROL, LENGTH};

/// What a line has where nobody sends.
const MARK: u8 = 0xFF;
/// The most bytes of a stream, so that a step for each of them fits into a case.
const LONGEST: usize = 8000;
/// The most pieces of a stream.
const PIECES: usize = 8;
/// Where the code is.
const CODE: usize = 5;
/// Lengths at which an answer can change.
const LENGTHS: [u16; 8] = [0, 6, 7, 8, MOST as u16 - 1, MOST as u16, MOST as u16 + 1, 0xFFFF];

fn with_length(mut f: Vec<u8>, n: u16) -> Vec<u8> {
    f[LENGTH].copy_from_slice(&n.to_le_bytes());
    f
}

struct Line(Drawn);

impl Line {
    /// A number below 2^most; each number of bits is as often its length as any other.
    fn size(&mut self, most: usize) -> usize {
        let bits = self.0.r.below(most);
        self.0.r.below(2 << bits)
    }

    fn frame_of(&mut self, payload: &[u8]) -> Vec<u8> {
        let reply = self.0.is();
        let codes = &self.0.codes[usize::from(reply)];
        let code = codes[self.0.r.below(codes.len())];
        let frame = Frame { address: self.0.r.from_to(0, REPLY - 1), reply, sequence: self.0.r.from_to(0, SEQUENCE), crc: self.0.is(), code };
        write(&frame, payload).ok().expect("a frame that can be written")
    }

    /// A good frame. Its payload is seldom the longest, and sometimes a frame, or first bytes of frames.
    fn good(&mut self) -> Vec<u8> {
        let payload = match self.0.r.below(32) {
            0 => self.0.r.bytes(MOST - HEAD - width(true)),
            1..=3 => self.frame_of(&[]),
            4 => vec![FIRST; 1 + self.0.r.below(20)],
            _ => {
                let n = self.size(8);
                self.0.r.bytes(n)
            }
        };
        self.frame_of(&payload)
    }

    /// A good frame with one thing wrong.
    fn damaged(&mut self) -> Vec<u8> {
        let mut f = self.good();
        let at = self.0.place(f.len());
        match self.0.r.below(9) {
            0 => f[at] ^= self.0.r.from_to(1, 255),
            1 => f[at] ^= 1 << self.0.r.below(8),
            2 => f.truncate(1 + at),
            3 => drop(f.remove(at)),
            4 => f.insert(at, self.0.r.byte()),
            5 => {
                let n = if self.0.is() { self.size(11) as u16 } else { LENGTHS[self.0.r.below(LENGTHS.len())] };
                f = with_length(f, n);
            }
            6 => f[CONTROL] |= 8 << self.0.r.below(5),
            7 => {
                f[CODE] = self.0.r.byte();
                f = checked(f);
            }
            // a CRC is asked for, and there is one byte for it
            _ => {
                f.truncate(HEAD + 1);
                f[CONTROL] |= CRC;
                f = with_length(f, HEAD as u16 + 1);
            }
        }
        f
    }

    /// Bytes by chance; in every other draw only some that a frame may begin with.
    fn noise(&mut self) -> Vec<u8> {
        let n = 1 + self.size(6);
        if self.0.is() {
            return self.0.r.bytes(n);
        }
        let few = [FIRST, MARK, REPLY, 0, 7, 8];
        (0..n).map(|_| few[self.0.r.below(few.len())]).collect()
    }

    fn piece(&mut self) -> Vec<u8> {
        match self.0.r.below(8) {
            0..=2 => self.good(),
            3..=5 => self.damaged(),
            6 => vec![MARK; 1 + self.size(5)],
            _ => self.noise(),
        }
    }

    /// Often it is cut off somewhere, and sometimes it begins in the middle.
    fn stream(&mut self) -> Case {
        let pieces = self.0.r.below(PIECES) + 1;
        let mut bytes: Vec<u8> = (0..pieces).flat_map(|_| self.piece()).take(LONGEST).collect();
        if self.0.is() {
            bytes.truncate(self.0.r.below(bytes.len() + 1));
        }
        if self.0.r.below(8) == 0 {
            bytes.drain(..self.0.r.below(bytes.len() + 1));
        }
        Case::Stream { ended: self.0.is(), bytes }
    }
}

/// Without end.
pub fn cases(seed: u64) -> impl Iterator<Item = Case> {
    let mut line = Line(Drawn::new(seed));
    std::iter::repeat_with(move || line.stream())
}
