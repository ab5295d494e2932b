//! Payloads of a kind, drawn by chance.
use crate::chance::Chance;
use crate::kinds::{Field, Kind, LONGEST};
use crate::read::normalised;

/// Bytes at the ends of the code tables, and of printable text.
const EDGES: [u8; 18] = [0, 1, 2, 3, 4, 5, 6, 7, 8, 9, 10, 0x11, 0x12, 0x1F, 0x20, 0x7E, 0x7F, 0xFF];

impl Kind {
    /// The greatest length up to n that a payload can have, or the least length if n is below it.
    pub fn near(&self, n: usize) -> usize {
        let n = n.clamp(self.least, self.most);
        n - n % self.step
    }

    /// Lengths at which an answer can change.
    pub fn edges(&self) -> [usize; 3] {
        [self.least, self.most, LONGEST]
    }

    /// One that is accepted. n is a length that the kind can have.
    pub fn good(&self, n: usize, r: &mut Chance) -> Vec<u8> {
        let mut p = r.bytes(n);
        let record = if self.step > 1 { self.step } else { n };
        p.chunks_exact_mut(record).for_each(|part| self.set_fields(part, r));
        p
    }

    /// One that normalising leaves as it is.
    pub fn clean(&self, n: usize, r: &mut Chance) -> Vec<u8> {
        let mut p = self.good(n, r);
        if let Some(first) = self.kept_after() {
            p[0] = first;
        }
        normalised(self.side, self.code, &p).ok().expect("a good payload")
    }

    /// One that normalising leaves as it is, and that the original writes too.
    pub fn agreed(&self, n: usize, r: &mut Chance) -> Vec<u8> {
        let mut p = self.clean(n, r);
        if let Some((at, highest)) = self.address() {
            p[at] = p[at].min(highest);
        }
        p
    }

    /// Sets the fields that must not have just any value.
    fn set_fields(&self, p: &mut [u8], r: &mut Chance) {
        let tail = p.len() - self.least;
        let mut at = 0;
        for f in &self.fields {
            match *f {
                Field::Any(_) | Field::Address(_) | Field::Tail => {}
                Field::Code(low, high) => p[at] = r.from_to(low, high),
                Field::Folded(highest) => p[at] = r.mostly_up_to(highest),
                Field::Length(n) | Field::Count(n) => p[at..at + n].copy_from_slice(&tail.to_le_bytes()[..n]),
                Field::Bits => {
                    let bits = (8 * tail).saturating_sub(r.below(8)).min(0xFFFF) as u16;
                    p[at..at + 2].copy_from_slice(&bits.to_le_bytes());
                }
                Field::Text => p[at..].iter_mut().for_each(|b| *b = 0x20 + *b % 0x5F),
                Field::TailAfter(first) => {
                    if r.below(2) == 0 {
                        p[0] = first;
                    }
                }
            }
            at += f.width();
        }
    }

    /// Copies with an edge value in the fixed part, with a bit turned, with a byte cut out, and with a byte put in.
    pub fn damaged(&self, p: &[u8], r: &mut Chance) -> [Vec<u8>; 4] {
        let [mut edge, mut turned, mut less, mut more] = [p.to_vec(), p.to_vec(), p.to_vec(), p.to_vec()];
        let at = r.below(p.len().min(self.least + 4));
        edge[at] = EDGES[r.below(EDGES.len())];
        let at = r.below(p.len());
        turned[at] ^= 1 << r.below(8);
        less.remove(at);
        more.insert(at, r.byte());
        [edge, turned, less, more]
    }
}
