//! The frames of a serial line's stream of bytes: a plain model, written from R12.6 of docs/REQUIREMENTS.md.
use crate::frame::{read, Frame, FIRST, HEAD, MOST};
use crate::refusal::Refusal;

/// What a stream has at a place.
#[derive(Clone, Copy, PartialEq, Eq)]
pub enum Scanned {
    /// A frame that is accepted, and its length.
    Read(Frame, usize),
    /// A frame that is refused, and how many bytes to pass over.
    Damaged(Refusal, usize),
    /// How many bytes to pass over, none of them the first byte of a frame.
    Other(usize),
    /// How many bytes have to be there.
    More(usize),
}

fn to_next_first(s: &[u8]) -> usize {
    s.iter().position(|b| *b == FIRST).unwrap_or(s.len())
}

/// The least frame, or what the length field says if it is there.
fn needed(s: &[u8]) -> usize {
    if s.len() < HEAD + 1 { HEAD + 1 } else { usize::from(u16::from_le_bytes([s[2], s[3]])) }
}

/// The stream's bytes from the place on; `ended` says that no more will come.
pub fn scan(s: &[u8], ended: bool) -> Scanned {
    let needed = needed(s);
    match s.first() {
        None => return Scanned::More(needed),
        Some(&FIRST) => {}
        Some(_) => return Scanned::Other(to_next_first(s)),
    }
    let answer = if needed > MOST {
        Err(Refusal { row: 22, code: 0, first: 0, second: 0 })
    } else if s.len() < needed && !ended {
        return Scanned::More(needed);
    } else {
        read(&s[..needed.min(s.len())])
    };
    match answer {
        Ok((frame, _)) => Scanned::Read(frame, needed),
        Err(e) => Scanned::Damaged(e, 1 + to_next_first(&s[1..])),
    }
}

/// Every step through a stream, up to its end or to the first place where more bytes have to be there. An empty stream is looked at once. Stops if a
/// step passes over nothing.
pub fn steps(stream: &[u8], ended: bool) -> Vec<Scanned> {
    let (mut rest, mut steps) = (stream, Vec::new());
    while steps.is_empty() || !rest.is_empty() {
        let step = scan(rest, ended);
        steps.push(step);
        let n = match step {
            Scanned::More(_) => break,
            Scanned::Read(_, n) | Scanned::Damaged(_, n) | Scanned::Other(n) => n,
        };
        assert!(n > 0, "a step passes over nothing");
        rest = &rest[n..];
    }
    steps
}
