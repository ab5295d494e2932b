//! Reads a payload by its code byte: the original's answer, the two numbers of row 6, which its error lacks, and rows 14 and 28, for which it has no
//! counterpart. What has to be written is the original's answer as well, except where it refuses an address.
use crate::kinds::{kind, Kind, Side, LONGEST};
use crate::refusal::{refusal, Refusal, DECLARED_LENGTH};
use osdp::command::{Command, CommandCode};
use osdp::error::Error;
use osdp::reply::{Reply, ReplyCode};

pub enum Record {
    Command(Command),
    Reply(Reply),
}

/// What has to be written.
pub struct Written {
    pub bytes: Vec<u8>,
    /// The name of the difference, if the original refuses to write this.
    pub difference: Option<String>,
}

impl Record {
    fn original(&self) -> Result<Vec<u8>, Error> {
        match self {
            Record::Command(c) => c.encode_data(),
            Record::Reply(r) => r.encode_data(),
        }
    }

    /// The original alone.
    pub fn encode(&self) -> Result<Vec<u8>, Refusal> {
        self.original().map_err(refusal)
    }

    /// `fields` are looked at only if the kind has an address; they are all bytes of its payload then. Stops if the original writes an address that
    /// it has to refuse, or refuses another one.
    pub fn written(&self, k: &Kind, fields: &[u8]) -> Result<Written, Refusal> {
        let too_high = k.address().filter(|&(at, highest)| fields[at] > highest).map(|(at, _)| fields[at]);
        match (self.original(), too_high) {
            (Ok(bytes), None) => Ok(Written { bytes, difference: None }),
            (Err(e), None) => Err(refusal(e)),
            (Err(Error::BadAddress(b)), Some(address)) if b == address => Ok(Written { bytes: fields.to_vec(), difference: k.difference() }),
            (answer, Some(address)) => panic!("{} with address {address:02X}: the original answers {answer:?}", k.name),
        }
    }
}

/// Rows 14 and 28, for a code of the table.
fn added(side: Side, code: u8, len: usize) -> Result<(), Refusal> {
    match kind(side, code) {
        None => Err(Refusal { row: 14, code, first: 0, second: 0 }),
        Some(_) if len > LONGEST => Err(Refusal { row: 28, code, first: LONGEST, second: len }),
        Some(_) => Ok(()),
    }
}

/// The original's answer, with the two numbers that its row 6 lacks: what the payload's field asks for in all, by kinds.txt, and what came. Stops if
/// they do not go with the answer.
fn with_lengths(k: &Kind, p: &[u8], answer: Result<Record, Refusal>) -> Result<Record, Refusal> {
    let got = p.len();
    let asked = k.asked(p).unwrap_or(got);
    match &answer {
        Ok(_) => assert!(asked == got, "{}: its field asks for {asked} bytes, and the original reads {got}", k.name),
        Err(e) if e.row == DECLARED_LENGTH => {
            assert!(asked != got, "{}: its field asks for {asked} bytes, and the original refuses them by row 6", k.name);
            return Err(Refusal { first: asked, second: got, ..*e });
        }
        Err(_) => {}
    }
    answer
}

/// Like a kind's own calls, without a limit on the payload's length.
pub fn read_of_kind(side: Side, code: u8, p: &[u8]) -> Result<Record, Refusal> {
    let answer = match side {
        Side::Command => CommandCode::from_byte(code).and_then(|c| Command::decode(c, p)).map(Record::Command),
        Side::Reply => ReplyCode::from_byte(code).and_then(|c| Reply::decode(c, p)).map(Record::Reply),
    }
    .map_err(refusal);
    match kind(side, code) {
        Some(k) => with_lengths(k, p, answer),
        None => answer,
    }
}

pub fn read(side: Side, code: u8, p: &[u8]) -> Result<Record, Refusal> {
    match side {
        Side::Command => CommandCode::from_byte(code).map(drop),
        Side::Reply => ReplyCode::from_byte(code).map(drop),
    }
    .map_err(refusal)?;
    added(side, code, p.len())?;
    read_of_kind(side, code, p)
}

/// What normalising has to write.
pub fn normal_form(side: Side, code: u8, p: &[u8]) -> Result<Written, Refusal> {
    read(side, code, p)?.written(kind(side, code).expect("a carried kind"), p)
}

/// The bytes of that alone.
pub fn normalised(side: Side, code: u8, p: &[u8]) -> Result<Vec<u8>, Refusal> {
    normal_form(side, code, p).map(|w| w.bytes)
}
