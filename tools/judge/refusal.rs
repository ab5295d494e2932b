//! Rows of the refusal table (R7 of docs/REQUIREMENTS.md) for the errors of the original, with the numbers that these have.
use osdp::error::Error;
use std::sync::LazyLock;

#[derive(Clone, Copy, PartialEq, Eq)]
pub struct Refusal {
    pub row: u8,
    pub code: u8,
    pub first: usize,
    pub second: usize,
}

/// The row for a length or count that does not fit. Its two numbers are not the original's (read.rs).
pub const DECLARED_LENGTH: u8 = 6;

static REASONS: LazyLock<Vec<(&str, u8)>> = LazyLock::new(|| {
    let parsed = |(number, line): (usize, &'static str)| match line.split_once(' ') {
        Some((row, reason)) if row.parse::<u8>().is_ok() => (reason, row.parse().expect("a number")),
        _ => panic!("tools/reasons.txt, line {number}: not a row and a reason"),
    };
    crate::lines(include_str!("../reasons.txt")).map(parsed).collect()
});

pub fn refusal(e: Error) -> Refusal {
    let (row, code, first, second) = match e {
        Error::UnknownCommand(c) => (1, c, 0, 0),
        Error::UnknownReply(c) => (2, c, 0, 0),
        Error::PayloadLength { code, expected, got } => (3, code, expected, got),
        Error::PayloadTooShort { code, min, got } => (4, code, min, got),
        Error::PayloadNotMultiple { code, block, got } => (5, code, block, got),
        Error::MalformedPayload { code, reason } => match REASONS.iter().find(|r| r.0 == reason) {
            Some(&(_, row)) => (row, code, 0, 0),
            None => panic!("tools/reasons.txt has no row for {reason:?}"),
        },
        other => panic!("no row for {other:?}"),
    };
    Refusal { row, code, first, second }
}
