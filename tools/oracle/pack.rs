//! Cases with their answers in the vector format, which crates/vectors/README.md describes.
use crate::answer::{names, Answer, Case};
use judge::frame::{Frame, HEAD, MOST, READ_ROWS, WRITE_ROWS};
use judge::kinds::{Field, Kind, KINDS};
use judge::refusal::{Refusal, DECLARED_LENGTH};
use judge::scan::Scanned;
use std::borrow::Cow;
use std::cmp::Ordering::{self, Greater, Less};
use std::collections::{BTreeMap, BTreeSet};
use std::ops::RangeInclusive;

pub const END: u8 = 255;
/// Frames that are read, and frames that are written.
const FRAME: u8 = 15;
const FRAME_WRITE: u8 = 16;
/// The steps of a stream, by what they are.
const READ: u8 = 0;
const DAMAGED: u8 = 1;
const OTHER: u8 = 2;
const MORE: u8 = 3;
/// Which calls a payload is for.
const ALL: usize = 0;
const BY_CODE: usize = 1;
const OF_KIND: usize = 2;
/// From here on all calls; the number less this is the place of a colour, for which strict refuses the payload to the first generation by row 18.
const NEW_COLOUR: usize = 3;
/// Up to this many bytes are stored as they are.
const SHORT: usize = 64;

/// One byte below 255, or 255 and then eight bytes.
fn number(out: &mut Vec<u8>, n: usize) {
    match u8::try_from(n) {
        Ok(b @ 0..=254) => out.push(b),
        _ => {
            out.push(255);
            out.extend((n as u64).to_le_bytes());
        }
    }
}

/// How many bytes are stored, and the byte that each of the rest is.
fn cut(bytes: &[u8]) -> (usize, u8) {
    match bytes.last() {
        Some(&last) if bytes.len() > SHORT => (bytes.iter().rposition(|&b| b != last).map_or(0, |at| at + 1), last),
        _ => (bytes.len(), 0),
    }
}

/// One case. The refusal's code byte is the case's.
fn put(out: &mut Vec<u8>, class: u8, code: u8, argument: usize, input: &[u8], e: Refusal, output: &[u8]) {
    assert!(e.code == code, "the refusal has another code byte");
    let (stored, fill) = cut(input);
    let (stored_out, fill_out) = cut(output);
    out.extend([class, code, e.row, fill, fill_out]);
    for n in [argument, e.first, e.second, stored, input.len() - stored, stored_out, output.len() - stored_out] {
        number(out, n);
    }
    out.extend(&input[..stored]);
    out.extend(&output[..stored_out]);
}

/// The bytes that a record's fixed fields and tail make; the length field is not among the fixed fields.
fn joined(kind: &Kind, fixed: &[u8], tail: &[u8]) -> Vec<u8> {
    let wide = kind.fields.iter().find_map(|f| if let Field::Length(n) = *f { Some(n) } else { None }).unwrap_or(0);
    [fixed, &tail.len().to_le_bytes()[..wide], tail].concat()
}

/// What occurred: the number of cases, cases by class and row, and by class and code those that are accepted and those that the original refuses to
/// write; of frames that are accepted the class, whether it is a reply, and whether it has a CRC; payloads with row 18 for the first generation alone,
/// which are counted by the row that the second is given; of row 6 class and code, what was asked for, and whether less or more came; and the steps
/// of streams, by what they are, and by the row or by how many bytes have to be there.
#[derive(Default)]
pub struct Tally {
    cases: usize,
    rows: BTreeMap<(u8, u8), usize>,
    accepted: BTreeMap<(u8, u8), usize>,
    differing: BTreeMap<(u8, u8), usize>,
    framed: BTreeSet<(u8, bool, bool)>,
    new_colours: usize,
    lengths: BTreeSet<(u8, u8, usize, Ordering)>,
    steps: BTreeMap<(u8, usize), usize>,
}

fn code_of_table(which: usize, byte: u8) -> u8 {
    [byte, byte, 0x69, 0x73, 0x73, 0x68, 0x6B, 0x41][which]
}

/// Of the answer to a frame: the refusal's code byte, or the frame's.
fn code_of_frame(answer: &Answer) -> u8 {
    match answer {
        Answer::Refused(e) => e.code,
        Answer::Framed(frame, _) => frame.code,
        _ => panic!("no answer to a frame"),
    }
}

/// What a frame says, without its code.
fn fields(frame: &Frame) -> [u8; 4] {
    [frame.address, frame.reply.into(), frame.sequence, frame.crc.into()]
}

/// What a step is counted by, and its bytes.
fn step(scanned: &Scanned) -> ((u8, usize), Vec<u8>) {
    let low_first = |n: usize| u32::try_from(n).expect("a number of four bytes").to_le_bytes();
    let (what, by, n, said) = match *scanned {
        Scanned::Read(frame, n) => (READ, 0, n, [&fields(&frame)[..], &[frame.code]].concat()),
        Scanned::Damaged(e, n) => (DAMAGED, e.row.into(), n, [&[e.row, e.code][..], &low_first(e.first), &low_first(e.second)].concat()),
        Scanned::Other(n) => (OTHER, 0, n, Vec::new()),
        Scanned::More(n) => (MORE, n, n, Vec::new()),
    };
    ((what, by), [&[what][..], &low_first(n), &said].concat())
}

/// The place that row 18 names, if strict refuses the payload to the first generation alone.
fn new_colour(answer: &Answer, payload: &[u8]) -> Option<usize> {
    match answer {
        Answer::Read { kind, strict: second, first: Some(e), .. } if *second != Some(*e) => {
            assert!((e.row, e.code, e.second) == (18, kind.code, payload[e.first].into()), "the first generation's refusal is not row 18");
            Some(e.first)
        }
        Answer::Read { strict, first, .. } => {
            assert!(strict == first, "the first generation takes what the second does not");
            None
        }
        _ => None,
    }
}

/// Class, code, argument and input.
fn asked<'a>(case: &'a Case, answer: &Answer, row: u8) -> (u8, u8, usize, Cow<'a, [u8]>) {
    match case {
        Case::Table(which, b) => (0, code_of_table(*which, *b), *which, Cow::Owned(vec![*b])),
        Case::Guard(which, n, code, data) => (1 + *which as u8, *code, *n, data.into()),
        Case::Payload { side, of_kind, code, payload } => {
            let calls = match new_colour(answer, payload) {
                _ if *of_kind => OF_KIND,
                Some(place) => NEW_COLOUR + place,
                None if [1, 2, 14, 28].contains(&row) => BY_CODE,
                None => ALL,
            };
            (5 + *side as u8, *code, calls, payload.into())
        }
        Case::Write { side, code, fixed, tail } => (7 + *side as u8, *code, fixed.len(), [&fixed[..], tail].concat().into()),
        Case::Bits(count, data) => (9, 0x50, usize::from(*count), data.into()),
        Case::Record { code, k, payload } => (10, *code, *k, payload.into()),
        Case::Walk { place: None, payload } => (11, 0x69, 0, payload.into()),
        Case::Walk { place: Some(at), payload } => (12, 0x69, *at, payload.into()),
        Case::ReadAt { place, payload } => (13, 0x68, *place, payload.into()),
        Case::WriteAt { code, place, fixed, .. } => (14, *code, *place, fixed.into()),
        Case::Frame(bytes) => (FRAME, code_of_frame(answer), 0, bytes.into()),
        Case::FrameWrite { frame, payload } => (FRAME_WRITE, frame.code, 0, [&fields(frame)[..], payload].concat().into()),
        Case::Checks(start, bytes) => (17, 0, usize::from(*start), bytes.into()),
        Case::Stream { ended, bytes } => (18, 0, usize::from(*ended), bytes.into()),
    }
}

pub fn pack(out: &mut Vec<u8>, tally: &mut Tally, case: &Case, answer: &Answer) {
    let (refused, output, differs): (Option<Refusal>, Cow<[u8]>, bool) = match answer {
        Answer::Refused(e) => (Some(*e), Cow::default(), false),
        Answer::Passed => (None, Cow::default(), false),
        Answer::Gave(bytes) => (None, bytes.into(), false),
        Answer::Wrote(w) => (None, (&w.bytes).into(), w.difference.is_some()),
        Answer::Read { wrote: w, strict, .. } => (*strict, (&w.bytes).into(), w.difference.is_some()),
        Answer::Framed(frame, payload) => (None, [&fields(frame)[..], &[frame.code], payload].concat().into(), false),
        Answer::Steps(steps) => (None, tally.stepped(steps).into(), false),
    };
    let (class, code, argument, input) = asked(case, answer, refused.map_or(0, |e| e.row));
    let mut e = refused.unwrap_or(Refusal { row: 0, code, first: 0, second: 0 });
    if let (Case::WriteAt { room, .. }, 0) = (case, e.row) {
        e.second = *room;
    }
    if let Answer::Read { kind, parts, wrote, .. } = answer {
        assert!(wrote.bytes == joined(kind, &parts.fixed, &parts.tail), "the bytes written are not the fields and the tail");
    }
    put(out, class, code, argument, &input, e, &output);
    tally.count(class, code, e.row, differs);
    if matches!(case, Case::Payload { .. }) && argument >= NEW_COLOUR {
        tally.new_colours += 1;
    }
    if e.row == DECLARED_LENGTH {
        tally.lengths.insert((class, code, e.first, e.second.cmp(&e.first)));
    }
    if let (Case::Frame(_), Answer::Framed(frame, _)) | (Case::FrameWrite { frame, .. }, Answer::Gave(_)) = (case, answer) {
        tally.framed.insert((class, frame.reply, frame.crc));
    }
}

impl Tally {
    fn count(&mut self, class: u8, code: u8, row: u8, differs: bool) {
        self.cases += 1;
        *self.rows.entry((class, row)).or_default() += 1;
        if row == 0 || row == 17 {
            *self.accepted.entry((class, code)).or_default() += 1;
        }
        if differs {
            *self.differing.entry((class, code)).or_default() += 1;
        }
    }

    /// Counts the steps of a stream, and gives their bytes.
    fn stepped(&mut self, steps: &[Scanned]) -> Vec<u8> {
        let mut bytes = Vec::new();
        for (counted, said) in steps.iter().map(step) {
            *self.steps.entry(counted).or_default() += 1;
            bytes.extend(said);
        }
        bytes
    }

    /// The end of a stream: how many cases come before it.
    pub fn end(&self, out: &mut Vec<u8>) {
        put(out, END, 0, self.cases, &[], Refusal { row: 0, code: 0, first: 0, second: 0 }, &[]);
    }

    /// Says how often each difference occurred, and answers with what never did.
    fn differences(&self) -> Vec<String> {
        let mut lacking = Vec::new();
        for (k, name) in KINDS.iter().filter_map(|k| Some((k, k.difference()?))) {
            let [again, by_hand] = [5, 7].map(|class| self.differing.get(&(class + k.side as u8, k.code)).copied().unwrap_or(0));
            eprintln!("{name}, which the original refuses to write: {again} normalised, {by_hand} written");
            lacking.extend((again == 0).then(|| format!("{name} normalised")));
            lacking.extend((by_hand == 0).then(|| format!("{name} written")));
        }
        lacking
    }

    /// How many steps there were that are counted by a number of these.
    fn times(&self, what: u8, by: RangeInclusive<usize>) -> usize {
        self.steps.range((what, *by.start())..=(what, *by.end())).map(|(_, n)| n).sum()
    }

    /// How often each step of a stream occurred, if there were streams.
    fn by_step(&self) -> String {
        let [read, other, more] = [READ, OTHER, MORE].map(|what| self.times(what, 0..=MOST));
        let rows: Vec<String> = self.steps.range((DAMAGED, 0)..(OTHER, 0)).map(|((_, row), n)| format!("{row}: {n}")).collect();
        let steps = format!("; steps of streams: {read} read, {other} other, {more} more, damaged by row {}", rows.join(", "));
        if self.steps.is_empty() { String::new() } else { steps }
    }

    /// Says how many cases there were, and how often each row occurred, which it returns.
    fn by_row(&self) -> BTreeMap<u8, usize> {
        let mut rows = BTreeMap::new();
        for (&(_, row), n) in &self.rows {
            *rows.entry(row).or_default() += n;
        }
        let said: Vec<String> = rows.iter().map(|(row, n)| format!("{row}: {n}")).collect();
        let new = self.new_colours;
        let first = if new > 0 { format!("; row 18 for the first generation: {new}") } else { String::new() };
        eprintln!("{} cases; by row, 0 for none: {}{first}{}", self.cases, said.join(", "), self.by_step());
        rows
    }

    /// What row 6 never said of a kind with a length or a count: more than asked for, where that is no tail, the longest, or one between; and less, where
    /// that is the longest or one between.
    fn lengths_lacking(&self) -> Vec<String> {
        let mut lacking = Vec::new();
        for (k, (_, field)) in KINDS.iter().filter_map(|k| Some((k, k.declared()?))) {
            let (least, most) = (k.least, k.least + field.tail(field.highest().expect("a field for a length")));
            let class = 5 + k.side as u8;
            let mut has = |what: &str, from: usize, to: usize, got: Ordering| {
                let found = (from..=to).any(|asked| self.lengths.contains(&(class, k.code, asked, got)));
                lacking.extend((!found).then(|| format!("row 6 of {} with {what}", k.name)));
            };
            has("no tail asked for", least, least, Greater);
            has("less than a tail asked for", least + 1, most - 1, Less);
            has("more than a tail asked for", least + 1, most - 1, Greater);
            has("less than the longest tail asked for", most, most, Less);
            has("more than the longest tail asked for", most, most, Greater);
        }
        lacking
    }

    /// The refusals of the reader and of the writer of frames that never occurred, and the sides and checks that were never read or written.
    fn frames_lacking(&self) -> Vec<String> {
        let mut lacking = Vec::new();
        for (class, what, rows) in [(FRAME, "read", &READ_ROWS[..]), (FRAME_WRITE, "written", &WRITE_ROWS)] {
            let never = |row: &&u8| !self.rows.contains_key(&(class, **row));
            lacking.extend(rows.iter().filter(never).map(|row| format!("row {row} of a frame to be {what}")));
            for (reply, crc) in [(false, false), (false, true), (true, false), (true, true)] {
                let (side, check) = names(reply, crc);
                lacking.extend((!self.framed.contains(&(class, reply, crc))).then(|| format!("frame of a {side} with {check} {what}")));
            }
        }
        for (what, order) in [("less", Less), ("more", Greater)] {
            let found = self.lengths.iter().any(|&(class, .., got)| (class, got) == (FRAME, order));
            lacking.extend((!found).then(|| format!("row 6 of a frame with {what} than its length field asks for")));
        }
        lacking
    }

    /// The steps of a stream that never occurred.
    fn steps_lacking(&self) -> Vec<String> {
        let rows = READ_ROWS.map(usize::from).map(|row| (DAMAGED, row..=row, format!("row {row} in a stream")));
        let others = [
            (READ, 0..=0, "frame read in a stream"),
            (OTHER, 0..=0, "other bytes in a stream"),
            (MORE, HEAD + 1..=HEAD + 1, "head to be waited for"),
            (MORE, HEAD + 2..=MOST, "frame to be waited for"),
        ];
        let all = rows.into_iter().chain(others.map(|(what, by, name)| (what, by, name.to_string())));
        all.filter(|(what, by, _)| self.times(*what, by.clone()) == 0).map(|(.., name)| name).collect()
    }

    /// Says what occurred, and returns whether each row and each difference occurred, each kind was read and written, frames were, and each step of a
    /// stream occurred.
    pub fn report(&self) -> bool {
        let rows = self.by_row();
        let mut lacking: Vec<String> =
            (1..=17).chain([20, 21, 22, 28]).filter(|r| !rows.contains_key(r)).map(|r| format!("row {r}")).collect();
        for (class, what) in [(5, "read"), (7, "written")] {
            let never = |k: &&Kind| !self.accepted.contains_key(&(class + k.side as u8, k.code));
            lacking.extend(KINDS.iter().filter(never).map(|k| format!("{} {what}", k.name)));
        }
        lacking.extend((self.new_colours == 0).then(|| "row 18".to_string()));
        lacking.extend(self.lengths_lacking());
        lacking.extend(self.frames_lacking());
        lacking.extend(self.steps_lacking());
        lacking.extend(self.differences());
        is_none(&lacking)
    }

    /// The same of a stream that has only frames.
    pub fn report_of_frames(&self) -> bool {
        self.by_row();
        is_none(&self.frames_lacking())
    }

    /// The same of a stream that has only streams of lines.
    pub fn report_of_streams(&self) -> bool {
        self.by_row();
        is_none(&self.steps_lacking())
    }
}

/// Says what never occurred, if there is any.
fn is_none(lacking: &[String]) -> bool {
    if !lacking.is_empty() {
        eprintln!("never: {}", lacking.join(", "));
    }
    lacking.is_empty()
}
