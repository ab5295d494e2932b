//! The kinds of tools/kinds.txt, whose head describes the columns. A line that is not a kind stops the program.
use std::sync::LazyLock;

/// The longest payload that the calls by code byte take.
pub const LONGEST: usize = 65_546;

#[derive(Clone, Copy, PartialEq, Eq)]
pub enum Side {
    Command = 0,
    Reply = 1,
}

impl Side {
    pub const BOTH: [Side; 2] = [Side::Command, Side::Reply];

    pub fn name(self) -> &'static str {
        ["command", "reply"][self as usize]
    }

    pub fn named(name: &str) -> Option<Side> {
        Side::BOTH.into_iter().find(|s| s.name() == name)
    }
}

#[derive(Clone, Copy)]
pub enum Field {
    /// So many bytes of any value.
    Any(usize),
    /// A byte in a range; every other is refused.
    Code(u8, u8),
    /// A byte up to this one; a higher one is read as 0.
    Folded(u8),
    /// A byte of any value; the original's writer refuses one above this.
    Address(u8),
    /// How many bytes the tail has, in a number of so many bytes; not a field of the record.
    Length(usize),
    /// How many bytes the tail has, in a number of so many bytes; a field of the record.
    Count(usize),
    /// How many bits the tail has, in a number of two bytes; a field of the record.
    Bits,
    Text,
    Tail,
    /// A tail that is cut off if the payload's first byte is not this one.
    TailAfter(u8),
}

impl Field {
    fn parse(s: &str) -> Option<Field> {
        let byte = |hex| u8::from_str_radix(hex, 16).ok();
        Some(match s {
            "len8" => Field::Length(1),
            "len16" => Field::Length(2),
            "count8" => Field::Count(1),
            "bits16" => Field::Bits,
            "text" => Field::Text,
            "tail" => Field::Tail,
            _ => match (s.strip_prefix("<="), s.strip_prefix('~'), s.strip_prefix("tail:"), s.split_once('-')) {
                (Some(high), ..) => Field::Folded(byte(high)?),
                (_, Some(high), ..) => Field::Address(byte(high)?),
                (.., Some(first), _) => Field::TailAfter(byte(first)?),
                (.., Some((low, high))) => Field::Code(byte(low)?, byte(high)?),
                _ => Field::Any(s.parse().ok()?),
            },
        })
    }

    /// How many bytes of the field are before the tail.
    pub fn width(self) -> usize {
        match self {
            Field::Any(n) | Field::Length(n) | Field::Count(n) => n,
            Field::Code(..) | Field::Folded(_) | Field::Address(_) => 1,
            Field::Bits => 2,
            Field::Text | Field::Tail | Field::TailAfter(_) => 0,
        }
    }

    /// The highest number that a field for the tail's length can have.
    pub fn highest(self) -> Option<usize> {
        match self {
            Field::Length(_) | Field::Count(_) | Field::Bits => Some((1 << (8 * self.width())) - 1),
            _ => None,
        }
    }

    /// How many bytes the tail has, if this field has the number n.
    pub fn tail(self, n: usize) -> usize {
        if let Field::Bits = self { n.div_ceil(8) } else { n }
    }

    /// The most bytes that this field lets the tail have.
    fn most_tail(self) -> Option<usize> {
        match self {
            Field::Text | Field::Tail | Field::TailAfter(_) => Some(LONGEST),
            _ => Some(self.tail(self.highest()?)),
        }
    }
}

pub struct Kind {
    pub name: &'static str,
    pub side: Side,
    pub code: u8,
    pub least: usize,
    pub most: usize,
    pub step: usize,
    pub rows: Vec<usize>,
    pub fields: Vec<Field>,
    pub timed: Vec<usize>,
}

impl Kind {
    fn parse(line: &'static str) -> Result<Kind, &'static str> {
        let columns: Vec<&str> = line.split_ascii_whitespace().collect();
        let [name, side, code, least, most, step, rows, layout, _, timed] = columns[..] else { return Err("not ten columns") };
        let number = |s: &str| s.parse::<usize>().map_err(|_| "no number where one has to be");
        let numbers = |s: &str| s.split(',').map(number).collect::<Result<Vec<_>, _>>();
        let k = Kind {
            name,
            side: Side::named(side).ok_or("the side is command or reply")?,
            code: u8::from_str_radix(code, 16).map_err(|_| "the code is a byte in hex")?,
            least: number(least)?,
            most: number(most)?,
            step: number(step)?,
            rows: numbers(rows)?,
            fields: layout.split(',').map(Field::parse).collect::<Option<_>>().ok_or("an unknown field in the layout")?,
            timed: numbers(timed)?,
        };
        if k.lengths() != (k.least, k.most) {
            return Err("least, most and step are not what the layout makes");
        }
        if k.address().is_some() && !k.is_address_and_bytes() {
            return Err("beside an address there are only bytes of any value");
        }
        Ok(k)
    }

    /// The least and the greatest length, by the layout.
    fn lengths(&self) -> (usize, usize) {
        let least = self.fields.iter().map(|f| f.width()).sum();
        let tail = self.fields.iter().filter_map(|f| f.most_tail()).min().unwrap_or(0);
        let most = match self.step {
            1 => LONGEST.min(least + tail),
            n if n == least => LONGEST - LONGEST % n,
            _ => 0,
        };
        (least, most)
    }

    /// The fields with their offsets; for a list, in each record.
    fn places(&self) -> impl Iterator<Item = (usize, Field)> + '_ {
        let mut end = 0;
        self.fields.iter().map(move |&f| {
            end += f.width();
            (end - f.width(), f)
        })
    }

    /// Offsets of the bytes that are folded, each with the highest value that is not; for a list, the offsets in each record.
    pub fn limits(&self) -> impl Iterator<Item = (usize, u8)> + '_ {
        self.places().filter_map(|(at, f)| if let Field::Folded(highest) = f { Some((at, highest)) } else { None })
    }

    /// Offsets of the bytes of which some values are refused, each with the highest value that is not; for a list, the offsets in each record.
    pub fn codes(&self) -> impl Iterator<Item = (usize, u8)> + '_ {
        self.places().filter_map(|(at, f)| if let Field::Code(_, highest) = f { Some((at, highest)) } else { None })
    }

    /// The offset of the address, and the highest that the original writes.
    pub fn address(&self) -> Option<(usize, u8)> {
        self.places().find_map(|(at, f)| if let Field::Address(highest) = f { Some((at, highest)) } else { None })
    }

    /// Whether the payload is one address and bytes of any value, so that the fields of a record are the bytes of its payload.
    fn is_address_and_bytes(&self) -> bool {
        let others = self.fields.iter().filter(|f| !matches!(f, Field::Any(_)));
        self.step == 1 && others.count() == 1
    }

    /// The name of what this repository writes and the original refuses to write.
    pub fn difference(&self) -> Option<String> {
        self.address().map(|(_, highest)| format!("{} address above {highest:02X}", self.name))
    }

    /// The first byte that a payload has to have if its tail is not to be cut off.
    pub fn kept_after(&self) -> Option<u8> {
        self.fields.iter().find_map(|f| if let Field::TailAfter(first) = *f { Some(first) } else { None })
    }

    /// The field for the tail's length, and its offset.
    pub fn declared(&self) -> Option<(usize, Field)> {
        self.places().find(|(_, f)| f.highest().is_some())
    }

    /// How many bytes a payload has to have in all, by its field for the tail's length. None if the kind has none, or the payload is too short for it.
    pub fn asked(&self, payload: &[u8]) -> Option<usize> {
        let (at, field) = self.declared()?;
        let bytes = payload.get(at..at + field.width())?;
        let number = bytes.iter().rev().fold(0, |n, &b| 256 * n + usize::from(b));
        Some(self.least + field.tail(number))
    }

    /// Whether normalising can change a payload.
    pub fn can_change(&self) -> bool {
        self.kept_after().is_some() || self.limits().next().is_some()
    }
}

pub static KINDS: LazyLock<Vec<Kind>> = LazyLock::new(|| {
    let parsed = |(number, line)| Kind::parse(line).unwrap_or_else(|why| panic!("tools/kinds.txt, line {number}: {why}"));
    crate::lines(include_str!("../kinds.txt")).map(parsed).collect()
});

/// None if no carried kind has the code.
pub fn kind(side: Side, code: u8) -> Option<&'static Kind> {
    KINDS.iter().find(|k| k.side == side && k.code == code)
}
