//! Records of the original, taken apart and made: the fixed fields in the order of the Rust struct, each number little-endian, and the tail.
use judge::kinds::Side;
use judge::read::Record;
use osdp::command::{self as cmd, led::LedColor, led::LedRecord, output::OutputRecord, Command};
use osdp::reply::{self as rep, Reply};

pub struct Parts {
    pub fixed: Vec<u8>,
    pub tail: Vec<u8>,
}

fn parts(fixed: Vec<u8>, tail: &[u8]) -> Option<Parts> {
    Some(Parts { fixed, tail: tail.to_vec() })
}

pub fn led_bytes(r: &LedRecord) -> Vec<u8> {
    let (t, p) = (&r.temporary, &r.permanent);
    let mut v = vec![r.reader, r.led, t.control, t.on_time, t.off_time, t.on_color.as_byte(), t.off_color.as_byte()];
    v.extend(t.timer.to_le_bytes());
    v.extend([p.control, p.on_time, p.off_time, p.on_color.as_byte(), p.off_color.as_byte()]);
    v
}

pub fn output_bytes(r: &OutputRecord) -> Vec<u8> {
    [&[r.output, r.code.as_byte()][..], &r.timer.to_le_bytes()].concat()
}

/// None: not one of the carried kinds.
pub fn parts_of(r: &Record) -> Option<Parts> {
    match r {
        Record::Command(c) => of_command(c),
        Record::Reply(r) => of_reply(r),
    }
}

fn of_command(c: &Command) -> Option<Parts> {
    match c {
        Command::Led(l) => parts(l.records.iter().flat_map(led_bytes).collect(), &[]),
        Command::Output(o) => parts(o.records.iter().flat_map(output_bytes).collect(), &[]),
        Command::Text(t) => parts(vec![t.reader, t.command.as_byte(), t.temp_time_s, t.row, t.column], &t.text),
        Command::BioRead(b) => parts(vec![b.reader, b.bio_type.as_byte(), b.bio_format.as_byte(), b.quality], &[]),
        Command::BioMatch(b) => parts(vec![b.reader, b.bio_type.as_byte(), b.bio_format.as_byte(), b.quality], &b.template),
        Command::FileTransfer(f) => parts([&[f.file_type][..], &f.total_size.to_le_bytes(), &f.offset.to_le_bytes()].concat(), &f.fragment),
        Command::Mfg(m) => parts(m.oui.to_vec(), &m.payload),
        Command::ComSet(c) => parts([&[c.address][..], &c.baud.to_le_bytes()].concat(), &[]),
        Command::AcuRxSize(a) => parts(a.max_size.to_le_bytes().to_vec(), &[]),
        Command::KeepActive(k) => parts(k.duration_ms.to_le_bytes().to_vec(), &[]),
        _ => None,
    }
}

fn of_reply(r: &Reply) -> Option<Parts> {
    match r {
        Reply::Raw(x) => parts([&[x.reader, x.format_code][..], &x.bit_count.to_le_bytes()].concat(), &x.bits),
        Reply::Fmt(x) => parts(vec![x.reader, x.direction, x.char_count], &x.chars),
        Reply::BioReadR(b) => parts(vec![b.reader, b.bio_type.as_byte(), b.bio_format.as_byte(), b.quality], &b.data),
        Reply::BioMatchR(b) => parts(vec![b.reader, b.result, b.score], &[]),
        Reply::Nak(n) => parts(vec![n.error.as_byte()], &n.completion_codes),
        Reply::Xrd(x) => parts(vec![x.mode], &x.payload),
        Reply::Keypad(k) => parts(vec![k.reader, k.digit_count], &k.digits),
        Reply::Com(c) => parts([&[c.address][..], &c.baud.to_le_bytes()].concat(), &[]),
        Reply::PdId(p) => parts([&p.vendor_oui[..], &[p.model, p.version], &p.serial.to_le_bytes(), &p.firmware].concat(), &[]),
        Reply::LStatR(l) => parts(vec![l.tamper, l.power], &[]),
        _ => None,
    }
}

fn colour(b: u8) -> Option<LedColor> {
    (b < 8).then(|| LedColor::from_byte(b))
}

fn led_record(r: &[u8]) -> Option<LedRecord> {
    Some(LedRecord {
        reader: r[0],
        led: r[1],
        temporary: cmd::LedTemporary {
            control: r[2],
            on_time: r[3],
            off_time: r[4],
            on_color: colour(r[5])?,
            off_color: colour(r[6])?,
            timer: u16::from_le_bytes([r[7], r[8]]),
        },
        permanent: cmd::LedPermanent { control: r[9], on_time: r[10], off_time: r[11], on_color: colour(r[12])?, off_color: colour(r[13])? },
    })
}

fn output_record(r: &[u8]) -> Option<OutputRecord> {
    Some(OutputRecord { output: r[0], code: cmd::OutputControlCode::from_byte(r[1]).ok()?, timer: u16::from_le_bytes([r[2], r[3]]) })
}

fn bio_head(f: &[u8]) -> Option<(u8, cmd::BioType, cmd::BioFormat, u8)> {
    (f.len() == 4 && f[1] <= 0x11 && f[2] <= 2).then(|| (f[0], cmd::BioType::from_byte(f[1]), cmd::BioFormat::from_byte(f[2]), f[3]))
}

fn u16_of(f: &[u8]) -> Option<u16> {
    Some(u16::from_le_bytes(f.try_into().ok()?))
}

fn u32_of(f: &[u8]) -> Option<u32> {
    Some(u32::from_le_bytes(f.try_into().ok()?))
}

/// None: no record of the original has these fields (a byte that no code has, a wrong number of bytes).
pub fn record_of(side: Side, code: u8, fixed: &[u8], tail: Vec<u8>) -> Option<Record> {
    match side {
        Side::Command => to_command(code, fixed, tail).map(Record::Command),
        Side::Reply => to_reply(code, fixed, tail).map(Record::Reply),
    }
}

fn to_command(code: u8, f: &[u8], tail: Vec<u8>) -> Option<Command> {
    Some(match code {
        0x69 if f.len() % 14 == 0 && tail.is_empty() => {
            Command::Led(cmd::LedControl::new(f.chunks_exact(14).map(led_record).collect::<Option<_>>()?))
        }
        0x68 if f.len() % 4 == 0 && tail.is_empty() => {
            Command::Output(cmd::OutputControl::new(f.chunks_exact(4).map(output_record).collect::<Option<_>>()?))
        }
        0x6B if f.len() == 5 => Command::Text(cmd::Text {
            reader: f[0],
            command: cmd::TextCommand::from_byte(f[1]).ok()?,
            temp_time_s: f[2],
            row: f[3],
            column: f[4],
            text: tail,
        }),
        0x73 if tail.is_empty() => {
            let (reader, bio_type, bio_format, quality) = bio_head(f)?;
            Command::BioRead(cmd::BioRead { reader, bio_type, bio_format, quality })
        }
        0x74 => {
            let (reader, bio_type, bio_format, quality) = bio_head(f)?;
            Command::BioMatch(cmd::BioMatch { reader, bio_type, bio_format, quality, template: tail })
        }
        0x7C if f.len() == 9 => Command::FileTransfer(cmd::FileTransfer {
            file_type: f[0],
            total_size: u32_of(&f[1..5])?,
            offset: u32_of(&f[5..])?,
            fragment: tail,
        }),
        0x80 if f.len() == 3 => Command::Mfg(cmd::Mfg { oui: [f[0], f[1], f[2]], payload: tail }),
        0x6E if f.len() == 5 && tail.is_empty() => Command::ComSet(cmd::ComSet { address: f[0], baud: u32_of(&f[1..])? }),
        0x7B if tail.is_empty() => Command::AcuRxSize(cmd::AcuRxSize { max_size: u16_of(f)? }),
        0xA7 if tail.is_empty() => Command::KeepActive(cmd::KeepActive { duration_ms: u16_of(f)? }),
        _ => return None,
    })
}

fn to_reply(code: u8, f: &[u8], tail: Vec<u8>) -> Option<Reply> {
    Some(match code {
        0x50 if f.len() == 4 => Reply::Raw(rep::Raw { reader: f[0], format_code: f[1], bit_count: u16::from_le_bytes([f[2], f[3]]), bits: tail }),
        0x51 if f.len() == 3 => Reply::Fmt(rep::Fmt { reader: f[0], direction: f[1], char_count: f[2], chars: tail }),
        0x57 => {
            let (reader, bio_type, bio_format, quality) = bio_head(f)?;
            Reply::BioReadR(rep::BioReadR { reader, bio_type, bio_format, quality, data: tail })
        }
        0x58 if f.len() == 3 && tail.is_empty() => Reply::BioMatchR(rep::BioMatchR { reader: f[0], result: f[1], score: f[2] }),
        0x41 if f.len() == 1 => Reply::Nak(rep::Nak { error: rep::NakErrorCode::from_byte(f[0]).ok()?, completion_codes: tail }),
        0xB1 if f.len() == 1 => Reply::Xrd(rep::Xrd { mode: f[0], payload: tail }),
        0x53 if f.len() == 2 => Reply::Keypad(rep::Keypad { reader: f[0], digit_count: f[1], digits: tail }),
        0x54 if f.len() == 5 && tail.is_empty() => Reply::Com(rep::Com { address: f[0], baud: u32_of(&f[1..])? }),
        0x45 if f.len() == 12 && tail.is_empty() => Reply::PdId(rep::PdId {
            vendor_oui: [f[0], f[1], f[2]],
            model: f[3],
            version: f[4],
            serial: u32_of(&f[5..9])?,
            firmware: [f[9], f[10], f[11]],
        }),
        0x48 if f.len() == 2 && tail.is_empty() => Reply::LStatR(rep::LStatR { tamper: f[0], power: f[1] }),
        _ => return None,
    })
}
