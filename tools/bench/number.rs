//! A record of the original, and a frame, as the number that crates/bench_read answers with: see number.rt, list.rt, exact.rt and frames.rt there.
use judge::frame::Frame;
use osdp::command::{self as cmd, led::LedRecord, output::OutputRecord};
use osdp::reply as rep;

fn sum<const N: usize>(fields: [u8; N]) -> u64 {
    fields.into_iter().map(u64::from).sum()
}

fn answer(n: u64) -> i32 {
    (n.wrapping_add(n >> 31) & 0x7FFF_FFFF) as i32
}

fn tailed(n: u64, tail: &[u8]) -> i32 {
    answer(n + tail.len() as u64 + u64::from(tail.last().copied().unwrap_or(0)))
}

fn listed<R>(records: &[R], number: fn(&R) -> u64) -> i32 {
    answer(records.len() as u64 + records.iter().map(number).sum::<u64>())
}

fn led(r: &LedRecord) -> u64 {
    let (t, p) = (&r.temporary, &r.permanent);
    let temporary = sum([t.control, t.on_time, t.off_time, t.on_color.as_byte(), t.off_color.as_byte()]);
    let permanent = sum([p.control, p.on_time, p.off_time, p.on_color.as_byte(), p.off_color.as_byte()]);
    sum([r.reader, r.led]) + temporary + u64::from(t.timer) + permanent
}

fn output(r: &OutputRecord) -> u64 {
    sum([r.output, r.code.as_byte()]) + u64::from(r.timer)
}

fn head(reader: u8, bio_type: cmd::BioType, bio_format: cmd::BioFormat, quality: u8) -> u64 {
    sum([reader, bio_type.as_byte(), bio_format.as_byte(), quality])
}

pub fn frame_number(r: &Frame, payload: &[u8]) -> i32 {
    tailed(sum([r.address, u8::from(r.reply), r.sequence, u8::from(r.crc), r.code]), payload)
}

pub trait Number {
    fn number(&self) -> i32;
}

macro_rules! number {
    ($($T:ty: |$r:ident| $number:expr;)*) => {
        $(impl Number for $T {
            fn number(&self) -> i32 {
                let $r = self;
                $number
            }
        })*
    };
}

number! {
    cmd::LedControl: |l| listed(&l.records, led);
    cmd::OutputControl: |o| listed(&o.records, output);
    cmd::Text: |t| tailed(sum([t.reader, t.command.as_byte(), t.temp_time_s, t.row, t.column]), &t.text);
    cmd::BioRead: |b| answer(head(b.reader, b.bio_type, b.bio_format, b.quality));
    cmd::BioMatch: |b| tailed(head(b.reader, b.bio_type, b.bio_format, b.quality), &b.template);
    cmd::FileTransfer: |f| tailed(sum([f.file_type]) + u64::from(f.total_size) + u64::from(f.offset), &f.fragment);
    cmd::Mfg: |m| tailed(sum(m.oui), &m.payload);
    rep::Raw: |x| tailed(sum([x.reader, x.format_code]) + u64::from(x.bit_count), &x.bits);
    rep::Fmt: |x| tailed(sum([x.reader, x.direction, x.char_count]), &x.chars);
    rep::BioReadR: |b| tailed(head(b.reader, b.bio_type, b.bio_format, b.quality), &b.data);
    rep::BioMatchR: |b| answer(sum([b.reader, b.result, b.score]));
    rep::Nak: |n| tailed(sum([n.error.as_byte()]), &n.completion_codes);
    rep::Xrd: |x| tailed(sum([x.mode]), &x.payload);
    rep::Keypad: |k| tailed(sum([k.reader, k.digit_count]), &k.digits);
    cmd::ComSet: |c| answer(sum([c.address]) + u64::from(c.baud));
    rep::Com: |c| answer(sum([c.address]) + u64::from(c.baud));
    rep::PdId: |d| answer(sum(d.vendor_oui) + sum([d.model, d.version]) + u64::from(d.serial) + sum(d.firmware));
    rep::LStatR: |l| answer(sum([l.tamper, l.power]));
    cmd::AcuRxSize: |a| answer(u64::from(a.max_size));
    cmd::KeepActive: |k| answer(u64::from(k.duration_ms));
}
