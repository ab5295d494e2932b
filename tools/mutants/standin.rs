//! A stand-in for libosdp.a: the six C calls, answered by the comparison's own models. MUTANT=NUMBER in the environment makes it wrong in the
//! one way that wrong.rs or frames.rs describes under that number.
use judge::frame;
use judge::kinds::Side;
use judge::read::normalised;
use std::sync::LazyLock;
use wrong::{all, frames, Call, Mutant, Place, Wrong};

static MUTANT: LazyLock<Option<Mutant>> = LazyLock::new(|| {
    let number = std::env::var("MUTANT").ok()?.parse().expect("MUTANT is a number");
    Some(all().into_iter().nth(number).expect("a mutant has this number"))
});

/// Changes the call, if the mutant does so at this stage and for this code byte, or for this call on frames.
fn change(stage: fn(&Wrong) -> Option<fn(&mut Call)>, asked: Place, c: &mut Call) {
    if let Some(m) = MUTANT.as_ref().filter(|m| m.everywhere || m.place == asked) {
        if let Some(f) = stage(&m.wrong) {
            c.row = m.row;
            f(c);
        }
    }
}

fn write(c: &mut Call) {
    c.returned = match &c.answer {
        Err(row) => -i32::from(*row),
        Ok(_) if c.out.is_none() => 0,
        Ok(form) if c.room < form.len() => -15,
        Ok(form) => {
            unsafe { std::ptr::copy_nonoverlapping(form.as_ptr(), c.out.expect("a buffer"), form.len()) };
            form.len() as i32
        }
    };
}

fn slice<'a>(at: *const u8, len: usize) -> &'a [u8] {
    if len == 0 { &[] } else { unsafe { std::slice::from_raw_parts(at, len) } }
}

/// What the mutant does before, with and after the model's answer, and between these the answer and the writing.
fn answered(asked: Place, c: &mut Call, model: fn(&Call) -> Result<Vec<u8>, u8>) -> i32 {
    change(|w| if let Wrong::Ask(f) = w { Some(*f) } else { None }, asked, c);
    c.answer = model(c);
    change(|w| if let Wrong::Answer(f) = w { Some(*f) } else { None }, asked, c);
    write(c);
    change(|w| if let Wrong::After(f) = w { Some(*f) } else { None }, asked, c);
    c.returned
}

fn call(side: Side, code: u8, at: *const u8, len: usize, out: Option<*mut u8>, room: usize) -> i32 {
    let mut c = Call::new(side, code, at, slice(at, len), out, room);
    answered(Place::Code(side, code), &mut c, |c| normalised(c.side, c.code, c.p).map_err(|e| e.row))
}

#[no_mangle]
pub extern "C" fn osdp_check_command(code: u8, payload: *const u8, payload_len: usize) -> i32 {
    call(Side::Command, code, payload, payload_len, None, 0)
}

#[no_mangle]
pub extern "C" fn osdp_check_reply(code: u8, payload: *const u8, payload_len: usize) -> i32 {
    call(Side::Reply, code, payload, payload_len, None, 0)
}

#[no_mangle]
pub extern "C" fn osdp_normalise_command(code: u8, payload: *const u8, payload_len: usize, out: *mut u8, out_len: usize) -> i32 {
    call(Side::Command, code, payload, payload_len, Some(out), out_len)
}

#[no_mangle]
pub extern "C" fn osdp_normalise_reply(code: u8, payload: *const u8, payload_len: usize, out: *mut u8, out_len: usize) -> i32 {
    call(Side::Reply, code, payload, payload_len, Some(out), out_len)
}

#[no_mangle]
pub extern "C" fn osdp_check_frame(at: *const u8, len: usize) -> i32 {
    let mut c = Call::new(Side::Command, 0, at, slice(at, len), None, 0);
    answered(frames::READ, &mut c, |c| frame::read(c.p).map(|_| Vec::new()).map_err(|e| e.row))
}

#[no_mangle]
pub extern "C" fn osdp_write_frame(
    address: u8,
    reply: u8,
    sequence: u8,
    crc: u8,
    code: u8,
    payload: *const u8,
    payload_len: usize,
    out: *mut u8,
    room: usize,
) -> i32 {
    let side = Side::BOTH[usize::from(reply != 0)];
    let mut c = Call::new(side, code, payload, slice(payload, payload_len), Some(out), room);
    c.head = frames::Head { address, reply, sequence, crc };
    answered(frames::WRITE, &mut c, |c| frame::write(&c.frame(), c.p).map_err(|e| e.row))
}
