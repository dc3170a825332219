//! The serial line's rules in ordinary Rust without allocation: byte by byte,
//! with one table for the check byte, and with the C boundary of
//! include/grelfint.h. It is the benchmark's yardstick beside fast.rs, which is
//! tuned for speed. `serial` compares it with the reference.
use super::reference::{CUT, ESCAPE, ESCAPE_BIT, FLAG, FRAMED, LONGEST, SHORT, SHORTEST, TOO_LONG, WRONG_CHECK_BYTE};
use grelfint::raw::{LengthAnswer, ReceiveAnswer, Receiver};
use std::slice::{from_raw_parts, from_raw_parts_mut, Iter};

/// For each byte, the CRC from 0 of that byte.
static CRC: [u8; 256] = crc_table();

const fn crc_table() -> [u8; 256] {
    let mut table = [0; 256];
    let mut byte = 0;
    while byte < 256 {
        let mut crc = byte as u8;
        let mut bit = 0;
        while bit < 8 {
            crc = if crc & 1 == 1 { crc >> 1 ^ 0x8C } else { crc >> 1 };
            bit += 1;
        }
        table[byte] = crc;
        byte += 1;
    }
    table
}

/// The CRC of no byte.
const CRC_START: usize = 0xFF;

/// The CRC after one more byte. It is kept as wide as an index: the sender is quicker so than with a byte.
fn crc_after(crc: usize, byte: u8) -> usize {
    CRC[crc ^ byte as usize] as usize
}

// ---- receiver ----
#[inline(never)]
pub extern "C" fn receiver(gateway: bool) -> Receiver {
    Receiver { limit: if gateway { 64 } else { 62 }, phase: 0, count: 0, bytes: [0; 65] }
}

#[inline]
pub fn sound(r: &Receiver) -> bool {
    matches!(r.limit, 62 | 64) && r.phase <= 2 && r.count <= r.limit + 2 && (r.phase != 0 || r.count == 0)
}

/// # Safety
/// The pointer and the length are a slice.
#[inline(never)]
pub unsafe extern "C" fn receive(mut receiver: Receiver, bytes: *const u8, bytes_length: usize) -> ReceiveAnswer {
    let bytes = from_raw_parts(bytes, bytes_length);
    if !sound(&receiver) {
        return ReceiveAnswer { refusal: 1, ..ReceiveAnswer::zeros(receiver) };
    }
    let mut line = bytes.iter();
    let ended = in_frame(&mut receiver, &mut line) && take(&mut receiver, &mut line);
    let taken = bytes.len() - line.len();
    if ended {
        at_flag(receiver, taken)
    } else {
        ReceiveAnswer { taken, ..ReceiveAnswer::zeros(receiver) }
    }
}

/// Skips the bytes up to the first flag. False if it has not come.
fn in_frame(r: &mut Receiver, line: &mut Iter<u8>) -> bool {
    if r.phase == 0 && line.any(|&byte| byte == FLAG) {
        r.phase = 1;
    }
    r.phase != 0
}

/// Takes bytes up to a flag that ends a frame. False if the bytes are used up before.
fn take(r: &mut Receiver, line: &mut Iter<u8>) -> bool {
    let room = r.limit as usize + 1;
    let mut count = r.count as usize;
    let mut escaped = r.phase == 2;
    let mut ended = false;
    for &byte in line {
        if byte == FLAG {
            if count > 0 || escaped {
                ended = true;
                break;
            }
        } else if byte == ESCAPE && !escaped {
            escaped = true;
        } else {
            if count < room {
                r.bytes[count] = if escaped { byte ^ ESCAPE_BIT } else { byte };
                count += 1;
            } else {
                count = room + 1;
            }
            escaped = false;
        }
    }
    (r.phase, r.count) = (if escaped { 2 } else { 1 }, count as u8);
    ended
}

/// The answer at a flag that ends a frame.
fn at_flag(r: Receiver, taken: usize) -> ReceiveAnswer {
    let mut answer = ReceiveAnswer { taken, ..ReceiveAnswer::zeros(Receiver { phase: 1, count: 0, ..r }) };
    match message(&r) {
        Ok(message) => {
            answer.event = 1;
            answer.length = message.len();
            answer.frame[..message.len()].copy_from_slice(message);
        }
        Err(cause) => {
            answer.event = 2;
            answer.cause = cause;
        }
    }
    answer
}

/// The message of a frame that ends, or the cause of its drop. The CRC is computed here: the record has no place for it,
/// so that one that runs in `take` would start again from the first byte in each call.
fn message(r: &Receiver) -> Result<&[u8], u8> {
    if r.count > r.limit + 1 {
        return Err(TOO_LONG);
    }
    if r.phase == 2 {
        return Err(CUT);
    }
    let frame = &r.bytes[..r.count as usize];
    if frame.len() < SHORTEST + 1 {
        return Err(SHORT);
    }
    // 0 after a message and its check byte
    if frame.iter().fold(CRC_START, |crc, &byte| crc_after(crc, byte)) != 0 {
        return Err(WRONG_CHECK_BYTE);
    }
    Ok(&frame[..frame.len() - 1])
}

// ---- sender ----
/// # Safety
/// Each pointer and length is a slice; the output does not overlap the message.
#[inline(never)]
pub unsafe extern "C" fn frame(
    message: *const u8,
    message_length: usize,
    out: *mut u8,
    out_length: usize,
) -> LengthAnswer {
    let (message, out) = (from_raw_parts(message, message_length), from_raw_parts_mut(out, out_length));
    if !(SHORTEST..=LONGEST).contains(&message.len()) {
        return LengthAnswer { refusal: 2, length: 0 };
    }
    let mut line = Line { bytes: [0; FRAMED], length: 0 };
    let mut crc = CRC_START;
    line.put(FLAG);
    for &byte in message {
        crc = crc_after(crc, byte);
        line.put_escaped(byte);
    }
    line.put_escaped(crc as u8);
    line.put(FLAG);
    let Some(place) = out.get_mut(..line.length) else { return LengthAnswer { refusal: 11, length: 0 } };
    place.copy_from_slice(&line.bytes[..line.length]);
    LengthAnswer { refusal: 0, length: line.length }
}

/// A framed message, before it is known whether it fits.
struct Line {
    bytes: [u8; FRAMED],
    length: usize,
}

impl Line {
    fn put(&mut self, byte: u8) {
        self.bytes[self.length] = byte;
        self.length += 1;
    }

    fn put_escaped(&mut self, byte: u8) {
        if byte == FLAG || byte == ESCAPE {
            self.put(ESCAPE);
            self.put(byte ^ ESCAPE_BIT);
        } else {
            self.put(byte);
        }
    }
}
