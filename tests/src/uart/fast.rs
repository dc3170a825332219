//! The serial line's rules tuned for speed, without allocation, with the C
//! boundary of include/grelfint.h: the benchmark's second yardstick, after
//! plain.rs. `serial` compares it with the reference.
use super::plain::sound;
use grelfint::raw::{LengthAnswer, ReceiveAnswer, Receiver};
use std::slice::{from_raw_parts, from_raw_parts_mut};

const FLAG: u8 = 0x7E;
const ESCAPE: u8 = 0x7D;
const ESCAPE_BIT: u8 = 0x20;

/// Bytes that are copied, or added to a check byte, at once.
const BLOCK: usize = 16;

/// Row k has, for each byte, the CRC from 0 of that byte and k zeros: the bytes of a block do not wait for each other.
static CRC: [[u8; 256]; BLOCK] = crc_table();

const fn crc_table() -> [[u8; 256]; BLOCK] {
    let mut table = [[0; 256]; BLOCK];
    let mut byte = 0;
    while byte < 256 {
        let mut crc = byte as u8;
        let mut bit = 0;
        while bit < 8 {
            crc = if crc & 1 == 1 { crc >> 1 ^ 0x8C } else { crc >> 1 };
            bit += 1;
        }
        table[0][byte] = crc;
        byte += 1;
    }
    let mut row = 1;
    while row < BLOCK {
        let mut byte = 0;
        while byte < 256 {
            table[row][byte] = table[0][table[row - 1][byte] as usize];
            byte += 1;
        }
        row += 1;
    }
    table
}

/// The check byte of a message; 0 for a message that is followed by its check byte.
#[inline]
fn check_byte(bytes: &[u8]) -> u8 {
    let blocks = bytes.chunks_exact(BLOCK);
    let rest = blocks.remainder();
    let mut crc = 0xFF;
    for block in blocks {
        let mut sum = CRC[BLOCK - 1][(crc ^ block[0]) as usize];
        for k in 1..BLOCK {
            sum ^= CRC[BLOCK - 1 - k][block[k] as usize];
        }
        crc = sum;
    }
    for &byte in rest {
        crc = CRC[0][(crc ^ byte) as usize];
    }
    crc
}

/// A flag or an escape.
#[inline]
fn is_special(byte: u8) -> bool {
    byte.wrapping_sub(ESCAPE) < 2
}

/// Without a branch, so that the compiler can use vectors.
#[inline]
fn has_special(block: &[u8; BLOCK]) -> bool {
    block.iter().fold(false, |found, &byte| found | (byte == FLAG) | (byte == ESCAPE))
}

// ---- receiver ----
/// # Safety
/// The pointer and the length are a slice.
#[inline(never)]
pub unsafe extern "C" fn receive(mut receiver: Receiver, bytes: *const u8, bytes_length: usize) -> ReceiveAnswer {
    let bytes = from_raw_parts(bytes, bytes_length);
    if !sound(&receiver) {
        return ReceiveAnswer { refusal: 1, ..ReceiveAnswer::zeros(receiver) };
    }
    let mut from = 0;
    if receiver.phase == 0 {
        let Some(first) = bytes.iter().position(|&byte| byte == FLAG) else { return used_up(receiver, bytes) };
        (receiver.phase, from) = (1, first + 1);
    }
    let room = if receiver.limit == 64 { 65 } else { 63 };
    let mut frame = OpenFrame { count: receiver.count as usize, room, bytes: &mut receiver.bytes };
    let stop = frame.read(receiver.phase, bytes, from);
    (receiver.phase, receiver.count) = (stop.phase, frame.count as u8);
    if stop.flag {
        at_flag(receiver, stop.taken)
    } else {
        used_up(receiver, bytes)
    }
}

#[inline]
fn used_up(receiver: Receiver, bytes: &[u8]) -> ReceiveAnswer {
    ReceiveAnswer { taken: bytes.len(), ..ReceiveAnswer::zeros(receiver) }
}

/// The answer at a flag that ends a frame.
#[inline]
fn at_flag(before: Receiver, taken: usize) -> ReceiveAnswer {
    let count = before.count as usize;
    let mut answer =
        ReceiveAnswer { event: 2, taken, ..ReceiveAnswer::zeros(Receiver { phase: 1, count: 0, ..before }) };
    answer.cause = if before.count > before.limit + 1 {
        1
    } else if before.phase == 2 {
        2
    } else if count < 7 {
        3
    } else if check_byte(&before.bytes[..count]) != 0 {
        4
    } else {
        answer.event = 1;
        answer.length = count - 1;
        answer.frame[..count - 1].copy_from_slice(&before.bytes[..count - 1]);
        0
    };
    answer
}

/// Why reading stopped: at a flag that ends a frame, or because the bytes are used up.
struct Stop {
    flag: bool,
    /// Before the flag.
    phase: u8,
    taken: usize,
}

/// The frame that is being received. Bytes from `room` on are only counted, up to `room + 1`.
struct OpenFrame<'a> {
    bytes: &'a mut [u8; 65],
    count: usize,
    room: usize,
}

impl OpenFrame<'_> {
    #[inline(always)]
    fn store(&mut self, byte: u8) {
        if self.count < self.room {
            self.bytes[self.count] = byte;
            self.count += 1;
        } else {
            self.count = self.room + 1;
        }
    }

    /// Stores plain blocks up to a block that has a flag or an escape, or that may not fit. Returns where that one starts.
    #[inline(always)]
    fn store_blocks(&mut self, bytes: &[u8], mut i: usize) -> usize {
        while let Some(block) = bytes[i..].first_chunk() {
            let place = self.bytes.get_mut(self.count..self.room).and_then(|free| free.first_chunk_mut());
            let Some(place) = place.filter(|_| !has_special(block)) else { break };
            *place = *block;
            self.count += BLOCK;
            i += BLOCK;
        }
        i
    }

    /// Reads from `i` on, in phase 1 or 2.
    #[inline(always)]
    fn read(&mut self, phase: u8, bytes: &[u8], mut i: usize) -> Stop {
        if phase == 2 {
            match after_escape(bytes, i) {
                Ok(byte) => self.store(byte),
                Err(stop) => return stop,
            }
            i += 1;
        }
        loop {
            i = self.store_blocks(bytes, i);
            let end = bytes.len().min(i + BLOCK);
            if i >= end {
                return Stop { flag: false, phase: 1, taken: i };
            }
            while i < end {
                let mut byte = bytes[i];
                i += 1;
                if is_special(byte) {
                    if byte == FLAG {
                        if self.count == 0 {
                            continue;
                        }
                        return Stop { flag: true, phase: 1, taken: i };
                    }
                    byte = match after_escape(bytes, i) {
                        Ok(byte) => byte,
                        Err(stop) => return stop,
                    };
                    i += 1;
                }
                self.store(byte);
            }
        }
    }
}

#[inline(always)]
fn after_escape(bytes: &[u8], i: usize) -> Result<u8, Stop> {
    match bytes.get(i) {
        None => Err(Stop { flag: false, phase: 2, taken: i }),
        Some(&FLAG) => Err(Stop { flag: true, phase: 2, taken: i + 1 }),
        Some(&byte) => Ok(byte ^ ESCAPE_BIT),
    }
}

// ---- sender ----
/// # Safety
/// Each pointer and length is a slice; the output does not overlap the message.
#[inline(never)]
pub unsafe extern "C" fn frame(
    message: *const u8,
    message_length: usize,
    out: *mut u8,
    out_length: usize,
) -> LengthAnswer {
    let (message, out) = (from_raw_parts(message, message_length), from_raw_parts_mut(out, out_length));
    if message.len() < 6 || message.len() > 64 {
        return LengthAnswer { refusal: 2, length: 0 };
    }
    let check = check_byte(message);
    let in_message: u8 = message.iter().map(|&byte| is_special(byte) as u8).sum();
    let escapes = in_message as usize + is_special(check) as usize;
    let length = message.len() + 3 + escapes;
    let Some(line) = out.get_mut(..length) else { return LengthAnswer { refusal: 11, length: 0 } };
    line[0] = FLAG;
    line[length - 1] = FLAG;
    if escapes == 0 {
        line[1..=message.len()].copy_from_slice(message);
        line[length - 2] = check;
    } else {
        write_escaped(message, check, &mut line[1..]);
    }
    LengthAnswer { refusal: 0, length }
}

#[inline]
fn write_escaped(message: &[u8], check: u8, line: &mut [u8]) {
    let mut at = 0;
    let mut put = |byte| {
        if is_special(byte) {
            line[at] = ESCAPE;
            line[at + 1] = byte ^ ESCAPE_BIT;
            at += 2;
        } else {
            line[at] = byte;
            at += 1;
        }
    };
    message.iter().for_each(|&byte| put(byte));
    put(check);
}
